/* All numbers of an order, contiguous in memory. */
#include "speedups.h"

static enum kind kind_of(PyObject *owner) {
    if (Py_TYPE(owner) == &NumbersType) return ((Numbers *)owner)->kind;
    return IS_BLOCKS(owner) ? ((Blocks *)owner)->by : ((ObjectIndex *)owner)->kind;
}

/* Writes the number of a code. Both zeros have one code: for these the object is read. */
static uint64_t decoded(enum kind kind, uint64_t code, PyObject *object) {
    double number = 0;
    if (kind == UINT64) return code;
    if (kind == INT64 || code != TOP) return code & TOP || kind == INT64 ? code ^ TOP : ~code;
    if (object != NULL && PyFloat_CheckExact(object)) number = PyFloat_AS_DOUBLE(object);
    memcpy(&code, &number, sizeof code);
    return code;
}

static void write_part(PyObject *owner, const Part *part, uint64_t *to) {
    enum kind kind = kind_of(owner);
    for (size_t i = 0; i < part->count; i++) {
        uint64_t code = part->codes[i];
        if (Py_TYPE(owner) != &NumbersType && IS_BLOCKS(owner)) number_code(kind, OBJECT(part->objects[i]), &code);
        to[i] = decoded(kind, code, OBJECT(part->objects[i]));
    }
}

PyObject *numbers_method(PyObject *owner, PyObject *nothing) {
    (void)nothing;
    size_t length = length_of(owner);
    if (kind_of(owner) > FLOAT64) return PyErr_Format(PyExc_TypeError, "numbers are needed");
    PyObject *made = PyBytes_FromStringAndSize(NULL, (Py_ssize_t)(8 * length));
    Part part;
    for (size_t at = 0; made != NULL && at < length; at += part.count) {
        size_t left = length - at;
        read_part(owner, at, left < CHUNK ? left : CHUNK, &part);
        if (part.count == 0) { /* the bytes were made, and a `__del__` ran */
            Py_CLEAR(made);
            return PyErr_Format(PyExc_RuntimeError, "it changed meanwhile");
        }
        write_part(owner, &part, (uint64_t *)PyBytes_AS_STRING(made) + at);
    }
    return made;
}
