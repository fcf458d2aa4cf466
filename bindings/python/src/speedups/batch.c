/* Calls of a set of numbers on many of them at once. */
#include "speedups.h"

/* Allocates room for numbers; NULL with an error set. */
static uint64_t *room(size_t count) {
    uint64_t *made = count < PY_SSIZE_T_MAX / 8 ? PyMem_Malloc(8 * (count + 1)) : NULL;
    if (made == NULL) PyErr_NoMemory();
    return made;
}

/* Returns the codes of the items of a list or tuple, allocated, if all are of the kind's own type; otherwise NULL, with
 * an error set if memory ran out. */
static uint64_t *own_codes(Numbers *self, PyObject *values) {
    Py_ssize_t count = PySequence_Fast_GET_SIZE(values);
    PyObject **items = PySequence_Fast_ITEMS(values);
    uint64_t *codes = room((size_t)count);
    for (Py_ssize_t i = 0; codes != NULL && i < count; i++)
        if (!number_code(self->kind, items[i], codes + i)) {
            PyMem_Free(codes);
            codes = NULL;
        }
    return codes;
}

/* Returns the codes of values of any type, allocated, and their number; NULL with an error set. */
static uint64_t *asked_codes(Numbers *self, PyObject *values, size_t *count) {
    PyObject *array = PyObject_CallMethodObjArgs(kinds, names.codes_of, self->python, values, NULL);
    Py_buffer view;
    if (array == NULL || PyObject_GetBuffer(array, &view, PyBUF_SIMPLE) < 0) {
        Py_XDECREF(array);
        return NULL;
    }
    *count = (size_t)view.len / 8;
    uint64_t *codes = room(*count);
    if (codes != NULL) memcpy(codes, view.buf, (size_t)view.len);
    PyBuffer_Release(&view);
    Py_DECREF(array);
    return codes;
}

static int is_list(PyObject *values) { return PyList_CheckExact(values) || PyTuple_CheckExact(values); }

/* Returns the codes of values and their number; and the values themselves as an array, or NULL if they are not
 * stored. */
static uint64_t *codes_of(Numbers *self, PyObject *values, size_t *count, PyObject ***items) {
    uint64_t *codes = is_list(values) ? own_codes(self, values) : NULL;
    *items = NULL;
    if (codes == NULL) return PyErr_Occurred() ? NULL : asked_codes(self, values, count);
    *items = PySequence_Fast_ITEMS(values);
    *count = (size_t)PySequence_Fast_GET_SIZE(values);
    return codes;
}

/* A new number: its code, and the object that was given as it, or NULL. */
typedef struct {
    uint64_t code;
    PyObject *given;
} Fresh;

static int by_code(const void *a, const void *b) {
    uint64_t first = ((const Fresh *)a)->code, second = ((const Fresh *)b)->code;
    return (first > second) - (first < second);
}

/* Adds absent numbers in their order, which finds the nodes in the cache: all, or none with an error set. */
static int put_all(Numbers *self, Fresh *fresh, size_t count) {
    size_t done = 0;
    qsort(fresh, count, sizeof *fresh, by_code);
    while (done < count && numbers_put(self, fresh[done].code, fresh[done].given) >= 0) done++;
    if (done == count) return 1;
    while (done > 0) numbers_take_out(self, fresh[--done].code);
    return 0;
}

PyObject *numbers_take(Numbers *self, PyObject *values) {
    size_t count;
    PyObject **items;
    uint64_t *codes = codes_of(self, values, &count, &items);
    Fresh *fresh = codes ? PyMem_Malloc((count + 1) * sizeof *fresh) : NULL;
    for (size_t i = 0; fresh != NULL && i < count; i++) fresh[i] = (Fresh){codes[i], items ? items[i] : NULL};
    PyMem_Free(codes);
    int is_done = fresh != NULL && put_all(self, fresh, count);
    PyMem_Free(fresh);
    if (is_done) Py_RETURN_NONE;
    return PyErr_Occurred() ? NULL : PyErr_NoMemory();
}

/* Returns the number of values of a list before the first that is not of the kind's own type; -1 with an error set. */
static Py_ssize_t own_count(Numbers *self, PyObject *values) {
    uint64_t code;
    Py_ssize_t count = 0;
    if (!PyList_CheckExact(values)) {
        PyErr_SetString(PyExc_TypeError, "a list is needed");
        return -1;
    }
    while (count < PyList_GET_SIZE(values) && number_code(self->kind, PyList_GET_ITEM(values, count), &code)) count++;
    return count;
}

PyObject *numbers_are_own(Numbers *self, PyObject *values) {
    Py_ssize_t count = own_count(self, values);
    return count < 0 ? NULL : PyBool_FromLong(count == PyList_GET_SIZE(values));
}

/* Returns the keys of values: the list itself if all are of the kind's own type. */
PyObject *numbers_own(Numbers *self, PyObject *values) {
    uint64_t code;
    Py_ssize_t first = own_count(self, values);
    if (first < 0) return NULL;
    if (first == PyList_GET_SIZE(values)) {
        Py_INCREF(values);
        return values;
    }
    PyObject *made = PySequence_List(values);
    for (Py_ssize_t i = first; made != NULL && i < PyList_GET_SIZE(made); i++) {
        PyObject *value = PyList_GET_ITEM(made, i), *number = value;
        Py_INCREF(value);
        if (!number_code(self->kind, value, &code))
            number = numbers_asked(self, names.code, value, &code) == 1 ? number_of(self->kind, code) : NULL;
        if (number == value)
            Py_DECREF(value);
        else if (number == NULL || PyList_SetItem(made, i, number) < 0)
            Py_CLEAR(made);
        if (number != value) Py_DECREF(value);
    }
    return made;
}

PyObject *numbers_ranks(Numbers *self, PyObject *values) {
    size_t count;
    PyObject **items;
    uint64_t *codes = codes_of(self, values, &count, &items);
    if (codes == NULL) return NULL;
    for (size_t i = 0; i < count; i++) codes[i] = indexset_map_rank(&self->map, codes[i]);
    PyObject *bytes = PyBytes_FromStringAndSize((char *)codes, (Py_ssize_t)(8 * count));
    PyMem_Free(codes);
    PyObject *mask = bytes ? PyLong_FromLong(0) : NULL;
    PyObject *made = mask ? PyObject_CallMethodObjArgs(kinds, names.flipped, bytes, mask, NULL) : NULL;
    Py_XDECREF(bytes);
    Py_XDECREF(mask);
    return made;
}
