/* The codes of numbers, which are 64-bit numbers in the same order, and back. */
#include "speedups.h"

static uint64_t code_of_double(double number) {
    uint64_t bits;
    number += 0.0;
    memcpy(&bits, &number, sizeof bits);
    return bits & TOP ? ~bits : bits | TOP;
}

int number_code(enum kind kind, PyObject *value, uint64_t *code) {
    if (kind == FLOAT64) {
        if (!PyFloat_CheckExact(value) || PyFloat_AS_DOUBLE(value) != PyFloat_AS_DOUBLE(value)) return 0;
        *code = code_of_double(PyFloat_AS_DOUBLE(value));
        return 1;
    }
    if (!PyLong_CheckExact(value)) return 0;
    if (kind == INT64) {
        int overflow;
        *code = (uint64_t)PyLong_AsLongLongAndOverflow(value, &overflow) ^ TOP;
        return !overflow;
    }
    *code = PyLong_AsUnsignedLongLong(value);
    if (*code == UINT64_MAX && PyErr_Occurred()) {
        PyErr_Clear();
        return 0;
    }
    return 1;
}

enum kind kind_of_numbers(const char *name) { return name[0] == 'i' ? INT64 : name[0] == 'u' ? UINT64 : FLOAT64; }

#if PY_VERSION_HEX >= 0x030B0000 && PY_VERSION_HEX < 0x030C0000 && PYLONG_BITS_IN_DIGIT == 30
/* Returns an integer of two or three digits, which Python's own call makes by loops over them. */
static PyObject *integer(long long value) {
    uint64_t size = value < 0 ? 0 - (uint64_t)value : (uint64_t)value;
    if (size >> 30 == 0) return PyLong_FromLongLong(value);
    Py_ssize_t digits = size >> 60 ? 3 : 2;
    PyLongObject *made = _PyLong_New(digits);
    if (made == NULL) return NULL;
    made->ob_digit[0] = size & PyLong_MASK;
    made->ob_digit[1] = size >> 30 & PyLong_MASK;
    if (digits == 3) made->ob_digit[2] = (digit)(size >> 60);
    if (value < 0) Py_SET_SIZE(made, -digits);
    return (PyObject *)made;
}
#else
#define integer PyLong_FromLongLong
#endif

PyObject *number_of(enum kind kind, uint64_t code) {
    if (kind == INT64) return integer((long long)(code ^ TOP));
    if (kind == UINT64) return PyLong_FromUnsignedLongLong(code);
    uint64_t bits = code & TOP ? code & ~TOP : ~code;
    double number;
    memcpy(&number, &bits, sizeof number);
    return PyFloat_FromDouble(number);
}
