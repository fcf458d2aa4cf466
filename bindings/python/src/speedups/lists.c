/* Functions on lists of items. */
#include "speedups.h"

PyObject *are_alike(PyObject *nothing, PyObject *items) {
    (void)nothing;
    if (!PyList_CheckExact(items)) return PyErr_Format(PyExc_TypeError, "a list is needed");
    for (Py_ssize_t i = 1; i < PyList_GET_SIZE(items); i++)
        if (Py_TYPE(PyList_GET_ITEM(items, i)) != Py_TYPE(PyList_GET_ITEM(items, 0))) Py_RETURN_FALSE;
    Py_RETURN_TRUE;
}

/* Swaps two items of a list. */
static void swap(PyObject *items, Py_ssize_t one, Py_ssize_t other) {
    PyObject *item = PyList_GET_ITEM(items, one);
    PyList_SET_ITEM(items, one, PyList_GET_ITEM(items, other));
    PyList_SET_ITEM(items, other, item);
}

PyObject *keep(PyObject *nothing, PyObject *const *given, Py_ssize_t count) {
    (void)nothing;
    int is_in = count == 3 && PyList_CheckExact(given[0]) && PySet_Check(given[1]) ? PyObject_IsTrue(given[2]) : -1;
    if (is_in < 0) return PyErr_Format(PyExc_TypeError, "a list, a set and a bool are needed");
    Py_ssize_t kept = 0;
    for (Py_ssize_t i = 0; i < PyList_GET_SIZE(given[0]); i++) {
        int state = PySet_Contains(given[1], PyList_GET_ITEM(given[0], i));
        if (state < 0) return NULL;
        if (state == is_in && i < PyList_GET_SIZE(given[0])) swap(given[0], kept++, i);
    }
    if (PyList_SetSlice(given[0], kept, PY_SSIZE_T_MAX, NULL) < 0) return NULL;
    Py_RETURN_NONE;
}
