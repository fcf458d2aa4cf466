/* A dict with an order of its keys: a change of one key goes straight to the dict and to the order. */
#include "speedups.h"

static int dict_traverse(DictBase *self, visitproc visit, void *arg) {
    Py_VISIT(self->order);
    return PyDict_Type.tp_traverse((PyObject *)self, visit, arg);
}

static int dict_clear(DictBase *self) {
    Py_CLEAR(self->order);
    return PyDict_Type.tp_clear((PyObject *)self);
}

static void dict_dealloc(DictBase *self) {
    PyObject_GC_UnTrack(self);
    Py_CLEAR(self->order);
    PyDict_Type.tp_dealloc((PyObject *)self);
}

/* Returns the order of the keys, as a new reference: it outlives the code that runs meanwhile. There is none before
 * `__init__`. */
static PyObject *order_of(DictBase *self) {
    if (self->order == NULL) PyErr_SetString(PyExc_RuntimeError, "the object was not made");
    Py_XINCREF(self->order);
    return self->order;
}

/* ---- one key */

/* Adds an absent key to the order. Returns 1, NOT_OWN, or -1 with an error set. */
static int add_key(PyObject *order, PyObject *key) {
    uint64_t code;
    if (Py_TYPE(order) != &NumbersType) return is_fresh(order) ? NOT_OWN : object_index_add(order, key, NULL);
    return number_code(((Numbers *)order)->kind, key, &code) ? numbers_add((Numbers *)order, key) : NOT_OWN;
}

/* Removes a key that is present. */
static int discard_key(PyObject *order, PyObject *key) {
    if (Py_TYPE(order) == &NumbersType) return numbers_discard((Numbers *)order, key);
    return object_index_discard(order, key);
}

/* Adds a key by `_order_keys` of the class, which finds the kind. */
static int order_key(DictBase *self, PyObject *key) {
    PyObject *keys = PyList_New(1);
    if (keys == NULL) return -1;
    Py_INCREF(key);
    PyList_SET_ITEM(keys, 0, key);
    PyObject *done = PyObject_CallMethodOneArg((PyObject *)self, names.order_keys, keys);
    Py_DECREF(keys);
    Py_XDECREF(done);
    return done == NULL ? -1 : 1;
}

static int add(DictBase *self, PyObject *key) {
    PyObject *order = order_of(self);
    int state = order ? add_key(order, key) : -1;
    Py_XDECREF(order);
    return state == NOT_OWN ? order_key(self, key) : state;
}

/* Returns the order of the keys, ready for changes: one that is due is replaced first. */
static PyObject *changing_order(DictBase *self) {
    PyObject *order = order_of(self);
    if (order == NULL || Py_TYPE(order) == &NumbersType || !IS_BLOCKS(order) || !blocks_is_due((Blocks *)order))
        return order;
    Py_DECREF(order);
    return PyObject_CallMethodNoArgs((PyObject *)self, names.settled);
}

/* Removes a key from the order; an error that is set stays set. */
static int discard(DictBase *self, PyObject *key) {
    PyObject *type, *value, *trace, *order;
    PyErr_Fetch(&type, &value, &trace);
    order = changing_order(self);
    int state = order ? discard_key(order, key) : -1;
    Py_XDECREF(order);
    if (type != NULL) PyErr_Restore(type, value, trace);
    return state;
}

static int set_value(DictBase *self, PyObject *key, PyObject *value) {
    int is_there = PyDict_Contains((PyObject *)self, key);
    if (is_there < 0 || (!is_there && add(self, key) < 0)) return -1;
    if (PyDict_SetItem((PyObject *)self, key, value) == 0) return 0;
    if (!is_there) discard(self, key);
    return -1;
}

static int delete (DictBase *self, PyObject *key) {
    int is_there = PyDict_Contains((PyObject *)self, key);
    if (is_there == 0) {
        PyObject *words = PyTuple_Pack(1, key);
        PyErr_SetObject(PyExc_KeyError, words);
        Py_XDECREF(words);
    }
    if (is_there < 1 || discard(self, key) < 0) return -1;
    return PyDict_DelItem((PyObject *)self, key);
}

static int assign(DictBase *self, PyObject *key, PyObject *value) {
    return value == NULL ? delete (self, key) : set_value(self, key, value);
}

static PyObject *walk(DictBase *self) {
    PyObject *order = order_of(self);
    PyObject *made = order ? walk_new(order, 0, PY_SSIZE_T_MAX, 0) : NULL;
    Py_XDECREF(order);
    return made;
}

/* ---- the type */

static int set_order(DictBase *self, PyObject *order, void *nothing) {
    (void)nothing;
    if (!is_order(order)) return -1;
    Py_INCREF(order);
    Py_XSETREF(self->order, order);
    return 0;
}

static PyObject *get_order(DictBase *self, void *nothing) {
    (void)nothing;
    return order_of(self);
}

static PyMethodDef methods[] = {{"__class_getitem__", Py_GenericAlias, METH_O | METH_CLASS, NULL}, {0}};
static PyGetSetDef properties[] = {{"_order", (getter)get_order, (setter)set_order, NULL, NULL}, {0}};
/* `in` and `[key]` are those of dict. A subclass inherits these slots from here, and calls them directly; from dict it
 * would look up the methods at each call. The module has the other slot from dict. */
static PyMappingMethods mapping = {.mp_ass_subscript = (objobjargproc)assign};
static PySequenceMethods sequence = {.sq_contains = PyDict_Contains};

PyTypeObject DictFrontType = {
    PyVarObject_HEAD_INIT(NULL, 0).tp_name = "indexset._speedups.DictBase",
    .tp_doc = "A dict with an order of its keys.",
    .tp_basicsize = sizeof(DictBase),
    .tp_flags = Py_TPFLAGS_DEFAULT | Py_TPFLAGS_BASETYPE | Py_TPFLAGS_HAVE_GC,
    .tp_dealloc = (destructor)dict_dealloc,
    .tp_traverse = (traverseproc)dict_traverse,
    .tp_clear = (inquiry)dict_clear,
    .tp_iter = (getiterfunc)walk,
    .tp_methods = methods,
    .tp_getset = properties,
    .tp_as_mapping = &mapping,
    .tp_as_sequence = &sequence,
};
