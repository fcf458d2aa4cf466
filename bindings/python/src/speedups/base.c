/* A collection over an order: its calls on one item go straight to the order. */
#include "speedups.h"

static int base_traverse(IndexedBase *self, visitproc visit, void *arg) {
    Py_VISIT(self->order);
    Py_VISIT(self->members);
    return 0;
}

static int base_clear(IndexedBase *self) {
    Py_CLEAR(self->order);
    Py_CLEAR(self->members);
    return 0;
}

static void base_dealloc(IndexedBase *self) {
    PyObject_GC_UnTrack(self);
    base_clear(self);
    Py_TYPE(self)->tp_free((PyObject *)self);
}

/* Returns whether there is an order; there is none before `__init__`. */
static int is_made(IndexedBase *self) {
    if (self->order == NULL) PyErr_SetString(PyExc_RuntimeError, "the object was not made");
    return self->order != NULL;
}

static int has_members(IndexedBase *self) { return self->members != NULL && PySet_Check(self->members); }

static Py_ssize_t base_length(IndexedBase *self) { return is_made(self) ? (Py_ssize_t)length_of(self->order) : -1; }

/* The container that is asked for a value outlives the code of its type that runs meanwhile. */
static int base_contains(IndexedBase *self, PyObject *value) {
    if (!is_made(self)) return -1;
    if (!has_members(self) && length_of(self->order) == 0) return 0;
    PyObject *asked = has_members(self) ? self->members : self->order;
    Py_INCREF(asked);
    int is_there = asked == self->members           ? PySequence_Contains(asked, value)
                   : Py_TYPE(asked) == &NumbersType ? numbers_contains((Numbers *)asked, value)
                                                    : object_index_contains(asked, value);
    Py_DECREF(asked);
    return is_there;
}

static PyObject *base_iter(IndexedBase *self) {
    Py_ssize_t length = base_length(self);
    return length < 0 ? NULL : walk_new(self->order, 0, (size_t)length, 0);
}

/* Returns the items at a slice; `_slice` of the class handles steps. */
static PyObject *slice(IndexedBase *self, PyObject *index) {
    Py_ssize_t first, past, step, length = base_length(self);
    if (length < 0 || PySlice_Unpack(index, &first, &past, &step) < 0) return NULL;
    if (step != 1) return PyObject_CallMethodOneArg((PyObject *)self, names.slice, index);
    PySlice_AdjustIndices(length, &first, &past, step);
    past = past < first ? first : past;
    return chunk_of(self->order, (size_t)first, (size_t)past);
}

static PyObject *base_subscript(IndexedBase *self, PyObject *index) {
    if (PySlice_Check(index)) return slice(self, index);
    Py_ssize_t position = PyNumber_AsSsize_t(index, PyExc_IndexError);
    if (position == -1 && PyErr_Occurred()) return NULL;
    if (position < 0) {
        Py_ssize_t length = base_length(self);
        if (length < 0) return NULL;
        position += length;
    }
    if (!is_made(self)) return NULL;
    int is_numbers = Py_TYPE(self->order) == &NumbersType;
    return is_numbers ? numbers_item((Numbers *)self->order, position) : object_index_item(self->order, position);
}

/* Adds a number of the kind's own type, also to the set of the items, if given. Returns 1, 0 if it is present, NOT_OWN,
 * or -1 with an error set. */
static int add_number(Numbers *order, PyObject *members, PyObject *value) {
    uint64_t code;
    if (!number_code(order->kind, value, &code)) return NOT_OWN;
    int state = join(members, value);
    return state == 1 ? joined(members, value, numbers_add(order, value)) : state;
}

int is_fresh(PyObject *order) {
    return Py_TYPE(order) != &NumbersType && IS_BLOCKS(order) && ((Blocks *)order)->length == 0;
}

/* `_add` of the class finds the kind, and handles equal items. */
static PyObject *add(IndexedBase *self, PyObject *value) {
    if (!is_made(self)) return NULL;
    /* They outlive the key function and the comparisons that run meanwhile. */
    PyObject *order = self->order, *members = has_members(self) ? self->members : NULL;
    Py_INCREF(order);
    Py_XINCREF(members);
    int is_numbers = Py_TYPE(order) == &NumbersType, may_repeat = members == NULL;
    int state = is_fresh(order) ? NOT_OWN
                : is_numbers    ? add_number((Numbers *)order, members, value)
                                : object_index_add(order, value, members);
    Py_DECREF(order);
    Py_XDECREF(members);
    if (state == NOT_OWN || (state == 0 && may_repeat))
        return PyObject_CallMethodOneArg((PyObject *)self, names.add, value);
    if (state < 0) return NULL;
    Py_RETURN_NONE;
}

static PyObject *discard(IndexedBase *self, PyObject *value) {
    PyObject *answer = PyObject_CallMethodOneArg((PyObject *)self, names.discard, value);
    if (answer == NULL) return NULL;
    Py_DECREF(answer);
    Py_RETURN_NONE;
}

static PyObject *bisect_of(PyObject *order, PyObject *value, int right) {
    int is_numbers = Py_TYPE(order) == &NumbersType;
    Py_ssize_t position =
        is_numbers ? numbers_bisect((Numbers *)order, value, right) : object_index_bisect(order, value, right);
    if (position == NOT_OWN)
        return PyObject_CallMethodObjArgs(order, names.bisect, value, right ? Py_True : Py_False, NULL);
    return position < 0 ? NULL : PyLong_FromSsize_t(position);
}

static PyObject *bisect(IndexedBase *self, PyObject *value, int right) {
    PyObject *order = is_made(self) ? self->order : NULL;
    Py_XINCREF(order);
    PyObject *position = order ? bisect_of(order, value, right) : NULL;
    Py_XDECREF(order);
    return position;
}

static PyObject *bisect_left(IndexedBase *self, PyObject *value) { return bisect(self, value, 0); }
static PyObject *bisect_right(IndexedBase *self, PyObject *value) { return bisect(self, value, 1); }

int is_order(PyObject *order) {
    if (order != NULL
        && (Py_TYPE(order) == &NumbersType || PyObject_TypeCheck(order, &CodedType)
            || PyObject_TypeCheck(order, &MultiType) || PyObject_TypeCheck(order, &BlocksType)))
        return 1;
    PyErr_SetString(PyExc_TypeError, "an order is Numbers, a Coded, a Multi or Blocks");
    return 0;
}

static int set_order(IndexedBase *self, PyObject *order, void *nothing) {
    (void)nothing;
    if (!is_order(order)) return -1;
    Py_INCREF(order);
    Py_XSETREF(self->order, order);
    return 0;
}

static PyObject *get_order(IndexedBase *self, void *nothing) {
    (void)nothing;
    if (!is_made(self)) return NULL;
    Py_INCREF(self->order);
    return self->order;
}

static const char add_text[] =
    "add($self, value, /)\n--\n\n"
    "Adds an item; a set keeps an equal item that is present. O(log n). Raises TypeError, OverflowError or\n"
    "ValueError if the item does not fit; nothing changes then.\n\n"
    ">>> from indexset import SortedSet\n"
    ">>> numbers = SortedSet([3, 1]); numbers.add(2); numbers\n"
    "SortedSet([1, 2, 3])";
static const char discard_text[] =
    "discard($self, value, /)\n--\n\n"
    "Removes an item that equals a value, if any. Raises TypeError if the value has no hash and the items are a\n"
    "set.\n\n"
    ">>> from indexset import SortedSet\n"
    ">>> numbers = SortedSet([1, 2]); numbers.discard(2); numbers.discard(5); numbers\n"
    "SortedSet([1])";
static const char left_text[] =
    "bisect_left($self, value, /)\n--\n\n"
    "Returns the number of items below a value. Raises TypeError if it cannot be compared with them, ValueError\n"
    "if it is NaN.\n\n"
    ">>> from indexset import SortedSet\n"
    ">>> SortedSet([10, 20]).bisect_left(20)\n"
    "1";
static const char right_text[] =
    "bisect_right($self, value, /)\n--\n\n"
    "Returns the number of items not above a value. Raises TypeError if it cannot be compared with them,\n"
    "ValueError if it is NaN.\n\n"
    ">>> from indexset import SortedSet\n"
    ">>> SortedSet([10, 20]).bisect_right(20)\n"
    "2";

static PyMethodDef methods[] = {
    {"add", (PyCFunction)add, METH_O, add_text},
    {"discard", (PyCFunction)discard, METH_O, discard_text},
    {"bisect_left", (PyCFunction)bisect_left, METH_O, left_text},
    {"bisect_right", (PyCFunction)bisect_right, METH_O, right_text},
    {"bisect", (PyCFunction)bisect_right, METH_O, right_text},
    {"__class_getitem__", Py_GenericAlias, METH_O | METH_CLASS, NULL},
    {0},
};
static PyMemberDef members[] = {{"_members", T_OBJECT, offsetof(IndexedBase, members), 0, NULL}, {0}};
static PyGetSetDef properties[] = {{"_order", (getter)get_order, (setter)set_order, NULL, NULL}, {0}};
static PySequenceMethods sequence = {.sq_length = (lenfunc)base_length, .sq_contains = (objobjproc)base_contains};
static PyMappingMethods mapping = {.mp_length = (lenfunc)base_length, .mp_subscript = (binaryfunc)base_subscript};

PyTypeObject FrontType = {
    PyVarObject_HEAD_INIT(NULL, 0).tp_name = "indexset._speedups.IndexedBase",
    .tp_doc = "A collection over an order.",
    .tp_basicsize = sizeof(IndexedBase),
    .tp_flags = Py_TPFLAGS_DEFAULT | Py_TPFLAGS_BASETYPE | Py_TPFLAGS_HAVE_GC,
    .tp_new = PyType_GenericNew,
    .tp_dealloc = (destructor)base_dealloc,
    .tp_traverse = (traverseproc)base_traverse,
    .tp_clear = (inquiry)base_clear,
    .tp_iter = (getiterfunc)base_iter,
    .tp_methods = methods,
    .tp_members = members,
    .tp_getset = properties,
    .tp_as_sequence = &sequence,
    .tp_as_mapping = &mapping,
};
