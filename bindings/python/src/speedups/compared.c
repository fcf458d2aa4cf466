/* The type `Blocks`, and the calls of base.c and object_index.c on it. */
#include "speedups.h"

/* ---- the object */

/* `Blocks(kind, key)`, with the name of a kind. */
static int blocks_init(Blocks *self, PyObject *given, PyObject *words) {
    const char *kind;
    PyObject *key;
    (void)words;
    if (!PyArg_ParseTuple(given, "sO", &kind, &key)) return -1;
    int is_number = strcmp(kind, "int64") == 0 || strcmp(kind, "uint64") == 0 || strcmp(kind, "float64") == 0;
    int is_text = strcmp(kind, "str") == 0, is_bytes = strcmp(kind, "bytes") == 0;
    blocks_drop(self);
    self->kind = COMPARED;
    self->by = is_number ? kind_of_numbers(kind) : is_text ? TEXT : is_bytes ? BYTES : OTHER;
    Py_XINCREF(key == Py_None ? NULL : key);
    Py_XSETREF(self->key, key == Py_None ? NULL : key);
    return 0;
}

static PyObject *blocks_new(PyTypeObject *type, PyObject *given, PyObject *words) {
    (void)given;
    (void)words;
    Blocks *self = (Blocks *)type->tp_alloc(type, 0);
    if (self != NULL) {
        self->kind = COMPARED;
        self->by = OTHER;
    }
    return (PyObject *)self;
}

static int blocks_traverse(Blocks *self, visitproc visit, void *arg) {
    Py_VISIT(self->key);
    for (size_t b = 0; b < self->count; b++) {
        const Block *block = self->blocks + b;
        for (size_t i = 0; i < block->count; i++) Py_VISIT(block->items[i]);
        for (size_t i = 0; block->keys != block->items && i < block->count; i++) Py_VISIT(block->keys[i]);
    }
    return 0;
}

static int blocks_clear(Blocks *self) {
    blocks_drop(self);
    Py_CLEAR(self->key);
    return 0;
}

static void blocks_dealloc(Blocks *self) {
    PyObject_GC_UnTrack(self);
    blocks_clear(self);
    Py_TYPE(self)->tp_free((PyObject *)self);
}

static PyObject *clear(Blocks *self, PyObject *nothing) {
    (void)nothing;
    blocks_drop(self);
    Py_RETURN_NONE;
}

/* Becomes a clone of another. It is empty before. */
static PyObject *copied(Blocks *self, PyObject *given) {
    if (!PyObject_TypeCheck(given, &BlocksType) || self->length != 0
        || (((Blocks *)given)->key == NULL) != (self->key == NULL)) {
        PyErr_SetString(PyExc_TypeError, "what is empty becomes a copy of Blocks");
        return NULL;
    }
    if (blocks_copy(self, (Blocks *)given) < 0) return NULL;
    self->changes++;
    Py_RETURN_NONE;
}

static Py_ssize_t blocks_length(Blocks *self) { return (Py_ssize_t)self->length; }

/* ---- one object */

/* A search for a value that cannot be compared with the others finds none: returns 0 and clears the error, unless the
 * value has no hash either. */
static int unfit(Blocks *self, PyObject *value, int state) {
    if (state != -1
        || !(PyErr_ExceptionMatches(PyExc_TypeError) || PyErr_ExceptionMatches(PyExc_OverflowError)
             || PyErr_ExceptionMatches(PyExc_ValueError)))
        return state;
    PyErr_Clear();
    return self->key == NULL && PyObject_Hash(value) == -1 ? -1 : 0;
}

static size_t position_at(Blocks *self, Place place) { return blocks_before(self, place.block) + place.index; }

int blocks_add(Blocks *self, PyObject *item, PyObject *members) {
    Place place;
    if (blocks_is_due(self)) return NOT_OWN;
    PyObject *key = blocks_key(self, item);
    int state = key == NULL ? -1 : blocks_is_own(self, key) ? join(members, item) : NOT_OWN;
    if (state == 1) {
        state = blocks_bound(self, key, 1, &place);
        state = joined(members, item, state == 1 ? blocks_insert(self, place, item, key) : state);
    }
    Py_XDECREF(key);
    return state;
}

/* Releases the object at a place. */
static void let_go(Blocks *self, Place place) {
    PyObject *key, *item = blocks_remove(self, place, &key);
    Py_XDECREF(key);
    Py_DECREF(item);
}

int blocks_discard(Blocks *self, PyObject *item) {
    Place place;
    int state = unfit(self, item, blocks_find(self, item, 0, &place));
    if (state == 1) let_go(self, place);
    return state;
}

int blocks_contains(Blocks *self, PyObject *item) {
    Place place;
    if (self->by == OTHER) return unfit(self, item, blocks_find(self, item, 0, &place));
    int state = self->key == NULL ? blocks_bound(self, item, 0, &place) : NOT_OWN;
    if (state != 1 || self->length == 0 || place.index == self->blocks[place.block].count)
        return state == 1 ? 0 : state;
    return blocks_are_equal(self, self->blocks[place.block].keys[place.index], item);
}

Py_ssize_t blocks_bisect(Blocks *self, PyObject *value, int right) {
    Place place;
    if (self->length == 0) return 0;
    PyObject *key = blocks_key(self, value);
    int state = key ? blocks_bound(self, key, right, &place) : -1;
    Py_XDECREF(key);
    return state == 1 ? (Py_ssize_t)position_at(self, place) : state;
}

int blocks_places(Blocks *self, PyObject *key, size_t *first, size_t *past) {
    Place place = {0, 0};
    *first = *past = 0;
    int state = blocks_bound(self, key, 0, &place);
    if (state != 1 || self->length == 0) return state;
    *first = position_at(self, place);
    state = blocks_bound(self, key, 1, &place);
    *past = state == 1 ? position_at(self, place) : 0;
    return state;
}

PyObject *blocks_item(Blocks *self, Py_ssize_t position) {
    if (position < 0 || (size_t)position >= self->length) {
        PyErr_SetString(PyExc_IndexError, "index out of range");
        return NULL;
    }
    Place place = blocks_place(self, (size_t)position);
    PyObject *item = self->blocks[place.block].items[place.index];
    Py_INCREF(item);
    return item;
}

static PyObject *pop(Blocks *self, PyObject *index) {
    Py_ssize_t position = position_of((PyObject *)self, index);
    if (position < 0) return NULL;
    PyObject *key, *item = blocks_remove(self, blocks_place(self, (size_t)position), &key);
    Py_XDECREF(key);
    return item;
}

static PyObject *position_found(Blocks *self, int state, Place place) {
    return state < 0 ? NULL : PyLong_FromSsize_t(state == 1 ? (Py_ssize_t)position_at(self, place) : -1);
}

/* `_found` and `_found_from` of the class handle sort keys of another type than the kind's own. */
static PyObject *find(Blocks *self, PyObject *value) {
    Place place;
    int state = unfit(self, value, blocks_find(self, value, 0, &place));
    return state == NOT_OWN ? PyObject_CallMethodOneArg((PyObject *)self, names.found, value)
                            : position_found(self, state, place);
}

static PyObject *find_from(Blocks *self, PyObject *const *given, Py_ssize_t count) {
    Place place;
    Py_ssize_t from = count == 2 ? PyNumber_AsSsize_t(given[1], PyExc_OverflowError) : 0;
    if (from < 0 || count != 2)
        return PyErr_Occurred() ? NULL : PyErr_Format(PyExc_TypeError, "a value and a position are needed");
    int state = blocks_find(self, given[0], (size_t)from, &place);
    if (state == NOT_OWN)
        return PyObject_CallMethodObjArgs((PyObject *)self, names.found_from, given[0], given[1], NULL);
    return position_found(self, state, place);
}

/* Returns the number of objects from a position on that equal a value. */
static PyObject *count(Blocks *self, PyObject *value) {
    Place place;
    Py_ssize_t found = 0;
    int state = 1;
    for (size_t from = 0; state == 1; from++) {
        state = unfit(self, value, blocks_find(self, value, from, &place));
        from = state == 1 ? position_at(self, place) : from;
        found += state == 1;
    }
    return state < 0 ? NULL : PyLong_FromSsize_t(found);
}

/* ---- numbers */

/* Returns the number of objects with codes below one. */
static PyObject *below(Blocks *self, PyObject *given) {
    Place place;
    uint64_t code = PyLong_AsUnsignedLongLong(given);
    if (code == UINT64_MAX && PyErr_Occurred()) return NULL;
    blocks_bound_code(self, code, &place);
    return PyLong_FromSize_t(position_at(self, place));
}

/* Returns whether no two sort keys are equal, for kinds with own types. */
static PyObject *are_distinct(Blocks *self, PyObject *nothing) {
    (void)nothing;
    PyObject *before = NULL;
    for (size_t b = 0; b < self->count; b++)
        for (size_t i = 0; i < self->blocks[b].count; i++) {
            PyObject *key = self->blocks[b].keys[i];
            if (before != NULL && blocks_are_equal(self, before, key)) Py_RETURN_FALSE;
            before = key;
        }
    Py_RETURN_TRUE;
}

/* Returns whether all items of a list have sort keys of the kind's own type. */
static PyObject *are_own(Blocks *self, PyObject *items) {
    int state = PyList_CheckExact(items);
    for (Py_ssize_t i = 0; state == 1 && i < PyList_GET_SIZE(items); i++) {
        PyObject *item = PyList_GET_ITEM(items, i);
        Py_INCREF(item);
        PyObject *key = blocks_key(self, item);
        Py_DECREF(item);
        state = key ? blocks_is_own(self, key) : -1;
        Py_XDECREF(key);
    }
    return state < 0 ? NULL : PyBool_FromLong(state);
}

/* ---- the type: `fill`, `take` and `cut` are in many.c */

static PyMethodDef methods[] = {
    {"add", (PyCFunction)add_method, METH_O, "Adds an object after its equals."},
    {"are_distinct", (PyCFunction)are_distinct, METH_NOARGS,
     "Returns whether no two sort keys are equal, for kinds with own types."},
    {"are_own", (PyCFunction)are_own, METH_O,
     "Returns whether all items of a list have sort keys of the kind's own type."},
    {"below", (PyCFunction)below, METH_O, "Returns the number of objects with codes below one, for a kind of numbers."},
    {"bisect", (PyCFunction)(void (*)(void))bisect_method, METH_FASTCALL,
     "Returns the number of objects below a value, or not above it."},
    {"changed", (PyCFunction)changed_method, METH_NOARGS, "Counts a change."},
    {"chunk", (PyCFunction)(void (*)(void))chunk_method, METH_FASTCALL,
     "Returns the objects at the positions from the first and before the second."},
    {"clear", (PyCFunction)clear, METH_NOARGS, "Removes all objects."},
    {"copied", (PyCFunction)copied, METH_O, "Becomes a clone of another. It is empty before."},
    {"count", (PyCFunction)count, METH_O, "Returns the number of objects equal to a value."},
    {"cut", (PyCFunction)(void (*)(void))blocks_cut_method, METH_FASTCALL,
     "Removes the objects at the positions from the first and before the second."},
    {"discard", (PyCFunction)discard_method, METH_O,
     "Removes the first object that equals a value; returns whether there was one."},
    {"fill", (PyCFunction)(void (*)(void))blocks_fill_method, METH_FASTCALL,
     "Adds the objects of a list at once, whose sort keys may be another; returns False if one is not of the kind's "
     "own "
     "type."},
    {"find", (PyCFunction)find, METH_O, "Returns the position of the first object that equals a value, or -1."},
    {"find_from", (PyCFunction)(void (*)(void))find_from, METH_FASTCALL,
     "Returns the position of an equal object from a position on, or -1; raises if it cannot be compared."},
    {"numbers", (PyCFunction)numbers_method, METH_NOARGS, "Returns all numbers, contiguous in memory."},
    {"own_span", (PyCFunction)own_span_method, METH_O,
     "Returns the positions of a sort key of the kind's own type, or None."},
    {"place", (PyCFunction)(void (*)(void))place_method, METH_FASTCALL,
     "Returns the number of sort keys below a key, or not above it."},
    {"pop", (PyCFunction)pop, METH_O, "Removes the object at a position and returns it."},
    {"settle", (PyCFunction)blocks_settle_method, METH_O,
     "Adds all objects to an empty order of the library; returns whether it could."},
    {"take", (PyCFunction)(void (*)(void))blocks_take_method, METH_FASTCALL,
     "Adds the objects of a list, whose sort keys may be another, or none if one does not fit."},
    {"walk", (PyCFunction)(void (*)(void))walk_method, METH_FASTCALL, "Iterates over the objects at positions."},
    {"__class_getitem__", Py_GenericAlias, METH_O | METH_CLASS, NULL},
    {0},
};
static PyMemberDef members[] = {
    {"changes", T_ULONGLONG, offsetof(Blocks, changes), READONLY, NULL},
    {"key", T_OBJECT, offsetof(Blocks, key), READONLY, "The function that makes sort keys, or None."},
    {0},
};
static PyObject *get_due(Blocks *self, void *nothing) {
    (void)nothing;
    return PyBool_FromLong(blocks_is_due(self));
}

static PyGetSetDef properties[] = {
    {"is_due", (getter)get_due, NULL, "Whether numbers are due to move into an order of the library.", NULL}, {0}};
static PySequenceMethods sequence = {.sq_length = (lenfunc)blocks_length,
                                     .sq_contains = (objobjproc)object_index_contains};
static PyMappingMethods mapping = {.mp_length = (lenfunc)blocks_length, .mp_subscript = (binaryfunc)item_method};

PyTypeObject BlocksType = {
    PyVarObject_HEAD_INIT(NULL, 0).tp_name = "indexset._speedups.Blocks",
    .tp_doc = "Objects in blocks, in the order of their sort keys.",
    .tp_basicsize = sizeof(Blocks),
    .tp_flags = Py_TPFLAGS_DEFAULT | Py_TPFLAGS_BASETYPE | Py_TPFLAGS_HAVE_GC,
    .tp_new = blocks_new,
    .tp_init = (initproc)blocks_init,
    .tp_dealloc = (destructor)blocks_dealloc,
    .tp_traverse = (traverseproc)blocks_traverse,
    .tp_clear = (inquiry)blocks_clear,
    .tp_methods = methods,
    .tp_members = members,
    .tp_getset = properties,
    .tp_as_sequence = &sequence,
    .tp_as_mapping = &mapping,
};
