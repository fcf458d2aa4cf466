/* Objects at numbers of 64 bits, in the order of these, those of one number in insertion order, in a multimap of the
 * library from numbers to objects. No call compares objects of one number. */
#include "speedups.h"

/* ---- the object */

static PyObject *multi_new(PyTypeObject *type, PyObject *given, PyObject *words) {
    (void)given;
    (void)words;
    Multi *self = (Multi *)type->tp_alloc(type, 0);
    if (self != NULL && indexset_multi_new(&self->pairs) != INDEXSET_YES) {
        Py_DECREF(self);
        return PyErr_NoMemory();
    }
    return (PyObject *)self;
}

/* `Multi(kind, key)`, with the name of a kind of numbers. */
static int multi_init(Multi *self, PyObject *given, PyObject *words) {
    const char *kind;
    PyObject *key;
    (void)words;
    if (!PyArg_ParseTuple(given, "sO", &kind, &key)) return -1;
    self->kind = kind_of_numbers(kind);
    if (key != Py_None) {
        Py_INCREF(key);
        Py_XSETREF(self->key, key);
    }
    return 0;
}

/* Reads the objects from a position on, and their codes; at most CHUNK of them. */
static void read_pairs(const indexset_multi *pairs, size_t from, Part *part) {
    part->count = indexset_multi_range_by_position(pairs, from, part->codes, CHUNK, part->objects, CHUNK);
}

/* The garbage collector calls this before the multimap is made, too. */
static int multi_traverse(Multi *self, visitproc visit, void *arg) {
    Part part;
    Py_VISIT(self->key);
    for (size_t at = 0; read_pairs(&self->pairs, at, &part), part.count > 0; at += part.count)
        for (size_t i = 0; i < part.count; i++) Py_VISIT(OBJECT(part.objects[i]));
    return 0;
}

/* Releases the objects of a multimap that no code can reach any more, and frees it. */
static void let_go(indexset_multi *pairs) {
    Part part;
    for (size_t at = 0; read_pairs(pairs, at, &part), part.count > 0; at += part.count) {
        for (size_t i = 0; i < part.count; i++) __builtin_prefetch(OBJECT(part.objects[i]), 1);
        for (size_t i = 0; i < part.count; i++) Py_DECREF(OBJECT(part.objects[i]));
    }
    indexset_multi_free(pairs);
}

/* Replaces the multimap by another, and releases its objects. */
static void become(Multi *self, indexset_multi *pairs) {
    indexset_multi_swap(&self->pairs, pairs);
    self->changes++;
    let_go(pairs);
}

/* It keeps no multimap: it has no objects and takes none. */
static int multi_clear(Multi *self) {
    indexset_multi none = INDEXSET_HANDLE;
    become(self, &none);
    Py_CLEAR(self->key);
    return 0;
}

static void multi_dealloc(Multi *self) {
    PyObject_GC_UnTrack(self);
    multi_clear(self);
    Py_TYPE(self)->tp_free((PyObject *)self);
}

static PyObject *clear(Multi *self, PyObject *nothing) {
    (void)nothing;
    indexset_multi made = INDEXSET_HANDLE;
    if (indexset_multi_new(&made) != INDEXSET_YES) return PyErr_NoMemory();
    become(self, &made);
    Py_RETURN_NONE;
}

Py_ssize_t multi_length(Multi *self) { return (Py_ssize_t)indexset_multi_len(&self->pairs); }

/* Sets the error of a status. */
static int refused(uint32_t status) {
    if (status == INDEXSET_MEMORY)
        PyErr_NoMemory();
    else if (status == INDEXSET_NUMBERS)
        PyErr_SetString(PyExc_OverflowError, "too few numbers are left");
    else
        PyErr_SetString(PyExc_RuntimeError, "the object is being collected");
    return -1;
}

/* Pushes an object, with a reference to it. Returns 1, or -1 with an error set. */
static int push(indexset_multi *pairs, uint64_t code, PyObject *item) {
    uint32_t status = indexset_multi_push(pairs, code, ADDRESS(item));
    if (status != INDEXSET_YES) return refused(status);
    Py_INCREF(item);
    return 1;
}

/* Pushes the pairs of another multimap. */
static int push_all(indexset_multi *to, const indexset_multi *from) {
    Part part;
    int state = 1;
    for (size_t at = 0; state == 1 && (read_pairs(from, at, &part), part.count > 0); at += part.count)
        for (size_t i = 0; state == 1 && i < part.count; i++) state = push(to, part.codes[i], OBJECT(part.objects[i]));
    return state;
}

/* Becomes a clone of another. It is empty before. */
static PyObject *copied(Multi *self, PyObject *given) {
    indexset_multi made = INDEXSET_HANDLE;
    if (!PyObject_TypeCheck(given, &MultiType) || multi_length(self) != 0) {
        PyErr_SetString(PyExc_TypeError, "what is empty becomes a copy of a Multi");
        return NULL;
    }
    if (indexset_multi_new(&made) != INDEXSET_YES) return PyErr_NoMemory();
    if (push_all(&made, &((Multi *)given)->pairs) < 0) {
        let_go(&made);
        return NULL;
    }
    become(self, &made);
    Py_RETURN_NONE;
}

/* ---- numbers */

static int insert_at(Multi *self, uint64_t code, PyObject *item) {
    int state = push(&self->pairs, code, item);
    self->changes += state == 1;
    return state;
}

static PyObject *insert(Multi *self, PyObject *const *given, Py_ssize_t count) {
    if (count != 2) {
        PyErr_SetString(PyExc_TypeError, "insert takes a number and an object");
        return NULL;
    }
    uint64_t code = PyLong_AsUnsignedLongLong(given[0]);
    if ((code == UINT64_MAX && PyErr_Occurred()) || insert_at(self, code, given[1]) < 0) return NULL;
    Py_RETURN_NONE;
}

/* Returns the number of objects at numbers below a number, or not above it. */
static size_t rank_of(Multi *self, uint64_t code, int right) {
    if (right && code == UINT64_MAX) return indexset_multi_len(&self->pairs);
    return indexset_multi_rank(&self->pairs, code + (uint64_t)right);
}

static PyObject *rank(Multi *self, PyObject *given) {
    uint64_t code = PyLong_AsUnsignedLongLong(given);
    return code == UINT64_MAX && PyErr_Occurred() ? NULL : PyLong_FromSize_t(rank_of(self, code, 0));
}

PyObject *multi_item(Multi *self, Py_ssize_t position) {
    uint64_t code, object;
    if (position < 0 || !indexset_multi_at(&self->pairs, (size_t)position, &code, &object)) {
        PyErr_SetString(PyExc_IndexError, "index out of range");
        return NULL;
    }
    Py_INCREF(OBJECT(object));
    return OBJECT(object);
}

static PyObject *pop(Multi *self, PyObject *index) {
    Py_ssize_t position = position_of((PyObject *)self, index);
    return position < 0 ? NULL : multi_pop(self, (size_t)position);
}

PyObject *multi_pop(Multi *self, size_t position) {
    uint64_t code, object;
    uint32_t status = indexset_multi_remove_at(&self->pairs, position, &code, &object);
    if (status != INDEXSET_YES) {
        refused(status);
        return NULL;
    }
    self->changes++;
    return OBJECT(object);
}

/* ---- items whose sort keys are of the kind's own type */

/* Writes the code of a sort key. Returns 1, or NOT_OWN. */
static int code_of(Multi *self, PyObject *key, uint64_t *code) {
    return number_code(self->kind, key, code) ? 1 : NOT_OWN;
}

/* Writes the code of the sort key of an item. Returns 1, NOT_OWN, or -1. */
static int item_code(Multi *self, PyObject *item, uint64_t *code) {
    if (self->key == NULL) return code_of(self, item, code);
    PyObject *key = PyObject_CallOneArg(self->key, item);
    int state = key ? code_of(self, key, code) : -1;
    Py_XDECREF(key);
    return state;
}

int multi_places(Multi *self, PyObject *key, size_t *first, size_t *past) {
    uint64_t code;
    int state = code_of(self, key, &code);
    if (state == 1) {
        *first = rank_of(self, code, 0);
        *past = rank_of(self, code, 1);
    }
    return state;
}

Py_ssize_t multi_bisect(Multi *self, PyObject *value, int right) {
    uint64_t code;
    if (multi_length(self) == 0) return 0;
    int state = item_code(self, value, &code);
    return state == 1 ? (Py_ssize_t)rank_of(self, code, right) : state;
}

/* An item equals the items with its code if it orders itself. */
int multi_contains(Multi *self, PyObject *item) {
    uint64_t code;
    int state = self->key == NULL ? code_of(self, item, &code) : NOT_OWN;
    return state == 1 ? indexset_multi_contains_key(&self->pairs, code) : state;
}

int multi_discard(Multi *self, PyObject *item) {
    uint64_t code, object;
    int state = self->key == NULL ? code_of(self, item, &code) : NOT_OWN;
    if (state != 1) return state;
    uint32_t status = indexset_multi_remove_first(&self->pairs, code, &object);
    if (status == INDEXSET_NO) return 0;
    if (status != INDEXSET_YES) return refused(status);
    self->changes++;
    Py_DECREF(OBJECT(object));
    return 1;
}

int multi_add(Multi *self, PyObject *item, PyObject *members) {
    uint64_t code;
    int state = item_code(self, item, &code);
    if (state == 1) state = join(members, item);
    return state == 1 ? joined(members, item, insert_at(self, code, item)) : state;
}

int multi_add_keyed(Multi *self, PyObject *item, PyObject *key) {
    uint64_t code;
    return code_of(self, key, &code) == 1 ? insert_at(self, code, item) : NOT_OWN;
}

/* ---- the type */

static PyMethodDef methods[] = {
    {"add", (PyCFunction)add_method, METH_O, "Adds an object after its equals."},
    {"bisect", (PyCFunction)(void (*)(void))bisect_method, METH_FASTCALL,
     "Returns the number of objects below a value, or not above it."},
    {"discard", (PyCFunction)discard_method, METH_O,
     "Removes the first object that equals a value; returns whether there was one."},
    {"find", (PyCFunction)find_method, METH_O, "Returns the position of the first object that equals a value, or -1."},
    {"place", (PyCFunction)(void (*)(void))place_method, METH_FASTCALL,
     "Returns the number of sort keys below a key, or not above it."},
    {"numbers", (PyCFunction)numbers_method, METH_NOARGS, "Returns all numbers, contiguous in memory."},
    {"own_span", (PyCFunction)own_span_method, METH_O,
     "Returns the positions of a sort key of the kind's own type, or None."},
    {"chunk", (PyCFunction)(void (*)(void))chunk_method, METH_FASTCALL,
     "Returns the objects at the positions from the first and before the second."},
    {"changed", (PyCFunction)changed_method, METH_NOARGS, "Counts a change."},
    {"clear", (PyCFunction)clear, METH_NOARGS, "Removes all objects."},
    {"copied", (PyCFunction)copied, METH_O, "Becomes a clone of another. It is empty before."},
    {"insert", (PyCFunction)(void (*)(void))insert, METH_FASTCALL,
     "Puts an object at a number, after those already there."},
    {"pop", (PyCFunction)pop, METH_O, "Removes the object at a position and returns it."},
    {"rank", (PyCFunction)rank, METH_O, "Returns the number of objects at numbers below a number."},
    {"walk", (PyCFunction)(void (*)(void))walk_method, METH_FASTCALL, "Iterates over the objects at positions."},
    {"__class_getitem__", Py_GenericAlias, METH_O | METH_CLASS, NULL},
    {0},
};
static PyMemberDef members[] = {
    {"changes", T_ULONGLONG, offsetof(Multi, changes), READONLY, NULL},
    {"key", T_OBJECT, offsetof(Multi, key), READONLY, "The function that makes sort keys, or None."},
    {0},
};
static PySequenceMethods sequence = {.sq_length = (lenfunc)multi_length,
                                     .sq_contains = (objobjproc)object_index_contains};
static PyMappingMethods mapping = {.mp_length = (lenfunc)multi_length, .mp_subscript = (binaryfunc)item_method};

PyTypeObject MultiType = {
    PyVarObject_HEAD_INIT(NULL, 0).tp_name = "indexset._speedups.Multi",
    .tp_doc = "Objects at numbers of 64 bits, in the order of these, in a multimap of the library.",
    .tp_basicsize = sizeof(Multi),
    .tp_flags = Py_TPFLAGS_DEFAULT | Py_TPFLAGS_BASETYPE | Py_TPFLAGS_HAVE_GC,
    .tp_new = multi_new,
    .tp_init = (initproc)multi_init,
    .tp_dealloc = (destructor)multi_dealloc,
    .tp_traverse = (traverseproc)multi_traverse,
    .tp_clear = (inquiry)multi_clear,
    .tp_methods = methods,
    .tp_members = members,
    .tp_as_sequence = &sequence,
    .tp_as_mapping = &mapping,
};
