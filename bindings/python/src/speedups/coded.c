/* Objects at byte strings, in the order of these, in a map of the library from byte strings to objects. */
#include "speedups.h"

/* The map of an object that is being collected: it has no items and takes none. */
static indexset_text_map nowhere = INDEXSET_HANDLE;

/* ---- the object */

/* Returns an empty map on the heap; NULL with an error set. */
static indexset_text_map *map_new(void) {
    indexset_text_map *made = PyMem_Calloc(1, sizeof *made);
    if (made == NULL || indexset_text_map_new(made) != INDEXSET_YES) {
        PyMem_Free(made);
        return (indexset_text_map *)PyErr_NoMemory();
    }
    return made;
}

static PyObject *coded_new(PyTypeObject *type, PyObject *given, PyObject *words) {
    (void)given;
    (void)words;
    Coded *self = (Coded *)type->tp_alloc(type, 0);
    if (self == NULL) return NULL;
    self->kind = OTHER;
    self->map = map_new();
    if (self->map == NULL) {
        self->map = &nowhere;
        Py_CLEAR(self);
    }
    return (PyObject *)self;
}

/* `Coded(kind, key, repeats)`, with the name of a kind that is not one of numbers. */
static int coded_init(Coded *self, PyObject *given, PyObject *words) {
    const char *kind;
    PyObject *key;
    (void)words;
    if (!PyArg_ParseTuple(given, "sOp", &kind, &key, &self->repeats)) return -1;
    self->kind = strcmp(kind, "str") == 0 ? TEXT : strcmp(kind, "bytes") == 0 ? BYTES : OTHER;
    if (key != Py_None) {
        Py_INCREF(key);
        Py_XSETREF(self->key, key);
    }
    return 0;
}

/* The garbage collector calls this before the map is made, too. */
static int coded_traverse(Coded *self, visitproc visit, void *arg) {
    Py_VISIT(self->key);
    for (size_t at = 0, count = CHUNK; self->map != NULL && count == CHUNK; at += count) {
        uint64_t read[CHUNK];
        count = indexset_text_map_range_by_position(self->map, at, read, CHUNK);
        for (size_t i = 0; i < count; i++) Py_VISIT(OBJECT(read[i]));
    }
    return 0;
}

/* Releases the objects of a map that no code can reach any more, and frees it. */
static void let_go(indexset_text_map *map) {
    uint64_t read[CHUNK];
    size_t count = CHUNK;
    for (size_t at = 0; map != &nowhere && count == CHUNK; at += count) {
        count = indexset_text_map_range_by_position(map, at, read, CHUNK);
        for (size_t i = 0; i < count; i++) __builtin_prefetch(OBJECT(read[i]), 1);
        for (size_t i = 0; i < count; i++) Py_DECREF(OBJECT(read[i]));
    }
    if (map != &nowhere) {
        indexset_text_map_free(map);
        PyMem_Free(map);
    }
}

/* Replaces the map by another, and releases its objects. */
static void become(Coded *self, indexset_text_map *map) {
    indexset_text_map *before = self->map;
    self->map = map;
    self->changes++;
    let_go(before);
}

static int coded_clear(Coded *self) {
    become(self, &nowhere);
    Py_CLEAR(self->key);
    return 0;
}

static void coded_dealloc(Coded *self) {
    PyObject_GC_UnTrack(self);
    coded_clear(self);
    Py_TYPE(self)->tp_free((PyObject *)self);
}

static PyObject *clear(Coded *self, PyObject *nothing) {
    (void)nothing;
    indexset_text_map *map = map_new();
    if (map == NULL) return NULL;
    become(self, map);
    Py_RETURN_NONE;
}

Py_ssize_t coded_length(Coded *self) { return (Py_ssize_t)indexset_text_map_len(self->map); }

/* Counts a reference to each object of a map. */
static void count_objects(indexset_text_map *map) {
    uint64_t read[CHUNK];
    size_t count = CHUNK;
    for (size_t at = 0; count == CHUNK; at += count) {
        count = indexset_text_map_range_by_position(map, at, read, CHUNK);
        for (size_t i = 0; i < count; i++) __builtin_prefetch(OBJECT(read[i]), 1);
        for (size_t i = 0; i < count; i++) Py_INCREF(OBJECT(read[i]));
    }
}

/* Becomes a clone of another. It is empty before. */
static PyObject *copied(Coded *self, PyObject *given) {
    if (!PyObject_TypeCheck(given, &CodedType) || coded_length(self) != 0) {
        PyErr_SetString(PyExc_TypeError, "what is empty becomes a copy of a Coded");
        return NULL;
    }
    Coded *other = (Coded *)given;
    indexset_text_map *map = PyMem_Calloc(1, sizeof *map);
    if (map == NULL || indexset_text_map_clone(other->map, map) != INDEXSET_YES) {
        PyMem_Free(map);
        return PyErr_NoMemory();
    }
    count_objects(map);
    self->added = other->added;
    become(self, map);
    Py_RETURN_NONE;
}

/* ---- byte strings */

static int bytes_of(PyObject *code, const char **data, size_t *size) {
    if (!PyBytes_Check(code)) {
        PyErr_SetString(PyExc_TypeError, "a code is bytes");
        return 0;
    }
    *data = PyBytes_AS_STRING(code);
    *size = (size_t)PyBytes_GET_SIZE(code);
    return 1;
}

int coded_insert(Coded *self, const void *data, size_t size, PyObject *item) {
    uint64_t before, ours;
    uint32_t status = indexset_text_map_insert(self->map, data, size, ADDRESS(item), &before);
    if (status == INDEXSET_YES) {
        Py_INCREF(item);
        self->changes++;
        return 0;
    }
    if (status == INDEXSET_NO) indexset_text_map_insert(self->map, data, size, before, &ours);
    if (status == INDEXSET_MEMORY)
        PyErr_NoMemory();
    else
        PyErr_SetString(PyExc_RuntimeError,
                        status == INDEXSET_NO ? "the code has an object" : "the object is being collected");
    return -1;
}

static PyObject *insert(Coded *self, PyObject *const *given, Py_ssize_t count) {
    const char *data;
    size_t size;
    if (count != 2) {
        PyErr_SetString(PyExc_TypeError, "insert takes a code and an object");
        return NULL;
    }
    if (!bytes_of(given[0], &data, &size) || coded_insert(self, data, size, given[1]) < 0) return NULL;
    Py_RETURN_NONE;
}

static PyObject *rank(Coded *self, PyObject *code) {
    const char *data;
    size_t size;
    if (!bytes_of(code, &data, &size)) return NULL;
    return PyLong_FromSize_t(indexset_text_map_rank(self->map, data, size));
}

static PyObject *has(Coded *self, PyObject *code) {
    const char *data;
    size_t size;
    if (!bytes_of(code, &data, &size)) return NULL;
    return PyBool_FromLong(indexset_text_map_contains(self->map, data, size));
}

/* Returns the byte string of the object at a position. */
static PyObject *code_at(Coded *self, size_t position) {
    char room[64];
    size_t size;
    uint64_t place;
    if (!indexset_text_map_at(self->map, position, room, sizeof room, &size, &place)) {
        PyErr_SetString(PyExc_IndexError, "index out of range");
        return NULL;
    }
    if (size <= sizeof room) return PyBytes_FromStringAndSize(room, (Py_ssize_t)size);
    PyObject *made = PyBytes_FromStringAndSize(NULL, (Py_ssize_t)size);
    if (made != NULL) indexset_text_map_at(self->map, position, PyBytes_AS_STRING(made), size, &size, &place);
    return made;
}

/* ---- positions */

PyObject *coded_item(Coded *self, Py_ssize_t position) {
    uint64_t object;
    if (position < 0 || indexset_text_map_range_by_position(self->map, (size_t)position, &object, 1) != 1) {
        PyErr_SetString(PyExc_IndexError, "index out of range");
        return NULL;
    }
    Py_INCREF(OBJECT(object));
    return OBJECT(object);
}

static PyObject *code(Coded *self, PyObject *index) {
    Py_ssize_t position = position_of((PyObject *)self, index);
    return position < 0 ? NULL : code_at(self, (size_t)position);
}

int coded_remove(Coded *self, const void *data, size_t size, PyObject **item) {
    uint64_t object;
    if (!indexset_text_map_remove(self->map, data, size, &object)) return 0;
    self->changes++;
    *item = OBJECT(object);
    return 1;
}

static PyObject *pop(Coded *self, PyObject *index) {
    Py_ssize_t position = position_of((PyObject *)self, index);
    return position < 0 ? NULL : coded_pop(self, (size_t)position);
}

PyObject *coded_pop(Coded *self, size_t position) {
    PyObject *item = NULL, *code = code_at(self, position);
    if (code != NULL && coded_remove(self, PyBytes_AS_STRING(code), (size_t)PyBytes_GET_SIZE(code), &item) == 0)
        PyErr_SetString(PyExc_RuntimeError, "it changed meanwhile");
    Py_XDECREF(code);
    return item;
}

/* ---- the type */

static PyMethodDef methods[] = {
    {"add", (PyCFunction)add_method, METH_O, "Adds an object after its equals."},
    {"bisect", (PyCFunction)(void (*)(void))bisect_method, METH_FASTCALL,
     "Returns the number of objects below a value, or not above it."},
    {"discard", (PyCFunction)discard_method, METH_O,
     "Removes the first object that equals a value; returns whether there was one."},
    {"find", (PyCFunction)find_method, METH_O, "Returns the position of the first object that equals a value, or -1."},
    {"place", (PyCFunction)(void (*)(void))place_method, METH_FASTCALL,
     "Returns the number of sort keys below a key, or not above it."},
    {"own_span", (PyCFunction)own_span_method, METH_O,
     "Returns the positions of a sort key of the kind's own type, or None."},
    {"chunk", (PyCFunction)(void (*)(void))chunk_method, METH_FASTCALL,
     "Returns the objects at the positions from the first and before the second."},
    {"changed", (PyCFunction)changed_method, METH_NOARGS, "Counts a change."},
    {"clear", (PyCFunction)clear, METH_NOARGS, "Removes all objects."},
    {"code", (PyCFunction)code, METH_O, "Returns the byte string of the object at a position."},
    {"copied", (PyCFunction)copied, METH_O, "Becomes a clone of another. It is empty before."},
    {"has", (PyCFunction)has, METH_O, "Returns whether an object is at a byte string."},
    {"insert", (PyCFunction)(void (*)(void))insert, METH_FASTCALL, "Puts an object at an unused byte string."},
    {"pop", (PyCFunction)pop, METH_O, "Removes the object at a position and returns it."},
    {"rank", (PyCFunction)rank, METH_O, "Returns the number of objects below a byte string."},
    {"walk", (PyCFunction)(void (*)(void))walk_method, METH_FASTCALL, "Iterates over the objects at positions."},
    {"__class_getitem__", Py_GenericAlias, METH_O | METH_CLASS, NULL},
    {0},
};
static PyMemberDef members[] = {
    {"changes", T_ULONGLONG, offsetof(Coded, changes), READONLY, NULL},
    {"added", T_ULONGLONG, offsetof(Coded, added), 0, NULL},
    {"key", T_OBJECT, offsetof(Coded, key), READONLY, "The function that makes sort keys, or None."},
    {0},
};
static PySequenceMethods sequence = {.sq_length = (lenfunc)coded_length,
                                     .sq_contains = (objobjproc)object_index_contains};
static PyMappingMethods mapping = {.mp_length = (lenfunc)coded_length, .mp_subscript = (binaryfunc)item_method};

PyTypeObject CodedType = {
    PyVarObject_HEAD_INIT(NULL, 0).tp_name = "indexset._speedups.Coded",
    .tp_doc = "Objects at byte strings, in the order of these, in a map of the library.",
    .tp_basicsize = sizeof(Coded),
    .tp_flags = Py_TPFLAGS_DEFAULT | Py_TPFLAGS_BASETYPE | Py_TPFLAGS_HAVE_GC,
    .tp_new = coded_new,
    .tp_init = (initproc)coded_init,
    .tp_dealloc = (destructor)coded_dealloc,
    .tp_traverse = (traverseproc)coded_traverse,
    .tp_clear = (inquiry)coded_clear,
    .tp_methods = methods,
    .tp_members = members,
    .tp_as_sequence = &sequence,
    .tp_as_mapping = &mapping,
};
