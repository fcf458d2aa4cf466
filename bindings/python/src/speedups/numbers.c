/* Distinct numbers of a kind, in order, in a map of the library from their codes to the objects that were given. */
#include "speedups.h"

/* ---- codes */

int numbers_asked(Numbers *self, PyObject *call, PyObject *value, uint64_t *code) {
    PyObject *answer = PyObject_CallMethodOneArg(self->python, call, value);
    if (answer == NULL) return -1;
    if (answer == Py_None) {
        Py_DECREF(answer);
        return 0;
    }
    *code = PyLong_AsUnsignedLongLong(answer);
    Py_DECREF(answer);
    return PyErr_Occurred() ? -1 : 1;
}

static int found(Numbers *self, PyObject *value, uint64_t *code) {
    return number_code(self->kind, value, code) ? 1 : numbers_asked(self, names.find, value, code);
}

/* ---- the object */

static PyObject *numbers_new(PyTypeObject *type, PyObject *given, PyObject *words) {
    const char *name;
    if (!PyArg_ParseTuple(given, "s", &name) || (words && PyDict_GET_SIZE(words))) {
        if (!PyErr_Occurred()) PyErr_SetString(PyExc_TypeError, "Numbers takes the name of a kind");
        return NULL;
    }
    PyObject *all = PyObject_GetAttrString(kinds, "NUMBERS");
    PyObject *python = all ? PyMapping_GetItemString(all, name) : NULL;
    Py_XDECREF(all);
    Numbers *self = python ? (Numbers *)type->tp_alloc(type, 0) : NULL;
    if (self == NULL) {
        Py_XDECREF(python);
        return NULL;
    }
    self->python = python;
    self->kind = kind_of_numbers(name);
    if (indexset_map_new(&self->map) != INDEXSET_YES) {
        Py_DECREF(self);
        return PyErr_NoMemory();
    }
    return (PyObject *)self;
}

/* Counts a reference to each object, or one less: releasing numbers runs no code. */
static void count_objects(Numbers *self, int more) {
    Part part;
    size_t at = 0;
    do {
        read_part((PyObject *)self, at, CHUNK, &part);
        for (size_t i = 0; i < part.count; i++)
            more ? Py_XINCREF(OBJECT(part.objects[i])) : Py_XDECREF(OBJECT(part.objects[i]));
        at += part.count;
    } while (part.count == CHUNK);
}

static void numbers_dealloc(Numbers *self) {
    count_objects(self, 0);
    indexset_map_free(&self->map);
    Py_XDECREF(self->python);
    Py_TYPE(self)->tp_free((PyObject *)self);
}

static PyObject *numbers_clone(Numbers *self, PyObject *nothing) {
    (void)nothing;
    Numbers *made = (Numbers *)NumbersType.tp_alloc(&NumbersType, 0);
    if (made == NULL) return NULL;
    Py_INCREF(self->python);
    made->python = self->python;
    made->kind = self->kind;
    if (indexset_map_clone(&self->map, &made->map) != INDEXSET_YES) {
        Py_DECREF(made);
        return PyErr_NoMemory();
    }
    count_objects(made, 1);
    return (PyObject *)made;
}

/* ---- one key */

static Py_ssize_t numbers_length(Numbers *self) { return (Py_ssize_t)indexset_map_len(&self->map); }

int numbers_contains(Numbers *self, PyObject *value) {
    uint64_t code;
    int state = found(self, value, &code);
    return state < 1 ? state : indexset_map_contains(&self->map, code);
}

int numbers_put(Numbers *self, uint64_t code, PyObject *given) {
    uint64_t before, ours;
    uint32_t status = indexset_map_insert(&self->map, code, ADDRESS(given), &before);
    if (status == INDEXSET_NO) {
        indexset_map_insert(&self->map, code, before, &ours);
        return 0;
    }
    if (status != INDEXSET_YES) {
        PyErr_NoMemory();
        return -1;
    }
    Py_XINCREF(given);
    self->changes++;
    return 1;
}

int numbers_add(Numbers *self, PyObject *value) {
    uint64_t code;
    if (number_code(self->kind, value, &code)) return numbers_put(self, code, value);
    return numbers_asked(self, names.code, value, &code) == 1 ? numbers_put(self, code, NULL) : -1;
}

int numbers_take_out(Numbers *self, uint64_t code) {
    uint64_t object;
    if (!indexset_map_remove(&self->map, code, &object)) return 0;
    self->changes++;
    Py_XDECREF(OBJECT(object));
    return 1;
}

int numbers_discard(Numbers *self, PyObject *value) {
    uint64_t code;
    int state = found(self, value, &code);
    return state < 1 ? state : numbers_take_out(self, code);
}

static PyObject *truth(int state) { return state < 0 ? NULL : PyBool_FromLong(state); }
static PyObject *add(Numbers *self, PyObject *value) { return truth(numbers_add(self, value)); }

static PyObject *discard(Numbers *self, PyObject *value) { return truth(numbers_discard(self, value)); }

Py_ssize_t numbers_bisect(Numbers *self, PyObject *value, int right) {
    uint64_t code;
    int exact = 1;
    if (indexset_map_len(&self->map) == 0) return 0;
    if (!number_code(self->kind, value, &code)) {
        PyObject *bound = PyObject_CallMethodOneArg(self->python, names.bound, value);
        if (bound == NULL) return -1;
        code = PyLong_AsUnsignedLongLong(PyTuple_GET_ITEM(bound, 0));
        exact = PyTuple_GET_ITEM(bound, 1) == Py_True;
        Py_DECREF(bound);
        if (PyErr_Occurred()) { /* 2**64: no key is as great */
            PyErr_Clear();
            return numbers_length(self);
        }
    }
    size_t rank = indexset_map_rank(&self->map, code);
    return (Py_ssize_t)(rank + (right && exact && indexset_map_contains(&self->map, code)));
}

static PyObject *bisect(Numbers *self, PyObject *const *given, Py_ssize_t count) {
    if (count != 2) {
        PyErr_SetString(PyExc_TypeError, "bisect takes a value and a bool");
        return NULL;
    }
    Py_ssize_t position = numbers_bisect(self, given[0], PyObject_IsTrue(given[1]));
    return position < 0 ? NULL : PyLong_FromSsize_t(position);
}

/* ---- positions */

static PyObject *find(Numbers *self, PyObject *value) {
    uint64_t code;
    int state = found(self, value, &code);
    if (state < 0) return NULL;
    int is_there = state && indexset_map_contains(&self->map, code);
    return PyLong_FromSsize_t(is_there ? (Py_ssize_t)indexset_map_rank(&self->map, code) : -1);
}

PyObject *numbers_item(Numbers *self, Py_ssize_t position) {
    uint64_t code, object;
    if (position < 0 || !indexset_map_at(&self->map, (size_t)position, &code, &object)) {
        PyErr_SetString(PyExc_IndexError, "index out of range");
        return NULL;
    }
    Py_XINCREF(OBJECT(object));
    return object ? OBJECT(object) : number_of(self->kind, code);
}

static PyObject *subscript(Numbers *self, PyObject *index) {
    Py_ssize_t position = PyNumber_AsSsize_t(index, PyExc_IndexError);
    if (position == -1 && PyErr_Occurred()) return NULL;
    return numbers_item(self, position < 0 ? position + numbers_length(self) : position);
}

static PyObject *pop(Numbers *self, PyObject *index) {
    PyObject *value = subscript(self, index);
    if (value != NULL && numbers_discard(self, value) < 0) Py_CLEAR(value);
    return value;
}

/* ---- many keys: the rest is in batch.c */

static PyObject *at_all(Numbers *self, PyObject *positions) {
    PyObject *every = PySequence_List(positions);
    for (Py_ssize_t i = 0; every != NULL && i < PyList_GET_SIZE(every); i++) {
        PyObject *value = subscript(self, PyList_GET_ITEM(every, i));
        if (value == NULL || PyList_SetItem(every, i, value) < 0) Py_CLEAR(every);
    }
    return every;
}

static PyObject *clear(Numbers *self, PyObject *nothing) {
    (void)nothing;
    self->changes++;
    count_objects(self, 0);
    indexset_map_clear(&self->map);
    Py_RETURN_NONE;
}

static PyObject *changed(Numbers *self, PyObject *nothing) {
    (void)nothing;
    self->changes++;
    Py_RETURN_NONE;
}

/* ---- the type */

static PyObject *kind_name(Numbers *self, void *nothing) {
    (void)nothing;
    return PyObject_GetAttrString(self->python, "name");
}

static PyMethodDef methods[] = {
    {"add", (PyCFunction)add, METH_O, "Adds a key; returns whether it was absent."},
    {"are_own", (PyCFunction)numbers_are_own, METH_O,
     "Returns whether all values of a list are of the kind's own type and range."},
    {"at_all", (PyCFunction)at_all, METH_O, "Returns the keys at positions, by one call."},
    {"bisect", (PyCFunction)(void (*)(void))bisect, METH_FASTCALL,
     "Returns the number of keys below a value, or not above it."},
    {"chunk", (PyCFunction)(void (*)(void))chunk_method, METH_FASTCALL,
     "Returns the keys at the positions from the first and before the second."},
    {"changed", (PyCFunction)changed, METH_NOARGS, "Counts a change."},
    {"clear", (PyCFunction)clear, METH_NOARGS, "Removes all keys."},
    {"clone", (PyCFunction)numbers_clone, METH_NOARGS, "Returns a clone."},
    {"discard", (PyCFunction)discard, METH_O, "Removes a key; returns whether it was present."},
    {"find", (PyCFunction)find, METH_O, "Returns the position of the key that a value equals, or -1."},
    {"numbers", (PyCFunction)numbers_method, METH_NOARGS, "Returns all numbers, contiguous in memory."},
    {"own", (PyCFunction)numbers_own, METH_O, "Returns the keys of values, as a list."},
    {"place", (PyCFunction)(void (*)(void))bisect, METH_FASTCALL,
     "Returns the number of keys below a key, or not above it."},
    {"pop", (PyCFunction)pop, METH_O, "Removes the key at a position and returns it."},
    {"ranks", (PyCFunction)numbers_ranks, METH_O, "Returns the number of keys below each key, by one call."},
    {"take", (PyCFunction)numbers_take, METH_O, "Adds absent keys, or none if one does not fit."},
    {"walk", (PyCFunction)(void (*)(void))walk_method, METH_FASTCALL, "Iterates over the keys at positions."},
    {0},
};
static PyMemberDef members[] = {{"changes", T_ULONGLONG, offsetof(Numbers, changes), READONLY, NULL}, {0}};
static PyGetSetDef properties[] = {{"kind", (getter)kind_name, NULL, "The name of the kind.", NULL}, {0}};
static PySequenceMethods sequence = {.sq_length = (lenfunc)numbers_length, .sq_contains = (objobjproc)numbers_contains};
static PyMappingMethods mapping = {.mp_length = (lenfunc)numbers_length, .mp_subscript = (binaryfunc)subscript};

PyTypeObject NumbersType = {
    PyVarObject_HEAD_INIT(NULL, 0).tp_name = "indexset._speedups.Numbers",
    .tp_doc = "Distinct numbers of a kind, in order, in a map of the library.",
    .tp_basicsize = sizeof(Numbers),
    .tp_flags = Py_TPFLAGS_DEFAULT,
    .tp_new = numbers_new,
    .tp_dealloc = (destructor)numbers_dealloc,
    .tp_methods = methods,
    .tp_members = members,
    .tp_getset = properties,
    .tp_as_sequence = &sequence,
    .tp_as_mapping = &mapping,
};
