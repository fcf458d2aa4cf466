/* Calls shared by the collections of objects: calls on one item, by the kind's own type here, and otherwise by a method
 * of the class. */
#include "speedups.h"

/* ---- one item, if its sort key is of the kind's own type */

int object_index_add(PyObject *self, PyObject *item, PyObject *members) {
    if (IS_BLOCKS(self)) return blocks_add((Blocks *)self, item, members);
    return IS_MULTI(self) ? multi_add((Multi *)self, item, members) : own_add((Coded *)self, item, members);
}

int object_index_add_keyed(PyObject *self, PyObject *item, PyObject *key) {
    return IS_MULTI(self) ? multi_add_keyed((Multi *)self, item, key) : own_add_keyed((Coded *)self, item, key);
}

Py_ssize_t object_index_bisect(PyObject *self, PyObject *value, int right) {
    if (IS_BLOCKS(self)) return blocks_bisect((Blocks *)self, value, right);
    return IS_MULTI(self) ? multi_bisect((Multi *)self, value, right) : own_bisect((Coded *)self, value, right);
}

PyObject *object_index_item(PyObject *self, Py_ssize_t position) {
    if (IS_BLOCKS(self)) return blocks_item((Blocks *)self, position);
    return IS_MULTI(self) ? multi_item((Multi *)self, position) : coded_item((Coded *)self, position);
}

/* Writes the positions of a sort key of the kind's own type. */
static int places_of(PyObject *self, PyObject *key, size_t *first, size_t *past) {
    if (IS_BLOCKS(self)) return blocks_places((Blocks *)self, key, first, past);
    return IS_MULTI(self) ? multi_places((Multi *)self, key, first, past) : own_places((Coded *)self, key, first, past);
}

/* Returns whether the object at a position equals a value: 1, 0, or -1 with an error set, also if there was a
 * change. */
static int is_equal(PyObject *self, size_t position, PyObject *value) {
    unsigned long long changes = ((ObjectIndex *)self)->changes;
    PyObject *item = object_index_item(self, (Py_ssize_t)position);
    int state = item ? PyObject_RichCompareBool(item, value, Py_EQ) : -1;
    Py_XDECREF(item);
    if (state >= 0 && changes != ((ObjectIndex *)self)->changes) {
        PyErr_SetString(PyExc_RuntimeError, "it changed during a comparison");
        return -1;
    }
    return state;
}

int object_index_find(PyObject *self, PyObject *value, size_t from, size_t *position) {
    size_t first = 0, past = 0;
    if (((ObjectIndex *)self)->key == NULL) return NOT_OWN;
    PyObject *key = PyObject_CallOneArg(((ObjectIndex *)self)->key, value);
    int state = key ? places_of(self, key, &first, &past) : -1;
    Py_XDECREF(key);
    if (state != 1) return state;
    state = 0;
    for (*position = first > from ? first : from; state == 0 && *position < past; *position += state == 0)
        state = is_equal(self, *position, value);
    return state;
}

/* A value without a sort key that can be compared with the others equals none. */
static int unfit(int state) {
    if (state != -1
        || !(PyErr_ExceptionMatches(PyExc_TypeError) || PyErr_ExceptionMatches(PyExc_OverflowError)
             || PyErr_ExceptionMatches(PyExc_ValueError)))
        return state;
    PyErr_Clear();
    return 0;
}

/* ---- otherwise */

/* Returns the state, or, if it is NOT_OWN, whether a method of the class returns true for a value. */
static int asked(PyObject *self, PyObject *name, PyObject *value, int state) {
    if (state != NOT_OWN) return state;
    PyObject *answer = PyObject_CallMethodOneArg(self, name, value);
    state = answer ? PyObject_IsTrue(answer) : -1;
    Py_XDECREF(answer);
    return state;
}

static PyObject *truth(int state) { return state < 0 ? NULL : PyBool_FromLong(state); }

PyObject *add_method(PyObject *self, PyObject *item) {
    return truth(asked(self, names.add, item, object_index_add(self, item, NULL)));
}

/* Removes the object that equals a value, if a function makes the sort keys. */
static int discard_found(PyObject *self, PyObject *value) {
    size_t position;
    int state = unfit(object_index_find(self, value, 0, &position));
    if (state != 1) return state;
    PyObject *item = IS_MULTI(self) ? multi_pop((Multi *)self, position) : coded_pop((Coded *)self, position);
    Py_XDECREF(item);
    return item ? 1 : -1;
}

int object_index_discard(PyObject *self, PyObject *value) {
    int state = IS_BLOCKS(self)  ? blocks_discard((Blocks *)self, value)
                : IS_MULTI(self) ? multi_discard((Multi *)self, value)
                                 : own_discard((Coded *)self, value);
    if (state == NOT_OWN && !IS_BLOCKS(self)) state = discard_found(self, value);
    return asked(self, names.discard, value, state);
}

PyObject *discard_method(PyObject *self, PyObject *value) { return truth(object_index_discard(self, value)); }

int object_index_contains(PyObject *self, PyObject *value) {
    size_t position;
    int state = IS_BLOCKS(self)  ? blocks_contains((Blocks *)self, value)
                : IS_MULTI(self) ? multi_contains((Multi *)self, value)
                                 : own_contains((Coded *)self, value);
    if (state == NOT_OWN) state = unfit(object_index_find(self, value, 0, &position));
    return asked(self, names.contains, value, state);
}

PyObject *bisect_method(PyObject *self, PyObject *const *given, Py_ssize_t count) {
    int right = count == 2 ? PyObject_IsTrue(given[1]) : -1;
    if (right < 0) {
        PyErr_SetString(PyExc_TypeError, "bisect takes a value and a bool");
        return NULL;
    }
    Py_ssize_t position = object_index_bisect(self, given[0], right);
    if (position == NOT_OWN) return PyObject_CallMethodObjArgs(self, names.bisect, given[0], given[1], NULL);
    return position == -1 ? NULL : PyLong_FromSsize_t(position);
}

PyObject *place_method(PyObject *self, PyObject *const *given, Py_ssize_t count) {
    size_t first = 0, past = 0;
    Place place;
    int right = count == 2 ? PyObject_IsTrue(given[1]) : -1;
    if (right < 0) return PyErr_Format(PyExc_TypeError, "place takes a sort key and a bool");
    if (IS_BLOCKS(self)) {
        int state = blocks_bound((Blocks *)self, given[0], right, &place);
        if (state == 1) return PyLong_FromSize_t(blocks_before((Blocks *)self, place.block) + place.index);
        return state == NOT_OWN ? PyObject_CallMethodObjArgs(self, names.placed, given[0], given[1], NULL) : NULL;
    }
    int state = places_of(self, given[0], &first, &past);
    if (state == NOT_OWN) return PyObject_CallMethodObjArgs(self, names.placed, given[0], given[1], NULL);
    return state < 0 ? NULL : PyLong_FromSize_t(right ? past : first);
}

PyObject *find_method(PyObject *self, PyObject *value) {
    size_t position = 0;
    int state = unfit(object_index_find(self, value, 0, &position));
    if (state == NOT_OWN) return PyObject_CallMethodOneArg(self, names.found, value);
    return state < 0 ? NULL : PyLong_FromSsize_t(state ? (Py_ssize_t)position : -1);
}

PyObject *own_span_method(PyObject *self, PyObject *key) {
    size_t first, past;
    int state = places_of(self, key, &first, &past);
    if (state == NOT_OWN) Py_RETURN_NONE;
    return state == -1 ? NULL : Py_BuildValue("nn", (Py_ssize_t)first, (Py_ssize_t)past);
}

PyObject *changed_method(PyObject *self, PyObject *nothing) {
    (void)nothing;
    ((ObjectIndex *)self)->changes++;
    Py_RETURN_NONE;
}

/* ---- positions */

Py_ssize_t position_of(PyObject *self, PyObject *index) {
    Py_ssize_t position = PyNumber_AsSsize_t(index, PyExc_IndexError), length = (Py_ssize_t)length_of(self);
    if (position == -1 && PyErr_Occurred()) return -1;
    position += position < 0 ? length : 0;
    if (position < 0 || position >= length) {
        PyErr_SetString(PyExc_IndexError, "index out of range");
        return -1;
    }
    return position;
}

PyObject *item_method(PyObject *self, PyObject *index) {
    Py_ssize_t position = position_of(self, index);
    return position < 0 ? NULL : object_index_item(self, position);
}

/* ---- the set of the items */

void discard_quietly(PyObject *members, PyObject *item) {
    PyObject *type, *value, *trace;
    PyErr_Fetch(&type, &value, &trace);
    PySet_Discard(members, item);
    PyErr_Restore(type, value, trace);
}

int join(PyObject *members, PyObject *item) {
    int is_there = members ? PySet_Contains(members, item) : 0;
    if (is_there != 0 || members == NULL) return is_there < 0 ? -1 : !is_there;
    if (PySet_Add(members, item) == 0) return 1;
    discard_quietly(members, item); /* a set that cannot grow has it already */
    return -1;
}

int joined(PyObject *members, PyObject *item, int state) {
    if (state < 0 && members != NULL) discard_quietly(members, item);
    return state;
}
