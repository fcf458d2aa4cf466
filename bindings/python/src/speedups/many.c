/* Insertion and removal of many objects in blocks: new objects are compared first, and then all are added, or none with
 * an error set. */
#include "speedups.h"

/* If one object or more is new for this many present ones, all are sorted; otherwise the new ones are inserted one by
 * one. */
#define PART 4

/* The number of objects that are fetched before they are moved. */
#define AHEAD 16

/* Returns the sort keys of the items of a list, as a list; NULL with an error set. */
static PyObject *keys_of(Blocks *self, PyObject *items) {
    PyObject *keys = PyObject_CallFunctionObjArgs((PyObject *)&PyMap_Type, self->key, items, NULL);
    PyObject *made = keys ? PySequence_List(keys) : NULL;
    Py_XDECREF(keys);
    return made;
}

/* Returns the objects here, or their keys, followed by those of a list; the list itself if there are none here. */
static PyObject *joined_list(Blocks *self, PyObject *more, int of_keys) {
    if (self->length == 0) {
        Py_INCREF(more);
        return more;
    }
    PyObject *made = blocks_list(self, 0, self->length, of_keys);
    if (made != NULL && PyList_SetSlice(made, PY_SSIZE_T_MAX, PY_SSIZE_T_MAX, more) < 0) Py_CLEAR(made);
    return made;
}

/* Returns whether the blocks are unchanged; sets an error if not. */
static int is_same(Blocks *self, unsigned long long changes) {
    if (self->changes != changes) PyErr_SetString(PyExc_RuntimeError, "it changed meanwhile");
    return self->changes == changes;
}

/* Replaces the objects by all objects here and those of a list. Returns 1, 0 if a key is not of the kind's own type, or
 * -1 with an error set. */
static int fill(Blocks *self, PyObject *values, PyObject *more_keys) {
    unsigned long long changes = self->changes;
    int has_keys = self->key != NULL;
    PyObject *items = joined_list(self, values, 0), *keys = has_keys && items ? joined_list(self, more_keys, 1) : NULL;
    int state = items && (keys || !has_keys) ? blocks_sort(self->by, items, keys) : -1;
    if (state == 1) state = is_same(self, changes) ? blocks_fill(self, items, keys) : -1;
    Py_XDECREF(items);
    Py_XDECREF(keys);
    return state;
}

/* ---- few new objects */

/* Writes the positions of sorted keys. Returns 1, or -1 with an error set. */
static int places_of(Blocks *self, PyObject *keys, size_t *positions) {
    int state = 1;
    for (Py_ssize_t i = 0; state == 1 && i < PyList_GET_SIZE(keys); i++) {
        Place place;
        state = blocks_bound(self, PyList_GET_ITEM(keys, i), 1, &place);
        if (state == 1) positions[i] = blocks_before(self, place.block) + place.index;
    }
    return state;
}

static int insert_at(Blocks *self, size_t position, PyObject *item, PyObject *key) {
    Place place = {0, 0};
    if (position < self->length)
        place = blocks_place(self, position);
    else if (self->count > 0)
        place = (Place){self->count - 1, self->blocks[self->count - 1].count};
    return blocks_insert(self, place, item, key);
}

/* Puts sorted objects at their positions, from the last to the first; if memory runs out, those already put are removed
 * again. */
static int insert_all(Blocks *self, PyObject *items, PyObject *keys, const size_t *positions) {
    Py_ssize_t count = PyList_GET_SIZE(items), left = count;
    while (left > 0
           && insert_at(self, positions[left - 1], PyList_GET_ITEM(items, left - 1), PyList_GET_ITEM(keys, left - 1))
                  == 1)
        left--;
    if (left == 0) return 1;
    for (Py_ssize_t i = count - 1; i >= left; i--) {
        PyObject *key, *item = blocks_remove(self, blocks_place(self, positions[i] + (size_t)(i - left)), &key);
        Py_XDECREF(key); /* the lists hold both */
        Py_DECREF(item);
    }
    return -1;
}

static int insert_list(Blocks *self, PyObject *items, PyObject *keys) {
    unsigned long long changes = self->changes;
    int state = blocks_sort(self->by, items, keys == items ? NULL : keys);
    size_t *positions = PyMem_Malloc(((size_t)PyList_GET_SIZE(items) + 1) * sizeof *positions);
    if (positions == NULL) {
        PyErr_NoMemory();
        return -1;
    }
    if (state == 1) state = places_of(self, keys, positions);
    if (state == 1 && !is_same(self, changes)) state = -1;
    if (state == 1) state = insert_all(self, items, keys, positions);
    PyMem_Free(positions);
    return state;
}

static int take(Blocks *self, PyObject *values, PyObject *keys) {
    int is_part = (size_t)PyList_GET_SIZE(values) * PART < self->length;
    return is_part ? insert_list(self, values, keys) : fill(self, values, keys);
}

/* ---- methods */

/* Reads a list of objects, and that of their sort keys, if given, or else makes it if a function makes sort keys: it is
 * the first list if none does. Returns 0 with an error set. */
static int two_lists(Blocks *self, PyObject *const *given, Py_ssize_t count, PyObject **items, PyObject **keys) {
    int has_keys = count == 2 && given[1] != Py_None;
    if (count < 1 || count > 2 || !PyList_CheckExact(given[0]) || (has_keys && !PyList_CheckExact(given[1]))
        || (has_keys && PyList_GET_SIZE(given[1]) != PyList_GET_SIZE(given[0]))) {
        PyErr_SetString(PyExc_TypeError, "a list is needed, or two of one length");
        return 0;
    }
    *items = given[0];
    if (self->key != NULL && !has_keys) return (*keys = keys_of(self, *items)) != NULL;
    *keys = self->key ? given[1] : given[0];
    Py_INCREF(*keys);
    return 1;
}

PyObject *blocks_take_method(Blocks *self, PyObject *const *given, Py_ssize_t count) {
    PyObject *items, *keys;
    if (!two_lists(self, given, count, &items, &keys)) return NULL;
    int state = take(self, items, keys);
    Py_DECREF(keys);
    if (state == 0) return PyErr_Format(PyExc_TypeError, "a sort key of the kind's own type is needed");
    if (state < 0) return NULL;
    Py_RETURN_NONE;
}

PyObject *blocks_fill_method(Blocks *self, PyObject *const *given, Py_ssize_t count) {
    PyObject *items, *keys;
    if (!two_lists(self, given, count, &items, &keys)) return NULL;
    int state = fill(self, items, keys);
    Py_DECREF(keys);
    return state < 0 ? NULL : PyBool_FromLong(state);
}

/* Removes positions by rebuilding the blocks of the rest. */
static int cut_run(Blocks *self, size_t first, size_t past, int has_keys) {
    unsigned long long changes = self->changes;
    PyObject *left[2] = {NULL, NULL};
    int state = 1;
    for (int i = 0; state == 1 && i <= has_keys; i++) {
        PyObject *behind = blocks_list(self, past, self->length, i);
        left[i] = behind ? blocks_list(self, 0, first, i) : NULL;
        state = left[i] && PyList_SetSlice(left[i], PY_SSIZE_T_MAX, PY_SSIZE_T_MAX, behind) == 0 ? 1 : -1;
        Py_XDECREF(behind);
    }
    if (state == 1) state = is_same(self, changes) ? blocks_fill(self, left[0], left[1]) : -1;
    Py_XDECREF(left[0]);
    Py_XDECREF(left[1]);
    return state;
}

/* Moves all objects into an order, which is empty. */
static int settle(Blocks *self, PyObject *order) {
    uint64_t code;
    int state = 1;
    for (size_t b = 0; b < self->count; b++) {
        const Block *block = self->blocks + b;
        for (size_t i = 0; i < AHEAD && i < block->count; i++) __builtin_prefetch(block->items[i], 1);
        for (size_t i = 0; state == 1 && i < block->count; i++) {
            if (i + AHEAD < block->count) __builtin_prefetch(block->items[i + AHEAD], 1);
            if (Py_TYPE(order) != &NumbersType)
                state = object_index_add_keyed(order, block->items[i], block->keys[i]);
            else
                state = number_code(self->by, block->items[i], &code)
                            ? numbers_put((Numbers *)order, code, block->items[i])
                            : NOT_OWN;
        }
    }
    return state;
}

PyObject *blocks_settle_method(Blocks *self, PyObject *order) {
    if (!is_order(order) || (Py_TYPE(order) != &NumbersType && IS_BLOCKS(order)))
        return PyErr_Occurred() ? NULL : PyErr_Format(PyExc_TypeError, "an order of the library is needed");
    int state = settle(self, order);
    return state == -1 ? NULL : PyBool_FromLong(state == 1);
}

/* Removes positions; the objects and keys are released afterwards. */
static int cut(Blocks *self, size_t first, size_t past) {
    unsigned long long changes = self->changes;
    Py_ssize_t count = (Py_ssize_t)(past - first);
    PyObject *items = PyList_New(count), *keys = items && self->key ? PyList_New(count) : NULL;
    int state = items && (keys || !self->key) && is_same(self, changes) ? 1 : -1;
    if (state == 1)
        blocks_cut(self, first, past, PySequence_Fast_ITEMS(items), keys ? PySequence_Fast_ITEMS(keys) : NULL);
    Py_XDECREF(keys);
    Py_XDECREF(items);
    return state;
}

PyObject *blocks_cut_method(Blocks *self, PyObject *const *given, Py_ssize_t count) {
    size_t first, past;
    if (!two_positions(given, count, &first, &past)) return NULL;
    past = past < self->length ? past : self->length;
    if (first >= past) Py_RETURN_NONE;
    int is_most = 2 * (past - first) > self->length;
    if ((is_most ? cut_run(self, first, past, self->key != NULL) : cut(self, first, past)) < 0) return NULL;
    Py_RETURN_NONE;
}
