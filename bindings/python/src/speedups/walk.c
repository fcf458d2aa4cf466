/* Iterators over positions, and functions shared by the methods of the collections. */
#include "speedups.h"

/* The number of objects that are prefetched before they are returned. */
#define AHEAD 32

/* The number of items from which on a part is read by a cursor, without a search: an iterator reads 1, 8, 64 .. at a
 * time. */
#define WALKED 64

/* ---- parts */

size_t length_of(PyObject *owner) {
    if (Py_TYPE(owner) == &NumbersType) return indexset_map_len(&((Numbers *)owner)->map);
    if (IS_BLOCKS(owner)) return ((Blocks *)owner)->length;
    return (size_t)(IS_MULTI(owner) ? multi_length((Multi *)owner) : coded_length((Coded *)owner));
}

/* The addresses of the objects are known by then, so that some of them are fetched concurrently, and each later one
 * this many items before it is returned. */
static size_t read_blocks(PyObject *owner, size_t from, size_t size, Part *part) {
    return blocks_read((Blocks *)owner, from, 0, (PyObject **)part->objects, size);
}

static inline void fetch(const Part *part, size_t i) {
    if (i < part->count) __builtin_prefetch(OBJECT(part->objects[i]), 1);
}

static inline void fetch_first(const Part *part) {
    for (size_t i = 0; i < AHEAD && i < part->count; i++) fetch(part, i);
}

void read_part(PyObject *owner, size_t from, size_t size, Part *part) {
    if (Py_TYPE(owner) == &NumbersType)
        part->count =
            indexset_map_range_by_position(&((Numbers *)owner)->map, from, part->codes, size, part->objects, size);
    else if (IS_BLOCKS(owner))
        part->count = read_blocks(owner, from, size, part);
    else if (IS_MULTI(owner))
        part->count =
            indexset_multi_range_by_position(&((Multi *)owner)->pairs, from, part->codes, size, part->objects, size);
    else
        part->count = indexset_text_map_range_by_position(((Coded *)owner)->map, from, part->objects, size);
    fetch_first(part);
}

/* Sets a cursor to a position. */
static indexset_cursor cursor_at(PyObject *owner, size_t position) {
    indexset_cursor cursor = INDEXSET_CURSOR;
    if (position > 0 && Py_TYPE(owner) == &NumbersType)
        indexset_map_cursor_at(&((Numbers *)owner)->map, position, &cursor);
    else if (position > 0 && IS_MULTI(owner))
        indexset_multi_cursor_at(&((Multi *)owner)->pairs, position, &cursor);
    return cursor;
}

/* Reads the items from a position on, which is that of the cursor, and moves the cursor past them. Those at byte
 * strings are read by position, which writes no lengths. */
static void read_on(PyObject *owner, indexset_cursor *cursor, size_t from, size_t size, Part *part) {
    if (Py_TYPE(owner) == &NumbersType)
        part->count =
            indexset_map_cursor_next(&((Numbers *)owner)->map, cursor, part->codes, size, part->objects, size);
    else if (IS_BLOCKS(owner))
        part->count = read_blocks(owner, from, size, part);
    else if (IS_MULTI(owner))
        part->count =
            indexset_multi_cursor_next(&((Multi *)owner)->pairs, cursor, part->codes, size, part->objects, size);
    else
        part->count = indexset_text_map_range_by_position(((Coded *)owner)->map, from, part->objects, size);
    fetch_first(part);
}

/* Returns an item of a part, as a new reference. */
static inline PyObject *item_of(PyObject *owner, const Part *part, size_t i) {
    PyObject *item = OBJECT(part->objects[i]);
    if (item == NULL) return number_of(((Numbers *)owner)->kind, part->codes[i]);
    Py_INCREF(item);
    return item;
}

/* Fills the list from a place on with the items of a part. */
static int put_part(PyObject *owner, const Part *part, PyObject *list, size_t place) {
    for (size_t i = 0; i < part->count; i++) {
        fetch(part, i + AHEAD);
        PyObject *item = item_of(owner, part, i);
        if (item == NULL) return 0;
        PyList_SET_ITEM(list, (Py_ssize_t)(place + i), item);
    }
    return 1;
}

static PyObject *chunk_of_held(PyObject *owner, size_t first, size_t past) {
    size_t length = length_of(owner);
    past = past < length ? past : length;
    first = first < past ? first : past;
    PyObject *made = PyList_New((Py_ssize_t)(past - first));
    Part part;
    indexset_cursor cursor = INDEXSET_CURSOR;
    if (made != NULL && first < past) cursor = cursor_at(owner, first);
    for (size_t at = first; made != NULL && at < past; at += part.count) {
        read_on(owner, &cursor, at, past - at < CHUNK ? past - at : CHUNK, &part);
        if (part.count == 0) /* the list was made, and a `__del__` ran */
            PyErr_SetString(PyExc_RuntimeError, "it changed meanwhile");
        if (part.count == 0 || !put_part(owner, &part, made, at - first)) Py_CLEAR(made);
    }
    return made;
}

PyObject *chunk_of(PyObject *owner, size_t first, size_t past) {
    Py_INCREF(owner);
    PyObject *made = chunk_of_held(owner, first, past);
    Py_DECREF(owner);
    return made;
}

int two_positions(PyObject *const *given, Py_ssize_t count, size_t *first, size_t *past) {
    if (count < 2) {
        PyErr_SetString(PyExc_TypeError, "two positions are needed");
        return 0;
    }
    Py_ssize_t ends[2];
    for (int i = 0; i < 2; i++) {
        ends[i] = PyNumber_AsSsize_t(given[i], NULL);
        if (ends[i] == -1 && PyErr_Occurred()) return 0;
    }
    *first = ends[0] < 0 ? 0 : (size_t)ends[0];
    *past = ends[1] < 0 ? 0 : (size_t)ends[1];
    return 1;
}

PyObject *chunk_method(PyObject *self, PyObject *const *given, Py_ssize_t count) {
    size_t first, past;
    return two_positions(given, count, &first, &past) ? chunk_of(self, first, past) : NULL;
}

PyObject *walk_method(PyObject *self, PyObject *const *given, Py_ssize_t count) {
    size_t first, past;
    if (!two_positions(given, count, &first, &past)) return NULL;
    int reverse = count > 2 ? PyObject_IsTrue(given[2]) : 0;
    return reverse < 0 ? NULL : walk_new(self, first, past, reverse);
}

/* ---- iterators */

typedef struct {
    PyObject_HEAD PyObject *owner; /* Numbers, Coded, Multi or Blocks; NULL at the end */
    size_t first, past;
    unsigned long long *counter, changes; /* of the owner, now and at the start */
    int reverse;
    size_t at, next;        /* in `part`, and the number of items to read next */
    indexset_cursor cursor; /* at `first`, after several parts, if it moves forward */
    Part part;
} Walk;

PyObject *walk_new(PyObject *owner, size_t first, size_t past, int reverse) {
    Py_INCREF(owner); /* before the iterator is made, which may run a `__del__` */
    Walk *self = PyObject_GC_New(Walk, &WalkType);
    if (self == NULL) {
        Py_DECREF(owner);
        return NULL;
    }
    int is_numbers = Py_TYPE(owner) == &NumbersType;
    size_t length = length_of(owner);
    self->owner = owner;
    self->past = past < length ? past : length;
    self->first = first < self->past ? first : self->past;
    self->counter = is_numbers ? &((Numbers *)owner)->changes : &((ObjectIndex *)owner)->changes;
    self->changes = *self->counter;
    self->reverse = reverse;
    self->at = self->part.count = 0;
    self->next = 1;
    PyObject_GC_Track(self);
    return (PyObject *)self;
}

static int walk_traverse(Walk *self, visitproc visit, void *arg) {
    Py_VISIT(self->owner);
    return 0;
}

static int walk_clear(Walk *self) {
    Py_CLEAR(self->owner);
    return 0;
}

static void walk_dealloc(Walk *self) {
    PyObject_GC_UnTrack(self);
    walk_clear(self);
    PyObject_GC_Del(self);
}

/* Reads the next items; 0 if there are none. */
static int read_more(Walk *self) {
    size_t left = self->past - self->first, size = left < self->next ? left : self->next;
    if (size == 0) return 0;
    if (self->reverse) {
        read_part(self->owner, self->past -= size, size, &self->part);
    } else {
        if (self->next == WALKED) self->cursor = cursor_at(self->owner, self->first);
        if (self->next < WALKED)
            read_part(self->owner, self->first, size, &self->part);
        else
            read_on(self->owner, &self->cursor, self->first, size, &self->part);
        self->first += size;
    }
    for (size_t i = AHEAD; self->reverse && i < self->part.count; i++) fetch(&self->part, i);
    self->at = 0;
    self->next = self->next * 8 < CHUNK ? self->next * 8 : CHUNK;
    return 1;
}

/* Returns the next item at the end of a part, at the end, after a change, or backwards. */
static PyObject *next_of_any(Walk *self) {
    if (self->owner == NULL) return NULL;
    if (*self->counter != self->changes) {
        Py_CLEAR(self->owner);
        PyErr_SetString(PyExc_RuntimeError, "it changed during iteration");
        return NULL;
    }
    if (self->at == self->part.count && !read_more(self)) {
        Py_CLEAR(self->owner);
        return NULL;
    }
    size_t at = self->at++;
    if (self->reverse) return item_of(self->owner, &self->part, self->part.count - 1 - at);
    fetch(&self->part, at + AHEAD);
    return item_of(self->owner, &self->part, at);
}

/* Returns the next item of the part that was read, if that is an object. */
static PyObject *walk_next(Walk *self) {
    size_t at = self->at;
    if (self->owner != NULL && at < self->part.count && !self->reverse && *self->counter == self->changes) {
        PyObject *item = OBJECT(self->part.objects[at]);
        if (item != NULL) {
            self->at = at + 1;
            fetch(&self->part, at + AHEAD);
            Py_INCREF(item);
            return item;
        }
    }
    return next_of_any(self);
}

static PyObject *length_hint(Walk *self, PyObject *nothing) {
    (void)nothing;
    return PyLong_FromSize_t(self->owner ? self->part.count - self->at + self->past - self->first : 0);
}

/* A pickle of an iterator is that of the list of its remaining items. */
static PyObject *reduce(Walk *self, PyObject *nothing) {
    (void)nothing;
    size_t left = self->part.count - self->at;
    PyObject *items = self->owner == NULL ? PyList_New(0)
                      : self->reverse     ? chunk_of(self->owner, self->first, self->past + left)
                                          : chunk_of(self->owner, self->first - left, self->past);
    if (items == NULL || (self->reverse && PyList_Reverse(items) < 0)) {
        Py_XDECREF(items);
        return NULL;
    }
    PyObject *builtins = PyEval_GetBuiltins(), *iter = builtins ? PyDict_GetItemString(builtins, "iter") : NULL;
    if (iter == NULL) {
        Py_DECREF(items);
        return NULL;
    }
    return Py_BuildValue("O(N)", iter, items);
}

static PyMethodDef methods[] = {
    {"__length_hint__", (PyCFunction)length_hint, METH_NOARGS, NULL},
    {"__reduce__", (PyCFunction)reduce, METH_NOARGS, NULL},
    {0},
};

PyTypeObject WalkType = {
    PyVarObject_HEAD_INIT(NULL, 0).tp_name = "indexset._speedups.Walk",
    .tp_doc = "An iterator over positions. Raises RuntimeError after a change.",
    .tp_basicsize = sizeof(Walk),
    .tp_flags = Py_TPFLAGS_DEFAULT | Py_TPFLAGS_HAVE_GC,
    .tp_dealloc = (destructor)walk_dealloc,
    .tp_traverse = (traverseproc)walk_traverse,
    .tp_clear = (inquiry)walk_clear,
    .tp_iter = PyObject_SelfIter,
    .tp_iternext = (iternextfunc)walk_next,
    .tp_methods = methods,
};
