/* Sorting of objects by their sort keys: numbers by their codes, others as `list.sort` does. */
#include "speedups.h"

/* A number to sort: its code, and its index. */
typedef struct {
    uint64_t code;
    uint64_t at;
} Ranked;

/* Sorts by one byte of the codes into another array, unless all are the same; returns whether it did. */
static int pass(const Ranked *from, Ranked *to, size_t count, unsigned shift) {
    size_t places[256] = {0}, sum = 0;
    for (size_t i = 0; i < count; i++) places[from[i].code >> shift & 255]++;
    if (places[from[0].code >> shift & 255] == count) return 0;
    for (size_t i = 0; i < 256; i++) {
        size_t size = places[i];
        places[i] = sum;
        sum += size;
    }
    for (size_t i = 0; i < count; i++) to[places[from[i].code >> shift & 255]++] = from[i];
    return 1;
}

/* The maximum number of items that are moved one by one. */
#define SOME 48

static Ranked *insertion_sort(Ranked *items, size_t count) {
    for (size_t i = 1; i < count; i++) {
        Ranked item = items[i];
        size_t at = i;
        for (; at > 0 && items[at - 1].code > item.code; at--) items[at] = items[at - 1];
        items[at] = item;
    }
    return items;
}

/* Sorts by all bytes, from the last to the first: the sort is stable. */
static Ranked *radix_sort(Ranked *items, Ranked *room, size_t count) {
    if (count <= SOME) return insertion_sort(items, count);
    for (unsigned shift = 0; shift < 64; shift += 8)
        if (pass(items, room, count, shift)) {
            Ranked *sorted = room;
            room = items;
            items = sorted;
        }
    return items;
}

/* Puts the objects of a list into the order of some numbers. */
static void arrange(PyObject *list, const Ranked *order, size_t count, PyObject **room) {
    PyObject **items = PySequence_Fast_ITEMS(list);
    memcpy(room, items, count * sizeof *room);
    for (size_t i = 0; i < count; i++) items[i] = room[order[i].at];
}

void codes_of_groups(enum kind by, PyObject *const *keys, size_t count, uint64_t *codes) {
    for (size_t i = 0; i < count / GROUP; i++) number_code(by, keys[i * GROUP + GROUP - 1], codes + i);
}

/* Merges two consecutive runs into another array. */
static void merge(const Ranked *from, size_t half, size_t count, Ranked *to) {
    size_t left = 0, right = half;
    for (size_t at = 0; at < count; at++) {
        int is_right = left == half || (right < count && from[right].code < from[left].code);
        to[at] = is_right ? from[right++] : from[left++];
    }
}

/* The maximum number of ascending runs that are merged. */
#define RUNS 8

/* Sorts consecutive runs, which end at these places. */
static Ranked *merge_runs(Ranked *items, Ranked *room, size_t *ends, size_t runs) {
    for (; runs > 1; runs = (runs + 1) / 2) {
        for (size_t i = 0; i < runs; i += 2) {
            size_t first = i ? ends[i - 1] : 0, past = i + 1 < runs ? ends[i + 1] : ends[i];
            merge(items + first, ends[i] - first, past - first, room + first);
        }
        for (size_t i = 0; i < runs; i += 2) /* (of ends that are not read again) */
            ends[i / 2] = i + 1 < runs ? ends[i + 1] : ends[i];
        Ranked *merged = room;
        room = items;
        items = merged;
    }
    return items;
}

/* Writes the codes of keys and the ends of the first runs. Returns the number of runs, RUNS + 1 if there are more, or 0
 * if a key is not of the kind's own type. */
static size_t codes_of(enum kind by, PyObject *keys, Ranked *codes, size_t count, size_t *ends) {
    size_t runs = 1;
    for (size_t i = 0; i < count; i++) {
        codes[i].at = i;
        if (!number_code(by, PyList_GET_ITEM(keys, i), &codes[i].code)) return 0;
        if (i > 0 && codes[i].code < codes[i - 1].code && runs <= RUNS) ends[runs++ - 1] = i;
    }
    ends[runs - 1] = count;
    return runs;
}

/* Returns whether keys ascend: 1, or 0, also if one is not of the kind's own type. */
static int ascends(enum kind by, PyObject *keys) {
    uint64_t code, before = 0;
    for (Py_ssize_t i = 0; i < PyList_GET_SIZE(keys); i++, before = code)
        if (!number_code(by, PyList_GET_ITEM(keys, i), &code) || code < before) return 0;
    return 1;
}

static int sort_numbers(enum kind by, PyObject *items, PyObject *keys) {
    size_t ends[RUNS + 1], count = (size_t)PyList_GET_SIZE(items);
    if (ascends(by, keys ? keys : items)) return 1;
    Ranked *codes = PyMem_Malloc(2 * count * sizeof *codes);
    if (codes == NULL) {
        PyErr_NoMemory();
        return -1;
    }
    size_t runs = codes_of(by, keys ? keys : items, codes, count, ends);
    if (runs > 1) {
        Ranked *room = codes + count,
               *order = runs <= RUNS ? merge_runs(codes, room, ends, runs) : radix_sort(codes, room, count);
        room = order == codes ? codes + count : codes;
        arrange(items, order, count, (PyObject **)room);
        if (keys != NULL) arrange(keys, order, count, (PyObject **)room);
    }
    PyMem_Free(codes);
    return runs > 0;
}

/* ---- by `<`: `list.sort` sorts the places of an array of objects that have no content, and calls a function for the
 * sort key of each; the array then has the order. No Python code meets these objects. */

PyTypeObject PlaceType = {
    PyVarObject_HEAD_INIT(NULL, 0).tp_name = "indexset._speedups.Place",
    .tp_doc = "A place in an array that is sorted.",
    .tp_basicsize = sizeof(PyObject),
    .tp_flags = Py_TPFLAGS_DEFAULT,
};

typedef struct {
    PyObject *places; /* an array */
    PyObject *keys;   /* a list */
} Places;

static PyObject *key_of_place(PyObject *capsule, PyObject *place) {
    const Places *it = PyCapsule_GetPointer(capsule, NULL);
    if (it == NULL) return NULL;
    PyObject *key = PyList_GET_ITEM(it->keys, place - it->places);
    Py_INCREF(key);
    return key;
}

static PyMethodDef key_method = {"key_of_place", key_of_place, METH_O, NULL};

/* Sorts a list of places. */
static int sort_list(PyObject *list, Places *it) {
    PyObject *capsule = PyCapsule_New(it, NULL, NULL), *key = capsule ? PyCFunction_New(&key_method, capsule) : NULL;
    PyObject *sort = key ? PyObject_GetAttrString(list, "sort") : NULL,
             *words = sort ? Py_BuildValue("{sO}", "key", key) : NULL;
    PyObject *none = words ? PyTuple_New(0) : NULL, *done = none ? PyObject_Call(sort, none, words) : NULL;
    Py_XDECREF(capsule);
    Py_XDECREF(key);
    Py_XDECREF(sort);
    Py_XDECREF(words);
    Py_XDECREF(none);
    Py_XDECREF(done);
    return done ? 1 : -1;
}

/* Returns the places of some keys in their order, as a list; NULL with an error set. */
static PyObject *sorted_places(Places *it, size_t count) {
    PyObject *list = PyList_New((Py_ssize_t)count);
    if (list == NULL) return NULL;
    for (size_t i = 0; i < count; i++) {
        Py_INCREF(it->places + i);
        PyList_SET_ITEM(list, (Py_ssize_t)i, it->places + i);
    }
    if (sort_list(list, it) < 0) Py_CLEAR(list);
    return list;
}

/* Puts the objects of a list into the order of some places. */
static void arrange_by(PyObject *list, PyObject *order, const PyObject *places, PyObject **room) {
    PyObject **items = PySequence_Fast_ITEMS(list);
    Py_ssize_t count = PyList_GET_SIZE(list);
    for (Py_ssize_t i = 0; i < count; i++) room[i] = items[PyList_GET_ITEM(order, i) - places];
    memcpy(items, room, (size_t)count * sizeof *room);
}

/* Frees places, unless something still refers to one. */
static void free_places(PyObject *places, size_t count) {
    for (size_t i = 0; i < count; i++)
        if (Py_REFCNT(places + i) != 1) return;
    PyMem_Free(places);
}

/* Sorts both lists in the order of the keys, by `<`. */
static int sort_by_keys(PyObject *items, PyObject *keys) {
    size_t count = (size_t)PyList_GET_SIZE(items);
    PyObject **room = PyMem_Malloc((count + 1) * sizeof *room);
    Places it = {room ? PyMem_Malloc((count + 1) * sizeof *it.places) : NULL, keys};
    if (it.places == NULL) {
        PyMem_Free(room);
        PyErr_NoMemory();
        return -1;
    }
    for (size_t i = 0; i < count; i++) PyObject_Init(it.places + i, &PlaceType);
    PyObject *order = sorted_places(&it, count);
    if (order != NULL) {
        arrange_by(items, order, it.places, room);
        arrange_by(keys, order, it.places, room);
        Py_DECREF(order);
    }
    free_places(it.places, count);
    PyMem_Free(room);
    return order != NULL ? 1 : -1;
}

/* Returns whether all keys of a list are of the own type of a kind of texts or byte strings. */
static int are_own(enum kind by, PyObject *keys) {
    PyTypeObject *type = by == TEXT ? &PyUnicode_Type : &PyBytes_Type;
    for (Py_ssize_t i = 0; i < PyList_GET_SIZE(keys); i++)
        if (Py_TYPE(PyList_GET_ITEM(keys, i)) != type) return 0;
    return 1;
}

int blocks_sort(enum kind by, PyObject *items, PyObject *keys) {
    if (by <= FLOAT64) return sort_numbers(by, items, keys);
    if (by != OTHER && !are_own(by, keys ? keys : items)) return 0;
    return keys ? sort_by_keys(items, keys) : PyList_Sort(items) < 0 ? -1 : 1;
}
