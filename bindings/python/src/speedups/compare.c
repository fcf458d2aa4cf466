/* Comparisons of objects in blocks. One by `<` may run any code: its arguments are held meanwhile, and it is an error
 * if the blocks have changed. */
#include "speedups.h"

/* The sought key, and its code if the kind is one of numbers. */
typedef struct {
    PyObject *key;
    uint64_t code;
} Probe;

PyObject *blocks_key(Blocks *self, PyObject *item) {
    if (self->key != NULL) return PyObject_CallOneArg(self->key, item);
    Py_INCREF(item);
    return item;
}

/* ---- comparisons */

/* Returns whether an object is below another: 1 or 0, or -1 with an error set. Objects of one type are compared by its
 * own function, as `list.sort` does. */
static int less(PyObject *one, PyObject *other) {
    richcmpfunc compare = Py_TYPE(one)->tp_richcompare;
    if (compare == NULL || Py_TYPE(one) != Py_TYPE(other)) return PyObject_RichCompareBool(one, other, Py_LT);
    PyObject *answer = compare(one, other, Py_LT);
    if (answer == Py_NotImplemented) {
        Py_DECREF(answer);
        return PyObject_RichCompareBool(one, other, Py_LT);
    }
    int state = answer == Py_True ? 1 : answer == Py_False ? 0 : answer ? PyObject_IsTrue(answer) : -1;
    Py_XDECREF(answer);
    return state;
}

static int bytes_order(PyObject *one, PyObject *other) {
    Py_ssize_t first = PyBytes_GET_SIZE(one), second = PyBytes_GET_SIZE(other);
    int order = memcmp(PyBytes_AS_STRING(one), PyBytes_AS_STRING(other), (size_t)(first < second ? first : second));
    return order ? order : (first > second) - (first < second);
}

/* Returns whether a sort key of the blocks is before the sought key by `<`, or, to the right, not after it. */
static int is_before_object(Blocks *self, PyObject *other, PyObject *key, int right) {
    unsigned long long changes = self->changes;
    Py_INCREF(other);
    int state = right ? less(key, other) : less(other, key);
    Py_DECREF(other);
    if (state >= 0 && changes != self->changes) {
        PyErr_SetString(PyExc_RuntimeError, "it changed during a comparison");
        return -1;
    }
    return state < 0 ? -1 : right ? !state : state;
}

static inline int is_before(Blocks *self, PyObject *other, const Probe *probe, int right) {
    uint64_t code = 0;
    int order;
    switch (self->by) {
    case OTHER: return is_before_object(self, other, probe->key, right);
    case TEXT: order = PyUnicode_Compare(other, probe->key); break;
    case BYTES: order = bytes_order(other, probe->key); break;
    default: number_code(self->by, other, &code); order = (code > probe->code) - (code < probe->code);
    }
    return order < right;
}

/* Makes the sought key. Returns 1, or NOT_OWN. */
static int probe_of(Blocks *self, PyObject *key, Probe *probe) {
    *probe = (Probe){.key = key};
    switch (self->by) {
    case OTHER: return 1;
    case TEXT: return PyUnicode_CheckExact(key) ? 1 : NOT_OWN;
    case BYTES: return PyBytes_CheckExact(key) ? 1 : NOT_OWN;
    default: return number_code(self->by, key, &probe->code) ? 1 : NOT_OWN;
    }
}

int blocks_is_own(Blocks *self, PyObject *key) {
    Probe probe;
    return probe_of(self, key, &probe) == 1;
}

/* ---- places */

/* Returns the first block whose last key is not before the sought key, or -1 with an error set. */
static Py_ssize_t block_of(Blocks *self, const Probe *probe, int right) {
    size_t low = 0, high = self->count;
    while (low < high) {
        size_t middle = (low + high) / 2;
        int state = is_before(self, self->blocks[middle].last, probe, right);
        if (state < 0) return -1;
        low = state ? middle + 1 : low;
        high = state ? high : middle;
    }
    return (Py_ssize_t)low;
}

/* Returns, among numbers of a kind, the number of sort keys with codes below a limit: by the stored codes, without a
 * branch on one, and then by those of the group. */
static size_t count_below(Blocks *self, uint64_t limit) {
    const uint64_t *codes = self->codes;
    size_t left = self->length / GROUP;
    for (size_t half; left > 1; left -= half) {
        half = left / 2;
        codes += codes[half - 1] < limit ? half : 0;
    }
    codes += left == 1 && codes[0] < limit;
    size_t position = (size_t)(codes - self->codes) * GROUP, below = 0;
    PyObject **keys = position < self->length ? self->blocks[position / FILLED].keys + position % FILLED : NULL;
    for (size_t i = 0; i < GROUP - 1 && position + i < self->length; i++) {
        uint64_t code = 0;
        number_code(self->by, keys[i], &code);
        below += code < limit;
    }
    return position + below;
}

static int bound_number(Blocks *self, uint64_t code, int right, Place *place) {
    size_t position = right && code == UINT64_MAX ? self->length : count_below(self, code + (uint64_t)right);
    *place = position == self->length && self->count > 0 ? (Place){self->count - 1, self->blocks[self->count - 1].count}
                                                         : (Place){position / FILLED, position % FILLED};
    return 1;
}

static int bound(Blocks *self, const Probe *probe, int right, Place *place) {
    if (self->codes != NULL) return bound_number(self, probe->code, right, place);
    Py_ssize_t at = block_of(self, probe, right);
    if (at < 0) return -1;
    if ((size_t)at == self->count) { /* after all */
        *place = at > 0 ? (Place){(size_t)at - 1, self->blocks[at - 1].count} : (Place){0, 0};
        return 1;
    }
    size_t low = 0, high = self->blocks[at].count - 1;
    while (low < high) {
        size_t middle = (low + high) / 2;
        int state = is_before(self, self->blocks[at].keys[middle], probe, right);
        if (state < 0) return -1;
        low = state ? middle + 1 : low;
        high = state ? high : middle;
    }
    *place = (Place){(size_t)at, low};
    return 1;
}

int blocks_bound(Blocks *self, PyObject *key, int right, Place *place) {
    Probe probe;
    int state = probe_of(self, key, &probe);
    return state == 1 ? bound(self, &probe, right, place) : state;
}

void blocks_bound_code(Blocks *self, uint64_t code, Place *place) {
    Probe probe = {NULL, code};
    bound(self, &probe, 0, place);
}

/* ---- equals */

int blocks_are_equal(Blocks *self, PyObject *one, PyObject *other) {
    Probe probe;
    probe_of(self, other, &probe);
    return !is_before(self, one, &probe, 0) && is_before(self, one, &probe, 1);
}

/* Returns whether the object at a place equals a value: 1, 0, or -1 with an error set. */
static int is_equal(Blocks *self, Place at, PyObject *value) {
    unsigned long long changes = self->changes;
    PyObject *item = self->blocks[at.block].items[at.index];
    Py_INCREF(item);
    int state = PyObject_RichCompareBool(item, value, Py_EQ);
    Py_DECREF(item);
    if (state >= 0 && changes != self->changes) {
        PyErr_SetString(PyExc_RuntimeError, "it changed during a comparison");
        return -1;
    }
    return state;
}

/* Finds the first equal object from a place on with a sort key. */
static int find(Blocks *self, PyObject *value, const Probe *probe, Place *at) {
    for (; at->block < self->count; at->index++) {
        if (at->index == self->blocks[at->block].count) {
            *at = (Place){at->block + 1, (size_t)-1};
            continue;
        }
        int state = is_equal(self, *at, value);
        if (state != 0) return state;
        state = is_before(self, self->blocks[at->block].keys[at->index], probe, 1);
        if (state != 1) return state;
    }
    return 0;
}

int blocks_find(Blocks *self, PyObject *value, size_t from, Place *place) {
    Probe probe;
    PyObject *key = blocks_key(self, value);
    int state = key ? probe_of(self, key, &probe) : -1;
    if (state == 1) state = bound(self, &probe, 0, place);
    if (state == 1 && from > 0 && from >= self->length) state = 0;
    if (state == 1 && from > blocks_before(self, place->block) + place->index) *place = blocks_place(self, from);
    if (state == 1) state = find(self, value, &probe, place);
    Py_XDECREF(key);
    return state;
}
