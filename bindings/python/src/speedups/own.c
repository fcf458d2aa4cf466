/* Items whose sort keys are of the kind's own type: encoded, added, found and removed without Python code. */
#include "speedups.h"

#define SHORT 120

/* A code: the bytes of the item itself, or bytes with room for the number that may follow them. */
typedef struct {
    unsigned char *data, *owned;
    size_t size;
    unsigned char brief[SHORT];
} Code;

static void drop(Code *code) { PyMem_Free(code->owned); }

static void put_number(unsigned char *to, uint64_t number) {
    for (int i = 0; i < 8; i++) to[i] = (unsigned char)(number >> (56 - 8 * i));
}

/* Makes room for a code of a number of bytes; 0 with an error set. */
static int make_room(Code *code, size_t size) {
    code->owned = size + 9 <= SHORT ? NULL : PyMem_Malloc(size + 9);
    code->data = size + 9 <= SHORT ? code->brief : code->owned;
    if (code->data == NULL) PyErr_NoMemory();
    return code->data != NULL;
}

/* Writes the bytes of a text or a byte string, framed as in `_tuple.py`. */
static int encode_framed(Code *code, const char *data, size_t size, unsigned char first) {
    size_t zeros = 0;
    for (size_t i = 0; i < size; i++) zeros += data[i] == 0;
    if (!make_room(code, size + zeros + 2)) return -1;
    unsigned char *to = code->data;
    *to++ = first;
    if (zeros == 0) {
        memcpy(to, data, size);
        to += size;
    }
    for (size_t i = 0; zeros != 0 && i < size; i++) {
        *to++ = (unsigned char)data[i];
        if (data[i] == 0) *to++ = 0xFF;
    }
    *to++ = 0;
    code->size = (size_t)(to - code->data);
    return 1;
}

/* Writes the bytes of a text or a byte string, framed if sort keys may repeat: they do if a function makes them. */
static int encode_bytes(Coded *self, Code *code, const char *data, size_t size, unsigned char first) {
    if (self->repeats || self->key != NULL) return encode_framed(code, data, size, first);
    code->data = (unsigned char *)data;
    code->owned = NULL;
    code->size = size;
    return 1;
}

/* Encodes a sort key. Returns 1, NOT_OWN, or -1. */
static int encode(Coded *self, PyObject *key, Code *code) {
    if (self->kind == BYTES && PyBytes_CheckExact(key))
        return encode_bytes(self, code, PyBytes_AS_STRING(key), (size_t)PyBytes_GET_SIZE(key), 1);
    if (self->kind != TEXT || !PyUnicode_CheckExact(key)) return NOT_OWN;
    Py_ssize_t size;
    const char *text = PyUnicode_AsUTF8AndSize(key, &size);
    if (text == NULL) { /* a lone surrogate */
        PyErr_Clear();
        return NOT_OWN;
    }
    return encode_bytes(self, code, text, (size_t)size, 2);
}

/* Encodes the sort key of an item. */
static int encode_item(Coded *self, PyObject *item, Code *code) {
    if (self->kind == OTHER) return NOT_OWN;
    if (self->key == NULL) return encode(self, item, code);
    PyObject *key = PyObject_CallOneArg(self->key, item);
    int state = key ? encode(self, key, code) : -1;
    Py_XDECREF(key);
    return state;
}

/* Writes the positions of a code, which gets one more byte if sort keys may repeat. Returns 1, or -1 with an error
 * set. */
static int places_of(Coded *self, Code *code, size_t *first, size_t *past) {
    *first = indexset_text_map_rank(self->map, code->data, code->size);
    if (!self->repeats) {
        *past = *first + indexset_text_map_contains(self->map, code->data, code->size);
        return 1;
    }
    code->data[code->size] = 0xFE;
    *past = indexset_text_map_rank(self->map, code->data, code->size + 1);
    return 1;
}

int own_places(Coded *self, PyObject *key, size_t *first, size_t *past) {
    Code code;
    int state = encode(self, key, &code);
    if (state != 1) return state;
    state = places_of(self, &code, first, past);
    drop(&code);
    return state;
}

static Py_ssize_t bisect_code(Coded *self, Code *code, int right) {
    if (right && self->repeats) code->data[code->size++] = 0xFE;
    size_t position = indexset_text_map_rank(self->map, code->data, code->size);
    if (right && !self->repeats) position += indexset_text_map_contains(self->map, code->data, code->size);
    return (Py_ssize_t)position;
}

Py_ssize_t own_bisect(Coded *self, PyObject *value, int right) {
    Code code;
    if (coded_length(self) == 0) return 0;
    int state = encode_item(self, value, &code);
    if (state != 1) return state;
    Py_ssize_t position = bisect_code(self, &code, right);
    drop(&code);
    return position;
}

/* Returns whether an object is at a code. If sort keys may repeat, the code becomes the complete one of the first
 * object. */
static int is_there(Coded *self, Code *code) {
    if (!self->repeats) return indexset_text_map_contains(self->map, code->data, code->size);
    unsigned char found[SHORT + 9], *whole = found;
    size_t size, wanted = code->size + 8;
    uint64_t place;
    if (wanted > sizeof found && (whole = PyMem_Malloc(wanted)) == NULL) {
        PyErr_NoMemory();
        return -1;
    }
    int is_first = indexset_text_map_lower_bound(self->map, code->data, code->size, whole, wanted, &size, &place);
    is_first = is_first && size == wanted && memcmp(whole, code->data, code->size) == 0;
    if (is_first) memcpy(code->data, whole, wanted);
    code->size += is_first ? 8 : 0;
    if (whole != found) PyMem_Free(whole);
    return is_first;
}

/* An item equals the items with its code if it orders itself: the types are the kind's own. */
int own_contains(Coded *self, PyObject *item) {
    Code code;
    int state = self->key == NULL ? encode(self, item, &code) : NOT_OWN;
    if (state != 1) return state;
    state = is_there(self, &code);
    drop(&code);
    return state;
}

int own_discard(Coded *self, PyObject *item) {
    Code code;
    PyObject *taken = NULL;
    int state = self->key == NULL ? encode(self, item, &code) : NOT_OWN;
    if (state != 1) return state;
    state = self->repeats ? is_there(self, &code) : 1;
    if (state == 1) state = coded_remove(self, code.data, code.size, &taken);
    drop(&code);
    Py_XDECREF(taken);
    return state;
}

/* Adds an item, also to the set of the items, if given. Returns 1, or 0 if it is present. */
static int add_code(Coded *self, PyObject *item, PyObject *members, Code *code) {
    int state = join(members, item);
    if (state != 1) return state;
    if (self->repeats) {
        put_number(code->data + code->size, self->added++);
        code->size += 8;
    }
    return joined(members, item, coded_insert(self, code->data, code->size, item) < 0 ? -1 : 1);
}

int own_add(Coded *self, PyObject *item, PyObject *members) {
    Code code;
    int state = encode_item(self, item, &code);
    if (state != 1) return state;
    state = add_code(self, item, members, &code);
    drop(&code);
    return state;
}

int own_add_keyed(Coded *self, PyObject *item, PyObject *key) {
    Code code;
    int state = encode(self, key, &code);
    if (state != 1) return state;
    state = add_code(self, item, NULL, &code);
    drop(&code);
    return state;
}
