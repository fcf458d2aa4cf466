/* The classes that order keys, as C types over the library: those of `indexset/_ctypes.py`, `_object_index.py` and
 * `_blocks.py`, which use ctypes or Python.
 *
 * The library's maps and multimaps map codes to the addresses of objects, and each address in one counts as one
 * reference. An address that was read from one is used before any Python code runs, or after a check that `changes` is
 * unchanged.
 *
 * A call holds the interpreter's lock, so that reads of several threads run one by one. The garbage collector runs each
 * `__del__` before it clears an object, so that none of them finds one cleared. */
#ifndef FAST_H
#define FAST_H

#define PY_SSIZE_T_CLEAN
#include <Python.h>
#include <structmember.h>

#include "indexset.h"

#define TOP ((uint64_t)1 << 63)

/* The maximum that one call of the library writes for an iterator. */
#define CHUNK 1024

#define OBJECT(address) ((PyObject *)(uintptr_t)(address))
#define ADDRESS(object) ((uint64_t)(uintptr_t)(object))

enum kind { INT64, UINT64, FLOAT64, TEXT, BYTES, OTHER, COMPARED };

/* Distinct numbers of a kind, in order. The map has the object that was given for each code, or 0 if there was none:
 * one is then made from the code. */
typedef struct {
    PyObject_HEAD indexset_map map;
    enum kind kind;
    PyObject *python; /* the kind in `_kinds`, which handles other types */
    unsigned long long changes;
} Numbers;

/* The first members of all collections of objects. */
#define HELD_HEAD                                                                                                      \
    PyObject_HEAD PyObject *key; /* what makes sort keys, or NULL */                                                   \
    enum kind kind;                                                                                                    \
    unsigned long long changes;

typedef struct {
    HELD_HEAD
} ObjectIndex;

/* Objects at numbers of 64 bits, the codes of their sort keys: in the order of the codes, those of one code in
 * insertion order. The kind is one of numbers. */
typedef struct {
    HELD_HEAD
    indexset_multi pairs;
} Multi;

/* For an order that is not a Numbers. */
#define IS_MULTI(order) (((ObjectIndex *)(order))->kind <= FLOAT64)
#define IS_BLOCKS(order) (((ObjectIndex *)(order))->kind == COMPARED)

/* Contiguous objects, in the order of their sort keys, which are the objects themselves if no function makes them. */
typedef struct {
    PyObject **items, **keys;
    PyObject *last; /* of the keys */
    size_t count, room;
} Block;

/* The place of an object among blocks. */
typedef struct {
    size_t block, index;
} Place;

/* Objects in the order of their sort keys, equal ones in insertion order, in blocks that are never empty.
 *
 * Sort keys are compared by `<`, and then `by` is OTHER; or all are of the own type of the kind `by`, and are compared
 * as its codes are. After some changes of numbers, the class moves them into another order. */
typedef struct {
    HELD_HEAD
    enum kind by;
    Block *blocks;
    size_t count, room, length;
    size_t *tree;            /* of the lengths of the blocks, if `is_indexed` */
    int is_indexed, is_even; /* all blocks but the last have FILLED objects */
    uint64_t *codes;         /* of the last of each GROUP sort keys, if these are numbers of a kind and unchanged */
    size_t moved;            /* how many objects were added and removed one by one */
} Blocks;

/* The number of objects of a block if many are added at once, the number of consecutive sort keys for each code, and
 * the number of present numbers for each changed one before they are due to move. */
#define FILLED 384
#define GROUP 4
#define DUE 4

/* Objects at byte strings, in the order of these. The kind is not one of numbers.
 *
 * If the sort keys are of a kind other than OTHER, those of the kind's own type are encoded here. If they may repeat,
 * the number of objects added before follows their codes. */
typedef struct {
    HELD_HEAD
    indexset_text_map *map; /* on the heap, or `nowhere` */
    int repeats;
    unsigned long long added;
} Coded;

/* Consecutive items: their objects, and for numbers also their codes. */
typedef struct {
    size_t count;
    uint64_t objects[CHUNK], codes[CHUNK];
} Part;

/* A collection over an order. */
typedef struct {
    PyObject_HEAD PyObject *order;
    PyObject *members; /* the items as a set, or None if they may repeat */
} IndexedBase;

/* A dict with an order of its keys. */
typedef struct {
    PyDictObject dict;
    PyObject *order;
} DictBase;

extern PyTypeObject NumbersType, CodedType, MultiType, BlocksType, FrontType, DictFrontType, PlaceType, WalkType;

/* The module `_kinds`, and the names of the methods called. */
extern PyObject *kinds;
extern struct names {
    PyObject *add, *bisect, *bound, *code, *codes_of, *contains, *discard, *find, *flipped, *found, *found_from,
        *order_keys, *placed, *settled, *slice;
} names;

/* ---- codes.c */
/* Returns the number of a code of a kind, as a new object. */
PyObject *number_of(enum kind kind, uint64_t code);
/* Returns whether a value is of the type that a kind of numbers returns, and of its range; writes its code then. */
int number_code(enum kind kind, PyObject *value, uint64_t *code);
/* Returns the kind of numbers with a name. */
enum kind kind_of_numbers(const char *name);

/* ---- numbers.c */
PyObject *numbers_item(Numbers *self, Py_ssize_t position);
int numbers_contains(Numbers *self, PyObject *value);
int numbers_add(Numbers *self, PyObject *value);
int numbers_discard(Numbers *self, PyObject *value);
Py_ssize_t numbers_bisect(Numbers *self, PyObject *value, int right);
/* Puts an object, or NULL, at an unused code. Returns 1, 0 if it is in use, or -1 with an error set. */
int numbers_put(Numbers *self, uint64_t code, PyObject *given);
int numbers_take_out(Numbers *self, uint64_t code);
/* Asks the kind for the code of a value. Returns 1, 0 if the result is None, or -1 with an error set. */
int numbers_asked(Numbers *self, PyObject *call, PyObject *value, uint64_t *code);

/* ---- batch.c */
PyObject *numbers_take(Numbers *self, PyObject *values);
PyObject *numbers_own(Numbers *self, PyObject *values);
PyObject *numbers_are_own(Numbers *self, PyObject *values);
PyObject *numbers_ranks(Numbers *self, PyObject *values);

/* ---- coded.c */
PyObject *coded_item(Coded *self, Py_ssize_t position);
/* Puts an object at a byte string. Returns 0, or -1 with an error set. */
int coded_insert(Coded *self, const void *data, size_t size, PyObject *item);
Py_ssize_t coded_length(Coded *self);
/* Removes the object at a position, which has one. */
PyObject *coded_pop(Coded *self, size_t position);
/* Removes the object at a byte string. Returns 1, 0 if there is none, or -1 with an error set. */
int coded_remove(Coded *self, const void *data, size_t size, PyObject **item);

/* ---- own.c: calls on items whose sort keys are of the kind's own type. Each returns NOT_OWN, and does nothing, if
 * that of an item is not. */
#define NOT_OWN (-2)
int own_add(Coded *self, PyObject *item, PyObject *members);
int own_add_keyed(Coded *self, PyObject *item, PyObject *key);
int own_discard(Coded *self, PyObject *item);
int own_contains(Coded *self, PyObject *item);
Py_ssize_t own_bisect(Coded *self, PyObject *value, int right);
/* Writes the positions of a sort key. */
int own_places(Coded *self, PyObject *key, size_t *first, size_t *past);

/* ---- multi.c: the same calls of a Multi */
Py_ssize_t multi_length(Multi *self);
PyObject *multi_item(Multi *self, Py_ssize_t position);
int multi_add(Multi *self, PyObject *item, PyObject *members);
int multi_add_keyed(Multi *self, PyObject *item, PyObject *key);
int multi_discard(Multi *self, PyObject *item);
int multi_contains(Multi *self, PyObject *item);
Py_ssize_t multi_bisect(Multi *self, PyObject *value, int right);
/* Removes the object at a position, which has one. */
PyObject *multi_pop(Multi *self, size_t position);
int multi_places(Multi *self, PyObject *key, size_t *first, size_t *past);

/* ---- blocks.c: places of objects in blocks, without comparisons */
/* Returns whether the objects are numbers, of which so many have changed that they are due to move into an order of the
 * library. */
int blocks_is_due(const Blocks *self);
/* Returns the number of objects before a block. */
size_t blocks_before(Blocks *self, size_t block);
/* Returns the place of the object at a position, which has one. */
Place blocks_place(Blocks *self, size_t position);
/* Puts an object with its key at a place. Returns 1, or -1 with an error set. */
int blocks_insert(Blocks *self, Place at, PyObject *item, PyObject *key);
/* Removes an object, and its key if that is another one; the caller owns the references. */
PyObject *blocks_remove(Blocks *self, Place at, PyObject **key);
/* Removes all objects. */
void blocks_drop(Blocks *self);
/* Replaces all objects by those of a list, whose sort keys are those of the second one, if given; empties the lists.
 * Returns 1, or -1 with an error set. */
int blocks_fill(Blocks *self, PyObject *items, PyObject *keys);
/* Copies the objects of another. It is empty before. */
int blocks_copy(Blocks *self, Blocks *from);
/* Moves the objects at the positions from `first` and before `past` out, with their references, and their keys if a
 * function makes them. */
void blocks_cut(Blocks *self, size_t first, size_t past, PyObject **items, PyObject **keys);
/* Reads objects, or their keys, from a position on. */
size_t blocks_read(Blocks *self, size_t from, int of_keys, PyObject **read, size_t size);
/* Returns the objects or keys at positions, which have them, as a list. */
PyObject *blocks_list(Blocks *self, size_t first, size_t past, int of_keys);

/* ---- compare.c: objects in blocks by comparisons */
/* Returns whether a sort key is of the kind's own type, or compared by `<`. */
int blocks_is_own(Blocks *self, PyObject *key);
/* Returns the sort key of an item, as a new reference. */
PyObject *blocks_key(Blocks *self, PyObject *item);
/* Writes the place of a sort key, before its equals or after them. Returns 1, NOT_OWN if it is not of the kind's own
 * type, or -1 with an error set. */
int blocks_bound(Blocks *self, PyObject *key, int right, Place *place);
/* Writes the place of a code, if `by` is a kind of numbers. */
void blocks_bound_code(Blocks *self, uint64_t code, Place *place);
/* Writes the place of the first object that equals a value, from a position on. Returns 1, 0 if there is none, NOT_OWN,
 * or -1 with an error set. */
int blocks_find(Blocks *self, PyObject *value, size_t from, Place *place);
/* Returns whether one is before another in the order, or equal; for kinds with own types. */
int blocks_are_equal(Blocks *self, PyObject *one, PyObject *other);

/* ---- sort.c */
/* Sorts a list, and that of its sort keys, if given, in the same way. Returns 1, 0 if `by` is a kind and a key is not
 * of its own type, or -1 with an error set. The sort is stable. */
int blocks_sort(enum kind by, PyObject *items, PyObject *keys);
/* Writes the codes of sorted keys that are numbers of a kind, one of each GROUP. */
void codes_of_groups(enum kind by, PyObject *const *keys, size_t count, uint64_t *codes);

/* ---- compared.c: calls of base.c and object_index.c on blocks */
int blocks_add(Blocks *self, PyObject *item, PyObject *members);
int blocks_discard(Blocks *self, PyObject *item);
int blocks_contains(Blocks *self, PyObject *item);
Py_ssize_t blocks_bisect(Blocks *self, PyObject *value, int right);
int blocks_places(Blocks *self, PyObject *key, size_t *first, size_t *past);
PyObject *blocks_item(Blocks *self, Py_ssize_t position);

/* ---- many.c: the methods `take`, `fill`, `cut` and `settle` of blocks */
PyObject *blocks_settle_method(Blocks *self, PyObject *order);
PyObject *blocks_take_method(Blocks *self, PyObject *const *given, Py_ssize_t count);
PyObject *blocks_fill_method(Blocks *self, PyObject *const *given, Py_ssize_t count);
PyObject *blocks_cut_method(Blocks *self, PyObject *const *given, Py_ssize_t count);

/* ---- object_index.c: the same calls on any collection of objects */
int object_index_add(PyObject *self, PyObject *item, PyObject *members);
/* Adds an item with a sort key of the kind's own type. Returns 1, or -1 with an error set. */
int object_index_add_keyed(PyObject *self, PyObject *item, PyObject *key);
Py_ssize_t object_index_bisect(PyObject *self, PyObject *value, int right);
PyObject *object_index_item(PyObject *self, Py_ssize_t position);
/* Removes the first object that equals a value. Returns 1, 0 if there is none, or -1 with an error set. */
int object_index_discard(PyObject *self, PyObject *value);
int object_index_contains(PyObject *self, PyObject *value);
/* Returns a position counted from 0, or -1 with an error set. */
Py_ssize_t position_of(PyObject *self, PyObject *index);
/* The methods of all collections of objects. */
PyObject *add_method(PyObject *self, PyObject *item);
PyObject *bisect_method(PyObject *self, PyObject *const *given, Py_ssize_t count);
PyObject *changed_method(PyObject *self, PyObject *nothing);
PyObject *discard_method(PyObject *self, PyObject *value);
PyObject *item_method(PyObject *self, PyObject *index);
PyObject *own_span_method(PyObject *self, PyObject *key);
PyObject *place_method(PyObject *self, PyObject *const *given, Py_ssize_t count);
PyObject *find_method(PyObject *self, PyObject *value);
/* Writes the position of the first object that equals a value, from a position on, by a sort key that a function makes.
 * Returns 1, 0 if there is none, NOT_OWN, or -1 with an error set. */
int object_index_find(PyObject *self, PyObject *value, size_t from, size_t *position);
/* Removes an item from a set; an error that is set stays set. */
void discard_quietly(PyObject *members, PyObject *item);
/* Adds an item to the set of the items, if given. Returns 1, 0 if it is present, or -1 with an error set. */
int join(PyObject *members, PyObject *item);
/* Returns the state of what came after `join`; if it is an error, removes the item from the set. */
int joined(PyObject *members, PyObject *item, int state);

/* ---- walk.c */
size_t length_of(PyObject *owner);
/* Reads the items from a position on, `size` of them, at most CHUNK. */
void read_part(PyObject *owner, size_t from, size_t size, Part *part);
PyObject *walk_new(PyObject *owner, size_t first, size_t past, int reverse);
/* Returns the items at the positions from `first` and before `past`, as a list. */
PyObject *chunk_of(PyObject *owner, size_t first, size_t past);
/* Reads two positions, `first` and `past`, that are not negative. Returns 0 with an error set. */
int two_positions(PyObject *const *given, Py_ssize_t count, size_t *first, size_t *past);
/* The methods `walk` and `chunk` of all orders. */
PyObject *walk_method(PyObject *self, PyObject *const *given, Py_ssize_t count);
PyObject *chunk_method(PyObject *self, PyObject *const *given, Py_ssize_t count);

/* ---- array.c: the method `numbers` of Numbers, Multi and Blocks */
PyObject *numbers_method(PyObject *owner, PyObject *nothing);

/* ---- lists.c: functions of the module */
PyObject *are_alike(PyObject *nothing, PyObject *items);
PyObject *keep(PyObject *nothing, PyObject *const *given, Py_ssize_t count);

/* ---- base.c */
/* Returns whether an object can be an order of items; sets an error if not. */
int is_order(PyObject *order);
/* Returns whether it has no items and takes any: the class then finds their kind. */
int is_fresh(PyObject *order);

#endif
