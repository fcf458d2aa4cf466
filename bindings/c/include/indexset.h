/* Ordered sets and maps of 64-bit numbers, with access by position; maps whose keys may have several values; maps that
 * report their changes, and replicas that follow such a map; maps from byte strings to 64-bit numbers; and such maps
 * that report their changes.
 *
 * Handles: a handle owns a collection on the heap, or none. Its initial value is INDEXSET_HANDLE, which owns none.
 * indexset_set_new makes an empty set for it, and indexset_set_free frees that set; the other collections have the same
 * calls. If a handle owns none, a call that reads or removes finds an empty collection, and one that adds returns
 * INDEXSET_NONE.
 *
 * Ownership: the library owns the collections. The caller owns the handles, and every array and number that it passes.
 * A handle is passed by its address. No two handles own the same collection: a handle is moved by indexset_set_move or
 * indexset_set_swap, or with the memory that contains it, as realloc does, and its old place is not used afterwards.
 * The caller never writes to its two fields. A handle that is not freed before it goes out of use leaks its memory.
 *
 * Const: a call that takes a const handle writes neither to the handle nor to its collection, and allocates nothing,
 * except that a clone and a replica of a map allocate what they make. So the handle may be an object of a const type,
 * and both may be in memory that cannot be written.
 *
 * Threads: a handle and its collection belong to no thread: a call may be made, and the collection freed, by any
 * thread. Calls on one handle that take a const handle may overlap. Any other call on it overlaps with none, and
 * happens before or after each of them, by a lock, for example. Calls on different handles are independent: the library
 * has no data of its own that it writes to, besides what malloc has.
 *
 * Processes: a forked child has copies of the collections. If the parent had one thread, the child may make each call.
 * If it had several, the child may make those that allocate and free nothing: the calls that take a const handle, but
 * for clones and replicas. It then reads each collection that no call was changing at the time of the fork. Others need
 * a malloc that may be called there, as that of glibc may. No call may be made from a signal handler.
 *
 * Null: no pointer may be null, not even that of an array of no elements; the calls whose names end in destroy take
 * the address of a null pointer too. Two pointers of one call must not alias, unless both are only read.
 *
 * Memory: no call aborts. Memory comes from malloc and realloc. If one of them fails, the call returns INDEXSET_MEMORY
 * and has changed nothing, except that a call on many keys keeps those before the one that failed. malloc, realloc and
 * free must be of one allocator, which aligns a block to each power of two up to 16 that divides its size.
 */
#ifndef INDEXSET_H
#define INDEXSET_H

#include <stdbool.h>
#include <stddef.h>
#include <stdint.h>
#include <string.h>

#ifdef __cplusplus
extern "C" {
#endif

/* The results of calls that can fail. */
enum indexset_status {
    INDEXSET_NO = 0,      /* there was nothing to do */
    INDEXSET_YES = 1,     /* it was done */
    INDEXSET_MEMORY = 2,  /* an allocation failed */
    INDEXSET_NONE = 3,    /* the handle owns no collection */
    INDEXSET_HELD = 4,    /* the handle owns a collection already */
    INDEXSET_NUMBERS = 5, /* too few numbers are left */
    INDEXSET_UNFIT = 6,   /* an argument is out of range */
    /* why a replica refuses a change, besides INDEXSET_MEMORY, INDEXSET_NUMBERS and INDEXSET_UNFIT */
    INDEXSET_GAP = 11,            /* changes before it are missing */
    INDEXSET_NO_SUCH_NODE = 12,   /* no node has the last key that it names */
    INDEXSET_INDEX_OUTSIDE = 13,  /* its index is outside the node */
    INDEXSET_VALUE_DIFFERS = 14,  /* another key is at its index */
    INDEXSET_WOULD_BE_EMPTY = 15, /* it would remove the only pair of a node */
    INDEXSET_OUT_OF_ORDER = 16,   /* the keys would not be in order afterwards */
    INDEXSET_BAD_SPLIT = 17,      /* it would split off an empty part */
    INDEXSET_NOT_NEIGHBOURS = 18  /* the second node that it names does not follow the first */
};

/* The handle of an ordered set of uint64_t. Both fields are the library's own. */
typedef struct indexset_set {
    void *at;
    bool live;
} indexset_set;

/* The initial value of a handle: `indexset_set set = INDEXSET_HANDLE;` */
/* clang-format off */
#define INDEXSET_HANDLE {NULL, false}
/* clang-format on */

/* The position of an iteration over a collection: before the first element or pair, between two, or at the end. It
 * belongs to the caller, who may copy it, and owns nothing. Its initial value is INDEXSET_CURSOR, before the first
 * element. The calls whose names end in cursor_at and cursor_from move it, by searches. Those that end in cursor_next
 * write the elements after it and move it past them, without a search: they cost what they write, and a step for each
 * node on the way. To write the same elements again, start from a copy of the cursor as it was.
 *
 * A cursor is valid as long as the collection does not change. After a change, and in another collection, it is as
 * safe, but may point elsewhere: `offset` elements of the node numbered `node` are before it, or all of them if the
 * node has fewer; it is at the end if there are not so many nodes. */
typedef struct indexset_cursor {
    size_t node, offset;
} indexset_cursor;

/* The initial value of a cursor: `indexset_cursor cursor = INDEXSET_CURSOR;` */
/* clang-format off */
#define INDEXSET_CURSOR {0, 0}
/* clang-format on */

/* Returns the version of the library: major * 65536 + minor * 256 + patch. */
uint32_t indexset_version(void);

/* 1 if the contracts of the library were proved before it was compiled, 0 if it was built without proofs. */
extern const int indexset_proved;

/* What the library was built from: "proved by KIT logic LOGIC, commit COMMIT", with the toolchain that proved it, or
 * "unproved, commit COMMIT". */
extern const char indexset_build[];

/* Makes an empty set. Returns INDEXSET_YES, INDEXSET_MEMORY, or INDEXSET_HELD if the handle owns a set; unless it
 * returns INDEXSET_YES, nothing changes. */
uint32_t indexset_set_new(indexset_set *set);

/* Makes a set of `count` keys, each above the one before it. Its nodes are full, which takes less memory and time than
 * adding the keys one by one. Returns INDEXSET_YES, INDEXSET_MEMORY, INDEXSET_HELD if the handle owns a set, or
 * INDEXSET_UNFIT if the keys do not ascend; unless it returns INDEXSET_YES, nothing changes. */
uint32_t indexset_set_from_sorted(indexset_set *set, const uint64_t *keys, size_t count);

/* Makes a clone of a set under the handle `to`. Returns INDEXSET_YES, INDEXSET_MEMORY, INDEXSET_NONE if `set` owns
 * none, or else INDEXSET_HELD if `to` owns a set. `set` never changes, and `to` changes only if the call returns
 * INDEXSET_YES. */
uint32_t indexset_set_clone(const indexset_set *set, indexset_set *to);

/* Frees the set; the handle then owns none. Does nothing if the handle owns none. */
void indexset_set_free(indexset_set *set);

/* Makes an empty set under a handle on the heap, and writes the address of the handle. Returns INDEXSET_YES or
 * INDEXSET_MEMORY; unless it returns INDEXSET_YES, nothing is written. Each call takes this handle too. */
uint32_t indexset_set_create(indexset_set **set);

/* Frees a handle that indexset_set_create made and the collection that it owns, and writes a null pointer. Does nothing
 * if the pointer is null. */
void indexset_set_destroy(indexset_set **set);

/* Moves a set from one handle to another: frees the set of `to`, if any, and gives `to` the set of `from`, if any.
 * `from` then owns none. */
void indexset_set_move(indexset_set *to, indexset_set *from);

/* Swaps the collections of two handles. */
void indexset_set_swap(indexset_set *one, indexset_set *other);

/* Removes all elements. Allocates nothing. */
void indexset_set_clear(indexset_set *set);

/* Returns the number of elements. */
size_t indexset_set_len(const indexset_set *set);

/* Adds a key. Returns INDEXSET_YES, INDEXSET_NO if the key is present, INDEXSET_MEMORY or INDEXSET_NONE; unless it
 * returns INDEXSET_YES, nothing changes. */
uint32_t indexset_set_insert(indexset_set *set, uint64_t key);

/* Adds a key in the same way and writes its rank, which is then its position, to `rank`, also if the key was present.
 * `rank` is written only if the call returns INDEXSET_YES or INDEXSET_NO. Takes one more search. */
uint32_t indexset_set_insert_ranked(indexset_set *set, uint64_t key, size_t *rank);

/* Removes a key. Returns false, and changes nothing, if the key is absent. */
bool indexset_set_remove(indexset_set *set, uint64_t key);

/* Returns whether a key is present. */
bool indexset_set_contains(const indexset_set *set, uint64_t key);

/* Returns the rank of a key: the number of elements below it. */
size_t indexset_set_rank(const indexset_set *set, uint64_t key);

/* Returns the number of elements not above a key. The elements from `low` to `high` are at the positions from the
 * rank of `low` up to, and without, this number for `high`. */
size_t indexset_set_count_up_to(const indexset_set *set, uint64_t key);

/* Writes the least element not below a key. Returns false, and writes nothing, if there is none. */
bool indexset_set_lower_bound(const indexset_set *set, uint64_t key, uint64_t *out);

/* Writes the least element above a key. Returns false, and writes nothing, if there is none. */
bool indexset_set_upper_bound(const indexset_set *set, uint64_t key, uint64_t *out);

/* Writes the element at a position, counted from 0. Returns false, and writes nothing, if there is none. */
bool indexset_set_at(const indexset_set *set, size_t position, uint64_t *out);

/* Writes the least or the greatest element. Returns false, and writes nothing, if the set is empty. */
bool indexset_set_first(const indexset_set *set, uint64_t *out);
bool indexset_set_last(const indexset_set *set, uint64_t *out);

/* Removes the least or the greatest element and writes it. Returns false, and neither changes nor writes anything, if
 * the set is empty. */
bool indexset_set_pop_first(indexset_set *set, uint64_t *out);
bool indexset_set_pop_last(indexset_set *set, uint64_t *out);

/* Removes the element at a position, counted from 0, and writes it. Returns false, and neither changes nor writes
 * anything, if there is none. */
bool indexset_set_remove_at(indexset_set *set, size_t position, uint64_t *out);

/* Writes the elements from `low` to `high`, both included, in order, into an array of `places` places, as many as
 * fit. Returns the number written. */
size_t indexset_set_range_by_key(const indexset_set *set, uint64_t low, uint64_t high, uint64_t *out, size_t places);

/* Writes the elements from a position on, in order, into an array of `places` places, as many as fit. Returns the
 * number written. */
size_t indexset_set_range_by_position(const indexset_set *set, size_t from, uint64_t *out, size_t places);

/* Moves a cursor to a position, counted from 0, or to the end if there is none. */
void indexset_set_cursor_at(const indexset_set *set, size_t position, indexset_cursor *cursor);

/* Moves a cursor to the least element not below a key, or to the end if there is none. */
void indexset_set_cursor_from(const indexset_set *set, uint64_t key, indexset_cursor *cursor);

/* Writes the elements from a cursor on, in order, into an array of `places` places, as many as fit, and moves the
 * cursor past them. Returns the number written: 0 at the end. */
size_t indexset_set_cursor_next(const indexset_set *set, indexset_cursor *cursor, uint64_t *out, size_t places);

/* Adds `count` keys, first to last, and writes the number of keys processed to `taken`. Returns INDEXSET_YES if these
 * are all, INDEXSET_MEMORY if the allocation for the next key failed, or INDEXSET_NONE. A key that is present counts
 * as processed. */
uint32_t indexset_set_insert_all(indexset_set *set, const uint64_t *keys, size_t count, size_t *taken);

/* Writes the rank of each of `count` keys into an array of `places` places, as many as fit. Returns the number
 * written. */
size_t indexset_set_ranks(const indexset_set *set, const uint64_t *keys, size_t count, size_t *out, size_t places);

/* Writes the element at each of `count` positions into an array of `places` places, as many as fit, and stops at the
 * first position that has no element. Returns the number written. */
size_t indexset_set_at_all(const indexset_set *set, const size_t *positions, size_t count, uint64_t *out,
                           size_t places);

/* The handle of an ordered map from uint64_t to uint64_t. Both fields are the library's own. */
typedef struct indexset_map {
    void *at;
    bool live;
} indexset_map;

/* Makes an empty map. Returns INDEXSET_YES, INDEXSET_MEMORY, or INDEXSET_HELD if the handle owns a map; unless it
 * returns INDEXSET_YES, nothing changes. */
uint32_t indexset_map_new(indexset_map *map);

/* Makes a clone of a map under the handle `to`. Returns INDEXSET_YES, INDEXSET_MEMORY, INDEXSET_NONE if `map` owns
 * none, or else INDEXSET_HELD if `to` owns a map. `map` never changes, and `to` changes only if the call returns
 * INDEXSET_YES. */
uint32_t indexset_map_clone(const indexset_map *map, indexset_map *to);

/* Frees the map; the handle then owns none. Does nothing if the handle owns none. */
void indexset_map_free(indexset_map *map);

/* Makes an empty map under a handle on the heap, and writes the address of the handle. Returns INDEXSET_YES or
 * INDEXSET_MEMORY; unless it returns INDEXSET_YES, nothing is written. Each call takes this handle too. */
uint32_t indexset_map_create(indexset_map **map);

/* Frees a handle that indexset_map_create made and the collection that it owns, and writes a null pointer. Does nothing
 * if the pointer is null. */
void indexset_map_destroy(indexset_map **map);

/* Moves a map from one handle to another: frees the map of `to`, if any, and gives `to` the map of `from`, if any.
 * `from` then owns none. */
void indexset_map_move(indexset_map *to, indexset_map *from);

/* Swaps the collections of two handles. */
void indexset_map_swap(indexset_map *one, indexset_map *other);

/* Removes all pairs. Allocates nothing. */
void indexset_map_clear(indexset_map *map);

/* Returns the number of pairs. */
size_t indexset_map_len(const indexset_map *map);

/* Sets the value of a key. Returns INDEXSET_YES if the key was absent; INDEXSET_NO if it was present, and then writes
 * the old value to `before` and allocates nothing; or INDEXSET_MEMORY or INDEXSET_NONE, and then nothing changes.
 * `before` is written only if the call returns INDEXSET_NO. */
uint32_t indexset_map_insert(indexset_map *map, uint64_t key, uint64_t value, uint64_t *before);

/* Sets the value of a key in the same way and writes the key's rank, which is then the position of its pair, to
 * `rank`, also if the key was present. `rank` is written only if the call returns INDEXSET_YES or INDEXSET_NO. Takes
 * one more search. */
uint32_t indexset_map_insert_ranked(indexset_map *map, uint64_t key, uint64_t value, uint64_t *before, size_t *rank);

/* Writes the value of a key. Returns false, and writes nothing, if the key is absent. */
bool indexset_map_get(const indexset_map *map, uint64_t key, uint64_t *out);

/* Removes a key and writes its value. Returns false, and neither changes nor writes anything, if the key is
 * absent. */
bool indexset_map_remove(indexset_map *map, uint64_t key, uint64_t *out);

/* Returns whether a key is present. */
bool indexset_map_contains(const indexset_map *map, uint64_t key);

/* Returns the rank of a key: the number of keys below it. */
size_t indexset_map_rank(const indexset_map *map, uint64_t key);

/* Returns the number of keys not above a key. The pairs of the keys from `low` to `high` are at the positions from
 * the rank of `low` up to, and without, this number for `high`. */
size_t indexset_map_count_up_to(const indexset_map *map, uint64_t key);

/* Writes the pair of the least key not below `from`, or above it. Returns false, and writes nothing, if there is
 * none. */
bool indexset_map_lower_bound(const indexset_map *map, uint64_t from, uint64_t *key, uint64_t *value);
bool indexset_map_upper_bound(const indexset_map *map, uint64_t from, uint64_t *key, uint64_t *value);

/* Writes the pair at a position, counted from 0. Returns false, and writes nothing, if there is none. */
bool indexset_map_at(const indexset_map *map, size_t position, uint64_t *key, uint64_t *value);

/* Writes the pair of the least or the greatest key. Returns false, and writes nothing, if the map is empty. */
bool indexset_map_first(const indexset_map *map, uint64_t *key, uint64_t *value);
bool indexset_map_last(const indexset_map *map, uint64_t *key, uint64_t *value);

/* Removes the pair of the least or the greatest key and writes it. Returns false, and neither changes nor writes
 * anything, if the map is empty. */
bool indexset_map_pop_first(indexset_map *map, uint64_t *key, uint64_t *value);
bool indexset_map_pop_last(indexset_map *map, uint64_t *key, uint64_t *value);

/* Removes the pair at a position, counted from 0, and writes it. Returns false, and neither changes nor writes
 * anything, if there is none. */
bool indexset_map_remove_at(indexset_map *map, size_t position, uint64_t *key, uint64_t *value);

/* Writes the pairs of the keys from `low` to `high`, both included, in order, into two arrays, as many as fit into
 * both. Returns the number written. */
size_t indexset_map_range_by_key(const indexset_map *map, uint64_t low, uint64_t high, uint64_t *keys,
                                 size_t key_places, uint64_t *values, size_t value_places);

/* Writes the pairs from a position on, in order, into two arrays, as many as fit into both. Returns the number
 * written. */
size_t indexset_map_range_by_position(const indexset_map *map, size_t from, uint64_t *keys, size_t key_places,
                                      uint64_t *values, size_t value_places);

/* Moves a cursor to a position, counted from 0, or to the end if there is none. */
void indexset_map_cursor_at(const indexset_map *map, size_t position, indexset_cursor *cursor);

/* Moves a cursor to the first pair whose key is not below `from`, or to the end if there is none. */
void indexset_map_cursor_from(const indexset_map *map, uint64_t from, indexset_cursor *cursor);

/* Writes the pairs from a cursor on, in order, into two arrays, as many as fit into both, and moves the cursor past
 * them. Returns the number written: 0 at the end. */
size_t indexset_map_cursor_next(const indexset_map *map, indexset_cursor *cursor, uint64_t *keys, size_t key_places,
                                uint64_t *values, size_t value_places);

/* Sets the value of each key, first to last, until the keys or the values end, and writes the number of pairs
 * processed to `taken`. Returns INDEXSET_YES if these are all, INDEXSET_MEMORY if the allocation for the next pair
 * failed, or INDEXSET_NONE. */
uint32_t indexset_map_insert_all(indexset_map *map, const uint64_t *keys, size_t key_count, const uint64_t *values,
                                 size_t value_count, size_t *taken);

/* Writes the value of each of `count` keys, or `absent` if the key is absent, into an array of `places` places, as
 * many as fit. Returns the number written. */
size_t indexset_map_gets(const indexset_map *map, const uint64_t *keys, size_t count, uint64_t absent, uint64_t *out,
                         size_t places);

/* The handle of an ordered map from uint64_t to uint64_t whose keys may have several values. The values of a key are
 * in insertion order, and distinct unless indexset_multi_push adds an equal one. Both fields are the library's
 * own. */
typedef struct indexset_multi {
    void *at;
    bool live;
} indexset_multi;

/* Makes an empty multimap. Returns INDEXSET_YES, INDEXSET_MEMORY, or INDEXSET_HELD if the handle owns a multimap;
 * unless it returns INDEXSET_YES, nothing changes. */
uint32_t indexset_multi_new(indexset_multi *multi);

/* Frees the multimap; the handle then owns none. Does nothing if the handle owns none. */
void indexset_multi_free(indexset_multi *multi);

/* Makes an empty multimap under a handle on the heap, and writes the address of the handle. Returns INDEXSET_YES or
 * INDEXSET_MEMORY; unless it returns INDEXSET_YES, nothing is written. Each call takes this handle too. */
uint32_t indexset_multi_create(indexset_multi **multi);

/* Frees a handle that indexset_multi_create made and the collection that it owns, and writes a null pointer. Does
 * nothing if the pointer is null. */
void indexset_multi_destroy(indexset_multi **multi);

/* Moves a multimap from one handle to another: frees the multimap of `to`, if any, and gives `to` the multimap of
 * `from`, if any. `from` then owns none. */
void indexset_multi_move(indexset_multi *to, indexset_multi *from);

/* Swaps the collections of two handles. */
void indexset_multi_swap(indexset_multi *one, indexset_multi *other);

/* Removes all pairs. Allocates nothing. */
void indexset_multi_clear(indexset_multi *multi);

/* Returns the number of pairs. */
size_t indexset_multi_len(const indexset_multi *multi);

/* Adds a value to those of a key, as the last. Returns INDEXSET_YES, INDEXSET_NO if the key has the value,
 * INDEXSET_MEMORY, INDEXSET_NUMBERS or INDEXSET_NONE; unless it returns INDEXSET_YES, nothing changes. Each pair that
 * is added and each change of a node consumes a 64-bit number; the call returns INDEXSET_NUMBERS if too few are
 * left. */
uint32_t indexset_multi_insert(indexset_multi *multi, uint64_t key, uint64_t value);

/* Adds a value to those of a key, as the last, also if the key has the value. It compares no values, so its time does
 * not grow with their number. Returns INDEXSET_YES, INDEXSET_MEMORY, INDEXSET_NUMBERS or INDEXSET_NONE; unless it
 * returns INDEXSET_YES, nothing changes. */
uint32_t indexset_multi_push(indexset_multi *multi, uint64_t key, uint64_t value);

/* Removes a value of a key. Returns INDEXSET_YES, INDEXSET_NO if the key does not have the value, INDEXSET_MEMORY or
 * INDEXSET_NUMBERS; unless it returns INDEXSET_YES, nothing changes. */
uint32_t indexset_multi_remove(indexset_multi *multi, uint64_t key, uint64_t value);

/* Removes the first value of a key and writes it. Returns INDEXSET_YES, INDEXSET_NO if the key is absent,
 * INDEXSET_MEMORY or INDEXSET_NUMBERS; unless it returns INDEXSET_YES, nothing changes and nothing is written. */
uint32_t indexset_multi_remove_first(indexset_multi *multi, uint64_t key, uint64_t *out);

/* Returns whether a key has a value. */
bool indexset_multi_contains(const indexset_multi *multi, uint64_t key, uint64_t value);

/* Returns whether a key is present. */
bool indexset_multi_contains_key(const indexset_multi *multi, uint64_t key);

/* Returns the number of values of a key. */
size_t indexset_multi_count(const indexset_multi *multi, uint64_t key);

/* Returns the rank of a key: the number of pairs whose keys are below it, which is the position of the key's first
 * pair, if any. */
size_t indexset_multi_rank(const indexset_multi *multi, uint64_t key);

/* Writes the pair at a position, counted from 0. Returns false, and writes nothing, if there is none. */
bool indexset_multi_at(const indexset_multi *multi, size_t position, uint64_t *key, uint64_t *value);

/* Removes the pair at a position and writes it. Returns INDEXSET_YES, INDEXSET_NO if there is none, INDEXSET_MEMORY
 * or INDEXSET_NUMBERS; unless it returns INDEXSET_YES, nothing changes and nothing is written. */
uint32_t indexset_multi_remove_at(indexset_multi *multi, size_t position, uint64_t *key, uint64_t *value);

/* Writes the values of a key, in insertion order, into an array of `places` places, as many as fit. Returns the
 * number written; indexset_multi_count returns the number of values. */
size_t indexset_multi_get(const indexset_multi *multi, uint64_t key, uint64_t *out, size_t places);

/* Writes the first pair, which is that of the least key and the first of its values, or the last pair, which is that
 * of the greatest key and the last of its values. Returns false, and writes nothing, if the multimap is empty. */
bool indexset_multi_first(const indexset_multi *multi, uint64_t *key, uint64_t *value);
bool indexset_multi_last(const indexset_multi *multi, uint64_t *key, uint64_t *value);

/* Writes the pairs of the keys from `low` to `high`, both included, in order, into two arrays, as many as fit into
 * both. Returns the number written. */
size_t indexset_multi_range(const indexset_multi *multi, uint64_t low, uint64_t high, uint64_t *keys, size_t key_places,
                            uint64_t *values, size_t value_places);

/* Writes the pairs from a position on, in order, into two arrays, as many as fit into both. Returns the number
 * written. */
size_t indexset_multi_range_by_position(const indexset_multi *multi, size_t from, uint64_t *keys, size_t key_places,
                                        uint64_t *values, size_t value_places);

/* Moves a cursor to a position, counted from 0, or to the end if there is none. */
void indexset_multi_cursor_at(const indexset_multi *multi, size_t position, indexset_cursor *cursor);

/* Moves a cursor to the first pair whose key is not below `from`, or to the end if there is none. */
void indexset_multi_cursor_from(const indexset_multi *multi, uint64_t from, indexset_cursor *cursor);

/* Writes the pairs from a cursor on, in order, into two arrays, as many as fit into both, and moves the cursor past
 * them. Returns the number written: 0 at the end. */
size_t indexset_multi_cursor_next(const indexset_multi *multi, indexset_cursor *cursor, uint64_t *keys,
                                  size_t key_places, uint64_t *values, size_t value_places);

/* What a change does. A node is a run of pairs in order; its name is its last pair before the change. */
enum indexset_kind {
    INDEXSET_INSERT = 1, /* the pair is inserted into the node, at the index */
    INDEXSET_REMOVE = 2, /* the pair at the index is removed from the node */
    INDEXSET_CREATE = 3, /* a node of one pair, its name, is added in order */
    INDEXSET_DROP = 4,   /* the node is removed */
    INDEXSET_SPLIT = 5,  /* the node is split in two: the pairs before the index, and the rest */
    INDEXSET_MERGE = 6   /* the node and the next one, whose last pair is the pair, are merged */
};

/* A change of a logged map. Unused fields are 0. */
typedef struct indexset_event {
    uint64_t number;
    uint64_t node_key, node_value;
    uint64_t key, value;
    size_t index;
    uint32_t kind;
} indexset_event;

/* A call of a logged map makes at most this many changes. */
#define INDEXSET_CHANGES 3

/* The handle of an ordered map from uint64_t to uint64_t that reports its changes, with consecutive numbers. Both
 * fields are the library's own. */
typedef struct indexset_log {
    void *at;
    bool live;
} indexset_log;

/* Makes an empty map, whose nodes hold at most `size` pairs and whose first change has the number `next`. Returns
 * INDEXSET_YES, INDEXSET_MEMORY, INDEXSET_HELD if the handle owns a map, or INDEXSET_UNFIT if the size is below 2;
 * unless it returns INDEXSET_YES, nothing changes. */
uint32_t indexset_log_new(indexset_log *log, size_t size, uint64_t next);

/* Frees the map; the handle then owns none. Does nothing if the handle owns none. */
void indexset_log_free(indexset_log *log);

/* Makes an empty map as indexset_log_new does, under a handle on the heap, and writes the address of the handle.
 * Returns INDEXSET_YES, INDEXSET_MEMORY or INDEXSET_UNFIT; unless it returns INDEXSET_YES, nothing is written. Each
 * call takes this handle too. */
uint32_t indexset_log_create(indexset_log **log, size_t size, uint64_t next);

/* Frees a handle that indexset_log_create made and the collection that it owns, and writes a null pointer. Does nothing
 * if the pointer is null. */
void indexset_log_destroy(indexset_log **log);

/* Moves a map from one handle to another: frees the map of `to`, if any, and gives `to` the map of `from`, if any.
 * `from` then owns none. */
void indexset_log_move(indexset_log *to, indexset_log *from);

/* Swaps the collections of two handles. */
void indexset_log_swap(indexset_log *one, indexset_log *other);

/* Returns the number of pairs, the number of nodes, and the event number of the next change. */
size_t indexset_log_len(const indexset_log *log);
size_t indexset_log_node_count(const indexset_log *log);
uint64_t indexset_log_next(const indexset_log *log);

/* Sets the value of a key, and writes the changes to `events` and their number to `event_count`. Returns INDEXSET_YES
 * if the key was absent; INDEXSET_NO if it was present, and then writes the old value to `before`; or INDEXSET_MEMORY,
 * INDEXSET_NUMBERS, INDEXSET_NONE, or INDEXSET_UNFIT if `events` has fewer than INDEXSET_CHANGES places: then nothing
 * changes, and only `event_count` is written, as 0. */
uint32_t indexset_log_insert(indexset_log *log, uint64_t key, uint64_t value, uint64_t *before, indexset_event *events,
                             size_t places, size_t *event_count);

/* Removes a key and writes its value, the changes and their number. Returns INDEXSET_YES, INDEXSET_NO if the key is
 * absent, INDEXSET_MEMORY, INDEXSET_NUMBERS, or INDEXSET_UNFIT if `events` has fewer than INDEXSET_CHANGES places;
 * unless it returns INDEXSET_YES, nothing changes, and only `event_count` is written, as 0. */
uint32_t indexset_log_remove(indexset_log *log, uint64_t key, uint64_t *out, indexset_event *events, size_t places,
                             size_t *event_count);

/* Writes the value of a key. Returns false, and writes nothing, if the key is absent. */
bool indexset_log_get(const indexset_log *log, uint64_t key, uint64_t *out);

/* Returns whether a key is present. */
bool indexset_log_contains(const indexset_log *log, uint64_t key);

/* Returns the rank of a key: the number of keys below it. Takes two binary searches and a sum over the index. */
size_t indexset_log_rank(const indexset_log *log, uint64_t key);

/* Writes the pair at a position, counted from 0. Returns false, and writes nothing, if there is none. */
bool indexset_log_at(const indexset_log *log, size_t position, uint64_t *key, uint64_t *value);

/* Writes the pairs of the keys from `low` to `high`, both included, in order, into two arrays, as many as fit into
 * both. Returns the number written. */
size_t indexset_log_range(const indexset_log *log, uint64_t low, uint64_t high, uint64_t *keys, size_t key_places,
                          uint64_t *values, size_t value_places);

/* Writes the pairs from a position on, in order, into two arrays, as many as fit into both. Returns the number
 * written. */
size_t indexset_log_range_by_position(const indexset_log *log, size_t from, uint64_t *keys, size_t key_places,
                                      uint64_t *values, size_t value_places);

/* Moves a cursor to a position, counted from 0, or to the end if there is none. */
void indexset_log_cursor_at(const indexset_log *log, size_t position, indexset_cursor *cursor);

/* Moves a cursor to the first pair whose key is not below `from`, or to the end if there is none. */
void indexset_log_cursor_from(const indexset_log *log, uint64_t from, indexset_cursor *cursor);

/* Writes the pairs from a cursor on, in order, into two arrays, as many as fit into both, and moves the cursor past
 * them. Returns the number written: 0 at the end. */
size_t indexset_log_cursor_next(const indexset_log *log, indexset_cursor *cursor, uint64_t *keys, size_t key_places,
                                uint64_t *values, size_t value_places);

/* Writes the number of pairs of each node, in order, into an array of `places` places, as many as fit. Returns the
 * number written. These, the pairs from 0 to UINT64_MAX and the number of the next change are a snapshot, from which
 * a replica continues. */
size_t indexset_log_node_lengths(const indexset_log *log, size_t *out, size_t places);

/* The handle of a replica: a copy of the nodes of a logged map, which follows the map by its changes. Both
 * fields are the library's own. */
typedef struct indexset_replica {
    void *at;
    bool live;
} indexset_replica;

/* Makes a replica without nodes, whose next change has the number `next`. Returns INDEXSET_YES, INDEXSET_MEMORY, or
 * INDEXSET_HELD if the handle owns a replica; unless it returns INDEXSET_YES, nothing changes. */
uint32_t indexset_replica_new(indexset_replica *replica, uint64_t next);

/* Makes a replica with the nodes of a logged map, whose next change is the map's. Returns INDEXSET_YES,
 * INDEXSET_MEMORY, INDEXSET_NONE if `log` owns none, or else INDEXSET_HELD if `replica` owns a replica. `log` never
 * changes, and `replica` changes only if the call returns INDEXSET_YES. */
uint32_t indexset_replica_from_log(indexset_replica *replica, const indexset_log *log);

/* Frees the replica; the handle then owns none. Does nothing if the handle owns none. */
void indexset_replica_free(indexset_replica *replica);

/* Makes a replica as indexset_replica_new does, under a handle on the heap, and writes the address of the handle.
 * Returns INDEXSET_YES or INDEXSET_MEMORY; unless it returns INDEXSET_YES, nothing is written. Each call takes this
 * handle too. */
uint32_t indexset_replica_create(indexset_replica **replica, uint64_t next);

/* Frees a handle that indexset_replica_create made and the collection that it owns, and writes a null pointer. Does
 * nothing if the pointer is null. */
void indexset_replica_destroy(indexset_replica **replica);

/* Moves a replica from one handle to another: frees the replica of `to`, if any, and gives `to` the replica of
 * `from`, if any. `from` then owns none. */
void indexset_replica_move(indexset_replica *to, indexset_replica *from);

/* Swaps the collections of two handles. */
void indexset_replica_swap(indexset_replica *one, indexset_replica *other);

/* Applies the next change of the logged map. Returns INDEXSET_YES, or the first of these that applies: INDEXSET_NONE;
 * INDEXSET_UNFIT if the kind is not one of enum indexset_kind; INDEXSET_NO if the number is below that of the next
 * change, so that the change was applied before; INDEXSET_GAP if the number is above it; INDEXSET_NUMBERS if the
 * number is UINT64_MAX, which has no successor; a status from INDEXSET_NO_SUCH_NODE on, if the change does not fit
 * the nodes; INDEXSET_MEMORY. Unless it returns INDEXSET_YES, nothing changes. Whether a change fits depends on the
 * keys and not on the values. */
uint32_t indexset_replica_apply(indexset_replica *replica, const indexset_event *event);

/* Applies `count` changes, first to last, and skips each whose number is below that of the next change. Writes the
 * number of changes processed, skipped ones included, to `taken`. Returns INDEXSET_YES if these are all, or else the
 * status that indexset_replica_apply returns for the change after them; or INDEXSET_NONE. */
uint32_t indexset_replica_apply_all(indexset_replica *replica, const indexset_event *events, size_t count,
                                    size_t *taken);

/* Returns the number of pairs, the number of nodes, and the event number of the next change to apply. */
size_t indexset_replica_len(const indexset_replica *replica);
size_t indexset_replica_node_count(const indexset_replica *replica);
uint64_t indexset_replica_next(const indexset_replica *replica);

/* Writes the value of a key. Returns false, and writes nothing, if the key is absent. */
bool indexset_replica_get(const indexset_replica *replica, uint64_t key, uint64_t *out);

/* Returns whether a key is present. */
bool indexset_replica_contains(const indexset_replica *replica, uint64_t key);

/* Returns the rank of a key: the number of keys below it. Takes two binary searches and a sum over the index. */
size_t indexset_replica_rank(const indexset_replica *replica, uint64_t key);

/* Writes the pair at a position, counted from 0. Returns false, and writes nothing, if there is none. */
bool indexset_replica_at(const indexset_replica *replica, size_t position, uint64_t *key, uint64_t *value);

/* Writes the pair of the least or the greatest key. Returns false, and writes nothing, if the replica is empty. */
bool indexset_replica_first(const indexset_replica *replica, uint64_t *key, uint64_t *value);
bool indexset_replica_last(const indexset_replica *replica, uint64_t *key, uint64_t *value);

/* Writes the pairs of the keys from `low` to `high`, both included, in order, into two arrays, as many as fit into
 * both. Returns the number written. */
size_t indexset_replica_range(const indexset_replica *replica, uint64_t low, uint64_t high, uint64_t *keys,
                              size_t key_places, uint64_t *values, size_t value_places);

/* Writes the pairs from a position on, in order, into two arrays, as many as fit into both. Returns the number
 * written. */
size_t indexset_replica_range_by_position(const indexset_replica *replica, size_t from, uint64_t *keys,
                                          size_t key_places, uint64_t *values, size_t value_places);

/* Moves a cursor to a position, counted from 0, or to the end if there is none. */
void indexset_replica_cursor_at(const indexset_replica *replica, size_t position, indexset_cursor *cursor);

/* Moves a cursor to the first pair whose key is not below `from`, or to the end if there is none. */
void indexset_replica_cursor_from(const indexset_replica *replica, uint64_t from, indexset_cursor *cursor);

/* Writes the pairs from a cursor on, in order, into two arrays, as many as fit into both, and moves the cursor past
 * them. Returns the number written: 0 at the end. */
size_t indexset_replica_cursor_next(const indexset_replica *replica, indexset_cursor *cursor, uint64_t *keys,
                                    size_t key_places, uint64_t *values, size_t value_places);

/* Writes the number of pairs of each node, in order, into an array of `places` places, as many as fit. Returns the
 * number written. */
size_t indexset_replica_node_lengths(const indexset_replica *replica, size_t *out, size_t places);

/* The handle of an ordered map from byte strings to uint64_t. Both fields are the library's own.
 *
 * A key is an array of `key_len` bytes: text in UTF-8 or any other bytes, zeros included. Keys are in the order of
 * memcmp, and a key is before those that it is a prefix of; for text in UTF-8 that is the order of its code points. A
 * key that is passed is only read and belongs to the caller; the map keeps a copy of its own. A key that is read is
 * copied into an array of the caller's. */
typedef struct indexset_text_map {
    void *at;
    bool live;
} indexset_text_map;

/* Compares two byte strings in this order. Returns a negative number, 0 or a positive number, as memcmp does. */
static inline int indexset_bytes_compare(const void *one, size_t one_len, const void *other, size_t other_len) {
    int order = memcmp(one, other, one_len < other_len ? one_len : other_len);
    return order != 0 ? order : (one_len > other_len) - (one_len < other_len);
}

/* Makes an empty map, whose nodes hold at most 256 pairs. Returns INDEXSET_YES, INDEXSET_MEMORY, or INDEXSET_HELD if
 * the handle owns a map; unless it returns INDEXSET_YES, nothing changes. */
uint32_t indexset_text_map_new(indexset_text_map *map);

/* Makes a clone of a map under the handle `to`, with copies of the keys. Returns INDEXSET_YES, INDEXSET_MEMORY,
 * INDEXSET_NONE if `map` owns none, or else INDEXSET_HELD if `to` owns a map. `map` never changes, and `to` changes
 * only if the call returns INDEXSET_YES. */
uint32_t indexset_text_map_clone(const indexset_text_map *map, indexset_text_map *to);

/* Frees the map; the handle then owns none. Does nothing if the handle owns none. */
void indexset_text_map_free(indexset_text_map *map);

/* Makes an empty map under a handle on the heap, and writes the address of the handle. Returns INDEXSET_YES or
 * INDEXSET_MEMORY; unless it returns INDEXSET_YES, nothing is written. Each call takes this handle too. */
uint32_t indexset_text_map_create(indexset_text_map **map);

/* Frees a handle that indexset_text_map_create made and the collection that it owns, and writes a null pointer. Does
 * nothing if the pointer is null. */
void indexset_text_map_destroy(indexset_text_map **map);

/* Moves a map from one handle to another: frees the map of `to`, if any, and gives `to` the map of `from`, if any.
 * `from` then owns none. */
void indexset_text_map_move(indexset_text_map *to, indexset_text_map *from);

/* Swaps the collections of two handles. */
void indexset_text_map_swap(indexset_text_map *one, indexset_text_map *other);

/* Removes all pairs. Allocates nothing. */
void indexset_text_map_clear(indexset_text_map *map);

/* Returns the number of pairs. */
size_t indexset_text_map_len(const indexset_text_map *map);

/* Sets the value of a key. Returns INDEXSET_YES if the key was absent; INDEXSET_NO if it was present, and then writes
 * the old value to `before` and allocates nothing; or INDEXSET_MEMORY or INDEXSET_NONE, and then nothing changes.
 * `before` is written only if the call returns INDEXSET_NO. */
uint32_t indexset_text_map_insert(indexset_text_map *map, const void *key, size_t key_len, uint64_t value,
                                  uint64_t *before);

/* Sets the value of a key in the same way and writes the key's rank, which is then the position of its pair, to
 * `rank`, also if the key was present. `rank` is written only if the call returns INDEXSET_YES or INDEXSET_NO. Takes
 * one more search. */
uint32_t indexset_text_map_insert_ranked(indexset_text_map *map, const void *key, size_t key_len, uint64_t value,
                                         uint64_t *before, size_t *rank);

/* Removes a key and writes its value. Returns false, and neither changes nor writes anything, if the key is
 * absent. */
bool indexset_text_map_remove(indexset_text_map *map, const void *key, size_t key_len, uint64_t *out);

/* Returns whether a key is present. */
bool indexset_text_map_contains(const indexset_text_map *map, const void *key, size_t key_len);

/* Writes the value of a key. Returns false, and writes nothing, if the key is absent. */
bool indexset_text_map_get(const indexset_text_map *map, const void *key, size_t key_len, uint64_t *out);

/* Returns the rank of a key: the number of keys below it. */
size_t indexset_text_map_rank(const indexset_text_map *map, const void *key, size_t key_len);

/* Returns the number of keys not above a key. The pairs of the keys from `low` to `high` are at the positions from
 * the rank of `low` up to, and without, this number for `high`. */
size_t indexset_text_map_count_up_to(const indexset_text_map *map, const void *key, size_t key_len);

/* Writes the pair at a position, counted from 0: the bytes of its key into an array of `places` places, which
 * truncates them; the length of the key, which may be larger, to `len`; and its value. Returns false, and writes
 * nothing, if there is none. */
bool indexset_text_map_at(const indexset_text_map *map, size_t position, void *key, size_t places, size_t *len,
                          uint64_t *value);

/* Removes the pair at a position and writes it in the same way. Returns false, and neither changes nor writes
 * anything, if there is none. */
bool indexset_text_map_remove_at(indexset_text_map *map, size_t position, void *key, size_t places, size_t *len,
                                 uint64_t *value);

/* Writes the pair of the least or the greatest key in the same way. Returns false, and writes nothing, if the map is
 * empty. */
bool indexset_text_map_first(const indexset_text_map *map, void *key, size_t places, size_t *len, uint64_t *value);
bool indexset_text_map_last(const indexset_text_map *map, void *key, size_t places, size_t *len, uint64_t *value);

/* Writes the pair of the least key not below `from`, which has `from_len` bytes, or above it, in the same way.
 * Returns false, and writes nothing, if there is none. */
bool indexset_text_map_lower_bound(const indexset_text_map *map, const void *from, size_t from_len, void *key,
                                   size_t places, size_t *len, uint64_t *value);
bool indexset_text_map_upper_bound(const indexset_text_map *map, const void *from, size_t from_len, void *key,
                                   size_t places, size_t *len, uint64_t *value);

/* Writes the values of the pairs from a position on, in the order of their keys, into an array of `places` places, as
 * many as fit. Returns the number written. */
size_t indexset_text_map_range_by_position(const indexset_text_map *map, size_t from, uint64_t *values, size_t places);

/* Writes the length in bytes of each key from a position on, in order into an array of `length_places` places, as
 * many as fit, and the concatenated bytes of those keys into an array of `byte_places` places, which truncates them,
 * even within a key. Returns the number of lengths written. */
size_t indexset_text_map_keys_by_position(const indexset_text_map *map, size_t from, void *bytes, size_t byte_places,
                                          size_t *lengths, size_t length_places);

/* Moves a cursor to a position, counted from 0, or to the end if there is none. */
void indexset_text_map_cursor_at(const indexset_text_map *map, size_t position, indexset_cursor *cursor);

/* Moves a cursor to the first pair whose key is not below `from`, which has `from_len` bytes, or to the end if there
 * is none. */
void indexset_text_map_cursor_from(const indexset_text_map *map, const void *from, size_t from_len,
                                   indexset_cursor *cursor);

/* Writes the length in bytes of each key from a cursor on, and the value of its pair, in order into two arrays, as
 * many as fit into both, and the concatenated bytes of those keys into an array of `byte_places` places, which
 * truncates them, even within a key. Moves the cursor past these pairs. Returns the number of these pairs: 0 at the
 * end. */
size_t indexset_text_map_cursor_next(const indexset_text_map *map, indexset_cursor *cursor, void *bytes,
                                     size_t byte_places, size_t *lengths, size_t length_places, uint64_t *values,
                                     size_t value_places);

/* A change of a logged map from byte strings. The bytes of its two keys are written to arrays of their own. Unused
 * fields are 0. */
typedef struct indexset_text_event {
    uint64_t number;
    size_t node_len;     /* the length of the key that names the node */
    uint64_t node_value; /* the value of that pair */
    size_t key_len;      /* the length of the pair's key */
    uint64_t value;      /* the pair's value */
    size_t index;
    uint32_t kind;
} indexset_text_event;

/* The handle of an ordered map from byte strings to uint64_t that reports its changes, with consecutive numbers. Both
 * fields are the library's own. Its keys are those of an indexset_text_map. It keeps the changes of the last call
 * that made any, which indexset_text_log_change reads. */
typedef struct indexset_text_log {
    void *at;
    bool live;
} indexset_text_log;

/* Makes an empty map, whose nodes hold at most `size` pairs and whose first change has the number `next`. Returns
 * INDEXSET_YES, INDEXSET_MEMORY, INDEXSET_HELD if the handle owns a map, or INDEXSET_UNFIT if the size is below 2;
 * unless it returns INDEXSET_YES, nothing changes. */
uint32_t indexset_text_log_new(indexset_text_log *log, size_t size, uint64_t next);

/* Frees the map; the handle then owns none. Does nothing if the handle owns none. */
void indexset_text_log_free(indexset_text_log *log);

/* Makes an empty map as indexset_text_log_new does, under a handle on the heap, and writes the address of the handle.
 * Returns INDEXSET_YES, INDEXSET_MEMORY or INDEXSET_UNFIT; unless it returns INDEXSET_YES, nothing is written. Each
 * call takes this handle too. */
uint32_t indexset_text_log_create(indexset_text_log **log, size_t size, uint64_t next);

/* Frees a handle that indexset_text_log_create made and the collection that it owns, and writes a null pointer. Does
 * nothing if the pointer is null. */
void indexset_text_log_destroy(indexset_text_log **log);

/* Moves a map from one handle to another: frees the map of `to`, if any, and gives `to` the map of `from`, if any.
 * `from` then owns none. */
void indexset_text_log_move(indexset_text_log *to, indexset_text_log *from);

/* Swaps the collections of two handles. */
void indexset_text_log_swap(indexset_text_log *one, indexset_text_log *other);

/* Returns the number of pairs, the number of nodes, and the event number of the next change. */
size_t indexset_text_log_len(const indexset_text_log *log);
size_t indexset_text_log_node_count(const indexset_text_log *log);
uint64_t indexset_text_log_next(const indexset_text_log *log);

/* Sets the value of a key, keeps the changes in place of those of the call before, and writes their number, at most
 * INDEXSET_CHANGES, to `event_count`. Returns INDEXSET_YES if the key was absent; INDEXSET_NO if it was present, and
 * then writes the old value to `before`; or INDEXSET_MEMORY, INDEXSET_NUMBERS or INDEXSET_NONE: then nothing changes,
 * and only `event_count` is written, as 0. */
uint32_t indexset_text_log_insert(indexset_text_log *log, const void *key, size_t key_len, uint64_t value,
                                  uint64_t *before, size_t *event_count);

/* Removes a key and writes its value, keeps the changes, and writes their number. Returns INDEXSET_YES, INDEXSET_NO
 * if the key is absent, INDEXSET_MEMORY or INDEXSET_NUMBERS; unless it returns INDEXSET_YES, nothing changes, and
 * only `event_count` is written, as 0. */
uint32_t indexset_text_log_remove(indexset_text_log *log, const void *key, size_t key_len, uint64_t *out,
                                  size_t *event_count);

/* Writes one of the kept changes, counted from 0: its record, and the bytes of the key that names its node and of the
 * key of its pair into two arrays, which truncate them; the record has both lengths. Returns false, and writes
 * nothing, if there is none. */
bool indexset_text_log_change(const indexset_text_log *log, size_t i, indexset_text_event *event, void *node,
                              size_t node_places, void *key, size_t key_places);

/* Writes the value of a key. Returns false, and writes nothing, if the key is absent. */
bool indexset_text_log_get(const indexset_text_log *log, const void *key, size_t key_len, uint64_t *out);

/* Returns whether a key is present. */
bool indexset_text_log_contains(const indexset_text_log *log, const void *key, size_t key_len);

/* Returns the rank of a key, the number of keys below it; or the number of keys not above it. */
size_t indexset_text_log_rank(const indexset_text_log *log, const void *key, size_t key_len);
size_t indexset_text_log_count_up_to(const indexset_text_log *log, const void *key, size_t key_len);

/* Writes the pair at a position, or the values or the keys of the pairs from a position on, as the calls of an
 * indexset_text_map do. */
bool indexset_text_log_at(const indexset_text_log *log, size_t position, void *key, size_t places, size_t *len,
                          uint64_t *value);
size_t indexset_text_log_range_by_position(const indexset_text_log *log, size_t from, uint64_t *values, size_t places);
size_t indexset_text_log_keys_by_position(const indexset_text_log *log, size_t from, void *bytes, size_t byte_places,
                                          size_t *lengths, size_t length_places);

/* Moves a cursor to a position, counted from 0, or to the end if there is none. */
void indexset_text_log_cursor_at(const indexset_text_log *log, size_t position, indexset_cursor *cursor);

/* Moves a cursor to the first pair whose key is not below `from`, which has `from_len` bytes, or to the end if there
 * is none. */
void indexset_text_log_cursor_from(const indexset_text_log *log, const void *from, size_t from_len,
                                   indexset_cursor *cursor);

/* Writes the length in bytes of each key from a cursor on, and the value of its pair, in order into two arrays, as
 * many as fit into both, and the concatenated bytes of those keys into an array of `byte_places` places, which
 * truncates them, even within a key. Moves the cursor past these pairs. Returns the number of these pairs: 0 at the
 * end. */
size_t indexset_text_log_cursor_next(const indexset_text_log *log, indexset_cursor *cursor, void *bytes,
                                     size_t byte_places, size_t *lengths, size_t length_places, uint64_t *values,
                                     size_t value_places);

#ifdef __cplusplus
}
#endif

#endif
