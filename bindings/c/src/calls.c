/* The calls that are not the library's exports themselves, which have "inner_" before their names when it is linked. A
 * call with a const handle works on a copy of the handle, so that it writes nothing that its caller has. One that frees
 * a handle tests for null. Written by scripts/write_bindings.py. */
#include "indexset.h"

void inner_indexset_log_cursor_at(indexset_log *log, size_t position, indexset_cursor *cursor);
void indexset_log_cursor_at(const indexset_log *log, size_t position, indexset_cursor *cursor) {
    indexset_log copy_of_log = *log;
    inner_indexset_log_cursor_at(&copy_of_log, position, cursor);
}

void inner_indexset_log_cursor_from(indexset_log *log, uint64_t from, indexset_cursor *cursor);
void indexset_log_cursor_from(const indexset_log *log, uint64_t from, indexset_cursor *cursor) {
    indexset_log copy_of_log = *log;
    inner_indexset_log_cursor_from(&copy_of_log, from, cursor);
}

size_t inner_indexset_log_cursor_next(indexset_log *log, indexset_cursor *cursor, uint64_t *keys, size_t key_places,
                                      uint64_t *values, size_t value_places);
size_t indexset_log_cursor_next(const indexset_log *log, indexset_cursor *cursor, uint64_t *keys, size_t key_places,
                                uint64_t *values, size_t value_places) {
    indexset_log copy_of_log = *log;
    return inner_indexset_log_cursor_next(&copy_of_log, cursor, keys, key_places, values, value_places);
}

void inner_indexset_log_destroy(indexset_log **log);
void indexset_log_destroy(indexset_log **log) {
    if (*log == NULL) return;
    inner_indexset_log_destroy(log);
}

size_t inner_indexset_log_len(indexset_log *log);
size_t indexset_log_len(const indexset_log *log) {
    indexset_log copy_of_log = *log;
    return inner_indexset_log_len(&copy_of_log);
}

uint64_t inner_indexset_log_next(indexset_log *log);
uint64_t indexset_log_next(const indexset_log *log) {
    indexset_log copy_of_log = *log;
    return inner_indexset_log_next(&copy_of_log);
}

size_t inner_indexset_log_rank(indexset_log *log, uint64_t key);
size_t indexset_log_rank(const indexset_log *log, uint64_t key) {
    indexset_log copy_of_log = *log;
    return inner_indexset_log_rank(&copy_of_log, key);
}

bool inner_indexset_log_at(indexset_log *log, size_t position, uint64_t *key, uint64_t *value);
bool indexset_log_at(const indexset_log *log, size_t position, uint64_t *key, uint64_t *value) {
    indexset_log copy_of_log = *log;
    return inner_indexset_log_at(&copy_of_log, position, key, value);
}

size_t inner_indexset_log_range_by_position(indexset_log *log, size_t from, uint64_t *keys, size_t key_places,
                                            uint64_t *values, size_t value_places);
size_t indexset_log_range_by_position(const indexset_log *log, size_t from, uint64_t *keys, size_t key_places,
                                      uint64_t *values, size_t value_places) {
    indexset_log copy_of_log = *log;
    return inner_indexset_log_range_by_position(&copy_of_log, from, keys, key_places, values, value_places);
}

bool inner_indexset_log_get(indexset_log *log, uint64_t key, uint64_t *out);
bool indexset_log_get(const indexset_log *log, uint64_t key, uint64_t *out) {
    indexset_log copy_of_log = *log;
    return inner_indexset_log_get(&copy_of_log, key, out);
}

bool inner_indexset_log_contains(indexset_log *log, uint64_t key);
bool indexset_log_contains(const indexset_log *log, uint64_t key) {
    indexset_log copy_of_log = *log;
    return inner_indexset_log_contains(&copy_of_log, key);
}

size_t inner_indexset_log_node_count(indexset_log *log);
size_t indexset_log_node_count(const indexset_log *log) {
    indexset_log copy_of_log = *log;
    return inner_indexset_log_node_count(&copy_of_log);
}

size_t inner_indexset_log_node_lengths(indexset_log *log, size_t *out, size_t places);
size_t indexset_log_node_lengths(const indexset_log *log, size_t *out, size_t places) {
    indexset_log copy_of_log = *log;
    return inner_indexset_log_node_lengths(&copy_of_log, out, places);
}

size_t inner_indexset_log_range(indexset_log *log, uint64_t low, uint64_t high, uint64_t *keys, size_t key_places,
                                uint64_t *values, size_t value_places);
size_t indexset_log_range(const indexset_log *log, uint64_t low, uint64_t high, uint64_t *keys, size_t key_places,
                          uint64_t *values, size_t value_places) {
    indexset_log copy_of_log = *log;
    return inner_indexset_log_range(&copy_of_log, low, high, keys, key_places, values, value_places);
}

size_t inner_indexset_map_gets(indexset_map *map, const uint64_t *keys, size_t count, uint64_t absent, uint64_t *out,
                               size_t places);
size_t indexset_map_gets(const indexset_map *map, const uint64_t *keys, size_t count, uint64_t absent, uint64_t *out,
                         size_t places) {
    indexset_map copy_of_map = *map;
    return inner_indexset_map_gets(&copy_of_map, keys, count, absent, out, places);
}

void inner_indexset_map_cursor_at(indexset_map *map, size_t position, indexset_cursor *cursor);
void indexset_map_cursor_at(const indexset_map *map, size_t position, indexset_cursor *cursor) {
    indexset_map copy_of_map = *map;
    inner_indexset_map_cursor_at(&copy_of_map, position, cursor);
}

void inner_indexset_map_cursor_from(indexset_map *map, uint64_t from, indexset_cursor *cursor);
void indexset_map_cursor_from(const indexset_map *map, uint64_t from, indexset_cursor *cursor) {
    indexset_map copy_of_map = *map;
    inner_indexset_map_cursor_from(&copy_of_map, from, cursor);
}

size_t inner_indexset_map_cursor_next(indexset_map *map, indexset_cursor *cursor, uint64_t *keys, size_t key_places,
                                      uint64_t *values, size_t value_places);
size_t indexset_map_cursor_next(const indexset_map *map, indexset_cursor *cursor, uint64_t *keys, size_t key_places,
                                uint64_t *values, size_t value_places) {
    indexset_map copy_of_map = *map;
    return inner_indexset_map_cursor_next(&copy_of_map, cursor, keys, key_places, values, value_places);
}

bool inner_indexset_map_get(indexset_map *map, uint64_t key, uint64_t *out);
bool indexset_map_get(const indexset_map *map, uint64_t key, uint64_t *out) {
    indexset_map copy_of_map = *map;
    return inner_indexset_map_get(&copy_of_map, key, out);
}

bool inner_indexset_map_contains(indexset_map *map, uint64_t key);
bool indexset_map_contains(const indexset_map *map, uint64_t key) {
    indexset_map copy_of_map = *map;
    return inner_indexset_map_contains(&copy_of_map, key);
}

size_t inner_indexset_map_rank(indexset_map *map, uint64_t key);
size_t indexset_map_rank(const indexset_map *map, uint64_t key) {
    indexset_map copy_of_map = *map;
    return inner_indexset_map_rank(&copy_of_map, key);
}

size_t inner_indexset_map_count_up_to(indexset_map *map, uint64_t key);
size_t indexset_map_count_up_to(const indexset_map *map, uint64_t key) {
    indexset_map copy_of_map = *map;
    return inner_indexset_map_count_up_to(&copy_of_map, key);
}

uint32_t inner_indexset_map_clone(indexset_map *map, indexset_map *to);
uint32_t indexset_map_clone(const indexset_map *map, indexset_map *to) {
    indexset_map copy_of_map = *map;
    return inner_indexset_map_clone(&copy_of_map, to);
}

void inner_indexset_map_destroy(indexset_map **map);
void indexset_map_destroy(indexset_map **map) {
    if (*map == NULL) return;
    inner_indexset_map_destroy(map);
}

size_t inner_indexset_map_len(indexset_map *map);
size_t indexset_map_len(const indexset_map *map) {
    indexset_map copy_of_map = *map;
    return inner_indexset_map_len(&copy_of_map);
}

bool inner_indexset_map_at(indexset_map *map, size_t position, uint64_t *key, uint64_t *value);
bool indexset_map_at(const indexset_map *map, size_t position, uint64_t *key, uint64_t *value) {
    indexset_map copy_of_map = *map;
    return inner_indexset_map_at(&copy_of_map, position, key, value);
}

bool inner_indexset_map_lower_bound(indexset_map *map, uint64_t from, uint64_t *key, uint64_t *value);
bool indexset_map_lower_bound(const indexset_map *map, uint64_t from, uint64_t *key, uint64_t *value) {
    indexset_map copy_of_map = *map;
    return inner_indexset_map_lower_bound(&copy_of_map, from, key, value);
}

bool inner_indexset_map_upper_bound(indexset_map *map, uint64_t from, uint64_t *key, uint64_t *value);
bool indexset_map_upper_bound(const indexset_map *map, uint64_t from, uint64_t *key, uint64_t *value) {
    indexset_map copy_of_map = *map;
    return inner_indexset_map_upper_bound(&copy_of_map, from, key, value);
}

bool inner_indexset_map_first(indexset_map *map, uint64_t *key, uint64_t *value);
bool indexset_map_first(const indexset_map *map, uint64_t *key, uint64_t *value) {
    indexset_map copy_of_map = *map;
    return inner_indexset_map_first(&copy_of_map, key, value);
}

bool inner_indexset_map_last(indexset_map *map, uint64_t *key, uint64_t *value);
bool indexset_map_last(const indexset_map *map, uint64_t *key, uint64_t *value) {
    indexset_map copy_of_map = *map;
    return inner_indexset_map_last(&copy_of_map, key, value);
}

size_t inner_indexset_map_range_by_key(indexset_map *map, uint64_t low, uint64_t high, uint64_t *keys,
                                       size_t key_places, uint64_t *values, size_t value_places);
size_t indexset_map_range_by_key(const indexset_map *map, uint64_t low, uint64_t high, uint64_t *keys,
                                 size_t key_places, uint64_t *values, size_t value_places) {
    indexset_map copy_of_map = *map;
    return inner_indexset_map_range_by_key(&copy_of_map, low, high, keys, key_places, values, value_places);
}

size_t inner_indexset_map_range_by_position(indexset_map *map, size_t from, uint64_t *keys, size_t key_places,
                                            uint64_t *values, size_t value_places);
size_t indexset_map_range_by_position(const indexset_map *map, size_t from, uint64_t *keys, size_t key_places,
                                      uint64_t *values, size_t value_places) {
    indexset_map copy_of_map = *map;
    return inner_indexset_map_range_by_position(&copy_of_map, from, keys, key_places, values, value_places);
}

void inner_indexset_multi_cursor_at(indexset_multi *multi, size_t position, indexset_cursor *cursor);
void indexset_multi_cursor_at(const indexset_multi *multi, size_t position, indexset_cursor *cursor) {
    indexset_multi copy_of_multi = *multi;
    inner_indexset_multi_cursor_at(&copy_of_multi, position, cursor);
}

void inner_indexset_multi_cursor_from(indexset_multi *multi, uint64_t from, indexset_cursor *cursor);
void indexset_multi_cursor_from(const indexset_multi *multi, uint64_t from, indexset_cursor *cursor) {
    indexset_multi copy_of_multi = *multi;
    inner_indexset_multi_cursor_from(&copy_of_multi, from, cursor);
}

size_t inner_indexset_multi_cursor_next(indexset_multi *multi, indexset_cursor *cursor, uint64_t *keys,
                                        size_t key_places, uint64_t *values, size_t value_places);
size_t indexset_multi_cursor_next(const indexset_multi *multi, indexset_cursor *cursor, uint64_t *keys,
                                  size_t key_places, uint64_t *values, size_t value_places) {
    indexset_multi copy_of_multi = *multi;
    return inner_indexset_multi_cursor_next(&copy_of_multi, cursor, keys, key_places, values, value_places);
}

bool inner_indexset_multi_contains(indexset_multi *multi, uint64_t key, uint64_t value);
bool indexset_multi_contains(const indexset_multi *multi, uint64_t key, uint64_t value) {
    indexset_multi copy_of_multi = *multi;
    return inner_indexset_multi_contains(&copy_of_multi, key, value);
}

bool inner_indexset_multi_contains_key(indexset_multi *multi, uint64_t key);
bool indexset_multi_contains_key(const indexset_multi *multi, uint64_t key) {
    indexset_multi copy_of_multi = *multi;
    return inner_indexset_multi_contains_key(&copy_of_multi, key);
}

size_t inner_indexset_multi_count(indexset_multi *multi, uint64_t key);
size_t indexset_multi_count(const indexset_multi *multi, uint64_t key) {
    indexset_multi copy_of_multi = *multi;
    return inner_indexset_multi_count(&copy_of_multi, key);
}

size_t inner_indexset_multi_get(indexset_multi *multi, uint64_t key, uint64_t *out, size_t places);
size_t indexset_multi_get(const indexset_multi *multi, uint64_t key, uint64_t *out, size_t places) {
    indexset_multi copy_of_multi = *multi;
    return inner_indexset_multi_get(&copy_of_multi, key, out, places);
}

void inner_indexset_multi_destroy(indexset_multi **multi);
void indexset_multi_destroy(indexset_multi **multi) {
    if (*multi == NULL) return;
    inner_indexset_multi_destroy(multi);
}

size_t inner_indexset_multi_len(indexset_multi *multi);
size_t indexset_multi_len(const indexset_multi *multi) {
    indexset_multi copy_of_multi = *multi;
    return inner_indexset_multi_len(&copy_of_multi);
}

bool inner_indexset_multi_first(indexset_multi *multi, uint64_t *key, uint64_t *value);
bool indexset_multi_first(const indexset_multi *multi, uint64_t *key, uint64_t *value) {
    indexset_multi copy_of_multi = *multi;
    return inner_indexset_multi_first(&copy_of_multi, key, value);
}

bool inner_indexset_multi_last(indexset_multi *multi, uint64_t *key, uint64_t *value);
bool indexset_multi_last(const indexset_multi *multi, uint64_t *key, uint64_t *value) {
    indexset_multi copy_of_multi = *multi;
    return inner_indexset_multi_last(&copy_of_multi, key, value);
}

size_t inner_indexset_multi_range(indexset_multi *multi, uint64_t low, uint64_t high, uint64_t *keys, size_t key_places,
                                  uint64_t *values, size_t value_places);
size_t indexset_multi_range(const indexset_multi *multi, uint64_t low, uint64_t high, uint64_t *keys, size_t key_places,
                            uint64_t *values, size_t value_places) {
    indexset_multi copy_of_multi = *multi;
    return inner_indexset_multi_range(&copy_of_multi, low, high, keys, key_places, values, value_places);
}

size_t inner_indexset_multi_rank(indexset_multi *multi, uint64_t key);
size_t indexset_multi_rank(const indexset_multi *multi, uint64_t key) {
    indexset_multi copy_of_multi = *multi;
    return inner_indexset_multi_rank(&copy_of_multi, key);
}

bool inner_indexset_multi_at(indexset_multi *multi, size_t position, uint64_t *key, uint64_t *value);
bool indexset_multi_at(const indexset_multi *multi, size_t position, uint64_t *key, uint64_t *value) {
    indexset_multi copy_of_multi = *multi;
    return inner_indexset_multi_at(&copy_of_multi, position, key, value);
}

size_t inner_indexset_multi_range_by_position(indexset_multi *multi, size_t from, uint64_t *keys, size_t key_places,
                                              uint64_t *values, size_t value_places);
size_t indexset_multi_range_by_position(const indexset_multi *multi, size_t from, uint64_t *keys, size_t key_places,
                                        uint64_t *values, size_t value_places) {
    indexset_multi copy_of_multi = *multi;
    return inner_indexset_multi_range_by_position(&copy_of_multi, from, keys, key_places, values, value_places);
}

void inner_indexset_replica_cursor_at(indexset_replica *replica, size_t position, indexset_cursor *cursor);
void indexset_replica_cursor_at(const indexset_replica *replica, size_t position, indexset_cursor *cursor) {
    indexset_replica copy_of_replica = *replica;
    inner_indexset_replica_cursor_at(&copy_of_replica, position, cursor);
}

void inner_indexset_replica_cursor_from(indexset_replica *replica, uint64_t from, indexset_cursor *cursor);
void indexset_replica_cursor_from(const indexset_replica *replica, uint64_t from, indexset_cursor *cursor) {
    indexset_replica copy_of_replica = *replica;
    inner_indexset_replica_cursor_from(&copy_of_replica, from, cursor);
}

size_t inner_indexset_replica_cursor_next(indexset_replica *replica, indexset_cursor *cursor, uint64_t *keys,
                                          size_t key_places, uint64_t *values, size_t value_places);
size_t indexset_replica_cursor_next(const indexset_replica *replica, indexset_cursor *cursor, uint64_t *keys,
                                    size_t key_places, uint64_t *values, size_t value_places) {
    indexset_replica copy_of_replica = *replica;
    return inner_indexset_replica_cursor_next(&copy_of_replica, cursor, keys, key_places, values, value_places);
}

uint32_t inner_indexset_replica_from_log(indexset_replica *replica, indexset_log *log);
uint32_t indexset_replica_from_log(indexset_replica *replica, const indexset_log *log) {
    indexset_log copy_of_log = *log;
    return inner_indexset_replica_from_log(replica, &copy_of_log);
}

void inner_indexset_replica_destroy(indexset_replica **replica);
void indexset_replica_destroy(indexset_replica **replica) {
    if (*replica == NULL) return;
    inner_indexset_replica_destroy(replica);
}

size_t inner_indexset_replica_len(indexset_replica *replica);
size_t indexset_replica_len(const indexset_replica *replica) {
    indexset_replica copy_of_replica = *replica;
    return inner_indexset_replica_len(&copy_of_replica);
}

size_t inner_indexset_replica_node_count(indexset_replica *replica);
size_t indexset_replica_node_count(const indexset_replica *replica) {
    indexset_replica copy_of_replica = *replica;
    return inner_indexset_replica_node_count(&copy_of_replica);
}

uint64_t inner_indexset_replica_next(indexset_replica *replica);
uint64_t indexset_replica_next(const indexset_replica *replica) {
    indexset_replica copy_of_replica = *replica;
    return inner_indexset_replica_next(&copy_of_replica);
}

size_t inner_indexset_replica_rank(indexset_replica *replica, uint64_t key);
size_t indexset_replica_rank(const indexset_replica *replica, uint64_t key) {
    indexset_replica copy_of_replica = *replica;
    return inner_indexset_replica_rank(&copy_of_replica, key);
}

bool inner_indexset_replica_at(indexset_replica *replica, size_t position, uint64_t *key, uint64_t *value);
bool indexset_replica_at(const indexset_replica *replica, size_t position, uint64_t *key, uint64_t *value) {
    indexset_replica copy_of_replica = *replica;
    return inner_indexset_replica_at(&copy_of_replica, position, key, value);
}

size_t inner_indexset_replica_range_by_position(indexset_replica *replica, size_t from, uint64_t *keys,
                                                size_t key_places, uint64_t *values, size_t value_places);
size_t indexset_replica_range_by_position(const indexset_replica *replica, size_t from, uint64_t *keys,
                                          size_t key_places, uint64_t *values, size_t value_places) {
    indexset_replica copy_of_replica = *replica;
    return inner_indexset_replica_range_by_position(&copy_of_replica, from, keys, key_places, values, value_places);
}

bool inner_indexset_replica_get(indexset_replica *replica, uint64_t key, uint64_t *out);
bool indexset_replica_get(const indexset_replica *replica, uint64_t key, uint64_t *out) {
    indexset_replica copy_of_replica = *replica;
    return inner_indexset_replica_get(&copy_of_replica, key, out);
}

bool inner_indexset_replica_contains(indexset_replica *replica, uint64_t key);
bool indexset_replica_contains(const indexset_replica *replica, uint64_t key) {
    indexset_replica copy_of_replica = *replica;
    return inner_indexset_replica_contains(&copy_of_replica, key);
}

bool inner_indexset_replica_first(indexset_replica *replica, uint64_t *key, uint64_t *value);
bool indexset_replica_first(const indexset_replica *replica, uint64_t *key, uint64_t *value) {
    indexset_replica copy_of_replica = *replica;
    return inner_indexset_replica_first(&copy_of_replica, key, value);
}

bool inner_indexset_replica_last(indexset_replica *replica, uint64_t *key, uint64_t *value);
bool indexset_replica_last(const indexset_replica *replica, uint64_t *key, uint64_t *value) {
    indexset_replica copy_of_replica = *replica;
    return inner_indexset_replica_last(&copy_of_replica, key, value);
}

size_t inner_indexset_replica_node_lengths(indexset_replica *replica, size_t *out, size_t places);
size_t indexset_replica_node_lengths(const indexset_replica *replica, size_t *out, size_t places) {
    indexset_replica copy_of_replica = *replica;
    return inner_indexset_replica_node_lengths(&copy_of_replica, out, places);
}

size_t inner_indexset_replica_range(indexset_replica *replica, uint64_t low, uint64_t high, uint64_t *keys,
                                    size_t key_places, uint64_t *values, size_t value_places);
size_t indexset_replica_range(const indexset_replica *replica, uint64_t low, uint64_t high, uint64_t *keys,
                              size_t key_places, uint64_t *values, size_t value_places) {
    indexset_replica copy_of_replica = *replica;
    return inner_indexset_replica_range(&copy_of_replica, low, high, keys, key_places, values, value_places);
}

size_t inner_indexset_set_ranks(indexset_set *set, const uint64_t *keys, size_t count, size_t *out, size_t places);
size_t indexset_set_ranks(const indexset_set *set, const uint64_t *keys, size_t count, size_t *out, size_t places) {
    indexset_set copy_of_set = *set;
    return inner_indexset_set_ranks(&copy_of_set, keys, count, out, places);
}

size_t inner_indexset_set_at_all(indexset_set *set, const size_t *positions, size_t count, uint64_t *out,
                                 size_t places);
size_t indexset_set_at_all(const indexset_set *set, const size_t *positions, size_t count, uint64_t *out,
                           size_t places) {
    indexset_set copy_of_set = *set;
    return inner_indexset_set_at_all(&copy_of_set, positions, count, out, places);
}

void inner_indexset_set_cursor_at(indexset_set *set, size_t position, indexset_cursor *cursor);
void indexset_set_cursor_at(const indexset_set *set, size_t position, indexset_cursor *cursor) {
    indexset_set copy_of_set = *set;
    inner_indexset_set_cursor_at(&copy_of_set, position, cursor);
}

void inner_indexset_set_cursor_from(indexset_set *set, uint64_t key, indexset_cursor *cursor);
void indexset_set_cursor_from(const indexset_set *set, uint64_t key, indexset_cursor *cursor) {
    indexset_set copy_of_set = *set;
    inner_indexset_set_cursor_from(&copy_of_set, key, cursor);
}

size_t inner_indexset_set_cursor_next(indexset_set *set, indexset_cursor *cursor, uint64_t *out, size_t places);
size_t indexset_set_cursor_next(const indexset_set *set, indexset_cursor *cursor, uint64_t *out, size_t places) {
    indexset_set copy_of_set = *set;
    return inner_indexset_set_cursor_next(&copy_of_set, cursor, out, places);
}

bool inner_indexset_set_contains(indexset_set *set, uint64_t key);
bool indexset_set_contains(const indexset_set *set, uint64_t key) {
    indexset_set copy_of_set = *set;
    return inner_indexset_set_contains(&copy_of_set, key);
}

size_t inner_indexset_set_rank(indexset_set *set, uint64_t key);
size_t indexset_set_rank(const indexset_set *set, uint64_t key) {
    indexset_set copy_of_set = *set;
    return inner_indexset_set_rank(&copy_of_set, key);
}

bool inner_indexset_set_lower_bound(indexset_set *set, uint64_t key, uint64_t *out);
bool indexset_set_lower_bound(const indexset_set *set, uint64_t key, uint64_t *out) {
    indexset_set copy_of_set = *set;
    return inner_indexset_set_lower_bound(&copy_of_set, key, out);
}

bool inner_indexset_set_upper_bound(indexset_set *set, uint64_t key, uint64_t *out);
bool indexset_set_upper_bound(const indexset_set *set, uint64_t key, uint64_t *out) {
    indexset_set copy_of_set = *set;
    return inner_indexset_set_upper_bound(&copy_of_set, key, out);
}

size_t inner_indexset_set_count_up_to(indexset_set *set, uint64_t key);
size_t indexset_set_count_up_to(const indexset_set *set, uint64_t key) {
    indexset_set copy_of_set = *set;
    return inner_indexset_set_count_up_to(&copy_of_set, key);
}

uint32_t inner_indexset_set_clone(indexset_set *set, indexset_set *to);
uint32_t indexset_set_clone(const indexset_set *set, indexset_set *to) {
    indexset_set copy_of_set = *set;
    return inner_indexset_set_clone(&copy_of_set, to);
}

void inner_indexset_set_destroy(indexset_set **set);
void indexset_set_destroy(indexset_set **set) {
    if (*set == NULL) return;
    inner_indexset_set_destroy(set);
}

size_t inner_indexset_set_len(indexset_set *set);
size_t indexset_set_len(const indexset_set *set) {
    indexset_set copy_of_set = *set;
    return inner_indexset_set_len(&copy_of_set);
}

bool inner_indexset_set_at(indexset_set *set, size_t position, uint64_t *out);
bool indexset_set_at(const indexset_set *set, size_t position, uint64_t *out) {
    indexset_set copy_of_set = *set;
    return inner_indexset_set_at(&copy_of_set, position, out);
}

bool inner_indexset_set_first(indexset_set *set, uint64_t *out);
bool indexset_set_first(const indexset_set *set, uint64_t *out) {
    indexset_set copy_of_set = *set;
    return inner_indexset_set_first(&copy_of_set, out);
}

bool inner_indexset_set_last(indexset_set *set, uint64_t *out);
bool indexset_set_last(const indexset_set *set, uint64_t *out) {
    indexset_set copy_of_set = *set;
    return inner_indexset_set_last(&copy_of_set, out);
}

size_t inner_indexset_set_range_by_key(indexset_set *set, uint64_t low, uint64_t high, uint64_t *out, size_t places);
size_t indexset_set_range_by_key(const indexset_set *set, uint64_t low, uint64_t high, uint64_t *out, size_t places) {
    indexset_set copy_of_set = *set;
    return inner_indexset_set_range_by_key(&copy_of_set, low, high, out, places);
}

size_t inner_indexset_set_range_by_position(indexset_set *set, size_t from, uint64_t *out, size_t places);
size_t indexset_set_range_by_position(const indexset_set *set, size_t from, uint64_t *out, size_t places) {
    indexset_set copy_of_set = *set;
    return inner_indexset_set_range_by_position(&copy_of_set, from, out, places);
}

void inner_indexset_text_map_cursor_at(indexset_text_map *map, size_t position, indexset_cursor *cursor);
void indexset_text_map_cursor_at(const indexset_text_map *map, size_t position, indexset_cursor *cursor) {
    indexset_text_map copy_of_map = *map;
    inner_indexset_text_map_cursor_at(&copy_of_map, position, cursor);
}

void inner_indexset_text_map_cursor_from(indexset_text_map *map, const void *from, size_t from_len,
                                         indexset_cursor *cursor);
void indexset_text_map_cursor_from(const indexset_text_map *map, const void *from, size_t from_len,
                                   indexset_cursor *cursor) {
    indexset_text_map copy_of_map = *map;
    inner_indexset_text_map_cursor_from(&copy_of_map, from, from_len, cursor);
}

size_t inner_indexset_text_map_cursor_next(indexset_text_map *map, indexset_cursor *cursor, void *bytes,
                                           size_t byte_places, size_t *lengths, size_t length_places, uint64_t *values,
                                           size_t value_places);
size_t indexset_text_map_cursor_next(const indexset_text_map *map, indexset_cursor *cursor, void *bytes,
                                     size_t byte_places, size_t *lengths, size_t length_places, uint64_t *values,
                                     size_t value_places) {
    indexset_text_map copy_of_map = *map;
    return inner_indexset_text_map_cursor_next(&copy_of_map, cursor, bytes, byte_places, lengths, length_places, values,
                                               value_places);
}

bool inner_indexset_text_map_get(indexset_text_map *map, const void *key, size_t key_len, uint64_t *out);
bool indexset_text_map_get(const indexset_text_map *map, const void *key, size_t key_len, uint64_t *out) {
    indexset_text_map copy_of_map = *map;
    return inner_indexset_text_map_get(&copy_of_map, key, key_len, out);
}

bool inner_indexset_text_map_contains(indexset_text_map *map, const void *key, size_t key_len);
bool indexset_text_map_contains(const indexset_text_map *map, const void *key, size_t key_len) {
    indexset_text_map copy_of_map = *map;
    return inner_indexset_text_map_contains(&copy_of_map, key, key_len);
}

size_t inner_indexset_text_map_rank(indexset_text_map *map, const void *key, size_t key_len);
size_t indexset_text_map_rank(const indexset_text_map *map, const void *key, size_t key_len) {
    indexset_text_map copy_of_map = *map;
    return inner_indexset_text_map_rank(&copy_of_map, key, key_len);
}

size_t inner_indexset_text_map_count_up_to(indexset_text_map *map, const void *key, size_t key_len);
size_t indexset_text_map_count_up_to(const indexset_text_map *map, const void *key, size_t key_len) {
    indexset_text_map copy_of_map = *map;
    return inner_indexset_text_map_count_up_to(&copy_of_map, key, key_len);
}

uint32_t inner_indexset_text_map_clone(indexset_text_map *map, indexset_text_map *to);
uint32_t indexset_text_map_clone(const indexset_text_map *map, indexset_text_map *to) {
    indexset_text_map copy_of_map = *map;
    return inner_indexset_text_map_clone(&copy_of_map, to);
}

void inner_indexset_text_map_destroy(indexset_text_map **map);
void indexset_text_map_destroy(indexset_text_map **map) {
    if (*map == NULL) return;
    inner_indexset_text_map_destroy(map);
}

size_t inner_indexset_text_map_len(indexset_text_map *map);
size_t indexset_text_map_len(const indexset_text_map *map) {
    indexset_text_map copy_of_map = *map;
    return inner_indexset_text_map_len(&copy_of_map);
}

void inner_indexset_text_log_cursor_at(indexset_text_log *log, size_t position, indexset_cursor *cursor);
void indexset_text_log_cursor_at(const indexset_text_log *log, size_t position, indexset_cursor *cursor) {
    indexset_text_log copy_of_log = *log;
    inner_indexset_text_log_cursor_at(&copy_of_log, position, cursor);
}

void inner_indexset_text_log_cursor_from(indexset_text_log *log, const void *from, size_t from_len,
                                         indexset_cursor *cursor);
void indexset_text_log_cursor_from(const indexset_text_log *log, const void *from, size_t from_len,
                                   indexset_cursor *cursor) {
    indexset_text_log copy_of_log = *log;
    inner_indexset_text_log_cursor_from(&copy_of_log, from, from_len, cursor);
}

size_t inner_indexset_text_log_cursor_next(indexset_text_log *log, indexset_cursor *cursor, void *bytes,
                                           size_t byte_places, size_t *lengths, size_t length_places, uint64_t *values,
                                           size_t value_places);
size_t indexset_text_log_cursor_next(const indexset_text_log *log, indexset_cursor *cursor, void *bytes,
                                     size_t byte_places, size_t *lengths, size_t length_places, uint64_t *values,
                                     size_t value_places) {
    indexset_text_log copy_of_log = *log;
    return inner_indexset_text_log_cursor_next(&copy_of_log, cursor, bytes, byte_places, lengths, length_places, values,
                                               value_places);
}

bool inner_indexset_text_log_change(indexset_text_log *log, size_t i, indexset_text_event *event, void *node,
                                    size_t node_places, void *key, size_t key_places);
bool indexset_text_log_change(const indexset_text_log *log, size_t i, indexset_text_event *event, void *node,
                              size_t node_places, void *key, size_t key_places) {
    indexset_text_log copy_of_log = *log;
    return inner_indexset_text_log_change(&copy_of_log, i, event, node, node_places, key, key_places);
}

bool inner_indexset_text_log_get(indexset_text_log *log, const void *key, size_t key_len, uint64_t *out);
bool indexset_text_log_get(const indexset_text_log *log, const void *key, size_t key_len, uint64_t *out) {
    indexset_text_log copy_of_log = *log;
    return inner_indexset_text_log_get(&copy_of_log, key, key_len, out);
}

bool inner_indexset_text_log_contains(indexset_text_log *log, const void *key, size_t key_len);
bool indexset_text_log_contains(const indexset_text_log *log, const void *key, size_t key_len) {
    indexset_text_log copy_of_log = *log;
    return inner_indexset_text_log_contains(&copy_of_log, key, key_len);
}

size_t inner_indexset_text_log_rank(indexset_text_log *log, const void *key, size_t key_len);
size_t indexset_text_log_rank(const indexset_text_log *log, const void *key, size_t key_len) {
    indexset_text_log copy_of_log = *log;
    return inner_indexset_text_log_rank(&copy_of_log, key, key_len);
}

size_t inner_indexset_text_log_count_up_to(indexset_text_log *log, const void *key, size_t key_len);
size_t indexset_text_log_count_up_to(const indexset_text_log *log, const void *key, size_t key_len) {
    indexset_text_log copy_of_log = *log;
    return inner_indexset_text_log_count_up_to(&copy_of_log, key, key_len);
}

void inner_indexset_text_log_destroy(indexset_text_log **log);
void indexset_text_log_destroy(indexset_text_log **log) {
    if (*log == NULL) return;
    inner_indexset_text_log_destroy(log);
}

size_t inner_indexset_text_log_len(indexset_text_log *log);
size_t indexset_text_log_len(const indexset_text_log *log) {
    indexset_text_log copy_of_log = *log;
    return inner_indexset_text_log_len(&copy_of_log);
}

uint64_t inner_indexset_text_log_next(indexset_text_log *log);
uint64_t indexset_text_log_next(const indexset_text_log *log) {
    indexset_text_log copy_of_log = *log;
    return inner_indexset_text_log_next(&copy_of_log);
}

size_t inner_indexset_text_log_node_count(indexset_text_log *log);
size_t indexset_text_log_node_count(const indexset_text_log *log) {
    indexset_text_log copy_of_log = *log;
    return inner_indexset_text_log_node_count(&copy_of_log);
}

bool inner_indexset_text_log_at(indexset_text_log *log, size_t position, void *key, size_t places, size_t *len,
                                uint64_t *value);
bool indexset_text_log_at(const indexset_text_log *log, size_t position, void *key, size_t places, size_t *len,
                          uint64_t *value) {
    indexset_text_log copy_of_log = *log;
    return inner_indexset_text_log_at(&copy_of_log, position, key, places, len, value);
}

size_t inner_indexset_text_log_range_by_position(indexset_text_log *log, size_t from, uint64_t *values, size_t places);
size_t indexset_text_log_range_by_position(const indexset_text_log *log, size_t from, uint64_t *values, size_t places) {
    indexset_text_log copy_of_log = *log;
    return inner_indexset_text_log_range_by_position(&copy_of_log, from, values, places);
}

size_t inner_indexset_text_log_keys_by_position(indexset_text_log *log, size_t from, void *bytes, size_t byte_places,
                                                size_t *lengths, size_t length_places);
size_t indexset_text_log_keys_by_position(const indexset_text_log *log, size_t from, void *bytes, size_t byte_places,
                                          size_t *lengths, size_t length_places) {
    indexset_text_log copy_of_log = *log;
    return inner_indexset_text_log_keys_by_position(&copy_of_log, from, bytes, byte_places, lengths, length_places);
}

bool inner_indexset_text_map_at(indexset_text_map *map, size_t position, void *key, size_t places, size_t *len,
                                uint64_t *value);
bool indexset_text_map_at(const indexset_text_map *map, size_t position, void *key, size_t places, size_t *len,
                          uint64_t *value) {
    indexset_text_map copy_of_map = *map;
    return inner_indexset_text_map_at(&copy_of_map, position, key, places, len, value);
}

bool inner_indexset_text_map_lower_bound(indexset_text_map *map, const void *from, size_t from_len, void *key,
                                         size_t places, size_t *len, uint64_t *value);
bool indexset_text_map_lower_bound(const indexset_text_map *map, const void *from, size_t from_len, void *key,
                                   size_t places, size_t *len, uint64_t *value) {
    indexset_text_map copy_of_map = *map;
    return inner_indexset_text_map_lower_bound(&copy_of_map, from, from_len, key, places, len, value);
}

bool inner_indexset_text_map_upper_bound(indexset_text_map *map, const void *from, size_t from_len, void *key,
                                         size_t places, size_t *len, uint64_t *value);
bool indexset_text_map_upper_bound(const indexset_text_map *map, const void *from, size_t from_len, void *key,
                                   size_t places, size_t *len, uint64_t *value) {
    indexset_text_map copy_of_map = *map;
    return inner_indexset_text_map_upper_bound(&copy_of_map, from, from_len, key, places, len, value);
}

bool inner_indexset_text_map_first(indexset_text_map *map, void *key, size_t places, size_t *len, uint64_t *value);
bool indexset_text_map_first(const indexset_text_map *map, void *key, size_t places, size_t *len, uint64_t *value) {
    indexset_text_map copy_of_map = *map;
    return inner_indexset_text_map_first(&copy_of_map, key, places, len, value);
}

bool inner_indexset_text_map_last(indexset_text_map *map, void *key, size_t places, size_t *len, uint64_t *value);
bool indexset_text_map_last(const indexset_text_map *map, void *key, size_t places, size_t *len, uint64_t *value) {
    indexset_text_map copy_of_map = *map;
    return inner_indexset_text_map_last(&copy_of_map, key, places, len, value);
}

size_t inner_indexset_text_map_range_by_position(indexset_text_map *map, size_t from, uint64_t *values, size_t places);
size_t indexset_text_map_range_by_position(const indexset_text_map *map, size_t from, uint64_t *values, size_t places) {
    indexset_text_map copy_of_map = *map;
    return inner_indexset_text_map_range_by_position(&copy_of_map, from, values, places);
}

size_t inner_indexset_text_map_keys_by_position(indexset_text_map *map, size_t from, void *bytes, size_t byte_places,
                                                size_t *lengths, size_t length_places);
size_t indexset_text_map_keys_by_position(const indexset_text_map *map, size_t from, void *bytes, size_t byte_places,
                                          size_t *lengths, size_t length_places) {
    indexset_text_map copy_of_map = *map;
    return inner_indexset_text_map_keys_by_position(&copy_of_map, from, bytes, byte_places, lengths, length_places);
}
