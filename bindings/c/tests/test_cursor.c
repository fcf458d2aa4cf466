/* Compares iterations by cursors, of each collection, with its ranges by position. */
#include "checks.h"

enum { ROOM = 5000, PAGE = 100, TEXT = 16 };

/* ---- a collection of any kind, as pairs: those of a set have the value 0 */
typedef struct kind {
    const char *name;
    void (*at)(size_t position, indexset_cursor *cursor);
    void (*from)(uint64_t key, indexset_cursor *cursor);
    size_t (*next)(indexset_cursor *cursor, uint64_t *keys, uint64_t *values, size_t places);
    size_t (*all)(uint64_t *keys, uint64_t *values);
    void (*put)(uint64_t key, uint64_t value);
    void (*take)(uint64_t key);
} kind;

static indexset_set set = INDEXSET_HANDLE;
static indexset_map map = INDEXSET_HANDLE;
static indexset_multi multi = INDEXSET_HANDLE;
static indexset_log logged = INDEXSET_HANDLE;
static indexset_replica replica = INDEXSET_HANDLE;
static indexset_text_map text_map = INDEXSET_HANDLE;
static indexset_text_log text_log = INDEXSET_HANDLE;

/* ---- the set */
static void set_at(size_t position, indexset_cursor *cursor) { indexset_set_cursor_at(&set, position, cursor); }
static void set_from(uint64_t key, indexset_cursor *cursor) { indexset_set_cursor_from(&set, key, cursor); }
static size_t set_next(indexset_cursor *cursor, uint64_t *keys, uint64_t *values, size_t places) {
    memset(values, 0, places * sizeof *values);
    return indexset_set_cursor_next(&set, cursor, keys, places);
}
static size_t set_all(uint64_t *keys, uint64_t *values) {
    memset(values, 0, ROOM * sizeof *values);
    return indexset_set_range_by_position(&set, 0, keys, ROOM);
}
static void set_put(uint64_t key, uint64_t value) {
    (void)value;
    indexset_set_insert(&set, key);
}
static void set_take(uint64_t key) { CHECK(indexset_set_remove(&set, key)); }

/* ---- collections of pairs of numbers */
#define PAIRS(name, of)                                                                                                \
    static void name##_at(size_t position, indexset_cursor *cursor) {                                                  \
        indexset_##name##_cursor_at(of, position, cursor);                                                             \
    }                                                                                                                  \
    static void name##_from(uint64_t key, indexset_cursor *cursor) { indexset_##name##_cursor_from(of, key, cursor); } \
    static size_t name##_next(indexset_cursor *cursor, uint64_t *keys, uint64_t *values, size_t places) {              \
        return indexset_##name##_cursor_next(of, cursor, keys, places, values, places);                                \
    }                                                                                                                  \
    static size_t name##_all(uint64_t *keys, uint64_t *values) {                                                       \
        return indexset_##name##_range_by_position(of, 0, keys, ROOM, values, ROOM);                                   \
    }

PAIRS(map, &map)
PAIRS(multi, &multi)
PAIRS(log, &logged)
PAIRS(replica, &replica)

static void map_put(uint64_t key, uint64_t value) {
    uint64_t before;
    indexset_map_insert(&map, key, value, &before);
}
static void map_take(uint64_t key) {
    uint64_t value;
    CHECK(indexset_map_remove(&map, key, &value));
}
/* Each key has three values. */
static void multi_put(uint64_t key, uint64_t value) {
    for (uint64_t more = 0; more < 3; more++) indexset_multi_insert(&multi, key / 3, value + more * 1000000);
}
static void multi_take(uint64_t key) {
    uint64_t value;
    CHECK(indexset_multi_remove_first(&multi, key, &value) == INDEXSET_YES);
}
/* The replica follows the logged map. */
static void tell(const indexset_event *events, size_t many) {
    size_t taken = 0;
    if (replica.live)
        CHECK(indexset_replica_apply_all(&replica, events, many, &taken) == INDEXSET_YES && taken == many);
}
static void log_put(uint64_t key, uint64_t value) {
    indexset_event events[INDEXSET_CHANGES];
    uint64_t before;
    size_t many = 0;
    indexset_log_insert(&logged, key, value, &before, events, INDEXSET_CHANGES, &many);
    tell(events, many);
}
static void log_take(uint64_t key) {
    indexset_event events[INDEXSET_CHANGES];
    uint64_t value;
    size_t many = 0;
    CHECK(indexset_log_remove(&logged, key, &value, events, INDEXSET_CHANGES, &many) == INDEXSET_YES);
    tell(events, many);
}

/* ---- collections of byte strings: a number of ten digits, followed by up to four letters */
static size_t text_of(uint64_t key, char *text) {
    int len = snprintf(text, TEXT, "%010llu%.*s", (unsigned long long)key, (int)(key % 5), "abcd");
    return (size_t)len;
}
/* Reads the keys that an iteration wrote. */
static void read_keys(const char *bytes, const size_t *lengths, size_t many, uint64_t *keys) {
    char text[TEXT];
    for (size_t i = 0; i < many; bytes += lengths[i++]) {
        memcpy(text, bytes, 10);
        text[10] = 0;
        keys[i] = strtoull(text, NULL, 10);
        CHECK(lengths[i] == 10 + keys[i] % 5 && memcmp(bytes + 10, "abcd", keys[i] % 5) == 0);
    }
}
static char bytes[ROOM * TEXT];
static size_t lengths[ROOM];

#define TEXTS(name, of)                                                                                                \
    static void name##_at(size_t position, indexset_cursor *cursor) {                                                  \
        indexset_##name##_cursor_at(of, position, cursor);                                                             \
    }                                                                                                                  \
    static void name##_from(uint64_t key, indexset_cursor *cursor) {                                                   \
        char text[TEXT];                                                                                               \
        size_t len = text_of(key, text);                                                                               \
        indexset_##name##_cursor_from(of, text, len, cursor);                                                          \
    }                                                                                                                  \
    static size_t name##_next(indexset_cursor *cursor, uint64_t *keys, uint64_t *values, size_t places) {              \
        size_t many = indexset_##name##_cursor_next(of, cursor, bytes, sizeof bytes, lengths, places, values, places); \
        read_keys(bytes, lengths, many, keys);                                                                         \
        return many;                                                                                                   \
    }                                                                                                                  \
    static size_t name##_all(uint64_t *keys, uint64_t *values) {                                                       \
        size_t many = indexset_##name##_keys_by_position(of, 0, bytes, sizeof bytes, lengths, ROOM);                   \
        read_keys(bytes, lengths, many, keys);                                                                         \
        CHECK(indexset_##name##_range_by_position(of, 0, values, ROOM) == many);                                       \
        return many;                                                                                                   \
    }

TEXTS(text_map, &text_map)
TEXTS(text_log, &text_log)

static void text_map_put(uint64_t key, uint64_t value) {
    char text[TEXT];
    uint64_t before;
    indexset_text_map_insert(&text_map, text, text_of(key, text), value, &before);
}
static void text_map_take(uint64_t key) {
    char text[TEXT];
    uint64_t value;
    CHECK(indexset_text_map_remove(&text_map, text, text_of(key, text), &value));
}
static void text_log_put(uint64_t key, uint64_t value) {
    char text[TEXT];
    uint64_t before;
    size_t told;
    indexset_text_log_insert(&text_log, text, text_of(key, text), value, &before, &told);
}
static void text_log_take(uint64_t key) {
    char text[TEXT];
    uint64_t value;
    size_t told;
    CHECK(indexset_text_log_remove(&text_log, text, text_of(key, text), &value, &told) == INDEXSET_YES);
}

/* ---- the pairs of a collection in order, and those after a cursor */
static uint64_t keys[ROOM], values[ROOM];
static size_t count;

/* Returns whether the next `places` elements of an iteration are the pairs from a position on. */
static bool goes_on(const kind *of, indexset_cursor *cursor, size_t position, size_t places) {
    static uint64_t next_keys[ROOM + 1], next_values[ROOM + 1];
    size_t rest = position < count ? count - position : 0;
    size_t many = rest < places ? rest : places;
    next_keys[many] = 77;
    if (of->next(cursor, next_keys, next_values, places) != many || (many == places && next_keys[many] != 77))
        return false;
    return many == 0
           || (memcmp(next_keys, keys + position, many * sizeof *keys) == 0
               && memcmp(next_values, values + position, many * sizeof *values) == 0);
}

static void walk_in_pages(const kind *of, size_t page) {
    indexset_cursor cursor = INDEXSET_CURSOR;
    for (size_t at = 0; at < count + 2 * page; at += page) CHECK(goes_on(of, &cursor, at < count ? at : count, page));
}

static void walk_from(const kind *of, size_t position) {
    indexset_cursor cursor = {9, 9};
    of->at(position, &cursor);
    indexset_cursor again = cursor;
    CHECK(goes_on(of, &cursor, position, 7));
    CHECK(goes_on(of, &again, position, 7) && goes_on(of, &again, position + (count > position ? 7 : 0), 3));
}

static void walk_from_key(const kind *of, uint64_t key) {
    indexset_cursor cursor = {9, 9};
    size_t below = 0;
    while (below < count && keys[below] < key) below++;
    of->from(key, &cursor);
    CHECK(goes_on(of, &cursor, below, PAGE));
}

/* A cursor that no call returned. */
static void walk_from_anywhere(const kind *of, indexset_cursor cursor) {
    static uint64_t next_keys[ROOM], next_values[ROOM];
    size_t many = of->next(&cursor, next_keys, next_values, ROOM);
    CHECK(many <= count);
    CHECK(many == 0 || memcmp(next_keys, keys + (count - many), many * sizeof *keys) == 0);
    CHECK(goes_on(of, &cursor, count, 1));
}

/* An iteration allocates nothing. */
static void walk(const kind *of) {
    onward = 1;
    requests = 0;
    count = of->all(keys, values);
    size_t pages[] = {1, 3, PAGE, ROOM}, far[] = {count, count + 1, SIZE_MAX};
    for (size_t i = 0; i < 4; i++) walk_in_pages(of, pages[i]);
    for (size_t at = 0; at < count; at += 1 + at / 7) walk_from(of, at);
    for (size_t i = 0; i < 3; i++) walk_from(of, far[i]);
    for (uint64_t key = 0; key < 12000; key += 1 + key / 9) walk_from_key(of, key);
    walk_from_key(of, 9999999999u);
    size_t odd[] = {0, 1, 2, 3, 500, 1000, 1024, SIZE_MAX / 2, SIZE_MAX - 1, SIZE_MAX};
    for (size_t i = 0; i < 10; i++) {
        for (size_t j = 0; j < 10; j++) walk_from_anywhere(of, (indexset_cursor){odd[i], odd[j]});
    }
    CHECK(requests == 0);
    onward = 0;
}

/* ---- a collection that grows, is iterated while keys are removed, and is empty in the end */
static void test(const kind *of, uint64_t many) {
    walk(of);
    for (uint64_t i = 0; i < 2 * many; i++) of->put(3 * (draw() >> 20 & 4095) % (3 * many), i);
    walk(of);
    CHECK((count != 0) == (many != 0));
    indexset_cursor cursor = INDEXSET_CURSOR, old;
    of->at(count / 2, &cursor);
    old = cursor;
    for (size_t i = 0; i < count; i += 2) of->take(keys[i]);
    walk(of);
    walk_from_anywhere(of, old);
    for (size_t i = 0; i < count; i++) of->take(keys[i]);
    walk(of);
    CHECK(count == 0);
    walk_from_anywhere(of, old);
}

/* ---- a page with fewer places in one array than in another, and truncated bytes */
static void test_room(void) {
    uint64_t some[4] = {70, 71, 72, 73}, more[4] = {80, 81, 82, 83};
    size_t sizes[4] = {90, 91, 92, 93};
    char cut[16] = "................";
    indexset_cursor cursor = INDEXSET_CURSOR;
    for (uint64_t i = 0; i < 4; i++) {
        map_put(i, i + 10);
        text_map_put(i, i + 10);
    }
    CHECK(indexset_map_cursor_next(&map, &cursor, some, 3, more, 2) == 2 && some[1] == 1 && some[2] == 72
          && more[1] == 11 && more[2] == 82);
    CHECK(indexset_map_cursor_next(&map, &cursor, some, 0, more, 4) == 0);
    CHECK(indexset_map_cursor_next(&map, &cursor, some, 4, more, 4) == 2 && some[0] == 2 && some[1] == 3
          && some[2] == 72);
    cursor = (indexset_cursor)INDEXSET_CURSOR;
    CHECK(indexset_text_map_cursor_next(&text_map, &cursor, cut, 13, sizes, 2, more, 4) == 2);
    CHECK(memcmp(cut, "0000000000000...", 16) == 0);
    CHECK(sizes[0] == 10 && sizes[1] == 11 && sizes[2] == 92 && more[0] == 10 && more[1] == 11 && more[2] == 82);
    CHECK(indexset_text_map_cursor_next(&text_map, &cursor, cut, 16, sizes, 4, more, 1) == 1 && sizes[0] == 12
          && more[0] == 12);
    CHECK(memcmp(cut, "0000000002ab....", 12) == 0);
    indexset_map_clear(&map);
    indexset_text_map_clear(&text_map);
}

int main(void) {
#define KIND(name) {#name, name##_at, name##_from, name##_next, name##_all, name##_put, name##_take}
    kind kinds[] = {KIND(set), KIND(map), KIND(multi), KIND(log), KIND(text_map), KIND(text_log)};
    kind copied = {"replica", replica_at, replica_from, replica_next, replica_all, log_put, log_take};
    for (size_t i = 0; i < 6; i++) test(&kinds[i], 0);
    test(&copied, 0);
    CHECK(indexset_set_new(&set) == INDEXSET_YES && indexset_map_new(&map) == INDEXSET_YES);
    CHECK(indexset_multi_new(&multi) == INDEXSET_YES && indexset_text_map_new(&text_map) == INDEXSET_YES);
    for (size_t size = 2; size < 100; size = size * 4 + 1) {
        CHECK(indexset_log_new(&logged, size, 5) == INDEXSET_YES
              && indexset_text_log_new(&text_log, size, 5) == INDEXSET_YES);
        test(&kinds[3], 700);
        test(&kinds[5], 700);
        CHECK(indexset_replica_from_log(&replica, &logged) == INDEXSET_YES);
        test(&copied, 700);
        indexset_replica_free(&replica);
        indexset_log_free(&logged);
        indexset_text_log_free(&text_log);
    }
    test(&kinds[0], 3500);
    test(&kinds[1], 3500);
    test(&kinds[2], 700);
    test(&kinds[4], 3500);
    test_room();
    indexset_set_free(&set);
    indexset_map_free(&map);
    indexset_multi_free(&multi);
    indexset_text_map_free(&text_map);
    return told();
}
