/* Tests each call of a map from byte strings against a sorted array of keys, also with every Nth allocation failing. */
#include "checks.h"

/* ---- the model: keys in order, each with its value */
enum { ROOM = 4096, LONGEST = 12 };
typedef struct key {
    size_t len;
    uint8_t bytes[LONGEST];
} key;
static key model[ROOM];
static uint64_t model_values[ROOM];
static size_t count;

static int compare(const key *a, const key *b) {
    for (size_t i = 0; i < a->len && i < b->len; i++)
        if (a->bytes[i] != b->bytes[i]) return a->bytes[i] < b->bytes[i] ? -1 : 1;
    return (a->len > b->len) - (a->len < b->len);
}

static size_t model_rank(const key *k) {
    size_t below = 0;
    while (below < count && compare(&model[below], k) < 0) below++;
    return below;
}

static bool model_has(const key *k) {
    size_t at = model_rank(k);
    return at < count && compare(&model[at], k) == 0;
}

static size_t model_count_up_to(const key *k) { return model_rank(k) + model_has(k); }

static int sign(int order) { return (order > 0) - (order < 0); }

static void model_put(const key *k, uint64_t value) {
    size_t at = model_rank(k);
    if (!model_has(k)) {
        memmove(model + at + 1, model + at, (count - at) * sizeof *model);
        memmove(model_values + at + 1, model_values + at, (count - at) * sizeof *model_values);
        model[at] = *k;
        count++;
    }
    model_values[at] = value;
}

static void model_remove_at(size_t at) {
    memmove(model + at, model + at + 1, (count - at - 1) * sizeof *model);
    memmove(model_values + at, model_values + at + 1, (count - at - 1) * sizeof *model_values);
    count--;
}

/* Many keys have a common prefix, some are a prefix of others; zeros, bytes above 127 and the empty key occur. */
static key draw_key(void) {
    static const uint8_t letters[4] = {0, 'a', 'b', 0xff};
    key k = {.len = draw() >> 20 & 7};
    for (size_t i = 0; i < k.len; i++) k.bytes[i] = letters[draw() >> 20 & 3];
    if ((draw() >> 20 & 3) == 0) {
        memmove(k.bytes + 4, k.bytes, k.len);
        memcpy(k.bytes, "key:", 4);
        k.len += 4;
    }
    return k;
}

/* Checks that a call wrote the pair of the model at a position, and left the rest of the array unchanged. */
static bool wrote(size_t at, const uint8_t *bytes, size_t places, size_t len, uint64_t value) {
    size_t told = len < places ? len : places;
    if (len != model[at].len || value != model_values[at] || memcmp(bytes, model[at].bytes, told) != 0) return false;
    for (size_t i = told; i < LONGEST + 4; i++)
        if (bytes[i] != 0x77) return false;
    return true;
}

static bool unwritten(const uint8_t *bytes, size_t len, uint64_t value) {
    for (size_t i = 0; i < LONGEST + 4; i++)
        if (bytes[i] != 0x77) return false;
    return len == 55 && value == 66;
}

static bool same_as_model(const indexset_text_map *map) {
    static uint64_t values[ROOM];
    if (indexset_text_map_len(map) != count) return false;
    if (indexset_text_map_range_by_position(map, 0, values, ROOM) != count) return false;
    if (memcmp(values, model_values, count * sizeof *values) != 0) return false;
    for (size_t at = 0; at < count; at++) {
        uint8_t bytes[LONGEST + 4];
        size_t len = 55;
        uint64_t value = 66;
        memset(bytes, 0x77, sizeof bytes);
        if (!indexset_text_map_at(map, at, bytes, LONGEST, &len, &value)) return false;
        if (!wrote(at, bytes, LONGEST, len, value)) return false;
    }
    return true;
}

/* ---- a handle that owns none, and construction and destruction of a map */
static void test_life(void) {
    indexset_text_map map = INDEXSET_HANDLE, other = INDEXSET_HANDLE;
    const char *apple = "apple", *none = "";
    char out[8] = "#######";
    size_t len = 55, rank = 44;
    uint64_t value = 66;
    CHECK(indexset_text_map_len(&map) == 0 && indexset_text_map_rank(&map, apple, 5) == 0);
    CHECK(!indexset_text_map_contains(&map, apple, 5));
    CHECK(!indexset_text_map_get(&map, apple, 5, &value) && !indexset_text_map_remove(&map, apple, 5, &value));
    CHECK(!indexset_text_map_at(&map, 0, out, 8, &len, &value)
          && !indexset_text_map_remove_at(&map, 0, out, 8, &len, &value));
    CHECK(!indexset_text_map_first(&map, out, 8, &len, &value) && !indexset_text_map_last(&map, out, 8, &len, &value));
    CHECK(!indexset_text_map_lower_bound(&map, none, 0, out, 8, &len, &value));
    CHECK(!indexset_text_map_upper_bound(&map, none, 0, out, 8, &len, &value));
    CHECK(indexset_text_map_count_up_to(&map, apple, 5) == 0);
    CHECK(indexset_text_map_range_by_position(&map, 0, &value, 1) == 0);
    CHECK(indexset_text_map_keys_by_position(&map, 0, out, 8, &len, 1) == 0);
    CHECK(indexset_text_map_insert(&map, apple, 5, 1, &value) == INDEXSET_NONE);
    CHECK(indexset_text_map_insert_ranked(&map, apple, 5, 1, &value, &rank) == INDEXSET_NONE && rank == 44);
    CHECK(indexset_text_map_clone(&map, &other) == INDEXSET_NONE && !other.live);
    CHECK(memcmp(out, "#######", 8) == 0 && len == 55 && value == 66);
    indexset_text_map_clear(&map);
    indexset_text_map_free(&map);
    CHECK(!map.live);
    CHECK(indexset_text_map_new(&map) == INDEXSET_YES);
    CHECK(indexset_text_map_new(&map) == INDEXSET_HELD);
    CHECK(indexset_text_map_insert(&map, apple, 5, 1, &value) == INDEXSET_YES && value == 66);
    CHECK(indexset_text_map_insert(&map, apple, 5, 2, &value) == INDEXSET_NO && value == 1);
    CHECK(indexset_text_map_insert(&map, apple, 3, 3, &value) == INDEXSET_YES);
    CHECK(indexset_text_map_insert(&map, none, 0, 4, &value) == INDEXSET_YES);
    CHECK(indexset_text_map_first(&map, out, 8, &len, &value) && len == 0 && value == 4 && out[0] == '#');
    CHECK(indexset_text_map_at(&map, 1, out, 8, &len, &value) && len == 3 && value == 3
          && memcmp(out, "app####", 8) == 0);
    CHECK(indexset_text_map_last(&map, out, 4, &len, &value) && len == 5 && value == 2
          && memcmp(out, "appl###", 8) == 0);
    CHECK(indexset_text_map_clone(&map, &other) == INDEXSET_YES);
    CHECK(indexset_text_map_clone(&map, &other) == INDEXSET_HELD);
    indexset_text_map_clear(&map);
    CHECK(map.live && indexset_text_map_len(&map) == 0 && indexset_text_map_len(&other) == 3);
    indexset_text_map_swap(&map, &other);
    CHECK(indexset_text_map_len(&map) == 3 && indexset_text_map_len(&other) == 0);
    indexset_text_map_move(&other, &map);
    CHECK(!map.live && indexset_text_map_len(&other) == 3);
    indexset_text_map_free(&map);
    CHECK(indexset_text_map_get(&other, apple, 3, &value) && value == 3);
    indexset_text_map_free(&other);
    CHECK(!other.live);
    indexset_text_map *heap = NULL;
    CHECK(indexset_text_map_create(&heap) == INDEXSET_YES
          && indexset_text_map_insert(heap, apple, 5, 1, &value) == INDEXSET_YES);
    indexset_text_map_destroy(&heap);
    indexset_text_map_destroy(&heap); /* of a null pointer: does nothing */
    CHECK(heap == NULL);
}

/* ---- many calls, every nth allocation fails */
static void step_change(indexset_text_map *map, key k) {
    uint64_t value = draw(), before = 78;
    bool there = model_has(&k);
    size_t at = model_rank(&k), rank = 99;
    uint64_t which = draw() % 6;
    if (which == 0) {
        uint8_t bytes[LONGEST + 4];
        size_t place = (size_t)(draw() % (count + 2)), len = 55, places = draw() % (LONGEST + 1);
        memset(bytes, 0x77, sizeof bytes);
        value = 66;
        bool found = indexset_text_map_remove_at(map, place, bytes, places, &len, &value);
        CHECK(found == (place < count));
        CHECK(found ? wrote(place, bytes, places, len, value) : unwritten(bytes, len, value));
        if (found) model_remove_at(place);
        return;
    }
    if (which < 3) {
        CHECK(indexset_text_map_remove(map, k.bytes, k.len, &before) == there);
        CHECK(before == (there ? model_values[at] : 78));
        if (there) model_remove_at(at);
        return;
    }
    uint32_t status = which == 3 ? indexset_text_map_insert_ranked(map, k.bytes, k.len, value, &before, &rank)
                                 : indexset_text_map_insert(map, k.bytes, k.len, value, &before);
    CHECK(rank == (which == 3 && status != INDEXSET_MEMORY ? at : 99));
    CHECK(there ? status == INDEXSET_NO : status == INDEXSET_YES || (nth != 0 && status == INDEXSET_MEMORY));
    CHECK(before == (there ? model_values[at] : 78));
    if (status != INDEXSET_MEMORY) model_put(&k, value);
    /* The map has a copy of the key, and does not read the caller's again. */
    memset(k.bytes, 0x55, LONGEST);
}

static void step_read(const indexset_text_map *map, key k) {
    uint64_t value = 78;
    bool there = model_has(&k);
    size_t below = model_rank(&k);
    CHECK(indexset_text_map_contains(map, k.bytes, k.len) == there);
    CHECK(indexset_text_map_get(map, k.bytes, k.len, &value) == there);
    CHECK(value == (there ? model_values[below] : 78));
    CHECK(indexset_text_map_rank(map, k.bytes, k.len) == below);
    CHECK(indexset_text_map_count_up_to(map, k.bytes, k.len) == model_count_up_to(&k));
    key other = draw_key();
    CHECK(sign(indexset_bytes_compare(k.bytes, k.len, other.bytes, other.len)) == compare(&k, &other));
    CHECK(indexset_bytes_compare(k.bytes, k.len, k.bytes, k.len) == 0);
}

static void step_pair(const indexset_text_map *map, key from) {
    size_t below = model_rank(&from), drawn = (size_t)(draw() % (count + 2)), places = draw() % (LONGEST + 1);
    size_t positions[5] = {drawn, 0, count - (count != 0), below, model_count_up_to(&from)};
    for (int call = 0; call < 5; call++) {
        uint8_t bytes[LONGEST + 4];
        size_t len = 55;
        uint64_t value = 66;
        bool found;
        memset(bytes, 0x77, sizeof bytes);
        if (call == 0)
            found = indexset_text_map_at(map, drawn, bytes, places, &len, &value);
        else if (call == 1)
            found = indexset_text_map_first(map, bytes, places, &len, &value);
        else if (call == 2)
            found = indexset_text_map_last(map, bytes, places, &len, &value);
        else if (call == 3)
            found = indexset_text_map_lower_bound(map, from.bytes, from.len, bytes, places, &len, &value);
        else
            found = indexset_text_map_upper_bound(map, from.bytes, from.len, bytes, places, &len, &value);
        CHECK(found == (positions[call] < count));
        CHECK(found ? wrote(positions[call], bytes, places, len, value) : unwritten(bytes, len, value));
    }
}

static void step_range(const indexset_text_map *map) {
    uint64_t values[8] = {77, 77, 77, 77, 77, 77, 77, 77};
    size_t from = (size_t)(draw() % (count + 2)), rest = from < count ? count - from : 0, wanted = rest < 5 ? rest : 5;
    CHECK(indexset_text_map_range_by_position(map, from, values, 5) == wanted);
    CHECK(memcmp(values, model_values + from, wanted * sizeof *values) == 0);
    CHECK(values[wanted] == 77 && values[7] == 77);
}

/* The concatenated keys of a range, also truncated. */
static void step_keys(const indexset_text_map *map) {
    uint8_t bytes[41], wanted[5 * LONGEST];
    size_t lengths[6] = {55, 55, 55, 55, 55, 55}, places = draw() % 41, end = 0;
    size_t from = (size_t)(draw() % (count + 2)), rest = from < count ? count - from : 0, many = rest < 5 ? rest : 5;
    memset(bytes, 0x77, sizeof bytes);
    CHECK(indexset_text_map_keys_by_position(map, from, bytes, places, lengths, 5) == many);
    for (size_t i = 0; i < many; i++) {
        CHECK(lengths[i] == model[from + i].len);
        memcpy(wanted + end, model[from + i].bytes, model[from + i].len);
        end += model[from + i].len;
    }
    size_t told = end < places ? end : places;
    CHECK(lengths[many] == 55 && memcmp(bytes, wanted, told) == 0);
    for (size_t i = told; i < sizeof bytes; i++) CHECK(bytes[i] == 0x77);
}

static void test_random(unsigned long refuse, unsigned steps) {
    indexset_text_map map = INDEXSET_HANDLE, cloned = INDEXSET_HANDLE;
    count = 0;
    CHECK(indexset_text_map_new(&map) == INDEXSET_YES);
    nth = refuse;
    requests = 0;
    for (unsigned i = 0; i < steps; i++) {
        step_change(&map, draw_key());
        step_read(&map, draw_key());
        step_pair(&map, draw_key());
        step_range(&map);
        step_keys(&map);
        if (i % 64 == 0) {
            CHECK(same_as_model(&map));
            uint32_t status = indexset_text_map_clone(&map, &cloned);
            CHECK(status == INDEXSET_YES ? same_as_model(&cloned)
                                         : nth != 0 && status == INDEXSET_MEMORY && !cloned.live);
            indexset_text_map_free(&cloned);
            status = indexset_text_map_new(&cloned);
            CHECK(status == INDEXSET_YES || (nth != 0 && status == INDEXSET_MEMORY && !cloned.live));
            indexset_text_map_free(&cloned);
        }
    }
    nth = 0;
    CHECK(same_as_model(&map));
    indexset_text_map_free(&map);
}

int main(void) {
    test_life();
    test_random(0, 6000);
    for (unsigned long refuse = 1; refuse <= 12; refuse++) test_random(refuse, 500);
    return told();
}
