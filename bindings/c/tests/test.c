/* Tests each call of indexset.h against a sorted array, also with every Nth allocation failing. */
#include "checks.h"

/* ---- the model: a sorted array */
enum { ROOM = 4096 };
static uint64_t model[ROOM];
static size_t count;

static size_t model_rank(uint64_t key) {
    size_t below = 0;
    while (below < count && model[below] < key) below++;
    return below;
}

static bool model_has(uint64_t key) {
    size_t at = model_rank(key);
    return at < count && model[at] == key;
}

static void model_insert(uint64_t key) {
    size_t at = model_rank(key);
    memmove(model + at + 1, model + at, (count - at) * sizeof *model);
    model[at] = key;
    count++;
}

static void model_remove_at(size_t at) {
    memmove(model + at, model + at + 1, (count - at - 1) * sizeof *model);
    count--;
}

/* The least and the greatest key occur too. */
static uint64_t draw_key(void) {
    uint64_t key = draw() >> 20 & 2047;
    return key == 0 ? 0 : key == 1 ? UINT64_MAX : key * 0x0004000000000001u;
}

static size_t model_count_up_to(uint64_t key) { return model_rank(key) + model_has(key); }

static bool same_as_model(const indexset_set *set) {
    static uint64_t out[ROOM];
    if (indexset_set_len(set) != count || indexset_set_range_by_position(set, 0, out, ROOM) != count) return false;
    return memcmp(out, model, count * sizeof *model) == 0;
}

/* ---- a handle that owns none */
static void test_none(void) {
    indexset_set set = INDEXSET_HANDLE, other = INDEXSET_HANDLE;
    uint64_t out = 7, keys[2] = {5, 6};
    size_t taken = 9, ranks[3] = {8, 8, 8}, rank = 9;
    CHECK(indexset_version() == 0x000200);
    CHECK(indexset_set_len(&set) == 0);
    CHECK(!indexset_set_contains(&set, 0));
    CHECK(!indexset_set_remove(&set, 0));
    CHECK(indexset_set_rank(&set, UINT64_MAX) == 0 && indexset_set_count_up_to(&set, UINT64_MAX) == 0);
    CHECK(!indexset_set_at(&set, 0, &out) && out == 7);
    CHECK(!indexset_set_first(&set, &out) && out == 7);
    CHECK(!indexset_set_last(&set, &out) && out == 7);
    CHECK(!indexset_set_pop_first(&set, &out) && out == 7);
    CHECK(!indexset_set_pop_last(&set, &out) && out == 7);
    CHECK(!indexset_set_lower_bound(&set, 0, &out) && out == 7);
    CHECK(!indexset_set_upper_bound(&set, 0, &out) && out == 7);
    CHECK(!indexset_set_remove_at(&set, 0, &out) && out == 7);
    CHECK(indexset_set_range_by_key(&set, 0, UINT64_MAX, &out, 1) == 0 && out == 7);
    CHECK(indexset_set_range_by_position(&set, 0, &out, 1) == 0 && out == 7);
    CHECK(indexset_set_insert(&set, 1) == INDEXSET_NONE);
    CHECK(indexset_set_insert_ranked(&set, 1, &rank) == INDEXSET_NONE && rank == 9);
    CHECK(indexset_set_insert_all(&set, keys, 2, &taken) == INDEXSET_NONE && taken == 0);
    CHECK(indexset_set_ranks(&set, keys, 2, ranks, 1) == 1 && ranks[0] == 0 && ranks[1] == 8);
    CHECK(indexset_set_ranks(&set, keys, 2, ranks, 3) == 2 && ranks[1] == 0 && ranks[2] == 8);
    CHECK(indexset_set_at_all(&set, ranks, 2, keys, 2) == 0 && keys[0] == 5);
    CHECK(indexset_set_clone(&set, &other) == INDEXSET_NONE && !other.live);
    indexset_set_clear(&set);
    indexset_set_free(&set);
    indexset_set_move(&other, &set);
    indexset_set_swap(&other, &set);
    CHECK(!set.live && !other.live);
}

/* ---- construction and destruction of a set */
static void test_life(void) {
    indexset_set set = INDEXSET_HANDLE, other = INDEXSET_HANDLE;
    CHECK(indexset_set_new(&set) == INDEXSET_YES);
    CHECK(indexset_set_len(&set) == 0);
    CHECK(indexset_set_insert(&set, 3) == INDEXSET_YES);
    CHECK(indexset_set_insert(&set, 3) == INDEXSET_NO);
    CHECK(indexset_set_new(&set) == INDEXSET_HELD);
    CHECK(indexset_set_len(&set) == 1);
    CHECK(indexset_set_clone(&set, &other) == INDEXSET_YES);
    CHECK(indexset_set_clone(&set, &other) == INDEXSET_HELD);
    CHECK(indexset_set_insert(&other, 4) == INDEXSET_YES);
    CHECK(indexset_set_len(&set) == 1 && indexset_set_len(&other) == 2);
    indexset_set_clear(&set);
    CHECK(indexset_set_len(&set) == 0 && indexset_set_len(&other) == 2);
    CHECK(indexset_set_insert(&set, UINT64_MAX) == INDEXSET_YES);
    CHECK(indexset_set_contains(&set, UINT64_MAX));
    indexset_set_swap(&set, &other);
    CHECK(indexset_set_len(&set) == 2 && indexset_set_len(&other) == 1);
    indexset_set_move(&set, &other);
    CHECK(!other.live && indexset_set_len(&set) == 1 && indexset_set_contains(&set, UINT64_MAX));
    indexset_set_move(&other, &set);
    CHECK(!set.live && indexset_set_len(&other) == 1);
    indexset_set_swap(&set, &other);
    CHECK(!other.live && indexset_set_len(&set) == 1);
    indexset_set_free(&set);
    indexset_set_free(&set);
    CHECK(!indexset_set_contains(&set, UINT64_MAX));
    CHECK(indexset_set_new(&set) == INDEXSET_YES);
    indexset_set_free(&set);
    indexset_set_free(&other);
}

/* ---- a handle on the heap, also if its second or third allocation fails */
static void test_sorted(void) {
    enum { COUNT = 5000 };
    static uint64_t keys[COUNT], out[COUNT];
    indexset_set set = INDEXSET_HANDLE, other = INDEXSET_HANDLE;
    for (uint64_t i = 0; i < COUNT; i++) keys[i] = 3 * i;
    for (nth = 1; nth < 20; nth++) {
        requests = 0;
        const uint32_t answer = indexset_set_from_sorted(&set, keys, COUNT);
        CHECK(answer == (requests < nth ? INDEXSET_YES : INDEXSET_MEMORY) && set.live == (answer == INDEXSET_YES));
        indexset_set_free(&set);
    }
    nth = 0;
    CHECK(indexset_set_from_sorted(&set, keys, COUNT) == INDEXSET_YES && indexset_set_len(&set) == COUNT);
    CHECK(indexset_set_range_by_position(&set, 0, out, COUNT) == COUNT && memcmp(keys, out, sizeof keys) == 0);
    CHECK(indexset_set_from_sorted(&set, keys, 1) == INDEXSET_HELD && indexset_set_len(&set) == COUNT);
    keys[COUNT - 1] = keys[COUNT - 2];
    CHECK(indexset_set_from_sorted(&other, keys, COUNT) == INDEXSET_UNFIT && !other.live);
    CHECK(indexset_set_from_sorted(&other, keys, 0) == INDEXSET_YES && indexset_set_len(&other) == 0);
    CHECK(indexset_set_insert(&other, 7) == INDEXSET_YES);
    indexset_set_free(&set);
    indexset_set_free(&other);
}

static void test_heap(void) {
    indexset_set *set = NULL, other = INDEXSET_HANDLE;
    indexset_map *map = NULL;
    uint64_t out = 7;
    for (nth = 1; nth <= 3; nth++) {
        requests = 0;
        CHECK(indexset_set_create(&set) == INDEXSET_MEMORY && set == NULL);
        requests = 0;
        CHECK(indexset_map_create(&map) == INDEXSET_MEMORY && map == NULL);
    }
    nth = 0;
    CHECK(indexset_set_create(&set) == INDEXSET_YES && indexset_set_new(set) == INDEXSET_HELD);
    CHECK(indexset_set_insert(set, 7) == INDEXSET_YES && indexset_set_len(set) == 1);
    indexset_set_move(&other, set);
    CHECK(indexset_set_contains(&other, 7) && indexset_set_insert(set, 7) == INDEXSET_NONE);
    indexset_set_swap(&other, set);
    CHECK(indexset_set_contains(set, 7) && !other.live);
    indexset_set_destroy(&set);
    indexset_set_destroy(&set); /* of a null pointer: does nothing */
    CHECK(set == NULL);
    CHECK(indexset_map_create(&map) == INDEXSET_YES && indexset_map_insert(map, 1, 2, &out) == INDEXSET_YES);
    indexset_map_free(map);
    CHECK(indexset_map_len(map) == 0);
    indexset_map_destroy(&map);
    indexset_map_destroy(&map); /* of a null pointer: does nothing */
    CHECK(map == NULL);
}

/* ---- one call, compared with the model */
static void step_change(indexset_set *set, uint64_t key) {
    uint64_t out = 77;
    bool there = model_has(key), ranked = draw() % 4 == 0;
    size_t at = (size_t)(draw() % (count + 2)), rank = 99;
    switch (draw() % 16) {
    case 0:
        CHECK(indexset_set_pop_first(set, &out) == (count != 0));
        CHECK(out == (count != 0 ? model[0] : 77));
        if (count != 0) model_remove_at(0);
        return;
    case 1:
        CHECK(indexset_set_pop_last(set, &out) == (count != 0));
        CHECK(out == (count != 0 ? model[count - 1] : 77));
        if (count != 0) model_remove_at(count - 1);
        return;
    case 2:
        CHECK(indexset_set_remove_at(set, at, &out) == (at < count));
        CHECK(out == (at < count ? model[at] : 77));
        if (at < count) model_remove_at(at);
        return;
    case 3:
    case 4:
    case 5:
    case 6:
        CHECK(indexset_set_remove(set, key) == there);
        if (there) model_remove_at(model_rank(key));
        return;
    default: {
        uint32_t status = ranked ? indexset_set_insert_ranked(set, key, &rank) : indexset_set_insert(set, key);
        CHECK(rank == (ranked && status != INDEXSET_MEMORY ? model_rank(key) : 99));
        CHECK(there ? status == INDEXSET_NO : status == INDEXSET_YES || (nth != 0 && status == INDEXSET_MEMORY));
        if (status == INDEXSET_YES) model_insert(key);
    }
    }
}

static void step_read(const indexset_set *set, uint64_t key) {
    uint64_t out = 77;
    size_t below = model_rank(key), upto = model_count_up_to(key), at = (size_t)(draw() % (count + 2));
    CHECK(indexset_set_contains(set, key) == model_has(key));
    CHECK(indexset_set_rank(set, key) == below);
    CHECK(indexset_set_count_up_to(set, key) == upto);
    CHECK(indexset_set_lower_bound(set, key, &out) == (below < count));
    CHECK(out == (below < count ? model[below] : 77));
    out = 77;
    CHECK(indexset_set_upper_bound(set, key, &out) == (upto < count));
    CHECK(out == (upto < count ? model[upto] : 77));
    out = 77;
    CHECK(indexset_set_at(set, at, &out) == (at < count));
    CHECK(out == (at < count ? model[at] : 77));
    out = 77;
    CHECK(indexset_set_first(set, &out) == (count != 0) && out == (count != 0 ? model[0] : 77));
    out = 77;
    CHECK(indexset_set_last(set, &out) == (count != 0) && out == (count != 0 ? model[count - 1] : 77));
}

static void step_range(const indexset_set *set, uint64_t low, uint64_t high) {
    uint64_t out[9];
    for (size_t i = 0; i < 9; i++) out[i] = 77;
    size_t first = model_rank(low), wanted = 0;
    while (low <= high && wanted < 8 && first + wanted < count && model[first + wanted] <= high) wanted++;
    CHECK(indexset_set_range_by_key(set, low, high, out, 8) == wanted);
    CHECK(memcmp(out, model + first, wanted * sizeof *out) == 0);
    CHECK(out[wanted] == 77 && out[8] == 77);
    size_t from = (size_t)(draw() % (count + 2)), rest = from < count ? count - from : 0;
    CHECK(indexset_set_range_by_position(set, from, out, 5) == (rest < 5 ? rest : 5));
    CHECK(memcmp(out, model + from, (rest < 5 ? rest : 5) * sizeof *out) == 0);
    CHECK(out[8] == 77);
}

static void step_batch(indexset_set *set) {
    uint64_t keys[6], elements[6];
    size_t ranks[6], taken = 99;
    for (size_t i = 0; i < 6; i++) keys[i] = draw_key();
    uint32_t status = indexset_set_insert_all(set, keys, 6, &taken);
    CHECK(status == INDEXSET_YES ? taken == 6 : nth != 0 && status == INDEXSET_MEMORY && taken < 6);
    for (size_t i = 0; i < taken; i++)
        if (!model_has(keys[i])) model_insert(keys[i]);
    CHECK(indexset_set_ranks(set, keys, 6, ranks, 4) == 4);
    for (size_t i = 0; i < 4; i++) CHECK(ranks[i] == model_rank(keys[i]));
    ranks[4] = count;
    ranks[5] = 0;
    size_t stop = 0;
    while (stop < 5 && ranks[stop] < count) stop++;
    CHECK(indexset_set_at_all(set, ranks, 6, elements, 6) == stop);
    for (size_t i = 0; i < stop; i++) CHECK(elements[i] == model[ranks[i]]);
}

/* ---- many calls, every nth allocation fails */
static void test_random(unsigned long refuse, unsigned steps) {
    indexset_set set = INDEXSET_HANDLE, cloned = INDEXSET_HANDLE;
    count = 0;
    CHECK(indexset_set_new(&set) == INDEXSET_YES);
    nth = refuse;
    requests = 0;
    for (unsigned i = 0; i < steps; i++) {
        step_change(&set, draw_key());
        step_read(&set, draw_key());
        step_range(&set, draw_key(), draw_key());
        if (i % 8 == 0 && count < ROOM / 2) step_batch(&set);
        if (i % 64 == 0) {
            CHECK(same_as_model(&set));
            uint32_t status = indexset_set_clone(&set, &cloned);
            CHECK(status == INDEXSET_YES ? same_as_model(&cloned)
                                         : nth != 0 && status == INDEXSET_MEMORY && !cloned.live);
            indexset_set_free(&cloned);
            status = indexset_set_new(&cloned);
            CHECK(status == INDEXSET_YES || (nth != 0 && status == INDEXSET_MEMORY && !cloned.live));
            indexset_set_free(&cloned);
        }
    }
    nth = 0;
    CHECK(same_as_model(&set));
    indexset_set_free(&set);
}

/* ---- a map compared with the same sorted array, with a value at each place */
static uint64_t model_values[ROOM];

static void map_model_put(uint64_t key, uint64_t value) {
    size_t at = model_rank(key);
    if (!model_has(key)) {
        memmove(model_values + at + 1, model_values + at, (count - at) * sizeof *model_values);
        model_insert(key);
    }
    model_values[at] = value;
}

static void map_model_remove_at(size_t at) {
    memmove(model_values + at, model_values + at + 1, (count - at - 1) * sizeof *model_values);
    model_remove_at(at);
}

static bool map_same_as_model(const indexset_map *map) {
    static uint64_t keys[ROOM], values[ROOM];
    if (indexset_map_len(map) != count) return false;
    if (indexset_map_range_by_position(map, 0, keys, ROOM, values, ROOM) != count) return false;
    return memcmp(keys, model, count * sizeof *keys) == 0 && memcmp(values, model_values, count * sizeof *values) == 0;
}

static void test_map_none(void) {
    indexset_map map = INDEXSET_HANDLE, other = INDEXSET_HANDLE;
    uint64_t key = 7, value = 8;
    size_t taken = 9, rank = 9;
    CHECK(indexset_map_len(&map) == 0 && indexset_map_rank(&map, 5) == 0 && indexset_map_count_up_to(&map, 5) == 0);
    CHECK(!indexset_map_lower_bound(&map, 0, &key, &value) && !indexset_map_upper_bound(&map, 0, &key, &value));
    CHECK(!indexset_map_remove_at(&map, 0, &key, &value));
    CHECK(!indexset_map_contains(&map, 0) && !indexset_map_get(&map, 0, &value)
          && !indexset_map_remove(&map, 0, &value));
    CHECK(!indexset_map_at(&map, 0, &key, &value) && !indexset_map_first(&map, &key, &value)
          && !indexset_map_last(&map, &key, &value));
    CHECK(!indexset_map_pop_first(&map, &key, &value) && !indexset_map_pop_last(&map, &key, &value));
    CHECK(indexset_map_range_by_key(&map, 0, UINT64_MAX, &key, 1, &value, 1) == 0);
    CHECK(indexset_map_range_by_position(&map, 0, &key, 1, &value, 1) == 0);
    CHECK(indexset_map_insert(&map, 1, 2, &value) == INDEXSET_NONE);
    CHECK(indexset_map_insert_all(&map, &key, 1, &value, 1, &taken) == INDEXSET_NONE && taken == 0);
    CHECK(indexset_map_insert_ranked(&map, 1, 2, &value, &rank) == INDEXSET_NONE && rank == 9);
    CHECK(indexset_map_clone(&map, &other) == INDEXSET_NONE && !other.live);
    CHECK(key == 7 && value == 8);
    CHECK(indexset_map_gets(&map, &key, 1, 9, &value, 0) == 0 && value == 8);
    CHECK(indexset_map_gets(&map, &key, 1, 9, &value, 1) == 1 && value == 9);
    value = 8;
    indexset_map_clear(&map);
    indexset_map_free(&map);
    CHECK(indexset_map_new(&map) == INDEXSET_YES);
    CHECK(indexset_map_new(&map) == INDEXSET_HELD);
    CHECK(indexset_map_insert(&map, 1, 2, &value) == INDEXSET_YES && value == 8);
    CHECK(indexset_map_insert(&map, 1, 3, &value) == INDEXSET_NO && value == 2);
    CHECK(indexset_map_clone(&map, &other) == INDEXSET_YES);
    CHECK(indexset_map_clone(&map, &other) == INDEXSET_HELD);
    indexset_map_clear(&map);
    CHECK(indexset_map_len(&map) == 0 && indexset_map_get(&other, 1, &value) && value == 3);
    indexset_map_swap(&map, &other);
    CHECK(indexset_map_len(&map) == 1 && indexset_map_len(&other) == 0);
    indexset_map_move(&other, &map);
    CHECK(!map.live && indexset_map_get(&other, 1, &value));
    indexset_map_free(&map);
    indexset_map_free(&other);
}

static void map_step_change(indexset_map *map, uint64_t key) {
    uint64_t k = 77, v = 78, value = draw();
    bool there = model_has(key), ranked = draw() % 4 == 0;
    size_t at = model_rank(key), place = (size_t)(draw() % (count + 2)), rank = 99;
    switch (draw() % 16) {
    case 0:
        CHECK(indexset_map_pop_first(map, &k, &v) == (count != 0));
        CHECK(count != 0 ? k == model[0] && v == model_values[0] : k == 77 && v == 78);
        if (count != 0) map_model_remove_at(0);
        return;
    case 1:
        CHECK(indexset_map_pop_last(map, &k, &v) == (count != 0));
        CHECK(count != 0 ? k == model[count - 1] && v == model_values[count - 1] : k == 77 && v == 78);
        if (count != 0) map_model_remove_at(count - 1);
        return;
    case 2:
        CHECK(indexset_map_remove_at(map, place, &k, &v) == (place < count));
        CHECK(place < count ? k == model[place] && v == model_values[place] : k == 77 && v == 78);
        if (place < count) map_model_remove_at(place);
        return;
    case 3:
    case 4:
    case 5:
    case 6:
        CHECK(indexset_map_remove(map, key, &v) == there && v == (there ? model_values[at] : 78));
        if (there) map_model_remove_at(at);
        return;
    default: {
        uint32_t status =
            ranked ? indexset_map_insert_ranked(map, key, value, &v, &rank) : indexset_map_insert(map, key, value, &v);
        CHECK(rank == (ranked && status != INDEXSET_MEMORY ? at : 99));
        CHECK(there ? status == INDEXSET_NO : status == INDEXSET_YES || (nth != 0 && status == INDEXSET_MEMORY));
        CHECK(v == (there ? model_values[at] : 78));
        if (status != INDEXSET_MEMORY) map_model_put(key, value);
    }
    }
}

static void map_step_read(const indexset_map *map, uint64_t key) {
    uint64_t k = 77, v = 78;
    size_t below = model_rank(key), upto = model_count_up_to(key), at = (size_t)(draw() % (count + 2));
    CHECK(indexset_map_count_up_to(map, key) == upto);
    CHECK(indexset_map_lower_bound(map, key, &k, &v) == (below < count));
    CHECK(below < count ? k == model[below] && v == model_values[below] : k == 77 && v == 78);
    k = 77, v = 78;
    CHECK(indexset_map_upper_bound(map, key, &k, &v) == (upto < count));
    CHECK(upto < count ? k == model[upto] && v == model_values[upto] : k == 77 && v == 78);
    v = 78;
    CHECK(indexset_map_contains(map, key) == model_has(key));
    CHECK(indexset_map_rank(map, key) == below);
    CHECK(indexset_map_get(map, key, &v) == model_has(key) && v == (model_has(key) ? model_values[below] : 78));
    k = 77, v = 78;
    CHECK(indexset_map_at(map, at, &k, &v) == (at < count));
    CHECK(at < count ? k == model[at] && v == model_values[at] : k == 77 && v == 78);
    if (count == 0) return;
    CHECK(indexset_map_first(map, &k, &v) && k == model[0] && v == model_values[0]);
    CHECK(indexset_map_last(map, &k, &v) && k == model[count - 1] && v == model_values[count - 1]);
}

static void map_step_range(const indexset_map *map, uint64_t low, uint64_t high) {
    uint64_t keys[9], values[9];
    for (size_t i = 0; i < 9; i++) keys[i] = values[i] = 77;
    size_t first = model_rank(low), wanted = 0;
    while (low <= high && wanted < 7 && first + wanted < count && model[first + wanted] <= high) wanted++;
    CHECK(indexset_map_range_by_key(map, low, high, keys, 8, values, 7) == wanted);
    CHECK(memcmp(keys, model + first, wanted * sizeof *keys) == 0);
    CHECK(memcmp(values, model_values + first, wanted * sizeof *values) == 0);
    CHECK(keys[wanted] == 77 && values[wanted] == 77);
}

static void map_step_batch(indexset_map *map) {
    uint64_t keys[6], values[6], out[6];
    size_t taken = 99;
    for (size_t i = 0; i < 6; i++) keys[i] = draw_key(), values[i] = draw(), out[i] = 77;
    uint32_t status = indexset_map_insert_all(map, keys, 6, values, 5, &taken);
    CHECK(status == INDEXSET_YES ? taken == 5 : nth != 0 && status == INDEXSET_MEMORY && taken < 5);
    for (size_t i = 0; i < taken; i++) map_model_put(keys[i], values[i]);
    CHECK(indexset_map_gets(map, keys, 6, 78, out, 6) == 6);
    for (size_t i = 0; i < 6; i++) CHECK(out[i] == (model_has(keys[i]) ? model_values[model_rank(keys[i])] : 78));
    out[4] = 77;
    CHECK(indexset_map_gets(map, keys, 6, 78, out, 4) == 4 && out[4] == 77);
}

static void test_map_random(unsigned long refuse, unsigned steps) {
    indexset_map map = INDEXSET_HANDLE, cloned = INDEXSET_HANDLE;
    count = 0;
    CHECK(indexset_map_new(&map) == INDEXSET_YES);
    nth = refuse;
    requests = 0;
    for (unsigned i = 0; i < steps; i++) {
        map_step_change(&map, draw_key());
        map_step_read(&map, draw_key());
        map_step_range(&map, draw_key(), draw_key());
        if (i % 8 == 0 && count < ROOM / 2) map_step_batch(&map);
        if (i % 64 == 0) {
            CHECK(map_same_as_model(&map));
            uint32_t status = indexset_map_clone(&map, &cloned);
            CHECK(status == INDEXSET_YES ? map_same_as_model(&cloned)
                                         : nth != 0 && status == INDEXSET_MEMORY && !cloned.live);
            indexset_map_free(&cloned);
        }
    }
    nth = 0;
    CHECK(map_same_as_model(&map));
    indexset_map_free(&map);
}

int main(void) {
    test_none();
    test_life();
    test_heap();
    test_sorted();
    test_random(0, 6000);
    test_map_none();
    test_map_random(0, 6000);
    for (unsigned long refuse = 1; refuse <= 12; refuse++) {
        test_random(refuse, 500);
        test_map_random(refuse, 500);
    }
    return told();
}
