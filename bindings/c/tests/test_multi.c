/* Tests each call of a multimap against an array of pairs, also with every Nth allocation failing. */
#include "checks.h"

/* ---- the model: pairs in the order of their keys, those of a key in insertion order */
enum { ROOM = 4096 };
static uint64_t model_keys[ROOM], model_values[ROOM];
static size_t count;

static size_t below(uint64_t key) {
    size_t at = 0;
    while (at < count && model_keys[at] < key) at++;
    return at;
}

static size_t upto(uint64_t key) {
    size_t at = below(key);
    while (at < count && model_keys[at] == key) at++;
    return at;
}

static size_t place_of(uint64_t key, uint64_t value) {
    size_t at = below(key);
    while (at < upto(key) && model_values[at] != value) at++;
    return at;
}

static void insert_at(size_t at, uint64_t key, uint64_t value) {
    memmove(model_keys + at + 1, model_keys + at, (count - at) * sizeof *model_keys);
    memmove(model_values + at + 1, model_values + at, (count - at) * sizeof *model_values);
    model_keys[at] = key;
    model_values[at] = value;
    count++;
}

static void remove_at(size_t at) {
    memmove(model_keys + at, model_keys + at + 1, (count - at - 1) * sizeof *model_keys);
    memmove(model_values + at, model_values + at + 1, (count - at - 1) * sizeof *model_values);
    count--;
}

/* The least and the greatest key occur too. */
static uint64_t draw_key(void) {
    uint64_t key = draw() >> 20 & 127;
    return key == 127 ? UINT64_MAX : key;
}

static bool same_as_model(const indexset_multi *multi) {
    static uint64_t keys[ROOM], values[ROOM];
    if (indexset_multi_len(multi) != count) return false;
    if (indexset_multi_range(multi, 0, UINT64_MAX, keys, ROOM, values, ROOM) != count) return false;
    return memcmp(keys, model_keys, count * sizeof *keys) == 0
           && memcmp(values, model_values, count * sizeof *values) == 0;
}

/* ---- a handle that owns none, and construction and destruction of a multimap */
static void test_life(void) {
    indexset_multi multi = INDEXSET_HANDLE, other = INDEXSET_HANDLE;
    uint64_t key = 7, value = 8;
    CHECK(indexset_multi_len(&multi) == 0 && indexset_multi_count(&multi, 1) == 0);
    CHECK(!indexset_multi_contains(&multi, 1, 2) && !indexset_multi_contains_key(&multi, 1));
    CHECK(indexset_multi_get(&multi, 1, &value, 1) == 0);
    CHECK(!indexset_multi_first(&multi, &key, &value) && !indexset_multi_last(&multi, &key, &value));
    CHECK(indexset_multi_range(&multi, 0, UINT64_MAX, &key, 1, &value, 1) == 0);
    CHECK(indexset_multi_insert(&multi, 1, 2) == INDEXSET_NONE);
    CHECK(indexset_multi_remove(&multi, 1, 2) == INDEXSET_NO);
    CHECK(indexset_multi_remove_first(&multi, 1, &value) == INDEXSET_NO);
    CHECK(key == 7 && value == 8);
    indexset_multi_clear(&multi);
    indexset_multi_free(&multi);
    CHECK(!multi.live);
    CHECK(indexset_multi_new(&multi) == INDEXSET_YES);
    CHECK(indexset_multi_new(&multi) == INDEXSET_HELD);
    CHECK(indexset_multi_insert(&multi, 1, 30) == INDEXSET_YES);
    CHECK(indexset_multi_insert(&multi, 1, 20) == INDEXSET_YES);
    CHECK(indexset_multi_insert(&multi, 1, 30) == INDEXSET_NO);
    CHECK(indexset_multi_first(&multi, &key, &value) && key == 1 && value == 30);
    CHECK(indexset_multi_last(&multi, &key, &value) && key == 1 && value == 20);
    indexset_multi_clear(&multi);
    CHECK(multi.live && indexset_multi_len(&multi) == 0);
    CHECK(indexset_multi_insert(&multi, 5, 6) == INDEXSET_YES);
    CHECK(indexset_multi_new(&other) == INDEXSET_YES);
    indexset_multi_swap(&multi, &other);
    CHECK(indexset_multi_len(&multi) == 0 && indexset_multi_contains(&other, 5, 6));
    indexset_multi_move(&multi, &other);
    CHECK(!other.live && indexset_multi_contains(&multi, 5, 6));
    indexset_multi_free(&multi);
    CHECK(!multi.live && indexset_multi_len(&multi) == 0);
    indexset_multi *heap = NULL;
    CHECK(indexset_multi_create(&heap) == INDEXSET_YES && indexset_multi_insert(heap, 1, 2) == INDEXSET_YES);
    indexset_multi_destroy(&heap);
    indexset_multi_destroy(&heap); /* of a null pointer: does nothing */
    CHECK(heap == NULL);
}

/* ---- many calls, every nth allocation fails */
static void step_change(indexset_multi *multi, uint64_t key) {
    uint64_t value = draw() >> 20 & 7, out = 77;
    size_t first = below(key), past = upto(key), at = place_of(key, value);
    uint32_t status;
    switch (draw() % 8) {
    case 0:
        status = indexset_multi_remove_first(multi, key, &out);
        CHECK(first == past ? status == INDEXSET_NO
                            : status == INDEXSET_YES || (nth != 0 && status == INDEXSET_MEMORY));
        CHECK(out == (status == INDEXSET_YES ? model_values[first] : 77));
        if (status == INDEXSET_YES) remove_at(first);
        return;
    case 1:
    case 2:
    case 3:
        status = indexset_multi_remove(multi, key, value);
        CHECK(at == past ? status == INDEXSET_NO : status == INDEXSET_YES || (nth != 0 && status == INDEXSET_MEMORY));
        if (status == INDEXSET_YES) remove_at(at);
        return;
    default:
        status = indexset_multi_insert(multi, key, value);
        CHECK(at != past ? status == INDEXSET_NO : status == INDEXSET_YES || (nth != 0 && status == INDEXSET_MEMORY));
        if (status == INDEXSET_YES) insert_at(past, key, value);
    }
}

static void step_read(const indexset_multi *multi, uint64_t key) {
    uint64_t out[5] = {77, 77, 77, 77, 77}, k = 77, v = 78, value = draw() >> 20 & 7;
    size_t first = below(key), many = upto(key) - first, wrote = many < 4 ? many : 4;
    CHECK(indexset_multi_contains(multi, key, value) == (place_of(key, value) != upto(key)));
    CHECK(indexset_multi_contains_key(multi, key) == (many != 0));
    CHECK(indexset_multi_count(multi, key) == many);
    CHECK(indexset_multi_get(multi, key, out, 4) == wrote);
    CHECK(memcmp(out, model_values + first, wrote * sizeof *out) == 0 && out[wrote] == 77);
    CHECK(indexset_multi_first(multi, &k, &v) == (count != 0));
    CHECK(count != 0 ? k == model_keys[0] && v == model_values[0] : k == 77 && v == 78);
    k = 77, v = 78;
    CHECK(indexset_multi_last(multi, &k, &v) == (count != 0));
    CHECK(count != 0 ? k == model_keys[count - 1] && v == model_values[count - 1] : k == 77 && v == 78);
}

static void step_range(const indexset_multi *multi, uint64_t low, uint64_t high) {
    uint64_t keys[9], values[9];
    for (size_t i = 0; i < 9; i++) keys[i] = values[i] = 77;
    size_t first = below(low), wanted = 0;
    while (low <= high && wanted < 7 && first + wanted < count && model_keys[first + wanted] <= high) wanted++;
    CHECK(indexset_multi_range(multi, low, high, keys, 8, values, 7) == wanted);
    CHECK(memcmp(keys, model_keys + first, wanted * sizeof *keys) == 0);
    CHECK(memcmp(values, model_values + first, wanted * sizeof *values) == 0);
    CHECK(keys[wanted] == 77 && values[wanted] == 77);
}

static void test_random(unsigned long refuse, unsigned steps) {
    indexset_multi multi = INDEXSET_HANDLE, other = INDEXSET_HANDLE;
    count = 0;
    CHECK(indexset_multi_new(&multi) == INDEXSET_YES);
    nth = refuse;
    requests = 0;
    for (unsigned i = 0; i < steps; i++) {
        step_change(&multi, draw_key());
        step_read(&multi, draw_key());
        step_range(&multi, draw_key(), draw_key());
        if (i % 64 == 0) {
            CHECK(same_as_model(&multi));
            uint32_t status = indexset_multi_new(&other);
            CHECK(status == INDEXSET_YES || (nth != 0 && status == INDEXSET_MEMORY && !other.live));
            indexset_multi_free(&other);
        }
    }
    nth = 0;
    CHECK(same_as_model(&multi));
    indexset_multi_free(&multi);
}

int main(void) {
    test_life();
    test_random(0, 6000);
    for (unsigned long refuse = 1; refuse <= 12; refuse++) test_random(refuse, 500);
    return told();
}
