/* Tests each call of a logged map against an array, and against nodes to which its changes are applied one by one, also
 * with every Nth allocation failing. */
#include "checks.h"

enum { KEYS = 512, ROOM = 4096 };
static uint64_t model[KEYS];
static bool model_has[KEYS];
static size_t count;

/* The greatest key occurs too. */
static uint64_t key_of(size_t at) { return at == KEYS - 1 ? UINT64_MAX : at * 3; }

/* ---- nodes to which the changes are applied */
typedef struct node {
    size_t length;
    uint64_t keys[8], values[8];
} node;
static node nodes[KEYS];
static size_t node_count;

/* The place of the node with this last key. */
static size_t named(uint64_t key) {
    size_t at = 0;
    while (at < node_count && nodes[at].keys[nodes[at].length - 1] != key) at++;
    CHECK(at < node_count);
    return at;
}

static void open_at(size_t at) { memmove(nodes + at + 1, nodes + at, (node_count++ - at) * sizeof *nodes); }

static void close_at(size_t at) { memmove(nodes + at, nodes + at + 1, (--node_count - at) * sizeof *nodes); }

static void move_pairs(node *to, size_t at, const node *from, size_t first, size_t many) {
    memmove(to->keys + at, from->keys + first, many * sizeof *to->keys);
    memmove(to->values + at, from->values + first, many * sizeof *to->values);
}

static void make_change(const indexset_event *event) {
    size_t at = 0;
    if (event->kind == INDEXSET_CREATE) {
        while (at < node_count && nodes[at].keys[nodes[at].length - 1] < event->node_key) at++;
        open_at(at);
        nodes[at] = (node){1, {event->node_key}, {event->node_value}};
        return;
    }
    at = named(event->node_key);
    node *named_node = nodes + at;
    size_t i = event->index, length = named_node->length;
    switch (event->kind) {
    case INDEXSET_INSERT:
        CHECK(i <= length && length < 8);
        move_pairs(named_node, i + 1, named_node, i, length - i);
        named_node->keys[i] = event->key;
        named_node->values[i] = event->value;
        named_node->length++;
        return;
    case INDEXSET_REMOVE:
        CHECK(i < length && named_node->keys[i] == event->key && named_node->values[i] == event->value);
        move_pairs(named_node, i, named_node, i + 1, length - i - 1);
        named_node->length--;
        return;
    case INDEXSET_DROP: close_at(at); return;
    case INDEXSET_SPLIT:
        CHECK(0 < i && i < length);
        open_at(at);
        move_pairs(nodes + at + 1, 0, nodes + at, i, length - i);
        nodes[at].length = i;
        nodes[at + 1].length = length - i;
        return;
    default:
        CHECK(event->kind == INDEXSET_MERGE && named(event->key) == at + 1);
        move_pairs(named_node, length, nodes + at + 1, 0, nodes[at + 1].length);
        named_node->length += nodes[at + 1].length;
        close_at(at + 1);
    }
}

static void compare(const indexset_log *log) {
    static uint64_t keys[ROOM], values[ROOM];
    static size_t lengths[ROOM];
    size_t first = 0;
    CHECK(indexset_log_node_count(log) == node_count && indexset_log_node_lengths(log, lengths, ROOM) == node_count);
    CHECK(indexset_log_range(log, 0, UINT64_MAX, keys, ROOM, values, ROOM) == count && indexset_log_len(log) == count);
    for (size_t at = 0; at < node_count; first += lengths[at++]) {
        CHECK(lengths[at] == nodes[at].length);
        CHECK(memcmp(keys + first, nodes[at].keys, lengths[at] * sizeof *keys) == 0);
        CHECK(memcmp(values + first, nodes[at].values, lengths[at] * sizeof *values) == 0);
    }
    CHECK(first == count);
    for (size_t draws = 0; draws < 8; draws++) {
        size_t at = (size_t)(draw() % (count + 2)), past = count - (at < count ? at : count),
               wrote = past < 3 ? past : 3;
        uint64_t key = 77, value = 78, some_keys[4] = {77, 77, 77, 77}, some_values[4] = {78, 78, 78, 78};
        CHECK(indexset_log_at(log, at, &key, &value) == (at < count));
        CHECK(at < count ? key == keys[at] && value == values[at] : key == 77 && value == 78);
        CHECK(indexset_log_range_by_position(log, at, some_keys, 4, some_values, 3) == wrote);
        CHECK(memcmp(some_keys, keys + at, wrote * sizeof *keys) == 0 && some_keys[wrote] == 77);
        CHECK(memcmp(some_values, values + at, wrote * sizeof *values) == 0 && some_values[wrote] == 78);
        uint64_t sought = key_of((size_t)(draw() % KEYS));
        size_t below = 0;
        while (below < count && keys[below] < sought) below++;
        CHECK(indexset_log_rank(log, sought) == below);
    }
}

/* ---- a handle that owns none, and changes written out: nodes of at most 2 pairs */
static void test_life(void) {
    indexset_log log = INDEXSET_HANDLE, other = INDEXSET_HANDLE;
    indexset_event events[INDEXSET_CHANGES];
    uint64_t out = 7;
    size_t told = 9, length = 5;
    CHECK(indexset_log_len(&log) == 0 && indexset_log_node_count(&log) == 0 && indexset_log_next(&log) == 0);
    CHECK(!indexset_log_get(&log, 1, &out) && !indexset_log_contains(&log, 1) && out == 7);
    CHECK(indexset_log_range(&log, 0, UINT64_MAX, &out, 1, &out, 1) == 0);
    CHECK(indexset_log_rank(&log, UINT64_MAX) == 0);
    uint64_t key = 6;
    CHECK(!indexset_log_at(&log, 0, &key, &out) && key == 6 && out == 7);
    CHECK(indexset_log_range_by_position(&log, 0, &key, 1, &out, 1) == 0);
    CHECK(indexset_log_node_lengths(&log, &length, 1) == 0 && length == 5);
    CHECK(indexset_log_insert(&log, 1, 2, &out, events, 3, &told) == INDEXSET_NONE && told == 0);
    told = 9;
    CHECK(indexset_log_remove(&log, 1, &out, events, 3, &told) == INDEXSET_NO && told == 0);
    indexset_log_free(&log);
    CHECK(indexset_log_new(&log, 1, 0) == INDEXSET_UNFIT && !log.live);
    CHECK(indexset_log_new(&log, 2, 100) == INDEXSET_YES);
    CHECK(indexset_log_new(&log, 2, 0) == INDEXSET_HELD && indexset_log_next(&log) == 100);
    CHECK(indexset_log_insert(&log, 10, 1, &out, events, 2, &told) == INDEXSET_UNFIT && told == 0);
    CHECK(indexset_log_insert(&log, 10, 1, &out, events, 3, &told) == INDEXSET_YES && told == 1);
    CHECK(events[0].number == 100 && events[0].kind == INDEXSET_CREATE && events[0].node_key == 10
          && events[0].node_value == 1);
    CHECK(indexset_log_insert(&log, 20, 2, &out, events, 3, &told) == INDEXSET_YES && told == 1);
    CHECK(events[0].number == 101 && events[0].kind == INDEXSET_INSERT && events[0].node_key == 10);
    CHECK(events[0].key == 20 && events[0].value == 2 && events[0].index == 1);
    CHECK(indexset_log_insert(&log, 30, 3, &out, events, 3, &told) == INDEXSET_YES && told == 2);
    CHECK(events[0].number == 102 && events[0].kind == INDEXSET_SPLIT && events[0].node_key == 20
          && events[0].index == 1);
    CHECK(events[1].number == 103 && events[1].kind == INDEXSET_INSERT && events[1].node_key == 20
          && events[1].key == 30);
    /* the node of 20 and 30 is full, so it is split first, and 30 is then the only pair of its node */
    CHECK(indexset_log_insert(&log, 30, 4, &out, events, 3, &told) == INDEXSET_NO && out == 3 && told == 3);
    CHECK(events[0].number == 104 && events[0].kind == INDEXSET_SPLIT && events[0].node_key == 30);
    CHECK(events[1].kind == INDEXSET_DROP && events[2].kind == INDEXSET_CREATE && events[2].node_value == 4);
    CHECK(indexset_log_node_lengths(&log, &length, 1) == 1 && length == 1 && indexset_log_node_count(&log) == 3);
    CHECK(indexset_log_remove(&log, 10, &out, events, 2, &told) == INDEXSET_UNFIT && told == 0);
    CHECK(indexset_log_remove(&log, 10, &out, events, 3, &told) == INDEXSET_YES && out == 1 && told == 1);
    CHECK(events[0].number == 107 && events[0].kind == INDEXSET_DROP && events[0].node_key == 10);
    CHECK(indexset_log_remove(&log, 10, &out, events, 3, &told) == INDEXSET_NO && told == 0);
    CHECK(indexset_log_next(&log) == 108 && indexset_log_len(&log) == 2);
    CHECK(indexset_log_new(&other, 4, 7) == INDEXSET_YES);
    indexset_log_swap(&log, &other);
    CHECK(indexset_log_next(&log) == 7 && indexset_log_next(&other) == 108);
    indexset_log_move(&log, &other);
    CHECK(!other.live && indexset_log_next(&log) == 108 && indexset_log_len(&log) == 2);
    indexset_log_free(&log);
    CHECK(!log.live);
    CHECK(indexset_log_new(&log, 2, UINT64_MAX) == INDEXSET_YES);
    CHECK(indexset_log_insert(&log, 1, 2, &out, events, 3, &told) == INDEXSET_NUMBERS && told == 0);
    indexset_log *heap = NULL;
    CHECK(indexset_log_create(&heap, 1, 0) == INDEXSET_UNFIT && heap == NULL);
    CHECK(indexset_log_create(&heap, 2, 50) == INDEXSET_YES && indexset_log_next(heap) == 50);
    indexset_log_destroy(&heap);
    indexset_log_destroy(&heap); /* of a null pointer: does nothing */
    CHECK(heap == NULL);
    indexset_log_free(&log);
}

/* ---- many calls, every nth allocation fails */
static void step_change(indexset_log *log) {
    size_t at = (size_t)(draw() % KEYS), told = 99;
    uint64_t key = key_of(at), value = draw(), out = 77, next = indexset_log_next(log);
    indexset_event events[INDEXSET_CHANGES];
    bool inserts = draw() % 8 < 4;
    uint32_t status = inserts ? indexset_log_insert(log, key, value, &out, events, INDEXSET_CHANGES, &told)
                              : indexset_log_remove(log, key, &out, events, INDEXSET_CHANGES, &told);
    if (status == INDEXSET_MEMORY) {
        CHECK(nth != 0 && out == 77 && told == 0);
        return;
    }
    CHECK(status == (inserts == model_has[at] ? INDEXSET_NO : INDEXSET_YES));
    CHECK(out == (model_has[at] ? model[at] : 77));
    CHECK(inserts || status == INDEXSET_YES ? told >= 1 && told <= INDEXSET_CHANGES : told == 0);
    for (size_t i = 0; i < told; i++) {
        CHECK(events[i].number == next + i);
        make_change(events + i);
    }
    CHECK(indexset_log_next(log) == next + told);
    count = count + (inserts && !model_has[at]) - (!inserts && model_has[at]);
    model_has[at] = inserts;
    model[at] = value;
}

static void step_read(indexset_log *log) {
    size_t at = (size_t)(draw() % KEYS);
    uint64_t key = key_of(at), out = 77;
    CHECK(indexset_log_contains(log, key) == model_has[at]);
    CHECK(indexset_log_get(log, key, &out) == model_has[at] && out == (model_has[at] ? model[at] : 77));
    CHECK(indexset_log_len(log) == count);
    uint64_t keys[3], values[3], low = key_of((size_t)(draw() % KEYS)), wanted[3];
    size_t wrote = 0;
    for (size_t i = 0; i < KEYS && wrote < 3; i++)
        if (model_has[i] && key_of(i) >= low && key_of(i) <= key) wanted[wrote++] = key_of(i);
    CHECK(indexset_log_range(log, low, key, keys, 3, values, 3) == wrote);
    CHECK(memcmp(keys, wanted, wrote * sizeof *keys) == 0);
}

static void test_random(unsigned long refuse, unsigned steps) {
    indexset_log log = INDEXSET_HANDLE;
    count = node_count = 0;
    memset(model_has, 0, sizeof model_has);
    CHECK(indexset_log_new(&log, 4, 1000) == INDEXSET_YES);
    nth = refuse;
    requests = 0;
    for (unsigned i = 0; i < steps; i++) {
        step_change(&log);
        step_read(&log);
        if (i % 16 == 0) compare(&log);
    }
    nth = 0;
    compare(&log);
    indexset_log_free(&log);
}

int main(void) {
    test_life();
    test_random(0, 6000);
    for (unsigned long refuse = 1; refuse <= 12; refuse++) test_random(refuse, 500);
    return told();
}
