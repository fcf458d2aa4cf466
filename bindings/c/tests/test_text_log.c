/* Tests each call of a logged map from byte strings against a sorted array of keys, and against nodes to which its
 * changes are applied one by one, also with every Nth allocation failing. */
#include "checks.h"

enum { ROOM = 2048, LONGEST = 8, SIZE = 4 };
typedef struct pair {
    size_t len;
    uint8_t bytes[LONGEST];
    uint64_t value;
} pair;
static pair model[ROOM];
static size_t count;

static int compare_keys(const pair *a, const pair *b) {
    return indexset_bytes_compare(a->bytes, a->len, b->bytes, b->len);
}

static size_t model_rank(const pair *of) {
    size_t below = 0;
    while (below < count && compare_keys(&model[below], of) < 0) below++;
    return below;
}

static bool model_has(const pair *of) {
    size_t at = model_rank(of);
    return at < count && compare_keys(&model[at], of) == 0;
}

/* Many keys have a common prefix; the empty key, zeros and bytes above 127 occur. */
static pair draw_pair(void) {
    static const uint8_t letters[4] = {0, 'a', 'b', 0xff};
    pair of = {.len = draw() >> 20 & 3, .value = draw() >> 40};
    for (size_t i = 0; i < of.len; i++) of.bytes[i] = letters[draw() >> 20 & 3];
    if ((draw() >> 20 & 1) == 0) {
        memmove(of.bytes + 4, of.bytes, of.len);
        memcpy(of.bytes, "key:", 4);
        of.len += 4;
    }
    return of;
}

static bool is_same(const pair *a, const pair *b) { return compare_keys(a, b) == 0 && a->value == b->value; }

/* ---- nodes to which the changes are applied */
typedef struct node {
    size_t length;
    pair pairs[SIZE + 1];
} node;
static node nodes[ROOM];
static size_t node_count;

/* The place of the node that a pair names. */
static size_t named(const pair *name) {
    size_t at = 0;
    while (at < node_count && !is_same(&nodes[at].pairs[nodes[at].length - 1], name)) at++;
    CHECK(at < node_count);
    return at;
}

static void open_at(size_t at) { memmove(nodes + at + 1, nodes + at, (node_count++ - at) * sizeof *nodes); }
static void close_at(size_t at) { memmove(nodes + at, nodes + at + 1, (--node_count - at) * sizeof *nodes); }
static void move_pairs(node *to, size_t at, const node *from, size_t first, size_t many) {
    memmove(to->pairs + at, from->pairs + first, many * sizeof *to->pairs);
}

static void make_change(const indexset_text_event *event, const pair *name, const pair *of) {
    size_t at = 0, i = event->index;
    if (event->kind == INDEXSET_CREATE) {
        while (at < node_count && compare_keys(&nodes[at].pairs[nodes[at].length - 1], name) < 0) at++;
        open_at(at);
        nodes[at] = (node){.length = 1, .pairs = {*name}};
        return;
    }
    at = named(name);
    node *of_name = nodes + at;
    size_t length = of_name->length;
    switch (event->kind) {
    case INDEXSET_INSERT:
        CHECK(i <= length && length < SIZE);
        move_pairs(of_name, i + 1, of_name, i, length - i);
        of_name->pairs[i] = *of;
        of_name->length++;
        return;
    case INDEXSET_REMOVE:
        CHECK(i < length && is_same(&of_name->pairs[i], of));
        move_pairs(of_name, i, of_name, i + 1, length - i - 1);
        of_name->length--;
        return;
    case INDEXSET_DROP: close_at(at); return;
    case INDEXSET_SPLIT:
        CHECK(0 < i && i < length);
        open_at(at);
        move_pairs(nodes + at + 1, 0, nodes + at, i, length - i);
        nodes[at].length = i;
        nodes[at + 1].length = length - i;
        return;
    default:
        CHECK(event->kind == INDEXSET_MERGE && named(of) == at + 1);
        move_pairs(of_name, length, nodes + at + 1, 0, nodes[at + 1].length);
        of_name->length += nodes[at + 1].length;
        close_at(at + 1);
    }
}

/* Applies the kept changes, read into arrays that are long enough and into arrays that are too short. */
static void make_changes(const indexset_text_log *log, uint64_t next, size_t told) {
    indexset_text_event event = {0}, cut;
    pair name = {0}, of = {0};
    for (size_t i = 0; i < told; i++) {
        uint8_t few[2] = {0x77, 0x77}, fewer[1] = {0x77};
        CHECK(indexset_text_log_change(log, i, &event, name.bytes, LONGEST, of.bytes, LONGEST));
        name.len = event.node_len, name.value = event.node_value;
        of.len = event.key_len, of.value = event.value;
        CHECK(event.number == next + i && name.len <= LONGEST && of.len <= LONGEST);
        CHECK(indexset_text_log_change(log, i, &cut, few, 2, fewer, 1) && cut.number == event.number
              && cut.kind == event.kind);
        CHECK(cut.node_len == event.node_len && cut.key_len == event.key_len && cut.index == event.index);
        CHECK(memcmp(few, name.bytes, name.len < 2 ? name.len : 2) == 0 && (name.len > 1 || few[1] == 0x77));
        CHECK(of.len == 0 ? fewer[0] == 0x77 : fewer[0] == of.bytes[0]);
        make_change(&event, &name, &of);
    }
    CHECK(!indexset_text_log_change(log, told, &cut, name.bytes, LONGEST, of.bytes, LONGEST));
}

static void compare(const indexset_text_log *log) {
    static uint64_t values[ROOM];
    static size_t lengths[ROOM];
    static uint8_t bytes[ROOM * LONGEST];
    size_t at = 0, used = 0;
    CHECK(indexset_text_log_len(log) == count && indexset_text_log_node_count(log) == node_count);
    for (size_t k = 0; k < node_count; at += nodes[k++].length) {
        CHECK(nodes[k].length >= 1 && nodes[k].length <= SIZE && at + nodes[k].length <= count);
        for (size_t i = 0; i < nodes[k].length; i++) CHECK(is_same(&nodes[k].pairs[i], &model[at + i]));
    }
    CHECK(at == count && indexset_text_log_range_by_position(log, 0, values, ROOM) == count);
    CHECK(indexset_text_log_keys_by_position(log, 0, bytes, sizeof bytes, lengths, ROOM) == count);
    for (at = 0; at < count; used += lengths[at++]) {
        CHECK(values[at] == model[at].value && lengths[at] == model[at].len);
        CHECK(memcmp(bytes + used, model[at].bytes, lengths[at]) == 0);
    }
}

/* ---- a handle that owns none, and changes written out: nodes of at most 2 pairs */
static void test_life(void) {
    indexset_text_log log = INDEXSET_HANDLE, other = INDEXSET_HANDLE;
    indexset_text_event event = {.number = 99};
    uint8_t node[8] = "nnnnnnn", key[8] = "kkkkkkk";
    uint64_t out = 7;
    size_t told = 9, length = 5;
    CHECK(indexset_text_log_len(&log) == 0 && indexset_text_log_node_count(&log) == 0
          && indexset_text_log_next(&log) == 0);
    CHECK(!indexset_text_log_get(&log, "a", 1, &out) && !indexset_text_log_contains(&log, "a", 1) && out == 7);
    CHECK(indexset_text_log_rank(&log, "a", 1) == 0 && indexset_text_log_count_up_to(&log, "a", 1) == 0);
    CHECK(!indexset_text_log_at(&log, 0, key, 8, &length, &out) && out == 7 && length == 5 && key[0] == 'k');
    CHECK(indexset_text_log_range_by_position(&log, 0, &out, 1) == 0);
    CHECK(indexset_text_log_keys_by_position(&log, 0, key, 8, &length, 1) == 0 && length == 5);
    CHECK(!indexset_text_log_change(&log, 0, &event, node, 8, key, 8) && event.number == 99 && node[0] == 'n');
    CHECK(indexset_text_log_insert(&log, "a", 1, 2, &out, &told) == INDEXSET_NONE && told == 0);
    told = 9;
    CHECK(indexset_text_log_remove(&log, "a", 1, &out, &told) == INDEXSET_NO && told == 0);
    indexset_text_log_free(&log);
    CHECK(indexset_text_log_new(&log, 1, 0) == INDEXSET_UNFIT && !log.live);
    CHECK(indexset_text_log_new(&log, 2, 100) == INDEXSET_YES);
    CHECK(indexset_text_log_new(&log, 2, 0) == INDEXSET_HELD && indexset_text_log_next(&log) == 100);
    CHECK(!indexset_text_log_change(&log, 0, &event, node, 8, key, 8));
    CHECK(indexset_text_log_insert(&log, "bee", 3, 1, &out, &told) == INDEXSET_YES && told == 1);
    CHECK(indexset_text_log_change(&log, 0, &event, node, 8, key, 8) && event.number == 100
          && event.kind == INDEXSET_CREATE);
    CHECK(event.node_len == 3 && memcmp(node, "beennnn", 7) == 0 && event.node_value == 1);
    CHECK(event.key_len == 0 && event.value == 0 && event.index == 0 && key[0] == 'k');
    CHECK(indexset_text_log_insert(&log, "cat", 3, 2, &out, &told) == INDEXSET_YES && told == 1);
    CHECK(indexset_text_log_change(&log, 0, &event, node, 2, key, 1) && event.number == 101
          && event.kind == INDEXSET_INSERT);
    CHECK(memcmp(node, "beennnn", 7) == 0 && memcmp(key, "ckkkkkk", 7) == 0 && event.key_len == 3 && event.value == 2
          && event.index == 1);
    CHECK(indexset_text_log_insert(&log, "dog", 3, 3, &out, &told) == INDEXSET_YES && told == 2);
    CHECK(indexset_text_log_change(&log, 0, &event, node, 8, key, 8) && event.kind == INDEXSET_SPLIT
          && event.index == 1);
    CHECK(indexset_text_log_change(&log, 1, &event, node, 8, key, 8) && event.number == 103
          && memcmp(node, "cat", 3) == 0);
    /* an absent key leaves the kept changes as they are */
    CHECK(indexset_text_log_remove(&log, "ant", 3, &out, &told) == INDEXSET_NO && told == 0);
    CHECK(indexset_text_log_change(&log, 1, &event, node, 8, key, 8) && event.number == 103);
    CHECK(indexset_text_log_insert(&log, "dog", 3, 4, &out, &told) == INDEXSET_NO && out == 3 && told == 3);
    CHECK(indexset_text_log_remove(&log, "bee", 3, &out, &told) == INDEXSET_YES && out == 1 && told == 1);
    CHECK(indexset_text_log_change(&log, 0, &event, node, 8, key, 8) && event.kind == INDEXSET_DROP
          && event.number == 107);
    CHECK(indexset_text_log_next(&log) == 108 && indexset_text_log_len(&log) == 2
          && indexset_text_log_node_count(&log) == 2);
    CHECK(indexset_text_log_new(&other, 4, 7) == INDEXSET_YES);
    indexset_text_log_swap(&log, &other);
    CHECK(indexset_text_log_next(&log) == 7 && indexset_text_log_next(&other) == 108);
    indexset_text_log_move(&log, &other);
    CHECK(!other.live && indexset_text_log_next(&log) == 108 && indexset_text_log_len(&log) == 2);
    CHECK(indexset_text_log_change(&log, 0, &event, node, 8, key, 8) && event.number == 107);
    indexset_text_log_free(&log);
    CHECK(!log.live);
    CHECK(indexset_text_log_new(&log, 2, UINT64_MAX) == INDEXSET_YES);
    CHECK(indexset_text_log_insert(&log, "a", 1, 2, &out, &told) == INDEXSET_NUMBERS && told == 0);
    indexset_text_log *heap = NULL;
    CHECK(indexset_text_log_create(&heap, 1, 0) == INDEXSET_UNFIT && heap == NULL);
    CHECK(indexset_text_log_create(&heap, 2, 50) == INDEXSET_YES && indexset_text_log_next(heap) == 50);
    indexset_text_log_destroy(&heap);
    indexset_text_log_destroy(&heap); /* of a null pointer: does nothing */
    CHECK(heap == NULL);
    indexset_text_log_free(&log);
}

/* ---- many calls, every nth allocation fails */
static void step_change(indexset_text_log *log) {
    pair of = draw_pair();
    size_t at = model_rank(&of), told = 99;
    bool is_there = model_has(&of), inserts = draw() % 8 < 4;
    uint64_t out = 77, next = indexset_text_log_next(log);
    uint32_t status = inserts ? indexset_text_log_insert(log, of.bytes, of.len, of.value, &out, &told)
                              : indexset_text_log_remove(log, of.bytes, of.len, &out, &told);
    if (status == INDEXSET_MEMORY) {
        CHECK(nth != 0 && out == 77 && told == 0 && indexset_text_log_next(log) == next);
        return;
    }
    CHECK(status == (inserts == is_there ? INDEXSET_NO : INDEXSET_YES));
    CHECK(out == (is_there ? model[at].value : 77));
    CHECK(inserts || status == INDEXSET_YES ? told >= 1 && told <= INDEXSET_CHANGES : told == 0);
    CHECK(indexset_text_log_next(log) == next + told);
    if (inserts || is_there) make_changes(log, next, told);
    if (inserts && !is_there) memmove(model + at + 1, model + at, (count++ - at) * sizeof *model);
    if (!inserts && is_there) memmove(model + at, model + at + 1, (--count - at) * sizeof *model);
    if (inserts) model[at] = of;
}

static void step_read(const indexset_text_log *log) {
    pair of = draw_pair();
    size_t at = model_rank(&of), position = (size_t)(draw() % (count + 2)), length = 55;
    uint64_t out = 77, value = 66;
    uint8_t bytes[LONGEST] = {0};
    bool is_there = model_has(&of);
    CHECK(indexset_text_log_contains(log, of.bytes, of.len) == is_there);
    CHECK(indexset_text_log_get(log, of.bytes, of.len, &out) == is_there && out == (is_there ? model[at].value : 77));
    CHECK(indexset_text_log_rank(log, of.bytes, of.len) == at);
    CHECK(indexset_text_log_count_up_to(log, of.bytes, of.len) == at + is_there);
    CHECK(indexset_text_log_at(log, position, bytes, LONGEST, &length, &value) == (position < count));
    if (position < count) {
        CHECK(length == model[position].len && value == model[position].value
              && memcmp(bytes, model[position].bytes, length) == 0);
    } else {
        CHECK(length == 55 && value == 66);
    }
}

static void test_random(unsigned long refuse, unsigned steps) {
    indexset_text_log log = INDEXSET_HANDLE;
    count = node_count = 0;
    CHECK(indexset_text_log_new(&log, SIZE, 1000) == INDEXSET_YES);
    nth = refuse;
    requests = 0;
    for (unsigned i = 0; i < steps; i++) {
        step_change(&log);
        step_read(&log);
        if (i % 16 == 0) compare(&log);
    }
    nth = 0;
    compare(&log);
    indexset_text_log_free(&log);
}

int main(void) {
    test_life();
    test_random(0, 6000);
    for (unsigned long refuse = 1; refuse <= 12; refuse++) test_random(refuse, 500);
    return told();
}
