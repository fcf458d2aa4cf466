/* Tests each call of a replica, by examples and against the logged map that it follows: with changes lost, repeated and
 * out of order, also with every Nth allocation failing. */
#include "checks.h"

enum { KEYS = 512, ROOM = 4096, CHANGES = 40000 };

/* The greatest key occurs too. */
static uint64_t key_of(size_t at) { return at == KEYS - 1 ? UINT64_MAX : at * 3; }

/* ---- a handle that owns none */
static void test_none(void) {
    indexset_replica replica = INDEXSET_HANDLE;
    indexset_log log = INDEXSET_HANDLE;
    indexset_event event = {0, 1, 2, 0, 0, 0, INDEXSET_CREATE};
    uint64_t key = 7, value = 8;
    size_t taken = 9, length = 5;
    CHECK(indexset_replica_len(&replica) == 0 && indexset_replica_node_count(&replica) == 0
          && indexset_replica_next(&replica) == 0);
    CHECK(!indexset_replica_get(&replica, 1, &value) && !indexset_replica_contains(&replica, 1));
    CHECK(!indexset_replica_first(&replica, &key, &value) && !indexset_replica_last(&replica, &key, &value));
    CHECK(indexset_replica_range(&replica, 0, UINT64_MAX, &key, 1, &value, 1) == 0 && key == 7 && value == 8);
    CHECK(indexset_replica_node_lengths(&replica, &length, 1) == 0 && length == 5);
    CHECK(indexset_replica_apply(&replica, &event) == INDEXSET_NONE && !replica.live);
    CHECK(indexset_replica_apply_all(&replica, &event, 1, &taken) == INDEXSET_NONE && taken == 0);
    CHECK(indexset_replica_from_log(&replica, &log) == INDEXSET_NONE && !replica.live);
    indexset_replica *heap = NULL;
    CHECK(indexset_replica_create(&heap, 50) == INDEXSET_YES && indexset_replica_next(heap) == 50);
    CHECK(indexset_replica_from_log(heap, &log) == INDEXSET_NONE);
    indexset_replica_destroy(&heap);
    indexset_replica_destroy(&heap); /* of a null pointer: does nothing */
    CHECK(heap == NULL);
    indexset_replica_free(&replica);
    CHECK(!replica.live);
}

/* ---- changes written out: each status, and that nothing changes unless it is INDEXSET_YES */
static void refuses(indexset_replica *replica, indexset_event event, uint32_t status) {
    uint64_t next = indexset_replica_next(replica);
    size_t taken = 9, length = indexset_replica_len(replica), nodes = indexset_replica_node_count(replica);
    CHECK(indexset_replica_apply(replica, &event) == status);
    uint32_t of_all = status == INDEXSET_NO ? INDEXSET_YES : status;
    CHECK(indexset_replica_apply_all(replica, &event, 1, &taken) == of_all && taken == (status == INDEXSET_NO));
    CHECK(indexset_replica_next(replica) == next && indexset_replica_len(replica) == length);
    CHECK(indexset_replica_node_count(replica) == nodes);
}

static void test_worked(void) {
    indexset_replica replica = INDEXSET_HANDLE, other = INDEXSET_HANDLE;
    /* nodes {10, 20} and {30} */
    indexset_event events[] = {
        {100, 10, 1, 0, 0, 0, INDEXSET_CREATE}, {101, 10, 1, 20, 2, 1, INDEXSET_INSERT},
        {100, 10, 1, 0, 0, 0, INDEXSET_CREATE}, {102, 20, 2, 30, 3, 2, INDEXSET_INSERT},
        {103, 30, 3, 0, 0, 2, INDEXSET_SPLIT},  {105, 30, 3, 0, 0, 0, INDEXSET_DROP},
    };
    uint64_t key = 0, value = 0, keys[4], values[4];
    size_t taken = 9, lengths[3] = {7, 7, 7};
    CHECK(indexset_replica_new(&replica, 100) == INDEXSET_YES);
    CHECK(indexset_replica_new(&replica, 0) == INDEXSET_HELD && indexset_replica_next(&replica) == 100);
    CHECK(!indexset_replica_first(&replica, &key, &value) && !indexset_replica_last(&replica, &key, &value));
    CHECK(indexset_replica_apply_all(&replica, events, 6, &taken) == INDEXSET_GAP && taken == 5);
    CHECK(indexset_replica_next(&replica) == 104 && indexset_replica_len(&replica) == 3);
    CHECK(indexset_replica_node_count(&replica) == 2 && indexset_replica_node_lengths(&replica, lengths, 3) == 2);
    CHECK(lengths[0] == 2 && lengths[1] == 1 && lengths[2] == 7);
    CHECK(indexset_replica_first(&replica, &key, &value) && key == 10 && value == 1);
    CHECK(indexset_replica_last(&replica, &key, &value) && key == 30 && value == 3);
    CHECK(indexset_replica_get(&replica, 20, &value) && value == 2 && !indexset_replica_get(&replica, 21, &value)
          && value == 2);
    CHECK(indexset_replica_contains(&replica, 30) && !indexset_replica_contains(&replica, 0));
    CHECK(indexset_replica_new(&other, 7) == INDEXSET_YES);
    indexset_replica_swap(&replica, &other);
    CHECK(indexset_replica_next(&replica) == 7 && indexset_replica_next(&other) == 104);
    indexset_replica_move(&replica, &other);
    CHECK(!other.live && indexset_replica_next(&replica) == 104 && indexset_replica_len(&replica) == 3);
    CHECK(indexset_replica_range(&replica, 11, 30, keys, 4, values, 4) == 2 && keys[0] == 20 && keys[1] == 30
          && values[1] == 3);
    CHECK(indexset_replica_range(&replica, 10, 30, keys, 4, values, 1) == 1
          && indexset_replica_range(&replica, 30, 10, keys, 4, values, 4) == 0);
    refuses(&replica, (indexset_event){104, 30, 3, 0, 0, 0, 0}, INDEXSET_UNFIT);
    refuses(&replica, (indexset_event){0, 30, 3, 0, 0, 0, 7}, INDEXSET_UNFIT);
    refuses(&replica, (indexset_event){103, 99, 0, 0, 0, 0, INDEXSET_DROP}, INDEXSET_NO);
    refuses(&replica, (indexset_event){105, 30, 3, 0, 0, 0, INDEXSET_DROP}, INDEXSET_GAP);
    refuses(&replica, (indexset_event){104, 10, 1, 0, 0, 0, INDEXSET_DROP}, INDEXSET_NO_SUCH_NODE);
    refuses(&replica, (indexset_event){104, 20, 2, 15, 5, 3, INDEXSET_INSERT}, INDEXSET_INDEX_OUTSIDE);
    refuses(&replica, (indexset_event){104, 20, 2, 20, 2, 2, INDEXSET_REMOVE}, INDEXSET_INDEX_OUTSIDE);
    refuses(&replica, (indexset_event){104, 20, 2, 11, 1, 0, INDEXSET_REMOVE}, INDEXSET_VALUE_DIFFERS);
    refuses(&replica, (indexset_event){104, 30, 3, 30, 3, 0, INDEXSET_REMOVE}, INDEXSET_WOULD_BE_EMPTY);
    refuses(&replica, (indexset_event){104, 20, 2, 25, 5, 0, INDEXSET_INSERT}, INDEXSET_OUT_OF_ORDER);
    refuses(&replica, (indexset_event){104, 20, 2, 0, 0, 0, INDEXSET_CREATE}, INDEXSET_OUT_OF_ORDER);
    refuses(&replica, (indexset_event){104, 20, 2, 0, 0, 2, INDEXSET_SPLIT}, INDEXSET_BAD_SPLIT);
    refuses(&replica, (indexset_event){104, 30, 3, 20, 2, 0, INDEXSET_MERGE}, INDEXSET_NOT_NEIGHBOURS);
    CHECK(indexset_replica_apply(&replica, &(indexset_event){104, 20, 2, 30, 3, 0, INDEXSET_MERGE}) == INDEXSET_YES);
    CHECK(indexset_replica_apply(&replica, &(indexset_event){105, 30, 3, 20, 2, 1, INDEXSET_REMOVE}) == INDEXSET_YES);
    CHECK(indexset_replica_node_lengths(&replica, lengths, 3) == 1 && lengths[0] == 2
          && !indexset_replica_contains(&replica, 20));
    indexset_replica_free(&replica);
    CHECK(!replica.live && indexset_replica_new(&replica, UINT64_MAX) == INDEXSET_YES);
    refuses(&replica, (indexset_event){UINT64_MAX, 1, 1, 0, 0, 0, INDEXSET_CREATE}, INDEXSET_NUMBERS);
    CHECK(indexset_replica_apply_all(&replica, events, 0, &taken) == INDEXSET_YES && taken == 0);
    indexset_replica_free(&replica);
}

/* ---- a sum of all that a replica holds, pairs and nodes */
static uint64_t sum_of(const indexset_replica *replica) {
    static uint64_t keys[ROOM], values[ROOM];
    static size_t lengths[ROOM];
    size_t nodes = indexset_replica_node_lengths(replica, lengths, ROOM), first = 0;
    size_t pairs = indexset_replica_range(replica, 0, UINT64_MAX, keys, ROOM, values, ROOM);
    uint64_t sum = nodes;
    CHECK(nodes == indexset_replica_node_count(replica) && pairs == indexset_replica_len(replica));
    for (size_t node = 0; node < nodes; first += lengths[node++]) sum = (sum ^ lengths[node]) * 0x100000001b3u;
    for (size_t i = 0; i < pairs; i++) sum = (sum ^ keys[i] ^ values[i] << 1) * 0x100000001b3u;
    CHECK(first == pairs);
    return sum;
}

static void same_as_log(const indexset_replica *replica, const indexset_log *log) {
    static uint64_t keys[2][ROOM], values[2][ROOM];
    static size_t lengths[2][ROOM];
    size_t pairs = indexset_log_range(log, 0, UINT64_MAX, keys[0], ROOM, values[0], ROOM);
    size_t nodes = indexset_log_node_lengths(log, lengths[0], ROOM);
    CHECK(indexset_replica_next(replica) == indexset_log_next(log));
    CHECK(indexset_replica_range(replica, 0, UINT64_MAX, keys[1], ROOM, values[1], ROOM) == pairs);
    CHECK(indexset_replica_node_lengths(replica, lengths[1], ROOM) == nodes);
    CHECK(memcmp(keys[0], keys[1], pairs * sizeof **keys) == 0
          && memcmp(values[0], values[1], pairs * sizeof **values) == 0);
    CHECK(memcmp(lengths[0], lengths[1], nodes * sizeof **lengths) == 0);
    for (size_t at = 0; at < KEYS; at += 7) {
        uint64_t key = key_of(at), wanted = 77, out = 77;
        CHECK(indexset_replica_get(replica, key, &out) == indexset_log_get(log, key, &wanted) && out == wanted);
        CHECK(indexset_replica_contains(replica, key) == indexset_log_contains(log, key));
    }
    uint64_t key = 77, value = 77;
    CHECK(indexset_replica_first(replica, &key, &value) == (pairs != 0)
          && (pairs == 0 || (key == keys[0][0] && value == values[0][0])));
    CHECK(indexset_replica_last(replica, &key, &value) == (pairs != 0)
          && (pairs == 0 || (key == keys[0][pairs - 1] && value == values[0][pairs - 1])));
}

/* ---- the changes of many calls, and the sum after each number of them */
static indexset_event changes[CHANGES];
static uint64_t sums[CHANGES + 1];
static size_t made;

static void step_log(indexset_log *log, indexset_replica *exact, bool grows) {
    uint64_t key = key_of((size_t)(draw() % KEYS)), out;
    size_t told = 0;
    indexset_event *to = changes + made;
    uint32_t status = draw() % 8 < (grows ? 6 : 2)
                          ? indexset_log_insert(log, key, draw(), &out, to, INDEXSET_CHANGES, &told)
                          : indexset_log_remove(log, key, &out, to, INDEXSET_CHANGES, &told);
    CHECK(status <= INDEXSET_YES);
    for (size_t i = 0; i < told; i++) {
        CHECK(indexset_replica_apply(exact, to + i) == INDEXSET_YES);
        sums[++made] = sum_of(exact);
    }
}

/* Delivers some changes around the next one, and checks which were applied. */
static void step_replica(indexset_replica *replica, uint64_t start) {
    indexset_event sent[6];
    size_t at = (size_t)(indexset_replica_next(replica) - start), from = at < 3 ? 0 : at - 3, taken = 99, count = 0;
    for (size_t i = 0; i < 6; i++) {
        size_t place = draw() % 8 < 6 ? at + i : from + (size_t)(draw() % 8);
        if (place < made) sent[count++] = changes[place];
    }
    uint64_t wanted = start + at;
    size_t stop = 0;
    for (; stop < count && sent[stop].number <= wanted; stop++) wanted += sent[stop].number == wanted;
    uint32_t status = indexset_replica_apply_all(replica, sent, count, &taken);
    if (status == INDEXSET_MEMORY) {
        CHECK(nth != 0 && taken < stop && sent[taken].number == indexset_replica_next(replica));
    } else {
        CHECK(status == (stop == count ? INDEXSET_YES : INDEXSET_GAP) && taken == stop);
        CHECK(indexset_replica_next(replica) == wanted);
    }
    if (count != 0) {
        uint64_t next = indexset_replica_next(replica), number = sent[0].number;
        status = indexset_replica_apply(replica, sent);
        CHECK(status
                  == (number < next   ? INDEXSET_NO
                      : number > next ? INDEXSET_GAP
                                      : INDEXSET_YES)
              || (nth != 0 && number == next && status == INDEXSET_MEMORY));
    }
    CHECK(sum_of(replica) == sums[indexset_replica_next(replica) - start]);
}

static void test_random(unsigned long refuse, unsigned steps) {
    indexset_log log = INDEXSET_HANDLE;
    indexset_replica exact = INDEXSET_HANDLE, replica = INDEXSET_HANDLE, late = INDEXSET_HANDLE;
    uint64_t start = 1000;
    made = 0;
    CHECK(indexset_log_new(&log, 4, start) == INDEXSET_YES && indexset_replica_new(&exact, start) == INDEXSET_YES);
    CHECK(indexset_replica_new(&replica, start) == INDEXSET_YES);
    sums[0] = sum_of(&exact);
    for (unsigned i = 0; i < steps; i++) {
        step_log(&log, &exact, i < steps * 2 / 3);
        nth = refuse;
        step_replica(&replica, start);
        if (i % 64 == 0) {
            uint32_t status = indexset_replica_from_log(&late, &log);
            CHECK(status == INDEXSET_YES ? late.live : nth != 0 && status == INDEXSET_MEMORY && !late.live);
            nth = 0;
            if (status == INDEXSET_YES) same_as_log(&late, &log);
            CHECK(indexset_replica_from_log(&exact, &log) == INDEXSET_HELD);
            indexset_replica_free(&late);
        }
        nth = 0;
    }
    size_t at = (size_t)(indexset_replica_next(&replica) - start), taken = 99;
    CHECK(indexset_replica_apply_all(&replica, changes + at, made - at, &taken) == INDEXSET_YES && taken == made - at);
    same_as_log(&replica, &log);
    same_as_log(&exact, &log);
    indexset_replica_free(&replica);
    indexset_replica_free(&exact);
    indexset_log_free(&log);
}

int main(void) {
    test_none();
    test_worked();
    test_random(0, 3000);
    for (unsigned long refuse = 1; refuse <= 12; refuse++) test_random(refuse, 400);
    return told();
}
