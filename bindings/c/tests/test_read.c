/* Tests what calls with a const handle write: nothing, neither to the handle nor to its collection. They run with both
 * in memory that cannot be written, in several threads at once, and in a forked child of a process with threads. */
#define _GNU_SOURCE /* for MAP_ANONYMOUS */
#include "indexset.h"
#include <pthread.h>
#include <stdbool.h>
#include <stdio.h>
#include <stdlib.h>
#include <string.h>
#include <sys/mman.h>
#include <sys/wait.h>
#include <unistd.h>

enum { BLOCKS = 1 << 26, COUNT = 5000, READERS = 4 };

/* The library's memory: blocks of one mapping, one after another, which are never given back. */
static struct memory {
    size_t used;
    _Alignas(16) char blocks[];
} * memory;

void *__wrap_malloc(size_t size) {
    if (size > BLOCKS - memory->used - 64) return NULL;
    size_t *at = (size_t *)(void *)(memory->blocks + memory->used);
    memory->used += 16 + (size + 15) / 16 * 16;
    at[1] = size;
    return at + 2;
}
void *__wrap_realloc(void *old, size_t size) {
    void *at = __wrap_malloc(size);
    size_t kept = ((size_t *)old)[-1];
    return at == NULL ? NULL : memcpy(at, old, kept < size ? kept : size);
}
void __wrap_free(void *at) { (void)at; }

/* The handles, in a page of their own. */
static struct handles {
    indexset_set set;
    indexset_map map;
    indexset_multi multi;
    indexset_log log;
    indexset_replica replica;
    indexset_text_map text;
    indexset_text_log text_log;
} * handles;

static size_t text_of(uint64_t key, char *text) { return (size_t)sprintf(text, "%06u", (unsigned)key); }

static bool fill(void) {
    uint64_t before;
    size_t length, count;
    indexset_event events[INDEXSET_CHANGES];
    char text[32];
    uint32_t made = indexset_set_new(&handles->set) & indexset_map_new(&handles->map)
                    & indexset_multi_new(&handles->multi) & indexset_log_new(&handles->log, 64, 0)
                    & indexset_text_map_new(&handles->text) & indexset_text_log_new(&handles->text_log, 64, 0);
    for (uint64_t i = 0; i < COUNT; i++) {
        const uint64_t key = i * 7919 % COUNT;
        length = text_of(key, text);
        made &= indexset_set_insert(&handles->set, key) & indexset_map_insert(&handles->map, key, i, &before)
                & indexset_multi_insert(&handles->multi, key, i)
                & indexset_log_insert(&handles->log, key, i, &before, events, INDEXSET_CHANGES, &count)
                & indexset_text_map_insert(&handles->text, text, length, i, &before)
                & indexset_text_log_insert(&handles->text_log, text, length, i, &before, &count);
    }
    return (made & indexset_replica_from_log(&handles->replica, &handles->log)) == INDEXSET_YES;
}

/* Makes each call that takes a const handle, with a key. Returns how many answers are wrong. */
static unsigned read_numbers(uint64_t key) {
    const struct handles *of = handles;
    uint64_t keys[8], values[8], value, other;
    size_t places[8];
    indexset_cursor cursor = INDEXSET_CURSOR;
    unsigned wrong = 0;
    const uint64_t sought[2] = {key, key + 1};
    const size_t positions[1] = {(size_t)key};
#define COMMON(kind, handle)                                                                                           \
    wrong += indexset_##kind##_len(&of->handle) != COUNT || indexset_##kind##_rank(&of->handle, key) != key;           \
    indexset_##kind##_cursor_at(&of->handle, (size_t)key, &cursor);                                                    \
    indexset_##kind##_cursor_from(&of->handle, key, &cursor)
#define PAIRS(kind, handle)                                                                                            \
    COMMON(kind, handle);                                                                                              \
    wrong += indexset_##kind##_cursor_next(&of->handle, &cursor, keys, 8, values, 8) == 0 || keys[0] != key;           \
    wrong += indexset_##kind##_range_by_position(&of->handle, (size_t)key, keys, 8, values, 8) == 0 || keys[0] != key; \
    wrong += !indexset_##kind##_at(&of->handle, (size_t)key, &other, &value) || other != key
#define ENDS(kind, handle)                                                                                             \
    wrong += !indexset_##kind##_first(&of->handle, &other, &value) || other != 0;                                      \
    wrong += !indexset_##kind##_last(&of->handle, &other, &value) || other != COUNT - 1
    COMMON(set, set);
    wrong += indexset_set_cursor_next(&of->set, &cursor, keys, 8) == 0 || keys[0] != key;
    wrong += !indexset_set_contains(&of->set, key) || indexset_set_count_up_to(&of->set, key) != key + 1;
    wrong += !indexset_set_lower_bound(&of->set, key, &value) || value != key;
    wrong += indexset_set_upper_bound(&of->set, key, &value) && value != key + 1;
    wrong += !indexset_set_at(&of->set, (size_t)key, &value) || value != key;
    wrong += !indexset_set_first(&of->set, &value) || !indexset_set_last(&of->set, &value);
    wrong += indexset_set_range_by_key(&of->set, key, key + 3, keys, 8) == 0 || keys[0] != key;
    wrong += indexset_set_range_by_position(&of->set, (size_t)key, keys, 8) == 0 || keys[0] != key;
    wrong += indexset_set_ranks(&of->set, sought, 2, places, 8) != 2 || places[0] != key;
    wrong += indexset_set_at_all(&of->set, positions, 1, values, 8) != 1 || values[0] != key;
    PAIRS(map, map);
    ENDS(map, map);
    wrong += !indexset_map_contains(&of->map, key) || indexset_map_count_up_to(&of->map, key) != key + 1;
    wrong += !indexset_map_get(&of->map, key, &value);
    wrong += !indexset_map_lower_bound(&of->map, key, &other, &value) || other != key;
    wrong += indexset_map_upper_bound(&of->map, key, &other, &value) && other != key + 1;
    PAIRS(multi, multi);
    ENDS(multi, multi);
    wrong += indexset_multi_count(&of->multi, key) != 1 || indexset_multi_get(&of->multi, key, values, 8) != 1;
    PAIRS(log, log);
    wrong += !indexset_log_contains(&of->log, key) || !indexset_log_get(&of->log, key, &value);
    wrong += indexset_log_node_count(&of->log) == 0 || indexset_log_node_lengths(&of->log, places, 8) != 8;
    PAIRS(replica, replica);
    ENDS(replica, replica);
    wrong += !indexset_replica_contains(&of->replica, key) || !indexset_replica_get(&of->replica, key, &value);
    wrong += indexset_replica_next(&of->replica) != indexset_log_next(&of->log);
    wrong += indexset_replica_node_count(&of->replica) != indexset_log_node_count(&of->log);
    wrong += indexset_replica_node_lengths(&of->replica, places, 8) != 8;
    return wrong;
}

static unsigned read_texts(uint64_t key) {
    const struct handles *of = handles;
    char text[32], out[64];
    const size_t length = text_of(key, text);
    uint64_t value, values[8];
    size_t got, lengths[8];
    indexset_cursor cursor = INDEXSET_CURSOR;
    indexset_text_event event;
    unsigned wrong = 0;
#define TEXTS(kind, handle)                                                                                            \
    wrong += indexset_##kind##_len(&of->handle) != COUNT || indexset_##kind##_rank(&of->handle, text, length) != key;  \
    wrong += indexset_##kind##_count_up_to(&of->handle, text, length) != key + 1;                                      \
    wrong += !indexset_##kind##_contains(&of->handle, text, length);                                                   \
    wrong += !indexset_##kind##_get(&of->handle, text, length, &value);                                                \
    wrong += !indexset_##kind##_at(&of->handle, (size_t)key, out, 64, &got, &value) || got != length;                  \
    wrong += indexset_##kind##_range_by_position(&of->handle, (size_t)key, values, 8) == 0;                            \
    wrong += indexset_##kind##_keys_by_position(&of->handle, (size_t)key, out, 64, lengths, 8) == 0;                   \
    indexset_##kind##_cursor_at(&of->handle, (size_t)key, &cursor);                                                    \
    indexset_##kind##_cursor_from(&of->handle, text, length, &cursor);                                                 \
    wrong += indexset_##kind##_cursor_next(&of->handle, &cursor, out, 64, lengths, 8, values, 8) == 0
    TEXTS(text_map, text);
    wrong += !indexset_text_map_first(&of->text, out, 64, &got, &value);
    wrong += !indexset_text_map_last(&of->text, out, 64, &got, &value);
    wrong += !indexset_text_map_lower_bound(&of->text, text, length, out, 64, &got, &value) || got != length;
    wrong += indexset_text_map_upper_bound(&of->text, text, length, out, 64, &got, &value) && got != length;
    TEXTS(text_log, text_log);
    wrong += indexset_text_log_node_count(&of->text_log) == 0 || indexset_text_log_next(&of->text_log) < COUNT;
    wrong += !indexset_text_log_change(&of->text_log, 0, &event, out, 64, text, 32);
    return wrong;
}

static unsigned read_all(void) {
    unsigned wrong = 0;
    for (uint64_t key = 0; key < COUNT; key += 7) wrong += read_numbers(key) + read_texts(key);
    return wrong;
}

static void *reader(void *wrong) {
    *(unsigned *)wrong = read_all();
    return NULL;
}

static unsigned read_by_threads(bool forks) {
    pthread_t threads[READERS];
    unsigned wrong[READERS], sum = 0;
    int status = 1;
    for (int i = 0; i < READERS; i++) sum += pthread_create(&threads[i], NULL, reader, &wrong[i]) != 0;
    if (forks) {
        const pid_t child = fork();
        if (child == 0) _exit(read_all() == 0 ? 0 : 1);
        sum += child < 0 || waitpid(child, &status, 0) != child || status != 0;
    }
    for (int i = 0; i < READERS; i++) sum += pthread_join(threads[i], NULL) != 0 || wrong[i] != 0;
    return sum;
}

/* Another thread than the maker's changes and frees the collections. */
static void *finish(void *wrong) {
    *(unsigned *)wrong = indexset_set_insert(&handles->set, COUNT) != INDEXSET_YES;
    indexset_set_free(&handles->set);
    indexset_map_free(&handles->map);
    indexset_multi_free(&handles->multi);
    indexset_log_free(&handles->log);
    indexset_replica_free(&handles->replica);
    indexset_text_map_free(&handles->text);
    indexset_text_log_free(&handles->text_log);
    return NULL;
}

int main(void) {
    const int both = PROT_READ | PROT_WRITE;
    memory = mmap(NULL, BLOCKS, both, MAP_PRIVATE | MAP_ANONYMOUS, -1, 0);
    handles = mmap(NULL, 4096, both, MAP_PRIVATE | MAP_ANONYMOUS, -1, 0);
    if (memory == MAP_FAILED || handles == MAP_FAILED || !fill()) return 1;
    if (mprotect(memory, BLOCKS, PROT_READ) != 0 || mprotect(handles, 4096, PROT_READ) != 0) return 1;
    unsigned wrong = read_all() + read_by_threads(false) + read_by_threads(true);
    if (mprotect(memory, BLOCKS, both) != 0 || mprotect(handles, 4096, both) != 0) return 1;
    pthread_t other;
    unsigned last = 1;
    wrong += pthread_create(&other, NULL, finish, &last) != 0 || pthread_join(other, NULL) != 0 || last != 0;
    printf("%s\n", wrong == 0 ? "reads write nothing" : "a read went wrong");
    return wrong == 0 ? 0 : 1;
}
