/* Shared by the tests: allocations that fail, counted checks, and random numbers. */
#ifndef CHECKS_H
#define CHECKS_H

#include "indexset.h"
#include <stdio.h>
#include <stdlib.h>
#include <string.h>

/* ---- allocations: every nth fails if n is not 0, and all from one on if that is not 0 */
void *__real_malloc(size_t size);
void *__real_realloc(void *at, size_t size);
static unsigned long nth, onward, requests;

static bool refused(void) {
    if (nth != 0 || onward != 0) requests++;
    return (nth != 0 && requests % nth == 0) || (onward != 0 && requests >= onward);
}
void *__wrap_malloc(size_t size) { return refused() ? NULL : __real_malloc(size); }
void *__wrap_realloc(void *at, size_t size) { return refused() ? NULL : __real_realloc(at, size); }

/* ---- checks */
static unsigned passed, failed;

static void check(bool holds, const char *text, const char *file, int line) {
    if (holds) {
        passed++;
    } else if (++failed < 20) {
        printf("%s:%d: not so: %s\n", file, line, text);
    }
}
#define CHECK(condition) check((condition), #condition, __FILE__, __LINE__)

/* Prints the number of passed checks, and returns the exit status of the program. */
static int told(void) {
    printf("%u passed, %u failed\n", passed, failed);
    return failed == 0 ? 0 : 1;
}

/* ---- random numbers */
static uint64_t state = 0x9e3779b97f4a7c15u;

static uint64_t draw(void) {
    state ^= state >> 12;
    state ^= state << 25;
    state ^= state >> 27;
    return state * 0x2545f4914f6cdd1du;
}

#endif
