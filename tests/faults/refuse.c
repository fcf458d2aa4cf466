/* Loaded before a program, it makes the Nth of the program's requests fail: an allocation as if there were no memory,
 * a read or a write with EIO. The environment selects it: REFUSE_MEMORY, REFUSE_READ or REFUSE_WRITE is N, from 1;
 * REFUSE_ON=1 makes all later ones fail too; SHORT_READ is the maximum number of bytes of one read. At the end it
 * writes one line to the descriptor REFUSE_REPORT: the number of allocations, reads and writes, the number of all that
 * failed, and the number of blocks that were not freed.
 *
 * REFUSE_EACH=1 makes each allocation fail in turn: it fails in a copy of the program, which runs to its end and writes
 * its line, and then one with its status. The program waits for it, and continues with the memory. It reads from a
 * file, of which each copy reads the rest by itself. */
#define _GNU_SOURCE
#include <dlfcn.h>
#include <errno.h>
#include <fcntl.h>
#include <stdio.h>
#include <stdlib.h>
#include <sys/wait.h>
#include <unistd.h>

struct requests {
    const char *name;
    long refused, made;
};

static struct requests memory = {"REFUSE_MEMORY", 0, 0};
static struct requests reads = {"REFUSE_READ", 0, 0};
static struct requests writes = {"REFUSE_WRITE", 0, 0};
static long each, on, short_read, report = -1, failed, blocks;

/* A program that the sanitizer checks has its calls under these names. */
extern void *__interceptor_malloc(size_t) __attribute__((weak));
extern void *__interceptor_realloc(void *, size_t) __attribute__((weak));
extern void __interceptor_free(void *) __attribute__((weak));

static void *(*next_malloc)(size_t);
static void *(*next_realloc)(void *, size_t);
static void (*next_free)(void *);
static ssize_t (*next_read)(int, void *, size_t);
static ssize_t (*next_write)(int, const void *, size_t);

static long number(const char *name) {
    const char *text = getenv(name);
    return text ? atol(text) : 0;
}

static void find(void) {
    next_malloc = __interceptor_malloc;
    if (!next_malloc) next_malloc = dlsym(RTLD_NEXT, "malloc");
    next_realloc = __interceptor_realloc;
    if (!next_realloc) next_realloc = dlsym(RTLD_NEXT, "realloc");
    next_free = __interceptor_free;
    if (!next_free) next_free = dlsym(RTLD_NEXT, "free");
}

__attribute__((constructor)) static void begin(void) {
    find();
    next_read = dlsym(RTLD_NEXT, "read");
    next_write = dlsym(RTLD_NEXT, "write");
    on = number("REFUSE_ON");
    short_read = number("SHORT_READ");
    memory.refused = number(memory.name);
    reads.refused = number(reads.name);
    writes.refused = number(writes.name);
    report = number("REFUSE_REPORT");
    each = number("REFUSE_EACH");
    memory.made = blocks = 0;
}

static void tell(const char *line, int length) {
    if (report > 0 && next_write((int)report, line, length) != length) {
        _exit(99);
    }
}

__attribute__((destructor)) static void end(void) {
    char line[128];
    tell(line,
         snprintf(line, sizeof line, "%ld %ld %ld %ld %ld\n", memory.made, reads.made, writes.made, failed, blocks));
}

/* Makes a copy read on from the position of the program, without moving it. */
static void read_alone(void) {
    int input = open("/proc/self/fd/0", O_RDONLY);
    if (input < 0 || lseek(input, lseek(0, 0, SEEK_CUR), SEEK_SET) < 0 || dup2(input, 0) < 0) {
        _exit(97);
    }
    close(input);
}

/* Returns whether this is the copy of the program in which the present request fails. The program has one thread, so no
 * handler of a fork is needed: the sanitizer's write four megabytes in each copy. */
static int is_copy(void) {
    pid_t copy = _Fork();
    if (copy == 0) {
        each = 0;
        read_alone();
        return 1;
    }
    int status;
    if (copy < 0 || waitpid(copy, &status, 0) != copy) {
        _exit(98);
    }
    char line[32];
    int ended = WIFEXITED(status) ? WEXITSTATUS(status) : -WTERMSIG(status);
    tell(line, snprintf(line, sizeof line, "%d\n", ended));
    return 0;
}

/* Counts a request, and returns whether it fails. */
static int fails(struct requests *all) {
    all->made++;
    int is_refused = all->refused && (all->made == all->refused || (on && all->made > all->refused));
    is_refused |= each && all == &memory && is_copy();
    failed += is_refused;
    return is_refused;
}

void *malloc(size_t size) {
    if (!next_malloc) {
        find();
    }
    if (fails(&memory)) {
        errno = ENOMEM;
        return NULL;
    }
    void *block = next_malloc(size);
    blocks += block != NULL;
    return block;
}

void *realloc(void *old, size_t size) {
    if (fails(&memory)) {
        errno = ENOMEM;
        return NULL;
    }
    void *block = next_realloc(old, size);
    blocks += old == NULL && block != NULL;
    return block;
}

void free(void *block) {
    blocks -= block != NULL;
    if (next_free) {
        next_free(block);
    }
}

ssize_t read(int descriptor, void *buffer, size_t length) {
    if (fails(&reads)) {
        errno = EIO;
        return -1;
    }
    if (short_read && length > (size_t)short_read) {
        length = short_read;
    }
    return next_read(descriptor, buffer, length);
}

ssize_t write(int descriptor, const void *buffer, size_t length) {
    if (descriptor == STDOUT_FILENO && fails(&writes)) {
        errno = EIO;
        return -1;
    }
    return next_write(descriptor, buffer, length);
}
