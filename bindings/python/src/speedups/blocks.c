/* Objects in blocks: their places, insertion and removal. Nothing here compares. Memory is allocated before anything
 * changes. */
#include "speedups.h"

/* The maximum number of objects of a block, and the number of objects below which two blocks are merged. */
#define MOST 512
#define FEW 96

/* The number of objects that are fetched before they are released. */
#define AHEAD 48

/* ---- positions: a Fenwick tree over the lengths of the blocks, rebuilt once their number has changed */

static void index_blocks(Blocks *self) {
    if (self->count == 0) return;
    memset(self->tree, 0, (self->count + 1) * sizeof *self->tree);
    for (size_t i = 1; i <= self->count; i++) {
        size_t above = i + (i & (~i + 1));
        self->tree[i] += self->blocks[i - 1].count;
        if (above <= self->count) self->tree[above] += self->tree[i];
    }
    self->is_indexed = 1;
}

static void count_in(Blocks *self, size_t block, size_t more) {
    self->length += more;
    for (size_t i = block + 1; self->is_indexed && i <= self->count; i += i & (~i + 1)) self->tree[i] += more;
}

size_t blocks_before(Blocks *self, size_t block) {
    size_t sum = 0;
    if (self->is_even) return block * FILLED;
    if (!self->is_indexed) index_blocks(self);
    for (size_t i = block; i > 0; i &= i - 1) sum += self->tree[i];
    return sum;
}

Place blocks_place(Blocks *self, size_t position) {
    size_t block = 0, step = 1;
    if (self->is_even) return (Place){position / FILLED, position % FILLED};
    if (!self->is_indexed) index_blocks(self);
    while (2 * step <= self->count) step *= 2;
    for (; step > 0; step /= 2)
        if (block + step <= self->count && self->tree[block + step] <= position) position -= self->tree[block += step];
    return (Place){block, position};
}

/* ---- changes */

int blocks_is_due(const Blocks *self) { return self->by <= FLOAT64 && self->moved * DUE > self->length; }

/* Forgets what only unchanged blocks have. */
static void loosen(Blocks *self) {
    PyMem_Free(self->codes);
    self->codes = NULL;
    self->is_even = 0;
}

/* ---- room */

/* Makes room for a number of blocks; 0 with an error set. */
static int has_blocks(Blocks *self, size_t count) {
    if (count <= self->room) return 1;
    size_t room = count + count / 4 + 4;
    Block *blocks = PyMem_Realloc(self->blocks, room * sizeof *blocks);
    if (blocks != NULL) self->blocks = blocks;
    size_t *tree = blocks ? PyMem_Realloc(self->tree, (room + 1) * sizeof *tree) : NULL;
    if (tree == NULL) {
        PyErr_NoMemory();
        return 0;
    }
    self->tree = tree;
    self->room = room;
    self->is_indexed = 0;
    return 1;
}

/* Makes room for a number of objects in a block; 0 with an error set. */
static int has_room(Block *block, size_t room, int has_keys) {
    if (room <= block->room) return 1;
    PyObject **items = PyMem_Realloc(block->items, room * sizeof *items), **keys = NULL;
    if (items != NULL && !has_keys) block->keys = items;
    if (items != NULL) block->items = items;
    if (items != NULL && has_keys && (keys = PyMem_Realloc(block->keys, room * sizeof *keys)) != NULL)
        block->keys = keys;
    if (items == NULL || (has_keys && keys == NULL)) {
        PyErr_NoMemory();
        return 0;
    }
    block->room = room;
    return 1;
}

static void free_block(Block *block) {
    if (block->keys != block->items) PyMem_Free(block->keys);
    PyMem_Free(block->items);
}

/* ---- one object */

static void put(PyObject **items, size_t count, size_t at, PyObject *item) {
    memmove(items + at + 1, items + at, (count - at) * sizeof *items);
    Py_INCREF(item);
    items[at] = item;
}

static void copy(Block *to, const Block *from, size_t first, size_t count) {
    memcpy(to->items, from->items + first, count * sizeof *to->items);
    if (to->keys != to->items) memcpy(to->keys, from->keys + first, count * sizeof *to->keys);
    to->count = count;
    to->last = to->keys[count - 1];
}

/* Moves the second half of a full block into a new one after it; 0 with an error set. */
static int split(Blocks *self, size_t at) {
    Block made = {0};
    if (!has_blocks(self, self->count + 1) || !has_room(&made, MOST / 2 + MOST / 8, self->key != NULL)) {
        free_block(&made);
        return 0;
    }
    Block *block = self->blocks + at;
    copy(&made, block, MOST / 2, block->count - MOST / 2);
    block->count = MOST / 2;
    block->last = block->keys[block->count - 1];
    memmove(block + 2, block + 1, (self->count - at - 1) * sizeof *block);
    block[1] = made;
    self->count++;
    self->is_indexed = 0;
    return 1;
}

int blocks_insert(Blocks *self, Place at, PyObject *item, PyObject *key) {
    loosen(self);
    if (self->count == 0) {
        Block made = {0};
        if (!has_blocks(self, 1) || !has_room(&made, 8, self->key != NULL)) {
            free_block(&made);
            return -1;
        }
        self->blocks[self->count++] = made;
        self->is_indexed = 0;
    }
    if (self->blocks[at.block].count == MOST) {
        if (!split(self, at.block)) return -1;
        if (at.index > MOST / 2) at = (Place){at.block + 1, at.index - MOST / 2};
    }
    Block *block = self->blocks + at.block;
    size_t room = block->count + block->count / 8 + 8;
    if (block->count == block->room && !has_room(block, room < MOST ? room : MOST, self->key != NULL)) return -1;
    put(block->items, block->count, at.index, item);
    if (block->keys != block->items) put(block->keys, block->count, at.index, key);
    block->last = block->keys[block->count++];
    count_in(self, at.block, 1);
    self->changes++;
    self->moved++;
    return 1;
}

/* Removes a block that has no objects. */
static void drop_block(Blocks *self, size_t at) {
    Block *block = self->blocks + at;
    free_block(block);
    memmove(block, block + 1, (self->count - at - 1) * sizeof *block);
    self->count--;
    self->is_indexed = 0;
}

/* Merges a block and the next one, if both have few objects. It may be left undone. */
static void merge(Blocks *self, size_t at) {
    if (at + 1 >= self->count || self->blocks[at].count + self->blocks[at + 1].count > MOST / 2) return;
    Block *block = self->blocks + at, *other = block + 1;
    if (!has_room(block, block->count + other->count, self->key != NULL)) {
        PyErr_Clear();
        return;
    }
    memcpy(block->items + block->count, other->items, other->count * sizeof *block->items);
    if (block->keys != block->items)
        memcpy(block->keys + block->count, other->keys, other->count * sizeof *block->keys);
    block->count += other->count;
    block->last = other->last;
    drop_block(self, at + 1);
}

PyObject *blocks_remove(Blocks *self, Place at, PyObject **key) {
    Block *block = self->blocks + at.block;
    PyObject *item = block->items[at.index];
    loosen(self);
    size_t after = --block->count - at.index;
    *key = block->keys != block->items ? block->keys[at.index] : NULL;
    memmove(block->items + at.index, block->items + at.index + 1, after * sizeof *block->items);
    if (*key != NULL) memmove(block->keys + at.index, block->keys + at.index + 1, after * sizeof *block->keys);
    count_in(self, at.block, (size_t)-1);
    self->changes++;
    self->moved++;
    if (block->count == 0)
        drop_block(self, at.block);
    else
        block->last = block->keys[block->count - 1];
    if (at.block < self->count && self->blocks[at.block].count < FEW) merge(self, at.block > 0 ? at.block - 1 : 0);
    return item;
}

/* ---- many objects */

/* Makes a block of consecutive objects; 0 with an error set. */
static int block_of(Block *block, PyObject **items, PyObject **keys, size_t count) {
    Block from = {.items = items, .keys = keys ? keys : items};
    if (!has_room(block, count, keys != NULL)) {
        free_block(block);
        return 0;
    }
    copy(block, &from, 0, count);
    return 1;
}

/* Drops all blocks, and leaves them as they are. */
static void forget(Blocks *self) {
    self->blocks = NULL;
    self->tree = NULL;
    self->codes = NULL;
    self->count = self->room = self->length = self->moved = 0;
    self->is_indexed = self->is_even = 0;
}

static void free_blocks(Blocks *self) {
    PyMem_Free(self->blocks);
    PyMem_Free(self->tree);
    PyMem_Free(self->codes);
}

/* Fetches the first objects of a block. */
static void fetch_first(const Block *block) {
    for (size_t i = 0; i < AHEAD && i < block->count; i++) __builtin_prefetch(block->items[i], 1);
}

/* Releases objects, each fetched some objects before. */
static void release(PyObject **items, size_t count) {
    for (size_t i = 0; i < count; i++) {
        if (i + AHEAD < count) __builtin_prefetch(items[i + AHEAD], 1);
        Py_DECREF(items[i]);
    }
}

void blocks_drop(Blocks *self) {
    Blocks before = *self;
    forget(self);
    self->changes++;
    for (size_t b = 0; b < before.count; b++) {
        Block *block = before.blocks + b;
        if (b + 1 < before.count) fetch_first(block + 1);
        release(block->items, block->count);
        if (block->keys != block->items) release(block->keys, block->count);
        free_block(block);
    }
    free_blocks(&before);
}

/* Makes room for the codes of a number of keys, if these are numbers; 0 with an error set. */
static int has_codes(Blocks *self, size_t count) {
    self->codes = self->by <= FLOAT64 ? PyMem_Malloc((count / GROUP + 1) * sizeof *self->codes) : NULL;
    if (self->codes == NULL && self->by <= FLOAT64) PyErr_NoMemory();
    return self->codes != NULL || self->by > FLOAT64;
}

/* Takes over consecutive objects, with their references. It is empty before: 0 with an error set, and then it stays
 * empty. */
static int lay(Blocks *self, PyObject **items, PyObject **keys, size_t count) {
    int is_done = has_blocks(self, (count + FILLED - 1) / FILLED) && has_codes(self, count);
    for (size_t at = 0; is_done && at < count; at += FILLED) {
        size_t left = count - at, size = left < FILLED ? left : FILLED;
        /* Room for a block has been made. NOLINTNEXTLINE(clang-analyzer-core.NullDereference) */
        self->blocks[self->count] = (Block){0};
        is_done = block_of(self->blocks + self->count, items + at, keys ? keys + at : NULL, size);
        self->count += (size_t)is_done;
    }
    if (is_done && self->codes != NULL) codes_of_groups(self->by, keys ? keys : items, count, self->codes);
    for (size_t b = 0; !is_done && b < self->count; b++) free_block(self->blocks + b);
    if (!is_done) {
        free_blocks(self);
        forget(self);
    }
    self->length = is_done ? count : 0;
    self->is_even = is_done;
    return is_done;
}

/* Swaps two blocks. */
static void swap(Blocks *self, Blocks *other) {
    Blocks before = *self;
    size_t from = offsetof(Blocks, blocks), size = sizeof *self - from;
    memcpy((char *)self + from, (char *)other + from, size);
    memcpy((char *)other + from, (char *)&before + from, size);
    self->changes++;
}

int blocks_fill(Blocks *self, PyObject *items, PyObject *keys) {
    Blocks made = {.key = self->key, .by = self->by};
    if (!lay(&made, PySequence_Fast_ITEMS(items), keys ? PySequence_Fast_ITEMS(keys) : NULL,
             (size_t)PyList_GET_SIZE(items)))
        return -1;
    /* The references are those of the lists, which release none. */
    Py_SET_SIZE(items, 0);
    if (keys != NULL) Py_SET_SIZE(keys, 0);
    swap(self, &made);
    blocks_drop(&made);
    return 1;
}

int blocks_copy(Blocks *self, Blocks *from) {
    PyObject *items = blocks_list(from, 0, from->length, 0),
             *keys = items && from->key ? blocks_list(from, 0, from->length, 1) : NULL;
    int state = items && (keys || !from->key) ? blocks_fill(self, items, keys) : -1;
    Py_XDECREF(items);
    Py_XDECREF(keys);
    return state;
}

/* Moves the objects of a block in a range of indices to other places, and their keys if they have some. */
static void cut_block(Block *block, size_t first, size_t past, PyObject **items, PyObject **keys) {
    memcpy(items, block->items + first, (past - first) * sizeof *items);
    if (block->keys != block->items && keys != NULL) memcpy(keys, block->keys + first, (past - first) * sizeof *keys);
    memmove(block->items + first, block->items + past, (block->count - past) * sizeof *block->items);
    if (block->keys != block->items)
        memmove(block->keys + first, block->keys + past, (block->count - past) * sizeof *block->keys);
    block->count -= past - first;
    if (block->count > 0) block->last = block->keys[block->count - 1];
}

void blocks_cut(Blocks *self, size_t first, size_t past, PyObject **items, PyObject **keys) {
    Place from = blocks_place(self, first);
    size_t left = past - first, kept = from.block, at = from.block, done = 0;
    loosen(self);
    self->changes++;
    self->is_indexed = 0;
    self->length -= left;
    for (size_t index = from.index; left > 0; index = 0, at++) {
        Block *block = self->blocks + at;
        size_t size = block->count - index < left ? block->count - index : left;
        cut_block(block, index, index + size, items + done, keys ? keys + done : NULL);
        left -= size;
        done += size;
        if (block->count == 0)
            free_block(block);
        else
            self->blocks[kept++] = *block;
    }
    memmove(self->blocks + kept, self->blocks + at, (self->count - at) * sizeof *self->blocks);
    self->count -= at - kept;
}

size_t blocks_read(Blocks *self, size_t from, int of_keys, PyObject **read, size_t size) {
    size_t count = 0, left = from < self->length ? self->length - from : 0;
    size = size < left ? size : left;
    if (size == 0) return 0;
    Place at = blocks_place(self, from);
    for (; count < size; at = (Place){at.block + 1, 0}) {
        const Block *block = self->blocks + at.block;
        size_t part = block->count - at.index < size - count ? block->count - at.index : size - count;
        memcpy(read + count, (of_keys ? block->keys : block->items) + at.index, part * sizeof *read);
        count += part;
    }
    return count;
}

PyObject *blocks_list(Blocks *self, size_t first, size_t past, int of_keys) {
    PyObject *made = PyList_New((Py_ssize_t)(past - first));
    size_t count = made ? blocks_read(self, first, of_keys, PySequence_Fast_ITEMS(made), past - first) : 0;
    for (size_t i = 0; i < count; i++) Py_INCREF(PyList_GET_ITEM(made, i));
    if (made != NULL && count < past - first) { /* the list was made, and a `__del__` ran */
        Py_CLEAR(made);
        PyErr_SetString(PyExc_RuntimeError, "it changed meanwhile");
    }
    return made;
}
