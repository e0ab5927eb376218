/* Memory for the tests: inputs and trays of exact length. A block stands between guard bytes, or with its end or its start at a page that
   may not be touched, or on the heap (NULL if it has no bytes). */
#ifndef LENT_H
#define LENT_H
#include <stddef.h>
#include <stdint.h>
#include <stdio.h>
#include <stdlib.h>
#include <string.h>
#include <sys/mman.h>

enum { MIDDLE, AT_END, AT_START, ON_HEAP, KINDS };
enum { GUARD = 64, PAGE = 4096 };

/* pages for one block at a time, between two that may not be touched */
struct room {
    uint8_t *start;
    size_t size;
};

/* a block; the bytes from low to high that are not the block's own are guard bytes */
struct lent {
    uint8_t *bytes, *low, *high;
    size_t length;
    int on_heap;
};

static struct room make_room(size_t most) {
    size_t size = (most + 2 * GUARD + PAGE - 1) / PAGE * PAGE;
    uint8_t *start = mmap(NULL, size + 2 * PAGE, PROT_NONE, MAP_PRIVATE | MAP_ANONYMOUS, -1, 0);
    if (start == MAP_FAILED || mprotect(start + PAGE, size, PROT_READ | PROT_WRITE) != 0) {
        perror("make_room");
        exit(2);
    }
    return (struct room){start + PAGE, size};
}

static uint8_t pattern(const struct lent *b, const uint8_t *at) {
    return (uint8_t)((uintptr_t)(at - b->bytes) * 167 + 13);
}

/* a block filled with the pattern, guard bytes too */
static struct lent lend(struct room room, size_t length, int kind) {
    struct lent b = {NULL, NULL, NULL, length, kind == ON_HEAP};
    uint8_t *end = room.start + room.size;
    if (length + 2 * GUARD > room.size) exit(3);
    if (kind == ON_HEAP) {
        b.bytes = length == 0 ? NULL : malloc(length);
        b.low = b.bytes;
        b.high = length == 0 ? NULL : b.bytes + length;
    } else {
        b.bytes = kind == AT_END ? end - length : kind == AT_START ? room.start : room.start + GUARD;
        b.low = kind == AT_START ? b.bytes : b.bytes - GUARD;
        b.high = kind == AT_END ? end : b.bytes + length + GUARD;
    }
    for (uint8_t *at = b.low; at != b.high; at++) *at = pattern(&b, at);
    return b;
}

static struct lent lend_copy(struct room room, const uint8_t *data, size_t length, int kind) {
    struct lent b = lend(room, length, kind);
    if (length != 0) memcpy(b.bytes, data, length);
    return b;
}

/* whether the block starts with these bytes and all others are as they were lent */
static int holds(const struct lent *b, const uint8_t *answer, size_t length) {
    if (length != 0 && memcmp(b->bytes, answer, length) != 0) return 0;
    for (const uint8_t *at = b->low; at != b->high; at++)
        if ((at < b->bytes || at >= b->bytes + length) && *at != pattern(b, at)) return 0;
    return 1;
}

static void give_back(struct lent *b) {
    if (b->on_heap) free(b->bytes);
}
#endif
