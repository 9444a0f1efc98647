/* SPDX-License-Identifier: MIT
 *
 * The memory of romtool_check over an array of the caller's: no malloc, no C library.
 * include/romtool_heap.h says what each function has to do.
 *
 * The area is a row of blocks, each after a header of 16 bytes. No two free blocks are neighbours. A request gets the
 * first free block that is large enough. So the address of a block does not depend on the free room at the end, and the
 * farthest end that was reached is the size that an area needs. */
#include <stdint.h>

#include "romtool_heap.h"

#define UNIT 16u
/* The number of sizes, in units, for which the start of a search is kept. The last one is for all larger sizes. */
#define KINDS 33u

/* A block begins UNIT bytes after its header. */
union header {
    struct {
        size_t size;   /* the bytes of the block, a multiple of UNIT, and 1 more if it is used */
        size_t before; /* the bytes of the block before it */
    } of;
    uint8_t room[UNIT];
};

/* In a program for Linux, each thread has an area of its own. For the tasks of another system, define this as what makes
 * a variable of each task. */
#ifndef ROMTOOL_AREA_LOCAL
#if defined __linux__ && __STDC_HOSTED__
#define ROMTOOL_AREA_LOCAL __thread
#else
#define ROMTOOL_AREA_LOCAL
#endif
#endif

static ROMTOOL_AREA_LOCAL struct {
    uint8_t *first, *end; /* the area, at multiples of UNIT */
    size_t most, blocks;
    /* For each size: no free block of this size or more begins before this. These addresses do not fall. */
    uint8_t *lowest[KINDS];
} area;

static union header *header_at(uint8_t *at) {
    return (union header *)(void *)at;
}

static int is_used(const union header *it) {
    return (int)(it->of.size & 1);
}

static size_t size_of(const union header *it) {
    return it->of.size & ~(size_t)1;
}

static uint8_t *end_of(union header *it) {
    return (uint8_t *)it + UNIT + size_of(it);
}

static size_t kind_of(size_t size) {
    return size / UNIT < KINDS ? size / UNIT : KINDS - 1;
}

static void set(union header *it, size_t size, size_t used) {
    it->of.size = size | used;
    if (end_of(it) < area.end) {
        header_at(end_of(it))->of.before = size;
    }
}

/* Makes sure that no search begins within a block, or after a free block that it may find. */
static void settle(union header *it) {
    uint8_t *at = (uint8_t *)it;
    for (size_t kind = 0; kind < KINDS; kind++) {
        const int is_hidden = !is_used(it) && kind <= kind_of(size_of(it));
        if (area.lowest[kind] > at && (is_hidden || area.lowest[kind] < end_of(it))) {
            area.lowest[kind] = at;
        }
    }
}

/* Joins a used block with the free block after it. */
static void join(union header *it) {
    if (end_of(it) < area.end && !is_used(header_at(end_of(it)))) {
        set(it, size_of(it) + UNIT + size_of(header_at(end_of(it))), 1);
        settle(it);
    }
}

/* Frees a block, and joins it with its free neighbours. */
static void release(union header *it) {
    join(it);
    if ((uint8_t *)it > area.first) {
        union header *before = header_at((uint8_t *)it - it->of.before - UNIT);
        if (!is_used(before)) {
            set(before, size_of(before) + UNIT + size_of(it), 0);
            it = before;
        }
    }
    set(it, size_of(it), 0);
    settle(it);
}

/* Cuts a used block to `size` bytes. The rest becomes free. */
static void cut(union header *it, size_t size) {
    const size_t left = size_of(it) - size;
    if (left >= UNIT) {
        set(it, size, 1);
        union header *rest = header_at(end_of(it));
        rest->of.before = size;
        set(rest, left - UNIT, 1);
        release(rest);
    }
}

static struct romtool_memory refused(void) {
    static char none;
    struct romtool_memory memory;
    memory.given = 0;
    memory.at = &none;
    return memory;
}

static struct romtool_memory given(union header *it) {
    struct romtool_memory memory;
    const size_t reached = (size_t)(end_of(it) - area.first);
    area.most = reached > area.most ? reached : area.most;
    memory.given = 1;
    memory.at = (uint8_t *)it + UNIT;
    return memory;
}

/* Returns the size in whole units, or more than the area has. */
static size_t whole(romtool_size size) {
    const size_t all = (size_t)(area.end - area.first);
    return size > all ? all + UNIT : ((size_t)size + UNIT - 1) / UNIT * UNIT;
}

/* Returns the first free block of at least `size` bytes, or NULL. */
static union header *found(size_t size) {
    const size_t kind = kind_of(size);
    int is_first = 1; /* no free block of this kind was passed */
    for (uint8_t *at = area.lowest[kind]; at < area.end; at = end_of(header_at(at))) {
        union header *it = header_at(at);
        if (!is_used(it) && size_of(it) >= size) {
            for (size_t more = kind; is_first && more < KINDS && area.lowest[more] < at; more++) {
                area.lowest[more] = at;
            }
            return it;
        }
        is_first = is_first && (is_used(it) || kind_of(size_of(it)) < kind);
    }
    return NULL;
}

void romtool_area(void *bytes, romtool_size len) {
    const size_t skipped = (size_t)(-(uintptr_t)bytes % UNIT);
    area.first = area.end = NULL;
    area.most = area.blocks = 0;
    if (bytes && len >= skipped + UNIT && len <= PTRDIFF_MAX) {
        area.first = (uint8_t *)bytes + skipped;
        area.end = area.first + ((size_t)len - skipped) / UNIT * UNIT;
        set(header_at(area.first), (size_t)(area.end - area.first) - UNIT, 0);
    }
    for (size_t kind = 0; kind < KINDS; kind++) {
        area.lowest[kind] = area.first;
    }
}

uint32_t romtool_check_in(struct romtool_image *image, const uint8_t *data, romtool_size len, void *room,
                          romtool_size room_len) {
    romtool_area(room, room_len);
    return romtool_check(image, data, len);
}

romtool_size romtool_area_most(void) {
    return area.most;
}

romtool_size romtool_area_blocks(void) {
    return area.blocks;
}

struct romtool_memory rattle_alloc(romtool_size size, romtool_size align) {
    const size_t asked = whole(size);
    union header *it = align <= UNIT ? found(asked) : NULL;
    if (!it) {
        return refused();
    }
    set(it, size_of(it), 1);
    cut(it, asked);
    area.blocks++;
    return given(it);
}

struct romtool_memory rattle_realloc(void *at, romtool_size kept, romtool_size size, romtool_size align) {
    union header *it = header_at((uint8_t *)at - UNIT);
    const size_t had = size_of(it), asked = whole(size);
    join(it);
    if (align <= UNIT && size_of(it) >= asked) {
        cut(it, asked);
        return given(it);
    }
    cut(it, had);
    struct romtool_memory moved = rattle_alloc(size, align);
    if (moved.given) {
        for (size_t i = 0; i < kept; i++) {
            ((uint8_t *)moved.at)[i] = ((const uint8_t *)at)[i];
        }
        rattle_dealloc(at);
    }
    return moved;
}

void rattle_dealloc(void *at) {
    release(header_at((uint8_t *)at - UNIT));
    area.blocks--;
}
