/* The heap over an array: c/area.c by itself, and checks with areas that are exactly large enough.
 *
 *     areas IMAGE..
 *
 * First, random blocks are allocated, resized and freed, in areas of many sizes and alignments. Each block keeps its
 * bytes, is in the area at its alignment, and overlaps no other. When all are freed, the area is one block again.
 * Then each image is checked with an area of the size that romtool_area_most returned: the verdict is the same. With 16
 * bytes less, memory is refused. Prints for each image the bytes that a check needs. */
#include <inttypes.h>
#include <stdio.h>
#include <stdlib.h>
#include <string.h>

#include "romtool_heap.h"

#define MOST 24
#ifndef ROOM
#define ROOM (1 << 22)
#endif

static uint64_t room[ROOM / 8 + 4];
static uint8_t *area; /* the same, from a multiple of 16 on */
static unsigned long steps, wrong;

static void wants(int holds, const char *what) {
    if (!holds) {
        wrong++;
        printf("wrong: %s\n", what);
    }
}

static uint32_t chance(uint32_t below) {
    static uint64_t seed = 0x9e3779b97f4a7c15u;
    seed = seed * 6364136223846793005u + 1442695040888963407u;
    return (uint32_t)(seed >> 33) % below;
}

struct block {
    uint8_t *at;
    size_t size, align;
    uint8_t byte;
};

static int is_filled(const struct block *it, size_t size) {
    for (size_t i = 0; i < size; i++) {
        if (it->at[i] != it->byte) {
            return 0;
        }
    }
    return 1;
}

/* Checks that a new block is in the area and overlaps no other, and fills it. */
static void took(struct block *all, int which, uint8_t *from, size_t len) {
    struct block *it = &all[which];
    wants(it->at >= from && it->size <= len && (size_t)(it->at - from) <= len - it->size, "a block out of the area");
    wants(((uintptr_t)it->at & (it->align - 1)) == 0, "a block that is not aligned");
    for (int i = 0; i < MOST; i++) {
        const struct block *other = &all[i];
        if (i != which && other->at && other->size && it->size) {
            wants(it->at + it->size <= other->at || other->at + other->size <= it->at, "blocks that share bytes");
        }
    }
    memset(it->at, it->byte, it->size);
}

static void take_back(struct block *it) {
    wants(is_filled(it, it->size), "bytes that changed");
    rattle_dealloc(it->at);
    it->at = NULL;
}

static void step(struct block *all, uint8_t *from, size_t len) {
    const int which = (int)chance(MOST);
    struct block *it = &all[which];
    const size_t size = chance(8) ? chance(200) : chance((uint32_t)len + 40);
    steps++;
    if (!it->at) {
        const size_t align = (size_t)1 << chance(5);
        const struct romtool_memory memory = rattle_alloc(size, align);
        wants(memory.at != NULL, "NULL for memory");
        if (memory.given) {
            const struct block made = {memory.at, size, align, (uint8_t)(1 + chance(255))};
            *it = made;
            took(all, which, from, len);
        }
    } else if (chance(2)) {
        take_back(it);
    } else {
        const size_t least = size < it->size ? size : it->size, kept = chance(3) ? least : chance((uint32_t)least + 1);
        const struct romtool_memory memory = rattle_realloc(it->at, kept, size, it->align);
        wants(memory.at != NULL, "NULL for memory");
        if (memory.given) {
            it->at = memory.at;
            wants(is_filled(it, kept), "bytes that were not kept");
            it->size = size;
            took(all, which, from, len);
        } else {
            wants(is_filled(it, it->size), "a refusal that changed a block");
        }
    }
}

/* Makes random calls on an area of `len` bytes. */
static void by_chance(size_t skipped, size_t len) {
    static struct block all[MOST];
    uint8_t *from = area + skipped;
    memset(area, 0xee, len + 32);
    romtool_area(from, len);
    for (int i = 0; i < 400; i++) {
        step(all, from, len);
    }
    for (int i = 0; i < MOST; i++) {
        if (all[i].at) {
            take_back(&all[i]);
        }
    }
    wants(romtool_area_blocks() == 0, "blocks that are left");
    wants(romtool_area_most() <= len, "more than the area has");
    const size_t front = (size_t)(-(uintptr_t)from % 16);
    const size_t whole = len >= front + 16 ? (len - front) / 16 * 16 - 16 : 0;
    if (len >= front + 16) {
        const struct romtool_memory memory = rattle_alloc(whole, 16);
        wants(memory.given == 1, "an area that did not become one block again");
        rattle_dealloc(memory.at);
    }
    wants(rattle_alloc(whole + 1, 1).given == 0, "more than the area has");
    for (size_t i = 0; i < skipped; i++) {
        wants(area[i] == 0xee, "a byte before the area that was written");
    }
    for (size_t i = 0; i < 16; i++) {
        wants(from[len + i] == 0xee, "a byte behind the area that was written");
    }
}

static void odd_areas(void) {
    romtool_area(NULL, 0);
    wants(!rattle_alloc(0, 1).given && romtool_area_most() == 0, "memory of no area");
    romtool_area(area, 15);
    wants(!rattle_alloc(0, 1).given, "memory of an area without room");
    romtool_area(area, ROOM);
    wants(!rattle_alloc(1, 32).given, "an alignment above 16");
    wants(!rattle_alloc(UINT64_MAX, 1).given && !rattle_alloc((uint64_t)1 << 62, 1).given, "more than there is");
}

static int is_same(const struct romtool_image *one, const struct romtool_image *other) {
    return memcmp(one, other, sizeof *one) == 0;
}

static void image(const char *name, const uint8_t *data, size_t len) {
    struct romtool_image first = ROMTOOL_INIT, other = ROMTOOL_INIT;
    romtool_area(area, ROOM);
    const uint32_t error = romtool_check(&first, data, len);
    const romtool_size most = romtool_area_most();
    wants(error != ROMTOOL_MEMORY && romtool_area_blocks() == 0, "a check over the whole area");
    romtool_area(area, most);
    wants(romtool_check(&other, data, len) == error && is_same(&first, &other), "a check over what is enough");
    wants(romtool_area_most() == most, "another need than before");
    if (most) {
        romtool_area(area, most - 16);
        wants(romtool_check(&other, data, len) == ROMTOOL_MEMORY, "a check over less than is enough");
        wants(romtool_area_blocks() == 0, "blocks that are left after a refusal");
    }
    other = first;
    wants(romtool_check_in(&other, data, len, area, most) == error && is_same(&first, &other), "a check in a room");
    if (most) {
        wants(romtool_check_in(&other, data, len, area, most - 16) == ROMTOOL_MEMORY, "a check in less room");
    }
    printf("%s: %" PRIu32 " %" PRIu64 "\n", name, error, (uint64_t)most);
}

int main(int argc, char **argv) {
    area = (uint8_t *)room + (size_t)(-(uintptr_t)room % 16);
    for (size_t len = 0; len < 1200; len += 1 + chance(7)) {
        by_chance(chance(17), len);
    }
    for (int i = 0; i < 40; i++) {
        by_chance(chance(17), 2000 + chance(60000));
    }
    odd_areas();
    for (int i = 1; i < argc; i++) {
        FILE *file = fopen(argv[i], "rb");
        uint8_t *data = malloc(1 << 22);
        if (!file || !data) {
            return 2;
        }
        const size_t len = fread(data, 1, 1 << 22, file);
        fclose(file);
        image(argv[i], data, len);
        free(data);
    }
    printf("%lu steps\n", steps);
    return wrong != 0;
}
