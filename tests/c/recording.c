/* The three functions of memory, as a heap that records sizes and refuses each call in turn.
 *
 * A block has exactly the requested alignment. The bytes before and after it are checked when it is freed. New bytes
 * are 0xa5. Each change of a size moves the block, with exactly the bytes that are to be kept. */
#include "recording.h"

#include <stdint.h>
#include <stdlib.h>
#include <string.h>

#include "romtool_heap.h"

#define TAIL 32
#define LIVE 0x4c495645u
#define GONE 0x474f4e45u

struct header {
    size_t size;
    size_t align;
    size_t front; /* from the start of malloc's bytes to those of the block */
    uint32_t mark;
    uint32_t pad;
};

/* What is before a block: bytes that are checked, and the header. */
#define FRONT 64

struct recording recorded;

static void wants(int holds, const char *what) {
    if (!holds && !recorded.wrong) {
        recorded.wrong = what;
    }
}

/* The header of a block, which need not be aligned. */
static struct header header_of(const void *at) {
    struct header it;
    memcpy(&it, (const uint8_t *)at - sizeof it, sizeof it);
    return it;
}

static void set_header(void *at, struct header it) {
    memcpy((uint8_t *)at - sizeof it, &it, sizeof it);
}

static struct romtool_memory answer(void *at) {
    static uint8_t none;
    struct romtool_memory memory;
    memory.given = at != NULL;
    memory.at = at ? at : &none;
    return memory;
}

static void *new_block(romtool_size size, romtool_size align) {
    const size_t front = FRONT + (size_t)(align < 16 ? align : 0);
    const struct header it = {(size_t)size, (size_t)align, front, LIVE, 0};
    recorded.calls++;
    wants(align == 1 || align == 2 || align == 4 || align == 8 || align == 16, "an alignment that is none");
    wants(size < (uint64_t)1 << 63, "a size of 2^63 or more");
    if (recorded.calls == recorded.refuse || size > (1u << 30)) {
        return NULL;
    }
    uint8_t *room = malloc(front + (size_t)size + TAIL);
    if (!room) {
        return NULL;
    }
    memset(room, 0xa5, front + (size_t)size + TAIL);
    set_header(room + front, it);
    recorded.blocks++;
    recorded.bytes += it.size;
    recorded.most = recorded.bytes > recorded.most ? recorded.bytes : recorded.most;
    return room + front;
}

/* Returns whether this is a block, and nothing beside it was written. */
static int is_whole(const void *at) {
    const struct header it = header_of(at);
    const uint8_t *bytes = at;
    int holds = it.mark == LIVE;
    for (size_t i = 0; holds && i < TAIL; i++) {
        holds = bytes[it.size + i] == 0xa5;
    }
    for (size_t i = sizeof it; holds && i < it.front; i++) {
        holds = bytes[-(ptrdiff_t)i - 1] == 0xa5;
    }
    return holds;
}

static void take_back(void *at) {
    struct header it = header_of(at);
    recorded.blocks--;
    recorded.bytes -= it.size;
    it.mark = GONE;
    set_header(at, it);
    memset(at, 0x5a, it.size);
    free((uint8_t *)at - it.front);
}

struct romtool_memory rattle_alloc(romtool_size size, romtool_size align) {
    return answer(new_block(size, align));
}

struct romtool_memory rattle_realloc(void *at, romtool_size kept, romtool_size size, romtool_size align) {
    if (!at || !is_whole(at)) {
        wants(0, "a block that is none, or was written beside");
        return answer(NULL);
    }
    wants(header_of(at).align == align, "another alignment than at first");
    wants(kept <= header_of(at).size && kept <= size, "more bytes to keep than there are");
    uint8_t *moved = new_block(size, align);
    if (moved) {
        memcpy(moved, at, (size_t)kept);
        take_back(at);
        recorded.moved++;
    }
    return answer(moved);
}

void rattle_dealloc(void *at) {
    if (!at || !is_whole(at)) {
        wants(0, "what is given back is no block, or was written beside");
        return;
    }
    take_back(at);
}
