/* SPDX-License-Identifier: MIT
 *
 * The memory of romtool_check over malloc, realloc and free. include/romtool_heap.h says what each function
 * has to do. */
#include <stdint.h>
#include <stdlib.h>

#include "romtool_heap.h"

/* The least alignment of malloc: 16 on 64-bit machines, 8 on most 32-bit ones. */
#define ALIGNED (2 * sizeof(void *))

static struct romtool_memory memory_at(void *at) {
    static char none;
    struct romtool_memory memory;
    memory.given = at != NULL;
    memory.at = at ? at : &none;
    return memory;
}

/* Returns whether malloc can serve the request. */
static int is_asked(romtool_size size, romtool_size align) {
    return size <= PTRDIFF_MAX && align <= ALIGNED;
}

struct romtool_memory rattle_alloc(romtool_size size, romtool_size align) {
    return memory_at(is_asked(size, align) ? malloc((size_t)(size ? size : 1)) : NULL);
}

struct romtool_memory rattle_realloc(void *at, romtool_size kept, romtool_size size, romtool_size align) {
    (void)kept;
    return memory_at(is_asked(size, align) ? realloc(at, (size_t)(size ? size : 1)) : NULL);
}

void rattle_dealloc(void *at) {
    free(at);
}
