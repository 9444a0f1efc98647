/* SPDX-License-Identifier: MIT
 *
 * romtool_heap.h: the memory of romtool_check, for programs with their own heap.
 *
 * The library allocates memory by three functions, which librom_c.a does not contain. Link one of these with it:
 *   - c/heap.c, over malloc, realloc and free;
 *   - c/area.c, over an array of the caller's, for firmware without malloc;
 *   - the kit's liblibc_c.a, which is c/heap.c for x86-64 Linux;
 *   - your own three functions, which have to do what is said below.
 *
 * A heap that does not do this is not noticed: the check may then refuse a valid image, or accept an invalid one, and
 * no contract of the library holds. recording.c (an example of a release, in tests/c of a clone) is a heap that checks
 * each call: if you write a heap, run your images with it first.
 *
 * A block belongs to the library from the call that returns it until rattle_dealloc frees it. Meanwhile
 *   - no other block has any of its bytes, and nobody else writes to them;
 *   - it stays where it is. Only rattle_realloc may move it.
 * A block need not be zeroed. The library calls these functions only within romtool_check, on that call's thread. It
 * frees each block before the check returns, also if memory was refused. Each of the three functions has to return.
 */
#ifndef ROMTOOL_HEAP_H
#define ROMTOOL_HEAP_H

#include "romtool.h"

#ifdef __cplusplus
extern "C" {
#endif

/* A result. `given` is 1 if there is memory, and `at` is its first byte. If memory is refused, `given` is 0, and `at`
 * is any address except NULL. */
struct romtool_memory {
    romtool_size given;
    void *at;
};

/* Returns a new block of `size` bytes at a multiple of `align`. `align` is 1, 2, 4, 8 or 16. `size` is below 2^63 and
 * may be 0; this block is also freed later. */
struct romtool_memory rattle_alloc(romtool_size size, romtool_size align);

/* Changes the size of the block at `at` to `size` bytes, more or fewer than before. The block may move, to a multiple
 * of `align`, which is that of its rattle_alloc; the old block is then free. Its first `kept` bytes stay: `kept` is at
 * most `size` and at most the old size, and is NOT the old size, which only the heap knows. If memory is refused, the
 * block is unchanged, with all of its bytes, and still belongs to the library. */
struct romtool_memory rattle_realloc(void *at, romtool_size kept, romtool_size size, romtool_size align);

/* Frees the block at `at`, which is never NULL. This is the only argument; the heap has to know the size. */
void rattle_dealloc(void *at);

/* Only in c/area.c, which is libromtool_area.a of a release for Linux (link it before libromtool.a), and src/area.c of a
 * release for boards: makes a heap of the `len` bytes at `bytes`. Call it before the first check. A later call begins
 * again, also with other bytes, and is allowed while this thread runs no check. One area serves one check at a time. On
 * Linux each thread has its own. Elsewhere all tasks share one, unless ROMTOOL_AREA_LOCAL is defined for src/area.c as
 * what makes a variable of each task: otherwise two tasks need a lock around their checks. */
void romtool_area(void *bytes, romtool_size len);

/* Also only there: makes a heap of the room, and checks the image with it: romtool_area, and then romtool_check. */
uint32_t romtool_check_in(struct romtool_image *image, const uint8_t *data, romtool_size len, void *room,
                          romtool_size room_len);

/* Returns how many bytes an area needs for all requests since romtool_area was called, if none was refused. For checks
 * of the same images, an area of this size at a multiple of 16 is enough. In a smaller one, a request is refused. */
romtool_size romtool_area_most(void);

/* Returns the number of blocks that are not freed, which is 0 while no check runs. */
romtool_size romtool_area_blocks(void);

#ifdef __cplusplus
}
#endif

#endif
