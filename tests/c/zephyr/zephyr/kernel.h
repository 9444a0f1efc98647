/* The slabs of Zephyr's <zephyr/kernel.h>, by its documentation of release 3.7. */
#ifndef KERNEL_H
#define KERNEL_H
#include <stdlib.h>

struct k_mem_slab {
    size_t size;
    unsigned left;
};

#define K_NO_WAIT 0
#define K_MEM_SLAB_DEFINE_STATIC(name, block, blocks, align) static struct k_mem_slab name = {(block), (blocks)}

static inline int k_mem_slab_alloc(struct k_mem_slab *slab, void **at, int timeout) {
    if (!slab->left || timeout) {
        return -1;
    }
    slab->left--;
    *at = malloc(slab->size);
    return *at ? 0 : -1;
}

static inline void k_mem_slab_free(struct k_mem_slab *slab, void *at) {
    slab->left++;
    free(at);
}
#endif
