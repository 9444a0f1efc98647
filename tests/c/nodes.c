/* SPDX-License-Identifier: MIT
 *
 * Lists the root of an image by its entries and their nodes, without a path.
 *
 *     nodes IMAGE: prints how many regular files it has, and their bytes in all */
#include <inttypes.h>
#include <stdio.h>
#include <stdlib.h>

#include "romtool.h"

/* The most bytes of an image that romtool builds. */
#define MOST (1 << 28)

int main(int argc, char **argv) {
    struct romtool_image image = ROMTOOL_INIT;
    struct romtool_file root = ROMTOOL_INIT, file = ROMTOOL_INIT;
    struct romtool_entry entry = ROMTOOL_INIT;
    uint8_t *data = malloc(MOST);
    FILE *given = argc == 2 && data ? fopen(argv[1], "rb") : NULL;
    uint64_t files = 0, bytes = 0;
    if (!given || romtool_check(&image, data, fread(data, 1, MOST, given)) || romtool_open_str(&root, &image, "/")) {
        return 1;
    }
    fclose(given);
    while (romtool_readdir(&root, &entry) == 0 && entry.some) {
        const struct romtool_stat stat = romtool_stat_node(&image, entry.node);
        if (stat.kind == entry.kind && entry.kind == ROMTOOL_REGULAR && romtool_open_node(&file, &image, entry.node) == 0) {
            files++;
            bytes += romtool_fstat(&file).size;
        }
    }
    printf("%" PRIu64 " %" PRIu64 "\n", files, bytes);
    free(data);
    return 0;
}
