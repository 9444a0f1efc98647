/* SPDX-License-Identifier: MIT
 *
 * Looks paths up with a budget of names.
 *
 *     within IMAGE: for each line `BUDGET PATH` of standard input, prints the error, the node, and what is left of the
 *     budget; a link as the last component is followed. It ends with status 3 if romtool_lookup answers anything else,
 *     unless the budget was used up. */
#include <inttypes.h>
#include <stdio.h>
#include <stdlib.h>
#include <string.h>

#include "romtool.h"

/* The most that an image of romtool has. */
#define MOST (1 << 28)

int main(int argc, char **argv) {
    static char line[5000];
    struct romtool_image image = ROMTOOL_INIT;
    uint8_t *data = malloc(MOST);
    FILE *given = argc == 2 && data ? fopen(argv[1], "rb") : NULL;
    if (!given || romtool_check(&image, data, fread(data, 1, MOST, given))) {
        return 1;
    }
    fclose(given);
    while (fgets(line, sizeof line, stdin)) {
        char *path = strchr(line, ' ') + 1;
        uint64_t budget = strtoull(line, NULL, 10);
        path[strcspn(path, "\n")] = 0;
        const struct romtool_node found = romtool_lookup_within_str(&image, path, true, &budget);
        printf("%" PRIu32 " %" PRIu32 " %" PRIu64 "\n", found.error, found.node, budget);
        if (found.error != ROMTOOL_BUDGET) {
            const struct romtool_node plain = romtool_lookup_str(&image, path, true);
            if (plain.error != found.error || plain.node != found.node) {
                return 3;
            }
        }
    }
    free(data);
    return 0;
}
