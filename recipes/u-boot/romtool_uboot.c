/* SPDX-License-Identifier: MIT
 *
 * An image of romfs or cramfs in memory for U-Boot, over romtool.h: what `ls`, `size`, `load` and the test for a file need. Errors are
 * negative. A directory is listed by the nodes of its entries, so its time is linear in its names; names that a look-up may
 * compare are limited, as romtool_lookup_within says. */
#include "romtool_uboot.h"

#include "romtool_heap.h"

#ifndef CONFIG_ROMTOOL_BUDGET
#define CONFIG_ROMTOOL_BUDGET 20000 /* names that one look-up may compare */
#endif

static struct romtool_image image;

static struct romtool_node found(const char *path) {
    uint64_t budget = CONFIG_ROMTOOL_BUDGET;
    return romtool_lookup_within_str(&image, path, true, &budget);
}

static int error_of(uint32_t error) {
    return -romtool_errno(error);
}

int romtool_use(const void *at, romtool_size len, void *room, romtool_size room_len) {
    romtool_area(room, room_len);
    return error_of(romtool_check(&image, at, len));
}

int romtool_ls(const char *path) {
    struct romtool_file directory = ROMTOOL_INIT;
    struct romtool_entry entry;
    const struct romtool_node node = found(path);
    uint32_t error = node.error ? node.error : romtool_open_node(&directory, &image, node.node);
    while (!error && !(error = romtool_readdir(&directory, &entry)) && entry.some) {
        const struct romtool_stat stat = romtool_stat_node(&image, entry.node);
        if (stat.kind == ROMTOOL_DIRECTORY) {
            printf("            %.*s/\n", (int)entry.name_len, (const char *)entry.name);
        } else {
            printf(" %8lu   %.*s", (unsigned long)stat.size, (int)entry.name_len, (const char *)entry.name);
            const struct romtool_place text = romtool_readlink_node(&image, entry.node);
            if (!text.error) {
                printf(" -> %.*s", (int)text.len, (const char *)image.data + text.at);
            }
            printf("\n");
        }
    }
    return error_of(error);
}

int romtool_exists(const char *path) {
    return !found(path).error;
}

int romtool_size_of(const char *path, loff_t *size) {
    const struct romtool_node node = found(path);
    *size = node.error ? 0 : romtool_stat_node(&image, node.node).size;
    return error_of(node.error);
}

int romtool_load(const char *path, void *buffer, loff_t offset, loff_t len, loff_t *read) {
    struct romtool_file file = ROMTOOL_INIT;
    romtool_size count = 0;
    const struct romtool_node node = found(path);
    uint32_t error = node.error ? node.error : romtool_open_node(&file, &image, node.node);
    error = error ? error : romtool_seek(&file, (uint64_t)offset);
    /* no length is all of the file */
    error = error ? error : romtool_read(&file, buffer, len ? (romtool_size)len : UINT64_MAX, &count);
    *read = (loff_t)count;
    return error_of(error);
}
