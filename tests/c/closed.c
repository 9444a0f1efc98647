/* Each call on a handle that is all zeros, on one that a check refused, and with NULL for no bytes.
 *
 *     closed IMAGE: a valid image
 *
 * Prints `closed N`, where N is the number of tests; or what is wrong, with status 1. */
#include <stdio.h>
#include <stdlib.h>
#include <string.h>

#include "romtool.h"

static int looked, wrong;

static void wants(int holds, const char *what) {
    looked++;
    if (!holds) {
        wrong++;
        printf("wrong: %s\n", what);
    }
}

static int is_no_stat(struct romtool_stat stat, uint32_t error) {
    return stat.error == error && !stat.ino && !stat.kind && !stat.mode && !stat.uid && !stat.gid && !stat.size
        && !stat.major && !stat.minor;
}

static int is_no_place(struct romtool_place place, uint32_t error) {
    return place.error == error && place.at == 0 && place.len == 0;
}

/* An image that is not open. */
static void no_image(const struct romtool_image *image, const uint8_t *path, size_t len) {
    struct romtool_file file = {0};
    const struct romtool_node node = romtool_lookup(image, path, len, true);
    wants(node.error == ROMTOOL_CLOSED && node.node == 0, "lookup without an image");
    uint64_t budget = 7;
    const struct romtool_node within = romtool_lookup_within(image, path, len, true, &budget);
    wants(within.error == ROMTOOL_CLOSED && within.node == 0, "lookup with a budget without an image");
    wants(budget == 7, "a budget that was used without an image");
    wants(is_no_stat(romtool_stat(image, path, len, true), ROMTOOL_CLOSED), "stat without an image");
    wants(is_no_stat(romtool_stat(image, path, len, false), ROMTOOL_CLOSED), "lstat without an image");
    wants(is_no_place(romtool_readlink(image, path, len), ROMTOOL_CLOSED), "readlink without an image");
    wants(romtool_open(&file, image, path, len) == ROMTOOL_CLOSED, "open without an image");
    wants(file.error == ROMTOOL_CLOSED && file.node == 0 && file.position == 0, "a file without an image");
    wants(is_no_stat(romtool_stat_node(image, 32), ROMTOOL_CLOSED), "stat of a node without an image");
    const struct romtool_node at = romtool_lookup_at(image, 32, path, len);
    wants(at.error == ROMTOOL_CLOSED && at.node == 0, "lookup in a node without an image");
    wants(is_no_place(romtool_readlink_node(image, 32), ROMTOOL_CLOSED), "readlink of a node without an image");
    wants(!romtool_is_node(image, 32) && !romtool_is_node(image, 0), "a node without an image");
    wants(romtool_links(image, 32) == 0 && romtool_links(image, 0) == 0, "names without an image");
    uint32_t numbers[2] = {7, 7};
    wants(romtool_nodes(image, numbers, 2) == 0 && numbers[0] == 7 && numbers[1] == 7, "nodes without an image");
    const struct romtool_node above = romtool_parent(image, 32);
    wants(above.error == ROMTOOL_CLOSED && above.node == 0, "a parent without an image");
    wants(is_no_place(romtool_volume(image), ROMTOOL_CLOSED), "a volume without an image");
    wants(is_no_stat(romtool_stat_within(image, path, len, true, &budget), ROMTOOL_CLOSED), "stat within, without an image");
    wants(is_no_place(romtool_readlink_within(image, path, len, &budget), ROMTOOL_CLOSED), "readlink within, without an image");
    wants(romtool_open_within(&file, image, path, len, &budget) == ROMTOOL_CLOSED, "open within, without an image");
    wants(file.error == ROMTOOL_CLOSED && file.node == 0 && budget == 7, "a file within a budget, without an image");
    wants(romtool_open_node(&file, image, 32) == ROMTOOL_CLOSED, "open of a node without an image");
    wants(file.error == ROMTOOL_CLOSED && file.node == 0 && file.position == 0, "a file of a node without an image");
    wants(romtool_reopen(&file, image, 32, 5) == ROMTOOL_CLOSED, "a file that was open without an image");
    wants(file.error == ROMTOOL_CLOSED && file.node == 0 && file.position == 0, "a file at a position without an image");
}

/* A file that is not open. */
static void no_file(const struct romtool_file *given) {
    struct romtool_file file = *given;
    struct romtool_entry entry = {(const uint8_t *)"x", 1, 7, 1, 2};
    uint8_t buffer[4] = {1, 2, 3, 4};
    romtool_size count = 9;
    wants(is_no_stat(romtool_fstat(&file), ROMTOOL_EBADF), "fstat without a file");
    wants(is_no_place(romtool_map(&file, 0, 1), ROMTOOL_EBADF), "map without a file");
    wants(is_no_place(romtool_map(&file, UINT64_MAX, UINT64_MAX), ROMTOOL_EBADF), "map far without a file");
    wants(is_no_place(romtool_lend(&file, 4), ROMTOOL_EBADF), "lend without a file");
    wants(romtool_read(&file, buffer, sizeof buffer, &count) == ROMTOOL_EBADF && count == 0, "read without a file");
    wants(buffer[0] == 1 && buffer[3] == 4, "a buffer that was written without a file");
    count = 9;
    wants(romtool_read(&file, NULL, 0, &count) == ROMTOOL_EBADF && count == 0, "read of nothing without a file");
    wants(romtool_seek(&file, 3) == ROMTOOL_EBADF, "seek without a file");
    count = 9;
    wants(romtool_read_at(&file, 1, buffer, sizeof buffer, &count) == ROMTOOL_EBADF && count == 0, "read_at without a file");
    wants(buffer[0] == 1 && buffer[3] == 4, "a buffer that was written at a position without a file");
    wants(is_no_place(romtool_map(&file, 0, 0), ROMTOOL_EBADF), "map of no bytes without a file");
    wants(romtool_telldir(&file) == 0, "entries without a file");
    wants(romtool_seekdir(&file, 0) == ROMTOOL_EBADF && romtool_seekdir(&file, 9) == ROMTOOL_EBADF, "seekdir without a file");
    wants(romtool_readdir(&file, &entry) == ROMTOOL_EBADF, "readdir without a file");
    wants(entry.some == 0 && entry.node == 0 && entry.kind == 0 && entry.name_len == 0, "an entry without a file");
    wants(memcmp(&file, given, sizeof file) == 0, "a call that changed what is not open");
}

static void zeroed(void) {
    static const struct romtool_image image;
    static const struct romtool_file file;
    no_image(&image, (const uint8_t *)"/", 1);
    no_image(&image, NULL, 0);
    no_file(&file);
}

/* No bytes, and bytes that hold no image. */
static void refused(void) {
    static const uint8_t bytes[8] = {'-', 'r', 'o', 'm', '1', 'f', 's', '+'};
    struct romtool_image image = {0};
    struct romtool_file file = {0};
    wants(romtool_check(&image, NULL, 0) == ROMTOOL_FAULT, "no bytes as an image");
    wants(image.status == 0 && image.fault == 2 && image.at == 0, "the fault of no bytes");
    no_image(&image, (const uint8_t *)"/", 1);
    wants(romtool_check(&image, bytes, sizeof bytes) == ROMTOOL_FAULT, "a wrong magic");
    wants(image.status == 0 && image.format == 0 && image.fault == 3 && image.at == 0, "the fault of a wrong magic");
    wants(!image.accessible && !image.root && !image.references && !image.depth, "numbers of no image");
    no_image(&image, (const uint8_t *)"/", 1);
    no_image(&image, NULL, 0);
    romtool_open(&file, &image, (const uint8_t *)"/", 1);
    no_file(&file);
}

/* An open image with invalid paths, and an open directory. */
static void open_image(const uint8_t *data, size_t len) {
    struct romtool_image image = {0};
    struct romtool_file file = {0}, copy;
    struct romtool_entry entry = {0};
    uint8_t buffer[4] = {1, 2, 3, 4};
    romtool_size count = 9;
    wants(romtool_check(&image, data, len) == 0 && image.status == 1, "the image");
    wants(image.data == data && image.len == len && image.fault == 0 && image.at == 0, "what is held of the image");
    wants(romtool_lookup(&image, NULL, 0, true).error == ROMTOOL_ENOENT, "no path");
    wants(romtool_lookup(&image, (const uint8_t *)"a", 1, true).error == ROMTOOL_EINVAL, "a path without a slash");
    wants(romtool_open(&file, &image, NULL, 0) == ROMTOOL_ENOENT, "open of no path");
    no_file(&file);
    wants(romtool_open(&file, &image, (const uint8_t *)"/", 1) == 0, "open of the root");
    wants(romtool_fstat(&file).kind == ROMTOOL_DIRECTORY, "the root's kind");
    wants(is_no_place(romtool_map(&file, 0, 1), ROMTOOL_EISDIR), "map of a directory");
    wants(is_no_place(romtool_lend(&file, 1), ROMTOOL_EISDIR), "lend of a directory");
    wants(romtool_read(&file, buffer, 4, &count) == ROMTOOL_EISDIR && count == 0, "read of a directory");
    wants(buffer[0] == 1 && buffer[3] == 4, "a buffer that was written of a directory");
    wants(romtool_seek(&file, 3) == ROMTOOL_EISDIR && file.position == 0, "seek of a directory");
    copy = file;
    wants(romtool_readdir(&copy, &entry) == 0 && file.position == 0, "a copy with a position of its own");
    copy = file;
    copy.image.status = 0;
    no_file(&copy);
}

int main(int argc, char **argv) {
    FILE *file = argc == 2 ? fopen(argv[1], "rb") : NULL;
    uint8_t *data = malloc(1 << 16);
    if (!file || !data) {
        return 2;
    }
    const size_t len = fread(data, 1, 1 << 16, file);
    fclose(file);
    zeroed();
    refused();
    open_image(data, len);
    free(data);
    printf("closed %d\n", looked);
    return wrong != 0;
}
