/* The calls of the library that are not those of a server, on each node of an image, compared with other calls:
 * positions in directories, names and parents of nodes, reads at a position, places of no bytes, descriptions, and the
 * calls by a path with a budget.
 *
 *     calls IMAGE
 *
 * Prints the name of the volume, and `calls N`, where N is the number of tests; or what is wrong, with status 1. */
#include <inttypes.h>
#include <stdio.h>
#include <stdlib.h>
#include <string.h>

#include "romtool.h"

#define NODES 512
#define ENTRIES 128

static unsigned looked, wrong;
static uint8_t path[4096];
static uint32_t nodes[NODES], names[NODES];
static size_t known;

static void wants(int holds, const char *what) {
    looked++;
    if (!holds) {
        wrong = 1;
        printf("wrong: %s\n", what);
    }
}

/* Counts a name of a node, and returns whether it is the first. */
static int is_new(uint32_t node) {
    for (size_t i = 0; i < known; i++) {
        if (nodes[i] == node) {
            names[i]++;
            return 0;
        }
    }
    if (known < NODES) {
        nodes[known] = node;
        names[known++] = 1;
    }
    return 1;
}

/* A file: reads at each position answer as reads behind a seek, and leave the position. */
static void reads(const struct romtool_image *image, uint32_t node, uint32_t size) {
    static const uint64_t offs[] = {0, 1, 4095, 4096, 4097, 5999, 6000, 6001, UINT64_MAX};
    struct romtool_file file = ROMTOOL_INIT, other = ROMTOOL_INIT, again = ROMTOOL_INIT;
    uint8_t one[300], two[300];
    romtool_size count = 0, wanted = 0;
    wants(romtool_open_node(&file, image, node) == 0 && romtool_seek(&file, 3) == 0, "a file");
    other = file;
    for (size_t i = 0; i < sizeof offs / sizeof *offs; i++) {
        memset(one, 7, sizeof one);
        memset(two, 7, sizeof two);
        wants(romtool_read_at(&file, offs[i], one, sizeof one, &count) == 0, "read_at");
        wants(romtool_seek(&other, offs[i]) == 0 && romtool_read(&other, two, sizeof two, &wanted) == 0, "read");
        wants(count == wanted && memcmp(one, two, sizeof one) == 0, "read_at as read");
        wants(file.position == 3, "the position after read_at");
        wants(romtool_seek(&other, offs[i]) == 0 && romtool_reopen(&again, image, node, offs[i]) == 0, "a file that was open");
        wants(memcmp(&again, &other, sizeof again) == 0, "a file at the position where it was open");
    }
    wants(romtool_read_at(&file, 0, NULL, 0, &count) == 0 && count == 0, "read_at of nothing");
    const struct romtool_place none = romtool_map(&file, 0, 0);
    wants(none.error == (size ? ROMTOOL_EINVAL : 0) && none.at == 0 && none.len == 0, "map of no bytes");
    wants(romtool_map(&file, 1, 0).error == ROMTOOL_EINVAL, "map of no bytes from byte 1 on");
    wants(romtool_map(&file, 0, (uint64_t)size + 1).error == ROMTOOL_EINVAL, "map of too many bytes");
    wants(romtool_telldir(&file) == 0 && romtool_seekdir(&file, 0) == ROMTOOL_ENOTDIR, "entries of a file");
}

/* A directory with these entries: each number of entries leads to the entry that follows. */
static void positions(const struct romtool_image *image, uint32_t node, const struct romtool_entry *held, size_t count) {
    struct romtool_file dir = ROMTOOL_INIT;
    struct romtool_entry entry;
    uint64_t cookies[ENTRIES + 1];
    romtool_size got = 9;
    uint8_t byte = 7;
    wants(romtool_open_node(&dir, image, node) == 0, "a directory");
    for (size_t i = 0; i <= count; i++) {
        cookies[i] = dir.position;
        wants(romtool_telldir(&dir) == i, "the entries that were read");
        wants(romtool_readdir(&dir, &entry) == 0 && entry.some == (i < count), "an entry more");
    }
    for (size_t i = count + 1; i-- > 0;) {
        struct romtool_file again = ROMTOOL_INIT;
        wants(romtool_reopen(&again, image, node, cookies[i]) == 0 && romtool_telldir(&again) == i, "a directory at a cookie");
        wants(again.error == 0 && again.node == node && again.position == cookies[i], "the struct at a cookie");
        wants(romtool_readdir(&again, &entry) == 0 && entry.some == (i < count), "an entry at a cookie");
        wants(i == count || (entry.node == held[i].node && entry.name == held[i].name), "the entry at a cookie");
    }
    for (size_t i = count + 1; i-- > 0;) {
        wants(romtool_seekdir(&dir, i) == 0 && romtool_telldir(&dir) == i, "a position");
        wants(romtool_readdir(&dir, &entry) == 0, "an entry after a position");
        wants(entry.some == (i < count) && (i == count || entry.node == held[i].node), "the entry after a position");
        wants(i == count || entry.name == held[i].name, "its name");
    }
    const struct romtool_file before = dir;
    wants(romtool_seekdir(&dir, count + 1) == ROMTOOL_EINVAL, "a position behind the end");
    wants(romtool_seekdir(&dir, UINT64_MAX) == ROMTOOL_EINVAL, "a position far behind the end");
    wants(memcmp(&dir, &before, sizeof dir) == 0, "a position that was refused");
    wants(romtool_map(&dir, 0, 0).error == ROMTOOL_EISDIR, "no bytes of a directory");
    wants(romtool_read_at(&dir, 0, &byte, 1, &got) == ROMTOOL_EISDIR && got == 0 && byte == 7, "read_at of a directory");
}

/* Whether two answers are the same. */
static int are_same(const void *one, const void *two, size_t size) {
    return memcmp(one, two, size) == 0;
}

/* A path: the calls with a budget answer as those without, and take the names that a look-up compares. */
static void budgets(const struct romtool_image *image, size_t len) {
    for (int follow = 0; follow < 2; follow++) {
        struct romtool_file by_path = ROMTOOL_INIT, within = ROMTOOL_INIT;
        uint64_t left = 1000000, rest = 1000000;
        const struct romtool_node node = romtool_lookup_within(image, path, len, follow, &left);
        const uint64_t cost = 1000000 - left;
        const struct romtool_stat stat = romtool_stat(image, path, len, follow);
        const struct romtool_stat stat_within = romtool_stat_within(image, path, len, follow, &rest);
        wants(are_same(&stat, &stat_within, sizeof stat) && rest == left && node.error == stat.error, "stat within");
        if (follow) {
            rest = 1000000;
            const uint32_t error = romtool_open(&by_path, image, path, len);
            wants(romtool_open_within(&within, image, path, len, &rest) == error && rest == left, "open within");
            wants(are_same(&by_path, &within, sizeof within), "the file of open within");
        } else {
            rest = 1000000;
            const struct romtool_place text = romtool_readlink(image, path, len);
            const struct romtool_place place = romtool_readlink_within(image, path, len, &rest);
            wants(are_same(&text, &place, sizeof text) && rest == left, "readlink within");
        }
        for (uint64_t given = cost ? cost - 1 : 0; given <= cost; given++) {
            const uint32_t error = given < cost ? ROMTOOL_BUDGET : stat.error;
            rest = given;
            wants(romtool_stat_within(image, path, len, follow, &rest).error == error && rest == 0, "stat with too little");
            rest = given;
            wants(!follow || romtool_open_within(&within, image, path, len, &rest) == (error ? error : by_path.error),
                "open with too little");
            wants(!follow || error == 0 || (within.node == 0 && within.position == 0), "a file that was not opened");
            rest = given;
            const uint32_t read = romtool_readlink_within(image, path, len, &rest).error;
            wants(follow || (error ? read == error : read == romtool_readlink(image, path, len).error),
                "readlink with too little");
        }
    }
}

/* The calls by a path that ends with a zero, and a path that leads nowhere. */
static void texts(const struct romtool_image *image) {
    static const char *const paths[] = {"/", "", "/none", "/none/none", "none"};
    for (size_t i = 0; i < sizeof paths / sizeof *paths; i++) {
        uint64_t budget = 1000000;
        struct romtool_file one = ROMTOOL_INIT, two = ROMTOOL_INIT;
        const size_t len = strlen(paths[i]);
        memcpy(path, paths[i], len);
        budgets(image, len);
        const struct romtool_stat stat = romtool_stat_within_str(image, paths[i], true, &budget);
        wants(stat.error == romtool_stat_str(image, paths[i], true).error, "stat within of a text");
        const struct romtool_place place = romtool_readlink_within_str(image, paths[i], &budget);
        wants(place.error == romtool_readlink_str(image, paths[i]).error, "readlink within of a text");
        wants(romtool_open_within_str(&one, image, paths[i], &budget) == romtool_open_str(&two, image, paths[i]),
            "open within of a text");
        wants(are_same(&one, &two, sizeof one), "the file of open within of a text");
    }
}

/* The node of a path, and those below it. */
static void walk(const struct romtool_image *image, size_t len, uint32_t node, uint32_t parent) {
    struct romtool_file dir = ROMTOOL_INIT;
    struct romtool_entry held[ENTRIES];
    const struct romtool_stat stat = romtool_stat_node(image, node);
    size_t count = 0;
    path[0] = '/';
    budgets(image, len ? len : 1);
    const struct romtool_node above = romtool_parent(image, node);
    if (stat.kind != ROMTOOL_DIRECTORY) {
        wants(above.error == ROMTOOL_ENOTDIR && above.node == 0, "the parent of no directory");
        if (is_new(node) && stat.kind == ROMTOOL_REGULAR) {
            reads(image, node, stat.size);
        }
        return;
    }
    wants(above.error == 0 && above.node == parent, "a parent");
    wants(is_new(node), "a directory with two names");
    wants(romtool_open_node(&dir, image, node) == 0, "a directory that is not opened");
    while (count < ENTRIES && romtool_readdir(&dir, &held[count]) == 0 && held[count].some) {
        count++;
    }
    positions(image, node, held, count);
    for (size_t i = 0; i < count; i++) {
        path[len] = '/';
        memcpy(path + len + 1, held[i].name, (size_t)held[i].name_len);
        walk(image, len + 1 + (size_t)held[i].name_len, held[i].node, node);
    }
}

/* The description of an image makes the same struct, and another one is refused. */
static void descriptions(const struct romtool_image *image) {
    static const uint8_t magic[8] = {'r', 'o', 'm', 't', 'o', 'o', 'l', 0};
    struct romtool_image again = ROMTOOL_INIT, closed = ROMTOOL_INIT;
    uint8_t numbers[ROMTOOL_DESCRIPTION], changed[ROMTOOL_DESCRIPTION];
    memset(numbers, 7, sizeof numbers);
    romtool_numbers(&closed, numbers);
    for (size_t i = 0; i < sizeof numbers; i++) {
        wants(numbers[i] == 0, "the description of no image");
    }
    wants(romtool_from_numbers(&again, image->data, image->len, numbers) == ROMTOOL_NUMBERS, "no description");
    romtool_numbers(image, numbers);
    wants(memcmp(numbers, magic, sizeof magic) == 0, "the magic of a description");
    const uint32_t words[] = {1, image->format, (uint32_t)image->len, (uint32_t)(image->len >> 32), image->accessible,
        image->root, image->references, image->depth, 0, 0};
    for (size_t i = 0; i < sizeof words / sizeof *words; i++) {
        const uint8_t *at = numbers + 8 + 4 * i;
        const uint32_t word = at[0] | (uint32_t)at[1] << 8 | (uint32_t)at[2] << 16 | (uint32_t)at[3] << 24;
        wants(word == words[i], "a word of a description");
    }
    wants(romtool_from_numbers(&again, image->data, image->len, numbers) == 0, "a description");
    wants(are_same(&again, image, sizeof again), "the image of a description");
    for (size_t i = 0; i < sizeof numbers; i++) {
        const int is_believed = (i >= 12 && i < 16) || (i >= 24 && i < 40);
        memcpy(changed, numbers, sizeof changed);
        changed[i] ^= 64;
        if (!is_believed) {
            wants(romtool_from_numbers(&again, image->data, image->len, changed) == ROMTOOL_NUMBERS, "another description");
            closed.data = image->data;
            closed.len = image->len;
            wants(are_same(&again, &closed, sizeof again), "an image that was refused");
        }
    }
    wants(romtool_from_numbers(&again, image->data, image->len - 1, numbers) == ROMTOOL_NUMBERS, "a byte less");
    wants(romtool_from_numbers(&again, NULL, 0, numbers) == ROMTOOL_NUMBERS, "a description without bytes");
}

/* The numbers of the nodes of all names: as often as the walk met them, in rising order, and nothing is written beside them. */
static void numbered(const struct romtool_image *image) {
    static uint32_t found[4 * NODES + 1];
    uint64_t total = 0;
    for (size_t i = 0; i < known; i++) {
        total += names[i];
    }
    memset(found, 0xa5, sizeof found);
    wants(total <= 4 * NODES && romtool_nodes(image, NULL, 0) == total, "the number of names");
    wants(romtool_nodes(image, found, (romtool_size)total - 1) == total && found[0] == 0xa5a5a5a5u, "too little room");
    wants(romtool_nodes(image, found, 4 * NODES) == total && found[total] == 0xa5a5a5a5u, "the numbers of all names");
    for (size_t i = 1; i < total; i++) {
        wants(found[i - 1] <= found[i], "numbers that do not rise");
    }
    for (size_t i = 0; i < known; i++) {
        wants(romtool_links_among(found, (romtool_size)total, nodes[i]) == names[i], "how often a node occurs");
    }
    wants(romtool_links_among(found, (romtool_size)total, image->root + 1) == 0, "a number that is no node's");
    wants(romtool_links_among(found, 0, image->root) == 0 && romtool_links_among(NULL, 0, 0) == 0, "no numbers");
}

int main(int argc, char **argv) {
    FILE *file = argc == 2 ? fopen(argv[1], "rb") : NULL;
    uint8_t *data = malloc(1 << 16);
    struct romtool_image image = ROMTOOL_INIT;
    if (!file || !data) {
        return 2;
    }
    const size_t len = fread(data, 1, 1 << 16, file);
    fclose(file);
    if (romtool_check(&image, data, len)) {
        return 2;
    }
    wants(romtool_library_version() == ROMTOOL_VERSION, "the version of the library");
    const struct romtool_place volume = romtool_volume(&image);
    wants(volume.error == 0 && volume.at + volume.len <= image.len, "the place of the volume's name");
    printf("volume %.*s\n", (int)volume.len, (const char *)data + volume.at);
    descriptions(&image);
    texts(&image);
    wants(romtool_stat_node(&image, image.root).kind == ROMTOOL_DIRECTORY && romtool_is_node(&image, image.root), "the root");
    wants(romtool_lookup_str(&image, "/", true).node == image.root, "the root by its path");
    walk(&image, 0, image.root, image.root);
    for (size_t i = 0; i < known; i++) {
        wants(romtool_links(&image, nodes[i]) == names[i], "the names of a node");
    }
    wants(romtool_links(&image, image.root + 1) == 0, "the names of no node");
    numbered(&image);
    free(data);
    printf("calls %u\n", looked);
    return wrong != 0;
}
