/* The subcommands `check`, `list` and `serve` over the library for C, which answer as those of romtool do.
 *
 *     answers check IMAGE | answers list IMAGE | answers serve IMAGE <LINES
 *
 * `serve` answers only valid requests (docs/LINES.md). The status is that of romtool, or 4 if the library returns
 * something that it never should. */
#include <inttypes.h>
#include <stdio.h>
#include <stdlib.h>
#include <string.h>

#include "romtool.h"

#define FILES 64
/* No file of a case has more bytes. A read of more reads this number. */
#define MOST ((size_t)1 << 22)

static const char *const error_names[11] = {
    "", "ENOENT", "ENOTDIR", "ELOOP", "ENAMETOOLONG", "EINVAL", "EBADF", "EISDIR", "ENXIO", "EMFILE", "ERANGE",
};
static const char *const formats[4] = {"", "romfs", "cramfs", "cramfs-be"};
static const char kinds[] = "?dflbcsp";

struct slot {
    int used;
    struct romtool_file file;
    uint8_t path[4096];
    size_t len;
};

static struct slot slots[FILES];
static uint8_t path[1 << 17];
static uint8_t line_path[1 << 14];

/* Ends the program if the library breaks its contract. */
static void wants(int holds, const char *what) {
    if (!holds) {
        fprintf(stderr, "the library: %s\n", what);
        exit(4);
    }
}

static void escaped(const uint8_t *bytes, size_t len) {
    for (size_t i = 0; i < len; i++) {
        if (bytes[i] >= 0x21 && bytes[i] <= 0x7e && bytes[i] != '%') {
            putchar(bytes[i]);
        } else {
            printf("%%%02X", bytes[i]);
        }
    }
}

static void put_stat(const struct romtool_stat *stat) {
    printf("%" PRIu32 " %c %04" PRIo32 " %" PRIu32 " %" PRIu32 " %" PRIu32 " %" PRIu32 " %" PRIu32, stat->ino,
        kinds[stat->kind], stat->mode, stat->uid, stat->gid, stat->size, stat->major, stat->minor);
}

/* Checks that lent bytes are in the image. */
static const uint8_t *bytes_of(const struct romtool_image *image, struct romtool_place place) {
    wants(place.at <= image->len && place.len <= image->len - place.at, "a place outside of the image");
    return image->data + place.at;
}

static int is_in_image(const struct romtool_image *image, const struct romtool_entry *entry) {
    const uintptr_t first = (uintptr_t)image->data, name = (uintptr_t)entry->name;
    return name >= first && name - first <= image->len && entry->name_len <= image->len - (name - first);
}

/* Checks the positions, the names and the parent of a directory at its start, for a few directories of each image. */
static void numbered(const struct romtool_image *image, const struct romtool_stat *stat, const struct romtool_file *dir, int is_root) {
    static int left = 8;
    struct romtool_file copy = *dir;
    struct romtool_entry entry = {0};
    uint64_t count = 0;
    if (left-- <= 0) {
        return;
    }
    while (count < 4 && romtool_readdir(&copy, &entry) == 0 && entry.some) {
        count++;
        wants(romtool_telldir(&copy) == count, "a number of entries that is not that of those that were read");
        wants(romtool_links(image, entry.node) >= 1, "an entry without a name");
        const struct romtool_node parent = romtool_parent(image, entry.node);
        wants(entry.kind == ROMTOOL_DIRECTORY ? parent.error == 0 && parent.node == dir->node : parent.error == ROMTOOL_ENOTDIR,
            "an entry whose parent is another directory");
    }
    const struct romtool_file there = copy;
    wants(romtool_seekdir(&copy, 0) == 0 && copy.position == dir->position, "a directory that is not set back to its start");
    wants(romtool_seekdir(&copy, count) == 0 && copy.position == there.position, "a directory that is not set back");
    wants(romtool_seekdir(&copy, UINT64_MAX) == ROMTOOL_EINVAL && copy.position == there.position, "a position behind the end");
    wants(romtool_links(image, stat->ino) == 1, "a directory with two names");
    const struct romtool_node parent = romtool_parent(image, stat->ino);
    wants(parent.error == 0 && (parent.node == stat->ino) == is_root, "a directory without a parent, or its own");
}

/* Prints the line of the node of this number, whose path is the first `len` bytes of `path`, and those below it. */
static void list(const struct romtool_image *image, size_t len, uint32_t node) {
    const size_t whole = len ? len : 1;
    struct romtool_file dir = {0}, by_path = {0};
    struct romtool_entry entry = {0};
    path[0] = '/';
    const struct romtool_stat stat = romtool_stat(image, path, whole, false);
    wants(stat.error == 0, "a listed name leads nowhere");
    const struct romtool_stat by_node = romtool_stat_node(image, node);
    wants(memcmp(&stat, &by_node, sizeof stat) == 0, "a node with other numbers than its path");
    put_stat(&stat);
    putchar(' ');
    escaped(path, whole);
    if (stat.kind == ROMTOOL_SYMLINK) {
        const struct romtool_place text = romtool_readlink(image, path, whole);
        const struct romtool_place same = romtool_readlink_node(image, node);
        wants(text.error == 0 && text.len == stat.size, "a link without its text");
        wants(same.error == 0 && same.at == text.at && same.len == text.len, "a node whose text differs from that of its path");
        putchar(' ');
        escaped(bytes_of(image, text), (size_t)text.len);
    } else {
        wants(romtool_readlink_node(image, node).error == ROMTOOL_EINVAL, "a text of a node that is no link");
    }
    putchar('\n');
    if (stat.kind != ROMTOOL_DIRECTORY) {
        wants(romtool_lookup_at(image, node, path, 1).error == ROMTOOL_ENOTDIR, "a name in a node that is no directory");
        return;
    }
    wants(romtool_lookup_at(image, node, (const uint8_t *)".", 1).error == ROMTOOL_ENOENT, "an entry that is a dot");
    wants(romtool_lookup_at(image, node, NULL, 0).error == ROMTOOL_ENOENT, "an entry without a name");
    wants(romtool_is_node(image, node) && !romtool_is_node(image, node + 1), "a number that is a node, or none");
    wants(romtool_open_node(&dir, image, node) == 0, "a directory that is not opened");
    numbered(image, &stat, &dir, len == 0);
    wants(romtool_open(&by_path, image, path, whole) == 0 && by_path.node == dir.node && by_path.position == dir.position,
        "a directory that its path opens otherwise");
    for (;;) {
        wants(romtool_readdir(&dir, &entry) == 0, "a directory that is not read");
        if (!entry.some) {
            return;
        }
        wants(is_in_image(image, &entry), "a name outside of the image");
        wants(romtool_stat_node(image, entry.node).kind == entry.kind, "an entry of another kind");
        const struct romtool_node found = romtool_lookup_at(image, node, entry.name, entry.name_len);
        wants(found.error == 0 && found.node == entry.node, "an entry that its name does not find");
        path[len] = '/';
        memcpy(path + len + 1, entry.name, (size_t)entry.name_len);
        list(image, len + 1 + (size_t)entry.name_len, entry.node);
    }
}

static void put_error(uint32_t error) {
    wants(error >= 1 && error <= 10 && error != 9, "an error that a call on an open image has not");
    printf("err %s\n", error_names[error]);
}

static void put_hex(const uint8_t *bytes, size_t len) {
    if (len == 0) {
        putchar('-');
    }
    for (size_t i = 0; i < len; i++) {
        printf("%02x", bytes[i]);
    }
    putchar('\n');
}

static void put_place(const struct romtool_image *image, struct romtool_place place) {
    if (place.error) {
        put_error(place.error);
        return;
    }
    printf("ok %" PRIu32 " %" PRIu64 " ", place.at, place.len);
    put_hex(bytes_of(image, place), (size_t)place.len);
}

static void put_stat_reply(struct romtool_stat stat) {
    if (stat.error) {
        put_error(stat.error);
        return;
    }
    printf("ok ");
    put_stat(&stat);
    putchar('\n');
}

static void put_done(uint32_t error) {
    if (error) {
        put_error(error);
    } else {
        puts("ok");
    }
}

static int digit_of(int c) {
    static const char digits[] = "0123456789abcdef";
    const char *found = c ? strchr(digits, c >= 'A' && c <= 'F' ? c - 'A' + 'a' : c) : NULL;
    return found ? (int)(found - digits) : -1;
}

/* Decodes the path of a line into `line_path`. A zero follows the words of a line. */
static size_t decoded(const char *word, size_t count) {
    size_t len = 0;
    if (count == 1 && word[0] == '-') {
        return 0;
    }
    for (size_t i = 0; i < count; i++) {
        if (word[i] == '%' && digit_of(word[i + 1]) >= 0 && digit_of(word[i + 2]) >= 0) {
            line_path[len++] = (uint8_t)(digit_of(word[i + 1]) * 16 + digit_of(word[i + 2]));
            i += 2;
        } else {
            line_path[len++] = (uint8_t)word[i];
        }
    }
    return len;
}

static void open_one(const struct romtool_image *image, size_t len) {
    struct romtool_file file = {0};
    const uint32_t error = romtool_open(&file, image, line_path, len);
    wants(error == file.error, "an error that is not that of the file");
    if (error) {
        put_error(error);
        return;
    }
    for (int i = 0; i < FILES; i++) {
        if (!slots[i].used) {
            slots[i].used = 1;
            slots[i].file = file;
            slots[i].len = len;
            memcpy(slots[i].path, line_path, len);
            printf("ok %d\n", i);
            return;
        }
    }
    printf("err EMFILE\n");
}

/* Answers a request with a path. Returns whether the line is one. */
static int by_path(const struct romtool_image *image, const char *word, const char *text, size_t count) {
    const size_t len = decoded(text, count);
    if (strcmp(word, "lookup") == 0) {
        const struct romtool_node node = romtool_lookup(image, line_path, len, true);
        if (node.error) {
            put_error(node.error);
        } else {
            printf("ok %" PRIu32 "\n", node.node);
        }
    } else if (strcmp(word, "stat") == 0) {
        put_stat_reply(romtool_stat(image, line_path, len, true));
    } else if (strcmp(word, "lstat") == 0) {
        put_stat_reply(romtool_stat(image, line_path, len, false));
    } else if (strcmp(word, "readlink") == 0) {
        put_place(image, romtool_readlink(image, line_path, len));
    } else if (strcmp(word, "open") == 0) {
        open_one(image, len);
    } else {
        return 0;
    }
    return 1;
}

static void read_one(struct romtool_file *file, size_t most) {
    uint8_t *buffer = malloc(most + 1);
    romtool_size count = 99;
    wants(buffer != NULL, "no memory for a buffer");
    memset(buffer, 0x5a, most + 1);
    const uint32_t error = romtool_read(file, most ? buffer : NULL, most, &count);
    wants(count <= most && buffer[most] == 0x5a && (!error || count == 0), "more was read than fits");
    if (error) {
        put_error(error);
    } else {
        printf("ok %" PRIu64 " ", count);
        put_hex(buffer, (size_t)count);
    }
    free(buffer);
}

static void readdir_one(const struct romtool_image *image, struct romtool_file *file) {
    struct romtool_entry entry = {0};
    const uint32_t error = romtool_readdir(file, &entry);
    if (error) {
        wants(entry.some == 0 && entry.name_len == 0 && entry.node == 0 && entry.kind == 0, "an entry beside an error");
        put_error(error);
    } else if (!entry.some) {
        puts("ok end");
    } else {
        wants(is_in_image(image, &entry), "a name outside of the image");
        wants(romtool_stat_node(image, entry.node).kind == entry.kind, "an entry of another kind");
        printf("ok ");
        escaped(entry.name, (size_t)entry.name_len);
        printf(" %" PRIu32 "\n", entry.node);
    }
}

static void rewind_one(const struct romtool_image *image, struct slot *slot) {
    const struct romtool_stat stat = romtool_fstat(&slot->file);
    if (stat.error || stat.kind != ROMTOOL_DIRECTORY) {
        put_error(stat.error ? stat.error : ROMTOOL_ENOTDIR);
    } else {
        put_done(romtool_open(&slot->file, image, slot->path, slot->len));
    }
}

/* Answers a request with a descriptor. A free slot is all zeros: a closed file. */
static void by_file(const struct romtool_image *image, const char *word, uint64_t fd, uint64_t one, uint64_t two) {
    static struct slot none;
    struct slot *slot = fd < FILES ? &slots[fd] : &none;
    struct romtool_file *file = &slot->file;
    if (strcmp(word, "fstat") == 0) {
        put_stat_reply(romtool_fstat(file));
    } else if (strcmp(word, "read") == 0) {
        read_one(file, one < MOST ? (size_t)one : MOST);
    } else if (strcmp(word, "lend") == 0) {
        put_place(image, romtool_lend(file, one));
    } else if (strcmp(word, "map") == 0) {
        /* the library maps no bytes of an empty file, and a server refuses them */
        const struct romtool_place none = {ROMTOOL_EINVAL, 0, 0}, place = romtool_map(file, one, two);
        wants(two || place.error || (one == 0 && romtool_fstat(file).size == 0), "no bytes of a file that has some");
        put_place(image, two || place.error ? place : none);
    } else if (strcmp(word, "seek") == 0) {
        put_done(romtool_seek(file, one));
    } else if (strcmp(word, "readdir") == 0) {
        readdir_one(image, file);
    } else if (strcmp(word, "rewind") == 0) {
        rewind_one(image, slot);
    } else if (strcmp(word, "close") == 0) {
        put_done(slot->used ? 0 : ROMTOOL_EBADF);
        memset(slot, 0, sizeof *slot);
    } else {
        wants(0, word);
    }
}

/* Reads a line without its end, and returns its length, or -1 at the end of the input. */
static long next_line(char *line, size_t most) {
    size_t len = 0;
    int c = getchar();
    if (c == EOF) {
        return -1;
    }
    for (; c != EOF && c != '\n'; c = getchar()) {
        wants(len + 3 < most, "a line that is too long");
        line[len++] = (char)c;
    }
    line[len] = line[len + 1] = line[len + 2] = 0;
    return (long)len;
}

static void serve(const struct romtool_image *image) {
    static char line[1 << 14];
    for (long len = next_line(line, sizeof line); len >= 0; len = next_line(line, sizeof line)) {
        uint64_t numbers[3] = {0, 0, 0};
        char *space = memchr(line, ' ', (size_t)len);
        char *text = space ? space + 1 : line + len;
        if (strcmp(line, "quit") == 0) {
            puts("ok");
            return;
        }
        if (space) {
            *space = 0;
        }
        if (!by_path(image, line, text, (size_t)(line + len - text))) {
            sscanf(text, "%" SCNu64 " %" SCNu64 " %" SCNu64, numbers, numbers + 1, numbers + 2);
            by_file(image, line, numbers[0], numbers[1], numbers[2]);
        }
    }
}

/* The bytes of a file, in exactly as much memory, so that no byte after them may be read. */
static uint8_t *read_all(const char *name, size_t *len) {
    FILE *file = fopen(name, "rb");
    uint8_t *data = NULL;
    long end;
    if (!file || fseek(file, 0, SEEK_END) != 0 || (end = ftell(file)) < 0) {
        return NULL;
    }
    rewind(file);
    *len = (size_t)end;
    data = malloc(*len ? *len : 1);
    if (data && fread(data, 1, *len, file) != *len) {
        free(data);
        data = NULL;
    }
    fclose(file);
    return data;
}

static int answer(const char *word, const struct romtool_image *image, uint32_t error) {
    if (error == ROMTOOL_MEMORY) {
        return 3;
    }
    if (error) {
        const char *const name = romtool_fault_name(image->fault);
        wants(error == ROMTOOL_FAULT && image->status == 0, "another end of a check");
        wants(strcmp(name, "Unknown") != 0, "a fault without a name");
        printf("fault %" PRIu32 " %s at %" PRIu32 "\n", image->fault, name, image->at);
        return 1;
    }
    wants(image->status == 1 && image->format >= 1 && image->format <= 3, "an image of no format");
    if (strcmp(word, "check") == 0) {
        printf("ok %s %" PRIu32 " %" PRIu32 "\n", formats[image->format], image->references, image->depth);
    } else if (strcmp(word, "list") == 0) {
        path[0] = '/';
        list(image, 0, romtool_lookup(image, path, 1, false).node);
    } else {
        serve(image);
    }
    return 0;
}

int main(int argc, char **argv) {
    struct romtool_image image = {0};
    size_t len = 0;
    if (argc != 3) {
        return 2;
    }
    uint8_t *data = read_all(argv[2], &len);
    if (!data) {
        return 3;
    }
    const uint32_t error = romtool_check(&image, data, len);
    const int status = answer(argv[1], &image, error);
    free(data);
    return status;
}
