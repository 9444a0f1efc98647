/* How many bytes of stack calls of the library take on this machine, and how many bytes of heap a check takes.
 *
 *     stack IMAGE: an image with a file /init and a link /d/link to it
 *
 * Each call runs on a stack of its own that was painted before; what a call of nothing takes is taken off. It prints the
 * references of the image, the heap, and then for each call its name and the bytes. */
#define _GNU_SOURCE
#include <inttypes.h>
#include <stdio.h>
#include <stdlib.h>
#include <string.h>
#include <ucontext.h>

#include "romtool_heap.h"

#define STACK 65536

static uint8_t stack[STACK], buffer[8192], *data;
static uint64_t room[1 << 16];
static size_t len;
static struct romtool_image image;
static struct romtool_file file, directory;
static struct romtool_entry entry;
static romtool_size count;
static ucontext_t back, there;

static void nothing(void) {
}

static void checks(void) {
    romtool_check(&image, data, len);
}

static void opens(void) {
    romtool_open_str(&file, &image, "/init");
}

static void stats(void) {
    const struct romtool_stat stat = romtool_stat_str(&image, "/d/link", true);
    count = stat.size;
}

static void maps(void) {
    const struct romtool_place place = romtool_map(&file, 0, 6000);
    count = place.len;
}

static void reads(void) {
    romtool_read(&file, buffer, sizeof buffer, &count);
}

static void lists(void) {
    romtool_readdir(&directory, &entry);
}

static void walks(void) {
    count = romtool_links(&image, image.root);
}

/* Returns the bytes that a call changes of its stack. */
static size_t taken(void (*call)(void)) {
    memset(stack, 0xa5, sizeof stack);
    getcontext(&there);
    there.uc_stack.ss_sp = stack;
    there.uc_stack.ss_size = sizeof stack;
    there.uc_link = &back;
    makecontext(&there, call, 0);
    swapcontext(&back, &there);
    size_t low = 0;
    while (low < sizeof stack && stack[low] == 0xa5) {
        low++;
    }
    return sizeof stack - low;
}

int main(int argc, char **argv) {
    static const struct {
        const char *name;
        void (*call)(void);
    } calls[] = {{"check", checks}, {"open", opens}, {"stat", stats}, {"map", maps}, {"read", reads}, {"readdir", lists},
        {"links", walks}};
    FILE *given = argc == 2 ? fopen(argv[1], "rb") : NULL;
    data = malloc(1 << 24);
    if (!given || !data) {
        return 2;
    }
    len = fread(data, 1, 1 << 24, given);
    fclose(given);
    romtool_area(room, sizeof room);
    if (romtool_check(&image, data, len) || romtool_open_str(&directory, &image, "/")) {
        return 2;
    }
    printf("references %" PRIu32 "\nheap %" PRIu64 "\n", image.references, romtool_area_most());
    for (size_t i = 0; i < sizeof calls / sizeof *calls; i++) {
        const size_t bare = taken(nothing), all = taken(calls[i].call);
        printf("%s %zu\n", calls[i].name, all - bare);
    }
    free(data);
    return 0;
}
