/* A program on the board as firmware has it: the image in flash, a heap of its own, no C library except c/bytes.c.
 *
 * image.h, which numbers.c prints, has the image's bytes and its description. With CHECK the image is checked on the
 * board, over c/area.c; without it, it is opened by the description. Prints what each call answers, and the bytes of stack that it
 * took. */
#include "romtool_heap.h"
#include "image.h"
#include "start.h"

#define STACK 24576
#define AREA 65536

static void put(const char *text) {
    asked(4, text);
}

static void number(const char *what, unsigned value) {
    char digits[12];
    int at = 11;
    digits[at] = 0;
    do {
        digits[--at] = (char)('0' + value % 10);
    } while (value /= 10);
    put(what);
    put(digits + at);
}

static volatile uint8_t *low, *high;

static uint8_t *stack_pointer(void) {
    uint8_t *at;
    __asm__ volatile("mov %0, sp" : "=r"(at));
    return at;
}

/* Marks the stack below the caller's, and later looks how far down it was used. */
static void __attribute__((noinline)) begin(void) {
    high = stack_pointer();
    low = high - STACK;
    for (volatile uint8_t *at = low; at < high - 32; at++) {
        *at = 0xa5;
    }
}

static void __attribute__((noinline)) end(const char *what, unsigned error) {
    volatile uint8_t *at = low;
    while (*at == 0xa5) {
        at++;
    }
    put(what);
    number(" ", error);
    number(" stack ", (unsigned)(high - at));
    put("\n");
}

static struct romtool_image opened;
static struct romtool_file file;

static void from_image(void) {
#ifdef CHECK
    static uint64_t area[AREA / 8];
    romtool_area(area, sizeof area);
    begin();
    struct romtool_image image = ROMTOOL_INIT;
    const uint32_t error = romtool_check(&opened, image_bytes, sizeof image_bytes);
    end("check", error);
    number("heap ", (unsigned)romtool_area_most());
    number(" left ", (unsigned)romtool_area_blocks());
    number(" references ", opened.references);
    romtool_from_numbers(&image, image_bytes, sizeof image_bytes, image_numbers);
    number(" same ", opened.root == image.root && opened.references == image.references && opened.format == image.format
        && opened.accessible == image.accessible && opened.depth == image.depth);
    put("\n");
#else
    begin();
    end("numbers", romtool_from_numbers(&opened, image_bytes, sizeof image_bytes, image_numbers));
#endif
}

/* The whole file in place, and then copied. */
static void run(void) {
    static uint8_t buffer[8192];
    romtool_size count = 0;
    unsigned sum = 0, copied = 0;
    begin();
    const uint32_t error = romtool_open_str(&file, &opened, "/init");
    end("open", error);
    begin();
    const struct romtool_stat stat = romtool_fstat(&file);
    end("fstat", stat.error);
    begin();
    const struct romtool_place place = romtool_map(&file, 0, stat.size);
    end("map", place.error);
    for (unsigned i = 0; i < place.len; i++) {
        sum += opened.data[place.at + i];
    }
#ifndef BARE
    begin();
    const uint32_t wrong = romtool_read(&file, buffer, sizeof buffer, &count);
    end("read", wrong);
    for (unsigned i = 0; i < count; i++) {
        copied += buffer[i];
    }
    struct romtool_entry entry;
    romtool_open_str(&file, &opened, "/");
    begin();
    const uint32_t odd = romtool_readdir(&file, &entry);
    end("readdir", odd);
    begin();
    const struct romtool_stat found = romtool_stat_str(&opened, "/d/link", true);
    end("stat", found.error);
    begin();
    const uint64_t names = romtool_links(&opened, opened.root);
    end("links", names != 1);
#endif
    number("sum ", sum);
    number(" ", copied);
    number(" in flash ", opened.data + place.at < (const uint8_t *)0x400000);
    put("\n");
    (void)buffer;
    (void)count;
}

void reset(void) {
    memory_at_start();
    from_image();
    run();
    ends(0);
}
