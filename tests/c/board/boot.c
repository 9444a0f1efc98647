/* A program without a C library on Linux, under an emulator of programs: the image of image.h is checked, and what its directory
 * holds is looked up, opened and read. It ends with status 42, or with the number of the first step that failed. */
#include "romtool_heap.h"

#include "image.h" /* IMAGE, the image's bytes; SIZE and SUM, the size and the sum of the bytes of /init */

#if defined __riscv
__asm__(".globl _start\n_start: call boot\nli a7, 93\necall\n");
#elif defined __aarch64__
__asm__(".globl _start\n_start: bl boot\nmov x8, #93\nsvc #0\n");
#elif defined __x86_64__
__asm__(".globl _start\n_start: call boot\nmov %eax, %edi\nmov $60, %eax\nsyscall\n");
#elif defined __thumb__
__asm__(".syntax unified\n.globl _start\n.thumb_func\n_start: bl boot\nmovs r7, #1\nsvc #0\n");
#elif defined __arm__
__asm__(".globl _start\n.type _start, %function\n_start: bl boot\nmov r7, #1\nsvc #0\n");
#elif defined __mips__
__asm__(".globl __start\n.ent __start\n__start: jal boot\nnop\nmove $4, $2\nli $2, 4001\nsyscall\n.end __start\n");
#endif

#if defined __mips__
/* Divisions of 64 bits, which a compiler has in a library of its own. */
uint64_t __udivdi3(uint64_t number, uint64_t by);
uint64_t __umoddi3(uint64_t number, uint64_t by);

uint64_t __umoddi3(uint64_t number, uint64_t by) {
    return number - __udivdi3(number, by) * by;
}

uint64_t __udivdi3(uint64_t number, uint64_t by) {
    uint64_t rest = 0, found = 0;
    for (int bit = 63; bit >= 0; bit--) {
        const uint64_t top = rest >> 63;
        rest = rest << 1 | (number >> bit & 1);
        if (top || rest >= by) {
            rest -= by;
            found |= (uint64_t)1 << bit;
        }
    }
    return found;
}
#endif

static uint64_t room[4096];
static const uint8_t held[] = {IMAGE};

/* Each kind of a node's numbers: by its path, by its node, and of an open file. */
static int is_init(const struct romtool_stat *it, uint32_t node) {
    return !it->error && it->ino == node && it->kind == ROMTOOL_REGULAR && it->mode == 0755 && it->size == SIZE && !it->major;
}

static int is_link(const struct romtool_image *image, const struct romtool_place *it) {
    static const char text[] = "../init";
    for (uint32_t at = 0; !it->error && at < it->len; at++) {
        if (image->data[it->at + at] != (uint8_t)text[at]) {
            return 0;
        }
    }
    return !it->error && it->len == sizeof text - 1;
}

static int nodes(const struct romtool_image *image) {
    uint64_t budget = 3;
    const struct romtool_node init = romtool_lookup_str(image, "/d/link", true);
    const struct romtool_node link = romtool_lookup_within_str(image, "/d/link", false, &budget);
    const struct romtool_node none = romtool_lookup_str(image, "/none", true);
    const struct romtool_node named = romtool_lookup_at(image, image->root, ROMTOOL_TEXT("init"), 4);
    if (init.error || !init.node || link.error || budget >= 3 || none.error != ROMTOOL_ENOENT || none.node) {
        return 3;
    }
    if (named.error || named.node != init.node || !romtool_is_node(image, init.node) || romtool_is_node(image, 1)) {
        return 4;
    }
    const struct romtool_stat one = romtool_stat_str(image, "/init", true), other = romtool_stat_node(image, init.node);
    if (!is_init(&one, init.node) || !is_init(&other, init.node)) {
        return 5;
    }
    const struct romtool_place by_path = romtool_readlink_str(image, "/d/link"), by_node = romtool_readlink_node(image, link.node);
    return is_link(image, &by_path) && is_link(image, &by_node) ? 0 : 6;
}

static int contents(const struct romtool_image *image) {
    struct romtool_file file = ROMTOOL_INIT;
    uint8_t buffer[16];
    romtool_size count = 0;
    uint32_t sum = 0;
    if (romtool_open_str(&file, image, "/init")) {
        return 7;
    }
    const struct romtool_stat stat = romtool_fstat(&file);
    const struct romtool_place place = romtool_map(&file, 0, SIZE);
    if (!is_init(&stat, file.node) || place.error || place.len != SIZE) {
        return 8;
    }
    for (uint32_t at = 0; at < SIZE; at++) {
        sum += image->data[place.at + at];
    }
    const struct romtool_place lent = romtool_lend(&file, 5);
    if (sum != SUM || lent.error || lent.at != place.at || lent.len != 5 || file.position != 5) {
        return 9;
    }
    if (romtool_seek(&file, 7) || romtool_read(&file, buffer, 16, &count) || count != 16 || buffer[15] != image->data[place.at + 22]) {
        return 10;
    }
    return 0;
}

static int entries(const struct romtool_image *image) {
    struct romtool_file file = ROMTOOL_INIT;
    struct romtool_entry entry;
    uint32_t count = 0;
    if (romtool_open_node(&file, image, image->root)) {
        return 11;
    }
    while (!romtool_readdir(&file, &entry) && entry.some) {
        count += entry.name >= held && entry.name + entry.name_len <= held + sizeof held;
    }
    return count == 3 ? 0 : 12;
}

int boot(void);

int boot(void) {
    struct romtool_image image = ROMTOOL_INIT;
    romtool_area(room, sizeof room);
    if (romtool_check(&image, held, 20) != ROMTOOL_FAULT || romtool_check(&image, held, sizeof held) || romtool_area_blocks()) {
        return 1;
    }
    int failed = nodes(&image);
    failed = failed ? failed : contents(&image);
    failed = failed ? failed : entries(&image);
    return failed ? failed : 42;
}
