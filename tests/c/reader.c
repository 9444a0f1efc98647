/* A boot loader's reader: no check, no heap, no C library. The image and its description are in image.h, which
 * numbers.c printed on the build host. It ends with the sum of the bytes of the file PATH, modulo 64, or with 64 and an
 * error. */
#include "romtool.h"
#include "image.h"

#ifndef PATH
#define PATH "/init"
#endif

void *memcpy(void *to, const void *from, size_t len) {
    uint8_t *out = to;
    const uint8_t *in = from;
    while (len--) {
        *out++ = *in++;
    }
    return to;
}

void *memmove(void *to, const void *from, size_t len) {
    uint8_t *out = to;
    const uint8_t *in = from;
    if (out < in) {
        return memcpy(to, from, len);
    }
    while (len--) {
        out[len] = in[len];
    }
    return to;
}

void *memset(void *to, int byte, size_t len) {
    uint8_t *out = to;
    while (len--) {
        *out++ = (uint8_t)byte;
    }
    return to;
}

static int sum_of_file(void) {
    struct romtool_image image = ROMTOOL_INIT;
    struct romtool_file file = ROMTOOL_INIT;
    uint32_t error = romtool_from_numbers(&image, image_bytes, sizeof image_bytes, image_numbers);
    if (!error) {
        error = romtool_open_str(&file, &image, PATH);
    }
    if (error) {
        return 64 + (int)error;
    }
    const struct romtool_stat stat = romtool_fstat(&file);
    const struct romtool_place place = romtool_map(&file, 0, stat.size);
    if (place.error) {
        return 64 + (int)place.error;
    }
    /* Here a boot loader would jump to image.data + place.at, in flash. */
    unsigned sum = 0;
    for (uint64_t i = 0; i < place.len; i++) {
        sum += image.data[place.at + i];
    }
    return (int)(sum % 64);
}

/* Linux instead of a board: the status of the process is the result. */
#if defined __x86_64__
__attribute__((force_align_arg_pointer)) void _start(void) {
    const long status = sum_of_file();
    __asm__ volatile("syscall" : : "a"(60L), "D"(status) : "rcx", "r11", "memory");
    for (;;) {
    }
}
#elif defined __aarch64__
void _start(void) {
    const long sum = sum_of_file(); /* before the registers are set, which a call may change */
    register long number __asm__("x8") = 93;
    register long status __asm__("x0") = sum;
    __asm__ volatile("svc 0" : : "r"(number), "r"(status) : "memory");
    for (;;) {
    }
}
#elif defined __riscv
void _start(void) {
    const long sum = sum_of_file();
    register long number __asm__("a7") = 93;
    register long status __asm__("a0") = sum;
    __asm__ volatile("ecall" : : "r"(number), "r"(status) : "memory");
    for (;;) {
    }
}
#endif
