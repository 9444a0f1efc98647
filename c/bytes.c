/* SPDX-License-Identifier: MIT
 *
 * The functions on bytes that compilers call, for programs without a C library: firmware, and WebAssembly. Compile it
 * with -O2 -ffreestanding -fno-builtin, so that no function becomes a call of itself. */
#include <stddef.h>
#include <stdint.h>

void *memcpy(void *to, const void *from, size_t len);
void *memmove(void *to, const void *from, size_t len);
void *memset(void *to, int byte, size_t len);

void *memcpy(void *to, const void *from, size_t len) {
    uint8_t *out = to;
    const uint8_t *in = from;
    while (len--) {
        *out++ = *in++;
    }
    return to;
}

void *memmove(void *to, const void *from, size_t len) {
    uint8_t *out = to;
    const uint8_t *in = from;
    if ((uintptr_t)out - (uintptr_t)in >= len) {
        return memcpy(to, from, len);
    }
    while (len--) {
        out[len] = in[len];
    }
    return to;
}

void *memset(void *to, int byte, size_t len) {
    uint8_t *out = to;
    while (len--) {
        *out++ = (uint8_t)byte;
    }
    return to;
}

#ifdef __ARM_EABI__
/* The same with the names that compilers for Arm call. The arguments of memset are in another order. */
#define COPY(name, as) \
    void name(void *to, const void *from, size_t len); \
    void name(void *to, const void *from, size_t len) { as(to, from, len); }
#define SET(name) \
    void name(void *to, size_t len, int byte); \
    void name(void *to, size_t len, int byte) { memset(to, byte, len); }
#define CLEAR(name) \
    void name(void *to, size_t len); \
    void name(void *to, size_t len) { memset(to, 0, len); }
COPY(__aeabi_memcpy, memcpy)
COPY(__aeabi_memcpy4, memcpy)
COPY(__aeabi_memcpy8, memcpy)
COPY(__aeabi_memmove, memmove)
COPY(__aeabi_memmove4, memmove)
COPY(__aeabi_memmove8, memmove)
SET(__aeabi_memset)
SET(__aeabi_memset4)
SET(__aeabi_memset8)
CLEAR(__aeabi_memclr)
CLEAR(__aeabi_memclr4)
CLEAR(__aeabi_memclr8)
#endif
