/* What the programs on the board share: semihosting, and the memory at the start. */
#ifndef START_H
#define START_H

#include <stdint.h>

extern char stack_top[], data_start[], data_end[], data_load[], bss_start[], bss_end[], heap_start[], heap_end[];

/* Asks the emulator for something. */
static inline int asked(int number, const void *block) {
    register int r0 __asm__("r0") = number;
    register const void *r1 __asm__("r1") = block;
    __asm__ volatile("bkpt 0xab" : "+r"(r0) : "r"(r1) : "memory");
    return r0;
}

static inline void memory_at_start(void) {
    for (char *to = data_start, *from = data_load; to < data_end;) {
        *to++ = *from++;
    }
    for (char *to = bss_start; to < bss_end;) {
        *to++ = 0;
    }
}

/* Ends the emulator with a status. */
static inline void ends(int status) {
    const uint32_t block[2] = {0x20026, (uint32_t)status};
    for (;;) {
        asked(0x20, block);
    }
}

static void fault(void) {
    asked(4, "HARDFAULT\n");
    ends(99);
}

void reset(void);

static const struct {
    char *stack;
    void (*handlers[6])(void);
} vectors __attribute__((section(".vectors"), used)) = {stack_top, {reset, fault, fault, fault, fault, fault}};

#endif
