/* Starts a program of newlib on the board: its words come from the emulator, its files are those of the host. */
#include <errno.h>
#include <stddef.h>
#include <stdlib.h>

#include "start.h"

int main(int, char **);
void initialise_monitor_handles(void);
void *_sbrk(ptrdiff_t by);
void _exit(int status);
void _init(void);
void _fini(void);

/* What the C library calls at the start and the end, where there is nothing to do. */
void _init(void) {
}

void _fini(void) {
}

void _exit(int status) {
    ends(status);
    for (;;) {
    }
}

void *_sbrk(ptrdiff_t by) {
    static char *at = heap_start;
    if (by > heap_end - at) {
        errno = ENOMEM;
        return (void *)-1;
    }
    char *was = at;
    at += by;
    return was;
}

void reset(void) {
    static char line[512], *argv[8];
    struct {
        char *at;
        uint32_t len;
    } given = {line, sizeof line};
    int argc = 0;
    memory_at_start();
    asked(0x15, &given);
    for (char *at = line; *at && argc < 7;) {
        argv[argc++] = at;
        while (*at && *at != ' ') {
            at++;
        }
        if (*at) {
            *at++ = 0;
        }
    }
    initialise_monitor_handles();
    exit(main(argc, argv));
}
