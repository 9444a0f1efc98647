/* SPDX-License-Identifier: MIT
 *
 * The functions that romtool calls of the kit's libos_c.a and liblibc_c.a, which are only for x86-64. romtool for aarch64 is
 * compiled from the module for x86-64. The numbers that it passes to the C library are the same on aarch64, which
 * tools/unproved_aarch64.py asserts; only those of O_DIRECTORY and O_NOFOLLOW differ, which are used in this file. */
#include <errno.h>
#include <fcntl.h>
#include <stddef.h>
#include <stdint.h>
#include <stdlib.h>

/* Whether there is memory, and where: two registers. */
struct tried {
    uint64_t is_there;
    void *at;
};

int64_t rattle_arg(uint64_t number, char *to, uint64_t room);
int64_t rattle_env(const char *name, char *to, uint64_t room);
int32_t rattle_errno(void);
void rattle_set_errno(int32_t number);
int32_t rattle_open_dir_at(int32_t directory, const char *name);
struct tried rattle_alloc(uint64_t size, uint64_t align);
struct tried rattle_realloc(void *at, uint64_t kept, uint64_t size, uint64_t align);
void rattle_dealloc(void *at);

static int count;
static char **arguments;

/* Keeps the arguments before main. */
__attribute__((constructor)) static void keep(int argc, char **argv) {
    count = argc;
    arguments = argv;
}

/* Copies a text without its final zero, and returns its length: -1 if there is no text, and -2 if it is longer than the room. */
static int64_t copied(const char *text, char *to, uint64_t room) {
    uint64_t len = 0;
    if (!text) {
        return -1;
    }
    for (; text[len]; len++) {
        if (len == room) {
            return -2;
        }
        to[len] = text[len];
    }
    return (int64_t)len;
}

int64_t rattle_arg(uint64_t number, char *to, uint64_t room) {
    return copied(number < (uint64_t)count ? arguments[number] : NULL, to, room);
}

int64_t rattle_env(const char *name, char *to, uint64_t room) {
    return copied(getenv(name), to, room);
}

int32_t rattle_errno(void) {
    return errno;
}

void rattle_set_errno(int32_t number) {
    errno = number;
}

int32_t rattle_open_dir_at(int32_t directory, const char *name) {
    return openat(directory, name, O_RDONLY | O_DIRECTORY | O_NOFOLLOW | O_CLOEXEC);
}

static struct tried tried(void *at) {
    static char none;
    struct tried memory = {at != NULL, at ? at : &none};
    return memory;
}

/* malloc aligns to 16 bytes, and nothing asks for more. */
struct tried rattle_alloc(uint64_t size, uint64_t align) {
    return tried(malloc(size ? size : align));
}

struct tried rattle_realloc(void *at, uint64_t kept, uint64_t size, uint64_t align) {
    (void)kept;
    return tried(realloc(at, size ? size : align));
}

void rattle_dealloc(void *at) {
    free(at);
}
