/* SPDX-License-Identifier: MIT
 *
 * Prints what the functions answer that romtool calls of the kit's C (c/aarch64.c), in a directory with `dir`, `file`, and `link`,
 * which leads to `dir`. The arguments are `four` and an empty one, and the variable KIT is `value`. */
#include <errno.h>
#include <fcntl.h>
#include <stdint.h>
#include <stdio.h>
#include <string.h>

struct tried {
    uint64_t is_there;
    void *at;
};

int64_t rattle_arg(uint64_t number, char *to, uint64_t room);
int64_t rattle_env(const char *name, char *to, uint64_t room);
int32_t rattle_errno(void);
void rattle_set_errno(int32_t number);
int32_t rattle_open_dir_at(int32_t directory, const char *name);
struct tried rattle_alloc(uint64_t size, uint64_t align);
struct tried rattle_realloc(void *at, uint64_t kept, uint64_t size, uint64_t align);
void rattle_dealloc(void *at);

static void texts(void) {
    static const char *const names[] = {"KIT", "KIT_NONE"};
    for (uint64_t number = 1; number < 5; number++) {
        for (uint64_t room = 0; room < 7; room++) {
            char to[8] = "-------";
            const int64_t got = number < 4 ? rattle_arg(number, to, room) : rattle_env(names[0], to, room);
            printf("%d %d: %ld %s\n", (int)number, (int)room, (long)got, to);
        }
    }
    printf("%ld %ld\n", (long)rattle_env(names[1], NULL, 0), (long)rattle_arg(UINT64_MAX, NULL, 0));
}

static void directories(void) {
    static const char *const names[] = {"dir", ".", "link", "link/", "file", "none"};
    for (size_t at = 0; at < sizeof names / sizeof *names; at++) {
        const int got = rattle_open_dir_at(AT_FDCWD, names[at]);
        printf("%s: %d %d\n", names[at], got < 0 ? rattle_errno() : fcntl(got, F_GETFD), got < 0 ? 0 : fcntl(got, F_GETFL) & O_ACCMODE);
        printf("file in it: %d\n", got < 0 ? 0 : rattle_open_dir_at(got, "file"));
    }
    rattle_set_errno(7);
    printf("%d %d\n", errno, rattle_errno());
}

static void memory(void) {
    struct tried some = rattle_alloc(0, 16), other = rattle_alloc(100, 8);
    printf("%d %d %d\n", (int)some.is_there, (int)other.is_there, (int)(((uintptr_t)some.at | (uintptr_t)other.at) % 16));
    memset(other.at, 5, 100);
    other = rattle_realloc(other.at, 100, 100000, 8);
    printf("%d %d\n", (int)other.is_there, ((char *)other.at)[99]);
    rattle_dealloc(some.at);
    some = rattle_alloc(UINT64_MAX / 2, 1);
    printf("%d %d\n", (int)some.is_there, some.at != NULL);
    some = rattle_realloc(other.at, 100000, UINT64_MAX / 2, 8);
    printf("%d %d %d\n", (int)some.is_there, some.at != NULL, ((char *)other.at)[99]);
    rattle_dealloc(other.at);
}

int main(void) {
    texts();
    directories();
    memory();
    return 0;
}
