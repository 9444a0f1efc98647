/* The words of a program of picolibc on RV32, which the emulator has: calls the program's own main, named main_of_words. */
#include <stdint.h>

int main_of_words(int argc, char **argv);

/* Asks the emulator for something. The three instructions may not be compressed, and lie in one page. */
static int asked(int number, const void *block) {
    register int a0 __asm__("a0") = number;
    register const void *a1 __asm__("a1") = block;
    __asm__ volatile(".option push\n.option norvc\n.balign 16\nslli x0, x0, 0x1f\nebreak\nsrai x0, x0, 7\n.option pop"
                     : "+r"(a0)
                     : "r"(a1)
                     : "memory");
    return a0;
}

int main(void) {
    static char line[512], *argv[8];
    struct {
        char *at;
        uint32_t len;
    } given = {line, sizeof line};
    int argc = 0;
    asked(0x15, &given);
    for (char *at = line; *at && argc < 7;) {
        argv[argc++] = at;
        while (*at && *at != ' ') {
            at++;
        }
        if (*at) {
            *at++ = 0;
        }
    }
    return main_of_words(argc, argv);
}
