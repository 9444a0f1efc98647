/* flashpages PROCESS: a line `pages PATH ADDRESS COUNT COLUMN` for each mapping of a file. COUNT pages of it are in flash, which is the
 * memory from 0x10000000 up to 0x1a000000, by the physical address of each page (/proc/physical of physdev.c). ADDRESS is where its
 * first page is there, or would be if it was not copied; 0 if no page is in flash, or if they do not follow one another.
 *
 * COLUMN is how many pages are in flash if the column of the offset in /proc/PROCESS/maps is believed: Linux puts the address there if
 * it maps all pages from flash, and leaves it there when a page is copied since the process or the dynamic linker writes into it. */
#include <fcntl.h>
#include <stdint.h>
#include <stdio.h>
#include <string.h>
#include <unistd.h>

static int is_flash(uint64_t address)
{
    return address >= 0x10000000 && address < 0x1a000000;
}

/* The pages of a mapping in flash, and where the first of them is, as above. */
static unsigned long in_flash(int physical, unsigned long start, unsigned long all, uint64_t *begin)
{
    unsigned long found = 0, apart = 0;
    for (unsigned long k = 0; k < all; k++) {
        uint64_t address = 0;
        if (pread(physical, &address, 8, (off_t)(start / 4096 + k) * 8) == 8 && is_flash(address)) {
            *begin = found++ ? *begin : address - k * 4096;
            apart += address - k * 4096 != *begin;
        }
    }
    if (!found || apart) {
        *begin = 0;
    }
    return found;
}

int main(int count, char **words)
{
    char name[64], line[1024], path[512];
    unsigned long start, end, offset;
    if (count != 2) {
        return 2;
    }
    snprintf(name, sizeof name, "/proc/%s/maps", words[1]);
    FILE *maps = fopen(name, "r");
    int physical = open("/proc/physical", O_RDWR);
    if (!maps || physical < 0 || write(physical, words[1], strlen(words[1])) < 0) {
        return 1;
    }
    while (fgets(line, sizeof line, maps)) {
        if (sscanf(line, "%lx-%lx %*s %lx %*s %*s %511s", &start, &end, &offset, path) != 4 || path[0] != '/') {
            continue;
        }
        unsigned long all = (end - start) / 4096;
        uint64_t begin = 0;
        unsigned long found = in_flash(physical, start, all, &begin);
        printf("pages %s 0x%lx %lu %lu\n", path, (unsigned long)begin, found, is_flash(offset) ? all : found);
    }
    return 0;
}
