/* Uses the image of the file that is named by recipes/u-boot: lists its directories, and loads a file from byte 5998 on. */
#include "romtool_uboot.h"

static uint8_t held[1 << 20], loaded[1 << 16];
static uint64_t room[1 << 14];

int main(int count, char **words) {
    FILE *file = count > 1 ? fopen(words[1], "rb") : NULL;
    if (!file) {
        return 2;
    }
    const size_t len = fread(held, 1, sizeof held, file);
    printf("%d\n", romtool_use(held, len, room, 16));
    printf("%d\n", romtool_use(held, len, room, sizeof room));
    printf("%d\n", romtool_ls("/"));
    printf("%d\n", romtool_ls("/d"));
    printf("%d %d\n", romtool_ls("/init"), romtool_ls("/none"));
    printf("%d %d %d\n", romtool_exists("/d/link"), romtool_exists("/none"), romtool_exists("d"));
    loff_t size = 9, read = 9;
    const int sized = romtool_size_of("/d/link", &size);
    printf("%d %ld\n", sized, (long)size);
    const int tail = romtool_load("/d/link", loaded, 5998, 0, &read);
    printf("%d %ld %u %u\n", tail, (long)read, loaded[0], loaded[1]);
    const int part = romtool_load("/init", loaded, 3, 2, &read);
    printf("%d %ld %u %u\n", part, (long)read, loaded[0], loaded[1]);
    const int none = romtool_load("/d", loaded, 0, 0, &read);
    printf("%d %ld\n", none, (long)read);
    return 0;
}
