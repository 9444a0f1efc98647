/* The functions of romtool.h itself: prints the version, the faults and the errors, and compares the calls with a path
 * that ends with a zero with those with a length.
 *
 *     header IMAGE: an image with a directory /d, a file /init and a link /d/link */
#include <inttypes.h>
#include <stdio.h>
#include <stdlib.h>
#include <string.h>

#include "romtool.h"

static int wrong;

static void wants(int holds, const char *what) {
    if (!holds) {
        wrong = 1;
        printf("wrong: %s\n", what);
    }
}

static const uint8_t *bytes_of(const char *path) {
    return (const uint8_t *)path;
}

static void by_path(const struct romtool_image *image, const char *path) {
    struct romtool_file one = ROMTOOL_INIT, other = ROMTOOL_INIT;
    const size_t len = strlen(path);
    for (int follow = 0; follow < 2; follow++) {
        const struct romtool_node a = romtool_lookup_str(image, path, follow);
        const struct romtool_node b = romtool_lookup(image, bytes_of(path), len, follow);
        const struct romtool_stat c = romtool_stat_str(image, path, follow);
        const struct romtool_stat d = romtool_stat(image, bytes_of(path), len, follow);
        wants(memcmp(&a, &b, sizeof a) == 0 && memcmp(&c, &d, sizeof c) == 0, path);
    }
    const struct romtool_place e = romtool_readlink_str(image, path);
    const struct romtool_place f = romtool_readlink(image, bytes_of(path), len);
    wants(e.error == f.error && e.at == f.at && e.len == f.len, path);
    wants(romtool_open_str(&one, image, path) == romtool_open(&other, image, bytes_of(path), len), path);
    wants(one.error == other.error && one.node == other.node && one.image.status == other.image.status, path);
}

/* Paths around the greatest length, without and with a slash in front. */
static void long_paths(const struct romtool_image *image) {
    static char path[6001];
    for (int slash = 0; slash < 2; slash++) {
        for (size_t len = 4090; len <= 6000; len += len < 4100 ? 1 : 950) {
            memset(path, '/', len);
            path[len] = 0;
            path[0] = slash ? '/' : 'x';
            by_path(image, path);
        }
    }
    path[4095] = 0;
    wants(romtool_stat_str(image, path + 1, true).error == ROMTOOL_OK, "a path of 4094 slashes");
}

int main(int argc, char **argv) {
    static uint8_t data[1 << 20];
    FILE *file = argc == 2 ? fopen(argv[1], "rb") : NULL;
    struct romtool_image image = ROMTOOL_INIT;
    if (!file) {
        return 2;
    }
    const size_t len = fread(data, 1, sizeof data, file);
    fclose(file);
    wants(romtool_check(&image, data, len) == ROMTOOL_OK, "the image");
    static const char *const paths[] = {
        "/", "", "/d", "/d/link", "/init", "/d/null", "/none", "init", "/init/x", "/d/../init",
    };
    for (size_t i = 0; i < sizeof paths / sizeof *paths; i++) {
        by_path(&image, paths[i]);
    }
    long_paths(&image);
    wants(romtool_lookup_str(&image, NULL, true).error == ROMTOOL_ENOENT, "NULL for a path");
    wants(romtool_stat_str(&image, "/init", true).kind == ROMTOOL_REGULAR, "the file");
    printf("%s %d\n", romtool_version(), ROMTOOL_VERSION);
    for (uint32_t i = 0; i < 40; i++) {
        printf("%s\n", romtool_fault_name(i));
    }
    for (uint32_t i = 0; i < 18; i++) {
        printf("%s\n", romtool_strerror(i));
    }
    return wrong;
}
