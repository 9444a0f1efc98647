/* How a boot loader gets from an image in flash to the entry of a program that is executed in place.
 *
 *     first IMAGE PATH: prints where the program of that path is, and its first bytes, or what is missing */
#include <inttypes.h>
#include <stdio.h>
#include <stdlib.h>

#include "romtool.h"

/* The first byte of an executable file that is in one piece in the image; otherwise NULL, and what is missing. */
static const uint8_t *first_byte_of(const struct romtool_image *image, const char *path, const char **lacks) {
    struct romtool_file file = ROMTOOL_INIT;
    const uint32_t error = romtool_open_str(&file, image, path);
    const struct romtool_stat stat = romtool_fstat(&file);
    const struct romtool_place place = romtool_map(&file, 0, stat.size);
    if (!error && !place.error && place.len && (stat.mode & 0111)) {
        return image->data + place.at;
    }
    const uint32_t why = error ? error : place.error;
    *lacks = why ? romtool_strerror(why) : place.len ? "not executable" : "an empty file";
    return NULL;
}

/* The most bytes of an image that romtool builds. */
#define MOST (1 << 28)

/* The bytes of a file, instead of flash. */
static uint8_t *flash_of(const char *name, size_t *len) {
    FILE *file = fopen(name, "rb");
    uint8_t *data = malloc(MOST);
    if (file && data) {
        *len = fread(data, 1, MOST, file);
        fclose(file);
        return data;
    }
    free(data);
    if (file) {
        fclose(file);
    }
    return NULL;
}

int main(int argc, char **argv) {
    size_t len = 0;
    const char *lacks = NULL;
    if (argc != 3) {
        fprintf(stderr, "first IMAGE PATH\n");
        return 2;
    }
    uint8_t *flash = flash_of(argv[1], &len);
    struct romtool_image image = ROMTOOL_INIT;
    if (!flash) {
        perror(argv[1]);
        return 2;
    }
    const uint32_t error = romtool_check(&image, flash, len);
    if (error) {
        fprintf(stderr, "%s: %s: %" PRIu32 " %s at %" PRIu32 "\n", argv[1], romtool_strerror(error), image.fault,
            romtool_fault_name(image.fault), image.at);
        free(flash);
        return 1;
    }
    const uint8_t *entry = first_byte_of(&image, argv[2], &lacks);
    if (entry) {
        printf("at %td of the image: %02x %02x %02x %02x\n", entry - flash, entry[0], entry[1], entry[2], entry[3]);
    } else {
        fprintf(stderr, "%s: %s\n", argv[2], lacks);
    }
    free(flash);
    return entry == NULL;
}
