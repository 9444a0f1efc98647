/* Checks an image on the build host, and prints it as the C source that reader.c includes: its bytes, and its
 * description.
 *
 *     numbers IMAGE >image.h */
#include <inttypes.h>
#include <stdio.h>
#include <stdlib.h>

#include "romtool.h"

int main(int argc, char **argv) {
    FILE *file = argc == 2 ? fopen(argv[1], "rb") : NULL;
    struct romtool_image image = ROMTOOL_INIT;
    uint8_t numbers[ROMTOOL_DESCRIPTION];
    if (!file || fseek(file, 0, SEEK_END) != 0) {
        return 2;
    }
    const long end = ftell(file);
    const size_t len = end > 0 ? (size_t)end : 0;
    uint8_t *data = malloc(len + 1);
    rewind(file);
    if (!data || fread(data, 1, len, file) != len) {
        fprintf(stderr, "%s is not read\n", argv[1]);
        return 2;
    }
    fclose(file);
    if (romtool_check(&image, data, len)) {
        fprintf(stderr, "fault %" PRIu32 " at %" PRIu32 "\n", image.fault, image.at);
        free(data);
        return 1;
    }
    printf("static const uint8_t image_bytes[%zu] = {", len);
    for (size_t i = 0; i < len; i++) {
        printf("%s%d,", i % 24 ? "" : "\n    ", data[i]);
    }
    romtool_numbers(&image, numbers);
    printf("\n};\nstatic const uint8_t image_numbers[ROMTOOL_DESCRIPTION] = {");
    for (size_t i = 0; i < sizeof numbers; i++) {
        printf("%s%d,", i % 24 ? "" : "\n    ", numbers[i]);
    }
    printf("\n};\n");
    free(data);
    return 0;
}
