/* Checks images over a heap that records sizes, and refuses each of its calls in turn.
 *
 *     refused IMAGE..
 *
 * Prints for each image what `romtool check` prints of it. The status is 0 if every block was freed, and each check
 * that was refused memory either reported that, with a closed image, or returned the right verdict without it. The
 * last line has the numbers that were seen. */
#include <inttypes.h>
#include <stdio.h>
#include <stdlib.h>
#include <string.h>

#include "recording.h"
#include "romtool.h"

/* This number of calls is refused one by one. If an image makes more calls, only some of the others are refused. */
#define EACH 200

static unsigned long refusals, without, wrong;
static size_t most;

static void wants(int holds, const char *name, const char *what) {
    if (!holds) {
        wrong++;
        printf("%s: %s (refusal %lu)\n", name, what, recorded.refuse);
    }
}

/* Checks an image with one call refused, or none. */
static uint32_t checked(const char *name, struct romtool_image *image, const uint8_t *data, size_t len,
    unsigned long refuse) {
    memset(&recorded, 0, sizeof recorded);
    memset(image, 0x77, sizeof *image);
    recorded.refuse = refuse;
    const uint32_t error = romtool_check(image, data, len);
    wants(!recorded.wrong, name, recorded.wrong ? recorded.wrong : "");
    wants(recorded.blocks == 0 && recorded.bytes == 0, name, "memory that was not given back");
    return error;
}

static void print(const struct romtool_image *image, uint32_t error) {
    static const char *const formats[4] = {"", "romfs", "cramfs", "cramfs-be"};
    if (error == ROMTOOL_OK) {
        printf("ok %s %" PRIu32 " %" PRIu32 "\n", formats[image->format], image->references, image->depth);
    } else {
        printf("fault %" PRIu32 " %s at %" PRIu32 "\n", image->fault, romtool_fault_name(image->fault), image->at);
    }
}

static int is_closed(const struct romtool_image *image) {
    return image->status == 0 && image->format == 0 && image->fault == 0 && image->at == 0 && image->accessible == 0
        && image->root == 0 && image->references == 0 && image->depth == 0;
}

static void image(const char *name, const uint8_t *data, size_t len) {
    struct romtool_image first, other;
    const uint32_t error = checked(name, &first, data, len, 0);
    const unsigned long calls = recorded.calls;
    most = recorded.most > most ? recorded.most : most;
    wants(error == ROMTOOL_OK || error == ROMTOOL_FAULT, name, "memory was refused by nobody");
    print(&first, error);
    for (unsigned long refuse = 1; refuse <= calls; refuse += refuse < EACH ? 1 : calls / EACH + 1) {
        /* A check may do without the refused memory. Then it returns the same verdict as otherwise. */
        if (checked(name, &other, data, len, refuse) == ROMTOOL_MEMORY) {
            wants(is_closed(&other), name, "an image that is open without memory");
        } else {
            wants(memcmp(&first, &other, sizeof first) == 0, name, "another verdict after a refusal");
            without++;
        }
        refusals++;
    }
    wants(checked(name, &other, data, len, calls + 1) == error, name, "another verdict than before");
    wants(memcmp(&first, &other, sizeof first) == 0, name, "other numbers than before");
}

int main(int argc, char **argv) {
    for (int i = 1; i < argc; i++) {
        FILE *file = fopen(argv[i], "rb");
        if (!file || fseek(file, 0, SEEK_END) != 0) {
            return 2;
        }
        const long len = ftell(file);
        uint8_t *data = len >= 0 ? malloc(len ? (size_t)len : 1) : NULL;
        rewind(file);
        if (!data || fread(data, 1, (size_t)len, file) != (size_t)len) {
            return 2;
        }
        fclose(file);
        image(argv[i], data, (size_t)len);
        free(data);
    }
    printf("%lu refusals, %lu that a check did without, %zu bytes at most\n", refusals, without, most);
    return wrong != 0;
}
