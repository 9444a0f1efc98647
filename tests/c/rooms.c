/* Checks each image in several threads at the same time, each in a room of its own: all find what a check by itself
 * finds, and the room of one check is enough for each. The arguments are files. */
#include <inttypes.h>
#include <pthread.h>
#include <stdio.h>
#include <stdlib.h>
#include <string.h>

#include "romtool_heap.h"

enum { THREADS = 4, TIMES = 50, ROOM = 1 << 22 };

struct task {
    const uint8_t *data;
    size_t len;
    romtool_size room;
    uint32_t error;
    struct romtool_image image;
    int wrong;
};

static void *checks(void *given) {
    struct task *task = given;
    void *room = malloc(task->room + 16);
    for (int i = 0; room && i < TIMES; i++) {
        struct romtool_image image = ROMTOOL_INIT;
        const uint32_t error = romtool_check_in(&image, task->data, task->len, room, task->room + 16);
        task->wrong += error != task->error || memcmp(&image, &task->image, sizeof image) || romtool_area_blocks();
    }
    task->wrong += !room;
    free(room);
    return NULL;
}

static int image(const uint8_t *data, size_t len, uint8_t *room) {
    struct task tasks[THREADS];
    pthread_t threads[THREADS];
    struct romtool_image alone = ROMTOOL_INIT;
    const uint32_t error = romtool_check_in(&alone, data, len, room, ROOM);
    int wrong = 0;
    for (int i = 0; i < THREADS; i++) {
        struct task task = {data, len, romtool_area_most(), error, alone, 0};
        tasks[i] = task;
    }
    for (int i = 0; i < THREADS; i++) {
        if (pthread_create(&threads[i], NULL, checks, &tasks[i])) {
            exit(2);
        }
    }
    for (int i = 0; i < THREADS; i++) {
        pthread_join(threads[i], NULL);
        wrong += tasks[i].wrong;
    }
    return wrong;
}

int main(int argc, char **argv) {
    uint8_t *room = malloc(ROOM), *data = malloc(ROOM);
    int wrong = !room || !data;
    for (int i = 1; !wrong && i < argc; i++) {
        FILE *file = fopen(argv[i], "rb");
        if (!file) {
            return 2;
        }
        const size_t len = fread(data, 1, ROOM, file);
        fclose(file);
        wrong += image(data, len, room);
    }
    printf("%d images, %d wrong\n", argc - 1, wrong);
    free(room);
    free(data);
    return wrong != 0;
}
