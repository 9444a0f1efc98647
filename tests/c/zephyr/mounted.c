/* Mounts the image of the file that is named by recipes/zephyr, and prints what is in it; then what the calls refuse. */
#include <errno.h>
#include <stdio.h>
#include <string.h>

#include "romtool_fs.h"

static uint8_t held[1 << 20];
static uint64_t room[1 << 14];
static struct romtool_fs_data data = {.bytes = held, .room = room, .room_len = sizeof room};
static struct fs_mount_t point = {.type = FS_TYPE_EXTERNAL_BASE, .mnt_point = "/rom", .fs_data = &data, .mountp_len = 4};

/* Prints the size of a file, and the sum of its bytes, of which five are read at a time. */
static void show(const char *path, const struct fs_dirent *entry) {
    struct fs_file_t file = {.mp = &point};
    uint8_t bytes[5];
    unsigned long sum = 0, size = 0;
    ssize_t count = romtool_fs.open(&file, path, FS_O_READ);
    while (!count && (count = romtool_fs.read(&file, bytes, sizeof bytes)) > 0) {
        for (ssize_t at = 0; at < count; at++, size++) {
            sum += bytes[at];
        }
        count = 0;
        if (romtool_fs.tell(&file) == (off_t)entry->size) {
            break;
        }
    }
    const int far = romtool_fs.lseek(&file, -2, FS_SEEK_END), before = romtool_fs.lseek(&file, -9, FS_SEEK_SET);
    const long end = (long)romtool_fs.tell(&file);
    romtool_fs.close(&file);
    printf("file %s %lu %lu %lu; %d %ld %d\n", path, (unsigned long)entry->size, size, sum, far, end, before);
}

static void list(const char *path) {
    struct fs_dir_t directory = {.mp = &point};
    struct fs_dirent entry;
    char below[600];
    if (romtool_fs.opendir(&directory, path)) {
        return;
    }
    while (!romtool_fs.readdir(&directory, &entry) && entry.name[0]) {
        snprintf(below, sizeof below, "%s/%s", path, entry.name);
        if (entry.type == FS_DIR_ENTRY_DIR) {
            printf("dir %s\n", below);
            list(below);
        } else {
            show(below, &entry);
        }
    }
    romtool_fs.closedir(&directory);
}

static void refusals(void) {
    struct fs_file_t files[9];
    struct fs_dir_t directory = {.mp = &point};
    struct fs_dirent entry;
    int most = 0;
    memset(files, 0, sizeof files);
    for (int at = 0; at < 9; at++) {
        files[at].mp = &point;
    }
    printf("%d", romtool_fs.open(&files[0], "/rom/none", FS_O_READ) == -ENOENT);
    printf(" %d", romtool_fs.open(&files[0], "/rom/init/x", FS_O_READ) == -ENOTDIR);
    printf(" %d", romtool_fs.open(&files[0], "/rom/d", FS_O_READ) == -EISDIR);
    printf(" %d", romtool_fs.open(&files[0], "/rom/init", FS_O_WRITE) == -EROFS);
    printf(" %d", romtool_fs.opendir(&directory, "/rom/init") == -ENOTDIR);
    printf(" %d", romtool_fs.stat(&point, "/rom/none", &entry) == -ENOENT);
    printf(" %d", romtool_fs.stat(&point, "/rom/d/link", &entry) == 0 && !strcmp(entry.name, "link") && entry.size == 6000);
    printf(" %d", romtool_fs.mkdir(&point, "/rom/x") == -EROFS && romtool_fs.unlink(&point, "/rom/init") == -EROFS);
    while (most < 9 && !romtool_fs.open(&files[most], "/rom/init", FS_O_READ)) {
        most++;
    }
    printf(" %d\n", most);
    while (most) {
        romtool_fs.close(&files[--most]);
    }
}

int main(int count, char **words) {
    FILE *file = count > 1 ? fopen(words[1], "rb") : NULL;
    if (!file) {
        return 2;
    }
    data.len = fread(held, 1, sizeof held, file);
    data.room_len = 16;
    const int small = romtool_fs.mount(&point);
    data.room_len = sizeof room;
    printf("mount %d %d\n", small == -ENOMEM, romtool_fs.mount(&point));
    list("/rom");
    refusals();
    held[70] ^= 1;
    const int unmounted = romtool_fs.unmount(&point), changed = romtool_fs.mount(&point);
    printf("unmount %d, changed %d\n", unmounted, changed == -EIO);
    return 0;
}
