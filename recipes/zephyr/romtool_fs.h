/* SPDX-License-Identifier: MIT
 *
 * An image of romfs or cramfs as a file system of Zephyr, over romtool.h. Register it, and mount an image in memory-mapped flash:
 *
 *     static uint64_t room[1024];
 *     static struct romtool_fs_data rom = {.bytes = (const uint8_t *)0x08080000, .len = 0x80000, .room = room, .room_len = sizeof room};
 *     static struct fs_mount_t mount = {.type = FS_TYPE_EXTERNAL_BASE, .mnt_point = "/rom", .fs_data = &rom};
 *
 *     fs_register(FS_TYPE_EXTERNAL_BASE, &romtool_fs);
 *     int error = fs_mount(&mount);
 *
 * On a Cortex-M3 a call of the library with a path takes 2,380 bytes of stack, and the check in fs_mount 6,060 (C.md says how that
 * was measured). Beside romtool_fs.c compile area.c, and link an archive of the library. */
#ifndef ROMTOOL_FS_H
#define ROMTOOL_FS_H

#include <zephyr/fs/fs.h>
#include <zephyr/fs/fs_sys.h>

#include "romtool.h"

/* What `fs_data` of a mount points to. Zephyr changes nothing in it. */
struct romtool_fs_data {
    const uint8_t *bytes;       /* the image, which stays unchanged while it is mounted */
    romtool_size len;
    void *room;                 /* the memory of the check, which is free again after fs_mount */
    romtool_size room_len;
    struct romtool_image image; /* of the file system */
};

extern const struct fs_file_system_t romtool_fs;

#endif
