/* SPDX-License-Identifier: MIT
 *
 * An image of romfs or cramfs in memory, for the file systems of U-Boot. */
#ifndef ROMTOOL_UBOOT_H
#define ROMTOOL_UBOOT_H

#include <fs.h>

#include "romtool.h"

/* Checks an image, for all later calls. The room is the memory of the check, which is free again afterwards. */
int romtool_use(const void *at, romtool_size len, void *room, romtool_size room_len);

/* Prints a directory as U-Boot does: `ls` of struct fstype_info. A link is shown with its text. */
int romtool_ls(const char *path);

/* Returns whether a path leads to anything: `exists`. */
int romtool_exists(const char *path);

/* The size of a file: `size`. */
int romtool_size_of(const char *path, loff_t *size);

/* Copies `len` bytes of a file from `offset` on, or all of them if `len` is 0: `read`. The buffer has room for them. */
int romtool_load(const char *path, void *buffer, loff_t offset, loff_t len, loff_t *read);

#endif
