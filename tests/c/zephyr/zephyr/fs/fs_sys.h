/* What recipes/zephyr uses of Zephyr's <zephyr/fs/fs_sys.h>, by its documentation of release 3.7. */
#ifndef FS_SYS_H
#define FS_SYS_H
#include "fs.h"

struct fs_file_system_t {
    int (*open)(struct fs_file_t *filp, const char *fs_path, fs_mode_t flags);
    ssize_t (*read)(struct fs_file_t *filp, void *dest, size_t nbytes);
    ssize_t (*write)(struct fs_file_t *filp, const void *src, size_t nbytes);
    int (*lseek)(struct fs_file_t *filp, off_t off, int whence);
    off_t (*tell)(struct fs_file_t *filp);
    int (*truncate)(struct fs_file_t *filp, off_t length);
    int (*sync)(struct fs_file_t *filp);
    int (*close)(struct fs_file_t *filp);
    int (*opendir)(struct fs_dir_t *dirp, const char *fs_path);
    int (*readdir)(struct fs_dir_t *dirp, struct fs_dirent *entry);
    int (*closedir)(struct fs_dir_t *dirp);
    int (*mount)(struct fs_mount_t *mountp);
    int (*unmount)(struct fs_mount_t *mountp);
    int (*unlink)(struct fs_mount_t *mountp, const char *name);
    int (*rename)(struct fs_mount_t *mountp, const char *from, const char *to);
    int (*mkdir)(struct fs_mount_t *mountp, const char *name);
    int (*stat)(struct fs_mount_t *mountp, const char *path, struct fs_dirent *entry);
    int (*statvfs)(struct fs_mount_t *mountp, const char *path, struct fs_statvfs *stat);
};

/* The path of a mounted file from its mount point on. */
static inline const char *fs_impl_strip_prefix(const char *path, const struct fs_mount_t *mp) {
    return path[mp->mountp_len] ? path + mp->mountp_len : "/";
}
#endif
