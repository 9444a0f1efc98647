/* SPDX-License-Identifier: MIT
 *
 * The file system of romtool_fs.h. Zephyr knows files and directories, so a link is what it leads to, and is left out if it leads
 * nowhere; devices are left out, too. Names that a look-up may compare are limited, as romtool_lookup_within says. */
#include <errno.h>
#include <string.h>

#include <zephyr/kernel.h>

#include "romtool_fs.h"
#include "romtool_heap.h"

#ifndef CONFIG_ROMTOOL_FILES
#define CONFIG_ROMTOOL_FILES 4 /* files that are open at once */
#endif
#ifndef CONFIG_ROMTOOL_DIRECTORIES
#define CONFIG_ROMTOOL_DIRECTORIES 2 /* directories that are open at once */
#endif
#ifndef CONFIG_ROMTOOL_BUDGET
#define CONFIG_ROMTOOL_BUDGET 20000 /* names that one look-up may compare */
#endif

/* An open directory, with its path for the look-up of the links in it. */
struct directory {
    struct romtool_file file;
    size_t len;
    char path[256];
};

K_MEM_SLAB_DEFINE_STATIC(files, sizeof(struct romtool_file), CONFIG_ROMTOOL_FILES, 8);
K_MEM_SLAB_DEFINE_STATIC(directories, sizeof(struct directory), CONFIG_ROMTOOL_DIRECTORIES, 8);

/* An error of the library as Zephyr has it: its numbers are those of the C library. */
static int error_of(uint32_t error) {
    return -ROMTOOL_ERRNO(error);
}

static const struct romtool_image *image_of(const struct fs_mount_t *mount) {
    return &((const struct romtool_fs_data *)mount->fs_data)->image;
}

static struct romtool_node found(const struct romtool_image *image, const char *path, size_t len) {
    uint64_t budget = CONFIG_ROMTOOL_BUDGET;
    return romtool_lookup_within(image, ROMTOOL_TEXT(path), len, true, &budget);
}

/* Opens the file or directory of a path, which has to be of this kind. */
static uint32_t opened(struct romtool_file *file, const struct fs_mount_t *mount, const char *path, uint32_t kind) {
    const struct romtool_node node = found(image_of(mount), path, strlen(path));
    const uint32_t error = node.error ? node.error : romtool_open_node(file, image_of(mount), node.node);
    if (error || romtool_fstat(file).kind == kind) {
        return error;
    }
    return kind == ROMTOOL_DIRECTORY ? ROMTOOL_ENOTDIR : ROMTOOL_EISDIR;
}

/* Fills in what an entry leads to, and returns whether Zephyr knows its kind. */
static bool is_filled(struct fs_dirent *entry, const struct romtool_stat *stat) {
    entry->type = stat->kind == ROMTOOL_DIRECTORY ? FS_DIR_ENTRY_DIR : FS_DIR_ENTRY_FILE;
    entry->size = stat->size;
    return !stat->error && (stat->kind == ROMTOOL_DIRECTORY || stat->kind == ROMTOOL_REGULAR);
}

static int rom_open(struct fs_file_t *zfp, const char *path, fs_mode_t flags) {
    void *at;
    if (flags & (FS_O_WRITE | FS_O_CREATE | FS_O_APPEND | FS_O_TRUNC)) {
        return -EROFS;
    }
    if (k_mem_slab_alloc(&files, &at, K_NO_WAIT)) {
        return -ENFILE;
    }
    const uint32_t error = opened(at, zfp->mp, fs_impl_strip_prefix(path, zfp->mp), ROMTOOL_REGULAR);
    if (error) {
        k_mem_slab_free(&files, at);
        return error_of(error);
    }
    zfp->filep = at;
    return 0;
}

static int rom_close(struct fs_file_t *zfp) {
    k_mem_slab_free(&files, zfp->filep);
    zfp->filep = NULL;
    return 0;
}

static ssize_t rom_read(struct fs_file_t *zfp, void *buffer, size_t len) {
    romtool_size count;
    const uint32_t error = romtool_read(zfp->filep, buffer, len, &count);
    return error ? error_of(error) : (ssize_t)count;
}

static int rom_lseek(struct fs_file_t *zfp, off_t off, int whence) {
    struct romtool_file *file = zfp->filep;
    int64_t from = 0;
    if (whence != FS_SEEK_SET) {
        from = whence == FS_SEEK_CUR ? (int64_t)file->position : (int64_t)romtool_fstat(file).size;
    }
    return from + off < 0 ? -EINVAL : error_of(romtool_seek(file, (uint64_t)(from + off)));
}

static off_t rom_tell(struct fs_file_t *zfp) {
    return (off_t)((const struct romtool_file *)zfp->filep)->position;
}

static int rom_opendir(struct fs_dir_t *zdp, const char *path) {
    void *at;
    const char *inner = fs_impl_strip_prefix(path, zdp->mp);
    if (k_mem_slab_alloc(&directories, &at, K_NO_WAIT)) {
        return -ENFILE;
    }
    struct directory *directory = at;
    directory->len = strlen(inner);
    uint32_t error = directory->len < sizeof directory->path ? ROMTOOL_OK : ROMTOOL_ENAMETOOLONG;
    error = error ? error : opened(&directory->file, zdp->mp, inner, ROMTOOL_DIRECTORY);
    if (error) {
        k_mem_slab_free(&directories, at);
        return error_of(error);
    }
    memcpy(directory->path, inner, directory->len);
    zdp->dirp = directory;
    return 0;
}

/* What an entry leads to: its own node, or that of the path of a link. */
static struct romtool_stat led_to(const struct directory *directory, const struct romtool_entry *entry) {
    const struct romtool_image *image = &directory->file.image;
    struct romtool_node node = {0, entry->node};
    if (entry->kind == ROMTOOL_SYMLINK) {
        char path[sizeof directory->path + 1 + 255];
        memcpy(path, directory->path, directory->len);
        path[directory->len] = '/';
        memcpy(path + directory->len + 1, entry->name, (size_t)entry->name_len);
        node = found(image, path, directory->len + 1 + (size_t)entry->name_len);
    }
    if (node.error) {
        struct romtool_stat none = {0};
        none.error = node.error;
        return none;
    }
    return romtool_stat_node(image, node.node);
}

static int rom_readdir(struct fs_dir_t *zdp, struct fs_dirent *out) {
    struct directory *directory = zdp->dirp;
    struct romtool_entry entry;
    for (;;) {
        const uint32_t error = romtool_readdir(&directory->file, &entry);
        out->name[0] = 0;
        if (error || !entry.some) {
            return error_of(error);
        }
        if (entry.name_len > 255 || entry.name_len >= sizeof out->name) {
            continue;
        }
        const struct romtool_stat stat = led_to(directory, &entry);
        if (is_filled(out, &stat)) {
            memcpy(out->name, entry.name, (size_t)entry.name_len);
            out->name[entry.name_len] = 0;
            return 0;
        }
    }
}

static int rom_closedir(struct fs_dir_t *zdp) {
    k_mem_slab_free(&directories, zdp->dirp);
    zdp->dirp = NULL;
    return 0;
}

static int rom_mount(struct fs_mount_t *mount) {
    struct romtool_fs_data *data = mount->fs_data;
    romtool_area(data->room, data->room_len);
    return error_of(romtool_check(&data->image, data->bytes, data->len));
}

static int rom_unmount(struct fs_mount_t *mount) {
    const struct romtool_image none = ROMTOOL_INIT;
    ((struct romtool_fs_data *)mount->fs_data)->image = none;
    return 0;
}

static int rom_stat(struct fs_mount_t *mount, const char *path, struct fs_dirent *out) {
    const char *inner = fs_impl_strip_prefix(path, mount), *last = strrchr(path, '/');
    const struct romtool_node node = found(image_of(mount), inner, strlen(inner));
    if (node.error) {
        return error_of(node.error);
    }
    const struct romtool_stat stat = romtool_stat_node(image_of(mount), node.node);
    last = last ? last + 1 : path;
    if (strlen(last) >= sizeof out->name) {
        return -ENAMETOOLONG;
    }
    memcpy(out->name, last, strlen(last) + 1);
    return is_filled(out, &stat) ? 0 : -ENXIO;
}

static int rom_statvfs(struct fs_mount_t *mount, const char *path, struct fs_statvfs *out) {
    (void)path;
    out->f_bsize = out->f_frsize = 1;
    out->f_blocks = image_of(mount)->accessible;
    out->f_bfree = 0;
    return 0;
}

static ssize_t rom_write(struct fs_file_t *zfp, const void *buffer, size_t len) {
    (void)zfp;
    (void)buffer;
    (void)len;
    return -EROFS;
}

static int rom_truncate(struct fs_file_t *zfp, off_t len) {
    (void)zfp;
    (void)len;
    return -EROFS;
}

static int rom_sync(struct fs_file_t *zfp) {
    (void)zfp;
    return 0;
}

static int rom_change(struct fs_mount_t *mount, const char *path) {
    (void)mount;
    (void)path;
    return -EROFS;
}

static int rom_rename(struct fs_mount_t *mount, const char *from, const char *to) {
    (void)to;
    return rom_change(mount, from);
}

const struct fs_file_system_t romtool_fs = {
    .open = rom_open, .close = rom_close, .read = rom_read, .write = rom_write, .lseek = rom_lseek, .tell = rom_tell,
    .truncate = rom_truncate, .sync = rom_sync, .opendir = rom_opendir, .readdir = rom_readdir, .closedir = rom_closedir,
    .mount = rom_mount, .unmount = rom_unmount, .unlink = rom_change, .rename = rom_rename, .mkdir = rom_change,
    .stat = rom_stat, .statvfs = rom_statvfs,
};
