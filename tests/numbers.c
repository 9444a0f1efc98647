/* A file system that gives all its files one inode number, as file systems do that use a number again.
 *
 *     numbers MOUNT
 *
 * MOUNT is a directory. It runs until it is unmounted. It has the files `a` and `b`, each with one link, and `c` and `d`,
 * two links of one file. Each file has the byte of its name, except `d`, which has that of `c`. */
#define FUSE_USE_VERSION 31
#include <errno.h>
#include <fuse.h>
#include <string.h>
#include <sys/stat.h>

enum { NUMBER = 7 };

static const char *const names[] = {"a", "b", "c", "d"};

static int get_attributes(const char *path, struct stat *told, struct fuse_file_info *info)
{
    (void)info;
    memset(told, 0, sizeof *told);
    if (!strcmp(path, "/")) {
        told->st_ino = 1;
        told->st_mode = S_IFDIR | 0755;
        told->st_nlink = 2;
        return 0;
    }
    for (size_t i = 0; i < sizeof names / sizeof *names; i++)
        if (!strcmp(path + 1, names[i])) {
            told->st_ino = NUMBER;
            told->st_mode = S_IFREG | 0644;
            told->st_nlink = i < 2 ? 1 : 2;
            told->st_size = 1;
            return 0;
        }
    return -ENOENT;
}

static int list(const char *path, void *buffer, fuse_fill_dir_t fill, off_t from, struct fuse_file_info *info,
                enum fuse_readdir_flags flags)
{
    (void)path, (void)from, (void)info, (void)flags;
    for (size_t i = 0; i < sizeof names / sizeof *names; i++)
        fill(buffer, names[i], NULL, 0, 0);
    return 0;
}

static int read_from(const char *path, char *bytes, size_t len, off_t from, struct fuse_file_info *info)
{
    (void)info;
    if (from || !len)
        return 0;
    *bytes = path[1] == 'd' ? 'c' : path[1];
    return 1;
}

static void *start(struct fuse_conn_info *connection, struct fuse_config *configuration)
{
    (void)connection;
    configuration->use_ino = 1;
    return NULL;
}

static const struct fuse_operations operations = {.getattr = get_attributes, .readdir = list, .read = read_from, .init = start};

int main(int count, char **words)
{
    char *own[] = {words[0], "-f", "-s", count == 2 ? words[1] : ""};
    return count == 2 ? fuse_main(4, own, &operations, NULL) : 2;
}
