/* A file system that says what a crash may leave of a file, after each call that changes something.
 *
 *     crash MOUNT NAME LOG [NUMBER before|after]
 *
 * MOUNT is a directory; the file system has one directory without others. It runs until it is unmounted. Data are
 * durable from the fsync of their file on, and a name from the fsync of the directory on. Before that, a crash may
 * leave anything as the data. A name may lead to each file to which it has led since the last fsync of the directory, each
 * name for itself. LOG gets a line for each call: its name, and in a word for each what a crash may leave of the file
 * NAME then: `-` for no file, `torn` if its data are not durable, or its bytes in hexadecimal.
 *
 * `mkdir MOUNT/count` begins to count the calls. Call NUMBER is refused by EIO, before or after it is done. At most 16
 * names and files of 16 KiB. */
#define FUSE_USE_VERSION 31
#include <errno.h>
#include <fuse.h>
#include <stdio.h>
#include <stdlib.h>
#include <string.h>

enum { MOST = 64, ROOM = 16384, LONGEST = 64, NOTHING = -1 };

struct file {
    int is_durable;
    mode_t mode;
    uid_t owner;
    gid_t group;
    size_t len;
    char bytes[ROOM];
};

/* `left` are the files to which a crash may lead the name; the last of them is the one to which it leads now. */
struct name {
    char text[LONGEST + 1];
    int left[MOST], count;
};

static struct file files[MOST];
static struct name names[MOST];
static int file_count, name_count, is_counting, calls, refused, is_after;
static const char *watched;
static FILE *log_file;

static struct name *named(const char *path)
{
    for (int i = 0; i < name_count; i++)
        if (!strcmp(names[i].text, path + 1))
            return &names[i];
    return NULL;
}

static int now(const struct name *name)
{
    return name ? name->left[name->count - 1] : NOTHING;
}

static struct file *found(const char *path)
{
    int number = now(named(path));
    return number == NOTHING ? NULL : &files[number];
}

static int lead(const char *path, int number)
{
    struct name *name = named(path);
    if (!name && (name_count == MOST || strlen(path + 1) > LONGEST))
        return -ENOSPC;
    if (!name) {
        name = &names[name_count++];
        strcpy(name->text, path + 1);
        name->left[0] = NOTHING;
        name->count = 1;
    }
    if (name->count == MOST)
        return -ENOSPC;
    name->left[name->count++] = number;
    return 0;
}

static void put_left(int number)
{
    if (number == NOTHING)
        fputs(" -", log_file);
    else if (!files[number].is_durable)
        fputs(" torn", log_file);
    else {
        fputc(' ', log_file);
        for (size_t i = 0; i < files[number].len; i++)
            fprintf(log_file, "%02x", (unsigned char)files[number].bytes[i]);
    }
}

static void note(const char *call)
{
    struct name *name = named(watched);
    fputs(call, log_file);
    if (name)
        for (int i = 0; i < name->count; i++)
            put_left(name->left[i]);
    else
        put_left(NOTHING);
    fputc('\n', log_file);
    fflush(log_file);
}

/* Returns whether this call is refused before it is done, and whether it is refused after it. */
static int is_refused_before(void)
{
    calls += is_counting;
    return calls == refused && is_counting && !is_after;
}

static int ended(const char *call, int answer)
{
    int is_refused = calls == refused && is_counting;
    note(call);
    return answer ? answer : is_refused ? -EIO : 0;
}

static void *begin(struct fuse_conn_info *connection, struct fuse_config *config)
{
    (void)connection;
    config->attr_timeout = config->entry_timeout = config->negative_timeout = 0;
    config->hard_remove = config->direct_io = 1;
    return NULL;
}

static int get_attributes(const char *path, struct stat *told, struct fuse_file_info *info)
{
    struct file *file = found(path);
    (void)info;
    memset(told, 0, sizeof *told);
    told->st_nlink = 1;
    if (!strcmp(path, "/") || (!strcmp(path, "/count") && is_counting)) {
        told->st_mode = S_IFDIR | 0755;
        return 0;
    }
    if (!file)
        return -ENOENT;
    told->st_ino = (ino_t)(file - files) + 2;
    told->st_mode = file->mode;
    told->st_uid = file->owner;
    told->st_gid = file->group;
    told->st_size = (off_t)file->len;
    return 0;
}

static int read_directory(const char *path, void *buffer, fuse_fill_dir_t fill, off_t at, struct fuse_file_info *info,
                          enum fuse_readdir_flags flags)
{
    (void)path, (void)at, (void)info, (void)flags;
    for (int i = 0; i < name_count; i++)
        if (now(&names[i]) != NOTHING)
            fill(buffer, names[i].text, NULL, 0, 0);
    return 0;
}

static int make_directory(const char *path, mode_t mode)
{
    (void)mode;
    if (strcmp(path, "/count"))
        return -EPERM;
    is_counting = 1;
    note("count");
    return 0;
}

static int create_file(const char *path, mode_t mode, struct fuse_file_info *info)
{
    (void)info;
    if (file_count == MOST)
        return -ENOSPC;
    if (is_refused_before())
        return ended("create", -EIO);
    files[file_count] = (struct file){.mode = S_IFREG | (mode & 07777)};
    files[file_count].owner = fuse_get_context()->uid;
    files[file_count].group = fuse_get_context()->gid;
    return ended("create", lead(path, file_count++));
}

static int open_file(const char *path, struct fuse_file_info *info)
{
    (void)info;
    return found(path) ? 0 : -ENOENT;
}

static int set_length(const char *path, off_t len, struct fuse_file_info *info)
{
    struct file *file = found(path);
    (void)info;
    if (!file)
        return -ENOENT;
    if (len > ROOM)
        return -EFBIG;
    if (is_refused_before())
        return ended("truncate", -EIO);
    if ((size_t)len > file->len)
        memset(file->bytes + file->len, 0, (size_t)len - file->len);
    file->len = (size_t)len;
    file->is_durable = 0;
    return ended("truncate", 0);
}

static int write_file(const char *path, const char *from, size_t len, off_t at, struct fuse_file_info *info)
{
    struct file *file = found(path);
    int answer;
    (void)info;
    if (!file)
        return -ENOENT;
    if ((size_t)at + len > ROOM)
        return -EFBIG;
    if (is_refused_before())
        return ended("write", -EIO);
    if ((size_t)at + len > file->len) {
        memset(file->bytes + file->len, 0, (size_t)at + len - file->len);
        file->len = (size_t)at + len;
    }
    memcpy(file->bytes + at, from, len);
    file->is_durable = 0;
    answer = ended("write", 0);
    return answer ? answer : (int)len;
}

static int read_file(const char *path, char *to, size_t len, off_t at, struct fuse_file_info *info)
{
    struct file *file = found(path);
    (void)info;
    if (!file)
        return -ENOENT;
    if ((size_t)at >= file->len)
        return 0;
    if (len > file->len - (size_t)at)
        len = file->len - (size_t)at;
    memcpy(to, file->bytes + at, len);
    return (int)len;
}

static int close_file(const char *path, struct fuse_file_info *info)
{
    (void)path, (void)info;
    return ended("close", is_refused_before() ? -EIO : 0);
}

static int sync_file(const char *path, int only_data, struct fuse_file_info *info)
{
    struct file *file = found(path);
    (void)only_data, (void)info;
    if (!file)
        return -ENOENT;
    if (is_refused_before())
        return ended("fsync", -EIO);
    file->is_durable = 1;
    return ended("fsync", 0);
}

static int sync_directory(const char *path, int only_data, struct fuse_file_info *info)
{
    (void)path, (void)only_data, (void)info;
    if (is_refused_before())
        return ended("fsyncdir", -EIO);
    for (int i = 0; i < name_count; i++) {
        names[i].left[0] = now(&names[i]);
        names[i].count = 1;
    }
    return ended("fsyncdir", 0);
}

static int set_mode(const char *path, mode_t mode, struct fuse_file_info *info)
{
    struct file *file = found(path);
    (void)info;
    if (!file)
        return -ENOENT;
    if (is_refused_before())
        return ended("chmod", -EIO);
    file->mode = (file->mode & S_IFMT) | (mode & 07777);
    return ended("chmod", 0);
}

static int set_owner(const char *path, uid_t owner, gid_t group, struct fuse_file_info *info)
{
    struct file *file = found(path);
    (void)info;
    if (!file)
        return -ENOENT;
    if (is_refused_before())
        return ended("chown", -EIO);
    file->owner = owner == (uid_t)-1 ? file->owner : owner;
    file->group = group == (gid_t)-1 ? file->group : group;
    return ended("chown", 0);
}

static int remove_file(const char *path)
{
    if (!found(path))
        return -ENOENT;
    if (is_refused_before())
        return ended("unlink", -EIO);
    return ended("unlink", lead(path, NOTHING));
}

static int rename_file(const char *from, const char *to, unsigned flags)
{
    int number = now(named(from)), answer;
    if (number == NOTHING)
        return -ENOENT;
    if (flags)
        return -EINVAL;
    if (is_refused_before())
        return ended("rename", -EIO);
    answer = lead(to, number);
    return ended("rename", answer ? answer : lead(from, NOTHING));
}

static const struct fuse_operations operations = {
    .init = begin,
    .getattr = get_attributes,
    .readdir = read_directory,
    .mkdir = make_directory,
    .create = create_file,
    .open = open_file,
    .truncate = set_length,
    .write = write_file,
    .read = read_file,
    .flush = close_file,
    .fsync = sync_file,
    .fsyncdir = sync_directory,
    .chmod = set_mode,
    .chown = set_owner,
    .unlink = remove_file,
    .rename = rename_file,
};

int main(int count, char **words)
{
    char *given[] = {words[0], "-f", "-s", NULL, NULL};
    if (count < 4 || !(log_file = fopen(words[3], "w")))
        return 2;
    watched = words[2];
    refused = count > 5 ? atoi(words[4]) : 0;
    is_after = count > 5 && !strcmp(words[5], "after");
    given[3] = words[1];
    return fuse_main(4, given, &operations, NULL);
}
