/* SPDX-License-Identifier: MIT
 *
 * romtool-mount IMAGE DIR: mounts an image of romfs or cramfs read-only, by FUSE. docs/C.md says how it is compiled, and
 * romtool-mount.1 how it is used.
 *
 * The image is mapped and checked by the library for C before anything is mounted. Then one walk over the tree makes
 * three tables, so that no request takes time linear in the length of a directory:
 *   names   each entry of a directory, in the order of its list: the cookies of readdir are positions in it
 *   sorted  the positions of each directory's entries, sorted by name, in which names are looked up
 *   inodes  each node, sorted by its number, with its number of links and, of a directory, its range in the other two
 * Metadata is read by the library, and contents are sent from where they are in the image.
 */
#define FUSE_USE_VERSION 31
#define _FILE_OFFSET_BITS 64
#define _GNU_SOURCE
#include <errno.h>
#include <fcntl.h>
#include <fuse_lowlevel.h>
#include <setjmp.h>
#include <signal.h>
#include <stdio.h>
#include <stdlib.h>
#include <string.h>
#include <sys/mman.h>
#include <sys/stat.h>
#include <sys/statvfs.h>
#include <sys/sysmacros.h>
#include <unistd.h>

#include "romtool.h"

#define VALID 31536000.0 /* seconds for which the kernel may keep what it knows: the image does not change */
#define DOTS 2           /* the entries before those of the list: `.` and `..` */
#ifndef PIECES
#define PIECES 1000 /* so many pieces of a file are sent without a copy; writev accepts 1,024 with the header */
#endif

enum { FAULT = 1, USAGE = 2, SYSTEM = 3 }; /* exit statuses */
enum { MAX_READ, OWNER, GROUP, MASK, OWN_OPTIONS }; /* the keys of options with a number */

struct name {
    uint32_t at; /* the offset of its bytes in the image */
    uint32_t node;
    uint8_t len;
    uint8_t kind;
};

struct inode {
    uint32_t node;
    uint32_t links;
    uint32_t parent; /* of a directory, as the next two */
    uint32_t first;
    uint32_t count;
    uint32_t kind;
};

static struct romtool_image image;
static uint32_t root;
static struct name *names;
static uint32_t *sorted;
static struct inode *inodes;
static uint32_t names_count, inodes_count;
/* The numbers of options, and whether they are given. libfuse wants to be told max_read twice. */
static struct {
    int is_given;
    uint32_t number;
} given[OWN_OPTIONS];

/* Truncation. If bytes of the image are gone, the system sends SIGBUS to the thread that reads them. The request that it
 * serves then fails with EIO; before anything is mounted, the program ends with a message. Bytes that are sent without a
 * copy are read by the system itself, which fails the request in the same way. */
static _Thread_local sigjmp_buf failed;
static _Thread_local volatile sig_atomic_t serving;
static _Thread_local void *reply; /* the buffer of a request, or NULL */

static void bytes_are_gone(int number) {
    static const char text[] = "romtool-mount: bytes of the image cannot be read: was it truncated?\n";
    (void)number;
    if (serving) {
        serving = 0;
        siglongjmp(failed, 1);
    }
    const ssize_t written = write(STDERR_FILENO, text, sizeof text - 1);
    (void)written;
    _exit(SYSTEM);
}

/* Replies with an error, and frees the buffer. */
static void refuse(fuse_req_t req, int error) {
    serving = 0;
    free(reply);
    reply = NULL;
    fuse_reply_err(req, error);
}

/* Makes the function `op_NAME` of `serve_NAME`, which reads the image while `serving` is 1. It ends here if bytes are gone. */
#define SERVED(name, parameters, arguments) \
    static void op_##name parameters {      \
        if (sigsetjmp(failed, 0)) {         \
            refuse(req, EIO);               \
            return;                         \
        }                                   \
        serving = 1;                        \
        serve_##name arguments;             \
        serving = 0;                        \
    }
#define NOT_INLINE __attribute__((noinline)) /* so that a jump changes none of its variables */

/* Tables. */

static int by_node(const void *one, const void *other) {
    const uint32_t a = ((const struct inode *)one)->node, b = ((const struct inode *)other)->node;
    return (a > b) - (a < b);
}

/* Compares bytes with those of an entry's name. */
static int compare(const void *text, size_t len, const struct name *name) {
    const int order = memcmp(text, image.data + name->at, len < name->len ? len : name->len);
    return order ? order : (len > name->len) - (len < name->len);
}

static int by_name(const void *one, const void *other) {
    const struct name *name = &names[*(const uint32_t *)one];
    return compare(image.data + name->at, name->len, &names[*(const uint32_t *)other]);
}

static struct inode *add_inode(uint32_t node, uint32_t kind, uint32_t parent) {
    struct inode *inode = &inodes[inodes_count++];
    inode->node = node;
    inode->kind = kind;
    inode->parent = parent;
    inode->links = kind == ROMTOOL_DIRECTORY ? 2 : 1;
    return inode;
}

/* Reads the list of a directory into the tables. Returns whether they had room. */
static int read_list(uint32_t number) {
    struct romtool_file list = ROMTOOL_INIT;
    struct romtool_entry entry;
    uint32_t error = romtool_open_node(&list, &image, inodes[number].node);
    inodes[number].first = names_count;
    while (!error && !(error = romtool_readdir(&list, &entry)) && entry.some) {
        if (names_count + 1 >= image.references || inodes_count >= image.references || entry.name_len > 255) {
            return 0;
        }
        struct name *name = &names[names_count];
        name->at = (uint32_t)(entry.name - image.data);
        name->len = (uint8_t)entry.name_len;
        name->node = entry.node;
        name->kind = (uint8_t)entry.kind;
        sorted[names_count] = names_count;
        names_count++;
        add_inode(entry.node, entry.kind, inodes[number].node);
        inodes[number].links += entry.kind == ROMTOOL_DIRECTORY;
    }
    inodes[number].count = names_count - inodes[number].first;
    return !error;
}

/* Makes one inode of all with the same number: hard links, which are never directories. */
static void join_links(void) {
    uint32_t last = 0;
    for (uint32_t at = 1; at < inodes_count; at++) {
        if (inodes[at].node == inodes[last].node) {
            inodes[last].links++;
        } else {
            inodes[++last] = inodes[at];
        }
    }
    inodes_count = last + 1;
}

/* Walks over the tree. Returns whether there was memory. An image that was checked has at most `references` nodes. */
static int make_tables(void) {
    root = romtool_lookup_str(&image, "/", true).node;
    names = calloc(image.references, sizeof *names);
    sorted = calloc(image.references, sizeof *sorted);
    inodes = calloc(image.references, sizeof *inodes);
    if (!names || !sorted || !inodes) {
        return 0;
    }
    add_inode(root, ROMTOOL_DIRECTORY, root);
    for (uint32_t at = 0; at < inodes_count; at++) {
        if (inodes[at].kind == ROMTOOL_DIRECTORY) {
            if (!read_list(at)) {
                return 0;
            }
            qsort(sorted + inodes[at].first, inodes[at].count, sizeof *sorted, by_name);
        }
    }
    qsort(inodes, inodes_count, sizeof *inodes, by_node);
    join_links();
    return 1;
}

/* Returns the inode of this number of FUSE, or NULL. All but the root have the number of their node, which is never 1. */
static const struct inode *inode_of(fuse_ino_t number) {
    const uint64_t node = number == FUSE_ROOT_ID ? root : number;
    uint32_t from = 0, to = inodes_count;
    while (from < to) {
        const uint32_t middle = from + (to - from) / 2;
        if (inodes[middle].node < node) {
            from = middle + 1;
        } else {
            to = middle;
        }
    }
    return from < inodes_count && inodes[from].node == node ? &inodes[from] : NULL;
}

static const struct inode *directory_of(fuse_ino_t number) {
    const struct inode *inode = inode_of(number);
    return inode && inode->kind == ROMTOOL_DIRECTORY ? inode : NULL;
}

/* Returns the entry of this name in a directory, or NULL. */
static const struct name *entry_of(const struct inode *directory, const char *text) {
    const size_t len = strlen(text);
    uint32_t from = directory->first, to = from + directory->count;
    while (from < to) {
        const uint32_t middle = from + (to - from) / 2;
        const struct name *name = &names[sorted[middle]];
        const int order = compare(text, len, name);
        if (!order) {
            return name;
        }
        if (order > 0) {
            from = middle + 1;
        } else {
            to = middle;
        }
    }
    return NULL;
}

/* What the system calls these. */

static mode_t type_of(uint32_t kind) {
    switch (kind) {
    case ROMTOOL_DIRECTORY: return S_IFDIR;
    case ROMTOOL_SYMLINK: return S_IFLNK;
    case ROMTOOL_BLOCK: return S_IFBLK;
    case ROMTOOL_CHARACTER: return S_IFCHR;
    case ROMTOOL_SOCKET: return S_IFSOCK;
    case ROMTOOL_FIFO: return S_IFIFO;
    default: return S_IFREG;
    }
}

static int errno_of(uint32_t error) {
    switch (error) {
    case ROMTOOL_OK: return 0;
    case ROMTOOL_EISDIR: return EISDIR;
    case ROMTOOL_ENXIO: return ENXIO;
    default: return EIO;
    }
}

/* Returns 0; or EIO if a device has a greater number than FUSE can pass on: of a major number only 12 bits. */
static int stat_of(const struct inode *inode, struct stat *out) {
    const struct romtool_stat stat = romtool_stat_node(&image, inode->node);
    memset(out, 0, sizeof *out);
    if (stat.error || stat.major > 0xfff || stat.minor > 0xfffff) {
        return EIO;
    }
    out->st_ino = stat.ino;
    out->st_mode = type_of(stat.kind) | (given[MASK].is_given ? 0777 & ~given[MASK].number : stat.mode);
    out->st_nlink = inode->links;
    out->st_uid = given[OWNER].is_given ? given[OWNER].number : stat.uid;
    out->st_gid = given[GROUP].is_given ? given[GROUP].number : stat.gid;
    out->st_size = stat.size;
    out->st_rdev = makedev(stat.major, stat.minor);
    out->st_blksize = 4096;
    out->st_blocks = ((blkcnt_t)stat.size + 511) / 512;
    return 0;
}

static int param_of(const struct inode *inode, struct fuse_entry_param *out) {
    memset(out, 0, sizeof *out);
    out->attr_timeout = out->entry_timeout = VALID;
    out->ino = inode->node == root ? FUSE_ROOT_ID : inode->node;
    return stat_of(inode, &out->attr);
}

/* Requests. */

static void op_init(void *data, struct fuse_conn_info *connection) {
    (void)data;
    if (given[MAX_READ].is_given) {
        connection->max_read = given[MAX_READ].number;
    }
    connection->want |= connection->capable & FUSE_CAP_CACHE_SYMLINKS;
}

NOT_INLINE static void serve_lookup(fuse_req_t req, fuse_ino_t parent, const char *text) {
    struct fuse_entry_param param = {.entry_timeout = VALID};
    const struct inode *directory = directory_of(parent);
    int error = directory ? 0 : ENOTDIR;
    const struct name *name = directory ? entry_of(directory, text) : NULL;
    if (name) {
        error = param_of(inode_of(name->node), &param);
    }
    serving = 0;
    if (error) {
        refuse(req, error);
    } else {
        fuse_reply_entry(req, &param); /* without a node: the kernel remembers that there is no such name */
    }
}

NOT_INLINE static void serve_getattr(fuse_req_t req, fuse_ino_t number, struct fuse_file_info *file) {
    struct stat stat;
    const struct inode *inode = inode_of(number);
    (void)file;
    const int error = inode ? stat_of(inode, &stat) : ESTALE;
    serving = 0;
    if (error) {
        refuse(req, error);
    } else {
        fuse_reply_attr(req, &stat, VALID);
    }
}

NOT_INLINE static void serve_readlink(fuse_req_t req, fuse_ino_t number) {
    char link[4096];
    const struct inode *inode = inode_of(number);
    if (!inode || inode->kind != ROMTOOL_SYMLINK) {
        refuse(req, EINVAL);
        return;
    }
    const struct romtool_place text = romtool_readlink_node(&image, inode->node);
    const int fits = text.error == 0 && text.len < sizeof link;
    if (fits) {
        memcpy(link, image.data + text.at, (size_t)text.len);
        link[text.len] = 0;
    }
    serving = 0;
    if (fits && strlen(link) == text.len) { /* a text with a zero byte cannot be passed on */
        fuse_reply_readlink(req, link);
    } else {
        refuse(req, EIO);
    }
}

static void op_open(fuse_req_t req, fuse_ino_t number, struct fuse_file_info *file) {
    const struct inode *inode = inode_of(number);
    if (!inode || (file->flags & O_ACCMODE) != O_RDONLY) {
        refuse(req, inode ? EROFS : ESTALE);
        return;
    }
    file->keep_cache = 1;
    fuse_reply_open(req, file);
}

/* Sends bytes of a file that are in more pieces than are sent without a copy. */
static void read_by_copy(fuse_req_t req, struct romtool_file *file, size_t size, off_t offset) {
    romtool_size count = 0;
    reply = malloc(size);
    if (!reply) {
        refuse(req, ENOMEM);
        return;
    }
    uint32_t error = romtool_seek(file, (uint64_t)offset);
    if (!error) {
        error = romtool_read(file, reply, size, &count);
    }
    serving = 0;
    if (error) {
        refuse(req, errno_of(error));
        return;
    }
    fuse_reply_buf(req, reply, (size_t)count);
    free(reply);
    reply = NULL;
}

NOT_INLINE static void serve_read(fuse_req_t req, fuse_ino_t number, size_t size, off_t offset, struct fuse_file_info *info) {
    struct iovec pieces[PIECES];
    struct romtool_file file = ROMTOOL_INIT;
    size_t wanted = size;
    int count = 0;
    const struct inode *inode = inode_of(number);
    (void)info;
    if (!inode || offset < 0) {
        refuse(req, inode ? EINVAL : ESTALE);
        return;
    }
    uint32_t error = romtool_open_node(&file, &image, inode->node);
    if (!error) {
        error = romtool_seek(&file, (uint64_t)offset);
    }
    while (!error && wanted) {
        const struct romtool_place place = romtool_lend(&file, wanted);
        error = place.error;
        if (error || !place.len) {
            break;
        }
        if (count == PIECES) {
            read_by_copy(req, &file, size, offset);
            return;
        }
        pieces[count].iov_base = (void *)(uintptr_t)(image.data + place.at);
        pieces[count++].iov_len = (size_t)place.len;
        wanted -= (size_t)place.len;
    }
    serving = 0;
    if (error) {
        refuse(req, errno_of(error));
    } else {
        fuse_reply_iov(req, pieces, count);
    }
}

static void op_opendir(fuse_req_t req, fuse_ino_t number, struct fuse_file_info *file) {
    if (!directory_of(number)) {
        refuse(req, ENOTDIR);
        return;
    }
    file->keep_cache = file->cache_readdir = 1;
    fuse_reply_open(req, file);
}

/* Adds the entry at this position of a directory to a reply. Returns its size, which may be too large for the room. */
static size_t add_entry(fuse_req_t req, const struct inode *directory, uint64_t at, char *room, size_t size, int plus) {
    static const char *const dots[DOTS] = {".", ".."};
    struct fuse_entry_param param;
    char text[256];
    memset(&param, 0, sizeof param);
    if (at < DOTS) {
        memcpy(text, dots[at], strlen(dots[at]) + 1);
        param.attr.st_ino = at ? directory->parent : directory->node;
        param.attr.st_mode = S_IFDIR;
    } else {
        const struct name *name = &names[directory->first + (at - DOTS)];
        memcpy(text, image.data + name->at, name->len);
        text[name->len] = 0;
        if (!plus || param_of(inode_of(name->node), &param)) { /* without attributes the kernel asks for them */
            memset(&param, 0, sizeof param);
            param.attr.st_ino = name->node;
            param.attr.st_mode = type_of(name->kind);
        }
    }
    if (plus) {
        return fuse_add_direntry_plus(req, room, size, text, &param, (off_t)at + 1);
    }
    return fuse_add_direntry(req, room, size, text, &param.attr, (off_t)at + 1);
}

NOT_INLINE static void serve_list(fuse_req_t req, fuse_ino_t number, size_t size, off_t offset, int plus) {
    const struct inode *directory = directory_of(number);
    size_t used = 0;
    reply = directory ? malloc(size) : NULL;
    if (!reply || offset < 0) {
        refuse(req, !directory ? ENOTDIR : reply ? EINVAL : ENOMEM);
        return;
    }
    for (uint64_t at = (uint64_t)offset; at < (uint64_t)directory->count + DOTS; at++) {
        const size_t more = add_entry(req, directory, at, (char *)reply + used, size - used, plus);
        if (more > size - used) {
            break;
        }
        used += more;
    }
    serving = 0;
    fuse_reply_buf(req, reply, used);
    free(reply);
    reply = NULL;
}

SERVED(lookup, (fuse_req_t req, fuse_ino_t parent, const char *text), (req, parent, text))
SERVED(getattr, (fuse_req_t req, fuse_ino_t number, struct fuse_file_info *file), (req, number, file))
SERVED(readlink, (fuse_req_t req, fuse_ino_t number), (req, number))
SERVED(read, (fuse_req_t req, fuse_ino_t number, size_t size, off_t offset, struct fuse_file_info *file),
    (req, number, size, offset, file))
SERVED(list, (fuse_req_t req, fuse_ino_t number, size_t size, off_t offset, int plus), (req, number, size, offset, plus))

static void op_readdir(fuse_req_t req, fuse_ino_t number, size_t size, off_t offset, struct fuse_file_info *file) {
    (void)file;
    op_list(req, number, size, offset, 0);
}

static void op_readdirplus(fuse_req_t req, fuse_ino_t number, size_t size, off_t offset, struct fuse_file_info *file) {
    (void)file;
    op_list(req, number, size, offset, 1);
}

static void op_statfs(fuse_req_t req, fuse_ino_t number) {
    struct statvfs out;
    (void)number;
    memset(&out, 0, sizeof out);
    out.f_bsize = out.f_frsize = 512;
    out.f_blocks = ((fsblkcnt_t)image.accessible + 511) / 512;
    out.f_files = inodes_count;
    out.f_namemax = 255;
    fuse_reply_statfs(req, &out);
}

static const struct fuse_lowlevel_ops requests = {
    .init = op_init, .lookup = op_lookup, .getattr = op_getattr, .readlink = op_readlink, .open = op_open,
    .read = op_read, .opendir = op_opendir, .readdir = op_readdir, .readdirplus = op_readdirplus, .statfs = op_statfs,
};

/* The command line. */

struct words {
    char *image;
    char *directory;
};

/* Puts a text on standard error. At a terminal, all but printable ASCII is shown as `%` and two hexadecimal digits. */
static void put_error(const char *text) {
    const int is_shown = isatty(STDERR_FILENO);
    for (; *text; text++) {
        const unsigned char byte = (unsigned char)*text;
        if (is_shown && (byte < 0x20 || byte > 0x7e)) {
            fprintf(stderr, "%%%02X", byte);
        } else {
            fputc(byte, stderr);
        }
    }
}

/* Puts a line on standard error: a text of others, and what is said of it. */
static void say_of(const char *text, const char *what) {
    fputs("romtool-mount: ", stderr);
    put_error(text);
    fputs(what, stderr);
}

static const char *fault_sentence(uint32_t fault) {
    switch (fault) {
    /* made by tools/tables faults */
    case 1u: return "the image has more than 1,048,576 references"; /* 1 TooMany */
    case 2u: return "the file is shorter than a superblock, which has 32 bytes in romfs and 76 in cramfs"; /* 2 Short */
    case 3u: return "the first bytes are those of neither romfs nor cramfs"; /* 3 Magic */
    case 4u: return "the stated size is smaller than a superblock or greater than the file"; /* 4 Size */
    case 5u: return "the words of the first 512 bytes do not sum to 0"; /* 5 Sum */
    case 6u: return "a flag above 800 (hexadecimal) is set"; /* 6 Flags */
    case 7u: return "the stored CRC-32 is not the CRC-32 of the bytes"; /* 7 Crc */
    case 8u: return "the superblock lacks the text Compressed ROMFS"; /* 8 Signature */
    case 9u: return "the root is not where the format says, or is not a directory"; /* 9 Root */
    case 11u: return "a record, or a part that it names, is outside the image"; /* 11 Bounds */
    case 12u: return "the words of a file header and its name do not sum to 0"; /* 12 HeaderSum */
    case 13u: return "a name is empty, has no end, or contains a slash or a zero byte"; /* 13 BadName */
    case 14u: return "the upper four bits of a mode do not stand for a kind of file"; /* 14 Kind */
    case 15u: return "the text of a symbolic link is empty or longer than 4,095 bytes"; /* 15 LinkSize */
    case 16u: return "a block is compressed, or its block pointer is not direct; romtool reads neither"; /* 16 BlockKind */
    case 17u: return "an entry, or its name, goes past the end of its list"; /* 17 ListEnd */
    case 20u: return "two references lead to one record, or references form a loop"; /* 20 Twice */
    case 21u: return "the path of an entry has more than 64 names"; /* 21 TooDeep */
    case 22u: return "two parts of the image share bytes"; /* 22 Overlap */
    case 23u: return "two entries of one directory have the same name"; /* 23 DupName */
    case 24u: return "a name . or .. is not allowed there, or leads to the wrong directory"; /* 24 Dot */
    case 25u: return "a hard link leads to nothing, to a directory, or through more than 8 links"; /* 25 HardLink */
    case 26u: return "in a list that has to be sorted, a name is less than the name before it"; /* 26 Unsorted */
    /* end */
    default: return "no rule has this number";
    }
}

/* Explains the fault of the image of this name, if standard error is a terminal. */
static void explain_fault(const char *path) {
    if (isatty(STDERR_FILENO)) {
        say_of(path, ": ");
        fprintf(stderr, "%s (%u) at %u: %s\n", romtool_fault_name(image.fault), image.fault, image.at, fault_sentence(image.fault));
    }
}

/* Keeps the number of an option, that of a mask in octal. Returns -1 if it is none, or greater than any user's, which is 2^32 - 2. */
static int keep_number(const char *text, int key) {
    static const unsigned long long most[OWN_OPTIONS] = {UINT32_MAX, UINT32_MAX - 1, UINT32_MAX - 1, 0777};
    const char *digits = strchr(text, '=') + 1;
    char *end;
    errno = 0;
    const unsigned long long number = strtoull(digits, &end, key == MASK ? 8 : 10);
    if (*digits < '0' || *digits > '9' || *end || errno || number > most[key]) {
        say_of(text, " is not a number for this option\n");
        return -1;
    }
    given[key].is_given = 1;
    given[key].number = (uint32_t)number;
    return key == MAX_READ; /* libfuse does not know the others */
}

static int word(void *data, const char *text, int key, struct fuse_args *out) {
    struct words *words = data;
    (void)out;
    if (key >= 0 && key < OWN_OPTIONS) {
        return keep_number(text, key);
    }
    if (key != FUSE_OPT_KEY_NONOPT) {
        return 1;
    }
    if (words->directory) {
        return -1;
    }
    if (words->image) {
        words->directory = strdup(text);
        return words->directory ? 1 : -1;
    }
    words->image = strdup(text);
    return words->image ? 0 : -1;
}

static int usage(void) {
    fputs("usage: romtool-mount IMAGE DIR [-f] [-s] [-d] [-o OPTION[,OPTION]..]\n", stderr);
    return USAGE;
}

static int system_error(const char *path) {
    const char *why = strerror(errno);
    say_of(path, ": ");
    fprintf(stderr, "%s\n", why);
    return SYSTEM;
}

/* Puts the options of each mount in front of the given ones, so that a given name replaces this one. */
static int add_options(struct fuse_args *args, const char *path) {
    char *options = NULL, *name = NULL, *whole = realpath(path, NULL);
    const int wrong = asprintf(&name, "fsname=%s", whole ? whole : path) < 0
        || fuse_opt_add_opt(&options, "ro,default_permissions") || fuse_opt_add_opt_escaped(&options, name)
        || fuse_opt_insert_arg(args, 1, "-o") || fuse_opt_insert_arg(args, 2, options);
    free(options);
    free(name);
    free(whole);
    return wrong;
}

/* Maps the image and checks it. Returns the exit status. */
static int open_image(const char *path) {
    struct stat stat;
    const int file = open(path, O_RDONLY | O_CLOEXEC | O_NONBLOCK);
    if (file < 0 || fstat(file, &stat)) {
        return system_error(path);
    }
    if (S_ISDIR(stat.st_mode)) {
        errno = EISDIR;
        return system_error(path);
    }
    const off_t size = lseek(file, 0, SEEK_END); /* also of a block device */
    if (size < 0) {
        return system_error(path);
    }
    if ((off_t)(size_t)size != size) {
        errno = EFBIG;
        return system_error(path);
    }
    void *bytes = size ? mmap(NULL, (size_t)size, PROT_READ, MAP_PRIVATE, file, 0) : NULL;
    if (bytes == MAP_FAILED) {
        return system_error(path);
    }
    close(file);
    const uint32_t error = romtool_check(&image, bytes, (romtool_size)size);
    if (error == ROMTOOL_FAULT) {
        printf("fault %u %s at %u\n", image.fault, romtool_fault_name(image.fault), image.at);
        fflush(stdout);
        explain_fault(path);
        return FAULT;
    }
    errno = ENOMEM;
    return error || !make_tables() ? system_error(path) : 0;
}

/* Checks that something can be mounted on a path, which libfuse reports in other words. */
static int check_directory(const char *path) {
    struct stat out;
    if (stat(path, &out)) {
        return system_error(path);
    }
    errno = ENOTDIR;
    return S_ISDIR(out.st_mode) ? 0 : system_error(path);
}

/* Mounts and serves. Returns the exit status. */
static int mount_and_serve(struct fuse_session *session, const struct fuse_cmdline_opts *options) {
    int status = SYSTEM;
    if (!fuse_set_signal_handlers(session)) {
        if (!fuse_session_mount(session, options->mountpoint)) {
            if (!fuse_daemonize(options->foreground)) {
                const int done =
                    options->singlethread ? fuse_session_loop(session) : fuse_session_loop_mt(session, options->clone_fd);
                status = done < 0 ? SYSTEM : 0; /* a positive number is that of a signal */
            }
            fuse_session_unmount(session);
        }
        fuse_remove_signal_handlers(session);
    }
    return status;
}

/* Shows help or versions, if the words ask for them. */
static int is_shown(const struct fuse_cmdline_opts *options) {
    if (options->show_help) {
        puts("usage: romtool-mount IMAGE DIR [-f] [-s] [-d] [-o OPTION[,OPTION]..]\n");
        puts("    -o uid=N, gid=N        the owner and the group of all files\n    -o umask=M             the permissions that no file has, in octal");
        fuse_cmdline_help();
        fuse_lowlevel_help();
    } else if (options->show_version) {
        printf("romtool %s, FUSE library version %s\n", romtool_version(), fuse_pkgversion());
        fuse_lowlevel_version();
    }
    return options->show_help || options->show_version;
}

/* Returns the exit status. The words are judged before the image is read, and the image before anything is mounted. */
static int run(struct fuse_args *args, struct words *words, struct fuse_cmdline_opts *options) {
    static const struct fuse_opt known[] = {FUSE_OPT_KEY("rw", FUSE_OPT_KEY_DISCARD), FUSE_OPT_KEY("max_read=", MAX_READ),
        FUSE_OPT_KEY("uid=", OWNER), FUSE_OPT_KEY("gid=", GROUP), FUSE_OPT_KEY("umask=", MASK), FUSE_OPT_END};
    if (fuse_opt_parse(args, words, known, word)) {
        return usage();
    }
    int status = words->directory ? check_directory(words->directory) : 0;
    if (status) {
        return status;
    }
    if (fuse_parse_cmdline(args, options)) {
        return usage();
    }
    if (is_shown(options)) {
        return 0;
    }
    if (!words->directory || add_options(args, words->image)) {
        return usage();
    }
    struct fuse_session *session = fuse_session_new(args, &requests, sizeof requests, NULL);
    if (!session) {
        return usage();
    }
    status = open_image(words->image);
    if (!status) {
        status = mount_and_serve(session, options);
    }
    fuse_session_destroy(session);
    return status;
}

int main(int count, char **texts) {
    struct fuse_args args = FUSE_ARGS_INIT(count, texts);
    struct fuse_cmdline_opts options = {0};
    struct words words = {0};
    struct sigaction action;
    memset(&action, 0, sizeof action);
    action.sa_handler = bytes_are_gone;
    action.sa_flags = SA_NODEFER; /* the handler may not return */
    sigaction(SIGBUS, &action, NULL);
    const int status = run(&args, &words, &options);
    free(options.mountpoint);
    free(words.image);
    free(words.directory);
    free(names);
    free(sorted);
    free(inodes);
    fuse_opt_free_args(&args);
    return status;
}
