/* SPDX-License-Identifier: MIT
 *
 * romtool.h: a proved reader of romfs and cramfs images that are used in place.
 *
 * The library is libromtool.a of a release, or what tools/library builds in a clone. C.md in docs/ of a clone, and in
 * share/doc/romtool of an installation, says how it is linked, and what is proved of it.
 *
 * An image is checked once, or a check on another machine provides its numbers. Then paths are looked up, files are
 * opened, and their bytes are lent: they are used in the image, without a copy. What is known of an image is in a
 * struct of plain numbers that the caller owns, beside the image's bytes. It may be copied. There is nothing to close.
 *
 * The caller has to keep these rules, which no call can check:
 *   1. A struct romtool_image or romtool_file is all zeros, as ROMTOOL_INIT leaves it, or only this library has written
 *      it. Its fields may be read. (Numbers that romtool_check returned for exactly the same bytes may be put back.)
 *      A description that romtool_from_numbers accepts is one that romtool_numbers wrote for exactly these bytes.
 *   2. A call on the same image returned each node number that is passed to a call (`root` is one), or romtool_is_node is
 *      true of it. A node and a position that are passed to romtool_reopen were those of one open file at one time.
 *   3. The bytes with which an image was checked stay unchanged and at their address as long as a struct of the image,
 *      or a pointer to the bytes, is used.
 * As for any C function, a pointer has to point to as many bytes as its length says (NULL with 0 is allowed), and what
 * a call writes must not overlap any other argument.
 *
 * Memory: romtool_check allocates by the functions of romtool_heap.h, and frees everything before it returns. No other
 * call allocates memory.
 * Stack: 16 KiB is enough for each call. Files, streams, locks and globals: none.
 * Threads: calls share only the image's bytes, which they only read. Two calls may run at the same time, unless one of
 * them writes a struct that the other uses.
 *
 * A path begins with a slash and needs no zero at its end. At most 40 symbolic links in it are followed. The functions
 * whose names end in _str accept a path that ends with a zero.
 *
 * NO text of an image ends with a zero: neither the name of an entry nor the text of a link. After its last byte comes
 * the rest of the image. Use the length.
 */
#ifndef ROMTOOL_H
#define ROMTOOL_H

#ifndef __cplusplus
#include <stdbool.h>
#endif
#include <stddef.h>
#include <stdint.h>

/* The version of the library and of this header: as a number that grows with each version, and as text. */
#define ROMTOOL_VERSION 20000 /* 10000 * major + 100 * minor + patch */
#define ROMTOOL_VERSION_TEXT "2.0.0"

/* The number of the interface, which rises if calls or structs change. It is NOT the version of the library. */
#define ROMTOOL_INTERFACE 3

/* Each function of the library has this number in its symbol, `romtool_check_v3` for example. So a program links only with a
 * library whose structs and answers are those of the header that it was compiled with. ROMTOOL_SYMBOL says so to the
 * compiler; no name is a macro. romtool_library_version has the same symbol in all versions. */
#define ROMTOOL_TEXT_OF(number) #number
#define ROMTOOL_NUMBERED(name, number) __asm__(name "_v" ROMTOOL_TEXT_OF(number))
#define ROMTOOL_NUMBERED_BY(name, number) ROMTOOL_NUMBERED(name, number)
#define ROMTOOL_SYMBOL(name) ROMTOOL_NUMBERED_BY(name, ROMTOOL_INTERFACE)

/* Whether pointers have 32 bits. Then the library returns structs through a pointer, and the functions with ROMTOOL_RETURNS
 * are defined in romtool_32.h. */
#if UINTPTR_MAX <= 0xffffffffu
#define ROMTOOL_32 1
#define ROMTOOL_STRUCT static inline struct
#define ROMTOOL_RETURNS(name)
#else
#define ROMTOOL_32 0
#define ROMTOOL_STRUCT struct
#define ROMTOOL_RETURNS(name) ROMTOOL_SYMBOL(name)
#endif

/* A size or a number of bytes. The library counts in 64 bits on every machine. In a struct on a 32-bit machine, a
 * pointer has the first half of 8 bytes, since the size after it is aligned to 8. The other half is never used. */
typedef uint64_t romtool_size;

/* The value of a struct that is closed: `struct romtool_image image = ROMTOOL_INIT;` */
#ifdef __cplusplus
#define ROMTOOL_INIT {}
#define ROMTOOL_TEXT(text) static_cast<const uint8_t *>(static_cast<const void *>(text))
extern "C" {
#else
#define ROMTOOL_INIT {0}
#define ROMTOOL_TEXT(text) ((const uint8_t *)(text))
#endif

/* Errors. If the struct of a result has an error, all its other fields are 0. romtool_strerror returns words. The numbers are
 * macros for uint32_t, as functions return them, and an enumeration for debuggers and `switch ((enum romtool_error)error)`. */
enum romtool_error {
    ROMTOOL_OK = 0,
    ROMTOOL_ENOENT = 1,         /* a name does not exist, or the path is empty */
    ROMTOOL_ENOTDIR = 2,        /* a name follows a node that is not a directory, or the open node is not one */
    ROMTOOL_ELOOP = 3,          /* more than 40 symbolic links */
    ROMTOOL_ENAMETOOLONG = 4,   /* a path of more than 4095 bytes, or a name of more than 255 */
    ROMTOOL_EINVAL = 5,         /* no slash in front of a path; no symbolic link; a range that is empty or too long; too many entries */
    ROMTOOL_EBADF = 6,          /* the file is not open */
    ROMTOOL_EISDIR = 7,         /* the open node is a directory */
    ROMTOOL_ENXIO = 8,          /* neither a directory nor a regular file */
    ROMTOOL_ERANGE = 10,        /* the bytes do not follow one another in the image */
    ROMTOOL_CLOSED = 13,        /* no image is open */
    ROMTOOL_FAULT = 14,         /* the image has a fault */
    ROMTOOL_MEMORY = 15,        /* memory was refused */
    ROMTOOL_BUDGET = 16,        /* more names would be compared than the budget has */
    ROMTOOL_NUMBERS = 17,       /* numbers that are not those of an image with so many bytes */
};
#define ROMTOOL_OK 0u
#define ROMTOOL_ENOENT 1u
#define ROMTOOL_ENOTDIR 2u
#define ROMTOOL_ELOOP 3u
#define ROMTOOL_ENAMETOOLONG 4u
#define ROMTOOL_EINVAL 5u
#define ROMTOOL_EBADF 6u
#define ROMTOOL_EISDIR 7u
#define ROMTOOL_ENXIO 8u
#define ROMTOOL_ERANGE 10u
#define ROMTOOL_CLOSED 13u
#define ROMTOOL_FAULT 14u
#define ROMTOOL_MEMORY 15u
#define ROMTOOL_BUDGET 16u
#define ROMTOOL_NUMBERS 17u

/* Formats. */
#define ROMTOOL_ROMFS 1u
#define ROMTOOL_CRAMFS 2u
#define ROMTOOL_CRAMFS_BE 3u     /* big-endian cramfs */

/* Kinds. */
#define ROMTOOL_DIRECTORY 1u
#define ROMTOOL_REGULAR 2u
#define ROMTOOL_SYMLINK 3u
#define ROMTOOL_BLOCK 4u
#define ROMTOOL_CHARACTER 5u
#define ROMTOOL_SOCKET 6u
#define ROMTOOL_FIFO 7u

/* An image. It is open if `status` is 1. After a check that found a fault, `fault` is its number and `at` its offset
 * (FAULTS.md). `at` MAY BE OUTSIDE the image: in romfs the record of fault 11 (Bounds) may be after the last byte,
 * and the fault 2 (Short) of no bytes is at 0. Compare `at` with `len` before you read there. */
struct romtool_image {
    const uint8_t *data;
    romtool_size len;
    uint32_t status;
    uint32_t format;
    uint32_t fault;
    uint32_t at;
    uint32_t accessible; /* the number of bytes that belong to the image */
    uint32_t root;       /* the offset of the root's record, which is the number of its node */
    uint32_t references; /* the number of references to records, including that of the superblock */
    uint32_t depth;      /* the greatest number of names on a path */
};

/* The number of a node: the offset of its record in the image. */
struct romtool_node {
    uint32_t error;
    uint32_t node;
};

struct romtool_stat {
    uint32_t error;
    uint32_t ino;        /* the number of the node */
    uint32_t kind;
    uint32_t mode;       /* the permissions, 0 to 07777 */
    uint32_t uid;
    uint32_t gid;
    uint32_t size;       /* the bytes of a file or of a link's text; otherwise 0 */
    uint32_t major;      /* of a device; otherwise 0 */
    uint32_t minor;
};

/* Bytes of the image: `len` of them, from `data + at` on. No zero ends them. */
struct romtool_place {
    uint32_t error;
    uint32_t at;
    uint64_t len;
};

/* An open directory or regular file: it is open if `image.status` is 1 and `error` is 0. A copy is a second file with
 * its own position. */
struct romtool_file {
    struct romtool_image image;
    uint32_t error;
    uint32_t node;
    uint64_t position;   /* of a file, the number of a byte; of a directory, a number for romtool_reopen only */
};

/* An entry of a directory: its name, which lies in the image and is NOT ended by a zero, and the number and the kind of
 * its node. `some` is 0 at the end. */
struct romtool_entry {
    const uint8_t *name;
    romtool_size name_len;
    uint32_t node;
    uint32_t some;
    uint32_t kind;
};

/* Returns the version of the linked library, as ROMTOOL_VERSION is that of the header. */
uint32_t romtool_library_version(void);

/* Checks `len` bytes as a romfs or cramfs image, and opens it. Returns 0; or ROMTOOL_FAULT or ROMTOOL_MEMORY, and then
 * `image` is closed. `root` is then the node of the path `/`. For n references, the time is n log n, and the memory
 * about 100 bytes for each; in cramfs also up to 24 bytes for each block that does not follow the one before it in its
 * file. An image has at most 1,048,576 references and 64 names on a path. */
uint32_t romtool_check(struct romtool_image *image, const uint8_t *data, romtool_size len)
    ROMTOOL_SYMBOL("romtool_check");

/* Writes the description of an open image: 48 bytes, from which romtool_from_numbers opens the same bytes without a
 * check. They are all 0 if no image is open. Otherwise they are these words of 32 bits, the least byte first: at 0 the
 * bytes `romtool` and a zero, at 8 the version 1 of the description, at 12 `format`, at 16 and 20 the lower and the upper
 * half of `len`, at 24 `accessible`, at 28 `root`, at 32 `references`, at 36 `depth`, and at 40 and 44 zero. */
#define ROMTOOL_DESCRIPTION 48
void romtool_numbers(const struct romtool_image *image, uint8_t numbers[ROMTOOL_DESCRIPTION])
    ROMTOOL_SYMBOL("romtool_numbers");

/* Opens an image by its description, without a check: no byte of the image is read. Returns 0; or ROMTOOL_NUMBERS, and
 * then `image` is closed, if the description has another magic or version, or that of another number of bytes.
 *
 * Anything else is believed. The description HAS TO BE one that romtool_numbers wrote after a check of exactly these
 * bytes (rule 1): otherwise no call on the image has a meaning, and a call may read outside of it. So protect image and
 * description together, by one signature for example. */
uint32_t romtool_from_numbers(struct romtool_image *image, const uint8_t *data, romtool_size len,
    const uint8_t numbers[ROMTOOL_DESCRIPTION]) ROMTOOL_SYMBOL("romtool_from_numbers");

/* Returns the node to which a path leads, or its kind and numbers. `follow` says whether a symbolic link as the last
 * component is followed. Errors: ROMTOOL_CLOSED, ROMTOOL_ENOENT, _ENOTDIR, _ELOOP, _ENAMETOOLONG, _EINVAL. */
ROMTOOL_STRUCT romtool_node romtool_lookup(const struct romtool_image *image, const uint8_t *path, romtool_size len,
    bool follow) ROMTOOL_RETURNS("romtool_lookup");

/* The same, if the look-up compares no more names than `*budget`. The names that it compares are taken from the budget,
 * so one budget serves several look-ups. Otherwise the error is ROMTOOL_BUDGET and nothing is left of the budget. The
 * other errors are those of romtool_lookup. If no image is open, the budget stays as it is.
 *
 * A component of the path, or of the text of a link, is compared with the names of its directory in their order, up to
 * the one that is equal. `.` and `..` are compared with no name. The code reads each name at most twice. The rest of a
 * look-up is bounded by the bytes of the path and of at most 40 links, each of which has at most 4095 bytes. */
ROMTOOL_STRUCT romtool_node romtool_lookup_within(const struct romtool_image *image, const uint8_t *path, romtool_size len,
    bool follow, uint64_t *budget) ROMTOOL_RETURNS("romtool_lookup_within");

/* The kind and numbers of what a path leads to. Errors: those of romtool_lookup. */
ROMTOOL_STRUCT romtool_stat romtool_stat(const struct romtool_image *image, const uint8_t *path, romtool_size len,
    bool follow) ROMTOOL_RETURNS("romtool_stat");

/* Returns the kind and numbers of the node with this number, which a call on this image has to have returned (rule 2).
 * Such a number is that of an entry, for example. There is no look-up, so a directory's entries and their kinds are
 * listed in linear time. Error: ROMTOOL_CLOSED. */
ROMTOOL_STRUCT romtool_stat romtool_stat_node(const struct romtool_image *image, uint32_t node)
    ROMTOOL_RETURNS("romtool_stat_node");

/* Returns whether a number is that of a node, so that numbers from elsewhere can be tried: of handles, for example. The
 * time grows with the number of references of the image. If no image is open, no number is. */
bool romtool_is_node(const struct romtool_image *image, uint32_t node) ROMTOOL_SYMBOL("romtool_is_node");

/* Returns the number of names that lead to the node with this number. It serves as `st_nlink`. A directory has one name,
 * and so has the root; 1 says of a directory that its subdirectories are not counted. It is 0 for a number that is no
 * node's, and if no image is open. The time grows with the number of references of the image. */
uint64_t romtool_links(const struct romtool_image *image, uint32_t node) ROMTOOL_SYMBOL("romtool_links");

/* Writes the numbers of the nodes of all names to the front of `numbers`, in rising order, so that a number occurs as often
 * as names lead to its node: the numbers of links of all nodes in one pass. Returns the number of names, that of the root
 * included. If `room`, the number of elements, is less, `numbers` stays as it is. The result is 0 if no image is open. For
 * n names, the time is n log n. */
uint64_t romtool_nodes(const struct romtool_image *image, uint32_t *numbers, romtool_size room)
    ROMTOOL_SYMBOL("romtool_nodes");

/* Returns how often a number occurs among the `count` numbers that romtool_nodes wrote: what romtool_links returns, and 0
 * for a number that is no node's. The time is log n. */
static inline uint64_t romtool_links_among(const uint32_t *numbers, romtool_size count, uint32_t node) {
    romtool_size begin = 0, end = 0;
    for (romtool_size step = count; step; step = step / 2) { /* the numbers before the first that is at least, or above, `node` */
        while (step <= count - begin && numbers[begin + step - 1] < node) {
            begin += step;
        }
        while (step <= count - end && numbers[end + step - 1] <= node) {
            end += step;
        }
    }
    return end - begin;
}

/* Returns the node of the parent of the directory with this number (rule 2). The root is its own parent. Errors:
 * ROMTOOL_CLOSED, and _ENOTDIR if the node is not a directory. The time grows with the number of references. */
ROMTOOL_STRUCT romtool_node romtool_parent(const struct romtool_image *image, uint32_t directory)
    ROMTOOL_RETURNS("romtool_parent");

/* Returns where the name of the image's volume is, whose length may be 0. Error: ROMTOOL_CLOSED. */
ROMTOOL_STRUCT romtool_place romtool_volume(const struct romtool_image *image) ROMTOOL_RETURNS("romtool_volume");

/* Returns the node of the entry with exactly this name, one component, in the directory with this node number (rule 2).
 * No entry is named `.` or `..`, and no link is followed. Errors: ROMTOOL_CLOSED, _ENOTDIR if the node is not a directory,
 * _ENOENT. */
ROMTOOL_STRUCT romtool_node romtool_lookup_at(const struct romtool_image *image, uint32_t directory, const uint8_t *name,
    romtool_size len) ROMTOOL_RETURNS("romtool_lookup_at");

/* Returns where the text of the symbolic link with this node number is (rule 2). There is no look-up. Errors:
 * ROMTOOL_CLOSED, and _EINVAL if the node is not a link. */
ROMTOOL_STRUCT romtool_place romtool_readlink_node(const struct romtool_image *image, uint32_t node)
    ROMTOOL_RETURNS("romtool_readlink_node");

/* Returns where the text of the symbolic link is to which a path leads. Errors: those of romtool_lookup, and
 * ROMTOOL_EINVAL if it is not a link. */
ROMTOOL_STRUCT romtool_place romtool_readlink(const struct romtool_image *image, const uint8_t *path, romtool_size len)
    ROMTOOL_RETURNS("romtool_readlink");

/* Opens the directory or regular file to which a path leads, at its start. A symbolic link as the last component is
 * followed. Returns 0 or the error, which is also in `file`: those of romtool_lookup, and ROMTOOL_ENXIO. */
uint32_t romtool_open(struct romtool_file *file, const struct romtool_image *image, const uint8_t *path,
    romtool_size len) ROMTOOL_SYMBOL("romtool_open");

/* Opens the directory or regular file with this node number, which a call on this image has to have returned (rule 2),
 * at its start. Returns 0 or the error, which is also in `file`: ROMTOOL_CLOSED, and ROMTOOL_ENXIO. */
uint32_t romtool_open_node(struct romtool_file *file, const struct romtool_image *image, uint32_t node)
    ROMTOOL_SYMBOL("romtool_open_node");

/* Opens again what was open: `node` and `position` are those of the struct of an open file of this image (rule 2), also of
 * a directory between two of its entries. So they are a cookie for telldir and seekdir at a constant cost. Returns 0 or
 * the error, which is also in `file`: ROMTOOL_CLOSED. */
uint32_t romtool_reopen(struct romtool_file *file, const struct romtool_image *image, uint32_t node, uint64_t position)
    ROMTOOL_SYMBOL("romtool_reopen");

/* Returns the kind and numbers of an open file or directory. Error: ROMTOOL_EBADF. */
ROMTOOL_STRUCT romtool_stat romtool_fstat(const struct romtool_file *file) ROMTOOL_RETURNS("romtool_fstat");

/* Returns where exactly the `len` bytes of an open file from its byte `off` on are, whatever its position is. If the file
 * is empty and `off` and `len` are 0, `at` and `len` of the place are 0. Errors otherwise, in this order: ROMTOOL_EBADF,
 * _EISDIR, _EINVAL (`len` is 0, or the range does not end within the file), _ERANGE. */
ROMTOOL_STRUCT romtool_place romtool_map(const struct romtool_file *file, uint64_t off, uint64_t len)
    ROMTOOL_RETURNS("romtool_map");

/* Returns where the next bytes of an open file are: as many of at most `max` as follow one another in the image. All
 * bytes of a romfs file do. The position moves by `len`, which is 0 at the end. Errors: ROMTOOL_EBADF, _EISDIR. */
ROMTOOL_STRUCT romtool_place romtool_lend(struct romtool_file *file, uint64_t max) ROMTOOL_RETURNS("romtool_lend");

/* Copies the next bytes of an open file to `buffer`, at most `len`, and sets `count` to their number, which is 0 at the
 * end and after an error. Returns 0 or the error: ROMTOOL_EBADF, _EISDIR. */
uint32_t romtool_read(struct romtool_file *file, uint8_t *buffer, romtool_size len, romtool_size *count)
    ROMTOOL_SYMBOL("romtool_read");

/* Copies the bytes of an open file from its byte `off` on, as romtool_read does, whatever its position is. The position
 * stays. Returns 0 or the error: ROMTOOL_EBADF, _EISDIR. */
uint32_t romtool_read_at(const struct romtool_file *file, uint64_t off, uint8_t *buffer, romtool_size len,
    romtool_size *count) ROMTOOL_SYMBOL("romtool_read_at");

/* Sets the position of an open file, also past its end. Returns 0 or the error: ROMTOOL_EBADF, _EISDIR. */
uint32_t romtool_seek(struct romtool_file *file, uint64_t position) ROMTOOL_SYMBOL("romtool_seek");

/* The next entry of an open directory, without `.` and `..`, with its kind. Gives 0 or the error: ROMTOOL_EBADF,
 * _ENOTDIR. */
uint32_t romtool_readdir(struct romtool_file *file, struct romtool_entry *entry) ROMTOOL_SYMBOL("romtool_readdir");

/* Returns the number of entries before the next one of an open directory, or 0 if no directory is open. An entry that is
 * read adds 1, so a caller may count by itself. The time grows with the number of entries. */
uint64_t romtool_telldir(const struct romtool_file *file) ROMTOOL_SYMBOL("romtool_telldir");

/* Sets an open directory to the position after its first `entries` entries: what romtool_telldir returned leads back to
 * the same entries, and 0 to the first one. Each number is allowed. Returns 0 or the error: ROMTOOL_EBADF, _ENOTDIR, and
 * _EINVAL if the directory has fewer entries; then the position stays. The time grows with the number of entries. */
uint32_t romtool_seekdir(struct romtool_file *file, uint64_t entries) ROMTOOL_SYMBOL("romtool_seekdir");

/* Returns an error of a path or of an open file as Linux numbers it in errno.h, and EIO (5) for a fault, for no open image,
 * for a budget that is used up and for numbers that are refused. ROMTOOL_ERRNO returns the numbers of the program's own
 * errno.h, which it has to include: those of ELOOP and ENAMETOOLONG are others in newlib, for example. */
#define ROMTOOL_ERRNO(error) romtool_errno_with(error, ELOOP, ENAMETOOLONG)
static inline int romtool_errno(uint32_t error) {
    switch (error) {
    case ROMTOOL_OK: return 0;
    case ROMTOOL_ENOENT: return 2;
    case ROMTOOL_ENOTDIR: return 20;
    case ROMTOOL_ELOOP: return 40;
    case ROMTOOL_ENAMETOOLONG: return 36;
    case ROMTOOL_EINVAL: return 22;
    case ROMTOOL_EBADF: return 9;
    case ROMTOOL_EISDIR: return 21;
    case ROMTOOL_ENXIO: return 6;
    case ROMTOOL_ERANGE: return 34;
    case ROMTOOL_MEMORY: return 12;
    default: return 5;
    }
}

static inline int romtool_errno_with(uint32_t error, int eloop, int enametoolong) {
    return error == ROMTOOL_ELOOP ? eloop : error == ROMTOOL_ENAMETOOLONG ? enametoolong : romtool_errno(error);
}

/* Returns a kind and permissions as `st_mode` has them in Linux; the kind bits are 0 if `kind` is no kind. */
static inline uint32_t romtool_st_mode(uint32_t kind, uint32_t mode) {
    static const uint32_t kinds[] = {0, 0040000, 0100000, 0120000, 0060000, 0020000, 0140000, 0010000};
    return (kind < sizeof kinds / sizeof *kinds ? kinds[kind] : 0) | (mode & 07777);
}

/* Returns the version of this header as text. */
static inline const char *romtool_version(void) {
    return ROMTOOL_VERSION_TEXT;
}

/* Returns an error of this library in words. */
static inline const char *romtool_strerror(uint32_t error) {
    switch (error) {
    case ROMTOOL_OK: return "no error";
    case ROMTOOL_ENOENT: return "no such file or directory";
    case ROMTOOL_ENOTDIR: return "not a directory";
    case ROMTOOL_ELOOP: return "more than 40 symbolic links";
    case ROMTOOL_ENAMETOOLONG: return "path or name too long";
    case ROMTOOL_EINVAL: return "invalid argument";
    case ROMTOOL_EBADF: return "no open file";
    case ROMTOOL_EISDIR: return "is a directory";
    case ROMTOOL_ENXIO: return "neither a directory nor a regular file";
    case ROMTOOL_ERANGE: return "bytes in several pieces";
    case ROMTOOL_CLOSED: return "no open image";
    case ROMTOOL_FAULT: return "the image has a fault";
    case ROMTOOL_MEMORY: return "out of memory";
    case ROMTOOL_BUDGET: return "too many names compared";
    case ROMTOOL_NUMBERS: return "not the numbers of this image";
    default: return "unknown error";
    }
}

/* Returns the name of the fault of this number, as `romtool check` prints it, or "Unknown" if no fault has it. */
static inline const char *romtool_fault_name(uint32_t fault) {
    switch (fault) {
    /* made by tools/tables faults */
    case 1u: return "TooMany";
    case 2u: return "Short";
    case 3u: return "Magic";
    case 4u: return "Size";
    case 5u: return "Sum";
    case 6u: return "Flags";
    case 7u: return "Crc";
    case 8u: return "Signature";
    case 9u: return "Root";
    case 11u: return "Bounds";
    case 12u: return "HeaderSum";
    case 13u: return "BadName";
    case 14u: return "Kind";
    case 15u: return "LinkSize";
    case 16u: return "BlockKind";
    case 17u: return "ListEnd";
    case 20u: return "Twice";
    case 21u: return "TooDeep";
    case 22u: return "Overlap";
    case 23u: return "DupName";
    case 24u: return "Dot";
    case 25u: return "HardLink";
    case 26u: return "Unsorted";
    /* end */
    default: return "Unknown";
    }
}

/* Returns the length of a path that ends with a zero, up to 4096, one more than a path may have. NULL is empty. */
static inline romtool_size romtool_path_len(const char *path) {
    romtool_size len = 0;
    while (path && len < 4096 && path[len]) {
        len++;
    }
    return len;
}

/* The calls by a path with a budget. Each is romtool_lookup_within and the call on the node to which the path leads. The
 * errors are those of the call without a budget, and ROMTOOL_BUDGET. The answers are those of that call, since it also
 * looks the path up, with the same errors, and then does with the node what the call on a node does. */
static inline struct romtool_stat romtool_stat_within(const struct romtool_image *image, const uint8_t *path,
    romtool_size len, bool follow, uint64_t *budget) {
    const struct romtool_node node = romtool_lookup_within(image, path, len, follow, budget);
    if (node.error) {
        struct romtool_stat none = ROMTOOL_INIT;
        none.error = node.error;
        return none;
    }
    return romtool_stat_node(image, node.node);
}

static inline struct romtool_place romtool_readlink_within(const struct romtool_image *image, const uint8_t *path,
    romtool_size len, uint64_t *budget) {
    const struct romtool_node node = romtool_lookup_within(image, path, len, false, budget);
    if (node.error) {
        struct romtool_place none = ROMTOOL_INIT;
        none.error = node.error;
        return none;
    }
    return romtool_readlink_node(image, node.node);
}

static inline uint32_t romtool_open_within(struct romtool_file *file, const struct romtool_image *image,
    const uint8_t *path, romtool_size len, uint64_t *budget) {
    const struct romtool_node node = romtool_lookup_within(image, path, len, true, budget);
    if (node.error) {
        file->image = *image;
        file->error = node.error;
        file->node = 0;
        file->position = 0;
        return node.error;
    }
    return romtool_open_node(file, image, node.node);
}

/* The calls by a path, for a path that ends with a zero. */
static inline struct romtool_node romtool_lookup_str(const struct romtool_image *image, const char *path, bool follow) {
    return romtool_lookup(image, ROMTOOL_TEXT(path), romtool_path_len(path), follow);
}

static inline struct romtool_node romtool_lookup_within_str(const struct romtool_image *image, const char *path,
    bool follow, uint64_t *budget) {
    return romtool_lookup_within(image, ROMTOOL_TEXT(path), romtool_path_len(path), follow, budget);
}

static inline struct romtool_stat romtool_stat_str(const struct romtool_image *image, const char *path, bool follow) {
    return romtool_stat(image, ROMTOOL_TEXT(path), romtool_path_len(path), follow);
}

static inline struct romtool_place romtool_readlink_str(const struct romtool_image *image, const char *path) {
    return romtool_readlink(image, ROMTOOL_TEXT(path), romtool_path_len(path));
}

static inline uint32_t romtool_open_str(struct romtool_file *file, const struct romtool_image *image,
    const char *path) {
    return romtool_open(file, image, ROMTOOL_TEXT(path), romtool_path_len(path));
}

static inline struct romtool_stat romtool_stat_within_str(const struct romtool_image *image, const char *path,
    bool follow, uint64_t *budget) {
    return romtool_stat_within(image, ROMTOOL_TEXT(path), romtool_path_len(path), follow, budget);
}

static inline struct romtool_place romtool_readlink_within_str(const struct romtool_image *image, const char *path,
    uint64_t *budget) {
    return romtool_readlink_within(image, ROMTOOL_TEXT(path), romtool_path_len(path), budget);
}

static inline uint32_t romtool_open_within_str(struct romtool_file *file, const struct romtool_image *image,
    const char *path, uint64_t *budget) {
    return romtool_open_within(file, image, ROMTOOL_TEXT(path), romtool_path_len(path), budget);
}

#if ROMTOOL_32
#include "romtool_32.h"
#endif

/* The layout of the library. A compiler that lays out the structs in another way stops here. */
typedef char romtool_layout_is_right[offsetof(struct romtool_image, len) == 8 && sizeof(struct romtool_image) == 48
        && sizeof(struct romtool_node) == 8 && sizeof(struct romtool_stat) == 36 && sizeof(struct romtool_place) == 16
        && offsetof(struct romtool_file, position) == 56 && sizeof(struct romtool_file) == 64
        && offsetof(struct romtool_entry, name_len) == 8 && sizeof(struct romtool_entry) == 32 ? 1 : -1];

#ifdef __cplusplus
}
#endif

#endif
