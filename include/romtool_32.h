/* SPDX-License-Identifier: MIT
 *
 * romtool_32.h: the functions of romtool.h that return a struct, for machines whose pointers have 32 bits. There the library
 * returns each of these structs through a pointer. romtool.h includes this file if it is needed, and says what each function
 * does. */
#ifndef ROMTOOL_32_H
#define ROMTOOL_32_H

void rom32_lookup(struct romtool_node *answer, const struct romtool_image *image, const uint8_t *path,
    romtool_size len, bool follow) ROMTOOL_SYMBOL("rom32_lookup");
static inline struct romtool_node romtool_lookup(const struct romtool_image *image, const uint8_t *path,
    romtool_size len, bool follow) {
    struct romtool_node answer;
    rom32_lookup(&answer, image, path, len, follow);
    return answer;
}

void rom32_lookup_within(struct romtool_node *answer, const struct romtool_image *image, const uint8_t *path,
    romtool_size len, bool follow, uint64_t *budget) ROMTOOL_SYMBOL("rom32_lookup_within");
static inline struct romtool_node romtool_lookup_within(const struct romtool_image *image, const uint8_t *path,
    romtool_size len, bool follow, uint64_t *budget) {
    struct romtool_node answer;
    rom32_lookup_within(&answer, image, path, len, follow, budget);
    return answer;
}

void rom32_stat(struct romtool_stat *answer, const struct romtool_image *image, const uint8_t *path,
    romtool_size len, bool follow) ROMTOOL_SYMBOL("rom32_stat");
static inline struct romtool_stat romtool_stat(const struct romtool_image *image, const uint8_t *path,
    romtool_size len, bool follow) {
    struct romtool_stat answer;
    rom32_stat(&answer, image, path, len, follow);
    return answer;
}

void rom32_stat_node(struct romtool_stat *answer, const struct romtool_image *image, uint32_t node)
    ROMTOOL_SYMBOL("rom32_stat_node");
static inline struct romtool_stat romtool_stat_node(const struct romtool_image *image, uint32_t node) {
    struct romtool_stat answer;
    rom32_stat_node(&answer, image, node);
    return answer;
}

void rom32_parent(struct romtool_node *answer, const struct romtool_image *image, uint32_t directory)
    ROMTOOL_SYMBOL("rom32_parent");
static inline struct romtool_node romtool_parent(const struct romtool_image *image, uint32_t directory) {
    struct romtool_node answer;
    rom32_parent(&answer, image, directory);
    return answer;
}

void rom32_volume(struct romtool_place *answer, const struct romtool_image *image) ROMTOOL_SYMBOL("rom32_volume");
static inline struct romtool_place romtool_volume(const struct romtool_image *image) {
    struct romtool_place answer;
    rom32_volume(&answer, image);
    return answer;
}

void rom32_lookup_at(struct romtool_node *answer, const struct romtool_image *image, uint32_t directory,
    const uint8_t *name, romtool_size len) ROMTOOL_SYMBOL("rom32_lookup_at");
static inline struct romtool_node romtool_lookup_at(const struct romtool_image *image, uint32_t directory,
    const uint8_t *name, romtool_size len) {
    struct romtool_node answer;
    rom32_lookup_at(&answer, image, directory, name, len);
    return answer;
}

void rom32_readlink_node(struct romtool_place *answer, const struct romtool_image *image, uint32_t node)
    ROMTOOL_SYMBOL("rom32_readlink_node");
static inline struct romtool_place romtool_readlink_node(const struct romtool_image *image, uint32_t node) {
    struct romtool_place answer;
    rom32_readlink_node(&answer, image, node);
    return answer;
}

void rom32_readlink(struct romtool_place *answer, const struct romtool_image *image, const uint8_t *path,
    romtool_size len) ROMTOOL_SYMBOL("rom32_readlink");
static inline struct romtool_place romtool_readlink(const struct romtool_image *image, const uint8_t *path,
    romtool_size len) {
    struct romtool_place answer;
    rom32_readlink(&answer, image, path, len);
    return answer;
}

void rom32_fstat(struct romtool_stat *answer, const struct romtool_file *file) ROMTOOL_SYMBOL("rom32_fstat");
static inline struct romtool_stat romtool_fstat(const struct romtool_file *file) {
    struct romtool_stat answer;
    rom32_fstat(&answer, file);
    return answer;
}

void rom32_map(struct romtool_place *answer, const struct romtool_file *file, uint64_t off, uint64_t len)
    ROMTOOL_SYMBOL("rom32_map");
static inline struct romtool_place romtool_map(const struct romtool_file *file, uint64_t off, uint64_t len) {
    struct romtool_place answer;
    rom32_map(&answer, file, off, len);
    return answer;
}

void rom32_lend(struct romtool_place *answer, struct romtool_file *file, uint64_t max) ROMTOOL_SYMBOL("rom32_lend");
static inline struct romtool_place romtool_lend(struct romtool_file *file, uint64_t max) {
    struct romtool_place answer;
    rom32_lend(&answer, file, max);
    return answer;
}

#endif
