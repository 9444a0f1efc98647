"""Turns cramfs images, and cases with such images (see run.py), into the other byte order.

All words of the superblock, of the inodes and of the block pointers of a little-endian image get the same fields, packed and stored
in the other order. What romtool prints of it has to be the same, except that FORMAT is `cramfs-be`. If the image has the CRC-32 of
its bytes, the turned one has too. An image in which one word is read in two ways, as a pointer and as part of a name, has no like
in the other order, and runs on it are left out.
"""

import struct
import zlib

import run
from images import BLOCK, WITH_SUM

MAGIC = struct.pack("<I", 0x28CD3D45)
SUPERBLOCK = 76
ROOT = 64
CRC = 32
# the words of the superblock: magic, size, flags, future; crc, edition, blocks, files
WORDS = (0, 4, 8, 12, CRC, 36, 40, 44)
DIRECTORY, REGULAR, SYMLINK = 4, 8, 10


def crc_of(image):
    """Returns the CRC-32 of an image, whose own field is taken as zero."""
    return zlib.crc32(image[:CRC] + bytes(4) + image[CRC + 4 :])


class Turned:
    """A little-endian image as a big-endian one."""

    def __init__(self, image):
        self.old = image
        self.new = bytearray(image)
        self.seen = set()
        self.one_way = True  # no word is read in two ways
        if len(image) >= SUPERBLOCK:
            for at in WORDS:
                self.put(at, self.word(at))
            self.tree()
            self.mend_crc()
        else:
            self.put(0, self.word(0))

    def word(self, at):
        """Returns the word at a place of the little-endian image."""
        return struct.unpack_from("<I", self.old, at)[0]

    def put(self, at, word):
        """Stores a word, always the same one at a place."""
        if at + 4 <= len(self.new):
            told = struct.pack(">I", word)
            if at in self.seen and self.new[at : at + 4] != told:
                self.one_way = False
            self.seen.add(at)
            self.new[at : at + 4] = told

    def keep(self, at):
        """Leaves the four bytes of a name as they are."""
        if self.new[at : at + 4] != self.old[at : at + 4]:
            self.one_way = False
        self.seen.add(at)

    def tree(self):
        """Turns the root's inode, and all in a list that can be reached from it."""
        lists = [self.inode(ROOT)]
        met = set()
        while lists:
            place = lists.pop()
            if place is None or place in met:
                continue
            met.add(place)
            at, end = place
            while at + 12 <= end and at + 12 <= len(self.old):
                lists.append(self.inode(at))
                after = at + 12 + (self.word(at + 8) & 63) * 4
                for part in range(at + 12, min(after, len(self.old)), 4):
                    self.keep(part)
                at = after

    def inode(self, at):
        """Turns an inode, and the block pointers of a file or a link; a directory's list, if it is one."""
        first, second, third = (self.word(at + 4 * i) for i in range(3))
        mode, owner = first & 0xFFFF, first >> 16
        size, group = second & 0xFFFFFF, second >> 24
        name, offset = third & 63, third >> 6
        self.put(at, mode << 16 | owner)
        self.put(at + 4, size << 8 | group)
        self.put(at + 8, name << 26 | offset)
        kind, place = mode >> 12, 4 * offset
        if kind in (REGULAR, SYMLINK):
            for pointer in range(place, place + 4 * (-(-size // BLOCK)), 4):
                if pointer + 4 <= len(self.old):
                    self.put(pointer, self.word(pointer))
        return (place, place + size) if kind == DIRECTORY else None

    def mend_crc(self):
        """Stores the CRC-32 of the turned image, if the image had that of its bytes."""
        size = self.word(4)
        if self.word(8) & WITH_SUM and SUPERBLOCK <= size <= len(self.old):
            if self.word(CRC) == crc_of(self.old[:size]):
                struct.pack_into(">I", self.new, CRC, crc_of(bytes(self.new[:size])))


def images_of(case):
    """Yields the little-endian images of a case, by their names."""
    for name, told in case.get("files", {}).items():
        if isinstance(told, dict) and not {"sparse", "romfs"} & set(told):
            image = run.bytes_of(told)
            if image.startswith(MAGIC):
                yield name, image


def is_turned(case):
    """Returns whether a case has a little-endian image."""
    return any(images_of(case))


def other_line(out):
    """Returns what is printed of an image in the other byte order."""
    return out.replace(b"ok cramfs ", b"ok cramfs-be ").replace(b"format cramfs\n", b"format cramfs-be\n")


def turned_case(case):
    """Returns the case with its little-endian images turned."""
    turned = {name: Turned(image) for name, image in images_of(case)}
    left_out = {name for name, it in turned.items() if not it.one_way}
    files = {**case["files"], **{name: {"hex": it.new.hex()} for name, it in turned.items()}}
    runs = [it for it in case["runs"] if not left_out.intersection(word for word in it["words"] if isinstance(word, str))]
    runs = [{**it, "out": {"hex": other_line(run.bytes_of(it["out"])).hex()}} if "out" in it else it for it in runs]
    return {**case, "files": files, "runs": runs}
