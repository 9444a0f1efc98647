"""Runs romtool on large images, which these tests lay out and never store.

The expected values are computed from the layout of each image, which its function describes.
"""

import itertools
import subprocess

import pytest
from files import put
from harness import SECONDS

from images import (
    BLOCK, CRAMFS_DIRECTORY, CRAMFS_REGULAR, DIRECT_POINTERS, REGULAR, SORTED, WITH_SUM, cramfs, cramfs_list,
    inode, pointers, romfs_list,
)  # fmt: skip

MIB = 2**20
MANY = 20_000


def contents(size):
    """Returns bytes that repeat with no power of two."""
    return (bytes(range(251)) * (size // 251 + 1))[:size]


def large_file_romfs():
    """The root's `.` is at 32 and its `..` at 64; the file is at 96, and its data at 128."""
    image = romfs_list([], first=[(REGULAR, 0, 2 * MIB + 1, b"a", contents(2 * MIB + 1))])
    listed = ["32 d 0755 0 0 0 0 0 /", "96 f 0644 0 0 2097153 0 0 /a"]
    return image, "ok romfs 3 1", listed


def large_file_cramfs():
    """The file's inode is at 76, its table of 513 pointers at 92, and its blocks are at 2144."""
    size = 2 * MIB + 1
    text = inode(CRAMFS_REGULAR, size, 92, b"a")
    body = text + pointers(2144, 513) + contents(size)
    image = cramfs(WITH_SUM | SORTED | DIRECT_POINTERS, inode(CRAMFS_DIRECTORY, len(text), 76), body)
    listed = ["64 d 0755 0 0 0 0 0 /", "76 f 0644 0 0 2097153 0 0 /a"]
    return image, "ok cramfs 2 1", listed


def lists_that_meet():
    """256 directories have one list of 257 entries: 1 + 256 + 256 * 257 = 66,049 references.

    The root's list is at 76, 256 entries of 16 bytes; so the shared list is at 76 + 4,096 = 4,172, and
    its first record is the least with two references.
    """
    shared = b"".join(inode(CRAMFS_REGULAR, 0, 0, b"%03d" % n) for n in range(257))
    text = b"".join(inode(CRAMFS_DIRECTORY, len(shared), 4172, b"%03d" % n) for n in range(256))
    image = cramfs(SORTED | DIRECT_POINTERS, inode(CRAMFS_DIRECTORY, len(text), 76), text + shared)
    return image, "fault 20 Twice at 4172", None


def seventeen_files(shift):
    """17 files of 4,095 blocks each: 69,615 blocks, of which 512 are at different places.

    The list is at 76, 17 entries of 16 bytes; the tables begin at 348, each of 16,380 bytes; the blocks
    begin at 348 + 17 * 16,380 = 278,808. The last pointer leads to the first block, or after its start.
    """
    text = b"".join(inode(CRAMFS_REGULAR, 4095 * BLOCK, 348 + 16380 * n, b"%02d" % n) for n in range(17))
    places = [278_808 + BLOCK * (n * 211 % 512) for n in range(17 * 4095 - 1)] + [278_808 + shift]
    tables = b"".join(pointers(place, 1) for place in places)
    body = text + tables + contents(512 * BLOCK)
    return cramfs(WITH_SUM | SORTED | DIRECT_POINTERS, inode(CRAMFS_DIRECTORY, len(text), 76), body)


def many_extents():
    """Blocks that begin at the same place and have the same length are shared, which is valid."""
    files = ["%d f 0644 0 0 16773120 0 0 /%02d" % (76 + 16 * n, n) for n in range(17)]
    return seventeen_files(0), "ok cramfs 18 1", ["64 d 0755 0 0 0 0 0 /"] + files


def many_extents_and_an_overlap():
    """The last block begins at 278,812, and so shares bytes with the one that begins 4 bytes before."""
    return seventeen_files(4), "fault 22 Overlap at 278812", None


def one_table_of_many_sizes():
    """50 files have one table under 50 sizes: their last blocks begin at one place, with 50 lengths.

    The list is at 76, 50 entries of 16 bytes; the table of 4,095 pointers is at 876, the block at 17,256.
    """
    text = b"".join(inode(CRAMFS_REGULAR, 4094 * BLOCK + 1 + n, 876, b"%02d" % n) for n in range(50))
    body = text + pointers(17_256, 4095, 0) + contents(BLOCK)
    image = cramfs(SORTED | DIRECT_POINTERS, inode(CRAMFS_DIRECTORY, len(text), 76), body)
    return image, "fault 22 Overlap at 17256", None


def many_files_cramfs():
    """The inode of each file is 20 bytes after the one before it, the first at 76."""
    image = cramfs_list(b"%08d" % n for n in range(MANY))
    files = ["%d f 0644 0 0 0 0 0 /%08d" % (76 + 20 * n, n) for n in range(MANY)]
    return image, "ok cramfs 20001 1", ["64 d 0755 0 0 0 0 0 /"] + files


def many_files_romfs():
    """The header of each file is 32 bytes after the one before it, the first at 96; `..` counts, too."""
    image = romfs_list(b"%08d" % n for n in range(MANY))
    files = ["%d f 0644 0 0 0 0 0 /%08d" % (96 + 32 * n, n) for n in range(MANY)]
    return image, "ok romfs 20002 1", ["32 d 0755 0 0 0 0 0 /"] + files


IMAGES = [
    large_file_romfs, large_file_cramfs, lists_that_meet, many_extents, many_extents_and_an_overlap,
    one_table_of_many_sizes, many_files_cramfs, many_files_romfs,
]  # fmt: skip


def compare(romtool, word, path, wanted, status):
    """Compares the lines of a run on an image; the first line that differs is reported."""
    out, err, got = romtool(word, path)
    lines = out.decode("ascii", "replace").split("\n")
    assert (err, got) == (b"", status)
    assert next((it for it in zip(itertools.count(1), lines, wanted) if it[1] != it[2]), None) is None
    assert lines == [*wanted, ""]


@pytest.mark.parametrize("make", IMAGES)
def test_image(romtool, room, make):
    """Checks and lists an image, and lists a long one into a pipe that its reader closes after the first line."""
    image, told, listed = make()
    path, status = room / "image", 0 if listed else 1
    put(path, image)
    compare(romtool, "check", path, [told], status)
    compare(romtool, "list", path, listed or [told], status)
    # a pipe holds 64 KiB, so a list of this length is not yet written when its reader leaves
    if listed and len(listed) >= MANY:
        with subprocess.Popen([romtool.path, "list", path], stdout=subprocess.PIPE, stderr=subprocess.PIPE) as running:
            line = running.stdout.readline().decode()
            running.stdout.close()
            said = running.stderr.read()
            assert (line, said, running.wait(SECONDS)) == (listed[0] + "\n", b"write fault\n", 3)
