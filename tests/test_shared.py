"""Reads images whose names share bytes: these are looked at once. For each name by itself the commands would take an hour or more, and a
limit of the processor's time ends them.
"""

import hashlib
import resource
import struct

import pytest
from files import put
from images import BLOCK, CRAMFS_DIRECTORY, CRAMFS_REGULAR, DIRECT_POINTERS, HARD_LINK, REGULAR, SORTED, WITH_SUM
from images import cramfs, inode, pointers, romfs_list

SECONDS = 60  # of the processor, for a machine that is slow
NAMES = 20_000
BLOCKS = 4_095  # of a file: the most that cramfs has


def name_of(number):
    """Returns a name of four bytes, in the order of the numbers."""
    return b"%c%c%c%c" % tuple(97 + number // 26**at % 26 for at in (3, 2, 1, 0))


def within_time(romtool, *words):
    """Returns the answer of a command that may take only some time of the processor."""
    return romtool(*words, preexec_fn=lambda: resource.setrlimit(resource.RLIMIT_CPU, (SECONDS, SECONDS)))


def of_one_table(size, blocks, mode=CRAMFS_REGULAR):
    """Returns an image of files that share their pointers, which lead to the blocks, and then to the last one again."""
    table, count = 76 + 16 * NAMES, -(-size // BLOCK)
    first, there = -(-(table + 4 * count) // BLOCK) * BLOCK, len(blocks) // BLOCK
    body = b"".join(inode(mode, size, table, name_of(n)) for n in range(NAMES))
    body += pointers(first, there) + pointers(first + BLOCK * (there - 1), count - there, 0)
    return cramfs(WITH_SUM | SORTED | DIRECT_POINTERS, inode(CRAMFS_DIRECTORY, 16 * NAMES, 76), body.ljust(first - 76, b"\0") + blocks)


@pytest.fixture
def two_images(here):
    """The files `image` and `other`, whose names have one table of many pointers to one block; the block's last byte differs."""
    for name, last in ("image", b"a"), ("other", b"b"):
        put(name, of_one_table(BLOCKS * BLOCK, last.rjust(BLOCK, b"x")))


def test_digest_of_one_table(romtool, two_images):
    """Prints the digest of shared blocks for each name."""
    digest = hashlib.sha256((b"x" * (BLOCK - 1) + b"a") * BLOCKS).hexdigest()
    wanted = "".join("%s  %s\n" % (digest, name_of(n).decode()) for n in range(NAMES))
    assert within_time(romtool, "digest", "image") == (wanted.encode(), b"", 0)


def test_diff_of_one_table(romtool, two_images):
    """Compares shared blocks, with those of the same image and of another one."""
    assert within_time(romtool, "diff", "image", "image") == (b"", b"", 0)
    wanted = "".join("c /%s %d %d\n" % (name_of(n).decode(), BLOCKS * BLOCK, BLOCKS * BLOCK) for n in range(NAMES))
    assert within_time(romtool, "diff", "image", "other") == (wanted.encode(), b"", 1)


def test_digest_of_hard_links(romtool, here):
    """Prints the digest of a romfs file for each of its names."""
    contents = b"y" * 500_000
    put("image", romfs_list([name_of(n) for n in range(NAMES)], HARD_LINK, 96, [(REGULAR, 0, len(contents), b"A", contents)]))
    out, err, status = within_time(romtool, "digest", "image")
    lines, digest = out.decode().splitlines(), hashlib.sha256(contents).hexdigest()
    assert (err, status, len(lines)) == (b"", 0, NAMES + 1)
    assert {it.split()[0] for it in lines} == {digest}


def test_programs_of_one_table(romtool, here):
    """Prints the line of a program with many segments for dynamic linking, each of all its bytes, for each of its names."""
    size, segments = 450 << 10, 73
    head = struct.pack("<4s12BHHIQQQIHHHHHH", b"\x7fELF", 2, 1, 1, *bytes(9), 3, 62, 1, 0x400000, 64, 0, 0, 64, 56, segments, 64, 0, 0)
    head += struct.pack("<IIQQQQQQ", 1, 5, 0, 0x400000, 0x400000, size, size, 4096)
    head += (segments - 1) * struct.pack("<IIQQQQQQ", 2, 4, 64 + 56 * segments + 8, 0x400000, 0x400000, size, size, 8)
    program = head + (size - len(head)) // 8 * struct.pack("<Q", 1)
    put("image", of_one_table(size, program.ljust(-(-size // BLOCK) * BLOCK, b"\0"), CRAMFS_REGULAR | 0o111))
    out, err, status = within_time(romtool, "xip", "image")
    lines = out.decode().splitlines()
    assert (err, status, len(lines)) == (b"", 0, NAMES + 1)
    assert {it.split()[0] for it in lines[:-1]} == {"xip"} and {tuple(it.split()[2:]) for it in lines[:-1]} == {tuple(lines[0].split()[2:])}
    assert [it.split()[1] for it in lines[:-1]] == ["/" + name_of(n).decode() for n in range(NAMES)]
