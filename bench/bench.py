#!/usr/bin/env python3
"""Measures romtool on images that it lays out: user time, peak memory, and how these grow.

    bench.py [--binary PATH] [--name TEXT] [--largest N]

A row is one image: its kind, how many records or files it has (MiB, where it says so), its length, the
user and system time of `check` and of `list` in seconds (the least of three runs, of one if a run
takes five seconds), the peak memory of `check` beside the image and beside what the program takes for its
example, in bytes a record, the ratio of `list` to `check`, and how many times the time of `check` for a
record is that of the next smaller image. Rows of other programs are below, each with the user time of
the program by theirs, and the same with the system time: `check` beside programs that read the image,
`list` beside those that read its output. It is run manually, best on a machine that does nothing else.
"""

import os
import random
import shutil
import struct
import subprocess
import sys
import tempfile
import threading

sys.path.insert(0, os.path.join(os.path.dirname(os.path.abspath(__file__)), "..", "tests"))

from harness import parser, program_of  # noqa: E402

from images import (  # noqa: E402
    BLOCK, CRAMFS_DIRECTORY, CRAMFS_REGULAR, DIRECT_POINTERS, DIRECTORY, HARD_LINK, REGULAR, SORTED, WITH_SUM,
    cramfs, cramfs_list, header, inode, pointers, romfs, romfs_list, with_crc,
)  # fmt: skip

MIB = 2**20
SECONDS = 600
COUNTS = (20_000, 100_000, 1_000_000)
SIGNS = b"0123456789ABCDEFGHIJKLMNOPQRSTUVWXYZ_abcdefghijklmnopqrstuvwxyz"


# --------------------------------------------------------------------------------------- images


def name_of(number):
    """Returns a name of four bytes; names rise with their numbers. A million fit into the list of one directory."""
    return bytes(SIGNS[number // 63**place % 63] for place in (3, 2, 1, 0))


def rising(count):
    """Names in their order."""
    return (name_of(number) for number in range(count))


def falling(count):
    """Names in the opposite order."""
    return (name_of(number) for number in reversed(range(count)))


def shuffled(count):
    """Names in an order of chance, the same each time."""
    numbers = list(range(count))
    random.Random(1).shuffle(numbers)
    return (name_of(number) for number in numbers)


def romfs_folders(count):
    """Directories of 100 records: `.`, `..` and 98 files. The root's list has only the directories."""
    folders = count // 100
    parts = [header(64, DIRECTORY, 32, 0, b"."), header(96, HARD_LINK, 32, 0, b"..")]
    for number in range(folders):
        own = 96 + 32 * 101 * number
        after = 0 if number + 1 == folders else own + 32 * 101
        parts.append(header(after, DIRECTORY, own + 32, 0, name_of(number)))
        parts.append(header(own + 64, HARD_LINK, own, 0, b"."))
        parts.append(header(own + 96, HARD_LINK, 32, 0, b".."))
        for place in range(own + 96, own + 32 * 101, 32):
            following = place + 32 if place + 32 < own + 32 * 101 else 0
            parts.append(header(following, REGULAR, 0, 0, name_of(place)))
    return romfs(parts)


def romfs_hard_links(count):
    """One list, in turn a file and a hard link to it."""
    parts = [header(64, DIRECTORY, 32, 0, b"."), header(96, HARD_LINK, 32, 0, b"..")]
    for number in range(count):
        place = 96 + 32 * number
        following = 0 if number + 1 == count else place + 32
        kind, spec = (HARD_LINK, place - 32) if number % 2 else (REGULAR, 0)
        parts.append(header(following, kind, spec, 0, name_of(number)))
    return romfs(parts)


def cramfs_folders(count):
    """Directories of 100 empty files."""
    folders = count // 100
    first = 76 + 16 * folders
    root = [inode(CRAMFS_DIRECTORY, 1600, first + 1600 * n, name_of(n)) for n in range(folders)]
    text = b"".join(inode(CRAMFS_REGULAR, 0, 0, name_of(n)) for n in range(100)) * folders
    flags = WITH_SUM | SORTED | DIRECT_POINTERS
    return cramfs(flags, inode(CRAMFS_DIRECTORY, 16 * folders, 76), b"".join(root) + text)


def cramfs_files(inodes, tables, rest):
    """Returns a cramfs image of files: the root's list, then what is after it."""
    text = b"".join(inodes)
    return cramfs(SORTED | DIRECT_POINTERS, inode(CRAMFS_DIRECTORY, len(text), 76), text + tables + rest)


def one_table(count, size_of):
    """Returns files that share one table of 4,095 pointers to one block; each has its own size, or not."""
    table = 76 + 16 * count
    inodes = (inode(CRAMFS_REGULAR, size_of(n), table, name_of(n)) for n in range(count))
    return cramfs_files(inodes, pointers(table + 4 * 4095, 4095, 0), bytes(BLOCK))


def one_table_one_size(count):
    """Valid:  the files have one table and one size."""
    return one_table(count, lambda n: 4095 * BLOCK)


def one_table_many_sizes(count):
    """Hostile: their last blocks have many lengths."""
    return one_table(count, lambda n: 4094 * BLOCK + 1 + n % BLOCK)


def one_table_many_lengths(count):
    """Hostile: of the one table each takes another number of blocks."""
    return one_table(count, lambda n: (1 + n % 4095) * BLOCK)


def two_far_tables(count):
    """Files that have in turn one of two tables of 4,096 pointers, a million words apart.

    All blocks but the last, which has 4,095 bytes, are one.
    """
    table = 76 + 16 * count
    other = table + 4 * 4096 + 4 * MIB
    block = other + 4 * 4096
    size = 4096 * BLOCK - 1
    inodes = (inode(CRAMFS_REGULAR, size, (table, other)[n % 2], name_of(n)) for n in range(count))
    words = pointers(block, 4095, 0) + pointers(block + BLOCK, 1)
    return cramfs_files(inodes, words + bytes(4 * MIB) + words, bytes(2 * BLOCK))


def shifted_tables(count):
    """Hostile: the table of each file of 4,095 blocks begins a word after the one before it."""
    table = 76 + 16 * count
    inodes = (inode(CRAMFS_REGULAR, 4095 * BLOCK, table + 4 * n, name_of(n)) for n in range(count))
    return cramfs_files(inodes, pointers(table + 4 * (4095 + count), 4095 + count, 0), bytes(BLOCK))


def large_romfs(count):
    """One file of so many MiB."""
    return romfs_list([], first=[(REGULAR, 0, count * MIB, b"a", random.Random(1).randbytes(count * MIB))])


def large_cramfs(count):
    """Files of 8 MiB, of so many MiB in all, with the image's checksum."""
    files, blocks = count // 8, 8 * MIB // BLOCK
    table = 76 + 16 * files
    first = table + 4 * blocks * files
    text = b"".join(inode(CRAMFS_REGULAR, 8 * MIB, table + 4 * blocks * n, name_of(n)) for n in range(files))
    body = text + pointers(first, blocks * files) + random.Random(1).randbytes(count * MIB)
    return cramfs(WITH_SUM | SORTED | DIRECT_POINTERS, inode(CRAMFS_DIRECTORY, len(text), 76), body)


def for_fsck(image):
    """Returns the image with flags and a count of files that fsck.cramfs accepts; it looks only at the sum."""
    flags = struct.pack("<I", WITH_SUM | SORTED)
    return with_crc(image[:8] + flags + image[12:44] + struct.pack("<I", 1) + image[48:])


UNSORTED = WITH_SUM | DIRECT_POINTERS
HOSTILE = (50, 4_096, 100_000)
KINDS = [
    ("romfs rising", COUNTS, lambda count: romfs_list(rising(count))),
    ("romfs falling", COUNTS, lambda count: romfs_list(falling(count))),
    ("romfs shuffled", COUNTS, lambda count: romfs_list(shuffled(count))),
    ("romfs in folders of 100", COUNTS, romfs_folders),
    ("romfs half hard links", COUNTS, romfs_hard_links),
    ("cramfs rising", COUNTS, lambda count: cramfs_list(rising(count))),
    ("cramfs falling", COUNTS, lambda count: cramfs_list(falling(count), UNSORTED)),
    ("cramfs shuffled", COUNTS, lambda count: cramfs_list(shuffled(count), UNSORTED)),
    ("cramfs in folders of 100", COUNTS, cramfs_folders),
    ("cramfs one table, one size", HOSTILE, one_table_one_size),
    ("cramfs one table, many last lengths", HOSTILE, one_table_many_sizes),
    ("cramfs one table, many lengths", HOSTILE, one_table_many_lengths),
    ("cramfs two far tables in turn", HOSTILE, two_far_tables),
    ("cramfs tables a word apart", HOSTILE, shifted_tables),
    ("romfs one file, MiB", (200,), large_romfs),
    ("cramfs files of 8 MiB, MiB", (200,), large_cramfs),
]


# -------------------------------------------------------------------------------------- figures


class Run:
    """What a run took: user and system time in seconds."""

    def __init__(self, user, system):
        self.user, self.system = user, system

    @property
    def total(self):
        """Is the processor time."""
        return self.user + self.system


def once(words, out):
    """Returns a run of the words with its standard output in the file `out`."""
    with open(out, "wb") as file:
        running = subprocess.Popen(words, stdin=subprocess.DEVNULL, stdout=file, stderr=subprocess.STDOUT)
        limit = threading.Timer(SECONDS, running.kill)
        limit.start()
        _, status, used = os.wait4(running.pid, 0)
        limit.cancel()
    running.returncode = os.waitstatus_to_exitcode(status)
    return Run(used.ru_utime, used.ru_stime)


def peak_of(words, aside):
    """Returns the peak memory of a run in bytes, by time(1): of a child of Python the kernel counts Python's, too."""
    subprocess.run(["/usr/bin/time", "-q", "-f", "%M", "-o", aside, *words], stdout=subprocess.DEVNULL)
    with open(aside, encoding="ascii") as file:
        return int(file.read()) * 1024


def measured(words, out):
    """Returns the run of least time of three, or the first if it takes five seconds."""
    best = once(words, out)
    for _ in range(2 if best.total < 5 else 0):
        best = min(best, once(words, out), key=lambda run: run.total)
    return best


def ratio(one, other):
    """One time by the other, to one digit."""
    return "%.1f" % (one / other) if other >= 0.002 else "-"


def beside(words, out, mine, name):
    """A row of another program, and how many times its time mine takes."""
    run = measured(words, out)
    print("    %-32s %27s %7.3f %6.3f   romtool by this: %s, with sys %s" % (
        name, "", run.user, run.system, ratio(mine.user, run.user), ratio(mine.total, run.total)
    ), flush=True)  # fmt: skip


def row(binary, path, out, kind, count, last, base):
    """Measures an image and prints its row; returns what `check` and `list` took."""
    size = os.path.getsize(path)
    check = measured([binary, "check", path], out)
    with open(out, encoding="ascii") as file:
        told = file.read(100).strip()
    listed = measured([binary, "list", path], out)
    memory = (peak_of([binary, "check", path], out + ".peak") - base - size) / count
    grows = ratio(check.total / count * 1e6, last * 1e6) if last else "-"
    print("%-36s %9d %11d   %7.3f %6.3f   %7.3f %6.3f  %9.1f  %5s  %5s  %s" % (
        kind, count, size, check.user, check.system, listed.user, listed.system, memory,
        ratio(listed.total, check.total), grows, told), flush=True)  # fmt: skip
    if max(check.user, listed.user) > 20:
        print("    MORE THAN 20 SECONDS", flush=True)
    return check, listed


def compare(path, out, check, image):
    """Other programs on the image, beside its check."""
    beside(["cat", path], "/dev/null", check, "cat IMAGE >/dev/null")
    beside(["cat", path], out + ".copy", check, "cat IMAGE >FILE")
    fsck = shutil.which("fsck.cramfs", path=os.environ["PATH"] + ":/usr/sbin:/sbin")
    if fsck and image.startswith(b"\x45"):
        with open(path, "wb") as file:
            file.write(for_fsck(image))
        beside([fsck, path], out, check, "fsck.cramfs, other flags")
        with open(out, "rb") as file:
            said = file.read(100).decode().strip()
        if said:
            print("    it says: %s" % said)


def main():
    reader = parser("Measure romtool.")
    reader.add_argument("--name", default="", help="only the kinds whose name has this text")
    reader.add_argument("--largest", type=int, default=10**9, help="the largest count of records")
    arguments = reader.parse_args()
    binary = program_of(arguments)
    print("load %.1f %.1f %.1f, %d processors" % (*os.getloadavg(), os.cpu_count()))
    print("%-36s %9s %11s   %14s   %14s  %9s  %5s  %5s" % (
        "kind", "count", "bytes", "check: user sys", "list: user sys", "memory", "l/c", "grows"))  # fmt: skip
    with tempfile.TemporaryDirectory() as top:
        path, out = os.path.join(top, "image"), os.path.join(top, "out")
        base = peak_of([binary], out)
        for kind, counts, make in KINDS:
            last = None
            for count in (n for n in counts if arguments.name in kind and n <= arguments.largest):
                image = make(count)
                with open(path, "wb") as file:
                    file.write(image)
                check, listed = row(binary, path, out, kind, count, last, base)
                last = check.total / count
                if count == 200:
                    compare(path, out, check, image)
                elif count == max(COUNTS):
                    beside(["cat", out], "/dev/null", listed, "cat LIST >/dev/null")
                    beside(["cat", out], out + ".copy", listed, "cat LIST >FILE")
    return 0


if __name__ == "__main__":
    sys.exit(main())
