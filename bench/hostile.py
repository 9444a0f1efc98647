#!/usr/bin/env python3
"""Runs each command on images, manifests and tables of at most 1 MB, and a directory of 15 MB, that keep it busy.

    hostile.py [--binary PATH] [--name TEXT] [--seconds N] [--folder DIR]

A row is an input, its bytes, a command, the seconds of the processor that it takes, its peak of memory in MB, and the MB that it prints.
The limits are 100 MB, and 10 s with one more for each 25 MB that are printed; the last column says which of them a row is above. A command
is ended after N seconds (20) or with 4 GB of addresses: then the row has what it used until then, and is above if it printed less than
25 MB in a second. The last line counts the rows above. It needs /usr/bin/time (Debian package `time`), and 100 MB in a temporary directory
below DIR. All rows take some minutes. Nothing of it is a test. With --name only the inputs are made whose name has TEXT.
"""

import os
import resource
import signal
import struct
import subprocess
import sys
import tempfile
import threading

sys.path.insert(0, os.path.join(os.path.dirname(os.path.abspath(__file__)), "..", "tests"))

from bench import name_of  # noqa: E402
from files import put, remove, text_of  # noqa: E402
from harness import parser, program_of  # noqa: E402

from images import (  # noqa: E402
    BLOCK, CRAMFS_DIRECTORY, CRAMFS_REGULAR, DIRECT_POINTERS, HARD_LINK, REGULAR, SORTED, WITH_SUM, cramfs, inode, padded, pointers,
    romfs_list,
)  # fmt: skip

MB = 10**6
MOST_SECONDS, MOST_MEMORY, PRINTED_IN_A_SECOND = 10, 100 * MB, 25 * MB
MOST_ADDRESSES = 4 << 30
FLAGS = WITH_SUM | SORTED | DIRECT_POINTERS
# the lowest four bits of a romfs header's first word
SYMLINK, EXECUTABLE = 3, 8 | REGULAR
# Debian's directories of libraries
MULTIARCH = (
    b"aarch64-linux-gnu", b"arm-linux-gnueabi", b"arm-linux-gnueabihf", b"i386-linux-gnu", b"mips64el-linux-gnuabi64",
    b"mipsel-linux-gnu", b"powerpc64le-linux-gnu", b"riscv64-linux-gnu", b"s390x-linux-gnu", b"x86_64-linux-gnu",
)  # fmt: skip


# --------------------------------------------------------------------------------------- images


def one_table(names, blocks, size, mode=CRAMFS_REGULAR):
    """Returns an image of files that share one table. Its pointers lead to the blocks, and again to the first ones if these are too few."""
    table, count, there = 76 + 16 * names, -(-size // BLOCK), len(blocks) // BLOCK
    first = -(-(table + 4 * count) // BLOCK) * BLOCK
    body = b"".join(inode(mode, size, table, name_of(n)) for n in range(names))
    body += b"".join(pointers(first, min(count - at, there)) for at in range(0, count, there))
    return cramfs(FLAGS, inode(CRAMFS_DIRECTORY, 16 * names, 76), body.ljust(first - 76, b"\0") + blocks)


def programs(text):
    """33,000 names of an ELF file of 450 KiB, with 72 segments for dynamic linking, each of all its bytes."""
    size, segments = 450 << 10, 73
    program = struct.pack("<4s12BHHIQQQIHHHHHH", b"\x7fELF", 2, 1, 1, *bytes(9), 3, 62, 1, 0x400000, 64, 0, 0, 64, 56, segments, 64, 0, 0)
    program += struct.pack("<IIQQQQQQ", 1, 5, 0, 0x400000, 0x400000, size, size, 4096)
    program += (segments - 1) * struct.pack("<IIQQQQQQ", 2, 4, 64 + 56 * segments + 8, 0x400000, 0x400000, size, size, 8)
    entries = (size - len(program)) // 8 - 1
    program += entries * struct.pack("<Q", 1) + text.ljust(8, b"\0")
    return one_table(33_000, program.ljust(113 * BLOCK, b"\0"), size, CRAMFS_REGULAR | 0o111)


def needing(count, library):
    """Returns a program that needs a library so many times."""
    strings = b"\0" + library + b"\0"
    place = (64 + 2 * 56 + len(strings) + 15) // 16 * 16
    entries = struct.pack("<QQ", 5, 0x400000 + 64 + 2 * 56) + count * struct.pack("<QQ", 1, 1) + bytes(16)
    size = place + len(entries)
    program = struct.pack("<4s12BHHIQQQIHHHHHH", b"\x7fELF", 2, 1, 1, *bytes(9), 3, 62, 1, 0x400000, 64, 0, 0, 64, 56, 2, 64, 0, 0)
    program += struct.pack("<IIQQQQQQ", 1, 5, 0, 0x400000, 0x400000, size, size, 4096)
    program += struct.pack("<IIQQQQQQ", 2, 4, place, 0x400000 + place, 0x400000 + place, len(entries), len(entries), 8)
    return (program + strings).ljust(place, b"\0") + entries


def libraries(text):
    """A program that needs 60,000 libraries, none of which is there."""
    program = needing(60_000, text)
    return one_table(1, padded(program, BLOCK), len(program), CRAMFS_REGULAR | 0o111)


def linked_libraries(text):
    """Names of a program that needs ten libraries. Each is looked for in all usual directories, through 36 links of 4,000 bytes."""
    program, chain = needing(10, text), [text, *(b"%d" % n for n in range(35)), b"none"]
    first = [(EXECUTABLE, 0, len(program), b"program", program)]
    links = [(name, to.rjust(4000, b"/").replace(b"//", b"./")) for name, to in zip(chain, chain[1:])]
    links += [(name, b"/") for name in (b"lib", b"lib32", b"lib64", b"local", b"usr", *MULTIARCH)]
    first += [(SYMLINK, 0, len(to), name, to) for name, to in links]
    return romfs_list([name_of(n) for n in range(10_000)], HARD_LINK, 96, first)


def one_block(text):
    """60,000 names of one table with 4,095 pointers to one block: 1 TB of contents."""
    return one_table(60_000, text.rjust(BLOCK, b"\0"), 4095 * BLOCK)


def hard_links(text):
    """A romfs file of 500 KB with 15,000 hard links."""
    return romfs_list([name_of(n) for n in range(15_000)], HARD_LINK, 96, [(REGULAR, 0, 500_000, b"a", text.rjust(500_000, b"x"))])


def long_paths(text):
    """62 directories in each other, with names of 252 bytes, and 62,000 empty files in the last one."""
    depth, files, size = 62, 62_000, 12 + 252
    body = b"".join(inode(CRAMFS_DIRECTORY, size, 76 + size * (n + 1), b"n" * 252) for n in range(depth - 1))
    body += inode(CRAMFS_DIRECTORY, 16 * files, 76 + size * depth, b"n" * 252)
    body += b"".join(inode(CRAMFS_REGULAR, 0, 0, name_of(n)) for n in range(files - 1)) + inode(CRAMFS_REGULAR, 0, 0, b"z" + text[:3])
    return cramfs(FLAGS, inode(CRAMFS_DIRECTORY, size, 76), body)


READERS = (
    "check image", "list image", "info image", "map image", "map --all image", "map --c --only none image", "which image 0x1000",
    "linux image", "linux --needs image", "xip image", "digest image", "digest --image image", "diff image image", "diff image other",
    "verify image image", "extract --no-sync image out none",
)  # fmt: skip


def image_of(make):
    """Returns a maker of an image, and of another one that differs a little."""

    def made(top):
        for name in "image", "other":
            put(f"{top}/{name}", make(name.encode()))
        return ("image",)

    return made


# ------------------------------------------------------------------- manifests, lists, directories


def source(top, name, size):
    """Makes a file of zeros that takes no space."""
    with open(f"{top}/{name}", "wb") as file:
        file.truncate(size)


def lines_of(top, name, lines):
    """Writes a text of lines, and makes the directory `tree` if it is missing."""
    os.makedirs(top + "/tree", exist_ok=True)
    put(f"{top}/{name}", "".join(it + "\n" for it in lines).encode())
    return (name,)


def same_lines(top):
    """A manifest of a file of 16 MB and 38,000 files with its contents."""
    source(top, "source", 4095 * BLOCK - 1)
    return lines_of(top, "manifest", ["file /a 0644 0 0 4 source", *("same /%06x 0644 0 0 /a" % n for n in range(38_000))])


def hard_lines(top):
    """A manifest of a file and 49,000 further names of it, each a name of the one before it."""
    source(top, "source", 1000)
    return lines_of(top, "manifest", ["file /000000 0644 0 0 4 source", *("hard /%06x /%06x" % (n, n - 1) for n in range(1, 49_001))])


def deep_lines(top):
    """A manifest of chains of 64 directories."""
    names = ("/%02x" % n + "/a" * depth for n in range(200) for depth in range(63))
    return lines_of(top, "manifest", ("dir %s 0755 0 0" % it for it in names))


def many_devices(top):
    """15 lines of a device table, each of 65,536 devices."""
    return lines_of(top, "table", ("/%02d c 600 0 0 1 0 0 1 65536" % n for n in range(15)))


def too_many_devices(top):
    """20 such lines, which are refused."""
    return lines_of(top, "table", ("/%02d c 600 0 0 1 0 0 1 65536" % n for n in range(20)))


def many_times_all(top):
    """340 lines of a device table that set the owner of 3,000 files."""
    os.mkdir(top + "/tree")
    for n in range(3000):
        put(f"{top}/tree/{n}")
    return lines_of(top, "table", ["/ r -1 0 0 - - - - -"] * 340)


def table_of_directories(top):
    """36,000 lines of a device table, each of a directory."""
    return lines_of(top, "table", ("/%06x d 755 0 0 - - - - -" % n for n in range(36_000)))


def devices_and_directories(top):
    """A line of a device table of 65,536 devices, and 30,000 lines of a directory in one that is missing."""
    return lines_of(top, "table", ("/d c 600 0 0 1 0 0 1 65536", *("/%06x/a d 755 0 0 - - - - -" % n for n in range(30_000))))


def deep_directories(top):
    """6,000 lines of a device table, each of 64 directories in each other."""
    return lines_of(top, "table", ("/%04d%s d 755 0 0 - - - - -" % (n, "/a" * 63) for n in range(6000)))


def listed_directories(top):
    """48,000 lines of a file of devices, each of a directory."""
    return lines_of(top, "devices", ("dir /%06x 0755 0 0" % n for n in range(48_000)))


def linked_files(top):
    """A directory of 100 hard links of a file of 15 MB."""
    os.mkdir(top + "/tree")
    source(top, "tree/000", 15 * MB)
    for n in range(1, 100):
        os.link(top + "/tree/000", f"{top}/tree/{n:03}")
    return ()


# each input: its maker, which returns the names of the files whose bytes count, and the commands
INPUTS = {
    **{make.__name__: (image_of(make), READERS) for make in (programs, libraries, one_block)},
    **{make.__name__: (image_of(make), (*READERS, "extract --no-sync image all")) for make in (linked_libraries, hard_links, long_paths)},
    "same_lines": (same_lines, ("build cramfs manifest out",)),
    "hard_lines": (hard_lines, ("build romfs manifest out",)),
    "deep_lines": (deep_lines, ("build romfs manifest out", "build cramfs manifest out")),
    **{
        make.__name__: (make, ("scan --all --device-table table tree", "pack --quiet --device-table table cramfs tree out"))
        for make in (
            many_devices, too_many_devices, many_times_all, table_of_directories, devices_and_directories, deep_directories,
        )  # fmt: skip
    },
    "listed_directories": (listed_directories, ("scan --all --devices devices tree",)),
    "linked_files": (linked_files, ("pack --quiet cramfs tree out", "pack --quiet --dedupe cramfs tree out")),
}


# -------------------------------------------------------------------------------------- figures


class Usage:
    """What a command used until it ended or was ended: seconds, bytes of memory, bytes printed, and its status."""

    def __init__(self, used, printed, status):
        user, system, memory = used.split()[-3:]
        self.seconds, self.memory = float(user) + float(system), int(memory) * 1024
        self.printed, self.status = printed, "ended" if status > 128 else status

    @property
    def above(self):
        """Is which limits this is above, in words."""
        free = 0 if self.status == "ended" else MOST_SECONDS
        is_slow = self.seconds > free + self.printed / PRINTED_IN_A_SECOND
        return ", ".join(word for word, holds in (("time", is_slow), ("memory", self.memory > MOST_MEMORY)) if holds)


def measured(words, seconds, top):
    """Returns what a command used. It is ended after these seconds of the processor, or six times as many by the clock."""

    def limit():
        resource.setrlimit(resource.RLIMIT_CPU, (seconds, seconds + 1))
        resource.setrlimit(resource.RLIMIT_AS, (MOST_ADDRESSES, MOST_ADDRESSES))
        resource.setrlimit(resource.RLIMIT_CORE, (0, 0))

    how = {"cwd": top, "stdin": subprocess.DEVNULL, "stdout": subprocess.PIPE, "stderr": subprocess.STDOUT, "start_new_session": True}
    words = ["/usr/bin/time", "-o", "usage", "-f", "%U %S %M", *words]
    with subprocess.Popen(words, preexec_fn=limit, **how) as running:
        end = threading.Timer(6 * seconds, os.killpg, (running.pid, signal.SIGKILL))
        end.start()
        printed = sum(len(it) for it in iter(lambda: running.stdout.read(1 << 20), b""))
        status = running.wait()
        end.cancel()
    return Usage(text_of(top + "/usage"), printed, status)


def rows(binary, name, seconds, top):
    """Prints the rows of an input, and returns for each whether it is above a limit."""
    make, commands = INPUTS[name]
    size = sum(os.path.getsize(f"{top}/{it}") for it in make(top))
    for command in commands:
        for made in "out", "all":
            remove(f"{top}/{made}")
        used = measured([binary, *command.split()], seconds, top)
        figures = "%d | `%s` | %.1f | %.0f | %.1f" % (size, command, used.seconds, used.memory / MB, used.printed / MB)
        print("| %s | %s | %s | %s |" % (name, figures, used.status, used.above), flush=True)
        yield bool(used.above)


def main():
    reader = parser("Runs each command on inputs of 1 MB that keep it busy.")
    reader.add_argument("--name", default="", help="only the inputs whose name has this text")
    reader.add_argument("--seconds", type=int, default=20, help="after how many seconds a command is ended")
    reader.add_argument("--folder", help="where the temporary directories are made")
    arguments, above = reader.parse_args(), []
    binary = program_of(arguments)
    print("load %.1f %.1f %.1f, %d processors" % (*os.getloadavg(), os.cpu_count()))
    print("\n| input | bytes | command | seconds | MB | MB printed | status | above |\n|---|---|---|---|---|---|---|---|")
    for name in (it for it in INPUTS if arguments.name in it):
        with tempfile.TemporaryDirectory(dir=arguments.folder) as top:
            above += rows(binary, name, arguments.seconds, top)
    print("\n%d of %d rows are above %d s or %d MB" % (sum(above), len(above), MOST_SECONDS, MOST_MEMORY // MB))
    return 0


if __name__ == "__main__":
    sys.exit(main())
