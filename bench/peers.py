#!/usr/bin/env python3
"""Builds images of the same inputs, and extracts them, by romtool and by programs for other formats, in one run.

    peers.py [--binary PATH] [--name TEXT] [--folder DIR] [--times N]

Inputs, made in a temporary directory in DIR: one file of 200 MiB, a dozen of 16 MiB, 20,000 of 2,000 bytes, 100,000 empty
ones, and a tree like that of /usr/bin (2,000 random programs, links). Programs: `romtool build` of a manifest that
`romtool scan --all` printed, and `romtool pack`, in romfs and in cramfs; genromfs, mkfs.erofs and mksquashfs without compression,
tar and `cp -a`, if they are installed. Each is run N times (5), and of the least the seconds by the clock are printed, their
ratio to `cp`, and the peak of memory; once as it is and once with what it wrote synchronized to the disk at the end, which
`romtool` does of itself. Then checks and lists of what was written, and, except of the empty files, what each program extracts of
its own image or archive: `romtool extract` synchronizes each file, and with `--no-sync` none. It needs /usr/bin/time (Debian
package `time`). Nothing of it is a test.
"""

import os
import random
import shutil
import subprocess
import sys
import tempfile
import time

sys.path.insert(0, os.path.join(os.path.dirname(os.path.abspath(__file__)), "..", "tests"))

from files import put, remove, text_of  # noqa: E402
from harness import parser, program_of  # noqa: E402


def fill(path, size, chance):
    """Writes a file of random bytes."""
    os.makedirs(os.path.dirname(path), exist_ok=True)
    with open(path, "wb") as file:
        for _ in range(size >> 20):
            file.write(chance.randbytes(1 << 20))
        file.write(chance.randbytes(size & 0xFFFFF))


def one_large(top, chance):
    """One file of 200 MiB."""
    fill(top + "/in/file", 200 << 20, chance)


def dozen(top, chance):
    """A dozen files of 16 MiB, less a byte each, as cramfs accepts them."""
    for number in range(12):
        fill("%s/in/%02d" % (top, number), (16 << 20) - 1, chance)


def many_small(top, chance):
    """20,000 files of 2,000 bytes."""
    for number in range(20000):
        fill("%s/in/%02d/%05d" % (top, number % 20, number), 2000, chance)


def many_empty(top, chance):
    """100,000 empty files."""
    for number in range(100000):
        fill("%s/in/%03d/%06d" % (top, number % 100, number), 0, chance)


def like_bin(top, chance):
    """2,000 programs, most of them small, and 200 links."""
    for number in range(2000):
        fill("%s/in/bin/%04d" % (top, number), int(chance.lognormvariate(10, 1.5)) % (4 << 20), chance)
        os.chmod("%s/in/bin/%04d" % (top, number), 0o755)
    for number in range(200):
        os.symlink("%04d" % number, "%s/in/bin/link%03d" % (top, number))


INPUTS = {
    "one file of 200 MiB": one_large, "12 files of 16 MiB": dozen, "20,000 files of 2,000 bytes": many_small,
    "100,000 empty files": many_empty, "2,000 programs and links": like_bin,
}  # fmt: skip
# what is not extracted: a synchronization of each of so many files takes minutes
NOT_EXTRACTED = ("100,000 empty files",)


def builders(binary):
    """Yields the programs that are installed, each with its words; `out` is what they write."""
    yield "cp -a", ["cp", "-a", "in", "out"]
    yield "tar", ["tar", "-cf", "out", "in"]
    for form in ("romfs", "cramfs"):
        yield "romtool build %s" % form, [binary, "build", form, "manifest." + form, "out"]
        yield "romtool pack %s" % form, [binary, "pack", "--quiet", form, "in", "out"]
    yield "genromfs", ["genromfs", "-d", "in", "-f", "out"]
    yield "mkfs.erofs", ["mkfs.erofs", "--quiet", "out", "in"]
    yield "mksquashfs", ["mksquashfs", "in", "out", "-noI", "-noD", "-noF", "-noX", "-quiet", "-no-progress"]


def readers(binary):
    """Yields what looks at an image of romtool, by its format."""
    for form in ("romfs", "cramfs"):
        yield "cat %s" % form, form, ["cat", form]
        for word in ("check", "list", "map", "info"):
            yield "romtool %s, %s" % (word, form), form, [binary, word, form]


def extractors(binary):
    """Yields the programs that are installed and extract what a builder wrote, by its name; `out` is the directory that they make."""
    for form in ("romfs", "cramfs"):
        yield "romtool extract, %s" % form, form, [binary, "extract", form, "out"]
        yield "romtool extract --no-sync, %s" % form, form, [binary, "extract", "--no-sync", form, "out"]
    yield "tar -x", "tar", ["tar", "--one-top-level=out", "-xf", "tar"]
    yield "unsquashfs", "mksquashfs", ["unsquashfs", "-no-progress", "-d", "out", "mksquashfs"]
    yield "fsck.erofs --extract", "mkfs.erofs", ["fsck.erofs", "--extract=out", "mkfs.erofs"]


def measured(words, synced, top):
    """Returns the seconds that a command takes, and its peak of memory in KiB; or nothing if it fails."""
    start = time.monotonic()
    how = ["/usr/bin/time", "-o", "usage", "-f", "%M"]
    done = subprocess.run([*how, *words], stdout=subprocess.DEVNULL, stderr=subprocess.DEVNULL, cwd=top)
    if synced and os.path.lexists(top + "/out"):
        os.sync()
    spent = time.monotonic() - start
    return None if done.returncode else (spent, int(text_of(top + "/usage")))


def least(words, synced, times, top):
    """Returns the least of some runs."""
    runs = []
    for _ in range(times):
        remove(top + "/out")
        os.sync()
        runs.append(measured(words, synced, top))
    return None if None in runs else min(runs)


def row(name, plain, synced, against):
    """Prints a row of the table; `against` are the seconds of cp."""
    if plain is None:
        print("| %s | refused | | | |" % name)
        return
    ratio = "%.2f" % (plain[0] / against[0]) if against[0] else ""
    after = "" if synced is None else "%.2f (%.2f)" % (synced[0], synced[0] / against[1])
    print("| %s | %.2f | %s | %s | %d |" % (name, plain[0], ratio, after, plain[1]), flush=True)


def read(binary, is_extracted, times, against, top):
    """Prints how long each program takes to read or to extract what was written."""
    for name, written, words in readers(binary):
        if os.path.exists("%s/%s" % (top, written)):
            row(name, least(words, False, times, top), None, against)
    for name, written, words in extractors(binary) if is_extracted else ():
        if os.path.exists("%s/%s" % (top, written)) and shutil.which(words[0]):
            row(name, least(words, False, times, top), least(words, True, times, top), against)


def table(binary, title, times, top):
    """Prints how long each program takes for the directory `in` of another one."""
    for form in ("romfs", "cramfs"):
        scanned = subprocess.run([binary, "scan", "--all", "--for", form, "in"], stdout=subprocess.PIPE, cwd=top, check=True)
        put("%s/manifest.%s" % (top, form), scanned.stdout)
    print("\n| %s | seconds | of cp | with a sync (of cp) | KiB |\n|---|---|---|---|---|" % title)
    against = None
    for name, words in builders(binary):
        if not shutil.which(words[0]):
            continue
        plain, synced = least(words, False, times, top), least(words, True, times, top)
        against = against or (plain[0], synced[0])
        row(name, plain, synced, against)
        if plain is not None and not name.startswith("cp"):
            remove("%s/%s" % (top, name.split()[-1]))
            os.replace(top + "/out", "%s/%s" % (top, name.split()[-1]))
    read(binary, title not in NOT_EXTRACTED, times, against, top)


def main():
    reader = parser("Builds and extracts the same inputs by romtool and by other programs.")
    reader.add_argument("--name", default="", help="only the inputs whose name has this text")
    reader.add_argument("--folder", help="where the temporary directory is made")
    reader.add_argument("--times", type=int, default=5, help="how often each is run")
    arguments = reader.parse_args()
    binary = program_of(arguments)
    for title, make in INPUTS.items():
        if arguments.name in title:
            with tempfile.TemporaryDirectory(dir=arguments.folder) as top:
                make(top, random.Random(1))
                table(binary, title, arguments.times, top)
    return 0


if __name__ == "__main__":
    sys.exit(main())
