#!/usr/bin/env python3
"""Measures how long romtool takes to build images, beside genromfs and beside `cat` of the same files.

    build.py [--binary PATH]

A row is a directory and a program: seconds as the clock goes, user and system time, and the peak memory in
KiB, the least of three runs each. Directories: 10,000 files of 20 MB together, 200 MiB in 13 files (a file of
cramfs has less than 16 MiB) and in one, 40,000 empty files. It needs `/usr/bin/time` (Debian package
`time`), and passes genromfs over if it is missing. It is run manually.
"""

import os
import shutil
import subprocess
import sys
import tempfile

sys.path.insert(0, os.path.join(os.path.dirname(os.path.abspath(__file__)), "..", "tests"))

from files import text_of  # noqa: E402
from harness import parser, program_of  # noqa: E402

MIB = 2**20
RUNS = 3
FOLDERS = {
    "10,000 files of 2,000 bytes": (10_000, 2_000),
    "13 files, 200 MiB": (13, 200 * MIB // 13),
    "1 file of 200 MiB": (1, 200 * MIB),
    "40,000 empty files": (40_000, 0),
}


def lay_out(top, count, size):
    """Makes the directory `in` in another one, with 1,000 files in each of its directories."""
    content = os.urandom(min(size, MIB))
    for number in range(count):
        folder = "%s/in/%03d" % (top, number // 1000)
        os.makedirs(folder, exist_ok=True)
        with open("%s/%03d" % (folder, number % 1000), "wb") as file:
            for at in range(0, size, MIB):
                file.write(content[: size - at])


def measured(command, top):
    """Clock, user and system seconds and KiB of a shell's command, or why there are none."""
    rows = []
    for _ in range(RUNS):
        done = subprocess.run(["/usr/bin/time", "-f", "%e %U %S %M", "-o", "times", "sh", "-c", command], stdout=subprocess.PIPE, cwd=top)
        if done.returncode:
            return done.stdout.decode().strip() or "failed"
        rows.append([float(word) for word in text_of(top + "/times").split()])
    return "%7.2f s %7.2f user %6.2f system %8d KiB" % tuple(map(min, zip(*rows)))


def main():
    arguments = parser("Measure building.").parse_args()
    binary = program_of(arguments)
    for name, (count, size) in FOLDERS.items():
        with tempfile.TemporaryDirectory(prefix="romtool-") as top:
            lay_out(top, count, size)
            print(name)
            rows = {"scan": "%s scan in >manifest" % binary}
            for format in ("romfs", "cramfs", "cramfs-be"):
                rows["build " + format] = "%s build %s manifest out" % (binary, format)
            rows["cat"] = "find in -type f -exec cat {} + >out"
            if shutil.which("genromfs"):
                rows["genromfs"] = "genromfs -d in -f out"
            for row, command in rows.items():
                print("  %-16s %s" % (row, measured(command, top)), flush=True)
    return 0


if __name__ == "__main__":
    sys.exit(main())
