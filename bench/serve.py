#!/usr/bin/env python3
"""Measures how many lines a second `romtool serve` answers, from a file and through a pipe.

    serve.py [--binary PATH] [--lines N]

The image has a hundred files in its root; the lines look them up in a random order. Through a pipe a client
sends one line and waits for its reply. Beside each row is a program in C, if a compiler is
installed, that only reads the same bytes, one a call, and writes one reply for each line. It is run by
hand, best on a machine that does nothing else.
"""

import os
import random
import subprocess
import sys
import tempfile
import time

sys.path.insert(0, os.path.join(os.path.dirname(os.path.abspath(__file__)), "..", "tests"))

from harness import parser, program_of  # noqa: E402
from images import romfs_list  # noqa: E402

FILES = 100
READER = r"""
#include <unistd.h>
int main(void)
{
    char b;
    while (read(0, &b, 1) == 1)
        if (b == '\n' && write(1, "ok 123456\n", 10) != 10)
            return 1;
    return 0;
}
"""


def lines_of(count):
    """Look-ups of random files, the same each time."""
    chance = random.Random(1)
    return [b"lookup /%02d\n" % chance.randrange(FILES) for _ in range(count)]


def from_file(words, lines, top):
    """Seconds to answer all lines of a file."""
    path = os.path.join(top, "lines")
    with open(path, "wb") as file:
        file.writelines(lines)
    with open(path, "rb") as file, open(os.devnull, "wb") as out:
        began = time.perf_counter()
        subprocess.run(words, stdin=file, stdout=out, check=True)
        return time.perf_counter() - began


def through_pipe(words, lines):
    """Seconds to answer the lines of a client that waits for each reply."""
    server = subprocess.Popen(words, stdin=subprocess.PIPE, stdout=subprocess.PIPE, bufsize=0)
    began = time.perf_counter()
    for line in lines:
        server.stdin.write(line)
        if not server.stdout.read(4096).startswith(b"ok "):
            raise ValueError("%r was not answered" % line)
    took = time.perf_counter() - began
    server.stdin.close()
    server.wait()
    server.stdout.close()
    return took


def reader_in(top):
    """Returns the program in C, or nothing if there is no compiler."""
    source, program = os.path.join(top, "reader.c"), os.path.join(top, "reader")
    with open(source, "w", encoding="ascii") as file:
        file.write(READER)
    try:
        subprocess.run(["cc", "-O2", "-o", program, source], check=True, stderr=subprocess.DEVNULL)
    except (OSError, subprocess.CalledProcessError):
        return None
    return [program]


def main():
    reader = parser("Measure how many lines a second are answered.")
    reader.add_argument("--lines", type=int, default=200_000, help="how many lines are sent")
    arguments = reader.parse_args()
    lines = lines_of(arguments.lines)
    with tempfile.TemporaryDirectory(prefix="romtool-") as top:
        image = os.path.join(top, "image")
        with open(image, "wb") as file:
            file.write(romfs_list(b"%02d" % number for number in range(FILES)))
        rows = [("romtool serve", [program_of(arguments), "serve", image]), ("reads alone", reader_in(top))]
        for name, words in rows:
            if words is not None:
                print(
                    "%-14s from a file %9.0f lines a second, through a pipe %9.0f"
                    % (name, len(lines) / from_file(words, lines, top), len(lines) / through_pipe(words, lines))
                )
    return 0


if __name__ == "__main__":
    sys.exit(main())
