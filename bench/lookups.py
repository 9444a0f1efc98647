#!/usr/bin/env python3
"""Measures look-ups in a list of a million names.

    lookups.py [--binary PATH] [--beside PATH] [--entries N] [--longest SECONDS]

`romtool build` makes an image of each format whose root has N names: empty files, then 300 empty directories, then 40
links of nearly 4,095 bytes, each of which walks `~000/../~001/../..` through the directories and on to the next link.
`romtool serve` answers the lines of a file: none, 100,000 look-ups of random files, of absent names, of the 300
directories in turn, of only the root, and lines that follow the 40 links. A row is the processor time over that of no
line, and the peak memory; of a row that would take longer than `--longest` only its first 100, 1,000 or 10,000 lines
are answered. A program `--beside` is measured too, as one from before a change. If a C compiler is installed, the
first program is measured once more with memory refused from the allocation on that the server can spare
(tests/refuse.c): then it has no index and no cache. It is run manually, best on a machine that does nothing else.
"""

import os
import random
import shutil
import subprocess
import sys
import tempfile

HERE = os.path.dirname(os.path.abspath(__file__))
TESTS = os.path.join(HERE, "..", "tests")
sys.path.insert(0, TESTS)

from harness import parser, program_of  # noqa: E402

DIRECTORIES, LINKS, LONGEST_TEXT, LINES = 300, 40, 4095, 100_000
FIRST, FACTOR, FURTHER = 100, 10, 20
DIGITS = "0123456789abcdefghijklmnopqrstuvwxyz"


def name_of(number):
    """Returns a name of four letters; they rise with their numbers."""
    return "".join(DIGITS[number // 36**place % 36] for place in (3, 2, 1, 0))


def link_texts():
    """Returns the text of each link, and the look-ups of a path that leads through all of them."""
    texts, turn = [], 0
    for link in range(LINKS):
        text, last = "", "~l%02d" % (link + 1) if link + 1 < LINKS else "~000"
        while len(text) + len("~000/../") + len(last) <= LONGEST_TEXT:
            text += "~%03d/../" % (turn % DIRECTORIES)
            turn += 1
        texts.append(text + last)
    return texts, turn + LINKS + 1


def manifest_of(files, texts):
    """Yields the lines of a manifest with so many files."""
    yield "file /%s 0644 0 0 4 empty\n" % name_of(0)
    for number in range(1, files):
        yield "same /%s 0644 0 0 /%s\n" % (name_of(number), name_of(0))
    for number in range(DIRECTORIES):
        yield "dir /~%03d 0755 0 0\n" % number
    for number, text in enumerate(texts):
        yield "slink /~l%02d 0777 0 0 %s\n" % (number, text)


def built(binary, form, files, texts, top):
    """Returns an image in a format."""
    with open(os.path.join(top, "manifest"), "w", encoding="ascii") as file:
        file.writelines(manifest_of(files, texts))
    open(os.path.join(top, "empty"), "wb").close()
    subprocess.run([binary, "build", form, "manifest", form], cwd=top, check=True, stdout=subprocess.DEVNULL)
    return os.path.join(top, form)


def rows_of(files):
    """Returns what is asked, and its lines."""
    chance = random.Random(1)
    names = [name_of(chance.randrange(files)).encode() for _ in range(LINES)]
    return [
        ("names by chance", [b"lookup /%s\n" % name for name in names]),
        ("absent names", [b"lookup /%s-\n" % name for name in names]),
        ("300 names in turn", [b"lookup /~%03d\n" % (number % DIRECTORIES) for number in range(LINES)]),
        ("the root alone", [b"lookup /\n"] * LINES),
    ]


class Server:
    """A program that serves an image, in a directory of its own files."""

    def __init__(self, program, image, top, environment):
        self.words, self.top = [program, "serve", image], top
        self.environment = {**os.environ, **environment}
        self.start = min(self.taken([])[0] for _ in range(3))

    def taken(self, lines):
        """Processor seconds, peak KiB, and the replies to these lines."""
        given, out = os.path.join(self.top, "lines"), os.path.join(self.top, "replies")
        with open(given, "wb") as file:
            file.writelines(lines)
        with open(given, "rb") as file, open(out, "wb") as written:
            server = subprocess.Popen(self.words, stdin=file, stdout=written, env=self.environment)
            used = os.wait4(server.pid, 0)[2]
            server.returncode = 0
        with open(out, "rb") as file:
            return used.ru_utime + used.ru_stime, used.ru_maxrss, file.read()

    def over_start(self, lines):
        """Processor seconds over those without a line, and peak KiB."""
        seconds, kib, _ = self.taken(lines)
        return max(seconds - self.start, 0.0), kib

    def row(self, name, lines, longest):
        """Prints what a row takes, its first lines if all would take too long; returns the seconds of a line."""
        count, seconds, kib = 0, 0.0, 0
        while count < len(lines) and seconds * FACTOR <= longest:
            count = min(FACTOR * count or FIRST, len(lines))
            seconds, kib = self.over_start(lines[:count])
        told = (name, seconds, seconds / count * 1e6, count, kib)
        print("    %-18s %9.3f s, %10.2f us a line, %6d lines, %7d KiB" % told, flush=True)
        return seconds / count

    def links(self, look_ups, longest, each):
        """Prints what a line takes that follows the links, if a look-up takes so long."""
        name, line = "through 40 links", b"lookup /~l00\n"
        if each * look_ups > longest:
            print("    %-18s about %.0f s, a line of %d look-ups" % (name, each * look_ups, look_ups), flush=True)
            return
        one, kib = self.over_start([line])
        further = (self.over_start([line] * (1 + FURTHER))[0] - one) / FURTHER
        told = (name, one, look_ups, further, kib)
        print("    %-18s %9.3f s, a line of %d look-ups, then %.4f s, %7d KiB" % told, flush=True)


def measured(name, server, files, look_ups, longest):
    """Prints the rows of a program."""
    print("  %-20s %9.3f s, %7d KiB without a line" % (name, server.start, server.taken([])[1]), flush=True)
    rows = {row: server.row(row, lines, longest) for row, lines in rows_of(files)}
    server.links(look_ups, longest, rows["300 names in turn"])


def refusing(program, image, top):
    """Returns an environment that refuses memory from the first allocation on that the server can do without."""
    library = os.path.join(top, "refuse.so")
    subprocess.run(["cc", "-shared", "-fPIC", "-o", library, os.path.join(TESTS, "refuse.c")], check=True)

    def environment(number):
        return {"LD_PRELOAD": library, "REFUSE_AT": str(number), "REFUSE_ALL": "yes"}

    def serves(number):
        more = {**os.environ, **environment(number)}
        return subprocess.run([program, "serve", image], input=b"lookup /\n", capture_output=True, env=more).stdout

    refused, served = 0, 1
    while not serves(served):
        refused, served = served, 2 * served
    while served - refused > 1:
        middle = (refused + served) // 2
        refused, served = (refused, middle) if serves(middle) else (middle, served)
    return environment(served)


def main():
    reader = parser("Measure look-ups in a list of a million names.")
    reader.add_argument("--beside", help="a second program")
    reader.add_argument("--entries", type=int, default=1_000_000, help="how many names the list has")
    reader.add_argument("--longest", type=float, default=60, help="how many seconds a row may take")
    arguments = reader.parse_args()
    binary, (texts, look_ups) = program_of(arguments), link_texts()
    files = arguments.entries - DIRECTORIES - LINKS
    with tempfile.TemporaryDirectory(prefix="romtool-") as top:
        for form in ("romfs", "cramfs"):
            image = built(binary, form, files, texts, top)
            print("%s, %d names, %d bytes" % (form, arguments.entries, os.path.getsize(image)), flush=True)
            measured("as it is", Server(binary, image, top, {}), files, look_ups, arguments.longest)
            if arguments.beside:
                other = Server(os.path.abspath(arguments.beside), image, top, {})
                measured("beside", other, files, look_ups, arguments.longest)
            if shutil.which("cc"):
                spared = Server(binary, image, top, refusing(binary, image, top))
                measured("without memory", spared, files, look_ups, arguments.longest)
    return 0


if __name__ == "__main__":
    sys.exit(main())
