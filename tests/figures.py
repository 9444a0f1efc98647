#!/usr/bin/env python3
"""Measures how much stack and heap calls of the library for C take, and prints the table of docs/C.md.

    figures.py [--binary PATH] [--library PATH] [--module PATH] [--write]

stack.c is compiled over the archive and run on this machine; board/flash.c over what tools/rom32 makes for a Cortex-M3, in
qemu-system-arm. Both read the directory of c.py as cramfs and romfs, and each figure is the larger one. With --write the table
takes the place of the one in docs/C.md. The archive and the module are those of the proved build, if no others are given: only
with these is the table to be written.
"""

import os
import re
import sys
import tempfile

import c
import targets
from harness import Counts, missing, parser, program_of

PAGE = os.path.join(c.TOP, "docs", "C.md")
BEGINS, ENDS = "<!-- made by tests/figures.py -->\n", "<!-- end -->\n"
# the columns: what is measured, and by which name the programs print it
HERE = {"a check": "check", "a call with a path": "open", "`romtool_map`": "map", "`romtool_links`": "links"}
FORMS = ("cramfs", "romfs")


def on_host(top, archive, counts):
    """Returns what stack.c prints: for each name the larger number of the formats."""
    made = os.path.join(top, "stack")
    words = ["cc", "-std=c99", "-O2", *c.STRICT, os.path.join(c.SOURCES, "stack.c"), os.path.join(c.HEAPS, "area.c"), archive]
    found = {}
    if c.compiled([*words, "-o", made], counts):
        for form in FORMS:
            for line in c.said([made, form], cwd=top).stdout.decode().splitlines():
                name, number = line.split()
                found[name] = max(found.get(name, 0), int(number))
    return found


def on_board(top, module, numbers, counts):
    """Returns the same of firmware on a Cortex-M3."""
    archive, found = targets.Archives(top, module).of("thumbv7m", counts), {}
    for form in FORMS if archive else ():
        with open(os.path.join(top, "image.h"), "wb") as file:
            file.write(c.said([numbers, form], cwd=top).stdout)
        made = targets.firmware(top, archive, "flash", targets.ARM, ["-DCHECK"], counts)
        text = c.said([targets.script(top + "/flash.sh", targets.BOARD_RUN % made)], cwd=top).stdout.decode() if made else ""
        for name, number in re.findall(r"^(\w+) 0 stack (\d+)$", text, re.M) + re.findall(r"(heap|references) (\d+)", text):
            found[name] = max(found.get(name, 0), int(number))
    return found


def row(machine, found):
    """Returns a line of the table."""
    numbers = [f"{found[it]:,}" if it in found else "-" for it in (*HERE.values(), "heap")]
    return f"| {machine} | {' | '.join(numbers)} |\n"


def main():
    reads = parser("Measure the stack and the heap of the library for C.")
    reads.add_argument("--library", help="the archive, if not the one that tools/library builds")
    reads.add_argument("--module", help="the module, if not the one of the proved build")
    reads.add_argument("--write", action="store_true", help="put the table into docs/C.md")
    arguments, counts = reads.parse_args(), Counts()
    if tool := missing("cc", "rt", "arm-none-eabi-gcc", "qemu-system-arm"):
        sys.exit("tests/figures.py: there is no %s" % tool)
    with tempfile.TemporaryDirectory(prefix="romtool-") as top:
        c.build_all(program_of(arguments), top, counts)
        archive = c.library(arguments.library, counts)
        module = targets.kept_module(top, arguments.module, counts)
        numbers = c.program("numbers", top, archive, [], counts)
        host, board = on_host(top, archive, counts), on_board(top, module, numbers, counts)
    head = f"| bytes, for {host.get('references')} references | {' | '.join('stack of ' + it for it in HERE)} | heap of a check |\n"
    table = head + "|---|" + "---|" * (len(HERE) + 1) + "\n" + row("x86-64", host) + row("Cortex-M3", board)
    print(table, end="")
    if arguments.write and not counts.failed:
        with open(PAGE, encoding="utf-8") as file:
            text = file.read()
        front, back = text.index(BEGINS) + len(BEGINS), text.index(ENDS)
        with open(PAGE, "w", encoding="utf-8") as file:
            file.write(text[:front] + table + text[back:])
    return counts.close()


if __name__ == "__main__":
    sys.exit(main())
