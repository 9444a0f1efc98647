"""Runs romtool on small images that are cut or changed everywhere, and checks how it ends.

The images are those of cases (see run.py). Each is cut to every length from 0 on (4,735 of them), and the line of
`check` is compared with the image's row of CUTS. In those of CHANGED, each byte is set to 0, set to 255, and
each of its bits is inverted. In a romfs image each such change breaks a checksum. So the image is run once
more with the superblock's checksum corrected, and once with those of the records as well (13,495 changes). For each image
    check    prints one line, an `ok` with status 0 or a fault of its format with status 1
    list     prints the same fault line, or with status 0 at most as many lines (in cramfs as many) as
             `check` says that there are references, and as many names on a path
    neither  prints anything on standard error
"""

import concurrent.futures
import functools
import os
import re
import sys

import pytest
from files import put
from harness import TOP
from images import with_sums
from romtool import run
from run import file_of

sys.path.insert(0, os.path.join(TOP, "tools"))

import faults  # noqa: E402

# image -> where a fault line begins to hold, by length: it holds up to the next one.
CUTS = {
    "romfs/hello/image": {0: "fault 2 Short at 0", 32: "fault 4 Size at 8", 144: "ok romfs 3 1"},
    "romfs/tree/image": {0: "fault 2 Short at 0", 32: "fault 4 Size at 8", 272: "ok romfs 7 2"},
    "cramfs/file-tight/image": {
        0: "fault 2 Short at 0",
        76: "fault 11 Bounds at 64",
        92: "fault 11 Bounds at 76",
        96: "fault 11 Bounds at 92",
        101: "ok cramfs 2 1",
    },
    "cramfs/one-table-for-two-files/image": {
        0: "fault 2 Short at 0",
        76: "fault 11 Bounds at 64",
        108: "fault 11 Bounds at 76",
        112: "fault 11 Bounds at 108",
        117: "ok cramfs 3 1",
    },
    "cramfs/file-with-sum/image": {0: "fault 2 Short at 0", 76: "fault 4 Size at 4", 4096: "ok cramfs 2 1"},
}

# image -> where its records begin, for those whose sums are corrected.
CHANGED = {
    "romfs/hello/image": [32, 64, 96],
    "romfs/tree/image": [32, 64, 96, 128, 160, 192, 240],
    "cramfs/file-tight/image": [],
    "cramfs/one-table-for-two-files/image": [],
}

# the faults that a changed image may have: those of its format, except for those of too many references or names
LIMITS = ("TooMany", "TooDeep")
FAULTS = {format: {number: name for number, name in faults.of_format(format).items() if name not in LIMITS} for format in faults.FORMATS}

OK = re.compile(rb"ok (romfs|cramfs) ([0-9]+) ([0-9]+)\n")
FAULT = re.compile(rb"fault ([0-9]+) ([A-Za-z]+) at ([0-9]+)\n")
LINE = re.compile(rb"([0-9]+) ([dflbcsp]) [0-7]{4}( [0-9]+){5} (/[!-~]*)( [!-~]+)?")


def changes_of(image, records, place):
    """Yields what comes of the image by changes of the byte at `place`, each with the words that describe it."""
    old = image[place]
    for new in sorted({0, 255} | {old ^ 1 << bit for bit in range(8)}):
        if new == old:
            continue
        changed = image[:place] + bytes([new]) + image[place + 1 :]
        yield "byte %d is %d" % (place, new), changed
        if records:
            yield "byte %d is %d, superblock's sum mended" % (place, new), with_sums(changed, [])
            yield "byte %d is %d, all sums mended" % (place, new), with_sums(changed, records)


def wrong_fault(format, image, line):
    """Returns what is wrong in a fault line, or nothing."""
    number, name, offset = int(line[1]), line[2].decode(), int(line[3])
    if FAULTS[format].get(number) != name:
        return "no fault of %s" % format
    # A reference of romfs may lead anywhere; every other fault is at a byte that is there.
    if offset >= max(1, len(image)) and not (format == "romfs" and number == 11 and offset % 16 == 0):
        return "its offset lies outside"
    return None


def wrong_list(told, done, image):
    """Returns what is wrong in the list of an accepted image, or nothing."""
    format, references, depth = told[1].decode(), int(told[2]), int(told[3])
    if done.returncode != 0:
        return "list ends with status %d" % done.returncode
    lines = [LINE.fullmatch(line) for line in done.stdout[:-1].split(b"\n")]
    if not done.stdout.endswith(b"\n") or not all(lines):
        return "list prints a line that is none"
    if (lines[0][2], lines[0][4]) != (b"d", b"/"):
        return "list does not begin with the root"
    if len(lines) > references or (format == "cramfs" and len(lines) != references):
        return "list prints %d lines of %d references" % (len(lines), references)
    if depth != max([line[4].count(b"/") for line in lines[1:]], default=0):
        return "the deepest entry has another depth"
    if any(int(line[1]) >= len(image) for line in lines):
        return "a node's number lies outside"
    return None


def wrong_in(romtool, room, format, variant):
    """Returns what is wrong in the runs on a variant of an image, or nothing; `expected` is check's line if it is known."""
    words, image, expected = variant
    path = room / words
    put(path, image)
    checked, listed = (run(romtool.path, word, path) for word in ("check", "list"))
    os.unlink(path)
    if checked.stderr or listed.stderr:
        return "%s: standard error: %r %r" % (words, checked.stderr, listed.stderr)
    told, refused = OK.fullmatch(checked.stdout), FAULT.fullmatch(checked.stdout)
    if not (told and checked.returncode == 0 or refused and checked.returncode == 1):
        return "%s: check ends with status %d and %r" % (words, checked.returncode, checked.stdout)
    if expected is not None and checked.stdout != expected.encode() + b"\n":
        return "%s: %r, expected %r" % (words, checked.stdout, expected)
    if told:
        wrong = wrong_list(told, listed, image) if told[1].decode() == format else "another format"
    elif (listed.returncode, listed.stdout) != (1, checked.stdout):
        wrong = "list ends with status %d and %r" % (listed.returncode, listed.stdout)
    else:
        wrong = wrong_fault(format, image, refused)
    return wrong and "%s: %r: %s" % (words, checked.stdout, wrong)


def compare(romtool, room, name, variants):
    """Runs variants of an image: what is changed, the bytes, and the line of `check` or None."""
    with concurrent.futures.ThreadPoolExecutor(os.cpu_count()) as pool:
        wrong = [it for it in pool.map(functools.partial(wrong_in, romtool, room, name.split("/")[0]), variants) if it]
    assert not wrong, "\n".join(wrong[:40])


@pytest.mark.parametrize("name", CUTS)
def test_cut(romtool, room, name):
    """Cuts an image to every length."""
    image, rows = file_of(name), CUTS[name]
    cuts = [("cut to %d" % it, image[:it], rows[max(row for row in rows if row <= it)]) for it in range(len(image) + 1)]
    compare(romtool, room, name, cuts)


@pytest.mark.parametrize("name", CHANGED)
def test_changed(romtool, room, name):
    """Changes each byte of an image."""
    image = file_of(name)
    changes = [(*it, None) for place in range(len(image)) for it in changes_of(image, CHANGED[name], place)]
    compare(romtool, room, name, changes)
