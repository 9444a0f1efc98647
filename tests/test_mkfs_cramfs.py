"""Builds cramfs images by util-linux's mkfs.cramfs (Debian package util-linux-extra) from directories, in either byte order, and compares
what `romtool list` prints of each with what the directory holds. mkfs.cramfs compresses all contents, so the files are empty and there are
no links, except if a fault is expected."""

import os
import shutil
import subprocess

import folder
import pytest
from files import write_below

MKFS = shutil.which("mkfs.cramfs", path=os.environ["PATH"] + ":/usr/sbin:/sbin")
pytestmark = [pytest.mark.usefixtures("here"), pytest.mark.skipif(not MKFS, reason="it needs mkfs.cramfs")]
ORDERS = {"cramfs": "little", "cramfs-be": "big"}


def put_empty(*names):
    """Makes empty files with these names, with the directories above them."""
    write_below("d", dict.fromkeys(names, ""))


def empty():
    """Makes an empty directory."""
    os.mkdir("d")


def nested():
    """Makes directories and files."""
    put_empty("a/one", "a/b/empty", "a/b/c/d/two")
    for name in ("a/e", "f"):
        os.mkdir("d/" + name)


def deep():
    """Makes a file that is 64 deep, and returns its directory."""
    at = "/".join(map(str, range(1, 64)))
    put_empty(at + "/file")
    return at


def deeper():
    """Makes a file that is 65 deep, too."""
    put_empty(deep() + "/folder/file")


def names():
    """Makes files with long and odd names."""
    odd = ("a b%c", "caf\u00e9", "no text \udcff", "one", "four", "fives", ".hidden", "...", "-x", "tab\tand\nline")
    put_empty("n" * 252, "m" * 251, *odd)


def order():
    """Makes files whose names rise as unsigned bytes."""
    put_empty("a", "aa", "ab", "b", "B", "A", "a-", "a.b", "a0", "a\udcff", "a\x7f")


def modes():
    """Makes files with modes."""
    put_empty("none", "all", "set", "group")
    for name in ("folder", "sticky"):
        os.mkdir("d/" + name)
    for name, mode in (
        ("none", 0),
        ("all", 0o777),
        ("set", 0o4711),
        ("group", 0o2070),
        ("sticky", 0o1777),
        ("folder", 0o700),
        ("", 0o2750),
    ):
        os.chmod("d/" + name, mode)


def special():
    """Makes a fifo and a socket."""
    os.mkdir("d")
    os.mkfifo("d/fifo")
    os.chmod("d/fifo", 0o622)
    folder.put_socket("d/socket")


def devices():
    """Makes devices."""
    os.mkdir("d")
    for name, *device in (
        ("character", "c", 1, 3), ("block", "b", 8, 17, 0o640), ("largest", "c", 255, 255), ("least", "b", 0, 0),
    ):  # fmt: skip
        folder.put_device("d/" + name, *device)


def owners():
    """Makes files of other owners."""
    put_empty("user", "group", "largest", "truncated")
    for name, user, group in (("user", 1000, 0), ("group", 0, 20), ("largest", 65535, 255), ("truncated", 70000, 300), ("", 33, 33)):
        with folder.permitted():
            os.chown("d/" + name, user, group)


def many():
    """Makes 300 files in one directory."""
    put_empty(*(f"file{it}" for it in range(1, 301)))


def contents():
    """Makes a file with contents."""
    write_below("d", {"a": "hello\n"})


def linked():
    """Makes a link."""
    os.mkdir("d")
    os.symlink("target", "d/a")


# the directory, words for mkfs.cramfs, and the references and the depth, if they are known
SAME = {
    "empty": (empty, [], 1, 0),
    "volume": (empty, ["-n", "name", "-e", "7"]),
    "nested": (nested, []),
    "holes": (nested, ["-z"], 10, 5),
    "deep": (deep, []),
    "names": (names, []),
    "order": (order, []),
    "modes": (modes, []),
    "special": (special, []),
    "devices": (devices, []),
    "owners": (owners, []),
    "many": (many, [], 301, 1),
}
FAULTS = {
    # Each list is right after the one that leads to it: from 76 on 63 entries of 16 bytes (names of one or
    # two digits), a list of `file` and `folder`, 16 and 20 bytes, and the list of `folder`.
    "deeper": (deeper, [], "21 TooDeep at %d" % (76 + 63 * 16 + 16 + 20)),
    # a name of 253 bytes takes 64 units of 4 bytes, and the field of 6 bits keeps 0 of them
    "longer": (lambda: put_empty("n" * 253), [], "13 BadName at 76"),
    # the list of the root is at 76 and has one entry of 16 bytes, so the first block pointer is at 92
    "contents": (contents, [], "16 BlockKind at 92"),
    "link": (linked, [], "16 BlockKind at 92"),
    "boot code": (nested, ["-p"], "3 Magic at 0"),
}


def build(make, order, words):
    """Builds the image of a directory that is made. A warning may be printed."""
    make()
    subprocess.run([MKFS, "-N", order, *words, "d", "image"], check=True)


@pytest.mark.parametrize("it", SAME.values(), ids=SAME.keys())
@pytest.mark.parametrize("format", ORDERS)
def test_same(romtool, format, it):
    """Lists what is in the directory."""
    make, words, *known = it
    build(make, ORDERS[format], words)
    lines = folder.lines(format, "d")
    assert folder.listed(romtool, "image") == lines
    out, err, status = romtool("check", "image")
    ok, told, count, depth = out.decode().split()
    assert (ok, told, int(count), err, status) == ("ok", format, len(lines), b"", 0)
    assert known in ([], [int(count), int(depth)])


@pytest.mark.parametrize("it", FAULTS.values(), ids=FAULTS.keys())
def test_faults(romtool, it):
    """Refuses what Linux does not read."""
    make, words, fault = it
    build(make, "little", words)
    assert romtool("check", "image")[0] == f"fault {fault}\n".encode()
