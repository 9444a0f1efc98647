"""Builds romfs images by genromfs (Debian package genromfs) from directories, and compares what `romtool list` prints of each with what
the directory holds. A directory's order is genromfs's own, so the lines are compared sorted."""

import os
import subprocess

import folder
import pytest
from files import write_below
from romtool import prints

pytestmark = [pytest.mark.usefixtures("here"), pytest.mark.needs("genromfs")]


def empty():
    """Makes an empty directory."""
    os.mkdir("d")


def nested():
    """Makes directories and files with some modes."""
    write_below("d", {"a/one": "one\n", "a/b/empty": "", "a/b/c/d/two": "two\n"})
    for name, mode in (("a/e", 0o755), ("f", 0o700)):
        os.mkdir("d/" + name, mode)
    os.chmod("d/a/one", 0o700)
    os.chmod("d/a/b/empty", 0o600)


def deep():
    """Makes a file that is 33 deep."""
    write_below("d", {"/".join(map(str, range(1, 33))) + "/file": "deep\n"})


def links():
    """Makes symbolic links."""
    os.makedirs("d/sub")
    texts = {"to_a_file": "file", "sub/up": "..", "broken": "/no/such/place", "long": "x/" * 2000, "text with spaces": "a b%c"}
    for name, text in texts.items():
        os.symlink(text, "d/" + name)


def hard():
    """Makes a file with three names."""
    write_below("d", {"first": "shared\n"})
    os.mkdir("d/sub")
    for name in ("second", "sub/third"):
        os.link("d/first", "d/" + name)


def names():
    """Makes files with long and odd names."""
    odd = ("a b%c", "caf\u00e9", "no text \udcff", "fifteen bytes !", "sixteen bytes !!", ".hidden")
    write_below("d", dict.fromkeys(["n" * 255, "m" * 240, *odd], ""))


def special():
    """Makes a fifo and a socket."""
    os.mkdir("d")
    os.mkfifo("d/fifo")
    folder.put_socket("d/socket")


def devices():
    """Makes devices beside them."""
    special()
    for name, *device in (("character", "c", 1, 3), ("block", "b", 8, 17), ("large", "c", 511, 255)):
        folder.put_device("d/" + name, *device)


def aligned():
    """Makes files in two directories."""
    write_below("d", {"k": "abc", "sub/l": "defg", "empty": ""})


def many():
    """Makes 300 files in one directory."""
    write_below("d", {f"file{it}": f"{it}\n" for it in range(1, 301)})


def hidden():
    """Makes a file in a directory."""
    write_below("d", {"sub/file": "text\n"})


# the directory, words for genromfs, and what `check` answers, if that is known
SAME = {
    "empty": (empty, [], "ok romfs 2 0"),  # the root and its dots
    "volume": (empty, ["-V", "name"]),
    "volume of 40 bytes": (empty, ["-V", "a_volume_name_of_forty_bytes_and_no_less"]),
    "nested": (nested, []),
    "deep": (deep, []),
    "links": (links, []),
    "hard": (hard, []),
    "names": (names, []),
    "special": (special, []),
    "devices": (devices, []),
    "all aligned": (aligned, ["-a", "512"]),
    "one aligned": (aligned, ["-A", "4096,/k"]),
    "aligned below": (aligned, ["-A", "1024,/sub/*"]),
    "many": (many, [], "ok romfs 302 1"),
    "no dots": (hidden, ["-x", ".*"]),
}


def build(make, *words):
    """Builds the image of a directory that is made."""
    make()
    subprocess.run(["genromfs", "-f", "image", "-d", "d", *words], check=True)


@pytest.mark.parametrize("it", SAME.values(), ids=SAME.keys())
def test_same(romtool, it):
    """Lists what is in the directory."""
    make, words, *answer = it
    build(make, *words)
    assert folder.listed(romtool, "image") == folder.lines("romfs", "d")
    checked = romtool("check", "image")
    assert checked[0].startswith(b"ok romfs ") and checked[1:] == (b"", 0)
    assert not answer or checked == prints(*answer)


@pytest.mark.parametrize("other", ["/second", "/sub/third"], ids=["second", "third"])
def test_one_node(romtool, other):
    """Has one node for two names of a file, also of two directories."""
    build(hard)
    lines = romtool("list", "image")[0].decode().splitlines()
    (one,), (two,) = ([line.split()[0] for line in lines if line.endswith(" " + name)] for name in ("/first", other))
    assert one == two


def test_empty_without_dots(romtool):
    """Refuses an empty directory without its dots: its list is its own header, so two references lead there."""
    build(lambda: os.makedirs("d/sub"), "-x", ".*")
    assert romtool("check", "image")[0] == b"fault 20 Twice at 96\n"
