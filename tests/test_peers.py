"""Compares what `romtool build` makes of a directory's `scan --all` with what others make of the directory: the list of genromfs's image
(Debian package genromfs), and the directory itself. Numbers of nodes are not compared."""

import os
import subprocess

import folder
import pytest
from files import put, write_below
from romtool import FORMATS
from users import IS_ROOT

pytestmark = pytest.mark.usefixtures("here")


def empty():
    """Makes an empty directory."""
    os.mkdir("d")


def nested():
    """Makes directories and files, one of zeros."""
    write_below("d", {"a/one": "one\n", "a/b/empty": "", "a/b/c/zeros": "\0" * 5000, "e.f/two": "two\n", "d.x": "three\n"})
    os.mkdir("d/d")


def names():
    """Makes files with odd names."""
    write_below("d", dict.fromkeys(["a b/c%d", "caf\u00e9", "n" * 200, ".hidden"], "text\n"))


def many():
    """Makes 300 files in one directory."""
    write_below("d", {f"file{it}": f"{it}\n" for it in range(1, 301)})


def kinds():
    """Makes a file of each kind that this user can make."""
    os.makedirs("d/bin")
    put("d/bin/run", b"run\n", 0o4750)
    put("d/data", b"data\n", 0o600)
    os.symlink("bin/run", "d/link")
    os.mkfifo("d/queue")
    if IS_ROOT:
        folder.put_device("d/disk", "b", 8, 1)
        folder.put_device("d/tty", "c", 5, 0)
        os.chown("d/data", 7, 9)


each_tree = pytest.mark.parametrize("make", [empty, nested, names, many, kinds], ids=lambda it: it.__name__)


def ours(romtool, format):
    """Returns the lines of the image that is built of a scan."""
    told, _, status = romtool("scan", "--all", "--for", format, "d")
    put("m", told)
    assert status == 0 and romtool("build", format, "m", "image")[2] == 0
    return folder.listed(romtool, "image")


@each_tree
@pytest.mark.parametrize("format", FORMATS)
def test_directory(romtool, format, make):
    """Lists what is in the directory."""
    make()
    assert ours(romtool, format) == folder.lines(format, "d", folder.nearest)


@pytest.mark.needs("genromfs")
@each_tree
def test_genromfs(romtool, make):
    """Lists what is in genromfs's image."""
    make()
    subprocess.run(["genromfs", "-f", "theirs", "-d", "d"], check=True)
    assert ours(romtool, "romfs") == folder.listed(romtool, "theirs")
