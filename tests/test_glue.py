"""Compiles the recipes for Zephyr and U-Boot over the library for C, with stubs of their headers, and runs them on images.

A program for each recipe mounts or uses one directory in each format, lists it, reads its files, and makes calls that are refused;
what it prints has to follow from the directory that was built. It is compiled as C99 without a warning, also for 32 bits by clang,
if that is installed, and with AddressSanitizer and UBSan, if the compiler has them. The headers are stubs: nothing of Zephyr and
U-Boot themselves is tried.
"""

import os
import re

import c
import pytest
from files import repository_text

pytestmark = pytest.mark.needs("cc", "rt")
each_form = pytest.mark.parametrize("form", c.FORMATS)
SIZE, SUM = len(c.CONTENT), sum(c.CONTENT)
# what Zephyr sees: a link is what it leads to, and there is no device
MOUNTED = {
    "dir /rom/d",
    "file /rom/d/link %d %d %d; 0 %d -22" % (SIZE, SIZE, SUM, SIZE - 2),
    "file /rom/empty 0 0 0; -22 0 -22",
    "file /rom/init %d %d %d; 0 %d -22" % (SIZE, SIZE, SUM, SIZE - 2),
}
BEFORE, AFTER = ["mount 1 0"], ["1 1 1 1 1 1 1 1 4", "unmount 0, changed 1"]
# what U-Boot prints of the root and of /d, sorted, and what follows
ROOT = ["            d/", "        0   empty", "     %d   init" % SIZE]
BELOW = ["        0   null", "        7   link -> ../init"]
LOADED = ["-20 -2", "1 0 0", "0 %d" % SIZE, "0 2 %d %d" % tuple(c.CONTENT[-2:]), "0 2 %d %d" % tuple(c.CONTENT[3:5]), "-21 0"]


def included(name):
    """Returns the words for the compiler of a recipe: the language, and where its headers are."""
    return ["-std=gnu99", *c.STRICT, *("-I" + os.path.dirname(it) for it in c.GLUE[name])]


def program(name, top, archive, counts):
    """Compiles the program of a recipe."""
    words = [*c.sanitizers(top), *included(name), *c.GLUE[name], os.path.join(c.HEAPS, "area.c"), archive]
    c.compiled(["cc", *words, "-o", os.path.join(top, name)], counts)
    return os.path.join(top, name)


@pytest.fixture(scope="session")
def zephyr(forms, archive, counts):
    """The program for Zephyr."""
    return program("zephyr", forms, archive, counts)


@pytest.fixture(scope="session")
def u_boot(forms, archive, counts):
    """The program for U-Boot."""
    return program("u-boot", forms, archive, counts)


def lines_of(made, image):
    """Returns the lines of a program."""
    done = c.said([made, image])
    lines = done.stdout.decode(errors="replace").splitlines()
    assert done.returncode == 0, lines
    return lines


@each_form
def test_zephyr(zephyr, forms, form):
    """Mounts an image."""
    before, *middle, last, least = lines_of(zephyr, os.path.join(forms, form))
    assert ([before], [last, least], len(middle), set(middle)) == (BEFORE, AFTER, 4, MOUNTED)


@each_form
def test_u_boot(u_boot, forms, form):
    """Uses an image. The order of names is that of the image."""
    lines = lines_of(u_boot, os.path.join(forms, form))
    got = [lines[:2], sorted(lines[2:5]), lines[5:6], sorted(lines[6:8]), lines[8:9], lines[9:]]
    assert got == [["-12", "0"], ROOT, ["0"], BELOW, ["0"], LOADED]


def test_stack():
    """Compares the stack in the header for Zephyr with the table of docs/C.md, which is measured (tests/figures.py)."""
    told = re.findall(r"\b\d,\d{3}\b", repository_text("recipes/zephyr/romtool_fs.h"))
    check, path = re.search(r"^\| Cortex-M3 \| ([\d,]+) \| ([\d,]+) \|", repository_text("docs/C.md"), re.M).groups()
    assert told == [path, check]


@pytest.mark.needs("clang")
@pytest.mark.parametrize("name", c.GLUE)
def test_32_bits(room, counts, name):
    """Compiles a recipe for a machine of 32 bits."""
    has_headers = c.has_headers("arm-linux-gnueabihf-gcc")
    compiler = ["arm-linux-gnueabihf-gcc"] if has_headers else ["clang", "--target=arm-linux-gnueabihf"]
    c.compiled([*compiler, *included(name), "-c", c.GLUE[name][0], "-o", room / "out.o"], counts)
