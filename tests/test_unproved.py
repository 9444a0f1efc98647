"""Builds the unproved program and library by tools/unproved, and compares them with the proved program on each case of this directory.

Both programs make each run of a case, each in its own directory. The output, messages, status, rest of input and files
have to be the same. The library for C of tools/unproved --library answers `check`, `list` and `serve` of the cases as the proved
program does (answers.c, see c.py), by the files that it has beside it; and tools/rom32 makes a library of its module. The command
lines of docs/C.md are run over it.
"""

import os
import shutil
import tempfile

import c
import command_lines  # it makes the modules of tools/ known
import installation
import pytest
from files import bytes_in, put
from harness import TOP
from run import answers

TOOLS = os.path.join(TOP, "tools")
# firmware without a check, which has the description of an image
FIRMWARE = b"""#include "romtool.h"
#include "rom_numbers.h"
static const uint8_t flash[76];
int main(void) {
    struct romtool_image image = ROMTOOL_INIT;
    struct romtool_file file = ROMTOOL_INIT;
    if (romtool_from_numbers(&image, flash, sizeof flash, rom_numbers) || romtool_open_str(&file, &image, "/bin/busybox")) {
        return 1;
    }
    return romtool_map(&file, 0, romtool_fstat(&file).size).error != 0;
}
"""


@pytest.fixture(scope="session")
def top():
    """A directory for what is built."""
    with tempfile.TemporaryDirectory(prefix="unproved-") as folder:
        yield folder


@pytest.fixture(scope="session")
def built(top):
    """The finished build of the program `romtool-unproved`."""
    return c.said([TOOLS + "/unproved", top + "/romtool-unproved"], cwd=top)


@pytest.fixture(scope="session")
def library(top):
    """The finished build of the library."""
    return c.said([TOOLS + "/unproved", "--library", "library"], cwd=top)


@pytest.fixture(scope="session")
def answering(top, library, counts):
    """A C program over the library, by the files that it has beside it."""
    place = {**os.environ, "PKG_CONFIG_PATH": top + "/library/lib/pkgconfig"}
    flags = c.said(["pkg-config", "--cflags", "--libs", "romtool"], env=place).stdout.decode().split()
    source, made = os.path.join(c.SOURCES, "answers.c"), top + "/answers"
    c.compiled(["cc", "-std=c99", "-Wall", "-Wextra", "-Werror", source, *flags, "-o", made], counts)
    return made


@pytest.fixture(scope="session")
def thumb(top, library):
    """The finished tools/rom32, which makes `thumbv7m.a` of the library's module."""
    return c.said([TOOLS + "/rom32", "thumbv7m", "--module", "library/rom_c.ll", "-o", "thumbv7m.a"], cwd=top)


of_library = pytest.mark.needs("cc", "pkg-config")


def test_program(built):
    """Builds the program, which prints the facts of the example image, and says that it is not proved."""
    wanted = bytes_in(TOP + "/crates/romtool/stdout") + b"UNPROVED: romtool-unproved, of which nothing is proved\n"
    assert (built.returncode, built.stdout) == (0, wanted)


def test_case(romtool, built, top, case):
    """Compares both programs."""
    if case.get("no_root") and os.geteuid() == 0:
        pytest.skip("root runs it")
    assert answers(romtool.path, case) == answers(top + "/romtool-unproved", case)


@of_library
def test_library(library):
    """Builds the library, which says that it is not proved."""
    assert (library.returncode, library.stdout) == (0, b"UNPROVED: library/lib/libromtool.a, of which nothing is proved\n")


@of_library
@pytest.mark.parametrize("asked", [pytest.param(it, id=place) for place, it in c.asked_cases()])
def test_answers(romtool, answering, room, asked, counts):
    """Compares the program over the library with romtool."""
    for words, lines in c.asked_in(asked, room):
        c.answered(romtool.path, answering, words, lines, room, "the unproved library", counts)


@of_library
def test_rom32(thumb):
    """Makes the library for another machine of the module."""
    assert thumb.returncode == 0, thumb.stdout


@pytest.mark.needs("cc", "pkg-config", "arm-none-eabi-gcc", "rt")
def test_document(romtool, top, thumb, counts):
    """Runs the command lines of C.md over the unproved library, in the place of the proved one."""
    if not installation.has_fuse():
        pytest.skip("it needs libfuse3-dev")
    shutil.copy(top + "/thumbv7m.a", top + "/library")
    put(top + "/library/firmware.c", FIRMWARE)
    command_lines.run_document("docs/C.md", romtool.path, counts, library=top + "/library")
