"""Builds on a file system that says what a crash may leave of OUT, at each moment of a build.

crash.c, by FUSE, is the file system. Each call of a build that changes something there is refused in turn, before or after it
was done. At each moment a crash must leave what was at OUT before, or the new image, whole.
"""

import contextlib
import os

import fuse
import pytest
from edges import hello, wanted
from files import put, text_of
from romtool import FORMATS

pytestmark = [pytest.mark.usefixtures("here"), pytest.mark.needs("fuse")]
OLD = b"what was there before"
WHEN = ("before", "after")
# the refusals after which a crash may leave the new image, although the build failed
UNSURE = (("rename", "after"), ("fsyncdir", "before"), ("fsyncdir", "after"))


def lay_durable(folder, content):
    """Writes a file, and synchronizes it and its directory."""
    put(folder + "/out", content)
    for path in (folder + "/out", folder):
        number = os.open(path, os.O_RDONLY)
        os.fsync(number)
        os.close(number)


class Moment:
    """A moment of a build: the call after which it is, and what a crash may leave of OUT then."""

    def __init__(self, line):
        self.call, *left = line.split(" ")
        self.left = [None if it == "-" else it if it == "torn" else bytes.fromhex(it) for it in left]


def last_moment():
    """Returns the moment after the last call."""
    return Moment(text_of("log").splitlines()[-1])


@contextlib.contextmanager
def mounted(*more):
    """Provides the directory of the file system, which writes its moments into `log`."""
    with fuse.mounted("crash", "/out", "log", *more) as folder:
        if not folder:
            pytest.skip("no file system of FUSE can be mounted")
        yield folder


def built(romtool, format, old, *more):
    """Returns the answer of the build of `m` over what was at OUT, and its moments."""
    with mounted(*more) as folder:
        if old is not None:
            lay_durable(folder, old)
        os.mkdir(folder + "/count")
        done = romtool("build", format, "m", folder + "/out")
        lines = text_of("log").splitlines()
        return done, [Moment(it) for it in lines[lines.index(next(it for it in lines if it.startswith("count"))) + 1 :]]


def wrong_in(moments, old, image):
    """Returns the moments at which a crash may leave something else than what was at OUT before, or the new image."""
    return [(number, it.call, it.left) for number, it in enumerate(moments, 1) if any(left not in (old, image) for left in it.left)]


def refuse(romtool, format, old, image, number, when):
    """Builds while one call is refused."""
    (out, said, status), moments = built(romtool, format, old, str(number), when)
    refused, last = moments[number - 1].call, set(moments[-1].left)
    about = f"call {number}, {refused}, refused {when}: {out}, {said}, a crash may leave {last}"
    assert wrong_in(moments, old, image) == [], about
    assert status in (0, 3) and (status == 0) == (b"ok" in out), about
    assert status == 3 or last == {image}, about
    assert status == 0 or last == {old} or (refused, when) in UNSURE, about


@pytest.mark.parametrize("old", [None, OLD], ids=["new", "old"])
@pytest.mark.parametrize("format", FORMATS)
def test_crashes(romtool, format, old):
    """Leaves what was at OUT before or the new image, whole, at each moment, whichever call is refused."""
    hello()
    image = wanted(romtool, format)
    done, moments = built(romtool, format, old)
    assert wrong_in(moments, old, image) == []
    assert done[2] == 0 and set(moments[-1].left) == {image}
    for number in range(1, len(moments) + 1):
        for when in WHEN:
            refuse(romtool, format, old, image, number, when)


def test_without_synchronization():
    """Notices files that are not synchronized: a crash may leave a copy torn."""
    with mounted() as folder:
        put(folder + "/part", b"new")
        os.rename(folder + "/part", folder + "/out")
        last = last_moment()
        assert (last.call, last.left) == ("rename", [None, "torn"])
        lay_durable(folder, b"newer")
        last = last_moment()
        assert (last.call, last.left) == ("fsyncdir", [b"newer"])
