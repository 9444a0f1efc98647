"""What the tests of builds and extractions share, whose files have relative names in the current directory: the manifest `m`, the files
beside OUT, and runs one of whose calls of the system fails, or that are stopped after one."""

import contextlib
import os
from pathlib import Path

import traced
from conftest import Image
from files import bytes_in, put, wait_for_clock
from romtool import answer

HELLO = b"file /a 0644 0 0 4 a\n"
OK = b"ok 1024\n", b"", 0
USAGE = b"", b"usage\n", 2
TRIES = 10  # of a call that a build leaves out if the machine was too slow


def fault(name, words=b""):
    """Returns the answer of a run that reports a file, with the sentences after it."""
    return b"", b"file %s\n" % os.fsencode(name) + words, 3


def said(answer):
    """Returns the sentences of a run, without `romtool: `."""
    return [line[9:] for line in answer[1].decode().splitlines() if line.startswith("romtool: ")]


def lay(text, **sources):
    """Writes the manifest `m`, and sources by their names."""
    put("m", text.encode())
    for name, held in sources.items():
        put(name, held)


def build(romtool, lines, format="romfs", **sources):
    """Builds the file `image` of a manifest's lines, and of sources by their names."""
    lay("".join(line + "\n" for line in lines), **sources)
    assert romtool("build", format, "m", "image")[1:] == (b"", 0)
    return Image(romtool, Path("image"))


def held_at(name):
    """Returns the bytes of a file, or None if it is not there."""
    return bytes_in(name) if os.path.exists(name) else None


def state():
    """Returns the files of the current directory, with their bytes."""
    return {name: bytes_in(name) for name in sorted(os.listdir(".")) if os.path.isfile(name)}


def refused(romtool, wanted, *words, **more):
    """Compares the answer of a build that is refused. It changes no file."""
    before = state()
    assert romtool("build", *words, **more) == wanted
    assert state() == before


def hello(at="."):
    """Makes a manifest of one file in a directory."""
    put(at + "/m", HELLO)
    put(at + "/a", b"hello")


def wanted(romtool, format="romfs", at="."):
    """Returns the image of the manifest of a directory."""
    romtool("build", format, "m", "wanted", cwd=at)
    image = bytes_in(at + "/wanted")
    os.remove(at + "/wanted")
    return image


def parts(at="."):
    """Returns the files of a directory that were to become images."""
    return sorted(name for name in os.listdir(at) if name.endswith(".part"))


def part(number):
    """Returns the name of a part of `out`."""
    return f".out.romtool-{number}.part"


def leave(name, held):
    """Makes a part as an interrupted build leaves it: with its mark, the sticky bit."""
    put(name, held, 0o1600)


def lay_old(old):
    """Makes the directory as it is before a build: OUT has some bytes, or is not there."""
    for name in ["out", *parts()]:
        with contextlib.suppress(FileNotFoundError):
            os.remove(name)
    if old:
        put("out", old)


def failed(romtool, words, call, what, when=None, **more):
    """Returns the answer of a run with one call of the system, or all of a name, failed: `error=EIO`, `signal=KILL`."""
    return answer(traced.run(romtool.path, *words, told=traced.inject(call, what, when), **more))


def changed_after(romtool, words, call, number, prepare):
    """Returns how a run ends if something is changed while it is stopped after one of its calls, or None if it does not make this call.

    `prepare` lays out the directory, and returns what is then to be done. Before the run no file is changed any more for a tenth of a
    second: so it does not wait until a later change has another time.
    """
    for _ in range(TRIES):
        change = prepare()
        wait_for_clock(".", 0.1)
        with traced.Held(romtool.path, words, call, number) as held:
            if held.is_held:
                change()
        if held.is_held:
            return held.answer
    return None
