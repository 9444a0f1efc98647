"""Compares `romtool linux --needs` with what readelf says of compiled programs, and with rules that a person wrote."""

import itertools
import os
import re
import shutil
import subprocess

import pytest
from files import bytes_in, put
from needs import linked
from romtool import FORMATS, escaped

pytestmark = pytest.mark.usefixtures("here")
compiling = pytest.mark.needs("cc", "readelf")
each_format = pytest.mark.parametrize("format", FORMATS)
each_class = pytest.mark.parametrize(
    ("wide", "order"), [*itertools.product((False, True), "<>")], ids=["32 little", "32 big", "64 little", "64 big"]
)
LOADER, LIBRARY = b"/lib/ld.so", b"libx.so.1"


def lines(romtool, format, text, **sources):
    """Builds an image of a manifest, and returns what its programs need, with the status."""
    for name, held in sources.items():
        put(name, held)
    put("m", text.encode())
    assert romtool("build", format, "m", "image")[1:] == (b"", 0)
    return romtool("linux", "--needs", "image")


def lacks(*needs):
    """Returns the answer with these paths and names."""
    return "".join("needs %s %s\n" % it for it in needs).encode(), b"", 1 if needs else 0


@each_format
@each_class
def test_rules(romtool, format, wide, order):
    """What a program needs is found at its place, or told."""
    program = linked(LOADER, [LIBRARY, b"a b"], wide=wide, order=order)
    text = "file /p 0755 0 0 4 p\n"
    assert lines(romtool, format, text, p=program) == lacks(("/p", "/lib/ld.so"), ("/p", "libx.so.1"), ("/p", "a%20b"))
    text += "dir /lib 0755 0 0\nfile /lib/ld.so 0755 0 0 4 e\n"
    assert lines(romtool, format, text, e=b"") == lacks(("/p", "libx.so.1"), ("/p", "a%20b"))
    text += "file /lib/libx.so.1 0644 0 0 4 e\nfile /lib/a%20b 0644 0 0 4 e\n"
    assert lines(romtool, format, text) == lacks()


PLACES = [
    "/lib",
    "/usr/lib",
    "/lib64",
    "/usr/lib64",
    "/lib32",
    "/usr/lib32",
    "/usr/local/lib",
    "/lib/aarch64-linux-gnu",
    "/usr/lib/arm-linux-gnueabihf",
    "/usr/lib/x86_64-linux-gnu",
    "/lib/riscv64-linux-gnu",
    "/usr/lib/mipsel-linux-gnu",
]


@pytest.mark.parametrize("place", PLACES)
def test_directories(romtool, place):
    """A library is looked for in each usual directory."""
    above = place.split("/")[1:]
    text = "".join("dir /%s 0755 0 0\n" % "/".join(above[: n + 1]) for n in range(len(above)))
    text += "file /p 0755 0 0 4 p\nfile %s/libx.so.1 0644 0 0 4 e\n" % place
    assert lines(romtool, "romfs", text, p=linked(None, [LIBRARY]), e=b"") == lacks()
    text = text.replace(place + "/libx", "/libx")
    assert lines(romtool, "romfs", text) == lacks(("/p", "libx.so.1"))


RUN_PATHS = [
    (b"/opt", 29, True),
    (b"/opt", 15, True),
    (b"/no:/opt", 29, True),
    (b"/opt/", 29, True),
    (b"/no", 29, False),
    (b"opt", 29, False),
    (b"", 29, False),
    (b"/no:", 29, False),
    (b"$ORIGIN/lib", 29, True),
    (b"/opt/:/no", 29, True),
    (b"/opt", 1000, False),
]


@pytest.mark.parametrize(("path", "tag", "found"), RUN_PATHS, ids=["%s %d" % (it[0].decode() or "empty", it[1]) for it in RUN_PATHS])
def test_run_paths(romtool, path, tag, found):
    """A library is looked for in the directories of the run path; where these are is not always told."""
    text = "dir /opt 0755 0 0\nfile /p 0755 0 0 4 p\nfile /opt/libx.so.1 0644 0 0 4 e\n"
    wanted = lacks() if found else lacks(("/p", "libx.so.1"))
    assert lines(romtool, "cramfs", text, p=linked(None, [LIBRARY], path, tag=tag), e=b"") == wanted


ENDS = [
    ("slink /lib/libx.so.1 0777 0 0 real\nfile /lib/real 0644 0 0 4 e\n", True),
    ("slink /lib/libx.so.1 0777 0 0 /real\n", False),
    ("dir /lib/libx.so.1 0755 0 0\n", False),
    ("nod /lib/libx.so.1 0600 0 0 c 1 3\n", False),
    ("pipe /lib/libx.so.1 0644 0 0\n", False),
    ("slink /lib/libx.so.1 0777 0 0 libx.so.1\n", False),
    ("hard /lib/libx.so.1 /p\n", True),
]


@pytest.mark.parametrize(("line", "found"), ENDS, ids=["link", "dangling", "directory", "device", "pipe", "loop", "hard"])
def test_ends(romtool, line, found):
    """A library is there if its name leads to a regular file."""
    text = "dir /lib 0755 0 0\nfile /p 0644 0 0 4 p\n" + line
    # the further name of the program needs the library as well, and has it
    assert lines(romtool, "romfs", text, p=linked(None, [LIBRARY]), e=b"") == (lacks() if found else lacks(("/p", "libx.so.1")))


def test_linked_directory(romtool):
    """Directories on the way may be links."""
    text = "slink /lib 0777 0 0 usr/lib\ndir /usr 0755 0 0\ndir /usr/lib 0755 0 0\nfile /usr/lib/ld.so 0755 0 0 4 e\nfile /p 0755 0 0 4 p\n"
    assert lines(romtool, "cramfs", text, p=linked(LOADER), e=b"") == lacks()


NAMES = [(b"./libx.so", True), (b"/lib/libx.so", False), (b"/p", True), (b"sub/libx.so", True)]


@pytest.mark.parametrize(("name", "found"), NAMES, ids=[it[0].decode() for it in NAMES])
def test_names_with_slashes(romtool, name, found):
    """Of a name that depends on the working directory nothing is said."""
    wanted = lacks() if found else lacks(("/p", name.decode()))
    assert lines(romtool, "romfs", "file /p 0755 0 0 4 p\n", p=linked(None, [name])) == wanted


SCRIPTS = [
    (b"#!/bin/sh\n", "/bin/sh"),
    (b"#! \t/bin/sh -e\n", "/bin/sh"),
    (b"#!/bin/sh\r\n", "/bin/sh%0D"),
    (b"#!/bin/sh", "/bin/sh"),
    (b"#!sh\n", None),
    (b"#!\n", None),
    (b"#!", None),
    (b"# !/bin/sh\n", None),
    (b"#!/bin/\0sh\n", "/bin/"),
    (b"#!" + b" " * 254 + b"/bin/sh\n", None),
    (b"#!" + b" " * 247 + b"/bin/s\n", "/bin/s"),
    (b"#!" + b" " * 247 + b"/bin/sh\n", None),
]


@pytest.mark.parametrize(("script", "name"), SCRIPTS, ids=[str(n) for n in range(len(SCRIPTS))])
def test_scripts(romtool, script, name):
    """A script that may be executed needs its interpreter, as Linux reads it."""
    assert lines(romtool, "cramfs", "file /s 0755 0 0 4 s\n", s=script) == (lacks() if name is None else lacks(("/s", name)))
    assert lines(romtool, "cramfs", "file /s 0644 0 0 4 s\n") == lacks()
    assert lines(romtool, "cramfs", "file /s 0601 0 0 4 s\n") == (lacks() if name is None else lacks(("/s", name)))


def test_each_name(romtool):
    """Each name of a file has its lines, in the order of the list; a library that is not executable has no interpreter."""
    text = "file /a 0755 0 0 4 p\nhard /c /a\nfile /b 0644 0 0 4 p\n"
    wanted = lacks(("/a", "/lib/ld.so"), ("/a", "libx.so.1"), ("/b", "libx.so.1"), ("/c", "/lib/ld.so"), ("/c", "libx.so.1"))
    assert lines(romtool, "romfs", text, p=linked(LOADER, [LIBRARY])) == wanted


def effort(program, libraries, longest, run_path):
    """Returns what it takes to look at a program that needs so many libraries; it has two other entries, and one for a run path."""
    entries = libraries + 2 + bool(run_path)
    return entries * (1 + len(program) // 1024) + libraries * (1 + longest // 32) * (27 + len(run_path))


@pytest.mark.parametrize("longest", [0, 31, 32, 1000])
@pytest.mark.parametrize("run_path", [b"", b"/opt:/none"], ids=["usual", "further"])
def test_unread(romtool, longest, run_path):
    """Files are looked at until they take more than the image's bytes and 2^20."""
    program = linked(None, [b"/p"] * 100, run_path or None)
    names = "".join("same /%04d 0755 0 0 /p\n" % n for n in range(600))
    link = "slink /l 0777 0 0 %s\n" % ("x" * longest) if longest else ""
    out, err, status = lines(romtool, "cramfs", "file /p 0755 0 0 4 p\n" + link + names, p=program)
    count = (2**20 + os.path.getsize("image")) // effort(program, 100, longest, run_path)
    # all names are before /l and /p
    assert (out, err, status) == (b"unread /%04d\n" % count, b"", 1)


def test_unread_builds(romtool):
    """Refuses by `build --needs` a program for which there is no time, and `pack` warns of it."""
    put("p", linked(None, [LIBRARY] * 1000))
    put("m", b"slink /l 0777 0 0 %s\nfile /p 0755 0 0 4 p\nfile /q 0755 0 0 4 p\n" % (b"x" * 4000))
    assert romtool("build", "--needs", "cramfs", "m", "out") == (b"unread 2 /p\n", b"", 1)
    assert not os.path.exists("out")
    told = "to look for what it and the programs after it need would take too long\n"
    out, err, status = romtool("--explain", "build", "--needs", "romfs", "m", "out")
    assert (out, err.decode(), status) == (b"unread 2 /p\n", "romtool: m:2: " + told, 1)
    os.makedirs("d")
    put("d/p", linked(None, [LIBRARY] * 1000), 0o755)
    os.symlink("x" * 4000, "d/l")
    out, err, status = romtool("--explain", "pack", "--all-root", "cramfs", "d", "other")
    assert status == 0 and "romtool: /p: warning: " + told in err.decode()


@pytest.mark.parametrize("cut", range(0, 700, 7))
def test_cut(romtool, cut):
    """A file that ends early needs nothing, or something; the program ends well."""
    program = linked(LOADER, [LIBRARY] * 20, b"/opt")
    out, err, status = lines(romtool, "romfs", "file /p 0755 0 0 4 p\n", p=program[: len(program) * cut // 700])
    assert err == b"" and status == (1 if out else 0)


def needs_of(path):
    """Returns what readelf says that an ELF file needs."""
    shown = subprocess.run(["readelf", "-lWd", path], capture_output=True, text=True, check=True).stdout
    found = re.findall(r"Requesting program interpreter: ([^]]+)\]", shown)
    return found[:1] + re.findall(r"\(NEEDED\)\s+Shared library: \[([^]]+)\]", shown)


@compiling
@each_format
def test_compiled(romtool, format):
    """A compiled program needs what readelf says, and the libraries of this machine satisfy it."""
    put("x.c", b"int x(void) { return 1; }\n")
    put("p.c", b"#include <math.h>\nint x(void); int main(int c, char **v) { return x() + (int)cos(c); }\n")
    os.makedirs("d/bin")
    subprocess.run(["cc", "-shared", "-o", "libx.so.1", "x.c"], check=True)
    subprocess.run(["cc", "-o", "d/bin/p", "p.c", "./libx.so.1", "-lm", "-Wl,--no-as-needed"], check=True)
    subprocess.run(["cc", "-static", "-o", "d/bin/q", "p.c", "x.c", "-lm"], check=True)

    def packed():
        assert romtool("pack", format, "d", "image", "--all-root")[2] == 0
        return romtool("linux", "--needs", "image")

    wanted = needs_of("d/bin/p")
    assert len(wanted) > 1
    told = [it for it in wanted if "/" not in it or it.startswith("/")]
    assert packed() == lacks(*(("/bin/p", escaped(it.encode())) for it in told))
    for it in told:
        if it.startswith("/"):
            os.makedirs("d" + os.path.dirname(it), exist_ok=True)
            shutil.copy(it, "d" + it)
        else:
            place = subprocess.run(["cc", "-print-file-name=" + it], capture_output=True, text=True, check=True).stdout.strip()
            os.makedirs("d/usr/lib", exist_ok=True)
            shutil.copy(place, "d/usr/lib/" + it)
    assert packed() == lacks()


def test_words(romtool):
    """With --explain a sentence says it in words."""
    put("p", linked(LOADER))
    put("m", b"file /p 0755 0 0 4 p\n")
    assert romtool("build", "cramfs", "m", "image")[2] == 0
    out, err, status = romtool("--explain", "linux", "--needs", "image")
    assert (out, status) == (b"needs /p /lib/ld.so\n", 1)
    assert err == b"romtool: image: these are needed and not found, or were not looked at; see PROTOCOL, What programs need\n"


def test_refused_builds(romtool):
    """Refuses by `build --needs` the first program of which something is missing, and leaves OUT as it was."""
    put("p", linked(LOADER, [LIBRARY]))
    put("s", b"#!/bin/sh\n")
    put("out", b"before")
    text = b"dir /bin 0755 0 0\nfile /bin/s 0644 0 0 4 s\nfile /bin/a%20b 0755 0 0 4 p\nhard /bin/c /bin/a%20b\n"
    put("m", text)
    assert romtool("build", "--needs", "romfs", "m", "out") == (b"needs 3 /bin/a%20b /lib/ld.so\n", b"", 1)
    assert bytes_in("out") == b"before"
    out, err, status = romtool("--explain", "build", "--needs", "romfs", "m", "out")
    assert (out, status) == (b"needs 3 /bin/a%20b /lib/ld.so\n", 1)
    told = "romtool: m:3: needs %s, which is not found in the image\n"
    assert err.decode() == told % "/lib/ld.so" + told % "libx.so.1"
    put("m", text + b"dir /lib 0755 0 0\nfile /lib/libx.so.1 0644 0 0 4 s\nfile /lib/ld.so 0755 0 0 4 e\n")
    put("e")
    assert romtool("build", "--needs", "romfs", "m", "out")[1:] == (b"", 0)
    assert romtool("linux", "--needs", "out") == lacks()
    # a script is told if it may be executed, and without the option nothing is
    put("m", b"file /s 0755 0 0 4 s\n")
    assert romtool("build", "--needs", "cramfs", "m", "out") == (b"needs 1 /s /bin/sh\n", b"", 1)
    assert romtool("build", "cramfs", "m", "out")[1:] == (b"", 0)
    assert romtool("--explain", "build", "cramfs", "m", "out")[1] == b""


def test_packed(romtool):
    """Warns of what programs of packed directories need, in words, and refuses it with `--needs`."""
    os.makedirs("d/bin")
    put("d/bin/s", b"#!/bin/sh\n", 0o755)
    put("d/bin/t", b"#!/bin/sh\n", 0o644)
    out, err, status = romtool("--explain", "pack", "--all-root", "cramfs", "d", "out")
    assert status == 0 and out.startswith(b"ok ")
    assert err.decode().split("\n")[0] == "romtool: /bin/s: warning: needs /bin/sh, which is not found in the image"
    assert err.count(b"needs") == 1
    assert romtool("pack", "--all-root", "--quiet", "--needs", "cramfs", "d", "other") == (b"needs 3 /bin/s /bin/sh\n", b"", 1)
    assert not os.path.exists("other")
    os.symlink("s", "d/bin/sh")
    assert romtool("pack", "--all-root", "--quiet", "--needs", "cramfs", "d", "other")[1:] == (b"", 0)
    assert b"needs" not in romtool("--explain", "pack", "--all-root", "cramfs", "d", "other")[1]


def test_many_needs(romtool):
    """Names the first twenty needs one by one, and then how many more."""
    os.makedirs("d")
    for n in range(25):
        put("d/%02d" % n, b"#!/%02d..\n" % n, 0o755)
    err = romtool("--explain", "pack", "--all-root", "romfs", "d", "out")[1].decode().split("\n")
    told = ["romtool: /%02d: warning: needs /%02d.., which is not found in the image" % (n, n) for n in range(20)]
    assert [it for it in err if "warning: needs" in it] == told
    assert [it for it in err if "more needs" in it] == ["romtool: -: warning: 5 more needs are not met"]
