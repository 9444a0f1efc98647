"""Builds the programs for aarch64, and has qemu run them.

tools/unproved --aarch64 builds both, unless the directory of --made has them. The static one makes each run of the cases (see run.py);
a case that limits the memory limits that of the emulated program. It passes the tests of OTHERS: those of `pack`, those on images of a
few random manifests, and some that have the system interfere: links as OUT, disks that are full, directories of others. The other one
answers as PATH does what BOTH asks. c/aarch64.c answers as the kit's archives do (c/kit.c). What is left out: tests that trace calls,
since those of the emulator are seen, too, and fakeroot, which does not reach a program in the emulator.
"""

import errno
import os
import re
import sys
import tempfile

import c
import files
import pytest
import run
from harness import HERE, TOP
from users import IS_ROOT

sys.path.insert(0, os.path.join(TOP, "tools"))

import unproved_aarch64 as tool  # noqa: E402

pytestmark = pytest.mark.needs("cc", "rt", "qemu-aarch64")
LIBRARIES = "/usr/aarch64-linux-gnu"
# tests of other files: the words that choose them
OTHERS = {
    "pack": ["test_pack.py", "-k", "not fakeroot", "--seeds", "10"],
    "edge_scan": ["test_edge_scan.py", "-k", "odd_folders or every_byte or folders_that_are_forbidden"],
    "images": ["", *("--ignore-glob=%s/test_%s.py" % (HERE, it) for it in ("*pack*", "*scan*")), "-k", "seed", "--seeds", "3"],
    "extract": ["test_extract.py", "-k", "into or refused_places or empty_folders or links_that_lead_elsewhere or owners or further_names"],
    "edge": ["test_edge.py", "-k", "out_behind_forty_links or (owner_of_out and None) or closed_streams"],
    "edge_kept": [
        "test_edge_kept.py", "-k", "that_loses or server_that_is_full or out_is_standard_output or group_of_out or out_of_another_user",
    ],
}  # fmt: skip
# what both programs do in a directory
BOTH = {
    "folders": ["tree/d"],
    "files": {"tree/d/a": {"size": 5000, "at": {"9": "x"}}, "tree/b": "b", "old": "old", "manifest": "file /a 0644 0 0 4096 tree/b\n"},
    "links": {"out": "old", "tree/link": "d/a"},
    "runs": [{"words": words.split(" ")} for words in (
        "--version", "pack --quiet --all-root --align 4096 cramfs tree image", "check image", "list image", "scan --all --all-root tree",
        "build romfs manifest out", "map out", "digest image", "build romfs manifest none/out", "build romfs none out", "check tree",
        "build --size 2K romfs manifest /dev/full", "extract image new", "extract image new", "extract image tree/b", "diff image out",
    )],
}  # fmt: skip


def script(words, path):
    """Writes a script that runs a program for aarch64 in the emulator, and returns its path."""
    with open(path, "w", encoding="utf-8") as it:
        it.write('#!/bin/sh\nexec qemu-aarch64 %s "$@"\n' % words)
    os.chmod(path, 0o755)
    return path


@pytest.fixture(scope="session")
def top():
    """A directory that other users may enter."""
    with tempfile.TemporaryDirectory(prefix="aarch64-") as folder:
        os.chmod(folder, 0o755)
        yield folder


@pytest.fixture(scope="session")
def made(top, pytestconfig):
    """The directory with both programs."""
    if why := tool.lacks():
        pytest.skip(why)
    if pytestconfig.option.made:
        return os.path.abspath(pytestconfig.option.made)
    done = c.said([TOP + "/tools/unproved", "--aarch64", top + "/made"], umask=0o022)
    assert done.returncode == 0, done.stdout.decode(errors="replace")
    return top + "/made"


@pytest.fixture(scope="session")
def static(top, made):
    """A script that runs the static program."""
    return script(made + "/romtool-static", top + "/static")


@pytest.fixture(scope="session")
def dynamic(top, made):
    """A script that runs the other program."""
    return script("-L %s %s/romtool" % (LIBRARIES, made), top + "/dynamic")


@pytest.mark.parametrize("program", ["static", "dynamic"])
def test_both(romtool, request, program):
    """Compares what both programs do in a directory with what the program of this machine does."""
    assert run.answers(request.getfixturevalue(program), BOTH) == run.answers(romtool.path, BOTH)


def test_kit(room, made, counts):
    """Compares the functions of c/aarch64.c, in the emulator, with those of the kit's archives on this machine."""
    source, told = HERE + "/c/kit.c", []
    os.mkdir(room / "dir")
    os.symlink("dir", room / "link")
    files.put(room / "file")
    archives = ["%s/c/%s" % (tool.installation.kit_directory(), it) for it in ("libos_c.a", "liblibc_c.a")]
    for compiler, more, parts, emulator in (("cc", [], archives, []), (tool.CC, ["-static"], [made + "/aarch64.o"], ["qemu-aarch64"])):
        words = [compiler, "-std=c99", "-D_DEFAULT_SOURCE", "-O1", *c.STRICTER, *more, source, *parts, "-o", str(room / "program")]
        c.compiled(words, counts)
        done = c.said([*emulator, room / "program", "four", ""], cwd=room, env={**os.environ, "KIT": "value"})
        told.append((done.returncode, done.stdout))
    assert told[0] == told[1]
    assert [b"\nlink: %d 0\n" % errno.ENOTDIR in it for _, it in told] == [True, True]  # links are not followed


def test_case(made, case, room):
    """Makes each run of a case. Those with a limit of memory are made in an address space of that size."""
    if case.get("no_root") and IS_ROOT:
        pytest.skip("root runs it")
    for limit in sorted({it.get("memory", 0) for it in case["runs"]}):
        runs = [{**it, "memory": None} for it in case["runs"] if it.get("memory", 0) == limit]
        program = script("-R %d %s/romtool-static" % (limit // 65536 * 65536, made), str(room / "case"))
        os.mkdir(room / str(limit))
        assert run.wrong_run(program, {**case, "runs": runs}, room / str(limit)) == []


@pytest.mark.parametrize("name", OTHERS)
def test_others(static, name):
    """Runs tests of other files."""
    file, *words = OTHERS[name]
    done = c.said(["sh", HERE + "/pytest.sh", "%s/%s" % (HERE, file), "--binary", static, *words], umask=0o022)
    text = done.stdout.decode(errors="replace")
    last = re.findall(r"(\d+) passed, (\d+) failed(?:, (\d+) skipped)?\n", text)
    assert last and int(last[-1][0]) and not int(last[-1][1]), text
    if last[-1][2]:
        pytest.skip("\n".join(re.findall("^SKIPPED.*", text, re.M)))
