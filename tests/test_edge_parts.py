"""Builds images beside parts of other builds, and from manifests that change while they are read.

Only what an interrupted build left is removed: a file with the name and the mark of a part, and without a lock. A manifest that changes
before the image is complete ends the build.
"""

import contextlib
import fcntl
import itertools
import os
import stat
import subprocess

import pytest
from edges import OK, changed_after, failed, fault, held_at, hello, lay, leave, part, parts, wanted
from files import bytes_in, put, wait_until

CHANGED = b"", b"changed\n", 3
BUILD = ["build", "romfs", "m", "out"]


@pytest.fixture(autouse=True)
def small(here):
    """The manifest of a small file."""
    hello()


@pytest.mark.needs("strace")
@pytest.mark.parametrize("stranger", [b"stranger", None], ids=["stranger", "nothing"])
def test_part_of_another_file(romtool, stranger):
    """Renames and removes nothing if the part's name leads to another file, or to none."""

    def take_away():
        os.rename(part(0), "aside")
        if stranger:
            put(part(0), stranger)

    def prepare():
        put("out", b"as it was")
        return take_away

    assert changed_after(romtool, BUILD, "fsync", 1, prepare) == CHANGED
    assert (bytes_in("out"), held_at(part(0)), os.path.exists("aside")) == (b"as it was", stranger, True)


def hold(held, name):
    """Makes a part, and marks and locks it as a build does."""
    file = held.enter_context(open(name, "wb"))
    os.fchmod(file.fileno(), 0o1600)
    fcntl.flock(file, fcntl.LOCK_EX)


def test_parts_that_are_held(romtool):
    """Passes over parts that a process has locked. A hundred of them end a build, and stay."""
    image = wanted(romtool)
    with contextlib.ExitStack() as held:
        for number in range(99):
            hold(held, part(number))
        assert romtool(*BUILD) == OK and bytes_in("out") == image and len(parts()) == 99
        hold(held, part(99))
        assert romtool(*BUILD) == fault("out") and bytes_in("out") == image and len(parts()) == 100


def test_parts_that_are_left(romtool):
    """Removes parts that no process has locked."""
    image = wanted(romtool)
    for number in range(100):
        leave(part(number), b"left")
    assert romtool(*BUILD) == OK
    assert (bytes_in("out"), parts()) == (image, [])


def test_files_that_are_no_parts(romtool):
    """Removes no part with a lock, and no file without the mark, link, or file of two names."""
    put("kept", b"kept", 0o1600)
    for number in 0, 2, 4, 6:
        leave(part(number), b"left")
    put(part(7), b"of somebody")
    others = [f"out.{number}.part" for number in range(5)]
    for name in others:
        put(name, b"split off")
    os.symlink("kept", part(1))
    os.link("kept", part(3))
    with contextlib.ExitStack() as held:
        hold(held, part(5))
        assert romtool(*BUILD) == OK
    assert (parts(), bytes_in("kept")) == ([part(1), part(3), part(5), part(7), *others], b"kept")


@pytest.mark.parametrize("manifest", ["m", part(1)])
def test_inputs_with_the_names_of_parts(romtool, manifest):
    """Leaves a source, a manifest and standard output, even if they have the name of a part, and takes another name."""
    text = b"file /a 0644 0 0 4 .out.romtool-0.part\n"
    leave(part(0), b"precious")
    leave(manifest, text)
    with open(part(2), "wb") as output:
        os.fchmod(output.fileno(), 0o1600)
        assert romtool("build", "romfs", manifest, "out", stdout=output)[2] == 0
    held = {name: bytes_in(name) for name in parts()}
    assert held == {part(0): b"precious", part(2): b"ok 1024\n", **({manifest: text} if manifest != "m" else {})}
    assert b"precious" in bytes_in("out")


def test_scan_of_a_part(romtool):
    """Leaves a part of the manifest out of the scan, and removes it, if no process has locked it."""
    os.mkdir("d")
    leave("d/.list.romtool-0.part", b"x")
    with contextlib.ExitStack() as held:
        hold(held, "d/.list.romtool-1.part")
        assert romtool("scan", "--all", "--exclude", "/list", "-o", "d/list", "d") == (b"", b"", 0)
        assert sorted(os.listdir("d")) == [".list.romtool-1.part", "list"]
    assert b"part" not in bytes_in("d/list")


def test_part_of_a_killed_build(romtool):
    """Removes what a build left that was killed, and not what a running one is at."""
    lay("file /a 0644 0 0 4 source\n", source=b"x" * (8 << 20))
    words = ["build", "cramfs", "m", "out"]
    for _ in range(20):
        process = subprocess.Popen([romtool.path, *words], stdout=subprocess.DEVNULL)
        wait_until(lambda process=process: parts() or process.poll() is not None, 0.0005)
        second = romtool(*words)
        process.kill()
        process.wait()
        assert second[2] == 0 and len(parts()) <= 1
        romtool(*words)
        assert [it for it in parts() if os.stat(it).st_mode & stat.S_ISVTX] == []


def append():
    """Adds a line to the manifest."""
    with open("m", "ab") as file:
        file.write(b"file /b 0644 0 0 4 a\n")


def replace():
    """Puts a file with the same bytes in the manifest's place."""
    put("new", bytes_in("m"))
    os.rename("new", "m")


@pytest.mark.needs("strace")
@pytest.mark.parametrize("change", [append, replace])
@pytest.mark.parametrize("when", [3, 5])  # the first two calls may be the loader's
def test_manifests_that_change(romtool, change, when):
    """Ends the build if the manifest is written to, or replaced, before the image is complete, also if it was read whole."""

    def prepare():
        hello()
        put("out", b"as it was")
        return change

    assert changed_after(romtool, BUILD, "pread64", when, prepare) == CHANGED
    assert (bytes_in("out"), parts()) == (b"as it was", [])


@pytest.mark.needs("strace")
@pytest.mark.parametrize("words", ["build romfs m out", "scan --all --devices devices d", "check image", "list image"])
def test_reads_that_end_early(romtool, words):
    """Takes no read that returns nothing for the end of a regular file before it: of a manifest, a file of devices, and an image."""
    lay("".join(f"file /f{it:04d} 0644 0 0 4 s\n" for it in range(400)), s=b"x" * 100)
    put("devices", "".join(f"nod /n{it:04d} 0644 0 0 c 1 3\n" for it in range(400)).encode())
    os.mkdir("d")
    romtool("build", "cramfs", "m", "image")
    whole = romtool(*words.split())
    for when in itertools.count(1):
        told = failed(romtool, words.split(), "read", "retval=0", when)
        if told == whole and when > 8:
            break
        assert told in (whole, CHANGED) or told[2] == 127, when  # the loader's own reads
        assert when <= 40, "no read is left out"


@pytest.fixture
def device(here):
    """A block device whose file system, in the file `disk`, is mounted at `at`."""
    put("disk", bytes(1 << 20))
    os.mkdir("at")
    found = subprocess.run(["mkfs.ext2", "-q", "-F", "disk"]).returncode == 0
    looped = subprocess.run(["losetup", "--find", "--show", "disk"], capture_output=True, text=True)
    if not found or looped.returncode:
        pytest.skip("there is no block device")
    path = looped.stdout.strip()
    try:
        if subprocess.run(["mount", path, "at"], stderr=subprocess.DEVNULL).returncode:
            pytest.skip("nothing can be mounted")
        yield path
    finally:
        subprocess.run(["umount", "at"], stderr=subprocess.DEVNULL)
        subprocess.run(["losetup", "--detach", path], check=True)


@pytest.mark.needs("root", "losetup", "mkfs.ext2", "mount", "umount")
def test_device_that_is_mounted(romtool, device):
    """Refuses a block device with a mounted file system as OUT, and writes it after it was unmounted."""
    words = f"romtool: {device}: a file system on it, or on a partition of it, is mounted: unmount it\n".encode()
    assert romtool("--explain", "build", "romfs", "m", device) == fault(device, words) and os.path.isdir("at/lost+found")
    subprocess.run(["umount", "at"], check=True)
    assert romtool("build", "romfs", "m", device) == OK and bytes_in("disk")[:1024] == wanted(romtool)
