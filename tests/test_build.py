"""Builds images from directories and manifests, and reads them as a user does.

A directory is scanned, built in each format, checked, listed, and served to a client that reads each file byte by byte. Then building is
made to fail: by sources that are not as long as the system says or that change while they are read, and by a file system that accepts no
more.
"""

import contextlib
import os
import resource
import signal
import socket
import threading

import client
import pytest
from edges import OK, fault, lay, parts
from files import bytes_in, put
from romtool import FORMATS, entries_of, escaped, without_number

pytestmark = pytest.mark.usefixtures("here")
TIMES = 50  # that a build is tried until what it reads changes
FILES = {
    b"/etc/motd": b"hello\n",
    b"/etc/empty": b"",
    b"/etc.conf": bytes(range(256)) * 17,
    b"/bin/init": b"#!/bin/sh\n" * 1000,
    b"/bin/sub/deep/er": b"x",
    b"/a b%c": b"spaced",
    "/caf\u00e9/na\u00efve".encode(): bytes(4096),
    b"/" + b"n" * 200: bytes(4097),
}
FOLDERS = (b"/bin", b"/bin/none", b"/bin/sub", b"/bin/sub/deep", "/caf\u00e9".encode(), b"/etc", b"/none")
NAMES = sorted([*FILES, *FOLDERS])
SCANNED = "".join(
    f"file {name} 0644 0 0 4 in{name}\n" if path in FILES else f"dir {name} 0755 0 0\n" for path in NAMES for name in [escaped(path)]
)
LISTED = sorted([b"d 0755 0 0 0 0 0 /"] + [
    f"f 0644 0 0 {len(FILES[path])} 0 0 {escaped(path)}".encode() if path in FILES else f"d 0755 0 0 0 0 0 {escaped(path)}".encode()
    for path in NAMES
])  # fmt: skip


@pytest.fixture
def tree(here):
    """The directory that is scanned, with what a scan passes over, and its manifest."""
    os.mkdir("in")
    for path in FOLDERS:
        os.mkdir(b"in" + path)
    for path, held in FILES.items():
        put(b"in" + path, held)
    os.symlink("etc/motd", "in/link")
    os.mkfifo("in/pipe")
    with socket.socket(socket.AF_UNIX) as bound:
        bound.bind("in/socket")
    lay(SCANNED)


def test_scanned(romtool, tree):
    """Prints the manifest of the directory."""
    assert romtool("scan", "in") == (SCANNED.encode(), b"", 0)


@pytest.mark.parametrize("format", FORMATS)
def test_built(romtool, tree, format):
    """Accepts, lists and serves the image as the directory. Another build has the same bytes."""
    for out in "image", "again":
        told = romtool("build", format, "m", out)
        assert told == (b"ok %d\n" % os.path.getsize(out), b"", 0)
    assert bytes_in("image") == bytes_in("again")
    checked, *told = romtool("check", "image")
    assert told == [b"", 0] and checked.startswith(b"ok %s " % format.encode())
    listed = romtool("list", "image")[0]
    assert sorted(map(without_number, listed.splitlines())) == LISTED
    client.compare(romtool.path, "image", listed)
    for path in (it.path for it in entries_of(listed) if it.kind == "f"):
        told = romtool("serve", "image", input=f"open {path}\n".encode() + b"lend 0 4294967295\n" * 8)[0].splitlines()[1:]
        lent = b"".join(bytes.fromhex(line.split(b" ")[3].decode()) for line in told if not line.endswith(b"-"))
        assert lent == next(held for name, held in FILES.items() if escaped(name) == path)


# builds that fail


def small_files():
    """Makes each file that a program writes at most 6,000 bytes long."""
    signal.signal(signal.SIGXFSZ, signal.SIG_IGN)
    resource.setrlimit(resource.RLIMIT_FSIZE, (6000, 6000))


HUGE = "/sys/kernel/mm/transparent_hugepage/enabled"
# the manifest, OUT, the file that is reported, and how the build is run
FAILING = {
    "a source is longer": ("file /a 0644 0 0 4 m\nfile /b 0644 0 0 4 /proc/version\n", "out", "/proc/version", {}),
    "a source is shorter": (f"file /a 0644 0 0 4 {HUGE}\n", "out", HUGE, {}),
    "the file system is full": ("file /a 0644 0 0 4 s\n", "out", "out", {"preexec_fn": small_files, "restore_signals": False}),
    "the device is full": ("", "/dev/full", "/dev/full", {}),
}


@pytest.mark.parametrize("format", FORMATS)
@pytest.mark.parametrize("what", FAILING)
def test_failing(romtool, what, format):
    """Leaves OUT and no part if the system says another length of a source than it has, or accepts no more of the image."""
    text, out, reported, how = FAILING[what]
    if reported != "out" and not os.path.exists(reported):
        pytest.skip(f"it needs {reported}")
    lay(text, s=bytes(20000), out=b"as it was")
    assert romtool("build", format, "m", out, **how) == fault(reported)
    assert bytes_in("out") == b"as it was" and parts() == []


@contextlib.contextmanager
def changing(name):
    """Provides a file that has other bytes each time it is read."""
    ended = threading.Event()

    def change():
        with open(name, "r+b", buffering=0) as file:
            while not ended.is_set():
                for at in range(0, 2**21, 2**18):
                    os.pwrite(file.fileno(), os.urandom(8), at)

    thread = threading.Thread(target=change)
    thread.start()
    try:
        yield
    finally:
        ended.set()
        thread.join()


@pytest.mark.parametrize("format", ["cramfs", "cramfs-be"])
def test_changing(romtool, format):
    """Builds nothing of a source that changes while it is read. If it stays as it is between two readings, the image is built anew."""
    lay("file /a 0644 0 0 4 source\n", source=bytes(2**21))
    with changing("source"):
        for _ in range(TIMES):
            put("out", b"as it was")
            told = romtool("build", format, "m", "out")
            if told[2]:
                break
    assert told == (b"", b"changed\n", 3)
    assert bytes_in("out") == b"as it was" and not os.path.exists(".out.romtool-0.part")


# OUT, and how far a build is


def test_pipe(romtool):
    """Writes OUT directly if it is no regular file."""
    lay("file /a 0644 0 0 4 source\n", source=b"hello")
    romtool("build", "romfs", "m", "image")
    os.mkfifo("pipe")
    reader = os.open("pipe", os.O_RDONLY | os.O_NONBLOCK)
    assert romtool("build", "romfs", "m", "pipe") == OK
    assert os.read(reader, 2048) == bytes_in("image")
    os.close(reader)


@pytest.mark.parametrize("mode", [0o600, 0o755], ids="{:o}".format)
def test_permissions(romtool, mode):
    """Keeps the permissions of the file that an image replaces."""
    lay("")
    put("out", b"", mode)
    romtool("build", "romfs", "m", "out")
    assert (os.stat("out").st_mode & 0o777, os.path.getsize("out")) == (mode, 1024)


@pytest.fixture
def long_source(here):
    """A manifest whose image takes long."""
    lay("file /a 0644 0 0 4 source\n", source=b"")
    os.truncate("source", 70 * 2**20)


def test_no_progress(romtool, long_source):
    """Reports nothing of a long build if standard error is not a terminal."""
    told = romtool("build", "romfs", "m", "out")
    assert told == (b"ok %d\n" % os.path.getsize("out"), b"", 0)


def all_of(terminal):
    """Returns what was written to a pseudo-terminal that nobody has open any more. It may come in several pieces."""
    pieces = []
    with contextlib.suppress(OSError):  # EIO is the end
        while piece := os.read(terminal, 65536):
            pieces.append(piece)
    return b"".join(pieces)


def test_progress(romtool, long_source):
    """Reports how far a build is if standard error is a terminal, and erases it at the end."""
    try:
        ours, theirs = os.openpty()
    except OSError:
        pytest.skip("it needs a terminal")
    assert romtool("build", "romfs", "m", "out", stderr=theirs)[2] == 0
    os.close(theirs)
    told = all_of(ours)
    os.close(ours)
    assert b"\r50 %" in told and told.endswith(b"\r      \r")


# reading


@pytest.mark.parametrize("format", FORMATS)
def test_chains_of_links(romtool, format):
    """Follows forty links and no more; a link to itself is one."""
    links = "".join(f"slink /l{it} 0777 0 0 l{it - 1}\n" for it in range(2, 42))
    lay("file /t 0644 0 0 4 t\nslink /l1 0777 0 0 t\nslink /s 0777 0 0 s\n" + links, t=b"hello")
    assert romtool("build", format, "m", format)[2] == 0
    asked = b"stat /t\nstat /l40\nstat /l41\nstat /s\nlstat /s\nreadlink /s\n"
    file, through, *others, link, text = romtool("serve", format, input=asked)[0].splitlines()
    assert file == through and file.endswith(b" f 0644 0 0 5 0 0") and others == [b"err ELOOP", b"err ELOOP"]
    assert link.endswith(b" l 0777 0 0 1 0 0") and text.endswith(b" 1 73")


def test_long_lists(romtool):
    """Finds the last name of a long list again as fast as its first. 5,000 walks to the end of the list are minutes."""
    lay("".join(f"file /{it:06d} 0644 0 0 4 empty\n" for it in range(50_000)), empty=b"")
    romtool("build", "romfs", "m", "image")

    def seconds_for(name):
        before = resource.getrusage(resource.RUSAGE_CHILDREN).ru_utime
        out, *told = romtool("serve", "image", input=b"lookup /%s\n" % name * 5_000)
        assert told == [b"", 0] and out.count(b"ok ") == 5_000
        return resource.getrusage(resource.RUSAGE_CHILDREN).ru_utime - before

    assert seconds_for(b"049999") <= 3 * seconds_for(b"000000") + 1
