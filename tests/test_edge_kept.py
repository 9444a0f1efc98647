"""Builds and prints while a file system loses what it accepted, and others interfere.

Tested are the one descriptor of a part, if its closing fails; standard output, if its closing fails, in each subcommand; a file system
that reports only at the closing what it lost (lossy.c, by FUSE), and a file server that is full (sshfs); OUT that is standard output; the
group of OUT, and OUT of another user; sources that are links; the reason why a source cannot be read; and images that are larger than
ROMTOOL_MAX_SIZE.
"""

import contextlib
import errno
import os
import re
import resource
import shutil
import stat
import subprocess

import fuse
import pytest
import traced
from edges import HELLO, OK, changed_after, failed, fault, held_at, hello, lay, lay_old, parts, wanted
from files import bytes_in, put, wait_for_clock
from harness import SECONDS
from romtool import FORMATS
from users import NOBODY, become_nobody

FAULTS = {"EIO": "Input/output error", "ENOSPC": "No space left on device", "EDQUOT": "Disk quota exceeded"}
GROUP = 4321
SFTP = "/usr/lib/openssh/sftp-server"
LOST = [b"write fault\n", 3]
BUILD = ["build", "romfs", "m", "out"]
# the words of the subcommands, each with the status that it has if nothing fails
PRINTING = {
    "check image": 0, "check bad": 1, "list image": 0, "list bad": 1, "serve image": 0, "serve bad": 1, "space image": 0, "space bad": 1,
    "info image": 0, "map image": 0, "map --all image": 0, "map --c image": 0, "map --svg image": 0, "map --ld image": 0,
    "cat image /a": 0, "which image 0": 0, "which image ffffffff": 1, "linux image": 0, "xip image": 0, "numbers image": 0,
    "digest image": 0, "digest --image image": 0, "verify image image": 0, "verify image bad": 1, "diff image image": 0, "scan in": 0,
    "scan --all in": 0, "extract image to": 0, "build romfs m out": 0, "pack --quiet romfs in out": 0, "": 0,
}  # fmt: skip


@pytest.fixture(autouse=True)
def small(here):
    """The manifest of a small file."""
    hello()


# the part


def on_part(made):
    """Yields the calls of a build on the part's descriptor, and its renaming, from its opening on."""
    opened = next(it for it in made if it.name == "openat" and ".part" in it.text)
    number = opened.text.rsplit(" = ", 1)[1]
    for call in made[made.index(opened) + 1 :]:
        if re.match(r"\w+\(%s[,)]" % number, call.text) or call.name == "rename":
            yield call
        if call.name == "rename":
            return


@pytest.mark.needs("strace")
@pytest.mark.parametrize("old", [None, b"old"], ids=["new", "old"])
@pytest.mark.parametrize("format", FORMATS)
def test_one_descriptor(romtool, format, old):
    """Writes the part, synchronizes it to the disk, removes its mark, closes and renames it, in this order, through one descriptor."""
    lay_old(old)
    made, done = traced.calls(romtool.path, "build", format, "m", "out")
    calls = [it.name for it in on_part(made)]
    assert [it for it in calls if it not in ("write", "statx")][-4:] == ["fsync", "fchmod", "close", "rename"]
    assert (done.returncode, calls.count("close"), "fcntl" in calls, "write" in calls[calls.index("fsync") :]) == (0, 1, False, False)


@pytest.mark.needs("strace")
@pytest.mark.parametrize("old", [None, b"old"], ids=["new", "old"])
@pytest.mark.parametrize("error", FAULTS)
def test_closing_of_a_part(romtool, error, old):
    """Leaves OUT and removes the part if its closing reports that it was lost."""
    lay_old(old)
    made, _ = traced.calls(romtool.path, *BUILD)
    number = [it for it in on_part(made) if it.name == "close"][-1].number
    lay_old(old)
    told = failed(romtool, ["--explain", *BUILD], "close", "error=" + error, number)
    assert told == fault("out", f"romtool: out: {FAULTS[error]}\n".encode())
    assert (held_at("out"), parts()) == (old, [])


@pytest.mark.needs("strace")
def test_closing_of_a_device(romtool):
    """Reports an error of its closing also if OUT is written directly."""
    words = ["build", "romfs", "m", "/dev/null"]
    made, _ = traced.calls(romtool.path, *words)
    opened = next(it for it in made if '"/dev/null"' in it.text and it.name == "openat")
    closed = "close(%s)" % opened.text.rsplit(" = ", 1)[1]
    closing = next(it for it in made[made.index(opened) :] if it.text.startswith(closed))
    assert failed(romtool, words, "close", "error=EIO", closing.number) == fault("/dev/null")


# standard output


def run_into(name, run, *words, **more):
    """Runs something whose standard output is a new file."""
    with open(name, "wb") as kept:
        return run(*words, **{"stdin": subprocess.DEVNULL, **more, "stdout": kept})


@pytest.mark.needs("strace")
@pytest.mark.parametrize("words", PRINTING)
def test_closing_of_the_output(romtool, words):
    """Ends with `write fault` if the closing of standard output reports that it was lost."""
    os.mkdir("in")
    put("in/x", b"x")
    put("bad", b"-rom1fs-" + bytes(100))
    romtool("build", "romfs", "m", "image")
    made, done = run_into("kept", traced.calls, romtool.path, *words.split())
    assert done.returncode == PRINTING[words]
    kept = next(at for at, it in enumerate(made) if it.text.startswith("fcntl(1, F_DUPFD"))
    number = next(it for it in made[kept:] if it.name == "close").number
    for error in FAULTS:
        shutil.rmtree("to", ignore_errors=True)
        lay_old(None)
        assert list(run_into("kept", failed, romtool, words.split(), "close", "error=" + error, number)[1:]) == LOST


@pytest.mark.needs("strace")
def test_line_that_is_lost(romtool):
    """Leaves the image, whole, if only the line of a build is lost."""
    image = wanted(romtool)
    made, _ = run_into("kept", traced.calls, romtool.path, *BUILD)
    number = [it for it in made if it.name == "close"][-1].number
    os.remove("out")
    assert list(run_into("kept", failed, romtool, BUILD, "close", "error=ENOSPC", number)[1:]) == LOST
    assert (bytes_in("out"), parts()) == (image, [])


# file systems that lose


@pytest.mark.needs("fuse")
@pytest.mark.parametrize("more, error", [
    ([], errno.ENOSPC), (["synced"], errno.ENOSPC), ([str(errno.ENAMETOOLONG)], errno.ENAMETOOLONG), ([str(errno.ELOOP)], errno.ELOOP),
])  # fmt: skip
def test_file_system_that_loses(romtool, more, error):
    """Loses no image, and nothing that is printed, without a message on a file system that reports a loss at the closing.

    It has room for one image. It may also report the loss when a file is synchronized, or by errors that hardly any close has.
    """
    image = wanted(romtool)
    put("image", image)
    with fuse.mounted("lossy", str(len(image) + 1), *more) as folder:
        if not folder:
            pytest.skip("nothing can be mounted")
        out = folder + "/out"
        assert romtool("build", "romfs", "m", out) == (b"ok %d\n" % len(image), b"", 0) and bytes_in(out) == image
        put("a", b"other" * 200)
        told = romtool("--explain", "build", "romfs", "m", out)
        assert told == fault(out, f"romtool: {out}: {os.strerror(error)}\n".encode())
        assert bytes_in(out) == image and os.listdir(folder) == ["out"]
        for words in "cat image /a", "map image", "map --all image", "which image 0", "scan .", "scan --all .":
            assert [words, *run_into(folder + "/kept", romtool, *words.split())[1:]] == [words, *LOST]


@contextlib.contextmanager
def server_of(size):
    """Provides a directory of a file server whose disk has so many KiB, and that disk; by sshfs."""
    os.mkdir("disk")
    os.mkdir("mount")
    put("server", b"#!/bin/sh\nexec %s\n" % SFTP.encode(), 0o755)
    subprocess.run(["mount", "-t", "tmpfs", "-o", "size=%dk" % size, "tmpfs", "disk"], check=True, timeout=SECONDS)
    words = ["sshfs", "-o", "ssh_command=" + os.path.abspath("server"), "localhost:" + os.path.abspath("disk"), "mount"]
    done = subprocess.run(words, stdout=subprocess.PIPE, stderr=subprocess.STDOUT, timeout=SECONDS)
    try:
        yield "mount" if not done.returncode else None
    finally:
        fuse.unmount("mount")
        subprocess.run(["umount", "-l", "disk"], timeout=SECONDS)


@pytest.mark.needs("root", "fuse", "sshfs", SFTP)
def test_file_server_that_is_full(romtool):
    """Replaces no image by one for which a file server has no room."""
    lay(HELLO.decode(), a=os.urandom(50000))
    image = wanted(romtool)
    put("image", image)
    with server_of(120) as folder:
        if not folder:
            pytest.skip("nothing can be mounted")
        assert romtool("build", "romfs", "m", folder + "/out")[2] == 0
        with contextlib.suppress(OSError), open("disk/fill", "wb", buffering=0) as fill:
            fill.write(os.urandom(50000))
        put("a", os.urandom(60000))
        assert romtool("build", "romfs", "m", folder + "/out") == fault("mount/out")
        assert bytes_in("disk/out") == image and parts("disk") == []
        assert list(run_into(folder + "/kept", romtool, "cat", "image", "/a")[1:]) == LOST


# OUT


@pytest.mark.parametrize("out, ends", [
    ("/dev/stdout", "| cat >seen"), ("/proc/self/fd/1", "| cat >seen"), ("/dev/stderr", "2>&1 | cat >seen"), ("/dev/stdout", ">kept"),
    ("/dev/stdout", ">>kept"), ("kept", ">kept"), ("kept", ">>kept"), ("link", ">>kept"),
])  # fmt: skip
def test_out_is_standard_output(romtool, out, ends):
    """Refuses an OUT that is standard output, by whatever name, and writes nothing to it."""
    os.symlink("kept", "link")
    for name, held in ("kept", b"as it was"), ("seen", b""), ("told", b""):
        put(name, held)
    line = '"$@" ' + ("" if "2>&1" in ends else "2>told ") + ends
    subprocess.run(["sh", "-c", line, "sh", romtool.path, "build", "romfs", "m", out], timeout=SECONDS)
    assert bytes_in("told") + bytes_in("seen") == b"file %s\n" % out.encode()
    assert (bytes_in("kept"), parts()) == (b"" if ends == ">kept" else b"as it was", [])


def test_device_that_keeps_nothing(romtool):
    """Accepts the device that keeps nothing as both."""
    assert romtool("build", "romfs", "m", "/dev/null", stdout=subprocess.DEVNULL)[1:] == (b"", 0)


def as_member():
    """Has the rights of everyone, and of one further group."""
    os.setgroups([GROUP])
    os.setgid(NOBODY)
    os.setuid(NOBODY)


@pytest.mark.needs("root")
@pytest.mark.parametrize("become, owner, old, new, group", [
    (as_member, 1234, 0o660, 0o660, GROUP), (as_member, 1234, 0o6664, 0o664, GROUP), (as_member, NOBODY, 0o640, 0o640, GROUP),
    (become_nobody, NOBODY, 0o660, 0o600, NOBODY), (become_nobody, NOBODY, 0o640, 0o600, NOBODY),
    (become_nobody, NOBODY, 0o664, 0o644, NOBODY), (become_nobody, NOBODY, 0o2775, 0o755, NOBODY),
    (become_nobody, NOBODY, 0o606, 0o600, NOBODY), (become_nobody, 1234, 0o666, 0o666, NOBODY),
])  # fmt: skip
def test_group_of_out(romtool, here, become, owner, old, new, group):
    """Keeps the group also if the owner is not kept; if the group is not, it has no rights that others have not."""
    here.chmod(0o777)
    put("out", b"old")
    os.chown("out", owner, GROUP)
    os.chmod("out", old)
    assert romtool(*BUILD, preexec_fn=become)[2] == 0
    now = os.stat("out")
    assert (now.st_uid, now.st_gid, oct(stat.S_IMODE(now.st_mode)), now.st_size) == (NOBODY, group, oct(new), 1024)


@pytest.mark.needs("root")
@pytest.mark.parametrize("owner, of_folder, status", [(NOBODY, 0, 3), (NOBODY, NOBODY, 0), (0, NOBODY, 0), (0, 0, 0)])
def test_out_of_another_user(romtool, owner, of_folder, status):
    """Refuses an OUT that another user made in a directory for all users, but not one of the user or of the directory's owner."""
    image = wanted(romtool)
    os.mkdir("shared")
    os.chmod("shared", 0o1777)
    put("shared/out", b"old", 0o644)
    os.chown("shared/out", owner, owner)
    os.chown("shared", of_folder, of_folder)
    assert romtool("build", "romfs", "m", "shared/out") == (fault("shared/out") if status else OK)
    assert bytes_in("shared/out") == (b"old" if status else image)


# sources and images


@pytest.mark.parametrize("source, is_link", [("d/s", False), ("e/s", False), ("d/l", True), ("e/l", True), ("d/n", True)])
def test_source_that_is_a_link(romtool, source, is_link):
    """Refuses with --no-follow a source whose own name is that of a link, and only such a one."""
    os.mkdir("d")
    put("d/s", b"hello")
    os.symlink("d", "e")
    os.symlink("s", "d/l")
    os.symlink("lost", "d/n")
    lay(f"file /a 0644 0 0 4 {source}\n")
    assert romtool(*BUILD)[2] == (3 if source == "d/n" else 0)
    for words in ["build", "--no-follow", *BUILD[1:]], [*BUILD, "--no-follow"]:
        assert romtool(*words) == (fault(source) if is_link else OK)
        assert parts() == []


@pytest.mark.needs("strace")
def test_source_that_becomes_a_link(romtool):
    """Does not follow with --no-follow a source that becomes a link between two calls of the system."""
    words = ["build", "--no-follow", "romfs", "m", "out"]

    def become_link():
        os.remove("s")
        os.symlink("secret", "s")

    def prepare():
        lay_old(None)
        with contextlib.suppress(FileNotFoundError):
            os.remove("s")
        lay("file /a 0644 0 0 4 s\n", s=b"hello", secret=b"a secret that nobody is to read")
        return become_link

    prepare()
    wait_for_clock(".", 0.1)
    made, _ = traced.calls(romtool.path, *words)
    asked = [at for at, it in enumerate(made) if it.name in ("statx", "openat") and '"s"' in it.text]
    assert len(asked) >= 4
    for at in asked[1:]:
        told = changed_after(romtool, words, made[at - 1].name, made[at - 1].number, prepare)
        assert told and told[2] == 3 and not os.path.exists("out") and parts() == [], made[at].text


@pytest.mark.needs("strace")
@pytest.mark.parametrize("call, error, words", [
    ("pread64", "EIO", "Input/output error"), ("pread64", "ESTALE", "Stale file handle"), ("openat", "EMFILE", "Too many open files"),
])  # fmt: skip
def test_reason_of_a_source(romtool, call, error, words):
    """Says in words why the system does not let a source be read."""
    made, _ = traced.calls(romtool.path, *BUILD)
    number = [it for it in made if it.name == call and (call == "pread64" or '"a"' in it.text)][-1].number
    lay_old(None)
    told = failed(romtool, ["--explain", *BUILD], call, "error=" + error, number)
    assert told == fault("a", f"romtool: a: {words} (m:1)\n".encode())
    assert parts() == []


@pytest.mark.parametrize("words", ["check", "list", "info", "map", "digest", "linux", "xip", "serve", "space"])
@pytest.mark.parametrize("name, most, status", [("image", "{}", 0), ("image", "{less}", 3), ("sparse", "1G", 3), ("image", "x", 3)])
def test_images_that_are_too_large(romtool, name, most, status, words):
    """Refuses an image of which more bytes would be read than ROMTOOL_MAX_SIZE, which takes no memory."""
    romtool("build", "romfs", "m", "image")
    length = int.from_bytes(bytes_in("image")[8:12], "big")
    put("sparse", b"-rom1fs-\xff\xff\xff\xf0")
    os.truncate("sparse", 1 << 32)
    told = romtool(
        words, name, input=b"", env={**os.environ, "ROMTOOL_MAX_SIZE": most.format(length, less=length - 1)},
        preexec_fn=lambda: resource.setrlimit(resource.RLIMIT_AS, (1 << 28, 1 << 28)),
    )  # fmt: skip
    assert told[2] == 0 if status == 0 else told == fault(name)
