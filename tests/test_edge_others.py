"""Builds and packs while other users and programs are at work: links that they made, files that they replace, parts of builds that were
killed, devices that are in use.

Races are loops with a count; each ends by itself. A result is that of one moment, or the command is refused and OUT stays.
"""

import contextlib
import itertools
import os
import pty
import re
import signal
import stat
import subprocess
import threading

import pytest
from edges import changed_after, failed, fault, hello, leave, part, said
from files import bytes_in, put, wait_for_clock, wait_until, write_below
from harness import SECONDS, end_by_signals
from romtool import prints, refuses
from traced import calls
from users import NOBODY, become_nobody

LINK = b"another user made a link to it, or may replace one: name the file itself"


def pack(*words):
    """Returns the words of a pack that leaves out OUT in its own directory."""
    return ["pack", "--quiet", "--exclude", "out", *words, "romfs", "d", "d/out"]


@pytest.fixture
def scanned(here):
    """The directory `d` with a file, whose OUT is in it."""
    write_below("d", {"f": "hello"})


# Parts of builds that were killed.


def test_part_in_a_scanned_directory(romtool, scanned):
    """Leaves a part of OUT out of the scan, with a word; the image is that of the first pack."""
    assert romtool(*pack()) == prints("ok 1024")
    image = bytes_in("d/out")
    leave("d/" + part(0), b"left")
    _, err, status = answer = romtool("--explain", *[it for it in pack() if it != "--quiet"])
    assert (answer[0], status, bytes_in("d/out")) == (b"ok 1024\n", 0, image)
    assert b"romtool: d/.out.romtool-0.part: left out: it is a part of a file that this command writes" in err
    assert sorted(os.listdir("d")) == ["f", "out"]


@pytest.mark.parametrize("option", ["--manifest", "--depfile"])
def test_part_of_another_written_file(romtool, scanned, option):
    """Leaves out parts of the other files that are written, too."""
    leave("d/.m.romtool-7.part", b"left")
    assert romtool(*pack("--exclude", "m", option, "d/m")) == prints("ok 1024")
    assert [it.split(b" ")[8] for it in romtool("list", "d/out")[0].splitlines()] == [b"/", b"/f"]


def test_part_of_a_manifest(romtool, scanned):
    """Leaves a part of the manifest's file out of a scan."""
    leave("d/.m.romtool-0.part", b"left")
    assert romtool.line("scan --all --owner 0:0 --exclude m -o d/m d") == (b"", b"", 0)
    assert [it.split(b" ")[1] for it in bytes_in("d/m").splitlines()] == [b"/", b"/f"]


def test_file_that_is_no_part(romtool, scanned):
    """Scans a file with the name of a part that has no mark, and one of a file that is not written, and says so of the first."""
    put("d/" + part(0), b"mine")
    leave("d/.other.romtool-0.part", b"left")
    _, err, status = romtool("--explain", *[it for it in pack() if it != "--quiet"])
    assert status == 0 and b"d/.out.romtool-0.part: warning: it has the name of a part" in err
    names = [it.split(b" ")[8] for it in romtool("list", "d/out")[0].splitlines()]
    assert names == [b"/", b"/.other.romtool-0.part", b"/.out.romtool-0.part", b"/f"]


@pytest.mark.parametrize("number", [signal.SIGKILL, signal.SIGINT, signal.SIGTERM])
def test_killed_pack(romtool, scanned, number):
    """Packs the same image after a pack that was killed at any moment."""
    put("d/f", os.urandom(3 << 20))
    assert romtool(*pack())[2] == 0
    image, left = bytes_in("d/out"), 0
    for pause in range(12):
        how = {"stdout": subprocess.DEVNULL, "stderr": subprocess.DEVNULL, "preexec_fn": end_by_signals}
        with subprocess.Popen([romtool.path, *pack()], **how) as running:
            with contextlib.suppress(subprocess.TimeoutExpired):
                running.wait(pause / 300)
            running.send_signal(number)
        left += part(0) in os.listdir("d")
        assert bytes_in("d/out") == image
    assert romtool(*pack())[2] == 0 and bytes_in("d/out") == image and sorted(os.listdir("d")) == ["f", "out"]


# Files that are replaced between a scan and their reading.


def mixed(romtool, pause):
    """Packs a file that another one replaces meanwhile, and returns bytes and mode in the image, or None if that is refused."""
    with contextlib.suppress(FileNotFoundError):
        os.remove("u/x")
    put("u/x", b"AAAA", 0o644)
    put("y", b"BBBB", 0o755)
    wait_for_clock(".")
    with subprocess.Popen([romtool.path, "pack", "--quiet", "--all-root", "cramfs", "u", "out"], stdout=-1, stderr=-1) as running:
        with contextlib.suppress(subprocess.TimeoutExpired):
            running.wait(pause)
        os.rename("y", "u/x")
        _, err = running.communicate(timeout=SECONDS)
    if running.returncode:
        assert (err, running.returncode) in ((b"changed\n", 3), (b"file u/x\n", 3), (b"file u\n", 3))
        return None
    modes = {it.split(b" ")[8]: it.split(b" ")[2] for it in romtool("list", "out")[0].splitlines()}
    return romtool("cat", "out", "/x")[0], modes[b"/x"]


def test_replaced_after_the_scan(romtool, here):
    """Puts the bytes and the attributes of one file into an image, whenever another one replaces it."""
    write_below("u", {f"z{number}": str(number) for number in range(100)})
    found = {mixed(romtool, number / 1000) for number in range(40)}
    assert found <= {None, (b"AAAA", b"0644"), (b"BBBB", b"0755")}


@pytest.mark.needs("strace")
@pytest.mark.parametrize("moment", range(2))
def test_replaced_before_it_is_opened(romtool, here, moment):
    """Reports a source that was replaced after its directory was scanned, at each open of it: `changed`, or as a file that changed."""
    words = ["pack", "--quiet", "--all-root", "--align", "4096", "cramfs", "u", "out"]

    def prepare():
        write_below("u", {"x": "AAAA"})
        put("y", b"BBBB")
        return lambda: os.rename("y", "u/x")

    prepare()
    wait_for_clock(".", 0.1)
    made = calls(romtool.path, *words)[0]
    opens = [at for at, it in enumerate(made) if it.name == "openat" and '"u/x"' in it.text]
    assert len(opens) == 2  # for its alignment and for its bytes
    os.remove("out")
    before = made[opens[moment] - 1]
    answer = changed_after(romtool, words, before.name, before.number, prepare)
    assert answer in ((b"", b"changed\n", 3), (b"", b"file u/x\n", 3)) and not os.path.exists("out")


# Links that other users made.


def as_nobody(*words):
    """Runs a command as an ordinary user."""
    subprocess.run(words, preexec_fn=become_nobody, check=True)


@pytest.fixture
def shared(here):
    """A directory like /tmp, a link in it that an ordinary user made, and the file of root to which it leads."""
    hello()
    os.chmod(".", 0o755)
    put("precious", b"precious")
    write_below("d", {"f": "hello"})
    os.mkdir("st")
    os.chmod("st", 0o1777)
    as_nobody("ln", "-s", os.path.abspath("precious"), "st/out")


@pytest.mark.needs("root")
@pytest.mark.parametrize("words", [
    "build romfs m st/out", "scan --all -o st/out d", "pack --quiet romfs d st/out", "pack --quiet --manifest st/out romfs d x",
    "pack --quiet --depfile st/out romfs d x", "build --depfile st/out romfs m x",
])  # fmt: skip
def test_link_of_another_user(romtool, shared, words):
    """Writes through no link that another user made in a directory like /tmp, and says why."""
    assert romtool.line(words) == fault("st/out")
    assert (bytes_in("precious"), os.path.islink("st/out"), os.path.exists("x")) == (b"precious", True, False)
    assert b"st/out: " + LINK in romtool("--explain", *words.replace(" --quiet", "").split())[1]


@pytest.mark.needs("root")
def test_directory_of_another_user(romtool, shared):
    """Writes into no directory to which another user's link leads."""
    write_below("v", {"out": "keep"})
    as_nobody("ln", "-s", os.path.abspath("v"), "st/v")
    for name in "out", "new":
        assert romtool.line(f"build romfs m st/v/{name}") == fault(f"st/v/{name}")
    assert (bytes_in("v/out"), os.listdir("v")) == (b"keep", ["out"])


@pytest.mark.needs("root")
@pytest.mark.parametrize("mode, owner, maker, is_refused", [
    (0o1777, 0, NOBODY, True), (0o777, 0, 0, True), (0o755, NOBODY, 0, True), (0o1777, 0, 0, False), (0o755, 0, 0, False),
])  # fmt: skip
def test_link_that_others_may_replace(romtool, here, mode, owner, maker, is_refused):
    """Refuses exactly links that another user made or may replace, as `extract` does for DIR."""
    hello()
    put("old", b"old")
    os.mkdir("l")
    os.symlink("../old", "l/out")
    os.lchown("l/out", maker, maker)
    os.chown("l", owner, owner)
    os.chmod("l", mode)
    answer = romtool.line("build romfs m l/out")
    assert answer == (fault("l/out") if is_refused else prints("ok 1024"))
    assert (bytes_in("old") == b"old", os.path.islink("l/out")) == (is_refused, True)


def test_own_links(romtool, here):
    """Writes through links of the user, also over several directories."""
    hello()
    os.makedirs("p/q")
    os.symlink("p", "l")
    os.symlink("../../l/q/out", "p/q/link")
    put("p/q/out", b"old")
    assert romtool.line("build romfs m l/q/link") == prints("ok 1024")
    assert romtool.line("check p/q/out") == prints("ok romfs 3 1") and os.path.islink("p/q/link")


# Devices that are in use.


@contextlib.contextmanager
def disk():
    """Makes a disk with one partition, and yields the names of both."""
    table = bytes([0, 0, 0, 0, 0x83, 0, 0, 0]) + (2048).to_bytes(4, "little") + (100000).to_bytes(4, "little")
    put("disk", bytes(446) + table + bytes(48) + b"\x55\xaa")
    os.truncate("disk", 64 << 20)
    made = subprocess.run(["losetup", "-P", "-f", "--show", "disk"], stdout=-1, stderr=-1, text=True)
    if made.returncode:
        pytest.skip("no loop device can be made here")
    whole = made.stdout.strip()
    try:
        if not wait_until(lambda: os.path.exists(whole + "p1"), seconds=1):
            subprocess.run(["partx", "-a", whole], stderr=-1)
        if not os.path.exists(whole + "p1"):
            pytest.skip("no device with partitions can be made here")
        yield whole, whole + "p1"
    finally:
        subprocess.run(["losetup", "-d", whole], check=True)


@pytest.mark.needs("root", "losetup", "mkfs.ext4", "mount")
def test_disk_with_a_mounted_partition(romtool, here):
    """Writes to no disk one of whose partitions is mounted, and to the disk after it is unmounted."""
    hello()
    with disk() as (whole, partition):
        subprocess.run(["mkfs.ext4", "-q", partition], check=True)
        os.mkdir("mounted")
        if subprocess.run(["mount", partition, "mounted"], stderr=-1).returncode:
            pytest.skip("nothing can be mounted here")
        try:
            before = subprocess.run(["head", "-c", "4096", whole], stdout=-1, check=True).stdout
            for name in whole, partition:
                _, err, status = romtool.line(f"--explain build romfs m {name}")
                assert status == 3 and b"a file system on it, or on a partition of it, is mounted" in err
            assert subprocess.run(["head", "-c", "4096", whole], stdout=-1, check=True).stdout == before
        finally:
            subprocess.run(["umount", "mounted"], check=True)
        assert romtool.line(f"build romfs m {partition}") == prints("ok 1024")


# Streams and terminals.


def at_terminal(*words):
    """Returns what a command prints on a terminal."""
    leader, follower = pty.openpty()
    with subprocess.Popen(words, stdout=follower, stderr=subprocess.DEVNULL):
        os.close(follower)
        said = b""
        with contextlib.suppress(OSError):
            while piece := os.read(leader, 4096):
                said += piece
    os.close(leader)
    return said


def test_digest_at_a_terminal(romtool, here):
    """Shows no byte of a name that a terminal may take for a command; in a pipe the line is that of sha256sum."""
    put("s", b"hi\n")
    put("m", "file /a%1B]0;x%07é 0644 0 0 4 s\n".encode())
    assert romtool.line("build romfs m i") == prints("ok 1024")
    wanted = subprocess.run(["sha256sum", "s"], stdout=-1, check=True).stdout[:64]
    assert romtool.line("digest i")[0] == wanted + "  a\x1b]0;x\x07é\n".encode()
    assert at_terminal(romtool.path, "digest", "i") == wanted + b"  a%1B]0;x%07%C3%A9\r\n"


# Sources that are written all the time.


def test_rewritten_all_the_time(romtool, here):
    """Puts no mixture into an image of a source that is rewritten every other millisecond: the build ends by `changed`, mostly."""
    size, ended = 200_000, threading.Event()
    put("s", b"A" * size)
    put("m", b"file /a 0644 0 0 4 s\n")

    def rewrite():
        with open("s", "r+b", buffering=0) as file:
            for byte in itertools.cycle((b"A", b"B")):
                if ended.is_set():
                    return
                file.seek(0)
                file.write(byte * size)
                ended.wait(0.002)

    writer = threading.Thread(target=rewrite)
    writer.start()
    try:
        for format in ("romfs", "cramfs") * 15:
            status = romtool.line(f"build {format} m out")[2]
            if status == 0:
                image = re.findall(b"A{99,}|B{99,}", bytes_in("out"))
                assert [len(it) for it in image] == [size]
    finally:
        ended.set()
        writer.join()


# What is refused in words.


@pytest.mark.parametrize("size, is_refused", [("4G", False), ("4294967297", True), ("16G", True), ("0xffffffffffffffff", True)])
def test_size_of_a_partition(romtool, scanned, size, is_refused):
    """Refuses a partition of more than 2^32 bytes, in words, before anything is read."""
    if is_refused:
        assert romtool.line(f"pack --quiet --size {size} romfs none out") == refuses("usage")
        assert b"--size is at most 4294967296 bytes (4G)" in romtool.line(f"pack --size {size} romfs none out")[1]
    else:
        assert romtool.line(f"pack --quiet --size {size} --max-size 1 romfs d out") == (b"size 1024 1\n", b"", 1)


@pytest.mark.needs("strace")
def test_short_read_of_the_probe(romtool, here):
    """Reports a program whose first bytes the system does not return, and does not align it as another file."""
    write_below("d", {"p": "\x7fELF" + "x" * 5000})
    words = ["pack", "--quiet", "--align", "4096", "cramfs", "d", "out"]
    made, done = calls(romtool.path, *words)
    assert done.returncode == 0
    text = '"\\177ELF'
    first = next(it.number for it in made if it.name == "read" and text in it.text)
    os.remove("out")
    assert failed(romtool, words, "read", "retval=0", first) == fault("d/p") and not os.path.exists("out")


def test_extract_says_what_is_lost(romtool, here):
    """Says that programs get ALIGN 4 in the manifest of an extraction, and which option keeps their places."""
    write_below("d", {"x": "text"})
    put("d/prog", bytes_in(os.path.realpath("/bin/true")), 0o755)
    assert romtool.line("pack --quiet --all-root --align 4096 cramfs d i")[2] == 0
    words = "programs at a multiple of 4096, which get ALIGN 4 in this manifest; extract --align 4096 keeps them executed in place: 1"
    assert f"one: {words}" in said(romtool.line("--explain extract i one"))
    assert words not in romtool.line("--explain extract --align 4096 i two")[1].decode()
    for name in "one", "two":
        assert stat.S_ISREG(os.stat(f"{name}/prog").st_mode)
