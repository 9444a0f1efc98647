"""Scans while the system interferes, by `scan` and by `scan --all`.

Tested are: each call of the system failed in turn; directories that change between any two calls of their scan; output that is not
accepted; odd names of directories and of their entries; entries that cannot be read; and every kind of file. A manifest has to be right,
or it is not printed; what is reported instead is compared, too.
"""

import itertools
import os
import re
import resource
import shutil
import signal
import socket
import stat
import subprocess
import sys
import time

import fuse
import pytest
import traced
from files import bytes_in, innermost, put, remove, text_of, wait_for_clock, write_below
from harness import SECONDS
from romtool import answer, entries, escaped, prints, refuses, run
from scans import scanned
from users import IS_ROOT, become_nobody

SCANS = (["scan"], ["scan", "--all"])
FITTED = ["scan", "--all", "--for", "cramfs", "--align", "16"]
LONGEST = 4095  # bytes of the longest name that Linux accepts
FAULTS = ("EIO", "ENOMEM", "EACCES", "ENOENT", "EINTR")
NAMES = ("openat", "statx", "readlink", "getdents64")  # the calls that are asked of a name
UNWRITTEN = refuses("write fault")
MOVES = [("a/b/bb", "c/bb"), ("a/b/bb", "c/d/bb"), ("c/d/dd", "a/dd"), ("c/d/dd", "a/b/dd"), ("a/b", "c/b"), ("c/d", "a/d")]

by_scan = pytest.mark.parametrize("words", SCANS, ids=" ".join)
needs_strace = pytest.mark.needs("strace")
needs_root = pytest.mark.needs("root")


def whole(words, folder="in", at="."):
    """Returns the answer of a scan that prints the manifest of a directory, whose name it is given in the directory `at`."""
    return scanned(*words[1:], "--", folder, at=at), b"", 0


def refused(name):
    """Returns the answer of a scan that reports a name."""
    return refuses(f"file {escaped(os.fsencode(name))}")


@pytest.fixture
def kinds(here):
    """The directory `in` with each kind of file that the rights allow, and names to be escaped."""
    os.makedirs("in/d/a b%\n")
    os.makedirs("in/none")
    for name in "in/file", "in/d/b", "in/d/a b%\n/a b%\n", "in/d/a b%\n/caf\u00e9", "in/d/a b%\n/#":
        put(name, name.encode())
    os.chmod("in/d/b", 0o755)
    os.symlink("d/b", "in/link")
    os.symlink(b"%\n\xc3\xa9", "in/d/a b%\n/link")
    os.mkfifo("in/pipe")
    with socket.socket(socket.AF_UNIX) as it:
        it.bind("in/socket")
    if IS_ROOT:
        os.mknod("in/disk", 0o600 | stat.S_IFBLK, os.makedev(4095, 1048575))
        os.mknod("in/tty", 0o600 | stat.S_IFCHR, os.makedev(0, 1))
    for name in set(os.listdir("in")) - {"d", "none"}:
        os.link(f"in/{name}", f"in/none/{name}", follow_symlinks=False)
    wait_for_clock(".", 0.1)  # a scan waits for files that changed less than 20 ms ago, which makes other calls


def make_many(count=2500):
    """Makes the directory `in` with many files."""
    os.makedirs("in/d")
    for number in range(count):
        put(f"in/d/{number:04}-{'n' * (number % 40)}")


@pytest.fixture
def one(here):
    """The directory `in` with one file."""
    os.mkdir("in")
    put("in/a", b"a")


# each call failed


def name_in(call):
    """Returns the name that a call of the system is asked of."""
    quoted = re.search(r'"((?:[^"\\]|\\.)*)"', call.text).group(1)
    return quoted.encode("latin-1").decode("unicode_escape").encode("latin-1")


def named_calls(made):
    """Yields the calls, each with the name that is reported if it fails, or `None`."""
    opened = None
    for call in made:
        name = None
        if call.name in ("openat", "statx", "readlink"):
            name = name_in(call)
            name = name.rstrip(b"/") or name or opened  # an open file's attributes are asked for without a name
            opened = name if call.name == "openat" else opened
        elif call.name in ("getdents64", "read"):
            name = opened
        yield call, name


def endings(call, name, fault, done, is_settling):
    """Returns the answers that are right if a call of the system was failed."""
    unwritten = (done[0], *UNWRITTEN[1:])
    if name == b"/dev/null/x":
        return [done]  # it fails always, so that the error of a close is told from an earlier one
    if is_settling:
        return [unwritten]
    if call.name == "openat" and name == b"/":
        return [done]  # for closed streams, another directory is opened then
    if call.name == "write":
        # what could not be written is tried once more at the end
        return [done] if fault == "EINTR" else [UNWRITTEN, unwritten]
    if name is not None:
        return [refuses("memory") if fault == "ENOMEM" else refused(name), *[done] * (fault == "EINTR")]
    return [done, refuses("memory")] if call.name == "mmap" else [done]


@needs_strace
@pytest.mark.parametrize("words", [*SCANS, FITTED], ids=" ".join)
def test_each_call_failed(romtool, kinds, words):
    """Prints the whole manifest whichever call is failed, or nothing, and reports what failed, and why."""
    made, run = traced.calls(romtool.path, *words, "in")
    done, is_settling = whole(words), False
    assert answer(run) == done
    for call, name in named_calls(made):
        if call.name in ("exit_group", "brk"):
            continue  # these fail in no such way
        # at the end a further descriptor of standard output is made, and its closing is looked at
        is_settling = is_settling or call.name == "fcntl"
        for fault in FAULTS:
            if (call.name, fault) == ("getdents64", "ENOENT"):
                continue  # that a directory was removed, which ends it
            told = traced.inject(call.name, f"error={fault}", call.number)
            got = answer(traced.run(romtool.path, *words, "in", told=told))
            assert got in endings(call, name, fault, done, is_settling), (call.text, fault)


@needs_strace
@by_scan
def test_refusal_that_is_not_taken(romtool, here, words):
    """Has the same status if standard error accepts nothing, and prints nothing elsewhere."""
    for fault in "EIO", "EBADF", "ENOSPC":
        assert answer(traced.run(romtool.path, *words, "none", told=traced.inject("write", f"error={fault}"))) == (b"", b"", 3)


@by_scan
def test_memory_that_ends(romtool, here, words):
    """Prints the whole manifest, or nothing and `memory`."""
    make_many()
    os.mkdir("none")
    found = set()
    for most in range(2 << 20, 9 << 20, 1 << 17):
        more = {"preexec_fn": lambda most=most: resource.setrlimit(resource.RLIMIT_AS, (most, most))}
        if romtool(*words, "none", **more)[2] == 0:  # otherwise the program itself has no room
            found.add(romtool(*words, "in", **more))
    assert found == {whole(words), refuses("memory")}


# output


@needs_strace
@by_scan
def test_each_write_failed(romtool, here, words):
    """Ends in `write fault` if a write fails, and what was written before is a beginning."""
    make_many(800)
    done = whole(words)
    writes = [call.number for call in traced.calls(romtool.path, *words, "in")[0] if call.name == "write"]
    assert len(writes) >= 3
    for number, fault in itertools.product(writes, ("EIO", "EAGAIN", "EINTR")):
        got = answer(traced.run(romtool.path, *words, "in", told=traced.inject("write", f"error={fault}", number)))
        is_begun = got[1:] == UNWRITTEN[1:] and done[0].startswith(got[0])
        assert is_begun or fault == "EINTR" and got == done, (number, fault)


@by_scan
def test_room_that_ends(romtool, here, words):
    """Writes exactly so many bytes into a file that takes no more."""
    make_many()
    manifest = whole(words)[0]
    for most in 0, 1, 4095, 8192, 8193, 65537, len(manifest) - 1, len(manifest):

        def take_no_more(most=most):
            signal.signal(signal.SIGXFSZ, signal.SIG_IGN)
            resource.setrlimit(resource.RLIMIT_FSIZE, (most, most))

        with open("out", "wb") as out:
            how = romtool(*words, "in", stdout=out, preexec_fn=take_no_more)[1:]
        assert (how, bytes_in("out")) == ((b"", 0) if most == len(manifest) else UNWRITTEN[1:], manifest[:most])


@by_scan
@pytest.mark.parametrize("line", ['{ "$@"; echo $? >&4; } | head -n 1 >&3', '"$@" >&-', '"$@" >/dev/full', '"$@" 1</dev/null'])
def test_readers_that_leave(romtool, here, words, line):
    """Reports `write fault` if the reader of a pipe leaves, or a stream is closed or full."""
    make_many()
    done = run("bash", "-c", f"{{ {line}; echo $? >&4; }} 3>/dev/null 4>&1", "bash", romtool.path, *words, "in")
    assert (done.stdout.split()[0], done.stderr) == (b"3", b"write fault\n")


@by_scan
def test_output_into_the_folder(romtool, here, words):
    """Names a manifest that is written into the directory, and does not read it."""
    make_many(300)
    with open("in/manifest", "wb") as out:
        assert romtool(*words, "in", stdout=out)[1:] == (b"", 0)
    assert bytes_in("in/manifest") == whole(words)[0]


# directories that change


def answer_held(romtool, words, call, change):
    """Returns the answer of a scan of `in` that is stopped after one of its calls until a change was made."""
    with traced.Held(romtool.path, [*words, "in"], call.name, call.number) as held:
        change()
    assert held.is_held
    return held.answer


def calls_of_names(romtool, words):
    """Returns the calls of a scan of `in` that are asked of a name, after the first."""
    return [call for call in traced.calls(romtool.path, *words, "in")[0] if call.name in NAMES][1:]


def lay(texts, links=()):
    """Makes the directories `in` and `aside` again, long enough before a scan."""
    for name in "in", "aside":
        remove(name)
    write_below(".", texts)
    for name, text in links:
        os.symlink(text, name)
    wait_for_clock(".")


def lay_folder():
    """Makes the directory `in` again, with a directory `d` that is to change."""
    lay({"in/d/x": "x", "in/d/y": "y", "aside/d/other": ""}, [("in/d/z", "x")])


def in_place(name, make):
    """Removes a file, and makes another in its place."""
    os.remove(name)
    make(name)


def in_place_of_folder(make):
    """Moves the directory `d` away, and makes another file in its place."""
    os.rename("in/d", "aside/old")
    make("in/d")


# what is done to what the directory `d` holds, and to itself
INSIDE = {
    "added": lambda: put("in/d/more"),
    "removed": lambda: os.remove("in/d/x"),
    "a link in its place": lambda: in_place("in/d/x", lambda name: os.symlink("/etc", name)),
    "a pipe in place of a link": lambda: in_place("in/d/z", os.mkfifo),
    "a folder in its place": lambda: in_place("in/d/y", os.mkdir),
    "renamed": lambda: os.rename("in/d/x", "in/d/w"),
    "moved out": lambda: os.rename("in/d/y", "aside/y"),
    "emptied": lambda: [os.remove(f"in/d/{name}") for name in "xyz"],
}
BESIDE = {
    "another folder": lambda: in_place_of_folder(lambda name: os.rename("aside/d", name)),
    "a link to another": lambda: in_place_of_folder(lambda name: os.symlink("../aside/d", name)),
    "a link to itself": lambda: in_place_of_folder(lambda name: os.symlink("../aside/old", name)),
    "a pipe in its place": lambda: in_place_of_folder(os.mkfifo),
    "gone": lambda: shutil.rmtree("in/d"),
}


def looked(made, *names):
    """Returns the places of the calls that look at one of these names."""
    return [at for at, call in enumerate(made) if call.name == "statx" and name_in(call) in names]


@needs_strace
@pytest.mark.parametrize("what", [*INSIDE, *BESIDE])
def test_changed_between_calls(romtool, here, what):
    """Refuses a directory that changed since it was found, and until it was looked into, and a file that changed until it was looked at
    last; otherwise the manifest is old or new."""
    words = ["scan", "--all"]
    lay_folder()
    made = calls_of_names(romtool, words)
    places = looked(made, b"in/d") if what in INSIDE else looked(made, b"in/d", b"in")
    first, seen, last = min(places), max(places), max(looked(made, b"in/d/x", b"in/d/y", b"in/d/z"))
    for at, call in enumerate(made):
        lay_folder()
        old = whole(words)
        got = answer_held(romtool, words, call, (INSIDE | BESIDE)[what])
        is_refused = (got[0], got[2]) == (b"", 3) and re.fullmatch(rb"file in(/d(/[a-z]+)?)?\n", got[1])
        if not (is_refused and first <= at < max(seen, last)):
            assert at < first or at >= seen, call.text
            assert got == (whole(words) if at < first else old), call.text


FILE_CHANGES = {
    "another mode": lambda name: os.chmod(name, 0o640),
    "rewritten": lambda name: rewritten(name),
    "longer": lambda name: os.truncate(name, 100),
    "another name": lambda name: os.link(name, "aside/further"),
}


@needs_strace
@pytest.mark.parametrize("what", FILE_CHANGES)
def test_file_changed_between_calls(romtool, here, what):
    """Refuses a file that changed since it was looked at first and until it was looked at last; otherwise the manifest is old or new."""
    words = ["scan", "--all"]
    lay_folder()
    made = calls_of_names(romtool, words)
    places = looked(made, b"in/d/x")
    assert len(places) > 1
    for at, call in enumerate(made):
        lay_folder()
        old = whole(words)
        got = answer_held(romtool, words, call, lambda: FILE_CHANGES[what]("in/d/x"))
        wanted = whole(words) if at < min(places) else old if at >= max(places) else refused("in/d/x")
        assert got == wanted, call.text


@needs_strace
@by_scan
@pytest.mark.parametrize("move", MOVES, ids=" ".join)
def test_moved_between_folders(romtool, here, words, move):
    """Prints a file or a directory that is moved once, where it was or where it is, or refuses all."""

    texts = {"in/a/b/bb": "", "in/c/d/dd": ""}
    lay(texts)
    for call in calls_of_names(romtool, words):
        lay(texts)
        old = whole(words)
        got = answer_held(romtool, words, call, lambda: os.rename(f"in/{move[0]}", f"in/{move[1]}"))
        is_refused = (got[0], got[2]) == (b"", 3) and re.fullmatch(rb"file in(/[a-z]+)*\n", got[1])
        assert is_refused or got in (old, whole(words)), call.text


@needs_strace
@by_scan
@pytest.mark.parametrize(("what", "names"), [("removed", "x"), ("renamed", "x"), ("emptied", "xyz")])
def test_entry_that_vanishes(romtool, here, words, what, names):
    """Reports an entry that vanished since its directory was listed by its own name."""
    lay_folder()
    made = traced.calls(romtool.path, *words, "in")[0]
    opened = [name_in(call) for call in made if call.name == "openat"][1:]
    call = [call for call in made if call.name == "getdents64"][2 * opened.index(b"in/d/")]
    lay_folder()
    assert answer_held(romtool, words, call, INSIDE[what]) in [refused(f"in/d/{name}") for name in names]


@needs_strace
def test_pipe_that_takes_a_name(romtool, here):
    """Does not open a FIFO that took the name of a file before the last look at the name, in a scan that looks for programs."""
    words, texts = ["scan", "--all", "--align", "4096"], {"in/x": "\x7fELF" + "\0" * 100}
    lay(texts)
    made = calls_of_names(romtool, words)
    for at in looked(made, b"in/x")[:-1]:
        lay(texts)
        assert answer_held(romtool, words, made[at], lambda: in_place("in/x", os.mkfifo)) in (refused("in"), refused("in/x"))


def rewritten(name):
    """Writes the last byte of a file once more."""
    with open(name, "r+b") as file:
        file.seek(-1, os.SEEK_END)
        file.write(b"x")


# what happens to equal files while `--dedupe` compares them: which one, the call on one of them, and its place among those of its name
CHANGES = {
    "longer while it is read": ("a", "a", "read", 0, lambda name: os.truncate(name, 50000)),
    "shorter while it is read": ("a", "a", "read", 0, lambda name: os.truncate(name, 20000)),
    "rewritten while it is read": ("a", "a", "read", 0, rewritten),
    "rewritten when it was read": ("a", "a", "read", -1, rewritten),
    "another mode when it was read": ("b", "b", "read", -1, lambda name: os.chmod(name, 0o600)),
    "rewritten while another one is read": ("a", "b", "read", 0, rewritten),
    "rewritten when all were read": ("a", "b", "close", -1, rewritten),
    "longer before it is opened": ("b", "a", "close", -1, lambda name: os.truncate(name, 50000)),
    "longer when all were read": ("b", "b", "close", -1, lambda name: os.truncate(name, 50000)),
}


@needs_strace
@pytest.mark.parametrize("what", CHANGES)
def test_equal_files_that_change(romtool, here, what):
    """Reports a file that changes while `--dedupe` compares it with others, or after that."""
    words, texts = ["scan", "--all", "--dedupe", "--for", "cramfs"], {name: "x" * 40000 for name in ("in/a", "in/b")}
    of, at, name, number, change = CHANGES[what]
    lay(texts)
    made = traced.calls(romtool.path, *words, "in")[0]
    call = [it for it in traced.on_file(made, f"in/{at}") if it.name == name][number]
    lay(texts)
    assert answer_held(romtool, words, call, lambda: change(f"in/{of}")) == refused(f"in/{of}")


# of two files, at each moment at most one has the mode 0644
TURNS = """
import os, time
end = time.time() + 4
while time.time() < end:
    os.chmod("in/z", 0o600); os.chmod("in/a", 0o644); sum(range(9000))
    os.chmod("in/a", 0o600); os.chmod("in/z", 0o644); sum(range(5000))
"""


def test_one_moment(romtool, here):
    """Shows a state that there was, or refuses, while two files change their modes in turn."""
    os.mkdir("in")
    for name in "a", "z", *(f"m{number}" for number in range(300)):
        put(f"in/{name}", mode=0o600)
    with subprocess.Popen([sys.executable, "-c", TURNS]) as turns:
        while turns.poll() is None:
            out, *how = romtool("scan", "--all", "in")
            if how == [b"", 0]:
                assert len(re.findall(rb"^file /[az] 0644", out, re.M)) < 2
            else:
                assert re.fullmatch(rb"file in/[az]\n", how[0]) and how[1] == 3


# names


@by_scan
def test_odd_folders(romtool, kinds, words):
    """Scans DIR that is a link, or ends in slashes, or is the directory itself or the one above."""
    os.symlink("in", "led")
    os.symlink("led", "led again")
    folders = ["in", "in/", "in////", "./in", "in/.", "in/d/..", ".//in", "led", "led/", "led again", "in/none"]
    for folder in [*folders, os.path.abspath("in"), os.path.abspath("in") + "/"]:
        assert romtool(*words, "--", folder) == whole(words, folder), folder
    for at, folder in ("in", "."), ("in", "./"), ("in/d", ".."), ("in/d", "../"), ("in/d", "../d/a b%\n"):
        assert romtool(*words, folder, cwd=at) == whole(words, folder, at), folder


@by_scan
def test_what_is_no_folder(romtool, here, words):
    """Refuses DIR that is no directory by its name, and waits for no pipe."""
    put("file")
    os.mkfifo("pipe")
    for name, text in ("dangling", "no where"), ("loop", "loop"), ("to a pipe", "pipe"):
        os.symlink(text, name)
    with socket.socket(socket.AF_UNIX) as it:
        it.bind("socket")
    for name in (
        "file", "file/", "pipe", "pipe/", "dangling", "dangling//", "loop", "to a pipe", "socket", "/dev/null", "", "none", "file/none",
        "n" * 256, "n/" * 2047 + "n", "n/" * 2048,
    ):  # fmt: skip
        assert romtool(*words, "--", name) == refused(name)


@needs_root
@by_scan
@pytest.mark.parametrize("mode", range(8))
def test_folders_that_are_forbidden(romtool, here, words, mode):
    """Reports a directory that may not be listed by its name, one whose entries may not be looked at by one of these."""
    os.chmod(".", 0o755)
    os.makedirs("in/d")
    put("in/d/a")
    os.chmod("in/d", mode << 6 | mode)
    for at, folder, told in (".", "in", "in/d"), ("in/d", ".", "."), (".", "in/d", "in/d"):
        if at != "." and not mode & 1:
            continue  # it cannot be the current directory either
        out, *how = romtool(*words, folder, cwd=at, preexec_fn=become_nobody)
        if mode & 5 == 5:
            assert (bool(out), *how) == (True, b"", 0)
        else:
            assert (out, *how) == refused(f"{told}/a" if mode & 4 else told)


@pytest.mark.parametrize("words", [*SCANS, ["scan", "--all", "--for", "romfs"]], ids=" ".join)
def test_every_byte(romtool, here, words):
    """Reads names that have each byte that a name of UTF-8 can have, and texts of links, again as they are."""
    os.makedirs("in/d")
    bounds = [0x80, 0x7FF, 0x800, 0xFFF, 0x1000, 0xD7FF, 0xE000, 0xFFFF, 0x10000, 0x3FFFF, 0x40000, 0x10FFFF]
    points = [*range(1, 0x100), *range(0x80, 0x800, 0x3F), *range(0x800, 0xD800, 0xFC1), *bounds, *range(0x10000, 0x110000, 0x10FC1)]
    for point in set(points) - {ord("/")}:
        put(os.fsencode("in/d/n" + chr(point)))
        if chr(point) not in ".d":
            put(os.fsencode("in/" + chr(point)))
        os.symlink(os.fsencode(chr(point)), os.fsencode("in/d/l" + chr(point)))
    os.makedirs("in/\u00e9 %25/%41/\n")
    got = romtool(*words, "in")
    assert got == whole(words)
    if words != SCANS[1]:  # whose owners romfs does not accept
        put("m", got[0])
        assert romtool.line("build romfs m out")[2] == 0
        assert len(romtool.line("list out")[0].splitlines()) >= len(os.listdir("in"))


@by_scan
@pytest.mark.parametrize("length", [LONGEST - 1, LONGEST, LONGEST + 1, LONGEST + 200])
@pytest.mark.parametrize("end", ["file", "folder"])
def test_longest_names(romtool, here, words, length, end):
    """Takes names as long as the system accepts them, and reports a longer one whole."""
    os.mkdir("in")
    depth = (length - 4) // 201  # so that a last name of 1 to 201 bytes is left
    place = "in" + depth * ("/" + "n" * 200)
    last = "n" * (length - len(place) - 1)
    with innermost("n" * 200, depth, "in") as inner:
        (put if end == "file" else os.mkdir)(f"{inner}/{last}")
    name = f"{place}/{last}"
    got = romtool(*words, "in")
    if length <= LONGEST - (end == "folder"):  # a directory is opened with a slash after its name
        assert got[1:] == (b"", 0) and name[2:].encode() in got[0]
    else:
        assert got == refused(min((it for it in (place, name) if len(it) > LONGEST), key=len, default=name))


def test_deep_from_inside(romtool, here):
    """Scans a directory whose own name is longer than the system accepts from inside."""
    with innermost("n" * 200, 25) as inner:
        os.mkdir(f"{inner}/d")
        put(f"{inner}/d/a")
        lines = ["dir / 0755 0 0", "dir /d 0755 0 0", "file /d/a 0644 0 0 4 ./d/a"]
        assert romtool.line("scan .", cwd=inner) == prints(*lines[1:])
        assert romtool.line("scan --all --for romfs .", cwd=inner) == prints(*lines)


def test_many_entries(romtool, here):
    """Scans a directory of 100,000 names, half of them one file, in a few seconds."""
    os.mkdir("in")
    put("in/0")
    for number in range(1, 50000):
        os.link("in/0", f"in/l{number * 7919 % 50000}")
        put(f"in/f{number}")
    for words in SCANS:
        begun = time.monotonic()
        got = romtool(*words, "in")
        assert time.monotonic() - begun <= SECONDS / 3
        assert got == whole(words)


# files


@needs_root
@by_scan
def test_greatest_numbers(romtool, kinds, words):
    """Prints owners, devices, modes and lengths of the greatest numbers, and further names of every kind."""
    for number, owner in enumerate([(2**32 - 2, 0), (0, 2**32 - 2), (2**31, 2**31 - 1), (65536, 65535)]):
        put(f"in/owned {number}")
        os.chown(f"in/owned {number}", *owner)
    os.lchown("in/link", 2**32 - 2, 2**32 - 2)
    devices = [(4095, 1048575), (4095, 0), (0, 1048575), (255, 256), (256, 255)]
    os.mknod("in/zeros", 0o7777 | stat.S_IFBLK, 0)  # of a file of characters: what overlayfs has for a name that was removed
    for kind, (major, minor) in itertools.product((stat.S_IFBLK, stat.S_IFCHR), devices):
        os.mknod(f"in/{kind} {major} {minor}", 0o7777 | kind, os.makedev(major, minor))
    for name, held, length in ("sparse", b"", 2**32 + 1), ("more sparse", b"end", 2**43):
        put(f"in/{name}", held)
        os.truncate(f"in/{name}", length)
    for name in "in/pipe", "in/socket", "in/disk", "in/none", "in":
        os.chmod(name, 0o7777)
    os.chmod("in/file", 0)
    assert romtool(*words, "in") == whole(words)


def mounted(romtool, words, line):
    """Returns the first two words of each line of a scan of the directory `in`, sorted, after a line of a shell that mounts something."""
    done = run("unshare", "-m", "sh", "-c", line + '; exec "$@"', "sh", romtool.path, *words, "in")
    if done.returncode == 77:
        pytest.skip("nothing can be mounted")
    assert (done.stderr, done.returncode) == (b"", 0)
    return sorted(" ".join(it.split()[:2]) for it in done.stdout.decode().splitlines())


@needs_root
@by_scan
def test_folder_within_itself(romtool, here, words):
    """Ends with a directory that is bound into itself, and links that lead to it."""
    os.makedirs("in/d/self")
    put("in/a")
    os.symlink("..", "in/d/up")
    os.symlink(".", "in/d/here")
    lines = ["dir /d", "file /a", "dir /d/self", "file /d/self/a", "dir /d/self/d", "dir /d/self/d/self"]
    if "--all" in words:
        lines += ["dir /", "slink /d/here", "slink /d/up", "slink /d/self/d/here", "slink /d/self/d/up"]
    assert mounted(romtool, words, "mount --bind in in/d/self 2>/dev/null || exit 77") == sorted(lines)


@needs_root
@by_scan
def test_on_one_file_system(romtool, here, words):
    """Lists a directory that another file system is mounted on with `--one-file-system`, and does not look into it."""
    os.makedirs("in/d/mnt")
    put("in/d/a", b"a")
    line = "mount -t tmpfs tmpfs in/d/mnt 2>/dev/null || exit 77; mkdir in/d/mnt/e; echo x >in/d/mnt/x"
    plain = ["dir /d", "file /d/a", "dir /d/mnt", *["dir /"] * ("--all" in words)]
    assert mounted(romtool, words, line) == sorted([*plain, "dir /d/mnt/e", "file /d/mnt/x"])
    assert mounted(romtool, [*words, "--one-file-system"], line) == sorted(plain)


@needs_root
def test_packed_on_one_file_system(romtool, here):
    """Packs a directory that another file system is mounted on as an empty one with `--one-file-system`."""
    os.makedirs("in/mnt")
    script = "mount -t tmpfs tmpfs in/mnt 2>/dev/null || exit 77; echo x >in/mnt/x"
    for words, names in ([], ["/", "/mnt", "/mnt/x"]), (["--one-file-system"], ["/", "/mnt"]):
        done = run("unshare", "-m", "sh", "-c", script + '; exec "$@"', "sh", romtool.path, "pack", "--quiet", *words, "romfs", "in", "out")
        if done.returncode == 77:
            pytest.skip("nothing can be mounted")
        assert answer(done) == prints("ok 1024")
        assert [it.path for it in entries(romtool.path, "out")] == names


@pytest.mark.needs("fuse")
def test_files_of_one_number(romtool, here):
    """Takes files with one link for files of their own on a file system that gives all one inode number (numbers.c, by FUSE)."""
    with fuse.mounted("numbers") as folder:
        if not folder:
            pytest.skip("nothing can be mounted by FUSE")
        assert romtool("scan", "--all", "-o", "m", folder) == prints()
        lines = ["dir /", "file /a", "file /b", "file /c", "hard /d"]
        assert [" ".join(line.split()[:2]) for line in text_of("m").splitlines()] == lines
        assert romtool.line("build romfs m out")[2] == 0
        assert [romtool("cat", "out", f"/{name}")[0] for name in "abcd"] == [b"a", b"b", b"c", b"c"]


@pytest.mark.parametrize(("name", "of", "how"), [
    ("/dev/stdout", "kept", (b"file /dev/stdout\n", 3)), ("kept", "kept", (b"file kept\n", 3)), ("m", ".m.romtool-0.part", (b"", 0)),
])  # fmt: skip
def test_manifest_over_its_output(romtool, one, name, of, how):
    """Does not replace the file of standard output by `-o`, nor remove it as an old part."""
    put(of, b"kept")
    with open(of, "ab") as output:
        assert romtool("scan", "--all", "-o", name, "in", stdout=output)[1:] == how
    assert bytes_in(of) == b"kept"
    assert name != "m" or bytes_in("m") == whole(SCANS[1])[0]


def test_manifest_over_its_errors(romtool, one):
    """Does not replace the file of standard error by `-o`. A pipe is written."""
    put("m", b"file /a 0644 0 0 4 in/a\n")
    for words in ["scan", "--all", "-o", "/dev/stderr", "in"], ["build", "romfs", "m", "/dev/stderr"]:
        put("log", b"kept\n")
        with open("log", "ab") as log:
            assert romtool(*words, stderr=log)[2] == 3
        assert bytes_in("log") == b"kept\nfile /dev/stderr\n"
    assert romtool("scan", "--all", "-o", "/dev/stdout", "in") == whole(SCANS[1])


def test_equal_manifest_stays(romtool, one):
    """Leaves a file of `-o` that has the manifest already, so that make builds nothing; replaces any other one."""

    def shown():
        return os.path.exists("m") and (os.stat("m").st_ino, os.stat("m").st_mtime_ns, bytes_in("m"))

    for change, is_replaced in (
        (lambda: None, True),
        (lambda: None, False),
        (lambda: put("in/b", b"b"), True),
        (lambda: put("m", bytes_in("m") + b"\n"), True),
        (lambda: put("m", bytes_in("m")[:-1]), True),
        (lambda: put("in/a", b"more"), False),
    ):
        change()
        before = shown()
        assert romtool.line("scan --all -o m in") == prints()
        assert (shown() != before, bytes_in("m")) == (is_replaced, whole(SCANS[1])[0])
    assert sorted(os.listdir(".")) == ["in", "m"]


def test_rule_of_a_scan(romtool, here):
    """Writes a rule of the manifest by `--depfile`: make is to scan again if a file or a directory is newer, or was removed."""
    os.makedirs("in/d")
    put("in/d/b c", b"b")
    os.symlink("nowhere", "in/link")
    put("devices", b"nod /null 0666 0 0 c 1 3\n")
    assert romtool.line("scan --all --devices devices --depfile rule -o m in") == prints()
    names = ["in/d/b\\ c", "devices", "in", "in/d"]
    assert text_of("rule") == "m:" + "".join(f" \\\n  {name}" for name in names) + "\n" + "".join(f"\n{name}:\n" for name in names)
    assert text_of("m").startswith("dir / ")
    before = bytes_in("rule"), bytes_in("m")
    put("in/new")
    for words, told in (
        (["--all", "--depfile", "in/rule", "-o", "m"], "file in/rule"),
        (["--all", "--depfile", "m", "-o", "m"], "file m"),
        (["--all", "--depfile", "in/new", "-o", "m"], "file in/new"),
        (["--all", "--depfile", "rule", "-o", "in/m"], "file in/m"),
        (["--all", "--depfile", "rule"], "usage"),
        (["--all", "--depfile", "rule", "-o", "x y "], "file rule"),
        (["--depfile", "rule"], "usage"),
    ):
        assert romtool("scan", *words, "in") == refuses(told)
        assert (bytes_in("rule"), bytes_in("m"), bytes_in("in/new")) == (*before, b"")
    assert (sorted(os.listdir(".")), sorted(os.listdir("in"))) == (["devices", "in", "m", "rule"], ["d", "link", "new"])


@needs_strace
@by_scan
def test_folders_that_rest(romtool, here, words):
    """Rests once or twice in a scan of directories that were all made before it, and not for each of them."""
    for number in range(300):
        os.makedirs(f"in/{number}")
    done = run("strace", "-f", "-e", "trace=nanosleep,clock_nanosleep", "-o", "calls", romtool.path, *words, "in")
    assert done.returncode == 0
    assert bytes_in("calls").count(b"nanosleep(") <= 3
