"""Builds and reads while the system interferes: files that are lost, torn or read without end.

Tested are OUT in odd directories, the file beside it, sources that change, images with bytes after them, signals, closed streams, and each
call of the system failed in turn, by `strace`.
"""

import contextlib
import itertools
import os
import re
import resource
import shutil
import stat
import subprocess
import threading
import time

import pytest
import traced
from edges import HELLO, OK, changed_after, failed, fault, held_at, hello, lay, lay_old, part, parts, wanted
from files import bytes_in, innermost, put
from romtool import FORMATS, answer, run
from users import NOBODY, become_nobody

FAULTS = ("error=EIO", "error=ENOSPC", "signal=KILL")
FAILED = ("openat", "read", "pread64", "write", "fsync", "rename", "fchmod", "fchown", "statx", "fcntl", "close")
BUILD = ["build", "romfs", "m", "out"]
CHANGED = b"", b"changed\n", 3
LATE = b"file /a 0644 0 0 4 a\nfile /b 0644 0 0 4 /proc/version\n"  # a manifest of which a build fails at the second source


@pytest.fixture(autouse=True)
def small(here):
    """The manifest of a small file."""
    hello()


@pytest.fixture
def built(small, romtool):
    """The image of the manifest, in the file `image`."""
    put("image", wanted(romtool))
    return bytes_in("image")


def in_shell(romtool, ends, *words):
    """Returns the answer of a run whose streams a shell redirects."""
    return answer(run("sh", "-c", 'exec "$@" ' + ends, "sh", romtool.path, *words))


# OUT and its part


def build_in(romtool, at):
    """Builds images in a directory, as `out` and by a link to it."""
    hello(at)
    image = wanted(romtool, at=at)
    for before in None, b"old":
        if before:
            put(at + "/out", before)
        assert romtool(*BUILD, cwd=at) == OK
        assert (bytes_in(at + "/out"), parts(at)) == (image, [])
    os.symlink("out", at + "/link")
    assert romtool("build", "romfs", "m", "link", cwd=at) == OK and os.path.islink(at + "/link")


def test_folder_that_is_no_text(romtool):
    """Opens OUT by its own name in a directory whose name is not UTF-8, also if it is a link."""
    os.mkdir(b"\xff")
    build_in(romtool, os.fsdecode(b"\xff"))


def test_folder_that_is_too_long(romtool):
    """Opens OUT by its own name if the path of its directory is longer than the system accepts."""
    with innermost("n" * 200, 25) as at:
        build_in(romtool, at)


def test_link_to_a_closed_stream(romtool):
    """Refuses a link that leads to a closed standard stream, which is nowhere, and leaves it."""
    os.symlink("/proc/self/fd/1", "out")
    assert in_shell(romtool, ">&-", *BUILD) == fault("out") and os.path.islink("out")


@pytest.mark.parametrize("format", FORMATS)
@pytest.mark.parametrize("out", ["a", "m", "hard", "soft", "./a"])
def test_out_that_is_read(romtool, out, format):
    """Refuses an OUT that is the manifest or a source, by another name, and leaves it."""
    os.link("a", "hard")
    os.symlink("m", "soft")
    assert romtool("build", format, "m", out) == fault(out)
    assert (bytes_in("a"), bytes_in("m"), parts()) == (b"hello", HELLO, [])


@pytest.mark.needs("strace")
@pytest.mark.parametrize("mode", [0o600, 0o640, 0o755], ids="{:o}".format)
def test_private_while_written(romtool, mode):
    """Makes the part of a private file private from the first on; the old mode comes after."""
    put("out", b"old", mode)
    made, done = traced.calls(romtool.path, *BUILD)
    opened = [it.text for it in made if '".out.romtool-0.part", O_WRONLY' in it.text and it.name == "openat"]
    assert (done.returncode, [", 01600)" in it for it in opened], stat.S_IMODE(os.stat("out").st_mode)) == (0, [True], mode)


@pytest.mark.needs("root")
@pytest.mark.parametrize("become, owner, old, new", [
    (None, (1234, 4321), 0o600, 0o600), (None, (1234, 4321), 0o4755, 0o4755), (None, (1234, 4321), 0o2711, 0o2711),
    (become_nobody, (1234, 4321), 0o6777, 0o777), (become_nobody, (1234, 4321), 0o1666, 0o666),
    *((become_nobody, (NOBODY, NOBODY), mode, mode) for mode in (0o4755, 0o2755, 0o6711)),
])  # fmt: skip
def test_owner_of_out(romtool, here, become, owner, old, new):
    """Keeps the owner, the group and all of the mode, also the bits that each write clears, but none that lends another owner's rights."""
    here.chmod(0o777)
    put("out", b"old")
    os.chown("out", *owner)
    os.chmod("out", old)
    assert romtool(*BUILD, preexec_fn=become) == OK
    now = os.stat("out")
    assert (now.st_uid, now.st_gid) == ((NOBODY, NOBODY) if become else owner)
    assert (oct(stat.S_IMODE(now.st_mode)), now.st_size) == (oct(new), 1024)


OPENED = re.compile(r'openat\(AT_FDCWD, "([^"]*)", ([^,)]*).* = (\d+)$')
CHANGES = re.compile(r"(write|pwrite64|fsync|fdatasync|close|ftruncate)\((\d+)")
NAMED = re.compile(r"(rename\w*|unlink\w*|link|linkat|truncate)\(([^)]*)\)")


def steps_of(made):
    """Yields what a build does with its part, its directory, OUT and other names, in order. Writes to one file are one step."""
    files, last = {}, None
    for call in made:
        opened, changed, named = OPENED.match(call.text), CHANGES.match(call.text), NAMED.match(call.text)
        step = None
        if opened:
            name, flags, number = opened.groups()
            is_part = name == part(0) and {"O_WRONLY", "O_CREAT", "O_EXCL"} <= set(flags.split("|"))
            files[number] = "part" if is_part else "directory" if name == "." else None
            step = "create part" if is_part else "create " + name if "O_CREAT" in flags else None
        elif changed:
            file = files.get(changed.group(2))
            step = f"{changed.group(1)} {file}" if file else None
            if changed.group(1) == "close":
                files[changed.group(2)] = None
        elif named:
            step = "{} {}".format(*named.groups())
        if step and step not in (last, "close directory"):
            yield step
            last = step


BEGUN = ["create part", "write part", "fsync part", "close part"]
RENAMED, REMOVED, SYNCED = 'rename ".out.romtool-0.part", "out"', 'unlink ".out.romtool-0.part"', "fsync directory"


@pytest.mark.needs("strace")
@pytest.mark.parametrize("old", [None, b"old"], ids=["new", "old"])
@pytest.mark.parametrize("call, when, steps", [
    (None, 0, [RENAMED, SYNCED]), ("fsync", 1, [REMOVED]), ("rename", 1, [RENAMED, REMOVED]), ("fsync", 2, [RENAMED, SYNCED]),
])  # fmt: skip
def test_calls_of_a_replacement(romtool, call, when, steps, old):
    """Makes the calls of which the replacement is proved, in this order, and no other on these files."""
    lay_old(old)
    told = traced.inject(call, "error=EIO", when)[2:] if call else []
    made, done = traced.calls(romtool.path, *BUILD, told=told)
    assert (list(steps_of(made)), done.returncode) == (BEGUN + steps, 3 if call else 0)
    assert call or [it.name for it in made if it.name in ("fsync", "rename")] == ["fsync", "rename", "fsync"]


@pytest.mark.needs("strace")
def test_kinds_that_are_not_synchronized(romtool):
    """Synchronizes an OUT that is no regular file to the disk. It is no error if its kind cannot be."""
    words = ["build", "romfs", "m", "/dev/null"]
    made, done = traced.calls(romtool.path, *words)
    assert answer(done) == OK and [it.name for it in made].count("fsync") == 1
    assert failed(romtool, words, "fsync", "error=EINVAL") == OK
    assert failed(romtool, words, "fsync", "error=EIO") == fault("/dev/null")


@pytest.mark.needs("strace")
@pytest.mark.parametrize("error, told", [("EINVAL", OK), ("EIO", fault("out"))])
def test_folder_that_is_not_synchronized(romtool, built, error, told):
    """Reports that the disk refuses to synchronize a directory, and not that it cannot be synchronized."""
    put("out", b"old")
    assert failed(romtool, BUILD, "fsync", "error=" + error, 2) == told
    assert (bytes_in("out"), parts()) == (built, [])


def test_out_behind_forty_links(romtool):
    """Writes OUT behind as many links as the system follows, and not behind more."""
    put("link0", b"old")
    for number in range(41):
        os.symlink(f"link{number}", f"link{number + 1}")
    assert romtool("build", "romfs", "m", "link40") == OK and os.stat("link0").st_size == 1024
    assert romtool("build", "romfs", "m", "link41") == fault("link41")


@pytest.mark.needs("root", "ldd", "chroot")
def test_root_that_may_not_be_listed(romtool):
    """Does what is asked if no directory may be opened for closed streams."""
    for path in [romtool.path, *re.findall(r"(/\S+) \(", run("ldd", romtool.path).stdout.decode())]:
        to = "top/romtool" if path == romtool.path else "top" + path
        os.makedirs(os.path.dirname(to), exist_ok=True)
        shutil.copy(path, to)
    os.chmod("top", 0o711)
    done = run("chroot", f"--userspec={NOBODY}:{NOBODY}", "top", "/romtool", "version", stdin=subprocess.DEVNULL)
    assert done.returncode == 0 and done.stdout.startswith(b"romtool ")


# sources

HEAD, LENGTH = 4096, 40000  # more than what a romfs sum covers, and how much follows it


@contextlib.contextmanager
def rewriting(names):
    """Provides files that are rewritten repeatedly, except their heads, each time with one byte throughout."""
    ended = threading.Event()

    def rewrite():
        with contextlib.ExitStack() as opened:
            files = [opened.enter_context(open(name, "r+b", buffering=0)) for name in names]
            for byte in itertools.cycle(b"XY"):
                for file in files:
                    os.pwrite(file.fileno(), bytes([byte]) * LENGTH, HEAD)
                if ended.wait(0.002):  # so that builds see some of them whole
                    return

    thread = threading.Thread(target=rewrite)
    thread.start()
    try:
        yield
    finally:
        ended.set()
        thread.join()


@pytest.mark.needs("strace")
@pytest.mark.parametrize("format", FORMATS)
def test_rewritten_while_read(romtool, format):
    """Puts no mixture into an image of a source that is rewritten while it is read."""
    lay("file /a 0644 0 0 4 s\nfile /b 0644 0 0 4 t\n", s=bytes(HEAD) + b"X" * LENGTH, t=bytes(HEAD) + b"X" * LENGTH)
    answers = []
    with rewriting("st"):
        for _ in range(5):
            put("out", b"as it was")
            answers.append(failed(romtool, ["build", format, "m", "out"], "pread64", "delay_enter=3000"))
            if answers[-1][2]:
                assert answers[-1][2] == 3 and bytes_in("out") == b"as it was"
            else:
                # (a block pointer of cramfs has single bytes of any value)
                assert [len(it) for it in re.findall(b"X{99,}|Y{99,}", bytes_in("out"))] == [LENGTH, LENGTH]
    assert CHANGED in answers


def another_file():
    """Puts another file with the same times in the place of `s`."""
    state = os.stat("s")
    put("t", b"B" * 20000)
    os.utime("t", ns=(state.st_atime_ns, state.st_mtime_ns))
    os.rename("t", "s")


def same_times():
    """Changes a byte of `s`, and not its times."""
    state = os.stat("s")
    with open("s", "r+b") as file:
        file.write(b"B")
    os.utime("s", ns=(state.st_atime_ns, state.st_mtime_ns))


def pipe():
    """Makes `s` a pipe."""
    os.remove("s")
    os.mkfifo("s")


SOURCE_CHANGES = {
    "another file": another_file, "same times": same_times, "longer": lambda: os.truncate("s", 20001),
    "shorter": lambda: os.truncate("s", 10), "a pipe": pipe, "gone": lambda: os.remove("s"),
}  # fmt: skip


@pytest.mark.needs("strace")
@pytest.mark.parametrize("format", FORMATS)
@pytest.mark.parametrize("when", ["before", "in", "read", "written", "looked"])
@pytest.mark.parametrize("what", SOURCE_CHANGES)
def test_changed_while_read(romtool, what, when, format):
    """Ends the build if a source changes: before it is opened; while it is read; after the last byte was read or written; or after all
    sources were looked at once more, and before the second such look, for which a build waits if a source is less than a second old."""

    def prepare():
        with contextlib.suppress(FileNotFoundError):
            os.remove("s")
        lay("file /a 0644 0 0 4 s\nfile /b 0644 0 0 4 u\n", s=b"A" * 20000, u=b"hello", out=b"as it was")
        return SOURCE_CHANGES[what]

    prepare()
    made, _ = traced.calls(romtool.path, "build", format, "m", "wanted")
    read = [it for it in made if it.name == "pread64"][-1]
    written = [it for it in made if it.name in ("write", "pwrite64") and not it.text.startswith("write(1, ")][-1]
    call, number = {
        "before": ("fchmod", 1), "in": ("pread64", 3), "read": (read.name, read.number), "written": (written.name, written.number),
        "looked": ("clock_nanosleep", 1),
    }[when]  # fmt: skip
    told = changed_after(romtool, ["build", format, "m", "out"], call, number, prepare)
    assert told == CHANGED or (told, what) == (fault("s"), "gone")
    assert (bytes_in("out"), parts()) == (b"as it was", [])


# reading


@pytest.mark.needs("strace")
@pytest.mark.parametrize("format", FORMATS)
@pytest.mark.parametrize("command", ["check", "list", "serve", "space"])
def test_no_further_than_stated(romtool, command, format):
    """Reads no byte after the stated size of an image if bytes follow it."""
    image = wanted(romtool, format)
    put("image", image + b"\xff" * 100000)
    made, done = traced.calls(romtool.path, command, "image", stdin=subprocess.DEVNULL)
    read = sum(int(it.text.rsplit(" = ", 1)[1]) for it in made if it.name == "read")
    assert done.returncode == 0 and read <= len(image)


def test_image_from_a_pipe(romtool, built):
    """Answers about an image while the pipe that it comes from stays open, and leaves what follows."""
    reader, writer = os.pipe()
    os.write(writer, built + b"more")
    assert romtool("check", "/dev/stdin", stdin=reader) == (b"ok romfs 3 1\n", b"", 0)
    assert os.read(reader, 65536) == built[int.from_bytes(built[8:12], "big") :] + b"more"
    os.close(reader)
    os.close(writer)


@pytest.mark.parametrize("words, told", [
    *((f"{word} /dev/zero", (b"fault 3 Magic at 0\n", b"", 1)) for word in ("check", "list", "serve")),
    ("space /dev/zero /dev/zero", (b"fault 3 Magic at 0 in 0\n", b"", 1)),
    *((f"build romfs {name} out", fault(name)) for name in ("/dev/zero", "-")),
])  # fmt: skip
def test_device_without_end(romtool, words, told):
    """Knows by its first bytes what is no image, and no manifest."""
    begun = time.monotonic()
    with open("/dev/zero" if words.startswith("build") else os.devnull, "rb") as given:
        assert romtool(*words.split(), stdin=given) == told
    assert time.monotonic() - begun < 5 and not os.path.exists("out")


@pytest.mark.parametrize("words", [
    "check image", "list image", "info image", "map --all image", "map --svg image", "which image 0x80", "diff image image",
    "digest image", "verify image image", "cat image /a", "linux image", "xip image", "serve image", "space image image",
    "build romfs m out", "build --strict --xip --needs cramfs m out", "pack cramfs tree out", "scan tree", "extract image apart",
    "scan --all --align 4K -o m2 tree",
])  # fmt: skip
def test_little_stack(romtool, built, words):
    """Needs a stack of at most 128 KiB for each command."""
    os.mkdir("tree")
    put("tree/a", b"hello")
    os.symlink("a", "tree/l")
    little = {"env": {}, "preexec_fn": lambda: resource.setrlimit(resource.RLIMIT_STACK, (128 << 10, 128 << 10))}
    _, err, status = romtool(*words.split(), stdin=subprocess.DEVNULL, **little)
    assert status in (0, 1) and (err == b"" or words.startswith("pack"))


# signals, lines and streams

LOOKUPS = b"lookup /a\n" * 1000
SPACES = b"0 lookup /a\n" * 1000


@pytest.mark.parametrize("command, used, left", [
    ("serve", LOOKUPS + b"quit\n", b"what follows\n" * 500), ("serve", LOOKUPS + b"quit\n", b""), ("serve", LOOKUPS, b""),
    ("space", SPACES + b"0 quit\n" + SPACES, b""),
], ids=["more", "quit", "no quit", "space"])  # fmt: skip
def test_what_follows_the_last_line(romtool, built, command, used, left):
    """Leaves what is behind `quit` in a file of lines, and uses all of it if it ends without `quit`."""
    put("lines", used + left)
    with open("lines", "rb") as given:
        out, err, status = romtool(command, "image", stdin=given)
        at = os.lseek(given.fileno(), 0, os.SEEK_CUR)
    assert (err, status, at, out.count(b"\n")) == (b"", 0, len(used), used.count(b"\n"))


@pytest.mark.needs("strace")
def test_lines_of_a_file_are_read_in_blocks(romtool, built):
    """Reads the lines of a file by few calls of the system."""
    put("lines", LOOKUPS)
    with open("lines", "rb") as given:
        made, done = traced.calls(romtool.path, "serve", "image", stdin=given)
    assert done.returncode == 0 and 0 < sum(it.name == "read" and "(0," in it.text for it in made) <= 8


def stream_of(given):
    """Returns what `subprocess.run` has as the standard input of these bytes."""
    reader, writer = os.pipe()
    os.write(writer, given)
    os.close(writer)
    return {"stdin": os.fdopen(reader)}


@pytest.mark.needs("strace")
@pytest.mark.parametrize("words", ["build romfs m out", "check image", "serve image", "scan .", "fly"])
def test_interrupted_calls(romtool, built, words):
    """Makes each call again that a signal cuts short: the answers are the same."""
    words, lines = words.split(), b"open /a\nread 0 9\nlend 0 9\nquit\n"
    made, whole = traced.calls(romtool.path, *words, **stream_of(lines))
    for name in "read", "pread64", "write", "fsync":
        for call in [it for it in made if it.name == name][:12]:
            assert failed(romtool, words, name, "error=EINTR", call.number, **stream_of(lines)) == answer(whole), call.text
    assert held_at("out") == (built if "out" in words else None)


@pytest.mark.needs("strace")
@pytest.mark.parametrize("words", [
    "check image", "check bad", "list bad", "serve bad", "space bad", "fly", "check long", "scan long", "build romfs m out",
    "build romfs misfit out", "build romfs faulty out", "build romfs long out", "build romfs m no/out",
])  # fmt: skip
def test_line_is_one_write(romtool, built, words):
    """Writes each line of a refusal or of an ending at once."""
    for name, held in ("bad", b"-rom1fs-" + bytes(100)), ("misfit", b"file /a 0600 0 0 4 a\n"), ("faulty", b"dir\n"):
        put(name, held)
    made, done = traced.calls(romtool.path, *words.replace("long", "\u00e9" * 1000).split(), stdin=subprocess.DEVNULL)
    written = [it for it in made if it.name == "write" and it.text.startswith(("write(1,", "write(2,"))]
    assert (len(written), len(done.stdout.splitlines() + done.stderr.splitlines())) == (1, 1)


def test_first_word_is_no_text(romtool):
    """Accepts a name of the program itself that is not UTF-8."""
    for words, told in (BUILD, OK), (["check", "out"], (b"ok romfs 3 1\n", b"", 0)), (["check", b"\xff"], (b"", b"usage\n", 2)):
        assert answer(run(b"\xff\xfe", *words, executable=romtool.path)) == told


@pytest.mark.parametrize("ends", ["".join(it) for it in itertools.product(("", "0<&- "), ("", "1>&- "), ("", "2>&-"))])
@pytest.mark.parametrize("manifest", ["m", "n"])
def test_closed_streams(romtool, built, manifest, ends):
    """Takes none of the files that are opened later for a standard stream that is closed."""
    lay_old(b"as it was")
    put("n", LATE)
    is_refused = manifest == "n" or "1>" in ends
    assert in_shell(romtool, ends, "build", "romfs", manifest, "out")[2] == (3 if is_refused else 0)
    assert (bytes_in("out"), parts()) == (built if manifest == "m" else b"as it was", [])
    assert (bytes_in("m"), bytes_in("a")) == (HELLO, b"hello")


@pytest.mark.parametrize("ends", ["2>&-", "1>&- 2>&-", "0<&- 1>&- 2>&-"])
def test_closed_streams_and_a_pipe(romtool, ends):
    """Puts nothing of what standard error says into OUT, if OUT is written directly."""
    put("n", LATE)
    os.mkfifo("pipe")
    reader = os.open("pipe", os.O_RDONLY | os.O_NONBLOCK)
    status = in_shell(romtool, ends, "build", "romfs", "n", "pipe")[2]
    got = os.read(reader, 65536)
    os.close(reader)
    assert status == 3 and b"file" not in got and b"changed" not in got


def test_closed_input_of_a_server(romtool, built):
    """Reads nothing in the place of an input that is closed."""
    assert in_shell(romtool, "0<&-", "serve", "image") == (b"", b"read fault\n", 3)


@pytest.mark.needs("strace")
def test_entries_of_a_scan(romtool):
    """Names an entry that vanished, or that cannot be looked at, and not its directory; so a directory at the end."""
    os.makedirs("in/d")
    for name in "in/a", "in/d/b":
        put(name, b"")
    made, _ = traced.calls(romtool.path, "scan", "in")
    looked = [it for it in made if it.name == "statx" and '"in/' in it.text]
    assert len(looked) == 4  # three entries, and the directory once more
    for call in looked:
        for error in "ENOENT", "EACCES":
            assert failed(romtool, ["scan", "in"], "statx", "error=" + error, call.number) == fault(call.text.split('"')[1])


# each call failed


@pytest.mark.needs("strace")
@pytest.mark.parametrize("format", FORMATS)
@pytest.mark.parametrize("old", [None, b"old"], ids=["new", "old"])
@pytest.mark.parametrize("what", FAULTS)
def test_each_call_failed(romtool, what, old, format):
    """Leaves OUT wholly old or wholly new, and no part, whichever call of a build fails."""
    lay("dir /d 0755 0 0\nfile /d/a 0644 0 0 4 a\nfile /b 0644 0 0 4 b\n", b=bytes(9000))
    image, words = wanted(romtool, format), ["build", format, "m", "out"]
    lay_old(old)
    calls = [it for it in traced.calls(romtool.path, *words)[0] if it.name in FAILED]
    assert {it.name for it in calls} >= {"openat", "read", "pread64", "write", "fsync", "rename", "close"}
    for call in calls:
        lay_old(old)
        status, now = failed(romtool, words, call.name, what, call.number)[2], held_at("out")
        assert now in (None, b"old", image), call.text
        assert what == "signal=KILL" or status in (0, 3) and (status or now == image) and parts() == [], call.text
