"""Mounts images by mount/romtool-mount.c, and compares what the kernel shows of them with the program.

The mount is compiled over the library for C (see c.py) by the command of docs/C.md, and once more without warnings.
    cases      each image of the cases: kinds, modes, owners, sizes, numbers, links and devices as `list` has them, and the bytes of
               files as `cat` prints them; the others are refused with the fault that `check` prints
    built      a directory of every kind of file in each format: `list` and `cat` as above, and tar, diff and rsync against the
               directory
    reads      ranges at odd offsets and beyond the end, by the cache of the kernel and without it; of files in pieces, too
    many       directories of 5,000 and 50,000 files and links, of which the greater may not take thirty times as long;
               listing that continues at each position in any order
    unsorted   a list whose names are in no order
    hostile    random bytes, and images with bytes that changed, whose sums are correct again
    truncated  images that are too short before or while they are mounted
    words      wrong words, images and directories; options, also of owners; users; ends by signals
"""

import contextlib
import ctypes
import errno
import functools
import os
import pty
import random
import re
import signal
import stat
import struct
import subprocess
import tempfile
import time
import zlib

import c
import formats
import fuse
import pytest
from files import bytes_in, put, repository_text, wait_until
from harness import SECONDS, TOP, end_by_signals
from images import PLAIN, romfs_list, with_sums
from romtool import FORMATS, entries_of, pieces_of, raw, run
from users import IS_ROOT, NOBODY, become_nobody

pytestmark = pytest.mark.needs("cc", "fuse")
needs = pytest.mark.needs
each_form = pytest.mark.parametrize("form", FORMATS)
SOURCE = "mount/romtool-mount.c"
SHORT = "the file is shorter than a superblock, which has 32 bytes in romfs and 76 in cramfs"
MOST_MAJOR = 0xFFF  # FUSE passes no greater major number of a device
FIELDS = r"%i %y %m %U %G %s %n\0%P\0%l\0"
SMALL = b"""dir / 0755 0 0
file /a 0644 0 0 4 a
dir /d 0755 0 0
slink /d/link 0777 0 0 ../a
nod /d/null 0600 0 0 c 1 3
pipe /d/pipe 0644 0 0
file /d/long 0755 0 0 4 long
"""


class Mounter:
    """The compiled mount, and where it mounts."""

    def __init__(self, romtool, program, top):
        self.romtool, self.program, self.top = romtool, program, top
        self.folder = os.path.join(top, "mount")
        os.mkdir(self.folder)

    @contextlib.contextmanager
    def mounted(self, image, *options, program=None):
        """Yields the running process that shows an image in `folder`. At the end it is unmounted."""
        words = [program or self.program, image, self.folder, "-f", *options]
        server = subprocess.Popen(words, stderr=subprocess.DEVNULL, preexec_fn=end_by_signals)
        wait_until(lambda: os.path.ismount(self.folder) or server.poll() is not None)
        try:
            assert os.path.ismount(self.folder), f"{image} is not mounted"
            yield server
        finally:
            fuse.unmount(self.folder)
            try:
                server.wait(SECONDS)
            except subprocess.TimeoutExpired:
                server.kill()
                server.wait()
                pytest.fail(f"{image} is not mounted any more, and served")

    def path(self, escaped):
        """Returns the path of an escaped path of the image."""
        return os.fsencode(self.folder) + raw(escaped)

    def refused(self, image):
        """Returns the status with which an image is refused, and what is printed."""
        done = run(self.program, image, self.folder)
        fuse.unmount(self.folder)
        return done.returncode, done.stdout

    def entries(self, image):
        """Returns the lines of `list`."""
        return entries_of(self.romtool("list", image)[0])

    def build(self, form, manifest, image):
        """Builds an image in the directory of the tests, and returns its path."""
        assert self.romtool("build", form, manifest, image, cwd=self.top)[1:] == (b"", 0)
        return os.path.join(self.top, image)


def compiled(archive, top, counts, *more):
    """Returns the mount, compiled by the command of docs/C.md with further words."""
    line = re.search(r"^    \$ (cc .*%s.*)$" % re.escape(SOURCE), repository_text("docs/C.md"), re.M)[1]
    made = os.path.join(top, "romtool-mount" + "".join(it for it in more if it.startswith("-D")))
    line = line.replace("crates/rom_c/out/librom_c.a", archive).replace("-o romtool-mount", " ".join(["-o", made, *more]))
    c.compiled(["sh", "-c", "cd '%s' && %s" % (TOP, line)], counts)
    return made


@pytest.fixture(scope="session")
def mounter(romtool, archive, counts):
    """The mount, and a directory for images."""
    with tempfile.TemporaryDirectory(prefix="romtool-") as top:
        os.chmod(top, 0o755)
        yield Mounter(romtool, compiled(archive, top, counts, *c.STRICT), top)


@pytest.fixture(scope="session")
def of_few(mounter, archive, counts):
    """The mount for files of at most two pieces."""
    return compiled(archive, mounter.top, counts, "-std=c11", "-DPIECES=2")


def error_of(call, *words):
    """Returns the number of the error of a call, or 0."""
    try:
        call(*words)
    except OSError as error:
        return error.errno
    return 0


# what an image shows


def shown(folder):
    """Returns what `find` shows of a directory by paths, and the lines of its standard error."""
    done = run("find", folder, "-printf", FIELDS)
    parts = done.stdout.split(b"\0")
    found = {path: (numbers.decode(), text) for numbers, path, text in zip(parts[::3], parts[1::3], parts[2::3])}
    return found, done.stderr.decode(errors="replace").splitlines()


def expected(entries):
    """Returns what `find` has to show of the lines of `list`."""
    links, numbers = {}, {it.path: it.number for it in entries}
    for it in entries:
        links[it.number] = links.get(it.number, 0) + (2 if it.kind == "d" else 1)
        if it.kind == "d" and it.path != "/":
            links[numbers[os.path.dirname(it.path)]] += 1
    found = {}
    for it in entries:
        told = (it.number, it.kind, it.mode, it.user, it.group, it.size, links[it.number])
        found[raw(it.path[1:])] = ("%d %s %o %d %d %d %d" % told, raw(it.text))
    return found


def device(mounter, entry):
    """Returns the number of a device that is shown, or of the error."""
    try:
        return os.lstat(mounter.path(entry.path)).st_rdev
    except OSError as error:
        return error.errno


def contents(mounter, image, entries):
    """Returns the files whose bytes are not those that `cat` prints, or those in `map` if the path is no word of a command line."""
    held, mapped, wrong = bytes_in(image), {}, []
    for piece in pieces_of(mounter.romtool("map", image)[0]):
        if piece.length:
            mapped.setdefault(piece.path, []).append((int(piece.address, 16), piece.length))
    for it in [one for one in entries if one.kind == "f" and len(one.path) < 4000]:
        wanted = b"".join(held[start : start + length] for start, length in mapped.get(it.path, ()))
        if raw(it.path).isascii():
            wanted, _, status = mounter.romtool("cat", image, raw(it.path))
            assert status == 0
        if bytes_in(mounter.path(it.path)) != wanted:
            wrong.append(it.path)
    return wrong


def cannot_be_shown(entry):
    """Returns whether FUSE cannot pass on a device's number or a link's text, so that there is an error."""
    return entry.major > MOST_MAJOR or "%00" in entry.text


def is_closed(entry):
    """Returns whether an ordinary user, who is not the owner, may not read this file or directory."""
    bits = {"d": 5, "f": 4}.get(entry.kind, 0)
    return not IS_ROOT and entry.mode & bits != bits


def same_as_list(mounter, image):
    """Compares a mounted image with what the program says of it. An ordinary user compares only what may be read."""
    entries = mounter.entries(image)
    hidden = {raw(it.path[1:]) for it in entries if cannot_be_shown(it)}
    is_partial = any(map(is_closed, entries))
    found, errors = shown(mounter.folder)
    wanted = expected(entries)
    differ = [it for it in {*found, *(() if is_partial else wanted)} - hidden if found.get(it) != wanted.get(it)]
    assert [(path, found.get(path), wanted.get(path)) for path in differ] == []
    allowed = {"Input/output error": bool(hidden), "Permission denied": is_partial}
    assert [it for it in errors if not allowed.get(it.rsplit(": ", 1)[-1])] == []
    if is_partial:
        return
    numbers = {it: os.makedev(it.major, it.minor) if it.major <= MOST_MAJOR else errno.EIO for it in entries if it.kind in "bc"}
    assert {it: device(mounter, it) for it in numbers} == numbers
    for it in (one for one in entries if "%00" in one.text):
        assert error_of(os.readlink, mounter.path(it.path)) == errno.EIO
    assert contents(mounter, image, entries) == []


def judge(mounter, image):
    """Mounts an image that the program accepts, and compares it; one that it refuses has to be refused with the same line."""
    out, _, status = mounter.romtool("check", image)
    if status:
        assert mounter.refused(image) == (status, out)
        return
    with mounter.mounted(image):
        same_as_list(mounter, image)


@pytest.mark.parametrize("held", [pytest.param(held, id=place) for place, held in c.named_images().items()])
def test_cases(mounter, room, held):
    """Mounts the images of the cases."""
    put(room / "image", held)
    judge(mounter, room / "image")


def test_accepted(romtool, room):
    """Accepts at least 50 of them."""
    assert sum(romtool("check", room / it)[2] == 0 for it in c.images_of_cases(room)) > 50


# a directory


def make_tree(top):
    """Makes a directory of every kind of file that this user can make."""
    os.makedirs(top + "/d/e/f")
    for size in (0, 1, 4095, 4096, 4097, 100001, 3 * 2**20 + 5):
        put("%s/size%d" % (top, size), random.Random(size).randbytes(size), 0o644)
    put(top + "/d/run", b"#!/bin/sh\n", 0o755)
    for number, name in enumerate((b"a b", b"new\nline", b"%41", "ä".encode(), b"n" * 250, b"-", b"*")):
        put(os.path.join(os.fsencode(top), b"d/e", name), b"%d" % number, 0o644)
    os.link(top + "/size1", top + "/d/again")
    os.link(top + "/size1", top + "/d/e/f/third")
    for number, text in enumerate(("../size1", "/", "x" * 4000, "a b", "no/where")):
        os.symlink(text, "%s/d/link%d" % (top, number))
    for mode in (0o755, 0o644):
        os.mkdir("%s/mode%o" % (top, mode), 0o755)


def make_special(top):
    """Makes further files, of kinds about which diff says that they are of their kind: devices, a FIFO and a socket."""
    os.mkdir(top + "/special")
    os.mkfifo(top + "/special/pipe", 0o644)
    os.mknod(top + "/special/socket", stat.S_IFSOCK | 0o644)
    if IS_ROOT:
        os.mknod(top + "/special/null", stat.S_IFCHR | 0o600, os.makedev(1, 3))
        os.mknod(top + "/special/disk", stat.S_IFBLK | 0o600, os.makedev(8, 77))


def archive_of(folder, form):
    """Returns what tar makes of a directory; the formats store no times, cramfs no hard links, and romfs few modes."""
    words = ["--sort=name", "--mtime=@0", "--numeric-owner", "--format=gnu"]
    words += ["--mode=0700"] if form == "romfs" else ["--hard-dereference"]
    words += [] if IS_ROOT and form != "romfs" else ["--owner=0", "--group=0"]  # numbers that are too great for cramfs
    done = run("tar", *words, "-C", folder, "-cf", "-", ".")
    return done.returncode, done.stderr, done.stdout


@pytest.fixture(scope="session")
def tree(mounter):
    """A directory, of which the image of each format is built."""
    tree = mounter.top + "/tree"
    make_tree(tree)
    make_special(tree)
    for form in FORMATS:
        assert mounter.romtool("scan", "--all", "--for", form, "-o", form + ".manifest", tree, cwd=mounter.top)[2] == 0
        mounter.build(form, form + ".manifest", form + ".image")
    return tree


@pytest.fixture
def whole(mounter, tree, form):
    """The image of the directory in a format."""
    return f"{mounter.top}/{form}.image"


@each_form
def test_built(mounter, whole):
    """Mounts the image of a directory."""
    with mounter.mounted(whole):
        same_as_list(mounter, whole)


@each_form
def test_diff(mounter, tree, whole):
    """Compares a mounted image with its directory by diff."""
    with mounter.mounted(whole):
        done = run("diff", "-r", "--no-dereference", "--exclude=special", tree, mounter.folder)
    assert (done.returncode, done.stdout, done.stderr) == (0, b"", b"")


@each_form
def test_tar(mounter, tree, whole, form):
    """Compares a mounted image with its directory by tar."""
    with mounter.mounted(whole):
        one, other = archive_of(tree, form), archive_of(mounter.folder, form)
    assert (one[:2], len(one[2]), one[2] == other[2]) == (other[:2], len(other[2]), True)


@needs("rsync")
@each_form
def test_rsync(mounter, tree, whole, form):
    """Compares a mounted image with its directory by rsync."""
    letters = "-rlHDcni" if form == "romfs" else "-rlDcpogni" if IS_ROOT else "-rlDcpni"
    with mounter.mounted(whole):
        done = run("rsync", letters, "--delete", mounter.folder + "/", tree + "/")
    assert (done.returncode, done.stdout, done.stderr) == (0, b"", b"")


# reads


def ranges(size):
    """Yields offsets and lengths in and beyond a file of this size."""
    dice = random.Random(size)
    yield from ((0, size), (0, 1), (size - 1, 1), (size - 1, 9), (size, 9), (size + 1, 9), (size + 99999, 9), (1, size), (4095, 2))
    yield from ((dice.randrange(size), dice.randrange(1, 2 * size)) for _ in range(40))


def read_ranges(mounter, content):
    """Reads ranges of the large file by the cache of the kernel, and then each as a request of its own."""
    for flags in (os.O_RDONLY, os.O_RDONLY | os.O_DIRECT):
        file = os.open(f"{mounter.folder}/{LARGE}", flags)
        wrong = [(at, size) for at, size in ranges(len(content)) if os.pread(file, size, at) != content[at : at + size]]
        os.close(file)
        assert wrong == []


LARGE = "size3145733"


def turned(mounter, image, form):
    """Returns a cramfs image in which the whole blocks of the large file are in the other order, as no build leaves them."""
    number = next(it.number for it in mounter.entries(image) if it.path == "/" + LARGE)
    held, order = bytes_in(image), ">" if form == "cramfs-be" else "<"
    size_word, word = struct.unpack_from(order + "2I", held, number + 4)
    size, table = (size_word >> 8, word & 0x3FFFFFF) if order == ">" else (size_word & 0xFFFFFF, word >> 6)
    count = size // 4096
    pointers = struct.unpack_from("%s%dI" % (order, count), held, table * 4)
    held = held[: table * 4] + struct.pack("%s%dI" % (order, count), *pointers[::-1]) + held[table * 4 + 4 * count :]
    assert pointers[0] & PLAIN == PLAIN and count > 2
    return with_any_crc(held, order)


def with_any_crc(image, order):
    """Returns the cramfs image in this byte order with its CRC-32 corrected."""
    size = struct.unpack_from(order + "I", image, 4)[0]
    crc = zlib.crc32(image[:32] + bytes(4) + image[36:size])
    return image[:32] + struct.pack(order + "I", crc) + image[36:]


@each_form
def test_reads(mounter, tree, whole):
    """Reads ranges of a file that is in one run."""
    with mounter.mounted(whole):
        read_ranges(mounter, bytes_in(f"{tree}/{LARGE}"))


@pytest.mark.parametrize("pieces", ["few", "many"])
@pytest.mark.parametrize("form", FORMATS[1:])
def test_reads_in_pieces(mounter, of_few, tree, whole, form, pieces):
    """Reads ranges of a file whose blocks are in the other order: with and without a copy."""
    content = bytes_in(f"{tree}/{LARGE}")
    end = len(content) // 4096 * 4096
    put(whole + ".turned", turned(mounter, whole, form))
    with mounter.mounted(whole + ".turned", program=of_few if pieces == "few" else None):
        read_ranges(mounter, b"".join(content[at : at + 4096] for at in reversed(range(0, end, 4096))) + content[end:])


# large directories


class Dirent(ctypes.Structure):
    """The struct dirent of Linux with 64 bits."""

    _fields_ = [("number", ctypes.c_uint64), ("offset", ctypes.c_int64), ("length", ctypes.c_uint16), ("kind", ctypes.c_uint8),
                ("name", ctypes.c_char * 256)]  # fmt: skip


def of_the_c_library():
    """Returns the C library, with the types of the calls on directories."""
    library = ctypes.CDLL(None)
    library.opendir.restype, library.readdir.restype = ctypes.c_void_p, ctypes.POINTER(Dirent)
    library.telldir.restype = ctypes.c_long
    for name in ("readdir", "telldir", "closedir"):
        getattr(library, name).argtypes = [ctypes.c_void_p]
    library.seekdir.argtypes = [ctypes.c_void_p, ctypes.c_long]
    return library


def continued(mounter, image):
    """Continues a listing at each position: those of a first mount are gone to in any order in a second one."""
    library, found = of_the_c_library(), []
    folder = os.fsencode(mounter.folder + "/files")
    with mounter.mounted(image):
        listed = library.opendir(folder)
        at = library.telldir(listed)
        while entry := library.readdir(listed):
            found.append((at, entry.contents.name, entry.contents.number))
            at = library.telldir(listed)
        library.closedir(listed)
        dots = {name: number for _, name, number in found if name in (b".", b"..")}
        assert dots == {b".": os.lstat(folder).st_ino, b"..": os.lstat(mounter.folder).st_ino}
    names = sorted(it[1] for it in found)
    assert (len(names), len(set(names)), names[:2]) == (5002, 5002, [b".", b".."])
    wrong = []
    with mounter.mounted(image):
        listed = library.opendir(folder)
        for at, name, number in random.Random(1).sample(found, len(found)):
            library.seekdir(listed, at)
            entry = library.readdir(listed)
            if not entry or (entry.contents.name, entry.contents.number) != (name, number):
                wrong.append((at, name))
        library.closedir(listed)
    assert wrong == []


def spent(server):
    """Returns the seconds of a processor that a process has used."""
    fields = bytes_in("/proc/%d/stat" % server.pid).rsplit(b")", 1)[1].split()
    return (int(fields[11]) + int(fields[12])) / os.sysconf("SC_CLK_TCK")


def walked(mounter, image, count):
    """Returns the seconds of the clock and of the server's processor for a walk that reads each file and link."""
    begun, folder, wrong = time.monotonic(), mounter.folder, []
    with mounter.mounted(image, "-s") as server:
        found, errors = shown(folder)
        for at in range(count):
            if os.readlink("%s/links/n%06d" % (folder, at)) != "to%d" % at or bytes_in("%s/files/n%06d" % (folder, at)) != b"a":
                wrong.append(at)
        used = spent(server)
    assert (len(found), errors, wrong) == (2 * count + 3, [], [])
    return time.monotonic() - begun, used


def of_many(mounter, form, count):
    """Builds an image of so many files and links, and returns its path."""
    lines = ["dir / 0755 0 0", "dir /files 0755 0 0", "dir /links 0755 0 0"]
    lines += ["file /files/n%06d 0644 0 0 4 a" % it for it in range(count)]
    lines += ["slink /links/n%06d 0777 0 0 to%d" % (it, it) for it in range(count)]
    put(mounter.top + "/many", "\n".join([*lines, ""]).encode())
    put(mounter.top + "/a", b"a")
    return mounter.build(form, "many", "many.image")


@each_form
def test_many(mounter, form):
    """Lists ten times as many names in about ten times as long."""
    (clock, used), (more_clock, more_used) = (walked(mounter, of_many(mounter, form, count), count) for count in (5000, 50000))
    said = "%s: 5,000 names in %.1f s (%.2f s of the server), 50,000 in %.1f s (%.2f s)" % (form, clock, used, more_clock, more_used)
    print(said)
    assert more_clock < 30 * clock and more_used < 30 * max(used, 0.02), said


@each_form
def test_continued(mounter, form):
    """Continues a listing at each position."""
    continued(mounter, of_many(mounter, form, 5000))


def test_unsorted(mounter):
    """Finds names that are in no order, and begin as others do, before the directory was listed, and no others."""
    names = [b"n%d" % it for it in range(1000)] + [b"\xff" * it for it in range(1, 256)] + [b"N", b"n1a", b"n1\xff", b"\x01"]
    random.Random(1).shuffle(names)
    image = mounter.top + "/unsorted"
    put(image, romfs_list(names))
    numbers = {raw(it.path[1:]): it.number for it in mounter.entries(image)}
    with mounter.mounted(image):
        folder, wrong = os.fsencode(mounter.folder), []
        for name in names:
            others = [it for it in (name[:-1], name + b"\x01", name + b"\xfe") if it and it not in numbers and len(it) < 256]
            if os.lstat(folder + b"/" + name).st_ino != numbers[name] or any(os.path.lexists(folder + b"/" + it) for it in others):
                wrong.append(name)
    assert (len(numbers), wrong) == (len(names) + 1, [])
    judge(mounter, image)


# wrong images


@pytest.mark.parametrize("number", range(10))
def test_random(mounter, room, number):
    """Refuses random bytes."""
    front = (b"", b"-rom1fs-", b"\x45\x3d\xcd\x28")[number % 3]
    put(room / "image", front + random.Random(number).randbytes(200 * number))
    judge(mounter, room / "image")


def changed(image, form, dice):
    """Returns an image in which one to three bytes are others, most of them of metadata, and the sums are correct."""
    held = bytearray(image)
    for _ in range(dice.randrange(1, 4)):
        held[dice.randrange(8, min(len(held), dice.choice((100, 300, 600, len(held)))))] = dice.choice((0, 1, 255, dice.randrange(256)))
    if form == "romfs":
        return with_sums(bytes(held), [it[0] for it in formats.romfs(image) if it[2] == "header"])
    return with_any_crc(bytes(held), "<" if form == "cramfs" else ">")


@pytest.fixture(scope="session")
def changed_images(mounter):
    """Returns 100 changes of a small image in a format."""

    @functools.cache
    def made(form):
        put(mounter.top + "/small", SMALL)
        put(mounter.top + "/a", b"a")
        put(mounter.top + "/long", bytes(range(256)) * 40)
        held, dice, found = bytes_in(mounter.build(form, "small", "small.image")), random.Random(form), []
        while len(found) < 100:
            with contextlib.suppress(struct.error):  # no sum can be made of the size that is there now
                found.append(changed(held, form, dice))
        return found

    return made


@pytest.mark.parametrize("number", range(100))
@each_form
def test_changed(mounter, changed_images, room, form, number):
    """Mounts or refuses an image of which bytes changed."""
    put(room / "image", changed_images(form)[number])
    judge(mounter, room / "image")


def test_changes(romtool, changed_images, room):
    """Accepts and refuses at least 30 of them."""
    accepted = 0
    for held in (it for form in FORMATS for it in changed_images(form)):
        put(room / "image", held)
        accepted += romtool("check", room / "image")[2] == 0
    print("hostile: %d of 300 changed images are accepted" % accepted)
    assert 30 < accepted < 270


@each_form
def test_short(mounter, whole, room):
    """Refuses an image that is too short before it is mounted."""
    put(room / "short", bytes_in(whole)[:-1])
    judge(mounter, room / "short")


@each_form
def test_truncated(mounter, whole, room):
    """Has errors in an image that becomes too short while it is mounted."""
    short, folder = room / "short", mounter.folder
    put(short, bytes_in(whole))
    with mounter.mounted(short) as server:
        for path in ("/d", "/d/link0", "/size4097"):
            os.lstat(folder + path)
        os.truncate(short, 0)
        calls = ((os.readlink, "/d/link0"), (bytes_in, "/size4097"), (os.listdir, "/d"), (os.lstat, "/d/run"), (os.listdir, "/"))
        assert [error_of(call, folder + path) for call, path in calls] == [errno.EIO] * len(calls)
        assert os.lstat(folder + "/size4097").st_size == 4097
        fuse.unmount(folder)
        assert server.wait(SECONDS) == 0


@each_form
def test_truncated_file(mounter, whole, room):
    """Reads the beginning of a file whose rest is gone, and an error of the rest."""
    short, held = room / "short", bytes_in(whole)
    put(short, held)
    piece = next(it for it in pieces_of(mounter.romtool("map", short)[0]) if it.path == "/" + LARGE)
    with mounter.mounted(short) as server:
        path = f"{mounter.folder}/{LARGE}"
        assert os.lstat(path).st_size == 3145733
        os.truncate(short, (int(piece.address, 16) + 2**20) // 4096 * 4096)
        file = os.open(path, os.O_RDONLY | os.O_DIRECT)
        told = (os.pread(file, 9999, 0) == held[int(piece.address, 16) :][:9999], error_of(os.pread, file, 9999, 2**21))
        os.close(file)
        assert (*told, server.poll()) == (True, errno.EIO, None)


# the command line


@pytest.mark.parametrize(("words", "status", "said"), [
    pytest.param("", 2, "usage", id="none"), pytest.param("IMAGE", 2, "usage", id="one"),
    pytest.param("IMAGE MOUNT more", 2, "usage", id="three"), pytest.param("-q IMAGE MOUNT", 2, "usage", id="option"),
    pytest.param("IMAGE MOUNT -o nothing", 2, "usage", id="option of mount"),
    pytest.param("TOP/none MOUNT", 3, "No such file or directory", id="no image"),
    pytest.param("TOP MOUNT", 3, "Is a directory", id="directory"),
    pytest.param("IMAGE TOP/none", 3, "No such file or directory", id="no directory"),
    pytest.param("IMAGE IMAGE", 3, "Not a directory", id="file"),
    pytest.param("TOP/tree/special/pipe MOUNT", 3, "Illegal seek", id="pipe"),
])  # fmt: skip
def test_words(mounter, tree, words, status, said):
    """Refuses wrong words, images that cannot be read, and directories on which nothing can be mounted."""
    names = {"IMAGE": mounter.top + "/romfs.image", "MOUNT": mounter.folder, "TOP": mounter.top}
    done = run(mounter.program, *(re.sub("[A-Z]+", lambda it: names[it[0]], word) for word in words.split()))
    assert (done.returncode, said in done.stderr.decode(), done.stdout) == (status, True, b""), done.stderr
    assert not os.path.ismount(mounter.folder)


@pytest.mark.parametrize("word", ["-h", "-V"])
def test_help(mounter, word):
    """Says its words, and its version."""
    done = run(mounter.program, word)
    assert (done.returncode, bool(done.stdout), done.stderr) == (0, True, b"")


def test_secret(mounter, tree):
    """Refuses an image that may not be read."""
    put(mounter.top + "/secret", bytes_in(mounter.top + "/romfs.image"), 0)
    done = run(mounter.program, mounter.top + "/secret", mounter.folder, preexec_fn=become_nobody if IS_ROOT else None)
    assert done.returncode == 3 and b"Permission denied" in done.stderr


def said_at(leader):
    """Returns all that a program which has ended printed at a terminal."""
    told = b""
    with os.fdopen(leader, "rb", buffering=0) as terminal, contextlib.suppress(OSError):
        while piece := terminal.read(4096):
            told += piece
    return told


@pytest.mark.parametrize(("name", "told", "out"), [
    ("short", "Short (2) at 0: " + SHORT, b"fault 2 Short at 0\n"),
    ("none\x1b[31m", "No such file or directory", b""),
], ids=["fault", "name"])  # fmt: skip
def test_terminal(mounter, room, name, told, out):
    """Explains a fault at a terminal as in docs/FAULTS.md, and prints no byte of a name that is a command for the terminal."""
    put(room / "short", b"hello")
    leader, follower = pty.openpty()
    with subprocess.Popen([mounter.program, room / name, mounter.folder], stdout=subprocess.PIPE, stderr=follower) as running:
        os.close(follower)
        printed = running.communicate(timeout=SECONDS)[0]
    path = str(room / name).replace("\x1b", "%1B")
    assert (said_at(leader), printed) == (f"romtool-mount: {path}: {told}\r\n".encode(), out)


@pytest.mark.parametrize("words", ["", "-o rw", "-s", "-d", "-o fsname=some,max_read=8192"], ids=["none", "rw", "-s", "-d", "name"])
def test_options(mounter, tree, words):
    """Mounts read-only, says so, has nothing free, and serves as the words say."""
    image, folder = mounter.top + "/cramfs.image", mounter.folder
    with mounter.mounted(image, *words.split()):
        line = next(it for it in bytes_in("/proc/self/mounts").decode().splitlines() if it.split()[1] == folder).split()
        assert {"ro", "nosuid", "nodev", "default_permissions"} - set(line[3].split(",")) == set()
        name = "some" if "fsname=some" in words else os.path.realpath(image)
        assert (line[0], line[2].split(".")[0]) == (name, "fuse")
        writing = ((os.mkdir, "/x"), (os.remove, "/size1"), (lambda path: os.open(path, os.O_RDWR), "/size1"))
        assert [error_of(call, folder + path) for call, path in writing] == [errno.EROFS] * 3
        assert [error_of(os.lstat, folder + it) for it in ("/none", "/d/none")] == [errno.ENOENT] * 2
        told = os.statvfs(folder)
        numbers = {it.number for it in mounter.entries(image)}
        assert (told.f_files, told.f_bfree, told.f_ffree, told.f_namemax) == (len(numbers), 0, 0, 255)
        assert told.f_blocks * told.f_frsize == os.path.getsize(image)
        assert bytes_in(folder + "/size100001") == bytes_in(tree + "/size100001")


@pytest.fixture(scope="session")
def owned(mounter):
    """An image of files with owners."""
    put(mounter.top + "/owners", b"dir / 0755 1 2\nfile /a 4711 3 4 4 a\ndir /d 0700 5 6\nfile /d/b 0640 7 8 4 a\nslink /d/l 0777 9 1 b\n")
    put(mounter.top + "/a", b"a")
    return mounter.build("cramfs", "owners", "owners.image")


@pytest.mark.parametrize(("words", "mode", "user", "group"), [
    ("uid=1000", None, 1000, None), ("gid=0", None, None, 0), ("umask=022", 0o755, None, None), ("umask=0", 0o777, None, None),
    ("uid=4294967294,gid=17,umask=0377", 0o400, 2**32 - 2, 17), ("umask=777,ro,max_read=8192,uid=0", 0, 0, None),
], ids=["uid", "gid", "umask", "no umask", "all", "others"])  # fmt: skip
def test_owners(mounter, owned, words, mode, user, group):
    """Replaces by uid= and gid= owners, and by umask= the permissions by those that it lacks, as mount.fuse3(8) says. All else stays."""
    with mounter.mounted(owned, "-o", words):
        for it in mounter.entries(owned):
            if not IS_ROOT and error_of(os.lstat, mounter.folder + it.path) == errno.EACCES:
                continue  # this user may not search the directory
            told, own = os.lstat(mounter.folder + it.path), (it.mode, it.user, it.group)
            wanted = [it if other is None else other for it, other in zip(own, (mode, user, group))]
            assert [stat.S_IMODE(told.st_mode), told.st_uid, told.st_gid] == wanted, it.path
            if stat.S_ISREG(told.st_mode) and IS_ROOT:
                assert bytes_in(mounter.folder + it.path) == b"a"


@pytest.mark.parametrize("words", [
    "uid=", "uid=x", "uid=-1", "uid=4294967295", "gid=1x", "gid=18446744073709551616", "umask=8", "umask=1000", "umask=+7",
])  # fmt: skip
def test_wrong_owners(mounter, owned, words):
    """Refuses owners that are no numbers."""
    done = run(mounter.program, owned, mounter.folder, "-o", words)
    assert (done.returncode, words in done.stderr.decode(), os.path.ismount(mounter.folder)) == (2, True, False)


@needs("root")
@pytest.mark.parametrize(("words", "wanted"), [
    ("", [1, 1, 1]), ("-o allow_other", [0, 1, 0]), ("-o allow_other,uid=%d" % NOBODY, [0, 0, 0]), ("-o allow_other,umask=022", [0, 0, 0]),
], ids=["own", "others", "owner", "umask"])  # fmt: skip
def test_users(mounter, words, wanted):
    """Shows the mount to another user only with allow_other, and then as modes and owners say, also those of the words."""
    put(mounter.top + "/modes", b"dir / 0755 0 0\nfile /all 0644 0 0 4 a\nfile /root 0600 0 0 4 a\nfile /mine 0400 65534 0 4 a\n")
    put(mounter.top + "/a", b"a")
    with mounter.mounted(mounter.build("cramfs", "modes", "modes.image"), *words.split()):
        got = [run("cat", mounter.folder + it, preexec_fn=become_nobody).returncode for it in ("/all", "/root", "/mine")]
    assert got == wanted


def running(program):
    """Returns whether a process runs this program."""
    found = (os.path.join("/proc", it, "exe") for it in os.listdir("/proc") if it.isdigit())
    return any(not error_of(os.readlink, it) and os.readlink(it) == program for it in found)


@pytest.mark.parametrize("number", [signal.SIGHUP, signal.SIGINT, signal.SIGTERM], ids=["SIGHUP", "SIGINT", "SIGTERM"])
def test_signals(mounter, tree, number):
    """Ends by a signal."""
    with mounter.mounted(mounter.top + "/romfs.image") as server:
        os.listdir(mounter.folder)
        server.send_signal(number)
        assert (server.wait(SECONDS), os.path.ismount(mounter.folder)) == (0, False)


def test_fusermount(mounter, tree):
    """Ends by fusermount3."""
    with mounter.mounted(mounter.top + "/romfs.image") as server:
        assert run("fusermount3", "-u", mounter.folder).returncode == 0
        assert server.wait(SECONDS) == 0


def test_background(mounter, tree):
    """Serves in the background, and ends by fusermount3."""
    done = subprocess.run([mounter.program, mounter.top + "/romfs.image", mounter.folder], timeout=SECONDS)
    assert (done.returncode, os.path.ismount(mounter.folder)) == (0, True)
    assert bytes_in(mounter.folder + "/size4097") == bytes_in(tree + "/size4097")
    assert run("fusermount3", "-u", mounter.folder).returncode == 0
    assert wait_until(lambda: not running(mounter.program), seconds=20)
