"""Extracts images, compares what was made with their lists, and builds them again.

The printed manifest has to be the one that the image's list says. The directory has to have exactly its directories, files and links, with
their modes. The image that is built of the two has to have the same list, except for offsets and numbers. If each alignment is 4 and
nothing is shared, it has to have the same bytes. Of an image with names that no file can have here, nothing is made.

Then the edge is tested: existing directories, those of other users, links that lead elsewhere, modes that refuse, names that are too
long, owners, a full disk, and each call of the system and each allocation failed.
"""

import contextlib
import itertools
import os
import re
import signal
import stat
import subprocess
import sys
from pathlib import Path

import fuse
import images as layouts
import manifests
import pytest
import traced
from conftest import Image
from edges import USAGE, build, failed, fault
from files import bytes_in, put, remove
from formats import volume_of
from harness import HERE, SECONDS, end_by_signals
from romtool import KINDS, WORDS, answer, entries_of, escaped, raw
from users import IS_ROOT, NOBODY, become_nobody

LENDING = 0o6000
FAULTS = ("error=EIO", "error=ENOSPC", "error=ENOMEM", "error=EACCES", "signal=KILL")
FAILED = (
    "openat", "mkdir", "chdir", "write", "fchmod", "symlink", "link", "statx", "getdents64", "fcntl", "close", "fsync", "unlink",
)  # fmt: skip
SMALL = (
    "dir / 0750 0 0", "dir /d 0711 0 0", "file /d/a 0600 0 0 4 a", "slink /d/l 0777 0 0 a", "file /b 0640 0 0 4 b", "pipe /p 0600 0 0",
    "dir /d/e 0555 0 0", "file /d/e/f 0444 0 0 4 a",
)  # fmt: skip


@pytest.fixture(autouse=True)
def bare(here):
    """Removes the mask, so that what is made has the modes of the image."""
    mask = os.umask(0)
    yield
    os.umask(mask)


@pytest.fixture
def small(romtool):
    """An image with a few names of each kind."""
    return build(romtool, SMALL, "cramfs", a=b"hello\n", b=bytes(9000))


# what is made, and the image that is built of it


def manifest_of(image, folder="out"):
    """Returns the manifest of an image whose files are in a directory."""
    volume, firsts, out = volume_of(image.data), {}, ""
    if volume:
        out += f"volume {escaped(volume)}\n"
    for it in image.entries:
        if it.kind != "d" and firsts.setdefault(it.number, it) is not it:
            out += f"hard {it.path} {firsts[it.number].path}\n"
            continue
        out += f"{WORDS[it.kind]} {it.path} {it.mode:04o} {it.user} {it.group}"
        if it.kind == "f":
            out += f" 4 {folder}{it.path}"
        elif it.kind == "l":
            out += f" {it.text}"
        elif it.kind in "bc":
            out += f" {it.kind} {it.major} {it.minor}"
        out += "\n"
    return out.encode()


def is_text(some):
    """Returns whether bytes are UTF-8."""
    try:
        return bool(some.decode("utf-8") or True)
    except UnicodeDecodeError:
        return False


def has_place(it, folder="out"):
    """Returns whether a file can have a name here."""
    place, text = folder.encode() + raw(it.path), raw(it.text) if it.kind == "l" else b"x"
    fits = is_text(place) and len(place) < 4096 and max(map(len, place.split(b"/"))) < 256
    return it.kind not in "dfl" or (fits and is_text(text) and 0 < len(text) < 4096 and b"\0" not in text)


def linked(numbers):
    """Returns for each path the least one with the same number."""
    least = {}
    return {path: least.setdefault(numbers[path], path) for path in sorted(numbers)}


def made_in(top):
    """Returns the directories, files and links in a directory, with modes, bytes or texts; and for each file the least of its names."""
    found, numbers = {}, {}
    for path in [top, *(os.path.join(at, it) for at, *names in os.walk(top) for it in sum(names, []))]:
        shown = os.lstat(path)
        kind, mode = KINDS[stat.S_IFMT(shown.st_mode)], stat.S_IMODE(shown.st_mode)
        found[path[len(top) :]] = (kind, os.readlink(path)) if kind == "l" else (kind, mode, bytes_in(path) if kind == "f" else None)
        if kind == "f":
            numbers[path[len(top) :]] = shown.st_ino
    return found, linked(numbers)


def compare_folder(image, names, folder="out"):
    """Compares the files of a directory with names of an image."""
    wanted, numbers = {}, {}
    for it in names:
        path, mode = raw(it.path).rstrip(b"/"), it.mode & ~LENDING
        if it.kind == "f":
            numbers[path] = it.number
            wanted[path] = "f", mode, image.romtool("cat", image.path, raw(it.path))[0]
        elif it.kind in "dl":
            wanted[path] = ("d", mode, None) if it.kind == "d" else ("l", raw(it.text))
    assert made_in(os.fsencode(folder)) == (wanted, linked(numbers))


def compare_again(image, manifest):
    """Compares an image with the one that is built of what was extracted."""
    put("manifest", manifest)
    out, err, status = image.romtool("build", image.checked[1], "manifest", "again")
    if (err, status) == (b"", 1) and out.endswith((b" 1 Attribute\n", b"plan 0 2 TooLarge\n")):
        return  # numbers of devices that are not built; files of cramfs that share their blocks
    assert (err, status) == (b"", 0)
    again = entries_of(image.romtool("list", "again")[0])
    assert sorted(it[1:] for it in again) == sorted(it[1:] for it in image.entries)
    assert linked({it.path: it.number for it in again}) == linked({it.path: it.number for it in image.entries})


def compare_extracted(image):
    """Extracts an image, and compares what was made with its list. If a file cannot have a name here, nothing is made."""
    told = image.romtool("extract", image.path, "out")
    if unfit := next((it for it in image.entries if not has_place(it)), None):
        assert told == fault("out" + unfit.path) and not os.path.lexists("out")
        return
    assert told == (manifest_of(image), b"", 0)
    compare_folder(image, image.entries)
    compare_again(image, told[0])


@pytest.mark.images(seeds=300)
def test_extracted(image):
    """Compares what is made of an image with its list, and builds it again."""
    compare_extracted(image)


def test_faulty(romtool, faulty):
    """Reports the fault of an image on standard error, and makes nothing."""
    assert romtool("extract", faulty.path, "out") == faulty.refusal and not os.path.lexists("out")


class Plain(manifests.Made):
    """A random manifest that is built again to the same bytes: texts as names, alignments of 4, no sharing."""

    def name(self):
        length = self.chance.choice([1, 2, 3, 8, 40, 120])
        name = "".join(self.chance.choice("abcdefg%. \u00e9\n-_") for _ in range(length))
        return b"-" if name in (".", "..") else name.encode()

    def further(self, path):
        """Adds nothing."""


@pytest.mark.seeds(300)
def test_same_bytes(romtool, here, seed, monkeypatch):
    """Builds an image of a plain manifest again to the same bytes."""
    monkeypatch.setattr(manifests, "ALIGNMENTS", [4])
    made = Plain(seed)
    assert manifests.build(romtool.path, made, here).returncode == 0
    put("second", romtool("extract", "image", "out")[0])
    assert romtool("build", made.format, "second", "again")[1:] == (b"", 0)
    assert bytes_in("again") == bytes_in("image")


def some_pattern(chance, path):
    """Returns a pattern that fits a path, and a regular expression of what it fits."""
    front, back = sorted(chance.randint(0, len(path)) for _ in range(2))
    if chance.random() < 0.5:
        front = back = len(path)
    star, parts = front < back, (path[:front], path[back:])
    plain, matched = ([escape(it) for it in parts] for escape in (lambda it: re.sub(r"([*?[\\])", r"\\\1", it), re.escape))
    return ("*" if star else "").join(plain), (".*" if star else "").join(matched)


def chosen_by(rules, names):
    """Returns the names that match a regular expression, all below them, and the directories that lead to them."""
    paths = {raw(name.path).rstrip(b"/") for name in names}
    fits = {path for path in paths if is_text(path) and any(re.fullmatch(it, path[1:].decode(), re.S) for it in rules)}
    below = {path for path in paths if any(path == it or path.startswith(it + b"/") for it in fits)}
    above = {path for path in paths if any(it.startswith(path + b"/") for it in below)}
    return [name for name in names if raw(name.path).rstrip(b"/") in below | above]


@pytest.mark.images(cases=False, seeds=300)
def test_patterns(romtool, image, chance):
    """Makes the names that random patterns choose of an image."""
    texts = [text.decode() for it in image.entries if is_text(text := raw(it.path)[1:]) and b"\0" not in text]
    patterns, rules = zip(*(some_pattern(chance, chance.choice(texts)) for _ in range(chance.randint(1, 3))))
    told = romtool("extract", image.path, "out", *("/" + it for it in patterns))
    chosen = chosen_by(rules, image.entries)
    if any(all(it.kind not in "dfl" or it.path == "/" for it in chosen_by([rule], image.entries)) for rule in rules):
        assert told == USAGE and not os.path.lexists("out")
    elif unfit := next((it for it in chosen if not has_place(it)), None):
        assert told == fault("out" + unfit.path) and not os.path.lexists("out")
    else:
        assert told == (b"", b"", 0)
        compare_folder(image, chosen)


# the edge


@pytest.fixture
def crowded(small):
    """The small image, beside files and directories of many kinds."""
    os.mkdir("full")
    put("full/x", b"x")
    put("file", b"file")
    os.symlink("nothing", "dangling")
    os.symlink("full", "to_full")
    os.mkfifo("pipe")
    os.symlink("pipe", "to_pipe")


@pytest.mark.parametrize("name", ["full", "file", "dangling", "to_full", "pipe", "to_pipe", "no/folder", "/", ""])
def test_refused_places(romtool, crowded, name):
    """Refuses a DIR that is there and not an empty directory, and leaves it."""
    before = sorted(os.walk("."))
    assert romtool("extract", "image", name) == fault(name)
    assert sorted(os.walk(".")) == before and bytes_in("file") == b"file"


def test_empty_folders(romtool, small):
    """Fills an empty directory, which keeps its mode, also by a link, and refuses it when it is full."""
    os.mkdir("empty", 0o751)
    out, *told = romtool("extract", "image", "empty/")
    assert told == [b"", 0] and b"4 empty/d/a\n" in out and stat.S_IMODE(os.stat("empty").st_mode) == 0o751
    assert romtool("extract", "image", "empty") == fault("empty")
    os.mkdir("other", 0o755)
    os.symlink("other", "to_other")
    assert romtool("extract", "image", "to_other")[2] == 0 and os.path.exists("other/d/a")


def test_links_that_lead_elsewhere(romtool):
    """Makes links as they are, and nothing through one."""
    os.mkdir("aside")
    compare_extracted(build(romtool, (
        "slink /a 0777 0 0 ..", "dir /a. 0755 0 0", "file /a./x 0644 0 0 4 s", "slink /b 0777 0 0 /etc/passwd",
        "slink /c 0777 0 0 ../aside/y", "file /d 0644 0 0 4 s", "slink /z 0777 0 0 d",
    ), "cramfs", s=b"s"))  # fmt: skip
    assert [os.readlink("out/" + name) for name in "abcz"] == ["..", "/etc/passwd", "../aside/y", "d"] and not os.listdir("aside")


@pytest.mark.parametrize("words", ["", "image", "image out more", "--owner image out"])
def test_usage(romtool, small, words):
    """Refuses other words, and makes nothing."""
    assert romtool("extract", *words.split()) == USAGE and not os.path.exists("out")


def test_refused_images(romtool, small):
    """Reports the fault of an image as `check` does, on standard error, and an image that is missing."""
    data = bytearray(small.data)
    data[100] ^= 1
    put("bad", data)
    assert romtool("extract", "bad", "out") == (b"", romtool("check", "bad")[0], 1)
    assert romtool("extract", "none", "out") == fault("none") and not os.path.exists("out")


def deep_image(depth, length, count=0):
    """Returns a romfs image of directories in each other with names of so many bytes, and so many empty files in the last one."""
    size, above, here = 16 + (length + 16) // 16 * 16, 32, 96
    parts = [layouts.header(64, layouts.DIRECTORY, 32, 0, b"."), layouts.header(96, layouts.HARD_LINK, 32, 0, b"..")]
    for number in range(depth):
        first = here + size
        is_last = number + 1 == depth and not count
        parts.append(layouts.header(0, layouts.DIRECTORY, first, 0, b"n" * length))
        parts.append(layouts.header(first + 32, layouts.HARD_LINK, here, 0, b"."))
        parts.append(layouts.header(0 if is_last else first + 64, layouts.HARD_LINK, above, 0, b".."))
        above, here = here, first + 64
    for number in range(count):
        here += 32
        parts.append(layouts.header(here if number + 1 < count else 0, layouts.REGULAR, 0, 0, b"%x" % number))
    return layouts.romfs(parts)


def with_volume(name):
    """Returns a romfs image of an empty root with this volume."""
    text = layouts.padded(name + b"\0", 16)
    at = 16 + len(text)
    body = text + layouts.header(at + 32, layouts.DIRECTORY, at, 0, b".") + layouts.header(0, layouts.HARD_LINK, at, 0, b"..")
    return layouts.mended(b"-rom1fs-" + (16 + len(body)).to_bytes(4, "big") + bytes(4) + body, 0, min(512, 16 + len(body)))


# images that `check` accepts, of which nothing is made: a name or text that no file has here, a path or volume that no manifest has
UNTOLD = {
    "name": (layouts.romfs_list([b"first", b"a\xff"]), fault("out/a%FF")),
    "text": (layouts.romfs_list([], first=[(3, 0, 1, b"l", b"\xff")]), fault("out/l")),
    "path": (deep_image(64, 255), (b"", b"path\n", 3)),
    "volume": (with_volume(b"v" * 256), (b"", b"volume\n", 3)),
}


@pytest.mark.parametrize("kind", UNTOLD)
def test_untold(romtool, kind):
    """Reports what a file system or a manifest cannot have before anything is made."""
    data, wanted = UNTOLD[kind]
    put("image", data)
    assert romtool("check", "image")[2] == 0
    assert romtool("extract", "image", "out") == wanted and not os.path.lexists("out")


@pytest.mark.parametrize("kind", ["name", "text"])
def test_beside_untold(romtool, kind):
    """Makes what patterns choose beside what no file system can have, and reports this if it is chosen as well."""
    names = [(layouts.REGULAR, 0, 1, b"good", b"x"), (3, 0, 1, b"l", b"\xff") if kind == "text" else (layouts.REGULAR, 0, 0, b"a\xff", b"")]
    put("image", layouts.romfs_list([], first=names))
    assert romtool("extract", "image", "out", "good") == (b"", b"", 0)
    assert (os.listdir("out"), bytes_in("out/good")) == (["good"], b"x")
    wanted = UNTOLD[kind][1]
    for words in ["*"], ["good", "?" if kind == "text" else "/"], []:
        remove("out")
        assert romtool("extract", "image", "out", *words) == wanted and not os.path.lexists("out")


def test_long_volumes(romtool):
    """Prints the longest volume that a manifest has."""
    put("image", with_volume(b"v %\n" + b"v" * 251))
    assert romtool("extract", "image", "out") == (b"volume v%%20%%25%%0A%s\ndir / 0755 0 0\n" % (b"v" * 251), b"", 0)


def test_long_paths(romtool):
    """Reports a file whose path is longer than the system accepts, before anything is made."""
    here = ("x" * 60 + "/") * 45
    os.makedirs(here)
    build(romtool, ["dir /" + "/".join(["y" * 100] * it) + " 0755 0 0" for it in range(1, 17)])
    out, err, status = romtool("extract", "image", here + "out")
    assert (out, status) == (b"", 3) and err.startswith(b"file %sout/y" % here.encode()) and not os.path.lexists(here + "out")


def test_without_rights(romtool, here):
    """Extracts as an ordinary user, with modes of 0, and directories that cannot be written; but not where the user may make nothing."""
    image = build(romtool, (
        "dir / 0755 0 0", "dir /none 0000 0 0", "file /none/a 0000 0 0 4 a", "dir /none/d 0500 0 0", "file /none/d/b 0200 0 0 4 a",
        "file /set 6755 0 0 4 a", "dir /sticky 1777 0 0",
    ), "cramfs", a=b"a")  # fmt: skip
    here.chmod(0o777)
    ordinary = {"preexec_fn": become_nobody} if IS_ROOT else {}
    assert romtool("extract", "image", "out", **ordinary) == (manifest_of(image), b"", 0)
    os.mkdir("kept")
    os.chmod("kept", 0o555)
    assert romtool("extract", "image", "kept/out", **ordinary) == fault("kept/out")
    if IS_ROOT:
        compare_folder(image, image.entries)
        assert romtool("extract", "image", "kept", **ordinary) == fault("kept")
        build(romtool, ["dir / 0755 7 7"], "cramfs")
        assert romtool("extract", "--owners", "image", "own", **ordinary) == fault("own")


@pytest.mark.needs("root")
@pytest.mark.parametrize("words, mask, bits", [(["--owners"], 1, 0o7777), ([], 0, 0o1777)])
def test_owners(romtool, words, mask, bits):
    """Sets owners and all bits of modes by `--owners`, and not without it."""
    lines = ["dir / 2755 1 2", "file /a 6755 3 4 4 a", "slink /l 0777 5 6 a", "dir /d 3770 7 8", "same /b 4711 9 10 /a"]
    build(romtool, lines, "cramfs", a=b"a")
    assert romtool("extract", *words, "image", "out")[1:] == (b"", 0)
    rows = ("", 0o2755, 1, 2), ("a", 0o6755, 3, 4), ("d", 0o3770, 7, 8), ("b", 0o4711, 9, 10), ("l", 0o777, 5, 6)
    for path, mode, user, group in rows:
        shown = os.lstat("out/" + path)
        assert (stat.S_IMODE(shown.st_mode), shown.st_uid, shown.st_gid) == (mode & bits, user * mask, group * mask)


def test_full_output(romtool, small):
    """Leaves what was made if standard output accepts nothing, and says so by the status."""
    with open("/dev/full", "wb") as full:
        assert romtool("extract", "image", "out", stdout=full)[1:] == (b"write fault\n", 3)
    assert os.path.exists("out/d/a")


# directories that other users own, may write in, link to, or move meanwhile


@pytest.mark.needs("root")
def test_into_folders_of_another(romtool, small, here):
    """Refuses an empty directory of another user, also for root, and makes nothing in it."""
    here.chmod(0o777)
    for name, owner in ("theirs", NOBODY), ("ours", 0):
        os.mkdir(name, 0o777)
        os.chown(name, owner, owner)
    words = b"romtool: theirs: it is owned by another user, who could change what is made in it\n"
    assert romtool("extract", "image", "theirs") == fault("theirs")
    assert romtool("--explain", "extract", "image", "theirs") == fault("theirs", words)
    assert romtool("extract", "image", "ours", preexec_fn=become_nobody) == fault("ours")
    assert (os.listdir("theirs"), os.listdir("ours"), os.stat("theirs").st_uid) == ([], [], NOBODY)


@pytest.mark.parametrize("mode", [0o777, 0o770, 0o757, 0o2775, 0o755, 0o700, 0o1777, 0o3775], ids="{:o}".format)
def test_into_folders_open_to_others(romtool, small, mode):
    """Refuses a directory in which others may replace files, also if only its mask of an access control list shows it."""
    os.mkdir("out")
    os.chmod("out", mode)
    told = romtool("--explain", "extract", "image", "out")
    if mode in (0o755, 0o700, 0o1777, 0o3775):
        assert told[2] == 0 and os.path.exists("out/d/a")
    else:
        assert told == fault("out", b"romtool: out: other users may write in it, and could replace what is made in it\n")
        assert os.listdir("out") == [] and stat.S_IMODE(os.stat("out").st_mode) == mode


@pytest.mark.needs("root")
@pytest.mark.parametrize("mode, owner, maker", [(0o1777, 0, NOBODY), (0o777, 0, 0), (0o755, NOBODY, 0), (0o755, NOBODY, NOBODY)])
def test_into_links_of_another(romtool, small, mode, owner, maker):
    """Refuses a link to an empty directory if another user made it, or may replace it."""
    os.mkdir("ours", 0o755)
    os.mkdir("shared")
    os.chown("shared", owner, owner)
    os.chmod("shared", mode)
    os.symlink("../ours", "shared/link")
    os.lchown("shared/link", maker, maker)
    words = b"romtool: shared/link: it is a link that another user made or may replace: name the directory itself\n"
    assert romtool("--explain", "extract", "image", "shared/link") == fault("shared/link", words) and os.listdir("ours") == []


@pytest.mark.parametrize("folder, name, place", [("here", ".", "here"), ("here/a", "a/../b//", "here/b")])
def test_into_odd_names(romtool, small, folder, name, place):
    """Extracts into the current directory, and where the name ends with slashes, or leads through others."""
    os.makedirs(folder, 0o755)
    assert romtool("extract", "../image", name, cwd="here")[1:] == (b"", 0) and os.path.exists(place + "/d/a")


def swap(place, victim):
    """Moves a file or directory as soon as it is there, and puts a link in its place, as another user."""
    become_nobody()
    while True:
        with contextlib.suppress(OSError):
            os.rename(place, place + ".old")
            os.symlink(victim, place)
            return


@pytest.mark.needs("root")
@pytest.mark.parametrize("there", [False, True])
@pytest.mark.parametrize("name", ["theirs/out", "theirs/out/d"])
def test_into_folders_that_are_moved(romtool, here, name, there):
    """Makes nothing where a link leads that another user, who owns the directory above DIR, puts in its place or that of what is in it."""
    lines = ["dir /d 0755 0 0", *(f"dir /d{it} 0755 0 0" for it in range(100)), "file /d/x 0644 0 0 4 s", "file /x 0644 0 0 4 s"]
    build(romtool, lines, s=b"s")
    here.chmod(0o755)
    os.mkdir("victim", 0o755)
    for _ in range(3):
        os.mkdir("theirs")
        os.chown("theirs", NOBODY, NOBODY)
        if there:
            os.mkdir("theirs/out", 0o755)
        process = os.fork()
        if not process:
            try:
                swap(f"{here}/{name}", f"{here}/victim")
            finally:
                os._exit(0)
        romtool("extract", "image", "theirs/out")
        os.kill(process, signal.SIGKILL)
        os.waitpid(process, 0)
        assert os.listdir("victim") == []
        remove("theirs")


# calls of the system, and allocations


def calls_of(names):
    """Returns the calls that make these names in a directory, in the order in which `tree_extract` is proved to make them."""
    folders = [it.path for it in names if it.kind == "d" and it.path != "/"]
    made, firsts = [("mkdir", path) for path in folders], {}
    for it in names:
        if it.kind == "f" and firsts.setdefault(it.number, it) is it:
            made.append(("openat", it.path))
            made += [("write", None)] * (it.size > 0) + [("fchmod", None), ("fsync", None), ("close", None)]
        elif it.kind == "f":
            made.append(("link", it.path))
    made += [("symlink", it.path) for it in names if it.kind == "l"]
    for path in reversed(folders):
        made += [("openat", path), ("fchmod", None), ("fsync", None), ("close", None)]
    return made


@pytest.mark.needs("strace")
def test_calls(romtool):
    """Makes in DIR exactly the calls that are proved, in this order; a call by a descriptor has no path."""
    image = build(romtool, (
        "dir /d 0755 0 0", "slink /d/a 0777 0 0 /", "dir /d/e 0755 0 0", "file /d/e/f 0644 0 0 4 a", "hard /d/g /d/e/f",
        "pipe /d/p 0644 0 0", "file /h 0644 0 0 4 b", "dir /i 0755 0 0",
    ), a=b"text", b=b"")  # fmt: skip
    wanted, made = calls_of(image.entries), []
    for call in traced.calls(romtool.path, "extract", "image", "out")[0]:
        path = re.findall(r'"([^"]*)"', call.text)[-1:] if call.name in ("mkdir", "openat", "link", "symlink") else [None]
        if call.name == "unlink":
            made.clear()  # what was made before is the file that shows the mask
        elif call.name in [name for name, _ in wanted] and (made or path[0]):
            made.append((call.name, path[0] and path[0].removeprefix(".")))
    assert made[: len(wanted)] == wanted


@pytest.mark.needs("strace")
def test_no_syncs(romtool, small):
    """Makes with --no-sync the same calls, except those that wait for the disk, and the same files and manifest."""
    kept = []
    for words in [], ["--no-sync"]:
        remove("out")
        made, done = traced.calls(romtool.path, "extract", *words, "image", "out")
        assert done.returncode == 0
        kept.append(([call.name for call in made if call.name in FAILED], answer(done)))
    (synced, told), without = kept
    assert "fsync" in synced and without == ([name for name in synced if name != "fsync"], told)


@pytest.mark.needs("strace")
@pytest.mark.parametrize("there", [False, True])
@pytest.mark.parametrize("what", FAULTS)
def test_each_call_failed(romtool, small, what, there):
    """Says by the status that a call failed, whichever it is. Nothing is made outside DIR, which has a part of the image."""
    wanted = manifest_of(small)

    def lay():
        remove("out")
        if there:
            os.mkdir("out", 0o755)

    lay()
    calls = [it for it in traced.calls(romtool.path, "extract", "image", "out")[0] if it.name in FAILED]
    assert len(calls) > 10
    for call in calls:
        lay()
        out, err, status = failed(romtool, ["extract", "image", "out"], call.name, what, call.number)
        assert sorted({*os.listdir("."), "out"}) == ["a", "b", "image", "m", "out"]
        if status == 0:
            assert out == wanted, call.text
            if not there:
                compare_folder(small, small.entries)
        else:
            assert what == "signal=KILL" or status == 3 and err, call.text
        assert not there or stat.S_IMODE(os.stat("out").st_mode) == 0o755, call.text
        assert not os.path.islink("out/d/l") or os.readlink("out/d/l") == "a", call.text


@pytest.mark.needs("cc")
@pytest.mark.parametrize("more", [{}, {"REFUSE_ALL": "yes"}], ids=["one", "all"])
def test_memory(romtool, small, here, more):
    """Prints nothing but `memory` if any allocation is refused, or all is well."""
    wanted, tried = manifest_of(small), 0
    subprocess.run(["cc", "-shared", "-fPIC", "-o", "refuse.so", os.path.join(HERE, "refuse.c"), "-ldl"], check=True)
    for number in itertools.count(1):
        remove("out")
        told = {"LD_PRELOAD": f"{here}/refuse.so", "REFUSE_AT": str(number), "REFUSED": f"{here}/mark", **more}
        done = romtool("extract", "image", "out", env={**os.environ, **told})
        if not os.path.exists("mark"):
            break
        os.remove("mark")
        tried += 1
        if done == (wanted, b"", 0):
            compare_folder(small, small.entries)
        else:
            assert done == (b"", b"memory\n", 3), number
    assert tried


@pytest.mark.needs("strace")
@pytest.mark.parametrize("error", ["EPERM", "EOPNOTSUPP", "EMLINK", "EXDEV", "EIO", "ENOSPC", "EACCES", "EROFS"])
def test_refused_links(romtool, error):
    """Makes files of their own if one of the four errors says that there are no further names here, and says so."""
    build(romtool, ["file /a 0644 0 0 4 s", "hard /b /a"], s=b"text")
    out, err, status = failed(romtool, ["--explain", "extract", "image", "out"], "link", "error=" + error, 1)
    if error in ("EPERM", "EOPNOTSUPP", "EMLINK", "EXDEV"):
        copied = b"romtool: out: further names of files, made as copies, since this file system makes no hard links; a build "
        assert status == 0 and copied in err and bytes_in("out/b") == b"text" and b"hard /b /a" in out
    else:
        assert (out, status) == (b"", 3) and err.startswith(b"file out/b\n")


@pytest.mark.needs("strace")
@pytest.mark.parametrize("name", ["INT", "TERM"])
@pytest.mark.parametrize("there, mode", [(True, 0o755), (False, 0o700)])
def test_interrupted(romtool, small, there, mode, name):
    """Leaves the mode of a directory that is there after a signal, and one that was made to its owner."""
    if there:
        os.mkdir("out", 0o755)
    failed(romtool, ["extract", "image", "out"], "write", "signal=" + name, 1, preexec_fn=end_by_signals)
    assert stat.S_IMODE(os.stat("out").st_mode) == mode and not os.path.exists("out/.romtool-probe")


@pytest.mark.needs("strace")
def test_probe_that_stays(romtool, small):
    """Says that the file that shows the process's mask could not be removed, as in a directory to which files are only added."""
    os.mkdir("out", 0o755)
    out, err, status = failed(romtool, ["--explain", "extract", "image", "out"], "unlink", "error=EPERM", 1)
    assert (out, err, status) == fault("out", b"romtool: out: the file .romtool-probe in it could not be removed: remove it\n")


@pytest.mark.needs("strace")
@pytest.mark.parametrize("call", ["write", "fsync"])
def test_incomplete(romtool, small, call):
    """Reports what failed as incomplete, and leaves it."""
    out, err, status = failed(romtool, ["--explain", "extract", "image", "out"], call, "error=ENOSPC", 1)
    words = b"romtool: out: it is incomplete; the files that were made in it are still there\n"
    assert (out, status) == (b"", 3) and err.startswith(b"file out/") and words in err
    assert os.path.isdir("out/d/e") and stat.S_IMODE(os.stat("out").st_mode) == 0o700


@pytest.mark.needs("root", "fuse")
def test_disks_that_fail_at_close(romtool):
    """Prints no manifest on a file system that reports only at close, or if it is asked to write, that it is full."""
    build(romtool, ["file /a 0644 0 0 4 s", "file /big 0644 0 0 4 big"], "cramfs", s=b"s", big=bytes(100000))
    with fuse.mounted("lossy", "50000") as folder:
        if not folder:
            pytest.skip("nothing can be mounted")
        assert romtool("extract", "image", folder + "/out") == fault("mount/out/big")


# options, and what is said


def test_alignments(romtool):
    """Gives programs the alignment of `--align N`, and no other file. A build from that executes them in place."""
    programs = {"bin": bytes_in(sys.executable)[: 1 << 20], "flat": b"bFLT" + bytes(60)}
    sources = {**programs, "script": b"#!/bin/sh\n", "short": b"\x7fELF", "none": b""}
    build(romtool, [f"file /{name} 0755 0 0 4 {name}" for name in sources], "cramfs", **sources)
    for words, align in ([], 4), (["--align", "4K"], 4096), (["--align=64"], 64), (["--align", "65536"], 65536):
        remove("out")
        out, *told = romtool("extract", *words, "image", "out")
        wanted = [f"file /{name} 0755 0 0 {align if name in programs else 4} out/{name}" for name in sorted(sources)]
        assert told == [b"", 0] and out.decode().splitlines()[1:] == wanted
        put("again", out)
        assert romtool("build", "cramfs", "again", "second")[1:] == (b"", 0)
        places = [int(it.address, 16) for it in Image(romtool, Path("second")).pieces if it.path[1:] in programs]
        assert [it % align for it in places] == [0, 0]
    for word in "3", "5K", "128K", "x=4096", "":
        assert romtool("extract", "--align", word, "image", "refused") == USAGE and not os.path.exists("refused")


PATHS = {
    "usr": "usr usr/awk usr/sh usr/vi",
    "/usr/vi bin/": "bin bin/busybox usr usr/vi",
    "*/[av]*": "usr usr/awk usr/vi",
    "/": "bin bin/busybox dev usr usr/awk usr/sh usr/vi",
    "usr/s?": "usr usr/sh",
    "dev/null": "dev",
}


@pytest.fixture
def system(romtool):
    """An image with a program of three names, a link and a device."""
    return build(romtool, (
        "dir /bin 0755 0 0", "file /bin/busybox 0755 0 0 4 s", "dir /usr 0755 0 0", "hard /usr/awk /bin/busybox",
        "hard /usr/vi /bin/busybox", "slink /usr/sh 0777 0 0 awk", "dir /dev 0755 0 0", "nod /dev/null 0600 0 0 c 1 3",
    ), s=b"s")  # fmt: skip


@pytest.mark.parametrize("words", PATHS)
def test_some_names(romtool, system, words):
    """Makes only what PATH.. match, with its directories; further names stay links."""
    assert romtool("extract", "image", "out", *words.split()) == (b"", b"", 0)
    found, names = made_in(b"out")
    assert sorted(it[1:].decode() for it in found if it) == PATHS[words].split() and len(set(names.values())) < 2


@pytest.mark.parametrize("words, why", [(["usr", "no"], "no: it"), (["vi"], "vi: it"), (["usr", ""], ": it"), (["usr", "["], "[: ")])
def test_no_names(romtool, system, words, why):
    """Refuses a pattern that matches nothing, or is none."""
    why += " matches no directory, file or link of the image\n" * why.endswith("it")
    out, err, status = romtool("--explain", "extract", "image", "out", *words)
    assert (out, status) == (b"", 2) and err.startswith(b"usage\nromtool: " + why.encode()) and not os.path.lexists("out")


@pytest.mark.parametrize("mask, words, top, folder, file", [
    (0o027, [], 0o750, 0o1750, 0o640), (0o777, [], 0, 0o1000, 0), (0, [], 0o777, 0o1777, 0o666),
    pytest.param(0o077, ["--owners"], 0o777, 0o1777, 0o666, marks=pytest.mark.needs("root")),
])  # fmt: skip
def test_masks(romtool, mask, words, top, folder, file):
    """Applies the mask of the process to modes, and not with `--owners`."""
    lines = ["dir / 0777 0 0", "dir /d 1777 0 0", "file /a 0666 0 0 4 s", "file /x 0755 0 0 4 s"]
    build(romtool, lines, "cramfs", s=b"s")
    assert romtool("extract", *words, "image", "out", preexec_fn=lambda: os.umask(mask))[2] == 0
    assert stat.S_IMODE(os.stat("out").st_mode) == top
    if IS_ROOT:
        assert [stat.S_IMODE(os.stat("out/" + it).st_mode) for it in "da"] == [folder, file]


def test_mode_of_a_folder(romtool, small):
    """Leaves the mode of a directory that is there."""
    os.mkdir("out")
    os.chmod("out", 0o1777)
    assert romtool("extract", "image", "out")[2] == 0 and stat.S_IMODE(os.stat("out").st_mode) == 0o1777


def test_further_names(romtool):
    """Says how many names are further names of a file."""
    build(romtool, ["file /a 0644 0 0 4 s", "hard /b /a", "hard /c /a", "file /d 0644 0 0 4 s"], s=b"s")
    _, err, status = romtool("--explain", "extract", "image", "out")
    told = b"romtool: out: further names of files, made as hard links; some editors replace a link by a separate "
    assert (err, status) == (told + b"file, which a build does not read: 2\n", 0)
    assert (os.stat("out/c").st_nlink, os.stat("out/d").st_nlink) == (3, 1)


@pytest.mark.parametrize("further", [59, 9])
def test_many_times_the_image(romtool, further):
    """Reports files that are many times longer than the image beforehand in words, and makes them."""
    lines = ["file /a 0644 0 0 4 s", *(f"same /b{number} 0644 0 0 /a" for number in range(further))]
    image = build(romtool, lines, "cramfs", s=b"x" * 100000)
    told = b"romtool: out: its files have 6000000 bytes, and the image has %d\n" % len(image.data)
    assert romtool("--explain", "extract", "image", "out")[1:] == (told * (further == 59), 0)
    assert os.path.getsize(f"out/b{further - 1}") == 100000


# large images


def test_many_files(romtool):
    """Extracts 20,000 files. Each is synchronized to the disk, which may take milliseconds for each."""
    folders = [f"dir /{it} 0755 0 0" for it in range(20)]
    build(romtool, [*folders, *(f"file /{it % 20}/{it:05d} 0644 0 0 4 a" for it in range(20000))], a=b"a")
    assert romtool("extract", "image", "out", timeout=15 * SECONDS)[1:] == (b"", 0)
    assert sum(len(held) for _, _, held in os.walk("out")) == 20000


def test_memory_of_names(romtool):
    """Needs at most 100 bytes a name more than `check` to take an image apart, however long the paths are."""
    put("image", deep_image(15, 255, 20000))
    line = "import resource,subprocess,sys; subprocess.run(sys.argv[1:], stdout=-3, stderr=-3); "
    line += "print(resource.getrusage(resource.RUSAGE_CHILDREN).ru_maxrss)"

    def most(*words):
        done = subprocess.run([sys.executable, "-c", line, romtool.path, *words], stdout=subprocess.PIPE, check=True, timeout=SECONDS)
        return int(done.stdout) * 1024

    assert most("extract", "image", "no/folder") - most("check", "image") <= 100 * 20000 + 2**20
