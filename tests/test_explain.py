"""Tests the program's explanations: with `--explain` and at a terminal there are some, otherwise none.

Help with its groups and examples, the system's refusals, values in an image or a manifest, reasons of `xip` and `linux`, sources
that change, warnings, terminals, and standard error that accepts nothing. test_cases.py compares each case with and without
`--explain`. The man page that tools/manual makes has to have what help shows; it is linted if `mandoc` or `groff` is installed.
"""

import contextlib
import fcntl
import os
import pty
import re
import resource
import select
import shutil
import struct
import subprocess
import tempfile
import zlib

import pytest
from conftest import Romtool
from edges import lay
from files import bytes_in, put, repository_text as text_of
from harness import SECONDS, TOP
from romtool import run
from sentences import BAD_LINES, BY_CAUSE, CALLS, ENDINGS, FAULTS, MANIFESTS, MISFITS, MISREADS, REASONS, SUBCOMMANDS
from sentences import sentences as all_sentences
from users import IS_ROOT

pytestmark = pytest.mark.usefixtures("here")
needs = pytest.mark.needs
each_subcommand = pytest.mark.parametrize("name", SUBCOMMANDS)
NONE = "No such file or directory"


@pytest.fixture(scope="session")
def romtool(romtool):
    """The program by its own name, which help shows."""
    with tempfile.TemporaryDirectory(prefix="romtool-") as top:
        os.symlink(romtool.path, top + "/romtool")
        yield Romtool(top + "/romtool")


def told(romtool, *words, **more):
    """Returns what the program explains."""
    return romtool("--explain", *words, **more)[1].decode(errors="replace")


def says(romtool, words, lines, **more):
    """Compares what a run prints on standard error; without the option it prints only the first line, and answers alike."""
    out, err, status = romtool("--explain", *words, **more)
    assert err.decode(errors="replace") == lines
    protocol = "" if lines.startswith("romtool: ") else "".join(lines.splitlines(keepends=True)[:1])
    assert romtool(*words, **more) == (out, protocol.encode(), status)


def put_sparse(name, length):
    """Makes a file without bytes of this length."""
    put(name)
    os.truncate(name, length)


@pytest.fixture
def small(romtool, here):
    """Builds the file `image` of one small file in a format."""

    def built(format="romfs"):
        lay("file /a 0644 0 0 4 s\n", s=b"hello")
        assert romtool("build", format, "m", "image")[2] == 0
        return bytes_in("image")

    return built


@contextlib.contextmanager
def held(*numbers):
    """Makes parts of `out`, and marks and locks them as a build does."""
    with contextlib.ExitStack() as stack:
        for name in map(".out.romtool-{}.part".format, numbers):
            part = stack.enter_context(open(name, "wb"))
            os.fchmod(part.fileno(), 0o1600)
            fcntl.flock(part, fcntl.LOCK_EX)
            stack.callback(os.unlink, name)
        yield


# help


@pytest.mark.parametrize(("words", "parts"), [
    *(pytest.param(it, ["Usage: romtool", *SUBCOMMANDS, "--explain", "--version"], id=it) for it in ("--help", "-h", "help")),
    *(pytest.param(it + " --help", ["Usage: romtool " + it], id=it) for it in SUBCOMMANDS),
    pytest.param("--explain check x", ["error: the argument '--explain' cannot be used multiple times"], id="twice"),
])  # fmt: skip
def test_help(romtool, words, parts):
    """Shows the help of the program and of each subcommand, and says that an option stands twice."""
    words = words.split()
    out, err, status = romtool("--explain", *words)
    assert (status, out, err[:6], [it for it in parts if it not in err.decode()]) == (2, b"", b"usage\n", [])
    if words[0] in SUBCOMMANDS:
        assert romtool(*words, *["--quiet"] * (words[0] == "pack"))[1:] == (b"usage\n", 2)


def test_groups(romtool):
    """Has the groups of README's table, with their subcommands."""
    listed = told(romtool, "--help").partition("\nCommands:\n")[2].partition("\n\n")[0]
    found = [re.findall(r"^  (\w+)", it, re.M) for it in re.split(r"^ \w.*:$", listed, flags=re.M)[1:]]
    table = text_of("README.md").partition("\n| to | use |\n")[2].partition("\n\n")[0]
    wanted = [[it for it in re.findall(r"`(\w+)`", row.split(" | ")[1]) if it in SUBCOMMANDS] for row in table.splitlines()[1:]]
    wanted = [row + ["numbers"] * (row[0] == "serve") for row in wanted if row]  # one row of the table has no subcommand
    assert found == [*wanted, ["version", "help"]]


TIPS = {
    "unpack": "did you mean 'extract'?",
    "create": "did you mean 'pack' (of directories) or 'build' (of a manifest)?",
    "mount": "did you mean the program romtool-mount?",
    "dump": "did you mean 'cat' (one file) or 'extract' (all files)?",
    "lst": "a similar subcommand exists: 'list'",
}


@pytest.mark.parametrize(("word", "tip"), TIPS.items(), ids=TIPS)
def test_tips(romtool, word, tip):
    """Has a tip for words of other programs."""
    usage = "Usage: romtool [OPTIONS] [COMMAND]\n\nFor more information, try '--help'.\n"
    assert told(romtool, word, "x") == f"usage\nerror: unrecognized subcommand '{word}'\n\n  tip: {tip}\n\n{usage}"


@each_subcommand
def test_examples(romtool, here, name):
    """Has an example for each subcommand, which does what it should."""
    os.makedirs("app/etc")
    put("app/etc/motd", b"hello\n")
    for made in ("app.cramfs", "old.cramfs", "data.romfs"):
        romtool("pack", "--quiet", "--all-root", made.split(".")[1], "app", made)
    shutil.copy("app.cramfs", "flash.bin")
    put("manifest", romtool("scan", "--all", "--for", "cramfs", "app")[0])
    os.symlink(romtool.path, "romtool")
    (example,) = re.findall(r"^Example: (.*)$", told(romtool, "help", name), re.M)
    assert f"romtool {name} " in example + " "
    done = run("sh", "-c", example, env={**os.environ, "PATH": f"{here}:{os.environ['PATH']}"})
    assert (done.returncode, b"usage" in done.stderr) == (0, False)


# the system's refusals


@pytest.fixture
def files(here):
    """Makes files of some kinds."""
    for name in ("file", "source"):
        put(name, b"x")
    os.symlink("loop", "loop")
    os.mkdir("folder")
    os.mkfifo("pipe")


def unreadable(romtool, words, name, why, place=""):
    """Compares what is said of a file that is not read or written."""
    says(romtool, words, f"file {name}\nromtool: {name}: {why}{place}\n")


@pytest.mark.parametrize("word", ["check", "list", "serve", "space"])
@pytest.mark.parametrize(("name", "why"), [
    pytest.param("none", NONE, id="none"), pytest.param("file/below", "Not a directory", id="below"),
    pytest.param("folder", "Is a directory", id="folder"), pytest.param("loop", "Too many levels of symbolic links", id="loop"),
    pytest.param("n" * 300, "File name too long", id="long"), pytest.param("", NONE, id="empty"),
])  # fmt: skip
def test_images(romtool, files, name, why, word):
    """Says why an image is not read."""
    unreadable(romtool, [word, name], name, why)


@pytest.mark.parametrize(("name", "why"), [("none", NONE), ("file", REASONS["NO_FOLDER"])], ids=["none", "file"])
@pytest.mark.parametrize("words", [["scan"], ["scan", "--all"]], ids=["scan", "all"])
def test_scans(romtool, files, words, name, why):
    """Says why a directory is not scanned."""
    unreadable(romtool, [*words, name], name, why)


@pytest.mark.parametrize(("name", "why"), [
    ("none", NONE), ("folder", REASONS["NO_REGULAR_FILE"]), ("pipe", REASONS["NO_REGULAR_FILE"]),
    ("loop", "Too many levels of symbolic links"), ("file/x", "Not a directory"),
], ids=["none", "folder", "pipe", "loop", "below"])  # fmt: skip
def test_sources(romtool, files, name, why):
    """Says why a source is not read, and which line names it."""
    lay(f"# one\ndir /a 0755 0 0\nfile /a/b 0644 0 0 4 {name}\n")
    unreadable(romtool, ["build", "romfs", "m", "out"], name, why, " (m:3)")


@pytest.mark.parametrize(("out", "why"), [
    ("folder", "Is a directory"), ("none/out", NONE), ("file/out", "Not a directory"), ("loop", REASONS["TOO_MANY_LINKS"]),
    ("m", REASONS["OWN_INPUT"]), ("source", REASONS["OWN_INPUT"]), ("/dev/stdout", REASONS["OWN_OUTPUT"]),
    ("/dev/stderr", REASONS["OWN_ERROR"]), ("/dev/full", "No space left on device"),
], ids=["folder", "none", "below", "loop", "manifest", "source", "stdout", "stderr", "full"])  # fmt: skip
def test_out(romtool, files, out, why):
    """Says why OUT is not written."""
    lay("file /a 0644 0 0 4 source\n")
    unreadable(romtool, ["build", "cramfs", "m", out], out, why)


def test_manifests(romtool):
    """Says why a manifest is not read, and that a name of a source is no text."""
    lay("file /b 0644 0 0 4 %FF\n")
    unreadable(romtool, ["build", "romfs", "m", "out"], "%FF", REASONS["NO_TEXT"], " (m:1)")
    unreadable(romtool, ["build", "romfs", "none", "out"], "none", NONE)
    put_sparse("long", (1 << 30) + 1)
    unreadable(romtool, ["build", "romfs", "long", "out"], "long", REASONS["MANIFEST_TOO_LONG"])


def test_own_file(romtool):
    """Says that the output of a scan is a file of the directory."""
    os.mkdir("scanned")
    put("scanned/file", b"x")
    os.link("scanned/file", "name")
    unreadable(romtool, ["scan", "--all", "-o", "name", "scanned"], "name", REASONS["OWN_FILE"])


def test_hundred_parts(romtool):
    """Says that there are a hundred parts of other builds."""
    lay("pipe /a 0644 0 0\n")
    with held(*range(100)):
        unreadable(romtool, ["build", "romfs", "m", "out"], "out", REASONS["HUNDRED_PARTS"])


def test_permission(romtool, files):
    """Says that a file may not be read."""
    if not IS_ROOT:
        os.chmod("file", 0)
        unreadable(romtool, ["check", "file"], "file", "Permission denied")


# lines of manifests

LINES = [
    ("romfs", "fly /a 0755 0 0", "m 1", "no line begins with the word fly"),
    ("romfs", "dir /a 0755 0", "m 1", "a line dir has 5 words, and this one 4"),
    ("romfs", "dir  /a 0755 0", "m 1", "word 2 is empty, after two spaces or at the end"),
    ("romfs", "nod /a 0755 0 0 x 1 2", "m 1", "x is neither b nor c"),
    ("romfs", "dir /a 0999 0 0", "m 2", "MODE is 0999"),
    ("romfs", "dir /a 0755 01 0", "m 2", "UID is 01"),
    ("romfs", "nod /a 0755 0 0 b 1 4294967296", "m 2", "MINOR is 4294967296"),
    ("romfs", "dir a%20b 0755 0 0", "m 3", "a%20b does not begin with a slash"),
    ("romfs", "slink a 0777 0 0 x", "m 3", "a does not begin with a slash"),
    ("romfs", "slink /a 0777 0 0 x%00", "m 3", "x%00 has a zero byte"),
    ("romfs", "slink /a 0777 0 0 " + "x" * 4096, "m 3", "x" * 200 + " has more than 4095 bytes"),
    ("romfs", "pipe / 0644 0 0", "m 3", "/ is the root, which is not allowed here"),
    ("romfs", "hard /a /", "m 3", "/ is the root, which is not allowed here"),
    ("romfs", "dir /a//b 0755 0 0", "m 3", "/a//b has an empty name, between two slashes or at its end"),
    ("romfs", "dir /a/ 0755 0 0", "m 3", "/a/ has an empty name, between two slashes or at its end"),
    ("romfs", "dir /a/.. 0755 0 0", "m 3", "/a/.. has a name . or .."),
    ("romfs", "dir /%s 0755 0 0" % ("n" * 256), "m 3", "/" + "n" * 199 + " has a name of more than 255 bytes"),
    ("romfs", "volume " + "v" * 256, "m 3", "v" * 200 + " has more than 255 bytes"),
    ("romfs", "dir /x/y 0755 0 0", "m 4", "/x"),
    ("romfs", "dir /x 0755 0 0\ndir /x 0755 0 0", "m 5 2", "/x"),
    ("romfs", "file /x 0755 0 0 7 s", "m 6", "7"),
    ("romfs", "hard /x /y", "m 7", "/y"),
    ("cramfs", "dir /x 0755 0 300", "p 1", "group 300, at most 255 (scan --all --for cramfs makes it fit)"),
    ("cramfs", "dir /x 0755 65536 0", "p 1", "owner 65536, at most 65535 (scan --all --for cramfs makes it fit)"),
    ("cramfs", "nod /x 0644 0 0 c 256 0", "p 1", "major number 256, at most 255"),
    ("romfs", "dir /x 0755 1 0", "p 1", "owner 1, at most 0 (scan --all --for romfs makes it fit)"),
    ("romfs", "slink /x 0644 0 0 y", "p 1", "mode 0644, romfs has 0777 (scan --all --for romfs makes it fit)"),
    ("cramfs", "file /x 0644 0 0 4 size", "p 2", "size has 16777216 bytes, at most 16777215"),
    ("cramfs", "dir /%s 0755 0 0" % ("n" * 253), "p 3", "the name has 253 bytes, at most 252"),
    ("cramfs", "volume %s" % ("n" * 17), "p 3", "the volume's name has 17 bytes, at most 16"),
    ("cramfs", "pipe /x 0644 0 0\nhard /y /x", "p 4 2", "/y"),
]


@pytest.mark.parametrize(("format", "line", "kind", "what"), LINES, ids=[f"{kind} {at}" for at, (_, _, kind, _) in enumerate(LINES)])
def test_lines(romtool, format, line, kind, what):
    """Says what is wrong in a line, with its value in words."""
    lay(line + "\n")
    if what.startswith("size has"):
        put_sparse("size", 1 << 24)
    which, number, *place = kind.split()
    name, sentence = (MANIFESTS if which == "m" else MISFITS)[int(number)]
    wanted = f"romtool: m:{place[0] if place else 1}: {name} ({number}): {sentence}: {what}\n"
    assert told(romtool, "build", format, "m", "o") == wanted


def test_late_lines(romtool):
    """Finds a late line of a long manifest."""
    front = "".join(f"pipe /p{number} 0644 0 0\n" for number in range(1, 99999))
    lay(front + "file /x 0644 0 0 4 lost\n")
    unreadable(romtool, ["build", "romfs", "m", "o"], "lost", NONE, " (m:99999)")
    lay(front + "dir /no/x 0755 0 0\n")
    assert told(romtool, "build", "romfs", "m", "o") == f"romtool: m:99999: NoParent (4): {MANIFESTS[4][1]}: /no\n"


def test_many_lines(romtool):
    """Names 20 lines that do not fit, and says how many more there are."""
    lay("".join("pipe /p%02d 0644 %d 0\n" % (number, 70000 * (number % 2)) for number in range(50)))
    *said, last = told(romtool, "build", "cramfs", "m", "out").splitlines()
    assert [it.split(": ")[1:3] for it in said] == [["m:%d" % number, "Attribute (1)"] for number in range(2, 42, 2)]
    assert last == "romtool: m: 5 more do not fit"


def test_large_trees(romtool):
    """Says how deep a tree is, and how large."""
    lay("".join("dir %s 0755 0 0\n" % ("/d" * depth) for depth in range(1, 66)))
    wanted = f"romtool: m: TooLarge (2): {MISFITS[2][1]}: 65 names on the path of line 65, at most 64\n"
    assert told(romtool, "build", "romfs", "m", "o") == wanted
    put_sparse("half", 1 << 27)
    lay("".join(f"file /{number} 0644 0 0 4 half\n" for number in range(2)))
    what = "268435456 bytes of sources, an image has at most 268435456 in all"
    assert told(romtool, "build", "romfs", "m", "o") == f"romtool: m: TooLarge (2): {MISFITS[2][1]}: {what}\n"


# values of images


def faulty(romtool, words, held, number, place, what):
    """Compares what is said of a fault."""
    put("x", held)
    name, said = FAULTS[number]
    assert told(romtool, *words, "x") == f"romtool: x: {name} ({number}) at {place}: {said}: {what}; see FAULTS, {number} {name}\n"


@pytest.mark.parametrize(("format", "change", "number", "place", "what"), [
    pytest.param("romfs", lambda _: b"\x1f\x8b\x08\x00\x00\x00\x00\x00x", 3, 0, "its first bytes are 1f 8b 08 00 00 00 00 00", id="magic"),
    pytest.param("romfs", lambda it: it[:20], 2, 0, "it has 20 bytes", id="short"),
    pytest.param("romfs", lambda it: it[:100], 4, 8, "144 is stated, the file has 100 bytes", id="romfs size"),
    pytest.param("cramfs", lambda it: it[:100], 4, 4, "4096 is stated, the file has 100 bytes", id="cramfs size"),
    pytest.param("romfs", lambda it: it[:8] + b"\0\0\0\x08" + it[12:], 4, 8, "8 is stated", id="romfs small"),
    pytest.param("cramfs", lambda it: it[:4] + b"\x08\0\0\0" + it[8:], 4, 4, "8 is stated", id="cramfs small"),
    pytest.param("romfs", lambda it: it[:140] + b"\x01\0\0\0", 5, 12, "they sum to 01000000 (hexadecimal)", id="sum"),
    pytest.param("cramfs", lambda it: it[:9] + b"\x18" + it[10:], 6, 8, "the flags are 1803", id="flags"),
    pytest.param("cramfs-be", lambda it: it[:10] + b"\x18" + it[11:], 6, 8, "the flags are 1803", id="flags of the other order"),
])  # fmt: skip
def test_values(romtool, small, format, change, number, place, what):
    """Says what is read of an image if it is wrong."""
    faulty(romtool, ["check"], change(small(format)), number, place, what)


def test_crc(romtool, small):
    """Says which CRC is stored, and which the bytes have."""
    held = small("cramfs")
    made = zlib.crc32(held[:32] + bytes(4) + held[36:96] + b"j" + held[97:])
    what = "%08x is stored, the bytes have %08x" % (int.from_bytes(held[32:36], "little"), made)
    faulty(romtool, ["list"], held[:96] + b"j" + held[97:], 7, 32, what)


def test_sections():
    """Has a section of FAULTS.md for each fault."""
    headings = re.findall(r"^### (.*)$", text_of("docs/FAULTS.md"), re.M)
    assert headings == [f"{number} {name}" for number, (name, _) in FAULTS.items()]


UNALIGNED = "unaligned: Linux copies a program whose first byte is not at the front of a page; give it an ALIGN of 4096 (--align 4096)"
KEPT = "shared: Linux copies its last page, which also has other data; pad the source to N + 1 bytes, by the N of its line"
OF_ROMFS = "romfs: Linux with an MMU executes nothing of romfs in place; use cramfs"


@pytest.mark.parametrize(("format", "align", "said"), [
    ("cramfs", 4, UNALIGNED), ("romfs", 4096, OF_ROMFS), ("cramfs", 4096, KEPT),
], ids=["unaligned", "romfs", "shared"])  # fmt: skip
def test_xip(romtool, format, align, said):
    """Explains each reason of `xip` once."""
    one = b"\x7fELF\x01\x01\x01" + bytes(9) + struct.pack("<HHIIIIIHHHHHH", 2, 40, 1, 0, 52, 0, 0, 52, 32, 1, 0, 0, 0)
    one += struct.pack("<IIIIIIII", 1, 0, 0x10000, 0, 5000, 5000, 5, 4096)
    front = "".join(f"file /{number} 0755 0 0 {align} program\n" for number in range(3))
    lay(front + "file /3 0644 0 0 4 block\n" * (align == 4096), program=one.ljust(5000, b"p"), block=b"x" * 4096)
    romtool("build", format, "m", "image")
    ends = "romtool: image: Linux does not execute all of these programs in place; see PROTOCOL, Programs in place\n"
    assert told(romtool, "xip", "image") == f"romtool: image: {said}; files: 3, first /0\n{ends}"


def test_linux(romtool):
    """Explains each thing of `linux` once."""
    lay("dir / 0700 0 0\nfile /a 0644 0 0 4 block\nfile /b 0644 0 0 4 block\n", block=b"x" * 4096)
    romtool("build", "cramfs", "m", "image")
    said = "LastBlock: Linux reads the last 4,096 bytes of a file as zeros if its length is a multiple of 4,096; append a byte to the "
    said += "source (truncate -s +1 FILE)"
    lines = ["RootMode: Linux adds 0555 to the mode of the root in cramfs; set these bits in the line dir /; files: 1, first /"]
    lines += [said + "; files: 2, first /a", "it is valid, but Linux misreads what these lines name; see LINUX, By number"]
    assert sorted(told(romtool, "linux", "image").splitlines()) == sorted("romtool: image: " + it for it in lines)


@pytest.mark.parametrize(("base", "why"), [
    (0, "perhaps --base HEX is missing, the address of the image in the flash"),
    (0x8000000, "is the HEX of --base the address of the image in the flash?"),
], ids=["none", "base"])  # fmt: skip
def test_which(romtool, small, base, why):
    """Says which addresses there are."""
    length = len(small("cramfs"))
    range_ = "its %d bytes are at 0x%08x to 0x%08x" % (length, base, base + length - 1)
    assert told(romtool, "which", "--base", "%x" % base, "image", "7000000", "%x" % base) == f"romtool: image: {range_}; {why}\n"
    assert told(romtool, "which", "image", "0") == ""


@pytest.mark.parametrize(("words", "more", "by"), [
    (["check", "--max-size", "99", "image"], {}, "--max-size allows 99"),
    (["list", "image"], {"ROMTOOL_MAX_SIZE": "1K"}, "ROMTOOL_MAX_SIZE allows 1024"),
], ids=["option", "variable"])  # fmt: skip
def test_limits(romtool, small, words, more, by):
    """Says how large an image is and may be."""
    length = len(small("cramfs"))
    unreadable(lambda *it: romtool(*it, env={**os.environ, **more}), words, "image", f"{length} bytes of it would be read, and {by}")


@pytest.mark.parametrize("words", ["check -", "xip -", "diff image -", "verify image -", "space image -"])
def test_input(romtool, small, words):
    """Says that standard input has another name than `-`."""
    small("cramfs")
    unreadable(romtool, words.split(), "-", f"{NONE}\nromtool: -: - is the name of a file here; standard input is /dev/stdin")


@pytest.mark.parametrize("count", [60, 10])
@pytest.mark.parametrize(("format", "line"), [
    ("cramfs", "same /%s 0644 0 0 /a\n"), ("romfs", "hard /%s /a\n"),
], ids=["cramfs", "romfs"])  # fmt: skip
def test_long_maps(romtool, format, line, count):
    """Says beforehand how long the map gets if files are many times longer than their image."""
    names = ["b%d" % number for number in range(1, count)]
    lay("file /a 0644 0 0 4 s\n" + "".join(line % name for name in names), s=b"x" * 100000)
    romtool("build", format, "m", "image")
    size = int(re.search(rb"^size (\d+)$", romtool("info", "image")[0], re.M)[1])
    blocks, spoken = count * 25, ""
    if count * 100000 // 16 > size:
        length = 25 * sum(len("/" + name) + 42 for name in ["a"] + names)
        spoken = "romtool: image: its files have %d bytes, and the image has %d" % (count * 100000, size)
        assert told(romtool, "info", "image") == spoken + "\n"
        spoken += ", so the map has up to %d lines and %d bytes\n" % (blocks, length)
    out, err, _ = romtool("--explain", "map", "image")
    assert (err.decode(), out.count(b"\n") <= blocks) == (spoken, True)
    assert romtool("map", "image")[1] == b""


@pytest.mark.parametrize("words", [[], ["--explain"]], ids=["plain", "explained"])
def test_changed(romtool, words):
    """Reports a source that changes while the image is written, into a pipe that is read no further, with the line that names it."""
    lay("file /1 0644 0 0 4 one\nfile /2 0644 0 0 4 two\n", one=bytes(1 << 20), two=bytes(1 << 20))
    ours, theirs = os.pipe()
    command = [romtool.path, *words, "build", "romfs", "m", "/dev/fd/%d" % theirs]
    how = {"stdin": subprocess.DEVNULL, "stdout": subprocess.PIPE, "stderr": subprocess.PIPE, "pass_fds": [theirs]}
    with subprocess.Popen(command, **how) as build:
        os.close(theirs)
        with open(ours, "rb") as pipe:
            pipe.read(1)
            os.utime("two")
            pipe.read()
        said = build.communicate(timeout=SECONDS)[1]
    more = "romtool: two: %s (m:2)\n" % REASONS["SOURCE_CHANGED"] if words else ""
    assert (build.returncode, said.decode()) == (3, "changed\n" + more)


# memory and streams


def little():
    """Limits the memory of a program that is started."""
    resource.setrlimit(resource.RLIMIT_AS, (64 << 20, 64 << 20))


SIZE = 200 << 20
SUM = -(0x2D726F6D + 0x3166732D + SIZE) % (1 << 32)


def put_large(sums):
    """Makes a romfs image that is larger than the memory."""
    put_sparse("large", SIZE)
    with open("large", "r+b") as file:
        file.write(b"-rom1fs-" + SIZE.to_bytes(4, "big") + sums.to_bytes(4, "big"))


def test_memory(romtool):
    """Says that there is too little memory."""
    put_large(SUM)
    says(romtool, ["check", "large"], "memory\nromtool: memory: %s\n" % ENDINGS["memory"], preexec_fn=little)


@pytest.mark.parametrize(("word", "more"), [("check", ""), ("space", " in 0")], ids=["check", "space"])
def test_front(romtool, word, more):
    """Knows a fault by the front of an image that memory does not hold."""
    put_large(0)
    out, err, _ = romtool("--explain", word, "large", preexec_fn=little)
    seen = "they sum to %08x (hexadecimal)" % (-SUM % (1 << 32))
    said = "romtool: large: Sum (5) at 12: %s: %s; see FAULTS, 5 Sum\n" % (FAULTS[5][1], seen)
    assert (out.decode(), err.decode()) == ("fault 5 Sum at 12%s\n" % more, said)


def test_full_output(romtool):
    """Says that standard output is full."""
    with open("/dev/full", "wb") as full:
        said = "write fault\nromtool: stdout: %s: No space left on device\n" % ENDINGS["write fault"]
        assert told(romtool, stdout=full) == said


@pytest.mark.parametrize("words", [[], ["check", "none"], ["--help"], ["check"]], ids=["none", "file", "help", "usage"])
def test_full_error(romtool, words):
    """Ends as otherwise if standard error is full."""
    with open("/dev/full", "wb") as full:
        assert romtool("--explain", *words, stderr=full)[2] == romtool(*words)[2]


def test_served(romtool, small):
    """Says by line what is wrong in requests, and that they cannot be read."""
    small()
    folder = os.open(".", os.O_RDONLY)
    says(romtool, ["serve", "image"], "read fault\nromtool: stdin: %s\n" % ENDINGS["read fault"], stdin=folder)
    os.close(folder)
    out, err, _ = romtool("--explain", "serve", "image", input=b"open /a\nopen /b\nread 0 3\nfly\nquit\n")
    said = "romtool: stdin:2: %s\nromtool: stdin:4: %s\n" % (CALLS["ENOENT"], BAD_LINES["bad command"])
    assert (out, err.decode()) == (b"ok 0\nerr ENOENT\nok 3 68656c\nbad command\nok\n", said)


# warnings


def test_parts(romtool, small):
    """Warns of parts of other builds, and says that one was removed."""
    small()
    build = ["build", "romfs", "m", "out"]
    with held(0, 1):
        says(romtool, build, "romtool: .out.romtool-0.part: warning: parts of running or interrupted builds: 2\n")
    put(".out.romtool-0.part", b"", 0o1600)
    said = b"romtool: .out.romtool-0.part: removed parts of interrupted builds: 1\n"
    assert romtool("--explain", *build)[:2] == (b"ok 1024\n", said)
    says(romtool, build, "")


def test_carriage_returns(romtool):
    """Warns of lines that end in a carriage return."""
    lay("dir /x 0755 0 0\nslink /a 0777 0 0 to\r\n")
    said = "romtool: m:2: warning: lines that end in a carriage return, which is part of their last word: 1\n"
    says(romtool, ["build", "romfs", "m", "out"], said)


def test_skipped(romtool):
    """Says what a scan passes over."""
    os.mkdir("in")
    put("in/file", b"x")
    says(romtool, ["scan", "in"], "")
    for name in ("link", "other"):
        os.symlink("file", "in/" + name)
    os.mkfifo("in/pipe")
    more = "scan --all keeps them, with all modes and owners"
    skipped = "romtool: in: skipped 2 links, 1 pipe or socket: %s\n" % more
    says(romtool, ["scan", "in"], skipped)
    os.chmod("in/file", 0o755)
    says(romtool, ["scan", "in"], skipped + "romtool: in: files that can be executed and get the mode 0644: 1; %s\n" % more)
    says(romtool, ["scan", "--all", "in"], "")


# terminals


def at_terminal(romtool, words, out_too=False, **more):
    """Returns what a terminal shows of a run, and its output and status. The environment has more variables."""
    ours, theirs = pty.openpty()
    how = {"env": {**os.environ, **more}, "stdin": subprocess.DEVNULL, "stdout": theirs if out_too else subprocess.PIPE, "stderr": theirs}
    process = subprocess.Popen([romtool.path, *words], **how)
    os.close(theirs)
    shows = b""
    with contextlib.suppress(OSError):
        while select.select([ours], [], [], SECONDS)[0] and (part := os.read(ours, 65536)):
            shows += part
    out = b"" if out_too else process.stdout.read()
    status = process.wait(SECONDS)
    os.close(ours)
    return shows.replace(b"\r\n", b"\n").decode(), out, status


@pytest.mark.parametrize("words", [
    "", "--help", "help scan", "--version", "fly", "check", "check none", "check short", "list short", "serve short", "space short",
    "build romfs good out", "scan none", "build romfs bad out", "build cramfs unfit out", "build romfs lost out", "build ext4 good out",
    "build romfs good good", "scan --all none",
])  # fmt: skip
def test_terminals(romtool, words):
    """Says at a terminal what it says with `--explain`, in lines that are not too long."""
    for name, text in (
        ("s", "hello"), ("good", "file /a 0644 0 0 4 s\n"), ("bad", "dir /x/y 0755 0 0\n"), ("unfit", "dir /x 0755 0 300\n"),
        ("lost", "file /a 0644 0 0 4 none\n"), ("short", "-rom1fs-"),
    ):  # fmt: skip
        put(name, text.encode())
    out, err, status = romtool("--explain", *words.split())
    shows, *answer = at_terminal(romtool, words.split())
    assert (shows.split(), *answer) == (err.decode().split(), out, status)
    assert "romtool: " in shows or [it for it in shows.splitlines() if len(it) > 80] == []


RED, GREEN, END = "\x1b[31m", "\x1b[32m", "\x1b[0m"


def test_words_behind(romtool):
    """Has the words behind the line at a terminal."""
    put("short", b"-rom1fs-")
    shows = at_terminal(romtool, ["check", "short"], out_too=True)[0]
    assert shows.startswith(f"{RED}fault 2 Short at 0{END}\nromtool: short: Short (2) at 0: ")


@pytest.mark.parametrize("words", [
    "check good", "check zeros", "check wrong", "check --each good zeros", "build romfs m out", "list good",
])  # fmt: skip
def test_colours(romtool, small, words):
    """Has at a terminal a green `ok` and a red fault, unless NO_COLOR is set; in a pipe they are neither."""
    put("good", small())
    put("zeros", b"\0" * 4096)
    put("wrong", bytes_in("good")[:-1] + b"x")
    fault = "fault 3 Magic at 0"
    lines = {
        "check good": ["ok romfs 3 1"],
        "check zeros": [fault],
        "check --each good zeros": ["image good", "ok romfs 3 1", "image zeros", fault],
        "build romfs m out": ["ok 1024"],
    }.get(words) or romtool(*words.split())[0].decode().splitlines()
    coloured = [{"o": GREEN, "f": RED}.get(it[0], "") + it + (END if it[0] in "of" else "") for it in lines]
    for more, wanted in (({}, coloured), ({"NO_COLOR": "1"}, lines), ({"NO_COLOR": ""}, coloured)):
        shows = at_terminal(romtool, words.split(), out_too=True, **more)[0]
        assert [it for it in shows.splitlines() if not it.startswith("romtool: ")] == wanted, more
    assert at_terminal(romtool, words.split())[1].decode().splitlines() == lines


REFUSED = "usage\nromtool: stdout: it is a terminal, and these bytes are not text: redirect it\n"


@pytest.mark.parametrize(("words", "shown"), [
    ("numbers image", (REFUSED, 2)), ("cat image /b", (REFUSED, 2)), ("cat image /a", ("gr\u00fcn\n", 0)),
], ids=["numbers", "bytes", "text"])  # fmt: skip
def test_no_text(romtool, words, shown):
    """Has no bytes that are not text go to a terminal."""
    lay("file /a 0644 0 0 4 s\nfile /b 0644 0 0 4 b\n", s="gr\u00fcn\n".encode(), b=b"a\x1b[2J")
    romtool("build", "romfs", "m", "image")
    assert at_terminal(romtool, words.split(), out_too=True)[::2] == shown
    assert at_terminal(romtool, words.split())[::2] == ("", 0)


WAITS = "romtool: stdin: waits for requests"


@pytest.mark.parametrize(("words", "said"), [
    ("serve image", WAITS + ", such as stat /; Ctrl-D ends them; see LINES\n"),
    ("space image image", WAITS + " with a session, such as 0 stat /; Ctrl-D ends them; see LINES\n"),
    ("serve short", None), ("space image short", None),
], ids=["serve", "space", "refused", "one refused"])  # fmt: skip
def test_typed(romtool, small, words, said):
    """Says what a server waits for if its input is typed."""
    small()
    put("short", b"-rom1fs-")
    ours, theirs = pty.openpty()
    os.write(ours, b"\x04")
    shows = told(romtool, *words.split(), stdin=theirs)
    os.close(theirs)
    os.close(ours)
    assert shows == said if said else "waits" not in shows
    assert romtool(*words.split())[1] == b""


# what is printed of the tables

# the files of crates/sentences that have only whole sentences, and what these say of numbers that nothing has
TABLES = ("endings", "faults", "manifests", "misreads", "programs", "reasons", "refusals", "replies", "unfit")
NEVER_SAID = {"no rule has this number", "Linux misreads it"}


def texts_in(path):
    """Returns the texts of a file of the code, except those of bytes and those in comments."""
    code = re.sub(r"^ *//.*\n", "", text_of(path), flags=re.M)
    return [re.sub(r"\\\n *", "", it) for letter, it in re.findall(r'(b?)"([^"]*)"', code) if not letter]


def test_sentences(romtool):
    """Has each sentence of sentences.py in the program, and no other sentence in the code."""
    program, said = bytes_in(os.path.realpath(romtool.path)), all_sentences()
    # a compiler may have a short one in its instructions
    assert [it for it in said if len(it) > 32 and it.encode() not in program] == []
    of_code = {it for name in TABLES for it in texts_in("crates/sentences/src/%s.rt" % name)} - NEVER_SAID
    assert sorted(of_code ^ set(said)) == []


def test_names():
    """Has the names of misreads, and a sentence for each line of an ending."""
    assert texts_in("crates/build_commands/src/warnings.rt") == [*(name for name, _ in MISREADS.values()), "Unknown"]
    endings = set(re.findall(r'b"([a-z ]+)\\n"', text_of("crates/rom_commands/src/ending.rt")))
    assert sorted(endings - set(ENDINGS)) == BY_CAUSE


# the man page


def unformatted(text):
    """Returns a text of a man page without its fonts and escapes."""
    return re.sub(r"\\f[A-Z]|\\&", "", text).replace("\\ ", " ").replace("\\-", "-").replace("\\e", "\\")


def missing_of(name, text, sections):
    """Returns what the man page lacks of a subcommand's help, or of the program's if the name is empty. An option may be among those of
    most subcommands, whose names follow it."""
    common = sections["OPTIONS"].partition("\n.SS ")[0]
    part = sections["OPTIONS"].partition("\n.SS Options of %s\n" % name if name else "\n")[2].partition("\n.SS ")[0] + "\n"
    line = (re.search(r"^romtool %s\b.*$" % name if name else r"^romtool .*$", sections["SYNOPSIS"], re.M) or [""])[0]
    lost = [said for said in re.findall(r"^  [<[].*?  +(.*)$", text, re.M) if said + "." not in sections["SUBCOMMANDS"]]
    for letter, option, said in re.findall(r"^ +(?:(-\w), )?(--[^ ]+(?: <[^>]+>)?)  +(.*)$", text, re.M):
        if name and option in ("--explain", "--help"):
            continue
        option = re.sub("[<>]", "", option)
        row = ".TP\n%s%s\n%s.\n" % (letter + ", " if letter else "", option, said)
        in_line = "[%s" % (letter if name and letter else option.split()[0])
        is_there = row in part or name and re.search(re.escape(row) + r"\(.*\b%s\b.*\)" % name, common)
        lost += [option] if not is_there or in_line not in line else []
    shown = text.partition("Usage: ")[2].partition("\n")[0]
    words = re.findall(r"[A-Z]+", " ".join(re.findall(r"<([^>]+)>", shown)))
    last = re.search(r"\[([A-Z]+)\]\.\.\.$", shown)
    lost += ["[%s ...]" % last[1]] if last and "[%s ...]" % last[1] not in line else []
    while "[" in line:
        line = re.sub(r"\[[^][]*\]", "", line)
    there = re.findall(r" ([A-Z]+)\b", line)
    return lost + ([] if there == words else ["the words %s" % words])


@pytest.fixture(scope="session")
def page(romtool):
    """The man page."""
    made = run(TOP + "/tools/manual", "--program", romtool.path)
    assert (made.returncode, made.stderr) == (0, b"")
    return made.stdout.decode()


@pytest.fixture(scope="session")
def sections(page):
    """The sections of the man page, by their headings."""
    return dict(re.findall(r"^\.SH ([^\n]+)\n(.*?)(?=^\.SH |\Z)", unformatted(page), re.M | re.S))


def test_subcommands(romtool, sections):
    """Has each subcommand that help shows in the man page, with its sentence."""
    listed = told(romtool, "--help").partition("Commands:")[2].partition("Options:")[0]
    listed = re.findall(r"^  (\w+) +(.*)$", listed, re.M)
    assert sorted(name for name, _ in listed) == sorted([*SUBCOMMANDS, "help"])
    *rows, last = re.findall(r"^\.TP\n(\w+).*\n(.*)\.$", sections["SUBCOMMANDS"], re.M)
    assert (rows, last[0]) == (listed[:-1], "help")


@pytest.mark.parametrize("name", ["", *SUBCOMMANDS])
def test_words(romtool, sections, name):
    """Has each word and option that help shows in the man page, with its sentence."""
    assert missing_of(name, told(romtool, "help", name) if name else told(romtool, "--help"), sections) == []


def test_faults(romtool, page, sections):
    """Has the faults and the program's version in the man page."""
    rows = re.findall(r"^\.B (\d+) (\w+)\n(.*)\.$", sections["FAULTS OF IMAGES"], re.M)
    assert rows == [(str(number), *row) for number, row in FAULTS.items()]
    assert '"%s"' % romtool("version")[0].decode().strip() in page


@pytest.mark.parametrize("words", [
    pytest.param("mandoc -T lint -W warning", id="mandoc", marks=needs("mandoc")),
    pytest.param("groff -man -Tutf8 -ww -z", id="groff", marks=needs("groff")),
])  # fmt: skip
def test_lint(page, words):
    """Has nothing in the man page that a tool for these finds."""
    put("romtool.1", page.encode())
    done = run(*words.split(), "romtool.1")
    assert (done.returncode, done.stdout + done.stderr) == (0, b"")
