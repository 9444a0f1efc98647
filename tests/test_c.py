"""Checks that C programs over the library for C answer as romtool does.

The library is what tools/library builds of crates/rom_c, if --library names no other. The programs of c/ are compiled with every
warning as an error, and with AddressSanitizer and UBSan if the compiler has them.
    answers.c  answers `check`, `list` and `serve` on the cases as romtool does (see c.py), and on one directory that is built in each
               format
    calls.c    the calls that no server has, on each node of an image: positions in directories, names and parents of nodes,
               reads at a position, descriptions, and the calls by a path with a budget
    closed.c   each call on handles that are zeroed or refused, and with NULL for no bytes
    first.c    where the entry of a program is that is run in place, as docs/C.md shows it
    nodes.c    a directory of 50,000 files, listed and opened by its entries' nodes: a walk with look-ups of names would take
               longer than the check
    within.c   look-ups with a budget of names, one less and one more than the names that this script counts in the lists
               of directories; and an image whose links multiply, which ends at its budget
    numbers.c, reader.c
               a reader without check, heap and C library, of numbers that a check gave before
    header.c   what the header has by itself: its version is that of romtool, its names of faults are those of the code
    refused.c, recording.c
               a heap that records sizes and refuses each call in turn, on the images of the cases
    areas.c    the heap over an array, c/area.c, by itself and under checks
    rooms.c    checks in rooms of their own at the same time
A program does not link if the first number of its header is another one. The header is compiled as C99, C11 and C++11 to
C++20 by each compiler that is installed. What the library takes from its surroundings is six functions. If
aarch64-linux-gnu-gcc and qemu-aarch64 are installed, the library is built for aarch64, too, and answers.c, closed.c and
reader.c are run over it; with qemu-x86_64 answers.c is also run as on an old processor, over a library that is built for
these.
"""

import functools
import os
import re
import shutil
import tempfile

import c
import formats
import images
import pytest
import run
import sentences
from files import bytes_in, put, text_of
from harness import SECONDS, missing
from images import BLOCK
from romtool import prints
from targets import script

pytestmark = pytest.mark.needs("cc", "rt")
each_form = pytest.mark.parametrize("form", c.FORMATS)
AARCH64 = "aarch64-unknown-linux-gnu"
NEEDS = {"memcpy", "memmove", "memset", "rattle_alloc", "rattle_dealloc", "rattle_realloc"}
HEADER = c.INCLUDE + "/romtool.h"
# the programs, each with its heap; without one it has the kit's
OVER = {
    **dict.fromkeys(("answers", "closed", "numbers", "header", "calls")),
    **dict.fromkeys(("first", "nodes", "within"), c.HEAPS + "/heap.c"),
    **dict.fromkeys(("areas", "rooms"), c.HEAPS + "/area.c"),
    "refused": c.SOURCES + "/recording.c",
}
CPLUSPLUS = """#include "romtool_heap.h"
#include "own.h"
int main() {
    own mine;
    romtool_image image = ROMTOOL_INIT;
    romtool_file file = ROMTOOL_INIT;
    struct romtool_stat stat = romtool_stat_str(&image, "/", true);
    if (stat.error != ROMTOOL_CLOSED || romtool_open_str(&file, &image, "/") != ROMTOOL_CLOSED) {
        return 2;
    }
    return romtool_check(&image, nullptr, 0) == ROMTOOL_FAULT && image.fault == 2 ? mine.romtool_open() : 1;
}
"""
# a class that another file defines, which does not include the header
OWN = ("class own { public: int romtool_open(); };\n", '#include "own.h"\nint own::romtool_open() { return 0; }\n')
# a switch over all errors except one
SWITCH = """#include <errno.h>
#include "romtool.h"
int main(void) {
    volatile uint32_t error = ROMTOOL_MEMORY;
    switch ((enum romtool_error)error) {
%s    }
    return ROMTOOL_ERRNO(error) != ENOMEM || ROMTOOL_ERRNO(ROMTOOL_ELOOP) != ELOOP || ROMTOOL_ERRNO(ROMTOOL_ENAMETOOLONG) != ENAMETOOLONG;
}
"""
# what first.c says of paths without an entry
NO_ENTRY = (
    ("/empty", "an empty file"), ("/none", "no such file or directory"), ("/d", "is a directory"), ("/init/x", "not a directory"),
    ("/d/null", "neither a directory nor a regular file"), ("/data", "not executable"),
)  # fmt: skip
# the name of a volume, a file with two names (in romfs of one node), directories below one another
FURTHER = b"""volume boot%%20rom
%s
dir /d/e 0755 0 0
dir /d/e/f 0755 0 0
slink /d/e/up 0777 0 0 ../../init
slink /d/none 0777 0 0 nowhere
"""
# the line of the second name, and what calls.c prints last
ONE_NODE, TWO_NODES = (b"hard /d/again /init", [b"calls 787"]), (b"same /d/again 0755 0 0 /init", [b"calls 849"])


@pytest.fixture(scope="session")
def programs(archive, counts):
    """Returns a program of c/ by its name, which is compiled once."""
    with tempfile.TemporaryDirectory(prefix="romtool-") as top:
        checked = c.sanitizers(top)

        @functools.cache
        def compiled(name):
            words = ["-O2"] if name == "nodes" else [*checked, *["-pthread"] * (name == "rooms")]
            return c.program(name, top, archive, words, counts, OVER[name])

        yield compiled


@pytest.fixture(scope="session")
def other_library(pytestconfig):
    """Returns the archive for another processor, which is built in the place of this machine's; that is put back."""
    if pytestconfig.option.library:
        pytest.skip("there is only the library of --library")
    archive = os.path.join(c.CRATE, "out", "librom_c.a")
    with tempfile.TemporaryDirectory(prefix="romtool-") as top:

        def built(*words):
            kept = shutil.copy2(archive, top + "/librom_c.a")
            try:
                done = c.said([os.path.join(c.TOP, "tools", "library"), *words])
                assert done.returncode == 0, done.stdout
                return shutil.copy2(archive, f"{top}/{words[-1]}.a")
            finally:
                shutil.copy2(kept, archive)

        yield built


@pytest.fixture(scope="session")
def of_aarch64(request):
    """The archive for aarch64."""
    if lacks := missing("aarch64-linux-gnu-gcc", "qemu-aarch64"):
        pytest.skip("it needs " + lacks)
    if not c.has_headers("aarch64-linux-gnu-gcc"):
        pytest.skip("it needs libc6-dev-arm64-cross")
    request.getfixturevalue("archive")
    return request.getfixturevalue("other_library")("--target", AARCH64)


@pytest.fixture(scope="session")
def on_aarch64(of_aarch64, counts):
    """Returns a program of c/ for aarch64 by its name, as a script that has qemu run it."""
    with tempfile.TemporaryDirectory(prefix="romtool-") as top:

        @functools.cache
        def compiled(name):
            words = [*c.STRICT, f"{c.SOURCES}/{name}.c", c.HEAPS + "/heap.c", of_aarch64, "-o", f"{top}/{name}"]
            c.compiled(["aarch64-linux-gnu-gcc", "-std=c99", "-O2", "-static", *words], counts)
            return script(f"{top}/{name}.sh", f'exec qemu-aarch64 {top}/{name} "$@"\n')

        yield compiled


@pytest.fixture(scope="session")
def on_old_processor(request, counts):
    """Returns a program over the library for the first processors of x86-64, which runs where that for later ones stops."""
    if os.uname().machine != "x86_64" or missing("qemu-x86_64"):
        pytest.skip("it needs qemu-x86_64")
    request.getfixturevalue("archive")
    archive = request.getfixturevalue("other_library")("--cpu", "x86-64")
    with tempfile.TemporaryDirectory(prefix="romtool-") as top:

        @functools.cache
        def compiled(name):
            made = c.program(name, top, archive, ["-O2", "-static"], counts, c.HEAPS + "/heap.c")
            return script(made + ".sh", f'exec qemu-x86_64 -cpu qemu64 {made} "$@"\n')

        yield compiled


MACHINES = {"here": "programs", "aarch64": "on_aarch64", "old processor": "on_old_processor"}


# what the program answers, too


@pytest.mark.parametrize("asked", [pytest.param(case, id=place) for place, case in c.asked_cases()])
@pytest.mark.parametrize("machine", ["here", "aarch64"])
def test_cases(romtool, request, room, counts, machine, asked):
    """Compares the answers on the cases."""
    answers = request.getfixturevalue(MACHINES[machine])("answers")
    for words, lines in c.asked_in(asked, room):
        c.answered(romtool.path, answers, words, lines, room, machine, counts)


@pytest.mark.parametrize("word", c.SUBCOMMANDS)
@each_form
@pytest.mark.parametrize("machine", MACHINES)
def test_formats(romtool, request, forms, counts, machine, form, word):
    """Compares the answers on an image in each format."""
    answers = request.getfixturevalue(MACHINES[machine])("answers")
    c.answered(romtool.path, answers, [word, form], c.CALLS, forms, machine, counts)


@pytest.mark.parametrize("machine", ["here", "aarch64"])
def test_closed(request, room, machine):
    """Calls with handles that are closed."""
    put(room / "tree", run.file_of("romfs/tree/image"))
    done = c.said([request.getfixturevalue(MACHINES[machine])("closed"), room / "tree"])
    assert (done.returncode, done.stdout) == (0, b"closed 202\n")


# the header


@pytest.mark.needs("nm")
def test_needs(archive):
    """Needs six functions from outside."""
    lines = c.said(["nm", "-u", archive]).stdout.decode().splitlines()
    assert {line.split()[1] for line in lines if " U " in line} == NEEDS


ENUMERATED = re.search(r"^enum romtool_error \{\n(.*?)^\};\n((?:#define [^\n]*\n)+)", text_of(HEADER), re.M | re.S)
ERRORS = dict(re.findall(r"(ROMTOOL_\w+) = (\d+)", ENUMERATED[1]))


def test_macros():
    """Has the same errors as an enumeration and as macros."""
    assert dict(re.findall(r"^#define (\w+) (\d+)u$", ENUMERATED[2], re.M)) == ERRORS


def switch(room, lacks=None):
    """Compiles a switch over all errors except one."""
    put(room / "switch.c", (SWITCH % "".join("    case %s: break;\n" % it for it in ERRORS if it != lacks)).encode())
    return c.said(["cc", "-std=c99", *c.STRICT, room / "switch.c", "-o", room / "switch"])


def test_switch(room):
    """Has a compiler say which error a switch lacks."""
    done = switch(room, "ROMTOOL_BUDGET")
    assert done.returncode and b"ROMTOOL_BUDGET" in done.stdout


def test_errno(room):
    """Has errors as errno.h has them."""
    done = switch(room)
    assert done.returncode == 0, done.stdout
    assert c.said([room / "switch"]).returncode == 0


def need(compiler):
    """Skips a test if a compiler is not installed."""
    if missing(compiler):
        pytest.skip("it needs " + compiler)


@pytest.mark.parametrize("standard", ["c99", "c11"])
@pytest.mark.parametrize("compiler", ["cc", "clang"])
def test_c(room, counts, compiler, standard):
    """Compiles the headers as C."""
    need(compiler)
    put(room / "header.c", b'#include "romtool_heap.h"\nint main(void) { return 0; }\n')
    c.compiled([compiler, "-std=" + standard, *c.STRICTER, room / "header.c", "-o", room / "header"], counts)


@pytest.mark.parametrize("standard", ["c++11", "c++14", "c++17", "c++20"])
@pytest.mark.parametrize("compiler", ["c++", "clang++"])
def test_cplusplus(archive, room, counts, compiler, standard):
    """Compiles the headers as C++, in a program that is run."""
    need(compiler)
    for name, text in (("header.cc", CPLUSPLUS), ("own.h", OWN[0]), ("own.cc", OWN[1])):
        put(room / name, text.encode())
    words = [compiler, "-std=" + standard, *c.STRICTER, "-Wold-style-cast", room / "header.cc", room / "own.cc", archive, c.heap()]
    c.compiled([*words, "-o", room / "header"], counts)
    assert c.said([room / "header"]).returncode == 0


@pytest.fixture(scope="session")
def facts(programs, forms):
    """The lines of header.c."""
    done = c.said([programs("header"), "cramfs"], cwd=forms)
    assert done.returncode == 0
    return done.stdout.decode(errors="replace").splitlines()


def test_version(romtool, facts):
    """Has the version of the program."""
    version = romtool("version")[0].decode().split()[-1]
    major, minor, patch = (int(it) for it in version.split("."))
    assert facts[0] == "%s %d" % (version, 10000 * major + 100 * minor + patch)


def test_fault_names(facts):
    """Has the names of the faults."""
    names = {number: name for number, (name, _) in sentences.FAULTS.items()}
    assert facts[1:41] == [names.get(it, "Unknown") for it in range(40)]


def test_error_words(facts):
    """Has words of its own for each error."""
    words = [it for it, line in enumerate(facts[41:]) if line != "unknown error"]
    assert words == [0, 1, 2, 3, 4, 5, 6, 7, 8, 10, 13, 14, 15, 16, 17]
    assert len(set(facts[41:])) == len(words) + 1


@pytest.mark.parametrize(("number", "links"), [(3, True), (2, False), (4, False)], ids=["same", "earlier", "later"])
def test_major(archive, room, number, links):
    """Does not link a program that was compiled with a header whose first number is another one."""
    put(room / "romtool.h", re.sub(r"(?<=#define ROMTOOL_INTERFACE )3$", str(number), text_of(HEADER), flags=re.M).encode())
    done = c.said(["cc", "-std=c99", f"-I{room}", c.SOURCES + "/first.c", archive, c.heap(), "-o", room / "linked"])
    assert (done.returncode == 0, b"romtool_check_v" in done.stdout) == (links, not links)


# calls


@each_form
def test_calls(romtool, programs, forms, room, form):
    """Makes the calls that no server has, on an image with a volume's name and a file of two names."""
    line, last = ONE_NODE if form == "romfs" else TWO_NODES
    put(room / "further", c.MANIFEST + FURTHER % line)
    assert romtool("build", form, room / "further", room / "image", cwd=forms)[2] == 0
    lines = c.said([programs("calls"), room / "image"]).stdout.splitlines()
    assert (lines[:1], [it for it in lines if b"wrong" in it], lines[-1:]) == ([b"volume boot rom"], [], last)


@pytest.fixture
def entries(romtool, forms, here):
    """Returns the bytes of an image of a format in which an entry is looked for: the file `image`."""

    def built(form):
        assert romtool("build", form, "entries", here / "image", cwd=forms)[2] == 0

    return built


@each_form
def test_entry(romtool, programs, entries, form):
    """Finds where the entry of a program is, as `map` says it."""
    entries(form)
    told = romtool("serve", "image", input=b"open /init\nmap 0 0 4\n")[0].split()
    assert c.said([programs("first"), "image", "/init"]).stdout == b"at %s of the image: 00 01 02 03\n" % told[3]


@pytest.mark.parametrize(("path", "lacks"), NO_ENTRY, ids=[path for path, _ in NO_ENTRY])
@each_form
def test_no_entry(programs, entries, form, path, lacks):
    """Says what a path lacks."""
    entries(form)
    done = c.said([programs("first"), "image", path])
    assert (done.returncode, done.stdout.decode()) == (1, f"{path}: {lacks}\n")


@pytest.mark.parametrize(("words", "status", "lacks"), [
    (["none", "/"], 2, "none: No such file or directory"), ([], 2, "first IMAGE PATH"),
    (["entries", "/"], 1, "entries: the image has a fault: 3 Magic at 0"),
], ids=["no file", "no words", "no image"])  # fmt: skip
def test_no_image(programs, forms, words, status, lacks):
    """Says what is wrong with the image."""
    done = c.said([programs("first"), *words], cwd=forms)
    assert (done.returncode, done.stdout.decode()) == (status, lacks + "\n")


def timed(words, **more):
    """Returns a finished command, which has to end within a second of a processor."""
    before = os.times().children_user
    done = c.said(words, **more)
    spent = os.times().children_user - before
    assert spent < 1
    return done


@each_form
def test_nodes(romtool, programs, here, form):
    """Lists a large directory by the nodes of its entries in linear time."""
    put("many", b"".join(b"file /n%05d 0644 0 0 4 one\n" % it for it in range(50000)))
    put("one", b"x")
    assert romtool("build", form, "many", "image")[2] == 0
    assert timed([programs("nodes"), "image"]).stdout == b"50000 50000\n"


# directories, links and files; the names of a directory are in no order
BUDGETS = b"""dir / 0755 0 0
file /m 0644 0 0 4 empty
dir /d 0755 0 0
file /d/z 0644 0 0 4 empty
file /d/a 0644 0 0 4 empty
dir /d/e 0755 0 0
file /d/e/x 0644 0 0 4 empty
slink /far 0777 0 0 /d/e/../e/x
slink /d/near 0777 0 0 e/x
slink /loop 0777 0 0 d/../loop
file /a 0644 0 0 4 empty
"""
# a path, and each component that is looked up with its directory, in the order of pathname resolution
WALKS = (
    (b"/", ()), (b"/.", ()), (b"/..", ()), (b"", ()), (b"m", ()), (b"/m", ("/ m",)), (b"/nothing", ("/ nothing",)),
    (b"/d", ("/ d",)), (b"/d/", ("/ d",)), (b"/d/./../d/z", ("/ d", "/ d", "/d z")), (b"/d/e/x", ("/ d", "/d e", "/d/e x")),
    (b"/d/e/y", ("/ d", "/d e", "/d/e y")), (b"/m/x", ("/ m",)), (b"/d/" + b"n" * 256, ("/ d",)),
    (b"/far", ("/ far", "/ d", "/d e", "/d e", "/d/e x")), (b"/d/near", ("/ d", "/d near", "/d e", "/d/e x")),
    (b"/loop", ("/ loop",) + ("/ d", "/ loop") * 40),
)  # fmt: skip


def lists_of(form, image):
    """Returns the names of each directory of BUDGETS in the order of the image's lists, as another reader has them."""
    lists = {}
    if form == "romfs":
        paths = [it[3].decode() for it in formats.romfs(image) if it[2] == "header" and it[3] != b"/"]
    else:  # a cramfs list rises by the bytes of its names
        paths = sorted(line.split()[1] for line in BUDGETS.decode().splitlines()[1:])
    for path in paths:
        directory, name = path.rsplit("/", 1)
        if name not in (".", ".."):  # records of romfs, which are no names of the tree
            lists.setdefault(directory or "/", []).append(name)
    return lists


def names_compared(lists, walk):
    """Returns how many names a walk compares."""
    count = 0
    for directory, name in (it.split(" ") for it in walk):
        names = lists[directory]
        count += names.index(name) + 1 if name in names else len(names)
    return count


def multiplying():
    """Returns a manifest with 20,000 names in the root, and a link that goes over the last of them 800 times to itself."""
    names = "".join("file /n%05d 0644 0 0 4 empty\n" % it for it in range(20000))
    return names + "dir /z 0755 0 0\nslink /zz 0777 0 0 %szz\n" % ("z/../" * 800)


@each_form
def test_budgets(romtool, programs, here, form):
    """Looks names up with a budget that is just enough, and with one less and one more."""
    put("budgets", BUDGETS)
    put("empty")
    assert romtool("build", form, "budgets", "image")[2] == 0
    lists, asked, wanted = lists_of(form, bytes_in("image")), [], []
    for path, walk in WALKS:
        names = names_compared(lists, walk)
        asked += [b"%d %s\n" % (it, path) for it in (names, names + 1, 2**64 - 1, *([names - 1, 0] if names else []))]
        wanted += [(False, 0), (False, 1), (False, 2**64 - 1 - names), *([(True, 0), (True, 0)] if names else [])]
    done = c.said([programs("within"), "image"], input=b"".join(asked))
    lines = [it.split() for it in done.stdout.splitlines()]
    assert (done.returncode, len(lines)) == (0, len(asked))
    assert list(zip(asked, [(it[0] == b"16", int(it[2])) for it in lines])) == list(zip(asked, wanted))


@each_form
def test_multiplying(romtool, programs, here, form):
    """Ends a look-up of links that multiply at its budget."""
    put("multiplying", multiplying().encode())
    put("empty")
    assert romtool("build", form, "multiplying", "image")[2] == 0
    done = timed([programs("within"), "image"], input=b"1000000 /zz\n")
    assert (done.returncode, done.stdout) == (0, b"16 0 0\n")


# descriptions of images


@pytest.fixture
def described(programs, forms):
    """Returns what numbers.c prints of an image: it, with its description, as a header of C."""
    return lambda form: c.said([programs("numbers"), form], cwd=forms).stdout


@each_form
def test_described(romtool, described, forms, form):
    """Compares the description that the program prints, of the accessible bytes, with that of the library for the whole file."""
    wanted = bytes(int(it) for it in re.findall(r"\d+", described(form).decode().split("image_numbers[")[1].split("{")[1]))
    wanted = wanted[:16] + wanted[24:28] + wanted[20:]
    assert romtool("numbers", form, cwd=forms) == (wanted, b"", 0)
    text = romtool("numbers", "--c", form, cwd=forms)[0].decode()
    front = "static const unsigned char rom_numbers[48] = {\n"
    assert (text[: len(front)], bytes(map(int, re.findall(r"\d+", text[len(front) :])))) == (front, wanted)


def read(image, archive, room, counts, compiler, *emulator):
    """Runs a reader without check, heap and C library, as a process of Linux."""
    put(room / "image.h", image)
    words = [compiler, "-std=c99", "-O2", *c.STRICT, f"-I{room}", "-ffreestanding", "-fno-stack-protector", "-fno-pie"]
    words += ["-static", "-nostdlib", "-Wl,--gc-sections", c.SOURCES + "/reader.c", archive, "-o", room / "reader"]
    c.compiled(words, counts)
    assert c.said([*emulator, room / "reader"], timeout=SECONDS).returncode == sum(c.CONTENT) % 64


@pytest.mark.skipif(os.uname().machine != "x86_64", reason="it is tried on x86-64")
@each_form
def test_reader(described, archive, room, counts, form):
    """Reads an image of which numbers were made."""
    read(described(form), archive, room, counts, "cc")


@each_form
def test_reader_on_aarch64(described, of_aarch64, room, counts, form):
    """Reads it on aarch64."""
    read(described(form), of_aarch64, room, counts, "aarch64-linux-gnu-gcc", "qemu-aarch64")


# heaps


@pytest.fixture(scope="session")
def checked(romtool, forms):
    """A directory with the images of the cases, and in each format, and what `check` answers of each by its name."""
    with tempfile.TemporaryDirectory(prefix="romtool-") as top:
        names = c.images_of_cases(top)
        for form in c.FORMATS:
            names.append(form)
            shutil.copy(os.path.join(forms, form), top)
        yield top, {it: romtool("check", it, cwd=top) for it in names}


def test_refused(programs, checked):
    """Checks images over a heap that refuses each call in turn."""
    top, told = checked
    done = c.said([programs("refused"), *told], cwd=top)
    *lines, last = done.stdout.splitlines(True)
    assert done.returncode == 0
    assert dict(zip(told, lines)) == {name: out for name, (out, _, _) in told.items()}
    seen = re.match(rb"(\d+) refusals, (\d+) that a check did without, ", last)
    assert seen and int(seen[1]) > 3 * len(told) and int(seen[2]) < int(seen[1]) // 20, last
    print("heap: %s" % last.decode().strip())


def test_areas(programs, checked):
    """Checks images over areas that are exactly large enough."""
    top, told = checked
    done = c.said([programs("areas"), *told], cwd=top)
    lines = done.stdout.splitlines()
    assert (done.returncode, lines[-1][-6:]) == (0, b" steps")
    wanted = {name: b"14" if status else b"0" for name, (_, _, status) in told.items()}
    assert {name: line.split()[1] for name, line in zip(told, lines)} == wanted


def room_of(areas, room, image):
    """Returns how many bytes of an area the check of an image needs, which has no fault."""
    put(room / "blocks", image)
    line = c.said([areas, "blocks"], cwd=room).stdout.split()
    assert line[1] == b"0"
    return int(line[2])


def test_rooms_of_blocks(programs, room):
    """Needs 12 to 24 bytes more for each block of a file that does not follow: one of 256 blocks, in order and in reverse."""
    flags, count = images.WITH_SUM | images.SORTED | images.DIRECT_POINTERS, 256
    names = images.inode(images.CRAMFS_REGULAR, BLOCK * count, 92, b"a")
    root, rooms = images.inode(images.CRAMFS_DIRECTORY, len(names), 76), []
    for first, step in (BLOCK, BLOCK), (BLOCK * count, -BLOCK):
        body = (names + images.pointers(first, count, step)).ljust(BLOCK - 76, b"\0") + bytes(BLOCK * count)
        rooms.append(room_of(programs("areas"), room, images.cramfs(flags, root, body)))
    assert rooms[0] < 1000 and 12 * 255 <= rooms[1] - rooms[0] <= 24 * 255


def test_rooms(programs, checked):
    """Checks images in rooms of their own at the same time."""
    top, told = checked
    names = sorted(told)[:100]
    done = c.said([programs("rooms"), *names], cwd=top)
    assert done.stdout == prints("%d images, 0 wrong" % len(names))[0]
