"""Compares `romtool xip`, `build --xip` and the alignments of `scan` with what readelf and Linux's rules say.

The programs are compiled by `cc` with various options of the linker, or laid out here for both classes and byte orders,
then cut and changed. The expected lines are computed by xip.py.
"""

import itertools
import os
import random
import re
import shutil
import struct
import subprocess
import tempfile

import images
import pytest
import traced
from edges import refused
from files import bytes_in, put
from romtool import FORMATS, answer, escaped, refuses
from xip import PAGE, changed_line, elf, expected, flat_line, manifest, segments

pytestmark = pytest.mark.usefixtures("here")
SOURCE = '#include <stdio.h>\nint zeros[5000]; int one = 1;\nint main(void) { return printf("%d", zeros[one]) < 0; }\n'
LIBRARY = "int twice(int x) { return 2 * x; }\n"
# the text has the address of a datum, so that it is relocated
RELOCATED = ".globl f\n.type f, @function\nf: movabs $g, %rax\nret\n.data\n.globl g\ng: .quad 1\n"
BUILT = {
    "static": ["-static"],
    "together": ["-static", "-Wl,-z,noseparate-code"],
    "of 64K": ["-static", "-Wl,-z,max-page-size=0x10000"],
    "dynamic": [],
    "fixed": ["-no-pie"],
}
CRAMFS = FORMATS[1:]
NO_PROGRAM = b"total 0 0 0 0\n", b"", 0
compiling = pytest.mark.needs("cc", "readelf")
each_format = pytest.mark.parametrize("format", FORMATS)
each_class = pytest.mark.parametrize(
    ("wide", "order"), [*itertools.product((False, True), "<>")], ids=["32 little", "32 big", "64 little", "64 big"]
)


def lay(text, **sources):
    """Writes the manifest `m`, and sources by their names."""
    put("m", text.encode())
    for name, held in sources.items():
        put(name, held)


def build(romtool, format="cramfs"):
    """Builds the file `image` of the manifest `m`, and returns its bytes."""
    assert romtool("build", format, "m", "image")[1:] == (b"", 0)
    return bytes_in("image")


@pytest.fixture(scope="session")
def compiled():
    """A directory with programs, a library, an object file and a script."""
    with tempfile.TemporaryDirectory(prefix="romtool-") as top:
        put(top + "/main.c", SOURCE.encode())
        put(top + "/library.c", LIBRARY.encode())
        os.mkdir(top + "/in")
        for name, words in BUILT.items():
            subprocess.run(["cc", "-O1", "-o", "in/" + name, "main.c", *words], check=True, cwd=top)
        subprocess.run(["cc", "-shared", "-fPIC", "-o", "in/library.so", "library.c"], check=True, cwd=top)
        subprocess.run(["cc", "-c", "-o", "in/object.o", "main.c"], check=True, cwd=top)
        put(top + "/in/script", b"#!/bin/sh\nexit 0\n", 0o755)
        yield top + "/in"


NAMES = sorted([*BUILT, "library.so"])


@compiling
@each_format
@pytest.mark.parametrize("align", [PAGE, 4])
def test_programs(romtool, compiled, format, align):
    """Compares compiled programs and libraries with their segments."""
    shutil.copytree(compiled, ".", dirs_exist_ok=True)
    files = [("/" + escaped(it.encode()), bytes_in(it), list(segments(it))) for it in NAMES]
    files = sorted([*files, *(("/" + it, bytes_in(it), None) for it in ("object.o", "script"))])
    lay(manifest(["object.o", "script", *NAMES], align if format != "romfs" else max(align, 16)))
    image, is_romfs = build(romtool, format), format == "romfs"
    for base in (0, 0x8000000, 0x8000200, 0x123456000):
        assert romtool("xip", "--base", "%x" % base, "image") == expected(image, files, base, is_romfs)
    assert romtool("xip", "--no-mmu", "image") == expected(image, files, 0, is_romfs, no_mmu=True)
    advice = romtool("xip", "--advice", "image")
    assert advice == expected(image, files, 0, is_romfs, advice=True)
    assert align != PAGE or b"object " in advice[0] and (is_romfs or advice[2] == 0)


@compiling
def test_relocated_text(romtool):
    """Finds a compiled library whose text has relocations."""
    put("moved.s", RELOCATED.encode())
    subprocess.run(["cc", "-shared", "-nostdlib", "-Wl,-z,notext", "-o", "moved.so", "moved.s"], check=True, stderr=subprocess.PIPE)
    told = subprocess.run(["readelf", "-dW", "moved.so"], check=True, stdout=subprocess.PIPE, text=True).stdout
    if "TEXTREL" not in told:
        pytest.skip("the linker makes no relocations of text")
    lay(manifest(["moved.so"], PAGE))
    image, files = build(romtool), [("/moved.so", bytes_in("moved.so"), list(segments("moved.so")))]
    assert romtool("xip", "image") == expected(image, files, moved=["/moved.so"])


@each_class
@pytest.mark.parametrize(("tags", "is_moved"), [
    pytest.param([(22, 0), (0, 0)], True, id="DT_TEXTREL"),
    pytest.param([(30, 4), (0, 0)], True, id="DT_FLAGS"),
    pytest.param([(30, 8), (24, 0), (0, 0)], False, id="other flags"),
    pytest.param([(30, 8), (1, 4), (30, 6), (0, 0)], True, id="two flags"),
    pytest.param([(0, 0), (22, 0)], False, id="behind DT_NULL"),
    pytest.param([(1, 22), (2, 30)], False, id="values"),
])  # fmt: skip
def test_relocations(romtool, wide, order, tags, is_moved):
    """Finds a library whose text has relocations: by DT_TEXTREL or DT_FLAGS, and not behind DT_NULL."""
    held = b"".join(struct.pack(order + ("QQ" if wide else "II"), *it) for it in tags)
    for length in (len(held), 2**31):  # the second goes past the file
        more = (2, 6, 1000, 0x11000, length, length)
        one = elf(3, [(1, 5, 0, 0x10000, PAGE, PAGE), more], 1000 + len(held), wide, order, (1000, held))
        one += bytes(PAGE - len(one)) if length == len(held) else b""
        if len(one) < PAGE:
            one = elf(3, [(1, 5, 0, 0x10000, len(one), len(one)), more], len(one), wide, order, (1000, held))
        lay(manifest(["one"], PAGE), one=one)
        build(romtool)
        lines = b"not /one 0x00001000 textrel 1\ntotal 1 0 1 1\n" if is_moved else b"xip /one 0x00001000 1 0 0\ntotal 1 1 0 0\n"
        assert romtool("xip", "image") == (lines, b"", int(is_moved))


def reaching(wide, order):
    """Returns a program with a segment that cannot be written, and reaches the last page."""
    return elf(2, [(1, 5, 0, 0x10000, 5000, 5000)], 5000, wide, order)


@each_class
@pytest.mark.parametrize("format", CRAMFS)
@pytest.mark.parametrize("align", [4, PAGE])
def test_shared(romtool, wide, order, format, align):
    """Copies the last page of a segment that cannot be written, if other data is in it."""
    one = reaching(wide, order)
    half = elf(2, [(1, 5, 0, 0x10000, 4096, 4096), (1, 6, 4096, 0x21000, 904, 9000)], 5000, wide, order)
    lay(manifest(["one"], PAGE) + manifest(["data"], align) + manifest(["two"], PAGE), one=one, two=half, data=b"x" * 100)
    files = [("/one", one, [(0, 0x10000, 5000, 5000, 0)])]
    files += [("/two", half, [(0, 0x10000, 4096, 4096, 0), (4096, 0x21000, 904, 9000, 1)])]
    want = expected(build(romtool, format), files)
    assert b"shared /one" in want[0] and b"shared /two" not in want[0]
    assert romtool("xip", "image") == want


def test_padded(romtool):
    """Copies no last page that is padded."""
    one = reaching(True, ">")
    lay(manifest(["one"], PAGE) + manifest(["data"], PAGE), one=one + bytes(2 * PAGE - len(one)), data=b"x" * 100)
    build(romtool)
    assert b"shared" not in romtool("xip", "image")[0]


@each_class
@pytest.mark.parametrize(("kind", "loads", "want", "of_program"), [
    # one segment that can be written, and one without bytes of the file
    pytest.param(2, [(1, 7, 0, 0x10000, 5000, 5000)], "not %s writable 2", "not %s writable 2", id="writable"),
    pytest.param(2, [(1, 6, 0, 0x10000, 0, 5000)], "xip %s 0 0 2", "xip %s 0 0 2", id="no bytes"),
    # zeros behind the bytes: in the last page, in more pages, and behind a whole page
    pytest.param(3, [(1, 5, 0, 0x10000, 5000, 5001)], "xip %s 1 1 0", "xip %s 2 0 0", id="last page"),
    pytest.param(3, [(1, 5, 0, 0x10000, 5000, 15000)], "xip %s 1 1 2", "xip %s 2 0 2", id="more pages"),
    pytest.param(3, [(1, 5, 0, 0x10000, PAGE, 5000)], "xip %s 1 0 1", "xip %s 1 0 1", id="whole page"),
    pytest.param(3, [(1, 5, 904, 0x10000 + 904, PAGE - 904, 5000)], "xip %s 1 0 1", "xip %s 1 0 1", id="rest of a page"),
    pytest.param(3, [(1, 5, 0, 0x10000, 4000, 4001)], "not %s writable 1", "xip %s 1 0 0", id="only page"),
    pytest.param(
        3, [(1, 4, 0, 0x10000, 4000, 4001), (1, 5, PAGE, 0x21000, PAGE, PAGE)], "xip %s 1 1 0", "xip %s 2 0 0", id="two segments"
    ),
])  # fmt: skip
def test_written(romtool, wide, order, kind, loads, want, of_program):
    """Copies programs of which each page is written, and pages with zeros behind the bytes of a segment of a library."""
    dynamic = [(2, 6, PAGE, 0x30000, 16, 16)]
    for number, more, line in ((kind, dynamic, want), (3, [], of_program), (2, dynamic, of_program)):
        lay(manifest(["one"], PAGE), one=elf(number, loads + more, 2 * PAGE, wide, order))
        build(romtool)
        for words, text in (((), line), (("--no-mmu",), of_program)):
            out, _, status = romtool("xip", *words, "image")
            first = text % "/one 0x00001000"
            assert (out.decode().splitlines()[0], status) == (first, int(first.startswith("not")))


def test_written_and_shared(romtool):
    """Counts a page once that is written, and is the shared last page."""
    one = elf(3, [(1, 5, 0, 0x10000, 5000, 5001), (2, 6, 1000, 0x30000, 16, 16)], 5000)
    lay(manifest(["one"], PAGE) + manifest(["data"], 4), one=one, data=b"x" * 100)
    build(romtool)
    assert romtool("xip", "image") == (b"xip /one 0x00001000 1 1 0\ntotal 1 1 1 0\n", b"", 0)


def changed_files():
    """Returns files with headers that are cut or changed, in both classes and byte orders."""
    rng, files = random.Random(20), {}
    for wide, order in itertools.product((False, True), "<>"):
        name = f"{wide:d}{'lb'[order == '>']}"
        loads = [(1, 5, 0, 0x10000, 4096, 4096), (1, 6, 5000, 0x22388, 904, 9000), (4, 4, 100, 0, 20, 20)]
        whole = elf(rng.choice((2, 3)), loads, 2 * PAGE, wide, order)
        files |= {f"c{name}{cut}": whole[:cut] for cut in (*range(0, 240, 4), 5000, 5903, 5904)}
        files |= {f"k{name}{kind}": elf(kind, loads, 2 * PAGE, wide, order) for kind in range(6)}
        files |= {f"n{name}{count}": elf(2, loads[:1] * count, 4 * PAGE, wide, order) for count in (0, 1, 73, 74, 128, 129)}
        files |= {f"e{name}{entry}": elf(2, loads, 2 * PAGE, wide, order, entry=entry) for entry in (0, 31, 32, 33, 55, 56, 57)}
        for table in (0, 52, 64, 8000, 8192 - 96, 8192 - 168, 2**31, 2**32 - 1):
            files[f"t{name}{table}"] = elf(2, loads, 2 * PAGE, wide, order, table=table)
        for number in range(150):
            held = bytearray(whole)
            for _ in range(rng.randint(1, 3)):
                held[rng.randrange(52, 240) if rng.random() < 0.8 else rng.randrange(240)] = rng.choice((0, 1, 2, 16, 127, 255))
            files[f"r{name}{number}"] = bytes(held)
    return files


def lines_of(files, line_of):
    """Returns the lines for files, without their addresses, and that of the totals."""
    told = [line_of("/" + name, files[name]) for name in sorted(files)]
    return [*"".join(line for line, _ in told).splitlines(), "total %d %d %d %d" % tuple(map(sum, zip(*(more for _, more in told))))]


def without_addresses(out):
    """Returns the lines of `xip` with the address 0."""
    return re.sub(r"0x[0-9a-f]{8} ", "0 ", out.decode()).splitlines()


def test_changed(romtool):
    """Reads headers that are cut, and headers with changed bytes, in both classes and byte orders."""
    files = changed_files()
    lay(manifest(files, PAGE), **files)
    image = build(romtool)
    out, err, status = romtool("xip", "image")
    wanted = lines_of(files, lambda path, held: changed_line(path, held, 0))
    assert (without_addresses(out), err, status) == ([it.replace("0x00000000", "0") for it in wanted], b"", 1)
    assert all(held in image for held in files.values())


@pytest.fixture(scope="session")
def flat_files():
    """Programs in the flat format, some of them changed or cut."""
    rng, files = random.Random(7), {}
    for number in range(400):
        words = [4, 64, 5000, 6000, 16000, 4096, 6000, 0, 0]
        for _ in range(rng.randint(0, 2)):
            words[rng.choice((0, 2, 3, 4, 8))] = rng.choice(
                (0, 1, 2, 4, 5, 8, 63, 64, 4096, 4097, 6001, 9000, 2**28, 2**28 + 5000, 2**32 - 1)
            )
        held = b"bFLT" + struct.pack(">9I", *words) + bytes(24) + b"\x5a" * 5936
        files["f%d" % number] = held[: rng.choice((6000, 6000, 6000, 63, 64, 5000, 5001, 3))]
    return files


@each_format
def test_flat(romtool, flat_files, format):
    """Has programs in the flat format only without an MMU, in place unless they are read into memory."""
    lay(manifest(flat_files, 16), **flat_files)
    build(romtool, format)
    assert romtool("xip", "image") == NO_PROGRAM
    out, err, status = romtool("xip", "--no-mmu", "image")
    assert (without_addresses(out), err, status) == (lines_of(flat_files, flat_line), b"", 1)


@pytest.mark.parametrize("steps", [(0, 1, 2), (0, 2, 1), (1, 0, 2)], ids=["in order", "last two", "first two"])
def test_scattered(romtool, steps):
    """Reads the type of a program in two pieces, which other packers may write, in the first piece."""
    held = elf(3, [(1, 5, 0, 0x10000, 3 * PAGE, 3 * PAGE)], 3 * PAGE)
    other = held[:PAGE] + b"\x5a" * (2 * PAGE)
    names = images.inode(0o100755, 3 * PAGE, 76 + 16, b"prog")
    first = -(-(76 + len(names) + 12) // PAGE) * PAGE
    body = names + struct.pack("<3I", *(images.PLAIN | (first + PAGE * it) // 4 for it in steps))
    blocks = [other[PAGE * it : PAGE * it + PAGE] for it in range(3)]
    body += bytes(first - 76 - len(body)) + b"".join(blocks[steps.index(it)] for it in range(3))
    flags = images.WITH_SUM | images.SORTED | images.DIRECT_POINTERS
    put("image", images.cramfs(flags, images.inode(images.CRAMFS_DIRECTORY, len(names), 76), body))
    place = first + PAGE * steps[0]
    if steps == (0, 1, 2):
        assert romtool("xip", "image") == (b"xip /prog 0x%08x 3 0 0\ntotal 1 3 0 0\n" % place, b"", 0)
    else:
        assert romtool("xip", "image") == (b"not /prog 0x%08x scattered 3\ntotal 1 0 3 1\n" % place, b"", 1)


@pytest.mark.parametrize("format", ["romfs", "cramfs"])
def test_words(romtool, format):
    """Refuses wrong addresses, finds nothing in an image without programs, and reports a fault on standard error."""
    lay(manifest(["a"], 4), a=b"x")
    image = build(romtool, format)
    assert romtool("xip", "image") == NO_PROGRAM
    order, place = (">", 8) if format == "romfs" else ("<", 4)
    size = struct.unpack_from(order + "I", image, place)[0]
    assert romtool("xip", "--base", "%x" % (2**64 - size), "image") == NO_PROGRAM
    assert romtool("xip", "--base", "%x" % (2**64 - size + 1), "image") == refuses("usage")
    os.truncate("image", 50)
    out, err, status = romtool("xip", "image")
    assert (out, status) == (b"", 1) and re.fullmatch(rb"fault \d+ \w+ at \d+\n", err)


def lay_programs(text):
    """Writes programs, and a manifest that ends with a text."""
    text_segment = (1, 5, 0, 0x10000, 8192, 8192)
    moved = elf(3, [text_segment, (2, 6, 900, 0x20000, 32, 32)], 8192, True, "<", (900, struct.pack("<4Q", 22, 0, 0, 0)))
    lay(
        "# nothing\ndir /d 0755 0 0\nfile /d/data 0644 0 0 4 data\n" + text,
        good=elf(3, [text_segment], 8192),
        loose=elf(2, [(1, 7, 0, 0x10000, 8192, 8192)], 8192),
        bent=elf(2, [(1, 5, 0, 0x10004, 8192, 8192)], 8192),
        torn=elf(2, [text_segment], 8192, table=9000),
        moved=moved,
        data=b"x" * 9,
    )
    put("out", b"old")


@pytest.mark.parametrize(("text", "line"), [
    pytest.param("file /good 0755 0 0 4096 good\n", None, id="good"),
    pytest.param("file /good 0755 0 0 8192 good\nsame /also 0755 0 0 /good\n", None, id="two names"),
    pytest.param("file /loose 0755 0 0 4 loose\n", "4 writable /loose", id="loose"),
    pytest.param("file /good 0755 0 0 4 good\n", "4 unaligned /good", id="unaligned"),
    pytest.param("file /d/%E4%20g 0755 0 0 2048 good\n", "4 unaligned /d/%E4%20g", id="below"),
    pytest.param(
        "file /good 0755 0 0 4096 good\n\nfile /a 0644 0 0 4 good\nfile /b 0644 0 0 4 good\n", "6 unaligned /a", id="the first"
    ),
    pytest.param("file /bent 0755 0 0 4096 bent\n", "4 unloadable /bent", id="bent"),
    pytest.param("file /torn 0755 0 0 4096 torn\n", "4 table /torn", id="torn"),
    pytest.param("file /moved 0755 0 0 4096 moved\n", "4 textrel /moved", id="moved"),
])  # fmt: skip
def test_builds(romtool, text, line):
    """Refuses by `build --xip` the first program that is not executed in place, and leaves OUT as it was."""
    lay_programs(text)
    for format in CRAMFS:
        if line:
            refused(romtool, (b"xip %s\n" % line.encode(), b"", 1), "--xip", format, "m", "out")
        else:
            assert romtool("build", "--xip", format, "m", "image")[1:] == (b"", 0)
            assert romtool("xip", "image")[2] == 0
        build(romtool, format)
        assert (b"\nnot " in b"\n" + romtool("xip", "image")[0]) == bool(line)
    assert romtool("build", "--xip", "romfs", "m", "out")[2] == 1
    assert bytes_in("out") == b"old"


def test_sentence(romtool):
    """Says what to do if the dynamic linker writes into the text."""
    lay_programs("file /moved 0755 0 0 4096 moved\n")
    told = romtool("--explain", "build", "--xip", "cramfs", "m", "out")[1]
    assert told == b"romtool: m:4: the dynamic linker writes into its text; compile it with -fPIC\n"


@pytest.mark.needs("strace")
def test_failed_calls(romtool):
    """Leaves OUT as it was or the whole image, whichever call of a `build --xip` fails, and calls no program misplaced."""
    lay(manifest(["data"], 4) + manifest(["good"], PAGE), good=elf(3, [(1, 5, 0, 0x10000, 8192, 8192)], 8192), data=b"x" * 9)
    words, ends = ("build", "--xip", "cramfs", "m", "out"), 0
    romtool(*words)
    image = bytes_in("out")
    for call in traced.calls(romtool.path, *words)[0]:
        if call.name in ("openat", "read", "pread64", "statx"):
            put("out", b"old")
            done = answer(traced.run(romtool.path, *words, told=traced.inject(call.name, "error=EIO", call.number)))
            ends += done[2] != 0
            assert done[2] in (0, 3) and b"xip" not in done[0], (call.text, done)
            assert bytes_in("out") == (b"old" if done[2] else image), (call.text, done)
    assert ends


def laid_out_files():
    """Returns files that are no compiled programs, with their alignments."""
    segment = (1, 4, 0, 0, PAGE, PAGE)
    return {
        "flat": (b"bFLT" + bytes(60), PAGE),
        "short": (b"bFL", 4),
        "executable": (b"x", 4),
        "behind": (elf(3, [segment], 3 * PAGE, table=3 * PAGE - 56)[: 3 * PAGE - 56], 4),
        "cut": (elf(3, [segment], 119), 4),
        "big": (elf(3, [segment], PAGE, order=">", wide=False), PAGE),
        "empty": (elf(3, [(1, 4, 0, 0, 0, PAGE)], PAGE), 4),
        "core": (elf(4, [segment], PAGE), 4),
    }


@pytest.fixture
def aligned(compiled):
    """The alignments of the files in the directory `in`, by their names."""
    shutil.copytree(compiled, "in")
    want = {}
    for name in os.listdir("in"):
        want[name] = PAGE if name in NAMES and any(not it[4] and it[2] for it in segments("in/" + name)) else 4
    for name, (held, align) in laid_out_files().items():
        put("in/" + name, held, 0o755)
        want[name] = align
    return want


@compiling
@each_format
def test_alignments(romtool, aligned, format):
    """Aligns by `scan --all --align N` exactly the programs and libraries with a segment that cannot be written, and bFLT."""
    told = romtool("scan", "--all", "--for", format, "--align", str(PAGE), "in")[0].decode()
    got = {line.split()[1][1:]: int(line.split()[5]) for line in told.splitlines() if line.startswith("file")}
    assert got == {escaped(name.encode()): align for name, align in aligned.items()}


@compiling
def test_aligned_builds(romtool, aligned):
    """Refuses by `build --xip` what is left of them."""
    put("m", romtool("scan", "--all", "--for", "cramfs", "--align", str(PAGE), "in")[0])
    out = romtool("build", "--xip", "cramfs", "m", "image")[0]
    assert out.startswith(b"xip ") and (b" table /cut" in out or b" table /behind" in out)
