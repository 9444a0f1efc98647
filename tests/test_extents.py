"""Compares `map --all`, `which`, `map --c`, `map --ld` and `map --svg` with the extents that another reader finds (see formats.py).

A C program and a C++ program that include the header, and a program that is linked with the script, have to see each regular
file's address, length and path. The picture has to be well-formed, and its bars have to have each byte of the file once.
"""

import itertools
import random
import re
import struct
import subprocess
import xml.etree.ElementTree as tree
from functools import partial

import images as layouts
import pytest
from conftest import of_case
from formats import BASES, ranges, shown, superblock
from harness import SECONDS
from romtool import escaped, raw
from test_map import mapped

CODES = {ord("/"): "_", ord("Z"): "ZZ", ord("."): "Zd", ord("-"): "Zh", ord("_"): "Zu"}
# paths whose macros could have the name of another macro if the names were formed in a simpler way, and what
# docs/PROTOCOL.md says of them, written manually
TRICKY_NAMES = {
    "/a": "ROM_a",
    "/a.b": "ROM_aZdb",
    "/aZdb": "ROM_aZZdb",
    "/a-b": "ROM_aZhb",
    "/a_b": "ROM_aZub",
    "/a%2Fb": "ROM_aZx252Fb",
    "/aZx252Fb": "ROM_aZZx252Fb",
    "/a_ADDRESS": "ROM_aZuADDRESS",
    "/a_LENGTH": "ROM_aZuLENGTH",
    "/a_PATH": "ROM_aZuPATH",
    "/b/ADDRESS": "ROM_b_ADDRESS",
    "/b/LENGTH": "ROM_b_LENGTH",
    "/b/PATH": "ROM_b_PATH",
    "/b/_": "ROM_b_Zu",
    "/b_": "ROM_bZu",
    "/BASE": "ROM_BASE",
    "/SIZE": "ROM_SIZZE",
    "/MAP/H": "ROM_MAP_H",
    "/MAP_H": "ROM_MAPZuH",
    "/ADDRESS": "ROM_ADDRESS",
    "/LENGTH": "ROM_LENGTH",
    "/PATH": "ROM_PATH",
    "/Z": "ROM_ZZ",
    "/ZZ": "ROM_ZZZZ",
    "/z": "ROM_z",
    "/Zu": "ROM_ZZu",
    "/_": "ROM_Zu",
    "/__": "ROM_ZuZu",
}
COMPILERS = {"cc": ["-std=c99", "-x", "c"], "c++": ["-std=c++17", "-x", "c++"]}
PROGRAM = """#include <stdio.h>
#include "image.h"
static void show(unsigned long long a, unsigned long n, const char *s, unsigned long k)
{ unsigned long i; printf("%%llx %%lu ", a, n); for (i = 0; i < k; i++) printf("%%02x", (unsigned char)s[i]); puts(""); }
int main(void) { %s return Flash_SIZE == 0; }
"""
MOST_OF_PICTURE = 2 * 2**20
FIRST_ROW = 900  # where the first row of a picture is, below its legend
NOTE = "{http://www.w3.org/2000/svg}"


# further images


def shared(romtool, room, seed):
    """Makes a cramfs image of random files whose blocks are those of each other, in any order. Files may share block pointers."""
    chance = random.Random(seed)
    tables = [[chance.randrange(4) for _ in range(chance.randint(1, 5))] for _ in range(chance.randint(1, 6))]
    names = [b"f%03d" % number for number in range(chance.choice((len(tables), 12)))]
    at = 76 + 16 * len(names)
    front = -(-(at + 4 * sum(map(len, tables))) // 4096) * 4096
    places = [at + 4 * it for it in itertools.accumulate(map(len, tables), initial=0)]
    inodes, pointers = b"", b""
    for number, name in enumerate(names):
        it = number if len(names) == len(tables) else chance.randrange(len(tables))
        inodes += layouts.inode(layouts.CRAMFS_REGULAR, 4096 * len(tables[it]), places[it], name)
    for table in tables:
        pointers += struct.pack(f"<{len(table)}I", *(layouts.PLAIN | (front + 4096 * block) // 4 for block in table))
    body = layouts.padded(bytes(76) + inodes + pointers, 4096)[76:] + chance.randbytes(4 * 4096)
    root = layouts.inode(layouts.CRAMFS_DIRECTORY, len(inodes), 76)
    return of_case(romtool, room, layouts.cramfs(layouts.DIRECT_POINTERS, root, body))


def empty_beside(romtool, room):
    """Makes a cramfs image of files whose offset is that of the block pointers of one of them, and of which the others are empty."""
    at = 76 + 3 * 16
    inodes = b"".join(layouts.inode(layouts.CRAMFS_REGULAR, size, at, name) for name, size in ((b"a", 0), (b"b", 5), (b"c", 0)))
    body = inodes + layouts.pointers(at + 4, 1) + b"hello"
    root = layouts.inode(layouts.CRAMFS_DIRECTORY, len(inodes), 76)
    return of_case(romtool, room, layouts.cramfs(layouts.DIRECT_POINTERS, root, body))


def odd_names(romtool, room):
    """Builds an image whose names have each byte that a name may have."""
    names = [escaped(b"/" + bytes([byte]) + b"?<&\"'>") for byte in range(1, 256) if byte not in b"/."]
    return romtool.build(room, [f"file {it} 0644 0 0 4 source0" for it in names], "cramfs", [b"contents" * 2000])


def tricky_names(romtool, room):
    """Builds an image with the paths of TRICKY_NAMES."""
    lines = [f"dir {path} 0755 0 0" for path in ("/b", "/MAP")]
    lines += ["file %s 0644 0 0 4 source0" % path.replace("%", "%25") for path in TRICKY_NAMES]
    return romtool.build(room, lines, "romfs", [b"x"])


def many(romtool, room):
    """Builds an image of 20,000 files."""
    lines = []
    for folder in (f"/{'d' * 60}{it:03d}" for it in range(200)):
        lines += [f"dir {folder} 0755 0 0", *(f"file {folder}/{'<&' * 30}{it:05d} 0644 0 0 4 source0" for it in range(100))]
    return romtool.build(room, lines, "romfs", [b"x" * 100])


NAMED = {"empty beside": empty_beside, "odd names": odd_names, "tricky names": tricky_names}
ALL = pytest.mark.images(also={**NAMED, "many": many, **{f"shared {it}": partial(shared, seed=it) for it in range(1, 121)}})
COMPILED = pytest.mark.images(cases=False, step=4, also={**NAMED, **{f"shared {it}": partial(shared, seed=it) for it in range(4, 121, 4)}})


# lines


@ALL
def test_reader(image):
    """Tests the reader itself: it has each byte of a file in one extent, or in equal ones."""
    reach = 0
    for start, length in dict.fromkeys(it[:2] for it in ranges(image.data)):
        assert start == reach
        reach += length
    assert reach == len(image.data)


@ALL
def test_all(romtool, image, chance):
    """Compares the lines of `map --all` with the extents."""
    base = chance.choice(BASES)
    wanted = "".join(shown(it, base) + "\n" for it in ranges(image.data)).encode()
    assert romtool("map", "--all", "--base", f"{base:x}", image.path) == (wanted, b"", 0)


def lines_at(lines, base, at):
    """Yields what `which` says of a byte of an image."""
    for it in lines:
        if it.start <= at < it.start + it.length:
            yield shown(it, base) + (f" {it.offset + at - it.start}" if it.kind == "data" else "") + "\n"


@ALL
def test_which(romtool, image, chance):
    """Compares `which` with the extents that contain some addresses. One that is outside is refused."""
    base, lines, size = chance.choice(BASES), ranges(image.data), len(image.data)

    def which(*places):
        return romtool("which", "--base", f"{base:x}", image.path, *(f"{base + it:x}" for it in places))

    places = [0, size - 1] + [chance.randrange(size) for _ in range(5)]
    places += [it.start + chance.randrange(it.length) for it in chance.sample(lines, min(8, len(lines)))]
    assert which(*places) == ("".join(line for at in places for line in lines_at(lines, base, at)).encode(), b"", 0)
    first = "".join(lines_at(lines, base, 0))
    assert which(0, -1 if base else size) == ((first + "err ERANGE\n").encode(), b"", 1)


# headers and scripts


def identifier(path):
    """Returns what a path has in a name for C."""
    return "".join(CODES.get(it) or (chr(it) if chr(it).isalnum() and it < 128 else f"Zx{it:02x}") for it in path)


def printed(image, base, form):
    """Returns the header or the script of an image, and its files: name, path, address or None, and length."""
    done = image.romtool("map", form, "--prefix", "Flash", "--base", f"{base:x}", image.path)
    assert done[1:] == (b"", 0)
    files = []
    for path, runs in mapped(image, base).items():
        address = base + runs[0][0] if len(runs) == 1 else None
        files.append(("Flash" + identifier(raw(path)), raw(path), address, sum(it[1] for it in runs)))
    assert len({it[0] for it in files}) == len(files), "names are not unique"
    return done[0], files


@COMPILED
@pytest.mark.needs(*COMPILERS)
def test_header(image, room, chance):
    """Compares what programs in C and C++ see in the header with the list and the map."""
    header, files = printed(image, chance.choice(BASES), "--c")
    (room / "image.h").write_bytes(header)
    assert not [it[0] for it in files if it[2] is None and b"%s_ADDRESS " % it[0].encode() in header]
    calls = (
        f"show({f'{name}_ADDRESS' if at is not None else 0}, {name}_LENGTH, {name}_PATH, sizeof {name}_PATH - 1);"
        for name, _, at, _ in files
    )
    (room / "main.c").write_text(PROGRAM % "\n".join(calls))
    wanted = "".join(f"{at or 0:x} {length} {path.hex()}\n" for _, path, at, length in files)
    for compiler, options in COMPILERS.items():
        flags = ["-Wall", "-Wextra", "-Werror", "-Wno-unused-function", "-Wno-long-long", *options]
        subprocess.run([compiler, *flags, "main.c", "-o", "main"], cwd=room, check=True)
        assert subprocess.run([room / "main"], stdout=subprocess.PIPE, timeout=SECONDS, text=True).stdout == wanted, compiler


@COMPILED
@pytest.mark.needs("cc", "nm")
def test_script(image, room, chance):
    """Compares the symbols that GNU ld takes from the script with the list and the map."""
    base = chance.choice(BASES)
    script, files = printed(image, base, "--ld")
    found = re.findall(r"^PROVIDE\((\w+) = (\w+)\);$", script.decode("ascii"), re.M)
    wanted = {"Flash_BASE": base, "Flash_SIZE": superblock(image.data)[0]}
    for name, _, address, length in files:
        wanted |= {f"{name}_LENGTH": length} | ({f"{name}_ADDRESS": address} if address is not None else {})
    assert sorted((name, int(value, 0)) for name, value in found) == sorted(wanted.items())
    (room / "image.ld").write_bytes(script)
    names = "".join(f"extern const char {it}[];\n" for it in wanted), ", ".join(wanted)
    (room / "symbols.c").write_text("%sconst char *const symbols[] = {%s};\nint main(void) { return 0; }\n" % names)
    words = ["cc", "-no-pie", "-mcmodel=large", "symbols.c", "image.ld", "-o", "symbols"]
    subprocess.run(words, cwd=room, check=True)
    table = subprocess.run(["nm", "symbols"], cwd=room, stdout=subprocess.PIPE, text=True, check=True).stdout
    assert {line.split()[2]: int(line.split()[0], 16) for line in table.splitlines() if "Flash" in line} == wanted


@pytest.mark.images(cases=False, seeds=0, also={"tricky names": tricky_names})
def test_names(romtool, image):
    """Compares the names of the header with those of docs/PROTOCOL.md."""
    header, err, status = romtool("map", "--c", image.path)
    wanted = ["ROM_MAP_H", "ROM_BASE", "ROM_SIZE"]
    wanted += [name + what for name in TRICKY_NAMES.values() for what in ("_ADDRESS", "_LENGTH", "_PATH")]
    assert sorted(re.findall(r"^#define (\w+)", header.decode("ascii"), re.M)) == sorted(wanted)
    assert (err, status) == (b"", 0)


def test_prefix(romtool, room):
    """Tests the front of names for C: a letter, and letters, digits and underscores."""
    path = shared(romtool, room, 1).path
    for prefix in "1", "a-b", "_a", "a b", "\xe4":
        assert romtool("map", "--c", "--prefix", prefix, path) == (b"", b"usage\n", 2)
    out, err, status = romtool("map", "--c", "--prefix", "a_1", path)
    assert re.search(rb"^#define a_1_f000_LENGTH ", out, re.M) and (err, status) == (b"", 0)


CHOSEN = (([], range(12)), (["--only", "f00[1-3]"], range(1, 4)), (["--only", "/f00?/", "--only", "f010"], range(11)))
REFUSED = ("--only x", "--ld --c", "--ld --only [", "--svg --only x", "--ld --prefix 1")


def test_only(romtool, room):
    """Tests that a header and a script have the files that a pattern matches, and no others."""
    path = romtool.build(room, [f"file /f{it:03d} 0644 0 0 4 manifest" for it in range(12)], "romfs").path
    for words, wanted in CHOSEN:
        for form, pattern in ("--c", rb"^#define ROM_f(\d+)_LENGTH "), ("--ld", rb"^PROVIDE\(ROM_f(\d+)_LENGTH "):
            out, err, status = romtool("map", form, *words, path)
            assert ([int(it) for it in re.findall(pattern, out, re.M)], err, status) == (list(wanted), b"", 0)
    for words in REFUSED:
        assert romtool("map", *words.split(), path) == (b"", b"usage\n", 2)


# pictures


def bars(root):
    """Yields what the titles of a picture say: the path and kind, the address and the length."""
    for title in root.iter(NOTE + "title"):
        front, address, length = title.text.rsplit(" ", 2)
        yield front, int(address, 16), int(length)


def misplaced_marks(root):
    """Yields the marks of a picture that are after the end of the last bar of their row."""
    ends = {}
    for bar in root.iter(NOTE + "rect"):
        if int(bar.get("y", 0)) >= FIRST_ROW:
            ends[bar.get("y")] = max(int(bar.get("x")) + int(bar.get("width")), ends.get(bar.get("y"), 0))
    for path in root.iter(NOTE + "path"):
        for x, y in re.findall(r"M(\d+) (\d+)v", path.get("d")) if path.get("class") == "mark" else []:
            if y in ends and int(x) > ends[y]:
                yield x, y, ends[y]


@ALL
def test_picture(romtool, image, chance):
    """Compares the bars of the picture with the extents."""
    base, reach, paths = chance.choice(BASES), 0, set()
    picture, err, status = romtool("map", "--svg", "--base", f"{base:x}", image.path)
    assert (err, status) == (b"", 0) and len(picture) <= MOST_OF_PICTURE
    root = tree.fromstring(picture)
    for front, address, length in bars(root):
        assert address - base == reach, front
        reach += length
        if " ranges" not in front and " " in front:
            paths.add(front.rsplit(" ", 1)[0])
    assert reach == max(len(image.data), 1)
    assert not list(misplaced_marks(root))
    assert {it for it in paths if not it.startswith("...")} <= {escaped(it.path) for it in ranges(image.data) if it.path is not None}
