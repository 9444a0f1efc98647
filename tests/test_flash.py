"""Starts Linux with two images in memory-mapped flash, in an emulator, and compares what it executes in place with `romtool xip`.

The kernel is Debian's (kernel.py). Its cramfs.ko, which Debian leaves out, is built from Debian's source with CONFIG_CRAMFS_MTD,
and the flash is memory of two physmap devices (tests/flash). A root is packed twice: with ALIGN 4096 for its programs, and with
ALIGN 4. Its programs are started together from each image, from the first one below a writable overlay, and from a copy of it in
flash of two chips, which Linux does not map: static programs in several layouts, dynamic ones, one of C++, busybox and bash. The
number of the pages of a file that a process has in flash, by their physical addresses, is the IN-PLACE of its `xip` line, or 0 if
it has a `not` line, and these pages are the file's bytes in the image. Pages that the program or the dynamic linker writes are not
among them, though the third column of /proc/PID/maps still has their address. Each file that Linux reads is compared with its
source, except those that `romtool linux` reports. The program of C++ is skipped without g++.
"""

import functools
import hashlib
import os
import re
import shutil
import struct
import tempfile

import kernel
import pytest
import xip
from files import bytes_in, put, text_of
from harness import HERE
from kernel import done
from romtool import escaped, raw

SOURCES = os.path.join(HERE, "flash")
# the images, with the alignments of their programs
ALIGNS = {"aligned": 4096, "unaligned": 4}
# where the flash begins, and the partitions with their images and addresses; the last one has 32 MiB, the others 64 MiB
FLASH, PARTS = 0x10000000, {"aligned": ("aligned", 0x10000000), "unaligned": ("unaligned", 0x14000000), "chips": ("aligned", 0x18000000)}
LARGEST = 0x2000000
# what is mounted in turn, and the partition that it is of
MOUNTS = {"aligned": "aligned", "unaligned": "unaligned", "overlay": "aligned", "chips": "chips"}
MODULES = ("mtd", "mtd_blkdevs", "mtdblock", "chipreg", "map_rom", "map_funcs", "physmap", "overlay", "cramfs", "physdev")
WAITING = "#include <unistd.h>\nint main(void) { return pause(); }\n"
# it writes into a page of its text
COPIED = """#include <stdint.h>
#include <sys/mman.h>
#include <unistd.h>
int main(void)
{
    char *page = (char *)((uintptr_t)main & -4096UL);
    if (mprotect(page, 4096, PROT_READ | PROT_WRITE | PROT_EXEC)) {
        return 1;
    }
    *(volatile char *)page = *(volatile char *)page;
    return pause();
}
"""
CXX = '#include <iostream>\n#include <unistd.h>\nint main() { std::cout << "started" << std::endl; return pause(); }\n'
LIBRARY = "int twice(int x) { return 2 * x; }\n"
# the first of three pages of the text has an address, which the dynamic linker writes
MOVED = """.globl f
.type f, @function
f: movabs $g, %rax
ret
.skip 8192
.data
.globl g
g: .quad 1
.section .note.GNU-stack, "", @progbits
"""
# it calls pause (34) without glibc, which needs the headers in memory: `ld -N` leaves them out
ALONE = """.globl _start
_start: mov $34, %eax
syscall
jmp _start
"""
TEXTS = {
    "waiting.c": WAITING,
    "copied.c": COPIED,
    "cxx.cc": CXX,
    "twice.c": LIBRARY,
    "moved.s": MOVED,
    "alone.s": ALONE,
    "three.s": ALONE + ".skip 8192\n",
}
# programs and libraries: the source, and options of the compiler
BUILT = {
    "bin/separate": ("waiting.c", "-static", "-Wl,-z,separate-code"),
    "bin/together": ("waiting.c", "-static", "-Wl,-z,noseparate-code"),
    "bin/large": ("waiting.c", "-static", "-Wl,-z,max-page-size=65536"),
    "bin/huge": ("waiting.c", "-static", "-Wl,-z,max-page-size=0x200000"),
    "bin/writable": ("alone.s", "-static", "-nostdlib", "-Wl,-N"),
    "bin/shared": ("three.s", "-static", "-nostdlib", "-Wl,-z,noseparate-code"),
    "bin/zeros": ("waiting.c", "-static"),
    "bin/copied": ("copied.c", "-static"),
    "bin/dynamic": ("waiting.c", "-s"),
    "bin/relro": ("waiting.c", "-pie", "-Wl,-z,relro,-z,now"),
    "bin/wide": ("waiting.c", "-pie", "-Wl,-z,max-page-size=0x200000"),
    "lib/libzeros.so": ("twice.c", "-shared", "-fPIC"),
    "lib/libmoved.so": ("moved.s", "-shared", "-nostdlib", "-Wl,-z,notext"),
    "bin/linked": ("waiting.c", "-Lroot/lib", "-Wl,--no-as-needed", "-lzeros", "-lmoved"),
}
# those that have a byte of zeros behind the last segment that cannot be written
ZEROS = ("bin/zeros", "lib/libzeros.so")
PROGRAMS = [*(f"/{it}" for it in BUILT if it.startswith("bin/")), "/bin/busybox sleep 600", "/bin/bash /etc/loop", "/bin/cxx"]
# how many pages the program writes, or the dynamic linker; the column of /proc/PID/maps keeps their addresses
WRITTEN, RELOCATED, FILLED = {"/bin/copied": 1}, {"/lib/libmoved.so": 1}, {"/lib/libzeros.so": 1}
HIDDEN = {**WRITTEN, **RELOCATED, **FILLED}


def libraries(program):
    """Returns the paths of the libraries of a program, by the dynamic linker."""
    return re.findall(r"(?:=> |^\s*)(/\S+) \(0x", done(["ldd", program]).decode(), re.M)


def add_zeros(path):
    """Changes the last segment that cannot be written: it has a byte more in memory than in the file."""
    held = bytearray(bytes_in(path))
    (table,), (count,) = struct.unpack_from("<Q", held, 32), struct.unpack_from("<H", held, 56)
    entries = ((at, *struct.unpack_from("<II", held, at)) for at in range(table, table + 56 * count, 56))
    last = [at for at, kind, flags in entries if kind == 1 and not flags & 2][-1]
    struct.pack_into("<Q", held, last + 40, struct.unpack_from("<Q", held, last + 32)[0] + 1)
    put(path, bytes(held))


def compile_programs(top):
    """Compiles the programs and libraries into the root."""
    for name, text in TEXTS.items():
        put(f"{top}/{name}", text.encode())
    for path, (source, *words) in BUILT.items():
        done(["cc", "-O2", source, *words, "-o", f"root/{path}"], cwd=top)
        if path in ZEROS:
            add_zeros(f"{top}/root/{path}")
    if shutil.which("g++"):
        done(["g++", "-O2", "cxx.cc", "-o", "root/bin/cxx"], cwd=top)


def make_root(top):
    """Makes the directory `root` that is packed: the programs, and the libraries of the dynamic ones."""
    root = f"{top}/root"
    for name in ("bin", "proc", "etc", "lib"):
        os.makedirs(f"{root}/{name}")
    compile_programs(top)
    for name in ("busybox", "bash", "sleep"):
        shutil.copy(shutil.which(name), f"{root}/bin/{name}")
    dynamic = [it for it in ("dynamic", "cxx", "bash", "sleep") if os.path.exists(f"{root}/bin/{it}")]
    for library in {it for name in dynamic for it in libraries(f"{root}/bin/{name}")}:
        os.makedirs(root + os.path.dirname(library), exist_ok=True)
        shutil.copy(library, root + library)
    # it follows the program `shared` in the image, and shares its last page
    put(f"{root}/bin/shared.data", b"x" * 100)
    put(f"{root}/etc/data", bytes(range(256)) * 41)
    put(f"{root}/etc/loop", b"while :; do sleep 600; done\n")


def section(lines, begin):
    """Returns the lines after the one that begins a section, up to the next section."""
    if begin not in lines:
        return []
    rest = lines[lines.index(begin) + 1 :]
    ends = [at for at, line in enumerate(rest) if re.match(r"(process|sums|mounted|the end)\b", line)]
    return rest[: ends[0]] if ends else rest


class Flash:
    """A root that is packed once for each alignment, and what the console shows of Linux with these images in flash."""

    def __init__(self, romtool, top):
        self.romtool, self.top = romtool, top
        make_root(top)
        told = romtool("scan", "--all", "--all-root", "--for", "cramfs", "--align", "4096", "root", cwd=top)[0].decode()
        for name, align in ALIGNS.items():
            lines = re.sub(r"^(file \S+ 0\d+ \d+ \d+) 4096 ", rf"\g<1> {align} ", told, flags=re.M)
            put(f"{top}/{name}.manifest", lines.encode())
            assert romtool("build", "cramfs", f"{name}.manifest", name, cwd=top)[2] == 0 and os.path.getsize(f"{top}/{name}") <= LARGEST
        kernel.make_start(top, text_of(f"{SOURCES}/init"), MODULES, [f"{SOURCES}/physdev.c"])
        done(["cc", "-O2", "-Wall", "-Werror", "-static", "-o", f"{top}/start/bin/flashpages", f"{SOURCES}/flashpages.c"])
        programs = [it for it in PROGRAMS if os.path.exists(f"{top}/root{it.split()[0]}")]
        put(f"{top}/start/programs", "".join(f"{it}\n" for it in programs).encode())
        loaded = (f"loader,file={top}/{image},addr=0x{place:x},force-raw=on" for image, place in PARTS.values())
        self.lines = kernel.console(top, 900, f"memmap=160M$0x{FLASH:x}", [it for device in loaded for it in ("-device", device)])

    def told(self, *words):
        """Returns the lines that the program prints of an image."""
        return self.romtool(*words, cwd=self.top)[0].decode().splitlines()

    def files(self):
        """Returns the files of the root, by their paths in it."""
        return [os.path.relpath(os.path.join(at, it), f"{self.top}/root") for at, _, names in os.walk(f"{self.top}/root") for it in names]

    @functools.cache
    def in_place(self, name):
        """Returns for each program of a mount how many pages are in flash, by the lines of `romtool xip`, and how many by the column of
        maps.

        Pages that the program itself writes are not in flash. If the dynamic linker writes into the text, all others of the segments
        that cannot be written are, by what readelf prints.
        """
        found = {}
        for line in self.told("xip", PARTS[MOUNTS[name]][0]):
            kind, path, _, what, *_ = line.split(" ") + [""]
            path = raw(path).decode()
            if kind == "xip":
                count = int(what) - WRITTEN.get(path, 0)
                found[path] = [count, count + HIDDEN.get(path, 0)]
            elif kind == "not":
                count = xip.pages(xip.segments(f"{self.top}/root{path}"))[0] - RELOCATED[path] if what == "textrel" else 0
                found[path] = [count, count + HIDDEN[path] if count else 0]
        return {path: [0, 0] for path in found} if name == "chips" else found

    @functools.cache
    def addresses(self, name):
        """Returns the addresses of the pages of each file of a mount, by where its bytes are in the image."""
        image, begin = PARTS[MOUNTS[name]]
        whole, found = bytes_in(f"{self.top}/{image}"), {}
        for path in self.files():
            held = bytes_in(f"{self.top}/root/{path}")
            first = begin + whole.find(held)
            found[f"/mnt/{path}"] = range(first, first + len(held), 4096)
        return found


@pytest.fixture(scope="session")
def flash(romtool):
    """Linux with the images in flash."""
    kernel.need({"ldd": "libc-bin", "bash": "bash", "readelf": "binutils"})
    with tempfile.TemporaryDirectory(prefix="romtool-") as top:
        yield Flash(romtool, top)


def test_shared_page(flash):
    """Has a program that shares its last page."""
    told = "\n".join(flash.told("xip", "aligned"))
    assert re.findall(r"^xip /bin/shared \S+ (.*)\n(\S+)", told, re.M) == [("2 1 0", "shared")]


@pytest.mark.parametrize("path", [it.split()[0] for it in PROGRAMS], ids=os.path.basename)
@pytest.mark.parametrize("name", MOUNTS)
def test_program(flash, name, path):
    """Compares the pages in flash of each file that a process maps with the lines of `xip`, with the column of its maps, and with where
    the file's bytes are."""
    if path == "/bin/cxx" and not shutil.which("g++"):
        pytest.skip("it needs g++")
    told = [it.split(" ")[1:] for it in section(flash.lines, f"process {name} {path}") if re.match(r"pages \S+ 0x[0-9a-f]+ \d+ \d+$", it)]
    assert f"/mnt{path}" in [it[0] for it in told], "it was not started"
    wanted, where, found = flash.in_place(name), flash.addresses(name), {}
    for file, address, *numbers in told:
        found[file] = [one + int(more) for one, more in zip(found.get(file, (0, 0)), numbers)]
    assert [it for it in told if it[2] != "0" and int(it[1], 16) not in where.get(it[0], ())] == []
    assert found == {file: wanted.get(file.removeprefix("/mnt")) for file in found}


def test_chips(flash):
    """Does not map flash of two chips."""
    told = [it for it in flash.lines if it.startswith("unable to get direct")]
    assert told == ["unable to get direct memory access to mtd:chips"]


@pytest.mark.parametrize("name", ALIGNS)
def test_files(flash, name):
    """Compares each file that Linux reads with its source, except those that `romtool linux` reports."""
    misread = {it.split(" ")[-1] for it in flash.told("linux", name)}
    sums = dict(reversed(it.split("  ./")) for it in section(flash.lines, f"sums {name}") if re.match(r"[0-9a-f]{32}  \./", it))
    wanted = {it: hashlib.md5(bytes_in(f"{flash.top}/root/{it}")).hexdigest() for it in flash.files()}
    wanted = {path: it for path, it in wanted.items() if escaped(b"/" + path.encode()) not in misread}
    assert wanted and {path: sums.get(path) for path in wanted} == wanted
