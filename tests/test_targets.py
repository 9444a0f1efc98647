"""Builds the library for 32-bit machines and for WebAssembly, and checks that it answers as romtool does.

tools/rom32 makes the archives, all from one module. It is the module of the proved build, unless --module names another one. The
tool's own test is run, too. There are
    armv7a   answers.c (see c.py) on all cases and in each format, closed.c and areas.c, by qemu-arm, also with --small
    thumbv7m the same on a board with a Cortex-M3, by qemu-system-arm, except for images that its memory does not hold; and
             firmware with the image in flash and a heap of its own, with and without the check; also on a Cortex-M55
    thumbv6m firmware, on the same board, which has all its instructions; the sizes of both are printed (`pytest -s`)
    riscv32  `check` and `list` of answers.c on all cases, by qemu-system-riscv32
    wasm32   answers.mjs on all cases and in each format, by node; in each format also at addresses above 2^31
A target whose compiler or emulator is not installed is skipped.
"""

import os
import typing

import c
import pytest
import run
import targets
from files import put
from harness import SECONDS, missing

pytestmark = pytest.mark.needs("cc", "rt")
# the targets, and what is asked of each
TARGETS = {"armv7a": c.SUBCOMMANDS, "armv7a_small": c.SUBCOMMANDS, "thumbv7m": c.SUBCOMMANDS, "riscv32": ("check", "list")}
ALL = {**TARGETS, "wasm32": c.SUBCOMMANDS}
# what the memory of a board holds of an image, beside the heap of its check
HELD = {"thumbv7m": 6 << 20, "riscv32": 6 << 20}
RISCV = ["-march=rv32imac", "-mabi=ilp32"]
# newlib's formats are not of the types that the compiler has; and its own stdint.h hides from newlib that there are 64 bits
LOOSE = ["-Wno-format", "-D__int64_t_defined=1"]
RISCV_RUN = """words=
for it do words="$words,arg=$it"; done
exec qemu-system-riscv32 -M virt -m 300M -bios none -display none -monitor none -serial none -chardev stdio,id=it \\
    -semihosting-config enable=on,target=native,chardev=it,arg=rom$words -kernel %s
"""
RISCV_PLACES = {"__flash": 0x80000000, "__flash_size": 1 << 23, "__ram": 0x80800000, "__ram_size": 0x10000000, "__stack_size": 1 << 18}
# the machines of firmware: target, small or proved search, words for the compiler, the layout and the run of the board
MACHINES = {
    "thumbv7m": ("thumbv7m", False, targets.ARM, "mps2.ld", targets.BOARD_RUN),
    "thumbv7m, small": ("thumbv7m", True, targets.ARM, "mps2.ld", targets.BOARD_RUN),
    "thumbv6m": ("thumbv6m", False, targets.M0, "mps2.ld", targets.BOARD_RUN),
    "thumbv6m, small": ("thumbv6m", True, targets.M0, "mps2.ld", targets.BOARD_RUN),
    "Cortex-M55": ("thumbv7m", None, targets.M55, "mps3.ld", targets.M55_RUN),
}
each_target = pytest.mark.parametrize("target", TARGETS)
each_form = pytest.mark.parametrize("form", c.FORMATS)


class Programs(typing.NamedTuple):
    """The scripts that run the programs of a target."""

    answers: str
    closed: str = None
    areas: str = None


def need(*tools):
    """Skips a target if one of its tools is not installed."""
    if tool := missing(*tools):
        pytest.skip("it needs " + tool)


def need_library(compiler, name, package):
    """Skips a target if its compiler does not find a file of its C library."""
    if c.said([*compiler, "-print-file-name=" + name]).stdout.decode().strip() == name:
        pytest.skip("it needs " + package)


def programs(compiler, archive, top, target, how, counts):
    """Compiles answers.c, closed.c and areas.c."""
    made = []  # gnu99, since newlib keeps names of C99 back in strict C99
    for name, heap in (("answers", "heap"), ("closed", "heap"), ("areas", "area")):
        out = "%s/%s-%s" % (top, name, target)
        sources = [os.path.join(c.SOURCES, name + ".c"), os.path.join(c.HEAPS, heap + ".c")]
        c.compiled([compiler[0], "-std=gnu99", "-O2", *c.STRICT, *compiler[1:], *sources, archive, "-o", out], counts)
        made.append(targets.script(out + ".sh", how % out))
    return Programs(*made)


@pytest.fixture(scope="session")
def archives(forms, pytestconfig, counts):
    """The archives of the targets, of one module."""
    put(forms + "/tree", run.file_of("romfs/tree/image"))
    return targets.Archives(forms, targets.kept_module(forms, pytestconfig.option.module, counts))


def arm(archives, small, counts):
    """Makes static programs for ARMv7-A, which the emulator of programs runs."""
    need("arm-linux-gnueabihf-gcc", "qemu-arm")
    need_library(["arm-linux-gnueabihf-gcc"], "libc.a", "libc6-dev-armhf-cross")
    archive, name = archives.of("armv7a", counts, small), "armv7a" + "-small" * small
    return programs(["arm-linux-gnueabihf-gcc", "-static"], archive, archives.top, name, 'exec qemu-arm %s "$@"\n', counts)


@pytest.fixture(scope="session")
def armv7a(archives, counts):
    """Programs for ARMv7-A, with the proved search."""
    return arm(archives, False, counts)


@pytest.fixture(scope="session")
def armv7a_small(archives, counts):
    """Programs for ARMv7-A, with the plain search."""
    return arm(archives, True, counts)


@pytest.fixture(scope="session")
def thumbv7m(archives, counts):
    """Programs of newlib on a board with a Cortex-M3."""
    need("arm-none-eabi-gcc", "qemu-system-arm")
    need_library(["arm-none-eabi-gcc", *targets.ARM], "rdimon.specs", "libnewlib-arm-none-eabi")
    compiler = ["arm-none-eabi-gcc", *targets.ARM, "--specs=rdimon.specs", "-nostartfiles", "-T", targets.BOARD + "/mps2.ld", *LOOSE]
    compiler += ["-DROOM=1048576", targets.BOARD + "/hosted.c"]
    return programs(compiler, archives.of("thumbv7m", counts), archives.top, "thumbv7m", targets.BOARD_RUN, counts)


@pytest.fixture(scope="session")
def riscv32(archives, counts):
    """Programs of picolibc for RV32, on a board of qemu."""
    need("riscv64-unknown-elf-gcc", "qemu-system-riscv32")
    need_library(["riscv64-unknown-elf-gcc", *RISCV], "picolibc.specs", "picolibc-riscv64-unknown-elf")
    archive, top = archives.of("riscv32", counts), archives.top
    places = ["-Wl,--defsym=%s=%#x" % it for it in RISCV_PLACES.items()]
    compiler = ["riscv64-unknown-elf-gcc", *RISCV, "--specs=picolibc.specs", "--crt0=semihost", "--oslib=semihost", *places, *LOOSE]
    put(top + "/words.h", b"#define main main_of_words\nint main(int, char **);\n")
    c.compiled([*compiler, "-c", targets.BOARD + "/riscv.c", "-o", top + "/riscv.o"], counts)
    return programs([*compiler, "-include", top + "/words.h", top + "/riscv.o"], archive, top, "riscv32", RISCV_RUN, counts)


@pytest.fixture(scope="session")
def wasm32(archives, counts):
    """The module for WebAssembly under node."""
    need("node")
    module = archives.top + "/romtool.wasm"
    done = c.said([targets.TOOLS + "/page", "--module", module, "--archive", archives.of("wasm32", counts)])
    assert done.returncode == 0, done.stdout
    return Programs(targets.script(archives.top + "/node.sh", 'exec node %s/answers.mjs %s "$@"\n' % (c.SOURCES, module)))


ASKED = [pytest.param(it, case, id="%s-%s" % (it, place)) for it, asked in ALL.items() for place, case in c.asked_cases(asked)]


@pytest.mark.parametrize(("target", "asked"), ASKED)
def test_cases(romtool, request, room, counts, target, asked):
    """Compares the answers on images that the memory holds, given by a plain name, since a board gets its words in one line."""
    answers = request.getfixturevalue(target).answers
    for number, ((word, name), lines) in enumerate(c.asked_in(asked, room, ALL[target])):
        if os.path.getsize(room / name) <= HELD.get(target, 1 << 40):
            os.symlink(name, room / ("plain-%d" % number))
            c.answered(romtool.path, answers, [word, "plain-%d" % number], lines, room, target, counts)


@pytest.mark.parametrize(("target", "word"), [(it, word) for it, asked in ALL.items() for word in asked])
@each_form
def test_formats(romtool, request, forms, counts, target, word, form):
    """Compares the answers on one directory in each format."""
    answers = request.getfixturevalue(target).answers
    c.answered(romtool.path, answers, [word, form], c.CALLS if "serve" in ALL[target] else b"", forms, target, counts)


@pytest.mark.parametrize("word", ALL["wasm32"])
@each_form
def test_high_addresses(romtool, wasm32, forms, room, counts, word, form):
    """Compares the answers of WebAssembly at addresses above 2^31."""
    high = targets.script(str(room / "high.sh"), 'HIGH=1 exec %s "$@"\n' % wasm32.answers)
    if c.said([high, "check", form], cwd=forms).returncode == 77:
        pytest.skip("there is too little memory")
    c.answered(romtool.path, high, [word, form], c.CALLS, forms, "high addresses", counts)


@each_target
def test_closed(request, forms, target):
    """Runs closed.c."""
    done = c.said([request.getfixturevalue(target).closed, "tree"], cwd=forms)
    assert (done.returncode, done.stdout) == (0, b"closed 202\n")


@each_target
def test_areas(request, forms, target):
    """Runs areas.c; the areas of a machine of 32 bits have their own sizes, which are printed."""
    done = c.said([request.getfixturevalue(target).areas, "tree", "cramfs"], cwd=forms)
    lines = done.stdout.splitlines()
    assert (done.returncode, [it.split()[1] for it in lines[:2]], lines[-1:] and lines[-1][-6:]) == (0, [b"0", b"0"], b" steps")
    print("heap of a check on %s: %s" % (target, b", ".join(lines[:2]).decode(errors="replace")))


def test_rom32():
    """Runs the tool's own test."""
    done = c.said([targets.TOOLS + "/rom32", "--self-test"])
    assert done.returncode == 0, done.stdout


# the headers, and firmware


def syntax(room, triple, standard, ending):
    """Compiles the headers for a machine, and returns what the compiler says."""
    put(room / ("header." + ending), b'#include "romtool_heap.h"\n')
    words = ["clang" + "++" * (ending == "cc"), "--target=" + triple, *(["-std=" + standard] if standard else [])]
    return c.said([*words, *c.STRICTER, "-ffreestanding", "-fsyntax-only", room / ("header." + ending)])


@pytest.mark.needs("clang", "clang++")
@pytest.mark.parametrize("triple", ["thumbv7m-none-eabi", "riscv32-unknown-elf", "wasm32-unknown-unknown"])
@pytest.mark.parametrize("standard", ["c99", "c11", "c++11", "c++14", "c++17", "c++20"])
def test_headers(room, triple, standard):
    """Compiles the headers for machines of 32 bits, in C and C++."""
    done = syntax(room, triple, standard, "cc" if "+" in standard else "c")
    assert done.returncode == 0, done.stdout


@pytest.mark.needs("clang", "clang++")
def test_other_layout(room):
    """Stops a compiler that lays out 64 bits otherwise."""
    done = syntax(room, "i386-linux-gnu", None, "c")
    assert (done.returncode, b"romtool_layout_is_right" in done.stdout) == (1, True)


@pytest.fixture(scope="session")
def numbers(forms, archive, counts):
    """The program that prints an image, with its description, as a header of C."""
    return c.program("numbers", forms, archive, [], counts)


@pytest.mark.needs("arm-none-eabi-gcc", "qemu-system-arm")
@pytest.mark.parametrize(("machine", "words"), [
    (it, words) for it in MACHINES for words in (["-DCHECK"], []) if words or it != "Cortex-M55"
], ids=lambda it: it if isinstance(it, str) else "with a check" if it else "without")  # fmt: skip
@each_form
def test_firmware(archives, numbers, forms, room, counts, form, machine, words):
    """Runs firmware with the image in flash: what it answers, and its stack, which is printed."""
    target, small, of_compiler, layout, board = MACHINES[machine]
    put(room / "image.h", c.said([numbers, form], cwd=forms).stdout)
    made = targets.firmware(str(room), archives.of(target, counts, small), "flash", of_compiler, words, counts, layout)
    done = c.said([targets.script(str(room / "flash.sh"), board % made)], cwd=room, timeout=SECONDS)
    text, total = done.stdout.decode(errors="replace"), sum(c.CONTENT)
    wanted = ["open 0 ", "fstat 0 ", "map 0 ", "read 0 ", "readdir 0 ", "stat 0 ", "links 0 ", "sum %d %d in flash 1\n" % (total, total)]
    wanted += ["check 0 ", " left 0 ", " same 1\n"] if words else ["numbers 0 "]
    assert (done.returncode, [it for it in wanted if it not in text]) == (0, []), text
    stacks = {line.split()[0]: int(line.split()[3]) for line in text.splitlines() if " stack " in line}
    assert stacks and max(stacks.values()) <= 16384
    print("stack of firmware: %s" % ", ".join("%s %d" % it for it in stacks.items()))


@pytest.mark.needs("arm-none-eabi-gcc", "qemu-system-arm")
@pytest.mark.parametrize("machine", [it for it in MACHINES if it != "Cortex-M55"])
def test_sizes(archives, numbers, forms, room, counts, machine):
    """Links firmware that has more or less of the library. Its sizes are printed, without the image's bytes."""
    target, small, of_compiler, *_ = MACHINES[machine]
    put(room / "image.h", c.said([numbers, c.FORMATS[-1]], cwd=forms).stdout)
    for kind, words in {"open, fstat, map": ["-DBARE"], "all calls but the check": [], "all calls": ["-DCHECK"]}.items():
        made = targets.firmware(str(room), archives.of(target, counts, small), "sized", of_compiler, words, counts)
        size = int(c.said(["arm-none-eabi-size", made]).stdout.decode().splitlines()[1].split()[0])
        print("bytes of firmware on %s: %s %d" % (machine, kind, size - os.path.getsize(forms + "/" + c.FORMATS[-1])))
