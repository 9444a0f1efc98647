"""The library for C for boards: the targets, and the files of romtool-embedded-X.Y.Z.tar.gz, all made of one module.

The archives are derived from the proved library and tested (tests/test_targets.py, tests/test_boards.py); they are NOT proved. Those of
32 bits are made by the pass of tools/to32.py, and those of 64 bits by tools/to64.py.
"""

import concurrent.futures
import importlib.machinery
import importlib.util
import os
import re
import struct
import subprocess
import tempfile

import installation
import kit
import to32
import to64

TEXTS = f"{kit.TOP}/c/embedded"
# for each target: the machines of programs, in words for compilers; and whether an archive with the proved search is made beside
# the small one
MACHINES = {
    "thumbv6m": ("`-mcpu=cortex-m0`, `cortex-m0plus`, `cortex-m1`, `cortex-m23`", True),
    "thumbv7m": ("`-mcpu=cortex-m3`, `cortex-m4`, `cortex-m7`, `cortex-m33`, `cortex-m55` with any `-mfloat-abi`", True),
    "armv7a": ("`-march=armv7-a` with any `-mfloat-abi`", False),
    "aarch64": ("`-march=armv8-a`, also with `-mgeneral-regs-only` and `-mstrict-align`", False),
    "riscv32": ("`-march=rv32imc`, `rv32imac` with `-mabi=ilp32`", True),
    "riscv32f": ("`-march=rv32imfc`, `rv32imafc` with `-mabi=ilp32f`", True),
    "riscv64": ("`-march=rv64imc`, `rv64imac` with `-mabi=lp64`", False),
    "riscv64d": ("`-march=rv64gc` with `-mabi=lp64d`", False),
    "x86_64-kernel": ("`-mno-red-zone -mgeneral-regs-only`", False),
    "wasm32": ("`--target=wasm32`", False),
}
# the targets of 64 bits: triple, flags, how much is to be optimized, and whether functions may use the red zone
WIDE = {
    "aarch64": ("aarch64-none-elf", ["-mgeneral-regs-only", "-mstrict-align"], "-Os", True),
    "riscv64": ("riscv64-unknown-elf", ["-march=rv64imc", "-mabi=lp64", "-mcmodel=medany"], "-Os", True),
    "riscv64d": ("riscv64-unknown-elf", ["-march=rv64imfdc", "-mabi=lp64d", "-mcmodel=medany"], "-Os", True),
    "x86_64-kernel": ("x86_64-unknown-none-elf", ["-mgeneral-regs-only", "-mno-red-zone", "-fPIE"], "-Os", False),
}
# what firmware uses of the library, for its sizes
USES = {
    "open, fstat and map": to32.exports("open", "fstat", "map"),
    "all calls except the check": tuple(it for it in to32.EXPORTS if it not in to32.exports("check")),
    "all calls": to32.EXPORTS,
}
# what the library calls from outside
OUTSIDE = [*to32.HEAP, "memcpy", "memmove", "memset", "memcmp"]


def script(name):
    """Returns a tool as a module."""
    loader = importlib.machinery.SourceFileLoader(name, f"{kit.TOP}/tools/{name}")
    made = importlib.util.module_from_spec(importlib.util.spec_from_loader(name, loader))
    loader.exec_module(made)
    return made


rom32 = script("rom32")


class Boards:
    """The archives for all targets, of one module."""

    def __init__(self, module, room):
        self.room, self.texts = room, {}
        for name in ("llvm-ar", "wasm-ld"):
            os.symlink(rom32.clang(), f"{room}/{name}")
        for kind in ((32, False, True), (32, True, True), (64, True, True), (64, True, False)):
            bits, small, red_zone = kind
            self.texts[kind] = to32.to32(module, small)[0] if bits == 32 else to64.to64(module, small, red_zone)

    def kinds(self):
        """Returns each target with each kind of its archive: small, or with the proved search."""
        return [(name, small) for name, (_, both) in MACHINES.items() for small in ((True, False) if both else (name in WIDE,))]

    def compiled(self, name, small):
        """Compiles the archive of a target, and returns its path."""
        to, item = f"{self.room}/{name}{'-small' * small}.a", f"{self.room}/{name}{'-small' * small}.o"
        if name in WIDE:
            triple, flags, level, red_zone = WIDE[name]
            text = self.texts[64, True, red_zone]
        else:
            (triple, flags, level), text = rom32.TARGETS[name], self.texts[32, small, True]
        rom32.compiled_text([f"--target={triple}", *flags], level, text, item, triple)
        subprocess.run([f"{self.room}/llvm-ar", "rcsD", "--format=gnu", to, item], check=True)
        return to

    def all(self):
        """Compiles all archives, and returns their paths by target and kind."""
        with concurrent.futures.ThreadPoolExecutor(len(os.sched_getaffinity(0))) as pool:
            return dict(zip(self.kinds(), pool.map(lambda it: self.compiled(*it), self.kinds())))

    def size(self, name, archive, calls):
        """Returns how many bytes of code and constants a program has of an archive if it uses these calls."""
        through = {it for it in to32.EXPORTS if f"rom32_{it}".encode() in installation.content(archive)}
        symbols = [f"rom32_{it}" if it in through else f"romtool_{it}" for it in calls]
        out = f"{self.room}/sized-{name}"
        if name == "wasm32":
            words = [f"{self.room}/wasm-ld", "--no-entry", "--gc-sections", "--strip-all", "--allow-undefined"]
            installation.run(*words, *(f"--export={it}" for it in symbols), archive, "-o", out)
            return os.path.getsize(out)
        words = [f"{os.path.dirname(rom32.clang())}/ld.lld", "--gc-sections", "--entry=0"]
        words += [f"--defsym={it}=0" for it in OUTSIDE] + ["--unresolved-symbols=ignore-all"]
        installation.run(*words, *(f"--undefined={it}" for it in symbols), archive, "-o", out)
        return loaded(installation.content(out))

    def sizes(self, archives):
        """Returns a table of the archives: for which programs they are, and how many bytes firmware has of them."""
        rows = ["| archive | programs by | " + " | ".join(f"{it}, bytes" for it in USES) + " |", "|---|---|" + "---|" * len(USES)]
        for (name, small), archive in archives.items():
            held = [f"{self.size(name, archive, it):,}" for it in USES.values()]
            rows.append(f"| `{place(name, small)}` | {MACHINES[name][0]} | {' | '.join(held)} |")
        return "\n".join(rows) + "\n"


def loaded(program):
    """Returns how many bytes of an ELF file are in memory, without those that are only zeros."""
    wide = program[4] == 2
    (start,) = struct.unpack_from("<Q" if wide else "<I", program, 40 if wide else 32)
    size, count = struct.unpack_from("<HH", program, 58 if wide else 46)
    total = 0
    for at in range(start, start + size * count, size):
        kind, flags = struct.unpack_from("<IQ" if wide else "<II", program, at + 4)
        if flags & 2 and kind != 8:  # it is allocated, and has bytes in the file
            total += struct.unpack_from("<Q" if wide else "<I", program, at + (32 if wide else 20))[0]
    return total


def place(name, small):
    """Returns the path of an archive in the release. The small one of a target, or the only one, has the plain name."""
    return f"lib/{name}/libromtool{'_wide' * (not small and MACHINES[name][1])}.a"


def text_of(name, **values):
    """Returns a text of c/embedded, with its values."""
    text = installation.content(f"{TEXTS}/{name}").decode()
    return re.sub(r"@(\w+)@", lambda it: values.get(it[1].lower(), it[0]), text)


def page(archive, room):
    """Returns the module for WebAssembly and the page over it."""
    tool = script("page")
    tool.linked(f"{room}/romtool.wasm", archive)
    module = installation.content(f"{room}/romtool.wasm")
    return {"web/romtool.wasm": module, "web/romtool.html": tool.page(module).encode()}


def module_of(path=None):
    """Returns the text of a module: that of a file, or that of the proved build."""
    with tempfile.TemporaryDirectory(prefix="boards-") as room:
        if not path:
            path = f"{room}/rom_c.ll"
            rom32.keep(path)
        with open(path, encoding="utf-8") as it:
            return it.read()


# the files that a release for boards has of the repository, with their paths in it
TAKEN = {
    **{f"include/{it}": f"include/{it}" for it in ("romtool.h", "romtool_32.h", "romtool_heap.h")},
    **{f"c/{it}": f"src/{it}" for it in ("area.c", "bytes.c")},
    **{f"tests/c/{it}": f"examples/{it}" for it in installation.EXAMPLES},
    **{f"recipes/{it}": f"recipes/{it}" for it in ("zephyr/romtool_fs.c", "zephyr/romtool_fs.h")},
    **{f"recipes/{it}": f"recipes/{it}" for it in ("u-boot/romtool_uboot.c", "u-boot/romtool_uboot.h")},
    **{it: it for it in ("web/reader.mjs", "LICENSE")},
}
# its pages for users; c/embedded has others, into which values are put
PAGES = {"docs/C.md": "docs/C.md", "docs/FAULTS.md": "docs/FAULTS.md"}
OWN = {f"c/embedded/{it}": it for it in ("README.md", "OTHER-TARGETS.md", "TARGETS.md")}


def figures():
    """Returns the table of docs/C.md that tests/figures.py makes: stack and heap of calls."""
    return re.search(r"<!-- made by tests/figures.py -->\n(.*?)<!-- end -->", installation.content("docs/C.md").decode(), re.S)[1]


def files(module):
    """Returns the files of the release for boards, of the text of a module: for each path its bytes and its mode."""
    version, names = installation.version(), list(MACHINES)
    values = {"version": version, "major": version.partition(".")[0], "targets": ";".join(names), "figures": figures()}
    with tempfile.TemporaryDirectory(prefix="boards-") as room:
        made = Boards(module, room)
        archives = made.all()
        values["sizes"] = made.sizes(archives)
        found = {place(*it): installation.content(path) for it, path in archives.items()}
        found.update(page(archives["wasm32", False], room))
    for name, path in OWN.items():
        found[path] = text_of(os.path.basename(name), **values).encode()
    for name, path in PAGES.items():
        found[path] = installation.installed_text(name, {**TAKEN, **PAGES, **OWN})
    found["lib/cmake/romtool/romtoolConfig.cmake"] = text_of("romtoolConfig.cmake", **values).encode()
    found["lib/cmake/romtool/romtoolConfigVersion.cmake"] = text_of("romtoolConfigVersion.cmake", **values).encode()
    for name in names:
        found[f"lib/pkgconfig/romtool-{name}.pc"] = text_of("romtool.pc", target=name, **values).encode()
    found.update({path: installation.content(name) for name, path in TAKEN.items()})
    found["llvm/romtool32.ll"] = to64.plain(made.texts[32, True, True]).encode()
    found["llvm/romtool64.ll"] = to64.plain(made.texts[64, True, True]).encode()
    found["LICENSES.txt"] = installation.licences()
    return {path: (held, 0o644) for path, held in found.items()}
