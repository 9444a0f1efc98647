"""Makes the library for 32-bit machines and for WebAssembly of one module, and firmware over it, for test_targets.py and figures.py."""

import os

import c

TOOLS = os.path.join(c.TOP, "tools")
BOARD = os.path.join(c.SOURCES, "board")
ARM = ["-mcpu=cortex-m3", "-mthumb"]
M0 = ["-mcpu=cortex-m0", "-mthumb"]

BOARD_RUN = """words=
for it do words="$words,arg=$it"; done
exec qemu-system-arm -M mps2-an385 -nographic -monitor none -serial none \\
    -semihosting-config enable=on,target=native,arg=rom$words -kernel %s
"""
# the same for a board with a Cortex-M55, which has less memory
M55, M55_RUN = ["-mcpu=cortex-m55", "-mthumb"], BOARD_RUN.replace("mps2-an385", "mps3-an547")


class Archives:
    """The archives of the targets, each built once, of one module."""

    def __init__(self, top, module):
        self.top, self.module = top, module

    def of(self, target, counts, small=None):
        """Returns the archive for a target, or nothing: with the plain search, with the proved one, or as the tool has it."""
        name = "%s/lib%s%s.a" % (self.top, target, {True: "-small", False: "-wide"}.get(small, ""))
        if not os.path.exists(name):
            words = [os.path.join(TOOLS, "rom32"), target, "--module", self.module, "-o", name]
            done = c.said(words + {True: ["--small"], False: ["--wide"]}.get(small, []))
            if done.returncode:
                counts.fails(" ".join(words), done.stdout.decode(errors="replace").splitlines()[-20:])
                return None
            counts.passes()
        return name


def kept_module(top, given, counts):
    """Returns the module, which is kept of the proved build if none is given; or nothing."""
    if given:
        return os.path.abspath(given)
    module = top + "/rom_c.ll"
    done = c.said([os.path.join(TOOLS, "rom32"), "--keep", module])
    if done.returncode:
        counts.fails("tools/rom32 --keep", done.stdout.decode(errors="replace").splitlines()[-20:])
        return None
    counts.passes()
    return module


def script(path, text):
    """Writes a program of the shell."""
    with open(path, "w", encoding="utf-8") as file:
        file.write("#!/bin/sh\n" + text)
    os.chmod(path, 0o755)
    return path


def firmware(top, archive, name, machine, words, counts, layout="mps2.ld"):
    """Links firmware over the image of image.h for a board of this layout, or returns nothing."""
    made = "%s/%s" % (top, name)
    sources = [BOARD + "/flash.c", c.HEAPS + "/bytes.c", *[c.HEAPS + "/area.c"] * ("-DCHECK" in words)]
    how = ["-std=c99", "-Os", "-ffreestanding", "-fno-builtin", "-ffunction-sections", "-nostdlib", "-Wl,--gc-sections"]
    compiler = ["arm-none-eabi-gcc", *how, *machine, *c.STRICT, "-I" + top, "-T", os.path.join(BOARD, layout)]
    made_well = c.compiled([*compiler, *words, *sources, archive, "-lgcc", "-o", made], counts)
    return made if made_well else None
