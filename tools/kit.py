"""What the tools use of the toolchain: its `rt` as a module, and the kits that they were made for.

The tools call parts of `rt` by the names of its functions, so they work with these kits only. With another kit they report
this, and run the toolchain's own `rt` instead.
"""

import importlib.machinery
import importlib.util
import os
import shutil
import sys

MADE_FOR = "rattle-kit-13f logic dac8208d650f15bf"
# kits with the same logic, whose `rt` has the same functions
ALSO = ("rattle-kit-13b logic dac8208d650f15bf",)
HOW_TO_GET = f"unpack {MADE_FOR.split()[0]} of the Rattle toolchain (18 GB; no Debian package has it), and put a link to its rt on the PATH"
TOP = os.path.dirname(os.path.dirname(os.path.realpath(__file__)))

sys.dont_write_bytecode = True


def program():
    """Returns the path of the toolchain's `rt`."""
    found = shutil.which("rt")
    if not found:
        sys.exit(f"{os.path.basename(sys.argv[0])}: the toolchain's rt is not on the path: {HOW_TO_GET}")
    return os.path.realpath(found)


def loaded():
    """Returns the toolchain's `rt` as a module, which has its library as `rtlib`."""
    loader = importlib.machinery.SourceFileLoader("rt_script", program())
    made = importlib.util.module_from_spec(importlib.util.spec_from_loader("rt_script", loader))
    loader.exec_module(made)
    return made


def is_known(rt, instead):
    """Returns whether the toolchain is a kit that the tools were made for. If not, it reports what is done instead."""
    with open(f"{rt.KIT}/KIT-ID", encoding="utf-8") as it:
        here = it.read().strip()
    is_one = here in (MADE_FOR, *ALSO)
    if not is_one:
        tool = f"tools/{os.path.basename(sys.argv[0])}"
        print(f"{tool}: made for {MADE_FOR}, and this is {here}: {instead}", file=sys.stderr, flush=True)
    return is_one


def hand_over(words):
    """Continues as the toolchain's own `rt` with these words."""
    os.execv(program(), [program(), *words])
