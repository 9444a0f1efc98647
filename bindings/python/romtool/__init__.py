"""Reads romfs and cramfs images in place: an image is checked once, and then used without a copy.

    import romtool

    with romtool.Image("app.cramfs") as image:
        print(image.format, image.listdir("/"))
        motd = image.map("/etc/motd")  # a memoryview of the file that is mapped
        print(hex(0x08000000 + image.offset("/bin/init")))

The calls are those of the proved library for C (docs/C.md). The package itself is tested, not proved.
"""

from ._errors import BudgetError, Fault, ProgramError
from ._file import File, Run
from ._image import Entry, Image, Kind, Stat
from ._library import LibraryError
from ._names import Budget
from ._path import Path
from ._program import Checked, build, check

__version__ = "2.0.0"
__all__ = [
    "Budget", "BudgetError", "Checked", "Entry", "Fault", "File", "Image", "Kind", "LibraryError", "Path", "ProgramError",
    "Run", "Stat", "build", "check",
]  # fmt: skip
