"""Why an image, a path or the program was refused."""

from __future__ import annotations

import errno
from typing import Dict, Optional, Union

Name = Union[str, bytes]

# The names of the faults by number.
# made by tools/tables faults
FAULTS: Dict[int, str] = {
    1: "TooMany",
    2: "Short",
    3: "Magic",
    4: "Size",
    5: "Sum",
    6: "Flags",
    7: "Crc",
    8: "Signature",
    9: "Root",
    11: "Bounds",
    12: "HeaderSum",
    13: "BadName",
    14: "Kind",
    15: "LinkSize",
    16: "BlockKind",
    17: "ListEnd",
    20: "Twice",
    21: "TooDeep",
    22: "Overlap",
    23: "DupName",
    24: "Dot",
    25: "HardLink",
    26: "Unsorted",
}
# end

BUDGET = 16
# the number of `errno` and the words of each error of romtool.h that a call on an open image may have
_ERRORS = {
    1: (errno.ENOENT, "no such file or directory"),
    2: (errno.ENOTDIR, "not a directory"),
    3: (errno.ELOOP, "more than 40 symbolic links"),
    4: (errno.ENAMETOOLONG, "path or name too long"),
    5: (errno.EINVAL, "invalid argument"),
    6: (errno.EBADF, "no open file"),
    7: (errno.EISDIR, "is a directory"),
    8: (errno.ENXIO, "neither a directory nor a regular file"),
    10: (errno.ERANGE, "bytes in several pieces"),
    BUDGET: (errno.EDQUOT, "too many names compared"),
}


# the errors of a path that leads to nothing
LEADS_NOWHERE = (errno.ENOENT, errno.ENOTDIR, errno.ELOOP)


class Fault(ValueError):
    """Reports the least fault of bytes that are not a valid image.

    `number`, `name` and `offset` are those that `romtool check` prints (docs/FAULTS.md). The offset may be outside the
    image.
    """

    def __init__(self, number: int, offset: int) -> None:
        super().__init__(number, offset)
        self.number, self.offset = number, offset

    @property
    def name(self) -> str:
        """Returns the name of the fault."""
        return FAULTS.get(self.number, "Unknown")

    def __str__(self) -> str:
        return "fault %d %s at %d" % (self.number, self.name, self.offset)


class BudgetError(OSError):
    """Reports that a look-up compares more names than its budget has. Its `errno` is EDQUOT."""


class ProgramError(Exception):
    """Reports that the program refused something, or failed: `line` is the line that it printed, `status` its exit status."""

    def __init__(self, line: str, status: int) -> None:
        super().__init__(line, status)
        self.line, self.status = line, status

    def __str__(self) -> str:
        return "%s (status %d)" % (self.line, self.status)


def error_of(number: int, path: Optional[Name] = None) -> OSError:
    """Returns the exception for an error of the library: FileNotFoundError for ROMTOOL_ENOENT, for example."""
    code, words = _ERRORS.get(number, (errno.EIO, "error %d of the library" % number))
    return (BudgetError if number == BUDGET else OSError)(code, words, path)
