"""Finds files by their paths, so that many files of one directory are found in linear time."""

from __future__ import annotations

import ctypes
from typing import Any, Dict, Optional, Tuple

from ._errors import Name, error_of
from ._held import Held

SYMLINK = 3
# after how many look-ups in a directory its names are kept, and of how many directories
MANY, DIRECTORIES = 64, 8


class Budget:
    """Says how many names look-ups may compare together: `left` are left. An image of others can make a look-up slow."""

    def __init__(self, names: int) -> None:
        self.left = names


class _Directory:
    """Counts the look-ups in a directory. If there were many, it has the kind and the node of each name."""

    __slots__ = ("asked", "found")

    def __init__(self) -> None:
        self.asked = 0
        self.found: Optional[Dict[bytes, Tuple[int, int]]] = None


class Names:
    """Looks up paths in an image.

    The library compares a name with those of its directory, one after the other. So the names of a directory in which many
    were looked up are kept in a dictionary. All other look-ups, and all errors, are the library's.
    """

    def __init__(self, held: Held) -> None:
        self._held = held
        self._directories: Dict[bytes, _Directory] = {}

    def lookup(self, text: bytes, given: Name, follow: bool) -> int:
        """Returns the number of the node to which a path leads. `given` is the path for an error."""
        kind, number = self._kept(text) or (SYMLINK, 0)
        if number and (kind != SYMLINK or not follow):
            return number
        return self._number(self._held.library.romtool_lookup(self._held.raw, text, len(text), follow), given)

    def lookup_within(self, text: bytes, given: Name, follow: bool, budget: Budget) -> int:
        """Returns the same, if the look-up compares no more names than the budget has left. These are taken from it."""
        left = ctypes.c_uint64(max(0, min(budget.left, 2**64 - 1)))
        node = self._held.library.romtool_lookup_within(self._held.raw, text, len(text), follow, left)
        budget.left = left.value
        return self._number(node, given)

    @staticmethod
    def _number(node: Any, given: Name) -> int:
        """Returns the number of a node, or raises its error."""
        if node.error:
            raise error_of(node.error, given)
        return int(node.node)

    def _kept(self, text: bytes) -> Optional[Tuple[int, int]]:
        """Returns the kind and the node of a path without a last link, if the names of its directory are kept."""
        top, slash, name = text.rpartition(b"/")
        if not slash or name in (b"", b".", b"..") or len(text) > 4095:
            return None
        directory = self._directories.pop(top, None) or _Directory()
        for old in list(self._directories)[: 1 - DIRECTORIES]:
            self._directories.pop(old, None)
        self._directories[top] = directory  # the last one: those that came first are forgotten
        directory.asked += 1
        if directory.found is None and directory.asked > MANY:
            directory.found = self._names(top + b"/")
        return directory.found and directory.found.get(name)

    def _names(self, top: bytes) -> Dict[bytes, Tuple[int, int]]:
        """Returns the kind and the node of each name of a directory by its path; none if the path leads to no directory."""
        node = self._held.library.romtool_lookup(self._held.raw, top, len(top), True)
        return {} if node.error else {name: (kind, number) for name, kind, number in self._held.entries(node.node, top)}
