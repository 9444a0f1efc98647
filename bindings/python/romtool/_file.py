"""Open regular files of an image."""

from __future__ import annotations

import errno
import io
import os
from typing import Any, Iterator, List, NamedTuple

from ._errors import Name, error_of
from ._held import Held
from ._library import RawFile

MOST = 2**64 - 1
ISDIR, DIRECTORY = 7, 1


class Run(NamedTuple):
    """Says where bytes of a file are: `length` bytes from byte `start` of the file on are at `offset` of the image."""

    offset: int
    length: int
    start: int


class File(io.RawIOBase):
    """Reads a regular file of an image, as a binary file that cannot be written. It stays usable if the image is closed."""

    mode = "rb"

    def __init__(self, held: Held, node: int, path: Name) -> None:
        super().__init__()
        self.name, self._held, self._raw = path, held, held.open_node(node, path)
        stat = held.library.romtool_fstat(self._raw)
        if stat.kind == DIRECTORY:
            raise error_of(ISDIR, path)
        self.size: int = stat.size

    def _copy(self) -> RawFile:
        """Returns a copy of the struct, for a call that writes it."""
        if self.closed:
            raise ValueError("I/O operation on closed file")
        return RawFile.from_buffer_copy(self._raw)

    def lend(self, most: int = -1) -> memoryview:
        """Returns the next bytes in the image itself: at most `most`, as many as follow one another. Moves the position."""
        file = self._copy()
        place = self._held.library.romtool_lend(file, MOST if most < 0 else most)
        self._raw = file
        return self._held.lent(place, self.name)

    def map(self, start: int = 0, length: int = -1) -> memoryview:
        """Returns bytes of the file in the image itself, wherever the position is; by default all from `start` on.

        Raises OSError with EINVAL if they are not within the file, and with ERANGE if they are in several pieces.
        """
        if length < 0:
            length = self.size - start
        if length == 0 and 0 <= start <= self.size:
            return self._held.view[:0]
        if start < 0 or length < 0 or start + length > self.size:
            raise OSError(errno.EINVAL, "a range that is not within the file", self.name)
        return self._held.lent(self._held.library.romtool_map(self._copy(), start, length), self.name)

    def runs(self) -> List[Run]:
        """Returns where the bytes of the file are, in their order: as few runs as possible, none if the file is empty."""
        return list(self._runs())

    def _runs(self) -> Iterator[Run]:
        """Yields the runs of the file."""
        file, start = self._held.open_node(self._copy().node, self.name), 0
        while (place := self._held.library.romtool_lend(file, MOST)).len:
            yield Run(place.at, place.len, start)
            start += place.len

    def readable(self) -> bool:
        """Returns True."""
        return True

    def seekable(self) -> bool:
        """Returns True."""
        return True

    def readinto(self, buffer: Any) -> int:
        """Copies the next bytes into a buffer, and returns their number, which is 0 at the end."""
        room, count = memoryview(buffer).cast("B"), 0
        while count < len(room) and (piece := self.lend(len(room) - count)):
            room[count : count + len(piece)] = piece
            count += len(piece)
        return count

    def readall(self) -> bytes:
        """Returns all bytes from the position on."""
        return b"".join(iter(self.lend, b""))

    def write(self, *_: Any) -> int:
        """Raises io.UnsupportedOperation."""
        raise io.UnsupportedOperation("not writable")

    def seek(self, offset: int, whence: int = os.SEEK_SET) -> int:
        """Sets the position, also past the end, and returns it."""
        file = self._copy()
        before = {os.SEEK_SET: 0, os.SEEK_CUR: file.position, os.SEEK_END: self.size}
        if whence not in before:
            raise ValueError("invalid whence: %r" % (whence,))
        position = before[whence] + offset
        if not 0 <= position <= MOST:
            raise OSError(errno.EINVAL, "an invalid position", self.name)
        if error := self._held.library.romtool_seek(file, position):
            raise error_of(error, self.name)
        self._raw = file
        return position

    def tell(self) -> int:
        """Returns the position."""
        return int(self._copy().position)

    def __repr__(self) -> str:
        return "<romtool.File %r>" % (self.name,)
