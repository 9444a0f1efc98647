"""The bytes of a checked image, and the struct that the library filled for them."""

from __future__ import annotations

import collections
import ctypes
import functools
import io
import mmap
import os
from typing import IO, Any, Dict, Iterator, Optional, Tuple, Union

from ._errors import Fault, Name, error_of
from ._library import FAULT, RawEntry, RawFile, RawImage, RawPlace, library, u32

Source = Union[bytes, bytearray, memoryview, mmap.mmap, str, "os.PathLike[str]", "os.PathLike[bytes]", IO[bytes]]

# the bytes of a description; the error of what is no directory, and the kind of one
NUMBERS = 48
NOTDIR, DIRECTORY = 2, 1


class _Buffer(ctypes.Structure):
    """Has the fields of `Py_buffer`."""

    _fields_ = [
        ("buf", ctypes.c_void_p), ("obj", ctypes.c_void_p), ("len", ctypes.c_ssize_t), ("itemsize", ctypes.c_ssize_t),
        ("readonly", ctypes.c_int), ("ndim", ctypes.c_int), ("format", ctypes.c_void_p), ("shape", ctypes.c_void_p),
        ("strides", ctypes.c_void_p), ("suboffsets", ctypes.c_void_p), ("internal", ctypes.c_void_p),
    ]  # fmt: skip


# prototypes of our own: those of ctypes.pythonapi are shared with other packages
_get_buffer = ctypes.PYFUNCTYPE(ctypes.c_int, ctypes.py_object, ctypes.c_void_p, ctypes.c_int)(("PyObject_GetBuffer", ctypes.pythonapi))
_release_buffer = ctypes.PYFUNCTYPE(None, ctypes.c_void_p)(("PyBuffer_Release", ctypes.pythonapi))


def _address_of(view: memoryview) -> int:
    """Returns the address of the first byte of a view. The bytes stay there as long as the view is held."""
    buffer = _Buffer()
    _get_buffer(view, ctypes.addressof(buffer), 0)
    try:
        return buffer.buf or 0
    finally:
        _release_buffer(ctypes.addressof(buffer))


def _mapped(file: Any) -> memoryview:
    """Returns the bytes of a file from its position on, mapped read-only; no bytes if there are none, since these cannot be mapped."""
    start = file.tell()
    size = file.seek(0, os.SEEK_END)
    file.seek(start)
    return memoryview(mmap.mmap(file.fileno(), size, access=mmap.ACCESS_READ) if size else b"")[start:]


def _of_file(file: Any) -> memoryview:
    """Returns the bytes of an open binary file from its position on: mapped, if it is a file of the system."""
    if isinstance(file, io.TextIOBase):
        raise TypeError("the file of an image has to be opened as a binary file, with 'rb'")
    if isinstance(getattr(file, "raw", file), io.FileIO) and file.seekable():
        file.flush()
        return _mapped(file)
    return memoryview(file.read())


def _view_of(source: Source) -> memoryview:
    """Returns a read-only view of the bytes of a source."""
    if isinstance(source, (str, os.PathLike)):
        with open(source, "rb") as file:
            view = _mapped(file)
    else:
        view = _of_file(source) if hasattr(source, "read") and not isinstance(source, mmap.mmap) else memoryview(source)
    if not view.c_contiguous:
        raise ValueError("the bytes of an image have to be contiguous")
    return (view.cast("B") if view.nbytes else memoryview(b"")).toreadonly()


class Held:
    """Holds the bytes of a checked image, which stay in memory as long as this object, or a view of the bytes.

    The struct `raw` is written only by the check, or from a description. Each call on a file or directory gets a new struct, so that two
    threads never share one that is written.
    """

    def __init__(self, source: Source, numbers: Optional[bytes] = None) -> None:
        self.library, self.view, self.raw = library(), _view_of(source), RawImage()
        self._address = _address_of(self.view)
        if numbers is not None:
            if len(numbers) != NUMBERS or self.library.romtool_from_numbers(self.raw, self._address, len(self.view), numbers):
                raise ValueError("not the numbers of this image")
            return
        error = self.library.romtool_check(self.raw, self._address, len(self.view))
        if error == FAULT:
            raise Fault(self.raw.fault, self.raw.at)
        if error:
            raise MemoryError("the check of an image was refused memory")

    def numbers(self) -> bytes:
        """Returns the description of the image."""
        room = ctypes.create_string_buffer(NUMBERS)
        self.library.romtool_numbers(self.raw, room)
        return room.raw

    def open_node(self, node: int, path: Name) -> RawFile:
        """Returns the struct of a directory or regular file, which is opened by its number."""
        file = RawFile()
        if error := self.library.romtool_open_node(file, self.raw, node):
            raise error_of(error, path)
        return file

    def entries(self, number: int, path: Name) -> Iterator[Tuple[bytes, int, int]]:
        """Returns an iterator over the names of a directory, opened by its number, with the kind and the node of each."""
        file, entry = self.open_node(number, path), RawEntry()
        if self.library.romtool_fstat(file).kind != DIRECTORY:
            raise error_of(NOTDIR, path)

        def entries() -> Iterator[Tuple[bytes, int, int]]:
            while True:
                if error := self.library.romtool_readdir(file, entry):
                    raise error_of(error, path)
                if not entry.some:
                    return
                yield self._name_of(entry), entry.kind, entry.node

        return entries()

    @functools.cached_property
    def links(self) -> Dict[int, int]:
        """Has the number of names of each node, as romtool_links counts them: all are counted in one pass."""
        count = self.library.romtool_nodes(self.raw, None, 0)
        numbers = (u32 * count)()
        self.library.romtool_nodes(self.raw, numbers, count)
        return collections.Counter(numbers)

    def lent(self, place: RawPlace, path: Name) -> memoryview:
        """Returns the bytes of a place, or raises its error."""
        if place.error:
            raise error_of(place.error, path)
        return self.view[place.at : place.at + place.len]

    def _name_of(self, entry: RawEntry) -> bytes:
        """Returns the name of an entry."""
        at = entry.name - self._address if entry.name else 0
        return bytes(self.view[at : at + entry.name_len])
