"""The structs and calls of romtool.h, and where the shared library is."""

from __future__ import annotations

import ctypes
import ctypes.util
import os
import sys
import threading
from typing import Any, Optional

u32, u64, flag, pointer = ctypes.c_uint32, ctypes.c_uint64, ctypes.c_bool, ctypes.c_void_p

BADF, CLOSED, FAULT = 6, 13, 14


class RawImage(ctypes.Structure):
    """Has the fields of `struct romtool_image`."""

    _fields_ = [
        ("data", pointer), ("len", u64), ("status", u32), ("format", u32), ("fault", u32), ("at", u32),
        ("accessible", u32), ("root", u32), ("references", u32), ("depth", u32),
    ]  # fmt: skip


class RawNode(ctypes.Structure):
    """Has the fields of `struct romtool_node`."""

    _fields_ = [("error", u32), ("node", u32)]


class RawStat(ctypes.Structure):
    """Has the fields of `struct romtool_stat`."""

    _fields_ = [
        ("error", u32), ("ino", u32), ("kind", u32), ("mode", u32), ("uid", u32), ("gid", u32), ("size", u32),
        ("major", u32), ("minor", u32),
    ]  # fmt: skip


class RawPlace(ctypes.Structure):
    """Has the fields of `struct romtool_place`."""

    _fields_ = [("error", u32), ("at", u32), ("len", u64)]


class RawFile(ctypes.Structure):
    """Has the fields of `struct romtool_file`."""

    _fields_ = [("image", RawImage), ("error", u32), ("node", u32), ("position", u64)]


class RawEntry(ctypes.Structure):
    """Has the fields of `struct romtool_entry`."""

    _fields_ = [("name", pointer), ("name_len", u64), ("node", u32), ("some", u32), ("kind", u32)]


# the structs by their names in the header, without `romtool_`
STRUCTS = {"image": RawImage, "node": RawNode, "stat": RawStat, "place": RawPlace, "file": RawFile, "entry": RawEntry}

_image, _file, _path = ctypes.POINTER(RawImage), ctypes.POINTER(RawFile), (ctypes.c_char_p, u64)
# the first number of the library's version, which is in the names of its calls
MAJOR = 3
# what each call returns, and its arguments
CALLS = {
    "romtool_check": (u32, _image, pointer, u64),
    "romtool_lookup": (RawNode, _image, *_path, flag),
    "romtool_lookup_within": (RawNode, _image, *_path, flag, ctypes.POINTER(u64)),
    "romtool_stat": (RawStat, _image, *_path, flag),
    "romtool_stat_node": (RawStat, _image, u32),
    "romtool_lookup_at": (RawNode, _image, u32, *_path),
    "romtool_is_node": (flag, _image, u32),
    "romtool_readlink": (RawPlace, _image, *_path),
    "romtool_readlink_node": (RawPlace, _image, u32),
    "romtool_open": (u32, _file, _image, *_path),
    "romtool_open_node": (u32, _file, _image, u32),
    "romtool_reopen": (u32, _file, _image, u32, u64),
    "romtool_fstat": (RawStat, _file),
    "romtool_map": (RawPlace, _file, u64, u64),
    "romtool_lend": (RawPlace, _file, u64),
    "romtool_read": (u32, _file, pointer, u64, ctypes.POINTER(u64)),
    "romtool_seek": (u32, _file, u64),
    "romtool_readdir": (u32, _file, ctypes.POINTER(RawEntry)),
    "romtool_read_at": (u32, _file, u64, pointer, u64, ctypes.POINTER(u64)),
    "romtool_telldir": (u64, _file),
    "romtool_seekdir": (u32, _file, u64),
    "romtool_links": (u64, _image, u32),
    "romtool_nodes": (u64, _image, ctypes.POINTER(u32), u64),
    "romtool_parent": (RawNode, _image, u32),
    "romtool_volume": (RawPlace, _image),
    "romtool_numbers": (None, _image, pointer),
    "romtool_from_numbers": (u32, _image, pointer, u64, pointer),
    "romtool_library_version": (u32,),
}
# those whose names are the same in all versions
SAME = {"romtool_library_version"}


class LibraryError(ImportError):
    """Reports that there is no library, or not one of this header."""


def _find() -> str:
    """Returns the name of the library: that of ROMTOOL_LIBRARY, that beside the package, or that of the system."""
    told = os.environ.get("ROMTOOL_LIBRARY")
    beside = os.path.join(os.path.dirname(os.path.abspath(__file__)), "libromtool.so")
    found = told or (beside if os.path.exists(beside) else ctypes.util.find_library("romtool"))
    if not found:
        raise LibraryError("there is no libromtool.so: name it in ROMTOOL_LIBRARY, put it beside %s, or install it" % __file__)
    return found


def _probe(library: Any, name: str) -> None:
    """Raises LibraryError if a library answers calls on a closed struct in another way than the header says.

    Its answers show whether it has the structs of the header.
    """
    image, file, entry = RawImage(), RawFile(), RawEntry()
    node = library.romtool_lookup(image, b"/", 1, True)
    stat = library.romtool_stat(image, b"/", 1, True)
    place = library.romtool_readlink(image, b"/", 1)
    got = [node.error, stat.error, place.error, library.romtool_open(file, image, b"/", 1), library.romtool_readdir(file, entry)]
    zeros = [node.node, place.at, place.len, *(getattr(stat, it) for it, _ in RawStat._fields_[1:])]
    checked = library.romtool_check(image, None, 0)
    if got != [CLOSED] * 4 + [BADF] or any(zeros) or (checked, image.status, image.fault, image.at) != (FAULT, 0, 2, 0):
        raise LibraryError("%s does not answer as romtool.h of this version says" % name)


def load(name: str) -> Any:
    """Returns the library of this name, whose calls have their types.

    Raises LibraryError if it is not there, lacks a call, or answers in another way than the header says.
    """
    if ctypes.sizeof(pointer) != 8 or sys.byteorder != "little":
        raise LibraryError("the package needs a little-endian machine of 64 bits")
    try:
        library = ctypes.CDLL(name)
    except OSError as error:
        raise LibraryError(str(error)) from error
    for call, (result, *arguments) in CALLS.items():
        try:
            function = getattr(library, call if call in SAME else "%s_v%d" % (call, MAJOR))
        except AttributeError as error:
            raise LibraryError("%s lacks %s, or is of another version" % (name, call)) from error
        function.restype, function.argtypes = result, arguments
        setattr(library, call, function)
    _probe(library, name)
    return library


_lock = threading.Lock()
_loaded: Optional[Any] = None


def library() -> Any:
    """Returns the library, which is loaded at the first call."""
    global _loaded
    with _lock:
        if _loaded is None:
            _loaded = load(_find())
        return _loaded
