"""Checked images, and the nodes to which their paths lead."""

from __future__ import annotations

import enum
import os
import posixpath
import stat as modes
import weakref
from typing import AnyStr, Callable, Generic, Iterator, List, NamedTuple, Optional, Tuple, Union

from ._errors import LEADS_NOWHERE, Name, error_of
from ._file import File, Run
from ._held import Held, Source
from ._names import Budget, Names
from ._path import Path

PathLike = Union[str, bytes, "os.PathLike[str]", "os.PathLike[bytes]"]
FORMATS = {1: "romfs", 2: "cramfs", 3: "cramfs-be"}


class Kind(enum.IntEnum):
    """Is the kind of a file, with its number in romtool.h."""

    DIRECTORY = 1
    REGULAR = 2
    SYMLINK = 3
    BLOCK = 4
    CHARACTER = 5
    SOCKET = 6
    FIFO = 7

    @property
    def letter(self) -> str:
        """Returns the letter that `romtool list` prints."""
        return "?dflbcsp"[self]


_TYPES = {
    Kind.DIRECTORY: modes.S_IFDIR, Kind.REGULAR: modes.S_IFREG, Kind.SYMLINK: modes.S_IFLNK, Kind.BLOCK: modes.S_IFBLK,
    Kind.CHARACTER: modes.S_IFCHR, Kind.SOCKET: modes.S_IFSOCK, Kind.FIFO: modes.S_IFIFO,
}  # fmt: skip


class _Numbers(NamedTuple):
    """Has the fields of a Stat."""

    kind: Kind
    mode: int
    uid: int
    gid: int
    major: int
    minor: int
    size: int
    number: int


class Stat(_Numbers):
    """Has the kind and numbers of a file: `mode` is 0 to 0o7777, `major` and `minor` are 0 except for a device.

    `size` counts the bytes of a file or of a link's text. `number` is that of the node: the offset of its record. The names
    of os.stat_result, which begin with `st_`, have the same numbers. An image has no times.
    """

    _held: Optional[weakref.ref[Held]] = None

    @property
    def st_mode(self) -> int:
        """Returns the mode with the bits of the kind, for the module `stat`."""
        return _TYPES[self.kind] | self.mode

    @property
    def st_ino(self) -> int:
        """Returns the number of the node."""
        return self.number

    @property
    def st_nlink(self) -> int:
        """Returns the number of names of the file; of a directory 1. The first such call on an image counts those of all files.

        Raises ValueError if the image is closed, and of a copy.
        """
        held = self._held and self._held()
        if not held:
            raise ValueError("the image is closed, or is not known of a copy")
        return held.links.get(self.number, 1)

    def __reduce__(self) -> Tuple[type, Tuple[object, ...]]:
        return (Stat, tuple(self))  # a copy has no image

    @property
    def st_uid(self) -> int:
        """Returns the user."""
        return self.uid

    @property
    def st_gid(self) -> int:
        """Returns the group."""
        return self.gid

    @property
    def st_size(self) -> int:
        """Returns the number of bytes of a file or of a link's text."""
        return self.size

    @property
    def st_rdev(self) -> int:
        """Returns the numbers of a device as one."""
        return os.makedev(self.major, self.minor)

    def is_dir(self) -> bool:
        """Returns whether it is a directory."""
        return self.kind == Kind.DIRECTORY

    def is_file(self) -> bool:
        """Returns whether it is a regular file."""
        return self.kind == Kind.REGULAR

    def is_symlink(self) -> bool:
        """Returns whether it is a symbolic link."""
        return self.kind == Kind.SYMLINK


def _stat_of(held: Held, number: int, path: Name) -> Stat:
    """Returns the kind and numbers of a node."""
    raw = held.library.romtool_stat_node(held.raw, number)
    if raw.error:
        raise error_of(raw.error, path)
    made = Stat(Kind(raw.kind), raw.mode, raw.uid, raw.gid, raw.major, raw.minor, raw.size, raw.ino)
    made._held = weakref.ref(held)
    return made


class Entry(Generic[AnyStr]):
    """Is an entry of a directory, as os.DirEntry: `name`, `path`, and `kind`. Only a link that is followed needs a look-up.

    The calls of Image accept an entry as a path, and find its file as fast.
    """

    __slots__ = ("_image", "name", "path", "kind", "number")

    def __init__(self, image: Image, directory: AnyStr, name: AnyStr, kind: Kind, number: int) -> None:
        self._image, self.name, self.kind, self.number = image, name, kind, number
        self.path = posixpath.join(directory, name)

    def inode(self) -> int:
        """Returns the number of the node."""
        return self.number

    def is_symlink(self) -> bool:
        """Returns whether it is a symbolic link."""
        return self.kind == Kind.SYMLINK

    def is_dir(self, *, follow_symlinks: bool = True) -> bool:
        """Returns whether it is a directory, or a link to one that is followed."""
        return self._is(Kind.DIRECTORY, follow_symlinks)

    def is_file(self, *, follow_symlinks: bool = True) -> bool:
        """Returns whether it is a regular file, or a link to one that is followed."""
        return self._is(Kind.REGULAR, follow_symlinks)

    def _is(self, kind: Kind, follow: bool) -> bool:
        """Returns whether it is of a kind. A link that leads to nothing is of no other."""
        return self.kind == kind if self.kind != Kind.SYMLINK or not follow else self._image._leads_to(self, kind)

    def stat(self, *, follow_symlinks: bool = True) -> Stat:
        """Returns the kind and numbers."""
        return self._image.stat(self, follow_symlinks=follow_symlinks)

    def readlink(self) -> AnyStr:
        """Returns the text of the symbolic link. Raises OSError with EINVAL if it is no link."""
        return self._image.readlink(self)

    def open(self, mode: str = "rb") -> File:
        """Opens the regular file, as Image.open does."""
        return self._image.open(self, mode)

    def read(self) -> bytes:
        """Returns a copy of the bytes of the file."""
        return self._image.read(self)

    def map(self) -> memoryview:
        """Returns the bytes of the file in the image itself, as Image.map does."""
        return self._image.map(self)

    def offset(self) -> Optional[int]:
        """Returns the offset of the file's first byte in the image; None if the file is empty."""
        return self._image.offset(self)

    def runs(self) -> List[Run]:
        """Returns where the bytes of the file are in the image, as Image.runs does."""
        return self._image.runs(self)

    def __fspath__(self) -> AnyStr:
        return self.path

    def __repr__(self) -> str:
        return "<romtool.Entry %r>" % (self.name,)


class Image:
    """Is a romfs or cramfs image that a check accepted.

    `source` has the bytes, as `bytes`, a memoryview or an mmap; or it is the path of a file, which is mapped read-only; or a
    file that is open as a binary file, from its position on: a file of the system is mapped, and another one is read.
    Raises Fault if the bytes are not a valid image, and MemoryError if the check was refused memory. What is lent is a
    memoryview of these bytes, which stay in memory as long as a view is held, also if the image is closed.

    **Do not change the bytes of the source as long as the image, or something that it lent, is used.**

    A path begins at the root, also without a slash in front. It is a `str` (names are decoded as UTF-8, with
    `surrogateescape`), `bytes`, an Entry, a Path, or another object with `__fspath__`. An error of a path is an OSError:
    FileNotFoundError, NotADirectoryError, and so on. With a budget, BudgetError is raised if a look-up compares more names
    than the budget has left; nothing is left then.
    """

    def __init__(self, source: Source) -> None:
        self._hold(Held(source))

    def _hold(self, held: Held) -> None:
        """Holds the bytes of the image."""
        self._held: Optional[Held] = held
        self._names: Optional[Names] = Names(held)

    @classmethod
    def from_numbers(cls, source: Source, numbers: bytes) -> Image:
        """Returns an image of a source and its description, without a check.

        Raises ValueError if it is no description, of another version, or one of another number of bytes. **Otherwise
        `numbers` has to be what `numbers` of a checked image of exactly these bytes is.**
        """
        image = cls.__new__(cls)
        image._hold(Held(source, bytes(numbers)))
        return image

    def _open(self) -> Held:
        """Returns what the image holds."""
        if self._held is None:
            raise ValueError("the image is closed")
        return self._held

    def close(self) -> None:
        """Closes the image. Views and open files stay usable."""
        self._held = self._names = None

    def __enter__(self) -> Image:
        self._open()
        return self

    def __exit__(self, *_: object) -> None:
        self.close()

    def __repr__(self) -> str:
        return "<romtool.Image closed>" if self._held is None else "<romtool.Image %s, %d bytes>" % (self.format, self.size)

    @property
    def format(self) -> str:
        """Returns the format: `romfs`, `cramfs`, or `cramfs-be` for big-endian cramfs."""
        return FORMATS[self._open().raw.format]

    @property
    def big_endian(self) -> bool:
        """Returns whether the highest byte of a word comes first in the image. In romfs it always does."""
        return self.format != "cramfs"

    @property
    def size(self) -> int:
        """Returns the number of bytes that belong to the image. The source may have more."""
        return int(self._open().raw.accessible)

    @property
    def references(self) -> int:
        """Returns the number of references to records, as `romtool check` prints it."""
        return int(self._open().raw.references)

    @property
    def depth(self) -> int:
        """Returns the greatest number of names on a path."""
        return int(self._open().raw.depth)

    @property
    def volume(self) -> bytes:
        """Returns the name of the volume, which may be empty."""
        held = self._open()
        return bytes(held.lent(held.library.romtool_volume(held.raw), "/"))

    @property
    def numbers(self) -> bytes:
        """Returns the description of the image: 48 bytes, from which `from_numbers` makes it again over the same bytes."""
        return self._open().numbers()

    @property
    def view(self) -> memoryview:
        """Returns the bytes that belong to the image. Offsets count from its first byte."""
        held = self._open()
        return held.view[: held.raw.accessible]

    @property
    def root(self) -> Path:
        """Returns the root directory, as a Traversable of importlib.resources."""
        return Path(self, "/")

    def path(self, path: PathLike) -> Path:
        """Returns the object of a path, as a Traversable of importlib.resources. It need not exist."""
        return Path(self, _bytes_of(path).decode("utf-8", "surrogateescape"))

    def lookup(self, path: PathLike, *, follow_symlinks: bool = True, budget: Optional[Budget] = None) -> int:
        """Returns the number of the node to which a path leads. `follow_symlinks` says whether a last link is followed."""
        names = self._names or Names(self._open())
        it = path._entry if isinstance(path, Path) else path
        if isinstance(it, Entry) and it._image is self and (it.kind != Kind.SYMLINK or not follow_symlinks):
            return it.number
        text, given = _bytes_of(path), os.fspath(path)
        if budget is None:
            return names.lookup(text, given, follow_symlinks)
        return names.lookup_within(text, given, follow_symlinks, budget)

    def stat(self, path: PathLike, *, follow_symlinks: bool = True, budget: Optional[Budget] = None) -> Stat:
        """Returns the kind and numbers of what a path leads to."""
        return _stat_of(self._open(), self.lookup(path, follow_symlinks=follow_symlinks, budget=budget), os.fspath(path))

    def exists(self, path: PathLike, *, follow_symlinks: bool = True) -> bool:
        """Returns whether a path leads to anything. Raises OSError for a path that is too long, for example."""
        return self._leads_to(path, None, follow_symlinks)

    def _leads_to(self, path: PathLike, kind: Optional[int], follow_symlinks: bool = True) -> bool:
        """Returns whether a path leads to something of a kind, or to anything."""
        try:
            return kind in (None, self.stat(path, follow_symlinks=follow_symlinks).kind)
        except OSError as error:
            if error.errno in LEADS_NOWHERE:
                return False
            raise

    def readlink(self, path: Union[AnyStr, os.PathLike[AnyStr]], *, budget: Optional[Budget] = None) -> AnyStr:
        """Returns the text of a symbolic link, of the type of the path. Raises OSError with EINVAL if it is no link."""
        held, number, given = self._open(), self.lookup(path, follow_symlinks=False, budget=budget), os.fspath(path)
        return _like(bytes(held.lent(held.library.romtool_readlink_node(held.raw, number), given)), given)

    def scandir(
        self, path: Union[AnyStr, os.PathLike[AnyStr]] = "/", *, budget: Optional[Budget] = None  # type: ignore[assignment]
    ) -> Iterator[Entry[AnyStr]]:
        """Returns an iterator over the entries of a directory, in the order of the image, without `.` and `..`."""
        return self._entries(self.lookup(path, budget=budget), os.fspath(path))

    def _entries(self, number: int, path: AnyStr) -> Iterator[Entry[AnyStr]]:
        """Returns an iterator over the entries of the directory of this number, which a look-up returned."""
        entries = self._open().entries(number, path)
        return (Entry(self, path, _like(name, path), Kind(kind), node) for name, kind, node in entries)

    def _entries_named(self, path: Union[str, os.PathLike[str]], name: str) -> List[Entry[str]]:
        """Returns the entry of this name in a directory, which is found by the directory's node; none if there is none."""
        if not self._leads_to(path, Kind.DIRECTORY):
            return []
        held, text = self._open(), name.encode("utf-8", "surrogateescape")
        node = held.library.romtool_lookup_at(held.raw, self.lookup(path), text, len(text))
        if node.error:
            return []
        kind = Kind(held.library.romtool_stat_node(held.raw, node.node).kind)
        return [Entry(self, os.fspath(path), name, kind, node.node)]

    def listdir(
        self, path: Union[AnyStr, os.PathLike[AnyStr]] = "/", *, budget: Optional[Budget] = None  # type: ignore[assignment]
    ) -> List[AnyStr]:
        """Returns the names of a directory's entries, in the order of the image, of the type of the path."""
        return [it.name for it in self.scandir(path, budget=budget)]

    def walk(
        self,
        top: Union[AnyStr, os.PathLike[AnyStr]] = "/",  # type: ignore[assignment]
        topdown: bool = True,
        onerror: Optional[Callable[[OSError], object]] = None,
        follow_symlinks: bool = False,
    ) -> Iterator[Tuple[AnyStr, List[AnyStr], List[AnyStr]]]:
        """Yields the path of each directory, the names of its directories and those of its other entries, as os.walk does.

        Directories are opened by the numbers of their nodes, so the time is linear, unless links are followed.
        """
        try:
            number = self.lookup(top)
        except OSError as error:
            if onerror is not None:
                onerror(error)
            return
        yield from self._walk(number, os.fspath(top), topdown, onerror, follow_symlinks)

    def _walk(
        self, number: int, top: AnyStr, topdown: bool, onerror: Optional[Callable[[OSError], object]], follow_symlinks: bool
    ) -> Iterator[Tuple[AnyStr, List[AnyStr], List[AnyStr]]]:
        """Yields what walk yields, from the directory of a number on."""
        try:
            entries = {it.name: it for it in self._entries(number, top)}
        except OSError as error:
            if onerror is not None:
                onerror(error)
            return
        names = [it.name for it in entries.values() if _leads_to_directory(it)]
        known = set(names)
        found = (top, names, [it for it in entries if it not in known])
        if topdown:
            yield found
        for name in names:
            entry = entries.get(name)
            if entry is not None and entry.kind == Kind.DIRECTORY:
                yield from self._walk(entry.number, entry.path, topdown, onerror, follow_symlinks)
            elif entry is None or follow_symlinks:
                yield from self.walk(posixpath.join(top, name), topdown, onerror, follow_symlinks)
        if not topdown:
            yield found

    def open(self, path: PathLike, mode: str = "rb", *, budget: Optional[Budget] = None) -> File:
        """Opens the regular file to which a path leads, as a binary file that cannot be written."""
        if mode != "rb":
            raise ValueError("a file of an image is only read, as a binary file with 'rb': %r" % (mode,))
        return File(self._open(), self.lookup(path, budget=budget), os.fspath(path))

    def read(self, path: PathLike, *, budget: Optional[Budget] = None) -> bytes:
        """Returns a copy of the bytes of a file."""
        return self.open(path, budget=budget).readall()

    def map(self, path: PathLike, *, budget: Optional[Budget] = None) -> memoryview:
        """Returns all bytes of a file, in the image itself. Raises OSError with ERANGE if they are in several pieces."""
        return self.open(path, budget=budget).map()

    def offset(self, path: PathLike, *, budget: Optional[Budget] = None) -> Optional[int]:
        """Returns the offset of a file's first byte in the image; None if the file is empty."""
        runs = self.runs(path, budget=budget)
        return runs[0].offset if runs else None

    def runs(self, path: PathLike, *, budget: Optional[Budget] = None) -> List[Run]:
        """Returns where the bytes of a file are in the image: as few runs as possible, none if the file is empty."""
        return self.open(path, budget=budget).runs()


def _leads_to_directory(it: Entry[AnyStr]) -> bool:
    """Returns whether an entry leads to a directory, as os.walk does: not if it is a link that cannot be followed."""
    try:
        return it.is_dir()
    except OSError:
        return False


def _bytes_of(path: PathLike) -> bytes:
    """Returns the bytes of a path, which begins at the root. An empty path stays empty."""
    given = os.fspath(path)
    text = given if isinstance(given, bytes) else given.encode("utf-8", "surrogateescape")
    return text if text.startswith(b"/") or not text else b"/" + text


def _like(text: bytes, path: AnyStr) -> AnyStr:
    """Returns a name of the type of a path."""
    return text.decode("utf-8", "surrogateescape") if isinstance(path, str) else text
