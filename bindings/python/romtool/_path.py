"""Paths of an image, as objects."""

from __future__ import annotations

import fnmatch
import functools
import io
import os
import pathlib
import re
from typing import IO, TYPE_CHECKING, Any, Iterator, List, Optional, Sequence, Tuple, Union

from ._held import DIRECTORY
from ._names import SYMLINK

if TYPE_CHECKING:
    from ._image import Entry, Image, Stat

REGULAR = 2


@functools.total_ordering
class Path:
    """Is a path of an image, as a Traversable of importlib.resources: it need not exist. It is anchored at the root.

    What it is named like in pathlib.Path does the same there, and so do slashes and `.` in a text; `..` stays. Links are
    followed, except by glob and rglob in `**`. A path that was found in a directory is used by its node, without a look-up.
    """

    __slots__ = ("_image", "_pure", "_entry")

    def __init__(self, image: Image, path: str, entry: Optional[Entry[str]] = None) -> None:
        self._image, self._pure, self._entry = image, pathlib.PurePosixPath("/" + path.lstrip("/")), entry

    @property
    def name(self) -> str:
        """Returns the last name of the path; that of the root is empty."""
        return self._pure.name

    @property
    def stem(self) -> str:
        """Returns the last name without its suffix."""
        return self._pure.stem

    @property
    def suffix(self) -> str:
        """Returns the last name from its last dot on."""
        return self._pure.suffix

    @property
    def suffixes(self) -> List[str]:
        """Returns the parts of the last name that begin with a dot."""
        return self._pure.suffixes

    @property
    def parts(self) -> Tuple[str, ...]:
        """Returns a slash, and the names of the path."""
        return self._pure.parts

    @property
    def parent(self) -> Path:
        """Returns the path without its last name."""
        return Path(self._image, str(self._pure.parent))

    @property
    def parents(self) -> Sequence[Path]:
        """Returns the parent, its parent, and so on to the root."""
        return tuple(Path(self._image, str(it)) for it in self._pure.parents)

    def joinpath(self, *descendants: Any) -> Path:
        """Returns the path with more names. One that begins with a slash begins anew."""
        return Path(self._image, str(self._pure.joinpath(*map(str, descendants))))

    def __truediv__(self, child: Any) -> Path:
        return self.joinpath(child)

    def relative_to(self, other: Union[str, os.PathLike[str]]) -> pathlib.PurePosixPath:
        """Returns what follows another path in this one. Raises ValueError if this one does not begin with it."""
        return self._pure.relative_to(self._image.path(other)._pure)

    def is_relative_to(self, other: Union[str, os.PathLike[str]]) -> bool:
        """Returns whether the path begins with another one."""
        return self._pure.is_relative_to(self._image.path(other)._pure)

    def iterdir(self) -> Iterator[Path]:
        """Yields the entries of a directory, in the order of the image."""
        return (Path(self._image, it.path, it) for it in self._image.scandir(self._found()))

    def glob(self, pattern: str) -> Iterator[Path]:
        """Yields the paths below this one that a pattern matches, in the order of the image.

        `*`, `?` and `[..]` match as in fnmatch, within one name. `**` matches any number of directories, none through a link.
        """
        if pattern.startswith("/"):
            raise NotImplementedError("a pattern that begins with a slash: %r" % pattern)
        parts = [it for it in pattern.split("/") if it not in ("", ".")]
        if not parts:
            raise ValueError("an empty pattern: %r" % pattern)
        if pattern.endswith("/"):
            parts.append("")
        found = self._matches(parts)
        return iter(dict.fromkeys(found)) if parts.count("**") > 1 else found

    def rglob(self, pattern: str) -> Iterator[Path]:
        """Yields the paths at any depth below this one that a pattern matches, as `glob` with `**/` in front does."""
        if pattern.startswith("/"):
            raise NotImplementedError("a pattern that begins with a slash: %r" % pattern)
        return self.glob("**/" + pattern)

    def _matches(self, parts: List[str]) -> Iterator[Path]:
        """Yields the paths that the parts of a pattern match. An empty part at the end matches a directory."""
        first, rest = parts[0], parts[1:]
        if first == "":
            found = iter([self] if self.is_dir() else [])
        elif first == "**":
            found = self._tree(bool(rest))
        elif any(it in first for it in "*?["):
            matches = re.compile(fnmatch.translate(first)).match
            found = (it for it in self._entries() if matches(it.name))
        else:
            found = self._named(first)
        for it in found:
            if rest:
                yield from it._matches(rest)
            else:
                yield it

    def _tree(self, only_directories: bool) -> Iterator[Path]:
        """Yields this path and all below it, none through a link; or only the directories."""
        left = [self]
        while left:
            it = left.pop()
            yield it
            below = it._entries() if it is self or it._is_directory_itself() else ()
            left += reversed([it for it in below if not only_directories or it._is_directory_itself()])

    def _is_directory_itself(self) -> bool:
        """Returns whether a path that was found in a directory is a directory, and not a link to one."""
        return self._entry is not None and self._entry.is_dir(follow_symlinks=False)

    def _entries(self) -> Iterator[Path]:
        """Yields the entries of a directory; none if the path leads to no directory, or through a link that cannot be followed."""
        try:
            return self.iterdir() if self.is_dir() else iter(())
        except OSError:
            return iter(())

    def _named(self, name: str) -> Iterator[Path]:
        """Yields the entry of a directory that has a name, or the parent, if the path leads there."""
        if name == "..":
            return (it for it in [self / name] if it.exists())
        return (Path(self._image, it.path, it) for it in self._image._entries_named(self._found(), name))

    def _found(self) -> Any:
        """Returns the entry that was found in a directory, or the path."""
        return self._entry or str(self._pure)

    def stat(self, *, follow_symlinks: bool = True) -> Stat:
        """Returns the kind and numbers of what the path leads to."""
        return self._image.stat(self._found(), follow_symlinks=follow_symlinks)

    def lstat(self) -> Stat:
        """Returns the kind and numbers, those of a link itself if it is one."""
        return self.stat(follow_symlinks=False)

    def exists(self, *, follow_symlinks: bool = True) -> bool:
        """Returns whether the path leads to anything."""
        return self._image.exists(self._found(), follow_symlinks=follow_symlinks)

    def is_dir(self, *, follow_symlinks: bool = True) -> bool:
        """Returns whether the path leads to a directory."""
        return self._image._leads_to(self._found(), DIRECTORY, follow_symlinks)

    def is_file(self, *, follow_symlinks: bool = True) -> bool:
        """Returns whether the path leads to a regular file."""
        return self._image._leads_to(self._found(), REGULAR, follow_symlinks)

    def is_symlink(self) -> bool:
        """Returns whether the path leads to a symbolic link, which is not followed."""
        return self._image._leads_to(self._found(), SYMLINK, False)

    def readlink(self) -> pathlib.PurePosixPath:
        """Returns the text of a symbolic link as a path: `path.parent / path.readlink()` is where it leads."""
        return pathlib.PurePosixPath(self._image.readlink(self._found()))

    def open(self, mode: str = "r", *args: Any, **more: Any) -> IO[Any]:
        """Opens a regular file: as bytes (`rb`), or as text (`r`), with the arguments of io.TextIOWrapper."""
        if mode not in ("r", "rt", "rb"):
            raise ValueError("an image is only read: %r" % mode)
        file = io.BufferedReader(self._image.open(self._found()))
        return file if mode == "rb" else io.TextIOWrapper(file, *args, **more)

    def read_bytes(self) -> bytes:
        """Returns the bytes of a file."""
        return self._image.read(self._found())

    def read_text(self, encoding: str = "utf-8", errors: str = "strict") -> str:
        """Returns the text of a file."""
        with self.open("r", encoding=encoding, errors=errors) as file:
            return str(file.read())

    def __fspath__(self) -> str:
        return str(self._pure)

    def __str__(self) -> str:
        return str(self._pure)

    def __repr__(self) -> str:
        return "<romtool.Path %r>" % str(self._pure)

    def __eq__(self, other: object) -> bool:
        return isinstance(other, Path) and self._image is other._image and self._pure == other._pure

    def __lt__(self, other: object) -> bool:
        if not isinstance(other, Path) or self._image is not other._image:
            return NotImplemented
        return self._pure < other._pure

    def __hash__(self) -> int:
        return hash((id(self._image), self._pure))
