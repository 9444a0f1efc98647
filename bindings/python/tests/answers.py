"""Answers lines of standard input over the package, each by one line: a status, and what is printed, in hexadecimal.

    WORD IMAGE [PATH]

`check`, `list`, `map` and `cat` print what these commands of romtool do. `walk` prints the paths of an image, sorted.
`lookup`, `stat`, `lstat`, `readlink` and `open` answer as a server does (docs/LINES.md), but `readlink` only by the
text, and `open` without a descriptor. PATH is escaped as in a list.
"""

import errno
import functools
import sys
import urllib.parse

import romtool


def escaped(some):
    """Returns bytes as lists have them."""
    return b"".join(b"%c" % it if 0x21 <= it <= 0x7E and it != 0x25 else b"%%%02X" % it for it in some)


@functools.lru_cache(maxsize=4)
def opened(name):
    """Returns an image, or its fault."""
    try:
        return romtool.Image(name)
    except romtool.Fault as fault:
        return fault


def numbers(stat):
    """Returns a kind and numbers as they are printed."""
    words = (stat.number, stat.kind.letter, stat.mode, stat.uid, stat.gid, stat.size, stat.major, stat.minor)
    return b"%d %s %04o %d %d %d %d %d" % (words[0], words[1].encode(), *words[2:])


def lines(image, path, stat):
    """Yields the path of each file from a path on in the order of the list, with its kind and numbers."""
    yield path, stat
    if stat.is_dir():
        for it in image.scandir(path):
            found = image.stat(it.path, follow_symlinks=False)
            assert found == it.stat(follow_symlinks=False) and it.number == found.number and it.kind == found.kind
            if image.references < 200:  # the library counts the names of one node in a pass over the image
                held = image._open()
                assert found.st_nlink == held.library.romtool_links(held.raw, found.number)
            yield from lines(image, it.path, found)


def listed(image):
    """Returns the paths of an image."""
    return lines(image, b"/", image.stat(b"/"))


def list_lines(image):
    """Yields the lines of the list."""
    for path, stat in listed(image):
        text = b" " + escaped(image.readlink(path)) if stat.is_symlink() else b""
        yield numbers(stat) + b" " + escaped(path) + text


def map_lines(image):
    """Yields the lines of the map."""
    for path, stat in listed(image):
        runs = image.runs(path) if stat.is_file() else []
        if stat.is_file():
            assert image.offset(path) == (runs[0].offset if runs else None)
            held = image.read(path)
            assert held == b"".join(image.view[it.offset : it.offset + it.length] for it in runs)
            try:
                assert image.map(path) == held and len(runs) < 2
            except OSError as error:
                assert error.errno == errno.ERANGE and len(runs) > 1
        if stat.is_file() and not runs:
            yield b"- 0 0 " + escaped(path)
        for it in runs:
            yield b"0x%08x %d %d %s" % (it.offset, it.length, it.start, escaped(path))


def walked(image):
    """Yields the paths of an image, sorted."""
    found = [b"/"]
    for top, directories, others in image.walk(b"/"):
        assert [*image.listdir(top)] == sorted(directories + others, key=image.listdir(top).index)
        found += [top.rstrip(b"/") + b"/" + it for it in directories + others]
    yield from (escaped(it) for it in sorted(found))


def reply(image, word, path):
    """Returns a reply without its `ok`."""
    if word == "lookup":
        return b" %d" % image.lookup(path)
    if word in ("stat", "lstat"):
        return b" " + numbers(image.stat(path, follow_symlinks=word == "stat"))
    if word == "readlink":
        return b" " + image.readlink(path).hex().encode()
    try:
        image.open(path)
    except IsADirectoryError:
        image.listdir(path)
    return b""


def answer(word, image, *path):
    """Returns the status and what is printed."""
    if isinstance(image, romtool.Fault):
        return 1, b"%s\n" % str(image).encode()
    if word == "check":
        return 0, b"ok %s %d %d\n" % (image.format.encode(), image.references, image.depth)
    whole = {"list": list_lines, "map": map_lines, "walk": walked}.get(word)
    if whole:
        return 0, b"".join(it + b"\n" for it in whole(image))
    try:
        name = urllib.parse.unquote_to_bytes(path[0])
        return 0, image.read(name) if word == "cat" else b"ok%s\n" % reply(image, word, name)
    except OSError as error:
        return 1, b"err %s\n" % errno.errorcode[error.errno].encode()


for line in sys.stdin:
    word, name, *path = line.rstrip("\n").split(" ")
    status, printed = answer(word, opened(name), *path)
    print(status, printed.hex() or "-")
