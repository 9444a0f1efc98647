"""Reads files of images at the addresses that `map` prints, and compares `cat` with them."""

import pytest
from client import BYTES_AT_MOST, Client
from formats import BASES, address
from romtool import escaped, pieces_of, raw

pytestmark = pytest.mark.images(seeds=150)


def mapped(image, base):
    """Returns the extents of each file of a map, by its escaped path and in the map's order, and tests the form of the map.

    The offsets of a file go on from 0, and no two of its extents adjoin. An extent is a pair of its start and its length.
    """
    printed, err, status = image.romtool("map", "--base", f"{base:x}", image.path)
    assert (err, status) == (b"", 0)
    files = {}
    for it in pieces_of(printed):
        assert (it.path in files) == (it.offset > 0), it
        found = files.setdefault(it.path, [])
        if it.address == "-":
            assert (it.length, it.offset) == (0, 0), it
            continue
        start = int(it.address, 16) - base
        assert it.address == address(base + start) and it.length, it
        assert it.path == list(files)[-1] and it.offset == sum(length for _, length in found), it
        assert not found or sum(found[-1]) != start, f"{it} adjoins the extent before it"
        found.append((start, it.length))
    return files


def served(image):
    """Returns the bytes of each regular file, as a server lends them."""
    read = {}
    with Client(image.romtool.path, image.path) as client:
        for path, size in image.sizes.items():
            number, held = client.ask(b"open " + path.encode())[0], b""
            while len(held) < size:
                held += client.piece(b"lend " + number + b" %d" % size)
            client.ask(b"close " + number)
            read[path] = held
    return read


def test_map(image, chance):
    """Compares the bytes at the addresses with the sources of the manifest, or with those that a server lends."""
    if sum(image.sizes.values()) > BYTES_AT_MOST:
        return
    wanted = {escaped(path): it for path, (_, it) in image.made.told.items()} if image.made else served(image)
    files = mapped(image, chance.choice(BASES))
    assert list(files) == list(image.sizes)
    for path, found in files.items():
        assert b"".join(image.data[start : start + length] for start, length in found) == wanted[path], path


def test_cat(romtool, image):
    """Compares what `cat` writes with the bytes at the addresses. Paths that are not UTF-8 cannot be given to it."""
    if sum(image.sizes.values()) > BYTES_AT_MOST:
        return
    for path, contents in image.contents.items():
        if raw(path) == raw(path).decode("utf-8", "ignore").encode():
            assert romtool("cat", image.path, raw(path)) == (contents, b"", 0), path
