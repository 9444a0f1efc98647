"""Compares `linux` with the lines of docs/PROTOCOL.md, computed from the bytes, the list and the format of an image."""

import struct

import pytest
from formats import fields, is_romfs
from romtool import raw


def is_other_device(entry, major, minor):
    """Returns whether a device has other numbers than Linux, which keeps 12 and 20 bits, makes of these."""
    number = (major << 20 | minor) & 0xFFFFFFFF
    return entry.kind in "bc" and (number >> 20, number & 0xFFFFF) != (entry.major, entry.minor)


def is_cut(entry):
    """Returns whether a link's text, which is escaped, has a zero."""
    return entry.kind == "l" and "%00" in entry.text


def romfs_misreads(data, entry, name):
    """Yields the kinds of lines that `linux` has of a name of a romfs image."""
    node, size = entry.number, entry.size
    if len(name) > 127:
        yield "3 NameCut" if len(name) == 128 else "4 NameTooLong"
    if is_other_device(entry, *struct.unpack_from(">HH", data, node + 4)):
        yield "6 Device"
    if is_cut(entry):
        yield "8 LinkCut"
    own = data.index(b"\0", node + 16) - node - 16
    if len(name) <= 128 and size and (own + 16) // 16 != (min(own, 128) + 16) // 16:
        yield "10 OtherPlace"


def cramfs_misreads(data, entry, name, known):
    """Yields the kinds of lines that `linux` has of a name of a cramfs image; `known` has what is kept of each table."""
    node, size = entry.number, entry.size
    if entry.kind == "f" and size and size % 4096 == 0:
        yield "1 LastBlock"
    units, table = fields(data, node + 8, 6)
    if entry.kind in "fl" and size and known.setdefault(table, entry[1:6]) != entry[1:6]:
        yield "2 SharedTable"
    numbers = fields(data, node + 4, 24)[0] & 0xFFFF
    if is_other_device(entry, numbers >> 8, numbers & 0xFF):
        yield "6 Device"
    if name and 4 * units != (len(name) + 3) // 4 * 4:
        yield "7 NamePadded"
    if is_cut(entry):
        yield "8 LinkCut"
    if not name and entry.mode & 0o555 != 0o555:
        yield "9 RootMode"


def misreads(data, entries):
    """Yields the lines of an image of these bytes and this list."""
    if is_romfs(data) and data.index(b"\0", 16) - 16 > 143:
        yield "linux 5 Volume /"
    known = {}
    for entry in entries:
        name = raw(entry.path).rpartition(b"/")[2]
        for it in romfs_misreads(data, entry, name) if is_romfs(data) else cramfs_misreads(data, entry, name, known):
            yield f"linux {it} {entry.path}"


@pytest.mark.images(seeds=150)
def test_linux(romtool, image):
    """Compares the lines. The status is 1 if there are any."""
    wanted = "".join(line + "\n" for line in misreads(image.data, image.entries)).encode()
    assert romtool("linux", image.path) == (wanted, b"", int(wanted != b""))
