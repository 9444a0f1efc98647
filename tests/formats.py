"""Reads images of each format once more: their superblock, each extent of their records, and what is between the extents.

This reader shares nothing with the program. It reads images that `check` accepts.
"""

import functools
import itertools
import typing

from romtool import escaped

HAS_SIZE = 1  # the flag of cramfs that says that a size is stored
LONGEST = 1 << 28  # accessible bytes of a cramfs image that stores no size
BASES = (0, 0x08001000, 0xFFFFFF00, 0x100000000, 0xFFFF000000000000)  # addresses of images


class Extent(typing.NamedTuple):
    """Bytes of an image, as a line of `map --all` has them; the offset is that in the contents of a file.

    If the bytes are reached by block pointers, `table` is their offset, and the number of bytes to which they lead.
    """

    start: int
    length: int
    kind: str
    path: bytes | None
    offset: int
    table: tuple[int, int] | None = None


def is_romfs(data):
    """Returns whether an image is of romfs."""
    return data.startswith(b"-rom1fs-")


def order_of(data):
    """Returns the byte order of an image's words."""
    return "big" if is_romfs(data) or data[:4] == bytes.fromhex("28cd3d45") else "little"


def word(data, at):
    """Returns a word of an image."""
    return int.from_bytes(data[at : at + 4], order_of(data))


def fields(data, at, bits):
    """Returns the two fields of a word of cramfs, of which the first has so many bits."""
    it = word(data, at)
    return (it >> 32 - bits, it % 2 ** (32 - bits)) if order_of(data) == "big" else (it % 2**bits, it >> bits)


def superblock(data):
    """Returns the size that is accessible, the flags if the format has them, and the stored sum."""
    if is_romfs(data):
        return word(data, 8), None, word(data, 12)
    flags = word(data, 8)
    return word(data, 4) if flags & HAS_SIZE else min(len(data), LONGEST), flags, word(data, 32)


def volume_of(data):
    """Returns the name of an image's volume."""
    return (data[16:] if is_romfs(data) else data[48:64]).split(b"\0")[0]


def romfs(data):
    """Yields the extents of a romfs image in the order of a list."""

    def pad(n):
        return -(-n // 16) * 16

    def record(at, path):
        end = at + 16 + pad(data.index(0, at + 16) - at - 16 + 1)
        yield at, end - at, "header", path, 0
        if word(data, at) & 7 in (2, 3):
            yield end, word(data, at + 8), "data", path, 0

    def directory(at, path):
        while at:
            below = path + b"/" + data[at + 16 : data.index(0, at + 16)]
            yield from record(at, below)
            if word(data, at) & 7 == 1:
                yield from directory(word(data, at + 4) // 16 * 16, below)
            at = word(data, at) // 16 * 16

    root = 16 + pad(data.index(0, 16) - 16 + 1)
    first = word(data, root + 4) // 16 * 16
    yield 0, root, "super", None, 0
    yield from record(root, b"/")
    yield from directory(word(data, root) // 16 * 16 if first == root else first, b"")


def cramfs(data, joined):
    """Yields those of a cramfs image; blocks of a file that follow one another are joined, or not."""

    def blocks(table, size, path):
        runs = []
        for at in range(0, size, 4096):
            start, length = word(data, table + at // 1024) % 2**30 * 4, min(4096, size - at)
            if joined and runs and sum(runs[-1][:2]) == start:
                runs[-1][1] += length
            else:
                runs.append([start, length, "data", path, at, (table, size)])
        yield from runs

    def record(at, path):
        kind, size, offset = fields(data, at, 16)[0] >> 12, fields(data, at + 4, 24)[0], fields(data, at + 8, 6)[1] * 4
        if kind == 4:
            yield offset, size, "list", path, 0
            yield from directory(offset, offset + size, path.rstrip(b"/"))
        if kind in (8, 10):
            yield offset, -(-size // 4096) * 4, "table", path, 0, (offset, size)
            yield from blocks(offset, size, path)

    def directory(here, end, path):
        while here < end:
            room = fields(data, here + 8, 6)[0] * 4
            yield from record(here, path + b"/" + data[here + 12 : here + 12 + room].rstrip(b"\0"))
            here += 12 + room

    yield 0, 76, "super", None, 0
    yield from record(64, b"/")


def overlaps(found):
    """Returns whether two extents of different ranges have a byte in common; the extents are in order."""
    return any(x.start + x.length > y.start and x[:2] != y[:2] for x, y in zip(found, found[1:]))


def by_table(run):
    """Returns extents of one offset: in the order of the list if one table leads to them, otherwise table by table and block by block."""
    tables = list(dict.fromkeys(it.table for it in run))
    return run if len(tables) == 1 else sorted(run, key=lambda it: (tables.index(it.table), it.offset))


@functools.lru_cache(4)
def extents(data):
    """Returns the extents of an image that have bytes, in the order of their offsets."""
    for found in (romfs(data),) if is_romfs(data) else (cramfs(data, True), cramfs(data, False)):
        found = sorted((Extent(*it) for it in found if it[1]), key=lambda it: it.start)
        if not overlaps(found):
            break
    return [it for _, run in itertools.groupby(found, lambda it: it.start) for it in by_table(list(run))]


def ranges(data):
    """Returns the extents of an image and what is between and after them: each byte of its file once, except for equal extents."""
    size, reach, out = superblock(data)[0], 0, []
    for it in [*extents(data), Extent(size, 0, "end", None, 0)]:
        if reach < it.start:
            out.append(Extent(reach, it.start - reach, "gap" if any(data[reach : it.start]) else "pad", None, 0))
        out.append(it)
        reach = max(reach, it.start + it.length)
    rest = Extent(size, len(data) - size, "beyond", None, 0)
    return out[:-1] + [rest] * (rest.length > 0)


def shown(line, base):
    """Returns an extent as `map --all` prints it of an image at this address."""
    return f"{address(base + line.start)} {line.length} {line.kind} {'-' if line.path is None else escaped(line.path)}"


def address(number):
    """Returns an address as the program prints it."""
    return f"0x{number:0{8 if number < 2**32 else 16}x}"
