"""Looks up names in lists of each length, through `romtool serve` and `romtool space`.

The lists have 1, 2, 16, 17, 18 and 400 names, in romfs and in cramfs of either byte order. The names rise, fall or are
random. There are names of one byte and of the greatest length, names with equal fronts, names of which one begins with
the other, and bytes of each value. Each name is looked up, and so are absent names: before the first, between two,
after the last, each name cut by a byte, and with one more byte. The lines go in a random order, twice. A romfs list
begins with `..` and has hard links; `.` and `..` are in paths. The expected values come from the offsets at which the
lists are laid out. In `space` the same lines go to a list that is mounted in another one with as many names.
"""

import itertools
import random

import pytest
from big_endian import Turned
from files import put

from images import (
    CRAMFS_DIRECTORY, CRAMFS_REGULAR, DIRECT_POINTERS, HARD_LINK, REGULAR, SORTED, WITH_SUM, cramfs, inode, romfs_list,
)  # fmt: skip

COUNTS = (1, 2, 16, 17, 18, 400)
ORDERS = ("rising", "falling", "by chance")
LONGEST = {"romfs": 255, "cramfs": 252, "cramfs-be": 252}
NOWHERE = (b"\x01", b"\xff" * 9)  # before and after all names that are made here


def names_made(count, longest, chance):
    """Returns so many names, all of them different, and each begun by a byte that is neither the least nor the greatest."""
    names = [b"m", b"m" * longest, b"m" * (longest - 1) + b"n", b"mn"]
    names += [b"m" * chance.randrange(1, longest - 2) + b"%d" % number for number in range(count // 4)]
    names += [b"front of each %05d" % number for number in range(count // 4)]
    letters = [byte for byte in range(1, 256) if byte not in b"/."]
    while len(set(names)) < count:
        more = bytes(chance.choice(letters) for _ in range(chance.randrange(1, 12)))
        names.append(bytes([chance.randrange(0x30, 0xF0)]) + more)
    return sorted(dict.fromkeys(names))[:count] if count < 4 else some_of(sorted(set(names)), count, chance)


def some_of(names, count, chance):
    """Returns so many of the names, among them the first and the last."""
    return sorted({names[0], names[-1], *chance.sample(names[1:-1], count - 2)})


def in_order(names, order, chance):
    """Returns the names as a list has them."""
    if order == "by chance":
        names = list(names)
        chance.shuffle(names)
    return names[::-1] if order == "falling" else names


def romfs_image(names):
    """Returns a romfs image, and where each name leads: each third name but the first is a hard link to the first."""
    place, leads = 96, {}
    for number, name in enumerate(names):
        leads[name] = 96 if number % 3 == 2 else place
        place += 16 + (len(name) + 16) // 16 * 16
    entries = [(HARD_LINK, 96, 0, name, b"") if number % 3 == 2 else (REGULAR, 0, 0, name, b"") for number, name in enumerate(names)]
    return romfs_list([], first=entries), leads


def cramfs_image(names, rising, directory=b""):
    """Returns a cramfs image, and where each name leads; the name that is the directory's is an empty one."""
    place, leads, text = 76, {}, b""
    for name in names:
        leads[name] = place + len(text)
        text += inode(CRAMFS_DIRECTORY if name == directory else CRAMFS_REGULAR, 0, 0, name)
    flags = WITH_SUM | DIRECT_POINTERS | (SORTED if rising else 0)
    return cramfs(flags, inode(CRAMFS_DIRECTORY, len(text), 76), text), leads


def image_of(form, names, order):
    """Returns an image in a format, and where each name leads."""
    if form == "romfs":
        return romfs_image(names)
    image, leads = cramfs_image(names, order == "rising")
    return (bytes(Turned(image).new) if form == "cramfs-be" else image), leads


def absent_beside(names):
    """Returns names that are not among these: beside each, before all and after all."""
    beside = [*NOWHERE]
    for name in names:
        last = name[-1]
        beside += [name[:-1], name[:-1] + bytes([max(last - 1, 1)]), name[:-1] + bytes([min(last + 1, 255)])]
        if len(name) < 252:
            beside += [name + b"\x01", name + b"\xff"]
    bad = {b"", b".", b"..", *names}
    return [name for name in dict.fromkeys(beside) if name not in bad and b"/" not in name]


def written(name):
    """Returns a name as it is written in a line."""
    return b"".join(b"%%%02x" % byte for byte in name)


def asked(names, leads, chance):
    """Returns names and where they lead, each twice, in a random order."""
    told = [(name, leads[name]) for name in names] + [(name, None) for name in absent_beside(names)]
    chance.shuffle(told)
    return told + told[::-1]


@pytest.fixture(params=list(itertools.product(LONGEST, COUNTS, ORDERS)), ids="{0[0]}, {0[1]} names {0[2]}".format)
def listed(request, room):
    """The names that are looked up in a list, and where they lead; and the names of another list. The first list is in the file `image`."""
    form, count, order = request.param
    chance = random.Random("%s %d %s" % request.param)
    names = in_order(names_made(count, LONGEST[form], chance), order, chance)
    image, leads = image_of(form, names, order)
    put(room / "image", image)
    return asked(names, leads, chance), names_made(max(count, 2), 252, chance)


def compare(romtool, words, lines, replies):
    """Compares the replies to some lines; the first line whose reply differs is reported."""
    out, err, status = romtool(*words, input=b"".join(lines))
    got = out.splitlines(keepends=True)
    assert (err, status) == (b"", 0)
    assert next((it for it in zip(lines, got, replies) if it[1] != it[2]), None) is None
    assert len(got) == len(replies)


def test_served(romtool, room, listed):
    """Looks names up in an image that is served by itself; dots go before some names."""
    told, _ = listed
    ways = (b"/", b"/./", b"/../", b"//")
    lines = [b"lookup %s%s\n" % (ways[number % 4], written(name)) for number, (name, _) in enumerate(told)]
    replies = [b"err ENOENT\n" if place is None else b"ok %d\n" % place for _, place in told]
    compare(romtool, ["serve", room / "image"], lines, replies)


def test_mounted(romtool, room, listed):
    """Looks names up in an image that is mounted in another, whose own names are looked up in turn with its own."""
    told, others = listed
    image, leads = cramfs_image(others, True, others[-1])
    put(room / "below", image)
    mount = written(others[-1])
    lines, replies = [b"0 mount 1 /%s\n" % mount], [b"0 ok\n"]
    for number, (name, place) in enumerate(told):
        other = others[number % (len(others) - 1)]
        lines += [b"%d lookup /%s/%s\n" % (number % 8, mount, written(name)), b"3 lookup /%s\n" % written(other)]
        replies += [b"%d err ENOENT\n" % (number % 8) if place is None else b"%d ok 1:%d\n" % (number % 8, place)]
        replies += [b"3 ok 0:%d\n" % leads[other]]
    compare(romtool, ["space", room / "below", room / "image"], lines, replies)
