"""Scans directories with `--all`, builds them in each format, and compares the images with what `lstat` says of the directories.

`check` has to accept an image. It is listed, and compared entry by entry with what the format can store: kinds, modes, owners, lengths,
device numbers, texts of links, names of one file (romfs), and each file's bytes.
"""

import os
import socket
import stat

import pytest
from files import bytes_in, put
from romtool import FORMATS, entries_of, escaped, refuses, without_number
from scans import Told, elf, make_random, scanned
from users import IS_ROOT

ODD = ["caf\u00e9", "\U0001f600", "line\nfeed", "tab\t", "%41", "#", "-", "--all", "z" * 252, ".hidden"]
LINKS = {"relative": "bin/sh", "dangling": "no/where", "odd": "a b%\n\u00e9", "long": "l" * 4000, "lib/up": ".."}
FURTHER = {
    "lib/a b/sh again": "bin/sh", "a-first-name": "bin/sh", "lib/no bytes": "no bytes", "lib/odd again": "odd", "lib/queue again": "queue",
}  # fmt: skip
OWNERS = {"one": (1, 2), "most": (65535, 255), "more": (65536, 256), "all": (2**32 - 2, 2**32 - 2)}


def compare(romtool, top, align=4):
    """Compares the manifest of a directory, and its images in all formats."""
    told, options = Told(top), ["--align", str(align)] if align != 4 else []
    assert romtool("scan", "--all", *options, top) == (scanned("--all", *options, top), b"", 0)
    for format in FORMATS:
        words = ["--all", "--for", format, *options, "--", top]
        answer = romtool("scan", *words)
        assert answer == (scanned(*words), b"", 0)
        put("manifest", answer[0])
        out, err, status = romtool("build", format, "manifest", "image")
        assert (out[:3], err, status) == (b"ok ", b"", 0)
        compare_image(romtool, told, format)
        compare_files(romtool, told, align)


def compare_image(romtool, told, format):
    """Compares the list of an image, and which names one file has."""
    listed = romtool("list", "image")[0]
    assert sorted(map(without_number, listed.decode("ascii").splitlines())) == told.listed(format)
    if format == "romfs":
        found = {}
        for entry in entries_of(listed):
            found.setdefault(entry.number, set()).add(entry.path)
        assert sorted(map(sorted, found.values())) == sorted(sorted(map(escaped, names)) for names in told.names.values())


def compare_files(romtool, told, align):
    """Compares the bytes of each regular file, read by `serve`, and where programs are."""
    asked, wanted = [], []
    for path in told.regular():
        held = bytes_in(told.real[path])
        parts = [held[at : at + 4096] for at in range(0, len(held) + 1, 4096)]
        asked += [f"open {escaped(path)}", *["read 0 4096"] * len(parts), "close 0"]
        wanted += ["ok 0", *(f"ok {len(part)} {part.hex() or '-'}" for part in parts), "ok"]
    assert served(romtool, asked) == wanted
    programs = [path for path in told.regular() if told.is_program(path)]
    replies = served(romtool, [line for path in programs for line in (f"open {escaped(path)}", "map 0 0 1", "close 0")])
    assert [int(reply.split(" ")[1]) % align for reply in replies[1::3]] == [0] * len(programs)


def served(romtool, lines):
    """Returns the replies of `serve` to these lines."""
    return romtool("serve", "image", input="".join(line + "\n" for line in lines).encode("ascii"))[0].decode("ascii").splitlines()


def test_kinds(romtool, here):
    """Compares a directory with odd names, files with several names, and each kind of file that everyone can make."""
    for folder in "bin", "lib/a b/c%d", "empty":
        os.makedirs(f"kinds/{folder}")
    put("kinds/bin/sh", elf(2, length=6000), 0o755)
    put("kinds/bin/script", b"#!" * 3000, 0o755)
    put("kinds/no bytes")
    put("kinds/lib/a b/c%d/\ufffd", b"x" * 4096)
    for number, name in enumerate(ODD):
        put(f"kinds/lib/{name}", b"%d" % number * number)
    for name, text in LINKS.items():
        os.symlink(text, f"kinds/{name}")
    os.mkfifo("kinds/queue")
    with socket.socket(socket.AF_UNIX) as it:
        it.bind("kinds/log")
    for name, of in FURTHER.items():
        os.link(f"kinds/{of}", f"kinds/{name}", follow_symlinks=False)
    compare(romtool, "kinds", 65536)


@pytest.mark.needs("root")
def test_owners_and_devices(romtool, here):
    """Compares a directory with the files that only root can make."""
    os.makedirs("top/folder")
    os.mknod("top/disk", 0o600 | stat.S_IFBLK, os.makedev(8, 17))
    os.mknod("top/tty", 0o620 | stat.S_IFCHR, os.makedev(255, 255))
    os.link("top/tty", "top/folder/tty again")
    os.symlink("disk", "top/link")
    os.link("top/link", "top/folder/link again", follow_symlinks=False)
    os.lchown("top/link", 7, 8)
    os.chown("top/folder", 300, 300)
    for name, owner in OWNERS.items():
        put(f"top/{name}")
        os.chown(f"top/{name}", *owner)
    compare(romtool, "top")


def test_modes(romtool, here):
    """Compares files of each mode, as an ordinary user of those that can be read."""
    os.mkdir("modes")
    for mode in range(0o10000):
        if IS_ROOT or mode & 0o400:
            put(f"modes/{mode:04o}", b"", mode)
    compare(romtool, "modes")


@pytest.mark.seeds(300)
def test_random(romtool, here, chance):
    """Compares random directories."""
    make_random("top", chance)
    compare(romtool, "top", chance.choice([4, 4, 16, 4096]))


@pytest.mark.parametrize("name", [b"a/\xff", b"a/link b"], ids=["name", "link"])
def test_refused(romtool, here, name):
    """Names what is not UTF-8, a name by its directory and the text of a link by its name, and prints nothing."""
    os.makedirs("top/a")
    if name == b"a/\xff":
        put(b"top/" + name)
    else:
        os.symlink(b"\xff", b"top/" + name)
    assert romtool("scan", "--all", "top") == refuses("file top/a" if name == b"a/\xff" else "file top/a/link%20b")


def test_words(romtool, here):
    """Scans a directory whose name ends in slashes, and one that a link leads to."""
    os.makedirs("top/a")
    os.symlink("top", "led")
    for name in "top//", "led":
        assert romtool("scan", "--all", name) == (scanned("--all", "top"), b"", 0)
