"""Compares `digest` and `verify` with sha256sum, with hashlib and with the bytes of dumps."""

import hashlib
import os
import subprocess

from romtool import raw

MOST = 2**24  # bytes of files that are hashed in an image: some images of the cases have one block many times
SPECIAL = {10: rb"\n", 13: rb"\r", 92: rb"\\"}


def line_of(name, contents):
    """Returns the line of sha256sum for a file."""
    shown = b"".join(SPECIAL.get(byte, bytes([byte])) for byte in name)
    mark = b"\\" if shown != name else b""
    return mark + hashlib.sha256(contents).hexdigest().encode() + b"  " + (b"./-" if name == b"-" else shown) + b"\n"


def bytes_of(image):
    """Returns the bytes of an image, without those behind it."""
    return image.data[: int(image.facts["size"])]


def is_possible(name):
    """Returns whether a file in a directory can have this name."""
    return len(name) <= 3000 and max(map(len, name.split(b"/"))) <= 255


def test_files(romtool, image, room):
    """Compares the lines with those of sha256sum, and lets sha256sum check the same files in a directory by them."""
    if int(image.facts["contents"]) > MOST:
        return
    files = {raw(path)[1:]: contents for path, contents in image.contents.items()}
    wanted = b"".join(line_of(*it) for it in files.items())
    assert romtool("digest", image.path) == (wanted, b"", 0)
    if not wanted or not all(map(is_possible, files)):
        return
    for name, contents in files.items():
        path = room / os.fsdecode(name)
        path.parent.mkdir(parents=True, exist_ok=True)
        path.write_bytes(contents)
    done = subprocess.run(["sha256sum", "--check", "--strict", "--quiet"], input=wanted, cwd=room, capture_output=True)
    assert (done.stdout, done.stderr, done.returncode) == (b"", b"", 0)


def test_image(romtool, image):
    """Compares `digest --image` with hashlib."""
    assert romtool("digest", "--image", image.path) == (hashlib.sha256(bytes_of(image)).hexdigest().encode() + b"  -\n", b"", 0)


def test_dumps(romtool, image, room, chance):
    """Finds the image at an offset of a dump by `verify`, or the first byte that was changed or cut off."""
    data, dump = bytes_of(image), room / "dump"
    before, after = chance.randbytes(chance.choice([0, 1, 77, 16384])), chance.randbytes(chance.choice([0, 1, 5000]))

    def verified(stored, offset=len(before)):
        dump.write_bytes(stored)
        return romtool("verify", *(["--offset", str(offset)] if offset else []), image.path, dump)

    assert verified(before + data + after) == (b"ok %d\n" % len(data), b"", 0)
    for at in {0, len(data) - 1, *(chance.randrange(len(data)) for _ in range(3))}:
        changed = bytearray(data)
        changed[at] ^= 1 << chance.randrange(8)
        if chance.random() < 0.5 and at + 1 < len(data):
            changed[chance.randrange(at + 1, len(data))] ^= 255
        assert verified(before + changed + after) == (b"differ %d\n" % at, b"", 1)
        assert verified(before + data[:at]) == (b"differ %d\n" % at, b"", 1)
    assert verified(before, len(before) + 1 + chance.randrange(5)) == (b"differ 0\n", b"", 1)


def test_explained(romtool, image, room):
    """Names the offset at which the image begins in a dump, if the image is long enough to be recognized."""
    data, dump = bytes_of(image), room / "dump"
    dump.write_bytes(bytes(40) + data + b"after")
    told = romtool("--explain", "verify", image.path, dump)[1]
    assert (b"the image begins at byte 40: --offset 40\n" in told) == (len(data) >= 64)


def test_streams(romtool, room):
    """Reads a dump on a pipe, which has no position, and reports one that cannot be read."""
    image = romtool.build(room, ["pipe /a 0644 0 0"])
    data = bytes(20000) + image.data + b"x"
    assert romtool("verify", "--offset", "20000", image.path, "/dev/stdin", input=data) == (b"ok %d\n" % len(image.data), b"", 0)
    for dump in ".", "none":
        assert romtool("verify", image.path, dump, cwd=room) == (b"", b"file %s\n" % dump.encode(), 3)


def test_refused(romtool, faulty):
    """Reports the fault of an image on standard error."""
    for words in ["digest"], ["digest", "--image"], ["verify", faulty.path]:
        assert romtool(*words, faulty.path) == faulty.refusal
