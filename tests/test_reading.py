"""Reads images with each command that has one: under --max-size, cut images, and images that change while they are read.

An image changes while the program is stopped after one of its calls of the system, so that no moment has to be met. The same is tested of
manifests.
"""

import os
import re

import pytest
import traced
from edges import HELLO, fault, lay
from files import bytes_in, put, remove, wait_for_clock
from romtool import FORMATS

CHANGED = b"", b"changed\n", 3
# the words of each command that reads an image; `other` is a shorter image
READING = (
    "check image", "check --each image", "list image", "info image", "info --size 9 image", "map image", "map --all image", "map --c image",
    "map --ld image", "map --svg image", "which image 0", "diff image other", "diff other image", "digest image", "digest --image image",
    "verify image other", "numbers image", "cat image /a", "linux image", "xip image", "serve image", "space image", "space other image",
    "extract image to", "extract image to a",
)  # fmt: skip
by_command = pytest.mark.parametrize("words", READING)


@pytest.fixture(params=FORMATS)
def stated(romtool, here, request):
    """The bytes that the file `image` states, of an image in a format; `other` is a shorter one of it."""
    lay(HELLO.decode(), a=b"x" * 9000)
    assert romtool("build", request.param, "m", "image")[2] == 0
    put("a", b"x")
    assert romtool("build", request.param, "m", "other")[2] == 0
    held, order = bytes_in("image"), "little" if request.param == "cramfs" else "big"
    return held[: int.from_bytes(held[8:12] if request.param == "romfs" else held[4:8], order)]


def read(romtool, words, *more, **how):
    """Returns the answer of a command with more words. What it extracts is removed before."""
    remove("to")
    command, *words = words.split()
    return romtool(command, *more, *words, input=b"", **how)


def without_name(words, told):
    """Returns an answer without the line of `check --each` that names the image."""
    return (told[0].removeprefix(b"image image\n"), *told[1:]) if "--each" in words else told


@by_command
def test_most(romtool, stated, words):
    """Refuses an image that states more bytes than --max-size, or else ROMTOOL_MAX_SIZE, before anything is printed or made."""
    length = len(stated)
    plain = read(romtool, words)
    assert plain[1] == b"" and plain[2] == (words in ("diff image other", "diff other image", "verify image other", "info --size 9 image"))
    less = {"env": {**os.environ, "ROMTOOL_MAX_SIZE": str(length - 1)}}
    for more, how in (["--max-size", str(length)], {}), ([f"--max-size={length:#x}"], less), (["--max-size", "1G"], less):
        assert read(romtool, words, *more, **how) == plain
    for more, how in (
        (["--max-size", str(length - 1)], {}),
        ([], less),
        (["--max-size", str(length - 1)], {"env": {"ROMTOOL_MAX_SIZE": "1G"}}),
    ):
        assert without_name(words, read(romtool, words, *more, **how)) == fault("image") and not os.path.lexists("to")


@by_command
def test_most_of_a_cut_image(romtool, stated, words):
    """Compares --max-size with the bytes of the file, if they are fewer than those that the image states: then Size is its fault."""
    put("image", stated[:-1])
    length, place = len(stated) - 1, 8 if stated.startswith(b"-rom1fs-") else 4
    line = b"fault 4 Size at %d" % place + (b" in %d\n" % ("other" in words) if words.startswith("space") else b"\n")
    for more in [], ["--max-size", str(length)]:
        out, err, status = without_name(words, read(romtool, words, *more))
        assert (out + err, status) == (line, 1) and not os.path.lexists("to")
    assert without_name(words, read(romtool, words, "--max-size", str(length - 1))) == fault("image")


def calls_on(romtool, words, name):
    """Returns the calls of a run on the file of this name."""
    remove("to")
    return list(traced.on_file(traced.calls(romtool.path, *words, input=b"")[0], name))


def held_after(romtool, words, call, change):
    """Returns the answer of a run that is stopped after a call until a change was made."""
    remove("to")
    wait_for_clock(".")  # so that the change has another time
    with traced.Held(romtool.path, words, call.name, call.number) as held:
        change()
    assert held.is_held
    return held.answer


def same_length(name):
    """Writes the last byte of a file once more."""
    with open(name, "r+b") as file:
        file.seek(-1, os.SEEK_END)
        file.write(b"\0")


def longer(name):
    """Adds a byte to a file."""
    with open(name, "ab") as file:
        file.write(b"\0")


def shorter(name):
    """Removes the second half of a file."""
    os.truncate(name, os.path.getsize(name) // 2)


@pytest.mark.needs("strace")
@by_command
@pytest.mark.parametrize("stated", ["cramfs"], indirect=True)
def test_changed(romtool, stated, words):
    """Ends with `changed` if an image changes after its last byte was read, or has fewer bytes than the system said."""
    words, image = words.split(), bytes_in("image")
    calls = calls_on(romtool, words, "image")
    last = [it for it in calls if it.name == "read"][-1]
    first = [it for it in calls if it.name == "statx"][0]
    for call, change in (last, same_length), (last, longer), (first, shorter):
        put("image", image)
        assert without_name(words, held_after(romtool, words, call, lambda change=change: change("image"))) == CHANGED
        assert not os.path.lexists("to")


@pytest.mark.needs("strace")
@pytest.mark.parametrize("words, name", [
    ("build romfs m out", "m"), ("scan --all --devices m tree", "m"), ("scan --all --device-table rows tree", "rows"),
    ("pack --quiet --devices m romfs tree out", "m"), ("pack --quiet --device-table rows romfs tree out", "rows"),
])  # fmt: skip
def test_changed_manifest(romtool, here, words, name):
    """Ends with `changed` if a manifest or a list of devices changes after its last byte was read."""
    texts = {"m": b"dir /d 0755 0 0\n", "rows": b"/d d 755 0 0\n"}
    os.mkdir("tree")
    for it, text in texts.items():
        put(it, text)
    for name_of_call, change in ("read", same_length), ("read", longer), ("statx", shorter):
        put(name, texts[name])
        calls = [it for it in calls_on(romtool, words.split(), name) if it.name == name_of_call]
        remove("out")
        call = calls[0 if name_of_call == "statx" else -1]
        assert held_after(romtool, words.split(), call, lambda change=change: change(name)) == CHANGED
        assert not os.path.lexists("out")


def test_numbers(romtool, stated):
    """Prints the 48 bytes of a description also as an array of C."""
    told, text = romtool("numbers", "image"), romtool("numbers", "--c", "image")
    array = re.fullmatch(r"static const unsigned char rom_numbers\[48\] = \{\n((?: *(?:\d+,? ?)+\n)+)\};\n", text[0].decode())
    assert (told[1:], text[1:]) == ((b"", 0), (b"", 0)) and array
    assert bytes(map(int, re.findall(r"\d+", array[1]))) == told[0] and len(told[0]) == 48


def test_unchanged(romtool, here):
    """Reads an image that is a device or a pipe, of which no state is compared."""
    put("m", HELLO)
    put("a", b"hello")
    assert romtool("build", "romfs", "m", "image")[2] == 0
    reader, writer = os.pipe()
    os.write(writer, bytes_in("image"))
    os.close(writer)
    assert romtool("check", "--max-size", "9", "/dev/stdin", stdin=reader) == (b"ok romfs 3 1\n", b"", 0)
    os.close(reader)
