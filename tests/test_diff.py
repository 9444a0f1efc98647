"""Compares `diff` with the lists, the maps and the bytes of two images, with and without `--tree`."""

import copy
import functools

import pytest
from conftest import Image
from manifests import build
from romtool import FORMATS, raw


@functools.lru_cache(3)
def names(image):
    """Returns what is compared of each path: the escaped path, kind, attributes, size, bytes, and the first address of a file."""
    starts = {it.path: it.address for it in image.pieces if it.offset == 0 and it.address != "-"}
    found = {}
    for it in image.entries:
        held = image.contents[it.path] if it.kind == "f" else raw(it.text) if it.kind == "l" else None
        attributes = f"{it.kind}/{it.mode:04o}/{it.user}/{it.group}/{it.major}/{it.minor}"
        found[raw(it.path)] = it.path, it.kind, attributes, it.size, held, starts.get(it.path)
    return found


def wanted_lines(old, new, has_addresses):
    """Yields the lines for these names of two images, in the order of the bytes of paths."""
    for path in sorted({**old, **new}):
        x, y = old.get(path), new.get(path)
        if not x or not y or x[1] != y[1]:
            yield from (f"{sign} {it[0]}" for sign, it in (("-", x), ("+", y)) if it)
            continue
        if x[2] != y[2]:
            yield f"m {x[0]} {x[2]} {y[2]}"
        if x[4] != y[4]:
            yield f"c {x[0]} {x[3]} {y[3]}"
        if has_addresses and x[5] and y[5] and x[5] != y[5]:
            yield f"@ {x[0]} {x[5]} {y[5]}"


def compare(old, new):
    """Compares the lines of two images with those that are wanted. The status is 1 if there are any."""
    for words in [], ["--tree"]:
        wanted = "".join(line + "\n" for line in wanted_lines(names(old), names(new), has_addresses=not words)).encode()
        assert old.romtool("diff", *words, old.path, new.path) == (wanted, b"", int(wanted != b""))


def mutated(lines, chance):
    """Yields the lines of a manifest with some of them changed, removed or added."""
    for line in lines:
        words, dice = line.split(" "), chance.random()
        has_mode = len(words) > 4 and words[0] not in ("hard", "same", "volume", "#")
        if dice < 0.05 and words[0] not in ("dir", "file"):
            continue
        if dice < 0.15 and has_mode:
            words[2] = f"{chance.randint(0, 0o7777):04o}"
        if 0.1 < dice < 0.2 and has_mode:
            words[3] = str(chance.randint(0, 65535))
        if 0.2 < dice < 0.3 and words[0] == "file":
            words[5] = "source0" if dice < 0.25 else "changed"
        if 0.3 < dice < 0.33 and words[0] == "pipe":
            words[0] = "sock"
        if 0.33 < dice < 0.4 and words[0] == "slink":
            words[5] = "elsewhere"
        yield " ".join(words)
    yield from (f"pipe /new{it} 0644 0 0" for it in range(chance.choice([0, 0, 1, 5])))


@pytest.mark.images(cases=False)
def test_changed(romtool, image, room, chance):
    """Compares the images of a manifest, of the manifest with changes, and of the manifest in any format, in all pairs."""
    source = bytearray((image.made.sources or [b""])[0])
    if source:
        source[chance.randrange(len(source))] ^= 1
    (room / "changed").write_bytes(source)
    changed, other = copy.copy(image.made), copy.copy(image.made)
    changed.lines, other.format = list(mutated(changed.lines, chance)), chance.choice(FORMATS)
    found = [image]
    for out, made in ("changed.image", changed), ("other.image", other):
        if build(romtool.path, made, room, out).returncode == 0:  # romfs has no place for some modes and owners
            found.append(Image(romtool, room / out))
    for old in found:
        for new in found:
            compare(old, new)


@pytest.mark.images(seeds=0)
def test_neighbours(images, image, request):
    """Compares an image of the cases with itself and, in both directions, with the one before it."""
    names = images.of_cases[True]
    before = images.made(names[names.index(request.node.callspec.params["image"]) - 1])
    for old, new in (image, image), (before, image), (image, before):
        compare(old, new)


def test_refused(romtool, room):
    """Reports the fault of one of two images on standard error, and prints nothing else."""
    good, bad = romtool.build(room, ["pipe /a 0644 0 0"]), room / "bad"
    bad.write_bytes(b"-rom1fs-" + bytes(100))
    for words in [good.path, bad], [bad, good.path], ["--tree", bad, bad]:
        assert romtool("diff", *words) == Image(romtool, bad).refusal
