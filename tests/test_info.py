"""Compares `info` with an image's bytes, its list and its check."""

from formats import extents, superblock, volume_of
from romtool import escaped


def unused(data):
    """Returns how many of the accessible bytes are in no extent of an image."""
    used = bytearray(superblock(data)[0])
    for it in extents(data):
        used[it.start : it.start + it.length] = b"\1" * it.length
    return used.count(0)


def facts(image):
    """Yields the lines that `info` is to print."""
    _, format, references, depth = image.checked
    size, flags, stored = superblock(image.data)
    kinds = [it.kind for it in image.entries]
    yield f"format {format}"
    yield f"size {size}"
    yield f"file {len(image.data)}"
    yield f"volume {escaped(volume_of(image.data))}"
    if flags is not None:
        yield f"flags 0x{flags:08x}"
    yield f"sum 0x{stored:08x}"
    yield f"references {references}"
    yield f"depth {depth}"
    for key, some in ("files", "f"), ("folders", "d"), ("links", "l"), ("others", "bcps"):
        yield f"{key} {sum(it in some for it in kinds)}"
    yield f"contents {sum({it.number: it.size for it in image.entries if it.kind == 'f'}.values())}"
    yield f"gaps {unused(image.data)}"


def test_facts(romtool, image):
    """Compares each line with what is computed."""
    assert romtool("info", image.path) == ("".join(line + "\n" for line in facts(image)).encode(), b"", 0)


def test_refused(romtool, faulty):
    """Reports the fault of an image on standard error."""
    assert romtool("info", faulty.path) == faulty.refusal
