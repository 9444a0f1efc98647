"""Tests that files of an image are executable and at the addresses with which firmware was linked.

addresses.py IMAGE BASE PATH=ADDRESS..
"""

import sys

import romtool

image, base = romtool.Image(sys.argv[1]), int(sys.argv[2], 16)
for path, address in (it.split("=") for it in sys.argv[3:]):
    at = base + image.offset(path)
    assert at == int(address, 16), "%s is at 0x%08x, not at %s" % (path, at, address)
    assert image.stat(path).mode & 0o111, "%s is not executable" % path
    assert len(image.map(path)) == image.stat(path).size  # in one piece
    print("%s 0x%08x" % (path, at))
