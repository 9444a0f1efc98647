"""Reads images through `romtool serve` as a program would, and compares them with their lists.

Each small image of the cases (see run.py) is served to a client that sends one line and waits for its reply (client.py). It walks the
tree from `/`. `lstat`, `open` and `readdir` have to return the lines of `list`, in their order. `readlink`, `lend` and `map` have to
return the bytes that the image has at the reported offsets, and `read` and `seek` the same bytes.
"""

import client
import pytest


@pytest.mark.images(seeds=0)
def test_tree(romtool, image):
    """Reads the tree of an image, unless its files have too many bytes together (one image of 97)."""
    if sum(it.size for it in image.entries) <= client.BYTES_AT_MOST:
        client.compare(romtool.path, image.path, romtool("list", image.path)[0])
