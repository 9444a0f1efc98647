"""Reads the images of random manifests again, and compares them with what the manifests say."""

import pytest
from romtool import escaped

pytestmark = pytest.mark.images(cases=False, seeds=400)


def test_list(romtool, image):
    """Compares `list` with the manifest, name by name in the order of bytes."""
    assert image.checked[:2] == ["ok", image.made.format]
    printed, err, status = romtool("list", image.path)
    assert (err, status) == (b"", 0)
    assert [line.split(" ", 1)[1] for line in printed.decode("ascii").split("\n")[1:-1]] == list(image.made.listed())


def test_serve(romtool, image):
    """Compares the bytes that `serve` maps with the sources, and with the image at the offsets that it names."""
    files = {escaped(it): image.made.told[it][1] for it in image.made.files}
    files = {path: contents for path, contents in files.items() if contents}
    asked = "".join(f"open {path}\nmap 0 0 {len(contents)}\nclose 0\n" for path, contents in files.items())
    printed, err, status = romtool("serve", image.path, input=asked.encode("ascii"))
    replies = printed.decode("ascii").splitlines()
    assert (len(replies), err, status) == (3 * len(files), b"", 0)
    for (path, contents), reply in zip(files.items(), replies[1::3]):
        offset = int(reply.split(" ")[1])
        assert reply == f"ok {offset} {len(contents)} {contents.hex()}", path
        assert image.data[offset:][: len(contents)] == contents, path
