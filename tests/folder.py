"""Makes directories, and says what an image of one lists, for the tests that compare with other programs.

A line is KIND MODE UID GID SIZE MAJOR MINOR PATH, and a link's text. Romfs has no modes and no owners.
"""

import contextlib
import os
import socket
import stat

import pytest
from romtool import KINDS, ROMFS_MODES, escaped, without_number


def truncated(status):
    """Returns the owner and the group that mkfs.cramfs keeps: 16 and 8 bits."""
    return status.st_uid & 0xFFFF, status.st_gid & 0xFF


def nearest(status):
    """Returns the owner and the group that a scan for cramfs has: the nearest ones."""
    return min(status.st_uid, 0xFFFF), min(status.st_gid, 0xFF)


def line(format, path, shown, owner):
    """Returns the line of a file at the path, which the image shows at another. The owner in cramfs is what this function returns."""
    status = os.lstat(path)
    kind = KINDS[stat.S_IFMT(status.st_mode)]
    romfs = ROMFS_MODES.get(kind, 0o755 if status.st_mode & 0o111 else 0o644), 0, 0
    kept = romfs if format == "romfs" else (stat.S_IMODE(status.st_mode), *owner(status))
    size = status.st_size if kind in "fl" else 0
    device = (os.major(status.st_rdev), os.minor(status.st_rdev)) if kind in "bc" else (0, 0)
    text = " " + escaped(os.readlink(path)) if kind == "l" else ""
    return "%s %04o %d %d %d %d %d %s%s" % (kind, *kept, size, *device, escaped(shown), text)


def lines(format, folder, owner=truncated):
    """Returns the lines of an image of a directory, sorted, without the numbers of nodes."""
    top = os.fsencode(folder)
    paths = [os.path.join(at, name) for at, folders, files in os.walk(top) for name in folders + files]
    return sorted([line(format, top, b"/", owner), *(line(format, path, path[len(top) :], owner) for path in paths)])


def listed(romtool, image):
    """Returns the lines that `list` prints of an image, in the same form."""
    return sorted(map(without_number, romtool("list", image)[0].decode("ascii").splitlines()))


@contextlib.contextmanager
def permitted():
    """Skips the test if the system does not permit what is done: only root makes devices, and gives files away."""
    try:
        yield
    except PermissionError:
        pytest.skip("it needs the rights of root")


def put_device(path, kind, major, minor, mode=0o644):
    """Makes a device."""
    with permitted():
        os.mknod(path, mode | {"b": stat.S_IFBLK, "c": stat.S_IFCHR}[kind], os.makedev(major, minor))


def put_socket(path):
    """Makes a socket."""
    with socket.socket(socket.AF_UNIX) as it:
        it.bind(path)
