"""File systems of FUSE, each a program in C, on which the tests let the program work."""

import contextlib
import os
import subprocess

from files import wait_until
from harness import HERE, SECONDS, missing


def is_there():
    """Returns whether file systems of FUSE can be compiled and mounted here."""
    if not os.path.exists("/dev/fuse") or missing("fusermount3", "cc", "pkg-config"):
        return False
    return not subprocess.run(["pkg-config", "--exists", "fuse3"], timeout=SECONDS).returncode


def unmount(folder):
    """Unmounts a file system of FUSE."""
    subprocess.run(["fusermount3", "-u", "-z", folder], stderr=subprocess.DEVNULL, timeout=SECONDS)


def compile_server(name):
    """Compiles the file system NAME.c of this directory, unless the program is there."""
    if not os.path.exists(name):
        flags = subprocess.run(["pkg-config", "--cflags", "--libs", "fuse3"], stdout=subprocess.PIPE, timeout=SECONDS)
        source = "%s/%s.c" % (HERE, name)
        words = ["cc", "-std=gnu99", "-O1", "-o", name, source, *flags.stdout.decode().split()]
        subprocess.run(words, check=True, timeout=SECONDS)


@contextlib.contextmanager
def mounted(name, *more):
    """Provides a directory on which the file system NAME.c is mounted, or nothing. It is given the directory and more words."""
    compile_server(name)
    os.mkdir("mount")
    server = subprocess.Popen(["./" + name, "mount", *more], stderr=subprocess.DEVNULL)
    wait_until(lambda: os.path.ismount("mount") or server.poll() is not None)
    try:
        yield "mount" if os.path.ismount("mount") else None
    finally:
        unmount("mount")
        server.kill()
        server.wait()
        os.rmdir("mount")
