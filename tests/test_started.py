"""Starts a root file system in Linux that `romtool scan --all` and `romtool build` have packed.

A directory is made with a static busybox under several names (a file, a hard link, symbolic links), a script as its
`init`, a file that only its owner may read, and a program with the set-user bit. It is packed in romfs and in
cramfs. Debian's kernel starts in an emulator (kernel.py), mounts both images from loop devices, and runs the `init` of each in
the image only: what that finds is printed on the console.
"""

import os
import shutil
import tempfile

import kernel
import pytest
from files import put

pytestmark = pytest.mark.needs("root")  # who makes a file with another group
# what the init of the packed root does: each line that it prints begins with the format
ROOT_INIT = """#!/bin/sh
echo "$1 runs as $(id -u)"
echo "$1 secret $(stat -c '%a %u %g' /etc/secret) $(cat /etc/secret)"
echo "$1 su $(stat -c '%a' /bin/su)"
echo "$1 link $(readlink /bin/sh)"
echo "$1 same $(cmp /bin/busybox /bin/again && echo yes)"
"""
COMMANDS = """number=0
for format in %s; do
    $b losetup /dev/loop$number /$format.image
    $b mount -t $format -o ro /dev/loop$number /mnt && $b chroot /mnt /init $format && $b umount /mnt
    number=$((number + 1))
done
"""
# what it prints. Romfs has no owners, and of modes only whether a file may be run.
LINES = {
    "romfs": {"user": "runs as 0", "secret": "secret 644 0 0 hidden", "su": "su 755", "link": "link busybox", "same": "same yes"},
    "cramfs": {"user": "runs as 0", "secret": "secret 600 0 7 hidden", "su": "su 4755", "link": "link busybox", "same": "same yes"},
}


def make_root(top):
    """Makes the directory that is packed."""
    for name in ("/etc", "/bin"):
        os.makedirs(top + name)
    put(top + "/init", ROOT_INIT.encode(), 0o755)
    put(top + "/etc/secret", b"hidden\n", 0o600)
    shutil.copy(shutil.which("busybox"), top + "/bin/busybox")
    os.link(top + "/bin/busybox", top + "/bin/again")
    shutil.copy(shutil.which("busybox"), top + "/bin/su")
    os.chmod(top + "/bin/su", 0o4755)
    for name in ("sh", "id", "stat", "cat", "readlink", "cmp"):
        os.symlink("busybox", f"{top}/bin/{name}")
    os.chown(top + "/etc/secret", 0, 7)


@pytest.fixture(scope="session")
def console(romtool):
    """What the console shows of the root, which is packed as it is in each format."""
    kernel.need()
    with tempfile.TemporaryDirectory(prefix="romtool-") as top:
        make_root(top + "/root")
        kernel.make_start(top, COMMANDS % " ".join(LINES))
        for form in LINES:
            told, _, status = romtool("scan", "--all", "--for", form, "root", cwd=top)
            put(top + "/manifest", told)
            assert status == 0 and romtool("build", form, "manifest", f"start/{form}.image", cwd=top)[2] == 0, form
        return kernel.console(top)


@pytest.mark.parametrize("what", LINES["romfs"])
@pytest.mark.parametrize("form", LINES)
def test_root(console, form, what):
    """Finds a line of the init in the image."""
    assert f"{form} {LINES[form][what]}" in [it for it in console if it.startswith(form)]
