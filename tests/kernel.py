"""Starts Debian's kernel in an emulator, from an archive that holds its modules, a static busybox and an `init`.

Debian's romfs.ko is copied. Its cramfs.ko, which Debian leaves out, is built from Debian's source for block devices and for
flash (CONFIG_CRAMFS_BLOCKDEV, CONFIG_CRAMFS_MTD). The emulator needs no processor of this machine's kind and no root.
"""

import glob
import os
import re
import shutil
import subprocess
import tempfile

import pytest
from files import bytes_in, put
from harness import missing

# the programs that this needs, and the packages that have them
TOOLS = {"qemu-system-x86_64": "qemu-system-x86", "cc": "gcc", "make": "make", "cpio": "cpio", "tar": "tar", "xz": "xz-utils"}
# the images of Debian's kernels; those for clouds lack modules, and end in other words
KERNELS = "/boot/vmlinuz-*[0-9]-amd64"
# the modules for images on loop devices, each after those that it needs; and where Debian's are, below the kernel's modules
BLOCK_MODULES = ("loop", "mtd", "romfs", "cramfs")
PLACES = {
    "loop": "drivers/block",
    "mtd": "drivers/mtd",
    "mtd_blkdevs": "drivers/mtd",
    "mtdblock": "drivers/mtd",
    "romfs": "fs/romfs",
    "chipreg": "drivers/mtd/chips",
    "map_rom": "drivers/mtd/chips",
    "map_funcs": "drivers/mtd/maps",
    "physmap": "drivers/mtd/maps",
    "overlay": "fs/overlayfs",
}
MAKEFILE = """obj-m := %s
cramfs-objs := inode.o uncompress.o
ccflags-y := -DCONFIG_CRAMFS_BLOCKDEV=1 -DCONFIG_CRAMFS_MTD=1
"""
# what the first process does before and after the commands of a test; the BIOS leaves a line that is not ended
HEAD = """#!/bin/busybox sh
b=/bin/busybox
echo
$b mount -t proc none /proc
$b mount -t devtmpfs none /dev
for name in %s; do
    $b insmod /modules/$name.ko || echo "insmod $name failed"
done
"""
END = "the end"
TAIL = 'echo "%s"\n$b poweroff -f\n' % END


def version():
    """Returns the version of the newest kernel that has an image and headers, or nothing."""
    found = [os.path.basename(it)[len("vmlinuz-") :] for it in glob.glob(KERNELS)]
    built = [it for it in found if os.path.isdir(f"/lib/modules/{it}/build")]
    return max(built, key=lambda it: [int(number) for number in re.findall(r"\d+", it)], default="")


def source_package():
    """Returns the name of the package that has the source of this kernel."""
    return "linux-source-" + ".".join(version().split(".")[:2])


def lacking(tools):
    """Returns the first package that is not installed, or nothing. The tools are those of the test, as `TOOLS`."""
    tools = {**TOOLS, **tools}
    if tool := missing(*tools):
        return tools[tool]
    if not version():
        return "linux-headers-amd64" if glob.glob(KERNELS) else "linux-image-amd64"
    if not os.path.exists(f"/usr/src/{source_package()}.tar.xz"):
        return source_package()
    busybox = shutil.which("busybox")
    return "" if busybox and b"/ld-linux" not in bytes_in(busybox)[:4096] else "busybox-static"


def done(words, **more):
    """Runs a command, and returns what it printed. If it fails, so does the test."""
    ran = subprocess.run(words, stdin=subprocess.DEVNULL, stdout=subprocess.PIPE, stderr=subprocess.STDOUT, **more)
    assert ran.returncode == 0, f"{words[0]}: {ran.stdout.decode(errors='replace')[-2000:]}"
    return ran.stdout


def make_modules(top, names, sources):
    """Builds cramfs.ko and a module of each source in a directory, and copies the modules of these names into it, too."""
    source = f"/usr/src/{source_package()}.tar.xz"
    done(["tar", "-xf", source, "-C", top, "--strip-components=3", "--wildcards", "*/fs/cramfs/*"])
    for path in sources:
        shutil.copy(path, top)
    objects = ["cramfs.o", *(os.path.basename(path).removesuffix(".c") + ".o" for path in sources)]
    put(f"{top}/Makefile", (MAKEFILE % " ".join(objects)).encode())
    modules = f"/lib/modules/{version()}"
    done(["make", "-C", f"{modules}/build", f"M={top}", "modules"])
    for name in names:
        if name in PLACES:
            shutil.copy(f"{modules}/kernel/{PLACES[name]}/{name}.ko", top)


def make_start(top, commands, names=BLOCK_MODULES, sources=()):
    """Makes the directory `start` that the kernel starts from. Its `init` loads the modules of these names, and runs the commands.

    The modules that are not Debian's are built, cramfs.ko and those of these sources. A test may add files to the directory.
    """
    for name in ("bin", "dev", "mnt", "modules", "proc"):
        os.makedirs(f"{top}/start/{name}")
    with tempfile.TemporaryDirectory(dir=top) as room:
        make_modules(room, names, sources)
        for name in names:
            shutil.copy(f"{room}/{name}.ko", f"{top}/start/modules")
    shutil.copy(shutil.which("busybox"), f"{top}/start/bin/busybox")
    put(f"{top}/start/init", (HEAD % " ".join(names) + commands + TAIL).encode("ascii"), 0o755)


def put_archive(top):
    """Puts the directory `start` into the archive `start.cpio`."""
    paths = [os.path.join(at, it) for at, folders, names in os.walk(f"{top}/start") for it in folders + names]
    listed = "".join(f"{os.path.relpath(path, f'{top}/start')}\n" for path in paths)
    words = ["cpio", "--quiet", "-o", "-H", "newc"]
    put(f"{top}/start.cpio", subprocess.run(words, input=listed.encode(), stdout=subprocess.PIPE, cwd=f"{top}/start", check=True).stdout)


def console(top, seconds=300, append="", devices=()):
    """Starts the kernel, which has to run to its end, and returns the lines that its console shows."""
    put_archive(top)
    words = ["qemu-system-x86_64", "-accel", "tcg", "-cpu", "qemu64", "-m", "768M", "-nographic", "-nic", "none", "-no-reboot", *devices]
    words += ["-kernel", f"/boot/vmlinuz-{version()}", "-initrd", f"{top}/start.cpio", "-append"]
    words += [f"console=ttyS0 nokaslr tsc=unstable loglevel=3 mitigations=off no_timer_check {append}"]
    try:
        shown = subprocess.run(words, stdin=subprocess.DEVNULL, stdout=subprocess.PIPE, stderr=subprocess.STDOUT, timeout=seconds).stdout
    except subprocess.TimeoutExpired as error:
        shown = (error.stdout or b"") + b"\nthe emulator does not end within %d seconds" % seconds
    lines = shown.decode(errors="replace").replace("\r", "").split("\n")
    if END not in lines:
        pytest.fail("\n".join(["Linux does not run to its end", *lines[-40:]]), pytrace=False)
    return lines


def need(tools=()):
    """Skips a test if a package that it needs is not installed. The tools are those of the test, as `TOOLS`."""
    if lacks := lacking(dict(tools)):
        pytest.skip(f"the package {lacks} is not installed")
