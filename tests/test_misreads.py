"""Asks Linux itself what `romtool linux` says that it misreads.

Debian's kernel starts in an emulator (kernel.py), mounts these images from a loop device, lists their names, looks each of them
up, and reads files, links, modes, owners and the numbers of devices:
    romfs, cramfs   built of manifests: names of some lengths; files of some sizes, and files that share a table
    of143, of144    built: volume names of 143 and 144 bytes
    nodes           laid out here, one of each format: devices, links, names, and hard links to records with long names
In each image, exactly those names that Linux shows otherwise than they were laid out have a line of `romtool linux`, with
the number of that difference.
"""

import hashlib
import os
import struct
import tempfile

import images
import kernel
import pytest
from files import put

# files of one table: name, mode, user and group
SHARED = (("s0", "0644", 1, 2), ("s1", "0644", 1, 2), ("s2", "0755", 1, 2), ("s3", "0644", 3, 2), ("s4", "0644", 1, 4))
LENGTHS = (1, 126, 127, 128, 129, 143, 255)
SIZES = (0, 1, 4095, 4096, 4097, 8191, 8192, 12288, 12289)
VOLUMES = (143, 144)
# major and minor numbers
DEVICES = {
    "romfs": ((1, 2), (4095, 65535), (4096, 0), (5000, 7), (65535, 65535)),
    "cramfs": ((1, 2), (255, 255), (256, 0), (300, 5), (65535, 255)),
}
TEXTS = (b"plain", b"x\0y", b"\0", b"end\0")
# lengths of names of romfs records, to each of which a hard link leads
LONG = (127, 128, 143, 144, 160, 255)
# a name of cramfs, and the units of four bytes that it takes
PADDED = (("p", 1), ("pp", 2), ("pppp", 1), ("ppppp", 3), ("p" * 248, 63), ("p" * 249, 63), ("p" * 252, 63))
ROOTS = (0o700, 0o751, 0o755, 0o1777)
CONTENTS = b"0123456789abcdef"
COMMANDS = """with() {
    $b losetup /dev/loop0 "/$2.image"
    $b mount -t "$1" -o ro /dev/loop0 /mnt && { $3; $b umount /mnt; }
    $b losetup -d /dev/loop0
}
names() {
    $b ls -1 /mnt | $b sed 's/^/listed /'
    while read -r name; do $b test -e "/mnt/$name" && echo "found $name"; done </names
}
files() {
    for name in /mnt/*; do echo "read $($b md5sum <"$name") ${name#/mnt/}"; done
    for name in /mnt/*; do $b stat -c 'stat %%a %%u %%g %%n' "$name"; done
}
volume() { echo "mounted $image"; }
nodes() {
    for name in /mnt/*; do echo "in $form name ${name#/mnt/}"; done
    while read -r name; do
        { $b test -e "/mnt/$name" || $b test -L "/mnt/$name"; } && echo "in $form found $name"
        case $name in
        d*) echo "in $form device $($b stat -c '%%t:%%T' "/mnt/$name") $name" ;;
        l*) echo "in $form link $($b readlink "/mnt/$name") $name" ;;
        h*) echo "in $form data $($b cat "/mnt/$name") $name" ;;
        esac
    done </$form.names
}
root() { echo "root $($b stat -c '%%a' /mnt) $image"; }
with romfs romfs names
with cramfs cramfs files
for image in %(volumes)s; do with romfs "$image" volume; done
for form in romfs cramfs; do with "$form" "nodes.$form" nodes; done
for image in %(roots)s; do with cramfs "$image" root; done
"""


def named(length):
    """Returns a name of this length, which begins as no other one does."""
    return "%03d%s" % (length, "n" * (length - 3)) if length > 2 else "n"


def contents(size):
    """Returns bytes of a file, none of which is zero."""
    return bytes(1 + (at * 7 + size) % 255 for at in range(size))


def romfs_nodes():
    """Returns a romfs image with devices, links, and files with long names to each of which a hard link leads."""
    rows = [(4, major << 16 | minor, 0, b"d%d" % at, b"") for at, (major, minor) in enumerate(DEVICES["romfs"])]
    rows += [(3, 0, len(text), b"l%d" % at, text) for at, text in enumerate(TEXTS)]
    rows += [(images.REGULAR, 0, len(CONTENTS), named(length).encode(), CONTENTS) for length in LONG]
    place, places = 64 + 32, {}
    for _, _, _, name, data in rows:
        places[name] = place
        place += 16 + (len(name) + 16) // 16 * 16 + (len(data) + 15) // 16 * 16
    links = [(images.HARD_LINK, places[named(length).encode()], 0, b"h%d" % length, b"") for length in LONG]
    # after them a file whose data keep the last record away from the end of the image
    return images.romfs_list((), first=[*rows, *links, (images.REGULAR, 0, 256, b"z", bytes(256))])


def cramfs_nodes():
    """Returns a cramfs image with devices, links, and names that take more room than they need."""
    rows = [("d%d" % at, 1, 0o60600, 256 * major + minor, b"") for at, (major, minor) in enumerate(DEVICES["cramfs"])]
    rows += [("l%d" % at, 1, 0o120777, len(text), text) for at, text in enumerate(TEXTS)]
    rows += [(name, units, images.CRAMFS_REGULAR, 0, b"") for name, units in PADDED]
    place, inodes, tables = 76 + sum(12 + 4 * units for _, units, _, _, _ in rows), b"", b""
    for name, units, mode, size, text in sorted(rows):
        table = place + len(tables) if text else 0
        inodes += struct.pack("<3I", mode, size, units | table // 4 << 6) + name.encode().ljust(4 * units, b"\0")
        if text:
            tables += images.pointers(table + 4, 1) + images.padded(text, 4)
    root = images.inode(images.CRAMFS_DIRECTORY, len(inodes), 76)
    return images.cramfs(images.SORTED | images.DIRECT_POINTERS, root, inodes + tables)


def cramfs_root(mode):
    """Returns a cramfs image whose root has this mode, and an empty file."""
    file = images.inode(images.CRAMFS_REGULAR, 0, 0, b"file")
    return images.cramfs(images.DIRECT_POINTERS, images.inode(0o40000 | mode, len(file), 76), file)


class Shown:
    """All images, what `romtool linux` says of each, and what Linux shows."""

    def __init__(self, romtool, top):
        self.romtool, self.top, self.names = romtool, top, [named(length) for length in LENGTHS]
        os.mkdir(top + "/start")
        put(top + "/one", b"x")
        self.romfs = self.built("romfs", "romfs", [f"file /{name} 0644 0 0 4 one" for name in self.names])
        for size in SIZES:
            put(f"{top}/of{size}", contents(size))
        lines = [f"file /f{size} 0644 0 0 4 of{size}" for size in SIZES]
        lines += ["file /%s %s %d %d 4 one" % SHARED[0]]
        lines += ["same /%s %s %d %d /%s" % (*it, SHARED[0][0]) for it in SHARED[1:]]
        self.cramfs = self.built("cramfs", "cramfs", lines)
        self.volumes = {f"of{it}": self.built(f"of{it}", "romfs", ["volume " + it * "v"]) for it in VOLUMES}
        nodes = {"romfs": romfs_nodes(), "cramfs": cramfs_nodes()}
        self.nodes = {form: self.laid_out("nodes." + form, image) for form, image in nodes.items()}
        self.roots = {f"root{mode:o}": self.laid_out(f"root{mode:o}", cramfs_root(mode)) for mode in ROOTS}
        names = [f"d{at}" for at in range(5)] + [f"l{at}" for at in range(len(TEXTS))]
        self.node_names = {
            "romfs": [*names, *(f"h{length}" for length in LONG), *map(named, LONG), "z"],
            "cramfs": [*names, *(name for name, _ in PADDED)],
        }
        for name, looked_up in {"names": self.names, **{f"{it}.names": names for it, names in self.node_names.items()}}.items():
            put(f"{top}/start/{name}", "".join(it + "\n" for it in looked_up).encode("ascii"))
        kernel.make_start(top, COMMANDS % {"volumes": " ".join(self.volumes), "roots": " ".join(self.roots)})
        self.lines = kernel.console(top)

    def said_of(self, name):
        """Returns what `romtool linux` says of an image, number by number."""
        told = [line.split(" ") for line in self.romtool("linux", f"{self.top}/start/{name}.image")[0].decode("ascii").splitlines()]
        return {number: {path[1:] for _, it, _, path in told if it == str(number)} for number in range(1, 11)}

    def built(self, name, form, lines):
        """Builds an image of a manifest's lines where the kernel finds it, and returns what is said of it."""
        put(self.top + "/manifest", "".join(line + "\n" for line in lines).encode("ascii"))
        assert self.romtool("build", form, "manifest", f"start/{name}.image", cwd=self.top)[2] == 0
        return self.said_of(name)

    def laid_out(self, name, image):
        """Puts an image where the kernel finds it, and returns what is said of it."""
        put(f"{self.top}/start/{name}.image", images.padded(image, images.BLOCK))
        return self.said_of(name)

    def told(self, word):
        """Returns the lines of the console that begin with a word, without it."""
        return [line[len(word) + 1 :] for line in self.lines if line.startswith(word + " ")]

    def told_of(self, form, word):
        """Returns what is shown of each name of the image of nodes in a format, after a word."""
        return {name: said for said, _, name in (line.rpartition(" ") for line in self.told(f"in {form} {word}"))}


@pytest.fixture(scope="session")
def shown(romtool):
    """The images, and what Linux shows of them."""
    kernel.need()
    with tempfile.TemporaryDirectory(prefix="romtool-") as top:
        return Shown(romtool, top)


# names of romfs


def test_cut(shown):
    """Finds names that are not listed whole."""
    assert set(shown.names) & set(shown.told("found")) - set(shown.told("listed")) == shown.romfs[3]


def test_lost(shown):
    """Looks up names that are not found."""
    assert set(shown.names) - set(shown.told("found")) == shown.romfs[4]


# files of cramfs


def test_bytes(shown):
    """Reads files, some with other bytes."""
    texts = {**{f"f{size}": contents(size) for size in SIZES}, **{row[0]: b"x" for row in SHARED}}
    read = {line.split(" ")[-1]: line.split(" ")[0] for line in shown.told("read")}
    assert {name for name, text in texts.items() if read.get(name) != hashlib.md5(text).hexdigest()} == shown.cramfs[1]
    assert set(read) == set(texts)


def test_owners(shown):
    """Shows files with another mode or owner."""
    seen = {line.split("/")[-1]: line.split(" ")[:3] for line in shown.told("stat")}
    wrong = {name for name, mode, user, group in SHARED if seen.get(name) != [mode.lstrip("0"), str(user), str(group)]}
    assert wrong == shown.cramfs[2]


# images


def test_volumes(shown):
    """Mounts no volume with too long a name."""
    assert set(shown.volumes) - set(shown.told("mounted")) == {name for name, of in shown.volumes.items() if of[5]}


def test_roots(shown):
    """Shows roots with another mode."""
    seen = {line.split(" ")[1]: line.split(" ")[0] for line in shown.told("root")}
    assert {name for name in shown.roots if seen.get(name) != name[len("root") :]} == {name for name, of in shown.roots.items() if of[9]}


# nodes that were laid out here

each_form = pytest.mark.parametrize("form", DEVICES)


@each_form
def test_devices(shown, form):
    """Shows devices with other numbers."""
    seen = shown.told_of(form, "device")
    assert {f"d{at}" for at, pair in enumerate(DEVICES[form]) if seen.get(f"d{at}") != "%x:%x" % pair} == shown.nodes[form][6]


@each_form
def test_links(shown, form):
    """Shows links with another text."""
    seen = shown.told_of(form, "link")
    assert {f"l{at}" for at, text in enumerate(TEXTS) if seen.get(f"l{at}") != text.decode()} == shown.nodes[form][8]


@each_form
def test_lost_nodes(shown, form):
    """Looks up names that are not found."""
    assert set(shown.node_names[form]) - set(shown.told(f"in {form} found")) == shown.nodes[form][4] | shown.nodes[form][7]


@each_form
def test_cut_nodes(shown, form):
    """Lists names, not all of them whole."""
    assert set(shown.node_names[form]) - set(shown.told(f"in {form} name")) == shown.nodes[form][3] | shown.nodes[form][4]


@each_form
def test_other_places(shown, form):
    """Reads files from another place."""
    seen = shown.told_of(form, "data")
    wrong = {name for name in shown.node_names[form] if name[0] == "h" and seen.get(name) != CONTENTS.decode()}
    assert wrong == shown.nodes[form][10]
