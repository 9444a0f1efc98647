"""Computes what a scan prints, by what `lstat` says of its directories and by the rules of the manual, and makes directories to scan."""

import argparse
import itertools
import os
import re
import stat
import struct

from files import put
from romtool import KINDS, ROMFS_MODES, WORDS, escaped
from users import IS_ROOT

OPTIONS = argparse.ArgumentParser(allow_abbrev=False)  # of a scan: those that decide what it prints
OPTIONS.add_argument("--all", action="store_true")
OPTIONS.add_argument("--for", dest="format")
OPTIONS.add_argument("--all-root", dest="owner", action="store_const", const=(0, 0))
OPTIONS.add_argument("--owner", type=lambda it: tuple(map(int, it.split(":"))))
OPTIONS.add_argument("--exclude", action="append", default=[])
OPTIONS.add_argument("--align", action="append", default=[], type=lambda it: it.rpartition("="))
OPTIONS.add_argument("--volume")
OPTIONS.add_argument("tops", nargs="+")

# a character of a set in brackets, one that is not its first, and a range of them
ONE, NEXT = r"(?:\\.|[^\\])", r"(?:\\.|[^]\\])"
SET = rf"\[(?P<sign>[!^]?)(?P<set>{ONE}(?:-{NEXT})?(?:{NEXT}(?:-{NEXT})?)*)\]"
PATTERN = re.compile(rf"(?P<star>\*)|(?P<any>\?)|{SET}|\\?(?P<one>.)", re.DOTALL)
RANGE = re.compile(rf"({ONE})(?:-({ONE}))?", re.DOTALL)


def expression(part):
    """Returns a regular expression of a part of a pattern: a star, a question mark, a set, or a character."""
    if part["star"] or part["any"]:
        return ".*" if part["star"] else "."
    if part["one"]:
        return re.escape(part["one"])
    ranges = [(low[-1], (high or low)[-1]) for low, high in RANGE.findall(part["set"])]
    held = "".join(f"{re.escape(low)}-{re.escape(high)}" for low, high in ranges if low <= high)
    if held:
        return f"[{'^' * bool(part['sign'])}{held}]"
    return "." if part["sign"] else "(?!)"


def is_matched(pattern, path):
    """Returns whether a pattern matches a path (bytes with a slash in front), by the rules of the manual."""
    whole = "".join(map(expression, PATTERN.finditer(pattern.strip("/"))))
    return re.fullmatch(whole, path.decode()[1:], re.DOTALL) is not None


def elf(kind, data=1, length=96, flags=5):
    """Returns an ELF file of 32 bits of a type, in an order of bytes, whose bytes are one segment with these flags."""
    order = "<" if data == 1 else ">"
    head = struct.pack("4sBBB9x", b"\x7fELF", 1, data, 1)
    head += struct.pack(order + "HHIIIIIHHHHHH", kind, 40, 1, 0, 52, 0, 0, 52, 32, 1, 0, 0, 0)
    head += struct.pack(order + "8I", 1, 0, 0, 0, length, length, flags, 4096)
    return (head + bytes(length))[:length]


def is_program(held):
    """Returns whether a file is executed in place: one of the flat format, or of `elf` with a segment that cannot be written."""
    if held[:4] == b"bFLT":
        return True
    if held[:5] != b"\x7fELF\x01" or len(held) < 84 or held[5] not in (1, 2):
        return False
    order = "<" if held[5] == 1 else ">"
    kind, filed, flags = (struct.unpack_from(order + form, held, at)[0] for form, at in (("H", 16), ("I", 68), ("I", 76)))
    return kind in (2, 3) and filed > 0 and not flags & 2


class Told:
    """What the system says of each name in directories that are laid over one another, by its path, in the order of bytes.

    The names of the directories are those that a scan in the directory `at` is given. What a pattern of `excludes` matches is left
    out, and what is below it.
    """

    def __init__(self, *tops, at=".", excludes=()):
        self.sources = {}  # path -> the name that a manifest has of the file
        for top in (os.fsencode(it).rstrip(b"/") for it in tops):
            base, left = os.path.join(os.fsencode(at), top), set()
            names = (os.path.join(folder, name) for folder, *held in os.walk(base) for name in itertools.chain(*held))
            for path in sorted([b"/", *(name[len(base) :] for name in names)]):
                if path != b"/" and (os.path.dirname(path) in left or any(is_matched(it, path) for it in excludes)):
                    left.add(path)
                else:
                    self.sources[path] = top + path
        self.paths = sorted(self.sources)
        self.real = {path: os.path.join(os.fsencode(at), self.sources[path]) for path in self.paths}
        self.of = {path: os.lstat(self.real[path]) for path in self.paths}
        self.kind = {path: KINDS[stat.S_IFMT(self.of[path].st_mode)] for path in self.paths}
        self.names = {}  # file -> its paths
        for path in self.paths:
            self.names.setdefault(self.file(path), []).append(path)

    def file(self, path):
        """Returns which file a path leads to. A file with one link is led to by one path."""
        told = self.of[path]
        return (told.st_dev, told.st_ino) if told.st_nlink > 1 else path

    def regular(self):
        """Returns the paths of the regular files."""
        return [path for path in self.paths if self.kind[path] == "f"]

    def attributes(self, path, format=None, owner=None):
        """Returns mode, user and group as a format stores them, or as they are."""
        told, kind = self.of[path], self.kind[path]
        mode, (user, group) = stat.S_IMODE(told.st_mode), owner or (told.st_uid, told.st_gid)
        if format == "romfs":
            return ROMFS_MODES.get(kind, 0o755 if mode & 0o111 else 0o644), 0, 0
        return (mode, min(user, 65535), min(group, 255)) if format else (mode, user, group)

    def device(self, path):
        """Returns the numbers of a device."""
        number = self.of[path].st_rdev if self.kind[path] in "bc" else 0
        return os.major(number), os.minor(number)

    def is_program(self, path):
        """Returns whether the file of a path is executed in place."""
        with open(self.real[path], "rb") as file:
            return is_program(file.read(84))

    def alignment(self, path, aligns):
        """Returns the alignment of a regular file: the largest of its names, each by the last pattern that matches it."""
        usual = ([4] + [int(number) for _, sign, number in aligns if not sign])[-1] if self.is_program(path) else 4
        rules = [(pattern, int(number)) for pattern, sign, number in reversed(aligns) if sign]
        names = self.names[self.file(path)]
        return max(next((number for pattern, number in rules if is_matched(pattern, name)), usual) for name in names)

    def line(self, path, format, owner, aligns):
        """Returns the line of a manifest."""
        kind, shown, first = self.kind[path], escaped(path), self.names[self.file(path)][0]
        owned = "%s %04o %d %d" % (shown, *self.attributes(path, format, owner))
        if first != path and format in (None, "romfs"):
            return f"hard {shown} {escaped(first)}"
        if first != path and kind == "f":
            return f"same {owned} {escaped(first)}"
        if kind == "f":
            return f"file {owned} {self.alignment(path, aligns)} {escaped(self.sources[path])}"
        if kind == "l":
            return f"slink {owned} {escaped(os.readlink(self.real[path]))}"
        if kind in "bc":
            return f"nod {owned} {kind} {' '.join(map(str, self.device(path)))}"
        return f"{WORDS[kind]} {owned}"

    def short_line(self, path):
        """Returns the line of a scan without `--all`, of a directory or a regular file."""
        return (
            f"dir {escaped(path)} 0755 0 0" if self.kind[path] == "d" else f"file {escaped(path)} 0644 0 0 4 {escaped(self.sources[path])}"
        )

    def listed(self, format):
        """Returns the lines of a list of an image without the numbers of nodes, sorted."""
        lines = []
        for path in self.paths:
            kind = self.kind[path]
            numbers = (*self.attributes(path, format), self.of[path].st_size if kind in "fl" else 0, *self.device(path))
            text = " " + escaped(os.readlink(self.real[path])) if kind == "l" else ""
            lines.append("%s %04o %d %d %d %d %d %s%s" % (kind, *numbers, escaped(path), text))
        return sorted(lines)


def scanned(*words, at="."):
    """Returns the bytes that `scan` with these words prints in the directory `at`."""
    asked = OPTIONS.parse_args(words)
    told = Told(*asked.tops, at=at, excludes=asked.exclude)
    lines = [f"volume {escaped(asked.volume.encode())}"] if asked.volume else []
    if asked.all:
        lines += [told.line(path, asked.format, asked.owner, asked.align) for path in told.paths]
    else:
        lines += [told.short_line(path) for path in told.paths[1:] if told.kind[path] in "df"]
    return "".join(line + "\n" for line in lines).encode()


def make_random(top, chance):
    """Makes a small random directory."""
    folders, files = [top], []
    os.makedirs(top)
    for number in range(chance.choice([0, 1, 4, 10, 20])):
        name = "".join(chance.choice("ab%. \u00e9\n-_~") for _ in range(chance.choice([1, 2, 5]))) + str(number)
        path = f"{chance.choice(folders)}/{name}"
        kind = chance.choice("ddffffflph" + "bc" * IS_ROOT)
        if kind == "d":
            os.mkdir(path)
            folders.append(path)
        elif kind == "f":
            held = chance.choice([bytes(chance.choice([0, 1, 5, 4096, 5000])), elf(3, chance.choice([1, 2])), b"bFLT"])
            put(path, held, chance.randint(0, 0o7777) | 0o400 * (not IS_ROOT))
        elif kind == "l":
            os.symlink(chance.choice(["x", "../y z", "%/\u00e9"]), path)
        elif kind == "p":
            os.mkfifo(path)
        elif kind == "h" and files:
            os.link(chance.choice(files), path, follow_symlinks=False)
        elif kind in "bc":
            of = stat.S_IFBLK if kind == "b" else stat.S_IFCHR
            os.mknod(path, chance.randint(0, 0o777) | of, os.makedev(chance.randint(0, 255), chance.randint(0, 255)))
        if kind != "d" and os.path.lexists(path):
            files.append(path)
            if IS_ROOT:
                os.lchown(path, chance.choice([0, 1, 65535, 70000]), chance.choice([0, 255, 1000]))
    for folder in folders:
        os.chmod(folder, chance.randint(0, 0o7777) | 0o700 * (not IS_ROOT))
