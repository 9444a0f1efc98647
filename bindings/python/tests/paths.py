"""Compares the paths of an image with those that pathlib has of the directory from which it was packed.

    paths.py IMAGE DIRECTORY PATTERN..

It prints how many answers were compared. Directories have the mode, the names and the link texts of the directory, and files also
its sizes, bytes and numbers of names.
"""

import pathlib
import sys

import romtool

COUNT = [0]
KINDS = ("exists", "is_dir", "is_file", "is_symlink")
WORDS = ("name", "stem", "suffix", "suffixes")


def same(what, got, wanted):
    """Counts two answers, which have to be equal."""
    COUNT[0] += 1
    assert got == wanted, "%s: %r, but %r in the directory" % (what, got, wanted)


def compare(image, directory, place):
    """Compares one path, which is given from the root on."""
    for path in (image.path(place), image.path("/" + place), image.root / place, *found(image, place)):
        there = directory / place
        for it in KINDS:
            same("%s of %s" % (it, place), getattr(path, it)(), getattr(there, it)())
        for it in WORDS if place else ():
            same("%s of %s" % (it, place), getattr(path, it), getattr(there, it))
        same(
            "place", (str(path.relative_to(image.root)), path.parts[1:]), (str(there.relative_to(directory)), pathlib.PurePath(place).parts)
        )
        same("parents", [str(it) for it in path.parents], [str(it) for it in pathlib.PurePosixPath("/" + place).parents])
        stat, wanted = path.lstat(), there.lstat()
        same("mode of " + place, (stat.st_mode, stat.st_uid, stat.st_gid), (wanted.st_mode, wanted.st_uid, wanted.st_gid))
        if path.is_symlink():
            same("text of " + place, (path.readlink(), stat.st_size), (pathlib.PurePosixPath(there.readlink()), wanted.st_size))
        if path.is_file():
            same("size of " + place, path.stat().st_size, there.stat().st_size)
            same("bytes of " + place, (path.read_bytes(), image.read(place)), (there.read_bytes(),) * 2)
            if image.format == "romfs":  # cramfs has a file for each name
                same("names of " + place, path.stat().st_nlink, there.stat().st_nlink)


def found(image, place):
    """Returns a path, found in its directory."""
    path = image.path(place)
    return [it for it in path.parent.iterdir() if it == path]


def main(image, directory, patterns):
    image, directory = romtool.Image(image), pathlib.Path(directory)
    places = sorted(str(it.relative_to(directory)) for it in directory.rglob("*"))
    same("all paths", sorted(str(it.relative_to(image.root)) for it in image.root.rglob("*")), places)
    for place in ("", *places):
        compare(image, directory, place)
    same(
        "order",
        [str(it)[1:] for it in sorted(image.root.rglob("*"))],
        [str(it.relative_to(directory)) for it in sorted(directory.rglob("*"))],
    )
    for pattern in patterns:
        for top in ("", "d", "d/e", "up", "none", "motd"):
            for word in ("glob", "rglob"):
                wanted = sorted(str(it.relative_to(directory)) for it in getattr(directory / top, word)(pattern))
                got = sorted(str(it.relative_to(image.root)) for it in getattr(image.path(top), word)(pattern))
                same("%s %s in %r" % (word, pattern, top), got, wanted)
    print(COUNT[0], "answers")


main(sys.argv[1], sys.argv[2], sys.argv[3:])
