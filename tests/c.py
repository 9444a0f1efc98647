"""Builds C programs over the library for C, and asks them what romtool answers: what the tests over the library share.

answers.c answers `check`, `list` and `serve` on the cases (see run.py) as romtool does, except for lines that ask for nothing.
"""

import os
import shutil
import subprocess

import run
from harness import HERE, SECONDS

TOP = os.path.join(HERE, "..")
INCLUDE = os.path.join(TOP, "include")
SOURCES = os.path.join(HERE, "c")
HEAPS = os.path.join(TOP, "c")
CRATE = os.path.join(TOP, "crates", "rom_c")
RECIPES = os.path.join(TOP, "recipes")
# the recipes over the library, each with its program, which has stubs beside it
GLUE = {
    "zephyr": (os.path.join(RECIPES, "zephyr", "romtool_fs.c"), os.path.join(SOURCES, "zephyr", "mounted.c")),
    "u-boot": (os.path.join(RECIPES, "u-boot", "romtool_uboot.c"), os.path.join(SOURCES, "u-boot", "used.c")),
}
STRICT = ["-Wall", "-Wextra", "-pedantic", "-Werror", "-I" + INCLUDE]
STRICTER = [*STRICT, "-Wconversion"]
SANITIZERS = ["-g", "-fsanitize=address,undefined", "-fno-sanitize-recover=all"]
AARCH64 = "aarch64-unknown-linux-gnu"
TOPICS = ("program", "romfs", "cramfs", "exact", "many", "serve")
SUBCOMMANDS = ("check", "list", "serve")
FORMATS = ("romfs", "cramfs", "cramfs-be")
CONTENT = bytes(range(250)) * 24
# a directory for each format: a program that is used in place, a link and a device
MANIFEST = b"""dir / 0755 0 0
file /init 0755 0 0 4096 init
file /empty 0644 0 0 4 empty
dir /d 0755 0 0
slink /d/link 0777 0 0 ../init
nod /d/null 0600 0 0 c 1 3
"""
CALLS = b"""open /d/link\nfstat 0\nmap 0 5 9\nmap 0 0 6000\nmap 0 1 6000\nlend 0 100\nlend 0 9999\nlend 0 1\nseek 0 4090
read 0 20\nread 0 4096\nopen /empty\nlend 1 1\nmap 1 0 1\nopen /d\nreaddir 2\nreaddir 2\nreaddir 2\nrewind 2\nreaddir 2
read 2 1\nreaddir 0\nreadlink /d/link\nreadlink /init\nopen /d/null\nlstat /d/null\nlookup /d/../init\nlookup /x
close 0\nread 0 1\nfstat 63\n"""


def said(words, **more):
    """Returns a finished command, with what it printed."""
    return subprocess.run(words, stdout=subprocess.PIPE, stderr=subprocess.STDOUT, **more)


def library(given, counts):
    """Returns the archive, which is built if none is given; or nothing."""
    if given:
        return os.path.abspath(given)
    done = said([os.path.join(TOP, "tools", "library")])
    archive = os.path.join(CRATE, "out", "librom_c.a")
    if done.returncode or not os.path.exists(archive):
        counts.fails("tools/library", done.stdout.decode(errors="replace").splitlines()[-20:])
        return None
    return archive


def heap():
    """Returns the kit's three functions over malloc."""
    kit = os.path.dirname(said(["rt", "doc"]).stdout.decode().strip())
    return os.path.join(kit, "c", "liblibc_c.a")


def sanitizers(top):
    """Returns the words for what looks for wrong accesses, if the compiler has it."""
    with open(top + "/empty.c", "w", encoding="utf-8") as file:
        file.write("int main(void) { return 0; }\n")
    made = said(["cc", *SANITIZERS, top + "/empty.c", "-o", top + "/empty"])
    return SANITIZERS if made.returncode == 0 and said([top + "/empty"]).returncode == 0 else []


def compiled(words, counts):
    """Returns whether a compiler accepts these words without a warning."""
    done = said(words)
    if done.returncode:
        counts.fails(" ".join(map(str, words)), done.stdout.decode(errors="replace").splitlines()[:20])
    else:
        counts.passes()
    return done.returncode == 0


def asks_for_something(reply):
    """Returns whether a reply is that to a line which asks for something."""
    return not reply.startswith(b"bad ")


def without_bad_lines(lines, out):
    """Returns the lines of a session that ask for something, and their replies."""
    asked, replies = lines.splitlines(True), out.splitlines(True)
    both = [pair for pair in zip(asked, replies) if asks_for_something(pair[1])]
    return b"".join(line for line, _ in both), b"".join(reply for _, reply in both)


def answered(binary, answers, words, lines, top, place, counts):
    """Counts whether the C program answers as romtool does."""
    how = {"cwd": top, "timeout": SECONDS, "stdout": subprocess.PIPE, "stderr": subprocess.PIPE}
    whole = subprocess.run([binary, *words], input=lines, **how)
    wanted = whole.stdout
    if words[0] == "serve" and whole.returncode == 0:
        lines, wanted = without_bad_lines(lines, wanted)
    done = subprocess.run([answers, *words], input=lines, **how)
    got = (done.returncode, done.stdout, done.stderr)
    counts.equal("%s, %s" % (place, " ".join(words)), got, (whole.returncode, wanted, b""))


def is_asked(told):
    """Returns whether a run of a case can be asked of the C program, too."""
    words, other = told["words"], {"in_from", "left", "out_to", "memory"} & set(told)
    if len(words) != 2 or words[0] not in SUBCOMMANDS or other:
        return False
    return isinstance(words[1], str) and not words[1].startswith("/")


def asked_cases(subcommands=SUBCOMMANDS):
    """Yields the name of each case with runs that the C program can be asked, and the case."""
    for place, case in run.named_cases(TOPICS):
        if any(is_asked(told) and told["words"][0] in subcommands for told in case["runs"]):
            yield place, case


def asked_in(case, top, subcommands=SUBCOMMANDS):
    """Lays out a case in a directory, and yields the words and the lines of each of its runs that the C program can be asked."""
    run.lay_out(case, top)
    for told in case["runs"]:
        if is_asked(told) and told["words"][0] in subcommands and os.path.isfile(os.path.join(top, told["words"][1])):
            yield told["words"], run.bytes_of(told.get("in", ""))


def build_all(binary, top, counts):
    """Builds a directory in each format."""
    data = MANIFEST + b"file /data 0644 0 0 4 init\n"
    for name, held in (("manifest", MANIFEST), ("entries", data), ("init", CONTENT), ("empty", b"")):
        with open(os.path.join(top, name), "wb") as file:
            file.write(held)
    for form in FORMATS:
        built = said([binary, "build", form, "manifest", form], cwd=top)
        counts.equal("build " + form, built.returncode, 0)


def program(name, top, archive, words, counts, over=None):
    """Returns a program of c/ over a heap, which is the kit's if no other is given; or nothing."""
    made = os.path.join(top, name)
    source = os.path.join(SOURCES, name + ".c")
    linked = [over, archive] if over else [archive, heap()]
    words = ["cc", "-std=c99", *STRICT, *words, source, *linked, "-o", made]
    return made if compiled(words, counts) else None


def has_headers(compiler):
    """Returns whether a compiler has the headers of a C library."""
    if not shutil.which(compiler):
        return False
    words = [compiler, "-fsyntax-only", "-xc", "-"]
    return not subprocess.run(words, input=b"#include <stdio.h>\n", stderr=subprocess.DEVNULL, check=False).returncode


def named_images():
    """Returns the images of the cases, each once, by their places as in `run.file_of`."""
    held = {}
    for place, case in run.named_cases(TOPICS):
        files = case.get("files", {})
        for told in case["runs"] if not case.get("large") else []:
            if is_asked(told) and told["words"][1] in files and "sparse" not in files[told["words"][1]]:
                held.setdefault(run.bytes_of(files[told["words"][1]]), "%s/%s" % (place, told["words"][1]))
    return {place: image for image, place in held.items() if len(image) < 1 << 20}


def images_of_cases(top):
    """Returns the names of files of a directory, to which it writes the images of the cases."""
    found = []
    for at, image in enumerate(named_images().values()):
        found.append("%04d" % at)
        with open(os.path.join(top, found[-1]), "wb") as file:
            file.write(image)
    return found
