"""Packs directories in one step, and compares each image with that of `scan --all` and `build`.

Words are on standard error unless there is `--quiet`. What is refused leaves OUT as it was. GNU make rebuilds by the rule of `--depfile`
if a file is added, changed or removed. A scan under fakeroot is refused if fakeroot does not reach the program.
"""

import os
import re
import shutil
import subprocess

import pytest
from files import bytes_in, put, repository_text, write_below
from harness import SECONDS
from romtool import FORMATS, prints, refuses
from scans import make_random

RULES = """{up}image:
\t"{program}" pack --quiet --depfile {up}rule cramfs {tree} {up}image
\t@echo packed >>{up}log
-include {up}rule
"""
NONE = "no file is a program that is executed in place\n"
PROGRAM = bytes_in(os.path.realpath(shutil.which("true")))


@pytest.fixture
def tiny(here):
    """The directory `tiny` with one file, its manifest, and an old OUT."""
    write_below(".", {"tiny/a": "abc", "m": "file /a 0644 0 0 4 tiny/a\n", "out": "old"})


@pytest.mark.parametrize(("words", "rest"), [
    ("--size 8K", b"\xff" * 7168), ("--size=8192 --fill 0", bytes(7168)), ("--size 0x2000 --fill 0x5a", b"Z" * 7168), ("--size 1K", b""),
], ids=["ones", "zeros", "letters", "nothing"])  # fmt: skip
def test_partition(romtool, tiny, words, rest):
    """Writes the bytes of a partition: the image, and then others."""
    assert romtool.line("pack --quiet --all-root romfs tiny image") == prints("ok 1024")
    assert romtool.line(f"pack {words} --quiet --all-root romfs tiny out") == prints("ok 1024")
    assert bytes_in("out") == bytes_in("image") + rest
    assert romtool.line("check out") == prints("ok romfs 3 1")


def test_built_partition(romtool, tiny):
    """Writes a partition by `build`, also into a device that is full."""
    assert romtool.line("build --size 2K romfs m out") == prints("ok 1024")
    assert bytes_in("out")[1024:] == b"\xff" * 1024
    if os.path.exists("/dev/full"):
        assert romtool.line("build --size 2K romfs m /dev/full") == refuses("file /dev/full")


@pytest.mark.parametrize(("words", "answer"), [
    ("--size 1023", (b"size 1024 1023\n", b"", 1)), ("--size 8K --max-size 9", (b"size 1024 9\n", b"", 1)),
    ("--fill 0", refuses("usage")), ("--size 8K --fill 256", refuses("usage")), ("--size 8K --fill x", refuses("usage")),
    ("--size x", refuses("usage")),
])  # fmt: skip
def test_refused_partition(romtool, tiny, words, answer):
    """Refuses an image that is too large, and wrong numbers."""
    assert romtool.line(f"pack {words} --quiet --all-root romfs tiny out") == answer
    assert bytes_in("out") == b"old"


@pytest.mark.seeds(60)
def test_two_steps(romtool, here, chance):
    """Packs random directories with random options in one step and in two."""
    tops = [f"tree{number}" for number in range(chance.choice([1, 1, 2]))]
    for top in tops:
        make_random(top, chance)
    format, scan, build = chance.choice(FORMATS), [], []
    for words, options, one_in in (
        (scan, ["--all-root", "--owner 7:8"], 3), (scan, ["--exclude *a*", "--exclude b*", "--exclude *.*"], 3),
        (scan, ["--align 4K", "--align 64", "--align *a*=8K"], 2), (scan, ["--volume boot"], 4),
        (build, ["--max-size 2K", "--max-size 1G"], 5), (build, ["--xip"], 5),
    ):  # fmt: skip
        words += chance.choice(options).split() if chance.randrange(one_in) == 0 else []
    put("one", b"old")
    put("two", b"old")
    wanted = romtool("scan", "--all", "--for", format, *scan, "-o", "manifest", "--", *tops)
    is_scanned = wanted[2] == 0
    if is_scanned:
        wanted = romtool("build", "--no-follow", *build, format, "manifest", "two")
    assert romtool("pack", "--quiet", *scan, *build, "--manifest", "kept", "--", format, *tops, "one") == wanted
    assert bytes_in("one") == bytes_in("two")
    assert not is_scanned or bytes_in("kept") == bytes_in("manifest")


@pytest.fixture
def app(here):
    """The directory `app` with two files and a link."""
    write_below(".", {"app/etc/motd": "hello\n", "app/large": "\0" * 5000})
    os.symlink("etc", "app/link")


def test_table(romtool, app):
    """Says in a table what is in the image."""
    answer = romtool.line("pack --all-root --align 4096 --max-size 64K cramfs app out")
    length = len(bytes_in("out"))
    # the superblock; inodes with names of 4 and 8 bytes; the link's text; pointers of 2 blocks, 1 and 1
    tables = 76 + 3 * (12 + 4) + (12 + 8) + len("etc") + 4 * (2 + 1 + 1)
    table = [(length, "the image"), (5006, "contents of files"), (tables, "names and tables"), (length - 5006 - tables, "padding")]
    table += [(65536 - length, "left of 65536")]
    lines = ["romtool: out: cramfs, 2 files, 2 directories, 1 symbolic link", *(f"{n:>14}  {what}" for n, what in table)]
    lines += ["the largest files:", f"{5000:>14}  /large", f"{6:>14}  /etc/motd", ""]
    assert answer == (b"ok %d\n" % length, "\n".join(lines).encode(), 0)
    assert romtool.line("check out")[2] == 0


def test_masks(romtool, here):
    """Two copies of a directory that were made under other umasks have two images, until README's command makes their modes alike."""
    alike = re.search(r"`(chmod -R \S+) app`", repository_text("README.md"))[1]
    images = []
    for mask in ("022", "002"):
        lines = f"umask {mask}; mkdir -p {mask}/etc; echo hello >{mask}/etc/motd; echo '#!/bin/sh' >{mask}/init; chmod +x {mask}/init"
        subprocess.run(["sh", "-ec", lines], check=True)
        for name, change in ((mask + ".before", "true"), (mask + ".after", f"{alike} {mask}")):
            subprocess.run(change, shell=True, check=True)
            assert romtool("pack", "--quiet", "--all-root", "cramfs", mask, name)[2] == 0
            images.append(bytes_in(name))
    assert images[0] != images[2] and images[1] == images[3]
    modes = [line.split()[1:3] for line in romtool("list", "022.after")[0].decode().splitlines()]
    assert modes == [["d", "0755"], ["d", "0755"], ["f", "0644"], ["f", "0755"]]


def test_words(romtool, app):
    """Explains what is refused without `--explain`, unless there is `--quiet`."""
    out, err, status = romtool.line("pack --size 1.5M cramfs app out")
    assert (out, err.splitlines()[0], b"N is a number" in err, status) == (b"", b"usage", True, 2)
    assert romtool.line("pack --size 1.5M --quiet cramfs app out") == refuses("usage")
    assert b"more than 1024" in romtool.line("pack --max-size 1K cramfs app out")[1]
    out, *how = romtool.line("pack --quiet --max-size 1K cramfs app out")
    assert (out[:5], *how) == (b"size ", b"", 1)


def test_words_in_quiet(romtool, app):
    """Says with `--quiet` and `--explain` what is wrong in words, and nothing else."""
    out, err, status = romtool.line("pack --quiet --explain --size 1.5M cramfs app out")
    assert (out, err[:13], b"N is a number" in err, status) == (b"", b"usage\nerror: ", True, 2)
    assert romtool.line("pack --quiet --explain --all-root romfs app out")[1:] == (b"", 0)


UNALIGNED = "Linux copies a program whose first byte is not at the front of a page; give it an ALIGN of 4096 (--align 4096)\n"
SHARED = "programs with a last page that other data share, which is copied: 1\n"


@pytest.mark.parametrize("files", [{"script": b"#!/bin/sh"}, {}, {"a": PROGRAM}, {"a": PROGRAM, "b": PROGRAM + b"b", "c": b"c"}])
@pytest.mark.parametrize("option", [" --xip", ""])
def test_programs(romtool, here, files, option):
    """Says which programs are executed in place, with the pages of `xip`. Without files the table has no largest ones."""
    os.mkdir("top")
    for name, held in files.items():
        put(f"top/{name}", held, 0o755)
    count = len([it for it in files.values() if it.startswith(b"\x7fELF")])
    _, err, status = romtool.line(f"pack --align 4096{option} cramfs top out")
    _, _, in_place, copied, _ = romtool.line("xip out")[0].splitlines()[-1].decode().split()
    line = f"programs executed in place: {count} of {count}; pages in place: {in_place}, copied: {copied}\n" if count else NONE
    assert (line in err.decode(), b"the largest files:" in err, status) == (count > 0 or option != "", bool(files), 0)
    assert (SHARED in err.decode()) == any(it.startswith(b"shared") for it in romtool.line("xip out")[0].splitlines())


def test_programs_that_are_copied(romtool, here):
    """Says which programs are not executed in place, and what helps; with `--xip` the first of them refuses the image."""
    write_below("top", {"b": ""})
    put("top/a", PROGRAM, 0o755)
    _, err, status = romtool.line("pack cramfs top out")
    assert (f"not in place: /a: {UNALIGNED}" in err.decode(), b"programs executed in place: 0 of 1; " in err, status) == (True, True, 0)
    out, err, status = romtool.line("pack --xip cramfs top out")
    assert (out.split(b" ")[2:], status) == ([b"unaligned", b"/a\n"], 1)
    assert f"romtool: /a: {UNALIGNED}" in err.decode()
    assert b"use cramfs\n" in romtool.line("pack --align 4096 romfs top out")[1]


@pytest.mark.parametrize(("words", "told"), [
    ("cramfs small", "usage"),
    ("ext4 small there", "usage"),
    ("--align 5 cramfs small there", "usage"),
    ("cramfs missing there", "file missing"),
    ("cramfs small small/image", "file small/image"),
    ("cramfs small small/a", "file small/a"),
    ("--depfile small/rule cramfs small there", "file small/rule"),
    ("--manifest small/m cramfs small there", "file small/m"),
    ("--manifest there cramfs small there", "file there"),
    ("--manifest ./same cramfs small same", "file same"),
    ("--manifest same --depfile same cramfs small there", "file same"),
    ("--depfile there cramfs small there", "file there"),
    ("--strict --owner 5:6 romfs small there", "unfit 2 2 1"),
])  # fmt: skip
def test_refused(romtool, here, words, told):
    """Leaves OUT as it was if something is refused."""
    write_below(".", {"small/a": "a", "there": "old"})
    os.chmod("small/a", 0o600)
    assert romtool.line(f"pack --quiet {words}") == refuses(told)
    assert (bytes_in("there"), os.listdir("small")) == (b"old", ["a"])
    assert sorted(os.listdir(".")) == ["small", "there"]


@pytest.mark.parametrize(("words", "name", "is_told"), [
    ("cramfs out tree", "out", True), ("cramfs none tree", "none", True), ("cramfs tree none tree", "none", True),
    ("cramfs tree none out", "none", False), ("cramfs tree tree", "tree", False),
])  # fmt: skip
def test_order_of_words(romtool, here, words, name, is_told):
    """Says that OUT is the last word, if that is a directory and another word is none."""
    write_below(".", {"tree/a": "a", "out": "old"})
    out, err, status = romtool.line(f"pack {words}")
    # an owner that does not fit into cramfs is told before
    assert (out, f"file {name}" in err.decode().splitlines(), status) == (b"", True, 3)
    assert (b"romtool: tree: it is a directory; OUT, the file of the image, is the last word\n" in err) == is_told
    assert (bytes_in("out"), os.listdir("tree")) == (b"old", ["a"])


def test_whole_blocks(romtool, here):
    """Names each file that ends with a whole block by its path."""
    write_below("top", {"a": "", "b": "x"})
    for name in "cde":
        put(f"top/{name}", bytes(4096))
    err = romtool.line("pack cramfs top out")[1].decode()
    assert "romtool: /c: warning: LastBlock (1): " in err and "romtool: /d: LastBlock, too\nromtool: /e: LastBlock, too\n" in err


def test_excluded_out(romtool, here):
    """Packs into a file of the directory that is left out."""
    write_below(".", {"small/a": "a"})
    assert romtool.line("pack --quiet --exclude /x romfs small small/x")[2] == 0


@pytest.mark.needs("make")
@pytest.mark.parametrize(("cwd", "tree", "up"), [(".", "tree", ""), ("tree", ".", "../")], ids=["beside", "inside"])
def test_make(romtool, here, cwd, tree, up):
    """Lets make pack once more exactly if a file was added, changed or removed, of a directory by its name and by a dot."""
    write_below(".", {"tree/sub/a": "a", "rules": RULES.format(program=romtool.path, tree=tree, up=up)})
    count = 0
    for change, is_packed in (
        (lambda: None, True), (lambda: None, False), (lambda: put("tree/sub/b", b"b"), True), (lambda: put("tree/sub/b", b"bb"), True),
        (lambda: os.remove("tree/sub/b"), True), (lambda: None, False), (lambda: shutil.rmtree("tree/sub"), True),
    ):  # fmt: skip
        for folder, _, names in os.walk("tree"):
            for it in folder, *(f"{folder}/{name}" for name in names):
                os.utime(it, (10**9, 10**9))
        if os.path.exists("image"):
            os.utime("image", (10**9 + 1, 10**9 + 1))
        change()
        ran = subprocess.run(["make", "-s", "-f", here / "rules"], cwd=cwd, capture_output=True, timeout=SECONDS)
        count += is_packed
        assert (ran.returncode, ran.stderr, bytes_in("log").count(b"packed")) == (0, b"", count)


@pytest.mark.parametrize(("name", "value", "answer"), [
    ("FAKEROOTKEY", "1", (b"file faked\n", 3)), ("FAKED_MODE", "x", (b"file faked\n", 3)), ("PSEUDO_PREFIX", "/x", (b"file faked\n", 3)),
    ("HOME", "/", (b"", 0)),
])  # fmt: skip
def test_faked(romtool, here, name, value, answer):
    """Refuses a scan if fakeroot or pseudo is in the environment and not in the program."""
    os.mkdir("faked")
    for line in "scan --all faked", "pack --quiet romfs faked image":
        assert romtool.line(line, env={**os.environ, name: value})[1:] == answer


def test_disabled_pseudo(romtool, here):
    """Scans if pseudo is disabled."""
    os.mkdir("faked")
    assert romtool.line("scan --all faked", env={**os.environ, "PSEUDO_PREFIX": "/x", "PSEUDO_DISABLED": "1"})[2] == 0


@pytest.mark.needs("fakeroot")
def test_fakeroot(romtool, here):
    """Shows under fakeroot what fakeroot does."""
    os.mkdir("under")
    script = 'mknod under/null c 1 3 && chown 5:6 under && "$0" scan --all under'
    ran = subprocess.run(["fakeroot", "sh", "-c", script, romtool.path], capture_output=True, timeout=SECONDS)
    assert (ran.returncode, ran.stdout) == (0, b"dir / 0755 5 6\nnod /null 0644 0 0 c 1 3\n")
