"""Scans directories with the options of `scan --all` that say what a manifest has, and compares each manifest with what scans.py computes.

What `--exclude` leaves out is also compared with GNU tar. What is refused is named, and leaves no file: a kind that differs, a line of
devices, what `--strict` refuses, a full disk, a directory that cannot be written.
"""

import contextlib
import io
import os
import select
import stat
import subprocess
import tarfile
import time

import pytest
from files import bytes_in, put, text_of, write_below
from harness import SECONDS
from romtool import FORMATS, escaped, prints, refuses
from scans import Told, elf, make_random, scanned
from users import IS_ROOT, NOBODY

OWNERS = [["--all-root"], ["--owner", "1:2"], ["--owner", "70000:300"], ["--owner", "4294967295:4294967295"]]
DEVICES = """# a table

nod /dev/null 0666 1 2 c 1 3
dir /dev 0711 3 4
nod /tmp/%41 0600 0 0 b 8 1
dir /tmp 1777 0 0
slink /log 0777 0 0 tmp/l%20g
sock /dev/s 0600 0 0
pipe /dev/p 0600 0 0
dir / 0700 5 6"""
MAKEDEVS = """# <name>\t<type> <mode> <uid> <gid> <major> <minor> <start> <inc> <count>

/dev/hda\tb\t640\t0\t6\t3\t1\t1\t1\t3
/dev/tty\tc 666 0 0 5 0 0 0 -
/dev/log p 600 1 1 - - - - -
/etc r -1 7 8 - - - - -
/etc/shadow f 600 root root - - - - -
/missing F 600 0 0 - - - - -
/var/www/data d 750 33 33
/dev d 711 0 0 - - - - -
  /init f 755 0 0
/dev/ram b 640 0 6 1 4 2 3 4
"""
ROWS = """/srv/new/ d 755 1 1
/srv3 d 755 5 6
/srv/one c 600 1 1 5 6 7 1 1
/srv/ r -1 3 4
/srv/late p 600 5 5
/srv/link F 600 9 9
"""
# what is wrong in a line of `--devices`, behind a directory /one and a FIFO /two
BAD_DEVICES = {
    "1 BadWord": [
        "file /x 0644 0 0 4 x", "hard /x /dev/null", "same /x 0644 0 0 /dev/null", "volume x", "nod /x 0600 0 0 q 1 1", "dir /x 0755 0",
        "x",
    ],
    "2 BadNumber": ["nod /x 0900 0 0 c 1 1"],
    "3 BadPath": ["nod x 0600 0 0 c 1 1", "pipe / 0600 0 0", f"pipe /{'a/' * 3000}a 0600 0 0", "pipe /%FF 0600 0 0"],
    "4 NoParent": ["nod /x/y 0600 0 0 c 1 1", "nod /dev/null/y 0600 0 0 c 1 1", "pipe /two/x 0600 0 0"],
    "5 Exists": ["dir /dev/null 0755 0 0", "pipe /dev 0600 0 0"],
}  # fmt: skip
# what is wrong in an option `--device`, behind that of /dev/null
BAD_OPTIONS = {
    "usage": [
        "/x c 1 1", "/x c 1 1 0600 0", "/x  c 1 0600", " c 1 1 0600", "/x c 1 1 ", "/x c 1 1 0600 ", "/x c 1 1 0600\n", "/x\tc 1 1 0600",
        "",
    ],
    "manifest 2 1 BadWord": ["/x q 1 1 0600", "/x C 1 1 0600", "/x p 1 1 0600"],
    "manifest 2 2 BadNumber": ["/x c 1 1 600", "/x c 01 1 0600", "/x b 1 4294967296 0600"],
    "manifest 2 3 BadPath": ["x c 1 1 0600", "/ c 1 1 0600", "/%FF c 1 1 0600"],
    "manifest 2 4 NoParent": ["/x/y c 1 1 0600", "/dev/null/y c 1 1 0600"],
    "manifest 2 5 Exists": ["/dev/null b 1 1 0600", "/dev c 1 1 0600"],
}  # fmt: skip
BAD_ROWS = {
    "1 BadWord": ["/x q 644 0 0", "/x", "/x c", "/x p 600 0 0 1 1 1 1 1 1", "|xattr cap_net_raw+ep"],
    "2 BadNumber": [
        "/x c 8 0 0 1 1", "/x c 10000 0 0 1 1", "/x c 600 www 0 1 1", "/x c 600 0 -1 1 1", "/x c 600 0 0 1 1 0 1 65537",
        "/x c -1 0 0 1 1", "/x c 600 0 0 1048576 1", "/x c 600 0 0 1 1 1048576",
    ],
    "3 BadPath": ["x c 600 0 0 1 1", f"{'/a' * 65} d 755 0 0"],
    "4 NoParent": ["/none/x c 600 0 0 1 1"],
    "5 Exists": ["/init d 755 0 0"],
    "7 BadTarget": ["/none f 600 0 0", "/none r 600 0 0", "/etc f 600 0 0"],
}  # fmt: skip
# whole tables, and the line that is refused: what each line is by itself is looked at first, and devices are counted before they are made
BAD_TABLES = {
    "/none f 600 0 0\n/x q 600 0 0\n": "2 1 BadWord",
    "/x c 600 0 0 1 1\n/x/y d 755 0 0\n": "2 4 NoParent",
    "/x/y d 755 0 0\n/x c 600 0 0 1 1\n": "2 5 Exists",
    "/x/y d 755 0 0\n/x/z d 755 0 0\n/x/y/z p 600 0 0\n/x/y/z d 600 0 0\n": "4 5 Exists",
    "/x c 600 0 0 1 1 0 1 65536\n" * 16 + "/y p 600 0 0\n": "17 2 BadNumber",
    "/x c 600 0 0 1 1 0 1 65536\n" * 17 + "/y q 600 0 0\n": "17 2 BadNumber",
}
LARGE, OTHER = "ab" * 40000, "ab" * 39999 + "ac"
TREE = {
    "small/a": "a", "there": "old", "table/dev/null": "", "devices": DEVICES, "twice": "pipe /x 0600 0 0\n\npipe /x 0600 0 0\n",
    "modes/bin/a": "a",
    "mode-lines": "mode /b 4750 1 2\nmode / 0700 3 4\ndir /bin 0711 5 6\npipe /p 0600 0 0\nmode /p 0640 7 8\n",
    "second-mode": "mode /bin/a 4711 7 8\n",
    "both-modes": "mode /bin/a 0700 1 1\nmode /b 0710 2 2\nmode /bin/a 0711 3 3\n",
    "shared-rows": "/b f 711 7 8\n/bin r -1 9 9\n", "second-row": "/bin/a f 4711 7 8\n", "lower/x/y": "", "upper/x": "",
    "bad-mode": "mode /b 0750 1 2\nmode /none 0750 1 2\n", "folder-list": "dir /bin 0711 5 6\ndir /new 0755 0 0\n",
    "root/etc/passwd": "", "root/etc/shadow": "", "root/init": "", "makedevs": MAKEDEVS,
    "rows/srv/a": "", "rows/srv2/b": "", "row-lines": "dir /srv 0700 1 1\nmode /srv 0711 2 2\nmode /srv/one 0640 6 6\n",
    "row-table": ROWS,
    "equal/a": LARGE, "equal/b": LARGE, "equal/c": OTHER, "equal/d": LARGE, "equal/e": "", "equal/f": "", "equal/h": OTHER,
    "list": "# nothing\n", "no-table": "# nothing\n",
    "strict/a": "", "strict/b": "", "strict/c": "", "strict/d": "", "strict/e": "",
}  # fmt: skip
MODES = {
    "there": 0o640,
    "modes/bin/a": 0o755,
    "equal/d": 0o600,
    "strict/b": 0o600,
    "strict/c": 0o755,
    "strict/d": 0o4755,
    "strict/e": 0o640,
}
LINKS = {"modes/b": "modes/bin/a", "equal/g": "equal/b", "other": "equal/h"}
READ = "--dedupe --all-root --device-table no-table --devices list"  # words by which `pack` reads more files than its sources
# what a scan of these words prints
PRINTED = {
    "--owner 9:9 --devices devices table": [
        "dir / 0700 5 6", "dir /dev 0711 3 4", "nod /dev/null 0666 1 2 c 1 3", "pipe /dev/p 0600 0 0", "sock /dev/s 0600 0 0",
        "slink /log 0777 0 0 tmp/l%20g", "dir /tmp 1777 0 0", "nod /tmp/A 0600 0 0 b 8 1",
    ],
    "--all-root --devices mode-lines modes": [
        "dir / 0700 3 4", "file /b 4750 1 2 4 modes/b", "dir /bin 0711 5 6", "hard /bin/a /b", "pipe /p 0640 7 8",
    ],
    # all names of a file have the attributes that were set last, by whichever of them
    "--all-root --devices second-mode modes": [
        "dir / 0755 0 0", "file /b 4711 7 8 4 modes/b", "dir /bin 0755 0 0", "hard /bin/a /b",
    ],
    "--all-root --for cramfs --devices second-mode modes": [
        "dir / 0755 0 0", "file /b 4711 7 8 4 modes/b", "dir /bin 0755 0 0", "same /bin/a 4711 7 8 /b",
    ],
    "--all-root --for cramfs --devices both-modes modes": [
        "dir / 0755 0 0", "file /b 0711 3 3 4 modes/b", "dir /bin 0755 0 0", "same /bin/a 0711 3 3 /b",
    ],
    "--all-root --device-table second-row modes": [
        "dir / 0755 0 0", "file /b 4711 7 8 4 modes/b", "dir /bin 0755 0 0", "hard /bin/a /b",
    ],
    # a mode that stays is the one that was set before by another name
    "--all-root --device-table shared-rows modes": [
        "dir / 0755 0 0", "file /b 0711 9 9 4 modes/b", "dir /bin 0755 9 9", "hard /bin/a /b",
    ],
    # the numbers of several devices rise by the increment, and those in their names by one
    "--owner 9:9 --device-table makedevs root": [
        "dir / 0755 9 9", "dir /dev 0711 0 0", "nod /dev/hda1 0640 0 6 b 3 1", "nod /dev/hda2 0640 0 6 b 3 2",
        "nod /dev/hda3 0640 0 6 b 3 3", "pipe /dev/log 0600 1 1", "nod /dev/ram2 0640 0 6 b 1 4", "nod /dev/ram3 0640 0 6 b 1 7",
        "nod /dev/ram4 0640 0 6 b 1 10", "nod /dev/ram5 0640 0 6 b 1 13", "nod /dev/tty 0666 0 0 c 5 0", "dir /etc 0755 7 8",
        "file /etc/passwd 0644 7 8 4 root/etc/passwd", "file /etc/shadow 0600 0 0 4 root/etc/shadow",
        "file /init 0755 0 0 4 root/init", "dir /var 0755 0 0", "dir /var/www 0755 0 0", "dir /var/www/data 0750 33 33",
    ],
    # each row acts on what was found and on what the rows before it made, except on symbolic links
    "--all-root --device-table row-table --devices row-lines rows": [
        "dir / 0755 0 0", "dir /srv 0711 2 2", "file /srv/a 0644 3 4 4 rows/srv/a", "pipe /srv/late 0600 5 5",
        "slink /srv/link 0777 0 0 a", "dir /srv/new 0755 3 4", "nod /srv/one 0640 6 6 c 5 6", "dir /srv2 0755 0 0",
        "file /srv2/b 0644 0 0 4 rows/srv2/b", "dir /srv3 0755 5 6",
    ],
    # files with equal bytes and attributes share contents, and no others
    "--all-root --dedupe --for cramfs --align b=8 equal": [
        "dir / 0755 0 0", "file /a 0644 0 0 8 equal/a", "same /b 0644 0 0 /a", "file /c 0644 0 0 4 equal/c", "file /d 0600 0 0 4 equal/d",
        "file /e 0644 0 0 4 equal/e", "file /f 0644 0 0 4 equal/f", "same /g 0644 0 0 /a", "same /h 0644 0 0 /c",
    ],
}  # fmt: skip
# commands that are refused, and the lines that say so
REFUSED = {
    "scan --all -o /dev/full small": "file /dev/full",
    "scan --all -o no/x small": "file no/x",
    "scan --all -o small/a small": "file small/a",
    "scan --all -o small/new small": "file small/new",
    "scan --all -o small/new small over": "file small/new",
    "scan --all -o over/new small over": "file over/new",
    "scan --all -o there missing": "file missing",
    "scan --all -o devices --devices devices table": "file devices",
    f"scan --all --for cramfs {READ} --exclude none -o equal/h equal": "file equal/h",
    f"scan --all --for cramfs {READ} --exclude none -o other equal": "file other",
    f"pack --quiet {READ} cramfs equal no-table": "file no-table",
    f"pack --quiet {READ} cramfs equal list": "file list",
    f"pack --quiet {READ} cramfs equal equal/b": "file equal/b",
    "scan --all lower upper": "file upper/x",
    "scan --all upper lower": "file lower/x",
    "scan --all --exclude none lower lower upper": "file upper/x",
    "pack --quiet romfs lower upper there": "file upper/x",
    "scan --all --devices no table": "file no",
    "scan --all --devices twice table": "manifest 3 5 Exists",
    "scan --all --all-root --devices bad-mode modes": "manifest 2 7 BadTarget",
    "scan --all --owner 9:9 --device-table none root": "file none",
    "scan --all --all-root --dedupe --for romfs equal": "usage",
    "scan --all --all-root --dedupe equal": "usage",
    "scan --all --strict --owner 0:300 strict": "usage",
    "scan --all --strict --owner 0:300 --for cramfs strict": "unfit 0 6 0",
    "scan --all --strict --owner 5:6 --for romfs strict": "unfit 6 6 3",
    "scan --all --strict --owner 5:6 --for romfs -o none strict": "unfit 6 6 3",
    "scan --all --exclude=a[b small": "usage",
    "scan --all --exclude=a\\ small": "usage",
    "scan --all --exclude=[[:alpha:]] small": "usage",
    "scan --all --align=[=8 small": "usage",
    "scan --all --exclude=[! small": "usage",
    "scan --all --exclude=[] small": "usage",
    f"scan --all --volume {'v' * 256} small": "usage",
    "scan --all --align 5 small": "usage",
    "scan --all --align 128K small": "usage",
}


@pytest.fixture
def tree(here):
    """The current directory, with the files of TREE, their modes and their further names, and three directories more."""
    write_below(".", TREE)
    for name, mode in MODES.items():
        os.chmod(name, mode)
    for name, of in LINKS.items():
        os.link(of, name)
    os.symlink("a", "rows/srv/link")
    os.mkdir("root/dev")
    os.mkdir("over")


def contents():
    """Returns the bytes of each file in the current directory, and below it."""
    told = Told(".")
    return {path: bytes_in(path[1:]) if told.kind[path] == "f" else b"" for path in told.paths}


@pytest.mark.parametrize("words", PRINTED)
def test_printed(romtool, tree, words):
    """Compares whole manifests."""
    assert romtool.line(f"scan --all {words}") == prints(*PRINTED[words])


@pytest.mark.parametrize("words", REFUSED, ids=lambda it: it.replace(READ, "..")[:60])
def test_refused(romtool, tree, words):
    """Compares how commands are refused, which leave all files as they were."""
    before = contents()
    assert romtool.line(words) == refuses(REFUSED[words])
    assert contents() == before


def test_devices_in_options(romtool, tree):
    """Lays the devices of `--device` over those of a list, which are laid over those of a table; their owners are root's."""
    words = "--owner 9:9 --devices devices table"
    lines = [it.replace("pipe /dev/p 0600 0 0", "nod /dev/p 0640 0 0 b 8 1") for it in PRINTED[words]]
    lines.insert(lines.index("nod /tmp/A 0600 0 0 b 8 1"), "nod /tmp/%20 0600 0 0 c 255 255")
    put("pipe-rows", b"/dev/p p 600 1 1\n/dev/s p 600 1 1\n")
    words = ["--device", "/tmp/%20 c 255 255 0600", "--device-table", "pipe-rows", "--device=/dev/p b 8 1 0640", *words.split(" ")]
    assert romtool("scan", "--all", *words) == prints(*lines)
    assert romtool("pack", "--quiet", "--manifest", "kept", *words[:-1], "cramfs", words[-1], "image")[1:] == (b"", 0)
    assert text_of("kept").splitlines() == lines
    shown = [it.split(" ", 1)[1] for it in romtool.line("list image")[0].decode().splitlines()]
    assert {"b 0640 0 0 0 8 1 /dev/p", "c 0600 0 0 0 255 255 /tmp/%20"} <= set(shown)


def rows(told):
    """Returns the parameters of a test of bad lines: each line, and what is wrong in it."""
    found = [pytest.param(row, wrong, id=row[:30]) for wrong, rows_of in told.items() for row in rows_of]
    return pytest.mark.parametrize(("row", "wrong"), found)


@rows(BAD_DEVICES)
def test_bad_devices(romtool, tree, row, wrong):
    """Names the first bad line of devices."""
    more = "also bad\n" if wrong < "4" else ""  # all lines are read before their paths are looked up
    put("bad", f"dir /one 0755 0 0\npipe /two 0600 0 0\n{row}\n{more}".encode())
    assert romtool.line("scan --all --devices bad table") == refuses(f"manifest 3 {wrong}")


@rows(BAD_OPTIONS)
def test_bad_options(romtool, tree, row, wrong):
    """Refuses words that are no device as usage, before anything is scanned, and otherwise names the option by its number."""
    words = "scan", "--all", "--device", "/dev/null c 1 3 0666", "--device", row
    assert romtool(*words, "table") == refuses(wrong)
    assert romtool(*words, "missing") == refuses("usage" if wrong == "usage" else "file missing")


@rows(BAD_ROWS)
def test_bad_rows(romtool, tree, row, wrong):
    """Names the first bad row of a table of makedevs, as Buildroot's manual describes it."""
    put("bad", f"# a comment\n{row}\n".encode())
    assert romtool.line("scan --all --owner 9:9 --device-table bad root") == refuses(f"manifest 2 {wrong}")


@pytest.mark.parametrize("table", BAD_TABLES, ids=lambda it: it[:40].replace("\n", " "))
def test_bad_tables(romtool, tree, table):
    """Names the line of a table that is refused, if it has several lines."""
    put("bad", table.encode())
    assert romtool.line("scan --all --owner 9:9 --device-table bad root") == refuses("manifest " + BAD_TABLES[table])


def random_pattern(chance, paths):
    """Returns a random pattern, mostly one that is like one of these paths."""
    out = ""
    for c in chance.choice(paths).decode()[1:] if paths else "a":
        kind = chance.randint(0, 11)
        if kind == 0:
            out += "*"
        elif kind == 1:
            out += "?"
        elif kind == 2:
            out += "[%s%s]" % (chance.choice(["", "!", "^"]), chance.choice(["a-c", "b", "x-z0-9", "]a", "a-", "-."]))
        elif kind == 3:
            out += "*" * chance.randint(1, 3)
            break
        else:
            out += "\\" + c if c in "*?[]\\" or chance.randint(0, 9) == 0 else c
    return out or "*"


def kinds_agree(tops):
    """Returns whether each path is a directory everywhere or nowhere."""
    found = {(path, it.kind[path] == "d") for it in map(Told, tops) for path in it.paths}
    return len(found) == len({path for path, _ in found})


@pytest.mark.seeds(300)
def test_options(romtool, here, chance):
    """Scans random directories with random options."""
    tops = [f"top{number}" for number in range(chance.choice([1, 1, 1, 2, 3]))]
    for top in tops:
        make_random(top, chance)
    if not kinds_agree(tops):
        out, err, status = romtool("scan", "--all", *tops)
        assert (out, err[:5], status) == (b"", b"file ", 3)
        tops = tops[:1]
    paths, words = Told(*tops).paths[1:], ["--all", *chance.choice([[]] * 8 + OWNERS)]
    words += [f"--exclude={random_pattern(chance, paths)}" for _ in range(chance.choice([0, 0, 1, 3]))]
    for _ in range(chance.choice([0, 0, 1, 3])):
        words.append(f"--align={random_pattern(chance, paths)}={chance.choice([4, 8, 64, 4096, 65536])}")
    words += chance.choice([[], ["--align", "4096"]])
    words += chance.choice([[], [], ["--volume", "boot"], ["--volume", "a b\u00e9"]])
    words += chance.choice([[], *(["--for", format] for format in FORMATS)])
    wanted = scanned(*words, "--", *tops)
    if chance.choice([True, False]):
        assert romtool("scan", *words, "--", *tops) == (wanted, b"", 0)
    else:
        assert romtool("scan", *words, "-o", "manifest", "--", *tops) == prints()
        assert bytes_in("manifest") == wanted


@pytest.mark.needs("tar")
@pytest.mark.seeds(300)
def test_tar(romtool, here, chance):
    """Compares what `--exclude` leaves out with what GNU tar leaves out."""
    make_random("top", chance)
    paths = Told("top").paths[1:]
    patterns = [random_pattern(chance, paths) for _ in range(chance.choice([1, 2]))]
    if not paths or not all(it.strip("/") for it in patterns):
        return
    excludes = [f"--exclude={it}" for it in patterns]
    words = ["tar", "--anchored", *excludes, "-C", "top", "-cf", "-", "--", *sorted(os.listdir("top"))]
    packed = subprocess.run(words, capture_output=True, timeout=SECONDS, env={**os.environ, "LC_ALL": "C.UTF-8"})
    assert packed.returncode <= 1, packed.stderr
    with tarfile.open(fileobj=io.BytesIO(packed.stdout)) as archive:
        theirs = {b"/" + os.fsencode(it) for it in archive.getnames()}
    ours = romtool("scan", "--all", *excludes, "--", "top")[0].decode("ascii").splitlines()
    assert [line.split(" ")[1] for line in ours] == ["/", *(escaped(path) for path in paths if path in theirs)]


@pytest.mark.parametrize("align", ["4", "4096"])
def test_libraries(romtool, here, align):
    """Aligns ELF files of each kind and with each kind of segment, with x bits and without."""
    files = {f"type-{kind}-{data}": elf(kind, data) for kind in range(6) for data in range(4)}
    files |= {f"flags-{flags}": elf(2, flags=flags) for flags in range(8)}
    files |= {"short": elf(3)[:83], "exact": elf(3, 1, 84), "flat": b"bFLT", "none": b"", "no elf": b"\x7fELG" + elf(3)[4:]}
    os.makedirs("top/lib")
    for name, held in files.items():
        put(f"top/lib/{name}", held)
    put("top/lib/so.x", elf(3), 0o755)
    put("top/lib/script", b"#!/bin/sh\n", 0o755)
    words = "--all", "--align", align, "top"
    assert romtool("scan", *words) == (scanned(*words), b"", 0)


def test_owners(romtool, tree):
    """Has the owner that is asked for, and otherwise that of each file, of which cramfs holds numbers up to 65,535 and 255."""
    own = (7, 8) if IS_ROOT else (os.getuid(), os.getgid())
    for name in ("small", "small/a") if IS_ROOT else ():
        os.chown(name, *own)
    for words, (user, group) in ("", own), ("--all-root ", (0, 0)), ("--owner 1:2 ", (1, 2)):
        told = [f"{user} {group}", f"{min(user, 65535)} {min(group, 255)}"]
        plain, fitted = ([f"dir / 0755 {owner}", f"file /a 0644 {owner} 4 small/a"] for owner in told)
        assert romtool.line(f"scan --all {words}small") == prints(*plain)
        assert romtool.line(f"pack --quiet {words}--manifest kept cramfs small image") == prints("ok 4096")
        assert text_of("kept").splitlines() == fitted


def test_output(romtool, tree):
    """Replaces the file of `-o`, whose mode stays."""
    names = os.listdir(".")
    assert romtool.line("scan --all -o there small") == prints()
    assert (bytes_in("there"), stat.S_IMODE(os.stat("there").st_mode)) == (scanned("--all", "small"), 0o640)
    assert romtool.line("scan --all -o over/new --exclude /new small over") == prints()
    assert (sorted(os.listdir(".")), os.listdir("over")) == (sorted(names), ["new"])


@pytest.mark.needs("root")
def test_ordinary_user(romtool, tree):
    """Writes nothing into another one's directory."""
    os.chmod(".", 0o755)
    try:
        answer = romtool.line("scan --all -o over/out small", user=NOBODY, group=NOBODY, extra_groups=[])
    except PermissionError:
        pytest.skip("the program cannot be started as an ordinary user")
    assert (answer, os.listdir("over")) == (refuses("file over/out"), [])


@pytest.mark.needs("root")
def test_whiteout(romtool, tree):
    """Refuses the device of overlayfs that stands for a file that was removed."""
    os.mknod("over/removed", stat.S_IFCHR, 0)
    assert romtool.line("scan --all table over") == refuses("file over/removed")


def test_killed(romtool, here):
    """Leaves the old file if a scan is killed while it writes."""
    os.mkdir("many")
    for number in range(20000):
        put(f"many/file-number-{number:06}")
    put("kept", b"old")
    whole = scanned("--all", "many")
    for delay in 0.01, 0.03, 0.06, 0.1, 0.15, 0.2:
        with subprocess.Popen([romtool.path, "scan", "--all", "-o", "kept", "many"]) as run:
            with contextlib.suppress(subprocess.TimeoutExpired):
                run.wait(timeout=delay)
            run.kill()
        assert bytes_in("kept") in (b"old", whole)


def test_foreign_names(romtool, here):
    """Names all directories with names that are not UTF-8 in one run, except those that are left out."""
    write_below(".", {"top/b/x": "", "top/a/c/x": "", "top/d/x": ""})
    for name in b"b/\xff", b"b/\xfe", b"a/c/\xff":
        put(b"top/" + name)
    os.symlink(b"\xff", "top/a/link")
    assert romtool.line("scan --all top") == (b"", b"file top/a/c\nfile top/a/link\nfile top/b\n", 3)
    lines = "dir / 0755 0 0", "dir /a 0755 0 0", "dir /d 0755 0 0", "file /d/x 0644 0 0 4 top/d/x"
    assert romtool.line("scan --all --all-root --exclude=b --exclude=a/* top") == prints(*lines)


def test_many_stars(romtool, here):
    """Matches a pattern of many stars in little time."""
    os.makedirs(f"long/{'a' * 250}")
    started = time.monotonic()
    assert romtool("scan", "--all", f"--exclude={'*a' * 100}b", "long")[2] == 0
    assert time.monotonic() - started < 10


def rule():
    """Returns the words of the first rule in the file `rule`."""
    return text_of("rule").split("\n\n")[0].replace("\\\n", "").split()


def test_rule_of_scan(romtool, tree):
    """Names in the rule of `--depfile` what is scanned, and the file of devices, but no device of an option."""
    words = "scan --all --all-root --devices folder-list -o out --depfile rule modes --device"
    assert romtool(*words.split(" "), "/new/x c 1 1 0600") == prints()
    assert rule() == ["out:", "modes/b", "modes/bin/a", "folder-list", "modes", "modes/bin"]


def test_rule_of_pack(romtool, tree):
    """Names in the rule of `--depfile` all that decides what an image has."""
    assert romtool.line(f"pack --quiet {READ} --depfile rule cramfs equal rows image")[1:] == (b"", 0)
    files = [f"equal/{name}" for name in "abcdefgh"]
    assert sorted(rule()[1:]) == sorted([*files, "equal", "list", "no-table", "rows", "rows/srv", "rows/srv/a", "rows/srv2", "rows/srv2/b"])


def test_bytes_saved(romtool, tree):
    """Makes a smaller image of equal files by `--dedupe`."""
    for more, out in (" --dedupe", "shared"), ("", "plain"):
        assert romtool.line(f"pack --quiet --strict{more} --all-root cramfs equal {out}")[1:] == (b"", 0)
    assert os.path.getsize("plain") - os.path.getsize("shared") > 155000


@pytest.mark.parametrize("name", ["equal/h", "no-table", "list"])
def test_changed(romtool, tree, name):
    """Reports a file that changes after it was read, while the image is written into a pipe."""
    os.mkfifo("pipe")
    words = [romtool.path, *f"pack --quiet {READ} cramfs equal pipe".split()]
    # opened before: a program that ends early would never open it
    reading = os.open("pipe", os.O_RDONLY | os.O_NONBLOCK)
    with subprocess.Popen(words, stdout=subprocess.PIPE, stderr=subprocess.PIPE) as run:
        with open(reading, "rb") as pipe:
            assert select.select([pipe], [], [], SECONDS)[0]
            os.set_blocking(reading, True)
            pipe.read(1)
            with open(name, "ab") as file:
                file.write(b"#")
            pipe.read()
        assert (*run.communicate(timeout=SECONDS), run.returncode) == refuses("changed")


NO_MODES = "romfs stores only whether a file is executable; cramfs stores modes"
GIVEN = "cramfs stores at most 65535; give no more in --owner and in the file of devices"


def test_changes_in_words(romtool, tree):
    """Says what `--for` changes, of three paths at most, and applies it to lines `mode`, too."""
    assert romtool.line("scan --all --strict --all-root --for cramfs strict")[1:] == (b"", 0)
    for words, told in (
        ("--owner 0:0 --for romfs", f"the modes of 3 files changed: /b, /d, /e; {NO_MODES}\n"
         "romtool: strict: 2 names newly readable by all in romfs: /b, /e\n"),
        ("--owner 70000:0 --for cramfs", f"owner 70000 of 6 files became 65535: /, /a, /b and 3 more; {GIVEN}\n"),
    ):  # fmt: skip
        assert romtool.line(f"--explain scan --all {words} strict")[1].decode() == f"romtool: strict: {told}"
    fitted = romtool.line("scan --all --all-root --devices mode-lines --for romfs modes")[0]
    assert fitted.splitlines()[1] == b"file /b 0755 0 0 4 modes/b"


@pytest.mark.skipif(not IS_ROOT, reason="only root gives files away")
def test_changes_of_owners_in_words(romtool, here):
    """Says which owner or group became which, or the new one if the old ones differ, and what helps."""
    write_below("owned", {"a": "1", "b": "2", "c": "3", "d": "4", "e": "5"})
    for name, owner, group in ("a", 9, 1000), ("b", 0, 1000), ("c", 0, 255):
        os.chown(f"owned/{name}", owner, group)
    os.chmod("owned/d", 0o640)
    of_cramfs = "group 1000 of 2 files became 255: /a, /b; cramfs stores at most 255; --all-root or --owner sets another"
    all_root = "--all-root sets 0 for all files"
    of_romfs = [
        f"owner 9 of 1 file became 0: /a; romfs stores no owners; {all_root}",
        f"the groups of 3 files became 0: /a, /b, /c; romfs stores no groups; {all_root}",
        f"mode 0640 of 1 file became 0644: /d; {NO_MODES}",
        "1 name newly readable by all in romfs: /d",
    ]
    given = "group 300 of 6 files became 255: /, /a, /b and 3 more; cramfs stores at most 255; "
    given += "give no more in --owner and in the file of devices"
    for more, format, told in ("", "cramfs", [of_cramfs]), ("", "romfs", of_romfs), ("--owner 0:300 ", "cramfs", [given]):
        wanted = "".join(f"romtool: owned: {line}\n" for line in told).encode()
        assert romtool.line(f"--explain scan --all {more}--for {format} owned")[1:] == (wanted, 0)
        assert romtool.line(f"pack {more}{format} owned out")[1].startswith(wanted + b"romtool: out: ")
    refused = f"unfit 0 2 0\nromtool: owned: {of_cramfs.replace('became', 'would become')}\n"
    assert romtool.line("pack --strict cramfs owned out") == (b"", refused.encode(), 1)
    assert romtool.line("--explain scan --all --for cramfs --all-root owned")[1] == b""
