"""Builds with the options that prevent surprises, and compares what each refusal leaves.

Tested are the sizes of images, `--strict`, sources in a directory, rules for make (which make itself reads), manifests on standard
input, all faults of a manifest, and what a build foresees that Linux misreads: this has to be what `romtool linux` says of the images
of random manifests.
"""

import collections
import os
import random
import re
import subprocess

import pytest
from edges import HELLO, OK, fault, lay, refused, said
from files import bytes_in, put
from harness import SECONDS
from romtool import FORMATS, answer, escaped

pytestmark = pytest.mark.usefixtures("here")
NAMES = {
    1: "LastBlock", 2: "SharedTable", 3: "NameCut", 4: "NameTooLong", 5: "Volume", 6: "Device", 9: "RootMode", 10: "OtherPlace",
}  # fmt: skip
# what `--strict` refuses: the format, the manifest, the line after `strict`, and what a build warns of
STRICT = (
    ("romfs", "", "0 0 Empty", "Empty"),
    ("cramfs", "# nothing\n", "0 0 Empty", "Empty"),
    ("romfs", "volume x\n", "0 0 Empty", "Empty"),
    ("cramfs", "file /b 0644 0 0 4 byte\nfile /a 0644 0 0 4 block\n", "2 1 LastBlock", "LastBlock"),
    ("cramfs-be", "dir / 0700 0 0\nfile /a 0644 0 0 4 block\n", "1 9 RootMode", "RootMode"),
    ("cramfs", "file /b 0644 0 0 4 byte\nsame /c 0600 0 0 /b\n", "2 2 SharedTable", "SharedTable"),
    ("cramfs", "file /b 0644 0 0 4 byte\nsame /a 0600 0 0 /b\n", "1 2 SharedTable", "SharedTable"),
    ("cramfs", "file /b 0644 0 0 4 byte\nsame /c 0644 1 0 /b\n", "2 2 SharedTable", "SharedTable"),
    ("cramfs-be", "file /b 0644 0 0 4 byte\nsame /c 0644 0 0 /b\nsame /d 0644 0 1 /b\n", "3 2 SharedTable", "SharedTable"),
    # in a list, what is in /a comes before /a-b
    ("cramfs", "dir /a 0755 0 0\nfile /a/b 0644 0 0 4 byte\nsame /a-b 0600 0 0 /a/b\n", "3 2 SharedTable", "SharedTable"),
    ("cramfs", "dir /a 0755 0 0\nfile /a-b 0644 0 0 4 byte\nsame /a/b 0600 0 0 /a-b\n", "2 2 SharedTable", "SharedTable"),
    ("romfs", "pipe /x 0644 0 0\npipe /%s 0644 0 0\n" % ("n" * 128), "2 3 NameCut", "NameCut"),
    ("romfs", "pipe /%s 0644 0 0\n" % ("n" * 129), "1 4 NameTooLong", "NameTooLong"),
    ("romfs", "pipe /x 0644 0 0\nvolume %s\n" % ("n" * 144), "2 5 Volume", "Volume"),
    ("romfs", "nod /x 0600 0 0 b 4096 0\n", "1 6 Device", "Device"),
    ("romfs", "file /%s 0644 0 0 4 byte\nhard /x /%s\n" % ("n" * 144, "n" * 144), "1 4 NameTooLong", "OtherPlace"),
)
# names that make reads in a rule, and those that it does not
ODD = (
    "a", "a b", "a#b", "a$b", "a$$b", "a:b", "a%b", "a*b", "a?b", "a[b]c", "[", "a\\b", "a\\\\b", "a\\ b", "a\\#b", "a\\:b", "a'b",
    'a"b', "a~b", "a,b", "a@b", "a{b}", "a^b", "a+b", "\u00e9", "-a", "${x}", "a b  c", " a", "a-b_c.d", "a\\x2db", "a#*b", "a\\*b",
)  # fmt: skip
UNSAYABLE = (
    "a\nb", "a;b", "~a", "a\\", "a(b", "a(b)", "$(x)", "a ", "a\t", "a\tb", "\ra", "\va", "\fa", "a\r", "a|b", "a=b", "=a", "!=a", "a&",
    "a<b>", "a`b", "a!", "define", "export", ".PHONY", ".SUFFIXES", "a#*\\b", "a\\#?b", "[\\#a",
)  # fmt: skip
BAD = """\
dir /a 9999 0 0
file /a/b 0644 0 0 4 x
bogus
dir /c/d 0755 0 0
file /c/d/e 0644 0 0 3 x
same /q 0644 0 0 /a
same /q2 0644 0 0 /a/b
file /a/b 0644 0 0 4 x
volume v
volume w
hard /h /none
hard /h2 /q2
pipe x 0644 0 0
#

dir /%61 0755 0 0
slink /s 0777 0 0 %00
hard /i /a
file /a/%62%62 0644 0 0 4 x
same /k 0644 0 0 /a/bb
"""
BAD_LINES = [(1, 2), (3, 1), (4, 4), (5, 6), (6, 7), (8, 5), (10, 5), (11, 7), (13, 3), (16, 5), (17, 3), (18, 7)]


def files_of(names):
    """Returns the lines of files with these sources."""
    return "".join(f"file /{at} 0644 0 0 4 {it}\n" for at, it in enumerate(names))


@pytest.mark.parametrize("format, size", [("romfs", 6144), ("cramfs", 8192), ("cramfs-be", 8192)])
def test_sizes(romtool, format, size):
    """Builds an image as long as it may be, and refuses one byte more."""
    lay(HELLO.decode(), a=b"x" * 5000)
    for old in False, True:
        if old:
            put("out", b"old")
        for rule in [], ["--depfile", "d"]:
            line = b"size %d %d\n" % (size, size - 1), b"", 1
            refused(romtool, line, "--max-size", str(size - 1), *rule, format, "m", "out")
    told = romtool("--explain", "build", "--max-size", "100", format, "m", "out")
    assert said(told) == [f"out: the image would have {size} bytes, {size - 100} more than 100"]
    assert romtool("build", "--max-size", str(size), format, "m", "out") == (b"ok %d\n" % size, b"", 0)
    assert os.path.getsize("out") == size


@pytest.mark.parametrize("format", FORMATS)
def test_place(romtool, format):
    """Prints by `info --size` what is free, whether the image fits and what is left, after the lines of `info`."""
    lay("file /a 0644 0 0 4 a\nfile /b 0644 0 0 4096 a\n", a=b"x" * 100)
    romtool("build", format, "m", "image")
    plain = romtool("info", "image")[0]
    facts = dict(line.split(b" ", 1) for line in plain.splitlines())
    size, file = int(facts[b"size"]), int(facts[b"file"])
    for limit in 0, size - 1, size, size + 1, file - 1, file, 1 << 40:
        line = b"free %s\nfits %s\nleft %d\n" % (facts[b"gaps"], b"yes" if size <= limit else b"no", max(limit - size, 0))
        assert romtool("info", "--size", str(limit), "image") == (plain + line, b"", int(size > limit))
    told = romtool("--explain", "info", "--size", "5", "image")
    assert said(told) == [f"image: it has {size} bytes, {size - 5} more than 5"]


@pytest.mark.parametrize("format, text, line, what", STRICT, ids=[f"{format} {line} of {len(text)}" for format, text, line, _ in STRICT])
def test_strict(romtool, format, text, line, what):
    """Refuses by `--strict` what is warned of, by the least line and number; OUT and the rule stay."""
    lay(text, block=b"x" * 4096, byte=b"x")
    line = b"strict %s\n" % line.encode(), b"", 1
    refused(romtool, line, "--strict", format, "m", "out")
    put("out", b"old")
    put("d", b"old")
    refused(romtool, line, "--strict", "--depfile", "d", format, "m", "out")
    told = romtool("--explain", "build", format, "m", "out")
    assert told[2] == 0 and any(f"warning: {what} (" in it for it in said(told))
    assert what == "Empty" or f" {what} " in romtool("linux", "out")[0].decode()


@pytest.mark.parametrize(
    "format, more", [("romfs", ""), ("cramfs", ""), ("cramfs", "same /b 0644 1 2 /a\n")], ids=["romfs", "cramfs", "same"]
)
def test_nothing_to_warn_of(romtool, format, more):
    """Builds with `--strict` what nothing is warned of, such as files that share their contents and are alike."""
    lay(f"file /a 0644 {'1 2' if more else '0 0'} 4 byte\n{more}", byte=b"x")
    assert romtool("--explain", "build", "--strict", format, "m", "out")[1:] == (b"", 0)
    assert romtool("linux", "out") == (b"", b"", 0)


def random_lines(chance):
    """Yields the lines of a manifest with much that Linux misreads."""
    files, names, owners = [], [], chance.choice([["0 0"], ["0 0"], ["0 0", "0 0", "1 0", "0 1"]])
    if chance.random() < 0.3:
        yield f"dir / {chance.choice(['0755', '0700', '0555', '0711'])} 0 0"
    yield from ("dir /d 0755 0 0", "dir /e 0755 0 0")
    if chance.random() < 0.3:
        yield "volume " + "v" * chance.choice([1, 16, 143, 144, 200])
    for number in range(chance.randrange(1, 12)):
        length = chance.choice([3, 3, 3, 120, 127, 128, 129, 143, 144, 200])
        path = chance.choice(["", "/d", "/e"]) + "/" + f"{chance.randrange(16):x}" * (length - 2) + f"{number:02d}"
        mode, owner = chance.choice(["0644", "0755"]), chance.choice(owners)
        word = chance.choice(["file", "file", "file", "same", "same", "hard", "slink", "nod", "pipe"])
        if not files and word in ("same", "hard"):
            word = "file"
        yield f"{word} {path} " + {
            "file": lambda: f"{mode} {owner} {chance.choice([4, 4096])} s{chance.randrange(5)}",
            "same": lambda: f"{mode} {owner} {chance.choice(files)}",
            "hard": lambda: chance.choice(names),
            "slink": lambda: "0777 0 0 to",
            "nod": lambda: f"0600 0 0 c {chance.choice([1, 255, 4095, 4096, 65535])} 3",
            "pipe": lambda: "0644 0 0",
        }[word]()
        names.append(path)
        files += [path] * (word in ("file", "same"))


def lay_random(seed):
    """Writes a random manifest and its sources, and returns its text."""
    text, sources = "\n".join(random_lines(random.Random(seed))) + "\n", {"s0": 0, "s1": 1, "s2": 4096, "s3": 8192, "s4": 4097}
    lay(text, **{name: b"x" * size for name, size in sources.items()})
    return text


def test_random_manifests_fit(romtool, here):
    """Builds many of the random manifests, so that there is something to foresee."""
    built = 0
    for seed in range(1, 31):
        lay_random(seed)
        built += sum(romtool("build", format, "m", "out")[2] == 0 for format in FORMATS)
    assert built >= 30


def named_blocks(told, text):
    """Returns the paths of files that end with a whole block, by the words of a build of the file `m` with this text."""
    paths = re.findall(r"LastBlock \(1\): .*; files: \d+, first (\S+)", told)
    return sorted(paths + [text.splitlines()[int(line) - 1].split()[1] for line in re.findall(r"m:(\d+): LastBlock, too\n", told)])


def test_whole_blocks(romtool, here):
    """Names each file that ends with a whole block, up to 21 of them, and then says how many more there are."""
    text = "".join(f"file /{n:02} 0644 0 0 4 {'byte' if n == 5 else 'block'}\n" for n in range(24))
    for count, more in ((22, ""), (24, "romtool: m: 2 more files with LastBlock\n")):
        lay("".join(text.splitlines(True)[:count]), byte=b"x", block=bytes(8192))
        for words in (), ("--strict",):
            told = romtool("--explain", "build", *words, "cramfs", "m", "out")[1].decode()
            assert named_blocks(told, text) == [f"/{n:02}" for n in range(22) if n != 5]
            assert told.endswith("m:22: LastBlock, too\n" + more)
    assert "LastBlock" not in romtool("--explain", "build", "romfs", "m", "out")[1].decode()


@pytest.mark.seeds(150)
def test_foreseen(romtool, here, seed):
    """Warns in a random manifest of what `romtool linux` says of its images, by number and count, and refuses it by `--strict`."""
    text = lay_random(seed)
    for format in FORMATS:
        _, told, status = romtool("--explain", "build", format, "m", "out")
        if status:
            assert format != "romfs" or re.search(r"^dir / 0[57]|^(file|same) \S+ \d+ (1 0|0 1) ", text, re.M)
            continue
        counts = collections.Counter(int(line.split()[1]) for line in romtool("linux", "out")[0].splitlines())
        found = re.findall(r"warning: (\w+) \((\d+)\): .*; files: (\d+), first ", told.decode())
        assert sorted(found) == sorted((NAMES[number], str(number), str(count)) for number, count in counts.items())
        wanted = sorted(re.findall(r"linux 1 LastBlock (\S+)", romtool("linux", "out")[0].decode()))
        # words shorten a long path
        assert [it[:100] for it in named_blocks(told.decode(), text)] == [it[:100] for it in wanted]
        is_refused = romtool("build", "--strict", format, "m", f"strict-{format}")[2] == 1
        assert (is_refused, os.path.exists(f"strict-{format}")) == (bool(counts), not counts)


def test_sources_in_a_folder(romtool, here):
    """Finds sources by -C in a directory, but not MANIFEST and OUT."""
    os.makedirs("in/sub")
    put("in/a", b"in the folder")
    lay(f"file /a 0644 0 0 4 a\nfile /b 0644 0 0 4 {here}/a\n", a=b"not this one")
    for folder in "in", "in/", "in/sub/..", here / "in":
        assert romtool("build", "-C", folder, "romfs", "m", "out") == OK
        assert [romtool("cat", "out", it)[0] for it in ("/a", "/b")] == [b"in the folder", b"not this one"]
    refused(romtool, fault("none/a"), "-C", "none", "romfs", "m", "out")
    refused(romtool, fault("in/a"), "-C", "in", "romfs", "m", "in/a")


def test_standard_input(romtool, here):
    """Takes `-` as standard input, and `./-` as a file of that name."""
    lay(HELLO.decode(), a=b"hello")
    put("-", b"file /b 0644 0 0 4 a\n")
    for manifest, path in ("-", "/a"), ("./-", "/b"):
        assert romtool("build", "romfs", manifest, "out", input=HELLO) == OK
        assert romtool("cat", "out", path)[0] == b"hello"
    refused(romtool, (b"manifest 1 1 BadWord\n", b"", 1), "romfs", "-", "out", input=b"x\n")
    for name, given in ("m", here / "m"), ("-", here):
        number = os.open(given, os.O_RDONLY)
        refused(romtool, fault(name), "romfs", "-", "m" if name == "m" else "out", stdin=number)
        os.close(number)


def test_one_line(romtool):
    """Builds what a scan prints, in one line of a shell."""
    os.mkdir("in")
    os.chmod("in", 0o755)
    put("in/x", b"x" * 100)
    line = '"$0" scan --all --all-root in | "$0" build cramfs --strict - out'
    done = subprocess.run(["sh", "-c", line, romtool.path], capture_output=True, timeout=SECONDS)
    assert answer(done) == (b"ok 4096\n", b"", 0)
    assert romtool("cat", "out", "/x")[0] == b"x" * 100


# what make reads


def considered(goal):
    """Returns what make looks at to make a file, by the rules in `d`, in order; the file itself comes first."""
    put("Makefile", b"none:\ninclude d\n")
    told = subprocess.run(["make", "-n", "-d", "--", goal], capture_output=True, timeout=SECONDS).stdout
    lines = re.findall(rb"^ *Considering target file '(.*)'\.$", told, re.M)
    return [os.fsdecode(it) for it in lines if it not in (b"d", b"Makefile")]


@pytest.mark.needs("make")
def test_sources_of_rules(romtool):
    """Lets make read each source of a rule; the image is up to date after the build."""
    lay(files_of(escaped(it.encode()) for it in ODD))
    for name in ODD:
        put(name, b"x")
    assert romtool("build", "--depfile", "d", "romfs", "m", "out")[2] == 0
    assert considered("out") == ["out", "m", *ODD]


def word_of(name):
    """Returns a name as a manifest writes it: in one word."""
    return escaped(name.encode())


@pytest.mark.needs("make")
@pytest.mark.parametrize("out", [it for it in ODD if it not in ("a", "-a")], ids=word_of)
def test_outputs_of_rules(romtool, out):
    """Lets make read OUT in a rule."""
    lay(HELLO.decode(), a=b"x")
    assert romtool("build", "--depfile", "d", "--", "romfs", "m", out)[2] == 0
    assert considered(out) == [out, "m", "a"]


def test_rules(romtool):
    """Names no manifest on standard input in a rule, and the sources in a directory by their paths."""
    lay(HELLO.decode(), a=b"x")
    for words, more, rule in (
        (["romfs", "m"], {}, b"out: \\\n  m \\\n  a\n\na:\n"),
        (["romfs", "-"], {"input": HELLO}, b"out: \\\n  a\n\na:\n"),
        (["-C", ".", "romfs", "m"], {}, b"out: \\\n  m \\\n  ./a\n\n./a:\n"),
    ):
        assert romtool("build", "--depfile", "d", *words, "out", **more) == OK
        assert bytes_in("d") == rule


@pytest.mark.parametrize("name", UNSAYABLE, ids=word_of)
def test_unsayable_rules(romtool, name):
    """Ends a build before anything is written if make cannot read a name."""
    for it in "d", "out":
        put(it, b"old")
    for source, out in (name, "out"), ("a", name):
        lay(files_of([escaped(source.encode())]), a=b"x")
        put(name, b"x")
        refused(romtool, fault("d"), "--depfile", "d", "romfs", "m", out)


@pytest.mark.needs("make")
def test_sources_that_are_removed(romtool):
    """Lets make go on if a source was removed together with its line."""
    for name in "a", "b c":
        put(name, b"x")
    lay(files_of(["a", "b%20c"]))
    romtool("build", "--depfile", "d", "romfs", "m", "out")
    put("Makefile", b"out: m\n\techo made\ninclude d\n")
    for name in None, "b c", "a":
        if name:
            os.remove(name)
        done = subprocess.run(["make", "--", "out"], capture_output=True, timeout=SECONDS)
        assert done.returncode == 0 and (not name or done.stdout == b"echo made\nmade\n")


@pytest.mark.parametrize("old", [False, True])
@pytest.mark.parametrize("name", ["none/d", "m", "a", ".", "/dev/full", "out", "./out", "link"])
def test_rules_that_fail(romtool, name, old):
    """Leaves OUT if a rule cannot be written, and refuses one that replaces OUT, MANIFEST or a source."""
    lay(HELLO.decode(), a=b"x")
    os.symlink("out", "link")
    if old:
        put("out", b"old")
    if old or name != "link":
        refused(romtool, fault(name), "--depfile", name, "romfs", "m", "out")


def test_builds_that_fail(romtool):
    """Writes no rule if a source is missing or OUT cannot be written."""
    lay(HELLO.decode(), a=b"x", gone=b"file /a 0644 0 0 4 none\n")
    refused(romtool, fault("none"), "--depfile", "d", "romfs", "gone", "out")
    refused(romtool, fault("/dev/full"), "--depfile", "d", "romfs", "m", "/dev/full")


@pytest.mark.parametrize("old", [False, True])
@pytest.mark.parametrize("names", [("x", ".x.romtool-0.part"), ("./x", ".x.romtool-99.part")])
def test_rules_named_like_parts(romtool, names, old):
    """Refuses a FILE with the name of a part of OUT, and the reverse: neither is removed as a part of the other."""
    lay(HELLO.decode(), a=b"x")
    if old:
        put("x", b"old")
        put(".x.romtool-0.part", b"old part")
    for rule, out in names, names[::-1]:
        refused(romtool, fault(rule), "--depfile", rule, "romfs", "m", out)


def test_rules_named_almost_like_parts(romtool):
    """Writes a rule into a link to a part, and into files with names that no part has."""
    lay(HELLO.decode(), a=b"x")
    put(".x.romtool-0.part", b"old part")
    os.symlink(".x.romtool-0.part", "link")
    os.mkdir("d")
    assert romtool("build", "--depfile", "link", "romfs", "m", "x") == OK
    assert os.path.islink("link") and bytes_in(".x.romtool-0.part") == b"x: \\\n  m \\\n  a\n\na:\n"
    for name in "x.0.part", ".x.romtool-100.part", ".x.romtool-.part", ".x.romtool-a.part", ".x.romtool-0.parts", "d/.x.romtool-0.part":
        assert romtool("build", "--depfile", name, "romfs", "m", "x") == OK


# all errors, and words


def test_bad_lines(romtool):
    """Says each bad line in words, with the line and number that it has where the others are good; of many the first ones."""
    lay(BAD)
    told = romtool("--explain", "build", "romfs", "m", "out")
    assert told[0] == b"manifest 1 2 BadNumber\n"
    assert [(int(it[1]), int(it[2])) for line in said(told) if (it := re.match(r"m:(\d+): \w+ \((\d)\): ", line))] == BAD_LINES
    lay("bogus\n" * 50 + "dir /a 0755 0 0\n" * 8)
    *lines, line, last = said(romtool("--explain", "build", "romfs", "m", "out"))
    assert (len(lines), line.startswith("m:20: BadWord"), last) == (19, True, "m: 37 more lines are bad")
    assert romtool("build", "romfs", "m", "out") == (b"manifest 1 1 BadWord\n", b"", 1)


def test_missing_sources(romtool):
    """Says each source that cannot be read in words, with its line; of many the first ones."""
    os.mkdir("dir")
    lay(files_of(["a", "gone", "a", "dir", "%FF", "a", "gone2"]), a=b"x")
    told = romtool("--explain", "build", "romfs", "m", "out")
    assert told[0] == b"" and told[1].startswith(b"file gone\n") and said(told) == [
        "gone: No such file or directory (m:2)", "dir: it is not a regular file (m:4)",
        "%FF: a name that is not UTF-8 cannot be opened (m:5)", "gone2: No such file or directory (m:7)",
    ]  # fmt: skip
    lay(files_of(f"gone{at}" for at in range(30)))
    lines = said(romtool("--explain", "build", "romfs", "m", "out"))
    assert (len(lines), lines[-1]) == (21, "m: 10 more sources cannot be read")
    assert romtool("build", "romfs", "m", "out") == fault("gone0")


@pytest.mark.parametrize("value", ["1", "0", "", "11", "yes"])
def test_environment(romtool, value):
    """Explains by ROMTOOL_EXPLAIN=1 as by --explain, and by no other value."""
    words = b"romtool: none: No such file or directory\n" if value == "1" else b""
    assert romtool("check", "none", env={**os.environ, "ROMTOOL_EXPLAIN": value}) == fault("none", words)


@pytest.mark.parametrize("words", ["list image", "map image", "extract image to"])
def test_without_a_reader(romtool, words):
    """Keeps the line and the status where nobody reads standard output any more, and explains nothing."""
    lay("".join(f"dir /{it} 0755 0 0\n" for it in range(5000)))
    romtool("build", "romfs", "m", "image")
    ours, theirs = os.pipe()
    os.close(ours)
    _, told, status = romtool("--explain", *words.split(), stdout=theirs)
    os.close(theirs)
    assert words == "map image" or (b"write fault" in told.splitlines() and b"stdout" not in told and status == 3)
    if words == "list image":
        with open("/dev/full", "wb") as full:
            told = romtool("--explain", *words.split(), stdout=full)
        assert said(told) == ["stdout: not everything could be written to standard output: No space left on device"]
