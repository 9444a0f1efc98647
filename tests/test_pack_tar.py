"""Packs tar archives, and unpacks images into archives, by recipes/romtool-tar.sh, as an ordinary user.

GNU tar makes archives in several forms of a tree of every kind of file, whose owners and devices fakeroot shows. The image has what
tarfile reads in the archive, and the archive of the image what tar lists in the first one. What is refused or ended by a signal
leaves OUT as it was, no temporary file, and no process.
"""

import contextlib
import gzip
import os
import shutil
import signal
import subprocess
import tarfile
import typing

import pytest
from files import bytes_in, put, wait_until
from harness import SECONDS, TOP, end_by_signals
from romtool import FORMATS, entries, escaped, raw
from users import IS_ROOT, become_nobody

pytestmark = pytest.mark.needs("fakeroot")
SCRIPT = TOP + "/recipes/romtool-tar.sh"
# what the three formats of images store unchanged, except the volume: further names of a file only romfs
COMMON = r"""set -e
umask 022
mkdir -p tree/dev 'tree/a b/c%d' tree/-x
echo text >'tree/a b/c%d/ e'
printf '#!/bin/sh\n' >tree/-x/run
chmod 755 tree/-x/run
: >"tree/$(printf 'two\nlines\n')"
head -c 100000 /dev/zero >"tree/$(printf 'n%.0s' $(seq 1 95))"
ln -s '../a b/%20' 'tree/-x/to space'
mkfifo -m 644 tree/queue "tree/dev/$(printf 'fifo\n\n')"
mknod -m 600 tree/dev/console c 5 1
mknod -m 600 'tree/dev/sd a%' b 8 17
mknod -m 600 'tree/dev/x\0045y' c 1 255
"""
LINKS = "ln 'tree/a b/c%d/ e' tree/-x/hard; ln tree/dev/console 'tree/dev/con sole'; ln tree/queue tree/further\n"
# what only cramfs stores
OWNED = r"""chown 65535:255 'tree/a b/c%d/ e'
chown -h 7:8 'tree/-x/to space'
chown 9:10 'tree/dev/sd a%' tree/queue tree/dev
chmod 4711 tree/-x/run
chmod 2750 'tree/a b'
chmod 1777 tree/-x
chmod 0 tree/queue 'tree/a b/c%d'
chmod 640 'tree/dev/x\0045y'
chown 5:6 tree
chmod 1775 tree
"""
LONG = (
    """: >"tree/a b/$(printf 'n%.0s' $(seq 1 252))"; ln -s "$(printf 'l%.0s' $(seq 1 3000))" tree/dev/long\n"""  # what ustar cannot store
)
TREES = {"romfs": COMMON + LINKS, "cramfs": COMMON + OWNED, "cramfs-be": COMMON + OWNED}
ARCHIVE = "tar --numeric-owner --sort=name --mtime=@0 -C tree"
KINDS = {
    tarfile.REGTYPE: "f",
    tarfile.DIRTYPE: "d",
    tarfile.SYMTYPE: "l",
    tarfile.CHRTYPE: "c",
    tarfile.BLKTYPE: "b",
    tarfile.FIFOTYPE: "p",
}


def prepare():
    """Makes a process that of an ordinary user, if that can be, which ends by signals."""
    end_by_signals()
    if IS_ROOT:
        become_nobody()


class Recipe:
    """Runs the recipe in the current directory, as an ordinary user if that can be, with an own directory for temporary files."""

    def __init__(self, program):
        shutil.copy(program, "romtool")
        os.mkdir("temporary")
        self.environment = {**os.environ, "TMPDIR": os.path.abspath("temporary"), "ROMTOOL": os.path.abspath("romtool")}
        for name in "FAKEROOTKEY", "ROMTOOL_EXPLAIN":
            self.environment.pop(name, None)
        os.chmod(".", 0o777)
        os.chmod("temporary", 0o777)
        shutil.copy(SCRIPT, "romtool-tar.sh")

    def start(self, *words, **more):
        """Starts the recipe."""
        pipe = subprocess.PIPE
        how = {"stdin": subprocess.DEVNULL, "stdout": pipe, "stderr": pipe, "env": self.environment, "preexec_fn": prepare}
        return subprocess.Popen(words, **{**how, **more})

    def run(self, *words, given=None, **more):
        """Runs a command with these words, and returns what it printed, what is on standard error, and its status."""
        running = self.start(*words, **({} if given is None else {"stdin": subprocess.PIPE}), **more)
        out, err = running.communicate(given, timeout=SECONDS)
        return out, err, running.returncode

    def __call__(self, *words, **more):
        """Runs the recipe, and returns the same."""
        answer = self.run("sh", "romtool-tar.sh", *words, **more)
        assert os.listdir("temporary") == [] and not [it for it in os.listdir(".") if it.startswith(".")]
        return answer

    def make(self, tree, *commands):
        """Makes a directory and archives of it under fakeroot, by commands of the shell, as an ordinary user."""
        assert self.run("fakeroot", "sh", "-c", "\n".join([tree, *commands])) == (b"", b"", 0)


@pytest.fixture
def recipe(romtool, here):
    """The recipe, and an image and an archive that are there before."""
    put("out", b"old")
    os.chmod("out", 0o666)
    return Recipe(romtool.path)


class Member(typing.NamedTuple):
    """A member of an archive, with the fields of a line of `list`; other files than regular ones have no content."""

    kind: str
    mode: int
    user: int
    group: int
    major: int
    minor: int
    text: str
    content: bytes


def members(archive):
    """Reads an archive by tarfile: what each escaped path has. Each further name of a file is one like the first."""
    found = {}
    with tarfile.open(archive, errors="surrogateescape") as opened:
        for it in opened:
            path = escaped(os.fsencode("/" + it.name.removeprefix(".").strip("/")))
            if it.islnk():
                found[path] = found[escaped(os.fsencode("/" + it.linkname.removeprefix("./")))]
                continue
            numbers = (it.devmajor, it.devminor) if it.isdev() and not it.isfifo() else (0, 0)
            text = escaped(os.fsencode(it.linkname)) if it.issym() else ""
            content = opened.extractfile(it).read() if it.isreg() else b""
            found[path] = Member(KINDS[it.type], it.mode, it.uid, it.gid, *numbers, text, content)
    return found


def in_image(romtool, image):
    """Reads an image: what each escaped path has."""
    found = {}
    for it in entries(romtool.path, image):
        content = romtool("cat", image, os.fsdecode(raw(it.path)))[0] if it.kind == "f" else b""
        found[it.path] = Member(it.kind, it.mode, it.user, it.group, it.major, it.minor, it.text, content)
    return found


def listed(archive):
    """Returns the sorted lines that tar lists of an archive, as fields, and without `./` in front of names."""
    words = ["tar", "--numeric-owner", "--full-time", "--quoting-style=escape", "--force-local", "-tvf", archive]
    printed = subprocess.run(words, capture_output=True, check=True, timeout=SECONDS).stdout.decode()
    return sorted(line.split(None, 5) for line in printed.replace(" ./", " ").splitlines())


@pytest.mark.parametrize("form", ["gnu", "pax", "ustar"])
@pytest.mark.parametrize("format", FORMATS)
def test_kept(romtool, recipe, format, form):
    """Keeps what the format stores: the image has what the archive has, and the archive of the image is equal to it."""
    tree = TREES[format] + (LONG if form != "ustar" and format != "romfs" else "")
    recipe.make(tree, f"{ARCHIVE} --format={form} -cf in.tar .")
    assert recipe("pack", format, "in.tar", "out", "--quiet", "--strict")[1:] == (b"", 0)
    assert in_image(romtool, "out") == members("in.tar")
    assert recipe("unpack", "out", "out.tar") == (b"", b"", 0)
    assert listed("out.tar") == listed("in.tar") and members("out.tar") == members("in.tar")


def test_links_in_cramfs(romtool, recipe):
    """Makes files of their own of the further names in a cramfs image, which has none."""
    recipe.make(COMMON + LINKS + OWNED, f"{ARCHIVE} -cf in.tar .")
    assert recipe("pack", "cramfs", "in.tar", "out", "--quiet")[1:] == (b"", 0)
    assert in_image(romtool, "out") == members("in.tar")
    assert recipe("unpack", "out", "out.tar") == (b"", b"", 0)
    assert members("out.tar") == members("in.tar") and not [it for it in listed("out.tar") if it[0][0] == "h"]


@pytest.mark.parametrize("front", ["", "./", "/"])
def test_without_a_root(romtool, recipe, front):
    """Reads an archive without a member for its root, as `docker export` writes it, from standard input: the root is 0755, of root."""
    names = rf"(cd tree && find . -mindepth 1 -maxdepth 1 -printf '%P\0') | {ARCHIVE} -P --transform 's,^,{front},S' --null -T - -cf in.tar"
    recipe.make(TREES["cramfs"], names)
    assert "/" not in members("in.tar")
    out, err, status = recipe("pack", "cramfs", "-", "out", "--quiet", given=bytes_in("in.tar"))
    assert (out[:3], status, b"Removing leading" in err) == (b"ok ", 0, front == "/")
    assert in_image(romtool, "out") == {"/": Member("d", 0o755, 0, 0, 0, 0, "", b""), **members("in.tar")}


def test_implied_directories(romtool, recipe):
    """Makes directories that are no members, with the mode 0755 whatever the umask is, and has the numbers of owners, not their names."""
    it = tarfile.TarInfo("a/b/c")
    it.mode, it.uid, it.gid, it.uname, it.gname = 0o666, 77, 78, "daemon", "daemon"
    with tarfile.open("in.tar", "w") as made:
        made.addfile(it)
    assert recipe("pack", "cramfs", "in.tar", "out", "--quiet", umask=0o077)[2] == 0
    wanted = {path: Member("d", 0o755, 0, 0, 0, 0, "", b"") for path in ("/", "/a", "/a/b")}
    assert in_image(romtool, "out") == {**wanted, "/a/b/c": Member("f", 0o666, 77, 78, 0, 0, "", b"")}


@pytest.mark.parametrize("suffix", [".tar", ".tar.gz"])
def test_compressed(recipe, suffix):
    """Compresses an archive if its suffix says so, reads it again, and makes equal archives of equal images."""
    recipe.make(TREES["cramfs"], f"{ARCHIVE} -cf in.tar .")
    assert recipe("pack", "cramfs", "in.tar", "out", "--quiet")[2] == 0
    assert recipe("unpack", "out", "a b:c" + suffix) == (b"", b"", 0)
    packed = bytes_in("a b:c" + suffix)
    plain = gzip.decompress(packed) if suffix == ".tar.gz" else packed
    assert listed("a b:c" + suffix) == listed("in.tar")
    assert recipe("pack", "cramfs", "a b:c" + suffix, "again", "--quiet")[2] == 0
    assert bytes_in("again") == bytes_in("out")
    assert recipe("unpack", "again", "-") == (plain, b"", 0)


def test_root_of_this_machine(romtool, recipe):
    """Packs a larger tree: `/etc` of this machine, with its owners, as far as cramfs stores them."""
    recipe.how = {}
    made = subprocess.run(["tar", "--mtime=@0", "--ignore-failed-read", "-C", "/", "-cf", "in.tar", "etc"], capture_output=True)
    assert made.returncode == 0
    assert recipe("pack", "cramfs", "in.tar", "out", "--quiet")[2] == 0
    wanted = members("in.tar")
    for path, it in wanted.items():
        wanted[path] = it._replace(user=min(it.user, 0xFFFF), group=min(it.group, 0xFF))
    wanted["/"] = Member("d", 0o755, 0, 0, 0, 0, "", b"")
    assert recipe("unpack", "out", "out.tar") == (b"", b"", 0)
    assert members("out.tar") == wanted


def test_options(romtool, recipe):
    """Passes options on, and refuses with the lines and words of `pack`."""
    recipe.make(TREES["cramfs"], f"{ARCHIVE} -cf in.tar .")
    assert recipe("pack", "romfs", "in.tar", "out", "--strict")[0::2] == (b"", 1)
    out, err, status = recipe("pack", "cramfs", "in.tar", "out", "--max-size", "4K")
    assert (out[:5], b"romtool: out: the image would have" in err, status) == (b"size ", True, 1)
    assert bytes_in("out") == b"old"
    assert recipe("pack", "cramfs", "in.tar", "-image", "--volume", "boot", "--manifest", "kept")[2] == 0
    assert bytes_in("kept").startswith(b"volume boot\n") and b"volume boot\n" in romtool("info", "--", "-image")[0]


def test_sockets(recipe):
    """Leaves out sockets, and says so: tar stores none."""
    put("manifest", b"sock /a%20b 0644 0 0\nhard /c /a%20b\nnod /d 0600 0 0 c 5 1\nhard /e /d\n")
    assert recipe.run("./romtool", "build", "romfs", "manifest", "out")[2] == 0
    out, err, status = recipe("unpack", "out", "out.tar")
    lines = [b"romtool-tar.sh: %s: left out, since tar stores no sockets" % it for it in (b"/a b", b"/c")]
    assert (out, err.splitlines(), status) == (b"", lines, 0)
    assert sorted(members("out.tar")) == ["/", "/d", "/e"]


# what is refused


REFUSED = [
    ((), 2, b"romtool-tar.sh: no command: \nusage: "), (("fly",), 2, b"romtool-tar.sh: no command: fly\nusage: "),
    (("pack", "cramfs", "in.tar"), 2, b"romtool-tar.sh: pack needs"), (("unpack", "image"), 2, b"romtool-tar.sh: unpack needs"),
    (("unpack", "image", "new", "more"), 2, b"romtool-tar.sh: unpack needs"),
    (("pack", "cramfs", "none", "out"), 3, b"romtool-tar.sh: none: tar cannot unpack it\n"),
    (("pack", "cramfs", "out", "out"), 3, b"romtool-tar.sh: out: tar cannot unpack it\n"),
    (("pack", "fly", "in.tar", "out"), 2, b"usage\n"), (("pack", "cramfs", "in.tar", "out", "--fly"), 2, b"usage\n"),
    (("pack", "cramfs", "in.tar", "none/out"), 3, b"file none/out\n"),
    (("unpack", "none", "out"), 3, b"file none\nromtool: none: "), (("unpack", "out", "out"), 1, b"fault "),
    (("unpack", "image", "none/out"), 3, b"romtool-tar.sh: tar cannot write the archive\n"),
    (("unpack", "image", "temporary"), 3, b"romtool-tar.sh: tar cannot write the archive\n"),
]  # fmt: skip


@pytest.mark.parametrize(("words", "status", "said"), REFUSED, ids=[" ".join(it[0]) or "no command" for it in REFUSED])
def test_refused(recipe, words, status, said):
    """Says what is wrong, with a status, and leaves what was there."""
    recipe.make("mkdir tree", f"{ARCHIVE} -cf in.tar .")
    assert recipe("pack", "romfs", "in.tar", "image", "--quiet")[2] == 0
    out, err, got = recipe(*words)
    assert (out, said in err, got) == (b"", True, status), err
    assert bytes_in("out") == b"old"


@pytest.mark.parametrize("tool", ["tar", "fakeroot", "setsid"])
def test_missing(recipe, tool):
    """Says which program is missing."""
    os.mkdir("bin")
    for name in {"sh", "tar", "fakeroot", "setsid"} - {tool}:
        os.symlink(shutil.which(name), "bin/" + name)
    recipe.environment["PATH"] = os.path.abspath("bin")
    said = b"romtool-tar.sh: there is no program %s\n" % tool.encode()
    assert recipe("unpack", "out", "new") == (b"", said, 3)


def test_missing_romtool(recipe):
    """Says that romtool is missing."""
    recipe.environment["ROMTOOL"] = "/none/romtool"
    assert recipe("unpack", "out", "new") == (b"", b"romtool-tar.sh: there is no program /none/romtool\n", 3)


def test_not_reached(recipe):
    """Refuses a program that fakeroot does not reach: it would lose the owners."""
    recipe.make("mkdir tree", f"{ARCHIVE} -cf in.tar .")
    assert recipe("pack", "romfs", "in.tar", "image", "--quiet")[2] == 0
    put("static", b'#!/bin/sh\nunset LD_PRELOAD\nexec ./romtool "$@"\n', 0o755)
    recipe.environment["ROMTOOL"] = "./static"
    for words in ("pack", "cramfs", "in.tar", "out"), ("unpack", "image", "new"):
        out, err, status = recipe(*words)
        assert (out, err[:5], b"fakeroot" in err, status) == (b"", b"file ", True, 3)
    assert bytes_in("out") == b"old" and not os.path.exists("new")


def test_within_fakeroot(recipe):
    """Uses the fakeroot that it runs under."""
    recipe.make(TREES["cramfs"], f"{ARCHIVE} -cf in.tar .")
    for words in ("pack", "cramfs", "in.tar", "out", "--quiet"), ("unpack", "out", "out.tar"):
        assert recipe.run("fakeroot", "sh", "romtool-tar.sh", *words)[1:] == (b"", 0)
    assert listed("out.tar") == listed("in.tar")


# signals


def processes_in(folder):
    """Returns the numbers of the processes whose current directory is this one, except this process."""
    found = []
    for number in (it for it in os.listdir("/proc") if it.isdigit() and int(it) != os.getpid()):
        with contextlib.suppress(OSError):
            if os.path.realpath(f"/proc/{number}/cwd") == folder:
                found.append(number)
    return found


@pytest.mark.parametrize("name", ["HUP", "INT", "TERM"])
@pytest.mark.parametrize("send", [os.kill, os.killpg])
def test_signals(recipe, name, send):
    """Ends on a signal, alone or with its process group, while tar waits for its input; nothing is left, and no process, either."""
    number, folder = signal.Signals["SIG" + name], os.path.realpath(".")
    given = {"stdin": subprocess.PIPE, "start_new_session": True}
    with recipe.start("sh", "romtool-tar.sh", "pack", "cramfs", "-", "out", **given) as running:
        wait_until(lambda: any(os.path.isdir(f"temporary/{it}/root") for it in os.listdir("temporary")))
        send(running.pid, number)
        assert running.wait(SECONDS) == 128 + number
    assert os.listdir("temporary") == [] and bytes_in("out") == b"old"
    assert wait_until(lambda: not processes_in(folder))
