"""Makes the files of a release, installs them into empty directories, and tests what is there.

The release is made twice by tools/release and has the same bytes. Its packages are installed into an empty root and are removed
again. In this root romtool-static runs as an ordinary user without any other file, on the first two commands of the README. Under
fakeroot the programs of the package and of the archive see the owners and devices that fakeroot shows. romtool-mount of both mounts
an image.
A C program outside the tree is built over what the archive installs, by pkg-config and by CMake. The installed archives have each
function that the installed headers declare, and no link of an installed document leads to a file that is not there. What is in
the release for boards is tested by test_boards.py, and the packages for Rust and Python by test_rust.py and test_python.py.
tools/install and its --uninstall leave nothing. Completions offer what help lists. The commands of SECURITY.md check the release, and
compare it with one that is made again in a clone. The version is the same in each place.
With --object and --library a trial release is made of these, and with --module the release for boards of this module.
"""

import glob
import hashlib
import os
import re
import shlex
import shutil
import subprocess
import sys
import tarfile
import tempfile
import zipfile

import command_lines
import fuse
import pytest
from files import bytes_in, put, repository_text, text_of, write_below
from harness import HERE, TOP, missing
from users import IS_ROOT, NOBODY, become_nobody

TOOLS = os.path.join(TOP, "tools")
needs = pytest.mark.needs
# the words of a section of CHANGELOG.md, by https://keepachangelog.com/en/1.1.0/
CHANGES = ("Added", "Changed", "Deprecated", "Removed", "Fixed", "Security")
COMPLETED = """source "$1"
shift
COMP_WORDS=("$@") COMP_CWORD=$(($# - 1))
_romtool
printf '%s\\n' "${COMPREPLY[@]}"
"""
# what fish offers after a line
FISH = (
    ("romtool s", ["scan", "serve", "space"]), ("romtool --explain ex", ["extract"]), ("romtool help bu", ["build"]),
    ("romtool --e", ["--explain"]), ("romtool build cr", ["cramfs", "cramfs-be"]), ("romtool build romfs f", ["file", "folder/"]),
    ("romtool build --n", ["--needs", "--no-follow"]), ("romtool scan --for r", ["romfs"]), ("romtool scan --for romfs f", ["folder/"]),
    ("romtool scan --align 40", ["4096"]), ("romtool extract f", ["file", "folder/"]), ("romtool extract image f", ["folder/"]),
)  # fmt: skip
# what an ordinary user does under fakeroot with the program that is given, and what the list of the image is then
FAKED = """set -e
mkdir -p root/dev
mknod root/dev/console c 5 1
echo '#!/bin/sh' >root/init
chown 5:6 root/init
chmod 4755 root/init
chmod 600 root/dev/console
"$1" pack --quiet --strict --manifest manifest cramfs root image >/dev/null
cat manifest
"$1" extract --owners image out | sed 's, out/.*,,'
stat -c '%a %u %g' out/init
"""
FAKED_LIST = """dir / 0755 0 0
dir /dev 0755 0 0
nod /dev/console 0600 0 0 c 5 1
file /init 4755 5 6 4 root/init
dir / 0755 0 0
dir /dev 0755 0 0
nod /dev/console 0600 0 0 c 5 1
file /init 4755 5 6 4
4755 5 6
"""
# the answers of two checks of an image's first bytes, without memory and with it, and the blocks that are left
AREA = """#include <stdio.h>
#include "romtool_heap.h"
int main(void) {
    static uint64_t room[4096];
    static uint8_t held[8192];
    struct romtool_image image = ROMTOOL_INIT;
    FILE *file = fopen("app.cramfs", "rb");
    const size_t len = fread(held, 1, sizeof held, file);
    const unsigned refused = romtool_check(&image, held, len);
    romtool_area(room, sizeof room);
    const unsigned error = romtool_check(&image, held, len);
    printf("%u %u %d\\n", refused, error, (int)romtool_area_blocks());
    return 0;
}
"""
CMAKE = """cmake_minimum_required(VERSION 3.10)
project(first C)
find_package(romtool {version} REQUIRED)
add_executable(first first.c)
target_link_libraries(first romtool::romtool)
"""

sys.path.insert(0, TOOLS)

import bindings  # noqa: E402
import completions  # noqa: E402
import installation  # noqa: E402
import tarball  # noqa: E402
import unproved_aarch64  # noqa: E402

# the package of Debian that has the shared library, and its file
SHARED = "libromtool" + installation.interface()
SHARED_FILE = "lib/libromtool.so." + installation.interface()


VERSION = installation.version()
# the first two commands of romtool that the README shows
README = [shlex.split(it)[1:] for it in re.findall(r"^\$ (romtool .*)$", repository_text("README.md"), re.M)[:2]]


def ran(words, **more):
    """Runs a command, and returns its status with all that it printed."""
    how = {"stdin": subprocess.DEVNULL, "stdout": subprocess.PIPE, "stderr": subprocess.STDOUT, "timeout": 1800, **more}
    done = subprocess.run(words, **how)
    return done.returncode, done.stdout.decode(errors="replace")


def works(words, **more):
    """Runs a command that has to succeed, and returns what it printed."""
    status, said = ran(words, **more)
    assert status == 0, said
    return said


def below(folder):
    """Returns the paths below a directory, in order; directories with a slash at the end."""
    found = []
    for at, folders, names in os.walk(folder):
        found += [os.path.join(at, it) + "/" for it in folders] + [os.path.join(at, it) for it in names]
    return sorted(os.path.relpath(it, folder) + "/" * it.endswith("/") for it in found)


@pytest.fixture(scope="session")
def top():
    """A directory, which everyone may read."""
    with tempfile.TemporaryDirectory(prefix="romtool-") as folder:
        os.chmod(folder, 0o755)
        yield folder


# the version


def test_version_of_documents(romtool):
    """Has the version of the code in the man pages, the header, and the documents that name files, and says it."""
    manual = works([TOOLS + "/manual", "--program", romtool.path])
    assert re.findall(r'^\.TH .*"romtool (\S+)"', manual, re.M) == [VERSION]
    assert (re.findall(r'VERSION\w* "([\d.]+)"', repository_text("include/romtool.h")) or [VERSION]) == [VERSION]
    assert re.findall(r'^\.TH .*"romtool (\S+)"', repository_text("mount/romtool-mount.1"), re.M) == [VERSION]
    texts = repository_text("README.md") + repository_text("SECURITY.md")
    assert set(re.findall(r"romtool(?:-dev|-mount|-embedded)?[-_](\d+\.\d+\.\d+)", texts)) == {VERSION}
    assert romtool("--explain", "--version")[1].decode().splitlines()[-1:] == ["romtool " + VERSION]


def test_changelog():
    """Has in CHANGELOG.md what is not released yet on top, and releases from the newest on, which is that of the code."""
    heads = re.findall(r"^## (.*)$", repository_text("CHANGELOG.md"), re.M)
    assert heads[:1] == ["Unreleased"]
    numbers = [tuple(map(int, re.fullmatch(r"(\d+)\.(\d+)\.(\d+) - \d{4}-\d\d-\d\d", it).groups())) for it in heads[1:]]
    assert numbers == sorted(numbers, reverse=True)
    assert numbers[:1] == [tuple(map(int, VERSION.split(".")))]
    assert set(re.findall(r"^### (.*)$", repository_text("CHANGELOG.md"), re.M)) <= set(CHANGES)


# completions


@pytest.fixture(scope="session")
def scripts(romtool, top):
    """The completion of each shell, and a directory with a file and a directory, in which it completes."""
    os.makedirs(top + "/here/folder")
    put(top + "/here/file")
    for shell in ("bash", "zsh", "fish"):
        put(f"{top}/{shell}", completions.text(shell, romtool.path).encode())
    return top


def completed(scripts, *words):
    """Returns what bash offers for the last of these words."""
    return ran(["bash", "-c", COMPLETED, "bash", scripts + "/bash", "romtool", *words], cwd=scripts + "/here")[1].split()


def test_bash(romtool, scripts):
    """Offers by bash what help lists: subcommands and options."""
    options, subcommands = completions.table(romtool.path)
    assert completed(scripts, "") == [*(it.name for it in subcommands), "help"]
    assert completed(scripts, "-") == [*(it.name for it in options), "--help", "--version"]
    assert completed(scripts, "--explain", "s") == ["scan", "serve", "space"]
    assert completed(scripts, "help", "ex") == ["extract"]
    for it in subcommands:
        assert completed(scripts, it.name, "--") == [*(option.name for option in it.options), "--help"]


@pytest.mark.parametrize(("words", "wanted"), [
    ("build cr", "cramfs cramfs-be"), ("build romfs F", "file folder"), ("build --no-follow romfs m F", "file folder"),
    ("build romfs m o F", ""), ("scan --all --for r", "romfs"), ("scan F", "folder"), ("scan --all --align 40", "4096"),
    ("scan --for romfs --align 4 F", "folder"), ("extract F", "file folder"), ("extract image F", "folder"), ("space a b F", "file folder"),
    ("cat F", "file folder"), ("cat image /", ""), ("map --base 0", ""), ("map --base 0 F", "file folder"),
])  # fmt: skip
def test_bash_words(scripts, words, wanted):
    """Offers by bash the words of formats and alignments, and files."""
    here = scripts + "/here/f"
    names = {"file": here + "ile", "folder": here + "older"}
    got = completed(scripts, *(here if it == "F" else it for it in words.split()))
    assert sorted(got) == [names.get(it, it) for it in wanted.split()]


@pytest.mark.parametrize(("shell", "dashes"), [("zsh", "--%s["), ("fish", "-l %s")], ids=["zsh", "fish"])
def test_shells(romtool, scripts, shell, dashes):
    """Names for a shell each subcommand and option."""
    options, subcommands = completions.table(romtool.path)
    told, wanted = text_of(f"{scripts}/{shell}"), [it.name for it in subcommands]
    wanted += [dashes % option.name[2:] for it in subcommands for option in it.options] + [dashes % it.name[2:] for it in options]
    assert [it for it in wanted if it not in told] == []


@pytest.mark.parametrize("shell", [pytest.param("zsh", marks=needs("zsh")), pytest.param("fish", marks=needs("fish"))])
def test_reading(scripts, shell):
    """Has a shell read its completion."""
    assert ran([shell, "-n", f"{scripts}/{shell}"]) == (0, "")


@needs("fish")
@pytest.mark.parametrize(("line", "wanted"), FISH, ids=[line for line, _ in FISH])
def test_fish(scripts, line, wanted):
    """Offers by fish subcommands, options, words and files."""
    said = ran(["fish", "--no-config", "-c", "source $argv[1]; complete -C$argv[2]", scripts + "/fish", line], cwd=scripts + "/here")
    assert [it.partition("\t")[0] for it in said[1].splitlines()] == wanted


# tools/install


@pytest.fixture(scope="session")
def library(pytestconfig):
    """The archive of the library for C, or nothing if none is there."""
    path = os.path.abspath(pytestconfig.option.library or installation.LIBRARY)
    return path if os.path.exists(path) and not missing("cc") else None


@pytest.fixture(scope="session")
def installing(romtool, library):
    """The words of tools/install."""
    return [TOOLS + "/install", "--program", romtool.path, *(["--library", library] if library else [])]


@pytest.fixture(scope="session")
def installed(installing, top):
    """A root, below which all is installed twice, in PREFIX."""
    for _ in range(2):
        works([*installing, PREFIX, top + "/root"])
    return top + "/root"


PREFIX = "/opt/of/romtool"
OF_LIBRARY = ["lib/libromtool.a", SHARED_FILE, "lib/libromtool_area.a", "include/romtool.h", "include/romtool_heap.h"]
OF_LIBRARY += ["lib/pkgconfig/romtool.pc"]


def test_installed(library, installed):
    """Puts the files where they belong."""
    wanted = ["bin/romtool", "share/man/man1/romtool.1", "share/doc/romtool/README.md", *installation.COMPLETIONS.values()]
    wanted += ["share/romtool/" + it for it in installation.RECIPES.values()]
    wanted += OF_LIBRARY if library else []
    wanted += ["bin/romtool-mount", "share/man/man1/romtool-mount.1"] if library and installation.has_fuse() else []
    assert [it for it in wanted if it not in below(installed + PREFIX)] == []


def test_documents(installed):
    """Has no link of an installed document that leads to a file that is not there."""
    lost = []
    for at, _, names in os.walk(f"{installed}{PREFIX}/{installation.DOCUMENTS}"):
        for name in (it for it in names if it.endswith(".md")):
            text = text_of(os.path.join(at, name))
            found = [it.partition("#")[0] for it in re.findall(r"\]\(([^)\s]+)\)", text) if "://" not in it]
            lost += [(name, it) for it in found if not os.path.exists(os.path.join(at, it))]
            assert "](../tests" not in text and "](../crates" not in text, name
    assert lost == []


@needs("nm")
def test_headers(library, installed):
    """Has each function that an installed header declares in an installed archive."""
    if not library:
        pytest.skip("there is no library")
    texts = [text_of(f"{installed}{PREFIX}/include/{it}") for it in ("romtool.h", "romtool_heap.h")]
    text = "".join(re.sub(r"/\*.*?\*/", "", it, flags=re.S) for it in texts)
    number = re.search(r"^#define ROMTOOL_INTERFACE (\d+)$", text, re.M)[1]
    declared = set(re.findall(r"^(?:struct )?\w+ ((?:romtool|rattle)_\w+)\([^;{()]*\);", text, re.M))
    declared |= {it + "_v" + number for it in re.findall(r'ROMTOOL_(?:SYMBOL|RETURNS)\("(\w+)"\);', text)}
    assert len(declared) == 28 + 3 + 4
    has = {it for path in glob.glob(f"{installed}{PREFIX}/lib/*.a") for it in re.findall(r" T (\w+)", ran(["nm", path])[1])}
    assert sorted(declared - has) == []


def test_uninstall(installing, room):
    """Removes by --uninstall all that was made, once, and refuses a prefix that is not absolute."""
    root = str(room / "root")
    works([*installing, PREFIX, root])
    put(root + "/opt/own")
    works([TOOLS + "/install", "--uninstall", PREFIX, root])
    assert below(root) == ["opt/", "opt/own"]
    assert ran([TOOLS + "/install", "--uninstall", PREFIX, root])[0] == 1
    assert ran([*installing, "usr", root])[0] == 1


def test_link_of_others(installing, room):
    """Follows no link of others, at a name that could be used for a moment."""
    os.makedirs(room / "linked/usr/bin")
    os.symlink(room / "precious", room / "linked/usr/bin/romtool.new")
    works([*installing, "/usr", str(room / "linked")])
    assert not os.path.exists(room / "precious")


# the release


def lacks(library, is_trial):
    """Returns why no release can be made here, or nothing."""
    if not is_trial and not os.path.exists(TOP + "/out/gate.log"):
        return "the gate did not pass here: ./test runs it"
    if tool := missing("cc", "ar", "readelf", "dpkg-deb", "dpkg-query", "git", "rt"):
        return "it needs " + tool
    if not installation.has_fuse():
        return "it needs libfuse3-dev"
    if ran(["cc", "-print-file-name=libc.a"])[1].strip() == "libc.a":
        return "it needs libc6-dev"
    return None if library else "tools/library builds the library"


@pytest.fixture(scope="session")
def trial(pytestconfig):
    """The words of tools/release for what is given, if that is a trial."""
    option = pytestconfig.option
    return [it for name in ("object", "library") if option.__dict__[name] for it in ("--" + name, os.path.abspath(option.__dict__[name]))]


@pytest.fixture(scope="session")
def given(pytestconfig, top, library, trial):
    """The words of tools/release. The module for boards is kept once of the proved build if none is given."""
    if why := lacks(library, bool(trial)):
        pytest.skip(why)
    module = os.path.abspath(pytestconfig.option.module or top + "/rom_c.ll")
    if not pytestconfig.option.module:
        works([TOOLS + "/rom32", "--keep", module])
    return [*trial, "--module", module]


@pytest.fixture(scope="session")
def folders(top, given):
    """Two directories with the release, which is made by users with other habits."""
    made = [top + "/one", top + "/another-one"]
    for it, umask, zone in zip(made, (0o022, 0o077), ("UTC", "Pacific/Chatham")):
        # if no object file was kept, the program has to be proved once more
        works([TOOLS + "/release", "--changed", *given, it], umask=umask, env={**os.environ, "TZ": zone}, timeout=7200)
    return made


@pytest.fixture(scope="session")
def release(folders):
    """The directory of the release."""
    return folders[0]


@pytest.fixture(scope="session")
def unpacked(release, top):
    """A directory to which all archives of the release are unpacked."""
    for path in glob.glob(release + "/*.tar.gz"):
        with tarfile.open(path) as archive:
            archive.extractall(top + "/unpacked")
    return top + "/unpacked"


@pytest.fixture(scope="session")
def prefix(unpacked):
    """What the archive for this machine has."""
    return f"{unpacked}/romtool-{VERSION}-x86_64-linux"


def test_same_bytes(folders):
    """Has the same bytes each time that it is made."""
    one, other = ({name: hashlib.sha256(bytes_in(os.path.join(it, name))).hexdigest() for name in os.listdir(it)} for it in folders)
    assert one == other


def test_files(release):
    """Has the files that it is to have, with their sums."""
    wanted = ["PROVENANCE.txt", "SHA256SUMS", "romtool-%s-x86_64-linux-objects.tar.gz", "romtool-%s-x86_64-linux.tar.gz"]
    wanted += ["romtool-dev_%s_amd64.deb", "romtool-embedded-%s.tar.gz", "romtool-mount_%s_amd64.deb", "romtool_%s_amd64.deb"]
    wanted += [SHARED + "_%s_amd64.deb", "romtool-%s.crate", "romtool-python-%s.tar.gz"]
    wanted += ["romtool-%s-py3-none-manylinux_2_17_x86_64.manylinux2014_x86_64.whl"]
    wanted += [] if unproved_aarch64.lacks() else ["romtool-%s-aarch64-linux.tar.gz", "romtool-%s-aarch64-linux-objects.tar.gz"]
    assert sorted(os.listdir(release)) == sorted(it.replace("%s", VERSION) for it in wanted)
    works(["sha256sum", "--check", "--quiet", "SHA256SUMS"], cwd=release)


def test_provenance(release):
    """Says what the gate said of each crate."""
    told = text_of(release + "/PROVENANCE.txt")
    said = r"^%s: (logic=proved functions=\d+ .*sum=\w+ |kept: |nothing is known$)"
    crates = re.findall(r"^(\w+)(?: staticlib)?:", repository_text("crates.txt"), re.M)
    assert [it for it in crates if not re.search(said % it, told, re.M)] == []
    assert "A TRIAL" in told or re.findall(r"^(\w+): nothing is known$", told, re.M) == []


def test_archives(release):
    """Has archives of one directory, whose names are in order, and that have no owners."""
    for path in glob.glob(release + "/*.tar.gz"):
        with tarfile.open(path) as archive:
            entries = archive.getmembers()
        names = [it.name for it in entries]
        assert names == sorted(names), path
        assert {(it.uid, it.gid, it.uname) for it in entries} == {(0, 0, "")}, path
        assert {it.partition("/")[0] for it in names} == {os.path.basename(path).removesuffix(".tar.gz")}


def test_security(release, given, room):
    """Accepts the files by the commands of SECURITY.md, which refuse a changed program. In place of the hours of ./test the clone has a
    program that does nothing, and in place of its tools/release the one of this tree, with the same words."""
    download, clone = str(room / "a download"), str(room / "a download/checkout")
    shutil.copytree(release, download)
    works(["git", "clone", "--quiet", "--shared", TOP, clone])
    released = '#!/bin/sh\nexec %s --changed %s "$@"\n' % (shlex.quote(TOOLS + "/release"), shlex.join(given))
    commands = command_lines.commands(repository_text("SECURITY.md"))
    for it in commands:
        assert ran(["bash", "-c", it.line], cwd=download) == (0, it.output), it.line
        if it.line.startswith("git "):
            write_below(clone, {"test": "#!/bin/sh\n", "tools/release": released})
    with open(f"{download}/romtool-{VERSION}-x86_64-linux/bin/romtool", "ab") as file:
        file.write(b"changed")
    refusing = [it.line for it in commands if "sha256sum --check)" in it.line]
    assert [ran(["bash", "-c", it], cwd=download)[0] for it in refusing] == [1]


@pytest.mark.parametrize("machine", ["x86_64", "aarch64"])
def test_linked_again(unpacked, machine):
    """Links romtool-static once more of its object files, by the words beside them, with the same bytes."""
    name = f"{unpacked}/romtool-{VERSION}-{machine}-linux"
    if machine == "aarch64" and (why := unproved_aarch64.lacks()):
        pytest.skip(why)
    works(shlex.split(re.findall(r"^    (.*)$", text_of(name + "-objects/README"), re.M)[0]), cwd=name + "-objects")
    assert bytes_in(name + "-objects/romtool-static") == bytes_in(name + "/bin/romtool-static")


@pytest.mark.parametrize(("name", "more"), [("romtool", ["-L", "/usr/aarch64-linux-gnu"]), ("romtool-static", [])], ids=["plain", "static"])
def test_aarch64(release, unpacked, prefix, name, more):
    """Has the programs for aarch64, and all that the other archive has beside them, and says what of this is proved."""
    if why := unproved_aarch64.lacks():
        pytest.skip(why)
    room = f"{unpacked}/romtool-{VERSION}-aarch64-linux"
    wanted = [it for it in below(prefix) if not re.match(r"lib/|include/|bin/romtool-mount|.*/romtool-mount\.1|.*/examples/", it)]
    assert below(room) == wanted
    told, path = text_of(release + "/PROVENANCE.txt"), f"{room}/bin/{name}"
    assert "The programs for aarch64 are NOT PROVED." in told
    assert "%s for aarch64: sha256 %s\n" % (name, hashlib.sha256(bytes_in(path)).hexdigest()) in told
    if shutil.which("qemu-aarch64"):
        assert ran(["qemu-aarch64", *more, path, "help"]) == ran([f"{prefix}/bin/{name}", "help"])


# the packages and the programs


def dpkg(root, *words):
    """Returns the words that run dpkg on a root."""
    return ["dpkg", "--root=" + root, "--log=/dev/null", "--force-depends", "--force-bad-path", *words]


def install_packages(release, root):
    """Installs the packages into an empty root; without root's rights they are unpacked."""
    debs = sorted(glob.glob(release + "/*.deb"))
    if not IS_ROOT:
        for it in debs:
            works(["dpkg-deb", "-x", it, root])
        return
    for it in ("info", "updates", "triggers"):
        os.makedirs(f"{root}/var/lib/dpkg/{it}")
    put(root + "/var/lib/dpkg/status")
    works(dpkg(root, "--install", *debs))


@pytest.fixture(scope="session")
def debian(release, top):
    """A root with the packages."""
    install_packages(release, top + "/debian")
    return top + "/debian"


@needs("root", "dpkg")
def test_removed(release, room):
    """Removes the packages without a trace."""
    root = str(room / "debian")
    install_packages(release, root)
    works(dpkg(root, "--purge", "romtool", "romtool-mount", "romtool-dev", SHARED))
    assert [it for it in below(root) if not it.startswith("var/")] == []


@pytest.fixture(params=["archive", "package"])
def programs(request):
    """The directory with the programs of the archive or the packages."""
    if request.param == "archive":
        return request.getfixturevalue("prefix") + "/bin"
    return request.getfixturevalue("debian") + "/usr/bin"


@needs("fuse")
def test_mounts(programs, room):
    """Mounts an image by romtool-mount that romtool beside it built, and a file has the bytes that were packed."""
    text, here, mount = bytes(range(256)) * 33, str(room), str(room / "mount")
    os.makedirs(here + "/root/etc")
    os.mkdir(mount)
    put(here + "/root/etc/file", text)
    works([programs + "/romtool", "pack", "--quiet", "cramfs", here + "/root", here + "/image"])
    assert TOP.encode() not in bytes_in(programs + "/romtool-mount")
    assert re.findall(r"^romtool (\S+), FUSE", works([programs + "/romtool-mount", "-V"]), re.M) == [VERSION]
    try:
        works([programs + "/romtool-mount", here + "/image", mount])
        assert os.path.ismount(mount) and bytes_in(mount + "/etc/file") == text
        assert below(mount) == ["etc/", "etc/file"]
        works(["fusermount3", "-u", mount])
        assert not os.path.ismount(mount)
    finally:
        fuse.unmount(mount)


@needs("fakeroot")
def test_fakeroot(programs, room):
    """Has under fakeroot an ordinary user's devices, owners and modes in the manifest and in the image, and extracts them again."""
    put(room / "script", FAKED.encode())
    os.chmod(room, 0o777)
    how = {"cwd": room, "preexec_fn": become_nobody} if IS_ROOT else {"cwd": room}
    assert ran(["fakeroot", "sh", "script", programs + "/romtool"], **how) == (0, FAKED_LIST)


@needs("fakeroot")
@pytest.mark.parametrize("words", [["pack", "--quiet", "cramfs", "root", "image"], ["scan", "--all", "root"]], ids=["pack", "scan"])
def test_static_under_fakeroot(prefix, room, words):
    """Refuses by romtool-static to pack and to scan under fakeroot, which does not reach it."""
    os.mkdir(room / "root")
    assert ran(["fakeroot", prefix + "/bin/romtool-static", *words], cwd=room) == (3, "file root\n")


def enter(root):
    """Makes a directory the root of an ordinary user. The current directory, which is below it, stays the same."""
    os.chroot(root)
    become_nobody()


def test_stranger(debian, prefix):
    """Has an ordinary user run romtool-static in the root of the packages, on a directory of his own, by the README's first two commands.
    With root's rights nothing of this system is there: no other program, no library, no devices."""
    work, static = debian + "/work", prefix + "/bin/romtool-static"
    write_below(work, {"app/bin/init": "#!/bin/sh\n"})
    os.mkdir(work + "/app/dev")
    places = [work, work + "/app", work + "/app/bin", work + "/app/dev", work + "/app/bin/init"]
    for at in (debian, *places):
        os.chmod(at, 0o755)
    how, program = {"cwd": work}, static
    if IS_ROOT:
        for at in places:
            os.chown(at, NOBODY, NOBODY)
        shutil.copy(static, work + "/romtool-static")
        how, program = {"cwd": work, "preexec_fn": lambda: enter(debian)}, "/work/romtool-static"
    assert [it[0] for it in README] == ["pack", "check"]
    said = [ran([program, *words], stderr=subprocess.DEVNULL, **how) for words in [*README, ["cat", "app.cramfs", "/bin/init"]]]
    shutil.rmtree(work)
    assert said == [(0, "ok 4096\n"), (0, "ok cramfs 5 2\n"), (0, "#!/bin/sh\n")]


@needs("lintian")
def test_lint(release):
    """Has no error in the packages that lintian finds."""
    user = ["--allow-root"] if IS_ROOT else []
    status, said = ran(["lintian", *user, "--fail-on", "error", *sorted(glob.glob(release + "/*.deb"))])
    assert ([it for it in said.splitlines() if it.startswith("E:")], status) == ([], 0)


def test_answers(prefix):
    """Answers each case as its tests have it."""
    status, said = ran(["sh", HERE + "/pytest.sh", HERE + "/test_cases.py::test_plain", "--binary", prefix + "/bin/romtool-static"])
    assert status == 0 and re.search(r"^[1-9]\d* passed, 0 failed", said, re.M), said[-2000:]


def test_tested_program(romtool, prefix, trial):
    """Has the tested program, unless this is a trial."""
    assert trial or bytes_in(prefix + "/bin/romtool") == bytes_in(romtool.path)


# C programs and bindings


@pytest.fixture
def outside(romtool, room):
    """A directory outside the tree, with a C program and an image."""
    write_below(str(room), {"app/bin/init": "#!/bin/sh\n"})
    shutil.copy(TOP + "/tests/c/first.c", room)
    put(room / "manifest", b"dir / 0755 0 0\ndir /bin 0755 0 0\nfile /bin/init 0755 0 0 4096 app/bin/init\n")
    assert romtool("build", "cramfs", "manifest", "app.cramfs", cwd=room)[2] == 0
    return str(room)


def finds_entry(program, outside):
    """Runs the program on the image."""
    assert works([program, "app.cramfs", "/bin/init"], cwd=outside) == "at 4096 of the image: 23 21 2f 62\n"


def cc(prefix, outside, *words):
    """Compiles a program over an installation that was moved."""
    works(["cc", "-std=c99", "-I" + prefix + "/include", *words, "-o", "made"], cwd=outside)


def test_own_memory(prefix, outside):
    """Builds the program with functions over memory of its own, which take the place of those in the archive."""
    cc(prefix, outside, "first.c", TOP + "/c/heap.c", prefix + "/lib/libromtool.a")
    finds_entry(outside + "/made", outside)


def test_area(prefix, outside):
    """Builds a program over the archive with the heap over an array: a check is refused memory until the array is given."""
    put(outside + "/area.c", AREA.encode())
    cc(prefix, outside, "area.c", "-L" + prefix + "/lib", "-lromtool_area", "-lromtool")
    assert works([outside + "/made"], cwd=outside) == "15 0 0\n"


def test_shared(prefix, outside):
    """Builds the program over the shared library, which it then needs by its soname."""
    name = os.path.basename(SHARED_FILE)
    cc(prefix, outside, "first.c", "-L" + prefix + "/lib", "-l:" + name, "-Wl,-rpath," + prefix + "/lib")
    assert re.findall(r"\(NEEDED\).*\[(libromtool.*)\]", ran(["readelf", "-dW", outside + "/made"])[1]) == [name]
    finds_entry(outside + "/made", outside)


@needs("pkg-config")
def test_pkg_config(prefix, outside):
    """Builds the program by the flags that pkg-config has of the library."""
    place = {**os.environ, "PKG_CONFIG_PATH": prefix + "/lib/pkgconfig"}
    assert ran(["pkg-config", "--modversion", "romtool"], env=place) == (0, VERSION + "\n")
    flags = works(["pkg-config", "--cflags", "--libs", "romtool"], env=place)
    works(["cc", "-std=c99", "-Wall", "-Werror", "first.c", *shlex.split(flags), "-o", "made"], cwd=outside)
    finds_entry(outside + "/made", outside)


@needs("cmake")
def test_cmake(prefix, outside):
    """Builds the program by CMake's find_package. A later major version is not found."""
    for version, wanted in ((str(int(VERSION.partition(".")[0]) + 1), 1), (VERSION, 0)):
        put(outside + "/CMakeLists.txt", CMAKE.format(version=version).encode())
        assert ran(["cmake", "-S", ".", "-B", "made-" + version, "-DCMAKE_PREFIX_PATH=" + prefix], cwd=outside)[0] == wanted
    works(["cmake", "--build", f"{outside}/made-{VERSION}"])
    finds_entry(f"{outside}/made-{VERSION}/first", outside)


@pytest.mark.parametrize(("name", "made"), [
    (f"romtool-{VERSION}.crate", bindings.crate), (f"romtool-python-{VERSION}.tar.gz", bindings.package),
], ids=["crate", "python"])  # fmt: skip
def test_sources(release, name, made):
    """Has the sources that test_rust.py and test_python.py test, with the licence."""
    with tarfile.open(os.path.join(release, name)) as archive:
        folder = name.removesuffix(".crate").removesuffix(".tar.gz") + "/"
        found = {it.name.removeprefix(folder): archive.extractfile(it).read() for it in archive.getmembers() if it.isfile()}
    assert found == {path: data for path, (data, _) in made().items()}
    assert found["LICENSE"] == bytes_in(TOP + "/LICENSE")


def test_wheel(release, prefix):
    """Has a wheel with the shared library."""
    library = bytes_in(os.path.join(prefix, SHARED_FILE))
    (wheel,) = glob.glob(release + "/*.whl")
    assert (os.path.basename(wheel), bytes_in(wheel)) == bindings.wheel(library, tarball.time_of_release())
    with zipfile.ZipFile(wheel) as archive:
        assert archive.read("romtool/libromtool.so") == library
