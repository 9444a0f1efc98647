"""Tests the package for Python of bindings/python over the library for C.

The shared library is made of the archive by the commands of the package's README, if --shared names no other. Each test
of the package (tests/small.py) is run, without warnings. The structs have the sizes and offsets that a C program prints of the
header, and the words of errors, the names of faults and the version are those of the header. Then tests/answers.py answers
`check`, `list`, `map` and `cat` on the cases (see run.py) and on one directory in each format as romtool does, walks over the
same paths, and has the same errors as a server, and tests/paths.py finds of a packed directory what pathlib finds in it. Many files
of one directory are read in linear time, by paths, entries and patterns. The example addresses.py is run on each format. If
setuptools, wheel and pip are installed, a wheel is built, installed and used; without the library that ends with an error. So is the
wheel that a release has, which is compared with the one that setuptools makes of the sources in a release.
"""

import base64
import ctypes
import email
import glob
import hashlib
import importlib.util
import os
import re
import shutil
import sys
import tarfile
import tempfile
import zipfile

import c
import pytest
import sentences
from files import put, repository_text, text_of
from harness import SECONDS
from romtool import entries_of, escaped, pieces_of, prints, raw

sys.path.insert(0, os.path.join(c.TOP, "tools"))

import bindings  # noqa: E402
import installation  # noqa: E402
import tarball  # noqa: E402

PACKAGE = os.path.join(c.TOP, "bindings", "python")
TIME = 1700000000
PIP = [sys.executable, "-m", "pip", "--disable-pip-version-check"]
WHEEL = ["wheel", "--quiet", "--no-deps", "--no-build-isolation", "--no-index", "-w"]
HEADER = text_of(c.INCLUDE + "/romtool.h")
LOST = [it for it in ("pip", "setuptools", "wheel") if not importlib.util.find_spec(it)]
by_pip = pytest.mark.skipif(bool(LOST), reason="it needs %s" % " and ".join(LOST))
each_form = pytest.mark.parametrize("form", c.FORMATS)
# the paths and requests on a directory in each format, whose errors are compared
PATHS = (
    "/", "/init", "/d/link", "/d/null", "/d", "/d/", "/d/../init", "/init/", "/init/x", "/none", "/d/none", "-", "init", "/%FF", "/%00",
    "/loop", "/" + "n" * 255, "/" + "n" * 256, "/" * 4095, "/" * 4096, "/d/null/x", "/d/link/x",
)  # fmt: skip
REQUESTS = ("lookup", "stat", "lstat", "readlink", "open")


def module(name):
    """Returns a module of the package by itself. (The package has the name of a module of this directory.)"""
    spec = importlib.util.spec_from_file_location("python_" + name, os.path.join(PACKAGE, "romtool", name + ".py"))
    made = importlib.util.module_from_spec(spec)
    spec.loader.exec_module(made)
    return made


LIBRARY, ERRORS = module("_library"), module("_errors")
STRUCTS = {it: re.findall(r"(\w+);", re.sub(r"/\*.*?\*/", "", body, flags=re.S)) for it, body in re.findall(
    r"^struct romtool_(\w+) \{\n(.*?)^\};", HEADER, re.M | re.S
)}  # fmt: skip


@pytest.fixture(scope="session")
def top(romtool, counts):
    """A directory with c.py's directory in each format, with a link that leads to itself."""
    with tempfile.TemporaryDirectory(prefix="romtool-") as folder:
        c.build_all(romtool.path, folder, counts)
        put(folder + "/manifest", c.MANIFEST + b"slink /loop 0777 0 0 loop\n")
        for form in c.FORMATS:
            assert romtool("build", form, "manifest", form, cwd=folder)[2] == 0
        yield folder


def shared_library(archive, last, made, counts):
    """Makes the shared library of an archive by the README's command which ends so."""
    line = re.search(r"^    \$ (cc -shared .*%s)$" % re.escape(last), repository_text("bindings/python/README.md"), re.M)[1]
    others = {"libromtool.so": made, "libromtool.a": archive, "crates/rom_c/out/librom_c.a": archive, "-Iinclude": "-I" + c.INCLUDE}
    c.compiled([{**others, "c/heap.c": c.HEAPS + "/heap.c"}.get(it, it) for it in line.split(" ")], counts)
    return made


@pytest.fixture(scope="session")
def shared(request, pytestconfig, top, counts):
    """The shared library."""
    if pytestconfig.option.shared:
        return os.path.abspath(pytestconfig.option.shared)
    return shared_library(request.getfixturevalue("archive"), "c/heap.c", top + "/libromtool.so", counts)


@pytest.fixture(scope="session")
def no_other(pytestconfig):
    """Skips what is made of the archive if --shared names another library."""
    if pytestconfig.option.shared:
        pytest.skip("there is only the shared library")


@pytest.fixture(scope="session")
def python(romtool, top):
    """Runs the interpreter with the package over a shared library, and returns what it prints, and its status; a warning is an error."""

    def ran(shared, *words, path=PACKAGE, **more):
        env = {**os.environ, "ROMTOOL": romtool.path, "ROMTOOL_LIBRARY": shared, "PYTHONPATH": path, "PYTHONDONTWRITEBYTECODE": "1"}
        return c.said([sys.executable, "-W", "error", *words], **{"env": env, "timeout": 5 * SECONDS, "cwd": top, **more})

    return ran


# the package and the header


def test_own(python, shared):
    """Runs the package's own tests."""
    text = python(shared, PACKAGE + "/tests/small.py").stdout.decode(errors="replace")
    assert re.search(r"^Ran (\d+) tests in .*\n\nOK$", text, re.M), "\n".join(text.splitlines()[-40:])


@pytest.mark.needs("cc")
def test_layout(room, counts):
    """Compares the layout of the structs with that which a compiler gives those of the header."""
    lines, wanted = [], []
    for name, struct in LIBRARY.STRUCTS.items():
        lines.append('printf("%s %%zu\\n", sizeof(struct romtool_%s));' % (name, name))
        wanted.append("%s %d" % (name, ctypes.sizeof(struct)))
        for field, _ in struct._fields_:
            place = "offsetof(struct romtool_%s, %s), sizeof(((struct romtool_%s *)0)->%s)" % (name, field, name, field)
            lines.append('printf("%s.%s %%zu %%zu\\n", %s);' % (name, field, place))
            found = getattr(struct, field)
            wanted.append("%s.%s %d %d" % (name, field, found.offset, found.size))
    text = '#include <stdio.h>\n#include "romtool.h"\nint main(void) {\n%s\nreturn 0;\n}\n' % "\n".join(lines)
    put(room / "layout.c", text.encode())
    c.compiled(["cc", "-std=c99", *c.STRICT, str(room / "layout.c"), "-o", str(room / "layout")], counts)
    assert c.said([room / "layout"]).stdout.decode().splitlines() == wanted


def test_faults():
    """Compares the names of the faults."""
    assert ERRORS.FAULTS == {number: name for number, (name, _) in sentences.FAULTS.items()}


def test_errors():
    """Compares the words of errors."""
    constants = {name: int(number) for name, number in re.findall(r"#define (ROMTOOL_\w+) (\d+)u\b", HEADER)}
    words = {constants[name]: said for name, said in re.findall(r'case (ROMTOOL_\w+): return "(.*)";', HEADER)}
    others = {0, *(constants["ROMTOOL_" + it] for it in ("CLOSED", "FAULT", "MEMORY", "NUMBERS"))}
    assert {it: said for it, (_, said) in ERRORS._ERRORS.items()} == {it: words[it] for it in words if it not in others}


@pytest.mark.parametrize("struct", STRUCTS)
def test_fields(struct):
    """Compares the fields of a struct."""
    assert [it for it, _ in LIBRARY.STRUCTS[struct]._fields_] == STRUCTS[struct]


def test_calls():
    """Compares the calls, and those that have a number."""
    assert set(LIBRARY.CALLS) == set(re.findall(r"^\w+ (?:romtool_\w+ )?(romtool_\w+)\(", HEADER, re.M))
    symbols = set(re.findall(r'ROMTOOL_(?:SYMBOL|RETURNS)\("(\w+)"\);', HEADER))
    assert symbols | LIBRARY.SAME == set(LIBRARY.CALLS)


def test_version():
    """Compares the version, and the number of the interface."""
    assert LIBRARY.MAJOR == int(re.search(r"^#define ROMTOOL_INTERFACE (\d+)$", HEADER, re.M)[1])
    version = re.search(r'^__version__ = "(.*)"$', text_of(PACKAGE + "/romtool/__init__.py"), re.M)
    assert version[1] == re.search(r'#define ROMTOOL_VERSION_TEXT "(.*)"', HEADER)[1]


# images


def asked(python, shared, folder, requests):
    """Returns the answers of the package to words: their statuses and what they print."""
    text = "".join(" ".join(it) + "\n" for it in requests)
    done = python(shared, PACKAGE + "/tests/answers.py", cwd=folder, input=text.encode())
    lines = [it.split(" ") for it in done.stdout.decode(errors="replace").splitlines()]
    assert (done.returncode, len(lines)) == (0, len(requests)), done.stdout[-2000:]
    return [(int(status), bytes.fromhex(said.replace("-", ""))) for status, said in lines]


def compare(romtool, python, shared, folder, names):
    """Checks, lists, maps, walks and reads images; the program prints on standard error if it prints nothing else."""
    requests, wanted = [], []

    def ask(*words):
        out, err, status = romtool(*words, cwd=folder)
        requests.append(words)
        wanted.append((status, out or err))

    for name in names:
        for word in ("check", "map", "list"):
            ask(word, name)
        status, printed = wanted[-1]
        entries = [] if status else entries_of(printed)
        for kind, most in (("f", 5), ("d", 1), ("l", 2), ("c", 1), ("p", 1)):
            for it in [it for it in entries if "%" not in it.path and it.kind == kind][:most]:
                ask("cat", name, it.path)
        if not status:
            requests.append(("walk", name))
            wanted.append((0, prints(*map(escaped, sorted(raw(it.path) for it in entries)))[0]))
    got = asked(python, shared, folder, requests)
    assert [it for it in zip(requests, got, wanted) if it[1] != it[2]] == []


def test_images(romtool, python, shared, room):
    """Reads the images of the cases: some thousand requests."""
    compare(romtool, python, shared, room, c.images_of_cases(str(room)))


@each_form
def test_formats(romtool, python, shared, top, form):
    """Reads the image of a directory in each format."""
    compare(romtool, python, shared, top, [form])


@each_form
@pytest.mark.parametrize("word", REQUESTS)
def test_replies(romtool, python, shared, top, form, word):
    """Compares what paths lead to, and their errors, with what a server replies."""
    got = asked(python, shared, top, [(word, form, "" if path == "-" else path) for path in PATHS])
    for path, (status, printed) in zip(PATHS, got):
        asked_for = "/init" if path == "init" else path  # the package anchors a path at the root
        said = romtool("serve", form, cwd=top, input=("%s %s\n" % (word, asked_for)).encode())[0].split()
        if said[0] == b"ok" and word in ("readlink", "open"):
            said = [b"ok", *said[3:]]
        assert (status, printed.split()) == (0 if said[0] == b"ok" else 1, said), path[:20]


@each_form
def test_addresses(romtool, python, shared, top, form):
    """Compares an address with that of the map by the example addresses.py."""
    piece = next(it for it in pieces_of(romtool("map", "--base", "8000000", form, cwd=top)[0]) if it.path == "/init")
    example = [PACKAGE + "/examples/addresses.py", form, "0x08000000"]
    done = python(shared, *example, "/init=" + piece.address)
    assert (done.returncode, done.stdout.decode()) == (0, "/init %s\n" % piece.address)
    done = python(shared, *example, "/init=0x08000001")
    told = b"AssertionError: /init is at %s, not at 0x08000001" % piece.address.encode()
    assert (done.returncode, done.stdout.splitlines()[-1]) == (1, told)


def source_directory(top):
    """Makes a directory with links, names of one file, dots in names and a name of other letters."""
    for name in ("d/e/f", "d/.h", "empty", "d/x.y"):
        os.makedirs(os.path.join(top, name))
    for name in ("motd", "d/a.tar.gz", "d/b.txt", "d/e/c.txt", "d/.h/.hidden", "d/e/f/a space", "d/e/\u00fc.txt", "d/x.y/deep.txt"):
        with open(os.path.join(top, name), "w", encoding="utf-8") as file:
            file.write(name * len(name))
    os.link(top + "/motd", top + "/d/again")
    for name, text in (("d/link", "../motd"), ("up", "d/e"), ("none", "nowhere"), ("loop", "loop"), ("through", "motd/x")):
        os.symlink(text, os.path.join(top, name))


PATTERNS = ("*", "*.txt", "d/*", "*/*", "d/**/*.txt", "**/e/*", "d/b.txt", "d/../motd", "?otd", "[ad]*", "x*", "**/e/**/*", "./d/./*",
            "none/x", "motd/*", "up/*", "*/f/*", "[!a-m]*", "d/*.*")  # fmt: skip


@each_form
def test_pathlib(romtool, python, shared, room, form):
    """Compares the paths of a packed directory, and what they lead to, with what pathlib finds in it: a thousand answers at least."""
    os.mkdir(room / "source")
    source_directory(str(room / "source"))
    assert romtool("pack", "--quiet", form, "source", form, cwd=room)[2] == 0
    done = python(shared, PACKAGE + "/tests/paths.py", form, "source", *PATTERNS, cwd=room)
    found = re.fullmatch(rb"(\d+) answers\n", done.stdout)
    assert done.returncode == 0 and found and int(found[1]) >= 1000, done.stdout[-2000:]


# the times of reading all files of a directory by paths, by entries and by a pattern
READING = """import sys, time, romtool
for name in sys.argv[1:]:
    image = romtool.Image(name)
    for files in ((image.read("/" + it) for it in image.listdir()), (it.read() for it in image.scandir()),
                  (it.read_bytes() for it in image.root.rglob("*"))):
        start = time.process_time()
        print(sum(map(len, files)), time.process_time() - start)
"""


def test_linear_time(romtool, python, shared, room):
    """Reads eight times as many files of a directory in less than 24 times as long: without the numbers of nodes it would be 64 times."""
    put(room / "one", b"x")
    for name, many in (("few", 5000), ("many", 40000)):
        put(room / (name + ".manifest"), b"".join(b"file /n%05d 0644 0 0 4 one\n" % it for it in range(many)))
        assert romtool("build", "romfs", name + ".manifest", name, cwd=room)[2] == 0
    lines = [it.split() for it in python(shared, "-c", READING, "few", "many", cwd=room).stdout.splitlines()]
    assert [int(count) for count, _ in lines] == [5000] * 3 + [40000] * 3
    times = [float(time) for _, time in lines]
    for way, few, many in zip(("paths", "entries", "a pattern"), times, times[3:]):
        assert many < 24 * few, way


# packages


def installed(python, room, top, made):
    """Installs a wheel into an empty directory, from which the package is imported and used without a word on the library."""
    done = c.said([*PIP, "install", "--quiet", "--no-index", "--no-deps", "--target", room / "new", made], timeout=5 * SECONDS)
    assert done.returncode == 0, done.stdout.decode(errors="replace")
    code = "import romtool, sys; print(romtool.__file__.startswith(sys.argv[1]), romtool.Image('romfs').listdir())"
    done = python("", "-c", code, str(room / "new"), path=str(room / "new"))
    assert done.stdout == b"True ['d', 'empty', 'init', 'loop']\n"
    assert os.path.exists(room / "new/romtool/py.typed")


@pytest.fixture
def package(room):
    """A copy of the package."""
    left_out = shutil.ignore_patterns("build", "*.egg-info", "__pycache__", "libromtool.so")
    return shutil.copytree(PACKAGE, room / "package", ignore=left_out)


@by_pip
@pytest.mark.parametrize(("library", "why"), [(None, b"romtool: there is no libromtool.so"), ("libc.so.6", b"lacks romtool_check")])
def test_no_wheel(room, package, library, why):
    """Builds no wheel without the library, or with the functions of another one, and says so."""
    env = {it: value for it, value in os.environ.items() if it != "ROMTOOL_LIBRARY"} | ({"ROMTOOL_LIBRARY": library} if library else {})
    done = c.said([*PIP, *WHEEL, room / "made", package], timeout=5 * SECONDS, env=env)
    assert done.returncode and why in done.stdout, done.stdout


def built(room, sources, shared):
    """Builds a wheel without a network, and returns its path."""
    done = c.said([*PIP, *WHEEL, room / "made", sources], timeout=5 * SECONDS, env={**os.environ, "ROMTOOL_LIBRARY": shared})
    found = glob.glob("%s/made/romtool-*-py3-none-linux_%s.whl" % (room, os.uname().machine))
    assert (done.returncode, len(found)) == (0, 1), done.stdout.decode(errors="replace")
    return found[0]


@by_pip
def test_wheel(python, shared, top, room, package):
    """Builds a wheel, installs and uses it."""
    installed(python, room, top, built(room, package, shared))


def test_archive_of_release(no_other, python, archive, room, counts):
    """Uses the shared library that is made of the archive of a release."""
    put(room / "whole.a", installation.whole_archive(archive))
    made = shared_library(str(room / "whole.a"), "no-whole-archive", str(room / "release.so"), counts)
    assert python(made, "-c", "import romtool; print(romtool.Image('romfs').format)").stdout == b"romfs\n"


def told(files):
    """Returns the metadata of a wheel by its files: the fields that describe the package."""
    text = next(held for it, held in files.items() if it.endswith("/METADATA")).decode()
    head = email.message_from_string(text)
    return {it: head.get_all(it) for it in ("Name", "Version", "Summary", "License", "Requires-Python", "Classifier", "License-File")}


class Release:
    """The packages of a release in a directory: the path of the wheel, its files, the shared library, and the path of the sources."""

    def __init__(self, archive, room):
        shared, _ = installation.library_files(archive)["lib/libromtool.so." + installation.interface()]
        name, held = bindings.wheel(shared, TIME)
        sources = "romtool-python-" + installation.version()
        self.wheel, self.shared, self.sources = room / name, str(room / "libromtool.so"), room / sources
        put(self.wheel, held)
        put(self.shared, shared)
        put(room / "sources.tar.gz", tarball.tar(sources, bindings.package(), TIME))
        self.files = files_of(self.wheel)


def files_of(wheel):
    """Returns the files of a wheel."""
    with zipfile.ZipFile(wheel) as file:
        return {it: file.read(it) for it in file.namelist()}


@pytest.fixture
def release(no_other, archive, room):
    """The packages of a release."""
    return Release(archive, room)


def test_record(release):
    """Compares the record of the wheel of a release with its files."""
    (record,) = (it for it in release.files if it.endswith("/RECORD"))
    lines = [it.split(",") for it in release.files[record].decode().splitlines()]
    sums = {it: base64.urlsafe_b64encode(hashlib.sha256(held).digest()).decode().rstrip("=") for it, held in release.files.items()}
    wanted = sorted([it, "sha256=" + sums[it], str(len(held))] for it, held in release.files.items() if it != record)
    assert sorted(it for it in lines if it[0] != record) == wanted


@by_pip
def test_wheel_of_release(python, release, top, room):
    """Installs and uses the wheel of a release."""
    installed(python, room, top, release.wheel)


@by_pip
def test_sources_of_release(release, room):
    """Compares the wheel of a release with the one that setuptools makes of the sources: its files, and its metadata."""
    with tarfile.open(room / "sources.tar.gz") as file:
        file.extractall(room)
    other = files_of(built(room, release.sources, release.shared))
    modules = [{it: held for it, held in files.items() if it.startswith("romtool/")} for files in (release.files, other)]
    assert modules[0] == modules[1]
    assert told(release.files) == told(other)
