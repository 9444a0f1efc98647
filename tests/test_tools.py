"""Tests the tools of tools/, and the words of ./test: each edit of tests/edits/ can be applied, `./test --changed` finds the crates
that a change concerns, and with another kit the tools run the toolchain's own `rt`. tools/try says what is missing, builds once for the
same sources, and shows what the program prints (that of --binary); docs/terminal.svg is a picture of it.
"""

import glob
import importlib.machinery
import importlib.util
import os
import re
import shutil
import subprocess
import sys
from xml.etree import ElementTree as tree

import command_lines
import pytest
from files import put, text_of
from harness import HERE, TOP
from users import NOBODY

SVG = "{http://www.w3.org/2000/svg}"
TOOLS = os.path.join(TOP, "tools")
EDITS = os.path.join(HERE, "edits")
sys.path.insert(0, TOOLS)

import kit  # noqa: E402

needs_rt = pytest.mark.needs("rt")


@needs_rt
@pytest.mark.parametrize("crate", sorted(it for it in os.listdir(EDITS) if glob.glob(f"{EDITS}/{it}/*.edit")))
def test_edits(crate):
    """Applies each edit of tests/edits/ to its crate, so that tools/edits can try it."""
    read = kit.loaded().read_edit
    found = {os.path.basename(path): read(path, f"{TOP}/crates/{crate}")[1] for path in glob.glob(f"{EDITS}/{crate}/*.edit")}
    assert {name: why for name, why in found.items() if why is not None} == {}


OTHER_KIT = """#!/usr/bin/env python3
import os, sys, types
KIT = os.path.dirname(os.path.realpath(__file__))
rtlib = types.SimpleNamespace(Crate=object)
if __name__ == "__main__":
    print("plain rt", *sys.argv[1:])
"""


@needs_rt
def test_other_kit(room):
    """Says that it is another kit than the tools name, and runs the toolchain's own `rt`."""
    put(room / "rt", OTHER_KIT.encode(), 0o755)
    put(room / "KIT-ID", b"rattle-kit-of-tomorrow\n")
    environment = {**os.environ, "PATH": f"{room}:{os.environ['PATH']}"}
    ran = subprocess.run([TOOLS + "/rt", "check", "--jobs", "1"], capture_output=True, text=True, env=environment)
    assert (ran.stdout, ran.returncode) == ("plain rt check --jobs 1\n", 0)
    assert "and this is rattle-kit-of-tomorrow" in ran.stderr


def script(path):
    """Returns a script as a module."""
    name = os.path.basename(path) + "_script"
    loader = importlib.machinery.SourceFileLoader(name, path)
    made = importlib.util.module_from_spec(importlib.util.spec_from_loader(name, loader))
    loader.exec_module(made)
    return made


@pytest.fixture(scope="session")
def gate():
    """The script ./test as a module."""
    return script(TOP + "/test")


ROWS = "low:\nside:\nmiddle: low byteorder\nffi staticlib: middle\ntop: side middle\n"


def test_rows(gate):
    """Reads the rows of a crates.txt."""
    rows = gate.rows_of(ROWS)
    assert (rows["middle"], rows["ffi"]) == (["low", "byteorder"], ["middle"])


@pytest.mark.parametrize(("found", "wanted"), [
    ({"low"}, ["low", "middle", "ffi", "top"]), ({"side"}, ["side", "top"]), ({"ffi"}, ["ffi"]), (set(), []),
], ids=["low", "side", "ffi", "none"])  # fmt: skip
def test_changed(gate, found, wanted):
    """Proves by `./test --changed` a crate that differs from a commit, and each crate that depends on it, and no other one."""
    assert gate.with_dependents(found, gate.rows_of(ROWS)) == wanted


# a tools/unproved that notes its runs, and fails while there is a file `broken`
BUILDING = """#!/bin/sh
top=$(dirname "$(dirname "$0")")
echo run >>"$top/runs"
if [ -e "$top/broken" ]; then echo the reason; exit 1; fi
echo program >"$1"
chmod 755 "$1"
"""
# a romtool whose images have a program that is not in place
MISPLACING = """#!/bin/sh
case $1 in
map) echo 0x00001004 8 0 /bin/busybox; echo 0x00001004 8 0 /bin/true ;;
xip) echo xip /bin/busybox 0x00001004 1 0 0; echo xip /bin/true 0x00001004 1 0 0 ;;
esac
"""


class Trial:
    """A small repository, in a directory whose name has a space, with tools/try and a tools/unproved that only notes its runs."""

    def __init__(self, folder):
        self.top, self.kit = f"{folder}/a clone", f"{folder}/kit"
        for name in ("tools", "crates/low/src", "crates/low/specs", "crates/low/proofs", "../kit"):
            os.makedirs(f"{self.top}/{name}")
        for name in ("try", "kit.py"):
            shutil.copy(f"{TOOLS}/{name}", f"{self.top}/tools")
        put(f"{self.top}/tools/unproved", BUILDING.encode(), 0o755)
        put(f"{self.kit}/rt", OTHER_KIT.encode(), 0o755)
        for path in (
            f"{self.top}/crates.txt",
            f"{self.kit}/KIT-ID",
            *(f"{self.top}/crates/low/{it}/a" for it in ("src", "specs", "proofs")),
        ):
            put(path, b"one\n")
        for at, _, _ in os.walk(folder):
            os.chmod(at, 0o777)

    def run(self, *words, path="", user=0):
        """Runs tools/try in another directory as a user, and returns its status and all that it prints."""
        how = {"stdin": subprocess.DEVNULL, "stdout": subprocess.PIPE, "stderr": subprocess.STDOUT, "text": True, "cwd": self.kit}
        how |= {"user": user, "group": user, "extra_groups": []} if user else {}
        python = "/usr/bin/python3" if user else sys.executable
        environment = {**os.environ, "PATH": path or f"{self.kit}:{os.environ['PATH']}"}
        done = subprocess.run([python, f"{self.top}/tools/try", *words], env=environment, **how)
        return done.returncode, done.stdout

    def builds(self):
        """Returns how often tools/unproved was run."""
        return len(text_of(f"{self.top}/runs").splitlines()) if os.path.exists(f"{self.top}/runs") else 0


@pytest.fixture
def trial(room):
    """A small repository."""
    return Trial(str(room))


@pytest.fixture
def built(trial):
    """The same, with a program that was built."""
    assert trial.run("--build")[0] == 0 and trial.builds() == 1
    return trial


def test_without_rt(trial):
    """Says by tools/try what is missing before it builds."""
    status, said = trial.run("--build", path="/nowhere")
    assert re.search(r"^tools/try: missing: rt: .*rattle-kit", said, re.M), said
    assert (status, trial.builds(), os.path.exists(f"{trial.top}/out")) == (1, 0, False)


@pytest.mark.parametrize(("path", "text", "wanted"), [
    pytest.param(None, "", 1, id="same"), pytest.param("crates/low/src/a", "two", 2, id="source"),
    pytest.param("crates/low/specs/a", "two", 2, id="definition"), pytest.param("crates/low/proofs/a", "two", 1, id="proof"),
    pytest.param("crates.txt", "two", 2, id="crates"), pytest.param("../kit/KIT-ID", "two", 2, id="kit"),
    pytest.param("crates/low/src/b", "", 2, id="new file"),
])  # fmt: skip
def test_builds(built, path, text, wanted):
    """Builds by tools/try once for the same sources."""
    if path:
        put(f"{built.top}/{path}", text.encode())
    status, said = built.run("--build")
    made = said.splitlines()[-1]
    assert (status, built.builds(), made) == (0, wanted, f"{built.top}/out/unproved/romtool"), said
    assert text_of(made) == "program\n"


def test_failed_build(built):
    """Keeps nothing of a build that fails, and the program of the build before."""
    put(f"{built.top}/broken")
    put(f"{built.top}/crates/low/src/a", b"three")
    for wanted in (2, 3):
        status, said = built.run("--build")
        assert (status, built.builds(), "the reason" in said) == (1, wanted, True), said
    put(f"{built.top}/crates/low/src/a", b"one\n")
    assert (built.run("--build")[0], built.builds()) == (0, 3)


def test_misplaced(trial, room):
    """Notices by tools/try a program that is not in place."""
    put(room / "misplacing", MISPLACING.encode(), 0o755)
    status, said = trial.run("--program", room / "misplacing")
    assert status == 1 and said.splitlines()[-1].endswith("is NOT executed in place"), said


@pytest.fixture
def example(romtool, trial, room):
    """Returns the status of tools/try for a user, and what it prints of the program."""
    shutil.copy(romtool.path, room / "romtool")
    os.chmod(room, 0o755)
    return lambda user: trial.run("--program", room / "romtool", user=user)


@pytest.mark.parametrize("user", [0, pytest.param(NOBODY, marks=pytest.mark.needs("root"))], ids=["own", "nobody"])
def test_example(example, user):
    """Shows by tools/try a real program that is in place, also for an ordinary user."""
    status, said = example(user)
    places = [int(it, 16) for it in re.findall(r"^(0x\w+) \d+ 0 /bin/\w+$", said, re.M)]
    found = re.findall(r"^xip /bin/\w+ (0x\w+) (\d+) \d+ \d+$", said, re.M)
    assert status == 0 and len(places) == 1 and places[0] % 4096 == 0, said
    assert [int(it[0], 16) for it in found] == places and int(found[0][1]) > 0, said


def test_terminal(example):
    """Has in docs/terminal.svg what tools/terminal makes of what tools/try prints, and its lines. With another busybox than Debian's
    its numbers are not compared."""
    said = re.sub(r"^tools/try: missing: .*\n", "", example(0)[1], flags=re.M)
    made = subprocess.run([f"{TOOLS}/terminal"], input=said, capture_output=True, text=True).stdout
    kept, texts = text_of(f"{TOP}/docs/terminal.svg"), tree.fromstring(made).iter(f"{SVG}text")
    assert "".join(it.text + "\n" for it in texts if it.text) == re.sub(r"\n\n+", "\n", said)
    if not re.search(r"^ok cramfs 8 2$", said, re.M) or not re.search(r"^\$ cp /usr/bin/busybox ", said, re.M):
        pytest.skip("there is no /usr/bin/busybox")
    if " 1982256 " in said:
        assert kept == made
    else:
        assert command_lines.unnamed_numbers(kept) == command_lines.unnamed_numbers(made)


def test_packages(gate, room, monkeypatch):
    """Names by `./test --quick` the packages that are not installed."""
    put(room / "dpkg-query", b"#!/bin/sh\necho black installed\necho make config-files\n", 0o755)
    monkeypatch.setenv("PATH", str(room))
    assert gate.absent_packages() == text_of(f"{HERE}/packages-quick").replace("black\n", "").split()


def test_no_packages(gate, monkeypatch):
    """Names none if nothing says which packages are installed."""
    monkeypatch.setenv("PATH", "/nowhere")
    assert gate.absent_packages() == []


# words of `./test` and of the tools, and their status
WORDS = {
    "test --help": 0, "test --fast": 2, "test --quick --complete": 2, "tools/try --help": 0, "tools/try --fast": 2,
    "tools/library --help": 0, "tools/edits --help": 0, "tools/unproved --help": 2, "tools/install --help": 0, "tools/release --help": 0,
    "tools/completions.py": 2, "tools/rom32 --help": 0, "tools/rom32": 2, "tools/rom32 i386": 2, "tools/page --help": 0,
    "tools/manual --help": 0, "tools/embedded --help": 0, "tools/clauses --help": 2, "tools/goals --help": 2, "tools/terminal": 2,
}  # fmt: skip


@needs_rt
@pytest.mark.parametrize(("words", "status"), WORDS.items(), ids=WORDS)
def test_words(words, status):
    """Says what the words of `./test` or a tool are, and does nothing, at words that it does not have."""
    name, *more = words.split()
    ran = subprocess.run([f"{TOP}/{name}", *more], capture_output=True, text=True)
    assert ran.returncode == status and name in ran.stdout + ran.stderr


@needs_rt
@pytest.mark.parametrize(
    ("line", "wanted"),
    [(1, ("free", "")), (6, ("len", "ImageTree")), (8, ("len", "ImageTree")), (None, None)],
    ids=["function", "impl", "end", "none"],
)
def test_goals(line, wanted):
    """Knows by tools/goals which functions an edit changes, and where their proofs are."""
    text = "fn free() {\n    1\n}\n\nimpl<'a, T: Tree<'a>> Tree for Image<T> {\n    fn len(&self) -> usize {\n        0\n    }\n}\n"
    names_of = script(TOOLS + "/goals").names_of
    assert (names_of(["use x;"], 0) if line is None else names_of(text.split("\n"), line)) == wanted
