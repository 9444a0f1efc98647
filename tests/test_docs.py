"""Checks that the documents say what is there.

- Each command line of a document is run as an ordinary user, or command_lines.py says why it is not; those of the README also as
  root. They have to print what the document shows, and each option that a document shows of a subcommand has to be one of it.
- Each line of a block that is marked `from=FILE` has to be in that file, in this order.
- Each link has to lead to a file that exists, and to a heading of it.
- Each function that is named by its crate has to exist, and others can name it so. Each function and type of a promise in the first
  comment of a lib.rt has to be declared in its crate, a method in its type. Each library but one of tests has a promise.
- The picture in ARCHITECTURE is what tools/picture makes. tools/tables has a line for each crate and each file of definitions, and
  tools/reading_list prints its list, whose size PROVED has. PROVED has the list of crates that `tools/tables promises --write` makes.
  tests/clauses.txt is what tools/clauses prints.
- The table of parts in GATE.md has to name the parts of tests/parts, in any order; these have each file of tests. That of calls in
  ARCHITECTURE.md has to name each command, and files of `romtool`.
- Each fault of the table in tools/faults.py has a section and a phase in FAULTS.md, and a row in FORMATS.md. For each format of
  its rows a case of tests/cases has it. What is made of the table has to be as `tools/tables faults` writes it.
- The guide for new faults in CONTRIBUTING.md has to name each file that mentions the newest fault, except those that are made.
"""

import functools
import glob
import os
import re
import subprocess
import sys

import command_lines
import pytest
from files import repository_text as text_of
from harness import HERE, TOP
from run import load
from users import IS_ROOT, NOBODY

sys.path.insert(0, os.path.join(TOP, "tools"))

import faults  # noqa: E402
import promises  # noqa: E402

BLOCK = re.compile(r"^```\w+ from=(\S+)\n(.*?)^```$", re.M | re.S)
LINK = re.compile(r"\]\(([^)\s]+)\)")
# what documents name of the toolchain
FOREIGN = ("std", "core", "io", "fs", "std_io", "clap")
# where a name is declared, or a trait of std is given to a type
DECLARED = r"\b(?:fn|struct|enum|trait|type|const|mod) %s\b|\bimpl(?:<[^{;]*>)? %s for "
GUIDE = "CONTRIBUTING.md"
# whose commands need the library for C
OF_LIBRARY = ("docs/C.md",)
# the commands that call next to nothing
SHORT = {"help", "version"}
# the library that has only tests and examples
WITHOUT_PROMISES = "library_tests"
# what a new fault changes without naming it
UNNAMED = ("CHANGELOG.md",)


def documents():
    """Returns the documents, by their paths in the repository."""
    folders = ("", "docs/", "docs/internals/", "bench/", "crates/*/", "bindings/*/", "recipes/", "tests/*/", "web/")
    found = [it for folder in folders for it in glob.glob("%s/%s*.md" % (TOP, folder))]
    return sorted(os.path.relpath(it, TOP) for it in found)


each_document = pytest.mark.parametrize("name", documents())


# commands, options, quotes and links

# the documents with commands, each with the users that run them; root is 0, and so is whoever runs this otherwise
RUN = [
    pytest.param(name, user, id=f"{name} {'by root' if user == 0 and IS_ROOT else ''}".strip())
    for name in documents()
    if name not in OF_LIBRARY and (command_lines.commands(text_of(name)) or name in command_lines.SPOKEN)
    for user in ([NOBODY, 0] if IS_ROOT and name == "README.md" else [NOBODY if IS_ROOT else 0])
]


@pytest.mark.parametrize(("name", "user"), RUN)
def test_commands(romtool, counts, name, user):
    """Runs the command lines of a document as an ordinary user, and those of the README also as root if this is root."""
    if name == "README.md" and not os.path.exists("/bin/busybox"):
        pytest.skip("it needs busybox-static")
    command_lines.run_document(name, romtool.path, counts, user)


@pytest.fixture(scope="session")
def known(romtool):
    """The options of each subcommand."""
    return command_lines.options_of(romtool.path)


@each_document
def test_options(known, counts, name):
    """Shows only options that a subcommand has."""
    command_lines.options(name, known, counts)


@each_document
def test_quotes(name):
    """Has the lines of a block in the file that it names, in their order."""
    for file, block in BLOCK.findall(text_of(name)):
        rest = iter(text_of(file).splitlines())
        assert [line for line in block.splitlines() if line not in rest] == [], file


def anchors(text):
    """Returns the names by which the headings of a document are reached."""
    heads = re.findall(r"^#+ (.*)$", text, re.M)
    return {re.sub(r"[^\w\- ]", "", head.lower()).replace(" ", "-") for head in heads}


@each_document
def test_links(name):
    """Has no link that leads nowhere."""
    lost = []
    for link in LINK.findall(text_of(name)):
        file, _, head = link.partition("#")
        target = os.path.normpath(os.path.join(os.path.dirname(name), file)) if file else name
        is_there = file.startswith(("http:", "https:")) or os.path.exists(os.path.join(TOP, target))
        if not is_there or head and not file.startswith("http") and head not in anchors(text_of(target)):
            lost.append(link)
    assert lost == []


def test_packages():
    """Has the packages of the quick tests among all, in order, and nothing twice."""
    every, quick = (text_of("tests/packages" + it).splitlines() for it in ("", "-quick"))
    assert [it for it in quick if it not in every] == []
    for it in (every, quick):
        assert it == sorted(set(it))


# names of the code


def names_in(text):
    """Yields the names in the first part of a promise: the types and the last part of each path, with what is in braces one by one."""
    for path in re.findall(r"`([^`]+)`", text):
        last = re.sub(r"^.*::(?=[^:{]*$|\{)", "", path)
        yield from re.findall(r"\b([A-Z]\w+)::", path)
        for name in last.strip("{}").split(","):
            yield name.strip()


@functools.cache
def sources_of(*crates):
    """Returns the sources of some crates. What they implement may be a trait of the tree's crate, or for the error of all checks."""
    found = [glob.glob("%s/crates/%s/src/**/*.rt" % (TOP, it), recursive=True) for it in (*crates, "rom_tree", "rom_fields")]
    return "\n".join(text_of(file) for files in found for file in files)


def is_declared(name, crates):
    """Returns whether one of these crates declares a name."""
    return re.search(DECLARED % (re.escape(name), re.escape(name)), sources_of(*crates))


def has_member(kind, name, crates):
    """Returns whether one of these crates declares a name in a type or a trait, or in an impl of it."""
    blocks = re.findall(
        r"^(?:pub(?:\([^)]*\))? )?(?:impl|trait|enum|struct)\b[^{;]*\b%s\b[^{;]*\{.*?^\}" % re.escape(kind),
        sources_of(*crates),
        re.M | re.S,
    )
    return any(re.search(r"\b(?:fn|type|const) %s\b|^    %s\b" % (name, name), it, re.M) for it in blocks)


def is_open(crate, name):
    """Returns whether a crate has a name for others: its root declares it, as a module too, or re-exports it."""
    roots = [text_of("crates/%s/src/%s.rt" % (crate, it)) for it in ("lib", "main") if crate_has(crate, it)]
    handed = re.findall(r"^pub (?:use [^;]+;|(?:const )?(?:mod|fn|struct|enum|trait|const|type) \w+)", "\n".join(roots), re.M)
    return any(re.search(r"\b%s\b" % name, re.sub(r"\w+::", "", it)) for it in handed)


def crate_has(crate, root):
    """Returns whether a crate has a root of that name."""
    return os.path.exists("%s/crates/%s/src/%s.rt" % (TOP, crate, root))


@each_document
def test_names(name):
    """Names by its crate, or by a module of one, only functions that are there, and that the crate has for others."""
    crates = {os.path.basename(it) for it in glob.glob(TOP + "/crates/*")}
    files, text, lost = glob.glob(TOP + "/crates/*/src/**/*.rt", recursive=True), text_of(name), []
    for first, last in set(re.findall(r"`([a-z]\w*)::(?:\w+::)*(\w+)`", text)):
        of_module = {it.split("/crates/")[1].split("/")[0] for it in files if it.endswith("/%s.rt" % first)}
        within = [first] if first in crates else sorted(of_module)
        if first not in FOREIGN and not (within and is_declared(last, within)):
            lost.append("%s has no %s" % (first, last))
    for crate, second in set(re.findall(r"`([a-z]\w*)::(\w+)", text)):
        if crate in crates and not is_open(crate, second):
            lost.append("others have no %s of %s" % (second, crate))
    assert lost == []


def is_given(kind, trait, crates):
    """Returns whether one of these crates implements a trait for a type."""
    return re.search(r"\bimpl\b[^{;]*\b%s[^{;]*\bfor %s\b" % (re.escape(trait), re.escape(kind)), sources_of(*crates))


def wrong_in(crate, names):
    """Yields what a crate does not have of the names of a promise."""
    for kind, trait in re.findall(r"`(\w+)` as `(?:\w+::)*([^`]+)`", names):
        if not is_given(kind, trait, [crate]):
            yield "%s is no %s" % (kind, trait)
    for kind, name in re.findall(r"`(?:\w+::)*([A-Z]\w+)::(\w+)`", names):
        if not has_member(kind, name, [crate]):
            yield "%s has no %s" % (kind, name)
    for name in names_in(names):
        if not is_declared(name, [crate]):
            yield "%s is not declared" % name


def test_promises():
    """Has a promise of each library but one, which declares what it names; and the list of crates that is made of them."""
    libraries = list(promises.every())
    assert [crate for crate, of in libraries if not of] == [WITHOUT_PROMISES]
    wrong = {it.names: list(wrong_in(crate, it.names)) for crate, of in libraries for it in of}
    assert {names: it for names, it in wrong.items() if it} == {}
    assert promises.remade() == text_of(promises.DOCUMENT)


def output_of(command):
    """Returns the output of a tool of this repository."""
    made = subprocess.run([os.path.join(TOP, command[0]), *command[1:]], stdout=subprocess.PIPE, text=True, cwd=TOP)
    assert made.returncode == 0
    return made.stdout


def test_picture():
    """Has the picture that tools/picture makes."""
    assert text_of("docs/internals/dataflow.svg") == output_of(["tools/picture", "docs/internals/dataflow.txt"])


def test_tables():
    """Has a line of tools/tables for each crate, and for each file of definitions."""
    crates = sorted(os.path.basename(it) for it in glob.glob(TOP + "/crates/*"))
    assert sorted(re.findall(r"^(\w+): \S", output_of(["tools/tables", "crates"]), re.M)) == crates
    files = sorted(os.path.relpath(it, TOP) for it in glob.glob(TOP + "/crates/*/specs/*.antt") if not it.endswith("/Lib.antt"))
    assert sorted(re.findall(r"^(\S+): \S", output_of(["tools/tables", "definitions"]), re.M)) == files


def test_reading_list():
    """Has the steps of tools/reading_list, and its size in PROVED.md."""
    listed = output_of(["tools/reading_list"])
    assert "".join(re.findall(r"^(\d)\. ", listed, re.M)) == "123456789"
    told = re.findall(r"^The definitions of the theorem have (.*? files)", text_of("docs/internals/PROVED.md"), re.M)
    assert told == re.findall(r"^What .* by (.*? files), ", listed)


def test_clauses():
    """Has in tests/clauses.txt the clauses that promises name, and the definitions that they cite, as `tools/clauses --write` makes it."""
    kept, found = text_of("tests/clauses.txt").splitlines(), output_of(["tools/clauses"]).splitlines()
    assert [line for line in kept if line not in set(found)] == []
    assert [line for line in found if line not in set(kept)] == []


def test_parts():
    """Has the parts of tests/parts in the table of GATE.md (`gate` is the proofs), and each file of tests in pytest in a part."""
    said = text_of("tests/parts")
    section = re.search(r"^## What each part does\n(.*?)^## ", text_of("docs/internals/GATE.md"), re.M | re.S)[1]
    rows = re.findall(r"^\| ([a-z][a-z0-9_, ]*) \|", section, re.M)
    told = sorted(name for row in rows for name in row.split(", ") if name != "part")
    lines = [line.split() for line in said.splitlines() if line and not line.startswith("#")]
    assert told == sorted(["gate", *(name for name, *_ in lines)])
    assert {it for it in os.listdir(HERE) if re.fullmatch(r"test_\w+\.py", it)} <= set(re.findall(r"tests/(test_\w+\.py)", said))


def test_calls(known):
    """Has each command in the table of calls in ARCHITECTURE.md, and the files that are named there in `romtool`."""
    section = re.search(r"^## From a command to its work\n(.*?)^## ", text_of("docs/internals/ARCHITECTURE.md"), re.M | re.S)[1]
    told = {command for cell in re.findall(r"^\| (`.*?) \|", section, re.M) for command in re.findall(r"`(\w+)", cell)}
    assert sorted(set(known) - told - SHORT) == []
    named = sorted(set(re.findall(r"`(\w+\.rt)`", section)))
    assert [it for it in named if not os.path.exists(os.path.join(TOP, "crates/romtool/src", it))] == []


# faults


def phases_with(number):
    """Returns how many phases of the table in FAULTS.md have a fault."""
    cells = re.findall(r"^\| \d+ \|.*\| (\d[\d, a-z]*) \|$", text_of("docs/FAULTS.md"), re.M)
    ranges = [re.findall(r"(\d+)(?: to (\d+))?", cell) for cell in cells]
    return sum(int(first) <= number <= int(last or first) for of_phase in ranges for first, last in of_phase)


def faults_of_cases(format):
    """Returns the numbers and names of the faults that the cases of a format expect: its own, and those of `exact` that begin with it."""
    cases = load(format) + [it for it in load("exact") if it["name"].startswith(format + "-")]
    lines = [str(it.get("out")) for case in cases for it in case["runs"]]
    return {(int(told[1]), told[2]) for told in (re.match(r"fault (\d+) (\w+) at ", line) for line in lines) if told}


TABLE = faults.table()


@pytest.mark.parametrize("fault", TABLE, ids=lambda it: it.name)
def test_fault(fault):
    """Has a section with the sentence of a fault, and one phase with it."""
    section = re.search(r"^### %d %s\n\n> (.*)\n\n" % (fault.number, fault.name), text_of("docs/FAULTS.md"), re.M)
    assert section and section[1] == fault.sentence
    assert phases_with(fault.number) == 1


def test_numbers():
    """Has sections in the order of the table, and names the numbers that are unused."""
    text, numbers = text_of("docs/FAULTS.md"), [it.number for it in TABLE]
    assert [int(it) for it in re.findall(r"^### (\d+) ", text, re.M)] == numbers
    unused = [str(it) for it in range(1, max(numbers)) if it not in numbers]
    wanted = "The numbers %s and %s are unused." % (", ".join(unused[:-1]), unused[-1])
    assert re.findall(r"^The numbers .* unused\.$", text, re.M) == [wanted]


def test_formats():
    """Has the same faults in the table and in FORMATS.md, and for each format of its rows a case."""
    rows = {format: faults.of_format(format) for format in faults.FORMATS}
    assert {pair for it in rows.values() for pair in it.items()} == {(it.number, it.name) for it in TABLE}
    for format, of_format in rows.items():
        assert sorted(set(of_format.items()) - faults_of_cases(format)) == []


@pytest.mark.parametrize("path", sorted(faults.made_files()))
def test_made(path):
    """Has what `tools/tables faults` makes of the table."""
    assert faults.remade()[path] == text_of(path)


def mentioning(fault):
    """Returns the files that mention a fault: its name as a text or after its number, or its constant as one of rom_fields. Proofs and
    the list of clauses are left out: they follow from the other files."""
    named = r'"%s"|\b%d %s\b' % (fault.name, fault.number, fault.name)
    constant = r"\b%s\b" % fault.constant
    imported = r"rom_fields[\w.:]*(?:\{[^}]*)?" + constant
    found = set()
    for at, folders, files in os.walk(TOP):
        folders[:] = [it for it in folders if it not in (".git", "out", "proofs", "target", "__pycache__")]
        for path in (os.path.relpath(os.path.join(at, it), TOP) for it in files if it != "clauses.txt"):
            with open(os.path.join(TOP, path), encoding="utf-8", errors="replace") as file:
                text = file.read()
            is_own = path.startswith("crates/rom_fields/") or path.endswith(".edit")
            if re.search("%s|%s" % (named, constant if is_own else imported), text):
                found.add(path)
    return found


def named_by_guide(fault):
    """Yields the files that the guide for new faults names: for each the name, what it is for this fault as a pattern, and whether
    each fault needs it. A word in braces is any word, and `{FAULT}` is the constant of the fault in small letters."""
    section = re.search(r"^## How to add a fault of an image\n(.*?)^## ", text_of(GUIDE), re.M | re.S)[1]
    always, _, sometimes = section.partition("\n**Only if**")
    for part in (always, sometimes):
        for name in re.findall(r"`((?:docs|crates|tests)/[^`]+\.(?:antt|edit|json|md|rt)|CHANGELOG\.md)`", part):
            pattern = re.escape(name.replace("{FAULT}", fault.constant.lower()))
            yield name, re.sub(r"\\\{\w+\\\}", r"\\w+", pattern), part is always


def test_guide():
    """Names in the guide for new faults the files that mention the newest fault."""
    newest = TABLE[-1]
    found, made, told = mentioning(newest) - {GUIDE}, faults.made_files(), list(named_by_guide(newest))
    needed = [(name, pattern) for name, pattern, is_needed in told if is_needed and name not in UNNAMED]
    assert [name for name, pattern in needed if not any(re.fullmatch(pattern, it) for it in found)] == []
    assert sorted(made - found) == []
    assert [it for it in sorted(found - made) if not any(re.fullmatch(pattern, it) for _, pattern, _ in told)] == []
    assert [name for name, _, _ in told if "{" not in name and not os.path.exists(os.path.join(TOP, name))] == []
