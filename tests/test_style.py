"""Checks the form of the sources: lines that are too long, public items without a docstring, edits that cannot be applied, and
the Python.

Lines of `src/` and `specs/` have at most 100 columns, and those of `proofs/` at most 120. Some lines cannot be shorter: the
import of a single name, a `#[tactic(..)]`, which the formatter puts into one line, and a line with a long text. Each public
function, type and constant of `src/` has a docstring, and so has each file. Only `system_files` and `system_tree` call the
system for files, directories and the environment. Each text that a must-fail edit replaces is in its file once.

All scripts are compiled, formatted by black and pass flake8, with the rules of pyproject.toml and .flake8. No script changes its
current directory, and only one function waits by sleeping.
The files of tests/cases have the lines that run.py names; with `-k cases --write` they get these lines.
"""

import glob
import os
import re
import subprocess

import pytest
from files import put, text_of
from harness import SECONDS, TOP
from run import in_form

CRATES = os.path.join(TOP, "crates")
FOLDERS = ("tests", "tools", "bench", *("bindings/python/" + it for it in ("romtool", "tests", "examples")))
# what no script does: change the current directory, which is that of all threads, or wait for a time instead of an event
FORBIDDEN = {"changes the current directory": r"\bos\.f?chdir\(", "sleeps": r"\btime\.sleep\("}
ALLOWED = {("tests/files.py", "sleeps"): 1}  # the loop of `wait_until`
LONGEST = {"src": 100, "specs": 100, "proofs": 120}
# lines that cannot be shorter: the import of one name, what the formatter joins, and a text of 60 characters
WHOLE = re.compile(r'\s*(ghost )?use [^,]*$|\s*#\[tactic|\s*ghost view = |.*"[^"]{60}|.* elim .* \[$|.*MoreFiles .* \[$')
PUBLIC = re.compile(r"\s*pub (?:const )?(?:unsafe )?(fn|struct|enum|trait|const|type)\b")
BEFORE = re.compile(r"\s*(#\[|#!\[)")
# calls of the system on files, directories and the environment, and the crates that may make them
SYSTEM_CALL = re.compile(r"\b(?:File|OpenOptions|DirBuilder|fs|env)::[a-z_]+\(")
LAYER = ("system_files", "system_tree")


NAMES = sorted(os.listdir(CRATES))
ENDINGS = {"src": "rt", "specs": "antt", "proofs": "antt"}


def name_of(path):
    """Returns the path of a file in the repository."""
    return os.path.relpath(path, TOP)


def lines_of(path):
    """Returns the lines of a file."""
    return text_of(path).split("\n")


def too_long(lines, most):
    """Returns the numbers of lines with more columns and their lengths, except those that cannot be shorter."""
    return [(number, len(line)) for number, line in enumerate(lines, 1) if len(line) > most and not WHOLE.match(line)]


def undocumented(lines):
    """Yields the public items without a docstring, with the numbers of their lines."""
    for at, line in enumerate(lines):
        if not PUBLIC.match(line):
            continue
        above = at - 1
        while above >= 0 and BEFORE.match(lines[above]):
            above -= 1
        if not lines[above].strip().startswith("///"):
            yield at + 1, line.strip()


def wrong_in(path, kind):
    """Yields what is wrong in a file; one of tests may have long lines and items without a docstring."""
    lines = lines_of(path)
    tests = os.path.basename(path) == "tests.rt" or "/src/tests/" in path
    if kind in LONGEST and not tests:
        for number, length in too_long(lines, LONGEST[kind]):
            yield "line %d has %d columns" % (number, length)
    if kind == "src" and not tests:
        if not lines[0].startswith("//!"):
            yield "the file has no docstring"
        for number, line in undocumented(lines):
            yield "line %d has no docstring: %s" % (number, line)
        if os.path.relpath(path, CRATES).split(os.sep)[0] not in LAYER:
            for number, line in enumerate(lines, 1):
                if SYSTEM_CALL.search(line.split("//")[0]):
                    yield "line %d calls the system: %s" % (number, line.strip())


def wrong_in_edit(path):
    """Yields what is wrong in a must-fail edit: each text that it replaces has to be in its file once."""
    crate, texts, file, old = os.path.dirname(os.path.dirname(path)), {}, None, None
    for line in lines_of(path):
        word, _, told = line.partition(": ")
        if word == "file":
            file = told.strip()
            texts.setdefault(file, "\n".join(lines_of(os.path.join(crate, file))))
        elif word == "old":
            old = told
            if texts[file].count(old) != 1:
                yield "%r is %d times in %s" % (old, texts[file].count(old), file)
                return
        elif line.startswith("new:"):
            texts[file] = texts[file].replace(old, line[len("new:") :].removeprefix(" "))
    if old is None:
        yield "it changes nothing"


@pytest.mark.parametrize("kind", ENDINGS)
@pytest.mark.parametrize("crate", NAMES)
def test_sources(crate, kind):
    """Has the form of sources in the files of a crate."""
    files = sorted(glob.glob("%s/%s/%s/**/*.%s" % (CRATES, crate, kind, ENDINGS[kind]), recursive=True))
    assert [(name_of(path), it) for path in files for it in wrong_in(path, kind)] == []


@pytest.mark.parametrize("crate", [it for it in NAMES if glob.glob("%s/%s/must-fail/*.edit" % (CRATES, it))])
def test_edits(crate):
    """Applies each must-fail edit of a crate."""
    edits = sorted(glob.glob("%s/%s/must-fail/*.edit" % (CRATES, crate)))
    assert [(name_of(path), it) for path in edits for it in wrong_in_edit(path)] == []


@pytest.mark.parametrize("path", sorted(glob.glob(TOP + "/tests/cases/*.json")), ids=os.path.basename)
def test_cases(pytestconfig, path):
    """Has the cases of a file in the lines of their form."""
    text = text_of(path)
    if pytestconfig.option.write:
        put(path, in_form(text).encode())
    else:
        assert text == in_form(text)


# the Python


def scripts():
    """Returns the Python of the repository, by its paths: files that end in `.py`, and programs whose first line names python3."""
    found = []
    for path in sorted([TOP + "/test", *(it for folder in FOLDERS for it in glob.glob("%s/%s/*" % (TOP, folder)) if os.path.isfile(it))]):
        with open(path, "rb") as file:
            is_script = path.endswith(".py") or file.readline().endswith(b"python3\n")
        if is_script:
            found.append(os.path.relpath(path, TOP))
    return found


SCRIPTS = scripts()


def lines_by(tool, *words):
    """Returns the last lines of what a tool says of the scripts, and nothing if it has the version of pyproject.toml and finds nothing."""
    how = {"stdin": subprocess.DEVNULL, "stdout": subprocess.PIPE, "stderr": subprocess.STDOUT, "text": True, "timeout": 5 * SECONDS}
    done = subprocess.run([tool, *words, *SCRIPTS], cwd=TOP, **how)
    return done.stdout.splitlines()[-40:] if done.returncode else []


@pytest.mark.needs("black")
def test_black():
    """Is formatted by black."""
    lines = lines_by("black", "--check", "--quiet", "--diff")
    if any("required version" in it for it in lines):
        pytest.skip(lines[-1])
    assert lines == []


@pytest.mark.needs("flake8")
def test_flake8():
    """Has nothing that flake8 finds."""
    assert lines_by("flake8") == []


@pytest.mark.parametrize("name", SCRIPTS)
def test_script(name):
    """Is compiled, and neither changes the current directory nor sleeps."""
    text = text_of(os.path.join(TOP, name))
    compile(text, name, "exec")
    found = {what: len(re.findall(pattern, text)) for what, pattern in FORBIDDEN.items()}
    assert name == "tests/test_style.py" or [what for what, count in found.items() if count > ALLOWED.get((name, what), 0)] == []
