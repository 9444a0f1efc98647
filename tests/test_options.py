"""Tests the tests of options: each option of each command that help shows has a case in options.py, which fails without the option.

A case of tests/cases is run without the option in its words. A test in pytest is run with a program that leaves it out in that test, and
with one that does not: the first run has to fail, and the second has to pass.
"""

import os
import subprocess
import sys
import xml.etree.ElementTree as tree

import pytest
from explained import wrong_in
from files import put
from harness import HERE, SECONDS, TOP
from options import CASES, without
from run import bytes_of, lay_out, named_cases, started, wrong_run

sys.path.insert(0, os.path.join(TOP, "tools"))

import completions  # noqa: E402

# becomes the program; PYTEST_CURRENT_TEST is the test that runs it
PROGRAM = """#!%s -IS
import os, sys
sys.path.insert(0, %r)
from options import without
path, _, name = os.environ.get("PYTEST_CURRENT_TEST", "").rpartition(" (")[0].partition("::")
left_out = %r.get(os.path.basename(path) + "::" + name)
words = without(sys.argv[1:], *left_out) if left_out else sys.argv[1:]
os.execv(%r, [%r, *words])
"""
PAIRS = [(command, option) for command, options in CASES.items() for option in options]
IN_PYTEST = [pair for pair in PAIRS if "::" in CASES[pair[0]][pair[1]]]


@pytest.fixture(scope="module")
def options(romtool):
    """The options that help shows, by their commands and names: all their names, and whether they have a value."""
    shown = completions.table(romtool.path)[1]
    return {(it.name, of.name): (tuple(filter(None, (of.name, of.letter))), of.value is not None) for it in shown for of in it.options}


def test_all(options):
    """Finds a case for each option, and none for others."""
    assert sorted(PAIRS) == sorted(options)


def words_of(run):
    """Returns the words of a run as texts."""
    return [os.fsdecode(bytes_of(it)) for it in run["words"]]


def unexplained(binary, case, command, top):
    """Returns what is missing in the first run of a command that has to be explained, if nothing is explained."""
    lay_out(case, top)
    for run in case["runs"]:
        plain = started(binary, run, top)
        if words_of(run)[:1] == [command] and (wrong := wrong_in(run["words"], plain, plain)):
            return wrong
    return []


@pytest.mark.parametrize("pair", [pair for pair in PAIRS if pair not in IN_PYTEST], ids=" ".join)
def test_case_without(romtool, options, room, pair):
    """Runs a case without an option: something in it is wrong then."""
    command, option = pair
    case = dict(named_cases())[CASES[command][option]]
    if option == "--explain":
        assert unexplained(romtool.path, case, command, room)
        return
    runs = [{**run, "words": without(words_of(run), command, *options[pair])} for run in case["runs"]]
    assert any(run["words"] != words_of(of) for run, of in zip(runs, case["runs"]))
    assert wrong_run(romtool.path, {**case, "runs": runs}, room)


def results(room, binary, left_out):
    """Returns how tests end, by their names, if the program leaves out an option in each: `passed`, `skipped`, `failure` or `error`."""
    put(room / "romtool", (PROGRAM % (sys.executable, HERE, left_out, binary, binary)).encode(), 0o755)
    words = ["-m", "pytest", "-q", "-p", "no:cacheprovider", "--junitxml", room / "results.xml", "--binary", room / "romtool"]
    done = subprocess.run([sys.executable, *words, *(f"{HERE}/{it}" for it in left_out)], capture_output=True, timeout=10 * SECONDS)
    assert done.returncode in (0, 1), done.stdout.decode() + done.stderr.decode()
    found = {}
    for case in tree.parse(room / "results.xml").iter("testcase"):
        name = case.get("classname").rpartition(".")[2] + ".py::" + case.get("name")
        found[name] = next((it.tag for it in case if it.tag in ("failure", "error", "skipped")), "passed")
    return found


@pytest.fixture(scope="module")
def whole(romtool, tmp_path_factory):
    """How the tests of the table end with the program itself."""
    names = dict.fromkeys(CASES[command][option] for command, option in IN_PYTEST)
    return results(tmp_path_factory.mktemp("whole"), romtool.path, names)


def rounds():
    """Returns the tests of the table in rounds, in each of which a test has one option that is left out."""
    left, found = IN_PYTEST, []
    while left:
        found.append({CASES[command][option]: (command, option) for command, option in reversed(left)})
        left = [pair for pair in left if pair not in found[-1].values()]
    return found


@pytest.mark.parametrize("pairs", rounds(), ids=lambda pairs: f"round of {len(pairs)}")
def test_tests_without(romtool, options, whole, room, pairs):
    """Runs tests without an option: they fail then, if they do not lack a tool here."""
    assert [it for it in pairs if whole.get(it) not in ("passed", "skipped")] == []
    left_out = {it: (pair[0], *options[pair]) for it, pair in pairs.items()}
    found = results(room, romtool.path, left_out)
    assert [it for it in pairs if whole[it] == "passed" and found.get(it) != "failure"] == []
