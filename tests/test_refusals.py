"""Runs the cases (see run.py) with each of their allocations refused in turn, and romtool with little memory.

refuse.c refuses the Nth allocation, for N = 1, 2, .. up to the first that a run does not make; and then all from the Nth on. Each
run answers as it does with ample memory, or prints `memory` on standard error with status 3 and nothing else. A run without words,
which prints two answers, may have printed the first, and `check --each` prints `memory` in place of a report. Left out are large
cases, and runs whose memory the case limits.
"""

import os
import re
import resource
import struct
import subprocess
import tempfile

import pytest
from harness import HERE
from romtool import answer
from run import file_of, lay_out, started

pytestmark = pytest.mark.needs("cc")
TOLD = struct.Struct("=5I")  # what refuse.c writes of a run before its outputs
SECONDS_FOR_ALL = 900  # how long all runs of a case may take
REFUSED = (b"", b"memory\n", 3)
PAGE = 4096


def is_run(case):
    """Returns whether the runs of a case can be repeated, and soon end."""
    return not (case.get("large") or case.get("once") or case.get("no_root") and os.geteuid() == 0)


def reports_of(out):
    """Returns the report of each image that `check --each` printed, by the line with its name."""
    return {it[0]: it[0] + it[1] for it in re.findall(rb"(?m)^(image .*\n)((?:(?!image ).*\n)*)", out)}


def is_each_well(whole, got):
    """Returns whether `check --each` reports of each image what it does with ample memory, or prints `memory` in place of that."""
    out, err, status = got
    theirs, reports = reports_of(whole[0]), reports_of(out)
    lines = err.splitlines()
    is_told = status == 3 and b"memory" in lines and {*lines} <= {b"memory", *whole[1].splitlines()}
    return is_told and b"".join(reports.values()) == out and all(it in (name, theirs.get(name)) for name, it in reports.items())


def is_well(words, whole, got):
    """Returns whether a run that had memory refused answers as the whole one, or `memory` in place of an answer."""
    out, *how = got
    if "--each" in words and got != whole:
        return is_each_well(whole, got)
    is_first = not words and out.endswith(b"\n") and whole[0].startswith(out)
    return got == whole or ((*how,) == REFUSED[1:] and (out == b"" or is_first))


def runs_told(path):
    """Yields what refuse.c writes of each run: which allocation was refused, whether all later ones were, and how it ended."""
    with open(path, "rb") as file:
        while head := file.read(TOLD.size):
            number, is_all, status, out, err = TOLD.unpack(head)
            ended = os.waitstatus_to_exitcode(status)
            yield f"allocation {number}{' and all later' * is_all}", (file.read(out), file.read(err), ended)


@pytest.fixture(scope="session")
def refuse():
    """The library that refuses allocations."""
    with tempfile.TemporaryDirectory(prefix="romtool-") as top:
        subprocess.run(["cc", "-shared", "-fPIC", "-o", top + "/refuse.so", HERE + "/refuse.c"], check=True)
        yield top + "/refuse.so"


@pytest.mark.cases(only=is_run)
def test_refused(romtool, case, room, refuse):
    """Compares each run that has memory refused with the whole one."""
    top, to, wrong = room / "top", room / "told", []
    top.mkdir()
    lay_out(case, top)
    for run in case["runs"]:
        if "memory" in run:
            continue
        out, *how = answer(started(romtool.path, run, top))
        more = {"LD_PRELOAD": refuse, "REFUSE_TO": str(to), **({"REFUSE_KEEPS_OUT": "yes"} if "out_to" in run else {})}
        done = started(romtool.path, run, top, more, SECONDS_FOR_ALL)
        told = list(runs_told(to))
        wrong += [(run["words"], which, got) for which, got in told if not is_well(run["words"], (out or b"", *how), got)]
        wrong += [] if told and not done.returncode else [(run["words"], f"{len(told)} runs", answer(done))]
    if wrong:
        pytest.fail("\n".join(map(repr, wrong[:100])), pytrace=False)


@pytest.mark.parametrize("format", ["romfs", "cramfs"])
@pytest.mark.parametrize("word", ["check", "list"])
def test_little(romtool, format, word, room):
    """Refuses an image of 1,500 files up to the limit of memory with which it is read whole; with still less nothing starts."""
    (room / "image").write_bytes(file_of(f"many/{format}-1500-files/image"))

    def limited(pages):
        limit = (pages * PAGE,) * 2
        return romtool(word, room / "image", preexec_fn=lambda: resource.setrlimit(resource.RLIMIT_AS, limit))

    pages = next(it for it in range(256, 4096, 16) if limited(it) == REFUSED) - 16
    answers = [limited(pages)]
    while answers[-1][2] != 0:
        pages += 1
        answers.append(limited(pages))
    first = answers.index(REFUSED)
    assert [it for it in answers[:first] if it[2] in range(4)] == []
    assert set(answers[first:-1]) == {REFUSED}
    assert answers[-1] == romtool(word, room / "image")
