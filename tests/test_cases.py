"""Runs the cases (see run.py): as they are, with `--explain`, and with cramfs images in the other byte order.

Without its explanations a run prints exactly the bytes of its case, and writes exactly these files. With them the output, the status
and the protocol's lines are the same, and each line of a refusal is followed by its sentence (see explained.py).
"""

import os
import re

import pytest
from big_endian import is_turned, turned_case
from explained import explained, wrong_in
from run import bytes_of, lay_out, named_cases, started, wrong_run
from sentences import BAD_LINES, CALLS, FAULTS, MANIFESTS, MISFITS


def is_explained(case):
    """Returns whether a case is explained: of the large ones only those with more references than the limit, which no small one has."""
    is_passed_over = case.get("large") and not any("fault 1 " in str(it.get("out")) for it in case["runs"])
    return not is_passed_over and not (case.get("no_root") and os.geteuid() == 0)


def lines_of(it, key):
    """Returns the lines that a run has to print on one of its outputs."""
    return bytes_of(it.get(key, "")).decode("latin-1").splitlines()


def is_served(it):
    """Returns whether the output of a run has the replies of a server."""
    return it["words"][:1] in (["serve"], ["space"]) and it["status"] != 1


def compare(wrong):
    """Fails with these lines, if there are some."""
    if wrong:
        pytest.fail("\n".join(wrong), pytrace=False)


def test_plain(romtool, case, room):
    """Compares what the runs print and write, and their statuses."""
    if case.get("no_root") and os.geteuid() == 0:
        pytest.skip("root runs it")
    compare(wrong_run(romtool.path, case, room))


@pytest.mark.cases(only=is_turned)
def test_turned(romtool, case, room):
    """Compares the same, for images whose words are in the other byte order."""
    compare(wrong_run(romtool.path, turned_case(case), room))


@pytest.mark.cases(only=is_explained)
def test_explained(romtool, case, room):
    """Compares runs with and without `--explain`, each in its directory."""
    for top in room / "plain", room / "explained":
        top.mkdir()
        lay_out(case, top)
    for it in case["runs"]:
        plain = started(romtool.path, it, room / "plain")
        told = started(romtool.path, {**it, "words": explained(it["words"])}, room / "explained")
        wrong = wrong_in(it["words"], plain, told, it.get("out_to") == "no reader")
        wrong += ["it does not say %r" % part for part in it.get("says", ()) if part not in told.stderr.decode(errors="replace")]
        compare(wrong and ["romtool %s" % it["words"], *wrong, "%r" % told.stderr[:600]])


def test_tables():
    """Finds a case that is explained for each number and each reply of a refusal."""
    runs = [it for _, case in named_cases() if is_explained(case) for it in case["runs"]]
    lines = {line for it in runs for key in ("out", "err") for line in lines_of(it, key)}
    served = {line.removeprefix(line[:2] if line[1:2] == " " else "") for it in runs if is_served(it) for line in lines_of(it, "out")}
    lost = [it for it in [*BAD_LINES, *("err " + it for it in CALLS)] if it not in served]
    lost += [it for it in ("usage", "memory", "write fault", "read fault", "file nothing") if it not in lines]
    for form, table in (r"fault %d %s at ", FAULTS), (r"manifest \d+ %d %s$", MANIFESTS), (r"plan \d+ %d %s$", MISFITS):
        lost += [it for it in table.items() if not any(re.match(form % (it[0], it[1][0]), line) for line in lines)]
    assert lost == []
