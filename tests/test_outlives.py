"""Checks two small crates outside the repository, which lend a part of a file.

In the first one, the image's bytes belong to the caller, and it is proved. In the second one, the bytes are gone when
it returns, so the part would outlive them: the borrow checker refuses it. (A must-fail edit cannot test this, because
edits reach the prover, and the borrow checker comes before it.)
"""

import os
import re
import shutil
import subprocess
import tempfile

import pytest
from harness import TOP

USED = ["rom_fields", "rom_tree", "image_check", "open_files"]
# of a proved crate, which an earlier run may have kept; and of the one that the borrow checker refuses
PROVED = r"(?m)^rt: %s (proved$|is kept: )"
REFUSED = r"(?m)^== %s$(?s:.*)error\[borrow-e0515\](?s:.*)^rt: FAILED: part_of_bytes_that_are_gone$"
# The function's parameter, where its bytes come from, and what `rt ci` says of the crate.
CRATES = {
    "part_of_bytes_that_stay": (", bytes: &'a [u8]", "", PROVED),
    "part_of_bytes_that_are_gone": (
        "",
        "    let gone = [0u8; 144];\n    let bytes = gone.as_slice();\n",
        REFUSED,
    ),
}
SOURCE = """//! A part of a file in an image.
#![tactic(auto)]

use image_check::{Limits, check};
use open_files::{Files, Piece};
use std::alloc::Global;

/// The first bytes of the file `a`.
pub fn lent<'a>(alloc: Global%s) -> Option<Piece<'a>> {
%s    let Ok(image) = check(alloc, bytes, Limits::usual()) else {
        return None;
    };
    let mut files: Files<_, 4> = Files::new(image);
    let Ok(fd) = files.open(b"/a") else {
        return None;
    };
    let Ok(piece) = files.lend(fd, 5) else {
        return None;
    };
    Some(piece)
}
"""


def crates_and_uses():
    """Returns the crates of the repository, each with the libraries that it uses."""
    with open(os.path.join(TOP, "crates.txt"), encoding="utf-8") as file:
        lines = [line.split(":") for line in file if ":" in line and not line.startswith("#")]
    return {name.strip(): uses.split() for name, uses in lines}


def all_used(crates):
    """Returns the crates that these depend on, with all below them."""
    out, left = [], list(USED)
    while left:
        name = left.pop()
        if name in crates and name not in out:
            out.append(name)
            left += crates[name]
    return out


def lay_out(top):
    """A repository of the crates that are used, and of the two."""
    crates = crates_and_uses()
    lines = []
    for name in all_used(crates):
        without = shutil.ignore_patterns("out", "must-fail")
        shutil.copytree(os.path.join(TOP, "crates", name), os.path.join(top, "crates", name), ignore=without)
        lines.append("%s: %s\n" % (name, " ".join(crates[name])))
    for name, (parameter, start, _) in CRATES.items():
        os.makedirs(os.path.join(top, "crates", name, "src"))
        with open(os.path.join(top, "crates", name, "src", "lib.rt"), "w", encoding="utf-8") as file:
            file.write(SOURCE % (parameter, start))
        lines.append("%s: %s\n" % (name, " ".join(USED)))
    shutil.copy(os.path.join(TOP, "HANDLES"), top)
    with open(os.path.join(top, "crates.txt"), "w", encoding="utf-8") as file:
        file.writelines(lines)


@pytest.fixture(scope="session")
def told():
    """What `rt ci` prints of the repository. The proofs of the libraries are those that the gate kept on this machine."""
    with tempfile.TemporaryDirectory(prefix="romtool-") as folder:
        lay_out(folder)
        done = subprocess.run(["rt", "ci"], cwd=folder, capture_output=True, text=True)
    return done.stdout + done.stderr


@pytest.mark.needs("rt")
@pytest.mark.parametrize("name", CRATES)
def test_crate(told, name):
    """Proves a crate, or refuses it for the reason that is expected."""
    assert re.search(CRATES[name][2] % name, told), "\n".join(told.splitlines()[-20:])
