"""Tests tools/clauses: a text of each kind is changed in a copy of the repository's sources, and the list that it prints has to differ.

Each change is a file, an old text, and a new one in place of its first occurrence.
"""

import os
import shutil
import subprocess

import pytest
from files import bytes_in, put, text_of
from harness import SECONDS, TOP

# what is changed -> the file, the old text, and the new one
CHANGES = {
    "a definition at the margin": ("path_walk/specs/Components", "is_empty [] = true", "is_empty [] = false"),
    "a definition in a block of variables": ("path_walk/specs/Resolution", "  parent s = ascend s.current", "  parent s = ascend s.root"),
    "a field of a record in such a block": ("serve_lines/specs/Served", "    pub read : Consumes r₀ r y\n", ""),
    "the variables of a block": ("open_files/specs/Machine", "module _ {F : Type 0} where", "module _ {F : Type 1} where"),
    "a type among others that cite it": ("rom_tree/specs/Tree", "    no_entries : Entries", "    no_entries : Body → Entries"),
    "a function among others that call it": ("rom_tree/specs/Tree", "  nodes (node a b) = node a b ∷", "  nodes (node a b) ="),
    "a line of a listing": ("rom_tree/specs/Listing", "  node_lines b path (node a body) =", "  node_lines b path (node a []) ="),
    "a clause of a function": ("crc/src/checksum.rt", "result ≡ crc_of bytes.now", "result ≡ 0"),
    "a clause of a trait": ("file_sources/src/opener.rt", "IfOk result (λ f. name_of f ≡ spelled name.now)", "true ≡ true"),
    "a clause of sources": ("image_stream/src/sources.rt", "ensures log { Logs (IsLog self.old)", "ensures log { Logs (IsLog self.new)"),
    "a clause of a reader": ("rom_fields/src/bytes.rt", "ensures bytes", "ensures more"),
    "a clause of a directory": ("atomic_file/src/directory.rt", "0 < room self.old", "1 < room self.old"),
    "a clause of the last check": ("image_build/src/image.rt", "OnOk result (passed self.new", "OnOk result (passed self.old"),
    "a ghost of a trait": ("directory_walk/src/lister.rt", "    ghost tree: { Self → Option", "    ghost tree: { Self → List"),
    "a ghost of an impl": ("file_sources/src/sources.rt", "record { failures = s.failures;", "record { failures = 0;"),
    "a ghost of an impl of the toolchain's trait": ("program_streams/src/held.rt", "ghost contents = { held", "ghost contents = { back"),
    "a ghost of an impl in another crate": ("system_files/src/disk.rt", "ghost contents = { λ _. None }", "ghost contents = { λ _. Some }"),
    "a model": ("rom_fields/src/canvas.rt", "c.at + length c.rest.now ≡ c.end", "c.at ≡ c.end"),
    "a ghost of a struct": ("file_sources/src/sources.rt", "is_some reason ≡ is_some failed", "true ≡ true"),
}


def path_of(name):
    """Returns the path of a file of the crates; one without an ending is a file of definitions."""
    return "crates/" + (name if name.endswith(".rt") else name + ".antt")


def run_tool(top):
    """Runs the tool of a copy, and returns its status, its output and what it said."""
    done = subprocess.run([top / "tools/clauses"], stdout=subprocess.PIPE, stderr=subprocess.PIPE, timeout=SECONDS, text=True)
    return done.returncode, done.stdout, done.stderr


def changed(top, path, old, new):
    """Returns what the tool of a copy answers if a text of a file is another one, which then is as it was."""
    kept = bytes_in(top / path)
    assert old.encode() in kept
    put(top / path, kept.replace(old.encode(), new.encode(), 1))
    found = run_tool(top)
    put(top / path, kept)
    return found


@pytest.fixture(scope="module")
def copy(tmp_path_factory):
    """A copy of what the tool reads."""
    top = tmp_path_factory.mktemp("copy")
    left_out = shutil.ignore_patterns("proofs", "must-fail", "out", "target", "__pycache__")
    for name in ("crates", "tools"):
        shutil.copytree(os.path.join(TOP, name), top / name, ignore=left_out)
    (top / "tests").mkdir()
    for name in ("README.md", "crates.txt"):
        shutil.copy(os.path.join(TOP, name), top)
    return top


@pytest.fixture(scope="module")
def printed(copy):
    """What the tool prints of the copy."""
    status, out, said = run_tool(copy)
    assert (status, said) == (0, "") and out
    return out


@pytest.mark.parametrize("change", CHANGES.values(), ids=CHANGES.keys())
def test_differs(copy, printed, change):
    name, old, new = change
    status, out, said = changed(copy, path_of(name), old, new)
    assert (status, said) == (0, "")
    assert out != printed


@pytest.mark.parametrize("name", ("path_walk/specs/Resolution", "rom_tree/specs/Tree"))
def test_comment(copy, printed, name):
    """A comment is no part of a definition."""
    assert changed(copy, path_of(name), "\n  -- " if "Resolution" in name else "\n-- the attributes", "\n  -- --")[1] == printed


def test_moved(copy, printed):
    """What is at other lines is the same."""
    assert changed(copy, path_of("rom_tree/specs/Tree"), "\n\nabbrev", "\n\n\nabbrev")[1] == printed


@pytest.mark.parametrize(
    "name, old, new, lost",
    (
        ("image_check", "`laws::one_tree`", "`laws::no_tree`", "`no_tree`"),
        ("rom_fields", "`Canvas::{new", "`Canvas::{old", "`Canvas::old`"),
        ("crc", "`crc32`, `crc32_more`: ", "", "a promise names nothing"),
        ("crc", "`crc32`, `crc32_more`: ", "crc32, crc32_more: ", "a promise names nothing"),
    ),
)
def test_nothing(copy, name, old, new, lost):
    """A promise that names nothing, or something that has no clause and no ghost, is an error."""
    status, out, said = changed(copy, f"crates/{name}/src/lib.rt", old, new)
    assert (status, out) == (1, "") and lost in said


def test_promise_taken_away(copy, printed):
    """Without a promise, its clauses are not in the list."""
    status, out, said = changed(copy, "crates/crc/src/lib.rt", "Proved:", "Said:")
    assert (status, said) == (0, "")
    assert "crc::checksum::crc32 " in printed and "crc::checksum::crc32 " not in out


def test_write(copy, printed):
    """With --write, the list is in a file."""
    assert subprocess.run([copy / "tools/clauses", "--write"], timeout=SECONDS).returncode == 0
    assert text_of(copy / "tests/clauses.txt") == printed
