"""What tools/tables, tools/clauses and tests/test_docs.py share: the promises of each crate, which the first comment of its lib.rt lists.

In this comment, a paragraph that begins with `Proved` and ends with a colon comes before a list. Each of its items is a promise: it
begins with the functions, modules, types or traits whose contracts make it, in backticks, as

    - `laws::{one, two}`, `Canvas::new`, `Memory` as `Rewrite`: the promise, which may have a colon: here it has one.
"""

import os
import re
from dataclasses import dataclass

TOP = os.path.dirname(os.path.dirname(os.path.realpath(__file__)))
DOCUMENT = "docs/internals/PROVED.md"
# which paragraph has promises below it, and which item is one: what makes it is before the first colon that no backticks enclose
PROVED = re.compile(r"Proved\b.*:")
ITEM = re.compile(r"(?=`)((?:`[^`]*`|[^`:])+): (.+)")
# the list of crates in the document
MADE = re.compile(r"(?<=^<!-- made by tools/tables promises --write -->\n).*?(?=^<!-- end -->$)", re.M | re.S)


@dataclass(frozen=True)
class Promise:
    """A promise: what makes it, as the head has it, and its text."""

    names: str
    text: str


def text_of(path):
    """Returns the text of a file of the repository."""
    with open(os.path.join(TOP, path), encoding="utf-8") as it:
        return it.read()


def groups():
    """Yields each group of crates.txt: its title and the names of its crates."""
    for part in re.split(r"^# ", text_of("crates.txt"), flags=re.M)[1:]:
        title, _, rest = part.partition("\n")
        names = re.findall(r"^([a-z_]+)(?: staticlib)?:", rest, re.M)
        if names:
            yield title, names


def head_of(crate):
    """Returns the path of the file whose first comment has a crate's promises."""
    return f"crates/{crate}/src/lib.rt"


def is_library(crate):
    """Returns whether a crate is a library; a program promises nothing to callers."""
    return os.path.exists(os.path.join(TOP, head_of(crate)))


def blocks(crate):
    """Yields the paragraphs and items of a crate's first comment, each as one line; an item begins with `- `."""
    block = ""
    for line in text_of(head_of(crate)).split("\n"):
        is_end = not line.startswith("//!")
        words = line.removeprefix("//!").strip()
        if block and (is_end or not words or words.startswith("- ")):
            yield block
            block = ""
        if is_end:
            return
        block = f"{block} {words}".strip()


def of_crate(crate):
    """Returns the promises of a library. Raises ValueError if one names nothing."""
    found, is_listed = [], False
    for block in blocks(crate):
        if not block.startswith("- "):
            is_listed = bool(PROVED.fullmatch(block))
        elif is_listed:
            item = ITEM.fullmatch(block[2:])
            if not item:
                raise ValueError(f"{head_of(crate)}: a promise names nothing: {block}")
            found.append(Promise(*item.groups()))
    return found


def every():
    """Yields each library in the order of crates.txt, with its promises."""
    for crate in (it for _, names in groups() for it in names):
        if is_library(crate):
            yield crate, of_crate(crate)


def lines():
    """Yields a line for each crate with promises, and one for each of these."""
    for crate, promises in every():
        if promises:
            yield crate
            yield from (f"- {it.names}: {it.text}" for it in promises)


def table():
    """Returns the list of crates that the document has: a row for each group, with a link to the promises of each crate."""
    made = "| group | crates with promises |\n|---|---|\n"
    for title, names in groups():
        links = [f"[{it}](../../{head_of(it)})" for it in names if is_library(it) and of_crate(it)]
        if links:
            made += f"| {title} | {', '.join(links)} |\n"
    return made


def remade():
    """Returns the text that the document has with this list made anew. Raises ValueError if it has no such part."""
    made = table()
    text, count = MADE.subn(lambda _: made, text_of(DOCUMENT))
    if count != 1:
        raise ValueError(f"{DOCUMENT}: it has {count} parts that are made of the promises")
    return text
