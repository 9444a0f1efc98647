"""The table of the faults of an image, and the parts of other files that are made of it.

Numbers, meanings and names are those of crates/rom_fields/src/fault.rt, and sentences those of crates/sentences/src/faults.rt.
`tools/tables faults` writes the parts. tests/test_docs.py compares them, and the files that are written by hand, with the table.
"""

import os
import re
import textwrap
from dataclasses import dataclass

TOP = os.path.dirname(os.path.dirname(os.path.realpath(__file__)))
NUMBERS = "crates/rom_fields/src/fault.rt"
SENTENCES = "crates/sentences/src/faults.rt"
EXPLAINED = "docs/FAULTS.md"
FORMATS = ("romfs", "cramfs")
COLUMNS = 100  # of a line of specs/
CONSTANT = re.compile(r"((?:^///.*\n)+)pub const (\w+): u32 = (\d+);", re.M)
# in specs/: the imports of the numbers, which are as many as fit into each line
IMPORT = "use Rattle.rom_fields.specs.FaultNumbers.{"
IMPORTS = r"(?:^%s[^}\n]*\}\n)+" % re.escape(IMPORT)


@dataclass(frozen=True)
class Fault:
    """A fault: its number, its constant and what it means, its name, and its sentence."""

    number: int
    constant: str
    meaning: str
    name: str
    sentence: str


def text_of(path):
    """Returns the text of a file of the repository."""
    with open(os.path.join(TOP, path), encoding="utf-8") as file:
        return file.read()


def arms(path, function):
    """Returns the text that a function of the code has for each constant."""
    body = text_of(path).partition(f"fn {function}(")[2].partition("\n}\n")[0]
    found = re.findall(r'(\w+) => (?:\{ )?"([^"]+)"', re.sub(r"\s+", " ", body))
    return {constant: said for constant, said in found if constant != "_"}


def table():
    """Returns the faults by rising number. Raises ValueError if one has no name or no sentence, or if two share a number."""
    names, sentences = arms(NUMBERS, "name"), arms(SENTENCES, "fault_sentence")
    found, last = [], 0
    for above, constant, number in CONSTANT.findall(text_of(NUMBERS)):
        for said, path in ((names, NUMBERS), (sentences, SENTENCES)):
            if constant not in said:
                raise ValueError(f"{path}: {constant} is missing")
        if int(number) <= last:
            raise ValueError(f"{NUMBERS}: the number of {constant} is not greater than the one before it")
        last = int(number)
        meaning = " ".join(re.findall(r"^/// ?(.*)$", above, re.M))
        found.append(Fault(last, constant, meaning, names[constant], sentences[constant]))
    return found


def of_format(name):
    """Returns the faults that docs/internals/FORMATS.md has for a format: their names by number."""
    section = text_of("docs/internals/FORMATS.md").partition(f"\n## {name}\n")[2].partition("\n## ")[0]
    return {int(number): fault for number, fault in re.findall(r"^\| (?:\w+ )?\| (\d+) (\w+) \|", section, re.M)}


def plain(text):
    """Returns a paragraph of a document in one line, without the marks of links and bold or slanted words; code keeps its marks."""
    marks = r"(`[^`]*`)|\[([^]]*)\]\([^)]*\)|\*\*?([^*]+)\*\*?"
    return re.sub(marks, lambda it: it[1] or it[2] or it[3], " ".join(text.split()))


def explanations():
    """Returns where each fault is, its cause and what to do, by numbers, from docs/FAULTS.md. What it says of most faults is the cause
    of those for which it has no other one, and comes before a cause that begins with `Also`; so is what to do if nothing else is said.
    Raises ValueError if the document lacks the part that it says of most faults."""
    text = text_of(EXPLAINED)
    most = re.search(r"^(In most cases .*?\.)\sThen\s(.*?\.)\sBelow are more causes\.$", text, re.M | re.S)
    if not most:
        raise ValueError(f"{EXPLAINED}: what it says of most faults is missing")
    usual, cure = (plain(it) for it in most.groups())
    found = {}
    for number, body in re.findall(r"^### (\d+) \w+\n\n> [^\n]*\n\n(.*?)(?=^###? |\Z)", text, re.M | re.S):
        place, _, rest = body.partition("*What to do.*")
        place, _, cause = place.partition("*Cause.*")
        cause = plain(cause)
        cause = f"{usual} {cause}" if cause.startswith("Also") else cause or usual
        found[int(number)] = {"place": plain(place), "cause": cause, "cure": plain(rest) or cure[0].upper() + cure[1:]}
    return found


# ---- the parts


def spec_numbers(faults):
    """Returns the definitions of the numbers."""
    made = []
    for it in faults:
        meaning = it.meaning.removesuffix(".")
        if re.match(r"[A-Z](?![A-Z])", meaning):
            meaning = meaning[0].lower() + meaning[1:]
        made += ["", *("-- " + line for line in textwrap.wrap(meaning, COLUMNS - 3))]
        made += [f"abbrev pub {it.constant} : ℕ", f"{it.constant} = {it.number}"]
    return "\n".join(made) + "\n"


def spec_imports(faults):
    """Returns the imports of the numbers."""
    names = ", ".join(it.constant for it in faults)
    lines = textwrap.wrap(names, COLUMNS - len(IMPORT) - 1, break_long_words=False)
    return "".join(f"{IMPORT}{line.removesuffix(',')}}}\n" for line in lines)


def spec_choice(faults, between, said, last):
    """Returns the choice of a text by its number, as a definition has it."""
    made = "".join(f"    {'else (' if at else ''}if n == {it.constant} then{between}codes \"{said(it)}\"\n" for at, it in enumerate(faults))
    return f"{made}    else codes \"{last}\"{')' * (len(faults) - 1)}\n"


def spec_names(faults):
    """Returns the definition of the names."""
    return spec_choice(faults, " ", lambda it: it.name, "Unknown")


def spec_sentences(faults):
    """Returns the definition of the sentences."""
    return spec_choice(faults, "\n    ", lambda it: it.sentence, "no rule has this number")


def c_names(faults):
    """Returns the names for the header for C."""
    return "".join(f'    case {it.number}u: return "{it.name}";\n' for it in faults)


def c_sentences(faults):
    """Returns the sentences for the mount."""
    return "".join(f'    case {it.number}u: return "{it.sentence}"; /* {it.number} {it.name} */\n' for it in faults)


def rust_names(faults):
    """Returns the names for the crate for Rust."""
    names = {it.number: it.name for it in faults}
    count = faults[-1].number + 1
    lines = "".join(f'    "{names.get(number, "")}",\n' for number in range(count))
    return f"pub(crate) const FAULTS: [&str; {count}] = [\n{lines}];\n"


def python_names(faults):
    """Returns the names for the package for Python."""
    lines = "".join(f'    {it.number}: "{it.name}",\n' for it in faults)
    return f"FAULTS: Dict[int, str] = {{\n{lines}}}\n"


def man_rows(faults):
    """Returns the rows of the man page, which tools/manual prints. A line that begins with a dot or a quote would be a macro."""
    rows = ((it, "\\&" if it.sentence[0] in ".'" else "") for it in faults)
    return "".join(f".TP\n.B {it.number} {it.name}\n{guard}{it.sentence}.\n" for it, guard in rows)


def marked(first, last=""):
    """Returns the pattern of a part between two marks, which are comments that begin and end so."""
    first, last = re.escape(first), re.escape(last)
    return rf"(?<={first} made by tools/tables faults{last}\n).*?(?=^ *{first} end{last}$)"


# each part: its file, its pattern, and what makes it. The parts of specs/ have no marks
PARTS = (
    ("crates/rom_fields/specs/FaultNumbers.antt", r"(?<=\{ℕ\}\n)\n.*\Z", spec_numbers),
    ("crates/rom_fields/specs/Faults.antt", IMPORTS, spec_imports),
    ("crates/rom_fields/specs/Faults.antt", r"(?<=^name_of_fault n =\n).*?\n(?=\n)", spec_names),
    ("crates/sentences/specs/Faults.antt", IMPORTS, spec_imports),
    ("crates/sentences/specs/Faults.antt", r"(?<=^fault_sentence n =\n).*\Z", spec_sentences),
    ("include/romtool.h", marked("/*", " */"), c_names),
    ("mount/romtool-mount.c", marked("/*", " */"), c_sentences),
    ("bindings/rust/src/error.rs", marked("//"), rust_names),
    ("bindings/python/romtool/_errors.py", marked("#"), python_names),
)


def made_files():
    """Returns the files with parts that are made of the table."""
    return {path for path, _, _ in PARTS}


def remade():
    """Returns the text that each of these files has with its parts made anew. Raises ValueError if a part is not found."""
    faults, texts = table(), {}
    for path, pattern, made in PARTS:
        old = texts.get(path) or text_of(path)
        text = made(faults)
        texts[path], count = re.subn(pattern, lambda _: text, old, flags=re.M | re.S)
        if count != 1:
            raise ValueError(f"{path}: it has {count} parts of the form that tools/faults.py looks for")
    return texts
