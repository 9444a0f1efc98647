"""What tools/reading_list and tools/clauses share: the definitions of the files of specs/, and what each of them cites."""

import functools
import os
import re

TOP = os.path.dirname(os.path.dirname(os.path.realpath(__file__)))
# a definition is at the margin; in a block of variables or of definitions that cite one another it is two columns further
WORDS = r"(?:(?:abbrev|unfoldable|opaque|data|record|pub) )+"
DEFINITION = {"": re.compile(rf"^{WORDS}(?!mutual$)([^\s:(){{}},]+)"), "  ": re.compile(rf"^  {WORDS}([^\s:(){{}},]+)")}
BLOCK = re.compile(r"^(?:module _ .*|(?:abbrev |unfoldable )?mutual)$")
CONSTRUCTOR = re.compile(r"^ +(?:pub )?([^\s:(){},]+)(?: \{[^}]*\})* :")
IMPORT = re.compile(r"^ *(?:ghost |pub )*use (Rattle\.[^;\n{]+?)(?:\.\{([^}]*)\}| as (\S+))?;?$", re.M)
NAME = re.compile(r"[^\s(){},;⟦⟧<>|\[\]]+")


def is_comment(line):
    """Returns whether a line has only a comment."""
    return line.lstrip().startswith(("--", "//"))


class Text:
    """A file of definitions or of code, by its path in the repository: the names that it imports, and the lines of each definition."""

    def __init__(self, path):
        with open(os.path.join(TOP, path), encoding="utf-8") as it:
            self.text = it.read()
        self.lines = self.text.split("\n")
        self.imports, self.modules = {}, {}
        for module, names, alias in IMPORT.findall(self.text):
            if names:
                for name in names.split(","):
                    of, _, shown = name.strip().partition(" as ")
                    self.imports[shown or of] = (module, of)
            elif alias:
                self.modules[alias] = module
            else:
                base, _, name = module.rpartition(".")
                self.imports[name] = (base, name)
        self.definitions, self.blocks, self.owners = {}, {}, {}
        self.split()

    def heads(self):
        """Yields each definition: the number of its first line, its name, the line that begins the block around it, or nothing."""
        block = ""
        for at, line in enumerate(self.lines):
            if BLOCK.match(line):
                block = line
            elif line[:1] not in ("", " ") and not is_comment(line):
                block = ""
            if found := DEFINITION["  " if block else ""].match(line):
                yield at, found[1], block

    def split(self):
        """Notes the lines of each definition, and the type of data that each constructor is of."""
        heads = [*self.heads(), (len(self.lines), None, "")]
        for (first, name, block), (end, *_) in zip(heads, heads[1:]):
            body = self.body(self.above(first), self.above(end))
            self.definitions[name] = self.definitions.get(name, []) + body
            self.blocks[name] = block
            if re.match(r" *(?:\w+ )*data ", self.lines[first]):
                for found in filter(None, map(CONSTRUCTOR.match, self.lines[first + 1 : end])):
                    self.owners.setdefault(found[1], name)

    def above(self, first):
        """Returns where a definition begins: at the comments above its first line, and at the line of its block."""
        while first and first <= len(self.lines) and (is_comment(self.lines[first - 1]) or BLOCK.match(self.lines[first - 1])):
            first -= 1
        return first

    def body(self, first, end):
        """Returns the lines of a definition, without the empty ones after it."""
        while end > first and not self.lines[end - 1].strip():
            end -= 1
        return self.lines[first:end]

    def cited(self, lines):
        """Yields the names that these lines cite, each with its module, which is None for a name of this file."""
        code = "\n".join(it for it in lines if not is_comment(it))
        for word in set(NAME.findall(code)):
            head, _, rest = word.partition(".")
            if head in self.definitions or head in self.owners:
                yield None, head
            elif head in self.imports:
                yield self.imports[head]
            elif head in self.modules and rest:
                yield self.modules[head], rest.partition(".")[0]


def path_of(module):
    """Returns the file of a module of specs/, or None if it is none: a type of the code, or the toolchain's library."""
    parts = module.split(".")
    if len(parts) < 4 or parts[2] != "specs" or parts[3] == "declared":
        return None
    path = f"crates/{parts[1]}/specs/{'/'.join(parts[3:])}.antt"
    return path if os.path.isfile(os.path.join(TOP, path)) else None


@functools.cache
def read(path):
    """Returns a file of definitions."""
    return Text(path)


def reached(cited):
    """Returns the definitions that these names lead to, each a name with its module, and those that they cite: their names, by file."""
    found, left = {}, [(path_of(module), name) for module, name in cited if module]
    while left:
        path, name = left.pop()
        name = path and (name if name in read(path).definitions else read(path).owners.get(name))
        if name and name not in found.setdefault(path, set()):
            found[path].add(name)
            left += [(path_of(of) if of else path, it) for of, it in read(path).cited(read(path).definitions[name])]
    return {path: names for path, names in found.items() if names}
