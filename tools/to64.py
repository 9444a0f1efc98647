"""Changes the module of the library for C for other 64-bit machines, and writes modules for other releases of LLVM.

The module is that of the proved build for x86-64. Pointers, sizes and alignments are the same on another little-endian machine
with 64-bit pointers, so only the calls differ. These are all changes:

1. Triple, data layout and the attributes of the machine are dropped, as for 32 bits (to32.py).
2. A result of more than 16 bytes is `sret`, so each machine passes its address in its own way: x8 on AArch64, the first argument
   on RISC-V and x86-64. Results of up to 16 bytes are one or two numbers of 64 bits on these machines, as they are in the module.
3. A result of 32 bits is sign-extended, which RISC-V requires; elsewhere nobody reads the upper half.
4. Without a red zone, each function has `noredzone`, so code in a kernel may be interrupted.
"""

import re

import to32

# sizes of the results that are passed by their address
RESULT = 36
# attributes of functions that each release of LLVM has
ATTRIBUTES = ("nounwind", "noreturn", "cold", "nobuiltin", "noinline", "alwaysinline", "inlinehint", "noredzone", "willreturn")


def to64(text, small=False, red_zone=True):
    """Returns the module for another 64-bit machine."""
    it = to32.Pass(text)
    it.machine()
    if small:
        it.search()
    text = it.text
    for name in to32.EXPORTS:
        found = re.search(rf"^define (?!internal)([^@\n]*)@romtool_{name}\(([^\n]*)\) ?([^\n]*)\{{$", text, re.M)
        if not found:
            raise to32.Refused(f"no export romtool_{name}")
        kind, given = found[1].replace("noundef ", "").strip(), to32.split(found[2].replace("noundef ", ""))
        if not all(re.fullmatch(rf"(?:ptr|i64|i32|i1) {to32.VALUE}", it) for it in given):
            raise to32.Refused(f"romtool_{name} takes {found[2]}")
        if name in to32.THROUGH and kind == "ptr":
            text = with_sret(text, name, found[1], given)
        elif kind == "i32":
            text = text.replace(found[0], found[0].replace(f"{found[1]}@", f"signext {found[1]}@", 1))
        elif kind not in ("i64", "zeroext i1", "{ i64, i64 }") and not (kind == "void" and name in to32.SILENT):
            raise to32.Refused(f"romtool_{name} answers {kind}")
    if not red_zone:
        text = re.sub(r"^(attributes #\d+ = \{)", r"\1 noredzone", text, flags=re.M)
        text = re.sub(r"^(define [^\n]*\)) (nounwind )?(?=\{$)", r"\1 \2noredzone ", text, flags=re.M)
    return text


def with_sret(text, name, kind, given):
    """Lets an export return through an address that the machine passes in its own way."""
    text = text.replace(f"@romtool_{name}(", f"@rom64.{name}(").replace(
        f"define {kind}@rom64.{name}(", f"define internal {kind}@rom64.{name}("
    )
    taken = ", ".join([f"ptr sret([{RESULT} x i8]) align 4 {given[0].split()[1]}", *given[1:]])
    text += f"\ndefine void @romtool_{name}({taken}) nounwind {{\n"
    return text + f"  %got = call ptr @rom64.{name}({', '.join(given)})\n  ret void\n}}\n"


def plain(text):
    """Returns a module without what only some releases of LLVM read. All of it is hints, which may be left out."""
    for pattern, to in (
        (r"^(declare [^@\n]*@(?:llvm\.[\w.]+)\()([^\n]*)\).*$", lambda it: it[1] + ", ".join(map(bare, to32.split(it[2]))) + ")"),
        (r"^(attributes #\d+ = \{)([^}\n]*)\}$", lambda it: f"{it[1]} {attributes(it[2])} }}"),
        (r"= ptrtoaddr ptr", "= ptrtoint ptr"),
        (r"= getelementptr (inbounds )?(?:(?:nuw|nusw) )+", r"= getelementptr \1"),
        (r"= (zext|uitofp) nneg ", r"= \1 "),
        (r"= trunc (?:(?:nuw|nsw) )+", "= trunc "),
        (r"= icmp samesign ", "= icmp "),
        (r"= or disjoint ", "= or "),
        (r"^.*(?<![\w@])splat \(.*$", lambda it: without_splat(it[0])),
        (r" (?:captures|range|initializes|nofpclass|memory)\((?:[^()\n]|\([^()\n]*\))*\)", ""),
        (r" (?:dead_on_unwind|writable)\b(?! =)", ""),
    ):
        text = re.sub(pattern, to, text, flags=re.M)
    return text


def without_splat(line):
    """Returns a line in which the equal elements of a vector are listed."""

    def listed(it):
        count = int(re.search(rf"<(\d+) x {it[1]}>", line)[1])
        return f"<{', '.join([f'{it[1]} {it[2]}'] * count)}>"

    return re.sub(r"splat \((\w+) (-?\w+)\)", listed, line)


def bare(word):
    """Returns the type of a parameter without its attributes."""
    return re.match(r"<[^>]*>|[\w.]+", word)[0]


def attributes(words):
    """Returns those attributes of a function that each release of LLVM has."""
    return " ".join([it for it in dict.fromkeys(words.split()) if it in ATTRIBUTES] or ["nounwind"])
