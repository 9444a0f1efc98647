"""The pass of tools/rom32: the LLVM module of the library for C, of 64-bit pointers, for a machine of 32 bits.

What is changed, and nothing else:
  1. The data layout and the triple go; the compiler puts in those of its target. So do the attributes of the processor.
  2. A cell of a pointer stays 8 bytes wide: `alloca ptr` becomes `alloca i64`. What is stored there may have 8 bytes.
  3. A load of a pair that has a pointer becomes two loads at the offsets of 64 bits: the pairs were stored by offsets.
  4. An address becomes a number over i32: `ptrtoaddr .. to i64`.
  5. Twelve exports answer through a pointer, as romtool.h has them, and the heap is called as C for the machine has it.

Why that is right: each access is proved to be inside of a slice or a local, and each of these fits into 32 bits, so each
offset does. All layouts stay those of 64 bits: nothing but the width of a pointer in its own cell differs, and a pointer
is loaded from the cell in which it was stored. On a little-endian machine the first half of a cell is its number.

The pass looks at every line, before and after, and ends with `Refused` at anything about pointers that is not in its
list: a pair or an aggregate with a pointer in memory, a constant with a pointer, a number that becomes a pointer, a vector
of pointers, atomics, assembly, a function from outside that it does not know. What it does not know it does not guess.
"""

import re

# the bytes of what a pair may have, as 64 bits have them
SIZES = {"i1": 1, "i8": 1, "i16": 2, "i32": 4, "i64": 8, "ptr": 8}
# the first number of the version, which is in the name of each export except that of the version
MAJOR = 3


def exports(*names):
    """Returns the names of exports, as they are behind `romtool_`."""
    return tuple(f"{it}_v{MAJOR}" for it in names)


EXPORTS = (
    *exports(
        "check", "numbers", "from_numbers", "lookup", "lookup_within", "lookup_at", "stat", "stat_node", "readlink",
        "readlink_node", "is_node", "links", "nodes", "parent", "volume", "open", "open_node", "reopen", "fstat", "map", "lend",
        "read", "read_at", "seek", "readdir", "telldir", "seekdir",
    ),
    "library_version",
)  # fmt: skip
# those that answer by a struct of more than 16 bytes, by a number of 64 bits, and not at all
THROUGH = exports("stat", "stat_node", "fstat")
COUNTS = exports("links", "nodes", "telldir")
SILENT = exports("numbers")
HEAP = ("rattle_alloc", "rattle_realloc", "rattle_dealloc")
# what the module may call from outside: the heap, these functions of C, and these of LLVM
OUTSIDE = (*HEAP, "memcpy", "memmove", "memset", "memcmp")
INTRINSICS = (
    "memcpy", "memmove", "memset", "umul.with.overflow", "uadd.with.overflow", "usub.with.overflow", "umin", "umax",
    "smin", "smax", "ctpop", "ctlz", "cttz", "bswap", "fshl", "fshr", "usub.sat", "uadd.sat", "lifetime.start",
    "lifetime.end", "assume", "expect", "trap", "vector.reduce", "bitreverse", "abs",
)  # fmt: skip
# operations that hold no pointer, or only pass one on
PLAIN = set(
    """add sub mul and or xor shl lshr ashr udiv sdiv urem srem zext sext trunc freeze br switch unreachable
extractelement insertelement shufflevector bitcast""".split()
)
PASSING = {"icmp", "select", "phi", "ret", "extractvalue", "insertvalue", "freeze", "call"}
# what no line may have
NEVER = (
    "inttoptr", "ptrtoint", "addrspacecast", "blockaddress", "addrspace(", "atomicrmw", "cmpxchg", "fence", "atomic",
    "volatile", "asm", "invoke", "callbr", "indirectbr", "landingpad", "va_arg", "thread_local", "ifunc", "byval",
    "inalloca", "preallocated", "llvm.x86", "dso_local_equivalent",
)  # fmt: skip
IS_NEVER = re.compile(rf"(?<![\w.])(?:{'|'.join(map(re.escape, NEVER))})(?!\w)")
NAME = r'@(?:"[^"]*"|[\w.$:]+)'
VALUE = r'%(?:"[^"]*"|[\w.$:-]+)'
INT = r"i\d+"
FLAT = rf"(?:{INT}|<\d+ x {INT}>|\[\d+ x {INT}\]|(?:float|double))"


class Refused(Exception):
    """The module has something that the pass does not know."""


def refuse(why, line):
    """Refuses a module for one of its lines."""
    raise Refused(f"{why}: {line.strip()[:300]}")


def without_texts(line):
    """Returns a line without the texts of its constants and the quoted names, in which anything may be written."""
    return re.sub(r'c"[^"]*"', 'c""', re.sub(r'([@%])"[^"]*"', r"\1_", line))


class Looks:
    """Looks at each line of a module, once it was changed."""

    def __init__(self, text):
        self.defined = set(re.findall(rf"^define [^@\n]*({NAME})\(", text, re.M))
        self.declared = set(re.findall(rf"^declare [^@\n]*({NAME})\(", text, re.M))

    def at_all(self, text):
        """Looks at all lines."""
        for name in self.declared:
            self.outside(name)
        for line in text.split("\n"):
            bare = without_texts(line)
            never = IS_NEVER.search(bare)
            if never:
                refuse(f"{never[0]} is not known", line)
            if line.startswith("  "):
                self.operation(line, bare)
            else:
                self.top(line, bare)

    def outside(self, name):
        """A function from outside is one that is known."""
        plain = name[1:].strip('"')
        intrinsic = re.fullmatch(r"llvm\.(.*)", plain)
        if intrinsic and any(intrinsic[1] == it or intrinsic[1].startswith(it + ".") for it in INTRINSICS):
            return
        if plain not in OUTSIDE:
            refuse("a function from outside that is not known", name)

    def top(self, line, bare):
        """A line outside the functions, or one that begins or ends a function or a block."""
        if re.match(r"(declare|define|attributes|source_filename|;|![\w.]+ = |\}|$)", line) or re.match(r'["\w.$-]+:', line):
            if re.search(r"sret\([^)]*ptr", bare):
                refuse("an answer in memory with a pointer", line)
            return
        constant = re.match(rf"{NAME} = (?:private |internal |local_unnamed_addr |unnamed_addr |dso_local )*constant (.*)", line)
        if not constant:
            refuse("neither a function nor a constant", line)
        if "ptr" in without_texts(constant[1]) or "@" in without_texts(constant[1]) or "%" in without_texts(constant[1]):
            refuse("a constant with a pointer", line)

    def operation(self, line, bare):
        """A line of a function."""
        if re.match(r"    (i\d+ [-\d]+, label|\])|  \]", line):
            return
        found = re.match(rf"  (?:{VALUE} = )?(?:tail |musttail |notail )?(\w+)(.*)$", line, re.S)
        if not found:
            refuse("no operation", line)
        kind = found[1]
        has_pointer = re.search(r"\bptr\b", bare)
        if re.search(r"(getelementptr|ptrtoaddr|bitcast|trunc|sub|add) (?:[\w ]*)\(", bare) and kind != "call":
            refuse("a constant that is an operation", line)
        if re.search(r"[x{,] ?ptr[^{}]*>|\[\d+ x ptr|<\d+ x ptr", bare):
            refuse("a vector or an array of pointers", line)
        if kind in ("load", "store", "alloca", "getelementptr", "ptrtoaddr"):
            getattr(self, kind)(line)
        elif kind == "call":
            self.call(line, bare)
        elif kind not in PLAIN and kind not in PASSING or has_pointer and kind not in PASSING:
            refuse("an operation that is not known", line)

    def load(self, line):
        """A load of a number, of a pointer, or of a pair of numbers."""
        kind = rf"(?:{FLAT}|ptr|\{{ {INT}, {INT} \}})"
        if not re.match(rf"  {VALUE} = load {kind}, ptr (?:{VALUE}|{NAME}), align \d+(?:, ![\w.]+ !\d+)*$", line):
            refuse("a load that is not known", line)

    def store(self, line):
        """A store of a number, of a pointer, or of a pair of numbers."""
        value = rf"(?:{FLAT} \S.*|ptr (?:{VALUE}|{NAME}|null)|\{{ {INT}, {INT} \}} \S.*)"
        if not re.match(rf"  store {value}, ptr {VALUE}, align \d+(?:, ![\w.]+ !\d+)*$", line) or "{ ptr" in line:
            refuse("a store that is not known", line)

    def alloca(self, line):
        """Room for numbers."""
        if not re.match(rf"  {VALUE} = alloca {FLAT}, align \d+$", line):
            refuse("a local that is not known", line)

    def getelementptr(self, line):
        """An offset in bytes."""
        flags = r"(?:inbounds |nuw |nusw )*"
        if not re.match(rf"  {VALUE} = getelementptr {flags}i8, ptr (?:{VALUE}|{NAME}), {INT} (?:{VALUE}|-?\d+)$", line):
            refuse("an offset that is not in bytes", line)

    def ptrtoaddr(self, line):
        """An address over i32."""
        if not re.match(rf"  {VALUE} = ptrtoaddr ptr {VALUE} to i32$", line):
            refuse("an address that is not known", line)

    def call(self, line, bare):
        """A call of a function of the module, or of one from outside that is known."""
        name = re.search(rf"({NAME})\(", line)
        if not name or name[1] not in self.defined | self.declared:
            refuse("a call of what is not named", line)


class Pass:
    """The changes, with how many of each were made."""

    def __init__(self, text):
        self.text, self.made = text, {}

    def change(self, what, pattern, to):
        """Changes each place of a pattern, and counts them."""
        self.text, self.made[what] = re.subn(pattern, to, self.text, flags=re.M)

    def machine(self):
        """Drops the machine."""
        self.change("triple and layout", r"^target .*\n", "")
        names = ("frame-pointer", "probe-stack", "stack-probe-size", "target-cpu", "target-features", "tune-cpu")
        self.change("attributes", rf' "(?:{"|".join(names)})"="[^"]*"', "")

    def cells(self):
        """Keeps cells of pointers 8 bytes wide."""
        self.change("cells", r"= alloca ptr, align 8$", "= alloca i64, align 8")

    def pairs(self):
        """Loads pairs with a pointer in two parts."""
        count = 0

        def parts(it):
            nonlocal count
            whole, first, second, place, align = it.groups()
            if "ptr" not in (first, second):
                return it[0]
            if first not in SIZES or second not in SIZES or int(align) not in (1, 2, 4, 8, 16):
                refuse("a pair that is not known", it[0])
            offset = (SIZES[first] + SIZES[second] - 1) // SIZES[second] * SIZES[second]
            at, kind, count = f"%pair.{count}", f"{{ {first}, {second} }}", count + 1
            return (
                f"  {at}.a = load {first}, ptr {place}, align {align}\n"
                f"  {at}.at = getelementptr i8, ptr {place}, i64 {offset}\n"
                f"  {at}.b = load {second}, ptr {at}.at, align {min(SIZES[second], int(align))}\n"
                f"  {at}.one = insertvalue {kind} poison, {first} {at}.a, 0\n"
                f"  {whole} = insertvalue {kind} {at}.one, {second} {at}.b, 1"
            )

        pattern = rf"^  ({VALUE}) = load \{{ (\w+), (\w+) \}}, ptr ({VALUE}), align (\d+)$"
        self.text = re.sub(pattern, parts, self.text, flags=re.M)
        self.made["pairs"] = count

    def addresses(self):
        """Makes numbers of addresses over i32."""
        count = 0

        def widened(it):
            nonlocal count
            count += 1
            return f"  %address.{count} = ptrtoaddr ptr {it[2]} to i32\n  {it[1]} = zext i32 %address.{count} to i64"

        self.text = re.sub(rf"^  ({VALUE}) = ptrtoaddr ptr ({VALUE}) to i64$", widened, self.text, flags=re.M)
        self.made["addresses"] = count

    def export(self, name):
        """Lets an export answer as romtool.h has it: by a number, or through a pointer under the name rom32_NAME."""
        found = re.search(rf"^define (?!internal)([^@\n]*)@romtool_{name}\(([^\n]*)\) ?([^\n]*)\{{$", self.text, re.M)
        if not found:
            raise Refused(f"no export romtool_{name}")
        kind = found[1].replace("noundef ", "").strip()
        if kind in ("i32", "zeroext i1") or kind == "i64" and name in COUNTS or kind == "void" and name in SILENT:
            return
        given = split(found[2].replace("noundef ", ""))
        if not all(re.fullmatch(rf"(?:ptr|i64|i32|i1) {VALUE}", it) for it in given):
            raise Refused(f"romtool_{name} takes {found[2]}")
        passed = ", ".join(given)
        self.text = self.text.replace(f"@romtool_{name}(", f"@rom32.{name}(")
        self.text = self.text.replace(f"define {found[1]}@rom32.{name}(", f"define internal {found[1]}@rom32.{name}(")
        if kind == "ptr" and name in THROUGH:  # C for x86-64 gives the answer's place as the first argument
            self.text += f"\ndefine void @rom32_{name}({passed}) nounwind {{\n"
            self.text += f"  %got = call ptr @rom32.{name}({passed})\n  ret void\n}}\n"
            return
        parts = re.fullmatch(r"(i64)|\{ (i32|i64), (i32|i64) \}", kind)
        if not parts or "%answer" in passed:
            raise Refused(f"romtool_{name} answers {kind}")
        self.text += f"\ndefine void @rom32_{name}(ptr %answer, {passed}) nounwind {{\n"
        self.text += f"  %got = call {kind} @rom32.{name}({passed})\n"
        if parts[1]:
            self.text += "  store i64 %got, ptr %answer, align 4\n"
        else:
            self.text += f"  %first = extractvalue {kind} %got, 0\n  %second = extractvalue {kind} %got, 1\n"
            self.text += f"  store {parts[2]} %first, ptr %answer, align 4\n"
            self.text += f"  %behind = getelementptr i8, ptr %answer, i64 {SIZES[parts[2]]}\n"
            self.text += f"  store {parts[3]} %second, ptr %behind, align 4\n"
        self.text += "  ret void\n}\n"

    def search(self):
        """Searches for a byte by a plain loop: what was for wide registers is dropped."""
        found = re.search(rf"^{re.escape(SEARCH_HEAD)}[^\n]*\n.*?^\}}\n", self.text, re.M | re.S)
        if not found:
            raise Refused("no search for a byte that is known")
        self.text = self.text.replace(found[0], SEARCH)
        self.made["search"] = 1

    def heap(self):
        """Calls the heap as C for the machine has it: a struct of 16 bytes is answered through a pointer."""
        for name, words in (("alloc", "i64 %size, i64 %align"), ("realloc", "ptr %old, i64 %kept, i64 %size, i64 %align")):
            pattern = rf"^declare (\{{ i64, i64 \}}) @rattle_{name}\(([^\n]*)\)[^\n]*\n"
            declared = re.search(pattern, self.text, re.M)
            kinds = declared and [re.match(r"\w+", it)[0] for it in split(declared[2])]
            if kinds != [re.match(r"\w+", it)[0] for it in split(words)]:
                raise Refused(f"rattle_{name} is not declared as it is known")
            self.text = self.text.replace(declared[0], "").replace(f"@rattle_{name}(", f"@rom32.{name}(")
            self.text += HEAP_CALL.format(name=name, words=words, kinds=", ".join(kinds))
        self.made["heap"] = 2


def split(words):
    """Returns the parameters of a function, one by one."""
    found, depth = [""], 0
    for it in words:
        depth += (it in "({") - (it in ")}")
        if it == "," and not depth:
            found.append("")
        else:
            found[-1] += it
    return [it.strip() for it in found if it.strip()]


# the kit's search, which answers 1 and the place of the first such byte, or 0
SEARCH_HEAD = 'define internal { i8, i64 } @"memchr::bytes::memchr"(i8 noundef %a0, ptr noundef %a1, i64 noundef %a2)'
SEARCH = """define internal { i8, i64 } @"memchr::bytes::memchr"(i8 %byte, ptr %from, i64 %len) nounwind {
start:
  br label %next

next:
  %at = phi i64 [ 0, %start ], [ %more, %other ]
  %ends = icmp eq i64 %at, %len
  br i1 %ends, label %none, label %look

look:
  %place = getelementptr i8, ptr %from, i64 %at
  %here = load i8, ptr %place, align 1
  %is_it = icmp eq i8 %here, %byte
  br i1 %is_it, label %some, label %other

other:
  %more = add i64 %at, 1
  br label %next

some:
  %one = insertvalue { i8, i64 } poison, i8 1, 0
  %two = insertvalue { i8, i64 } %one, i64 %at, 1
  ret { i8, i64 } %two

none:
  ret { i8, i64 } zeroinitializer
}
"""
# the first 8 bytes of an answer say whether memory is given, the first half of the next 8 is the pointer
HEAP_CALL = """
declare void @rattle_{name}(ptr sret([16 x i8]) align 8, {kinds}) nounwind

define internal {{ i64, i64 }} @rom32.{name}({words}) nounwind {{
  %answer = alloca [16 x i8], align 8
  call void @rattle_{name}(ptr sret([16 x i8]) align 8 %answer, {words})
  %given = load i64, ptr %answer, align 8
  %cell = getelementptr i8, ptr %answer, i64 8
  %both = load i64, ptr %cell, align 8
  %at = and i64 %both, 4294967295
  %one = insertvalue {{ i64, i64 }} poison, i64 %given, 0
  %two = insertvalue {{ i64, i64 }} %one, i64 %at, 1
  ret {{ i64, i64 }} %two
}}
"""


def to32(text, small=False):
    """Returns the module for 32 bits, and how many of each change were made."""
    it = Pass(text)
    for name in re.findall(rf"^define (?!internal )[^@\n]*({NAME})\(", text, re.M):
        if name not in [f"@romtool_{export}" for export in EXPORTS]:
            raise Refused(f"an export that is not known: {name}")
    it.machine()
    it.cells()
    it.pairs()
    it.addresses()
    for name in EXPORTS:
        it.export(name)
    it.heap()
    if small:
        it.search()
    Looks(it.text).at_all(it.text)
    return it.text, it.made
