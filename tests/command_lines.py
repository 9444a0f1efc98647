"""The command lines of documents, and what test_docs.py does with them.

A command line begins with `$ ` in a block: a fenced one that is marked `console`, or lines that are indented by four columns. It ends at
the end of the line, or of a later one after backslashes. The lines behind it are what it prints; if no command of an indented block
shows output, none is compared. The commands of a document are run in one directory, in bash, with `romtool` on the path.

What they need is made first (GIVEN). Some are not run here; NOT_RUN says why. Besides, code in the text can be run (SPOKEN), and
wherever a document shows a subcommand of romtool with options, the program has to have these.
"""

import os
import re
import shutil
import subprocess
import sys
import tempfile
from dataclasses import dataclass

from files import repository_text as text_of
from harness import SECONDS, TOP

sys.path.insert(0, os.path.join(TOP, "tools"))

import completions  # noqa: E402

# what makes the files that the commands of a document need; $TOP is the repository
GIVEN = {
    "README.md": "",
    "CONTRIBUTING.md": """mkdir -p crates tests bench tools web
cp -r "$TOP"/crates/path_patterns "$TOP"/crates/image_check crates
rm -rf crates/*/out crates/*/proofs
cp "$TOP"/tests/big_endian.py tests
cp crates/path_patterns/src/matching.rt before
""",
    "docs/C.md": """mkdir -p crates/rom_c/out mnt app/bin app/dev app/etc
ln -s "$TOP/include" "$TOP/tests" "$TOP/c" "$TOP/mount" "$TOP/tests/c/first.c" .
cp "$LIBRARY/lib/libromtool.a" crates/rom_c/out/librom_c.a
ar d crates/rom_c/out/librom_c.a romtool_heap.o
cp "$LIBRARY/thumbv7m.a" crates/rom_c/out/librom_c-thumbv7m.a
cp "$LIBRARY/firmware.c" .
cp "$(type -P true)" app/bin/busybox
romtool pack --quiet --all-root --align 4096 cramfs app app.cramfs >/dev/null
""",
    "docs/LINUX.md": """mkdir -p app/bin app/etc
head -c 8192 /dev/zero >app/etc/table
printf '#!/bin/sh\\n' >app/bin/init
cat >manifest <<'END'
dir / 0755 0 0
dir /bin 0755 0 0
dir /etc 0755 0 0
file /bin/init 0755 0 0 4096 app/bin/init
slink /init 0777 0 0 bin/init
file /etc/table 0644 0 0 4 app/etc/table
END
""",
    "docs/MANIFEST.md": """mkdir out
echo shell >out/sh
echo notes >notes.txt
sed -n '/^    # a small system$/,/^$/s/^    //p' "$TOP/docs/MANIFEST.md" >manifest
""",
    "docs/PROTOCOL.md": "mkdir app\necho hello >app/motd\nromtool pack --quiet romfs app app.romfs >/dev/null\n",
}
# what has to hold behind the commands of a document
AFTER = {"CONTRIBUTING.md": "! cmp -s before crates/path_patterns/src/matching.rt"}
# what the capital words of a document's commands stand for
MEANT = {
    "docs/C.md": {
        "LIBRARIES": "crates/rom_c/out/librom_c.a c/heap.c",
        "LIBRARY": "crates/rom_c/out/librom_c.a", "IMAGE": "app.cramfs", "PATH": "/bin/busybox", "DIR": "mnt",
    },
}  # fmt: skip
# code in the text of a document that is run behind its blocks, and has to succeed
SPOKEN = {
    "README.md": ["romtool extract app.cramfs dir 'etc/*'", "romtool cat app.cramfs /etc/motd", "chmod -R u=rwX,go=rX app"],
    "docs/MANIFEST.md": ["romtool build romfs manifest boot.romfs"],
}
# how commands begin that are not run here, by their documents, and why
NOT_RUN = {
    "README.md": {
        "tools/try": "tests/test_tools.py runs it",
        "./test --quick": "it runs this script",
        "sudo tar": "tests/test_release.py unpacks the archive",
        "sudo apt install": "tests/test_release.py installs the packages",
    },
    "CONTRIBUTING.md": {
        "tools/unproved": "minutes: tests/test_unproved.py builds the program, tests/planted.py plants errors",
        "(cd crates": "a proof",
        "git checkout": "it undoes the second command",
    },
    "SECURITY.md": {"": "tests/test_release.py runs them on a release"},
    "bindings/python/README.md": {"": "tests/test_python.py runs them"},
    "docs/C.md": {
        "tools/": "it proves the library, or is made of it: tests/test_targets.py",
        "./romtool-mount": "tests/test_mount.py mounts images, if that can be done",
        "fusermount3": "there is no mount",
    },
    "docs/LINUX.md": {"sudo ": "it needs root, and a kernel with these options: tests/test_started.py and test_flash.py start one"},
    "docs/internals/PROVED.md": {"git clone": "it needs the address of the repository", "./test": "it runs this script"},
    "tests/edits/README.md": {"tools/edits": "proofs"},
}


@dataclass
class Command:
    """A command line of a document, what its block shows of its output, and whether the output of this block is compared."""

    line: str
    output: str = ""
    is_compared: bool = True


def blocks(text):
    """Yields the blocks of a document that may have commands: whether each is fenced, and its lines."""
    mark, found, is_fenced = None, [], False
    for line in [*text.splitlines(), ""]:
        is_indented = mark is None and line.startswith("    ")
        if found and (line.startswith("```") if is_fenced else not is_indented):
            yield is_fenced, found
            found = []
        if line.startswith("```"):
            mark = line[3:] if mark is None else None
            is_fenced = mark is not None
        elif mark == "console" or is_indented:
            is_fenced = mark == "console"
            found.append(line if is_fenced else line[4:])


def commands(text):
    """Returns the command lines of a document, in order."""
    found = []
    for is_fenced, lines in blocks(text):
        of_block, is_open = [], False
        for line in lines:
            if is_open:
                of_block[-1].line += "\n" + line
            elif line.startswith("$ "):
                of_block.append(Command(line[2:]))
            elif of_block:
                of_block[-1].output += line + "\n"
            is_open = bool(of_block) and not of_block[-1].output and line.endswith("\\")
        for it in of_block:
            it.is_compared = is_fenced or any(other.output for other in of_block)
        found += of_block
    return found


def code_of(text):
    """Returns the code in the text of a document, outside its blocks, with single spaces."""
    text = re.sub(r"^```.*?^```$", "", text, flags=re.M | re.S)
    return [re.sub(r"\s+", " ", it) for it in re.findall(r"`([^`]+)`", text)]


def why_not(name, line):
    """Returns how the entry of NOT_RUN for a command begins, or nothing if it is to be run."""
    return next((it for it in NOT_RUN.get(name, {}) if line.startswith(it)), None)


def unnamed_numbers(text):
    """Returns a text with each number replaced by a sign, and spaces in a row by one."""
    return re.sub(r" +", " ", re.sub(r"\b(0x[0-9a-f]+|\d+)\b", "#", text))


def is_as_shown(printed, shown):
    """Returns whether a command printed what its document shows. Where there is another busybox, its numbers are not compared."""
    size = re.search(r"^0x\w+ (\d+) 0 /bin/busybox$", text_of("README.md"), re.M)[1]
    is_known = os.path.getsize("/bin/busybox") == int(size) if os.path.exists("/bin/busybox") else False
    return printed == shown or not is_known and "busybox" in shown and unnamed_numbers(printed) == unnamed_numbers(shown)


class Session:
    """A directory in which the commands of a document are run as a user, whose number is given if root runs this."""

    def __init__(self, name, binary, top, user=0, library=None):
        self.name, self.here = name, top + "/here"
        os.chmod(top, 0o755)
        for it in (top + "/bin", self.here):
            os.mkdir(it)
        shutil.copy(binary, top + "/bin/romtool")
        path = f"{top}/bin:{os.environ['PATH']}"
        self.environment = {**os.environ, "PATH": path, "TOP": TOP, "LIBRARY": library or "", "PKG_CONFIG_PATH": f"{library}/lib/pkgconfig"}
        self.who = {"user": user, "group": user, "extra_groups": []} if user else {}
        self.given = self.run(GIVEN.get(name, ""), strict=True, who={})
        if user:
            subprocess.run(["chown", "-Rh", f"{user}:{user}", self.here], check=True)

    def run(self, line, strict=False, who=None):
        """Runs a line, and returns its status and its output with what it says."""
        words = ["bash", *(["-euc"] if strict else ["-c"]), line]
        how = {"stdin": subprocess.DEVNULL, "stdout": subprocess.PIPE, "stderr": subprocess.STDOUT, "timeout": 5 * SECONDS, "umask": 0o022}
        done = subprocess.run(words, cwd=self.here, env=self.environment, **how, **(self.who if who is None else who))
        return done.returncode, done.stdout.decode(errors="replace")


def run_document(name, binary, counts, user=0, library=None):
    """Runs the commands of a document as a user, and counts how each ends. Those that need the library for C are run if it is given."""
    found, left = commands(text_of(name)), set(NOT_RUN.get(name, {}))
    chosen = [it for it in found if why_not(name, it.line) is None]
    left -= {why_not(name, it.line) for it in found}
    counts.equal(f"{name}: commands that are named in NOT_RUN and not there", sorted(left), [])
    spoken = code_of(text_of(name))
    counts.equal(f"{name}: code of SPOKEN that is not there", [it for it in SPOKEN.get(name, []) if it not in spoken], [])
    with tempfile.TemporaryDirectory(prefix="romtool-") as top:
        session = Session(name, binary, top, user, library)
        if session.given[0]:
            counts.fails(f"{name}: what it needs is not made", [session.given[1]])
            return
        more = [*SPOKEN.get(name, []), *filter(None, [AFTER.get(name)])]
        for it in [*chosen, *(Command(line, is_compared=False) for line in more)]:
            status, printed = session.run(re.sub(r"\b[A-Z]+\b", lambda word: MEANT.get(name, {}).get(word[0], word[0]), it.line))
            is_well = is_as_shown(printed, it.output) if it.is_compared else status == 0
            counts.result(f"{name}: {it.line} (user {user})", [] if is_well else [f"status {status}: {printed!r}"])


def options(name, subcommands, counts):
    """Counts whether each option that a document shows of a subcommand is one of it, except in the history of changes."""
    lines = [line for _, block in blocks(text_of(name)) for line in block]
    for code in [*code_of(text_of(name)), *lines] if name != "CHANGELOG.md" else []:
        for sub, words in re.findall(r"(?:\bromtool (?:--explain )?|^)([a-z]+)((?: [^|;&>]*)?)", code):
            known = subcommands.get(sub, None)
            used = re.findall(r"(?<![\w-])(-[a-zA-Z]|--[a-z][a-z-]*)\b", words.split(" -- ")[0])
            if known and used:
                counts.equal(f"{name}: options of {code!r}", [it for it in used if it not in known], [])


def options_of(binary):
    """Returns the options of each subcommand of a program, with their letters, and those of all."""
    top, subcommands = completions.table(binary)
    everywhere = [*top, *completions.ASKED]
    return {it.name: {name for option in [*it.options, *everywhere] for name in (option.name, option.letter)} for it in subcommands}
