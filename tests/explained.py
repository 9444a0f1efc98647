"""What the program has to say with `--explain` beside the lines of the protocol, for test_cases.py, test_options.py and test_explain.py."""

import os
import re

import run
from sentences import BAD_LINES, CALLS, ENDINGS, FAULTS, MANIFESTS, MISFITS, MISREADS, PROGRAMS, REASONS

BAD_VALUE = r"romtool: \S+: (?:with this --base |--prefix has to )"


def explained(words):
    """Returns the words with the option before them."""
    return ["--explain"] + list(words)


def start_of(line, words, files):
    """Returns how the line in words begins that belongs to a line of the protocol; nothing if none does."""
    if re.fullmatch(r"size \d+ \d+|left 0", line):
        return "romtool: "
    found = re.fullmatch(r"strict (\d+) (\d+) (\w+)", line)
    if found:
        place = "" if found[1] == "0" else ":" + found[1]
        name, said = MISREADS[int(found[2])]
        return "romtool: %s%s: %s (%s): %s" % (files[0], place, name, found[2], said)
    if found := re.fullmatch(r"xip (\d+) \w+ \S+", line):
        return "romtool: %s:%s: Linux " % (files[0], found[1])
    for form, place, table in (
        (r"fault (\d+) (\w+) at (\d+)(?: in (\d))?", None, FAULTS),
        (r"manifest (\d+) (\d+) (\w+)", "manifest", MANIFESTS),
        (r"plan (\d+) (\d+) (\w+)", "manifest", MISFITS),
    ):
        found = re.fullmatch(form, line)
        if not found:
            continue
        if place:
            number, at = int(found[2]), "" if found[1] == "0" else ":" + found[1]
            name, said = table[number]
            return "romtool: %s%s: %s (%d): %s" % (files[0], at, name, number, said)
        number, image = int(found[1]), files[int(found[4] or 0)]
        name, said = table[number]
        return "romtool: %s: %s (%d) at %s: %s" % (image, name, number, found[3], said)
    return None


def refused_lines(replies):
    """Returns the lines in words that belong to the replies of a server."""
    wanted = []
    for number, reply in enumerate(replies, 1):
        reply = re.sub(r"^[0-7] ", "", reply)
        said = CALLS.get(reply[4:]) if reply.startswith("err ") else BAD_LINES.get(reply)
        if said:
            wanted.append("romtool: stdin:%d: %s" % (number, said))
    return wanted


def shown(name):
    """Returns a name as it is reported."""
    return "".join(chr(it) if 32 < it < 127 and it != 37 else "%%%02X" % it for it in os.fsencode(name))


def without_base(words):
    """Returns the words without an option --base and its value."""
    words = [it for it in words if not it.startswith("--base=")]
    at = words.index("--base") if "--base" in words else len(words)
    return words[:at] + words[at + 2 :]


def last_of_each(lines):
    """Returns the last image that `check --each` refuses by its fault, and the line of this, each as a list."""
    found = re.findall(r"^image (.*)\n(fault .*)$", "\n".join(lines), re.M)[-1:]
    return [name for name, _ in found], [line for _, line in found]


def noted_in(lines, name):
    """Returns how the lines in words begin that belong to the lines of `xip` or `linux` on the image of a name: one for each reason."""
    text = "\n".join(lines)
    reasons = re.findall(r"^not \S+ \S+ (\w+) |^(shared) |^linux \d+ (\w+) ", text, re.M)
    said = {**PROGRAMS, **dict(MISREADS.values())}
    return ["romtool: %s: %s: %s; files: " % (name, it, said[it]) for it in dict.fromkeys("".join(found) for found in reasons)]


VALUED = ("--max-size", "--depfile", "-C")


def wrong_in(words, plain, told, no_reader=False):
    """Returns what is wrong in the explanations of a run, compared with the run without. Standard output may have no reader."""
    if (told.returncode, told.stdout) != (plain.returncode, plain.stdout):
        return ["another answer: %d %r" % (told.returncode, told.stdout[-200:])]
    lines = (plain.stdout or b"").decode("latin-1").splitlines()
    faults = plain.stderr.decode("latin-1")
    if not lines and faults.startswith("fault "):
        lines = faults.splitlines()
    out = told.stderr.decode("latin-1")
    texts = [it if isinstance(it, str) else os.fsdecode(run.bytes_of(it)) for it in words]
    files = [shown(it) for it in without_base(texts[1:]) if it != "--"]
    if texts[:1] == ["build"]:
        given = [it for at, it in enumerate(texts) if it[:2] != "--" and it != "-C" and texts[at - 1] not in VALUED]
        files = [shown(given[2])] if len(given) > 2 else []
    if "--each" in texts:
        files, lines = last_of_each(lines)
    if texts[:1] in (["digest"], ["diff"]):
        files = [it for it in files if "romtool: %s: " % it in out] or files
    wrong = []
    for protocol in plain.stderr.decode("latin-1").splitlines(keepends=True):
        if protocol not in out:
            wrong.append("the line %r is lost" % protocol)
        said = ENDINGS.get(protocol.strip())
        is_quiet = protocol == "write fault\n" and no_reader
        reason = ": .+" if protocol == "write fault\n" else ""
        if said and not is_quiet and not re.search(r"^romtool: (memory|stdin|stdout): %s%s$" % (re.escape(said), reason), out, re.M):
            wrong.append("no words behind %r" % protocol)
        if is_quiet and "romtool: stdout: " in out:
            wrong.append("words behind %r, which nobody reads" % protocol)
        if protocol == "usage\n" and not re.search(
            r"^usage\n(error: |romtool: word:|romtool \d|\w.*\n\nUsage: |%s|romtool: .*: it has a )" % BAD_VALUE, out
        ):
            wrong.append("no reason behind usage")
        if protocol.startswith("file ") and "romtool: %s: " % protocol[5:-1] not in out:
            wrong.append("no reason behind %r" % protocol)
        refused = CALLS.get(protocol[4:-1]) if protocol.startswith("err ") else None
        if protocol == "err EINVAL\n" and texts[0] == "cat":
            refused = "a path in an image begins with a slash"
        if refused and "romtool: %s: %s\n" % (shown(texts[2]), refused) not in out:
            wrong.append("no words behind %r" % protocol)
    wanted = []
    if texts[:1] in (["serve"], ["space"]) and plain.returncode != 1:
        wanted = refused_lines(lines)
    elif plain.returncode == 1 and texts[0] == "which" and not plain.stderr:
        wanted = ["romtool: %s: its " % shown(without_base(texts[1:])[0])]
    elif plain.returncode == 1 and texts[0] in ("diff", "verify") and not plain.stderr:
        wanted = []
    elif texts[:1] == ["pack"] and "--quiet" in texts:
        wrong += ["words after --quiet"] * (out != faults)
    elif plain.returncode == 1 and lines and lines[-1].startswith("linux "):
        wanted = [*noted_in(lines, files[0]), "romtool: %s: %s" % (files[0], REASONS["MISREAD"])]
    elif plain.returncode == 1 and texts[0] == "xip" and lines:
        wanted = [*noted_in(lines, files[0]), "romtool: %s: %s" % (files[0], REASONS["NOT_IN_PLACE"])]
    elif plain.returncode == 1 and lines:
        begins = start_of(lines[-1], texts, files)
        wanted = [begins] if begins else []
        if not begins:
            wrong.append("%r is no line of a refusal" % lines[-1])
    for begin in wanted:
        if not any(line.startswith(begin) for line in out.splitlines()):
            wrong.append("no line %r" % begin)
    if texts[:1] in (["xip"], ["linux"]) and wanted and not plain.stderr and len(out.splitlines()) != len(wanted):
        wrong.append("%d lines for %d reasons" % (len(out.splitlines()), len(wanted)))
    if plain.returncode == 0 and plain.stderr == b"" and not wanted:
        lawful = re.compile(
            r"romtool: \S+: (skipped|warning|(owner|group|mode) \d+ of |the (owner|group|mode)s of |"
            r"\d+ names? newly readable by all|no subcommand was given: |removed parts|LastBlock, too$|\d+ more files with LastBlock$)"
        )
        wrong += ["words without a reason: %r" % it for it in out.splitlines() if not lawful.match(it)]
    return wrong
