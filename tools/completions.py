#!/usr/bin/env python3
"""tools/completions.py bash|zsh|fish [PROGRAM]: prints the completion of romtool for a shell.

The subcommands, their words and their options are those that the program's own help shows, so they come from the one table
in crates/command_line/src/table.rt. The formats are those that crates/formats/src/format.rt names, and the alignments those that
crates/command_line/src/numbers.rt accepts.
"""

import os
import re
import subprocess
import sys
from dataclasses import dataclass

TOP = os.path.dirname(os.path.dirname(os.path.realpath(__file__)))
PROGRAM = f"{TOP}/crates/romtool/out/romtool"
# what a word of each name that help shows is completed with: files, directories, nothing, or the words that a function accepts
KINDS = {
    "IMAGE": "files", "MANIFEST": "files", "OUT": "files", "DUMP": "files", "FILE": "files", "A": "files", "B": "files",
    "DIR": "directories", "DIR.. OUT": "files", "PATH": "nothing", "HEX": "nothing", "ADDRESS": "nothing", "N": "nothing",
    "NAME": "nothing", "BYTE": "nothing", "GLOB": "nothing", "UID:GID": "nothing", "DEVICE": "nothing",
    "FORMAT": "formats/src/format.rt named", "[GLOB=]N": "command_line/src/numbers.rt align_named",
}  # fmt: skip


@dataclass
class Option:
    """An option: its name with the dashes, the name of its value or None, its sentence, and its letter with the dash if it has one."""

    name: str
    value: str | None
    about: str
    letter: str = ""


@dataclass
class Subcommand:
    """A subcommand: its name, its sentence, the names of its words, whether the last one repeats and whether it may be left out, its
    options, and the sentences of its words by their names."""

    name: str
    about: str
    words: list
    repeats: bool
    is_optional: bool
    options: list
    sentences: dict


# what help shows of itself, which is no part of the table
ASKED = [Option("--help", None, "Print help", "-h"), Option("--version", None, "Print version", "-V")]
HELP = Subcommand("help", "Prints help of a subcommand", ["[SUBCOMMAND]"], False, False, [], {})


def help_of(program, *words):
    """Returns the program's help of these words."""
    ran = subprocess.run([program, "--explain", "help", *words], stdin=subprocess.DEVNULL, capture_output=True, text=True)
    if "Usage: " not in ran.stderr:
        sys.exit(f"tools/completions.py: {program} has no help of {' '.join(words) or 'itself'}")
    return ran.stderr


def options_in(text):
    """Returns the options that a text of help lists, without those for help and for the version."""
    found = re.findall(r"^ +(?:(-\w), )?(--[\w-]+)(?: <([^>]+)>)?  +(.*)$", text.partition("\nOptions:\n")[2], re.M)
    asked = [it.name for it in ASKED]
    return [Option(name, value or None, about, letter) for letter, name, value, about in found if name not in asked]


def subcommand(program, name, about):
    """Returns a subcommand with what the program's help of it lists."""
    text = help_of(program, name)
    usage = re.search(r"^Usage: .*$", text, re.M)[0]
    listed = text.partition("\nArguments:\n")[2].partition("\n\n")[0]
    sentences = dict(re.findall(r"^  [<[]([^]>]+)[]>](?:\.\.\.)? +(.*)$", listed, re.M))
    words = re.findall(r"(?:<|\[(?!OPTIONS))([^]>]+)[]>]", usage)
    return Subcommand(name, about, words, usage.endswith("..."), usage.endswith("]..."), options_in(text), sentences)


def table(program):
    """Returns the program's own options, and its subcommands in the order of its help."""
    text = help_of(program)
    listed = text.partition("\nCommands:\n")[2].partition("\n\n")[0]
    found = re.findall(r"^  (\w+) +(.*)$", listed, re.M)
    return options_in(text), [subcommand(program, name, about) for name, about in found if name != "help"]


def words_of(place):
    """Returns the words that a function accepts. Its place is its file, below crates/, and its name."""
    path, function = place.split()
    with open(f"{TOP}/crates/{path}", encoding="utf-8") as it:
        body = re.search(rf"^( *)pub fn {function}\(.*?^\1}}", it.read(), re.M | re.S)[0]
    return re.findall(r'^ +b?"([^"]+)" => Some\(', body, re.M)


def kind_of(value):
    """Returns `files`, `directories`, `nothing`, or the list of the words that a word of this name can be."""
    if value not in KINDS:
        sys.exit(f"tools/completions.py: help shows <{value}>, and KINDS does not say what completes it")
    kind = KINDS[value]
    return kind if kind in ("files", "directories", "nothing") else words_of(kind)


BASH = """# Completion of romtool for bash, made by tools/completions.py.
_romtool() {{
    local current=${{COMP_WORDS[COMP_CWORD]}} previous=${{COMP_WORDS[COMP_CWORD - 1]}}
    local subcommand= number=0 skipped= at word
    COMPREPLY=()
    for ((at = 1; at < COMP_CWORD; at++)); do
        word=${{COMP_WORDS[at]}}
        if [[ $skipped ]]; then
            skipped=
        elif [[ {valued} == *" $word "* ]]; then
            skipped=1
        elif [[ $word == -* ]]; then
            :
        elif [[ ! $subcommand ]]; then
            subcommand=$word
        else
            ((number += 1))
        fi
    done
    if [[ $skipped ]]; then
        case $previous in
{values}
        esac
        return
    fi
    if [[ $current == -* ]]; then
        case $subcommand in
{options}
        esac
        return
    fi
    case $subcommand:$number in
{words}
    esac
}}
complete -F _romtool romtool
"""


def in_bash(kind):
    """Returns the command by which bash completes a word of this kind."""
    if kind == "nothing":
        return ":"
    if kind in ("files", "directories"):
        letter = "f" if kind == "files" else "d"
        return f'compopt -o filenames 2>/dev/null; mapfile -t COMPREPLY < <(compgen -{letter} -- "$current")'
    return f"""mapfile -t COMPREPLY < <(compgen -W '{" ".join(kind)}' -- "$current")"""


def bash(top, subcommands):
    """Returns the completion for bash."""
    valued = [it for sub in subcommands for it in sub.options if it.value]
    options = [("''", [it.name for it in top] + ["--help", "--version"])]
    options += [(it.name, [option.name for option in it.options] + ["--help"]) for it in subcommands]
    words = [("", 0, [it.name for it in subcommands] + ["help"]), ("help", 0, [it.name for it in subcommands])]
    for it in subcommands:
        for at, word in enumerate(it.words):
            words.append((it.name, "*" if it.repeats and word == it.words[-1] else at, kind_of(word)))
    return BASH.format(
        valued='"' + " " + " ".join(it.name for it in valued) + ' "',
        values="\n".join(f"        {it.name}) {in_bash(kind_of(it.value))} ;;" for it in valued),
        options="\n".join(f"        {name}) {in_bash(found)} ;;" for name, found in options),
        words="\n".join(f"    {name}:{at}) {in_bash(kind)} ;;" for name, at, kind in words),
    )


ZSH = """#compdef romtool
# Completion of romtool for zsh, made by tools/completions.py.
_romtool() {{
    local curcontext=$curcontext state line
    typeset -A opt_args
    _arguments -C \\
{options}
        '1:subcommand:->subcommand' \\
        '*::word:->words' && return
    case $state in
    subcommand)
        local -a subcommands=(
{names}
        )
        _describe -t commands subcommand subcommands
        ;;
    words)
        case $words[1] in
{subcommands}
        esac
        ;;
    esac
}}
_romtool "$@"
"""


def quoted(text):
    """Returns a text in single quotes, as zsh reads it, and fish if it has no backslash."""
    return "'" + text.replace("'", "'\\''") + "'"


def in_zsh(kind):
    """Returns the action by which zsh completes a word of this kind."""
    named = {"files": "_files", "directories": "_files -/", "nothing": " "}
    return named[kind] if isinstance(kind, str) else f"({' '.join(kind)})"


def zsh_option(option):
    """Returns an option as an argument of _arguments."""
    about = re.sub(r"([\[\]:])", r"\\\1", option.about)
    value = f":{option.value}:{in_zsh(kind_of(option.value))}" if option.value else ""
    return quoted(f"{option.name}[{about}]{value}")


def zsh(top, subcommands):
    """Returns the completion for zsh."""
    more = [Option("--help", None, "Print help")]
    cases = []
    for it in subcommands:
        asked = [zsh_option(option) for option in it.options + more]
        for at, word in enumerate(it.words, 1):
            place = "*" if it.repeats and word == it.words[-1] else at
            asked.append(quoted(f"{place}:{word}:{in_zsh(kind_of(word))}"))
        cases.append(f"        {it.name}) _arguments {' '.join(asked)} ;;")
    names = [(it.name, it.about) for it in subcommands] + [("help", "Prints help of a subcommand")]
    cases.append(f"        help) _arguments {quoted('1:subcommand:(' + ' '.join(it.name for it in subcommands) + ')')} ;;")
    return ZSH.format(
        options="\n".join(f"        {zsh_option(it)} \\" for it in top + more + [Option("--version", None, "Print version")]),
        names="\n".join("            " + quoted(f"{name}:" + about.replace(":", "\\:")) for name, about in names),
        subcommands="\n".join(cases),
    )


FISH = """# Completion of romtool for fish, made by tools/completions.py.
# __romtool_at SUBCOMMAND NUMBER: whether the cursor is at a word of the subcommand; with a number, at that one of its words
function __romtool_at
    set -l found
    set -l skipped 0
    for word in (commandline -opc)[2..]
        if test $skipped = 1
            set skipped 0
        else if contains -- $word {valued}
            set skipped 1
        else if not string match -q -- '-*' $word
            set -a found $word
        end
    end
    test "$found[1]" = "$argv[1]"; and begin
        test (count $argv) = 1; or test (count $found) = $argv[2]
    end
end
complete -c romtool -f
{lines}
"""


def in_fish(kind):
    """Returns the words by which fish completes a word of this kind."""
    named = {"files": "-F", "directories": "-a '(__fish_complete_directories)'", "nothing": ""}
    return named[kind] if isinstance(kind, str) else f"-a {quoted(' '.join(kind))}"


def fish_option(where, option):
    """Returns the command that has fish complete an option."""
    value = f" -r {in_fish(kind_of(option.value))}" if option.value else ""
    return f"complete -c romtool -n {where} -l {option.name[2:]}{value} -d {quoted(option.about)}"


def fish(top, subcommands):
    """Returns the completion for fish."""
    none, more = quoted('__romtool_at ""'), [Option("--help", None, "Print help")]
    lines = [fish_option(none, it) for it in top + more + [Option("--version", None, "Print version")]]
    lines += [f"complete -c romtool -n {none} -a {it.name} -d {quoted(it.about)}" for it in subcommands]
    lines.append(f"complete -c romtool -n {none} -a help -d 'Prints help of a subcommand'")
    lines.append(f"complete -c romtool -n '__romtool_at help 1' -a {quoted(' '.join(it.name for it in subcommands))}")
    for it in subcommands:
        lines += [fish_option(quoted(f"__romtool_at {it.name}"), option) for option in it.options + more]
        for at, word in enumerate(it.words, 1):
            number = "" if it.repeats and word == it.words[-1] else f" {at}"
            how = in_fish(kind_of(word))
            if how:
                lines.append(f"complete -c romtool -n {quoted(f'__romtool_at {it.name}{number}')} {how}")
    valued = " ".join(option.name for it in subcommands for option in it.options if option.value)
    return FISH.format(valued=valued, lines="\n".join(lines))


SHELLS = {"bash": bash, "zsh": zsh, "fish": fish}


def text(shell, program):
    """Returns the completion for a shell, of the words that the program's help lists."""
    return SHELLS[shell](*table(program))


def main(words):
    if not 1 <= len(words) <= 2 or words[0] not in SHELLS:
        print(__doc__, file=sys.stderr)
        return 2
    print(text(words[0], words[1] if len(words) == 2 else PROGRAM), end="")
    return 0


if __name__ == "__main__":
    sys.exit(main(sys.argv[1:]))
