#!/usr/bin/env python3
"""Writes the man page and the completions of s10 from the help texts of the program.

    python3 write_texts.py PROGRAM [FOLDER]            writes s10.1, s10.bash, _s10 and s10.fish
    python3 write_texts.py --check PROGRAM [FOLDER]    prints which of them differ from the help texts
"""

import itertools
import re
import subprocess
import sys
import textwrap
from pathlib import Path
from typing import NamedTuple

# The day of each version, for the foot of the man page.
DAYS = {"0.1.0": "2026-11-23", "0.2.0": "2026-11-29"}

# The values that are names of files. All others are free text.
FILES = {"FILE"}


class Entry(NamedTuple):
    """A command, an argument or an option, from a list of the help."""

    names: tuple            # ("--ledger",), ("-h", "--help"), ("<TEXT>",), ("draw",)
    value: str              # "FILE", or "" if it has none
    text: str


class Help(NamedTuple):
    """The help of the program, or of one of its commands."""

    about: str
    usage: str
    lists: dict             # "Commands", "Arguments" and "Options": lists of Entry
    rest: list              # the lines after the lists


def ask(program, *words):
    """Returns what the program prints. Its file may have any name: it is started as s10, which its usage lines show."""
    return subprocess.run(["s10", *words], executable=program, capture_output=True, text=True, check=True).stdout


def read_help(text):
    """Parses a help text. Any other form ends the run."""
    about, usage, *blocks = re.split(r"\n\n+", text.rstrip("\n"))
    assert usage.startswith("Usage: "), usage
    lists, rest = {}, []
    for block in blocks:
        heading, _, lines = block.partition("\n")
        if not rest and heading in ("Commands:", "Arguments:", "Options:"):
            lists[heading[:-1]] = read_list(lines)
        else:
            rest += [""] * bool(rest) + block.split("\n")
    assert "Options" in lists, text
    return Help(about, usage[len("Usage: "):], lists, rest)


def read_list(lines):
    """Returns the entries of a list. A text begins after the name or on the next line."""
    entries = []
    for line in lines.split("\n"):
        if re.match(r" {10}", line):                            # continues the text before
            names, value, text = entries[-1]
            entries[-1] = Entry(names, value, f"{text} {line.strip()}".strip())
            continue
        found = re.fullmatch(r" {2,6}((?:-\w, )?-?-?[\w<>\[\]-]+(?: \[\w+\])*)(?: <(\w+)>)?(?: {2,}(\S.*)?)?", line)
        assert found, line
        entries.append(Entry(tuple(found[1].split(", ")), found[2] or "", (found[3] or "").strip()))
    return entries


def roff(text):
    """Escapes a line of text for roff, with `words` in bold."""
    text = text.replace("\\", "\\e").replace("-", "\\-").replace("'", "\\(aq").replace("^", "\\(ha")
    text = re.sub(r"`([^`]*)`", r"\\fB\1\\fP", text)
    return "\\&" + text if text.startswith(".") else text


def roff_filled(text):
    """Wraps a text into lines that roff fills."""
    return ["\\&" + line if line.startswith(".") else line
            for line in textwrap.wrap(roff(text), 78, break_long_words=False, break_on_hyphens=False)]


def roff_entry(entry):
    """Formats an argument or an option with its text."""
    shown = ", ".join(f"\\fB{roff(name)}\\fP" if name.startswith("-") else f"\\fI{roff(name.strip('<>'))}\\fP"
                      for name in entry.names)
    value = f" \\fI{roff(entry.value)}\\fP" if entry.value else ""
    return [".TP", shown + value, *roff_filled(entry.text)]


def roff_rest(lines):
    """Formats the lines after the lists: paragraphs are filled, indented lines are kept."""
    out = []
    for is_block, group in itertools.groupby(lines, lambda line: line.startswith("  ")):
        if is_block:
            out += [".PP", ".RS 4", ".nf", *(roff(line[2:]) for line in group), ".fi", ".RE"]
            continue
        for is_text, filled in itertools.groupby(group, bool):
            if is_text:
                out += [".PP", *roff_filled(" ".join(filled))]
    return out


def man_page(version, top, commands):
    """Returns the man page."""
    out = [
        '.\\" Written by write_texts.py from the help texts of the program.',
        f'.TH S10 1 "{DAYS[version]}" "s10 {version}" "User Commands"',
        ".SH NAME",
        f"s10 \\- {roff(top.about[0].lower() + top.about[1:])}",
        ".SH SYNOPSIS",
    ]
    for at, (_, one) in enumerate(commands):
        out += [".br"] * bool(at) + [f"\\fBs10\\fP {roff(one.usage.removeprefix('s10 '))}"]
    out.append(".SH OPTIONS")
    for entry in top.lists["Options"]:
        out += roff_entry(entry)
    out += [".TP", "\\fBhelp\\fP \\fICOMMAND\\fP", roff(next(
        entry.text for entry in top.lists["Commands"] if entry.names == ("help",)))]
    out.append(".SH COMMANDS")
    for name, one in commands:
        out += [f".SS {name}", *roff_filled(one.about + ".")]
        for entry in one.lists.get("Arguments", []) + one.lists["Options"]:
            if entry.names != ("-h", "--help"):
                out += roff_entry(entry)
        out += roff_rest(one.rest)
    status = " ".join(top.rest)
    heading, text = status.split(": ", 1)
    assert heading == "Exit status", status
    out.append(".SH EXIT STATUS")
    for sentence in re.findall(r"[^;.]+[;.]", text.replace(" `s10 help", "\0").split("\0")[0] + "\n"):
        number, words = sentence.strip().split(" ", 1)
        out += [".TP", f"\\fB{number}\\fP", roff(words.rstrip(";.")) + "."]
    return "\n".join(out) + "\n"


def options_of(one):
    """Returns the long options of a command, with their values and texts."""
    return [(entry.names[-1], entry.value, entry.text) for entry in one.lists["Options"]]


def bash(top, commands):
    """Returns the completion for bash."""
    names = " ".join(name for name, _ in commands)
    words = names + " help"
    out = [
        "# Completion of s10 for bash. Written by write_texts.py from the help texts of the program.",
        "_s10() {",
        "    local word=${COMP_WORDS[COMP_CWORD]} before=${COMP_WORDS[COMP_CWORD - 1]} options values files one",
        "    COMPREPLY=()",
        "    if ((COMP_CWORD == 1)); then",
        f"        options='{words}'",
        f"        [[ $word != -* ]] || options='{' '.join(name for name, _, _ in options_of(top))}'",
        "        mapfile -t COMPREPLY < <(compgen -W \"$options\" -- \"$word\")",
        "        return",
        "    fi",
        "    case ${COMP_WORDS[1]} in",
        f"        help) ((COMP_CWORD == 2)) && mapfile -t COMPREPLY < <(compgen -W '{names}' -- \"$word\")",
        "            return ;;",
    ]
    for name, one in commands:
        options = options_of(one)
        valued = " ".join(option for option, value, _ in options if value and value not in FILES)
        files = " ".join(option for option, value, _ in options if value in FILES)
        out.append(f"        {name}) options='{' '.join(option for option, _, _ in options)}'"
                   f" values='{valued}' files='{files}' ;;")
    out += [
        "        *) return ;;",
        "    esac",
        "    if [[ \" $files \" == *\" $before \"* ]]; then",
        "        compopt -o filenames",
        "        mapfile -t COMPREPLY < <(compgen -f -- \"$word\")",
        "    elif [[ \" $values \" != *\" $before \"* && $word == -* ]]; then",
        "        for one in $options; do",
        "            [[ \" ${COMP_WORDS[*]:2:COMP_CWORD-2} \" == *\" $one \"* ]] ||",
        "                mapfile -t -O ${#COMPREPLY[@]} COMPREPLY < <(compgen -W \"$one\" -- \"$word\")",
        "        done",
        "    fi",
        "}",
        "complete -F _s10 s10",
    ]
    return "\n".join(out) + "\n"


def quoted(text):
    """Quotes a word for any of the shells."""
    return "'" + text.replace("'", "'\\''") + "'"


def zsh(top, commands):
    """Returns the completion for zsh."""
    def spec(option, value, text, others=""):
        text = re.sub(r"([\[\]:\\])", r"\\\1", text)
        if others:
            return quoted(f"({others}){option}[{text}]")
        if not value:
            return quoted(f"{option}[{text}]")
        return quoted(f"{option}[{text}]:{value}:" + ("_files" if value in FILES else " "))

    out = [
        "#compdef s10",
        "# Completion of s10 for zsh. Written by write_texts.py from the help texts of the program.",
        "",
        "_s10() {",
        "    local curcontext=$curcontext state line",
        "    local -a commands",
        "    commands=(",
    ]
    for entry in top.lists["Commands"]:
        text = entry.text.replace(":", "\\:")
        out.append(f"        {quoted(entry.names[0] + ':' + text)}")
    out += ["    )", "    _arguments -C \\"]
    for entry in top.lists["Options"]:
        out += [f"        {spec(name, '', entry.text, '- *')} \\" for name in entry.names]
    out += [
        "        '1: :->command' '*:: :->words'",
        "    case $state in",
        "        command) _describe command commands ;;",
        "        words) case $words[1] in",
        "            help) ((CURRENT == 2)) && commands=(${commands:#help:*}) && _describe command commands ;;",
    ]
    for name, one in commands:
        specs = []
        for entry in one.lists["Options"]:
            for option in entry.names:
                specs.append(spec(option, entry.value, entry.text, "- *" if entry.names[-1] == "--help" else ""))
        for at, entry in enumerate(one.lists.get("Arguments", []), 1):
            text = re.sub(r"([\[\]:\\])", r"\\\1", entry.text)
            specs.append(quoted(f"{at}:{text}: "))
        out.append(f"            {name}) _arguments \\")
        out += [f"                {one_spec} \\" for one_spec in specs[:-1]]
        out.append(f"                {specs[-1]} ;;")
    out += ["        esac ;;", "    esac", "}", "", '_s10 "$@"']
    return "\n".join(out) + "\n"


def fish(top, commands):
    """Returns the completion for fish."""
    def text_of(text):
        return "'" + text.replace("\\", "\\\\").replace("'", "\\'") + "'"

    out = [
        "# Completion of s10 for fish. Written by write_texts.py from the help texts of the program.",
        "complete -c s10 -f",
    ]
    for entry in top.lists["Commands"]:
        out.append(f"complete -c s10 -n __fish_use_subcommand -a {entry.names[0]} -d {text_of(entry.text)}")
        if entry.names[0] != "help":
            out.append("complete -c s10 -n '__fish_seen_subcommand_from help; and test (count (commandline -opc)) -eq 2'"
                       f" -a {entry.names[0]} -d {text_of(entry.text)}")
    for entry in top.lists["Options"]:
        short = "".join(f" -s {name[1:]}" for name in entry.names if not name.startswith("--"))
        out.append(f"complete -c s10 -n __fish_use_subcommand{short} -l {entry.names[-1][2:]} -d {text_of(entry.text)}")
    for name, one in commands:
        for entry in one.lists["Options"]:
            short = "".join(f" -s {option[1:]}" for option in entry.names if not option.startswith("--"))
            long = entry.names[-1][2:]
            value = " -x" if entry.value else ""
            here = f"test (commandline -opc)[2] = {name}; and not __fish_contains_opt {long}"
            out.append(f"complete -c s10 -n '__fish_seen_subcommand_from {name}; and {here}'"
                       f"{short} -l {long}{value} -d {text_of(entry.text)}")
            if entry.value in FILES:
                out.append(f"complete -c s10 -n '__fish_seen_subcommand_from {name};"
                           f" and test (commandline -opc)[-1] = --{long}' -F")
    return "\n".join(out) + "\n"


def main(words):
    """Writes the texts, or checks them."""
    is_check = words[:1] == ["--check"]
    words = words[is_check:]
    if not 1 <= len(words) <= 2:
        sys.exit(__doc__)
    program, folder = words[0], Path(words[1] if len(words) == 2 else Path(__file__).parent)
    version = ask(program, "--version").split()[1]
    top = read_help(ask(program, "--help"))
    names = [entry.names[0] for entry in top.lists["Commands"] if entry.names != ("help",)]
    commands = [(name, read_help(ask(program, "help", name))) for name in names]
    texts = {
        "s10.1": man_page(version, top, commands),
        "s10.bash": bash(top, commands),
        "_s10": zsh(top, commands),
        "s10.fish": fish(top, commands),
    }
    other = 0
    for name, text in texts.items():
        path = folder / name
        if not is_check:
            path.write_text(text, encoding="utf-8")
        elif not path.exists() or path.read_text(encoding="utf-8") != text:
            print(f"{name}: not what the help texts give")
            other = 1
    return other


if __name__ == "__main__":
    sys.exit(main(sys.argv[1:]))
