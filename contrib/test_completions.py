"""Compares what bash, zsh and fish complete with the help texts of the program.

    S10=/path/to/s10 python3 test_completions.py

In each shell, with its completion from this folder: the commands after `s10` and after `s10 help`, the long options of
each command, the options that are left after one with a value, and files after the options that take one. A shell that
the machine lacks is skipped, and said to be. Without S10 the program `s10` of the PATH is used.
"""

import os
import pty
import re
import select
import shutil
import subprocess
import sys
import tempfile
import time
from pathlib import Path

import write_texts

PROGRAM = os.environ.get("S10") or shutil.which("s10") or sys.exit("no program: set S10, or put s10 on the PATH")
HERE = Path(__file__).resolve().parent


def by_bash(line, folder):
    """Returns what bash completes at the end of the line."""
    script = f"""
        source {HERE}/s10.bash
        compopt() {{ :; }}
        COMP_WORDS=({line}{' ""' if line.endswith(' ') else ''}); COMP_CWORD=$((${{#COMP_WORDS[@]}} - 1))
        _s10; printf '%s\\n' "${{COMPREPLY[@]}}"
    """
    done = subprocess.run(["bash", "-c", script], capture_output=True, text=True, check=True, cwd=folder)
    return set(done.stdout.split())


def by_fish(line, folder):
    """Returns what fish completes at the end of the line."""
    script = f"complete -e s10; source {HERE}/s10.fish; complete -C '{line}'"
    done = subprocess.run(["fish", "--no-config", "-c", script], capture_output=True, text=True, check=True, cwd=folder,
                          env={**os.environ, "PATH": f"{Path(PROGRAM).parent}:{os.environ['PATH']}"})
    return {found.split("\t")[0] for found in done.stdout.splitlines()}


# The completions are written to a file instead of to the line. END is the last one.
ZSH = r"""
stty -echo
unsetopt beep
fpath=(HERE $fpath)
autoload -Uz compinit
compinit -u -D
found=FOLDER/found
compadd() {
    if [[ ${@[1,(i)(-|--)]} == *-(O|A|D)\ * ]]; then builtin compadd "$@"; return; fi
    local -a hits
    builtin compadd -A hits "$@"
    print -rl -- $hits >> $found
}
all() { _complete; print END >> $found }
zstyle ':completion:*' completer all
bindkey '^T' list-choices
print READY > $found
"""


class Zsh:
    """A zsh on a terminal of its own, in which a key writes the completions to a file."""

    def __init__(self, folder, own):
        self.found = Path(own, "found")
        start = Path(own, "start")
        start.write_text(ZSH.replace("HERE", str(HERE)).replace("FOLDER", own), encoding="ascii")
        self.process, self.terminal = pty.fork()
        if self.process == 0:
            os.chdir(folder)
            os.execvp("zsh", ["zsh", "-f", "-i"])
        self.send(f"source {start}\n")
        self.wait("READY")

    def send(self, text):
        """Types a text."""
        os.write(self.terminal, text.encode())

    def wait(self, last):
        """Waits for the last line, and returns what was written before it."""
        end = time.monotonic() + 60
        while time.monotonic() < end:
            while select.select([self.terminal], [], [], 0.02)[0]:
                os.read(self.terminal, 65536)
            words = self.found.read_text(encoding="utf-8").split() if self.found.exists() else []
            if words[-1:] == [last]:
                return words[:-1]
        raise RuntimeError("zsh does not answer")

    def complete(self, line):
        """Returns what zsh completes at the end of the line."""
        self.found.write_text("", encoding="ascii")
        self.send("\x15" + line + "\x14")
        return set(self.wait("END"))

    def close(self):
        """Ends the shell."""
        self.send("\x15exit\n")
        os.close(self.terminal)
        os.waitpid(self.process, 0)


def main():
    """Compares, and prints how many completions were compared."""
    top = write_texts.read_help(write_texts.ask(PROGRAM, "--help"))
    names = [entry.names[0] for entry in top.lists["Commands"]]
    asked = [("s10 ", set(names)), ("s10 help ", set(names) - {"help"}), ("s10 dr", {"draw"})]
    for name in names:
        if name == "help":
            continue
        one = write_texts.read_help(write_texts.ask(PROGRAM, "help", name))
        options = {entry.names[-1]: entry.value for entry in one.lists["Options"]}
        asked.append((f"s10 {name} --", set(options)))
        for option, value in options.items():
            if value:
                asked.append((f"s10 {name} {option} 1 --", set(options) - {option}))
                asked.append((f"s10 {name} {option} ", {"file.db"} if value in write_texts.FILES else set()))
    shells = [shell for shell in ("bash", "zsh", "fish") if shutil.which(shell)]
    wrong = 0
    with tempfile.TemporaryDirectory() as folder, tempfile.TemporaryDirectory() as own:
        Path(folder, "file.db").touch()
        zsh = Zsh(folder, own) if "zsh" in shells else None
        complete = {"bash": lambda line: by_bash(line, folder), "zsh": lambda line: zsh.complete(line),
                    "fish": lambda line: by_fish(line, folder)}
        for line, expected in asked:
            for shell in shells:
                found = complete[shell](line)
                if found - {"-h"} != expected:
                    wrong += 1
                    print(f"{shell}: '{line}' gives {sorted(found)}, not {sorted(expected)}")
        if zsh:
            zsh.close()
    for shell in {"bash", "zsh", "fish"} - set(shells):
        print(f"skipped: {shell}")
    print(f"{len(asked)} lines in {len(shells)} shells, {wrong} completed otherwise")
    return wrong != 0


if __name__ == "__main__":
    sys.exit(main())
