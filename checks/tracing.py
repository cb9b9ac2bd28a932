"""Runs the program under strace, for the checks that watch its calls of the system or refuse them."""

import os
import re
import signal
import subprocess
import tempfile
from dataclasses import dataclass, field
from pathlib import Path

# A call: its process, its name, its arguments, what it returned, and the error, if it failed.
CALL = re.compile(r"(\d+) +(\w+)\((.*)\) += (-?\d+|\?)(<.*>)?(?: (E[A-Z0-9]+))?.*")


@dataclass
class Call:
    """A call of the system. `result` is what it returned, and `path` that of the file that it opened."""

    name: str
    words: str
    result: int
    path: str = ""
    error: str = ""

    def file(self):
        """Returns the path of the file of its first argument."""
        found = re.match(r"(?:\d+|AT_FDCWD)<(.*?)>", self.words)
        return found[1] if found else ""

    def number(self):
        """Returns the number of the file of its first argument, or -1."""
        found = re.match(r"\d+", self.words)
        return int(found[0]) if found else -1

    def names(self):
        """Returns the paths among its arguments, as they were written."""
        return re.findall(r'"([^"]*)"', self.words)


@dataclass
class Traced:
    """A run under strace: its status, its outputs and its calls, in order."""

    status: int
    out: str
    err: str
    calls: list = field(default_factory=list)


def read_calls(text):
    """Returns the calls of a trace. A call that others interrupted is where it returned."""
    calls, begun = [], {}
    for line in text.splitlines():
        process = line.split(" ", 1)[0]
        if line.endswith(" <unfinished ...>"):
            begun[process] = line.removesuffix(" <unfinished ...>")
            continue
        resumed = re.match(r"\d+ +<\.\.\. \w+ resumed>(.*)", line)
        if resumed:
            line = begun.pop(process) + resumed[1]
        found = CALL.fullmatch(line)
        if found:
            result = -1 if found[4] == "?" else int(found[4])
            calls.append(Call(found[2], found[3], result, (found[5] or "")[1:-1], found[6] or ""))
    return calls


def words_of(trace, names, refusals):
    """Returns the words of strace that write these calls to the file `trace`, and refuse some as the texts say."""
    return ["strace", "-f", "-y", "-s", "0", "-o", trace, "-e", f"trace={','.join(names)}", "-e", "signal=none",
            *(it for refusal in refusals for it in ("-e", f"inject={refusal}"))]


class Tracing:
    """The program under strace while it runs."""

    def __init__(self, words, names, refusals=(), **more):
        self.room = tempfile.TemporaryDirectory()
        self.trace = f"{self.room.name}/trace"
        self.process = subprocess.Popen([*words_of(self.trace, names, refusals), *words], stdin=subprocess.DEVNULL,
                                        stdout=subprocess.PIPE, stderr=subprocess.PIPE, text=True, **more)

    def end(self, seconds=60):
        """Waits until it ended. Returns the run."""
        try:
            out, err = self.process.communicate(timeout=seconds)
        except subprocess.TimeoutExpired:
            self.kill()
            raise
        with self.room:
            text = Path(self.trace).read_text(encoding="utf-8", errors="replace")
        return Traced(self.process.returncode, out, err, read_calls(text))

    def kill(self):
        """Kills the program and strace."""
        children = Path(f"/proc/{self.process.pid}/task/{self.process.pid}/children").read_text(encoding="ascii")
        for child in children.split():
            os.kill(int(child), signal.SIGKILL)
        self.process.kill()
        self.process.communicate()
        self.room.cleanup()


def run_traced(words, names, refusals=(), **more):
    """Runs the program under strace. Returns the run."""
    return Tracing(words, names, refusals, **more).end()


def why_not():
    """Returns why nothing can be traced here, or None."""
    done = subprocess.run(["strace", "-o", "/dev/null", "-e", "trace=fsync", "-e", "inject=fsync:error=EIO:when=1", "true"],
                          capture_output=True, text=True, check=False)
    return None if done.returncode == 0 else f"strace: {done.stderr.strip().splitlines()[-1:] or done.returncode}"
