#!/usr/bin/env python3
"""Runs the commands of the pages, and compares their output with what the pages show.

  python3 checks/documents.py [PROGRAM]

The pages are README.md, SECURITY.md, CHANGELOG.md, docs/*.md and those of contrib. Each fenced command is run, or is in NOT_RUN
with the reason. A command that is neither run nor in NOT_RUN is a failure, and so is an entry of NOT_RUN without a command.
library_pages.py runs the commands of the pages of the C library.
The numbers in the pages are compared by counts.py. Where a page names port 4000 of this machine, a free port is used. A command
whose tool the machine lacks, such as `sqlite3`, is skipped, and those after it in its folder that need what it makes.
"""

import contextlib
import os
import random
import re
import shutil
import signal
import socket
import subprocess
import sys
import tempfile
import time
from dataclasses import dataclass, field
from pathlib import Path

import counts

ROOT = Path(__file__).resolve().parent.parent
PROGRAM = Path(sys.argv[1] if len(sys.argv) > 1 else ROOT / "crates/s10/out/s10").resolve()

# The commands that are not run: how each begins, `# ` for root, and why.
NOT_RUN = (
    ("./s10 ", "builds the program, which takes minutes; checks/front_door.sh does"),
    (".ci/run", "proves and tests everything, which takes an hour"),
    ("python3 contrib/write_texts.py", "writes into the repository"),
    ("# install", "root and systemd"),
    ("# s10 create", "root and systemd"),
    ("# systemctl", "root and systemd"),
    ("# ps ", "root and systemd"),
    ("# s10 draw", "root and systemd"),
    ("# kill", "root and systemd"),
    ("# journalctl", "root and systemd"),
    ("systemd-analyze", "systemd"),
    ("journalctl", "systemd"),
    ("tshark", "tshark, which captures packets as root"),
    ("python3 page/make_page.py", "writes into the repository, and takes minutes to prove"),
    ("bash ../checks/counter_page.sh", "takes minutes to prove, and Chromium"),
    ("bash make_deb.sh", "dpkg-dev"),
    ("# lintian", "root and lintian"),
    ("# dpkg", "root"),
    ("# ls /var/lib/private", "root and systemd"),
    ("# apt-get", "root"),
    ("# adduser", "root"),
    ("# gluster", "root and GlusterFS, which checks/standby.py uses"),
    ("# bash contrib/standby/volume", "root and GlusterFS, which checks/standby.py uses"),
    ("# mount", "root and GlusterFS, which checks/standby.py uses"),
    ("# chown", "root and GlusterFS, which checks/standby.py uses"),
    ("# umount", "root and GlusterFS, which checks/standby.py uses"),
)

# What a command needs beside what a Unix system has, by how it begins.
TOOLS = {
    "rt ": ("rt",),
    "sqlite3 ": ("sqlite3",),
    "date ": ("sqlite3",),
    "mandoc ": ("mandoc",),
    "groff ": ("groff",),
    "man ": ("man", "groff"),
    "python3 test_completions.py": ("zsh", "fish"),
    "python3 test_dissector.py": ("tshark",),
    "python3 label.py": ("zint",),
    "rsvg-convert": ("zint", "rsvg-convert", "zbarimg"),
}

# The pages of the C library, which takes minutes to prove.
LIBRARY_PAGES = ("contrib/bindings/README.md", "contrib/c/README.md", "contrib/python/README.md")

# The first words by which a fence without a language is taken for commands.
PROGRAMS = "./s10 .ci/run s10 rt rattle bash sh python3 cd cp mv rm ls cat sqlite3 git sudo nft awk grep".split()

# The commands whose output the pages leave out.
OUTPUT_LEFT_OUT = re.compile(r"SELECT |^date ")

TIME_LIMIT = 600
# How many seconds a server may take to print the lines of its last replies, which are sent before.
PATIENCE = 20
SERVE = "s10 serve --ledger {} --bind 127.0.0.1:4000 --count 3600 --day 20000"
CREATE = "s10 create --ledger {} --interval 30 --limit 1000"
TO = "--to 127.0.0.1:4000"
GRANT = "s10 grant " + TO + " --number {} --holder 7 --service RA --country GB --first {} --last {}"
DRAW = "s10 draw " + TO + " --customer 7 --number {} --service RA --country GB"


class Failure(Exception):
    """The output is not what the page shows, or what its text says."""


# Pages.


@dataclass
class Command:
    """A command of a page, and the lines that the page shows after it."""

    page: str
    line: int
    text: str
    shown: list = field(default_factory=list)
    is_run: bool = False
    lacks: str = ""  # the tool for lack of which it is skipped

    def head(self):
        """Returns the command from its first line that is no comment on. A root command is one line."""
        lines = self.text.split("\n")
        while len(lines) > 1 and lines[0].startswith("#"):
            lines = lines[1:]
        return "\n".join(lines)

    def where(self):
        return f"{self.page}:{self.line}: {self.head()}"


@dataclass
class Stop:
    """The end of the server by Ctrl-C, and the lines of the server that the page shows before it."""

    shown: list


@dataclass
class Block:
    """A fenced block, with the number of its first line."""

    language: str
    line: int
    lines: list


def page_names():
    """Returns the paths of the pages from the root, without those of the C library."""
    paths = [*ROOT.glob("*.md"), *ROOT.glob("docs/*.md"), *ROOT.glob("contrib/**/*.md")]
    return sorted({str(path.relative_to(ROOT)) for path in paths} - set(LIBRARY_PAGES))


def blocks_of(page):
    """Returns the fenced blocks of a page."""
    found, block = [], None
    for number, line in enumerate((ROOT / page).read_text(encoding="utf-8").split("\n"), 1):
        if line.startswith("```") and block is None:
            block = Block(line[3:].strip(), number + 1, [])
        elif line.startswith("```"):
            found.append(block)
            block = None
        elif block is not None:
            block.lines.append(line)
    return found


def steps_of(page, block):
    """Returns the commands of a block, and the stops between them."""
    if block.language in ("sh", "bash"):
        return [Command(page, block.line, "\n".join(block.lines))]
    if block.language or not block.lines:
        return []
    if block.lines[0].split(" ")[0] in PROGRAMS:
        return [Command(page, block.line + at, line.split("  # ")[0].rstrip()) for at, line in enumerate(block.lines) if line]
    return prompted(page, block)


def prompted(page, block):
    """Returns the commands of a block after `$ ` and `# `, and its stops."""
    steps, loose = [], []
    for at, line in enumerate(block.lines):
        if line == "^C":
            steps.append(Stop(loose))
            loose = []
        elif line.startswith("$ "):
            steps.append(Command(page, block.line + at, line[2:]))
        elif line.startswith("# "):
            steps.append(Command(page, block.line + at, line))
        elif not steps or isinstance(steps[-1], Stop):
            loose.append(line)
        elif line.startswith(">") and steps[-1].text.endswith("\\"):
            steps[-1].text += "\n" + line[1:]
        else:
            steps[-1].shown.append(line)
    return steps


def read_pages():
    """Returns the steps of each page."""
    return {page: [step for block in blocks_of(page) for step in steps_of(page, block)] for page in page_names()}


def commands_in(steps):
    return [step for step in steps if isinstance(step, Command)]


def python_block(page, words):
    """Returns the block of Python on a page that has these words."""
    texts = ["\n".join(block.lines) for block in blocks_of(page) if block.language == "python"]
    return next(text for text in texts if words in text)


# A folder in which commands are run.


def free_port():
    """Returns a UDP port of this machine that is free, and that the system gives to no client by itself."""
    while True:
        port = random.randrange(21000, 32000)
        with socket.socket(socket.AF_INET, socket.SOCK_DGRAM) as link, contextlib.suppress(OSError):
            link.bind(("127.0.0.1", port))
            return port


class Room:
    """A folder with `s10` on the path, and at most one server. Commands use a free port where the pages show port 4000."""

    def __init__(self, folder):
        self.folder = Path(folder)
        self.port = free_port()
        self.server = None
        self.notes = {}
        (self.folder / "bin").mkdir()
        (self.folder / "bin/s10").symlink_to(PROGRAM)
        self.env = {**os.environ, "PATH": f"{folder}/bin:{os.environ['PATH']}"}
        self.env.pop("S10", None)
        self.env["S10_LIBRARY"] = ""  # s10client uses no C library.

    def ours(self, text):
        """Returns the text of a page with the port of this room."""
        return re.sub(r'(127\.0\.0\.1(?::| |", ))4000\b', rf"\g<1>{self.port}", text)

    def shown(self, line):
        """Returns a line of ours as the page shows it."""
        return re.sub(rf"\b127\.0\.0\.1:{self.port}\b", "127.0.0.1:4000", line)

    def run(self, text, stderr=subprocess.PIPE):
        """Runs a command. Returns its exit status and the lines of its output."""
        done = subprocess.run(
            ["bash", "-c", self.ours(text)], cwd=self.folder, env=self.env, stdin=subprocess.DEVNULL, stdout=subprocess.PIPE,
            stderr=stderr, text=True, check=False, timeout=TIME_LIMIT,
        )  # fmt: skip
        return done.returncode, [self.shown(line) for line in done.stdout.splitlines()]

    def must(self, text, *words):
        """Runs a command that the pages do not show. Returns its output, which must have the words."""
        status, came = self.run(text)
        if status != 0 or not all(word in " ".join(came) for word in words):
            raise Failure("\n".join([text, f"status {status}", *came]))
        return came

    def serve(self, text):
        """Starts a server and waits until it serves. Returns the lines of its standard error up to then."""
        self.stop()
        command = ["bash", "-c", f"exec {self.ours(text)} > turns"]
        self.server = subprocess.Popen(command, cwd=self.folder, env=self.env, stderr=subprocess.PIPE, text=True)
        lines = []
        for line in self.server.stderr:
            lines.append(self.shown(line.rstrip("\n")))
            if line.startswith("calls "):
                return lines
        raise Failure("\n".join([text, *lines]))

    def turns(self):
        """Returns the lines that the server has printed."""
        return (self.folder / "turns").read_text(encoding="utf-8").splitlines()

    def settle(self, least=0):
        """Waits until the server has printed the lines of the replies that it has sent: at least so many lines, but for quiet
        seconds, and no other one for a while."""
        end = time.monotonic() + PATIENCE
        known = None
        while time.monotonic() < end and (len(busy(self.turns())) < least or known != len(busy(self.turns()))):
            known = len(busy(self.turns()))
            time.sleep(0.5)

    def stop(self, number=signal.SIGINT, least=0):
        """Ends the server by a signal, if there is one. Returns its turns, of which at least so many are not quiet."""
        if self.server is None:
            return []
        if number == signal.SIGINT:
            self.settle(least)
        self.server.send_signal(number)
        self.server.wait()
        self.server.stderr.close()
        self.server = None
        return self.turns()

    def serve_new(self, first, last, draws):
        """Serves a new ledger with one granted range, from which customer 7 has drawn under the numbers from 1."""
        self.stop()
        self.run("rm -f ledger* copy* turns")
        self.must(CREATE.format("ledger"), "created")
        self.serve(SERVE.format("ledger"))
        self.must(GRANT.format(1, first, last), "done")
        for number in range(1, draws + 1):
            self.must(DRAW.format(number), "done")


# Running a command and comparing.


def compare(where, shown, came):
    if shown != came:
        raise Failure("\n".join([where, "the page shows:", *shown, "the command prints:", *came]))


def busy(lines):
    """Returns the lines of a server without those of quiet seconds."""
    return [line for line in lines if line != "quiet"]


def run_and_compare(room, command):
    """Runs a command. Its output must be what the page shows; if the page shows nothing, its status must be 0."""
    if command.head().startswith("s10 serve "):
        shown, came = busy(command.shown), room.serve(command.text)
        # Without a given day the page shows another one than today's.
        if "--day" in command.text or without_numbers(shown) != without_numbers(came):
            compare(command.where(), shown, came)
        return
    status, came = room.run(command.text)
    if not command.shown and status != 0:
        raise Failure("\n".join([command.where(), f"status {status}", *came]))
    if command.shown or not OUTPUT_LEFT_OUT.search(command.text):
        compare(command.where(), command.shown, came)


def without_numbers(lines):
    return [re.sub(r"[\d.]*\d", "N", line) for line in lines]


def run_and_compare_words(room, command):
    """Runs a command, with its standard error. Its output must be what the page shows, but for the numbers."""
    _, came = room.run(command.text, stderr=subprocess.STDOUT)
    if without_numbers(command.shown) != without_numbers(came):
        compare(command.where(), command.shown, came)


def reason_not_to_run(command):
    return next((why for head, why in NOT_RUN if command.head().startswith(head)), None)


def has_tool(tool):
    """Returns whether the machine has a tool. An older `sqlite3` has no STRICT tables, and `man` may be a stand-in."""
    tries = {"sqlite3": ["sqlite3", ":memory:", "CREATE TABLE t (n INTEGER) STRICT"], "man": ["man", "--version"]}
    if shutil.which(tool) is None:
        return False
    return tool not in tries or subprocess.run(tries[tool], capture_output=True, check=False).returncode == 0


def tool_lacking(command):
    """Returns the tool that a command needs and the machine lacks, or nothing."""
    needed = [tool for head, tools in TOOLS.items() if command.head().startswith(head) for tool in tools]
    return next((tool for tool in needed if not has_tool(tool)), "")


def handler_of(command, handlers):
    return next((it for head, it in handlers.items() if command.head().startswith(head)), run_and_compare)


def run_step(room, step, handlers):
    """Runs a command, or stops the server."""
    if isinstance(step, Stop):
        turns = room.stop(least=len(busy(step.shown)))
        if step.shown:
            compare("the lines of the server", busy(step.shown), busy(turns))
    elif reason_not_to_run(step) is None:
        step.lacks = tool_lacking(step)
        if not step.lacks:
            step.is_run = True
            handler_of(step, handlers)(room, step)


def run_page(room, steps, handlers):
    """Runs the steps of a page in order. A handler runs each command that begins as its key does. Returns the failures. A command
    after one of `sqlite3` may need what that one did, so it is skipped with it."""
    failures = []
    for at, step in enumerate(steps):
        try:
            run_step(room, step, handlers)
        except (Failure, subprocess.TimeoutExpired) as failure:
            failures.append(str(failure))
        if isinstance(step, Command) and step.lacks == "sqlite3":
            for later in commands_in(steps[at:]):
                later.lacks = step.lacks
            room.stop()
            break
    return failures


# docs/OPERATING.md


def withdraw(room, command):
    """Withdraws the second of two ranges."""
    room.serve_new(0, 2, draws=0)
    room.must(GRANT.format(2, 4, 9), "range 2")
    run_and_compare(room, command)
    room.stop()


def serve_and_stop(room, command):
    run_and_compare(room, command)
    room.stop()


def create_notes(room, command):
    """Creates notes, and serves a ledger from which their customer can draw."""
    room.serve_new(0, 99, draws=0)
    run_and_compare(room, command)


def ask_without_a_server(room, command):
    room.stop()
    run_and_compare(room, command)


def ask_again(room, command):
    """Serves the ledger again, and asks the open request of the notes."""
    room.serve(SERVE.format("ledger"))
    run_and_compare(room, command)


@contextlib.contextmanager
def silent_server(room):
    """A socket at the address of the room's server, from which no reply comes."""
    room.stop()
    with socket.socket(socket.AF_INET, socket.SOCK_DGRAM) as link:
        link.bind(("127.0.0.1", room.port))
        yield


def label_before_a_server(room, command):
    """Runs the script while the server is silent, until it has given up its draw and once more. Then there is a server that
    replies. Returns what the script prints."""
    with contextlib.ExitStack() as stack:
        with silent_server(room):
            words = ["bash", "-c", room.ours(command.text)]
            script = subprocess.Popen(words, cwd=room.folder, env=room.env, stdout=subprocess.PIPE, stderr=subprocess.PIPE, text=True)
            stack.callback(script.communicate)
            stack.callback(script.kill)
            compare(command.where(), ["gave-up\n"] * 2, [script.stderr.readline() for _ in range(2)])
        room.serve(SERVE.format("ledger"))
        return script.communicate(timeout=TIME_LIMIT)[0].splitlines()


def label_by_notes(room, command):
    """Runs the script, which draws; then before a server that is silent at first; and after a draw that gave up, to which it has
    the reply."""
    compare(command.where(), ["RA000000028GB"], room.run(command.text)[1])
    compare(command.where(), ["RA000000031GB"], label_before_a_server(room, command))
    with silent_server(room):
        compare(command.where(), ["gave-up"], room.run(f"s10 draw {TO} --notes printer.notes --service RA --country GB --tries 1")[1])
    room.serve(SERVE.format("ledger"))
    for identifier in ("RA000000045GB", "RA000000059GB"):
        compare(command.where(), [identifier], room.run(command.text)[1])
    room.stop()


def copy_of_a_killed_server(room, command):
    """Copies both files after a server was killed after a grant and five draws."""
    room.serve_new(0, 9, draws=5)
    room.settle(6)
    room.stop(signal.SIGKILL)
    run_and_compare(room, command)


def copy_without_its_log(room, command):
    """Removes the log of the copy. A server over such a copy accepts the grant again, and issues its first identifier again."""
    run_and_compare(room, command)
    room.run("cp copy bare")
    room.serve(SERVE.format("bare"))
    room.must(GRANT.format(1, 0, 9), "done")
    room.must(DRAW.format(1), " RA000000005GB")
    room.stop()


def copy_served(room, command):
    """Copies a ledger with a grant and five draws while it is served."""
    room.serve_new(0, 9, draws=5)
    run_and_compare(room, command)
    room.stop()


def count_answered(room, command):
    """Runs the script that copies a ledger which is being served. The copy must have each answered call."""
    room.serve_new(0, 9, draws=3)
    room.settle(4)
    status, came = room.run(command.text)
    found = re.fullmatch(r"copied (\d+)\nanswered before: (\d+)", "\n".join(came))
    if status != 0 or not found or not 4 == int(found[2]) <= int(found[1]):
        raise Failure("\n".join([command.where(), *came]))
    room.stop()


OPERATING = {
    "s10 notes": create_notes,
    f"s10 draw {TO} --notes printer.notes --service RA --country GB --tries 1": ask_without_a_server,
    "s10 again": ask_again,
    'ask="--to': label_by_notes,
    "s10 withdraw": withdraw,
    "s10 serve": serve_and_stop,
    "cp ledger copy &&": copy_of_a_killed_server,
    "rm copy-wal": copy_without_its_log,
    "s10 copy": copy_served,
    "answered=": count_answered,
}


# docs/SCALING.md


def find_ranges_granted_twice(room, command):
    """Runs the script over two ledgers that have no serial in common, over two that have one, and beside what is no ledger."""

    def compare_with(*expected):
        compare(command.where(), list(expected), room.run(command.text, stderr=subprocess.STDOUT)[1])

    ranges = (("ledger.a", 0, 9), ("ledger.b", 10, 19), ("ledger.c d", 19, 29))
    twice = "granted twice: RA GB 00000019 00000029 ledger.c d"
    for at, (ledger, first, last) in enumerate(ranges):
        room.must(CREATE.format(f"'{ledger}'"), "created")
        room.serve(SERVE.format(f"'{ledger}'"))
        room.must(GRANT.format(1, first, last), "done")
        if at == 2:
            room.stop()
            compare_with(twice)
            room.serve(SERVE.format(f"'{ledger}'"))
            room.must(f"s10 withdraw {TO} --number 2 --range 1", "done")
        room.stop()
        compare_with(*[twice] * (at == 2))
    (room.folder / "ledger.e").write_text("no ledger", encoding="utf-8")
    compare_with("cannot open ledger.e: it is not a database", "not read: ledger.e: ledger store", twice)


SCALING = {"for ledger in": find_ranges_granted_twice}


# docs/PROOFS.md


def run_at_the_top(room, command):
    """Runs the command at the top of the repository."""
    compare(command.where(), command.shown, room.must(f"cd '{ROOT}' && {command.text}"))


PROOFS = {"python3 checks/contracts.py": run_at_the_top}


# docs/MIGRATING.md


def find_shared_serials(room, command):
    """Runs the command over the table of the page, in which no two rows share a serial, and over one in which some do."""
    run_and_compare(room, command)
    table, shared = room.folder / "old.csv", ["8,RA,GB,50,60,50", "9,RA,GB,99,120,99"]
    rows = table.read_text(encoding="utf-8")
    table.write_text("\n".join([shared[1], rows.rstrip(), shared[0], ""]), encoding="utf-8")
    compare(command.where(), shared, room.run(command.text)[1])
    table.write_text(rows, encoding="utf-8")


def grant_twice(room, command):
    """Grants the rows of the table, and once more, which changes nothing."""
    run_and_compare(room, command)
    run_and_compare(room, command)


MIGRATING = {"sort -t,": find_shared_serials, "while read": grant_twice}


# contrib/README.md


def draw_by_the_client(room, command):
    """Runs the client of the page, on a server on which customer 7 has drawn two of its three serials."""
    client = room.folder / "draw.py"
    if not client.exists():
        client.write_text(room.ours(python_block("contrib/README.md", "def draw(")), encoding="utf-8")
        room.serve_new(0, 2, draws=2)
    run_and_compare(room, command)


def checksums(room, command):
    """Prints the checksums of a served ledger, before and after `health`, which must not change them. The sizes must be those
    that the page shows. The checksum of the log differs each time."""
    if "checksums" not in room.notes:
        room.serve_new(0, 2, draws=0)
        for number in (1000001, 1000001):
            room.must(DRAW.format(number), "done")
        room.must(f"s10 void {TO} --customer 7 --number 1000003 --id RA000000005GB", "done")
        room.must(f"s10 query {TO} --customer 7 --number 1000004 --id RA000000005GB", "done")
        room.notes["checksums"] = room.must(command.text)
    compare(command.where(), room.notes["checksums"], room.must(command.text))
    shown, came = ([line.split()[1:] for line in lines] for lines in (command.shown, room.notes["checksums"]))
    compare(command.where(), [" ".join(it) for it in shown], [" ".join(it) for it in came])


def count_turns(room, command):
    """Draws once more by s10client, stops the server, and counts its turns. The number of quiet seconds is any."""
    example = room.ours(python_block("contrib/README.md", "make_notes("))
    (room.folder / "python/example.py").write_text(example, encoding="utf-8")
    compare("the example of s10client", ["RA000000014GB"], room.must("python3 python/example.py"))
    room.stop()
    _, came = room.run(command.text)
    kinds = [sorted(line for line in lines if not line.endswith(" quiet")) for lines in (command.shown, came)]
    compare(command.where(), *kinds)


def check_texts(room, command):
    """Compares the texts of the repository with the help texts, in place of those that the command before has written. The
    file of the program may have any name."""
    shutil.copytree(ROOT / "contrib", room.folder, dirs_exist_ok=True)
    run_and_compare(room, command)
    room.must("ln -s s10 bin/another.name && python3 write_texts.py --check bin/another.name")


CONTRIB = {
    "python3 python/test_s10client.py": run_and_compare_words,
    "python3 write_texts.py --check": check_texts,
    "python3 draw.py": draw_by_the_client,
    "cksum": checksums,
    "awk -f turns.awk": count_turns,
}


# All pages.


@contextlib.contextmanager
def new_room():
    """A room in a new folder. Its server ends with it."""
    with tempfile.TemporaryDirectory() as folder:
        room = Room(folder)
        try:
            yield room
        finally:
            room.stop(signal.SIGKILL)


def run_alone(steps, handlers):
    """Runs a page in a folder of its own. Returns the failures."""
    with new_room() as room:
        return run_page(room, steps, handlers)


def audit_beside_a_table(room):
    """Audits the ledger to which docs/LEDGER.md has added a table of the office's own. Returns the failures."""
    try:
        compare("an audit beside a table of the office's own", ["ledger ok 10"], room.must("s10 audit --ledger ledger"))
    except Failure as failure:
        return [str(failure)]
    return []


def run_tour_and_ledger(pages):
    """Runs the tour, and then docs/LEDGER.md over its ledger. Returns the failures."""
    with new_room() as room:
        tour = run_page(room, pages["docs/TOUR.md"], {})
        return tour + run_page(room, pages["docs/LEDGER.md"], {}) + audit_beside_a_table(room)


def run_contrib(steps):
    """Runs contrib/README.md in a copy of contrib. Returns the failures."""
    with new_room() as room:
        shutil.copytree(ROOT / "contrib", room.folder, dirs_exist_ok=True)
        return run_page(room, steps, CONTRIB)


def run_pages(pages):
    """Runs all pages that have commands. Returns the failures."""
    return [
        *run_alone(pages["README.md"], {}),
        *run_tour_and_ledger(pages),
        *run_alone(pages["docs/OPERATING.md"], OPERATING),
        *run_alone(pages["docs/SCALING.md"], SCALING),
        *run_alone(pages["docs/MIGRATING.md"], MIGRATING),
        *run_alone(pages["docs/PROOFS.md"], PROOFS),
        *run_contrib(pages["contrib/README.md"]),
    ]


def uncovered(pages):
    """Returns the commands that are neither run nor in NOT_RUN, and the entries of NOT_RUN without a command."""
    commands = [it for steps in pages.values() for it in commands_in(steps)]
    missed = [it for it in commands if not it.is_run and not it.lacks and reason_not_to_run(it) is None]
    stale = [head for head, _ in NOT_RUN if not any(it.head().startswith(head) for it in commands)]
    return [f"{it.where()}\nneither run nor in NOT_RUN" for it in missed] + [f"NOT_RUN: no page has {head}" for head in stale]


def print_counts(pages):
    """Prints how many commands of each page were run."""
    for page, steps in pages.items():
        is_run = [it.is_run for it in commands_in(steps)]
        if is_run:
            print(f"{page}: {is_run.count(True)} commands run, {is_run.count(False)} not run")
        for tool in sorted({it.lacks for it in commands_in(steps)} - {""}):
            print(f"skipped {page}: {sum(it.lacks == tool for it in commands_in(steps))} commands: {tool}")


def main():
    # A process that a shell starts in the background ignores Ctrl-C, and so would the servers.
    signal.signal(signal.SIGINT, signal.default_int_handler)
    pages = read_pages()
    failures = counts.check() + run_pages(pages)
    failures += uncovered(pages)
    print_counts(pages)
    for failure in failures:
        print(f"failed: {failure}")
    return 1 if failures else 0


if __name__ == "__main__":
    sys.exit(main())
