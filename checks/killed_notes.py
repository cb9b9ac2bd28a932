#!/usr/bin/env python3
"""Kills `s10 draw --notes` and `s10 again --notes` with SIGKILL at random moments, while a proxy loses, repeats, delays and
reorders datagrams, until KILLS runs were killed, by default 50. Each draw asks for one of several services and sheets.

After each run the notes must be as they were, or have its request open, or record its reply, which is then printed. At the end
no identifier may be on two draws, the printed identifiers must be those of the report, and no number may have been sent with two
requests.

    python3 checks/killed_notes.py [PROGRAM [KILLS]]
"""

import os
import random
import re
import signal
import statistics
import struct
import sys
import tempfile
import time
import zlib
from collections import Counter
from dataclasses import dataclass
from pathlib import Path
from typing import NamedTuple

ROOT = Path(__file__).resolve().parent.parent
PROGRAM = os.path.abspath(sys.argv[1] if len(sys.argv) > 1 else ROOT / "crates/s10/out/s10")
KILLS = int(sys.argv[2]) if len(sys.argv) > 2 else 50
os.environ["S10"] = PROGRAM
sys.path.insert(0, str(ROOT / "contrib/python"))
from test_s10client import DAY, Networks, Server, run_and_kill, s10  # noqa: E402

CUSTOMER, FIRST, LAST = 7, 1000, 999999
SERVICES = ("RA", "RB")
MEASURED = 7  # draws without a kill at the start, whose median says when to kill
NOTES = re.compile(r'(\{"customer": (\d+), "next": (\d+), "last": (\d+), "request": (?:null|"((?:[0-9a-f]{2})+)"))'
                   r', "check": "([0-9a-f]{8})"\}\n')


class Failed(Exception):
    """What must not happen, with the run in which it did."""


def holds(what, is_so, *more):
    if not is_so:
        raise Failed(": ".join([what, *map(str, more)]))


class Notes(NamedTuple):
    """The notes as they are in the file: the next number, and the open request or None."""

    next: int
    request: bytes | None

    @classmethod
    def read(cls, path):
        text = Path(path).read_text(encoding="ascii")
        found = NOTES.fullmatch(text)
        holds("the file is no notes", found and (int(found[2]), int(found[4])) == (CUSTOMER, LAST), repr(text))
        holds("the check value", zlib.crc32(found[1].encode()) == int(found[6], 16), repr(text))
        return cls(int(found[3]), found[5] and bytes.fromhex(found[5]))


class Draw(NamedTuple):
    """What a draw asks for. A sheet has more than one identifier."""

    service: str = "RA"
    count: int = 1

    def words(self):
        return ["--service", self.service, "--country", "GB", *(["--count", str(self.count)] if self.count > 1 else [])]

    def request(self, number):
        """Returns the datagram of the draw with this number."""
        kind = (2, 5) if self.count > 1 else (1, 2)
        parts = struct.pack(">2sBBII2s2s", b"S1", *kind, CUSTOMER, number, self.service.encode(), b"GB")
        return parts + (bytes([self.count]) if self.count > 1 else b"")

    def line(self, number):
        """Returns the line of the reply, up to the identifiers."""
        body = f"{self.service} GB {self.count}" if self.count > 1 else f"{self.service} GB"
        return f"reply draw{'-many' * (self.count > 1)} customer {CUSTOMER} number {number} {body} done day {DAY} "


@dataclass
class Run:
    """A run of the program: its command, the draw that it asks for, the notes before and after it, and what it printed."""

    command: str
    draw: Draw
    before: Notes
    after: Notes
    output: str
    status: int

    def holds(self, what, is_so):
        holds(what, is_so, self)

    def is_killed(self):
        return self.status == -signal.SIGKILL

    def is_refused(self):
        """Returns whether the notes refuse the command: `draw` while a request is open, `again` while none is."""
        return (self.command == "draw") == (self.before.request is not None)

    def is_answered(self):
        return self.output.startswith("reply ")

    def number(self):
        return self.before.next - (self.command == "again")

    def stages(self):
        """Returns the notes that the run may leave, in order: as they were, with its request open, and with its reply recorded."""
        number = self.number()
        if self.is_refused():
            return [self.before]
        written = Notes(number + 1, self.draw.request(number))
        return [*([self.before] if self.command == "draw" else []), written, Notes(number + 1, None)]

    def check(self):
        """Compares the notes after the run with its stages, and the stage with the line that it printed."""
        stages = self.stages()
        self.holds("the notes went back", self.after.next >= self.before.next)
        self.holds("the notes are not those that the run may leave", self.after in stages)
        self.holds("more than one line", self.output.count("\n") == (self.output != "") and self.output[-1:] in ("", "\n"))
        if self.is_answered():
            self.holds("a reply without a request", not self.is_refused())
            self.holds("a reply to a request that is not in the notes", self.after in stages[-2:])
            self.holds("the status of a reply", self.is_killed() or self.status == 0)
        else:
            self.holds("a reply was recorded and not printed", self.is_refused() or self.after in stages[:-1])
            self.check_refusal()

    def check_refusal(self):
        """Compares the line and the status of a run that got no reply. One that was killed may have printed nothing."""
        expected = ("gave-up\n", 3)
        if self.is_refused():
            expected = ("refused unanswered\n" if self.command == "draw" else "refused answered\n", 1)
        is_right = (self.output, self.status) == expected or (self.is_killed() and self.output in ("", expected[0]))
        self.holds("the line or the status", is_right)

    def stage(self):
        """Returns how far the run came, in words."""
        if self.is_refused():
            return "a refused command"
        written = "with its reply printed" if self.is_answered() else "before its reply"
        words = ["at its end", written, "before its request was written"]
        return f"{self.command} {words[self.stages()[::-1].index(self.after)]}"


class Printer:
    """A printer that draws by its notes: what it asked for, what it printed, and how far its killed runs came."""

    def __init__(self, path):
        self.path = path
        self.asked = {}  # the draw of each number
        self.printed = {}  # the identifiers of each number
        self.killed = Counter()
        holds("notes", s10("notes", "--file", path, "--customer", CUSTOMER, "--first", FIRST, "--last", LAST) == "created\n")

    def is_open(self):
        return Notes.read(self.path).request is not None

    def run(self, draw, address, kill_after=None):
        """Draws, or asks again if there is no draw, kills the program after some seconds, and checks the run."""
        before = Notes.read(self.path)
        words = [PROGRAM, "draw" if draw else "again", "--to", "{}:{}".format(*address), "--notes", self.path]
        output, status = run_and_kill(words + (draw.words() if draw else []), kill_after)
        run = Run(words[1], draw or self.asked.get(before.next - 1), before, Notes.read(self.path), output, status)
        run.check()
        if draw and run.after.request and not run.is_refused():
            self.asked[run.number()] = draw
        if run.is_answered():
            self.add(run)
        if run.is_killed():
            self.killed[run.stage()] += 1

    def add(self, run):
        """Adds the identifiers of a reply. Only `again` may print those of a number once more."""
        number, start = run.number(), run.draw.line(run.number())
        run.holds("no reply with identifiers to the request", run.output.startswith(start))
        identifiers = run.output[len(start) :].split()
        are_right = all(re.fullmatch(rf"{run.draw.service}\d{{9}}GB", it) for it in identifiers)
        run.holds("the identifiers", len(identifiers) == run.draw.count and are_right)
        run.holds("a number is on two draws", run.command == "again" or number not in self.printed)
        run.holds("a number has two replies", self.printed.setdefault(number, identifiers) == identifiers)
        self.asked[number] = run.draw


def choose_draw(choose, is_open):
    """Returns a draw, or None to ask again: mostly what the notes do not refuse."""
    if choose.random() < (0.8 if is_open else 0.1):
        return None
    return Draw(choose.choice(SERVICES), choose.randint(1, 3))


def choose_moment(choose, span):
    """Returns after how many seconds to kill a run: mostly while it asks once, and sometimes while it waits to ask again."""
    return choose.uniform(0, 1.5 * span if choose.random() < 0.9 else 2.2)


def finish(printer, networks):
    """Asks the open request of the notes again, if there is one, until its reply comes."""
    while printer.is_open():
        printer.run(None, networks.address())


def measure(printer, networks):
    """Returns the median time of a draw, in seconds."""
    times = []
    for _ in range(MEASURED):
        start = time.monotonic()
        printer.run(Draw(), networks.address())
        times.append(time.monotonic() - start)
        finish(printer, networks)
    return statistics.median(times)


def compare_with_ledger(printer, server, networks):
    """Compares what was printed with the numbers of the notes, the report of the ledger and what was sent. Returns the audit."""
    numbers = range(FIRST, Notes.read(printer.path).next)
    holds("a number has no reply", sorted(printer.printed) == list(numbers), sorted(set(numbers) ^ set(printer.printed)))
    drawn = sorted((CUSTOMER, number, it) for number, found in printer.printed.items() for it in found)
    identifiers = Counter(it for _, _, it in drawn)
    holds("an identifier is on two draws", len(identifiers) == len(drawn), identifiers.most_common(1))
    issued = sorted(server.issues())
    holds("the report has others", issued == drawn, sorted(set(issued) ^ set(drawn)))
    for (customer, number), sent in networks.requests.items():
        holds("a number that the notes do not have was sent", customer == CUSTOMER and number in numbers, customer, number)
        holds("a number was sent with two requests", sent == {printer.asked[number].request(number)}, number, sent)
    audit = s10("audit", "--ledger", server.ledger)
    holds("audit", audit == f"ledger ok {len(printer.printed) + len(SERVICES)}\n", audit)
    return audit


def try_notes(folder, server):
    """Draws until so many runs were killed. Prints what was done."""
    networks = Networks(server.address, lost=0.15, repeated=0.2, late=0.2)
    for at, service in enumerate(SERVICES, 1):
        granted = s10("grant", "--to", "{}:{}".format(*server.address), "--number", at, "--holder", CUSTOMER,
                      "--service", service, "--country", "GB", "--first", 0, "--last", 99999)
        holds("grant", granted.endswith(f" done range {at}\n"), granted)
    printer, choose = Printer(os.path.join(folder, "notes")), random.Random(1)
    span = measure(printer, networks)
    while printer.killed.total() < KILLS:
        printer.run(choose_draw(choose, printer.is_open()), networks.address(), choose_moment(choose, span))
    finish(printer, networks)
    networks.stop()
    server.stop()
    audit = compare_with_ledger(printer, server, networks)
    print(f"{len(printer.printed)} draws, {KILLS} of {networks.runs} runs were killed; a draw takes {1000 * span:.1f} ms")
    print(f"killed: {dict(sorted(printer.killed.items()))}; datagrams: {dict(networks.counts)}; {audit}", end="")


def main():
    with tempfile.TemporaryDirectory() as folder:
        server = Server(folder)
        try:
            try_notes(folder, server)
        except Failed as why:
            print(f"failed: {why}")
            return 1
        finally:
            server.stop()
    return 0


if __name__ == "__main__":
    sys.exit(main())
