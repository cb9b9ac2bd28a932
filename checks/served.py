"""A ledger that contrib/standby serves on several machines, and its printers, for standby.py."""

import os
import signal
import subprocess
import sys
from collections import Counter
from pathlib import Path

from machines import VOLUME, children, run
from serving import HERE, PROGRAM, Failed

STANDBY = HERE.parent / "contrib/standby"
PORT = 4000
USER = "nobody"
PATIENCE = 90
MILLION = 1_000_000
# Of each ledger.
SERIALS = 10 * MILLION


def replies(log):
    """Yields time, number, identifier and kind of each reply of a log of printers."""
    with open(log, encoding="ascii") as lines:
        for line in lines:
            at, *words = line.split()
            if line.endswith("\n") and len(words) == 3:
                yield float(at), int(words[0]), words[1], words[2]


class Service:
    """A ledger, the machines that run takeover over it, its printers, and what all of them printed."""

    def __init__(self, place, name, number=0, machines=(0, 1, 2)):
        """The ledger has the address, the customer and the serials of its number. The first of the machines should serve it."""
        self.place, self.name, self.number = place, name, number
        self.address, self.customer = f"10.9.0.{100 + number}", 7 + number
        self.machines = [place.trio[at] for at in machines]
        self.logs, self.turns, self.asking, self.running = [], [], [], {}
        self.next = MILLION
        # Settings of contrib/standby that differ from those of `settings`.
        self.values = {"VOLUME": VOLUME, "LEDGER": f"{name}/ledger", "ADDRESS": self.address, "RUN_AS": USER, "HEAL": 3}
        self.values |= {"QUIET": 3, "PATIENCE": 0}

    # The ledger and its servers.

    def seen_by(self, machine):
        """Returns the path of the ledger on the machine's own mount."""
        return f"{machine.mount}/{self.name}/ledger"

    def create(self):
        """Creates the ledger on the volume."""
        machine = self.machines[0]
        machine.run("mkdir", f"{machine.mount}/{self.name}")
        said = machine.run(PROGRAM, "create", "--ledger", self.seen_by(machine), "--interval", 30, "--limit", SERIALS)
        if said != "created\n":
            raise Failed(said)
        machine.run("chown", "-R", USER, f"{machine.mount}/{self.name}")

    def settings(self, machine):
        """Writes the settings of a machine, those of contrib with these values. Returns their path."""
        path = Path(machine.folder, self.name)
        values = {**self.values, "MOUNT": f"{path}.mount", "FIRST_WAIT": 2 * self.machines.index(machine)}
        path.write_text((STANDBY / "settings").read_text() + "".join(f"{name}={value}\n" for name, value in values.items()))
        return path

    def start(self, machine):
        """Starts takeover on a machine."""
        at = f"{machine.folder}/{self.name}.{len(self.turns)}"
        self.turns.append(f"{at}.turns")
        with open(f"{at}.turns", "w", encoding="ascii") as turns, open(f"{at}.said", "w", encoding="ascii") as said:
            words = ["env", self.place.path, STANDBY / "takeover", self.settings(machine)]
            self.running[machine.name] = machine.start(*words, stdout=turns, stderr=said), Path(f"{at}.said")

    def restart(self, machine, **options):
        """Starts contrib/standby/restart on a machine. Returns its process."""
        return machine.start("env", self.place.path, STANDBY / "restart", self.settings(machine), **options)

    def signal(self, machine, number):
        """Sends a signal to takeover on a machine."""
        if number == signal.SIGCONT:
            machine.resume()
        for process in children(self.running[machine.name][0].pid):
            os.kill(process, number)

    def hang(self, machine):
        """Stops takeover and what it started on a machine, but not the client of the mount."""
        for process in children(self.running[machine.name][0].pid):
            for it in (process, *children(process)):
                os.kill(it, signal.SIGSTOP)

    def said(self, machine):
        """Returns what takeover and its servers said on standard error, on a machine where it runs."""
        return self.running[machine.name][1].read_text(errors="replace")

    def lost(self, machine):
        """Forgets takeover on a machine that was lost, and ended it."""
        self.running.pop(machine.name)[0].wait()

    def stop(self):
        """Ends takeover on all machines."""
        for machine in self.machines:
            if machine.name in self.running:
                self.signal(machine, signal.SIGTERM)
        for process, _ in self.running.values():
            process.wait(PATIENCE)
        self.running = {}

    def holder(self):
        """Waits until one machine has the address. Returns it."""
        found = []

        def has_one():
            found[:] = [machine for machine in self.machines if machine.has(self.address)]
            return len(found) == 1

        self.place.until(has_one, f"{self.name}: not one machine has the address", PATIENCE)
        return found[0]

    def begin(self):
        """Creates the ledger, and serves it on the first machine, with a range of its customer."""
        self.create()
        for machine in self.machines:
            self.start(machine)
        self.holder()
        self.grant()

    def grant(self):
        """Grants the customer the serials of this ledger."""
        words = ["grant", "--to", f"{self.address}:{PORT}", "--number", 1, "--holder", self.customer, "--service", "RA", "--country", "GB"]
        first, last = self.number * SERIALS, (self.number + 1) * SERIALS - 1
        said = run("ip", "netns", "exec", "P", PROGRAM, *words, "--first", first, "--last", last, "--tries", 20)
        if " done " not in said:
            raise Failed(f"{self.name}: {said}")

    # The printers.

    def ask(self, machine, count):
        """Starts printers in the network of a machine. Returns their log."""
        log = f"{self.place.room}/{self.name}.{len(self.logs)}.replies"
        words = [HERE / "printers.py", f"{self.address}:{PORT}", self.customer, count, self.next, log]
        self.asking.append(subprocess.Popen(["ip", "netns", "exec", machine.name, sys.executable, *map(str, words)]))
        self.next += count * MILLION
        self.logs.append(log)
        self.place.until(lambda: os.path.exists(log), "no printers")
        return log

    def hush(self):
        """Ends the printers."""
        for asking in self.asking:
            asking.kill()
            asking.wait()
        self.asking = []

    def first_reply(self, log, since):
        """Waits for a reply after a time. Returns when it came."""
        found = []

        def came():
            found[:] = [at for at, _, _, _ in replies(log) if at > since]
            return found

        self.place.until(came, f"{self.name}: no reply", PATIENCE)
        return found[0]

    # What was promised.

    def accepted(self):
        """Returns the identifiers that the printers got, by number."""
        had = {}
        for log in self.logs:
            for _, number, text, kind in replies(log):
                if kind == "other" or had.setdefault(number, text) != text:
                    raise Failed(f"{self.name}: number {number} got {had.get(number)} and {text}")
        return had

    def sent(self):
        """Returns number and identifier of each Draw that a server has replied to, by its lines."""
        found = set()
        for path in self.turns:
            for line in Path(path).read_text(errors="replace").splitlines():
                word, _, text = line.partition(" ")
                if word == "replied" and len(text) == 68 and text[6:8] == "82" and text[32:34] == "00":
                    found.add((int(text[16:24], 16), bytes.fromhex(text[42:]).decode("ascii")))
        return found

    def kept(self):
        """Returns the identifiers of the ledger, which nobody serves, by number. Raises Failed if one was issued twice there."""
        machine = self.machines[-1]
        # Standard error has the progress of the opening of a large ledger.
        options = {"check": False, "timeout": 600, "stderr": subprocess.DEVNULL}
        audit = machine.run(PROGRAM, "audit", "--ledger", self.seen_by(machine), **options)
        if not audit.startswith("ledger ok "):
            raise Failed(f"{self.name}: {audit}")
        report = machine.run(PROGRAM, "report", "--ledger", self.seen_by(machine), "--issues", **options)
        rows = [line.split() for line in report.splitlines()[1:]]
        if len({row[4] for row in rows}) != len(rows):
            raise Failed(f"{self.name}: an identifier was issued twice")
        return {int(row[3]): row[4] for row in rows}

    def faults(self):
        """Compares all replies with the ledger. Returns the faults with their numbers, and how many draws got a reply."""
        kept, had, sent = self.kept(), self.accepted(), self.sent()
        found = {
            "replies that the ledger lacks": sum(kept.get(number) != text for number, text in had.items()),
            "draws that a server replied to and the ledger lacks": sum(kept.get(number) != text for number, text in sent),
            "identifiers given to two requests": sum(count > 1 for count in Counter(had.values()).values()),
        }
        return {words: count for words, count in found.items() if count}, len(had)
