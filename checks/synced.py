#!/usr/bin/env python3
"""Watches by strace what the program syncs, and refuses each sync in turn: a kill keeps what the system has not written yet, so no
other check sees a sync that is left out.

Order: whenever the program says that something was done, by a line or by a datagram, and at its end, each file that it wrote is
synced, and each folder in which it gave a file a name. What was there before counts as written by a program that was killed, unless
it is only read. A file is synced before it is renamed, and a ledger before its log restarts.

Refused: each sync of each command fails once. Nothing is said to be done that is not synced, the line and the status are those of
a failure, and what was there before is there afterwards. The notes of a refused draw give no number twice. A server whose sync
failed sends no reply to a call that the ledger does not have.

    python3 checks/synced.py [PROGRAM]
"""

import os
import re
import socket
import subprocess
import sys
import tempfile
from concurrent.futures import ThreadPoolExecutor
from copy import deepcopy
from itertools import count
from pathlib import Path

from tracing import Tracing, run_traced, why_not

HERE = Path(__file__).resolve().parent
PROGRAM = str(Path(sys.argv[1] if len(sys.argv) > 1 else HERE / "../crates/s10/out/s10").resolve())
PATIENCE = 60  # seconds
SYNCS = ("fsync", "fdatasync")
WRITES = ("write", "pwrite64", "writev", "pwritev", "ftruncate", "fallocate", "copy_file_range", "sendfile")
SENDS = ("sendto", "sendmsg")
NAMES = ("open", "openat", "creat", "rename", "renameat", "renameat2", "link", "linkat", "unlink", "unlinkat")
# What could change a file unseen.
UNSEEN = ("mmap", "sync_file_range", "truncate", "io_uring_setup", "pwritev2", "splice")
ALL = SYNCS + WRITES + SENDS + NAMES + UNSEEN
LOG_HEADER = 41  # bytes
DAY = 20000
GRANT = "53310101000000000000000100000007524147420000000000000002"


class Failed(Exception):
    """What must not happen."""


def holds(what, is_so, *more):
    if not is_so:
        raise Failed(": ".join([what, *map(str, more)]))


def run(*words):
    """Runs the program. Returns its status and its output."""
    done = subprocess.run([PROGRAM, *map(str, words)], stdin=subprocess.DEVNULL, capture_output=True, text=True, check=False,
                          timeout=PATIENCE)
    return done.returncode, done.stdout


# What is on the disk.


class Disk:
    """What a stop of the machine could lose of a folder, by the calls of a program.

    `files` has the state of each file with a name: synced, written, or lost, once a sync of what was written failed. `folders` has
    whether a folder has the names that it was given. A lock has nothing to lose. Of a ledger that is served, the log must be
    synced; what is moved into the ledger must be before the log restarts, by its first byte. `logs` has those with calls."""

    def __init__(self, folder, left="synced", are_names_left=False, is_served=False):
        self.folder = str(folder)
        self.is_served = is_served
        found = sorted(str(it) for it in Path(folder).rglob("*") if it.is_file() and not it.name.endswith(".lock"))
        self.files = dict.fromkeys(found, left)
        self.folders = {os.path.dirname(it): not are_names_left for it in found}
        self.logs = {it for it in found if it.endswith("-wal") and os.path.getsize(it) > LOG_HEADER}
        self.counts = dict.fromkeys(("syncs", "writes", "names", "lines", "sends"), 0)

    def has(self, path):
        return path.startswith(f"{self.folder}/") and not path.endswith(".lock")

    def follow(self, call, says):
        """Takes in what a call did. `says` has the counts that say that something was done: lines, sends."""
        if call.name in SENDS:
            self.say("sends", says, call)
        elif call.name in ("write", "writev") and call.number() == 1:
            self.say("lines", says, call)
        elif call.name in SYNCS:
            self.sync(call.file(), call.result == 0)
        elif call.name in WRITES:
            self.write(call)
        elif call.name in NAMES:
            self.name(call)
        else:
            is_map = call.name == "mmap" and not ("MAP_SHARED" in call.words and "PROT_WRITE" in call.words)
            holds("a call that this check does not follow", is_map or not self.has(call.file()), call)

    def say(self, how, says, call):
        self.counts[how] += 1
        if how in says:
            self.check(call)

    def sync(self, path, is_done):
        self.counts["syncs"] += 1
        if path in self.folders:
            self.folders[path] = self.folders[path] or is_done
        elif self.files.get(path) == "written":
            self.files[path] = "synced" if is_done else "lost"

    def write(self, call):
        path = call.file()
        if call.result < 0 or not self.has(path):
            return
        self.counts["writes"] += 1
        if path.endswith("-wal"):
            self.write_log(path, call)
        else:
            self.files[path] = "written"

    def write_log(self, path, call):
        """Takes in a write to a log. One that restarted may be cut at any time: what was behind its header is nothing."""
        offset = int(call.words.rsplit(", ", 1)[1]) if call.name in ("pwrite64", "ftruncate") else None
        if offset == 0 and path in self.logs:
            holds("a log restarts and its ledger is not synced", self.files[path.removesuffix("-wal")] == "synced", call)
            self.logs.remove(path)
        elif call.name == "pwrite64" and offset >= LOG_HEADER:
            self.logs.add(path)
        if call.name == "ftruncate":
            holds("a log with calls is cut", path not in self.logs, call)
        else:
            self.files[path] = "written"

    def name(self, call):
        """Takes in that a file got a name or lost it."""
        if call.result < 0:
            return
        names = [os.path.join(self.folder, it) for it in call.names()]
        if call.name.startswith("unlink"):
            self.files.pop(names[0], None)
        elif call.name in ("open", "openat", "creat"):
            if self.has(call.path) and call.path not in self.files and ("O_CREAT" in call.words or call.name == "creat"):
                self.files[call.path] = "new"
                self.add_name(call.path)
        elif self.has(names[-1]):
            holds("a file is renamed and not synced", self.files.get(names[0], "synced") == "synced", call)
            self.files[names[-1]] = self.files.pop(names[0], "synced")
            self.add_name(names[-1])

    def add_name(self, path):
        self.counts["names"] += 1
        self.folders[os.path.dirname(path)] = False

    def check(self, when):
        """Everything must be synced."""
        left = [path for path, state in self.files.items() if state != "synced" and not (self.is_served and f"{path}-wal" in self.files)]
        left += [path for path, is_synced in self.folders.items() if not is_synced]
        holds("not synced", not left, when, left)


def follow(disk, calls, says=("lines", "sends")):
    """Follows the calls of a run that did what it was asked for. Returns what was counted."""
    disk = deepcopy(disk)
    for call in calls:
        disk.follow(call, says)
    disk.check("at the end")
    return disk.counts


def is_seen(disk, calls):
    """Whether these calls are found to be out of order."""
    try:
        follow(disk, calls)
    except Failed:
        return True
    return False


def check_order(what, disk, calls, needed):
    """Follows the calls of a run. If any of as many syncs as are needed is left out, they must be found to be out of order. The
    others have a sync after them before anything is said."""
    try:
        counts = follow(disk, calls)
    except Failed as why:
        raise Failed(f"{what}: {why}") from why
    holds(f"{what} says nothing", counts["lines"] or counts["sends"], counts)
    seen = [is_seen(disk, calls[:at] + calls[at + 1:]) for at, it in enumerate(calls) if it.name in SYNCS]
    holds(f"{what}: a sync that is left out is not seen", seen.count(True) >= needed, seen)
    print(f"{what}: {', '.join(f'{many} {it}' for it, many in counts.items() if many)}: in order; "
          f"{seen.count(True)} syncs are seen to be needed", flush=True)


def each_sync(calls):
    """Returns the refusals that fail one sync of a run each, by its calls."""
    return [f"{name}:error=EIO:when={at}" for name in SYNCS for at in range(1, 1 + sum(it.name == name for it in calls))]


def refuse_each(what, calls, do):
    """Does this for each sync that a run made, with its refusal."""
    refusals = each_sync(calls)
    with ThreadPoolExecutor(len(os.sched_getaffinity(0))) as several:
        list(several.map(do, range(len(refusals)), refusals))
    print(f"{what}: {len(refusals)} syncs, each refused in turn", flush=True)


# Notes.


def folder_of(room, name):
    """Returns a new folder."""
    folder = Path(room, name)
    folder.mkdir(parents=True)
    return folder


def notes_words(path, first=1):
    return ["notes", "--file", path, "--customer", "7", "--first", str(first), "--last", str(first + 99)]


def try_notes(room):
    """New notes: they are synced before the rename, and their name before the line."""
    path = folder_of(room, "notes") / "printer"
    disk = Disk(path.parent)
    made = run_traced([PROGRAM, *notes_words(path)], ALL)
    holds("notes", (made.status, made.out) == (0, "created\n"), made.status, made.out, made.err)
    check_order("notes", disk, made.calls, 2)
    text = path.read_bytes()

    def refused(at, refusal):
        path = folder_of(room, f"notes-{at}") / "printer"
        found = run_traced([PROGRAM, *notes_words(path)], ALL, [refusal])
        holds(f"notes with {refusal}", (found.status, found.out) == (3, "notes store\n"), found.status, found.out)
        holds(f"notes with {refusal} left a part", not path.exists() or path.read_bytes() == text)
        again = run(*notes_words(path))
        expected = (3, "notes taken\n") if path.exists() and again[0] else (0, "created\n")
        holds(f"notes after {refusal}", again == expected and path.read_bytes() == text, again)

    refuse_each("notes", made.calls, refused)


class Server:
    """A server of the program in which customer 7 may draw."""

    def __init__(self, folder):
        self.ledger = str(folder / "ledger")
        holds("create", run(*create_words(self.ledger)) == (0, "created\n"))
        words = ["serve", "--ledger", self.ledger, "--bind", "127.0.0.1:0", "--count", "4294967295", "--day", str(DAY)]
        self.process = subprocess.Popen([PROGRAM, *words], stdin=subprocess.DEVNULL, stdout=subprocess.DEVNULL,
                                        stderr=subprocess.PIPE, text=True)
        self.address = next(it.split()[-1] for it in self.process.stderr if it.startswith("serving on "))
        status, line = run("grant", "--to", self.address, "--number", 1, "--holder", 7, "--service", "RA", "--country", "GB",
                           "--first", 0, "--last", 99999)
        holds("grant", status == 0, line)

    def stop(self):
        self.process.kill()
        self.process.communicate()

    def numbers(self):
        """Returns the numbers of the draws that it executed."""
        _, lines = run("report", "--ledger", self.ledger, "--issues", "--snapshot")
        return {int(it.split()[3]) for it in lines.splitlines()[1:]}


def draw_words(address, path):
    return ["draw", "--to", address, "--notes", str(path), "--service", "RA", "--country", "GB"]


def again_words(address, path):
    return ["again", "--to", address, "--notes", str(path)]


def identifier_in(out):
    """Returns the identifier that was printed, or None."""
    found = re.search(r"\bRA\d{9}GB\b", out)
    return found and found[0]


def try_draws(room, server, numbers):
    """A draw with notes: its request is in the notes before it is sent, also in those that a killed client left, and its reply is
    in them at the end."""
    folder = folder_of(room, "draws")
    path = folder / "printer"
    holds("notes", run(*notes_words(path, next(numbers))) == (0, "created\n"))
    disk = Disk(folder, "written", are_names_left=True)
    drawn = run_traced([PROGRAM, *draw_words(server.address, path)], ALL)
    holds("draw", drawn.status == 0 and identifier_in(drawn.out), drawn.out, drawn.err)
    check_order("draw --notes", disk, drawn.calls, 4)
    silent = socket.socket(socket.AF_INET, socket.SOCK_DGRAM)
    silent.bind(("127.0.0.1", 0))
    holds("a draw without a reply", run(*draw_words("{}:{}".format(*silent.getsockname()), path), "--tries", 1) == (3, "gave-up\n"))
    opened = path.read_bytes()
    disk = Disk(folder, "written", are_names_left=True)
    again = run_traced([PROGRAM, *again_words(server.address, path)], ALL)
    holds("again", again.status == 0 and identifier_in(again.out), again.out, again.err)
    check_order("again --notes", disk, again.calls, 4)

    def refused_draw(at, refusal):
        path = folder_of(room, f"draw-{at}") / "printer"
        first = next(numbers)
        holds("notes", run(*notes_words(path, first)) == (0, "created\n"))
        disk = Disk(path.parent)
        found = run_traced([PROGRAM, *draw_words(server.address, path)], ALL, [refusal])
        check_refused(f"draw with {refusal}", server, path, first, disk, found)

    def refused_again(at, refusal):
        path = folder_of(room, f"again-{at}") / "printer"
        first = next(numbers)
        holds("notes", run(*notes_words(path, first)) == (0, "created\n"))
        run(*draw_words("{}:{}".format(*silent.getsockname()), path), "--tries", 1)
        disk = Disk(path.parent)
        found = run_traced([PROGRAM, *again_words(server.address, path)], ALL, [refusal])
        check_refused(f"again with {refusal}", server, path, first, disk, found)

    holds("no request is open", b"null" not in opened, opened)
    refuse_each("draw --notes", drawn.calls, refused_draw)
    refuse_each("again --notes", again.calls, refused_again)
    silent.close()


def check_refused(what, server, path, number, disk, found):
    """After a refused sync of a client, either nothing was sent, or its reply was printed; its notes can be used, and the next
    number gets another identifier."""
    printed = identifier_in(found.out)
    holds(f"{what}: the line and the status", found.status == 3 and found.out.splitlines()[-1:] == ["notes store"]
          and (printed or found.out == "notes store\n"), found.status, found.out)
    is_sent = any(it.name in SENDS for it in found.calls)
    holds(f"{what}: sent without a reply that is printed", is_sent == bool(printed), found.out)
    holds(f"{what}: executed", (number in server.numbers()) == is_sent, found.out)
    follow_sends(what, disk, found.calls)
    status, out = run(*again_words(server.address, path))
    repeated = identifier_in(out)
    holds(f"{what}: then again", (status == 0 and repeated) or (status, out) == (1, "refused answered\n"), status, out)
    holds(f"{what}: again prints another", not (printed and repeated) or printed == repeated, printed, out)
    status, out = run(*draw_words(server.address, path))
    last = identifier_in(out)
    holds(f"{what}: then a draw", status == 0 and last not in (None, printed, repeated), status, out, printed, repeated)
    holds(f"{what}: its number", f" number {number + (1 if printed or repeated else 0)} " in out, out)


def follow_sends(what, disk, calls):
    """Follows the calls of a run with a refused sync: what it wrote must be synced when it sends."""
    try:
        for call in calls:
            disk.follow(call, ("sends",))
    except Failed as why:
        raise Failed(f"{what}: {why}") from why


# Ledgers.


def create_words(ledger):
    return ["create", "--ledger", ledger, "--interval", "30", "--limit", "1000"]


def audit(ledger):
    return run("audit", "--ledger", ledger)[1].strip()


def try_create(room):
    """A new ledger: its file, its log and their names are synced before the line."""
    ledger = folder_of(room, "create") / "ledger"
    disk = Disk(ledger.parent)
    made = run_traced([PROGRAM, *create_words(str(ledger))], ALL)
    holds("create", (made.status, made.out) == (0, "created\n"), made.out, made.err)
    check_order("create", disk, made.calls, 2)

    def refused(at, refusal):
        ledger = folder_of(room, f"create-{at}") / "ledger"
        found = run_traced([PROGRAM, *create_words(str(ledger))], ALL, [refusal])
        holds(f"create with {refusal}", (found.status, found.out) == (3, "ledger store\n"), found.status, found.out)
        holds(f"create after {refusal}", audit(ledger) in ("ledger ok 0", "ledger not-a-ledger"), audit(ledger))

    refuse_each("create", made.calls, refused)


def draw(number):
    return f"5331010200000007{number:08x}52414742"


def served(ledger, refusals=()):
    """Serves a ledger under strace, and asks it one request after another. Returns the replies and the run."""
    until = Path(f"{ledger}-until")
    words = ["serve", "--ledger", str(ledger), "--bind", "127.0.0.1:0", "--until", str(until), "--day", str(DAY)]
    server = Tracing([PROGRAM, *words], ALL, refusals)
    address = next((it.split()[-1] for it in server.process.stderr if it.startswith("serving on ")), None)
    replies = {}
    if address:
        host, port = address.rsplit(":", 1)
        with socket.socket(socket.AF_INET, socket.SOCK_DGRAM) as link:
            link.connect((host, int(port)))
            link.settimeout(0.5 if refusals else PATIENCE)
            asked = (GRANT, draw(1), draw(2))
            for datagram in asked:
                try:
                    link.send(bytes.fromhex(datagram))
                    reply = link.recv(2048).hex()
                except (socket.timeout, ConnectionRefusedError):
                    continue
                # A late reply is that of an earlier request: it repeats its customer and number.
                replies[next(it for it in asked if it[8:24] == reply[8:24])] = reply
    until.touch()
    return replies, server.end(PATIENCE)


def try_serve(room):
    """A server: each call is in the log, and the log is synced, before its reply is sent; also what a killed server left."""
    ledger = folder_of(room, "serve") / "ledger"
    holds("create", run(*create_words(str(ledger))) == (0, "created\n"))
    disk = Disk(ledger.parent, is_served=True)
    owed, traced = served(ledger)
    holds("serve", traced.status == 0 and len(owed) == 3, traced.status, traced.out, traced.err)
    check_order("serve", disk, traced.calls, 5)

    def refused(at, refusal):
        ledger = folder_of(room, f"serve-{at}") / "ledger"
        holds("create", run(*create_words(str(ledger))) == (0, "created\n"))
        disk = Disk(ledger.parent, is_served=True)
        replies, found = served(ledger, [refusal])
        follow_sends(f"serve with {refusal}", disk, found.calls)
        are_right = all(owed[it] == reply for it, reply in replies.items())
        holds(f"serve with {refusal}: the replies", are_right, replies)
        holds(f"serve with {refusal}: the end", found.status in (0, 3), found.status, found.out)
        line = audit(ledger)
        many = int(line.removeprefix("ledger ok ")) if re.fullmatch(r"ledger ok \d", line) else -1
        kept = list(owed)[:max(many, 0)]
        holds(f"serve with {refusal}: a call is lost", many >= 0 and set(replies) <= set(kept), line, replies)
        again, after = served_again(ledger)
        holds(f"serve after {refusal}", again == owed and audit(ledger) == "ledger ok 3", again, after)

    refuse_each("serve", traced.calls, refused)


def served_again(ledger):
    """Serves a ledger without refusals."""
    Path(f"{ledger}-until").unlink(missing_ok=True)
    return served(ledger)


def try_killed(room):
    """A server over the files that a killed one left: they are synced before it replies."""
    folder = folder_of(room, "killed")
    ledger = folder / "ledger"
    server = Server(folder)
    server.stop()
    disk = Disk(folder, "written", are_names_left=True, is_served=True)
    words = ["serve", "--ledger", str(ledger), "--bind", "127.0.0.1:0", "--count", "1", "--day", str(DAY)]
    after = Tracing([PROGRAM, *words], ALL)
    host, port = next(it.split()[-1] for it in after.process.stderr if it.startswith("serving on ")).rsplit(":", 1)
    with socket.socket(socket.AF_INET, socket.SOCK_DGRAM) as link:
        link.sendto(bytes.fromhex(draw(1)), (host, int(port)))
        traced = after.end(PATIENCE)
    check_order("serve after a kill", disk, traced.calls, 3)


def try_copy(room, server):
    """A copy: both files and their names are synced before the line. A refused one leaves nothing of a name."""
    calls = len(server.numbers()) + 1

    def copied(name, refusals=()):
        folder = folder_of(room, name)
        disk = Disk(folder)
        found = run_traced([PROGRAM, "copy", "--ledger", server.ledger, "--to", str(folder / "backup")], ALL, refusals)
        return folder, disk, found

    folder, disk, made = copied("copy")
    holds("copy", (made.status, made.out) == (0, f"copied {calls}\n"), made.out, made.err)
    check_order("copy", disk, made.calls, 3)
    holds("the copy", audit(folder / "backup") == f"ledger ok {calls}")

    def refused(at, refusal):
        folder, _, found = copied(f"copy-{at}", [refusal])
        holds(f"copy with {refusal}", (found.status, found.out) == (3, "ledger store\n"), found.status, found.out)
        holds(f"copy with {refusal} left files", not os.listdir(folder), os.listdir(folder))

    refuse_each("copy", made.calls, refused)


def main():
    why = why_not()
    if why:
        print(f"skipped: {why}")
        return 0
    numbers = count(1000, 100)
    with tempfile.TemporaryDirectory() as room:
        try:
            try_notes(room)
            try_create(room)
            try_serve(room)
            try_killed(room)
            server = Server(folder_of(room, "served"))
            try:
                try_draws(room, server, numbers)
                try_copy(room, server)
            finally:
                server.stop()
        except (Failed, subprocess.TimeoutExpired) as why:
            print(f"failed: {why}")
            return 1
    return 0


if __name__ == "__main__":
    sys.exit(main())
