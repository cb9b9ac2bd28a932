#!/usr/bin/env python3
"""Runs each command with its standard streams closed: each one alone, two of them, and all. A file or a socket would get the number
of a closed stream, if the program did not hold it, and what it prints would go there.

Of a running server, the numbers of the closed streams must be a folder that nothing can be written to, and its files and its socket
must have other numbers. Every command must end with the status that it has with open streams, or with 3 if it cannot print its
line. A wrong command line must have status 2. The files must afterwards be, to the byte, those of commands with open streams.

    python3 checks/closed_streams.py [PROGRAM]
"""

import contextlib
import os
import subprocess
import sys
import tempfile
from itertools import combinations
from pathlib import Path

from edges import PATIENCE, PROGRAM, WRONG, Failed, same, wait_for_sockets

CLOSE = {0: "<&-", 1: ">&-", 2: "2>&-"}
DAY = "20000"


def shell(closed, words):
    """Returns the words that run the program with these streams closed."""
    return ["sh", "-c", f'exec "$@" {" ".join(CLOSE[it] for it in closed)}', "sh", PROGRAM, *words]


def run(closed, *words):
    """Runs the program with these streams closed. Returns its status and its two outputs."""
    done = subprocess.run(shell(closed, words), stdin=subprocess.DEVNULL, capture_output=True, text=True, check=False, timeout=PATIENCE)
    return done.returncode, done.stdout, done.stderr


def tries(closed, status, line, words, *command):
    """Runs a command, and compares its status and its outputs, as far as they are open."""
    if 1 in closed:
        status, line = 3, ""
        words += "error: the output cannot be written: Bad file descriptor (os error 9)\n"
    same(f"{command[0]} with {closed} closed", (status, line, "" if 2 in closed else words), run(closed, *command))


def files_of(process, room):
    """Returns where the numbers of a process lead, and which of them lead into the folder."""
    numbers = {}
    for it in Path(f"/proc/{process}/fd").iterdir():
        with contextlib.suppress(FileNotFoundError):  # A file that was closed meanwhile.
            numbers[int(it.name)] = os.readlink(it)
    return numbers, sorted(number for number, path in numbers.items() if path.startswith(room) or path.startswith("socket:"))


def start(room, closed, *more):
    """Starts a server with these streams closed, over the ledger of a folder."""
    words = ["serve", "--ledger", f"{room}/ledger", "--bind", "127.0.0.1:0", "--day", DAY, *more]
    return subprocess.Popen(shell(closed, words), stdin=subprocess.DEVNULL, stdout=subprocess.PIPE, stderr=subprocess.PIPE, text=True)


def try_numbers(room, closed):
    """Looks at the numbers of a server during its turns. If its output is closed, it ends once a turn cannot be printed."""
    with start(room, closed, "--count", "3") as server:
        try:
            wait_for_sockets(server.pid)
            numbers, own = files_of(server.pid, room)
        finally:
            out, _ = server.communicate(timeout=PATIENCE)
    same(f"{closed} closed: where their numbers lead", ["/"] * len(closed), [numbers.get(it) for it in closed])
    same(f"{closed} closed: the files and the socket", (3, True), (len(own), own[0] > 2))
    same(f"{closed} closed: the end", (3, "") if 1 in closed else (0, "quiet\n" * 3), (server.returncode, out))


@contextlib.contextmanager
def serving(room, closed):
    """Yields the address of a server with these streams closed."""
    until = f"{room}/until"
    with start(room, closed, "--until", until) as server:
        try:
            address = ":".join(map(str, wait_for_sockets(server.pid)[0]))
            yield address
            Path(until).touch()
            out, err = server.communicate(timeout=PATIENCE)
        except BaseException:
            server.kill()
            raise
    same(f"{closed} closed: how the server ended", 0, server.returncode)
    said = [] if 2 in closed else [f"opening {room}/ledger", f"serving on {address}", f"calls 0 of 1000, last day 0, today {DAY}"]
    same(f"{closed} closed: what the server said", said, err.splitlines())
    same(f"{closed} closed: its turns", {"quiet", "replied"}, {it.split()[0] for it in [*out.splitlines(), "quiet"]})
    os.remove(until)


def ask(closed, address, room):
    """Makes a grant, a draw, and a draw with notes, with these streams closed."""
    to = ["--to", address]
    item, reply = ["--service", "RA", "--country", "GB"], f"RA GB done day {DAY} RA0000000"
    grant = ["--number", "1", "--holder", "7", *item, "--first", "0", "--last", "2"]
    tries(closed, 0, "reply grant customer 0 number 1 holder 7 RA GB 00000000 00000002 done range 1\n", "", "grant", *to, *grant)
    tries(closed, 0, f"reply draw customer 7 number 1 {reply}05GB\n", "", "draw", *to, "--customer", "7", "--number", "1", *item)
    notes = f"{room}/notes"
    tries(closed, 0, "created\n", "", "notes", "--file", notes, "--customer", "7", "--first", "2", "--last", "9")
    tries(closed, 0, f"reply draw customer 7 number 2 {reply}14GB\n", "", "draw", *to, "--notes", notes, *item)
    is_open = b"null" not in Path(notes).read_bytes()
    same(f"{closed} closed: whether the request is open", 1 in closed, is_open)
    if is_open:
        same("again", (0, f"reply draw customer 7 number 2 {reply}14GB\n", ""), run((), "again", *to, "--notes", notes))


def look(closed, room):
    """Looks at the ledger, and copies it, with these streams closed."""
    ledger = ["--ledger", f"{room}/ledger"]
    ranges = "range customer service country first last used voided free\n1 7 RA GB 00000000 00000002 2 0 1\n"
    tries(closed, 0, "ledger ok 3\n", "", "audit", *ledger)
    tries(closed, 0, ranges, "", "report", *ledger, "--day", DAY)
    tries(closed, 0, ranges, "", "report", *ledger, "--day", DAY, "--snapshot")
    tries(closed, 0, "copied 3\n", "", "copy", *ledger, "--to", f"{room}/copy")
    same("the audit of the copy", (0, "ledger ok 3\n", ""), run((), "audit", "--ledger", f"{room}/copy"))


def try_closed(room, closed):
    """Does a day's work with these streams closed. Returns the bytes of each file."""
    tries(closed, 0, "created\n", "", "create", "--ledger", f"{room}/ledger", "--interval", "30", "--limit", "1000")
    try_numbers(room, closed)
    same("the audit", (0, "ledger ok 0\n", ""), run((), "audit", "--ledger", f"{room}/ledger"))
    with serving(room, tuple(it for it in closed if it != 1)) as address:
        ask(closed, address, room)
    look(closed, room)
    return {it.name: it.read_bytes() for it in Path(room).iterdir()}


def try_words(closed):
    """Wrong command lines."""
    for words in WRONG:
        status, out, _ = run(closed, *words)
        same(f"s10 {' '.join(words)} with {closed} closed", (2, ""), (status, out))
    print(f"{closed} closed: {len(WRONG)} wrong command lines: status 2")


def contents(found):
    """Returns the bytes of each file, without the header of a log, which is drawn."""
    return {name: text[32:] if name.endswith("-wal") else text for name, text in found.items()}


def main():
    if not Path("/proc/self/fd").exists():
        print("skipped: /proc")
        return 0
    expected = None
    for count in range(4):
        for closed in combinations(CLOSE, count):
            with tempfile.TemporaryDirectory() as room:
                try:
                    found = try_closed(room, closed)
                    expected = expected or found
                    same("the files", sorted(expected), sorted(found))
                    for name, text in contents(expected).items():
                        same(f"{name}, with {closed} closed", text, contents(found)[name])
                    try_words(closed)
                except (Failed, subprocess.TimeoutExpired) as why:
                    print(f"failed: {str(why)[:2000]}")
                    return 1
            print(f"{closed or 'no stream'} closed: each command ended as is written, and left the same files", flush=True)
    return 0


if __name__ == "__main__":
    sys.exit(main())
