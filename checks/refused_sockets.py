#!/usr/bin/env python3
"""Refuses the program calls of its socket, by strace: a receive that is interrupted or fails, a setting of the wait, a send that
fails or is cut short, and each call by which a socket is bound.

A server must print the line of each such turn, and go on: a request whose reply could not be sent gets that reply when it comes
again. A client must print its line, with the reason of the system on standard error, and ask again after an interruption.

    python3 checks/refused_sockets.py [PROGRAM]
"""

import socket
import subprocess
import sys
import tempfile
from pathlib import Path

from tracing import Tracing, run_traced, why_not

HERE = Path(__file__).resolve().parent
PROGRAM = str(Path(sys.argv[1] if len(sys.argv) > 1 else HERE / "../crates/s10/out/s10").resolve())
PATIENCE = 60  # seconds
CALLS = ("socket", "bind", "getsockname", "setsockopt", "ioctl", "fcntl", "recvfrom", "sendto", "recvmsg", "sendmsg")
GRANT = "53310101000000000000000100000007524147420000000000000002"
GRANTED = "533101810000000000000001000000075241474200000000000000020000000001"
ASKED = ["draw", "--customer", "7", "--number", "1", "--service", "RA", "--country", "GB"]
DRAWN = "reply draw customer 7 number 1 RA GB done day 20000 RA000000005GB\n"
# What a refusal of a call says, and the line of its turn.
INTERRUPTED, EMPTY = "recvfrom:error=EINTR:when=1", "recvfrom:error=EAGAIN:when=1"
NO_RECEIVE, NO_SEND = "recvfrom:error=ENOMEM:when=1", "sendto:error=ENOBUFS:when=1"
CUT = "sendto:retval=5:when=1"


class Failed(Exception):
    """What must not happen."""


def same(what, expected, came):
    if expected != came:
        raise Failed(f"{what}: expected {expected!r}, came {came!r}")


class Serving:
    """A server of a new ledger under strace, and a client of it."""

    def __init__(self, folder, refusals):
        ledger, self.until = f"{folder}/ledger", Path(f"{folder}/until")
        same("create", b"created\n", subprocess.run([PROGRAM, "create", "--ledger", ledger, "--interval", "30", "--limit", "1000"],
                                                    capture_output=True, check=False).stdout)
        words = [PROGRAM, "serve", "--ledger", ledger, "--bind", "127.0.0.1:0", "--until", str(self.until), "--day", "20000"]
        self.server = Tracing(words, CALLS, refusals)
        self.told = [self.server.process.stderr.readline() for _ in range(3)]
        self.address = self.told[1].split()[-1]
        host, port = self.address.rsplit(":", 1)
        self.link = socket.socket(socket.AF_INET, socket.SOCK_DGRAM)
        self.link.connect((host, int(port)))

    def ask(self, wait):
        """Sends the grant. Returns the reply, or None if none comes in so many seconds."""
        self.link.settimeout(wait)
        self.link.send(bytes.fromhex(GRANT))
        try:
            return self.link.recv(2048).hex()
        except socket.timeout:
            return None

    def end(self):
        """Ends the server. Returns its run, and its turns in which something happened."""
        self.until.touch()
        self.link.close()
        run = self.server.end(PATIENCE)
        same("the end of the server", (0, ""), (run.status, run.err))
        return run, [it for it in run.out.splitlines() if it != "quiet"]


def refused_wait(calls):
    """Returns the refusals of each setting of whether a receive waits, by the calls of a run: the name of the call, and how often."""
    name = "ioctl" if any(it.name == "ioctl" and "FIONBIO" in it.words for it in calls) else "fcntl"
    wanted = "FIONBIO" if name == "ioctl" else "F_SETFL"
    made = [it for it in calls if it.name == name]
    found = [at for at, it in enumerate(made, 1) if wanted in it.words]
    if not found:
        raise Failed(f"no setting of the wait: {calls}")
    return [f"{name}:error=EINVAL:when={at}" for at in found]


def try_server(folder):
    """The turns of a server whose calls are refused."""
    plain = Serving(folder, [])
    same("a reply", GRANTED, plain.ask(PATIENCE))
    run, turns = plain.end()
    same("the turns", [f"replied {GRANTED}"], turns)
    # The first setting is that of a batch: what comes after its first datagram is not waited for.
    cases = [(INTERRUPTED, []), (EMPTY, []), (NO_RECEIVE, ["link receive"]), (NO_SEND, ["link send"]), (CUT, ["link send"]),
             (refused_wait(run.calls)[0], ["link receive"])]
    for at, (refusal, expected) in enumerate(cases):
        (folder / str(at)).mkdir()
        server = Serving(folder / str(at), [refusal])
        is_withheld = expected == ["link send"]
        same(f"a reply with {refusal}", None if is_withheld else GRANTED, server.ask(2 if is_withheld else PATIENCE))
        if is_withheld:
            same(f"a reply after {refusal}", GRANTED, server.ask(PATIENCE))
        run, turns = server.end()
        same(f"the refusals of {refusal}", True, count_refused(run, refusal) >= 1)
        same(f"the turns with {refusal}", sorted([*expected, f"replied {GRANTED}"]), sorted(turns))
    print(f"a server: {len(cases)} refusals, each with its turn; then the reply", flush=True)


def count_refused(run, refusal):
    """Returns how many calls of a run failed, or were cut short, as the refusal says."""
    name, how = refusal.split(":")[:2]
    kind, value = how.split("=")
    return sum(it.name == name and (it.error == value if kind == "error" else it.result == int(value)) for it in run.calls)


def try_client(folder):
    """The lines of a client whose calls are refused, with their reasons."""
    server = Serving(folder, [])
    same("a reply", GRANTED, server.ask(PATIENCE))
    to = server.address
    cases = [(INTERRUPTED, 0, DRAWN, ""), (EMPTY, 0, DRAWN, ""),
             (NO_RECEIVE, 3, "link receive\n", f"cannot ask {to}: Cannot allocate memory (os error 12)\n"),
             (NO_SEND, 3, "link send\n", f"cannot ask {to}: No buffer space available (os error 105)\n"),
             (CUT, 3, "link send\n", ""),
             ("socket:error=EMFILE", 3, "link bind\n", "cannot bind 0.0.0.0:0: Too many open files (os error 24)\n"),
             ("bind:error=EADDRINUSE", 3, "link bind\n", "cannot bind 0.0.0.0:0: Address already in use (os error 98)\n"),
             ("setsockopt:error=EINVAL", 3, "link bind\n", ""), ("getsockname:error=ENOBUFS", 3, "link bind\n", "")]
    for refusal, status, line, words in cases:
        run = run_traced([PROGRAM, *ASKED, "--to", to, "--tries", "5"], CALLS, [refusal])
        same(f"a client with {refusal}", (status, line, words), (run.status, run.out, run.err))
        same(f"the refusals of {refusal}", True, count_refused(run, refusal) >= 1)
    _, turns = server.end()
    drawn = [it for it in turns if it.startswith("replied 53310182")]
    same("the replies to the draw", 1, len(set(drawn)))
    print(f"a client: {len(cases)} refusals, each with its line and its reason", flush=True)


def main():
    why = why_not()
    if why:
        print(f"skipped: {why}")
        return 0
    for part in (try_server, try_client):
        with tempfile.TemporaryDirectory() as folder:
            try:
                part(Path(folder))
            except (Failed, subprocess.TimeoutExpired) as why:
                print(f"failed: {part.__name__}: {why}")
                return 1
    return 0


if __name__ == "__main__":
    sys.exit(main())
