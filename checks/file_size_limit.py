#!/usr/bin/env python3
"""Runs the program under a limit of the size of files (`ulimit -f`). At the first byte past it the system ends the program by
SIGXFSZ, or, where that signal is ignored, fails its write.

Both ways are tried at many limits, of `create`, `serve`, `copy`, `notes` and `draw` with notes. A program that was not ended must
print the line of a failure. Afterwards a ledger must have every call that got a reply, a copy must be whole or not be there,
and notes must be whole and give no number twice.

    python3 checks/file_size_limit.py [PROGRAM]
"""

import os
import re
import resource
import signal
import socket
import subprocess
import sys
import tempfile
from pathlib import Path

HERE = Path(__file__).resolve().parent
PROGRAM = str(Path(sys.argv[1] if len(sys.argv) > 1 else HERE / "../crates/s10/out/s10").resolve())
PATIENCE = 60  # seconds
KILLED = -signal.SIGXFSZ
GRANT = "53310101000000000000000100000007524147420000000000000fff"
DAY = "20000"


class Failed(Exception):
    """What must not happen."""


def holds(what, is_so, *more):
    if not is_so:
        raise Failed(": ".join([what, *map(str, more)]))


def limited(limit, is_ignored):
    """Returns what sets a limit in bytes before the program starts."""

    def limit_sizes():
        signal.signal(signal.SIGXFSZ, signal.SIG_IGN if is_ignored else signal.SIG_DFL)
        if limit is not None:
            resource.setrlimit(resource.RLIMIT_FSIZE, (limit, limit))

    return limit_sizes


def run(*words, limit=None, is_ignored=False):
    """Runs the program under a limit. Returns its status and its output."""
    done = subprocess.run([PROGRAM, *map(str, words)], stdin=subprocess.DEVNULL, capture_output=True, text=True, check=False,
                          timeout=PATIENCE, preexec_fn=limited(limit, is_ignored))
    return done.returncode, done.stdout


def audit(ledger):
    return run("audit", "--ledger", ledger)[1].strip()


def is_refused(found, line, is_ignored):
    """Whether a run ended as a limit ends it: with this line, or by the signal, if it is not ignored."""
    return found == (3, f"{line}\n") or (not is_ignored and found == (KILLED, ""))


def create_words(ledger):
    return ["create", "--ledger", ledger, "--interval", "30", "--limit", "100000"]


def try_create(room, is_ignored):
    limits = [0, 1, 31, 32, 40, 41, 4095, 4096, 8192, 20000, 32767]
    for limit in limits:
        ledger = f"{room}/created-{limit}"
        found = run(*create_words(ledger), limit=limit, is_ignored=is_ignored)
        holds(f"create under {limit}", is_refused(found, "ledger store", is_ignored), found)
        holds(f"a ledger under {limit}", audit(ledger) in ("ledger ok 0", "ledger not-a-ledger", "ledger store"), audit(ledger))
    return len(limits)


def draw(number):
    return f"5331010200000007{number:08x}52414742"


def serve(ledger, limit, is_ignored):
    """Serves a ledger under a limit, and draws until no reply comes. Returns the replies, the status or None, and the turns."""
    words = [PROGRAM, "serve", "--ledger", ledger, "--bind", "127.0.0.1:0", "--day", DAY]
    with subprocess.Popen(words, stdin=subprocess.DEVNULL, stdout=subprocess.PIPE, stderr=subprocess.PIPE, text=True,
                          preexec_fn=limited(limit, is_ignored)) as server:
        replies = {}
        address = next((it.split()[-1] for it in server.stderr if it.startswith("serving on ")), None)
        if address:
            host, port = address.rsplit(":", 1)
            with socket.socket(socket.AF_INET, socket.SOCK_DGRAM) as link:
                link.connect((host, int(port)))
                link.settimeout(2)
                for datagram in [GRANT, *map(draw, range(1, 100))]:
                    try:
                        link.send(bytes.fromhex(datagram))
                        replies[datagram] = link.recv(2048).hex()
                    except (socket.timeout, ConnectionRefusedError):
                        break
        status = server.poll()
        server.kill()
        turns = server.communicate()[0].splitlines()
    return replies, status, turns


def try_serve(room, is_ignored):
    """A server whose log reaches the limit after some draws: each that got a reply is in the ledger."""
    limits = [32768, 60000, 200000, 1000000]
    some = 0
    for limit in limits:
        ledger = f"{room}/served-{limit}"
        holds("create", run(*create_words(ledger)) == (0, "created\n"))
        replies, status, turns = serve(ledger, limit, is_ignored)
        holds(f"serve under {limit}: no end", len(replies) < 100, len(replies))
        is_told = {"uncommitted store", "faulted store", "ledger store"} & set(turns)
        holds(f"serve under {limit}: its end", is_told if is_ignored else status == KILLED, status, turns[-1:])
        found = re.fullmatch(r"ledger ok (\d+)", audit(ledger))
        holds(f"serve under {limit}: a call is lost", found and int(found[1]) >= len(replies), found, len(replies))
        after, _, _ = serve(ledger, None, False)
        holds(f"serve under {limit}: another reply", all(after.get(it) == reply for it, reply in replies.items()))
        holds(f"serve under {limit}: afterwards", len(after) == 100, len(after))
        some += len(replies)
    holds("no reply came under any limit", some)
    return len(limits)


def try_copy(room, is_ignored):
    """A copy of a ledger whose calls are in its file and in its log."""
    ledger = f"{room}/source"
    holds("create", run(*create_words(ledger)) == (0, "created\n"))
    replies, _, _ = serve(ledger, None, False)
    sizes = [os.path.getsize(ledger), os.path.getsize(f"{ledger}-wal")]
    limits = sorted({0, 1, 4096, *(it - 1 for it in sizes), sizes[1] - 5000, sizes[1] // 2})
    for limit in limits:
        copy = f"{room}/copy-{limit}"
        found = run("copy", "--ledger", ledger, "--to", copy, limit=limit, is_ignored=is_ignored)
        holds(f"copy under {limit}", is_refused(found, "ledger store", is_ignored), found)
        line = audit(copy) if os.path.exists(copy) else None
        whole = f"ledger ok {len(replies)}"
        holds(f"copy under {limit}: a smaller ledger", line in (None, "ledger store", "ledger not-a-ledger", whole), line)
        holds(f"copy under {limit}: the ledger", audit(ledger) == f"ledger ok {len(replies)}")
    return len(limits)


def try_notes(room, is_ignored):
    """New notes, and a draw with notes."""
    limits = [0, 1, 54]
    silent = socket.socket(socket.AF_INET, socket.SOCK_DGRAM)
    silent.bind(("127.0.0.1", 0))
    silent.setblocking(False)
    to = "{}:{}".format(*silent.getsockname())
    for limit in limits:
        path = Path(f"{room}/notes-{limit}")
        words = ["notes", "--file", path, "--customer", 7, "--first", 1, "--last", 9]
        found = run(*words, limit=limit, is_ignored=is_ignored)
        holds(f"notes under {limit}", is_refused(found, "notes store", is_ignored) and not path.exists(), found)
        holds("notes", run(*words) == (0, "created\n"))
        before = path.read_bytes()
        words = ["draw", "--to", to, "--notes", path, "--service", "RA", "--country", "GB", "--tries", 1]
        found = run(*words, limit=limit, is_ignored=is_ignored)
        holds(f"draw under {limit}", is_refused(found, "notes store", is_ignored), found)
        holds(f"draw under {limit}: the notes", path.read_bytes() == before)
        try:
            raise Failed(f"draw under {limit}: sent {silent.recv(2048).hex()}")
        except BlockingIOError:
            pass
    silent.close()
    return 2 * len(limits)


def main():
    with tempfile.TemporaryDirectory() as folder:
        for is_ignored in (False, True):
            room = f"{folder}/{'ignored' if is_ignored else 'killed'}"
            os.mkdir(room)
            try:
                many = sum(part(room, is_ignored) for part in (try_create, try_notes, try_serve, try_copy))
            except (Failed, subprocess.TimeoutExpired) as why:
                print(f"failed: {'the signal is ignored: ' if is_ignored else ''}{why}")
                return 1
            how = "the signal is ignored" if is_ignored else "ended by the signal"
            print(f"{many} runs under a limit, {how}: every file is right", flush=True)
    return 0


if __name__ == "__main__":
    sys.exit(main())
