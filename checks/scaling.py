#!/usr/bin/env python3
"""Measures ledgers of many calls, one Grant and otherwise Draws: the file, the opening and the memory.

  python3 checks/scaling.py [PROGRAM [CALLS..]]      by default 100,001, 1,000,001 and 10,000,001 calls

A ledger is written with SQLite's own library, in a new folder of TMPDIR (or /tmp); ten million calls take 1.2 GB and some minutes. Then:

- `create` is refused by it: the store opens the file, checks it and does nothing else;
- `audit` opens it, executes all calls again and compares all rows;
- `serve` opens it and issues 1,000 identifiers.

Each row has the size of the file, the seconds and the greatest memory of each, and the memory of the server in use. Memory is what the
system counts as resident.
"""

import os
import sqlite3
import struct
import subprocess
import sys
import tempfile
import time
from pathlib import Path

from serving import PROGRAM, ask, draw, link_to, request

WEIGHTS = (8, 6, 4, 2, 3, 5, 9, 7)
DAY = 20000
PAIR = int.from_bytes(b"RAGB", "big")
SERIALS = 100_000_000


def identifier(serial):
    """Returns the identifier RA .. GB of a serial, by UPU S10."""
    digits = f"{serial:08}"
    check = 11 - sum(int(digit) * weight for digit, weight in zip(digits, WEIGHTS)) % 11
    return f"RA{digits}{0 if check == 10 else 5 if check == 11 else check}GB".encode()


def grant_row():
    """Returns the row of the first call: customer 7 is granted all serials of RA GB."""
    asked = request(1, 0x81, 0, 1, struct.pack(">I4sII", 7, b"RAGB", 0, SERIALS - 1))
    return 1, 0, 1, DAY, asked + b"\0" + struct.pack(">I", 1)


def draw_row(number):
    """Returns the row of customer 7's Draw of that number, which is the call after it."""
    return number + 1, 7, number, DAY, request(1, 0x82, 7, number, b"RAGB") + b"\0" + struct.pack(">I", DAY) + identifier(number - 1)


def fill(ledger, calls):
    """Writes that many calls, with all their rows, into a new ledger."""
    subprocess.run([PROGRAM, "create", "--ledger", ledger, "--interval", "30", "--limit", "100000000"], check=True, stdout=subprocess.DEVNULL)
    with sqlite3.connect(ledger) as database:
        database.execute("PRAGMA synchronous = OFF")
        database.execute("INSERT INTO calls VALUES (?, ?, ?, ?, ?)", grant_row())
        database.executemany("INSERT INTO calls VALUES (?, ?, ?, ?, ?)", (draw_row(number) for number in range(1, calls)))
        database.execute("INSERT INTO ranges VALUES (1, 7, ?, 0, ?, ?)", (PAIR, SERIALS - 1, calls - 1))
        rows = ((PAIR, number - 1, number + 1, DAY, 7, number, 0) for number in range(1, calls))
        database.executemany("INSERT INTO serials VALUES (?, ?, ?, ?, ?, ?, ?)", rows)
    database.execute("PRAGMA wal_checkpoint(TRUNCATE)")
    database.close()


def run(*words):
    """Runs the program. Returns what it printed, its seconds and its greatest memory in MB."""
    began = time.monotonic()
    with subprocess.Popen([PROGRAM, *words], stdout=subprocess.PIPE, stderr=subprocess.DEVNULL, text=True) as program:
        printed = program.stdout.read().strip()
        usage = os.wait4(program.pid, 0)[2]
        program.returncode = 0
    return printed, time.monotonic() - began, usage.ru_maxrss / 1024


def memory_of(process, word):
    """Returns a size in MB that the system counts for a process."""
    status = Path(f"/proc/{process}/status").read_text(encoding="ascii")
    return int(status.split(word + ":")[1].split()[0]) / 1024


def serve(ledger, calls):
    """Returns the seconds until the server replies, its greatest memory until then, and its memory after 1,000 Draws."""
    began = time.monotonic()
    words = [PROGRAM, "serve", "--ledger", ledger, "--bind", "127.0.0.1:0", "--count", "1000000", "--day", str(DAY)]
    with subprocess.Popen(words, stdout=subprocess.DEVNULL, stderr=subprocess.PIPE, text=True) as server:
        address = next(line.split()[-1] for line in server.stderr if line.startswith("serving on "))
        seconds = time.monotonic() - began
        greatest = memory_of(server.pid, "VmHWM")
        with link_to(address) as link:
            for number in range(calls, calls + 1000):
                assert ask(link, draw(number))[4:] == identifier(number - 1), "another identifier"
        in_use = memory_of(server.pid, "VmRSS")
        server.terminate()
    return seconds, greatest, in_use


def main():
    counts = [int(word) for word in sys.argv[2:]] or [100_001, 1_000_001, 10_000_001]
    for calls in counts:
        with tempfile.TemporaryDirectory() as room:
            ledger = f"{room}/ledger"
            fill(ledger, calls)
            refused, store_seconds, store_memory = run("create", "--ledger", ledger, "--interval", "30", "--limit", "100")
            assert refused == "ledger not-empty", refused
            audited, audit_seconds, audit_memory = run("audit", "--ledger", ledger)
            assert audited == f"ledger ok {calls}", audited
            seconds, greatest, in_use = serve(ledger, calls)
            size = Path(ledger).stat().st_size / 1e6
        print(
            f"{calls} calls, {size:.0f} MB: store {store_seconds:.2f} s {store_memory:.0f} MiB, audit {audit_seconds:.2f} s {audit_memory:.0f} MiB,"
            f" serve {seconds:.2f} s {greatest:.0f} MiB, in use {in_use:.0f} MiB;"
            f" ours {(audit_seconds - store_seconds) / calls * 1e6:.2f} us a call",
            flush=True,
        )


if __name__ == "__main__":
    main()
