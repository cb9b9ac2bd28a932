#!/usr/bin/env python3
"""Looks into a ledger while sixty-four clients draw from it as fast as they can: each reply that came before a look began is in what
it shows.

  python3 checks/snapshots.py [PROGRAM]

A look at a pipe, a device or a folder is refused at once, and so is one at a ledger whose log cannot be read.

The looks are `report --issues --snapshot`, `audit --snapshot` and `copy`, in turn, for ten seconds; a copy is audited too. The ledger
is in a new folder of TMPDIR (or /tmp). One look in ten may end as `ledger busy`. Neither file of the ledger, nor its folder, is
changed by a look at the end.
"""

import os
import selectors
import shutil
import subprocess
import tempfile
import threading
import time
from pathlib import Path

from serving import PATIENCE, PROGRAM, Failed, done, draw, link_to, serving
from serving import audit as audit_line

CLIENTS = 64
SECONDS = 10


class Drawing(threading.Thread):
    """Draws with all clients until it is told to end. `drawn` has the identifiers of the replies that came."""

    def __init__(self, address):
        super().__init__()
        self.address = address
        self.drawn = []
        self.ends = False
        self.failure = None

    def run(self):
        try:
            self.draw()
        except Exception as failure:
            self.failure = failure

    def draw(self):
        numbers = iter(range(100_000_000))
        asked = {}
        with selectors.DefaultSelector() as ready:
            for _ in range(CLIENTS):
                link = link_to(self.address)
                ready.register(link, selectors.EVENT_READ)
                asked[link] = draw(next(numbers))
                link.send(asked[link])
            while ready.get_map():
                came = ready.select(PATIENCE)
                if not came:
                    raise Failed("no reply")
                for key, _ in came:
                    link = key.fileobj
                    # The day, four bytes, precedes the identifier.
                    self.drawn.append(done(asked[link], link.recv(2048))[4:].decode())
                    if self.ends:
                        ready.unregister(link)
                    else:
                        asked[link] = draw(next(numbers))
                        link.send(asked[link])


def look(*words):
    """Returns what a look prints, or None if the ledger is busy."""
    looked = subprocess.run([PROGRAM, *words], capture_output=True, text=True, check=False)
    if looked.stdout == "ledger busy\n":
        return None
    if looked.returncode != 0:
        raise Failed(f"{' '.join(words)}: {looked.stdout}{looked.stderr}")
    return looked.stdout


def report(ledger, drawing):
    """Looks at the issues. Returns whether the ledger was not busy."""
    before = len(drawing.drawn)
    shown = look("report", "--ledger", ledger, "--issues", "--snapshot")
    if shown is None:
        return False
    identifiers = set(shown.split())
    for identifier in drawing.drawn[:before]:
        if identifier not in identifiers:
            raise Failed(f"{identifier} was drawn before a look that does not show it")
    return True


def audit(ledger, drawing):
    """Looks at the number of calls. Returns whether the ledger was not busy."""
    before = len(drawing.drawn)
    shown = look("audit", "--ledger", ledger, "--snapshot")
    if shown is None:
        return False
    # The grant is a call too.
    if int(shown.removeprefix("ledger ok ")) < before + 1:
        raise Failed(f"{before} identifiers were drawn before {shown}")
    return True


def copy(ledger, drawing):
    """Copies the ledger, and audits and removes the copy. Returns whether the ledger was not busy."""
    before = len(drawing.drawn)
    with tempfile.TemporaryDirectory() as room:
        shown = look("copy", "--ledger", ledger, "--to", f"{room}/copy")
        if shown is None:
            return False
        copied = int(shown.removeprefix("copied "))
        if copied < before + 1:
            raise Failed(f"{before} identifiers were drawn before {shown}")
        if audit_line(f"{room}/copy") != f"ledger ok {copied}":
            raise Failed(f"{shown}, but {audit_line(f'{room}/copy')}")
    return True


def refuse_odd_files(ledger):
    """Looks at what is no file, and at a copy of a ledger's file beside a log that cannot be read."""
    with tempfile.TemporaryDirectory() as room:
        os.mkfifo(f"{room}/pipe")
        shutil.copy(ledger, f"{room}/ledger")
        Path(f"{room}/ledger-wal").mkdir()
        for odd in (f"{room}/pipe", room, "/dev/null", f"{room}/ledger"):
            for words in (["audit"], ["info"], ["report"]):
                looked = subprocess.run([PROGRAM, *words, "--ledger", odd, "--snapshot"], capture_output=True, text=True, check=False,
                                        timeout=PATIENCE)
                if (looked.returncode, looked.stdout) != (3, "ledger store\n"):
                    raise Failed(f"{words[0]} of {odd}: {looked.stdout}{looked.stderr}")
            copied = subprocess.run([PROGRAM, "copy", "--ledger", odd, "--to", f"{room}/copy"], capture_output=True, text=True,
                                    check=False, timeout=PATIENCE)
            if copied.stdout != "ledger store\n" or [it for it in os.listdir(room) if it.startswith("copy")]:
                raise Failed(f"a copy of {odd}: {copied.stdout}{copied.stderr}{os.listdir(room)}")


def files_of(folder):
    """Returns the names, the bytes and the times of the files of a folder."""
    return sorted((it.name, it.read_bytes(), it.stat().st_mtime_ns) for it in folder.iterdir())


def run(folder):
    ledger = f"{folder}/ledger"
    looks = busy = 0
    with serving(ledger) as address:
        drawing = Drawing(address)
        drawing.start()
        try:
            ends = time.monotonic() + SECONDS
            while time.monotonic() < ends and drawing.is_alive():
                for at in (report, audit, copy):
                    looks += 1
                    busy += not at(ledger, drawing)
        finally:
            drawing.ends = True
            drawing.join()
        if drawing.failure:
            raise drawing.failure
        refuse_odd_files(ledger)
        before = files_of(folder)
        report(ledger, drawing)
        audit(ledger, drawing)
        copy(ledger, drawing)
        if files_of(folder) != before:
            raise Failed("a look changed a file")
    if 10 * busy > looks:
        raise Failed(f"busy in {busy} of {looks} looks")
    print(f"{looks} looks during {len(drawing.drawn)} draws of {CLIENTS} clients, {busy} busy: each shows every reply before it")


with tempfile.TemporaryDirectory() as room:
    run(Path(room))
