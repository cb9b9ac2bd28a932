#!/usr/bin/env python3
"""Draws without end as COUNT printers of a customer, for standby.py. Every tenth request is a repeat of an earlier one.

  python3 checks/printers.py ADDRESS CUSTOMER COUNT FIRST LOG

Printer k has the numbers from FIRST + k million on. It waits ten milliseconds after a reply, and asks again after a quarter of a
second without one. LOG gets a line for each reply: the time, the number, the identifier, and `new`, `again` or, if a repeat got
another identifier than before, `other`.
"""

import contextlib
import random
import select
import sys
import time

from serving import link_to, request

AGAIN = 0.25
PAUSE = 0.01
DRAW = 2
MILLION = 1_000_000


class Printer:
    """A printer with numbers of its own and at most one request that waits for its reply."""

    def __init__(self, address, customer, first):
        self.link = link_to(address)
        self.link.setblocking(False)
        self.customer, self.next = customer, first
        self.chance = random.Random(first)
        self.had = []
        self.request, self.due = None, 0.0

    def choose(self):
        """Chooses what to ask: an earlier request again, or a new one."""
        if self.had and self.chance.random() < 0.1:
            self.number, self.known = self.chance.choice(self.had)
        else:
            self.number, self.known = self.next, None
            self.next += 1
        self.request = request(1, DRAW, self.customer, self.number, b"RAGB")

    def send(self, now):
        """Sends the request if it is time."""
        if self.due > now:
            return
        if self.request is None:
            self.choose()
        self.due = now + AGAIN
        with contextlib.suppress(OSError):
            self.link.send(self.request)

    def receive(self):
        """Returns number, identifier and kind of a reply to the request. None for anything else."""
        try:
            reply = self.link.recv(2048)
        except OSError:
            return None
        asked = self.request
        if asked is None or reply[: len(asked)] != asked[:3] + bytes([asked[3] | 0x80]) + asked[4:]:
            return None
        outcome = reply[len(asked)]
        text = reply[len(asked) + 5 :].decode("ascii") if outcome == 0 else f"outcome-{outcome}"
        kind = "new" if self.known is None else "again" if text == self.known else "other"
        if kind == "new":
            self.had.append((self.number, text))
        self.request, self.due = None, time.time() + PAUSE
        return self.number, text, kind


def main():
    address, log = sys.argv[1], sys.argv[5]
    customer, count, first = map(int, sys.argv[2:5])
    printers = {}
    poll = select.poll()
    for at in range(count):
        printer = Printer(address, customer, first + at * MILLION)
        printers[printer.link.fileno()] = printer
        poll.register(printer.link, select.POLLIN)
    with open(log, "w", encoding="ascii", buffering=1) as out:
        while True:
            now = time.time()
            for printer in printers.values():
                printer.send(now)
            for at, _ in poll.poll(10):
                reply = printers[at].receive()
                if reply is not None:
                    out.write(" ".join(map(str, (f"{time.time():.6f}", *reply))) + "\n")


if __name__ == "__main__":
    main()
