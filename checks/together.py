#!/usr/bin/env python3
"""Prints how many Draws a second one server on a file handles, and how long clients wait: for one client that waits for each reply,
with a disk sync for each, and for sixty-four clients at once, which share a sync.

  python3 checks/together.py [PROGRAM]

The ledger is in a new folder of TMPDIR (or /tmp). Set TMPDIR to a folder of the disk to be measured. Each identifier must be issued
once, and the audit must find every call.
"""

import tempfile

from drawing import Client, run
from serving import Failed, audit, serving

ALONE = 4000
CLIENTS = 64
TOGETHER = 64_000


def tell(words, rate, clients):
    """Prints a rate and the waits of its clients."""
    waits = sorted(wait for client in clients for wait in client.waits)
    middle, late, last = (1000 * waits[int(part * (len(waits) - 1))] for part in (0.5, 0.99, 1))
    print(f"{words}: {rate:.0f} a second; a reply after {middle:.2f} ms, 99 of 100 within {late:.2f} ms, all within {last:.2f} ms")


def measure(ledger):
    """Prints both rates, and what an audit of the ledger prints."""
    with serving(ledger) as address:
        one = [Client(address, range(ALONE))]
        alone = run(one)
        many = [Client(address, range(ALONE + it, ALONE + TOGETHER, CLIENTS)) for it in range(CLIENTS)]
        together = run(many)
    tell(f"{ALONE} Draws of one client", alone, one)
    tell(f"{TOGETHER} Draws of {CLIENTS} clients at once", together, many)
    print(f"{together / alone:.1f} times as many; with a sync for each the last of {CLIENTS} would wait {1000 * CLIENTS / alone:.2f} ms")
    drawn = [it for client in one + many for it in client.drawn]
    if len(set(drawn)) != len(drawn):
        raise Failed("one identifier on two draws")
    found = audit(ledger)
    if found != f"ledger ok {len(drawn) + 1}":
        raise Failed(found)
    print(found)


with tempfile.TemporaryDirectory() as room:
    measure(f"{room}/ledger")
