#!/usr/bin/env python3
"""Prints how many identifiers a second one server on a file issues to one client that waits for each reply: by single Draws, and
by sheets of sixteen.

  python3 checks/rates.py [PROGRAM]

The ledger is in a new folder of TMPDIR (or /tmp). Set TMPDIR to a folder of the disk to be measured.
"""

import tempfile
import time

from serving import ask, audit, draw, link_to, request, serving

REQUESTS = 4000


def rate(link, requests):
    """Sends the requests one after another. Returns how many were replied to in a second."""
    began = time.monotonic()
    for datagram in requests:
        ask(link, datagram)
    return len(requests) / (time.monotonic() - began)


def measure(ledger):
    """Prints both rates, and what an audit of the ledger prints."""
    with serving(ledger) as address, link_to(address) as link:
        draws = rate(link, [draw(it) for it in range(REQUESTS)])
        sheets = rate(link, [request(2, 5, 7, REQUESTS + it, b"RAGB\x10") for it in range(REQUESTS)])
    print(f"{REQUESTS} Draws, one after another: {draws:.0f} identifiers a second")
    print(f"{REQUESTS} sheets of sixteen: {sheets:.0f} sheets and {16 * sheets:.0f} identifiers a second")
    print(audit(ledger))


with tempfile.TemporaryDirectory() as room:
    measure(f"{room}/ledger")
