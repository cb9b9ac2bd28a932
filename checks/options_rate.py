#!/usr/bin/env python3
"""Prints how many Draws a second a server on a file handles for sixty-four clients at once, without options and with --until and
--most-days-ahead, in turn, and the ratio of the medians.

  python3 checks/options_rate.py [PROGRAM]

The ledgers are in a new folder of TMPDIR (or /tmp). Both servers take the day from the clock.
"""

import statistics
import tempfile

from drawing import Client, run
from serving import serving

ROUNDS = 7
CLIENTS = 64
DRAWS = 32_000


def rate(ledger, *options):
    """Returns the Draws a second of a server with these options."""
    with serving(ledger, *options, days=()) as address:
        return run([Client(address, range(it, DRAWS, CLIENTS)) for it in range(CLIENTS)])


with tempfile.TemporaryDirectory() as room:
    plain, guarded = [], []
    for at in range(ROUNDS):
        plain.append(rate(f"{room}/plain{at}"))
        guarded.append(rate(f"{room}/guarded{at}", "--until", f"{room}/stop", "--most-days-ahead", "30"))
    without, given = statistics.median(plain), statistics.median(guarded)
    print(f"without options: {without:.0f} a second ({min(plain):.0f} to {max(plain):.0f})")
    print(f"with --until and --most-days-ahead: {given:.0f} a second ({min(guarded):.0f} to {max(guarded):.0f})")
    print(f"{given / without:.3f} times as many")
