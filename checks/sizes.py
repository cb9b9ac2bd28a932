#!/usr/bin/env python3
"""Compares the sizes of ledgers with the table of docs/OPERATING.md: one Grant and otherwise Draws.

  python3 checks/sizes.py [PROGRAM [CALLS]]      the rows of up to CALLS calls, by default 100,001

The ledgers are in a new folder of TMPDIR (or /tmp). A folder in memory, such as /dev/shm, makes it much faster.
"""

import re
import subprocess
import sys
import tempfile
from pathlib import Path

from serving import HERE, PROGRAM, ask, draw, link_to, serving

ROW = re.compile(r"^\| ([\d,]+) \| ([\d.]+) MB \|", re.MULTILINE)


def rows(most):
    """Returns the rows of the table: the number of calls, and the size of the file as the page shows it."""
    page = (HERE / "../docs/OPERATING.md").read_text(encoding="utf-8")
    found = [(int(calls.replace(",", "")), shown) for calls, shown in ROW.findall(page)]
    return [row for row in found if row[0] <= most]


def size_of(calls, ledger):
    """Returns the size of a new ledger of that many calls, in bytes. A report moves the last of them from its log into it."""
    with serving(ledger) as address, link_to(address) as link:
        for number in range(1, calls):
            ask(link, draw(number))
    report = subprocess.run([PROGRAM, "report", "--ledger", ledger, "--day", "20000"], capture_output=True, text=True, check=True)
    assert report.stdout.split()[-3] == str(calls - 1), report.stdout
    return Path(ledger).stat().st_size


def main():
    wrong = 0
    found = rows(int(sys.argv[2]) if len(sys.argv) > 2 else 100001)
    assert found, "the page has no row"
    for calls, shown in found:
        with tempfile.TemporaryDirectory() as room:
            came = size_of(calls, f"{room}/ledger")
        digits = len(shown.partition(".")[2])
        is_right = f"{came / 1e6:.{digits}f}" == shown
        wrong += not is_right
        print(f"{calls} calls: {came} bytes, the page shows {shown} MB{'' if is_right else ': wrong'}")
    return 1 if wrong else 0


if __name__ == "__main__":
    sys.exit(main())
