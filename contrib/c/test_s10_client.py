"""Tests of a client with notes against the real server: killed at random moments, under loss.

    S10=/path/to/s10 python3 test_s10_client.py S10_DRAW [KILLS]

S10_DRAW is the program built from s10_draw.c, or one of contrib/bindings with the same words and
lines. It draws through a proxy that loses, repeats, delays and reorders datagrams, and is killed
with SIGKILL KILLS times, by default 1000.
"""

import os
import random
import signal
import statistics
import subprocess
import sys
import tempfile
import time
from pathlib import Path

sys.path.insert(0, str(Path(__file__).resolve().parent.parent / "python"))
from s10client import Client                      # noqa: E402
from test_s10client import DAY, Networks, Server, run_and_kill, s10  # noqa: E402

DRAW = os.path.abspath(sys.argv[1])
KILLS = int(sys.argv[2]) if len(sys.argv) > 2 else 1000
WAIT = 20                                       # milliseconds
SERVICES = ("RA", "RB")


class Log:
    """What the runs of the client printed: an identifier for each number."""

    def __init__(self):
        self.drawn = {}
        self.repeated = 0

    def add(self, output):
        """Adds the whole lines of a run. A number that comes again has the same identifier."""
        for line in output[:output.rfind("\n") + 1].splitlines():
            number, word, day, identifier = line.split()
            assert word == "day" and int(day) == DAY, line
            self.repeated += int(number) in self.drawn
            assert self.drawn.setdefault(int(number), identifier) == identifier, line


def words_of(notes, address, count, wait=WAIT, service="RA"):
    """Returns the words of a run of the client."""
    return [DRAW, notes, address[0], str(address[1]), service, "GB", str(count), str(wait)]


def run(notes, address, count, kill_after=None, **more):
    """Runs the client, kills it after some seconds, and returns what it printed and its status."""
    return run_and_kill(words_of(notes, address, count, **more), kill_after)


def check_failing_output(notes, address):
    """Runs the client with an output that cannot be written. It draws once at most, and the next run prints that."""
    for output in (">/dev/full", ">&-"):
        words = ["sh", "-c", f'exec "$@" {output}', "sh", *words_of(notes, address, 2)]
        status = subprocess.run(words, stderr=subprocess.DEVNULL, check=False).returncode
        assert status == 3, (output, status)
    assert not os.path.getsize(notes + ".lock"), "a line is in the lock"


def check_refusal(folder, address):
    """Draws by a customer without a range. The line has the word of the refusal, and the next run does not repeat it."""
    notes = os.path.join(folder, "refused")
    assert subprocess.run([DRAW, "create", notes, "8", "1", "9"], check=False).returncode == 0
    for number in (1, 2):
        assert run(notes, address, 1, wait=5000) == (f"{number} refused no-range\n", 1), number


def measure(notes, address, log):
    """Returns the median time of a run that draws once, in seconds. A language may take long to start."""
    times = []
    for _ in range(5):
        start = time.monotonic()
        output, status = run(notes, address, 1, wait=5000)
        times.append(time.monotonic() - start)
        assert status == 0 and output.count("\n") >= 1, (output, status)
        log.add(output)
    return statistics.median(times)


def main():
    choose = random.Random(1)
    with tempfile.TemporaryDirectory() as folder:
        server = Server(folder)
        networks = Networks(server.address, lost=0.15, repeated=0.2, late=0.2)
        to = "{}:{}".format(*server.address)
        for at, service in enumerate(SERVICES, 1):
            granted = s10("grant", "--to", to, "--number", at, "--holder", 7, "--service", service,
                          "--country", "GB", "--first", 0, "--last", 99999)
            assert granted.endswith(f" done range {at}\n"), granted
        notes = os.path.join(folder, "notes")
        create = [DRAW, "create", notes, "7", "1", "1000000"]
        assert subprocess.run(create, check=False).returncode == 0
        assert subprocess.run(create, stderr=subprocess.DEVNULL, check=False).returncode == 3
        check_failing_output(notes, server.address)
        check_refusal(folder, server.address)
        log, killed = Log(), 0
        span = measure(notes, server.address, log)
        while killed < KILLS:
            # A number that is used for two services is refused.
            output, status = run(notes, networks.address(), 1000000, choose.uniform(0.7 * span, 1.5 * span + 0.15),
                                 service=choose.choice(SERVICES))
            log.add(output)
            killed += status == -signal.SIGKILL
            assert status in (-signal.SIGKILL, 3), status       # 3: it gave up before the kill
        while (last := run(notes, server.address, 1))[1] == 3:
            log.add(last[0])
        log.add(last[0])
        networks.stop()

        # The client in Python continues with the same notes, and this one after it.
        number = max(log.drawn)
        with Client.open(notes, server.address) as client:
            assert not client.is_open, "a clean end left a request"
            log.drawn[number + 1] = client.draw("RA", "GB").identifier
        output, status = run(notes, server.address, 1, wait=5000)
        log.add(output)
        assert status == 0 and len(log.drawn) == number + 2 and output.count("\n") == 1, output

        server.stop()
        assert sorted(log.drawn) == list(range(1, len(log.drawn) + 1)), "a number is missing"
        assert len(set(log.drawn.values())) == len(log.drawn), "an identifier is on two draws"
        assert networks.counts["passed"] > KILLS, "nearly every run was killed before it drew"
        drawn = sorted((7, number, identifier) for number, identifier in log.drawn.items())
        assert sorted(server.issues()) == drawn, "the report has others"
        audit = s10("audit", "--ledger", server.ledger)
        assert audit.startswith("ledger ok "), audit
        print(f"{len(log.drawn)} draws in {killed} runs that were killed; "
              f"{log.repeated} lines repeated; datagrams {dict(networks.counts)}; {audit}", end="")


main()
