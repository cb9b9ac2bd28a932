"""One server on a new ledger with one range, for the checks that measure its replies."""

import contextlib
import socket
import struct
import subprocess
import sys
from pathlib import Path

HERE = Path(__file__).resolve().parent
PROGRAM = str(Path(sys.argv[1] if len(sys.argv) > 1 else HERE / "../crates/s10/out/s10").resolve())
# How many seconds a client waits for a reply.
PATIENCE = 60


class Failed(Exception):
    """A request that was not done, or an identifier that was issued twice."""


def request(version, kind, customer, number, rest):
    """Returns the datagram of a request."""
    return b"S1" + bytes([version, kind]) + struct.pack(">II", customer, number) + rest


def draw(number):
    """Returns the datagram of a Draw of RA GB by customer 7."""
    return request(1, 2, 7, number, b"RAGB")


def done(datagram, reply):
    """Returns the bytes after the outcome of a reply. The outcome follows the request, which the reply repeats.

    Raises Failed if the outcome is not Done."""
    if reply[len(datagram)] != 0:
        raise Failed(datagram.hex())
    return reply[len(datagram) + 1 :]


def link_to(address):
    """Returns a socket that is connected to the address."""
    host, port = address.rsplit(":", 1)
    link = socket.socket(socket.AF_INET, socket.SOCK_DGRAM)
    link.connect((host, int(port)))
    link.settimeout(PATIENCE)
    return link


def ask(link, datagram):
    """Sends a request and waits for its reply. Returns the bytes after the outcome."""
    link.send(datagram)
    return done(datagram, link.recv(2048))


@contextlib.contextmanager
def serving(ledger, *options, days=("--day", "20000")):
    """Yields the address of a server on a new ledger, in which customer 7 has a range of all serials. Its days are those of `days`, and
    it has the options."""
    subprocess.run([PROGRAM, "create", "--ledger", ledger, "--interval", "30", "--limit", "10000000"], check=True, stdout=subprocess.DEVNULL)
    words = [PROGRAM, "serve", "--ledger", ledger, "--bind", "127.0.0.1:0", "--count", "4294967295", *days, *options]
    with subprocess.Popen(words, stdout=subprocess.DEVNULL, stderr=subprocess.PIPE, text=True) as server:
        address = next(line.split()[-1] for line in server.stderr if line.startswith("serving on "))
        with link_to(address) as link:
            ask(link, request(1, 1, 0, 1, struct.pack(">I4sII", 7, b"RAGB", 0, 99999999)))
        yield address
        server.terminate()


def audit(ledger):
    """Returns the line that an audit prints."""
    return subprocess.run([PROGRAM, "audit", "--ledger", ledger], capture_output=True, text=True, check=False).stdout.strip()
