#!/usr/bin/env python3
"""Tries what the program does at its edges: at which addresses its sockets are and what they send, how long its replies are, what it
says of a wrong command line, and what its help says of the exit statuses.

  python3 checks/edges.py [PROGRAM]

Each part prints a line. The sockets of a process are read from /proc; without it that part is skipped.
"""

import contextlib
import os
import re
import signal
import socket
import subprocess
import sys
import tempfile
import time
from pathlib import Path

HERE = Path(__file__).resolve().parent
PROGRAM = str(Path(sys.argv[1] if len(sys.argv) > 1 else HERE / "../crates/s10/out/s10").resolve())
PATIENCE = 60  # seconds
GRANT = bytes.fromhex("53310101000000000000000100000007524147420000000000000002")
GRANTED = bytes.fromhex("533101810000000000000001000000075241474200000000000000020000000001")
DRAW = ["draw", "--customer", "7", "--number", "1", "--service", "RA", "--country", "GB"]


class Failed(Exception):
    """The program does something else than it must."""


def same(what, expected, came):
    if expected != came:
        raise Failed(f"{what}: expected {expected!r}, came {came!r}")


def run(*words, lines=""):
    """Runs the program as `s10`, with these lines at standard input. Returns its status and its two outputs."""
    done = subprocess.run(
        ["s10", *words], executable=PROGRAM, input=lines, capture_output=True, text=True, check=False, timeout=PATIENCE
    )
    return done.returncode, done.stdout, done.stderr


# Sockets.


def sockets_of(process):
    """Returns the addresses of the UDP sockets of a process."""
    links, found = [], []
    for it in Path(f"/proc/{process}/fd").iterdir():
        with contextlib.suppress(FileNotFoundError):  # A file that was closed meanwhile.
            links.append(os.readlink(it))
    for line in Path("/proc/net/udp").read_text(encoding="ascii").splitlines()[1:]:
        words = line.split()
        if f"socket:[{words[9]}]" in links:
            ip, port = words[1].split(":")
            found.append((socket.inet_ntoa(int(ip, 16).to_bytes(4, sys.byteorder)), int(port, 16)))
    return found


def wait_for_sockets(process):
    """Waits until a process has a socket. Returns the addresses of its sockets."""
    end = time.monotonic() + PATIENCE
    while time.monotonic() < end:
        found = sockets_of(process)
        if found:
            return found
        time.sleep(0.02)
    raise Failed("no socket")


def all_datagrams(link, wait):
    """Returns each datagram that comes until none came for so many seconds, with its sender."""
    found = []
    link.settimeout(wait)
    while True:
        try:
            found.append(link.recvfrom(2048))
        except socket.timeout:
            return found


def udp_socket(ip):
    link = socket.socket(socket.AF_INET, socket.SOCK_DGRAM)
    link.bind((ip, 0))
    return link


def try_server(folder):
    """A server is at the address that was asked for, alone, and sends one reply, from there."""
    ledger = f"{folder}/ledger"
    same("create", (0, "created\n", ""), run("create", "--ledger", ledger, "--interval", "30", "--limit", "1000"))
    words = ["s10", "serve", "--ledger", ledger, "--bind", "127.0.0.2:0", "--count", "4294967295", "--day", "20000"]
    pipes = {"stdout": subprocess.PIPE, "stderr": subprocess.PIPE, "text": True}
    with subprocess.Popen(words, executable=PROGRAM, **pipes) as server, udp_socket("127.0.0.1") as link:
        try:
            told = [server.stderr.readline() for _ in range(3)]
            found = sockets_of(server.pid)
            same("the sockets of a server", 1, len(found))
            same("its address", "127.0.0.2", found[0][0])
            same("the lines of a server", [f"opening {ledger}\n", f"serving on 127.0.0.2:{found[0][1]}\n", "calls 0 of 1000, last day 0, today 20000\n"], told)
            link.sendto(GRANT, found[0])
            link.settimeout(PATIENCE)
            came = [link.recvfrom(2048), *all_datagrams(link, 1)]
            same("the replies", [(GRANTED, found[0])], came)
        finally:
            server.send_signal(signal.SIGKILL)
        lines = [line for line in server.stdout.read().splitlines() if line != "quiet"]
    same("the turns", [f"replied {GRANTED.hex()}"], lines)
    print("a server: one socket, at its address; one reply, from there")


def try_senders(folder):
    """With --senders, the line of each datagram ends with its sender."""
    ledger = f"{folder}/ledger"
    same("create", (0, "created\n", ""), run("create", "--ledger", ledger, "--interval", "30", "--limit", "1"))
    words = ["s10", "serve", "--ledger", ledger, "--bind", "127.0.0.2:0", "--count", "60", "--day", "20000", "--senders"]
    pipes = {"stdout": subprocess.PIPE, "stderr": subprocess.PIPE, "text": True}
    with subprocess.Popen(words, executable=PROGRAM, **pipes) as server:
        try:
            server.stderr.readline()
            to = ("127.0.0.2", int(server.stderr.readline().rpartition(":")[2]))
            with udp_socket("127.0.0.1") as one, udp_socket("127.0.0.3") as other:
                froms = [":".join(map(str, link.getsockname())) for link in (one, other)]
                one.sendto(GRANT, to)
                one.settimeout(PATIENCE)
                one.recvfrom(2048)
                other.sendto(b"S1", to)
                lines = [server.stdout.readline()]
                while lines[-1] in ("quiet\n", f"replied {GRANTED.hex()} from {froms[0]}\n"):
                    lines.append(server.stdout.readline())
        finally:
            server.send_signal(signal.SIGKILL)
    said = [line for line in lines if line != "quiet\n"]
    same("the lines with senders", [f"replied {GRANTED.hex()} from {froms[0]}\n", f"dropped short from {froms[1]}\n"], said)
    print("a server with --senders: each line has its own")


def try_factors(_):
    """The longest reply to a request of each kind is as long as SECURITY.md says."""
    void, count = "52413030303030303030354742", 16
    asked = {
        "Grant": GRANT.hex()[:-8] + f"{count:08x}",
        "Draw": "53310102000000070000000152414742",
        "Void": "533101030000000700000002" + void,
        "Query": "533101040000000700000003" + void,
        "DrawMany, a sheet of 16": f"53310205000000070000000452414742{count:02x}",
        "Withdraw": "53310206000000000000000200000001",
    }
    lines = "".join(f"20000 {datagram}\n" for datagram in asked.values())
    status, out, err = run("replay", lines=lines)
    replies = out.split()
    same("the end of replay", (0, "", len(asked)), (status, err, len(replies)))
    told = []
    for (kind, datagram), reply in zip(asked.items(), replies):
        sent, came = len(datagram) // 2, len(reply) // 2
        told.append(f"  | {kind} | {sent} | {came} | {came / sent:.1f} | {(came + 28) / (sent + 28):.1f} |")
    page = (HERE / "../SECURITY.md").read_text(encoding="utf-8").splitlines()
    same("the factors of SECURITY.md", told, [line for line in page if re.match(r"  \| \w[^|]* \| \d", line)])
    print(f"the replies to {len(asked)} kinds of request: as long as SECURITY.md says")


def try_client(_):
    """A command that asks has one socket, to which any machine can reply, and sends its request as often as it says."""
    tries = 3
    with udp_socket("127.0.0.2") as server:
        to = f"127.0.0.2:{server.getsockname()[1]}"
        words = ["s10", *DRAW, "--to", to, "--tries", str(tries)]
        with subprocess.Popen(words, executable=PROGRAM, stdout=subprocess.PIPE, stderr=subprocess.PIPE, text=True) as client:
            found = wait_for_sockets(client.pid)
            out, err = client.communicate(timeout=PATIENCE + 2 * tries)
        same("the sockets of a client", 1, len(found))
        same("its address", "0.0.0.0", found[0][0])
        same("its end", (3, "gave-up\n", ""), (client.returncode, out, err))
        came = all_datagrams(server, 0.5)
        same("its datagrams", [bytes.fromhex("53310102000000070000000152414742")] * tries, [it for it, _ in came])
        same("its ports", {found[0][1]}, {sender[1] for _, sender in came})
    print(f"a client: one socket, at every address; {tries} sends of one request, to the server alone")


# Words.

WRONG = (
    ["bogus"],
    ["--bogus"],
    ["draw"],
    [*DRAW, "--to", "127.0.0.1:9", "--tries", "101"],
    [*DRAW, "--to", "127.0.0.1:9", "--to", "127.0.0.1:9"],
    ["check", "RA473124829US", "RA473124829US"],
    ["make", "RA"],
    ["make", "RA", "00000000"],
    ["make", "RA", "00000000", "GB", "GB"],
    ["create", "--ledger", "ledger", "--interval", "x", "--limit", "1"],
    ["serve", "--ledger", "ledger", "--bind", "127.0.0.1:0", "--count", "none"],
    ["help", "bogus"],
    ["draw", "--to", "127.0.0.1:9", "--service", "RA", "--country", "GB"],
    ["report", "--ledger", "ledger", "--id", "RA473124828US"],
)
# The whole of what a fault prints: its error, what it lists, how the command is used, and where to read more.
FAULT = re.compile(r"error: \S.*\n(  \S.*\n)*\n(Usage: s10 .*\n\n)?For more information, try '--help'\.\n")


def try_wrong_lines(_):
    """What is no command line has status 2, nothing on standard output, and on standard error one fault and nothing else."""
    for words in WRONG:
        status, out, err = run(*words)
        same(f"s10 {' '.join(words)}: status and output", (2, ""), (status, out))
        same(f"s10 {' '.join(words)}: prints its fault alone: {err!r}", True, FAULT.fullmatch(err) is not None)
    status, out, err = run()
    same("s10 without words: status and output", (2, ""), (status, out))
    same("s10 without words: its help", run("--help")[1], err)
    print(f"{len(WRONG) + 1} wrong command lines: status 2, and one error")


def check_digit(serial):
    """Returns the check digit of a serial of eight digits."""
    rest = 11 - sum(weight * int(digit) for weight, digit in zip((8, 6, 4, 2, 3, 5, 9, 7), serial)) % 11
    return {10: 0, 11: 5}.get(rest, rest)


def try_lines(_):
    """`make`, `check` and `show` without words print one line for each line of standard input, in order."""
    serials = [f"{it * 9973 % 10 ** 8:08}" for it in range(10_000)]
    made = [f"RA{it}{check_digit(it)}GB" for it in serials]
    lines = lambda texts: "".join(f"{it}\n" for it in texts)
    same("made from parts", (0, lines(made), ""), run("make", lines=lines(f"RA {it} GB" for it in serials)))
    valid = lines(f"{it} valid registered" for it in made)
    same("checked", (0, valid, ""), run("check", lines=lines(made)))
    labels = [f"{it[:2].lower()} {it[2:5]} {it[5:8]} {it[8:11]} {it[11:].lower()}" for it in made]
    same("checked as labels", (0, valid, ""), run("check", "--label", lines="\r\n".join(labels)))
    wrong = f"{made[0]}\n{labels[0]}\n{made[1]}\n"
    told = f"{made[0]} valid registered\nrefused length\n{made[1]} valid registered\n"
    same("one that is refused", (1, told, ""), run("check", lines=wrong))
    draws = [f"5331010200000007{it:08x}52414742" for it in range(10_000)]
    shown = lines(f"request draw customer 7 number {it} RA GB" for it in range(10_000))
    same("shown", (0, shown, ""), run("show", lines=lines(draws)))
    same("a line that is too long", (1, f"{made[0]} valid registered\nrefused line 2\n", ""), run("check", lines=f"{made[0]}\n{'0' * 1037}\n{made[1]}\n"))
    print("lines of standard input: ten thousand, each with its line, in order")


def try_help(_):
    """Help stands once, on standard output."""
    listed = run("--help")[1].split("Commands:\n")[1].split("\n\n")[0]
    commands = [it for it in re.findall(r"^  (\w+) ", listed, re.MULTILINE) if it != "help"]
    asked = [["--help"], ["-h"], ["help"], *([it, "--help"] for it in commands), *(["help", it] for it in commands)]
    for words in asked:
        status, out, err = run(*words)
        name = f"s10 {' '.join(words)}"
        same(f"{name}: status and errors", (0, ""), (status, err))
        times = [len(re.findall(f"^{part}", out, re.MULTILINE)) for part in (re.escape(out.split("\n")[0]), "Usage: s10", "Options:")]
        same(f"{name}: how often it and its parts stand", [1, 1, 1], times)
        same(f"{name}: its end", True, re.search(r"\S\n\Z", out) is not None)
    same("the forms of help", 1, len({run(*words)[1] for words in asked[:3]}))
    for it in commands:
        same(f"the forms of help of {it}", run(it, "--help")[1], run("help", it)[1])
    print(f"{len(asked)} forms of help: each stands once")


def try_statuses(folder):
    """Help names the statuses with which commands end."""
    text = re.search(r"Exit status: (.*?)\. ", " ".join(run("--help")[1].split()))[1]
    named = dict(re.findall(r"(\d) ([^;]*)", text))
    words = {"0": "done", "1": "refused", "2": "no command line", "3": "failed"}
    same("the statuses that help names", sorted(words), sorted(named))
    for status, word in words.items():
        same(f"what help says of status {status}", True, word in named[status])
    ends = {
        0: (["check", "RA473124829US"], ["--version"], ["help", "draw"]),
        1: (["check", "RA473124828US"], ["make", "RA", "1", "GB"], [*DRAW, "--to", "nowhere"]),
        2: (["bogus"], ["audit"], ["report", "--ledger", "x", "--id", "RA000000006GB"],
            ["report", "--ledger", "x", "--customer", "-1"]),
        3: (["audit", "--ledger", f"{folder}/missing"], ["report", "--ledger", f"{folder}/no/ledger"]),
    }
    for status, lines in ends.items():
        for line in lines:
            same(f"the status of s10 {' '.join(line)}", status, run(*line)[0])
    print("the statuses are those that help names")


def main():
    signal.signal(signal.SIGINT, signal.default_int_handler)
    parts = [try_wrong_lines, try_lines, try_help, try_statuses, try_factors]
    if Path("/proc/net/udp").exists():
        parts += [try_server, try_senders, try_client]
    else:
        print("skipped sockets: /proc/net/udp")
    failed = 0
    for part in parts:
        with tempfile.TemporaryDirectory() as folder:
            try:
                part(folder)
            except (Failed, subprocess.TimeoutExpired) as why:
                failed += 1
                print(f"failed: {part.__name__}: {why}")
    return 1 if failed else 0


if __name__ == "__main__":
    sys.exit(main())
