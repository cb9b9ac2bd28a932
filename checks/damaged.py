#!/usr/bin/env python3
"""Damages copies of a ledger in WAYS ways, by default 2,000, and runs `audit`, `report`, `info`, `serve` and
`create` over each.

The ledger has calls of each kind. Its server was closed, or killed so that calls are in the log alone, or killed while it wrote.
The ways: a cell of a row through sqlite3 (0, -1, NULL, the greatest number, the cell of another row, a text, bytes), rows removed or
repeated, bytes and pages of the file or the log that are flipped, zeroed or exchanged, files cut and lengthened, the log of another
ledger, a log without its file, a file without its log, an empty file beside a log, and odd things at the names beside the file.

Each command must end with a status and a line of its pages, and must say on standard error why a file fails. **Each refusal must
leave every file as it was, to the byte**, but for the log of a file that says that its pages have checksums. `ledger ok N` must be
right: the rows, as sqlite3 reads them, are those of N legal calls, by the rules of docs/RULES.md as they are written here once more.
`created` is right only where there was nothing.

The ways are those of a fixed seed. The last line counts the ways and the lines.

    python3 checks/damaged.py [PROGRAM [WAYS]]
"""

import contextlib
import os
import random
import re
import shutil
import signal
import socket
import sqlite3
import struct
import subprocess
import sys
import tempfile
from collections import Counter
from pathlib import Path

HERE = Path(__file__).resolve().parent
PROGRAM = str(Path(sys.argv[1] if len(sys.argv) > 1 else HERE / "../crates/s10/out/s10").resolve())
WAYS = int(sys.argv[2]) if len(sys.argv) > 2 else 2000
SEED = 20000
PATIENCE = 60  # seconds
DAY = 20000
PAGE = 4096
TABLES = ("head", "calls", "ranges", "serials", "closed")
REFUSED = re.compile(r"ledger (not-a-ledger|not-empty|store|memory|schema -?\d+|damaged \d+)\n")
REASON = re.compile(r"^cannot (open|use|create a ledger in) ", re.MULTILINE)


class Failed(Exception):
    """What must not happen."""


# The datagrams of docs/DATAGRAMS.md.

# The version and the length of each kind of request.
KINDS = {1: (1, 28), 2: (1, 16), 3: (1, 25), 4: (1, 25), 5: (2, 17), 6: (2, 16)}
GRANT, DRAW, VOID, QUERY, SHEET, WITHDRAW = KINDS


def request(kind, customer, number, body):
    return b"S1" + bytes([KINDS[kind][0], kind]) + struct.pack(">II", customer, number) + body


def grant(number, holder, service, first, last):
    return request(GRANT, 0, number, struct.pack(">I4sII", holder, service, first, last))


def identifier(pair, serial):
    digits = f"{serial:08}"
    check = 11 - sum(int(d) * w for d, w in zip(digits, (8, 6, 4, 2, 3, 5, 9, 7))) % 11
    return pair[:2] + f"{digits}{ {10: 0, 11: 5}.get(check, check) }".encode() + pair[2:]


# The calls of the ledger, in order. The last ones are in the log alone.
CALLS = [
    grant(1, 7, b"RAGB", 0, 5),
    grant(2, 7, b"RAGB", 3, 4),
    grant(3, 8, b"RAGB", 10, 12),
    *(request(DRAW, 7, n, b"RAGB") for n in (1, 2)),
    request(VOID, 7, 3, identifier(b"RAGB", 1)),
    request(VOID, 7, 4, identifier(b"RAGB", 1)),
    request(SHEET, 7, 5, b"RAGB\x03"),
    request(SHEET, 7, 6, b"RAGB\x03"),
    request(QUERY, 7, 7, identifier(b"RAGB", 1)),
    request(QUERY, 0, 4, identifier(b"RAGB", 11)),
    request(WITHDRAW, 0, 5, struct.pack(">I", 2)),
    request(WITHDRAW, 0, 6, struct.pack(">I", 9)),
    grant(7, 9, b"CPGB", 0, 99999999),
    *(request(DRAW, 9, n, b"CPGB") for n in range(1, 9)),
    request(DRAW, 8, 1, b"RAGB"),
    request(SHEET, 9, 20, b"CPGB\x10"),
]


# The rules of docs/RULES.md.


class Book:
    """A history, executed by hand: its ranges, its last issues and what is void."""

    def __init__(self, interval):
        self.interval = interval
        self.ranges = []  # [holder, pair, low, high, mark]
        self.closed = {}  # the number of a range: the arrival that closed it
        self.issued = {}  # (pair, serial): [arrival, day, customer, number, voided]

    def lying(self, pair, serial):
        return [it for it in self.ranges if it[1] == pair and it[2] <= serial <= it[3]]

    def drawn(self, customer, pair, day, marks):
        """Returns the range that a draw is from, after the moves of `marks`, or an outcome."""
        own = [n for n, it in enumerate(self.ranges) if it[:2] == [customer, pair] and n + 1 not in self.closed]
        for n in own:
            mark, taken = marks.get(n, (self.ranges[n][4], set()))
            was = self.issued.get((pair, mark))
            if mark not in taken and (was is None or day - was[1] >= self.interval):
                return n
        return -5 if own else -4

    def draw(self, customer, pair, day, count):
        """Returns the ranges and serials of a draw or a sheet, or an outcome."""
        marks, found = {}, []
        for _ in range(count):
            n = self.drawn(customer, pair, day, marks)
            if n < 0:
                return -n
            holder, _pair, low, high, first = self.ranges[n]
            mark, taken = marks.get(n, (first, set()))
            found.append((n, mark))
            marks[n] = (low if mark == high else mark + 1, taken | {mark})
        return found

    def answer(self, arrival, day, kind, customer, number, body):
        """Executes a request. Returns the bytes after it in its reply."""
        if kind == GRANT:
            holder, pair, low, high = struct.unpack(">I4sII", body)
            if customer:
                return b"\x01"
            if holder == 0 or low > high:
                return b"\x02"
            if any(it[1] == pair and it[2] <= high and low <= it[3] for it in self.ranges):
                return b"\x03"
            self.ranges.append([holder, pair, low, high, low])
            return b"\x00" + struct.pack(">I", len(self.ranges))
        if kind in (DRAW, SHEET):
            found = self.draw(customer, body[:4], day, 1 if kind == DRAW else body[4])
            if isinstance(found, int):
                return bytes([found])
            for n, serial in found:
                it = self.ranges[n]
                self.issued[it[1], serial] = [arrival, day, customer, number, 0]
                it[4] = it[2] if serial == it[3] else serial + 1
            return b"\x00" + struct.pack(">I", day) + b"".join(identifier(body[:4], serial) for _, serial in found)
        if kind == WITHDRAW:
            (n,) = struct.unpack(">I", body)
            if customer:
                return b"\x01"
            if not 1 <= n <= len(self.ranges):
                return b"\x0a"
            if n in self.closed:
                return b"\x0b"
            self.closed[n] = arrival
            return b"\x00"
        pair, serial = body[:2] + body[11:], int(body[2:10])
        lying, was = self.lying(pair, serial), self.issued.get((pair, serial))
        if (customer or kind == VOID) and not any(it[0] == customer for it in lying):
            return b"\x06"
        if kind == QUERY:
            status = (0 if not lying else 1, 0) if was is None else (2 + was[4], was[1])
            return b"\x00" + struct.pack(">BI", *status)
        if was is None:
            return b"\x07"
        if was[4]:
            return b"\x08"
        was[4] = 1
        return b"\x00"


def number_of(pair):
    return int.from_bytes(pair, "big")


def is_legal(rows):
    """Returns whether the rows of the five tables are those of a legal history."""
    if len(rows["head"]) != 1:
        return False
    one, schema, interval, limit = rows["head"][0]
    if (one, schema) != (1, 1) or not 1 <= interval <= 3650 or not len(rows["calls"]) <= limit <= 10**9 or limit < 1:
        return False
    book, keys, last = Book(interval), set(), 0
    for k, (arrival, customer, number, day, reply) in enumerate(rows["calls"], 1):
        kind = reply[3] & 0x7F if len(reply) > 3 else 0
        if arrival != k or kind not in KINDS or reply[:4] != b"S1" + bytes([KINDS[kind][0], kind | 0x80]):
            return False
        asked = reply[: KINDS[kind][1]]
        if struct.unpack(">II", asked[4:12]) != (customer, number) or (customer, number) in keys or day < last:
            return False
        keys.add((customer, number))
        last = day
        if book.answer(k, day, kind, customer, number, asked[12:]) != reply[len(asked) :]:
            return False
    return (
        rows["ranges"] == [(n, it[0], number_of(it[1]), *it[2:]) for n, it in enumerate(book.ranges, 1)]
        and rows["serials"] == sorted((number_of(pair), serial, *it) for (pair, serial), it in book.issued.items())
        and rows["closed"] == sorted(book.closed.items())
    )


def rows_of(folder):
    """Returns the rows of the tables in a copy of the ledger, as sqlite3 reads them, or None."""
    with tempfile.TemporaryDirectory() as room:
        for name in ("ledger", "ledger-wal"):
            with contextlib.suppress(OSError):
                shutil.copyfile(folder / name, f"{room}/{name}")
        try:
            with contextlib.closing(sqlite3.connect(f"{room}/ledger")) as reader:
                if [it[0] for it in reader.execute("PRAGMA integrity_check")] != ["ok"]:
                    return None
                has = {it[0] for it in reader.execute("SELECT name FROM sqlite_schema WHERE type = 'table'")}
                # One of an earlier build has no closed ranges.
                return {it: list(reader.execute(f"SELECT * FROM {it} ORDER BY 1, 2")) if it in has else [] for it in TABLES}
        except (sqlite3.Error, UnicodeDecodeError):
            return None


# The program.


def words_of(command):
    more = {
        "report": ["--day", str(DAY)],
        "info": ["--day", str(DAY)],
        "serve": ["--bind", "127.0.0.1:0", "--count", "1", "--day", str(DAY)],
        "create": ["--interval", "30", "--limit", "1000"],
    }
    return [PROGRAM, command, "--ledger", "ledger", *more.get(command, [])]


def run(command, folder):
    """Runs a command over the ledger in the folder. Returns its status and its two outputs. A server gets one datagram."""
    with subprocess.Popen(
        words_of(command), cwd=folder, stdin=subprocess.DEVNULL, stdout=subprocess.PIPE, stderr=subprocess.PIPE, text=True, errors="replace"
    ) as process:
        said = ""
        try:
            if command == "serve":
                for line in process.stderr:
                    said += line
                    if line.startswith("serving on "):
                        host, port = line.split()[-1].rsplit(":", 1)
                        with socket.socket(socket.AF_INET, socket.SOCK_DGRAM) as link:
                            link.sendto(b"no request", (host, int(port)))
            out, more = process.communicate(timeout=PATIENCE)
        except subprocess.TimeoutExpired:
            process.kill()
            raise Failed(f"{command} does not end") from None
    return process.returncode, out, said + more


def make_ledger(folder, killed):
    """Creates a ledger with the calls, and returns with its server closed or killed."""
    subprocess.run([*words_of("create")], cwd=folder, check=True, stdout=subprocess.DEVNULL)
    for calls, is_last in ((CALLS[:5], False), (CALLS[5:], True)):
        words = [PROGRAM, "serve", "--ledger", "ledger", "--bind", "127.0.0.1:0", "--day", str(DAY)]
        count = 4294967295 if is_last and killed else len(calls)
        with subprocess.Popen(
            [*words, "--count", str(count)], cwd=folder, stdout=subprocess.DEVNULL, stderr=subprocess.PIPE, text=True
        ) as server:
            host, port = next(it.split()[-1] for it in server.stderr if it.startswith("serving on ")).rsplit(":", 1)
            with socket.socket(socket.AF_INET, socket.SOCK_DGRAM) as link:
                link.connect((host, int(port)))
                link.settimeout(PATIENCE)
                for it in calls:
                    link.send(it)
                    link.recv(2048)
            if is_last and killed:
                server.send_signal(signal.SIGKILL)


# The ways.


def changed_cell(folder, rng, others):
    """Changes a cell through sqlite3: in the file, or in the log alone."""
    table = rng.choice(TABLES)
    with tempfile.TemporaryDirectory() as room:
        for it in folder.iterdir():
            shutil.copyfile(it, f"{room}/{it.name}")
        with contextlib.closing(sqlite3.connect(f"{room}/ledger")) as writer:
            rows = list(writer.execute(f"SELECT rowid, * FROM {table}"))
            columns = [it[1] for it in writer.execute(f"PRAGMA table_info({table})")]
            at = rng.randrange(len(columns))
            row = rng.choice(rows)
            what = rng.choice(("0", "-1", "NULL", "greatest", "another", "text", "bytes", "next", "gone", "twice"))
            value = {"0": 0, "-1": -1, "NULL": None, "greatest": 2**63 - 1, "text": "a text", "bytes": b"\x53\x31\x01\x82"}.get(what)
            if what == "another":
                value = rng.choice(rows)[at + 1]
            if what == "next":
                was = row[at + 1]
                value = was + 1 if isinstance(was, int) else was[:-1] + bytes([was[-1] ^ 1])
            if what in ("NULL", "text", "bytes"):
                loosen(writer, table)
                writer.close()
                writer = sqlite3.connect(f"{room}/ledger")
            try:
                if what == "gone":
                    writer.execute(f"DELETE FROM {table} WHERE rowid = ?", (row[0],))
                elif what == "twice":
                    more = [it + 1000 if n == 0 and isinstance(it, int) else it for n, it in enumerate(row[1:])]
                    writer.execute(f"INSERT INTO {table} VALUES ({','.join('?' * len(more))})", more)
                else:
                    writer.execute(f"UPDATE {table} SET {columns[at]} = ? WHERE rowid = ?", (value, row[0]))
                writer.commit()
                if what in ("NULL", "text", "bytes"):
                    tighten(writer, table)
            except sqlite3.Error:
                return None
            is_logged = rng.random() < 0.5
            if is_logged:
                take(room, folder)
            writer.close()
            if not is_logged:
                take(room, folder)
    return f"{table}.{columns[at]} of row {row[0]}: {what}{', in the log' if is_logged else ''}"


def take(room, folder):
    """Copies the file and its log from the room."""
    for name in ("ledger", "ledger-wal"):
        if os.path.exists(f"{room}/{name}"):
            shutil.copyfile(f"{room}/{name}", folder / name)
        else:
            (folder / name).unlink(missing_ok=True)


TEXTS = {}


def loosen(writer, table):
    """Lets a table have any value in its cells."""
    TEXTS[table] = writer.execute("SELECT sql FROM sqlite_schema WHERE name = ?", (table,)).fetchone()[0]
    loose = re.sub(r" (STRICT|NOT NULL|INTEGER(?! NOT NULL PRIMARY)|BLOB)\b", "", TEXTS[table])
    loose = re.sub(r" CHECK \([^)]*\)", "", loose)
    set_text(writer, table, loose)


def tighten(writer, table):
    set_text(writer, table, TEXTS[table])


def set_text(writer, table, text):
    writer.execute("PRAGMA writable_schema = ON")
    writer.execute("UPDATE sqlite_schema SET sql = ? WHERE name = ?", (text, table))
    writer.commit()


def file_to_damage(folder, rng):
    names = [it for it in ("ledger", "ledger-wal") if (folder / it).exists() and (folder / it).stat().st_size]
    return folder / rng.choice(names)


def changed_bytes(folder, rng, others):
    """Flips or zeroes bytes."""
    path = file_to_damage(folder, rng)
    data = bytearray(path.read_bytes())
    what = rng.choice(("a bit", "a byte", "16 bytes", "zeros"))
    at = rng.randrange(len(data)) if rng.random() < 0.7 else rng.randrange(min(len(data), 100))
    if what == "a bit":
        data[at] ^= 1 << rng.randrange(8)
    elif what == "a byte":
        data[at] = rng.randrange(256)
    elif what == "16 bytes":
        data[at : at + 16] = rng.randbytes(len(data[at : at + 16]))
    else:
        end = min(len(data), at + rng.choice((1, 100, PAGE)))
        data[at:end] = bytes(end - at)
    path.write_bytes(data)
    return f"{what} at {at} of {path.name}"


def changed_pages(folder, rng, others):
    """Zeroes a page, or exchanges or repeats two."""
    path = file_to_damage(folder, rng)
    data = bytearray(path.read_bytes())
    size, first = (PAGE, 0) if path.name == "ledger" else (PAGE + 24, 32)
    count = (len(data) - first) // size
    if count < 2:
        return None
    one, other = (first + size * rng.randrange(count) for _ in range(2))
    what = rng.choice(("zeroed", "exchanged", "repeated"))
    a, b = bytes(data[one : one + size]), bytes(data[other : other + size])
    data[one : one + size] = bytes(size) if what == "zeroed" else b
    if what == "exchanged":
        data[other : other + size] = a
    path.write_bytes(data)
    return f"pages at {one} and {other} of {path.name} {what}"


def changed_length(folder, rng, others):
    """Cuts or lengthens a file."""
    path = file_to_damage(folder, rng)
    data = path.read_bytes()
    what = rng.choice(("cut", "cut at a page", "cut near the start", "zeros more", "bytes more", "itself more"))
    size = PAGE if path.name == "ledger" else PAGE + 24
    if what == "cut":
        data = data[: rng.randrange(len(data))]
    elif what == "cut at a page":
        data = data[: len(data) // size * size - size * rng.randrange(3) + (32 if size > PAGE else 0)]
    elif what == "cut near the start":
        data = data[: rng.randrange(60)]
    else:
        extra = rng.choice((1, 8, 100, PAGE))
        data += {"zeros more": bytes(extra), "bytes more": rng.randbytes(extra), "itself more": data[-extra:]}[what]
    path.write_bytes(data)
    return f"{path.name}: {what}, now {len(data)} bytes"


def other_log(folder, rng, others):
    """Puts a log of another ledger, or of none, beside the file."""
    what = rng.choice(("a log of another", "a log of an earlier time", "bytes", "zeros", "a text", "no log", "no bytes"))
    log = folder / "ledger-wal"
    if what == "no log":
        log.unlink()
    else:
        data = {"a log of another": others["another"], "a log of an earlier time": others["earlier"], "no bytes": b"", "a text": b"its log"}
        size = rng.choice((41, 56, 4152, 8192))
        log.write_bytes(data.get(what, rng.randbytes(size) if what == "bytes" else bytes(size)))
    return what


def emptied(folder, rng, others):
    """Empties the file beside its log, which may be cut, or removes it."""
    (folder / "ledger").write_bytes(b"")
    if rng.random() < 0.2:
        (folder / "ledger").unlink()
        return "a log without its file"
    if rng.random() < 0.3:
        log = folder / "ledger-wal"
        log.write_bytes(log.read_bytes()[: rng.randrange(1, 60)])
    return f"an empty file beside a log of {(folder / 'ledger-wal').stat().st_size} bytes"


def odd_things(folder, rng, others):
    """Puts what is no file, or no such file, beside the ledger."""
    name = "ledger" + rng.choice(("-wal", "-shm", "-journal", "-wal", "-journal"))
    path = folder / name
    if path.exists():
        path.unlink()
    what = rng.choice(("a folder", "a link to nothing", "a link to a file", "a pipe", "a text", "bytes"))
    if what == "a folder":
        path.mkdir()
    elif what == "a link to nothing":
        path.symlink_to("nothing")
    elif what == "a link to a file":
        (folder / "other").write_bytes(b"another file")
        path.symlink_to("other")
    elif what == "a pipe":
        os.mkfifo(path)
    else:
        path.write_bytes(b"a text" if what == "a text" else rng.randbytes(600))
    return f"{what} at {name}"


MANNERS = (changed_cell, changed_cell, changed_cell, changed_bytes, changed_bytes, changed_pages, changed_length, other_log, emptied, odd_things)


def files_of(folder):
    """Returns what is in the folder: the bytes of each file, the end of each link, and the kind of anything else."""
    found = {}
    for it in folder.iterdir():
        if it.is_symlink():
            found[it.name] = os.readlink(it)
        else:
            found[it.name] = it.read_bytes() if it.is_file() else oct(it.stat().st_mode)
    return found


def copied(source, target):
    shutil.rmtree(target, ignore_errors=True)
    shutil.copytree(source, target, symlinks=True, ignore=lambda at, names: [it for it in names if Path(at, it).is_fifo()])
    for it in source.iterdir():
        if it.is_fifo():
            os.mkfifo(target / it.name)


def is_nothing(files):
    """Returns whether there was no ledger: no file or one that no creation has finished, and no commits."""
    log = files.get("ledger-wal", b"")
    return len(files.get("ledger", b"")) <= 1 and (not log or (len(files["ledger"]) == 1 and len(log) < 56))


def has_checksums(files):
    """Returns whether the file says that its pages have checksums, which no ledger's have: the store then seals the log again."""
    return files.get("ledger", b"")[20:21] == b"\x08"


def check(command, damaged, room, told):
    """Runs a command over a copy of the damaged ledger, and raises Failed if it did what it must not."""
    copied(damaged, room)
    before = files_of(room)
    status, out, said = run(command, room)
    after = files_of(room)
    line = out.splitlines()[0] if out else ""
    told[f"{command}: {re.sub('[0-9]+', 'N', line) if line.startswith(('ledger', 'created')) else '(lines)'}"] += 1
    if status not in (0, 3) or "panic" in said:
        raise Failed(f"{command}: status {status}, {line!r}, {said!r}")
    if status == 3:
        if not REFUSED.fullmatch(out):
            raise Failed(f"{command}: status 3 with {out!r}")
        if line == "ledger store" and not REASON.search(said):
            raise Failed(f"{command}: `{line}` with no reason on standard error: {said!r}")
        differing = [it for it in {**before, **after} if before.get(it) != after.get(it)]
        if differing and not (differing == ["ledger-wal"] and has_checksums(before)):
            raise Failed(f"{command}: `{line}` changed {', '.join(sorted(differing))}")
    if command == "create" and status == 0 and not is_nothing(before):
        raise Failed("create: a ledger over what was there")
    return status, line


def try_way(manner, base, room, rng, others, told):
    """Damages a copy of a ledger, and runs each command over it. Returns False if this manner does not apply."""
    damaged = room / "damaged"
    copied(base, damaged)
    what = manner(damaged, rng, others)
    if what is None:
        return False
    try:
        ended = {it: check(it, damaged, room / "tried", told) for it in ("audit", "report", "info", "serve", "create")}
        status, line = ended["audit"]
        if status == 0:
            rows = rows_of(damaged)
            if rows is None or not is_legal(rows) or line != f"ledger ok {len(rows['calls'])}":
                raise Failed(f"audit: `{line}` over rows that are not legal: {rows and len(rows['calls'])} calls")
        if any((ended[it][0] == 0) != (status == 0) for it in ("report", "info", "serve")):
            raise Failed(f"the commands differ: {ended}")
    except Failed as failed:
        print(f"{base.name}, {what}: {failed}", flush=True)
        told["FAILED"] += 1
    return True


def make_bases(room):
    """Makes the ledgers that are damaged, and what other logs there are."""
    bases = []
    for name, killed in (("closed", False), ("killed", True), ("writing", True)):
        bases.append(room / name)
        bases[-1].mkdir()
        make_ledger(bases[-1], killed)
    log = bases[2] / "ledger-wal"
    data = log.read_bytes()
    end = 32 + (len(data) - 32) // (PAGE + 24) * (PAGE + 24)
    # A frame with the salts of the log, of which the rest was not written.
    log.write_bytes(data[:end] + struct.pack(">II", 2, 0) + data[16:24] + bytes(8) + data[end - PAGE : end - 1500])
    another = room / "another"
    another.mkdir()
    make_ledger(another, True)
    earlier = (bases[1] / "ledger-wal").read_bytes()
    return bases, {"another": (another / "ledger-wal").read_bytes(), "earlier": earlier[: len(earlier) // 2]}


def main():
    rng, told, count = random.Random(SEED), Counter(), 0
    with tempfile.TemporaryDirectory() as name:
        room = Path(name)
        bases, others = make_bases(room)
        for base in bases:
            if not is_legal(rows_of(base)) or len(rows_of(base)["calls"]) != len(CALLS):
                raise Failed(f"{base.name}: the ledger is not that of the calls")
        while count < WAYS:
            count += try_way(rng.choice(MANNERS), rng.choice(bases), room, rng, others, told)
    for line, times in sorted(told.items()):
        print(f"{times:6} {line}")
    if told["FAILED"]:
        raise Failed(f"{told['FAILED']} of {count} ways")
    print(f"{count} ways: each refusal left its files to the byte, and each `ledger ok` was right")


if __name__ == "__main__":
    try:
        main()
    except Failed as failed:
        sys.exit(f"failed: {failed}")
