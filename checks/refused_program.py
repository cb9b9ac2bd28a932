#!/usr/bin/env python3
"""Refuses the program its first request for memory, then its second, and so on. Stops its disk at the first change of a file, then
at the second, and so on (checks/refuse.c). Each series ends with a run that meets no refusal. Gives it notes and ledgers in parts,
with interruptions: it must use the whole.

After each run the program must open the ledger. It must have the calls that got a reply, and no others but earlier ones whose reply
was withheld. Asked again, each call must get the reply that it got, or the one that was withheld.

  python3 checks/refused_program.py [PROGRAM [STEP]]     with a STEP only each STEP-th request for memory is refused, from the first on
"""

import contextlib
import os
import select
import shutil
import socket
import sqlite3
import subprocess
import sys
import tempfile
from concurrent.futures import ThreadPoolExecutor
from pathlib import Path

HERE = Path(__file__).resolve().parent
PROGRAM = str(Path(sys.argv[1] if len(sys.argv) > 1 else HERE / "../crates/s10/out/s10").resolve())

STEP = int(sys.argv[2]) if len(sys.argv) > 2 else 1

# FIRST: the post grants RA GB 0 to 2 to customer 7, who draws serials 0 and 1, voids 1 twice, draws serial 2, and finds no other
# serial free. LATER, 30 days after: it draws 0 and 1 again. TENTH draws 2 again; WITHDRAW closes the range instead. SHEET draws all
# three at once instead of LATER and TENTH.
GRANT = "53310101000000000000000100000007524147420000000000000002"
VOID = "52413030303030303031344742"


def draw(number):
    return f"5331010200000007{number:08x}52414742"


FIRST = [GRANT, draw(1), draw(2), f"533101030000000700000003{VOID}", f"533101030000000700000004{VOID}", draw(5), draw(6)]
LATER = [draw(7), draw(8)]
SETTINGS = ["--interval", "30", "--limit", "1000"]
TENTH = draw(9)
TENTH_REPLY = "533101820000000700000009524147420000004e3e52413030303030303032384742"
WITHDRAW = "53310206000000000000000200000001"
WITHDRAW_REPLY = "5331028600000000000000020000000100"
SHEET = "5331020500000007000000075241474203"
SHEET_REPLY = (
    "53310285000000070000000752414742030000004e3e"
    "524130303030303030303547425241303030303030303134474252413030303030303032384742"
)


class Failed(Exception):
    """A run that did not end as it must."""


def fail(why):
    raise Failed(why)


def run(words, refusals=None, **more):
    """Runs the program with these words, and with these refusals in its environment."""
    return subprocess.run([PROGRAM, *words], env={**os.environ, **(refusals or {})}, capture_output=True, text=True, check=False, **more)


def audit(ledger):
    """Returns the line that an audit prints."""
    return run(["audit", "--ledger", ledger]).stdout.strip()


def replies_of(deliveries):
    """Returns the replies of an empty ledger to pairs of day and datagram."""
    text = "".join(f"{day} {datagram}\n" for day, datagram in deliveries)
    return run(["replay", *SETTINGS], input=text).stdout.split()


def serve(ledger, day, datagrams, refusals=None):
    """Serves one turn for each datagram. Returns the replies by datagram."""
    return served(ledger, day, datagrams, refusals)[0]


def served(ledger, day, datagrams, refusals=None):
    """Serves one turn for each datagram. Returns the replies by datagram, and the lines of the turns in which a request arrived."""
    words = [PROGRAM, "serve", "--ledger", ledger, "--bind", "127.0.0.1:0", "--count", str(len(datagrams)), "--day", str(day)]
    with subprocess.Popen(words, env={**os.environ, **(refusals or {})}, stdout=subprocess.PIPE, stderr=subprocess.PIPE, text=True) as server:
        address = ""
        for line in server.stderr:
            if line.startswith("serving on "):
                address = line.split()[-1]
                break
        found = {}
        if address:
            host, port = address.rsplit(":", 1)
            with socket.socket(socket.AF_INET, socket.SOCK_DGRAM) as link:
                link.connect((host, int(port)))
                for datagram in datagrams:
                    try:
                        link.send(bytes.fromhex(datagram))
                    except ConnectionRefusedError:
                        break
                server.wait()
                while select.select([link], [], [], 0)[0]:
                    try:
                        reply = link.recv(2048).hex()
                    except ConnectionRefusedError:
                        continue
                    found[next(it for it in datagrams if it[8:24] == reply[8:24])] = reply
        lines = server.stdout.read().splitlines()
        server.wait()
        return found, [it for it in lines if it.startswith(("replied ", "faulted ", "uncommitted "))]


def make(folder, calls):
    """Creates a ledger with these calls, pairs of day and datagrams. Returns its path."""
    os.mkdir(folder)
    ledger = f"{folder}/ledger"
    if run(["create", "--ledger", ledger, *SETTINGS]).stdout != "created\n":
        fail("create")
    for day, datagrams in calls:
        if len(serve(ledger, day, datagrams)) != len(datagrams):
            fail("a call was not answered")
    return ledger


def copied(ledger, into):
    """Copies the folder of a ledger. Returns the path of the copy."""
    shutil.copytree(Path(ledger).parent, into, dirs_exist_ok=True)
    return f"{into}/ledger"


def forget_closed(ledger):
    """Turns a ledger with no withdrawn range into one of the build without withdrawals."""
    with contextlib.closing(sqlite3.connect(ledger)) as tables:
        tables.execute("DROP TABLE closed")
        tables.commit()
    return ledger


def check_completing(name, ledger, env):
    """After a refusal during an audit of a ledger of an earlier build, two further audits must find it right."""
    found = run(["audit", "--ledger", ledger], env)
    if (found.returncode, found.stdout) != (0, "ledger ok 9\n") and found.returncode != 3:
        fail(f"{name}: {found.stdout.strip()}")
    for _ in range(2):
        if audit(ledger) != "ledger ok 9":
            fail(f"{name}: {audit(ledger)} in the end")


def check_serving(name, ledger, before, day, datagrams, replies, turns):
    """The ledger must have the calls before and the first ones of those that were executed, among them all that got a reply. Sent
    again, each must get its reply."""
    executed = [it for it, turn in zip(datagrams, turns, strict=False) if not turn.startswith("faulted ")]
    found = audit(ledger)
    many = int(found.removeprefix("ledger ok ")) - len(before) if found.startswith("ledger ok ") else -1
    if not 0 <= many <= len(executed) or any(it in replies for it in executed[many:]):
        fail(f"{name}: {found} with {len(replies)} replies")
    kept = [*before, *((day, it) for it in executed[:many])]
    owed = replies_of([*kept, *((day, it) for it in datagrams)])
    if any(replies.get(it, reply) != reply for it, reply in zip(executed, owed[len(before) : len(kept)], strict=False)):
        fail(f"{name}: another reply")
    again = serve(ledger, day, datagrams)
    if [again.get(it) for it in datagrams] != owed[len(kept) :]:
        fail(f"{name}: another reply to a call that is handed in again")


def each_refusal(name, room, refusals, do, step=1):
    """Calls `do` for 1, 1 + step, .. until nothing is refused, several side by side, each in a folder of its own. Prints how many
    were refused."""

    def tried(at):
        here = f"{room}/here-{at}"
        mark = f"{here}-refused"
        os.mkdir(here)
        do(f"{name} {at}", here, {**refusals(at, here), "LD_PRELOAD": f"{room}/refuse.so", "REFUSED": mark})
        is_refused = Path(mark).exists()
        Path(mark).unlink(missing_ok=True)
        shutil.rmtree(here)
        return is_refused

    count, whole = 0, True
    together = 64 if STEP == 1 else 8
    with ThreadPoolExecutor(len(os.sched_getaffinity(0))) as several:
        while whole:
            found = list(several.map(tried, [1 + step * at for at in range(count, count + together)]))
            whole = all(found)
            count += found.index(False) if not whole else len(found)
    if count == 0:
        fail(f"{name}: nothing was refused")
    print(f"{count} {name}: each refused in turn", flush=True)


def refuse_memory(room):
    """Refuses each request for memory of create, audit and several servers."""
    def refusals(at, _):
        return {"REFUSE_MEMORY": str(at)}

    def create(name, here, env):
        words = ["create", "--ledger", f"{here}/ledger", *SETTINGS]
        made = run(words, env)
        second = run(words)
        if (made.returncode, second.stdout) not in ((0, "ledger not-empty\n"), (3, "created\n"), (3, "ledger not-empty\n")):
            fail(f"{name}: {made.stdout.strip()}, then {second.stdout.strip()}")
        if audit(f"{here}/ledger") != "ledger ok 0":
            fail(f"{name}: {audit(f'{here}/ledger')}")

    each_refusal("requests for memory of create", room, refusals, create, STEP)

    nine = make(f"{room}/nine", [(20000, FIRST), (20030, LATER)])

    def look(name, here, env):
        ledger = copied(nine, here)
        before = Path(ledger).read_bytes()
        found = run(["audit", "--ledger", ledger], env)
        if (found.returncode, found.stdout) != (0, "ledger ok 9\n") and found.returncode != 3:
            fail(f"{name}: {found.stdout.strip()}")
        if Path(ledger).read_bytes() != before or audit(ledger) != "ledger ok 9":
            fail(f"{name}: the ledger is another")

    each_refusal("requests for memory of audit", room, refusals, look, STEP)

    earlier = forget_closed(copied(nine, f"{room}/earlier"))

    def complete(name, here, env):
        check_completing(name, copied(earlier, here), env)

    each_refusal("requests for memory of audit of an earlier build's", room, refusals, complete, STEP)

    for what, kept, day, datagrams in (
        ("seven calls", [], 20000, FIRST),
        ("two calls after seven", [(20000, FIRST)], 20030, LATER),
        ("a sheet after seven", [(20000, FIRST)], 20030, [SHEET]),
        ("a withdrawal and a draw after seven", [(20000, FIRST)], 20030, [WITHDRAW, draw(7)]),
    ):
        base = make(f"{room}/{what}", kept)
        told = [(then, it) for then, those in kept for it in those]

        def answer(name, here, env, base=base, told=told, day=day, datagrams=datagrams):
            ledger = copied(base, here)
            check_serving(name, ledger, told, day, datagrams, *served(ledger, day, datagrams, env))

        each_refusal(f"requests for memory of a server of {what}", room, refusals, answer, STEP)


def stop_server(room, what, calls, asked, reply):
    """Stops the disk of a server that gets a request on day 20030, over a ledger of these calls: closed, and after a kill."""
    kept = sum(len(datagrams) for _, datagrams in calls)
    closed = make(f"{room}/{what} closed", calls)
    killed = copied(closed, f"{room}/{what} killed")
    kill_server(killed)
    for state, base in (("closed", closed), ("killed", killed)):
        for file in ("ledger", "ledger-wal"):

            def refusals(at, here, file=file):
                return {"STOP_FILE": f"{here}/{file}", "STOP_AT": str(at - 1)}

            def answer(name, here, env, base=base):
                ledger = copied(base, here)
                replies = serve(ledger, 20030, [asked], env)
                if replies.get(asked, reply) != reply:
                    fail(f"{name}: another reply")
                found = audit(ledger)
                if found != f"ledger ok {kept + 1}" and (found != f"ledger ok {kept}" or replies):
                    fail(f"{name}: {found} with {len(replies)} replies")
                if serve(ledger, 20030, [asked]).get(asked) != reply:
                    fail(f"{name}: asked again, another reply")
                if audit(ledger) != f"ledger ok {kept + 1}":
                    fail(f"{name}: {audit(ledger)} in the end")

            each_refusal(f"changes of {file} by {what} over a {state} ledger", room, refusals, answer)


def stop_disk(room):
    """Stops the disk at each change of the file and of its log: of servers, of create, and of an audit that completes tables."""
    stop_server(room, "a Draw", [(20000, FIRST), (20030, LATER)], TENTH, TENTH_REPLY)
    stop_server(room, "a sheet of three", [(20000, FIRST)], SHEET, SHEET_REPLY)
    stop_server(room, "a withdrawal", [(20000, FIRST), (20030, LATER)], WITHDRAW, WITHDRAW_REPLY)
    earlier = forget_closed(make(f"{room}/earlier of nine", [(20000, FIRST), (20030, LATER)]))
    for file in ("ledger", "ledger-wal"):

        def refusals(at, here, file=file):
            return {"STOP_FILE": f"{here}/{file}", "STOP_AT": str(at - 1)}

        def create(name, here, env):
            made = run(["create", "--ledger", f"{here}/ledger", *SETTINGS], env)
            found = audit(f"{here}/ledger")
            if found != "ledger ok 0" and (found != "ledger not-a-ledger" or made.returncode == 0):
                fail(f"{name}: {made.stdout.strip()}, then {found}")

        each_refusal(f"changes of {file} by create", room, refusals, create)

        def complete(name, here, env):
            check_completing(name, copied(earlier, here), env)

        each_refusal(f"changes of {file} by audit of an earlier build's", room, refusals, complete)


def read_in_parts(room):
    """Notes with the longest request, and a ledger, are written and read in parts. Each command ends as with whole ones."""
    silent = socket.socket(socket.AF_INET, socket.SOCK_DGRAM)
    silent.bind(("127.0.0.1", 0))
    to = ["--to", "{}:{}".format(*silent.getsockname()), "--tries", "1"]
    last = ["--first", "4294967294", "--last", "4294967295"]
    ledger = make(f"{room}/whole", [(20000, FIRST)])
    for part in (2, 7, 50):
        here = f"{room}/parts-{part}"
        os.mkdir(here)
        env = {"LD_PRELOAD": f"{room}/refuse.so", "PARTS": str(part), "REFUSED": f"{here}-cut"}
        notes, copy = f"{here}/notes", f"{here}/copy"
        for words, expected in (
            (["notes", "--file", notes, "--customer", "0", *last], (0, "created\n")),
            (["again", *to, "--notes", notes], (1, "refused answered\n")),
            (["grant", *to, "--notes", notes, "--holder", "4294967295", "--service", "RA", "--country", "GB",
              "--first", "99999998", "--last", "99999999"], (3, "gave-up\n")),
            (["again", *to, "--notes", notes], (3, "gave-up\n")),
            (["copy", "--ledger", ledger, "--to", copy], (0, "copied 7\n")),
            (["audit", "--ledger", ledger, "--snapshot"], (0, "ledger ok 7\n")),
        ):
            Path(env["REFUSED"]).unlink(missing_ok=True)
            found = run(words, env)
            if (found.returncode, found.stdout) != expected:
                fail(f"{words[0]} in parts of {part}: {found.returncode} {found.stdout.strip()}, not {expected}")
            if not Path(env["REFUSED"]).exists():
                fail(f"{words[0]} in parts of {part}: nothing was cut")
        if audit(copy) != "ledger ok 7":
            fail(f"a copy in parts of {part}: {audit(copy)}")
    silent.close()
    print("notes and ledgers in parts: used as a whole", flush=True)


def kill_server(ledger):
    """Starts a server and kills it, so that its log stays."""
    words = [PROGRAM, "serve", "--ledger", ledger, "--bind", "127.0.0.1:0", "--count", "1000", "--day", "20030"]
    with subprocess.Popen(words, stdout=subprocess.DEVNULL, stderr=subprocess.PIPE, text=True) as server:
        for line in server.stderr:
            if line.startswith("serving on "):
                break
        server.kill()


def main():
    with tempfile.TemporaryDirectory() as room:
        subprocess.run(["cc", "-O1", "-shared", "-fPIC", "-o", f"{room}/refuse.so", str(HERE / "refuse.c")], check=True)
        read_in_parts(room)
        refuse_memory(room)
        stop_disk(room)


try:
    main()
except Failed as why:
    print(f"failed: {why}")
    sys.exit(1)
