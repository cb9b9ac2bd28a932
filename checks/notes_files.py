#!/usr/bin/env python3
"""Tries the files of notes by each of the clients: `s10`, the client in Python, and each DRAW: `s10_draw` of contrib/c, or one of
contrib/bindings with the same words and lines.

Two names: by a symbolic link each client must use the file that it names. No identifier is drawn twice, and a client that has the
notes open keeps the others out by either name, also while it waits for a reply. With a hard link each client must refuse the notes,
and leave them as they were.
The check value: each digit of a notes file, changed to each other one, is refused, and the file stays; of these changes each tenth by
a client that takes long to start. Notes of earlier versions, which have no check value, are used and get one.
Odd files: a pipe, a device, a folder or a symbolic link at the path of the notes, of `.new` or of `.lock` is refused at once.
Modes: notes have the mode of those that they replace, and as root the owner; new ones are for their owner alone.
Syncs: by strace, each client syncs new notes before it renames them, and then their folder, before it sends the request.

    python3 checks/notes_files.py [PROGRAM [DRAW..]]
"""

import itertools
import os
import re
import shutil
import socket
import subprocess
import sys
import tempfile
import threading
import time
import zlib
from collections import Counter
from pathlib import Path

ROOT = Path(__file__).resolve().parent.parent
PROGRAM = os.path.abspath(sys.argv[1] if len(sys.argv) > 1 else ROOT / "crates/s10/out/s10")
DRAWS = {Path(it).name: os.path.abspath(it) for it in sys.argv[2:]}
SLOW = ("s10_draw_csharp", "s10_draw_java")
os.environ["S10"] = PROGRAM
sys.path.insert(0, str(ROOT / "contrib/python"))
from s10client import Client, GaveUp  # noqa: E402
from test_s10client import Server, run_and_kill, s10  # noqa: E402

PYTHON = """
import sys
from s10client import Client
with Client.open(sys.argv[1], (sys.argv[2], int(sys.argv[3]))) as client:
    print(client.draw("RA", "GB").identifier)
    print("open", flush=True)
    sys.stdin.read()
"""
CUSTOMER, AT_ONCE = 7, 8


class Failed(Exception):
    """What must not happen."""


def holds(what, is_so, *more):
    if not is_so:
        raise Failed(": ".join([what, *map(str, more)]))


def words_of(client, notes, address):
    """Returns the command by which a client draws once."""
    if client == "s10":
        return [PROGRAM, "draw", "--to", "{}:{}".format(*address), "--notes", notes, "--service", "RA", "--country", "GB"]
    if client in DRAWS:
        return [DRAWS[client], notes, address[0], str(address[1]), "RA", "GB"]
    return [sys.executable, "-c", PYTHON, notes, address[0], str(address[1])]


def draw(client, notes, address):
    """Draws once. Returns the identifiers that were printed, what was printed, and the status."""
    done = subprocess.run(words_of(client, notes, address), stdin=subprocess.DEVNULL, capture_output=True, text=True, check=False,
                          cwd=ROOT / "contrib/python", timeout=60)
    return re.findall(r"\bRA\d{9}GB\b", done.stdout), done.stdout + done.stderr, done.returncode


def folder_of(folder, name):
    """Returns a new folder in the folder, with another one in it."""
    new = Path(folder, name)
    (new / "far").mkdir(parents=True)
    return new


def new_notes(folder, numbers):
    """Creates notes with the next hundred numbers. Returns their path."""
    first = next(numbers)
    path = str(folder / "notes")
    made = s10("notes", "--file", path, "--customer", CUSTOMER, "--first", first, "--last", first + 99)
    holds("notes", made == "created\n", made)
    return path


def names_of(folder, path):
    """Returns names of the notes: their own, links beside and in another folder, and one through a folder's link."""
    (folder / "beside").symlink_to("notes")
    (folder / "far/link").symlink_to("../beside")
    (folder / "folder").symlink_to(folder)
    return [path, str(folder / "beside"), str(folder / "far/link"), str(folder / "folder/notes")]


def try_in_turn(client, folder, address, numbers):
    """Draws by each name in turn, twice. No identifier may come twice, and the links stay links."""
    folder = folder_of(folder, f"turn-{client}")
    names = names_of(folder, new_notes(folder, numbers))
    found = []
    for name in names * 2:
        drawn, printed, status = draw(client, name, address)
        holds(f"{client} drew nothing by {name}", len(drawn) == 1 and status == 0, printed)
        found += drawn
    holds(f"{client} drew an identifier twice", len(set(found)) == len(found), found)
    holds(f"{client} left other files", sorted(it.name for it in folder.iterdir())
          == ["beside", "far", "folder", "notes", "notes.lock"] and (folder / "beside").is_symlink())


def try_at_once(client, folder, address, numbers):
    """Draws by all names at once. Each run draws, or is kept out; no identifier may come twice."""
    folder = folder_of(folder, f"once-{client}")
    names = names_of(folder, new_notes(folder, numbers))
    runs = []

    def run(name):
        runs.append(draw(client, name, address))

    for _ in range(3):
        threads = [threading.Thread(target=run, args=(names[at % len(names)],)) for at in range(AT_ONCE)]
        for thread in threads:
            thread.start()
        for thread in threads:
            thread.join()
    found = [it for drawn, _, _ in runs for it in drawn]
    holds(f"{client} drew an identifier twice at once", len(set(found)) == len(found), found)
    holds(f"{client} drew nothing at once", found)
    for drawn, printed, status in runs:
        holds(f"{client} failed at once", (status == 0) == bool(drawn) and (drawn or re.search(LOCKED, printed)), printed)


LOCKED = r"notes locked|BlockingIOError|s10_draw: .*([Rr]esource temporarily unavailable|notes are locked)"


def try_held(folder, address, numbers, clients):
    """Holds notes open by the client in Python under one name, and draws by each client under the others, also after their `.lock`
    was removed."""
    folder = folder_of(folder, "held")
    names = names_of(folder, new_notes(folder, numbers))
    with subprocess.Popen(words_of("python", names[2], address), stdin=subprocess.PIPE, stdout=subprocess.PIPE, text=True,
                          cwd=ROOT / "contrib/python") as holder:
        first = holder.stdout.readline().strip()
        holds("the holder", holder.stdout.readline() == "open\n", first)
        for is_removed in (False, True):
            if is_removed:
                os.remove(folder / "notes.lock")
            for client in clients:
                for name in names:
                    drawn, printed, status = draw(client, name, address)
                    holds(f"{client} used notes that are open, by {name}", not drawn and status, printed)
                    holds(f"{client} does not say that they are locked", re.search(LOCKED, printed), printed)
        holder.stdin.close()
        holder.wait()
    drawn, printed, _ = draw("s10", names[0], address)
    holds("the notes afterwards", len(drawn) == 1 and drawn != [first], printed)


def try_waiting(folder, numbers):
    """Two runs of `s10` with one notes file at once: while one waits for its reply, each other is refused and sends nothing."""
    folder = folder_of(folder, "waiting")
    names = names_of(folder, new_notes(folder, numbers))
    with socket.socket(socket.AF_INET, socket.SOCK_DGRAM) as silent:
        silent.bind(("127.0.0.1", 0))
        silent.settimeout(60)
        address = silent.getsockname()
        with subprocess.Popen([*words_of("s10", names[0], address), "--tries", "5"], stdout=subprocess.PIPE, text=True) as waiting:
            first = silent.recv(2048)
            written = Path(names[0]).read_bytes()
            for name in names:
                drawn, printed, status = draw("s10", name, address)
                holds(f"a draw beside one that waits, by {name}", (drawn, printed, status) == ([], "notes locked\n", 3), printed, status)
                again = s10("again", "--to", "{}:{}".format(*address), "--notes", name)
                holds(f"again beside a draw that waits, by {name}", again == "notes locked\n", again)
            holds("the one that waits has ended", waiting.poll() is None)
            waiting.kill()
        silent.settimeout(0.1)
        sent = {first}
        try:
            while True:
                sent.add(silent.recv(2048))
        except socket.timeout:
            pass
        holds("another request was sent", sent == {first}, sent)
    holds("the notes changed", Path(names[0]).read_bytes() == written)


def try_hard_link(client, folder, address, numbers):
    """Gives notes a hard link, beside or in another folder: both names are refused, and both files stay. Without it the notes are
    used again."""
    for place in ("beside", "far/link"):
        folder_now = folder_of(folder, f"hard-{client}-{place[:3]}")
        path = new_notes(folder_now, numbers)
        drawn, printed, _ = draw(client, path, address)
        holds(f"{client} drew nothing", len(drawn) == 1, printed)
        link = folder_now / place
        os.link(path, link)
        (folder_now / "soft").symlink_to(link)
        before = Path(path).read_bytes()
        for name in (path, str(link), str(folder_now / "soft")):
            drawn, printed, status = draw(client, name, address)
            holds(f"{client} used notes with a hard link, by {name}", not drawn and status, printed)
            holds(f"{client} does not say that they are linked", "linked" in printed, printed)
            if client == "s10":
                holds("the line and the status", (printed, status) == ("notes linked\n", 3), printed, status)
                again = s10("again", "--to", "{}:{}".format(*address), "--notes", name)
                holds("again", again == "notes linked\n", again)
        holds(f"{client} changed the notes", Path(path).read_bytes() == before and os.path.samefile(path, link))
        os.remove(link)
        drawn, printed, _ = draw(client, path, address)
        holds(f"{client} drew nothing without the link", len(drawn) == 1, printed)


def make_odd(path, kind):
    """Makes something at a path that is no regular file."""
    {"pipe": os.mkfifo, "folder": os.mkdir, "link to nothing": lambda it: os.symlink("victim", it),
     "device": lambda it: os.symlink("/dev/null", it)}[kind](path)


def try_odd_files(client, folder, address, numbers):
    """Puts odd files at the paths of the notes and beside them. Each is refused at once and stays; what was written before stays."""
    folder = folder_of(folder, f"odd-{client}")
    path = Path(new_notes(folder, numbers))
    os.remove(f"{path}.lock")
    before, beside = path.read_bytes(), sorted(os.listdir(folder))
    for end in ("", ".new", ".lock"):
        for kind in ("pipe", "folder", "device", "link to nothing"):
            if (end, kind) == (".lock", "link to nothing"):
                continue                        # it leads to a new file, which is a lock as well as another
            odd = f"{path}{end}" if end else str(folder / "odd")
            make_odd(odd, kind)
            drawn, printed, status = draw(client, odd if not end else str(path), address)
            holds(f"{client} took a {kind} at notes{end}", not drawn and status, printed)
            if client == "s10":
                line = {"": "notes missing\n" if kind.startswith("link") else "notes damaged\n"}.get(end, "notes store\n")
                holds("the line and the status", (printed, status) == (line, 3), printed, status)
                made = s10("notes", "--file", odd, "--customer", CUSTOMER, "--first", 1, "--last", 2)
                holds(f"notes at a {kind}", end or made == "notes taken\n", made)
                if end:
                    made = s10("notes", "--file", f"{path}2", "--customer", CUSTOMER, "--first", 1, "--last", 2)
                    holds("other notes", made == "created\n", made)
                    for name in (f"{path}2", f"{path}2.lock"):
                        os.remove(name)
            holds(f"{client} removed a {kind}", os.path.lexists(odd) and not os.path.isfile(odd))
            os.rmdir(odd) if kind == "folder" else os.remove(odd)
            if end != ".lock":
                Path(f"{path}.lock").unlink(missing_ok=True)
            holds(f"{client} left another file", sorted(os.listdir(folder)) == beside, os.listdir(folder))
            holds(f"{client} changed the notes", path.read_bytes() == before)
    Path(f"{path}.new").write_text("of a client that was stopped" * 99, encoding="ascii")
    drawn, printed, _ = draw(client, str(path), address)
    holds(f"{client} drew nothing over the `.new` of another client", len(drawn) == 1, printed)


def try_modes(client, folder, address, numbers):
    """Compares the modes of notes, and as root their owners, before and after a draw."""
    folder = folder_of(folder, f"modes-{client}")
    path = new_notes(folder, numbers)
    holds("the mode of new notes", os.stat(path).st_mode & 0o777 == 0o600, oct(os.stat(path).st_mode))
    for mode in (0o600, 0o640, 0o664):
        os.chmod(path, mode)
        if os.geteuid() == 0:
            os.chown(path, 4711, 4712)
        before, text = os.stat(path), Path(path).read_bytes()
        drawn, printed, _ = draw(client, path, address)
        after = os.stat(path)
        holds(f"{client} drew nothing", len(drawn) == 1, printed)
        kept = [(it.st_mode, it.st_uid, it.st_gid) for it in (before, after)]
        holds(f"{client} changed the mode or the owner", kept[0] == kept[1], kept)
        holds(f"{client} did not change the notes", Path(path).read_bytes() != text, text)


def try_synced(client, folder, address, numbers):
    """Draws under strace, and looks for the calls in their order."""
    folder = folder_of(folder, f"synced-{client}")
    path, log = new_notes(folder, numbers), folder / "calls"
    trace = ["strace", "-f", "-qq", "-y", "-s", "4", "-o", log, "-e", "trace=fsync,/^rename,write,send,sendto,sendmsg"]
    done = subprocess.run([*trace, *words_of(client, path, address)], stdin=subprocess.DEVNULL, capture_output=True, text=True,
                          check=False, cwd=ROOT / "contrib/python", timeout=60)
    holds(f"{client} under strace", done.returncode == 0, done.stdout, done.stderr)
    before = log.read_text(encoding="utf-8").split(', "S1', 1)[0]
    place = re.escape(str(folder))
    order = (rf"fsync\(\d+<{place}/notes\.new>", rf'rename\w*\(.*"{place}/notes\.new".*"{place}/notes"', rf"fsync\(\d+<{place}>")
    is_right = re.search(".*".join(order), before, re.S)
    holds(f"{client} sends a request before its notes are synced", is_right, before)


def open_request(path):
    """Leaves a request open in notes, as a run that got no reply."""
    with socket.socket(socket.AF_INET, socket.SOCK_DGRAM) as silent:
        silent.bind(("127.0.0.1", 0))
        with Client.open(path, silent.getsockname(), tries=1, wait=0.01) as client:
            try:
                client.draw("RA", "GB")
            except GaveUp:
                return
    raise Failed("a silent server replied")


def is_changed_refused(client, path, address):
    """Returns whether a client refuses the notes at once, as no notes. `s10` asks their open request again."""
    if client == "python":
        try:
            Client.open(path, address).close()
        except ValueError:
            return True
        return False
    words = [PROGRAM, "again", "--to", "{}:{}".format(*address), "--notes", path] if client == "s10" else words_of(client, path, address)
    done = subprocess.run(words, stdin=subprocess.DEVNULL, capture_output=True, text=True, check=False, timeout=60)
    if client == "s10":
        return (done.stdout, done.stderr, done.returncode) == ("notes damaged\n", "", 3)
    # A runtime may warn on standard error before.
    return not done.stdout and done.stderr.endswith("s10_draw: no notes\n") and done.returncode == 3


def changes_of(text):
    """Yields each text in which one digit of a number, of the datagram or of the check value is another digit."""
    for value in re.finditer(r'(?<=: )\d+|(?<=: ")[0-9a-f]+', text):
        digits = "0123456789abcdef" if text[value.start() - 1] == '"' else "0123456789"
        for at in range(*value.span()):
            for digit in digits.replace(text[at], ""):
                yield text[:at] + digit + text[at + 1:]


def try_changed(client, folder, address, numbers):
    """Changes each digit of notes with an open request. Returns the number of changes."""
    folder = folder_of(folder, f"changed-{client}")
    path = new_notes(folder, numbers)
    open_request(path)
    text, count = Path(path).read_text(encoding="ascii"), 0
    for changed in itertools.islice(changes_of(text), 0, None, 10 if client in SLOW else 1):
        Path(path).write_text(changed, encoding="ascii")
        holds(f"{client} used changed notes", is_changed_refused(client, path, address), changed)
        holds(f"{client} changed notes that it refuses", Path(path).read_text(encoding="ascii") == changed, changed)
        count += 1
    holds("few changes", count > (50 if client in SLOW else 500), count)
    Path(path).write_text(text, encoding="ascii")
    drawn, printed, _ = draw(client, path, address)
    holds(f"{client} does not know the right notes", drawn or re.search("refused unanswered|has no reply yet", printed), printed)
    return count


def try_older(client, folder, address, numbers):
    """Draws by notes without a check value. The notes have a right one afterwards."""
    path = Path(new_notes(folder_of(folder, f"older-{client}"), numbers))
    members = re.fullmatch(r'(.*), "check": "[0-9a-f]{8}"\}\n', path.read_text(encoding="ascii"))[1]
    path.write_text(members + "}\n", encoding="ascii")
    drawn, printed, _ = draw(client, str(path), address)
    holds(f"{client} drew nothing by older notes", len(drawn) == 1, printed)
    text = path.read_text(encoding="ascii")
    found = re.fullmatch(r'(.*), "check": "([0-9a-f]{8})"\}\n', text)
    holds(f"{client} wrote a wrong check value or none", found and zlib.crc32(found[1].encode()) == int(found[2], 16), text)


def make_and_kill(path, kill_after=None):
    """Creates notes, and kills the program after some seconds. Returns the text of the file, or None, and the status."""
    words = [PROGRAM, "notes", "--file", path, "--customer", "7", "--first", "1", "--last", "9"]
    _, status = run_and_kill(words, kill_after)
    return path.read_text(encoding="ascii") if path.exists() else None, status


def try_killed_making(folder):
    """Kills `notes` at sixty moments of its run. A file at the path has whole notes."""
    folder = folder_of(folder, "made")
    start = time.monotonic()
    holds("notes", make_and_kill(folder / "notes") == (NEW, 0))
    span, made = time.monotonic() - start, Counter()
    for at in range(60):
        text, status = make_and_kill(folder / f"notes{at}", 1.5 * span * at / 60)
        holds("a killed `notes` left no notes in the file", text in (None, NEW), repr(text))
        made["killed" if status else "ended", "no file" if text is None else "notes"] += 1
    print(f"`notes`: {dict(made)}")


NEW = '{"customer": 7, "next": 1, "last": 9, "request": null, "check": "3bd6ab45"}\n'


def main():
    clients = ["s10", "python", *DRAWS]
    if shutil.which("strace") is None:
        print("skipped syncs: strace")
    with tempfile.TemporaryDirectory() as folder:
        server = Server(folder)
        granted = s10("grant", "--to", "{}:{}".format(*server.address), "--number", 1, "--holder", CUSTOMER, "--service", "RA",
                      "--country", "GB", "--first", 0, "--last", 99999)
        numbers = iter(range(1000, 1000000, 100))
        try:
            holds("grant", granted.endswith(" done range 1\n"), granted)
            for client in clients:
                try_in_turn(client, folder, server.address, numbers)
                try_at_once(client, folder, server.address, numbers)
                try_hard_link(client, folder, server.address, numbers)
                try_odd_files(client, folder, server.address, numbers)
                try_modes(client, folder, server.address, numbers)
                if shutil.which("strace"):
                    try_synced(client, folder, server.address, numbers)
                try_older(client, folder, server.address, numbers)
                changes = try_changed(client, folder, server.address, numbers)
                print(f"{client}: {changes} changes of one digit are refused")
            try_held(folder, server.address, numbers, clients)
            try_waiting(folder, numbers)
            try_killed_making(folder)
        except Failed as why:
            print(f"failed: {why}")
            return 1
        finally:
            server.stop()
        issued = [it for _, _, it in server.issues()]
        audit = s10("audit", "--ledger", server.ledger)
        print(f"{len(issued)} draws by {', '.join(clients)}; {audit}", end="")
        return int(len(set(issued)) != len(issued) or not audit.startswith("ledger ok "))


if __name__ == "__main__":
    sys.exit(main())
