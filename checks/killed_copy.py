#!/usr/bin/env python3
"""Kills `s10 copy` while a server has the ledger open: before each of its calls that change a file or a name (checks/kill_at.c), and
ROUNDS times, by default 60, at a random moment.

  python3 checks/killed_copy.py [PROGRAM [ROUNDS]]

After each, what is left is brought in order as docs/TROUBLESHOOTING.md says. Then the name of the copy is not there, or an audit of it
finds every call that got a reply before the copy began. A second copy to the name is then whole. The check also looks at a copy that
nothing kills: its mode and owner are those of the ledger, its files are synced before they get their names, the log first, and the
names are synced after each. A name that is taken stays as it is, and nothing is left beside it.
"""

import os
import random
import signal
import statistics
import subprocess
import sys
import tempfile
import time
from collections import Counter
from pathlib import Path

from serving import HERE, PROGRAM, Failed, ask, draw, link_to, serving

ROUNDS = int(sys.argv[2]) if len(sys.argv) > 2 else 60
# More than the log holds before the server moves it into the file, so that both files have calls.
DRAWS = 300
# With the grant.
CALLS = DRAWS + 1
MEASURED = 7


def run(*words, **environment):
    return subprocess.run([PROGRAM, *map(str, words)], env={**os.environ, **environment}, capture_output=True, text=True, check=False)


def audit(path, *options):
    """Returns the line that an audit prints."""
    return run("audit", "--ledger", path, *options).stdout


def is_whole(path):
    """Raises Failed unless the copy has every call."""
    audited = audit(path)
    if audited != f"ledger ok {CALLS}\n":
        raise Failed(f"{sorted(it.name for it in path.parent.iterdir())}: {CALLS} calls got a reply, the audit says {audited}")


def put_in_order(path):
    """Does what docs/TROUBLESHOOTING.md says after a copy was stopped."""
    for name in (f"{path}.new", f"{path}.new-wal"):
        Path(name).unlink(missing_ok=True)
    if not path.exists():
        Path(f"{path}-wal").unlink(missing_ok=True)


def check_left(path):
    """Checks what a killed copy left. Returns it in words."""
    left = sorted(it.name.removeprefix(path.name) or "file" for it in path.parent.iterdir())
    looked = audit(path, "--snapshot")
    expected = f"ledger ok {CALLS}\n" if path.exists() else "ledger not-a-ledger\n"
    if looked != expected:
        raise Failed(f"{left}: a look at the copy says {looked}")
    put_in_order(path)
    if path.exists():
        is_whole(path)
        for it in (path, Path(f"{path}-wal")):
            it.unlink()
    return " ".join(left) or "nothing"


def copy_again(ledger, path):
    """Copies to a name at which a copy was killed."""
    copied = run("copy", "--ledger", ledger, "--to", path)
    if copied.stdout != f"copied {CALLS}\n":
        raise Failed(f"a second copy says {copied.stdout}{copied.stderr}")
    is_whole(path)


def kill_before_each_call(ledger, library):
    """Kills a copy before its first call that changes something, then before its second, and so on. Returns what was left."""
    left = Counter()
    for at in range(1, 1000):
        with tempfile.TemporaryDirectory(dir=ledger.parent) as room:
            path = Path(room, "copy")
            copied = run("copy", "--ledger", ledger, "--to", path, LD_PRELOAD=str(library), KILL_AT=str(at))
            if copied.returncode != -signal.SIGKILL:
                if copied.stdout != f"copied {CALLS}\n":
                    raise Failed(f"a copy that nothing killed says {copied.stdout}{copied.stderr}")
                return left
            left[check_left(path)] += 1
            copy_again(ledger, path)
    raise Failed("a copy does not end")


def kill_at_random(ledger):
    """Kills copies at random moments. Returns what was left."""
    left, choose, times = Counter(), random.Random(1), []
    for _ in range(MEASURED):
        with tempfile.TemporaryDirectory(dir=ledger.parent) as room:
            start = time.monotonic()
            run("copy", "--ledger", ledger, "--to", f"{room}/copy")
            times.append(time.monotonic() - start)
    for _ in range(ROUNDS):
        with tempfile.TemporaryDirectory(dir=ledger.parent) as room:
            path = Path(room, "copy")
            words = [PROGRAM, "copy", "--ledger", str(ledger), "--to", str(path)]
            with subprocess.Popen(words, stdout=subprocess.DEVNULL, stderr=subprocess.DEVNULL) as process:
                time.sleep(choose.uniform(0, 1.2 * statistics.median(times)))
                process.kill()
            left[check_left(path)] += 1
            copy_again(ledger, path)
    return left


def check_whole_copy(ledger, library):
    """Checks the mode and the owner of a copy, and the order in which it was synced and named."""
    with tempfile.TemporaryDirectory(dir=ledger.parent) as room:
        room = Path(room).resolve()
        path, calls = room / "copy", room / "calls"
        copied = run("copy", "--ledger", ledger, "--to", path, LD_PRELOAD=str(library), CALLS=str(calls))
        if copied.stdout != f"copied {CALLS}\n":
            raise Failed(copied.stdout + copied.stderr)
        log = f"{path}-wal"
        expected = [f"sync {path}.new", f"sync {path}.new-wal", f"link {path}.new-wal {log}", f"sync {room}",
                    f"link {path}.new {path}", f"sync {room}"]
        if calls.read_text().splitlines() != expected:
            raise Failed(f"the files were synced and named so:\n{calls.read_text()}")
        calls.unlink()
        wanted = ledger.stat()
        for name in (path, log):
            found = os.stat(name)
            if (found.st_mode, found.st_uid, found.st_gid) != (wanted.st_mode, wanted.st_uid, wanted.st_gid):
                raise Failed(f"{name} has mode {found.st_mode:o} and owner {found.st_uid}:{found.st_gid}")
        if sorted(it.name for it in room.iterdir()) != ["copy", "copy-wal"]:
            raise Failed("a copy left more than two files")
        is_whole(path)


def check_taken(ledger):
    """Checks that a copy to a taken name is refused, and changes nothing."""
    for taken in ("copy", "copy-wal", "copy.new", "copy.new-wal"):
        with tempfile.TemporaryDirectory(dir=ledger.parent) as room:
            Path(room, taken).write_text("mine")
            copied = run("copy", "--ledger", ledger, "--to", f"{room}/copy")
            left = [(it.name, it.read_text()) for it in Path(room).iterdir()]
            if copied.stdout != "refused taken\n" or left != [(taken, "mine")]:
                raise Failed(f"{taken} is taken: {copied.stdout}{left}")
            if f"{room}/{taken}" not in copied.stderr:
                raise Failed(f"{taken} is taken, and standard error does not name it: {copied.stderr}")


def try_copies(folder):
    """Copies a ledger that is being served. Prints what was done."""
    ledger, library = folder / "ledger", folder / "kill_at.so"
    subprocess.run(["cc", "-O1", "-shared", "-fPIC", "-o", str(library), str(HERE / "kill_at.c")], check=True)
    with serving(str(ledger)) as address:
        with link_to(address) as link:
            for number in range(DRAWS):
                ask(link, draw(number))
        ledger.chmod(0o640)
        if os.geteuid() == 0:
            os.chown(ledger, 12345, 54321)
        check_whole_copy(ledger, library)
        check_taken(ledger)
        by_call = kill_before_each_call(ledger, library)
        at_random = kill_at_random(ledger)
    print(f"{by_call.total()} copies were killed before a call, which left: {dict(sorted(by_call.items()))}")
    print(f"{at_random.total()} copies were killed at random, which left: {dict(sorted(at_random.items()))}")


def main():
    with tempfile.TemporaryDirectory() as folder:
        try:
            try_copies(Path(folder).resolve())
        except Failed as why:
            print(f"failed: {why}")
            return 1
    return 0


if __name__ == "__main__":
    sys.exit(main())
