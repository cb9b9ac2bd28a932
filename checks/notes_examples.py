#!/usr/bin/env python3
"""Runs each example of the pages that keeps notes three times, each to a clean end, with the notes of the run before: the clients in
Python of contrib/README.md, of contrib/python/README.md and of s10client, `s10` by docs/OPERATING.md, and each DRAW: `s10_draw` of
contrib/c, or one of contrib/bindings with the same words and lines. No identifier may be printed twice, and nothing may be asked
again: each run sends one request, a new one.
Then a run of each is killed after its reply, and the next one must ask for that reply again.

    python3 checks/notes_examples.py [PROGRAM [DRAW..]]
"""

import os
import re
import subprocess
import sys
import tempfile
from pathlib import Path

ROOT = Path(__file__).resolve().parent.parent
PROGRAM = os.path.abspath(sys.argv[1] if len(sys.argv) > 1 else ROOT / "crates/s10/out/s10")
DRAWS = [os.path.abspath(it) for it in sys.argv[2:]]
os.environ["S10"] = PROGRAM
sys.path.insert(0, str(ROOT / "contrib/python"))
from test_s10client import Proxy, Server, s10  # noqa: E402

CUSTOMER, RUNS = 7, 3
IDENTIFIER = re.compile(r"\bRA\d{9}GB\b")


class Failed(Exception):
    """What must not happen."""


def holds(what, is_so, *more):
    if not is_so:
        raise Failed(": ".join([what, *map(str, more)]))


def block_of(page, language, word):
    """Returns the one block of a page in this language that has the word."""
    blocks = re.findall(rf"^```{language}\n(.*?)^```$", (ROOT / page).read_text(encoding="utf-8"), re.M | re.S)
    found = [it for it in blocks if word in it]
    holds("one example", len(found) == 1, page, word)
    return found[0]


def example_of_the_client():
    """Returns the example at the head of s10client, without its indentation. Its notes are made once."""
    text = (ROOT / "contrib/python/s10client/__init__.py").read_text(encoding="utf-8").split('"""')[1]
    lines = [it[4:] for it in text.splitlines() if it.startswith("    ")]
    return "\n".join(it if "make_notes(" not in it else f"import os\nif not os.path.exists('printer.notes'): {it}" for it in lines)


class Example:
    """An example: its name, the file that it is saved as, its text, and the command that runs it, in a folder of its own."""

    def __init__(self, name, file, text, words):
        self.name, self.file, self.text, self.words = name, file, text, words

    def prepare(self, folder, address, number):
        """Saves the example for this server and these numbers."""
        host, port = address
        text = self.text.replace('("127.0.0.1", 4000)', f'("{host}", {port})').replace("127.0.0.1:4000", f"{host}:{port}")
        holds("the address", text != self.text or not text, self.name)
        text = text.replace("first=1, last=999999", f"first={number}, last={number + 999}")
        (folder / self.file).write_text(text, encoding="utf-8")
        return [it.replace("HOST", host).replace("PORT", str(port)) for it in self.words]


def examples():
    """Returns the examples."""
    python = [sys.executable, "label.py"]
    found = [
        Example("contrib/README.md", "label.py", block_of("contrib/README.md", "python", "make_notes("), python),
        Example("contrib/python/README.md", "label.py", block_of("contrib/python/README.md", "python", "make_notes("), python),
        Example("s10client", "label.py", example_of_the_client(), python),
        Example("docs/OPERATING.md", "label.sh", block_of("docs/OPERATING.md", "sh", "printer.notes"), ["sh", "label.sh"]),
    ]
    return found + [Example(Path(it).name, "unused", "", [it, "printer.notes", "HOST", "PORT", "RA", "GB"]) for it in DRAWS]


def run(words, folder):
    """Runs an example. Returns the identifiers that it printed."""
    env = {**os.environ, "PYTHONPATH": str(ROOT / "contrib/python"), "PATH": f"{folder}/bin:{os.environ['PATH']}"}
    done = subprocess.run(words, cwd=folder, env=env, stdin=subprocess.DEVNULL, capture_output=True, text=True, check=False, timeout=60)
    holds("the run failed", done.returncode == 0, words, done.stdout, done.stderr)
    return IDENTIFIER.findall(done.stdout)


def try_example(example, folder, server, seed):
    """Runs an example three times, and once more after its notes have an open request."""
    (folder / "bin").mkdir(parents=True)
    (folder / "bin/s10").symlink_to(PROGRAM)
    proxy = Proxy(server.address, seed, lost=0, repeated=0, late=0)
    try:
        number = 1000 * seed
        words = example.prepare(folder, proxy.address, number)
        notes = folder / "printer.notes"
        if example.file != "label.py":
            made = s10("notes", "--file", notes, "--customer", CUSTOMER, "--first", number, "--last", number + 999)
            holds("notes", made == "created\n", made)
        found, asked = [], set()
        for _ in range(RUNS):
            found.append(run(words, folder))
            holds("a run asked other than one new request", len(proxy.requests) == 1 and not asked & set(proxy.requests),
                  example.name, asked, set(proxy.requests))
            asked |= set(proxy.requests)
            proxy.requests.clear()
        drawn = sum(found, [])
        holds("each run prints as many", len(set(map(len, found))) == 1 and drawn, example.name, found)
        holds("an identifier was printed twice", len(set(drawn)) == len(drawn), example.name, found)
        holds("the notes have a request", '"request": null' in notes.read_text(encoding="ascii"), example.name)
        again = open_request(example, notes, proxy.address, len(found[0]))
        found = run(words, folder)
        holds("a reply was lost", found[: len(again)] == again, example.name, found, again)
        holds("the rest is new", not set(found[len(again) :]) & set(drawn + again), example.name, found)
        return len(drawn) + len(set(found))
    finally:
        proxy.stop()


def open_request(example, notes, address, count):
    """Draws by the notes as a run that is killed before its reply is used. Returns the identifiers."""
    program = ("import os, sys; from s10client import Client\n"
               "client = Client.open(sys.argv[1], (sys.argv[2], int(sys.argv[3])))\n"
               "is_sheet, count = sys.argv[4] == 'sheet', int(sys.argv[5])\n"
               "drawn = client.draw_many('RA', 'GB', count) if is_sheet else [client.draw('RA', 'GB')]\n"
               "print(*[it.identifier for it in drawn], flush=True)\n"
               "os.kill(os.getpid(), 9)\n")
    kind = "sheet" if "draw_many" in example.text else "single"
    words = [sys.executable, "-c", program, notes, address[0], str(address[1]), kind, str(count)]
    done = subprocess.run(words, cwd=ROOT / "contrib/python", capture_output=True, text=True, check=False)
    holds("a run that is killed", done.returncode == -9, done.stderr)
    return done.stdout.split()


def main():
    with tempfile.TemporaryDirectory() as folder:
        server = Server(folder)
        drawn = 0
        try:
            granted = s10("grant", "--to", "{}:{}".format(*server.address), "--number", 1, "--holder", CUSTOMER, "--service", "RA",
                          "--country", "GB", "--first", 0, "--last", 9999)
            holds("grant", granted.endswith(" done range 1\n"), granted)
            for seed, example in enumerate(examples(), 1):
                drawn += try_example(example, Path(folder, str(seed)), server, seed)
        except Failed as why:
            print(f"failed: {why}")
            return 1
        finally:
            server.stop()
        issued = [it for _, _, it in server.issues()]
        print(f"{len(examples())} examples, {drawn} identifiers, each once")
        return int(len(set(issued)) != len(issued) or len(issued) != drawn)


if __name__ == "__main__":
    sys.exit(main())
