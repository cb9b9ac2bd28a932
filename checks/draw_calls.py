#!/usr/bin/env python3
"""Prints the functions of this repository that a server calls for each Draw, then how many they are and in how many files.

    python3 checks/draw_calls.py PROGRAM

The program is one in which no call is inlined: `s10 backend=rattle opt_level=0: ..` in crates.txt, then `rt run -- --version` in
crates/s10. valgrind's callgrind counts the calls of a server that gets 10 Draws, and of one that gets 60. A function whose calls
differ by 50 or more takes part in each Draw. Derived implementations and what ends the life of a value are left out.
"""

import re
import subprocess
import sys
import tempfile

from serving import PROGRAM, ask, draw, link_to, request

LEFT_OUT = re.compile(r"Destruct|::fn::|\+\+|(PartialEq|Hash|Display|Debug|Drop|Clone)::")
GRANT = request(1, 1, 0, 1, bytes.fromhex("00000007524147420000000005f5e0ff"))


def calls_of(profile):
    """Returns how often each function was called, by a profile of callgrind."""
    calls = {}
    called = ""
    for line in profile:
        if line.startswith("cfn="):
            called = line[4:].strip()
        elif line.startswith("calls="):
            calls[called] = calls.get(called, 0) + int(line[6:].split()[0])
    return calls


def served(draws):
    """Returns how often each function was called in a server that got a Grant and this many Draws, one after another."""
    with tempfile.TemporaryDirectory() as room:
        ledger, profile = f"{room}/ledger", f"{room}/profile"
        subprocess.run([PROGRAM, "create", "--ledger", ledger, "--interval", "30", "--limit", "1000"], check=True, stdout=subprocess.DEVNULL)
        words = ["valgrind", "--tool=callgrind", f"--callgrind-out-file={profile}", "--compress-strings=no", PROGRAM]
        words += ["serve", "--ledger", ledger, "--bind", "127.0.0.1:0", "--count", str(draws + 1), "--day", "20000"]
        with subprocess.Popen(words, stdout=subprocess.DEVNULL, stderr=subprocess.PIPE, text=True) as server:
            address = next(line.split()[-1] for line in server.stderr if line.startswith("serving on "))
            with link_to(address) as link:
                ask(link, GRANT)
                for number in range(1, draws + 1):
                    ask(link, draw(number))
            server.stderr.read()
        with open(profile, encoding="utf-8", errors="replace") as it:
            return calls_of(it)


def main():
    few, many = served(10), served(60)
    each = {}
    for name, calls in many.items():
        more = calls - few.get(name, 0)
        if name.startswith("s10") and more >= 50 and not LEFT_OUT.search(name):
            function = re.sub(r"::<.*", "", name)
            each[function] = each.get(function, 0) + more / 50
    for function, calls in sorted(each.items()):
        print(f"{calls:6.0f} {function}")
    files = {"::".join(it for it in function.split("::")[:-1] if it.islower()) for function in each}
    print(f"{len(each)} functions in {len(files)} files")
    return 0 if each else 1


if __name__ == "__main__":
    sys.exit(main())
