#!/usr/bin/env python3
"""Writes s10.html, the page for the counter: page.html with the C library as WebAssembly in it.

  python3 contrib/page/make_page.py                  proves and builds the library, and writes s10.html
  python3 contrib/page/make_page.py --check          builds it again, and compares: prints the difference, or nothing
  python3 contrib/page/make_page.py --module FILE    the same with a module that is built already; also with --check

The module is built from the sources of the C library in a copy, with another target: the repository has the library for C only.
Needs `rt` of the Rattle kit, unless there is a module. Building takes minutes.
"""

import argparse
import base64
import re
import shutil
import subprocess
import sys
import tempfile
import textwrap
from pathlib import Path

HERE = Path(__file__).resolve().parent
ROOT = HERE.parent.parent
CRATES = ("s10_core", "s10_wire", "s10_lines", "s10_plain", "s10_c")

# 20 pages of 64 KiB: the stack of 1 MiB, the constants, and what the page passes to the library.
TARGET = "wasm64 memory=1310720"


def build_module():
    """Proves and builds the library for WebAssembly in a copy. Returns the module."""
    with tempfile.TemporaryDirectory() as folder:
        copy = Path(folder)
        shutil.copy(ROOT / "HANDLES", copy)
        lines = (ROOT / "crates.txt").read_text(encoding="utf-8").splitlines()
        lines = [line for line in lines if re.split("[ :]", line)[0] in CRATES]
        text = "\n".join(lines) + "\n"
        if text.count("s10_c staticlib:") != 1:
            sys.exit("crates.txt has no line `s10_c staticlib:`")
        (copy / "crates.txt").write_text(text.replace("s10_c staticlib:", f"s10_c {TARGET}:"), encoding="utf-8")
        for crate in CRATES:
            # What `rt` has proved of the others is the same for each target.
            left_out = shutil.ignore_patterns("must-fail", *(["out"] if crate == "s10_c" else []))
            shutil.copytree(ROOT / "crates" / crate, copy / "crates" / crate, ignore=left_out)
        crate = copy / "crates/s10_c"
        done = subprocess.run(["rt", "lib"], cwd=crate, stdout=subprocess.PIPE, stderr=subprocess.STDOUT, text=True, check=False)
        if done.returncode != 0 or "logic=proved" not in done.stdout:
            sys.exit(done.stdout + "rt lib failed")
        return (crate / "out/s10_c.wasm").read_bytes()


def page_of(module):
    """Returns the page with this module."""
    version = re.search(r"^## ([\d.]+)", (ROOT / "CHANGELOG.md").read_text(encoding="utf-8"), re.MULTILINE)[1]
    wasm = "\n".join(textwrap.wrap(base64.b64encode(module).decode(), 120))
    page = (HERE / "page.html").read_text(encoding="utf-8")
    return page.replace("@VERSION@", version).replace("@WASM@", wasm)


def first_difference(old, new):
    """Returns the number and the two forms of the first line in which two texts differ."""
    lines = zip(old.splitlines() + [""], new.splitlines() + [""], strict=False)
    return next((f"{at}\n  in s10.html: {a[:100]}\n  built:       {b[:100]}" for at, (a, b) in enumerate(lines, 1) if a != b), "the last")


def main():
    parser = argparse.ArgumentParser()
    parser.add_argument("--check", action="store_true")
    parser.add_argument("--module", type=Path)
    arguments = parser.parse_args()
    page = page_of(arguments.module.read_bytes() if arguments.module else build_module())
    path = HERE / "s10.html"
    if not arguments.check:
        path.write_text(page, encoding="utf-8")
    elif path.read_text(encoding="utf-8") != page:
        sys.exit(f"s10.html is not what is built; line {first_difference(path.read_text(encoding='utf-8'), page)}")


if __name__ == "__main__":
    main()
