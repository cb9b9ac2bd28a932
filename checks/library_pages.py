#!/usr/bin/env python3
"""Runs the commands of the pages of the C library, and compares their output with what the pages show.

  python3 checks/library_pages.py [PROGRAM [LIBRARY.a]]

PROGRAM is by default crates/s10/out/s10, LIBRARY.a is crates/s10_c/out/libs10_c.a. The pages are those of LIBRARY_PAGES in
documents.py. The programs on contrib/bindings/README.md must be the files beside it. A block of commands is skipped, and said to
be, if the machine lacks what it needs. Each other command is run, or is in NOT_RUN with the reason. The last line is
`library pages ok`, or the status is not 0.
"""

import os
import re
import shutil
import signal
import subprocess
import sys
from pathlib import Path

import documents
from documents import ROOT, Failure, compare, new_room, run_and_compare, run_and_compare_words

PROGRAM = documents.PROGRAM
LIBRARY = Path(sys.argv[2] if len(sys.argv) > 2 else ROOT / "crates/s10_c/out/libs10_c.a").resolve()

NOT_RUN = (
    ("sudo dpkg", "root; checks/c_library.sh installs the packages into a folder"),
    ("sudo ldconfig", "root"),
    ("S10=$(command -v s10) python3 test_s10_client.py", "checks/c_library.sh runs it, with fewer kills"),
    ("(cd crates/s10_c && rt lib", "proves the library for another processor, which takes minutes; checks/c_library.sh does"),
    ("make -C contrib/c", "the library for another processor"),
)
# What a block of commands needs, by the first command that it has.
NEEDS = {
    "make": ("make", "cc"),
    "cc ": ("cc", "pkg-config"),
    "bash ../make_deb.sh": ("cc", "make", "git", "dpkg-deb", "dpkg-shlibdeps"),
    "make s10_draw": ("make", "cc", "program"),
    "arm-linux-gnueabihf-gcc": ("arm-linux-gnueabihf-gcc", "qemu-arm"),
    "make go": ("make", "go", "pkg-config", "program"),
    "make csharp": ("make", "mcs", "mono", "program"),
    "make java": ("make", "java 17", "pkg-config", "program"),
    "python3 -m venv": ("python3-setuptools",),
    "S10_LIBRARY= .build/env": ("python3-setuptools",),
    ".build/env/bin/python label.py": ("python3-setuptools", "program"),
    "mypy ": ("mypy", "python3-setuptools"),
    "go ": ("go", "pkg-config"),
    "mcs ": ("mcs", "mono"),
    "java -Djava": ("java 17",),
    "java --enable": ("java 22",),
}
# The files whose texts the blocks of a language show, in order.
LISTINGS = {"go": ["label.go"], "csharp": ["label.cs"], "java": ["Label17.java", "Label.java"]}


def python_with_setuptools():
    """Returns a Python that can install without a network, or None."""
    for python in ("python3", "/usr/bin/python3"):
        found = shutil.which(python)
        words = [found, "-c", "import venv, ensurepip, setuptools, wheel"]
        if found and subprocess.run(words, stderr=subprocess.DEVNULL, check=False).returncode == 0:
            return found
    return None


def java_version():
    """Returns the number of the Java of this machine, or 0."""
    if shutil.which("java") is None:
        return 0
    said = subprocess.run(["java", "-version"], capture_output=True, text=True, check=False).stderr
    found = re.search(r'version "(\d+)', said)
    return int(found[1]) if found else 0


def has(need):
    """Returns whether the machine has a tool, or the program."""
    if need == "program":
        return os.access(PROGRAM, os.X_OK)
    if need == "python3-setuptools":
        return python_with_setuptools() is not None
    if need.startswith("java "):
        # What is an incubator module in 17 has other names in each version up to 22.
        return java_version() == 17 if need == "java 17" else java_version() >= 22
    return shutil.which(need) is not None


def needs_of(command):
    """Returns what a command needs, by the longest head that it begins with."""
    heads = [head for head in NEEDS if command.head().startswith(head)]
    return NEEDS[max(heads, key=len)] if heads else ()


# The pages. Each room has a copy of contrib and of the pages, and the library installed in a folder of its own.


def prepare(room, page):
    """Copies contrib into a room, installs the library there, and enters the folder of the page."""
    top = room.folder
    shutil.copytree(ROOT / "contrib", top / "contrib", ignore=shutil.ignore_patterns(".build", "build", "__pycache__"))
    shutil.copytree(ROOT / "docs", top / "docs")
    room.env["LIBRARY"] = str(LIBRARY)
    room.prefix = top / "prefix"
    libraries = room.prefix / "lib"
    room.must(f"make -s -C contrib/c BUILD={top}/built PREFIX={room.prefix} all install")
    room.env.update(PKG_CONFIG_PATH=f"{libraries}/pkgconfig", LD_LIBRARY_PATH=str(libraries))
    room.env.update(GOCACHE=f"{top}/go", GOFLAGS="-mod=mod", MAINTAINER="Nobody <nobody@s10.example>")
    room.env.pop("S10_LIBRARY")
    if page == "contrib/python/README.md":  # whose commands run at the top
        python = python_with_setuptools() or "/usr/bin/python3"
        room.env["PATH"] = f"{top}/bin:{Path(python).parent}:{room.env['PATH']}"
    else:
        room.folder = (top / page).parent


def run_make(room, command):
    """Runs make. If the page shows a line, it must be the last one."""
    came = room.must(command.text)
    if command.shown:
        compare(command.where(), command.shown, came[-1:])


def install(room, command):
    """Installs into the folder of the room."""
    room.must(command.text.replace("sudo ", "").replace("/usr/local", str(room.prefix)))


def compile_example(room, command):
    """Compiles the example of the page."""
    example = next(it for it in documents.blocks_of(command.page) if it.language == "c")
    (room.folder / "label.c").write_text("\n".join(example.lines) + "\n", encoding="utf-8")
    run_and_compare(room, command)


def run_java(room, command):
    """Runs Java with the library of the room. If the page shows no output, it must be that of the program in Go."""
    text = command.text.replace("/usr/lib/x86_64-linux-gnu", f"{room.prefix}/lib")
    shown = command.shown or next(it.shown for it in commands_of(command.page) if it.head().startswith("./label "))
    run_and_compare(room, documents.Command(command.page, command.line, text, shown))


def package(room, command):
    """Builds the packages. Their names have the architecture of this machine."""
    arch = room.must("dpkg --print-architecture")[0]
    top = room.folder.parent.parent
    # The date and the author of a package are those of the last commit.
    room.must(f"git init -q {top} && git -C {top} -c user.name=Nobody -c user.email=nobody@localhost commit -q --allow-empty -m x")
    shown = [line.replace("_amd64", "_" + arch) for line in command.shown]
    compare(command.where(), shown, [Path(it).name for it in room.must(command.text)])


def build_client(room, command):
    """Builds the client, puts it on the path, and serves a ledger from which customer 7 can draw."""
    room.must(command.text)
    room.env["PATH"] = f"{room.folder}/.build:{room.env['PATH']}"
    room.serve_new(0, 99, draws=0)


def save_label_in_python(room, command):
    """Saves the example of the page."""
    (room.folder / "label.py").write_text(room.ours(documents.python_block(command.page, "draw_many")), encoding="utf-8")


def label_in_python(room, command):
    """Runs the example of the page over a new ledger."""
    save_label_in_python(room, command)
    room.serve_new(0, 99, draws=0)
    run_and_compare(room, command)


def check_types(room, command):
    """Checks the types of the example of the page."""
    save_label_in_python(room, command)
    run_and_compare(room, command)


HANDLERS = {
    "make s10_draw": build_client,
    "make go": build_client,
    "make csharp": build_client,
    "make java": build_client,
    "make": run_make,
    "sudo make install": install,
    "bash ../make_deb.sh": package,
    "cc -std=c11 label.c": compile_example,
    "java ": run_java,
    ".build/env/bin/python label.py": label_in_python,
    "mypy ": check_types,
    "python3 contrib/python/test_library.py": run_and_compare_words,
}


def commands_of(page):
    """Returns the commands of a page."""
    return [it for block in documents.blocks_of(page) for it in documents.commands_in(documents.steps_of(page, block))]


def reason_not_to_run(command):
    return next((why for head, why in NOT_RUN if command.head().startswith(head)), None)


def run_block(room, steps):
    """Runs the commands of a block. Returns the failures."""
    failures = []
    for step in steps:
        if reason_not_to_run(step) is None:
            step.is_run = True
            try:
                documents.handler_of(step, HANDLERS)(room, step)
            except (Failure, subprocess.TimeoutExpired) as failure:
                failures.append(str(failure))
    return failures


def run_page(page):
    """Runs the blocks of a page in order. Returns the failures and the commands."""
    failures, commands = [], []
    with new_room() as room:
        prepare(room, page)
        for block in documents.blocks_of(page):
            steps = documents.commands_in(documents.steps_of(page, block))
            if not steps:
                continue
            missing = [need for need in needs_of(steps[0]) if not has(need)]
            if missing:
                lacks = f"{PROGRAM} is not built" if missing[0] == "program" else missing[0]
                print(f"skipped {page}:{block.line}: {lacks}")
                continue
            failures += run_block(room, steps)
            commands += steps
    print(f"{page}: {sum(it.is_run for it in commands)} commands run, {sum(not it.is_run for it in commands)} not run")
    return failures, commands


def wrong_listings():
    """Returns the programs on contrib/bindings/README.md that are not the files beside it."""
    page = "contrib/bindings/README.md"
    wrong, listed = [], set()
    for language, names in LISTINGS.items():
        shown = [block.lines for block in documents.blocks_of(page) if block.language == language]
        files = [(ROOT / page).with_name(name).read_text(encoding="utf-8").splitlines() for name in names]
        listed.update(names)
        if shown != files:
            wrong.append(f"{page}: the blocks of {language} are not {', '.join(names)}")
    beside = {it.name for it in (ROOT / page).parent.iterdir() if it.suffix in (".go", ".java", ".cs")}
    return wrong + [f"{page} lists no {name}" for name in sorted(beside - listed)]


def main():
    signal.signal(signal.SIGINT, signal.default_int_handler)
    if not LIBRARY.exists():
        sys.exit(f"{LIBRARY} is not built: cd crates/s10_c && rt lib")
    failures = wrong_listings()
    seen = []
    for page in documents.LIBRARY_PAGES:
        more, commands = run_page(page)
        failures += more
        seen += commands
    everything = [it for page in documents.LIBRARY_PAGES for it in commands_of(page)]
    failures += [f"NOT_RUN: no page has {head}" for head, _ in NOT_RUN if not any(it.head().startswith(head) for it in everything)]
    for failure in failures:
        print(f"failed: {failure}")
    if failures or not seen:
        return 1
    print("library pages ok")
    return 0


if __name__ == "__main__":
    sys.exit(main())
