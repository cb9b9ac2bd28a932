#!/usr/bin/env python3
"""Builds with `./s10` over a stand-in for the kit, and compares what it prints, builds and leaves.

    python3 checks/build_log.py [TOP]      by default the script and the Makefile of this repository

The stand-in's compiler refuses a library that is not there, as the real one does, and proves nothing. Then the check tries
scripts that are wrong, each of which it must refuse. It takes about a minute.
"""

import contextlib
import os
import pathlib
import pty
import re
import shutil
import signal
import subprocess
import sys
import tempfile
import time

TOP = pathlib.Path(__file__).resolve().parent.parent
MIDDLE = "s10_book"
# The last commit whose script did not see a crate without dependencies.
BLIND = "df453fb5"

COMPILER = """#!/bin/bash
state=$STAND_IN
echo "begins $3 $(date +%s.%N)" >>"$state/told"
while [ $# -gt 0 ]; do
    case $1 in
        --crate-name) crate=$2 ;;
        --extern) [ -e "${2#*=}" ] || { echo "rattle: ${2#*=} is not there" >&2; exit 1; } ;;
        -o) result=$2 ;;
    esac
    shift
done
echo "compiler: $crate"
if [ "$crate" = "$(cat "$state/refused")" ]; then
    printf 'refused: %s\\nits second line\\nits last line\\n' "$crate" >&2
    echo "refused $crate $(date +%s.%N)" >>"$state/told"
    exit 1
fi
sleep "$(cat "$state/seconds")" &
wait $!
: >"$result"
echo "ends $crate $(date +%s.%N)" >>"$state/told"
"""
LINKER = """#!/bin/bash
while [ "$1" != -o ]; do shift; done
printf '#!/bin/sh\\necho "the program: $*"\\n' >"$2"
chmod +x "$2"
"""

# Scripts that are wrong: a file, a text in it, and the text in its place.
WRONG = {
    "a crate without dependencies is not seen": ("Makefile", 'print name[1] "/std";', 'if ($$2 != "") print name[1] "/std";'),
    "a crate begins before one that it uses": ("Makefile", "$(patsubst %,$(built)/%.proved,$(filter $(crates),$(used_by)))", ""),
    "the words of the crate that failed are hidden": ("s10", "${lines:-$line$'\\n'}", "$line"),
    "the words of other crates are shown": ("s10", "lines='' && count", "count"),
    "the other crates go on": ("s10", "            end_make\n", '            wait "$make"\n'),
    "a process is left": ("s10", 'kill -- -"$make" && sleep 0.3 && kill -KILL -- -"$make"', 'kill "$make"'),
    "a change is not seen": ("Makefile", "$(sources_of)", ""),
    "the end of a line makes it another": ("Makefile", "$(strip $(file < $(built)/$(1).proved))", "$(file < $(built)/$(1).proved)"),
    "a second use does not wait": ("s10", "flock 9", "true"),
    "a crate is proved again after an interruption": ("Makefile", "mv ../../$(built)/$(1).begun ../../$$@", "true"),
    "all crates are proved again": ("Makefile", "<$(means_of)>,<", "<$(means_of)>,<not "),
}


class Failed(Exception):
    pass


def must(holds, why):
    if not holds:
        raise Failed(why)


def crates_in(text):
    """Returns the crates of crates.txt, each with the libraries that it names."""
    lines = [line.split("#")[0].split(":") for line in text.splitlines() if ":" in line.split("#")[0]]
    return {head.split()[0]: tail.split() for head, tail in lines}


def below(crate, crates):
    """Returns our own crates that a crate needs, itself included."""
    return {crate}.union(*(below(other, crates) for other in crates[crate] if other in crates))


class Room:
    """A folder like the top of the repository, with a crate for each line of crates.txt, beside a stand-in for the kit."""

    def __init__(self, folder, script, makefile):
        self.folder = folder
        self.top = folder / "a top"
        self.crates = crates_in((TOP / "crates.txt").read_text(encoding="utf-8"))
        self.needed = below("s10", self.crates)
        (self.top / "crates").mkdir(parents=True)
        shutil.copy(script, self.top / "s10")
        if makefile.exists():
            shutil.copy(makefile, self.top / "Makefile")
        shutil.copy(TOP / "crates.txt", self.top)
        for crate in self.crates:
            (self.top / "crates" / crate / "src").mkdir(parents=True)
            self.touch(crate)
        kit = folder / "kit"
        for name in {"std", *(it for uses in self.crates.values() for it in uses if it not in self.crates)}:
            (kit / "rlibs" / f"{name}.rlib").mkdir(parents=True)
        (kit / "bin").mkdir()
        (kit / "KIT-ID").write_text("a stand-in\n")
        for name, text in (("rattle", COMPILER), ("rattle-link", LINKER)):
            (kit / "bin" / name).write_text(text)
            (kit / "bin" / name).chmod(0o755)
        self.env = {**os.environ, "PATH": f"{kit}/bin:{os.environ['PATH']}", "STAND_IN": str(folder)}
        self.set(seconds=0, refused="none")

    def set(self, **values):
        for name, value in values.items():
            (self.folder / name).write_text(f"{value}\n")

    def touch(self, crate):
        (self.top / "crates" / crate / "src" / "lib.rt").write_text(f"{time.time()}\n")

    def start(self, stderr=subprocess.PIPE):
        words = [self.top / "s10", "one", "two words"]
        return subprocess.Popen(words, env=self.env, cwd="/", text=True, start_new_session=True, stdin=subprocess.DEVNULL,
                                stdout=subprocess.PIPE, stderr=stderr)

    def run(self):
        """Runs the script and returns its status, what it printed, and what the compiler did meanwhile."""
        (self.folder / "told").write_text("")
        out, log = (ran := self.start()).communicate(timeout=60)
        return ran.returncode, out, log, self.told()

    def told(self):
        """Returns what the compiler did, in order: a word, a crate and a time."""
        return [line.split() for line in (self.folder / "told").read_text().splitlines()]

    def processes(self):
        """Returns the processes of a build that run now, each with its command."""
        found = {}
        for environ in pathlib.Path("/proc").glob("[0-9]*/environ"):
            try:
                if f"STAND_IN={self.folder}".encode() in environ.read_bytes().split(b"\0"):
                    found[int(environ.parent.name)] = environ.parent.joinpath("cmdline").read_text().replace("\0", " ")[:100]
            except OSError:
                pass
        return found


def proved_in(told):
    return sorted(crate for word, crate, _ in told if word == "ends")


def must_run(ran):
    last = ran[2].splitlines()[-1:]
    must(ran[:2] == (0, "the program: one two words\n"), f"status {ran[0]}, {ran[1]!r}, {last}\n{ran[2]}")


def must_build(ran, wanted):
    """The log has a line at the start and one for each crate that is built, in their order, and no other line."""
    must_run(ran)
    must(proved_in(ran[3]) == sorted(wanted), f"built {proved_in(ran[3])} and not {sorted(wanted)}")
    lines = ran[2].splitlines()
    must(lines and lines[0].startswith("s10: building: "), f"no line at the start:\n{ran[2]}")
    form = re.compile(r"s10: minute \d+: (\d+) of (\d+) crates are proved, (\w+) last")
    found = [form.fullmatch(line) for line in lines[1:]]
    must(all(found), f"another line:\n{ran[2]}")
    must([(int(it[1]), int(it[2])) for it in found] == [(at + 1, len(wanted)) for at in range(len(wanted))], f"counts:\n{ran[2]}")
    must(sorted(it[3] for it in found) == sorted(wanted), f"crates:\n{ran[2]}")


def try_builds(room):
    ran = room.run()
    must_build(ran, room.needed)
    ended = set()
    for word, crate, _ in ran[3]:
        must(word == "ends" or ended >= below(crate, room.crates) - {crate}, f"{crate} began before one that it needs")
        ended |= {crate} if word == "ends" else set()
    ran = room.run()
    must_run(ran)
    must(ran[2] == "" and not ran[3], f"a second use builds:\n{ran[2]}")
    room.touch(MIDDLE)
    above = {crate for crate in room.needed if MIDDLE in below(crate, room.crates)}
    must_build(room.run(), above)
    text = (room.top / "crates.txt").read_text()
    (room.top / "crates.txt").write_text(text.replace(f"{MIDDLE}:", f"{MIDDLE}: itoa") + "s10_another:\n")
    must_build(room.run(), above)
    (room.top / "crates.txt").write_text(text)


def try_kits(room):
    """Another kit builds all again, and the same one nothing, however long its name is."""
    for length in range(10, 400, 60):
        (room.folder / "kit" / "KIT-ID").write_text("k" * length + "\n")
        (room.top / ".build" / "began").unlink(missing_ok=True)
        must_build(room.run(), room.needed)
        (room.top / ".build" / "began").unlink()
        must_build(room.run(), ())


def try_lines_in_time(room):
    """Each line is there when its crate is proved."""
    room.set(seconds=0.3)
    ran = room.start()
    os.read(ran.stderr.fileno(), 1000)
    must("1 of" in os.read(ran.stderr.fileno(), 1000).decode() and ran.poll() is None, "no line while it builds")
    ran.communicate(timeout=60)


def try_a_terminal(room):
    """A terminal has one line, which is written over and cleared at the end."""
    main, other = pty.openpty()
    ran = room.start(stderr=other)
    os.close(other)
    ran.communicate(timeout=60)
    shown = os.read(main, 100_000).decode()
    os.close(main)
    must(shown.count("\n") == 1 and shown.endswith("\r\033[K"), f"a terminal shows {shown!r}")
    must(f"{len(room.needed)} of {len(room.needed)} crates are proved, s10 last" in shown, f"a terminal shows {shown!r}")


def try_a_refused_crate(room):
    """The words of the crate come last, and nothing goes on."""
    room.set(refused=MIDDLE)
    (room.folder / "told").write_text("")
    ran = room.start()
    # The crates beside it are slow.
    while "s10_history" not in proved_in(room.told()):
        time.sleep(0.01)
    room.set(seconds=20)
    out, log = ran.communicate(timeout=60)
    took = time.time() - max(float(at) for word, _, at in room.told() if word == "refused")
    left = room.processes()
    want = f"s10: the program was not built, because of {MIDDLE}:\ncompiler: {MIDDLE}\nrefused: {MIDDLE}\nits second line\nits last line\n"
    must((ran.returncode, out) == (3, ""), f"status {ran.returncode}, {out!r}")
    must(log.endswith(want) and log.count("compiler: ") == 1, f"not the words of the crate that failed:\n{log}")
    must(took < 2, f"it ends {took:.1f} s after the failure")
    must(not left, f"left: {left}")


def try_interruptions(room):
    """Ctrl-C at ten moments: nothing is left, and what was proved is not proved again."""
    room.set(seconds=0.7)
    kept = set()
    for moment in range(11):
        (room.folder / "told").write_text("")
        ran = room.start()
        if moment < 10:
            time.sleep(0.1 + 0.2 * moment)
            must(ran.poll() is None, f"ended before interruption {moment}")
            os.killpg(ran.pid, signal.SIGINT)
        else:
            room.set(seconds=0)
        out, log = ran.communicate(timeout=60)
        again = kept.intersection(crate for _, crate, _ in room.told())
        must(not again, f"proved again after an interruption: {again}")
        must(not room.processes(), f"left after an interruption: {room.processes()}")
        if moment < 10:
            must(ran.returncode in (130, -signal.SIGINT) and out == "", f"interrupted: status {ran.returncode}, {out!r}\n{log}")
        kept = {path.stem for path in (room.top / ".build").glob("*.proved")}
    must_run((ran.returncode, out, log))
    must(kept == room.needed, f"interrupted, and then built {kept}")


def try_two_at_once(room):
    room.set(seconds=0.05)
    (room.folder / "told").write_text("")
    both = [room.start(), room.start()]
    for ran in both:
        out, log = ran.communicate(timeout=60)
        must_run((ran.returncode, out, log))
    must(proved_in(room.told()) == sorted(room.needed), f"two at once built {proved_in(room.told())}")


def try_all(script, makefile):
    for trial in (try_builds, try_kits, try_lines_in_time, try_a_terminal, try_a_refused_crate, try_interruptions, try_two_at_once):
        with tempfile.TemporaryDirectory(ignore_cleanup_errors=True) as folder:
            room = Room(pathlib.Path(folder).resolve(), script, makefile)
            try:
                trial(room)
            finally:
                for process in room.processes():
                    with contextlib.suppress(ProcessLookupError):
                        os.kill(process, signal.SIGKILL)


def refusal_of(script, makefile):
    """Returns why these are refused, or None."""
    try:
        try_all(script, makefile)
    except (Failed, subprocess.TimeoutExpired) as failed:
        return str(failed).splitlines()[0]
    return None


def try_wrong_ones(top):
    with tempfile.TemporaryDirectory() as folder:
        room = pathlib.Path(folder)
        for number, (what, (file, old, new)) in enumerate(WRONG.items()):
            wrong = room / str(number)
            wrong.mkdir()
            for name in ("s10", "Makefile"):
                shutil.copy(top / name, wrong / name)
            text = (wrong / file).read_text()
            must(text.count(old) == 1, f"{file} has not once {old!r}")
            (wrong / file).write_text(text.replace(old, new))
            must(why := refusal_of(wrong / "s10", wrong / "Makefile"), f"not refused: {what}")
            print(f"refused: {what}: {why:.150}")
        old = subprocess.run(["git", "-C", str(TOP), "show", f"{BLIND}:s10"], capture_output=True)
        if old.returncode == 0:
            (room / "s10").write_bytes(old.stdout)
            (room / "s10").chmod(0o755)
            must(why := refusal_of(room / "s10", room / "Makefile"), f"not refused: the script of {BLIND}")
            print(f"refused: the script of {BLIND}: {why:.150}")


def main():
    top = pathlib.Path(sys.argv[1]).resolve() if len(sys.argv) > 1 else TOP
    try:
        try_all(top / "s10", top / "Makefile")
        try_wrong_ones(top)
    except (Failed, subprocess.TimeoutExpired) as failed:
        sys.exit(f"failed: {failed}")
    print(f"ok: a line for each of {len(below('s10', crates_in((TOP / 'crates.txt').read_text(encoding='utf-8'))))} crates")


main()
