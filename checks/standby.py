#!/usr/bin/env python3
"""Tries contrib/standby: loses machines while printers draw, and looks for replies that were lost and identifiers that were given twice.

  python3 checks/standby.py [PROGRAM [PART..]]

Three machines, each with a brick of a GlusterFS volume (machines.py), run contrib/standby/takeover over a ledger. The parts, each with
`=` and how often:

  wrong      with an option of the volume wrong takeover refuses to serve. A server that is started by hand is then cut off and joined
             again, and must give an identifier that another one gives too
  right      the same by hand with the right option, which must do no harm
  lost       the serving machine is lost or cut off, in each way of LOSSES in turn, and joined again; `lost:WAY,WAY` in these ways
  others     what does not serve is lost: the link between the serving machine and another one, which must not serve then; after
             that `restart` must start the server again once no printer asks; a machine; the third one, before `restart`
  alone      both machines that do not serve are lost: no new request may get a reply until one of them is back
  hung       server and takeover hang while the machine's mount answers: no other machine may serve
  three      three ledgers, of which each machine serves one and stands by for another. A machine is lost
  size:CALLS,CALLS   the serving machine is lost with a ledger of that many calls; in none of the lists below

By default the parts of SHORT, which take less than five minutes. `long` are those of LONG. PRINTERS is how many printers draw, otherwise
8. At the end of a part each reply must be in its ledger, no identifier may be on two requests, the audit must print `ledger ok`, and the
three bricks must be equal.
"""

import os
import random
import signal
import statistics
import subprocess
import sys
import tempfile
import time
from pathlib import Path

import machines
import scaling
from machines import Machines, children
from served import MILLION, PATIENCE, PORT, STANDBY, Service, replies
from serving import PROGRAM, Failed

PRINTERS = int(os.environ.get("PRINTERS", "8"))
# How the serving machine is lost: its processes are killed; it is without power; the same in a write that only one of the two others
# has; it is cut off and joined again; the same, and all of it stands still meanwhile; the same, and takeover alone stands still, so
# that its server goes on; takeover is ended, as before an upgrade.
LOSSES = ("killed", "power", "half-written", "cut", "still", "unguarded", "ended")
SHORT = ["wrong", "lost=4:power,half-written,unguarded,ended", "others"]
LONG = ["wrong=2", "right=2", "lost=20", "others=2", "alone", "hung", "three=3"]
# Seconds for which what does not serve is lost.
AWAY = 12
STRICT = "client.strict-locks"
chance = random.Random(os.environ.get("SEED"))


def tell(*words):
    """Prints a line at once."""
    print(*words, flush=True)


def end(service):
    """Ends printers and servers, waits for the heal, and compares. Returns the faults."""
    place = service.place
    service.hush()
    service.stop()
    place.until(lambda: place.is_healed(place.trio[0]), "not healed", PATIENCE)
    faults, draws = service.faults()
    place.until(lambda: place.is_healed(place.trio[0]), "not healed", PATIENCE)
    copies = place.copies(service.name, place.trio)
    if copies != 1:
        faults["different copies"] = copies
    tell(f"{service.name}: {draws} draws got a reply; {faults or 'no fault'}")
    return faults


def must_be_none(faults):
    if faults:
        raise Failed(", ".join(f"{count} {words}" for words, count in faults.items()))


# The serving machine is lost.


def lose(service, machine, way):
    """Loses or cuts off a machine that serves."""
    place = service.place
    if way == "half-written":
        place.block(machine, place.after(place.after(machine)))
        time.sleep(chance.uniform(0.01, 0.2))
    if way == "unguarded":
        service.signal(machine, signal.SIGSTOP)
    if way not in ("killed", "ended"):
        machine.link(False)
    if way == "ended":
        service.signal(machine, signal.SIGTERM)
        service.lost(machine)
    if way == "still":
        machine.signal(signal.SIGSTOP)
    if way in ("killed", "power", "half-written"):
        machine.kill()
        service.lost(machine)
    if way == "half-written":
        place.unblock()


def join(service, machine, way, bricks=3):
    """Joins a machine that was lost or cut off. That many bricks are online then."""
    machine.link(True)
    if way in ("killed", "power", "half-written"):
        machine.boot()
        service.place.wait_for_bricks(machine, bricks)
        machine.attach()
        service.start(machine)
    if way == "ended":
        service.start(machine)
    if way == "still":
        machine.signal(signal.SIGCONT)
    if way == "unguarded":
        # The server that was dropped runs on, and its own printers ask it.
        time.sleep(5)
        service.signal(machine, signal.SIGCONT)


def restart(service, machine):
    """Runs contrib/standby/restart where the ledger is served, as the timer does, until nothing is to be healed."""
    place = service.place
    for _ in range(5):
        service.restart(service.holder(), stderr=subprocess.DEVNULL).wait()
        time.sleep(3)
        if place.is_healed(machine):
            return
    raise Failed(f"not healed: {place.entries(machine)}")


def lose_and_join(service, log, way):
    """Loses the serving machine at a random moment, and joins it once another serves. Returns the seconds until the first reply."""
    machine = service.holder()
    time.sleep(chance.uniform(0.5, 2))
    since = time.time()
    lose(service, machine, way)
    others = [it for it in service.machines if it is not machine]
    differ = ", the two others differ" if service.place.copies(service.name, others) > 1 else ""
    took = service.first_reply(log, since + 0.5) - since
    time.sleep(chance.uniform(0, 3))
    server = next(it.name for it in others if it.has(service.address))
    join(service, machine, way)
    tell(f"{way}: {machine.name} lost{differ}, first reply by {server} after {took:.1f} s")
    return took


def lost(place, name, count, ways):
    """The serving machine is lost, in these ways in turn."""
    ways = ways or LOSSES
    service = Service(place, name)
    service.begin()
    log = service.ask(place.printers, PRINTERS)
    for machine in place.trio:
        service.ask(machine, 2)
    took = {}
    for at in range(count):
        way = ways[at % len(ways)]
        took.setdefault(way, []).append(lose_and_join(service, log, way))
        # Before all bricks have all calls, the loss of the only machine that has them ends the service until it is back.
        restart(service, place.trio[0])
    for way, seconds in took.items():
        middle = statistics.median(seconds)
        tell(f"{way}: {len(seconds)} times, first reply after {min(seconds):.1f} to {max(seconds):.1f} s, median {middle:.1f} s")
    must_be_none(end(service))


# An option of the volume is wrong.


def must_refuse(place, name):
    """Checks that takeover refuses a volume with a wrong option before it starts a server."""
    service = Service(place, name)
    machine = place.trio[0]
    service.create()
    service.start(machine)
    status = service.running[machine.name][0].wait(PATIENCE)
    said = service.said(machine)
    if status != 1 or f"{STRICT} is off, and must be on" not in said or "opening" in said:
        raise Failed(f"takeover over a wrong volume: status {status}: {said}")


def serve_by_hand(service, machine):
    """Serves the ledger without takeover, once it can be opened. Returns the process."""
    place = service.place
    words = ["sysctl", "-qw", "net.ipv4.ip_nonlocal_bind=1"]
    machine.run(*words)
    at = f"{machine.folder}/{service.name}.{len(service.turns)}"
    service.turns.append(f"{at}.turns")
    started = []

    def serves():
        if not started or started[0].poll() is not None:
            with open(f"{at}.turns", "w", encoding="ascii") as turns, open(f"{at}.said", "w", encoding="ascii") as said:
                words = [PROGRAM, "serve", "--ledger", service.seen_by(machine), "--bind", f"{service.address}:{PORT}"]
                started[:] = [machine.start(*words, stdout=turns, stderr=said)]
        with open(f"{at}.said", encoding="ascii") as said:
            return "serving on " in said.read()

    place.until(serves, f"{machine.name} does not serve", PATIENCE)
    machine.run("ip", "address", "add", f"{service.address}/32", "dev", "eth0")
    machine.run("arping", "-q", "-U", "-c", 2, "-I", "eth0", service.address)
    return started[0]


def cut_by_hand(place, name):
    """Cuts off a serving machine with printers of its own, lets another serve, and joins it again. Returns the faults."""
    service = Service(place, name)
    first, second, _ = place.trio
    service.create()
    servers = [serve_by_hand(service, first)]
    service.grant()
    service.ask(place.printers, PRINTERS)
    service.ask(first, PRINTERS)
    time.sleep(chance.uniform(1, 3))
    first.link(False)
    servers.append(serve_by_hand(service, second))
    time.sleep(2)
    first.link(True)
    time.sleep(8)
    service.hush()
    for machine, server in zip((first, second), servers):
        for process in children(server.pid):
            os.kill(process, signal.SIGKILL)
        server.wait()
        machine.run("ip", "address", "del", f"{service.address}/32", "dev", "eth0")
    return end(service)


def wrong(place, name, count, _):
    """An option of the volume is wrong."""
    for at in range(count):
        place.trio[0].run("gluster", "--mode=script", "volume", "set", machines.VOLUME, STRICT, "off")
        must_refuse(place, f"{name}.refused.{at}")
        if "identifiers given to two requests" not in cut_by_hand(place, f"{name}.{at}"):
            raise Failed("the wrong option did no harm, so this check shows nothing")
        tell("wrong: refused by takeover; without takeover identifiers were given to two requests")
    place.trio[0].run(STANDBY / "volume", "set", machines.VOLUME)


def right(place, name, count, _):
    """Servers that are started by hand, with the right option."""
    for at in range(count):
        must_be_none(cut_by_hand(place, f"{name}.{at}"))


# What does not serve is lost.


def longest_gap(log, since):
    """Returns the longest time without a reply since a time."""
    times = [since, *(at for at, _, _, _ in replies(log) if at > since), time.time()]
    return max(after - before for before, after in zip(times, times[1:]))


def others(place, name, count, _):
    """A link and machines that do not serve are lost."""
    service = Service(place, name)
    service.values["PATIENCE"] = 1800
    service.begin()
    for _ in range(count):
        first = service.holder()
        second, third = (it for it in place.trio if it is not first)
        log = service.ask(place.printers, PRINTERS)
        must_see_nothing(service, first)
        gaps = [without_link(service, log, first, second)]
        restart_when_quiet(service, first)
        first = service.holder()
        second, third = (it for it in place.trio if it is not first)
        log = service.ask(place.printers, PRINTERS)
        service.first_reply(log, 0)
        gaps += [without(service, log, machine) for machine in (second, third)]
        words = ", ".join(f"{gap:.1f}" for gap in gaps)
        tell(f"others: the longest time without a reply after the loss of a link, a machine, and the third one before `restart`: {words} s")
        service.hush()
    must_be_none(end(service))


def must_see_nothing(service, machine):
    """Checks that `restart` finds nothing to do while printers draw and no brick was away."""
    status = service.restart(machine).wait()
    if status != 0 or "behind" in machine.run("ls", f"/run/s10-standby/{service.name}"):
        raise Failed(f"restart finds something to do: status {status}: {service.place.entries(machine)}")


def without_link(service, log, first, other):
    """Cuts the link between the serving machine and another one, which must not serve. Returns the longest time without a reply."""
    before = service.said(other).count("serving on")
    since = time.time()
    service.place.block(first, other)
    time.sleep(AWAY)
    gap = longest_gap(log, since)
    if service.said(other).count("serving on") != before:
        raise Failed("a machine serves that reaches the third one alone")
    service.place.unblock()
    return gap


def restart_when_quiet(service, machine):
    """Checks that `restart` waits for the end of the printers, and that the brick that was away then gets all calls."""
    place = service.place
    place.until(lambda: set("".join(place.entries(machine))) - {"0"}, "no brick lacks calls")
    place.wait_for_bricks(machine)
    opened = service.said(machine).count("opening ")
    again = service.restart(machine, stderr=subprocess.PIPE, text=True)
    time.sleep(15)
    if again.poll() is not None or service.said(machine).count("opening ") != opened:
        raise Failed(f"restart does not wait for a quiet moment: {again.communicate()[1]}")
    service.hush()
    said = again.communicate(timeout=PATIENCE)[1]
    if "started again" not in said:
        raise Failed(f"restart says {said}")
    place.until(lambda: place.is_healed(machine), "not healed", PATIENCE)


def without(service, log, machine):
    """Loses a machine that does not serve, and joins it. Returns the longest time without a reply."""
    since = time.time()
    lose(service, machine, "power")
    time.sleep(AWAY)
    gap = longest_gap(log, since)
    join(service, machine, "power")
    return gap


def alone(place, name, count, _):
    """Both machines that do not serve are lost: no new request gets a reply until one of them is back."""
    service = Service(place, name)
    service.begin()
    log = service.ask(place.printers, PRINTERS)
    for _ in range(count):
        first = service.holder()
        lost_ones = [it for it in place.trio if it is not first]
        time.sleep(chance.uniform(0.5, 2))
        for machine in lost_ones:
            lose(service, machine, "power")
        time.sleep(AWAY)
        since = time.time()
        time.sleep(3)
        if any(kind == "new" for at, _, _, kind in replies(log) if at > since):
            raise Failed("a machine alone replies to a new request")
        since = time.time()
        join(service, lost_ones[0], "power", 2)
        tell(f"alone: first reply {service.first_reply(log, since) - since:.1f} s after a machine began to start")
        join(service, lost_ones[1], "power")
        restart(service, place.trio[0])
    must_be_none(end(service))


def hung(place, name, count, _):
    """The server and takeover hang on a machine whose mount still answers: no other machine serves until they go on or end."""
    service = Service(place, name)
    service.begin()
    log = service.ask(place.printers, PRINTERS)
    for _ in range(count):
        machine = service.holder()
        others = [it for it in place.trio if it is not machine]
        before = [service.said(it).count("serving on") for it in others]
        time.sleep(chance.uniform(0.5, 2))
        service.hang(machine)
        since = time.time()
        time.sleep(2 * AWAY)
        if [service.said(it).count("serving on") for it in others] != before:
            raise Failed("another machine serves while one hangs")
        machine.signal(signal.SIGCONT)
        tell(f"hung: for {2 * AWAY} s; first reply {service.first_reply(log, since + 2 * AWAY) - since - 2 * AWAY:.1f} s after it went on")
    must_be_none(end(service))


# Several ledgers.


def three(place, name, count, _):
    """Three ledgers, of which each machine serves one and stands by for another."""
    services = [Service(place, f"{name}.{at}", at, (at, (at + 1) % 3)) for at in range(3)]
    for service in services:
        service.begin()
    for at in range(count):
        logs = [service.ask(place.printers, PRINTERS) for service in services]
        time.sleep(chance.uniform(1, 3))
        machine = services[at % 3].holder()
        since = time.time()
        machine.link(False)
        machine.kill()
        for service in services:
            if machine.name in service.running:
                service.lost(machine)
        took = [service.first_reply(log, since + 0.5) - since for service, log in zip(services, logs)]
        tell(f"three: {machine.name} lost; first replies after {', '.join(f'{it:.1f}' for it in took)} s")
        machine.link(True)
        machine.boot()
        place.wait_for_bricks(machine)
        machine.attach()
        for service in services:
            if machine in service.machines:
                service.start(machine)
    for service in services:
        service.hush()
        service.stop()
    faults, given = {}, []
    for service in services:
        faults |= end(service)
        given += service.accepted().values()
    if len(set(given)) != len(given):
        faults["identifiers of two ledgers"] = len(given) - len(set(given))
    must_be_none(faults)


# The size of the ledger.


def size(place, name, _, sizes):
    """The serving machine is lost with a ledger of many calls."""
    for calls in map(int, sizes):
        service = Service(place, f"{name}.{calls}")
        service.next = 100 * MILLION
        # The calls are of a day in the past.
        service.values["DAYS_AHEAD"] = 100_000
        machine = place.trio[0]
        service.create()
        scaling.fill(f"{place.room}/ledger", calls)
        machine.run("cp", f"{place.room}/ledger", service.seen_by(machine))
        began = time.monotonic()
        machine.run(PROGRAM, "audit", "--ledger", service.seen_by(machine))
        audited = time.monotonic() - began
        for it in place.trio:
            service.start(it)
        log = service.ask(place.printers, PRINTERS)
        service.first_reply(log, 0)
        for way in ("killed", "power"):
            lose_and_join(service, log, way)
            restart(service, machine)
        os.remove(f"{place.room}/ledger")
        tell(f"size: {calls} calls, an audit on the volume takes {audited:.1f} s")
        must_be_none(end(service))


PARTS = {"wrong": wrong, "right": right, "lost": lost, "others": others, "alone": alone, "hung": hung, "three": three, "size": size}


def lacking():
    """Returns what the check needs and the machine does not give, or nothing."""
    if os.geteuid() != 0:
        return "root"
    if not os.path.exists("/dev/fuse"):
        return "/dev/fuse"
    if subprocess.run(["unshare", "--mount", "--pid", "--net", "--fork", "true"], capture_output=True, check=False).returncode != 0:
        return "namespaces"
    with tempfile.NamedTemporaryFile() as file:
        try:
            os.setxattr(file.name, "trusted.s10", b"1")
        except OSError:
            return f"extended attributes in {os.path.dirname(file.name)}"
    return ""


def main():
    if lacks := lacking():
        print(f"skipped: no {lacks}")
        return 0
    machines.alone()
    signal.signal(signal.SIGTERM, lambda *_: sys.exit(1))
    place = Machines(tempfile.mkdtemp())
    words = sys.argv[2:] or SHORT
    try:
        began = time.monotonic()
        place.set_up(STANDBY / "volume")
        tell(f"set up: {time.monotonic() - began:.0f} s")
        for at, word in enumerate(LONG if words == ["long"] else words):
            word, _, ways = word.partition(":")
            part, _, count = word.partition("=")
            began = time.monotonic()
            PARTS[part](place, f"{part}.{at}", int(count or 1), [way for way in ways.split(",") if way])
            tell(f"{word}: {time.monotonic() - began:.0f} s")
    except Failed as why:
        print(f"failed: {why}")
        for said in sorted(Path(place.room).glob("[ABC]/*.said")):
            print(f"{said.parent.name}/{said.name}:", *said.read_text(errors="replace").splitlines()[-6:], sep="\n    ")
        return 1
    finally:
        place.tear_down()
    return 0


if __name__ == "__main__":
    sys.exit(main())
