"""Machines with a GlusterFS volume, all of them on this one, for standby.py.

Each is a network namespace with processes, mounts, a host name and a folder of its own, joined to the others by a switch. Nothing leaves
them, and all ends with the process that made them, which must be alone in its namespaces (`alone`). Wants root.
"""

import contextlib
import os
import re
import shutil
import signal
import subprocess
import sys
import time

from serving import PROGRAM, Failed

SWITCH = "switch"
# The first process of a machine.
INIT = "import signal\nsignal.signal(signal.SIGCHLD, signal.SIG_IGN)\nprint(flush=True)\nwhile True: signal.pause()"
SET_UP = """set -e
mount --make-rprivate /
mount -t tmpfs none /run
mkdir -p /run/gluster
mount --bind "$1/glusterd" /var/lib/glusterd
mount --bind "$1/log" /var/log/glusterfs
hostname "$2"
exec "$3" -c "$4"
"""
VOLUME = "s10"
PATIENCE = 120


def run(*words, check=True, timeout=PATIENCE, stderr=subprocess.STDOUT):
    """Runs a command. Returns what it printed, by default also on standard error."""
    words = [str(word) for word in words]
    done = subprocess.run(words, text=True, stdout=subprocess.PIPE, stderr=stderr, timeout=timeout, check=False)
    if check and done.returncode:
        raise Failed(f"{' '.join(words)}: status {done.returncode}: {done.stdout}")
    return done.stdout


def alone():
    """Goes on in namespaces that end with this process, so that nothing stays if it is killed."""
    if os.environ.get("ALONE") != "1":
        os.environ["ALONE"] = "1"
        os.execvp("unshare", ["unshare", "--mount", "--pid", "--fork", "--kill-child", "--mount-proc", sys.executable, *sys.argv])
    run("mount", "--make-rprivate", "/")
    run("mount", "-t", "tmpfs", "none", "/run")


def children(process):
    """Returns the processes that a process started."""
    with open(f"/proc/{process}/task/{process}/children", encoding="ascii") as found:
        return [int(child) for child in found.read().split()]


class Machine:
    """A machine. Its namespace stays; its processes begin with `boot` and end with `kill`."""

    def __init__(self, room, name, number):
        self.name, self.ip, self.port = name, f"10.9.0.{number}", f"to{name}"
        self.folder = f"{room}/{name}"
        self.brick, self.mount = f"{self.folder}/brick/{VOLUME}", f"{self.folder}/mount"
        self.init, self.started = None, []
        for part in ("brick", "glusterd", "log", "mount"):
            os.makedirs(f"{self.folder}/{part}")

    def wire(self):
        """Makes the network namespace, and a port of the switch for it."""
        run("ip", "netns", "add", self.name)
        run("ip", "-n", self.name, "link", "add", "name", "eth0", "type", "veth", "peer", "name", self.port, "netns", SWITCH)
        run("ip", "-n", SWITCH, "link", "set", "dev", self.port, "master", "br0", "up")
        run("ip", "-n", self.name, "addr", "add", f"{self.ip}/24", "dev", "eth0")
        run("ip", "-n", self.name, "link", "set", "dev", "eth0", "up")
        run("ip", "-n", self.name, "link", "set", "dev", "lo", "up")

    def link(self, up):
        """Lets the switch carry the machine's packets, or drop them all without a notice to either end."""
        run("ip", "netns", "exec", SWITCH, "bridge", "link", "set", "dev", self.port, "state", "3" if up else "0")

    def boot(self):
        """Starts the first process, and glusterd with the brick if it has one."""
        words = ["ip", "netns", "exec", self.name, "unshare", "--mount", "--pid", "--uts", "--fork", "--mount-proc", "sh", "-c", SET_UP]
        self.init = subprocess.Popen(
            [*words, "sh", self.folder, self.name, sys.executable, INIT], stdout=subprocess.PIPE, stderr=subprocess.DEVNULL
        )
        self.init.stdout.readline()
        self.first = children(self.init.pid)[0]
        self.run("glusterd", "-p", "/run/glusterd.pid")

    def kill(self):
        """Ends all processes at once. The addresses that it took go with them, as in a machine that starts again."""
        self.resume()
        os.kill(self.first, signal.SIGKILL)
        self.init.wait()
        self.init.stdout.close()
        self.init = None
        for address in set(re.findall(r"inet (\S+)/32 ", run("ip", "-n", self.name, "addr", "show", "dev", "eth0"))):
            run("ip", "-n", self.name, "addr", "del", f"{address}/32", "dev", "eth0")

    def words(self, *words):
        """Returns the command that runs these words in the machine."""
        return ["nsenter", "-t", str(self.first), "-m", "-p", "-n", "-u", *map(str, words)]

    def run(self, *words, **options):
        """Runs a command in the machine. Returns what it printed."""
        return run(*self.words(*words), **options)

    def start(self, *words, **options):
        """Starts a command in the machine. Returns its process, whose only child runs it."""
        self.started.append(subprocess.Popen(self.words(*words), **options))
        return self.started[-1]

    def resume(self):
        """Lets the processes of `start` go on: nsenter stops with its child, and does not go on with it."""
        for process in self.started:
            process.send_signal(signal.SIGCONT)
        self.started = [process for process in self.started if process.poll() is None]

    def signal(self, number):
        """Sends a signal to all processes but the first."""
        if number == signal.SIGCONT:
            self.resume()
        space = os.readlink(f"/proc/{self.first}/ns/pid")
        for process in filter(str.isdigit, os.listdir("/proc")):
            with contextlib.suppress(OSError):
                if int(process) != self.first and os.readlink(f"/proc/{process}/ns/pid") == space:
                    os.kill(int(process), number)

    def has(self, address):
        """Returns whether the machine has an address."""
        return f"inet {address}/" in run("ip", "-n", self.name, "addr")

    def attach(self):
        """Mounts the volume as takeover does, for looking."""
        options = "direct-io-mode=enable,attribute-timeout=0,entry-timeout=0,negative-timeout=0"
        self.run("mount", "-t", "glusterfs", "-o", options, f"localhost:/{VOLUME}", self.mount)


class Machines:
    """Three machines A, B and C with a brick each, and P for printers, which are processes in its namespace."""

    def __init__(self, room):
        self.room = room
        # The server runs as another user, who must reach the program and the mounts.
        os.chmod(room, 0o755)
        os.mkdir(f"{room}/bin")
        shutil.copy(PROGRAM, f"{room}/bin/s10")
        self.path = f"PATH={room}/bin:{os.environ['PATH']}"
        self.trio = [Machine(room, name, number) for number, name in enumerate("ABC", 1)]
        self.printers = Machine(room, "P", 9)

    def set_up(self, script):
        """Makes the machines, and the volume with the options that the script sets."""
        run("ip", "netns", "add", SWITCH)
        run("ip", "-n", SWITCH, "link", "add", "name", "br0", "type", "bridge")
        run("ip", "-n", SWITCH, "link", "set", "dev", "br0", "up")
        for machine in (*self.trio, self.printers):
            machine.wire()
        for machine in self.trio:
            machine.boot()
        first, *others = self.trio
        for machine in others:
            self.until(lambda it=machine: "success" in first.run("gluster", "peer", "probe", it.ip, check=False), "no peer")
        self.until(lambda: first.run("gluster", "peer", "status").count("Peer in Cluster (Connected)") == 2, "no peers")
        bricks = [f"{machine.ip}:{machine.brick}" for machine in self.trio]
        first.run("gluster", "--mode=script", "volume", "create", VOLUME, "replica", 3, *bricks, "force")
        first.run(script, "set", VOLUME)
        first.run("gluster", "volume", "start", VOLUME)
        for machine in self.trio:
            self.wait_for_bricks(machine)
            machine.attach()

    def tear_down(self):
        """Ends the machines, and removes what they wrote."""
        for machine in self.trio:
            with contextlib.suppress(OSError, Failed):
                machine.kill()
        shutil.rmtree(self.room, ignore_errors=True)

    def until(self, holds, words, seconds=60):
        """Waits until a condition holds. Raises Failed with the words if it does not in time."""
        end = time.monotonic() + seconds
        while not holds():
            if time.monotonic() > end:
                raise Failed(f"{words} in {seconds} s")
            time.sleep(0.2)

    def wait_for_bricks(self, machine, count=3):
        """Waits until the machine sees that many bricks online."""

        def are_online():
            return len(re.findall(r"^Brick .* Y +\d+ *$", machine.run("gluster", "volume", "status", VOLUME, check=False), re.M)) == count

        self.until(are_online, f"{machine.name} does not see {count} bricks")

    def entries(self, machine):
        """Returns how many entries each brick says are to be healed, `-` for one that cannot be reached."""
        return re.findall(r"Number of entries: (\S+)", machine.run("gluster", "volume", "heal", VOLUME, "info", check=False))

    def is_healed(self, machine):
        return self.entries(machine) == ["0", "0", "0"]

    def after(self, machine):
        """Returns the machine after another one."""
        return self.trio[(self.trio.index(machine) + 1) % 3]

    def block(self, one, other):
        """Lets the switch drop what two machines send each other."""
        ways = "\n".join(f'iifname "{a.port}" oifname "{b.port}" drop' for a, b in ((one, other), (other, one)))
        table = f"table bridge cut {{\nchain f {{\ntype filter hook forward priority 0; policy accept;\n{ways}\n}}\n}}"
        run("ip", "netns", "exec", SWITCH, "nft", table)

    def unblock(self):
        """Ends `block`."""
        run("ip", "netns", "exec", SWITCH, "nft", "delete table bridge cut")

    def copies(self, folder, machines):
        """Returns how many different copies of a ledger's files these machines have on their own disks."""
        command = "cat ledger ledger-wal 2>/dev/null | sha256sum"
        return len({run("sh", "-c", f"cd {machine.brick}/{folder} && {command}") for machine in machines})
