"""Tests of s10client against the program, under loss.

    S10=/path/to/s10 python3 test_s10client.py

Without S10 the program `s10` of the PATH is used. S10_LIBRARY is as libs10.py says: `S10_LIBRARY=` tests the code in
Python, and a path that of the C library. The first line names the library, if one is used.
"""

import os
import random
import select
import shutil
import socket
import struct
import subprocess
import sys
import tempfile
import threading
import time
import unittest
from collections import Counter, defaultdict

import s10client
from s10client import (AlreadyVoid, BadGrant, Client, Closed, Drawn, GaveUp, NoneFree, NoRange, NoSuchRange,
                       NotIssued, NotThePost, NotYours, NumberReused, NumbersSpent, Overlap, Told, Unanswered,
                       make_notes)

PROGRAM = os.environ.get("S10") or shutil.which("s10")
DAY = 20000


def s10(*words):
    """Returns what the program prints for these words."""
    done = subprocess.run([PROGRAM, *map(str, words)], capture_output=True, text=True, check=False)
    return done.stdout


class Server:
    """A server of the program over a ledger of its own."""

    def __init__(self, folder, interval=30, limit=100000):
        self.ledger = os.path.join(folder, "ledger")
        assert s10("create", "--ledger", self.ledger, "--interval", interval, "--limit", limit) == "created\n"
        self.process = subprocess.Popen(
            [PROGRAM, "serve", "--ledger", self.ledger, "--bind", "127.0.0.1:0",
             "--count", "4294967295", "--day", str(DAY)],
            stdout=subprocess.DEVNULL, stderr=subprocess.PIPE, text=True)
        for line in self.process.stderr:
            if line.startswith("serving on "):
                host, port = line.split()[2].split(":")
                self.address = (host, int(port))
                return
        raise RuntimeError("the server does not start")

    def stop(self):
        """Ends the server. Its ledger can be read afterwards."""
        self.process.terminate()
        self.process.wait()
        self.process.stderr.close()

    def issues(self):
        """Returns customer, number and identifier of each issue, in order of arrival."""
        lines = s10("report", "--ledger", self.ledger, "--issues").splitlines()[1:]
        return [(int(c), int(n), i) for _, _, c, n, i, _ in map(str.split, lines)]


class Proxy:
    """Relays between the clients and a server. Loses, repeats and delays datagrams both ways.

    A seeded choice decides whether a datagram is lost. If not, it decides how often it is sent, and
    whether a copy of it is sent after some later ones. `requests` has the datagrams that clients sent,
    by their customer and number.
    """

    def __init__(self, server, seed, lost=0.3, repeated=0.3, late=0.2):
        self.server, self.lost, self.repeated, self.late = server, lost, repeated, late
        self.choose = random.Random(seed)
        self.counts = {"lost": 0, "repeated": 0, "late": 0, "passed": 0}
        self.requests = defaultdict(set)
        self.front = socket.socket(socket.AF_INET, socket.SOCK_DGRAM)
        self.front.bind(("127.0.0.1", 0))
        self.address = self.front.getsockname()
        self.backs = {}                         # a socket towards the server for each client
        self.held = []
        self.ends = False
        self.thread = threading.Thread(target=self.run, daemon=True)
        self.thread.start()

    def run(self):
        """Relays datagrams until it is stopped."""
        while not self.ends:
            sockets = [self.front, *self.backs.values()]
            for ready in select.select(sockets, [], [], 0.05)[0]:
                datagram, sender = ready.recvfrom(2048)
                if ready is self.front:
                    self.requests[struct.unpack_from(">II", datagram, 4)].add(datagram)
                    if sender not in self.backs:
                        self.backs[sender] = socket.socket(socket.AF_INET, socket.SOCK_DGRAM)
                    self.pass_on(self.backs[sender], datagram, self.server)
                else:
                    client = next(c for c, s in self.backs.items() if s is ready)
                    self.pass_on(self.front, datagram, client)

    def pass_on(self, link, datagram, to):
        """Relays one datagram by the next choice."""
        if self.choose.random() < self.lost:
            self.counts["lost"] += 1
            return
        copies = 1
        while copies < 4 and self.choose.random() < self.repeated:
            copies += 1
        self.counts["repeated"] += copies - 1
        self.counts["passed"] += 1
        for _ in range(copies):
            link.sendto(datagram, to)
        if self.choose.random() < self.late:
            self.counts["late"] += 1
            self.held.append((link, datagram, to))
        if len(self.held) > 8:
            link, datagram, to = self.held.pop(self.choose.randrange(len(self.held)))
            link.sendto(datagram, to)

    def stop(self):
        """Ends the thread and closes the sockets."""
        self.ends = True
        self.thread.join()
        for link in (self.front, *self.backs.values()):
            link.close()


class Networks:
    """Proxies one after another, each for 100 runs, since a proxy has a socket for each port that it hears from."""

    def __init__(self, server, **rates):
        self.server, self.rates, self.runs, self.proxy = server, rates, 0, None
        self.counts, self.requests = Counter(), defaultdict(set)

    def address(self):
        """Returns the address for one more run."""
        if self.runs % 100 == 0:
            self.stop()
            self.proxy = Proxy(self.server, seed=self.runs, **self.rates)
        self.runs += 1
        return self.proxy.address

    def stop(self):
        """Ends the proxy, and adds what it counted and heard."""
        if self.proxy is not None:
            self.proxy.stop()
            self.counts.update(self.proxy.counts)
            for key, sent in self.proxy.requests.items():
                self.requests[key] |= sent
            self.proxy = None


def run_and_kill(words, after=None):
    """Runs a program and kills it with SIGKILL after some seconds. Returns what it printed and its status."""
    with subprocess.Popen(words, stdout=subprocess.PIPE, stderr=subprocess.DEVNULL, text=True) as process:
        if after is not None:
            time.sleep(after)
            process.kill()
        output = process.stdout.read()
    return output, process.returncode


class ServedTest(unittest.TestCase):
    """A folder and a server for each test."""

    def setUp(self):
        self.folder = tempfile.mkdtemp()
        self.addCleanup(shutil.rmtree, self.folder)
        self.server = Server(self.folder)
        self.addCleanup(self.server.stop)

    def client(self, customer, number=1, address=None, **more):
        """Returns a client whose requests are written down in a list."""
        noted = []
        client = Client(address or self.server.address, customer, number, noted.append, **more)
        client.noted = noted
        self.addCleanup(client.close)
        return client


class Calls(ServedTest):
    """Each call and each refusal, over a network that loses nothing."""

    def test_calls_are_answered(self):
        post, seven = self.client(0), self.client(7)
        self.assertEqual(post.grant(7, "RA", "GB", 0, 2), 1)
        self.assertEqual(seven.draw("RA", "GB"), Drawn("RA000000005GB", DAY))
        self.assertEqual(seven.draw("RA", "GB"), Drawn("RA000000014GB", DAY))
        self.assertIsNone(seven.void("RA000000014GB"))
        self.assertEqual(seven.query("RA000000005GB"), Told("issued", DAY))
        self.assertEqual(seven.query("RA000000014GB"), Told("voided", DAY))
        self.assertEqual(seven.query("RA000000028GB"), Told("never", 0))
        self.assertEqual(post.query("RA000000031GB"), Told("unknown", 0))

    def test_a_sheet_is_drawn_whole_or_not_at_all(self):
        post, seven = self.client(0), self.client(7)
        post.grant(7, "RA", "GB", 0, 2)
        sheet = [Drawn("RA000000005GB", DAY), Drawn("RA000000014GB", DAY)]
        self.assertEqual(seven.draw_many("RA", "GB", 2), sheet)
        self.assertEqual(seven.again(), sheet)
        with self.assertRaises(NoneFree):
            seven.draw_many("RA", "GB", 2)
        self.assertEqual(seven.draw_many("RA", "GB", 1), [Drawn("RA000000028GB", DAY)])
        with self.assertRaises(NoRange):
            seven.draw_many("RB", "GB", 16)

    def test_a_range_is_withdrawn_for_ever(self):
        post, seven = self.client(0), self.client(7)
        post.grant(7, "RA", "GB", 0, 2)
        seven.draw("RA", "GB")
        self.assertIsNone(post.withdraw(1))
        self.assertIsNone(post.again())
        for refusal, call in ((Closed, lambda: post.withdraw(1)), (NoSuchRange, lambda: post.withdraw(2)),
                              (NotThePost, lambda: seven.withdraw(1)), (NoRange, lambda: seven.draw("RA", "GB")),
                              (NoRange, lambda: seven.draw_many("RA", "GB", 1)),
                              (Overlap, lambda: post.grant(8, "RA", "GB", 0, 2))):
            with self.assertRaises(refusal):
                call()
        self.assertIsNone(seven.void("RA000000005GB"))
        self.assertEqual(seven.query("RA000000005GB"), Told("voided", DAY))
        self.assertEqual(post.grant(8, "RA", "GB", 3, 3), 2)

    def test_refusals_are_raised(self):
        post, seven = self.client(0), self.client(7)
        post.grant(7, "RA", "GB", 0, 1)
        post.grant(8, "RA", "GB", 2, 2)
        refused = [
            (NotThePost, lambda: seven.grant(7, "RA", "GB", 9, 9)),
            (BadGrant, lambda: post.grant(0, "RA", "GB", 9, 9)),
            (BadGrant, lambda: post.grant(7, "RA", "GB", 9, 8)),
            (Overlap, lambda: post.grant(8, "RA", "GB", 1, 9)),
            (NoRange, lambda: seven.draw("RB", "GB")),
            (NotYours, lambda: seven.void("RA000000028GB")),
            (NotYours, lambda: seven.query("RA000000028GB")),
            (NotIssued, lambda: seven.void("RA000000014GB")),
        ]
        for refusal, call in refused:
            with self.assertRaises(refusal):
                call()
        seven.draw("RA", "GB")
        seven.void("RA000000005GB")
        with self.assertRaises(AlreadyVoid):
            seven.void("RA000000005GB")
        seven.draw("RA", "GB")
        with self.assertRaises(NoneFree):
            seven.draw("RA", "GB")
        with self.assertRaises(NoneFree):           # the kept outcome
            seven.again()
        other = self.client(7)
        with self.assertRaises(NumberReused):
            other.draw("RA", "GB")

    def test_what_fits_no_datagram_takes_no_number(self):
        seven = self.client(7)
        for call in (lambda: seven.draw("ra", "GB"), lambda: seven.draw("RA", "GBR"),
                     lambda: seven.void("RA000000006GB"), lambda: seven.query("RÄ000000005GB"),
                     lambda: seven.grant(7, "RA", "GB", 0, 100_000_000),
                     lambda: seven.grant(-1, "RA", "GB", 0, 1),
                     lambda: seven.draw_many("RA", "GB", 0), lambda: seven.draw_many("RA", "GB", 17),
                     lambda: seven.withdraw(2**32)):
            with self.assertRaises(ValueError):
                call()
        self.assertEqual((seven.number, seven.noted), (1, []))

    def test_numbers_end(self):
        seven = self.client(7, number=2**32 - 1)
        with self.assertRaises(NoRange):
            seven.draw("RA", "GB")
        with self.assertRaises(NumbersSpent):
            seven.draw("RA", "GB")

    def test_a_request_is_written_down_before_it_is_sent(self):
        def fail(_):
            raise OSError("no room")
        seven = Client(self.server.address, 7, 1, fail)
        self.addCleanup(seven.close)
        with self.assertRaises(OSError):
            seven.draw("RA", "GB")
        self.assertEqual((seven.number, seven.is_open), (1, False))
        other = self.client(7)
        with self.assertRaises(NoRange):            # number 1 reached no server
            other.draw("RA", "GB")
        self.assertEqual(other.noted, [other.request])


class Loss(ServedTest):
    """Over a network that loses, repeats and reorders."""

    SEEDS = (1, 2, 3)
    DRAWS = 60

    def draw_all(self, client, count):
        """Draws `count` times, each until it is answered, and repeats each once."""
        drawn = {}
        for _ in range(count):
            try:
                answer = client.draw("RA", "GB")
            except GaveUp:
                answer = self.ask_again(client)
            drawn[client.customer, client.number_of_request] = answer.identifier
            self.assertEqual(self.ask_again(client), answer)
        return drawn

    def ask_again(self, client):
        """Returns the reply to the last request, asking up to a hundred times."""
        for _ in range(100):
            try:
                return client.again()
            except GaveUp:
                pass
        self.fail("no reply in a hundred calls")

    def test_each_number_draws_once(self):
        post = self.client(0)
        post.grant(7, "RA", "GB", 0, 9999)
        post.grant(8, "RA", "GB", 10000, 19999)
        drawn, losses = {}, {"lost": 0, "repeated": 0, "late": 0, "passed": 0}
        for seed in self.SEEDS:
            proxy = Proxy(self.server.address, seed)
            printers = [(7, 1000 * seed), (7, 1000 * seed + 500), (8, 1000 * seed)]
            found = [None] * len(printers)

            def run(at, customer, number, address=proxy.address, found=found):
                client = self.client(customer, number, address, last=number + 499, wait=0.1, tries=3)
                found[at] = self.draw_all(client, self.DRAWS)

            threads = [threading.Thread(target=run, args=(at, *p)) for at, p in enumerate(printers)]
            for thread in threads:
                thread.start()
            for thread in threads:
                thread.join()
            proxy.stop()
            for one in found:
                self.assertIsNotNone(one)
                drawn.update(one)
            for name, count in proxy.counts.items():
                losses[name] += count
        total = len(self.SEEDS) * 3 * self.DRAWS
        self.assertEqual(len(drawn), total)
        self.assertEqual(len(set(drawn.values())), total)

        # The same numbers over a network that loses nothing: the same identifiers.
        for (customer, number), identifier in drawn.items():
            self.assertEqual(self.client(customer, number).draw("RA", "GB").identifier, identifier)

        self.server.stop()
        self.assertEqual({(c, n): i for c, n, i in self.server.issues()}, drawn)
        self.assertEqual(s10("audit", "--ledger", self.server.ledger), f"ledger ok {total + 2}\n")
        print(f"\n{total} draws by 3 printers at a time; datagrams {losses}", file=sys.stderr)

    def test_a_late_reply_to_another_request_is_not_taken(self):
        post, seven = self.client(0), self.client(7)
        post.grant(7, "RA", "GB", 0, 9)
        first = seven.draw("RA", "GB")
        late = seven.request
        second = seven.draw("RA", "GB")
        self.assertNotEqual(first, second)
        seven._link.send(late)                      # its reply waits in the socket
        time.sleep(0.1)
        self.assertEqual(seven.query(first.identifier), Told("issued", DAY))

    def test_no_changed_reply_is_taken(self):
        post, seven = self.client(0), self.client(7)
        post.grant(7, "RA", "GB", 0, 9)
        link = socket.socket(socket.AF_INET, socket.SOCK_DGRAM)
        self.addCleanup(link.close)
        link.settimeout(5)
        seven.draw("RA", "GB")
        for client, ask in ((post, lambda: post.grant(8, "RA", "GB", 10, 19)),
                            (seven, lambda: seven.draw("RA", "GB")),
                            (seven, lambda: seven.draw_many("RA", "GB", 2)),
                            (seven, lambda: seven.void("RA000000005GB")),
                            (seven, lambda: seven.query("RA000000005GB")),
                            (post, lambda: post.withdraw(1))):
            ask()
            request = client.request
            link.sendto(request, self.server.address)
            reply = link.recv(512)
            self.assertEqual(s10client._code.accept(request, reply)[0], 0)
            for at in range(len(request)):
                for bit in range(8):
                    changed = bytearray(reply)
                    changed[at] ^= 1 << bit
                    self.assertIsNone(s10client._code.accept(request, bytes(changed)))
            for length in range(len(reply)):
                self.assertIsNone(s10client._code.accept(request, reply[:length]))
            self.assertIsNone(s10client._code.accept(request, reply + b"\0"))

    def test_the_same_bytes_are_read_as_the_program_reads_them(self):
        post, seven = self.client(0), self.client(7)
        post.grant(7, "RA", "GB", 0, 9)
        seven.draw("RA", "GB")
        seven.void("RA000000005GB")
        seven.query("RA000000005GB")
        seven.draw_many("RA", "GB", 3)
        post.withdraw(1)
        requests = post.noted + seven.noted
        choose = random.Random(4)
        link = socket.socket(socket.AF_INET, socket.SOCK_DGRAM)
        self.addCleanup(link.close)
        link.settimeout(5)
        for request in requests:
            link.sendto(request, self.server.address)
            reply = link.recv(512)
            for _ in range(25):
                changed = bytearray(reply)
                for _ in range(choose.randint(1, 2)):
                    changed[choose.randrange(len(request), len(reply))] = choose.choice((
                        choose.randrange(256), choose.randrange(10), choose.randrange(48, 58)))
                shown = not s10("show", changed.hex()).startswith("refused")
                self.assertEqual(s10client._code.accept(request, bytes(changed)) is not None, shown)


class Notes(ServedTest):
    """Notes in a file."""

    def setUp(self):
        super().setUp()
        self.path = os.path.join(self.folder, "notes")
        self.client(0).grant(7, "RA", "GB", 0, 9)

    def open(self, address=None, **more):
        """Returns a client with its notes in the file."""
        client = Client.open(self.path, address or self.server.address, **more)
        self.addCleanup(client.close)
        return client

    def test_a_client_goes_on_where_the_notes_end(self):
        make_notes(self.path, 7, first=11, last=13)
        with self.open() as client:
            self.assertFalse(client.is_open)
            self.assertEqual(client.draw("RA", "GB").identifier, "RA000000005GB")
            self.assertEqual(client.draw("RA", "GB").identifier, "RA000000014GB")
        with self.assertRaises(KeyboardInterrupt), self.open() as client:
            self.assertFalse(client.is_open)        # the run before came to its end
            self.assertEqual(client.draw("RA", "GB").identifier, "RA000000028GB")
            raise KeyboardInterrupt                 # before the label was printed
        with self.open() as client:
            with self.assertRaises(Unanswered):
                client.draw("RA", "GB")
            self.assertEqual(client.again().identifier, "RA000000028GB")
            with self.assertRaises(NumbersSpent):
                client.draw("RA", "GB")
        with self.open() as client:
            self.assertFalse(client.is_open)
        self.server.stop()
        self.assertEqual([n for _, n, _ in self.server.issues()], [11, 12, 13])

    def test_a_client_that_ended_before_its_reply_asks_again(self):
        make_notes(self.path, 7)
        proxy = Proxy(self.server.address, 5, lost=0, repeated=0, late=0)
        self.addCleanup(proxy.stop)
        with self.open(proxy.address, wait=0.2, tries=2) as client:
            pass_on = proxy.pass_on
            proxy.pass_on = lambda link, datagram, to: (
                pass_on(link, datagram, to) if to == self.server.address else None)
            with self.assertRaises(GaveUp):         # every reply is lost
                client.draw("RA", "GB")
            with self.assertRaises(Unanswered):
                client.draw("RA", "GB")
        with self.open() as client:
            self.assertTrue(client.is_open)
            self.assertEqual(client.again().identifier, "RA000000005GB")
            self.assertEqual(client.draw("RA", "GB").identifier, "RA000000014GB")
        self.server.stop()
        self.assertEqual(self.server.issues(), [(7, 1, "RA000000005GB"), (7, 2, "RA000000014GB")])

    def test_a_server_that_is_not_there_may_come_yet(self):
        make_notes(self.path, 7)
        with socket.socket(socket.AF_INET, socket.SOCK_DGRAM) as free:
            free.bind(("127.0.0.1", 0))
            nobody = free.getsockname()
        with self.open(nobody, wait=0.1, tries=2) as client:
            with self.assertRaises(GaveUp):
                client.draw("RA", "GB")
        with self.open() as client:
            self.assertEqual(client.again().identifier, "RA000000005GB")

    def test_notes_are_of_one_client(self):
        make_notes(self.path, 7)
        with self.assertRaises(FileExistsError):
            make_notes(self.path, 7)
        with self.open():
            with self.assertRaises(BlockingIOError):
                self.open()
        self.open().close()
        os.remove(self.path)
        with self.assertRaises(FileNotFoundError):
            self.open()

    def raised_by(self, call, *given):
        """Returns what a call raises. Its traceback has what the call has opened."""
        try:
            call(*given)
        except (OSError, ValueError, OverflowError) as raised:
            return raised
        self.fail("nothing was raised")

    def test_a_client_that_is_not_opened_leaves_nothing_open(self):
        make_notes(self.path, 7)
        before, nowhere = os.listdir("/proc/self/fd"), ("127.0.0.1", 65536)
        raised = [self.raised_by(Client, nowhere, 7, 1, print), self.raised_by(Client.open, self.path, nowhere)]
        with self.open():
            raised.append(self.raised_by(self.open))
        with open(self.path, "w", encoding="ascii") as file:
            file.write("no notes")
        raised.append(self.raised_by(self.open))
        self.assertEqual([type(it) for it in raised], [OverflowError, OverflowError, BlockingIOError, ValueError])
        self.assertEqual(os.listdir("/proc/self/fd"), before)

    def make_open_notes(self):
        """Creates notes with an open request: its reply was not recorded."""
        make_notes(self.path, 7)
        client = self.open()
        client.draw("RA", "GB")
        client.close()

    def test_a_refusal_is_asked_once(self):
        make_notes(self.path, 7)
        with self.assertRaises(NoRange), self.open() as client:
            client.draw("RB", "GB")
        with self.open() as client:
            self.assertFalse(client.is_open)

    def test_what_holds_no_notes_is_refused(self):
        self.make_open_notes()
        with open(self.path, encoding="ascii") as file:
            text = file.read()
        for wrong in ("", "{}", text[:-9], text.replace(': 2', ': 3'), text.replace(': 7', ': 8'),
                      text.replace('"5331', '"')):
            with open(self.path, "w", encoding="ascii") as file:
                file.write(wrong)
            with self.assertRaises(ValueError, msg=wrong):
                self.open()

    def again(self):
        """Returns what the program prints as it asks the open request of the notes again."""
        return s10("again", "--to", "{}:{}".format(*self.server.address), "--notes", self.path)

    def test_the_program_and_a_client_have_the_same_notes(self):
        make = "notes", "--file", self.path, "--customer", 7, "--first", 11, "--last", 13
        self.assertEqual(self.again(), "notes missing\n")
        self.assertEqual(s10(*make), "created\n")
        self.assertEqual(s10(*make), "notes taken\n")
        with open(self.path, encoding="ascii") as file:
            self.assertEqual(file.read(), '{"customer": 7, "next": 11, "last": 13, "request": null, "check": "e199d768"}\n')
        self.assertEqual(self.again(), "refused answered\n")
        with self.open() as client:
            self.assertEqual(client.draw("RA", "GB").identifier, "RA000000005GB")
            self.assertEqual(self.again(), "notes locked\n")
        self.assertEqual(self.again(), "refused answered\n")
        client = self.open()
        self.assertFalse(client.is_open)
        self.assertEqual(client.draw("RA", "GB").identifier, "RA000000014GB")
        client.close()
        self.assertEqual(self.again(), "reply draw customer 7 number 12 RA GB done day 20000 RA000000014GB\n")
        self.assertEqual(self.again(), "refused answered\n")
        client = self.open()
        self.assertFalse(client.is_open)
        client.query("RA000000014GB")
        with self.assertRaises(NumbersSpent):
            client.draw("RA", "GB")
        client.close()
        self.assertEqual(self.again(), "reply query customer 7 number 13 RA000000014GB done issued 20000\n")
        with self.open() as client:
            self.assertFalse(client.is_open)
            with self.assertRaises(NumbersSpent):
                client.draw("RA", "GB")

    def test_the_program_refuses_what_holds_no_notes(self):
        self.make_open_notes()
        with open(self.path, encoding="ascii") as file:
            text = file.read()
        for wrong in ("", "{}", text[:-9], text + "\n", text.replace(": 2", ": 3"), text.replace(": 7", ": 8"),
                      text.replace('"5331', '"'), text.replace(", ", ","), text * 100):
            with open(self.path, "w", encoding="ascii") as file:
                file.write(wrong)
            self.assertEqual(self.again(), "notes damaged\n", msg=wrong)
            with open(self.path, encoding="ascii") as file:
                self.assertEqual(file.read(), wrong)

    def test_notes_of_the_program_need_a_number(self):
        self.assertEqual(s10("notes", "--file", self.path, "--customer", 7, "--first", 2, "--last", 1), "refused numbers\n")
        self.assertFalse(os.path.exists(self.path))


class Datagrams(unittest.TestCase):
    """Bytes worked by hand."""

    def test_check_digits(self):
        self.assertEqual([s10client.check_digit(n) for n in (0, 1, 2, 3, 8, 47312482)], [5, 4, 8, 1, 0, 9])

    def test_bytes(self):
        noted = []

        def stop(request):
            noted.append(request.hex())
            raise InterruptedError

        with Client(("127.0.0.1", 9), 7, 1, stop) as client:
            for call in (lambda: client.grant(7, "RA", "GB", 0, 2), lambda: client.draw("RA", "GB"),
                         lambda: client.void("RA000000014GB"), lambda: client.query("RA000000014GB"),
                         lambda: client.draw_many("RA", "GB", 2), lambda: client.withdraw(3)):
                with self.assertRaises(InterruptedError):
                    call()
        self.assertEqual(noted, [
            "5331010100000007000000010000000752414742" "00000000" "00000002",
            "53310102000000070000000152414742",
            "533101030000000700000001" "52413030303030303031344742",
            "533101040000000700000001" "52413030303030303031344742",
            "533102050000000700000001" "52414742" "02",
            "533102060000000700000001" "00000003",
        ])


if __name__ == "__main__":
    if PROGRAM is None:
        sys.exit("no program: set S10, or put s10 on the PATH")
    if s10client.library is not None:
        print(f"library: {s10client.library}", file=sys.stderr)
    unittest.main()
