"""Compares the two codes of s10client, the one in Python and the C library. Needs no server.

    S10_LIBRARY=/path/to/libs10.so python3 test_library.py

Without S10_LIBRARY the loader looks for libs10.so.0. The vectors are those of docs/DATAGRAMS.md, and for Grant
and Void, which have none there, some worked by hand.
"""

import os
import random
import re
import socket
import sys
import tempfile
import unittest
from pathlib import Path

import s10client
from s10client import (DRAW, DRAW_MANY, GRANT, QUERY, VOID, WITHDRAW, Client, Drawn, GaveUp, NumbersSpent, Told,
                       Unanswered, make_notes)

PAGE = Path(__file__).resolve().parent.parent.parent / "docs/DATAGRAMS.md"
PYTHON, LIBRARY = s10client._InPython, s10client._InLibrary
BOTH = (PYTHON, LIBRARY)
PAIR = {"service": b"RA", "country": b"GB"}

# What the replies of the page say, in its order: customer, number, kind, fields, outcome, answer.
ON_THE_PAGE = [
    (7, 1, DRAW, PAIR, 0, Drawn("RA000000005GB", 20000)),
    (7, 4, DRAW, PAIR, 5, None),
    (7, 9, QUERY, {"text": b"RA000000014GB"}, 0, Told("issued", 20030)),
    (7, 1, DRAW_MANY, {**PAIR, "count": 2}, 0, [Drawn("RA000000005GB", 20000), Drawn("RA000000014GB", 20000)]),
    (0, 2, WITHDRAW, {"range": 1}, 0, None),
]
GRANTED = {"holder": 7, **PAIR, "first": 0, "last": 2}
BY_HAND = [
    ("53310181 00000000 00000001 00000007 52414742 00000000 00000002 00 00000001", (0, 1, GRANT, GRANTED, 0, 1)),
    ("53310181 00000000 00000002 00000007 52414742 00000000 00000002 03", (0, 2, GRANT, GRANTED, 3, None)),
    ("53310183 00000007 00000003 52413030303030303031344742 00", (7, 3, VOID, {"text": b"RA000000014GB"}, 0, None)),
    ("53310183 00000007 00000004 52413030303030303031344742 08", (7, 4, VOID, {"text": b"RA000000014GB"}, 8, None)),
    ("53310184 00000000 00000002 52413030303030303031344742 00 00 00000000",
     (0, 2, QUERY, {"text": b"RA000000014GB"}, 0, Told("unknown", 0))),
]
# How many identifiers differ from one by a character. Each letter has 25 others. The check digit shows a changed
# digit, but for its value 5, which the sums 6 and 0 (modulo 11) have: seven of the eight digits can change the one
# sum to the other.
OTHERS, OTHERS_OF_5 = 4 * 25, 4 * 25 + 7
BODY = {GRANT: 16, DRAW: 4, VOID: 13, QUERY: 13, DRAW_MANY: 5, WITHDRAW: 4}


def datagrams_of_the_page():
    """Returns the datagrams of the section Examples, in order. Each begins with the two magic bytes."""
    section = PAGE.read_text(encoding="utf-8").split("\n## Examples\n")[1].split("\n## ")[0]
    found = []
    for line in section.splitlines():
        # The last column of a line may be the word of an outcome.
        if re.fullmatch(r"[0-9a-f]{2}( +[0-9a-f]{2})*", line):
            data = bytes.fromhex(line)
            if data[:2] == b"S1":
                found.append(data)
            else:
                found[-1] += data
    return found


def request_of(reply):
    """Returns the datagram of the request to which this is a reply."""
    kind = reply[3] - 0x80
    return reply[:3] + bytes([kind]) + reply[4:12 + BODY[kind]]


def vectors():
    """Returns each request with its reply and what the reply says."""
    replies = [it for it in datagrams_of_the_page() if it[3] >= 0x80]
    assert len(replies) == len(ON_THE_PAGE), replies
    rows = [*zip(replies, ON_THE_PAGE), *((bytes.fromhex(text), says) for text, says in BY_HAND)]
    return [(request_of(reply), reply, says) for reply, says in rows]


def changes(data):
    """Returns each change of one byte of the data to another value."""
    return [data[:at] + bytes([value]) + data[at + 1:]
            for at in range(len(data)) for value in range(256) if value != data[at]]


def came(call, *given):
    """Returns what a call returns, or the class of what it raises. Each refusal of bytes is a ValueError."""
    try:
        return call(*given)
    except ValueError:
        return ValueError
    except s10client.S10Error as raised:
        return type(raised)


class Compared(unittest.TestCase):
    """The same from both."""

    def same(self, name, *given):
        """Calls both codes. Returns what both return or raise."""
        in_python, in_library = (came(getattr(code, name), *given) for code in BOTH)
        self.assertEqual(in_python, in_library, (name, given))
        return in_python

    def test_requests_of_the_page_are_written(self):
        requests = [it for it in datagrams_of_the_page() if it[3] < 0x80]
        self.assertEqual([it[3] for it in requests], [DRAW, DRAW_MANY, WITHDRAW])
        for request in requests:
            customer, number, kind, fields, _, _ = next(it for it in ON_THE_PAGE if it[2] == request[3])
            self.assertEqual(self.same("submit", customer, number, 9, None, kind, fields), request)

    def test_vectors_are_read(self):
        for request, reply, (customer, number, kind, fields, outcome, answer) in vectors():
            self.assertEqual(self.same("submit", customer, number, 9, None, kind, fields), request)
            self.assertEqual(self.same("decode", request), (customer, number, kind, fields))
            self.assertEqual(self.same("accept", request, reply), (outcome, answer))

    def test_each_reply_is_a_reply_to_its_request_alone(self):
        rows = vectors()
        for request, _, _ in rows:
            for other, reply, _ in rows:
                self.assertEqual(self.same("accept", request, reply) is None, request != other)

    def test_each_changed_byte_of_a_reply(self):
        accepted = []
        for request, reply, says in vectors():
            came_from = [self.same("accept", request, it) for it in changes(reply)]
            self.assertNotIn(says[4:], came_from)
            self.assertTrue(all(it is None for it in came_from[:255 * len(request)]))
            accepted.append(len(came_from) - came_from.count(None))
        # Any day or number of a range; the other identifiers that are right; the refusals of a Withdraw.
        numbers = 4 * 255
        drawn, sheet = numbers + OTHERS_OF_5, numbers + OTHERS_OF_5 + OTHERS
        self.assertEqual(accepted[:1] + accepted[3:6], [drawn, sheet, 4, numbers])

    def test_each_changed_byte_of_a_request(self):
        for request, reply, _ in vectors():
            read = 0
            for changed in changes(request):
                found = self.same("decode", changed)
                read += found is not ValueError
                self.assertIsNone(self.same("accept", changed, reply))
                # The reply to the changed request, if it is one.
                repeated = changed[:3] + bytes([changed[3] ^ 0x80]) + changed[4:]
                answered = self.same("accept", changed, repeated + reply[len(request):])
                if found is ValueError:
                    self.assertIsNone(answered)
                else:
                    if found[2] == request[3] and changed[16:] == request[16:]:
                        self.assertIsNotNone(answered)
                    self.assertEqual(self.same("submit", *found[:2], 0xFFFFFFFF, None, *found[2:]), changed)
            self.assertGreaterEqual(read, 8 * 255)      # each customer and number
            self.assertLess(read, len(changes(request)))

    def test_each_other_length(self):
        for request, reply, _ in vectors():
            for length in range(len(reply)):
                self.assertIsNone(self.same("accept", request, reply[:length]))
            self.assertIsNone(self.same("accept", request, reply + b"\0"))
            for length in range(len(request)):
                self.assertEqual(self.same("decode", request[:length]), ValueError)
                self.assertIsNone(self.same("accept", request[:length], reply))
            self.assertEqual(self.same("decode", request + b"\0"), ValueError)

    def test_two_changed_bytes_of_a_reply(self):
        choose = random.Random(1)
        accepted = 0
        for request, reply, _ in vectors():
            for _ in range(3000):
                changed = bytearray(reply)
                for _ in range(2):
                    at = choose.randrange(len(request), len(reply))
                    changed[at] = choose.choice((choose.randrange(256), choose.randrange(12), choose.randrange(48, 58)))
                accepted += self.same("accept", request, bytes(changed)) is not None
        self.assertGreater(accepted, 1000)

    def test_check_digits(self):
        worked = {0: 5, 1: 4, 2: 8, 3: 1, 8: 0, 47312482: 9, 99999999: 5}
        for serial, digit in worked.items():
            self.assertEqual(self.same("check_digit", serial), digit)
        choose = random.Random(2)
        for _ in range(20000):
            self.same("check_digit", choose.randrange(100_000_000))

    def test_each_changed_byte_of_an_identifier(self):
        for text, others in ((b"RA000000005GB", OTHERS_OF_5), (b"RA473124829US", OTHERS),
                             (b"EE999999995ZZ", OTHERS_OF_5)):
            self.assertTrue(self.same("is_identifier", text))
            self.assertEqual(sum(self.same("is_identifier", it) for it in changes(text)), others)
        for wrong in (b"", b"RA00000000", b"RA000000005GBX", b"ra000000005gb"):
            self.assertFalse(self.same("is_identifier", wrong))

    def test_what_fits_no_datagram(self):
        for kind, fields in ((DRAW, {**PAIR, "service": b"Ra"}), (DRAW, {**PAIR, "country": b"G1"}),
                             (DRAW_MANY, {**PAIR, "count": 0}), (DRAW_MANY, {**PAIR, "count": 17}),
                             (GRANT, {**GRANTED, "first": 100_000_000}), (GRANT, {**GRANTED, "last": 100_000_000}),
                             (VOID, {"text": b"RA000000006GB"}), (QUERY, {"text": b"RA00000000xGB"})):
            self.assertEqual(self.same("submit", 7, 1, 9, None, kind, fields), ValueError, fields)

    def test_numbers_are_taken_once_and_end(self):
        pending = self.same("submit", 7, 9, 9, None, DRAW, PAIR)
        self.assertEqual(pending[8:12], bytes([0, 0, 0, 9]))
        self.assertEqual(self.same("submit", 7, 10, 9, pending, DRAW, PAIR), Unanswered)
        self.assertEqual(self.same("submit", 7, 10, 9, None, DRAW, PAIR), NumbersSpent)
        top = 0xFFFFFFFF
        self.assertEqual(self.same("submit", top, top, top, None, DRAW, PAIR)[4:12], b"\xff" * 8)
        self.assertEqual(self.same("submit", top, top + 1, top, None, DRAW, PAIR), NumbersSpent)
        self.assertEqual(self.same("submit", 0, 0, 0, None, DRAW, PAIR)[4:12], bytes(8))


class Notes(unittest.TestCase):
    """Both write and read the same notes."""

    def setUp(self):
        folder = tempfile.TemporaryDirectory()
        self.addCleanup(folder.cleanup)
        self.path = os.path.join(folder.name, "notes")
        self.silent = socket.socket(socket.AF_INET, socket.SOCK_DGRAM)
        self.addCleanup(self.silent.close)
        self.silent.bind(("127.0.0.1", 0))
        self.addCleanup(setattr, s10client, "_code", s10client._code)

    def open(self, code):
        """Opens a client with this code, to a server that never replies."""
        s10client._code = code
        return Client.open(self.path, self.silent.getsockname(), tries=1, wait=0.01)

    def text(self):
        """Returns what the notes have."""
        with open(self.path, encoding="ascii") as file:
            return file.read()

    def test_each_continues_with_the_notes_of_the_other(self):
        for one, other in (BOTH, BOTH[::-1]):
            make_notes(self.path, 7, 5, 6)
            with self.open(one) as client, self.assertRaises(GaveUp):
                client.draw("RA", "GB")
            self.assertEqual(self.text(), '{"customer": 7, "next": 6, "last": 6, "request": '
                                          '"53310102000000070000000552414742", "check": "fac155bc"}\n')
            with self.open(other) as client:
                self.assertEqual((client.is_open, client.number_of_request, client.number), (True, 5, 6))
                with self.assertRaises(Unanswered):
                    client.draw("RA", "GB")
                with self.assertRaises(GaveUp):
                    client.again()
                client.is_open = False          # as after a reply
                with self.assertRaises(GaveUp):
                    client.draw_many("RA", "GB", 2)
            self.assertIn('"next": 7, "last": 6, "request": "5331020500000007000000065241474202"', self.text())
            with self.open(one) as client:
                client.is_open = False
                with self.assertRaises(NumbersSpent):
                    client.draw("RA", "GB")
            os.remove(self.path)

    def test_what_holds_no_notes_is_refused(self):
        right = '{"customer": 7, "next": 6, "last": 9, "request": "53310102000000070000000552414742"}\n'
        wrong = [right.replace(*it) for it in (('"next": 6', '"next": 7'), ('"customer": 7', '"customer": 8'),
                                               ("5241", "7241"), ("4742", "47"), ("53310102", "53310202"),
                                               ('"last": 9', '"last": 4'), ("}", ', "check": "7c2ab308"}'))]
        self.assertNotIn(right, wrong)
        for code in BOTH:
            Path(self.path).write_text(right, encoding="ascii")
            self.open(code).close()
            for text in wrong:
                Path(self.path).write_text(text, encoding="ascii")
                with self.assertRaises(ValueError, msg=text):
                    self.open(code)


if __name__ == "__main__":
    if s10client.library is None:
        sys.exit("no library: set S10_LIBRARY, or install libs10.so.0")
    unittest.main()
