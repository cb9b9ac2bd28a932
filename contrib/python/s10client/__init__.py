"""A client of an s10 server. It uses versions 1 and 2 of the datagrams.

    from s10client import Client, make_notes

    make_notes("printer.notes", customer=7, first=1, last=999999)      # once for each printer

    with Client.open("printer.notes", ("127.0.0.1", 4000)) as client:
        if client.is_open:
            print(client.again().identifier)        # the run before was stopped: nobody knows whether it printed this
        print(client.draw("RA", "GB").identifier)

A request is written down with its number before it is sent, so that it is never sent again with
another number. If no reply arrives, `GaveUp` is raised and the request stays pending: `again` sends
it again, and the server executes it at most once. Until a reply comes, no other request is accepted.
A repeat of a kept call costs the server no write and changes nothing.

The notes record that a reply came when it was used: at the end of `with` unless an exception ends it,
at `record`, and at the next request. Only a run that did not come that far leaves its last request
pending, and the client of the next run begins with it (`is_open`).

Each refusal by the server is a subclass of `Refused`. A text or a number that fits no datagram
raises `ValueError`, and uses no number. A client is for one thread at a time.

This file needs Python's standard library only. If `libs10.py` is beside it and finds the C library, the
proved code of that library numbers and writes the requests and reads the replies. Otherwise the code in
this file does so. `library` names the library, or is None.
"""

from __future__ import annotations

import abc
import contextlib
import errno
import json
import os
import re
import socket
import stat
import struct
import time
import zlib
from io import FileIO
from typing import Any, Callable, Iterable, List, Mapping, NamedTuple, TypeVar, Union, cast

library: str | None
try:
    from . import libs10
    library = libs10.PATH
except ImportError:
    library = None

__all__ = [
    "Client", "make_notes", "Drawn", "Told", "S10Error", "GaveUp", "Unanswered", "NumbersSpent",
    "Refused", "NotThePost", "BadGrant", "Overlap", "NoRange", "NoneFree", "NotYours", "NotIssued",
    "AlreadyVoid", "NumberReused", "NoSuchRange", "Closed", "check_digit", "library",
]

GRANT, DRAW, VOID, QUERY, DRAW_MANY, WITHDRAW = 1, 2, 3, 4, 5, 6
POST = 0
LAST_NUMBER = 0xFFFFFFFF
LAST_SERIAL = 99_999_999
MOST = 16

_HEADER = struct.Struct(">2sBBII")
_MAGIC, _REPLY = b"S1", 0x80
_VERSIONS = {GRANT: 1, DRAW: 1, VOID: 1, QUERY: 1, DRAW_MANY: 2, WITHDRAW: 2}
# The fields of each kind after the header, in order.
_BODIES = {
    GRANT: (">I2s2sII", "holder service country first last"),
    DRAW: (">2s2s", "service country"),
    VOID: (">13s", "text"),
    QUERY: (">13s", "text"),
    DRAW_MANY: (">2s2sB", "service country count"),
    WITHDRAW: (">I", "range"),
}
_STATUSES = ("unknown", "never", "issued", "voided")
_LONGEST = 512


class S10Error(Exception):
    """The base of the exceptions of a client. It also raises `ValueError` and `OSError`."""


class GaveUp(S10Error):
    """No reply arrived within the tries. The request was executed once or not at all. Call `again`."""


class Unanswered(S10Error):
    """The request before has no reply yet, so no other is accepted. Call `again`."""


class NumbersSpent(S10Error):
    """The client has no number left."""


class Refused(S10Error):
    """A rule of the server refused the request. Its number is used."""


class NotThePost(Refused):
    """Another than the post asked for a grant or a withdrawal."""


class BadGrant(Refused):
    """The holder is 0, or the first serial is above the last."""


class Overlap(Refused):
    """Another range of the service and country has a serial in common."""


class NoRange(Refused):
    """The customer has no open range of the service and country."""


class NoneFree(Refused):
    """No serial of the customer's open ranges is free on that day, or fewer than the sheet has."""


class NotYours(Refused):
    """The identifier is in none of the customer's ranges."""


class NotIssued(Refused):
    """The identifier was never issued."""


class AlreadyVoid(Refused):
    """The identifier was voided before."""


class NoSuchRange(Refused):
    """No range has the number."""


class Closed(Refused):
    """The range was withdrawn before."""


class NumberReused(Refused):
    """The customer has used the number for another request. This one was not executed."""


# The refusals by outcome byte, and the kinds of request that each fits.
_REFUSALS: dict[int, tuple[type[Refused], set[int]]] = {
    1: (NotThePost, {GRANT, WITHDRAW}),
    2: (BadGrant, {GRANT}),
    3: (Overlap, {GRANT}),
    4: (NoRange, {DRAW, DRAW_MANY}),
    5: (NoneFree, {DRAW, DRAW_MANY}),
    6: (NotYours, {VOID, QUERY}),
    7: (NotIssued, {VOID}),
    8: (AlreadyVoid, {VOID}),
    9: (NumberReused, {GRANT, DRAW, VOID, QUERY, DRAW_MANY, WITHDRAW}),
    10: (NoSuchRange, {WITHDRAW}),
    11: (Closed, {WITHDRAW}),
}


class Drawn(NamedTuple):
    """An identifier, and the day on which it was issued, in days since 1970-01-01."""

    identifier: str
    day: int


class Told(NamedTuple):
    """The status of an identifier (`unknown`, `never`, `issued` or `voided`), and the day of its
    last issue, or 0."""

    status: str
    day: int


_Path = Union[str, "os.PathLike[str]"]
_Fields = Mapping[str, Union[int, bytes]]
_Answer = Union[int, Drawn, List[Drawn], Told, None]
_Members = Mapping[str, Union[int, str, None]]
_Self = TypeVar("_Self", bound="Client")


def check_digit(serial: int) -> int:
    """Returns the check digit of a serial number, by the standard's weights."""
    return _code.check_digit(_serial(serial))


class Client:
    """A client of one server, for one customer, with numbers that no other client of it has.

    `server` is an IPv4 address and a port. `write_down` is called with the datagram of each new
    request before it is sent. If it raises, nothing is sent and the number is not used. It must
    store the datagram durably. `number` is the next number, `last` the last one. `request` is the
    last datagram that the run before has written down, unless its reply was used. A request is sent up to `tries`
    times, each time with `wait` seconds for its reply.
    """

    def __init__(self, server: tuple[str, int], customer: int, number: int, write_down: Callable[[bytes], object], *,
                 last: int = LAST_NUMBER, request: bytes | None = None, tries: int = 5, wait: float = 1.0) -> None:
        self.customer = _u32(customer, "customer")
        if number != last + 1:
            _u32(number, "number")
        self.number = number
        self.last = _u32(last, "last number")
        self.request = request
        self.is_open = request is not None
        self.tries, self.wait = tries, wait
        self._write_down = write_down
        self._notes: _Notes | None = None
        with contextlib.ExitStack() as opened:
            self._link = opened.enter_context(socket.socket(socket.AF_INET, socket.SOCK_DGRAM))
            self._link.connect(server)
            opened.pop_all()                    # from here on `close` closes it

    @classmethod
    def open(cls: type[_Self], path: _Path, server: tuple[str, int], *, tries: int = 5, wait: float = 1.0) -> _Self:
        """Opens a client that keeps its notes in a file created by `make_notes`."""
        with contextlib.ExitStack() as opened:
            notes = opened.enter_context(_Notes(path))
            client = cls(server, notes.customer, notes.next, notes.write_down, last=notes.last,
                         request=notes.request, tries=tries, wait=wait)
            client._notes = notes
            opened.pop_all()
        return client

    def record(self) -> None:
        """Records in the notes that the last reply came and was used. The next run does not ask for it again."""
        if self._notes is not None and not self.is_open:
            self._notes.record_reply()

    def close(self) -> None:
        """Closes the socket, and unlocks the notes."""
        self._link.close()
        if self._notes is not None:
            self._notes.close()

    def __enter__(self: _Self) -> _Self:
        return self

    def __exit__(self, kind: type[BaseException] | None, *_: object) -> None:
        try:
            if kind is None:
                self.record()
        finally:
            self.close()

    def grant(self, holder: int, service: str, country: str, first: int, last: int) -> int:
        """Grants serials to a customer, as the post. Returns the number of the range."""
        return cast(int, self._ask(GRANT, holder=_u32(holder, "holder"), service=_letters(service, "service"),
                                   country=_letters(country, "country"), first=_serial(first), last=_serial(last)))

    def withdraw(self, range_number: int) -> None:
        """Closes a range for ever, as the post. The reply to its grant has its number."""
        self._ask(WITHDRAW, range=_u32(range_number, "range"))

    def draw(self, service: str, country: str) -> Drawn:
        """Draws the next free identifier of a service and country."""
        return cast(Drawn, self._ask(DRAW, service=_letters(service, "service"), country=_letters(country, "country")))

    def draw_many(self, service: str, country: str, count: int) -> list[Drawn]:
        """Draws a sheet of 1 to 16 identifiers, all or none."""
        if not (isinstance(count, int) and 1 <= count <= MOST):
            raise ValueError(f"a sheet has 1 to {MOST} identifiers, not {count!r}")
        return cast(List[Drawn], self._ask(DRAW_MANY, service=_letters(service, "service"),
                                           country=_letters(country, "country"), count=count))

    def void(self, identifier: str) -> None:
        """Voids an identifier."""
        self._ask(VOID, text=_identifier(identifier))

    def query(self, identifier: str) -> Told:
        """Queries an identifier."""
        return cast(Told, self._ask(QUERY, text=_identifier(identifier)))

    # The type of the answer depends on the request, which may be one of an earlier run.
    def again(self) -> Any:
        """Sends the last request again, with its number. Returns or raises what it did, or would have."""
        if self.request is None:
            raise ValueError("nothing was asked yet")
        outcome, answer = self._call(self.request)
        self.is_open = False
        if outcome:
            self.record()                       # no identifier can be lost
            refusal = _REFUSALS[outcome][0]
            raise refusal(f"request {self.number_of_request}: {refusal.__doc__}")
        return answer

    @property
    def number_of_request(self) -> int | None:
        """The number of the last request, or None."""
        return None if self.request is None else _number_of(self.request)

    def _ask(self, kind: int, **fields: int | bytes) -> Any:
        request = _code.submit(self.customer, self.number, self.last, self.request if self.is_open else None,
                               kind, fields)
        self._write_down(request)
        self.number += 1
        self.request, self.is_open = request, True
        return self.again()

    # Returns the outcome byte of the reply to the request, and the answer in it.
    def _call(self, request: bytes) -> tuple[int, _Answer]:
        cause: OSError | None = None
        for _ in range(self.tries):
            end = time.monotonic() + self.wait
            try:
                self._link.send(request)
            except OSError as error:
                cause = error
            while (left := end - time.monotonic()) > 0:
                self._link.settimeout(left)
                try:
                    datagram = self._link.recv(_LONGEST)
                except socket.timeout:
                    break
                except OSError as error:        # no server listens yet, for example
                    cause = error
                    time.sleep(min(left, 0.05))
                    continue
                reply = _code.accept(request, datagram)
                if reply is not None:
                    return reply
        raise GaveUp(f"request {_number_of(request)}: no reply") from cause


class _Code(abc.ABC):
    """Numbers and writes requests, and reads replies."""

    @classmethod
    @abc.abstractmethod
    def check_digit(cls, serial: int) -> int:
        """Returns the check digit of a serial number."""

    @classmethod
    @abc.abstractmethod
    def is_identifier(cls, text: bytes) -> bool:
        """Returns whether the bytes are an identifier."""

    @classmethod
    @abc.abstractmethod
    def submit(cls, customer: int, number: int, last: int, pending: bytes | None, kind: int, fields: _Fields) -> bytes:
        """Returns the datagram of a request with the next number. `pending` is the request without a reply, or None."""

    @classmethod
    @abc.abstractmethod
    def decode(cls, request: bytes) -> tuple[int, int, int, _Fields]:
        """Returns customer, number, kind and fields of the datagram of a request. Others raise `ValueError`."""

    @classmethod
    @abc.abstractmethod
    def accept(cls, request: bytes, datagram: bytes) -> tuple[int, _Answer] | None:
        """Returns the outcome byte and the answer, or None if the datagram is no reply to this request."""


class _InPython(_Code):
    """Does so without the C library."""

    @classmethod
    def check_digit(cls, serial: int) -> int:
        total = sum(w * int(d) for w, d in zip((8, 6, 4, 2, 3, 5, 9, 7), f"{serial:08}"))
        return {10: 0, 11: 5}.get(11 - total % 11, 11 - total % 11)

    @classmethod
    def is_identifier(cls, text: bytes) -> bool:
        return (re.fullmatch(rb"[A-Z]{2}[0-9]{9}[A-Z]{2}", text) is not None
                and cls.check_digit(int(text[2:10])) == text[10] - ord("0"))

    @classmethod
    def submit(cls, customer: int, number: int, last: int, pending: bytes | None, kind: int, fields: _Fields) -> bytes:
        if pending is not None:
            raise _unanswered(pending)
        if number > last:
            raise _numbers_spent(last)
        layout, names = _BODIES[kind]
        request = (_HEADER.pack(_MAGIC, _VERSIONS[kind], kind, customer, number)
                   + struct.pack(layout, *(fields[name] for name in names.split())))
        cls.decode(request)
        return request

    @classmethod
    def decode(cls, request: bytes) -> tuple[int, int, int, _Fields]:
        if len(request) < _HEADER.size:
            raise ValueError("short")
        magic, version, kind, customer, number = _HEADER.unpack_from(request)
        if magic != _MAGIC or _VERSIONS.get(kind) != version:
            raise ValueError("no request")
        layout, names = _BODIES[kind]
        if len(request) != _HEADER.size + struct.calcsize(layout):
            raise ValueError("datagram-length")
        fields = dict(zip(names.split(), struct.unpack_from(layout, request, _HEADER.size)))
        for name, value in fields.items():
            if not cls._fits(name, value):
                raise ValueError(f"{name} of a request")
        return customer, number, kind, fields

    @classmethod
    def _fits(cls, name: str, value: int | bytes) -> bool:
        if isinstance(value, bytes):
            return cls.is_identifier(value) if name == "text" else re.fullmatch(rb"[A-Z]{2}", value) is not None
        if name in ("first", "last"):
            return value <= LAST_SERIAL
        return name != "count" or 1 <= value <= MOST

    @classmethod
    def accept(cls, request: bytes, datagram: bytes) -> tuple[int, _Answer] | None:
        try:
            kind = cls.decode(request)[2]
        except ValueError:
            return None
        at = len(request)
        if datagram[:at] != request[:3] + bytes([kind | _REPLY]) + request[4:] or len(datagram) == at:
            return None
        outcome, rest = datagram[at], datagram[at + 1:]
        if outcome:
            fits = outcome in _REFUSALS and kind in _REFUSALS[outcome][1]
            return (outcome, None) if fits and not rest else None
        if kind == GRANT and len(rest) == 4:
            return 0, int.from_bytes(rest, "big")
        if kind in (DRAW, DRAW_MANY) and len(rest) == 4 + 13 * (request[16] if kind == DRAW_MANY else 1):
            texts = [rest[at:at + 13] for at in range(4, len(rest), 13)]
            are_right = all(map(cls.is_identifier, texts))
            return (0, _drawn(kind, texts, int.from_bytes(rest[:4], "big"))) if are_right else None
        if kind in (VOID, WITHDRAW) and not rest:
            return 0, None
        if kind == QUERY and len(rest) == 5 and rest[0] < len(_STATUSES):
            day = int.from_bytes(rest[1:], "big")
            return (0, Told(_STATUSES[rest[0]], day)) if rest[0] >= 2 or day == 0 else None
        return None


class _InLibrary(_Code):
    """Does so by the proved code of the C library."""

    @classmethod
    def check_digit(cls, serial: int) -> int:
        return libs10.make(b"AA", serial, b"AA").text[10] - ord("0")

    @classmethod
    def is_identifier(cls, text: bytes) -> bool:
        try:
            libs10.read(text)
        except libs10.Refused:
            return False
        return True

    @classmethod
    def submit(cls, customer: int, number: int, last: int, pending: bytes | None, kind: int, fields: _Fields) -> bytes:
        try:
            return libs10.submit(customer, number, last, pending, kind, fields)
        except libs10.Refused as refused:
            if refused.code == libs10.BUSY and pending is not None:
                raise _unanswered(pending) from None
            if refused.code == libs10.NUMBERS_SPENT:
                raise _numbers_spent(last) from None
            raise

    @classmethod
    def decode(cls, request: bytes) -> tuple[int, int, int, _Fields]:
        found = libs10.decode(request)
        names = _BODIES[found.kind][1].split()
        return found.customer, found.number, found.kind, {name: libs10.field(found, name) for name in names}

    @classmethod
    def accept(cls, request: bytes, datagram: bytes) -> tuple[int, _Answer] | None:
        try:
            outcome = libs10.accept(request, datagram)
        except libs10.Refused:
            return None
        kind = request[3]
        answer: _Answer = None
        if outcome.code == 0:
            if kind == GRANT:
                answer = outcome.range
            elif kind in (DRAW, DRAW_MANY):
                answer = _drawn(kind, libs10.texts(outcome), outcome.day)
            elif kind == QUERY:
                answer = Told(_STATUSES[outcome.status], outcome.day)
        return outcome.code, answer


_code: type[_Code] = _InPython
if library is not None:
    _code = _InLibrary


def _number_of(request: bytes) -> int:
    return cast(int, _HEADER.unpack_from(request)[4])


def _drawn(kind: int, texts: Iterable[bytes], day: int) -> Drawn | list[Drawn]:
    drawn = [Drawn(text.decode("ascii"), day) for text in texts]
    return drawn if kind == DRAW_MANY else drawn[0]


def _unanswered(pending: bytes) -> Unanswered:
    return Unanswered(f"request {_number_of(pending)} has no reply yet")


def _numbers_spent(last: int) -> NumbersSpent:
    return NumbersSpent(f"number {last} was the last one")


def _identifier(text: str) -> bytes:
    data = text.encode("ascii", "replace")
    if not _code.is_identifier(data):
        raise ValueError(f"{text!r} is no identifier")
    return data


def _letters(text: str, what: str) -> bytes:
    data = text.encode("ascii", "replace")
    if re.fullmatch(rb"[A-Z]{2}", data) is None:
        raise ValueError(f"a {what} is two capital letters, not {text!r}")
    return data


def _u32(number: int, what: str) -> int:
    if not (isinstance(number, int) and 0 <= number <= 0xFFFFFFFF):
        raise ValueError(f"a {what} is a number from 0 to 4294967295, not {number!r}")
    return number


def _serial(number: int) -> int:
    if not (isinstance(number, int) and 0 <= number <= LAST_SERIAL):
        raise ValueError(f"a serial is a number from 0 to {LAST_SERIAL}, not {number!r}")
    return number


def make_notes(path: _Path, customer: int, first: int = 1, last: int = LAST_NUMBER) -> None:
    """Creates the notes of a client that has the numbers from `first` to `last`.

    No file may be at the path. If notes are lost, create new ones with numbers that were surely never used.
    """
    if _u32(first, "number") > _u32(last, "number"):
        raise ValueError("the first number is above the last")
    customer = _u32(customer, "customer")
    path = os.fspath(path)
    _require_free(path)
    with _lock_beside(path):
        _require_free(path)
        _write_notes(path, _members(customer, first, last, None)).close()


class _Notes:
    """A file with the customer, the next number, the last number and the open request."""

    def __init__(self, path: _Path) -> None:
        # A rename would replace a symbolic link, and not the notes.
        self._path = os.path.realpath(os.fspath(path))
        if not _is_regular(os.stat(self._path)):
            raise ValueError(f"{self._path} is no regular file")
        with contextlib.ExitStack() as opened:
            self._lock = opened.enter_context(_lock_beside(self._path))
            self._file = opened.enter_context(_locked(os.open(self._path, os.O_RDWR)))
            self._check_name()
            self._read()
            opened.pop_all()

    def __enter__(self) -> _Notes:
        return self

    def __exit__(self, *_: object) -> None:
        self.close()

    def close(self) -> None:
        """Closes and unlocks the files."""
        self._file.close()
        self._lock.close()

    # A rename would replace one name of the notes, and clients by the others would use their numbers again.
    def _check_name(self) -> None:
        held, found = os.fstat(self._file.fileno()), os.stat(self._path, follow_symlinks=False)
        if not os.path.samestat(held, found):
            raise FileNotFoundError(errno.ENOENT, "other notes took the place of those that are open", self._path)
        if found.st_nlink != 1:
            raise OSError(errno.EMLINK, "the notes are linked: they have another name", self._path)

    def _read(self) -> None:
        # An earlier process may have stopped before it synced the file or its name. What is read stays.
        _sync_folder(self._path)
        os.fsync(self._file.fileno())
        data = os.pread(self._file.fileno(), _LONGEST, 0)
        try:
            noted = json.loads(data.decode("ascii"))
            self.customer, self.last = _u32(noted["customer"], "customer"), _u32(noted["last"], "number")
            self.next: int = noted["next"]
            request = noted["request"]
            self.request = None if request is None else bytes.fromhex(request)
            if self.next != self.last + 1 and _u32(self.next, "number") > self.last:
                raise ValueError("the next number is above the last")
            if self.request is not None and _code.decode(self.request)[:2] != (self.customer, self.next - 1):
                raise ValueError("the request has another customer or number")
            if data not in (_text_of(self._noted()), _older_text_of(self._noted())):
                raise ValueError("the check value or the form of the text is wrong")
        except (ValueError, TypeError, KeyError) as fault:
            raise ValueError(f"{self._path} holds no notes: {fault}") from fault

    def _noted(self) -> _Members:
        return _members(self.customer, self.next, self.last, self.request)

    def write_down(self, request: bytes) -> None:
        """Replaces the notes by those in which the request is open."""
        self._replace(_number_of(request) + 1, request)

    def record_reply(self) -> None:
        """Replaces the notes by those without an open request, unless they have none."""
        if self.request is not None:
            self._replace(self.next, None)

    def _replace(self, number: int, request: bytes | None) -> None:
        self._check_name()
        file = _write_notes(self._path, _members(self.customer, number, self.last, request), self._file)
        self._file.close()
        self._file, self.next, self.request = file, number, request


def _is_regular(found: os.stat_result) -> bool:
    return stat.S_ISREG(found.st_mode)


def _require_free(path: str) -> None:
    if os.path.lexists(path):
        raise FileExistsError(errno.EEXIST, os.strerror(errno.EEXIST), path)


# Locks an open file, or closes it and raises `BlockingIOError`.
def _locked(descriptor: int) -> FileIO:
    import fcntl                                # POSIX only
    file = os.fdopen(descriptor, "r+b", buffering=0)
    try:
        fcntl.flock(file, fcntl.LOCK_EX | fcntl.LOCK_NB)
    except BaseException:
        file.close()
        raise
    return file


# Locks the file `.lock` beside, which stays when a rename replaces the notes. To open a pipe could wait.
def _lock_beside(path: str) -> FileIO:
    path += ".lock"
    if os.path.exists(path) and not _is_regular(os.stat(path)):
        raise ValueError(f"{path} is no regular file")
    return _locked(os.open(path, os.O_RDWR | os.O_APPEND | os.O_CREAT, 0o666))


def _members(customer: int, number: int, last: int, request: bytes | None) -> _Members:
    return {"customer": customer, "next": number, "last": last, "request": None if request is None else request.hex()}


# Returns the text of notes: their members, and the check value of all that is before it.
def _text_of(noted: _Members) -> bytes:
    members = json.dumps(noted)[:-1].encode("ascii")
    return members + b', "check": "%08x"}\n' % zlib.crc32(members)


# Returns the text that earlier versions wrote: it has no check value.
def _older_text_of(noted: _Members) -> bytes:
    return json.dumps(noted).encode("ascii") + b"\n"


# Writes notes beside their file and renames them onto it, so that they are whole at any moment. They are locked and on
# disk at the end. They have the mode of those that they replace, and for root the owner. Returns their file.
def _write_notes(path: str, noted: _Members, replaced: FileIO | None = None) -> FileIO:
    beside = path + ".new"
    if os.path.lexists(beside):
        if not _is_regular(os.lstat(beside)):
            raise ValueError(f"{beside} is no regular file")
        os.remove(beside)                       # of a client that was stopped
    with contextlib.ExitStack() as opened:
        file = opened.enter_context(_locked(os.open(beside, os.O_RDWR | os.O_CREAT | os.O_EXCL, 0o600)))
        if replaced is not None:
            found = os.fstat(replaced.fileno())
            with contextlib.suppress(PermissionError):
                os.fchown(file.fileno(), found.st_uid, found.st_gid)
            os.fchmod(file.fileno(), stat.S_IMODE(found.st_mode))
        text = _text_of(noted)
        while text:
            text = text[file.write(text):]
        os.fsync(file.fileno())
        os.replace(beside, path)
        _sync_folder(path)
        opened.pop_all()
    return file


def _sync_folder(path: str) -> None:
    folder = os.open(os.path.dirname(os.path.abspath(path)), os.O_RDONLY)
    try:
        os.fsync(folder)
    finally:
        os.close(folder)
