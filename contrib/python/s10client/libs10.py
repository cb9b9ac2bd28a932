"""The calls of the C library that `s10client` uses, by ctypes. contrib/c/s10.h says what each does.

The environment variable S10_LIBRARY names the shared library, which must be there. If it is empty, no library is
used. If it is not set, the loader looks for `libs10.so.0`. If no library is used or found, the import fails with
ImportError.

A refusal by the library raises `Refused`, with its code and its word.
"""

from __future__ import annotations

import ctypes
import os
from ctypes import POINTER, Array, Structure, byref, c_char, c_char_p, c_size_t, c_uint8, c_uint32, c_uint64
from typing import Any, Mapping

PATH = os.environ.get("S10_LIBRARY", "libs10.so.0")
if not PATH:
    raise ImportError("S10_LIBRARY is empty")

BUSY, NUMBERS_SPENT = 23, 24


class Result(Structure):
    """struct s10_result"""

    code: int
    at: int
    _fields_ = [("code", c_uint32), ("at", c_uint32)]


class Id(Structure):
    """struct s10_id"""

    text: bytes
    service: bytes
    country: bytes
    serial: int
    group: int
    _fields_ = [("text", c_char * 14), ("service", c_char * 2), ("country", c_char * 2), ("serial", c_uint32),
                ("group", c_uint32)]


class Request(Structure):
    """struct s10_request"""

    customer: int
    number: int
    holder: int
    first: int
    last: int
    range: int
    kind: int
    count: int
    service: bytes
    country: bytes
    text: bytes
    _fields_ = [("customer", c_uint32), ("number", c_uint32), ("holder", c_uint32), ("first", c_uint32),
                ("last", c_uint32), ("range", c_uint32), ("kind", c_uint8), ("count", c_uint8),
                ("service", c_char * 2), ("country", c_char * 2), ("text", c_char * 14)]


class Frame(Structure):
    """struct s10_frame"""

    len: int
    bytes: Array[c_uint8]
    _fields_ = [("len", c_size_t), ("bytes", c_uint8 * 28)]


class Outcome(Structure):
    """struct s10_outcome"""

    day: int
    range: int
    code: int
    status: int
    count: int
    texts: Array[Array[c_char]]
    _fields_ = [("day", c_uint32), ("range", c_uint32), ("code", c_uint8), ("status", c_uint8), ("count", c_uint8),
                ("texts", (c_char * 14) * 16)]


class Client(Structure):
    """struct s10_client"""

    taken: int
    customer: int
    first: int
    last: int
    pending: Frame
    _fields_ = [("taken", c_uint64), ("customer", c_uint32), ("first", c_uint32), ("last", c_uint32),
                ("pending", Frame)]


class Word(Structure):
    """struct s10_word"""

    text: bytes
    _fields_ = [("text", c_char * 16)]


# The functions that are called: what each returns, and its parameters.
_FUNCTIONS: list[tuple[str, type[Result] | None, list[Any]]] = [
    ("s10_read", Result, [c_char_p, c_size_t, POINTER(Id)]),
    ("s10_make", Result, [c_char_p, c_uint32, c_char_p, POINTER(Id)]),
    ("s10_decode", Result, [c_char_p, c_size_t, POINTER(Request)]),
    ("s10_accept", Result, [c_char_p, c_size_t, c_char_p, c_size_t, POINTER(Outcome)]),
    ("s10_submit", Result, [POINTER(Client), POINTER(Request)]),
    ("s10_word", None, [c_uint32, POINTER(Word)]),
]


def _load() -> ctypes.CDLL:
    # The library is built for these layouts, as s10.h says.
    sizes = [ctypes.sizeof(it) for it in (Result, Id, Request, Frame, Outcome, Client, Word)]
    if sizes != [8, 28, 44, 40, 236, 64, 16]:
        raise OSError("the structs of this machine are not those of libs10")
    library = ctypes.CDLL(PATH)
    for name, returned, takes in _FUNCTIONS:
        function = getattr(library, name)
        function.argtypes, function.restype = takes, returned
    return library


try:
    _library = _load()
except (OSError, AttributeError) as cause:
    if "S10_LIBRARY" in os.environ:
        raise OSError(f"S10_LIBRARY: {cause}") from cause
    raise ImportError(str(cause)) from cause


class Refused(ValueError):
    """The library refused a call: `code` is an enum s10_code."""

    def __init__(self, result: Result) -> None:
        word = Word()
        _library.s10_word(result.code, byref(word))
        self.code, self.at = result.code, result.at
        super().__init__(word.text.decode("ascii"))


def _must(result: Result) -> None:
    if result.code:
        raise Refused(result)


def read(text: bytes) -> Id:
    """Reads the bytes of an identifier into an `Id`."""
    found = Id()
    _must(_library.s10_read(text, len(text), byref(found)))
    return found


def make(service: bytes, serial: int, country: bytes) -> Id:
    """Makes an `Id` of two bytes, a serial and two bytes."""
    made = Id()
    _must(_library.s10_make(_two(service), serial, _two(country), byref(made)))
    return made


def decode(datagram: bytes) -> Request:
    """Reads the datagram of a request into a `Request`."""
    found = Request()
    _must(_library.s10_decode(datagram, len(datagram), byref(found)))
    return found


def accept(sent: bytes, datagram: bytes) -> Outcome:
    """Reads the reply to the request that was sent into an `Outcome`."""
    outcome = Outcome()
    _must(_library.s10_accept(sent, len(sent), datagram, len(datagram), byref(outcome)))
    return outcome


def submit(customer: int, number: int, last: int, pending: bytes | None, kind: int,
           fields: Mapping[str, int | bytes]) -> bytes:
    """Makes a request pending in a client whose next number is `number`. Returns its datagram."""
    first = min(number, last)
    client = Client(taken=number - first, customer=customer, first=first, last=last)
    if pending is not None:
        client.pending.len = len(pending)
        client.pending.bytes[:len(pending)] = list(pending)
    _must(_library.s10_submit(byref(client), byref(Request(kind=kind, **fields))))
    return bytes(client.pending.bytes[:client.pending.len])


def field(request: Request, name: str) -> int | bytes:
    """Returns a field of a `Request`: a number, or bytes."""
    value: int | bytes = getattr(request, name)
    return value[:13] if isinstance(value, bytes) else value


def texts(outcome: Outcome) -> list[bytes]:
    """Returns the identifiers of an `Outcome`, as bytes."""
    return [outcome.texts[at].value for at in range(outcome.count)]


def _two(letters: bytes) -> bytes:
    if len(letters) != 2:
        raise ValueError(f"two bytes, not {letters!r}")
    return letters
