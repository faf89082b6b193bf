"""The calls of libhoma as a class: one host, which its program feeds with datagrams, ticks and calls."""
from __future__ import annotations

import ctypes
import ctypes.util
import dataclasses
import functools
import os
from typing import NamedTuple, Union

OK, ASKS, NO_MEMORY, FULL, SPENT, AT_WORK, LATER, GONE, BAD_SETTING = 0, 1, 3, 4, 5, 6, 7, 8, 18
RESULTS = {FULL: "full", SPENT: "spent", 16: "not open", BAD_SETTING: "bad setting", 19: "bad host", 20: "bad incarnation", 21: "bad tick",
           22: "no bytes", 23: "too long", 24: "too many pages"}
RAN, DONE, TIMEOUT, FORGOTTEN = 1, 2, 3, 4
NOTES = {5: "junk", 6: "stale", 7: "no row", 8: "no pages", 9: "gaps", 10: "dropped", 11: "buried", 12: "freed"}
VERSION = 0x000100
MOST_FRAME, MOST_MESSAGE = 1500, 1_000_000
U8, U16, U32, U64, SIZE, BYTES = ctypes.c_uint8, ctypes.c_uint16, ctypes.c_uint32, ctypes.c_uint64, ctypes.c_size_t, ctypes.c_char_p
NAMES = "hosts seg window unsched overcommit rate resend tries life pages calls served rebalance skew wire".split()


class NoLibrary(OSError):
    """libhoma isn't found, or isn't that library."""


class Refused(ValueError):
    """The program made a mistake; `args` has the call, and a word that homa.h explains. Nothing happened to the host."""


class NotNow(Exception):
    """A right program may meet it. Nothing happened to the host."""


class Full(NotNow):
    """As many calls are live as the settings say: later."""


class Spent(NotNow):
    """Never in this incarnation: its numbers, its steps or its clock are at their end."""


class _Handle(ctypes.Structure):
    _fields_ = [("at", ctypes.c_void_p), ("is_open", ctypes.c_bool)]


class _Settings(ctypes.Structure):
    _fields_ = [(name, U32) for name in NAMES]


class _Call(ctypes.Structure):
    _fields_ = [("client", U16), ("incarnation", U32), ("number", U32)]


class _Asked(ctypes.Structure):
    _fields_ = [("id", _Call), ("service", U32)]


class _Frame(ctypes.Structure):
    _fields_ = [("sender", U16), ("to", U16), ("len", SIZE)]


class _Entry(ctypes.Structure):
    _fields_ = [("kind", U32), ("service", U32), ("id", _Call), ("len", SIZE)]


class _More(ctypes.Structure):
    _fields_ = [("peer", U16), ("at", U64)]


@dataclasses.dataclass(frozen=True)
class Settings:
    """The settings of a net: all its hosts have the same. As they are, they are for a network of services: a call fails after 2,100 ticks of
    silence."""

    hosts: int = 32
    seg: int = 1400
    window: int = 60_000
    unsched: int = 10_000
    overcommit: int = 4
    rate: int = 100_000
    resend: int = 100
    tries: int = 20
    life: int = 3000
    pages: int = 4096
    calls: int = 256
    served: int = 4096
    rebalance: int = 100
    skew: int = 10
    wire: int = 2

    @property
    def fault(self) -> str | None:
        """The first setting that is wrong, or two that don't go together."""
        wrong: int = library().homa_wrong_setting(self._raw())
        return [None, *NAMES, "unsched over window", "rate under seg"][wrong]

    def _raw(self) -> _Settings:
        return _Settings(*(_in(getattr(self, name), 0xFFFFFFFF, name) for name in NAMES))


class Counts(NamedTuple):
    """What a host counted from its opening on, and how many calls are live, kept until they are answered, and served."""

    calls: int
    done: int
    timeouts: int
    forgotten: int
    asked: int
    ran: int
    sent: int
    sent_bytes: int
    received: int
    resends_sent: int
    junk: int
    stale: int
    no_row: int
    no_pages: int
    gaps: int
    dropped: int
    buried: int
    freed: int
    live: int
    kept: int
    rows: int


class CallId(NamedTuple):
    """A call: its client, the client's incarnation, and its number in that incarnation."""

    client: int
    incarnation: int
    number: int


class Frame(NamedTuple):
    """A datagram that is to be sent to a host."""

    to: int
    data: bytes


class Ask(NamedTuple):
    """A call whose request is whole."""

    id: CallId
    service: int
    request: bytes


class Ran(NamedTuple):
    """A request was answered."""

    id: CallId


class Done(NamedTuple):
    """A call is done."""

    id: CallId
    response: bytes


class TimedOut(NamedTuple):
    """A call failed: after its RESENDs nothing came that counts. It may have been served, and may still be."""

    id: CallId


class Forgotten(NamedTuple):
    """A call failed: it was served, and the response is gone."""

    id: CallId


Event = Union[Ran, Done, TimedOut, Forgotten]


class Note(NamedTuple):
    """What a step reports of the net and of the host itself: a word for it, the call if it names one, the other host, and two numbers.
    include/homa.h, 'Kinds of entries', says which."""

    what: str
    id: CallId | None
    peer: int | None
    number: int
    at: int



def _to(it: type) -> type:
    return ctypes.POINTER(it)


_SIGNATURES = {
    "version": (U32,),
    "usual": (None, _to(_Settings)),
    "service": (None, _to(_Settings)),
    "wrong_setting": (U32, _to(_Settings)),
    "open": (U32, _to(_Settings), U16, U32, U64, _to(_Handle)),
    "open_late": (U32, _to(_Settings), U16, U32, U64, U32, U32, _to(_Handle)),
    "close": (U32, _to(_Handle)),
    "call": (U32, _to(_Handle), U16, U8, BYTES, SIZE, U64, _to(_Call)),
    "deliver": (U32, _to(_Handle), U16, BYTES, SIZE, U64, BYTES, SIZE, _to(_Asked)),
    "answer": (U32, _to(_Handle), _to(_Call), BYTES, SIZE, U64),
    "decline": (U32, _to(_Handle), _to(_Call)),
    "turn": (U32, _to(_Handle), U64),
    "next_turn": (U32, _to(_Handle), _to(U64)),
    "frames": (SIZE, _to(_Handle)),
    "frame": (U32, _to(_Handle), SIZE, BYTES, SIZE, _to(_Frame)),
    "frame_level": (U32, _to(_Handle), SIZE),
    "entries": (SIZE, _to(_Handle)),
    "entry": (U32, _to(_Handle), SIZE, _to(_Entry)),
    "entry_more": (U32, _to(_Handle), SIZE, _to(_More)),
    "whole_len": (SIZE, _to(_Handle)),
    "whole": (U32, _to(_Handle), BYTES, SIZE, _to(SIZE)),
    "live": (U32, _to(_Handle)),
    "last": (U64, _to(_Handle)),
    "count": (U64, _to(_Handle), U32),
}


@functools.lru_cache(maxsize=None)
def library() -> ctypes.CDLL:
    """libhoma, with the types of its calls."""
    path = os.environ.get("HOMA_LIBRARY") or ctypes.util.find_library("homa") or "libhoma.so.0"
    try:
        found = ctypes.CDLL(path)
        for name, (result, *words) in _SIGNATURES.items():
            call = getattr(found, "homa_" + name)
            call.restype, call.argtypes = result, words
    except (OSError, AttributeError) as why:
        raise NoLibrary(f"libhoma: {why}; HOMA_LIBRARY may name its file") from None
    version: int = found.homa_version()
    if version >> 8 != VERSION >> 8:  # while the major number is 0, the minor number breaks too
        raise NoLibrary(f"libhoma: version {version >> 16}.{version >> 8 & 255}, and not {VERSION >> 16}.{VERSION >> 8 & 255}")
    return found


def _need(code: int, call: str) -> None:
    """Raises what a result says, unless it is OK."""
    if code == NO_MEMORY:
        raise MemoryError(call)
    if code != OK:
        raise {FULL: Full, SPENT: Spent}.get(code, Refused)(call, RESULTS.get(code, f"result {code}"))


def _id(it: _Call) -> CallId:
    return CallId(it.client, it.incarnation, it.number)


def _in(value: int, most: int, what: str) -> int:
    """ctypes cuts a number that is too large; so it is looked at before."""
    if not 0 <= value <= most:
        raise Refused(f"{what} {value}")
    return value


class Host:
    """One host. After each step read `frames` and `events`, before the next step."""

    def __init__(self, settings: Settings, number: int, incarnation: int, last: int = 0) -> None:
        self._library, self._handle = library(), _Handle()
        whose = (_in(number, 0xFFFF, "host"), _in(incarnation, 0xFFFFFFFF, "incarnation"), _in(last, 2**64 - 1, "last"))
        self._open(settings, *whose)
        self.number, self.settings = number, settings
        self._frame, self._whole = ctypes.create_string_buffer(MOST_FRAME), ctypes.create_string_buffer(MOST_MESSAGE)

    def _open(self, settings: Settings, number: int, incarnation: int, last: int) -> None:
        code = self._library.homa_open(settings._raw(), number, incarnation, last, self._handle)
        _need(code, f"homa_open: {settings.fault}" if code == BAD_SETTING else "homa_open")

    def close(self) -> None:
        self._library.homa_close(self._handle)

    def __enter__(self) -> Host:
        return self

    def __exit__(self, *_: object) -> None:
        self.close()

    def __del__(self) -> None:
        if hasattr(self, "_handle"):
            self.close()

    @property
    def live(self) -> int:
        """How many calls are live."""
        return int(self._library.homa_live(self._handle))

    @property
    def last(self) -> int:
        """The tick of the last step."""
        return int(self._library.homa_last(self._handle))

    def counts(self) -> Counts:
        """What was counted from the opening on."""
        return Counts(*(self._library.homa_count(self._handle, which) for which in range(len(Counts._fields))))

    def call(self, server: int, service: int, request: bytes, now: int) -> CallId:
        it = _Call()
        _need(self._library.homa_call(self._handle, _in(server, 0xFFFF, "host"), _in(service, 0xFF, "service"), request, len(request), now, it), "homa_call")
        return _id(it)

    def deliver(self, source: int, datagram: bytes, now: int, answer: bytes = b"") -> Ask | None:
        """A datagram came. None if a step was done; otherwise an answer is needed, and nothing happened."""
        asked = _Asked()
        code = self._library.homa_deliver(self._handle, source, datagram, len(datagram), now, answer, len(answer), asked)
        if code == ASKS:
            return Ask(_id(asked.id), asked.service, self._message())
        _need(code, "homa_deliver")
        return None

    def turn(self, now: int) -> None:
        _need(self._library.homa_turn(self._handle, now), "homa_turn")

    def next_turn(self) -> int | None:
        """The tick before which no turn does anything; None if none does before the next call or datagram."""
        at = U64()
        return at.value if self._library.homa_next_turn(self._handle, at) == OK else None

    def frames(self) -> list[Frame]:
        """The datagrams of the last step."""
        info, all_of_them = _Frame(), []
        for i in range(self._library.homa_frames(self._handle)):
            self._library.homa_frame(self._handle, i, self._frame, MOST_FRAME, info)
            all_of_them.append(Frame(info.to, ctypes.string_at(self._frame, info.len)))
        return all_of_them

    def events(self) -> list[Event]:
        """What the last step reports of calls."""
        entry = _Entry()
        told: list[Event] = []
        for i in range(self._library.homa_entries(self._handle)):
            self._library.homa_entry(self._handle, i, entry)
            if entry.kind == RAN:
                told.append(Ran(_id(entry.id)))
            elif entry.kind == DONE:
                told.append(Done(_id(entry.id), self._message()))
            elif entry.kind == TIMEOUT:
                told.append(TimedOut(_id(entry.id)))
            elif entry.kind == FORGOTTEN:
                told.append(Forgotten(_id(entry.id)))
        return told

    def notes(self) -> list[Note]:
        """What the last step reports of the net and of the host itself."""
        entry, more = _Entry(), _More()
        told: list[Note] = []
        for i in range(self._library.homa_entries(self._handle)):
            self._library.homa_entry(self._handle, i, entry)
            self._library.homa_entry_more(self._handle, i, more)
            if entry.kind in NOTES:
                told.append(Note(NOTES[entry.kind], _id(entry.id) if entry.id.incarnation else None, more.peer if more.peer != 0xFFFF else None, entry.len, more.at))
        return told

    def _message(self) -> bytes:
        got = SIZE()
        self._library.homa_whole(self._handle, self._whole, MOST_MESSAGE, got)
        return ctypes.string_at(self._whole, got.value)
