"""A cache in this process, by ctypes over `include/vosdrieng.h`."""
from __future__ import annotations

import ctypes
import ctypes.util
import functools
import os
from ctypes import POINTER, addressof, byref, c_char_p, c_size_t, c_uint32, c_uint64, c_void_p
from typing import Callable

from .acts import Act, Ask, Close, Data, Denied, Ended, Evicted, Failed, Fields, Lost, Open, Pending, Shown
from .cache import Cache
from .errors import BadImage, BadText, Gone, Refused
from .text import LastStart, field_of

VERSION = 1000
ROOM, HEAD_ROOM = 65536, 64  # bytes that an image has beside those of bodies: of its heads, and of each run
OK, NO_HANDLE, NO_MEMORY, EXHAUSTED, LIVE, BAD_IMAGE, FULL, LATE, BAD_TEXT = 0, 1, 2, 3, 9, 10, 12, 13, 14
ANSWERS = {
    4: "the moment is below the last one, or is no number below 2^62",
    5: "a number or a length is outside of its limits",
    6: "the method is no token of 1 to 15 bytes, or is CONNECT",
    7: "the target is none in the spelling of the URL Standard",
    8: "the fields are none that a cache takes",
    LIVE: "consumers are live",
    LATE: "a text comes behind an event of another call",
}
LINES = ("", "it is off the grammar", "it has more than 140,000 bytes", "its target is none", "its moment is below the one before",
         "the text ends too early")
SMALL = 4096  # bytes of an act that are copied twice, which costs less than an object made by the library of C
MOST_ROOM = 16 << 20  # bytes that are offered for an image before its size is known
LOADS = {"normal": 0, "validate": 1, "bypass": 2, "skip": 3, "only": 4, "disable": 5}
NEEDS = ("", "disabled", "timed-out", "bypass", "miss", "vary", "validate", "hole", "unsatisfied")
KINDS = ("", "fault", "too-large", "full")
LIBRARY = "VOSDRIENG_LIBRARY"
BLANKS = " \t"


class _Handle(ctypes.Structure):
    _fields_ = [("mark", c_uint64), ("at", c_void_p)]


class _Act(ctypes.Structure):
    _fields_ = [("kind", c_uint32), ("detail", c_uint32),
                *((name, c_uint64) for name in ("consumer", "exchange", "representation", "position", "end", "first", "second",
                                                "length", "method_length", "target_length")),
                ("status", c_uint32), ("has_end", c_uint32)]


_AT = c_void_p  # an address as a number takes half the time of a pointer that is made for each call
_BYTES = [c_char_p, c_size_t]
_new_bytes = ctypes.pythonapi.PyBytes_FromStringAndSize
_new_bytes.restype, _new_bytes.argtypes = ctypes.py_object, [c_void_p, ctypes.c_ssize_t]
_EVENT = [_AT, c_uint64, c_uint64]
CALLS = {
    "version": (c_uint32, []),
    "new": (c_uint32, [_AT, c_uint64, c_uint64]),
    "open": (c_uint32, [_AT, c_uint64, c_uint64, *_BYTES]),
    "free": (None, [_AT]),
    "start": (c_uint32, [*_EVENT, *_BYTES, c_uint32, *_BYTES, *_BYTES]),
    "poll": (c_uint32, [*_EVENT, c_uint32]),
    "cancel": (c_uint32, _EVENT),
    "doom": (c_uint32, [_AT, c_uint64, *_BYTES]),
    "head": (c_uint32, [*_EVENT, c_uint32, *_BYTES]),
    "piece": (c_uint32, [*_EVENT, *_BYTES]),
    "end": (c_uint32, _EVENT),
    "fault": (c_uint32, _EVENT),
    "next_act": (c_uint32, [_AT, _AT]),
    "act_bytes": (c_size_t, [_AT, c_void_p, c_size_t]),
    "image": (c_uint32, [_AT, c_void_p, c_size_t, POINTER(c_size_t)]),
    "schedule": (c_uint32, [_AT, *_BYTES, POINTER(c_uint64), POINTER(c_uint32)]),
    "schedule_end": (c_uint32, [_AT, POINTER(c_uint64), POINTER(c_uint32)]),
    "report": (c_size_t, [_AT, c_void_p, c_size_t]),
    "moment": (c_uint64, [_AT]),
    "live": (c_uint64, [_AT]),
}


def default_path() -> str:
    """The library that the environment names by VOSDRIENG_LIBRARY, or that the system has."""
    path = os.environ.get(LIBRARY) or ctypes.util.find_library("vosdrieng")
    if not path:
        raise OSError("libvosdrieng.so isn't here: give its path, or name it by VOSDRIENG_LIBRARY")
    return path


@functools.lru_cache(None)
def load(path: str) -> "ctypes.CDLL":
    """The library, with the types of its calls. The calls are short, so they keep the interpreter's lock."""
    library = ctypes.PyDLL(path)
    for name, (result, arguments) in CALLS.items():
        call = getattr(library, f"vosdrieng_{name}")
        call.restype, call.argtypes = result, arguments
    if library.vosdrieng_version() != VERSION:
        raise OSError(f"{path} has the version {library.vosdrieng_version()}, and {VERSION} is asked for")
    return library


@functools.lru_cache(1024)
def lines_of(fields: tuple[tuple[str, str], ...]) -> bytes:
    """The fields as lines. What could be taken for another line is refused here. (Most requests of a program have the same.)"""
    for name, value in fields:
        if "\n" in name or "\n" in value or ":" in name:
            raise Refused(f"{name!r} is no field that a cache takes")
    try:
        return "".join([f"{name}: {value.strip(BLANKS)}\n" for name, value in fields]).encode("latin-1")
    except UnicodeEncodeError as fault:
        raise Refused("a field isn't of bytes") from fault


def fields_of(lines: bytes) -> list[tuple[str, str]]:
    return list(_fields_of(lines))


@functools.lru_cache(256)
def _fields_of(lines: bytes) -> tuple[tuple[str, str], ...]:
    """(Hits of one second have the same.)"""
    return tuple([field_of(line) for line in lines.decode("latin-1").split("\n")[:-1]])


class LibraryCache(Cache):
    """A cache behind a handle of the library. It may be called from any thread, one call after another."""

    def __init__(self, path: str | os.PathLike[str] | None, max_body: int, max_total: int, image: bytes | None) -> None:
        self._library = load(os.fspath(path) if path is not None else default_path())
        self._handle, self._act = _Handle(0, None), _Act()
        self._at, self._room = addressof(self._handle), ctypes.create_string_buffer(SMALL)
        self._next = functools.partial(self._library.vosdrieng_next_act, self._at, addressof(self._act))
        self._copy = functools.partial(self._library.vosdrieng_act_bytes, self._at)
        self._room_at = addressof(self._room)
        self._poll = self._library.vosdrieng_poll
        self._begin(max_body, max_total, image)

    def _begin(self, max_body: int, max_total: int, image: bytes | None) -> None:
        self.last_consumer, self._handed_in, self._last_start = 0, ROOM + len(image or b""), LastStart()
        if image is None:
            answer = self._library.vosdrieng_new(self._at, max_body, max_total)
        else:
            answer = self._library.vosdrieng_open(self._at, max_body, max_total, image, len(image))
        if BAD_IMAGE <= answer <= FULL:
            raise BadImage(f"no cache can begin with the image: answer {answer}")
        self._hold(answer)
        if image is not None:
            self.last_consumer = int(image.split(b"\n", 2)[1].split(b" ")[1])

    def start(self, now: int, consumer: int, method: str, target: str, fields: Fields = (), load: str = "normal") -> list[Act]:
        if load not in LOADS:
            raise Refused(f"{load!r} is no load")
        how, where, lines = method.encode("utf-8"), target.encode("utf-8"), lines_of(tuple(fields))
        acts = self._step(self._library.vosdrieng_start, now, consumer, how, len(how), LOADS[load], where, len(where), lines, len(lines))
        self.last_consumer = self.last_consumer if acts else consumer
        return acts

    def poll(self, now: int, consumer: int, want: int) -> list[Act]:
        return self._step(self._poll, now, consumer, want)

    def cancel(self, now: int, consumer: int) -> list[Act]:
        return self._step(self._library.vosdrieng_cancel, now, consumer)

    def doom(self, now: int, target: str) -> list[Act]:
        where = target.encode("utf-8")
        return self._step(self._library.vosdrieng_doom, now, where, len(where))

    def head(self, now: int, exchange: int, status: int, fields: Fields = ()) -> list[Act]:
        lines = lines_of(tuple(fields))
        return self._step(self._library.vosdrieng_head, now, exchange, status, lines, len(lines))

    def piece(self, now: int, exchange: int, data: bytes) -> list[Act]:
        self._handed_in += len(data) + HEAD_ROOM
        return self._step(self._library.vosdrieng_piece, now, exchange, data, len(data))

    def end(self, now: int, exchange: int) -> list[Act]:
        return self._step(self._library.vosdrieng_end, now, exchange)

    def fault(self, now: int, exchange: int) -> list[Act]:
        return self._step(self._library.vosdrieng_fault, now, exchange)

    def schedule(self, text: bytes) -> bytes:
        """Reads a further piece of the text of a schedule, cut anywhere, and returns the report of the events whose items end in it.

        However the text is cut, the reports one after another are that of the whole text, as `vosdrieng replay` writes it. A text
        begins before any other event. Raises `BadText` at a line that is refused, then at each later piece, and `Refused`.
        """
        self._handed_in += len(text) + HEAD_ROOM
        line, why = c_uint64(), c_uint32()
        answer = self._library.vosdrieng_schedule(self._at, text, len(text), byref(line), byref(why))
        report = self._reported(answer)
        self.last_consumer = self._last_start.behind(text, report, self.last_consumer)
        if answer == BAD_TEXT:
            raise BadText(line.value, LINES[why.value], report)
        return report

    def schedule_end(self) -> None:
        """Tells that the text ends here. Raises `BadText` where a line or field lines are missing, or the text was refused."""
        line, why = c_uint64(), c_uint32()
        answer = self._library.vosdrieng_schedule_end(self._at, byref(line), byref(why))
        report = self._reported(answer)
        if answer == BAD_TEXT:
            raise BadText(line.value, LINES[why.value], report)

    def _reported(self, answer: int) -> bytes:
        """The report of the last piece. Raises what an answer means that isn't OK or BAD_TEXT."""
        if answer not in (OK, BAD_TEXT):
            self._hold(answer)
        length = self._library.vosdrieng_report(self._at, b"", 0)
        report = _new_bytes(None, length)
        if length:
            self._library.vosdrieng_report(self._at, report, length)
        return report

    def image(self) -> bytes:
        """As of each cache. Each call of the library makes it anew, so room for what was handed in is offered at once."""
        size, room = c_size_t(), ctypes.create_string_buffer(min(self._handed_in, MOST_ROOM))
        self._hold(self._library.vosdrieng_image(self._at, room, len(room), byref(size)))
        if size.value > len(room):
            room = ctypes.create_string_buffer(size.value)
            self._hold(self._library.vosdrieng_image(self._at, room, len(room), byref(size)))
        self._handed_in = ROOM + size.value
        return ctypes.string_at(room, size.value)

    def close(self) -> None:
        handle = getattr(self, "_handle", None)
        if handle is not None and (handle.at or handle.mark):
            self._library.vosdrieng_free(self._at)

    __del__ = close

    def _hold(self, answer: int) -> None:
        """Raises what an answer means that isn't OK."""
        if answer == NO_MEMORY:
            raise MemoryError("the cache was refused memory")
        if answer in (NO_HANDLE, EXHAUSTED):
            raise Gone("the cache is closed" if answer == NO_HANDLE else "the cache has taken all events that it can")
        if answer != OK:
            raise Refused(ANSWERS.get(answer, f"answer {answer}"))

    def _step(self, call: Callable[..., int], *arguments: object) -> list[Act]:
        """Hands the event in, and reads the acts that it is answered by."""
        try:
            answer = call(self._at, *arguments)
        except ctypes.ArgumentError as fault:
            raise Refused(str(fault)) from fault
        if answer:
            self._hold(answer)
        acts, act, more = [], self._act, self._next
        while more():
            acts.append(MAKERS[act.kind](self, act))
        return acts

    def _taken(self, length: int) -> bytes:
        """The bytes of the act that was told last. Many are copied once, into an object that nobody else has yet."""
        is_small = length <= SMALL
        taken = self._room_at if is_small else _new_bytes(None, length)
        if length and self._copy(taken, length) != length:
            raise Gone("the act has fewer bytes than it tells")
        return self._room[:length] if is_small else taken


def _opened(cache: LibraryCache, act: _Act) -> Act:
    taken, start, end = cache._taken(act.length), act.method_length, act.method_length + act.target_length
    need = f"hole:{act.first}-{act.second}" if act.detail == 7 else NEEDS[act.detail]
    fields = fields_of(taken[end:])
    return Open(act.exchange, act.consumer, need, taken[:start].decode("ascii"), taken[start:end].decode("ascii"), fields)


def _why(act: _Act) -> str:
    match act.detail:
        case 1:
            return f"fetched:{act.exchange}"
        case 2:
            return f"fresh:{act.first}/{act.second}"
        case 3:
            return f"stale:{act.first}/{act.second}"
    return f"validated:{act.exchange}"


def _shown(cache: LibraryCache, act: _Act) -> Act:
    end = act.end if act.has_end else None
    return Shown(act.consumer, act.representation, _why(act), act.status, act.position, end, fields_of(cache._taken(act.length)))


def _failed(_: LibraryCache, act: _Act) -> Act:
    causes = ("", f"net:{act.exchange}", f"short:{act.exchange}:{act.first}/{act.second}", f"changed:{act.exchange}",
              f"store-write:{act.representation}", f"store-read:{act.representation}", "miss", f"bad-head:{act.exchange}")
    return Failed(act.consumer, causes[act.detail])


def _pending(_: LibraryCache, act: _Act) -> Act:
    waits = ("", f"turn:{act.first}", f"busy:{act.first}", f"head:{act.exchange}", f"body:{act.exchange}")
    return Pending(act.consumer, waits[act.detail])


MAKERS: tuple[Callable[[LibraryCache, _Act], Act], ...] = (
    lambda _, act: Lost(0, ""),
    _opened,
    lambda _, act: Ask(act.exchange),
    lambda _, act: Close(act.exchange),
    _shown,
    lambda cache, act: Data(act.consumer, act.exchange, act.position, cache._taken(act.length)),
    lambda _, act: Ended(act.consumer),
    _failed,
    _pending,
    lambda _, act: Lost(act.representation, KINDS[act.detail]),
    lambda _, act: Evicted(act.representation),
    lambda _, act: Denied(act.detail, act.first),
)
