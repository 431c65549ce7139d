"""Events as lines of a schedule, and acts as lines of a report."""
from __future__ import annotations

import re
from typing import Callable, Iterator

from .acts import (Act, Ask, Close, Data, Denied, Ended, Evicted, Failed, Fields, Lost, Open, Pending, Shown)
from .errors import Refused

LARGEST = 1 << 62
LOADS = frozenset({"normal", "validate", "bypass", "skip", "only", "disable"})
METHOD = re.compile(r"[!#$%&'*+\-.^_`|~0-9A-Za-z]{1,15}\Z")
NAME = re.compile(r"[!#$%&'*+\-.^_`|~0-9a-z]+\Z")
VALUE = re.compile(r"(?:[\x21-\x7e\x80-\xff](?:[\t\x20-\x7e\x80-\xff]*[\x21-\x7e\x80-\xff])?)?\Z")
ENTRY = re.compile(rb"(?m)^> [0-9]+\n")
MOST_FIELDS, MOST_VALUE, MOST_BYTES, MOST_PIECE = 64, 8192, 32768, 65536


def number(it: int) -> int:
    """The number itself. Raises Refused where it isn't one of a schedule."""
    if not 0 <= it < LARGEST:
        raise Refused(f"{it} is not a number below 2^62")
    return it


def sorted_fields(fields: Fields) -> list[tuple[str, str]]:
    """Lowered names and stripped values, in the order of names. Raises Refused where a schedule can't have them."""
    lines = sorted(((name.lower(), value.strip(" \t")) for name, value in fields), key=lambda line: line[0])
    if len(lines) > MOST_FIELDS or sum(len(name) + len(value) for name, value in lines) > MOST_BYTES:
        raise Refused("there are too many fields, or too long ones")
    for name, value in lines:
        if not NAME.match(name) or len(value) > MOST_VALUE or not VALUE.match(value):
            raise Refused(f"{name!r} is no field that a cache takes")
    return lines


def field_lines(lines: list[tuple[str, str]]) -> str:
    return "".join(f"{name}: {value}\n" for name, value in lines)


def started(consumer: int, method: str, load: str, target: str, fields: Fields) -> str:
    if not METHOD.match(method) or method == "CONNECT" or load not in LOADS:
        raise Refused(f"{method!r} with the load {load!r} is no request of a cache")
    lines = sorted_fields(fields)
    return f"start {number(consumer)} {method} {load} {target} {len(lines)}\n{field_lines(lines)}"


def polled(consumer: int, want: int) -> str:
    if not 0 <= want <= MOST_PIECE:
        raise Refused(f"{want} bytes can't be wanted at once")
    return f"poll {number(consumer)} {want}\n"


def headed(exchange: int, status: int, fields: Fields) -> str:
    if not 200 <= status <= 599:
        raise Refused(f"{status} is no status of a head")
    lines = sorted_fields(fields)
    return f"head {number(exchange)} {status} {len(lines)}\n{field_lines(lines)}"


def pieced(exchange: int, data: bytes) -> str:
    if len(data) > MOST_PIECE:
        raise Refused(f"a piece has at most {MOST_PIECE} bytes")
    return f"piece {number(exchange)} {data.hex() or '-'}\n"


def _opened(words: list[str], fields: Fields) -> Act:
    return Open(int(words[1]), int(words[2]), words[3], words[4], words[5], fields)


def _shown(words: list[str], fields: Fields) -> Act:
    high = None if words[6] == "-" else int(words[6])
    return Shown(int(words[1]), int(words[2]), words[3], int(words[4]), int(words[5]), high, fields)


def _data(words: list[str], _: Fields) -> Act:
    return Data(int(words[1]), int(words[2]), int(words[3]), bytes.fromhex(words[4]))


READERS: dict[str, Callable[[list[str], Fields], Act]] = {
    "open": _opened,
    "shown": _shown,
    "data": _data,
    "ask": lambda words, _: Ask(int(words[1])),
    "close": lambda words, _: Close(int(words[1])),
    "ended": lambda words, _: Ended(int(words[1])),
    "failed": lambda words, _: Failed(int(words[1]), words[2]),
    "pending": lambda words, _: Pending(int(words[1]), words[2]),
    "lost": lambda words, _: Lost(int(words[1]), words[2]),
    "evicted": lambda words, _: Evicted(int(words[1])),
    "denied": lambda words, _: Denied(int(words[1]), int(words[2]) if len(words) > 2 else 0),
}


def field_of(line: str) -> tuple[str, str]:
    name, _, value = line.partition(": ")
    return name, value


def acts_of(lines: Iterator[str]) -> list[Act]:
    """The acts of one entry of a report, without its line `> N`."""
    acts = []
    for line in lines:
        words = line.split(" ")
        count = int(words[-1]) if words[0] in ("open", "shown") else 0
        acts.append(READERS[words[0]](words, [field_of(next(lines)) for _ in range(count)]))
    return acts


def line_of(act: Act) -> str:
    """The act as it stands in a report."""
    match act:
        case Open(x, c, need, method, target, fields):
            return f"open {x} {c} {need} {method} {target} {len(fields)}\n{field_lines(list(fields))}"
        case Shown(c, r, why, status, low, high, fields):
            end = "-" if high is None else high
            return f"shown {c} {r} {why} {status} {low} {end} {len(fields)}\n{field_lines(list(fields))}"
        case Data(c, x, position, data):
            return f"data {c} {x} {position} {data.hex()}\n"
        case Denied(reason, told):
            return f"denied {reason} {told}\n" if reason in (1, 11) else f"denied {reason}\n"
        case Ask(x) | Close(x):
            return f"{type(act).__name__.lower()} {x}\n"
        case Ended(it) | Evicted(it):
            return f"{type(act).__name__.lower()} {it}\n"
        case Failed(c, cause):
            return f"failed {c} {cause}\n"
        case Pending(it, word) | Lost(it, word):
            return f"{type(act).__name__.lower()} {it} {word}\n"
    raise TypeError(act)


def _count(word: bytes) -> int:
    return int(word) if word.isdigit() else 0


class LastStart:
    """Who started last by the text of a schedule, which comes by pieces."""

    def __init__(self) -> None:
        self._line, self._who, self._missing = b"", 0, 0  # of the item that isn't whole: its last line, who starts, and its field lines

    def behind(self, text: bytes, report: bytes, last: int) -> int:
        """Who started last behind this piece, of which this is the report, and `last` before it. Nothing is told of one who starts."""
        events = self._events(text)
        for entry in ENTRY.split(report)[1:]:
            who = next(events, 0)
            last = last if entry else who or last
        for _ in events:
            pass
        return last

    def _events(self, text: bytes) -> Iterator[int]:
        """Who starts by each event whose item ends in this piece, or 0."""
        *lines, self._line = (self._line + text).split(b"\n")
        for line in lines:
            words = line.split(b" ")
            if self._missing:
                self._missing -= 1
            elif words[0] == b"at":
                continue
            else:
                self._who = _count(words[1]) if words[0] == b"start" and len(words) > 1 else 0
                self._missing = _count(words[-1]) if words[0] in (b"start", b"head") else 0
            if not self._missing:
                yield self._who
