"""Schedules: the events of a text, and the first line that can't stand where it is."""
import re
from collections.abc import Iterator
from dataclasses import dataclass

import targets
from events import Cancel, Doom, End, Event, Fault, Head, Piece, Poll, Start
from fields import MOST_FIELD_BYTES, MOST_FIELDS, Field, Fields
from messages import Load, Request

LONGEST_LINE = 140_000
LONGEST_VALUE = 8192
MOST_BYTES = 65_536
MOST = 2**62 - 1

_NUMBER = re.compile(rb"(?:0|[1-9][0-9]{0,18})\Z")
_METHOD = re.compile(rb"[!#$%&'*+.^_`|~0-9A-Za-z-]{1,15}\Z")
_FIELD = re.compile(rb"([!#$%&'*+.^_`|~0-9a-z-]+): ([^\x00-\x08\x0a-\x1f\x7f]*)\Z")
_HEX = re.compile(rb"(?:[0-9a-f]{2})+\Z")


class Refused(Exception):
    """A line that can't stand where it is, and why."""

    def __init__(self, line: int, name: str):
        super().__init__(line, name)
        self.line, self.name = line, name


NAMES = {"BadLine": 1, "LineTooLong": 2, "BadTarget": 3, "MomentBack": 4, "CutShort": 5}


class OffGrammar(Exception):
    pass


class NoTarget(Exception):
    pass


def number(word: bytes, least: int = 0, most: int = MOST) -> int:
    if not _NUMBER.match(word) or not least <= int(word) <= most:
        raise OffGrammar
    return int(word)


def target(word: bytes) -> bytes:
    if not word:
        raise OffGrammar
    if not targets.is_target(word):
        raise NoTarget
    return word


def field_of(line: bytes) -> Field:
    found = _FIELD.match(line)
    if not found or len(found[2]) > LONGEST_VALUE or found[2].strip(b" \t") != found[2]:
        raise OffGrammar
    return found[1], found[2]


@dataclass
class Lines:
    """The lines of a text, one after another."""

    text: bytes
    at: int = 0
    line: int = 0  # the number of the last one

    def next(self) -> bytes | None:
        """The next line, or None where the text ends before it begins."""
        end = self.text.find(b"\n", self.at, self.at + LONGEST_LINE + 1)
        is_long = end < 0 and len(self.text) - self.at > LONGEST_LINE
        if end < 0 and not is_long and self.at == len(self.text):
            return None
        self.line += 1
        if end < 0:
            raise Refused(self.line, "LineTooLong" if is_long else "CutShort")
        found, self.at = self.text[self.at : end], end + 1
        return found


def _words(line: bytes, count: int) -> list[bytes]:
    found = line.split(b" ")
    if len(found) != count:
        raise OffGrammar
    return found


def _start(words: list[bytes], fields: Fields) -> Start:
    request = Request(words[2], Load(words[3]), words[4], fields)
    return Start(int(words[1]), request)


def _read_start(line: bytes) -> tuple[list[bytes], int]:
    words = _words(line, 6)
    number(words[1])
    if not _METHOD.match(words[2]) or words[2] == b"CONNECT" or words[3] not in [it.value for it in Load]:
        raise OffGrammar
    count = number(words[5], 0, MOST_FIELDS)
    target(words[4])
    return words, count


def _read_head(line: bytes) -> tuple[list[bytes], int]:
    words = _words(line, 4)
    number(words[1])
    number(words[2], 200, 599)
    return words, number(words[3], 0, MOST_FIELDS)


def _poll(line: bytes) -> Poll:
    words = _words(line, 3)
    return Poll(number(words[1]), number(words[2], 0, MOST_BYTES))


def _piece(line: bytes) -> Piece:
    words = _words(line, 3)
    exchange, digits = number(words[1]), words[2]
    if digits == b"-":
        return Piece(exchange, b"")
    if not _HEX.match(digits) or len(digits) > 2 * MOST_BYTES:
        raise OffGrammar
    return Piece(exchange, bytes.fromhex(digits.decode()))


def _fields(lines: Lines, count: int) -> Fields:
    found: list[Field] = []
    size = 0
    for _ in range(count):
        line = lines.next()
        if line is None:
            raise Refused(lines.line + 1, "CutShort")
        found.append(field_of(line))
        size += len(found[-1][0]) + len(found[-1][1])
        if size > MOST_FIELD_BYTES or len(found) > 1 and found[-1][0] < found[-2][0]:
            raise OffGrammar
    return tuple(found)


def _event(line: bytes, lines: Lines) -> Event:
    match line.split(b" ", 1)[0]:
        case b"start":
            words, count = _read_start(line)
            return _start(words, _fields(lines, count))
        case b"head":
            words, count = _read_head(line)
            return Head(int(words[1]), int(words[2]), _fields(lines, count))
        case b"poll":
            return _poll(line)
        case b"piece":
            return _piece(line)
        case b"end":
            return End(number(_words(line, 2)[1]))
        case b"fault":
            return Fault(number(_words(line, 2)[1]))
        case b"cancel":
            return Cancel(number(_words(line, 2)[1]))
        case b"doom":
            return Doom(target(_words(line, 2)[1]))
        case _:
            raise OffGrammar


def _moment(line: bytes, now: int, lines: Lines) -> int:
    moment = number(_words(line, 2)[1])
    if moment < now:
        raise Refused(lines.line, "MomentBack")
    return moment


def events_of(text: bytes, now: int = 0) -> Iterator[tuple[int, Event]]:
    """Each event with its moment. Raises Refused at the first line that can't stand."""
    lines = Lines(text)
    try:
        while (line := lines.next()) is not None:
            if line.startswith(b"at "):
                now = _moment(line, now, lines)
            else:
                yield now, _event(line, lines)
    except OffGrammar:
        raise Refused(lines.line, "BadLine") from None
    except NoTarget:
        raise Refused(lines.line, "BadTarget") from None
