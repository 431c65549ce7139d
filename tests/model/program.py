"""The program: its words, its streams and its statuses."""
import os
import re
from collections.abc import Callable, Iterator
from dataclasses import dataclass, field

import images
import targets
from cache import Cache
from events import Event
from fetch import Fetch
from front import Front
from report import text_of_entry
from schedule import NAMES, Refused, events_of

USAGE = (
    "usage: replay | generate SEED COUNT | serve LISTEN ORIGIN TURNS | origin LISTEN TURNS | save | open | conditional"
    " | fetch TARGET N SIZE\n"
)
MOST_PARTS, MOST_SIZE = 1000, 2**40
_PLAIN = re.compile(r"(?:0|[1-9][0-9]*)\Z")


@dataclass
class Result:
    """What a command comes to over streams that never fail."""

    status: int = 0
    output: list[bytes] = field(default_factory=list)
    said: str = ""

    def refuse(self, error: Refused) -> "Result":
        self.status, self.said = 1, f"line {error.line}: {NAMES[error.name]} {error.name}\n"
        return self

    def end(self, status: int, said: str = "") -> "Result":
        self.status, self.said = status, said
        return self


@dataclass(frozen=True)
class Input:
    """What was read, and whether reading failed behind it."""

    text: bytes
    has_failed: bool = False


Step = Callable[[int, Event], list]


def _whole_events(source: Input, start: int = 0, now: int = 0) -> Iterator[tuple[int, Event]]:
    """The events; where reading failed, that the text ends is no refusal."""
    try:
        yield from events_of(source.text[start:], now)
    except Refused as error:
        if not source.has_failed or error.name != "CutShort":
            raise


def _report(step: Step, events: Iterator[tuple[int, Event]], result: Result) -> Result:
    try:
        for number, (now, event) in enumerate(events, 1):
            result.output.append(text_of_entry(number, step(now, event)))
    except Refused as error:
        return result.refuse(error)
    return result


def _or_failed(result: Result, source: Input) -> Result:
    return result.end(3) if source.has_failed and result.status == 0 else result


def replay(source: Input) -> Result:
    return _or_failed(_report(Cache().step, _whole_events(source), Result()), source)


def conditional(source: Input) -> Result:
    return _or_failed(_report(Front(Cache()).step, _whole_events(source), Result()), source)


def save(source: Input) -> Result:
    cache = Cache()
    try:
        for now, event in _whole_events(source):
            cache.step(now, event)
    except Refused as error:
        return Result().refuse(error)
    if source.has_failed:
        return Result(3)
    images.cancel_all(cache)
    return Result(0, [images.text_of_image(images.contents_of(cache.tables))])


def open_image(source: Input) -> Result:
    if source.has_failed:
        return Result(3)
    try:
        contents, behind = images.read_image(source.text)
        tables = images.tables_of(contents)
    except images.BadImage:
        return Result(7, said="image: 1 BadImage\n")
    except images.BadContent as error:
        return Result(7, said=f"image: 2 BadContent {error.args[0]}\n")
    except images.Full:
        return Result(7, said="image: 3 Full\n")
    return _report(Cache(tables).step, _whole_events(source, behind, contents.now), Result())


def fetch(source: Input, target: bytes, parts: int, size: int) -> Result:
    course, result = Fetch(target, parts, size), Result()
    try:
        for now, event in _whole_events(source):
            result.output.append(course.step(now, event))
            if course.verdict:
                return result.end(8, course.verdict + "\n")
    except Refused as error:
        return result.refuse(error)
    if source.has_failed:
        return result.end(3)
    unfinished = course.ending()
    return result.end(8, unfinished + "\n") if unfinished else result


def _number(word: str, least: int, most: int) -> int | None:
    return int(word) if _PLAIN.match(word) and least <= int(word) <= most else None


PLAIN = {"replay": replay, "conditional": conditional, "save": save, "open": open_image}


def command_of(words: list[str]) -> Callable[[Input], Result] | None:
    """What the words ask for; None where they are no command."""
    if len(words) == 1:
        return PLAIN.get(words[0])
    if len(words) != 4 or words[0] != "fetch":
        return None
    target, parts, size = words[1].encode(errors="surrogateescape"), _number(words[2], 1, MOST_PARTS), _number(words[3], 1, MOST_SIZE)
    if not targets.is_target(target) or parts is None or size is None:
        return None
    return lambda source: fetch(source, target, parts, size)


def read_all(handle: int) -> Input:
    parts = []
    try:
        while part := os.read(handle, 1 << 20):
            parts.append(part)
    except OSError:
        return Input(b"".join(parts), True)
    return Input(b"".join(parts))


def _write(handle: int, text: bytes) -> bool:
    try:
        while text:
            text = text[os.write(handle, text) :]
    except OSError:
        return False
    return True


def main(words: list[str]) -> int:
    """Runs a command over the standard streams, and answers its status."""
    command = command_of(words)
    result = command(read_all(0)) if command else Result(2, said=USAGE)
    are_written = _write(1, b"".join(result.output)) and _write(2, result.said.encode())
    return result.status if are_written else 4
