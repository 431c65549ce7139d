"""Worked rows of the repository as events of a `Cache`."""
from __future__ import annotations

import pathlib
from typing import Callable, Iterator

from vosdrieng import Act, Cache
from vosdrieng.text import field_of, line_of

TOP = pathlib.Path(__file__).resolve().parents[3]


def rows() -> list[pathlib.Path]:
    """The schedules that `replay` takes whole, and the example."""
    taken = [path for path in sorted((TOP / "tests/rows").rglob("*.row")) if path.read_text().split("\n")[:2] == ["words: replay", "status: 0"]]
    return [path.with_suffix(".schedule") for path in taken if "\ninput" not in path.read_text()] + [TOP / "examples/first.schedule"]


def events(schedule: bytes) -> Iterator[tuple[list[str], list[tuple[str, str]]]]:
    """The items of a schedule: the words of a line, and the fields behind it."""
    lines = iter(schedule.decode("latin-1").split("\n")[:-1])
    for line in lines:
        words = line.split(" ")
        count = int(words[-1]) if words[0] in ("start", "head") else 0
        yield words, [field_of(next(lines)) for _ in range(count)]


def step(cache: Cache, now: int, words: list[str], fields: list[tuple[str, str]]) -> list[Act]:
    calls: dict[str, Callable[[], list[Act]]] = {
        "start": lambda: cache.start(now, int(words[1]), words[2], words[4], fields, words[3]),
        "poll": lambda: cache.poll(now, int(words[1]), int(words[2])),
        "head": lambda: cache.head(now, int(words[1]), int(words[2]), fields),
        "piece": lambda: cache.piece(now, int(words[1]), bytes.fromhex(words[2].replace("-", ""))),
        "end": lambda: cache.end(now, int(words[1])),
        "fault": lambda: cache.fault(now, int(words[1])),
        "cancel": lambda: cache.cancel(now, int(words[1])),
        "doom": lambda: cache.doom(now, words[1]),
    }
    return calls[words[0]]()


def replay(cache: Cache, schedule: bytes) -> bytes:
    """The report of the schedule, from the acts of the cache."""
    now, count, report = 0, 0, []
    for words, fields in events(schedule):
        if words[0] == "at":
            now = int(words[1])
            continue
        count += 1
        report += [f"> {count}\n", *map(line_of, step(cache, now, words, fields))]
    return "".join(report).encode("latin-1")
