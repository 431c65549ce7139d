"""Images: what a store has, as a text."""
from collections import Counter
from dataclasses import dataclass, field

from bodies import Body, Run
from cache import Cache
from events import Cancel
from records import Record, line_of, numbers_of, read_record, text_of_record
from schedule import Lines, NoTarget, OffGrammar, Refused, number, target
from statuses import brings_whole
from tables import MOST_BODY, MOST_STORED, Representation, Tables
from validation import NOT_STORED


class BadImage(Exception):
    """The text begins with no image."""


class BadContent(Exception):
    """A cache can't begin with these contents, by reason of this item."""


class Full(Exception):
    """The contents pass a limit of the store."""


@dataclass(frozen=True)
class Item:
    key: bytes
    number: int
    record: Record
    runs: tuple[Run, ...]


@dataclass(frozen=True)
class Contents:
    now: int
    last: int
    next_exchange: int
    items: tuple[Item, ...]


def kind_of(stored: Representation) -> bytes:
    """How much of a body is stored, where nobody writes it."""
    if stored.is_whole:
        return b"W"
    has_front = len(stored.body.runs) > 0 and stored.body.hole_in((0, stored.body.reach)) is None
    return b"T" if has_front else b"R"


def _item(stored: Representation) -> Item:
    return Item(stored.key, stored.number, Record(kind_of(stored), stored.total, stored.head), tuple(stored.body.runs))


def contents_of(tables: Tables) -> Contents:
    """What is left once nobody is live."""
    left = sorted((tables.representations[it] for it in tables.current.values()), key=lambda it: it.bound_last)
    return Contents(tables.now, tables.last, tables.next_exchange, tuple(_item(it) for it in left))


def cancel_all(cache: Cache) -> None:
    """By rising number."""
    for consumer in [it for it in cache.tables.consumers.values() if it.is_live]:
        cache.step(cache.tables.now, Cancel(consumer.number))


def text_of_image(contents: Contents) -> bytes:
    parts = [b"image 1\n%d %d %d %d\n" % (contents.now, contents.last, contents.next_exchange, len(contents.items))]
    for item in contents.items:
        parts.append(b"item %s %d %d\n" % (item.key, item.number, len(item.runs)))
        parts.append(text_of_record(item.record))
        for run in item.runs:
            parts.append(b"run %d %d %d\n%s\n" % (run.exchange, run.at, len(run.data), run.data))
    return b"".join(parts)


def _read_run(lines: Lines) -> Run:
    words = line_of(lines).split(b" ")
    if words[0] != b"run" or len(words) != 4:
        raise OffGrammar
    exchange, at, count = (number(it) for it in words[1:])
    end = lines.at + count
    if lines.text[end : end + 1] != b"\n":
        raise OffGrammar
    data, lines.at = lines.text[lines.at : end], end + 1
    return Run(at, exchange, bytearray(data))


def _read_item(lines: Lines) -> Item:
    words = line_of(lines).split(b" ")
    if words[0] != b"item" or len(words) != 4:
        raise OffGrammar
    key, founder, count = target(words[1]), number(words[2]), number(words[3])
    record = read_record(lines)
    return Item(key, founder, record, tuple(_read_run(lines) for _ in range(count)))


def read_image(text: bytes) -> tuple[Contents, int]:
    """The contents of the image with which a text begins, and where it ends."""
    lines = Lines(text)
    try:
        if line_of(lines) != b"image 1":
            raise OffGrammar
        now, last, next_exchange, count = numbers_of(line_of(lines), 4)
        items = tuple(_read_item(lines) for _ in range(count))
    except (OffGrammar, NoTarget, Refused):
        raise BadImage from None
    return Contents(now, last, next_exchange, items), lines.at


MOST_EXCHANGES = 2**60


def _representation(item: Item) -> Representation:
    body = Body()
    for run in item.runs:
        body.put(run.at, run.exchange, bytes(run.data))
    return Representation(item.number, item.key, item.record.head, item.record.total, body)


def _are_runs(item: Item, next_exchange: int) -> bool:
    """Bytes of earlier exchanges, none over another or behind the end, as long as one exchange brought them."""
    before: Run | None = None
    for run in item.runs:
        if not run.data or not 1 <= run.exchange < next_exchange or before and run.at < before.end:
            return False
        if before and run.at == before.end and run.exchange == before.exchange:
            return False
        before = run
    return before is None or before.end <= item.record.total


def _is_fit_head(item: Item, now: int) -> bool:
    head = item.record.head
    is_told_anew = any(name in NOT_STORED for name, _ in head.fields)
    return head.requested <= head.answered <= now and not is_told_anew and (brings_whole(head.status) or head.tag is not None)


def _is_fit(item: Item, contents: Contents) -> bool:
    """What holds of an item alone."""
    if not 1 <= item.number < contents.next_exchange or item.record.total is None or not _is_fit_head(item, contents.now):
        return False
    if not _are_runs(item, contents.next_exchange):
        return False
    stored = _representation(item)
    is_completable = stored.is_whole or item.record.head.tag is not None
    return kind_of(stored) == item.record.kind and is_completable and stored.body.size <= MOST_BODY


@dataclass
class Earlier:
    """What the items before one have, and how many items of all have each number."""

    founders: Counter[int]
    keys: set[bytes] = field(default_factory=set)
    said: set[int] = field(default_factory=set)

    def is_alone(self, item: Item) -> bool:
        """Whether no earlier item has its key, its number or an exchange that brought it, and no later one the latter as its number."""
        found = {run.exchange for run in item.runs}
        if item.key in self.keys or self.said & {item.number, *found}:
            return False
        return not any(self.founders[it] for it in found - {item.number})

    def add(self, item: Item) -> None:
        self.keys.add(item.key)
        self.said.update((item.number, *(run.exchange for run in item.runs)))


def _check(contents: Contents) -> None:
    earlier = Earlier(Counter(it.number for it in contents.items))
    for place, item in enumerate(contents.items):
        if not _is_fit(item, contents) or not earlier.is_alone(item):
            raise BadContent(place)
        earlier.add(item)
    if not 1 <= contents.next_exchange <= MOST_EXCHANGES:
        raise BadContent(len(contents.items))


def tables_of(contents: Contents) -> Tables:
    """A cache that begins with these contents."""
    _check(contents)
    tables = Tables(contents.now, contents.last, contents.next_exchange)
    for item in contents.items:
        stored = _representation(item)
        tables.bindings += 1
        stored.bound_last = tables.bindings
        tables.representations[stored.number] = stored
        tables.current[stored.key] = stored.number
        tables.weight += stored.weight
    if tables.weight > MOST_STORED:
        raise Full
    return tables
