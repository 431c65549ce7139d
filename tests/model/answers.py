"""Random heads of answers, and requests: mostly those that an origin and a caller would send, and some hostile ones."""
import random
from dataclasses import dataclass

from events import Head
from fields import Field, Fields, first_value
from messages import Load, Request
from ranges import resolved
from tables import Consumer, Exchange, Purpose, Tables

CACHE_CONTROLS = [
    b"max-age=60", b"max-age=10", b"max-age=0", b"no-cache", b"no-store", b"max-age=60, must-revalidate", b"max-age=5, must-revalidate",
    b"private, max-age=30", b"max-age=x", b"max-age", b'max-age="20"', b"MAX-AGE=15", b'foo="a, no-store", max-age=7', b"max-age=9999999999",
    b"no-cache=set-cookie, max-age=60", b"s-maxage=9", b"max-age=5, max-age=100", b", ,max-age=8", b"max-age = 5", b"max-age=",
    b'ext="a\\"b, no-store", max-age=40', b"no-store=1", b"max-age=2147483648", b"must-revalidate", b"max-age='5'", b'max-age="', b'max-age="1\\2"',
]
ASKED_CONTROLS = [
    b"no-cache", b"no-store", b"max-age=0", b"max-age=5", b"max-age=100", b"min-fresh=10", b"min-fresh=x", b"max-stale", b"max-stale=5",
    b"max-stale=100", b"max-stale=x", b"only-if-cached", b"max-age=x", b"foo", b"max-stale=", b'max-stale="7"', b"only-if-cached, max-stale",
    b"min-fresh=0", b"max-age=99999999999, max-stale=9", b"max-stale, max-age=3",
]
TAGS = [b'"a"', b'"a"', b'"a"', b'"b"', b'W/"a"', b"a", b'""', b'"a', b'w/"a"', b'W/"b"', b'"a b"', b'"\xe9"', b'"a\\"']
DATES = [
    b"Thu, 01 Jan 1970 00:16:40 GMT", b"Thu, 01 Jan 1970 00:10:00 GMT", b"Thursday, 01-Jan-70 00:16:50 GMT", b"Thu Jan  1 00:17:00 1970", b"0",
    b"Thu, 01 Jan 1970 00:18:20 GMT", b"Fri, 01 Jan 1970 00:16:40 GMT", b"", b"Thu, 01 Jan 1970 00:17:10 gmt", b"Thu, 01 Jan 1970 00:16:60 GMT",
    b"Sun, 06 Nov 1994 08:49:37 GMT", b"Sunday, 06-Nov-94 08:49:37 GMT", b"Thu, 01 Jan 1970 00:00:00 GMT", b"Tue, 31 Feb 2020 00:00:00 GMT",
    b"Thu, 1 Jan 1970 00:16:40 GMT", b"Tue, 01 Jan 2069 00:00:00 GMT", b"Tuesday, 01-Jan-69 00:00:00 GMT",
]
RANGES = [
    b"bytes=0-1", b"bytes=0-2", b"bytes=2-3", b"bytes=1-", b"bytes=-2", b"bytes=0-", b"bytes=3-5", b"bytes=4-9", b"bytes=9-", b"bytes=-0",
    b"bytes=5-2", b"bytes=0-1,3-4", b"BYTES=1-2", b"bytes= 1-2", b"bytes=00-03", b"items=0-1", b"bytes=-99", b"bytes=0-0", b"bytes=",
    b"bytes=4611686018427387904-", b"bytes=0-4611686018427387904", b"bytes=1-99999999999999999999", b"bytes=-4611686018427387904", b"bytes=-",
]
LENGTHS = [b"6", b"5, 5", b"x", b"", b",", b"06", b"-1", b"6, 7", b"+6", b"4611686018427387904", b"99999999999999999999", b'"6"', b"6 6"]
PARTS = [
    b"bytes 0-2/6", b"bytes 3-5/6", b"bytes 0-5/6", b"bytes 0-2/*", b"bytes */6", b"bytes 0-9/6", b"bytes 2-1/6", b"BYTES 0-1/6", b"bytes 0-2/6 ",
    b"bytes  0-2/6", b"items 0-2/6", b"bytes 00-02/06", b"bytes 0-2/3", b"bytes=0-2/6", b"bytes 0-4611686018427387904/*", b"bytes 1-1/2",
    b"bytes 0-4611686018427387903/*", b"bytes 1-4611686018427387902/4611686018427387903",
]
VARIES = [b"accept", b"Accept", b"*", b"accept, x-a", b"range", b"if-none-match", b"", b",", b"a b", b"x-b", b'"accept"', b"accept, *", b"if-range"]
ACCEPTS = [b"a", b"b", b"a, b", b""]
TOTALS = [0, 1, 2, 3, 4, 6, 6, 6, 6, 9, 12]
STATUSES = [200, 200, 200, 200, 203, 204, 206, 301, 304, 404, 416, 500, 503, 599, 400, 399]


BYTES = bytes(range(32, 127)) + b" ,,;=\"\"\\-/0019aA%:.\t\x00\n\x7f\x80\xc3\xff"


@dataclass(frozen=True)
class Taste:
    """What a schedule is about: the greater a number, the rarer what it is of."""

    calm: int = 1  # odd fields, statuses and lengths
    ranged: int = 3  # requests of a part
    short_lived: int = 2  # heads that say something else than a minute
    breaks: int = 12  # exchanges that end or fail early
    cut: int = 5  # parts that are shorter than what was asked for
    waits: int = 12  # moments between events
    keys: int = 4
    live: int = 7  # consumers at once
    total: int | None = None  # the same for all answers

TASTES = [
    Taste(),
    Taste(calm=4),
    Taste(calm=12, ranged=2, keys=1, total=12),
    Taste(calm=12, ranged=2, keys=2, total=30, breaks=5, waits=60),
    Taste(calm=12, ranged=9, keys=1, total=9, breaks=4, waits=40),
    Taste(calm=8, ranged=4, short_lived=1, keys=2, total=6, waits=5),
    Taste(calm=20, ranged=5, keys=1, total=40, breaks=40, waits=30),
    Taste(calm=20, ranged=1, keys=1, total=40, breaks=6, waits=60, live=2, cut=2),
    Taste(calm=6, ranged=1, keys=1, total=20, breaks=9, waits=30, live=3, cut=1),
    Taste(calm=20, ranged=1, keys=1, total=60, breaks=20, waits=40, live=1, cut=1),
]


class Chance(random.Random):
    taste = Taste()

    def draw_taste(self) -> None:
        self.taste = self.choice(TASTES)

    def is_odd(self, one_in: int) -> bool:
        """Something that a calm schedule has seldom."""
        return self.one_in(one_in * self.taste.calm)

    def one_in(self, count: int) -> bool:
        return self.randrange(count) == 0

    def maybe(self, name: bytes, found: list[bytes], one_in: int) -> list[Field]:
        """A field with one of these values, now and then twice."""
        if not self.is_odd(one_in):
            return []
        return [(name, self.value(found)) for _ in range(2 if self.is_odd(12) else 1)]

    def value(self, found: list[bytes]) -> bytes:
        value = self.choice(found)
        return clean_value(self.mutated(value)) if self.is_odd(9) else value

    def mutated(self, text: bytes) -> bytes:
        """A text with one byte more, less or otherwise."""
        at = self.randrange(len(text) + 1)
        byte = bytes([self.choice(BYTES)])
        return self.choice([text[:at] + text[at + 1 :], text[:at] + byte + text[at:], text[:at] + byte + text[at + 1 :]])


def clean_value(value: bytes) -> bytes:
    """What a schedule may have as a value."""
    return bytes(it for it in value if it == 9 or 32 <= it != 127).strip(b" \t")


def clean(fields: list[Field]) -> Fields:
    """Sorted by name, and as a schedule may have them."""
    return tuple(sorted(((name, value.strip(b" \t")) for name, value in fields), key=lambda it: it[0]))


def _range_of(chance: Chance) -> list[Field]:
    if not chance.one_in(chance.taste.ranged) or chance.one_in(4):
        return []
    if chance.is_odd(2):
        return [(b"range", chance.value(RANGES)) for _ in range(2 if chance.is_odd(12) else 1)]
    total = chance.taste.total or 6
    low = chance.choice([0, total, *range(total)])
    forms = [b"bytes=%d-%d" % (low, chance.randint(low, total)), b"bytes=%d-" % low, b"bytes=-%d" % low]
    return [(b"range", chance.choice(forms))]


def request_of(chance: Chance, key: bytes, is_conditional: bool) -> Request:
    method = chance.choice([b"HEAD", b"POST", b"get", b"OPTIONS", b"PUT", b"TRACE"]) if chance.is_odd(5) else b"GET"
    load = chance.choice(list(Load)) if chance.is_odd(3) or chance.one_in(12) else Load.NORMAL
    fields = _range_of(chance)
    fields += chance.maybe(b"cache-control", ASKED_CONTROLS, 5) + chance.maybe(b"pragma", [b"no-cache", b"x", b"No-Cache=1"], 40)
    fields += chance.maybe(b"accept", ACCEPTS, 4) + chance.maybe(b"x-a", ACCEPTS, 8)
    if is_conditional and not chance.one_in(3):
        fields = [it for it in fields if it[0] != b"range"]
        fields += [(b"if-none-match", chance.value(LISTS)) for _ in range(chance.choice([0, 1, 1, 1, 1, 2]))]
        fields += [(b"if-modified-since", chance.value(DATES)) for _ in range(chance.choice([0, 0, 1, 1, 1, 1, 2]))]
    for name in (b"if-none-match", b"if-match", b"if-range"):
        fields += chance.maybe(name, TAGS, 150)
    fields += chance.maybe(b"if-unmodified-since", DATES, 150) + chance.maybe(b"if-modified-since", DATES, 150)
    return Request(method, load, key, clean(fields + many(chance, 60)))


LISTS = TAGS + [b"*", b'"a", "b"', b'W/"b" , "a"', b',"a"', b'"b"', b'"b","c"', b"*, \"a\"", b'"a" "b"', b", ", b'"x",', b"a, b", b'"a,b"', b"**"]


def many(chance: Chance, one_in: int) -> list[Field]:
    """So many fields, or such long ones, that an update may pass a limit."""
    if not chance.is_odd(one_in):
        return []
    if chance.one_in(2):
        return [(b"y%02d" % it, b"v") for it in range(chance.choice([30, 50, 58]))]
    return [(chance.choice([b"z1", b"z2", b"z3"]), b"v" * 8000) for _ in range(chance.choice([1, 2, 3]))]


def _told(chance: Chance, tag: list[bytes]) -> list[Field]:
    fields = [(b"cache-control", b"max-age=60")] if chance.one_in(2) else []
    if not fields and chance.one_in(chance.taste.short_lived):
        fields = [(b"cache-control", chance.value(CACHE_CONTROLS if chance.is_odd(1) else CACHE_CONTROLS[:7]))]
    fields += chance.maybe(b"age", [b"0", b"5", b"30", b"x", b"99999999999", b"-1", b"5, 6"], 12) + chance.maybe(b"date", DATES, 8)
    fields += chance.maybe(b"expires", DATES, 8) + chance.maybe(b"last-modified", DATES, 6) + chance.maybe(b"vary", VARIES, 10)
    fields += chance.maybe(b"accept-ranges", [b"none", b"bytes", b"None", b"none, bytes", b"x"], 14)
    fields += chance.maybe(b"pragma", [b"no-cache"], 50) + chance.maybe(b"x-c", ACCEPTS, 8)
    fields += chance.maybe(b"connection", [b"close", b"x-c"], 30) + chance.maybe(b"content-encoding", [b"gzip"], 30)
    return fields + [(b"etag", it) for it in tag] + many(chance, 40)


def _tag(chance: Chance) -> list[bytes]:
    if not chance.is_odd(5):
        return [b'"a"']
    return [chance.value(TAGS) for _ in range(chance.choice([0, 1, 1, 1, 2]))]


def _sized(chance: Chance, count: int) -> list[Field]:
    if chance.is_odd(9) or chance.one_in(9):
        return chance.maybe(b"content-length", LENGTHS, 2)
    return [(b"content-length", b"%d" % count)]


def whole(chance: Chance, number: int, total: int) -> Head:
    return Head(number, 200, clean(_told(chance, _tag(chance)) + _sized(chance, total)))


def part(chance: Chance, number: int, low: int, end: int, total: int, tag: list[bytes]) -> Head:
    fields = _told(chance, tag) + [(b"content-range", b"bytes %d-%d/%d" % (low, end - 1, total))]
    if chance.one_in(3):
        fields += _sized(chance, end - low)
    return Head(number, 206, clean(fields))


def _any(chance: Chance, number: int) -> Head:
    fields = _told(chance, _tag(chance)) + chance.maybe(b"content-length", LENGTHS + [b"0", b"6", b"3"], 2)
    return Head(number, chance.choice(STATUSES), clean(fields + chance.maybe(b"content-range", PARTS, 3)))


def _not_modified(chance: Chance, number: int) -> Head:
    tag = chance.choice([[], [b'"a"'], [b'W/"a"'], _tag(chance)])
    fields = [it for it in _told(chance, tag) if not chance.one_in(3)]
    return Head(number, 304, clean(fields))


def _for_range(chance: Chance, consumer: Consumer, number: int, total: int) -> Head:
    wanted = resolved(consumer.wish.range, total)
    if not wanted:
        return Head(number, 416, ((b"content-range", b"bytes */%d" % total),))
    low, end = wanted
    if chance.one_in(chance.taste.cut):
        end = chance.randint(low + 1, min(total, end + 1))
    return part(chance, number, low, end, total, _tag(chance))


def _for_hole(chance: Chance, tables: Tables, exchange: Exchange) -> Head:
    stored = tables.representations[exchange.aim]
    low, end = exchange.hole
    if chance.one_in(chance.taste.cut):
        end = chance.randint(low + 1, end)
    if chance.one_in(20):
        low, end = max(0, low + chance.choice([-1, 0, 1])), end + chance.choice([0, 1])
    total = stored.total + chance.choice([-1, 1]) if chance.one_in(30) else stored.total
    tag = [first_value(stored.head.fields, b"etag")]
    if chance.one_in(15):
        tag = chance.choice([[], [b'"b"'], [b'W/"a"'], tag + tag, _tag(chance)])
    return part(chance, exchange.number, low, max(end, low + 1), max(total, end, low + 1), tag)


def head_for(chance: Chance, tables: Tables, exchange: Exchange, total: int) -> Head:
    """Mostly what an origin would answer that has so many bytes."""
    consumer = tables.consumers[exchange.consumer]
    if chance.is_odd(7) or chance.one_in(12 if consumer.is_shown else 40):
        return _any(chance, exchange.number)
    if exchange.purpose is Purpose.HOLE and not chance.is_odd(8):
        return _for_hole(chance, tables, exchange)
    if exchange.is_conditional and not chance.one_in(3):
        return _not_modified(chance, exchange.number)
    if consumer.wish.range is not None and not chance.one_in(4):
        return _for_range(chance, consumer, exchange.number, total)
    return whole(chance, exchange.number, total)
