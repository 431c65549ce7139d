"""Schedules of the syntax of fields: each key has an answer and a later request with values that are nearly well formed."""
from answers import (
    ACCEPTS, ASKED_CONTROLS, CACHE_CONTROLS, DATES, LENGTHS, LISTS, PARTS, RANGES, TAGS, VARIES, Chance, clean, clean_value,
)
from events import Cancel, Head, Piece, Poll, Start
from fields import Field
from messages import Load, Request

ODD_ANSWERS = {
    b"age": [b"0", b"5", b"30", b"99999999999"], b"cache-control": CACHE_CONTROLS, b"date": DATES, b"expires": DATES, b"last-modified": DATES,
    b"etag": TAGS, b"vary": VARIES, b"accept-ranges": [b"none", b"bytes"], b"content-length": LENGTHS + [b"3", b"3"], b"content-range": PARTS,
}
ODD_REQUESTS = {
    b"cache-control": ASKED_CONTROLS, b"pragma": [b"no-cache", b"x", b"No-Cache=1"], b"range": RANGES, b"accept": ACCEPTS,
    b"if-none-match": LISTS, b"if-modified-since": DATES,
}


def _odd(chance: Chance, known: dict[bytes, list[bytes]]) -> Field:
    name = chance.choice(list(known))
    value = chance.choice(known[name])
    for _ in range(chance.choice([0, 1, 1, 2])):
        value = chance.mutated(value)
    return name, clean_value(value)


def _answer(chance: Chance, number: int) -> Head:
    plain = [(b"content-length", b"3"), (b"cache-control", b"max-age=60"), (b"etag", b'"a"'), (b"last-modified", DATES[1])]
    odd = [_odd(chance, ODD_ANSWERS) for _ in range(chance.choice([1, 1, 2]))]
    names = {name for name, _ in odd}
    beside = set() if chance.one_in(4) else names  # else a name may have two values
    fields = [it for it in plain if it[0] not in beside and not chance.one_in(4)] + odd
    chance.shuffle(fields)
    return Head(number, 206 if b"content-range" in names else 200, clean(fields))


def _request(chance: Chance, key: bytes, is_odd: bool) -> Request:
    fields = [_odd(chance, ODD_REQUESTS) for _ in range(chance.choice([0, 1, 1, 2]) if is_odd else 0)]
    return Request(b"GET", chance.choice([Load.NORMAL, Load.NORMAL, Load.SKIP]) if is_odd else Load.NORMAL, key, clean(fields))


def _one_key(chance: Chance, play, key: bytes) -> None:
    """An exchange that founds, or not, and then two requests that what is stored serves, or not."""
    consumer, exchange = play.tables.last + 1, play.tables.next_exchange
    first = Request(b"GET", Load.NORMAL, key, clean([(b"range", b"bytes=0-2")] * chance.one_in(3)))
    for event in (Start(consumer, first), Poll(consumer, 9), _answer(chance, exchange), Poll(consumer, 9), Poll(consumer, 9)):
        play.add(event)
    for event in (Piece(exchange, chance.choice([b"a", b"abc", b"abc"])), Poll(consumer, 9), Poll(consumer, 9)):
        play.add(event)
    if chance.one_in(2):
        play.add(Cancel(consumer))
    for _ in range(2):
        if chance.one_in(2):
            play.wait(chance.choice([1, 4, 10, 60]))
        consumer = play.tables.last + 1
        play.add(Start(consumer, _request(chance, key, True)))
        play.add(Poll(consumer, 9))
        if chance.one_in(3):
            play.add(_answer(chance, play.tables.next_exchange - 1))
            play.add(Poll(consumer, 9))


def play_keys(chance: Chance, play, count: int) -> None:
    for place in range(count):
        _one_key(chance, play, b"http://a.test/%d" % place)
