"""Schedules of what is large: a store that is full, a body that passes its limit, and as many consumers as may live."""
from answers import Chance
from cases import Case

FULL = 8192  # so many empty representations have room
MOST_BODY = 16_777_216
PIECE = 65_536
HEAD = b"cache-control: max-age=60\n"


def _record(kind: bytes, total: int, tag: bytes) -> bytes:
    fields = HEAD + (b"etag: %s\n" % tag if tag != b"-" else b"")
    return b"record 2\n%s %020d\n200 1000 1000 0 %d\ntag %s\n%s" % (kind, total, fields.count(b"\n"), tag, fields)


def _empty_item(number: int) -> bytes:
    return b"item http://a.test/%d %d 0\n" % (number, number) + _record(b"W", 0, b"-")


def _fetch(consumer: int, key: bytes, exchange: int, size: int) -> bytes:
    """Who asks for a key, is shown a new head, and leaves."""
    lines = b"start %d GET bypass %s 0\npoll %d 9\nhead %d 200 2\ncache-control: max-age=60\ncontent-length: %d\n"
    return lines % (consumer, key, consumer, exchange, size) + b"poll %d 9\n" % consumer * 2


def crowded_store(chance: Chance) -> list[Case]:
    """An image that nearly fills the store, and a schedule that has to make room."""
    count = FULL - chance.choice([0, 0, 1, 2])
    items = [b"image 1\n1000 1 %d %d\n" % (count + 1, count), *(_empty_item(it) for it in range(1, count + 1))]
    consumer, exchange = 2, count + 1
    for _ in range(40):
        key = b"http://a.test/%d" % chance.choice([chance.randint(1, 9), chance.randint(FULL, FULL + 20), chance.randint(1, FULL)])
        if chance.one_in(3):
            items.append(b"start %d GET normal %s 0\npoll %d 9\n" % (consumer, key, consumer))
            if chance.one_in(2):
                items.append(b"poll %d 9\n" % consumer)
        else:
            size = chance.choice([0, 0, 4, 40_000])
            items.append(_fetch(consumer, key, exchange, size))
            items.append(b"piece %d %s\n" % (exchange, b"61" * size) if size else b"")
            exchange += 1
        if chance.one_in(2):
            items.append(b"cancel %d\n" % consumer)
        consumer += 1
    return [Case(("open",), tuple(items), 160)]


def _large_image(stored: int) -> bytes:
    item = b"item http://a.test/x 1 1\n" + _record(b"T", MOST_BODY + 9, b'"a"')
    return b"image 1\n1000 1 2 1\n" + item + b"run 1 0 %d\n%s\n" % (stored, b"a" * stored)


def _resume(consumer: int, exchange: int, stored: int) -> bytes:
    lines = b"start %d GET normal http://a.test/x 0\npoll %d 9\nhead %d 206 2\n" % (consumer, consumer, exchange)
    return lines + b'content-range: bytes %d-%d/%d\netag: "a"\n' % (stored, MOST_BODY + 8, MOST_BODY + 9)


def large_body(chance: Chance) -> list[Case]:
    """A download is resumed, and passes the limit of a body: who has read all goes on alone."""
    left = chance.randint(0, 4)
    stored = MOST_BODY - left
    items = [_large_image(stored), _resume(2, 2, stored), b"start 3 GET normal http://a.test/x 0\npoll 3 9\npoll 2 9\n"]
    for consumer in chance.choice([[], [2], [3], [3, 2]]):
        items += [b"poll %d %d\n" % (consumer, PIECE)] * (MOST_BODY // PIECE + 2)
    asks = chance.choice([2, 3])
    items.append(b"poll %d %d\n" % (asks, PIECE) * 2)
    if chance.one_in(3):
        items.append(b"cancel %d\n" % asks)
    items.append(b"piece 2 6162636465\n")
    behind = [b"poll 2 2\n", b"poll 3 2\n", b"piece 2 6162\n", b"poll 3 65536\n", b"poll 2 65536\n", b"end 2\n", b"cancel 2\n", b"fault 2\n"]
    items += [chance.choice(behind) for _ in range(30)]
    return [Case(("open",), tuple(items), 100)]


def large_part(chance: Chance) -> list[Case]:
    """One who writes alone passes the limit, and goes on with its exchange."""
    stored = MOST_BODY - 4
    item = b"item http://a.test/x 1 1\n" + _record(b"R", MOST_BODY + 99, b'"a"')
    image = b"image 1\n1000 1 2 1\n" + item + b"run 1 50 %d\n%s\n" % (stored, b"a" * stored)
    lines = b'start 2 GET normal http://a.test/x 0\npoll 2 9\nhead 2 206 2\ncontent-range: bytes 0-49/%d\netag: "a"\npoll 2 9\n'
    items = [image, lines % (MOST_BODY + 99)]
    behind = [b"poll 2 9\n", b"poll 2 2\n", b"piece 2 616263\n", b"piece 2 61\n", b"fault 2\n", b"doom http://a.test/x\n"]
    items += [chance.choice(behind[: 4 if it < 20 else 6]) for it in range(30)]
    return [Case(("open",), tuple(items), 30)]


def crowd(chance: Chance) -> list[Case]:
    """More consumers than may live."""
    items = [b"start %d GET %s http://a.test/x 0\n" % (it, chance.choice([b"normal", b"disable", b"only"])) for it in range(1, 1027)]
    items += [b"poll %d 9\n" % chance.randint(1, 1030) for _ in range(20)]
    items += [b"cancel %d\nstart %d GET normal http://a.test/x 0\n" % (chance.randint(1, 1030), 1030 + it) for it in range(9)]
    return [Case(("replay",), tuple(items), 1064)]
