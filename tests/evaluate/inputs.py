"""Random inputs of the rules, made of what the model's generator makes."""
import re

import answers
import validation
from bodies import Body
from messages import Request, StoredHead

KEY = b"http://a.test/x"
NEEDS_PAST = ["Disabled", "TimedOut", "Unsatisfied"]
NEEDS_TURN = ["Bypass", "Miss", "Vary", "Validate", "Validate", "Validate"]


def request(chance, is_conditional=False):
    return answers.request_of(chance, KEY, is_conditional)


def ranged_request(chance):
    """A plain one, mostly of a part."""
    made = answers.request_of(chance, KEY, False)
    told = [b"bytes=%d-%s" % (chance.randrange(7), chance.choice([b"", b"8", b"9"]))] if chance.randrange(3) else []
    return Request(b"GET", made.load, KEY, tuple((b"range", it) for it in told)) if chance.randrange(3) else made


def any_head(chance):
    made = answers.whole(chance, 1, chance.choice(answers.TOTALS)).fields
    parts = chance.maybe(b"content-range", answers.PARTS, 2)
    return chance.choice(answers.STATUSES), answers.clean([*made, *parts])


def part_head(chance):
    """Mostly a 206 that fits."""
    low = chance.randrange(5)
    end, total = chance.randint(low + 1, 7), chance.choice([6, 6, 6, 7])
    tag = [chance.choice(answers.TAGS[:5])] if chance.randrange(20) else []
    made = answers.part(chance, 1, low, end, total, tag)
    return (206 if chance.randrange(9) else chance.choice(answers.STATUSES)), made.fields


def head(chance):
    return part_head(chance) if chance.randrange(5) < 3 else any_head(chance)


def stored_head(chance):
    """With a moment at which it was asked for and one at which it came."""
    fields = validation.stored_fields(answers.whole(chance, 1, 6).fields)
    asked_with = tuple(it for it in request(chance).fields if it[0] in (b"accept", b"x-a"))
    requested = 1000 + chance.choice([0, 0, 5, 100])
    return StoredHead(200, fields, requested, requested + chance.choice([0, 0, 1, 7, 100]), asked_with)


def tagged_head(chance):
    """What other parts may join."""
    tag = chance.choice([b'"a"', b'"a"', b'"b"', b'W/"a"'])
    return StoredHead(200, ((b"etag", tag),), 1000, 1000, ())


def body(chance, limit=8):
    """Bytes apart or side by side, of several exchanges."""
    made, at = Body(), chance.randrange(3)
    while at < limit and chance.randrange(5):
        count = min(chance.randint(1, 3), limit - at)
        made.put(at, chance.randint(1, 3), bytes(count))
        at += count + chance.choice([0, 0, 1, 2])
    return made


def text(chance):
    """What one of several fields may have as its value."""
    found = chance.choice([answers.RANGES, answers.PARTS, answers.LENGTHS, answers.TAGS, answers.DATES, answers.LISTS])
    value = chance.choice(found)
    if chance.one_in(8):
        value = re.sub(rb"[0-9]+", lambda number: number[0].rjust(chance.choice([2, 18, 19]), b"0"), value)
    return chance.mutated(value) if chance.randrange(3) == 0 else value
