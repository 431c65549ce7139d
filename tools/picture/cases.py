"""What a head is to its exchange and to what is stored: the table "Heads that come" of docs/RULES.md.

The report doesn't say it; the picture needs it to tell what was founded, joined or replaced.
"""
import heads

DIRECT = ("disabled", "timed-out", "unsatisfied")
SAFE = ("GET", "HEAD", "OPTIONS", "TRACE")
FOUND = ("FoundsWhole", "FoundsRange", "FirstReplaced")
JOIN = ("FirstJoins", "LaterJoins")
PAST = ("DirectTaken", "DirectBad", "PassesBy", "FirstPassesBy")


def is_direct(need):
    return need in DIRECT


def is_storable(method, asked, status, fields):
    """The answer may be stored (RFC 9111 section 3)."""
    refuses = heads.has_directive(asked, b"no-store") or heads.has_directive(fields, b"no-store")
    return method == "GET" and (heads.brings_whole(status) or heads.brings_part(status)) and not refuses


def selects(stored, fields):
    """A 304 is about what is stored (RFC 9111 section 4.3.4)."""
    if heads.has_directive(fields, b"no-store"):
        return False
    if not heads.values(fields, b"etag"):
        return True
    new, old = heads.tag_of(fields), heads.tag_of(stored)
    if not new or not old or new[1] != old[1]:
        return False
    return new[0] or not old[0]


def fits_to_found(asked, fields):
    """A part that others can join later."""
    part = heads.part_of(fields)
    if asked is None or heads.strong_tag(fields) is None or part is None or part[2] is None:
        return False
    span = heads.resolved(asked, part[2])
    return span is not None and part[0] == span[0] and part[1] < span[1]


def joins(rep, hole, status, fields):
    """A 206 belongs to the stored body (RFC 9110 section 15.3.7.3)."""
    part = heads.part_of(fields)
    if not heads.brings_part(status) or rep is None or rep.tag is None or rep.total is None or part is None:
        return False
    fits = part[2] == rep.total and part[0] == hole[0] and part[1] < hole[1]
    return fits and heads.strong_tag(fields) == rep.tag and not heads.has_directive(fields, b"no-store")


class Answer:
    """A head with all that its case hangs on."""

    def __init__(self, exchange, event, aim, consumer, is_current, is_lost):
        self.exchange, self.aim, self.consumer = exchange, aim, consumer
        self.status, self.fields = event.status, event.fields
        self.is_current, self.is_lost = is_current, is_lost
        self.length = heads.length_of(not is_direct(exchange.need), exchange.method, event.status, event.fields)
        self.may_be_stored = not is_lost and is_storable(exchange.method, exchange.fields, event.status, event.fields)


def case_of(answer):
    need = answer.exchange.need
    if is_direct(need):
        return "DirectTaken" if answer.length else "DirectBad"
    if need == "hole":
        return later_case(answer) if answer.consumer.shown else first_case(answer)
    return turn_case(answer)


def turn_case(answer):
    exchange = answer.exchange
    conditions = {b"if-none-match", b"if-modified-since"} & {name for name, _ in exchange.fields}
    if not answer.length:
        return "TurnBad"
    if answer.status == 304 and exchange.need == "validate" and conditions:
        holds = answer.is_current and not answer.is_lost and selects(answer.aim.fields, answer.fields)
        return "Validated" if holds else "NotValidated"
    if answer.status >= 500:
        return "TurnServerError"
    if answer.may_be_stored and heads.brings_whole(answer.status):
        return "FoundsWhole"
    if answer.may_be_stored and fits_to_found(answer.consumer.range, answer.fields):
        return "FoundsRange"
    return "PassesBy"


def first_case(answer):
    if not answer.length:
        return "FirstBad"
    if joins(answer.aim, answer.exchange.hole, answer.status, answer.fields):
        return "FirstJoins"
    if answer.status >= 500:
        return "FirstServerError"
    if heads.brings_part(answer.status) or answer.status in (304, 416):
        return "FirstChanged"
    return "FirstReplaced" if answer.may_be_stored and heads.brings_whole(answer.status) else "FirstPassesBy"


def later_case(answer):
    if not answer.length:
        return "LaterBad"
    joined = joins(answer.aim, answer.exchange.hole, answer.status, answer.fields)
    return "LaterJoins" if joined else "LaterChanged"
