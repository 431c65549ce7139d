"""What a head does, by its case, and what a doom does."""
import validation
import vary
from events import Act, Head, Lost
from head_cases import HeadCase, head_case, is_server_error
from leaving import bind, close, fail_unshown, finish, go_past, let_go, make_room, stand_in_line, stop_waiting
from lengths import BadLength, Length, length_of
from messages import StoredHead
from ranges import resolved
from requesting import is_unsafe
from tables import SLOT, Consumer, Exchange, Place, Purpose, Representation, Tables


def doom_key(tables: Tables, key: bytes, acts: list[Act]) -> None:
    """RFC 9111 section 4.4: who has no head of what was current, or may found or join, starts over."""
    for consumer in tables.of_key(key):
        exchange = tables.exchanges.get(consumer.exchange)
        stand_in_line(tables, consumer)
        if exchange:
            close(tables, exchange, acts)
    let_go(tables, tables.current.get(key))


def _found(tables: Tables, consumer: Consumer, exchange: Exchange, acts: list[Act]) -> Representation | None:
    """A new representation in place of what is current, or None where there is no room for it."""
    go_past(tables, consumer, exchange)
    let_go(tables, tables.current.get(exchange.request.key))
    if not make_room(tables, SLOT, acts):
        acts.append(Lost(exchange.number, "full"))
        return None
    asked_with = vary.named_fields(exchange.fields, exchange.request.fields)
    head = StoredHead(exchange.status, validation.stored_fields(exchange.fields), exchange.opened, tables.now, asked_with)
    stored = Representation(exchange.number, exchange.request.key, head, exchange.length.total)
    tables.representations[stored.number] = stored
    tables.current[stored.key] = stored.number
    tables.weight += stored.weight
    exchange.writes = stored.number
    consumer.place, consumer.why, consumer.held_by = Place.BOUND, f"fetched:{exchange.number}", None
    bind(tables, consumer, stored)
    return stored


def _found_whole(tables: Tables, consumer: Consumer, exchange: Exchange, acts: list[Act]) -> None:
    stored = _found(tables, consumer, exchange, acts)
    if stored:
        consumer.part, consumer.offset = None, 0
        consumer.exchange = None
        stored.shared = exchange.number if exchange.is_open else None


def _found_range(tables: Tables, consumer: Consumer, exchange: Exchange, acts: list[Act]) -> None:
    stored = _found(tables, consumer, exchange, acts)
    if stored:
        consumer.part = resolved(consumer.wish.range, stored.total)
        consumer.offset, stored.exclusive = consumer.part[0], consumer.number


def _join(tables: Tables, consumer: Consumer, exchange: Exchange, acts: list[Act]) -> None:
    """A part brings the hole: for all who read where it is all that is missing, and the consumer wants all."""
    stored = tables.representations[exchange.aim]
    stored.head = validation.renewed(stored.head, exchange.fields, exchange.opened, tables.now)
    exchange.writes = stored.number
    missing = stored.body.hole_in((0, stored.total))
    brought = (exchange.length.base, exchange.length.base + exchange.length.promise)
    if consumer.part is None and missing == brought and brought[1] == stored.total:
        consumer.exchange, stored.exclusive, stored.shared = None, None, exchange.number


def _bad(tables: Tables, consumer: Consumer, exchange: Exchange, acts: list[Act]) -> None:
    fail_unshown(tables, consumer, f"bad-head:{exchange.number}")
    close(tables, exchange, acts)


def _taken(tables: Tables, consumer: Consumer, exchange: Exchange, acts: list[Act]) -> None:
    """Its consumer reads it past the store already."""
    consumer.offset = exchange.length.base


def _goes_past(tables: Tables, consumer: Consumer, exchange: Exchange, acts: list[Act]) -> None:
    go_past(tables, consumer, exchange)


def _validated(tables: Tables, consumer: Consumer, exchange: Exchange, acts: list[Act]) -> None:
    finish(tables, exchange)
    current = tables.current_of(exchange.request.key)
    current.head = validation.renewed(current.head, exchange.fields, exchange.opened, tables.now)
    consumer.place, consumer.exchange = Place.LET_THROUGH, None
    consumer.validated = (exchange.number, current.number)


def _not_validated(tables: Tables, consumer: Consumer, exchange: Exchange, acts: list[Act]) -> None:
    finish(tables, exchange)
    stand_in_line(tables, consumer)
    let_go(tables, exchange.aim)


def _passes_by(tables: Tables, consumer: Consumer, exchange: Exchange, acts: list[Act]) -> None:
    go_past(tables, consumer, exchange)
    let_go(tables, tables.current.get(exchange.request.key))


def _first_joins(tables: Tables, consumer: Consumer, exchange: Exchange, acts: list[Act]) -> None:
    stop_waiting(tables, consumer)
    consumer.place, consumer.why = Place.BOUND, f"validated:{exchange.number}"
    _join(tables, consumer, exchange, acts)


def _first_changed(tables: Tables, consumer: Consumer, exchange: Exchange, acts: list[Act]) -> None:
    stand_in_line(tables, consumer)
    let_go(tables, exchange.aim)
    close(tables, exchange, acts)


def _first_replaced(tables: Tables, consumer: Consumer, exchange: Exchange, acts: list[Act]) -> None:
    _first_passes_by(tables, consumer, exchange, acts)
    _found_whole(tables, consumer, exchange, acts)


def _first_passes_by(tables: Tables, consumer: Consumer, exchange: Exchange, acts: list[Act]) -> None:
    go_past(tables, consumer, exchange)
    let_go(tables, exchange.aim)


def _later_bad(tables: Tables, consumer: Consumer, exchange: Exchange, acts: list[Act]) -> None:
    consumer.cause, consumer.exchange = f"bad-head:{exchange.number}", None
    close(tables, exchange, acts)


def _later_changed(tables: Tables, consumer: Consumer, exchange: Exchange, acts: list[Act]) -> None:
    consumer.cause, consumer.exchange = f"changed:{exchange.number}", None
    close(tables, exchange, acts)
    if not is_server_error(exchange.status):
        let_go(tables, exchange.aim)


BY_CASE = {
    HeadCase.PAST_BAD: _bad,
    HeadCase.PAST_TAKEN: _taken,
    HeadCase.TURN_BAD: _bad,
    HeadCase.VALIDATED: _validated,
    HeadCase.NOT_VALIDATED: _not_validated,
    HeadCase.TURN_SERVER_ERROR: _goes_past,
    HeadCase.FOUNDS_WHOLE: _found_whole,
    HeadCase.FOUNDS_RANGE: _found_range,
    HeadCase.PASSES_BY: _passes_by,
    HeadCase.FIRST_BAD: _bad,
    HeadCase.FIRST_JOINS: _first_joins,
    HeadCase.FIRST_SERVER_ERROR: _goes_past,
    HeadCase.FIRST_CHANGED: _first_changed,
    HeadCase.FIRST_REPLACED: _first_replaced,
    HeadCase.FIRST_PASSES_BY: _first_passes_by,
    HeadCase.LATER_BAD: _later_bad,
    HeadCase.LATER_JOINS: _join,
    HeadCase.LATER_CHANGED: _later_changed,
}


def _is_changing(exchange: Exchange) -> bool:
    """Whether something may have changed at the origin (RFC 9111 section 4.4)."""
    return exchange.purpose is Purpose.PAST and is_unsafe(exchange.request.method) and exchange.status < 400


def _length(exchange: Exchange, event: Head) -> Length | None:
    try:
        return length_of(exchange.request.method, event.status, event.fields, exchange.purpose is Purpose.PAST)
    except BadLength:
        return None


def on_head(tables: Tables, event: Head, acts: list[Act]) -> None:
    exchange = tables.exchanges[event.exchange]
    consumer, length = tables.consumers[exchange.consumer], _length(exchange, event)
    current = tables.current_of(exchange.request.key)
    stored = tables.representations.get(exchange.aim)
    case = head_case(consumer, exchange, current, stored, event.status, event.fields, length)
    exchange.status, exchange.fields, exchange.length = event.status, event.fields, length
    if length is not None and length.promise == 0:
        exchange.is_open = False
    BY_CASE[case](tables, consumer, exchange, acts)
    if _is_changing(exchange):
        doom_key(tables, exchange.request.key, acts)
