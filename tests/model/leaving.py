"""What the events share: who leaves, what is closed, what goes and what gives way."""
from events import Act, Closed, Evicted
from fields import all_elements
from statuses import brings_whole
from tables import MOST_BODY, MOST_STORED, Consumer, Exchange, Place, Representation, Tables


def _remove(tables: Tables, stored: Representation) -> None:
    tables.weight -= stored.weight
    del tables.representations[stored.number]


def is_current(tables: Tables, stored: Representation) -> bool:
    return tables.current.get(stored.key) == stored.number


def let_go(tables: Tables, number: int | None) -> None:
    """No new consumer uses it from now on: who was let through starts over, and those who read it read on."""
    stored = tables.representations.get(number)
    if stored is None:
        return
    if is_current(tables, stored):
        del tables.current[stored.key]
        for consumer in tables.of_key(stored.key):
            if consumer.place is Place.LET_THROUGH:
                stand_in_line(tables, consumer)
    if not stored.bound:
        _remove(tables, stored)


def bind(tables: Tables, consumer: Consumer, stored: Representation) -> None:
    consumer.representation = stored.number
    stored.bound.add(consumer.number)
    tables.bindings += 1
    stored.bound_last = tables.bindings


def unbind(tables: Tables, consumer: Consumer) -> None:
    stored = tables.representations.get(consumer.representation)
    consumer.representation = None
    if stored is None:
        return
    stored.bound.discard(consumer.number)
    if stored.exclusive == consumer.number:
        stored.exclusive = None
    if not stored.bound and not is_current(tables, stored):
        _remove(tables, stored)


def stop_waiting(tables: Tables, consumer: Consumer) -> None:
    waiting = tables.waiting.get(consumer.request.key)
    if waiting is not None:
        waiting.discard(consumer.number)
        if not waiting:
            del tables.waiting[consumer.request.key]


def stand_in_line(tables: Tables, consumer: Consumer) -> None:
    """As if it had just started."""
    unbind(tables, consumer)
    consumer.place, consumer.since = Place.IN_LINE, tables.now
    consumer.exchange = consumer.validated = None
    tables.waiting.setdefault(consumer.request.key, set()).add(consumer.number)


def go_past(tables: Tables, consumer: Consumer, exchange: Exchange) -> None:
    stop_waiting(tables, consumer)
    unbind(tables, consumer)
    consumer.place, consumer.exchange, consumer.held_by = Place.PAST, exchange.number, exchange.number
    if exchange.length is not None:
        consumer.offset = exchange.length.base


def fail_unshown(tables: Tables, consumer: Consumer, cause: str) -> None:
    """It is told why at its next poll."""
    stop_waiting(tables, consumer)
    unbind(tables, consumer)
    consumer.place, consumer.exchange, consumer.cause = Place.FAILED, None, cause


def refuses_ranges(stored: Representation) -> bool:
    """RFC 9110 section 14.3."""
    return any(it.lower() == b"none" for it in all_elements(stored.head.fields, b"accept-ranges"))


def _is_keepable(stored: Representation) -> bool:
    """Whether it can be completed later."""
    return stored.head.tag is not None and stored.total is not None and stored.body.size > 0 and not refuses_ranges(stored)


def finish(tables: Tables, exchange: Exchange) -> None:
    """Nothing comes of it from now on: what it brought is sealed, or goes."""
    exchange.is_open = False
    owner = tables.consumers[exchange.consumer]
    if owner.exchange == exchange.number and exchange.writes is not None:
        owner.exchange = None
    stored = tables.representations.get(exchange.writes)
    if stored is None:
        return
    if stored.shared == exchange.number:
        stored.shared = None
    is_founder = stored.number == exchange.number and brings_whole(stored.head.status)
    if is_founder and not stored.is_whole and not _is_keepable(stored):
        let_go(tables, stored.number)


def close(tables: Tables, exchange: Exchange, acts: list[Act]) -> None:
    if exchange.is_open:
        acts.append(Closed(exchange.number))
        finish(tables, exchange)


def leave(tables: Tables, consumer: Consumer, acts: list[Act]) -> None:
    """Who was cancelled, ended or failed: what only it reads is closed."""
    stored = tables.representations.get(consumer.representation)
    left = {consumer.exchange}
    if stored is not None and stored.bound == {consumer.number}:
        left.add(stored.shared)
    stop_waiting(tables, consumer)
    unbind(tables, consumer)
    consumer.place = Place.OVER
    tables.live -= 1
    for number in sorted(left - {None}):
        close(tables, tables.exchanges[number], acts)


def _idle(tables: Tables) -> list[Representation]:
    """What may give way, in its order."""
    found = [stored for number in tables.current.values() if not (stored := tables.representations[number]).bound]
    return sorted(found, key=lambda it: it.bound_last)


def make_room(tables: Tables, more: int, acts: list[Act]) -> bool:
    """Lets as few go as make room for so much more; False where all of them don't, and then none goes."""
    needed = tables.weight + more - MOST_STORED
    if needed <= 0:
        return True
    giving_way = []
    for stored in _idle(tables):
        giving_way.append(stored)
        needed -= stored.weight
        if needed <= 0:
            break
    if needed > 0:
        return False
    for stored in giving_way:
        acts.append(Evicted(stored.number))
        let_go(tables, stored.number)
    return True


def why_no_room(tables: Tables, stored: Representation, more: int, acts: list[Act]) -> str | None:
    """Why so many more bytes of a body have no room; what gives way to them has gone."""
    if stored.body.size + more > MOST_BODY:
        return "too-large"
    return None if make_room(tables, more, acts) else "full"
