"""Why an event can't happen where it stands: the first reason that applies."""
from events import Cancel, Denied, Doom, End, Event, Fault, Head, Piece, Poll, Start
from tables import MOST_CONSUMERS, Tables


def _of_start(tables: Tables, event: Start) -> Denied | None:
    if event.consumer <= tables.last:
        return Denied(1, tables.last)
    return Denied(2) if tables.live >= MOST_CONSUMERS else None


def _of_consumer(tables: Tables, number: int, want: int | None) -> Denied | None:
    if number > tables.last:
        return Denied(3)
    if number not in tables.consumers or not tables.consumers[number].is_live:
        return Denied(4)
    return Denied(5) if want == 0 else None


def _of_exchange(tables: Tables, event: Head | Piece | End | Fault) -> Denied | None:
    exchange = tables.exchanges.get(event.exchange)
    if exchange is None or not exchange.is_open:
        return Denied(6)
    if isinstance(event, Head):
        return Denied(7) if exchange.has_head else None
    if isinstance(event, Fault):
        return None
    if not exchange.has_head:
        return Denied(8)
    if isinstance(event, End):
        return None
    if not exchange.is_asked:
        return Denied(9)
    if not event.data:
        return Denied(10)
    promise = exchange.length.promise
    return Denied(11, promise) if promise is not None and exchange.got + len(event.data) > promise else None


def denial_of(tables: Tables, event: Event) -> Denied | None:
    match event:
        case Start():
            return _of_start(tables, event)
        case Poll(number, want):
            return _of_consumer(tables, number, want)
        case Cancel(number):
            return _of_consumer(tables, number, None)
        case Doom():
            return None
        case _:
            return _of_exchange(tables, event)
