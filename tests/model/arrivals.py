"""What bytes, an end and a fault of an exchange do."""
from dataclasses import replace

from events import Act, Lost
from leaving import close, fail_unshown, finish, let_go, why_no_room
from tables import Consumer, Exchange, Representation, Tables


def _readers(tables: Tables, exchange: Exchange) -> list[Consumer]:
    """Who reads from an exchange."""
    stored = tables.representations.get(exchange.writes)
    if stored is not None and stored.shared == exchange.number:
        return [tables.consumers[it] for it in sorted(stored.bound)]
    owner = tables.consumers[exchange.consumer]
    return [owner] if owner.is_live and owner.exchange == exchange.number else []


def _hold(exchange: Exchange, data: bytes) -> None:
    if not exchange.held:
        exchange.held_at = exchange.front
    exchange.held += data


def _go_alone(consumer: Consumer, exchange: Exchange, data: bytes) -> None:
    consumer.exchange = consumer.held_by = exchange.number
    exchange.consumer = consumer.number
    _hold(exchange, data)


def _lose(tables: Tables, exchange: Exchange, stored: Representation, kind: str, data: bytes, acts: list[Act]) -> None:
    """The store refuses bytes: one reader at most goes on with the exchange."""
    acts.append(Lost(stored.number, kind))
    stored.is_lost = True
    readers = _readers(tables, exchange)
    let_go(tables, stored.number)
    if stored.shared != exchange.number:
        _go_alone(readers[0], exchange, data)
        return
    stored.shared = None
    alone = next((it for it in readers if it.offset == exchange.front), None)
    for reader in readers:
        if reader is not alone:
            reader.cause = f"store-write:{stored.number}"
    if alone:
        _go_alone(alone, exchange, data)
    else:
        close(tables, exchange, acts)


def _store(tables: Tables, exchange: Exchange, stored: Representation, data: bytes) -> None:
    stored.body.put(exchange.front, exchange.number, data)
    tables.weight += len(data)


def on_piece(tables: Tables, exchange: Exchange, data: bytes, acts: list[Act]) -> None:
    exchange.is_asked = False
    stored = tables.representations.get(exchange.writes)
    if stored is None or stored.is_lost:
        tables.consumers[exchange.consumer].held_by = exchange.number
        _hold(exchange, data)
    elif kind := why_no_room(tables, stored, len(data), acts):
        _lose(tables, exchange, stored, kind, data, acts)
    else:
        _store(tables, exchange, stored, data)
    exchange.got += len(data)
    if exchange.is_open and exchange.got == exchange.length.promise:
        finish(tables, exchange)


def _stop(tables: Tables, exchange: Exchange, cause: str) -> None:
    for reader in _readers(tables, exchange):
        reader.cause = reader.cause or cause
    finish(tables, exchange)


def on_end(tables: Tables, exchange: Exchange) -> None:
    length = exchange.length
    if length.promise is not None:
        _stop(tables, exchange, f"short:{exchange.number}:{exchange.got}/{length.promise}")
        return
    exchange.length = replace(length, promise=exchange.got, total=exchange.got)
    stored = tables.representations.get(exchange.writes)
    if stored is not None:
        stored.total = exchange.got
    finish(tables, exchange)


def on_fault(tables: Tables, exchange: Exchange) -> None:
    consumer, cause = tables.consumers[exchange.consumer], f"net:{exchange.number}"
    if exchange.has_head:
        _stop(tables, exchange, cause)
        return
    exchange.is_open = False
    if consumer.is_shown:
        consumer.cause, consumer.exchange = cause, None
    else:
        fail_unshown(tables, consumer, cause)
