"""What a start and a poll do."""
import requesting
import validation
from events import Act, Asked, Ended, Failed, Given, Opened, Pending, Shown, Start
from fields import merged, with_value, values
from leaving import bind, go_past, leave, let_go, stand_in_line, stop_waiting
from messages import Request
from plan import Fetch, Fill, GoPast, Miss, Read, Wait, plan_of
from ranges import Interval, written_range
from tables import Consumer, Exchange, Place, Purpose, Representation, Tables


def on_start(tables: Tables, event: Start) -> None:
    consumer = Consumer(event.consumer, event.request, requesting.wish_of(event.request), tables.now)
    tables.consumers[event.consumer] = consumer
    tables.last = event.consumer
    tables.live += 1
    stand_in_line(tables, consumer)


def _open(tables: Tables, consumer: Consumer, purpose: Purpose, need: str, request: Request, acts: list[Act]) -> Exchange:
    exchange = Exchange(tables.next_exchange, consumer.number, purpose, request, tables.now)
    tables.exchanges[exchange.number] = exchange
    tables.next_exchange += 1
    consumer.exchange = exchange.number
    acts.append(Opened(exchange.number, consumer.number, need, request))
    acts.append(Pending(consumer.number, "head", exchange.number))
    return exchange


def _fetch(tables: Tables, consumer: Consumer, plan: Fetch, acts: list[Act]) -> None:
    stored, request, conditions = tables.current_of(consumer.request.key), consumer.request, ()
    if plan.is_conditional:
        conditions = validation.conditions_for(stored.head)
        request = Request(request.method, request.load, request.key, merged(request.fields, conditions))
    consumer.place, consumer.validated = Place.ASKING, None
    exchange = _open(tables, consumer, Purpose.TURN, plan.need, request, acts)
    exchange.is_conditional = bool(conditions)
    exchange.aim = stored.number if stored and plan.is_conditional else None
    if plan.bypasses and stored:
        let_go(tables, stored.number)


def _open_hole(tables: Tables, consumer: Consumer, stored: Representation, hole: Interval, acts: list[Act]) -> None:
    fields = with_value(consumer.request.fields, b"range", written_range(hole, stored.total))
    fields = with_value(fields, b"if-range", values(stored.head.fields, b"etag")[0])
    request = Request(consumer.request.method, consumer.request.load, consumer.request.key, fields)
    exchange = _open(tables, consumer, Purpose.HOLE, f"hole:{hole[0]}-{hole[1]}", request, acts)
    exchange.aim, exchange.hole = stored.number, hole


def _start_reading(consumer: Consumer, part: Interval | None) -> None:
    consumer.part, consumer.offset = part, part[0] if part else 0


def _carry_out(tables: Tables, consumer: Consumer, acts: list[Act]) -> None:
    """What the plan says for who reads nothing yet."""
    plan, stored = plan_of(tables, consumer), tables.current_of(consumer.request.key)
    match plan:
        case Miss():
            acts.append(Failed(consumer.number, "miss"))
            leave(tables, consumer, acts)
        case GoPast(need):
            exchange = _open(tables, consumer, Purpose.PAST, need, consumer.request, acts)
            go_past(tables, consumer, exchange)
        case Fetch():
            _fetch(tables, consumer, plan, acts)
        case Wait(kind, whom):
            consumer.place = Place.LET_THROUGH if kind == "busy" else Place.IN_LINE
            acts.append(Pending(consumer.number, kind, whom))
        case Read(why, part):
            stop_waiting(tables, consumer)
            bind(tables, consumer, stored)
            consumer.place, consumer.why = Place.BOUND, why
            _start_reading(consumer, part)
            _show_stored(tables, consumer, acts)
        case Fill(hole, part):
            bind(tables, consumer, stored)
            consumer.place, stored.exclusive = Place.JOINING, consumer.number
            _start_reading(consumer, part)
            _open_hole(tables, consumer, stored, hole, acts)


def _show_stored(tables: Tables, consumer: Consumer, acts: list[Act]) -> None:
    stored, consumer.is_shown = tables.representations[consumer.representation], True
    if consumer.part:
        fields = validation.shown_part(stored.head.fields, consumer.part, stored.total)
        status, (low, high) = 206, consumer.part
    else:
        fields, status, low, high = validation.shown_whole(stored.head.fields, stored.total), 200, 0, stored.total
    kind, _, told = consumer.why.partition(":")
    if kind in ("fresh", "stale"):
        fields = validation.with_age(fields, int(told.split("/")[0]))
    acts.append(Shown(consumer.number, stored.number, consumer.why, status, low, high, fields))


def _show_past(tables: Tables, consumer: Consumer, acts: list[Act]) -> None:
    exchange, consumer.is_shown = tables.exchanges[consumer.exchange], True
    base, promise = exchange.length.base, exchange.length.promise
    high = None if promise is None else base + promise
    acts.append(Shown(consumer.number, exchange.number, f"fetched:{exchange.number}", exchange.status, base, high, exchange.fields))


def _end_of(tables: Tables, consumer: Consumer) -> int | None:
    """The position behind its last byte, where that is known."""
    if consumer.place is Place.PAST:
        length = tables.exchanges[consumer.exchange].length
        return None if length.promise is None else length.base + length.promise
    return consumer.part[1] if consumer.part else tables.representations[consumer.representation].total


def _stored_bytes(tables: Tables, consumer: Consumer, most: int) -> tuple[int, bytes] | None:
    if consumer.place is Place.PAST:
        return None
    return tables.representations[consumer.representation].body.read(consumer.offset, most)


def _held_bytes(tables: Tables, consumer: Consumer, most: int) -> tuple[int, bytes] | None:
    exchange = tables.exchanges.get(consumer.held_by)
    if exchange is None or not exchange.held or exchange.held_at != consumer.offset:
        return None
    data = bytes(exchange.held[:most])
    del exchange.held[:most]
    exchange.held_at += len(data)
    return exchange.number, data


def _read_exchange(tables: Tables, consumer: Consumer) -> Exchange | None:
    """The open exchange that it reads."""
    stored = tables.representations.get(consumer.representation)
    number = consumer.exchange if consumer.exchange is not None else stored.shared if stored else None
    exchange = tables.exchanges.get(number)
    return exchange if exchange and exchange.is_open else None


def _wait_for_body(consumer: Consumer, exchange: Exchange, acts: list[Act]) -> None:
    if not exchange.has_head:
        acts.append(Pending(consumer.number, "head", exchange.number))
        return
    if not exchange.is_asked:
        exchange.is_asked = True
        acts.append(Asked(exchange.number))
    acts.append(Pending(consumer.number, "body", exchange.number))


def _read(tables: Tables, consumer: Consumer, want: int, acts: list[Act]) -> None:
    """What a consumer is answered that was shown a head."""
    end = _end_of(tables, consumer)
    if consumer.offset == end:
        acts.append(Ended(consumer.number))
        leave(tables, consumer, acts)
        return
    most = want if end is None else min(want, end - consumer.offset)
    found = _stored_bytes(tables, consumer, most) or _held_bytes(tables, consumer, most)
    if found:
        acts.append(Given(consumer.number, found[0], consumer.offset, found[1]))
        consumer.offset += len(found[1])
    elif consumer.cause is not None:
        acts.append(Failed(consumer.number, consumer.cause))
        leave(tables, consumer, acts)
    elif exchange := _read_exchange(tables, consumer):
        _wait_for_body(consumer, exchange, acts)
    else:
        stored = tables.representations[consumer.representation]
        _open_hole(tables, consumer, stored, stored.body.hole_in((consumer.offset, end)), acts)


def on_poll(tables: Tables, consumer: Consumer, want: int, acts: list[Act]) -> None:
    exchange = tables.exchanges.get(consumer.exchange)
    if consumer.place is Place.FAILED:
        acts.append(Failed(consumer.number, consumer.cause))
        leave(tables, consumer, acts)
    elif consumer.is_shown:
        _read(tables, consumer, want, acts)
    elif exchange and not exchange.has_head:
        acts.append(Pending(consumer.number, "head", exchange.number))
    elif consumer.place is Place.PAST:
        _show_past(tables, consumer, acts)
    elif consumer.place is Place.BOUND:
        _show_stored(tables, consumer, acts)
    else:
        _carry_out(tables, consumer, acts)
