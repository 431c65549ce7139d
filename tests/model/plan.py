"""What is done at the poll of a consumer that reads nothing yet (RFC 9111 sections 4 and 5.2.1)."""
from dataclasses import dataclass

import freshness
import vary
from freshness import Use
from ranges import Interval, resolved
from tables import Consumer, Place, Representation, Tables

LONGEST_WAIT = 20


@dataclass(frozen=True)
class GoPast:
    """An exchange past the store."""

    need: str


@dataclass(frozen=True)
class Fetch:
    """An exchange of the turn; with a condition where it is about what is current."""

    need: str
    bypasses: bool = False
    is_conditional: bool = False


@dataclass(frozen=True)
class Wait:
    """A wait for the turn, or for who is busy with what is current."""

    kind: str
    whom: int


@dataclass(frozen=True)
class Read:
    why: str
    part: Interval | None


@dataclass(frozen=True)
class Fill:
    hole: Interval
    part: Interval | None


@dataclass(frozen=True)
class Miss:
    pass


Plan = GoPast | Fetch | Wait | Read | Fill | Miss


def turn_of(tables: Tables, key: bytes, extra: Consumer | None = None) -> int | None:
    """Who has the turn: whose exchange of the turn has no head, or else the least in line, this one counted as there too.

    Who goes past the store, or is for what is stored alone, never has it.
    """
    waiting = [it for it in tables.of_key(key) if not it.wish.is_disabled and not it.wish.is_only]
    asking = [it.number for it in waiting if it.place is Place.ASKING]
    in_line = [it.number for it in waiting if it.place is Place.IN_LINE or it is extra]
    return next(iter(asking or in_line), None)


def _use(tables: Tables, consumer: Consumer, stored: Representation) -> Use | None:
    return freshness.use_of(stored.head, consumer.request, tables.now)


def _has_validated(consumer: Consumer, stored: Representation) -> bool:
    return consumer.validated is not None and consumer.validated[1] == stored.number


def _why(tables: Tables, consumer: Consumer, stored: Representation) -> str | None:
    """Why what is current may be shown; None where it may not be."""
    if _has_validated(consumer, stored):
        return f"validated:{consumer.validated[0]}"
    use = _use(tables, consumer, stored)
    return None if use is None else f"{use.allowed.value}:{use.age}/{use.lifetime}"


def _may_read(tables: Tables, consumer: Consumer) -> bool:
    stored = tables.current_of(consumer.request.key)
    if stored is None or not vary.matches(stored.head, consumer.request.fields):
        return False
    return _why(tables, consumer, stored) is not None


def _by_hole(stored: Representation, why: str, part: Interval | None) -> Plan:
    """Of what is current, that no exchange writes for a writer group and no consumer alone."""
    hole = stored.body.hole_in(part or (0, stored.total))
    if hole is None:
        return Read(why, part)
    return Wait("busy", min(stored.bound)) if stored.bound else Fill(hole, part)


def exclusive_writer_of(tables: Tables, stored: Representation) -> int | None:
    """Who alone writes what is stored: as long as some of what it wants is missing, and no failure is due to it."""
    if stored.exclusive is None:
        return None
    writer = tables.consumers[stored.exclusive]
    left = (writer.offset, writer.part[1] if writer.part else stored.total)
    return writer.number if writer.cause is None and stored.body.hole_in(left) else None


def _by_wanted(tables: Tables, consumer: Consumer, stored: Representation, why: str) -> Plan:
    wanted, part = consumer.wish.range, None
    if wanted is not None:
        if stored.total is None:
            return Wait("busy", min(stored.bound))
        part = resolved(wanted, stored.total)
        if part is None:
            return GoPast("unsatisfied")
    if stored.shared is not None:
        return Read(why, None) if wanted is None else Wait("busy", min(stored.bound))
    exclusive = exclusive_writer_of(tables, stored)
    if exclusive is not None:
        return Wait("busy", exclusive)
    return _by_hole(stored, why, part)


def _by_current(tables: Tables, consumer: Consumer) -> Plan:
    stored = tables.current_of(consumer.request.key)
    if stored is None:
        return Fetch("miss")
    if not vary.matches(stored.head, consumer.request.fields):
        return Fetch("vary")
    why = _why(tables, consumer, stored)
    return Fetch("validate", is_conditional=True) if why is None else _by_wanted(tables, consumer, stored, why)


def _in_turn(tables: Tables, consumer: Consumer) -> Plan:
    has_passed = consumer.place is Place.LET_THROUGH and _may_read(tables, consumer)
    turn = turn_of(tables, consumer.request.key, consumer)
    if not has_passed and turn != consumer.number:
        return Wait("turn", turn)
    if consumer.wish.is_bypassing:
        return Fetch("bypass", bypasses=True)
    return _by_current(tables, consumer)


def _from_store(tables: Tables, consumer: Consumer) -> Plan:
    """Who is for what is stored alone opens nothing and waits for nobody."""
    if consumer.wish.is_disabled or consumer.wish.is_bypassing:
        return Miss()
    found = _by_current(tables, consumer)
    return found if isinstance(found, Read) else Miss()


def plan_of(tables: Tables, consumer: Consumer) -> Plan:
    if consumer.wish.is_only:
        return _from_store(tables, consumer)
    if consumer.wish.is_disabled:
        return GoPast("disabled")
    found = _in_turn(tables, consumer)
    is_late = tables.now - consumer.since >= LONGEST_WAIT
    return GoPast("timed-out") if isinstance(found, Wait) and is_late else found
