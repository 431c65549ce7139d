"""What a cache does at an event. docs/FORMATS.md names each act and its words, docs/RULES.md tells when it comes."""
from __future__ import annotations

from dataclasses import dataclass
from typing import Sequence, Union

Fields = Sequence[tuple[str, str]]


@dataclass(slots=True)
class Open:
    """The exchange is opened for the consumer: send this request to the origin, and hand in its head."""

    exchange: int
    consumer: int
    need: str
    method: str
    target: str
    fields: Fields


@dataclass(slots=True)
class Ask:
    """The next piece of the exchange is asked for."""

    exchange: int


@dataclass(slots=True)
class Close:
    """The exchange is closed: hang up, and hand in nothing more of it."""

    exchange: int


@dataclass(slots=True)
class Shown:
    """The consumer is shown a head. Its body reaches from `low` up to `high`, which is None where that isn't known."""

    consumer: int
    representation: int
    why: str
    status: int
    low: int
    high: int | None
    fields: Fields


@dataclass(slots=True)
class Data:
    """The consumer is given bytes that the exchange delivered, from `position` of the body on."""

    consumer: int
    exchange: int
    position: int
    data: bytes


@dataclass(slots=True)
class Ended:
    """The consumer has all of its bytes."""

    consumer: int


@dataclass(slots=True)
class Failed:
    """The consumer fails. `cause` is `net:X`, `short:X:GOT/PROMISED`, `changed:X`, `store-write:R`, `miss`, .."""

    consumer: int
    cause: str


@dataclass(slots=True)
class Pending:
    """The consumer is to poll again when `wait` came: `turn:C`, `busy:C`, `head:X` or `body:X`."""

    consumer: int
    wait: str


@dataclass(slots=True)
class Lost:
    """The representation is lost: `fault`, `too-large` or `full`."""

    representation: int
    kind: str


@dataclass(slots=True)
class Evicted:
    """The representation made room for another."""

    representation: int


@dataclass(slots=True)
class Denied:
    """The event is denied and changed nothing. `told` is the number that 1 and 11 tell, and 0 otherwise."""

    number: int
    told: int = 0


Act = Union[Open, Ask, Close, Shown, Data, Ended, Failed, Pending, Lost, Evicted, Denied]
