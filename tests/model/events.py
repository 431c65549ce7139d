"""What comes to the cache, and what it does."""
from dataclasses import dataclass

from fields import Fields
from messages import Request


@dataclass(frozen=True)
class Start:
    consumer: int
    request: Request


@dataclass(frozen=True)
class Poll:
    consumer: int
    want: int


@dataclass(frozen=True)
class Head:
    exchange: int
    status: int
    fields: Fields


@dataclass(frozen=True)
class Piece:
    exchange: int
    data: bytes


@dataclass(frozen=True)
class End:
    exchange: int


@dataclass(frozen=True)
class Fault:
    exchange: int


@dataclass(frozen=True)
class Cancel:
    consumer: int


@dataclass(frozen=True)
class Doom:
    key: bytes


Event = Start | Poll | Head | Piece | End | Fault | Cancel | Doom


@dataclass(frozen=True)
class Opened:
    exchange: int
    consumer: int
    need: str
    request: Request


@dataclass(frozen=True)
class Asked:
    exchange: int


@dataclass(frozen=True)
class Closed:
    exchange: int


@dataclass(frozen=True)
class Shown:
    consumer: int
    representation: int
    why: str
    status: int
    low: int
    high: int | None
    fields: Fields


@dataclass(frozen=True)
class Given:
    consumer: int
    exchange: int
    at: int
    data: bytes


@dataclass(frozen=True)
class Ended:
    consumer: int


@dataclass(frozen=True)
class Failed:
    consumer: int
    cause: str


@dataclass(frozen=True)
class Pending:
    consumer: int
    kind: str
    whom: int


@dataclass(frozen=True)
class Lost:
    representation: int
    kind: str


@dataclass(frozen=True)
class Evicted:
    representation: int


@dataclass(frozen=True)
class Denied:
    reason: int
    told: int | None = None


Act = Opened | Asked | Closed | Shown | Given | Ended | Failed | Pending | Lost | Evicted | Denied
