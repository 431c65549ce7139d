"""The tables of the cache: consumers, exchanges, representations, and what is current for a key."""
from dataclasses import dataclass, field
from enum import Enum, auto

from bodies import Body
from fields import Fields
from lengths import Length
from messages import Request, StoredHead
from ranges import Interval
from requesting import Wish

MOST_CONSUMERS = 1024
MOST_BODY = 16_777_216  # of one representation
MOST_STORED = 268_435_456
SLOT = 32_768  # what a representation weighs beside its body


class Place(Enum):
    """Where a consumer stands."""

    IN_LINE = auto()
    LET_THROUGH = auto()
    ASKING = auto()  # it has the turn, and its exchange has no head
    JOINING = auto()  # bound; its exchange for a first hole has no head
    BOUND = auto()  # its head is there
    PAST = auto()  # past the store, on its own exchange
    FAILED = auto()  # before it was shown a head
    OVER = auto()


@dataclass
class Consumer:
    number: int
    request: Request
    wish: Wish
    since: int  # from when on it waits
    place: Place = Place.IN_LINE
    exchange: int | None = None  # its own one
    representation: int | None = None  # to which it is bound
    validated: tuple[int, int] | None = None  # the 304 that is kept: its exchange, and of which representation
    why: str = ""
    is_shown: bool = False
    part: Interval | None = None  # the resolved range
    offset: int = 0  # the next byte that it is given
    cause: str | None = None  # the failure that it is told, or that is due
    held_by: int | None = None  # the exchange that holds bytes for it

    @property
    def is_live(self) -> bool:
        return self.place is not Place.OVER


class Purpose(Enum):
    PAST = auto()
    TURN = auto()
    HOLE = auto()


@dataclass
class Exchange:
    number: int
    consumer: int
    purpose: Purpose
    request: Request  # as it was sent
    opened: int
    aim: int | None = None  # the representation that it was opened about
    is_conditional: bool = False
    hole: Interval | None = None
    is_open: bool = True
    status: int | None = None
    fields: Fields = ()
    length: Length | None = None
    got: int = 0
    is_asked: bool = False
    writes: int | None = None  # the representation that it brings
    held: bytearray = field(default_factory=bytearray)  # for one consumer, and not stored
    held_at: int = 0

    @property
    def has_head(self) -> bool:
        return self.status is not None

    @property
    def front(self) -> int:
        return self.length.base + self.got


@dataclass
class Representation:
    number: int
    key: bytes
    head: StoredHead
    total: int | None
    body: Body = field(default_factory=Body)
    bound: set[int] = field(default_factory=set)
    shared: int | None = None  # the open exchange that writes for a writer group
    exclusive: int | None = None  # the consumer that alone writes
    is_lost: bool = False
    bound_last: int = 0  # to the least nobody was newly bound for longest

    @property
    def weight(self) -> int:
        return SLOT + self.body.size

    @property
    def is_whole(self) -> bool:
        return self.total is not None and self.body.hole_in((0, self.total)) is None


@dataclass
class Tables:
    now: int = 0
    last: int = 0  # the last consumer that started
    next_exchange: int = 1
    live: int = 0
    consumers: dict[int, Consumer] = field(default_factory=dict)
    exchanges: dict[int, Exchange] = field(default_factory=dict)
    representations: dict[int, Representation] = field(default_factory=dict)
    current: dict[bytes, int] = field(default_factory=dict)
    waiting: dict[bytes, set[int]] = field(default_factory=dict)  # by key: who isn't bound, past the store or over
    weight: int = 0
    bindings: int = 0  # how often a consumer was bound

    def current_of(self, key: bytes) -> Representation | None:
        number = self.current.get(key)
        return None if number is None else self.representations[number]

    def of_key(self, key: bytes) -> list[Consumer]:
        """Who waits for a key, by rising number."""
        return [self.consumers[it] for it in sorted(self.waiting.get(key, ()))]
