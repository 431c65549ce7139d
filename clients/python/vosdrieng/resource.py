"""One resource: its cache, who reads it, and the exchanges that bring it.

Nothing here waits or touches the network. A driver polls a reader and carries out the duties that come of it: it opens exchanges and
pulls pieces, in any thread, and tells what came. Each method holds to one rule: the caller has the lock of the resource.
"""
from __future__ import annotations

import hashlib
import re
import threading
from dataclasses import dataclass, field
from typing import Callable, Protocol, Sequence, Union

from .acts import Act, Ask, Close, Data, Denied, Ended, Failed, Fields, Lost, Open, Pending, Shown
from .cache import Cache
from .errors import CacheError, Changed, DownloadFailed, Gone, Refused
from .keeping import PAST_STORE, SAFE, Exchange, Keeper, as_asked, has_length, is_unstorable, strong_tag, values_of
from .sources import Source

MOST_TRIES = 3  # failures without a byte between them, after which a reader gives up
SMALL = 1 << 20  # bytes of a body that may be there twice
IDLE = 1.0  # seconds after which nobody waits any more for a reader that isn't polled
PART = re.compile(r"bytes (\d+)-(\d+)/(\d+)\Z", re.IGNORECASE)


class Passed(CacheError):
    """The head that came can't be said to a cache: the answer is the caller's as it is."""

    def __init__(self, source: Source) -> None:
        super().__init__("the head can't be said to a cache")
        self.source = source


@dataclass(slots=True)
class Duty:
    """What the network is to do: open the exchange, or pull its next piece."""

    word: str
    exchange: Exchange


class Sign:
    """The answer of a poll that brings nothing yet."""


WAITING = Sign()  # the duties come first, or another change
AGAIN = Sign()  # poll once more
Answer = Union[Shown, bytes, None, Sign]
Known = tuple[Shown, bytes]  # a head and the whole body
TOLD = (Shown, Data, Ended, Failed, Pending, Denied)


class Reader:
    """One who reads the resource, from its request to its end, through breaks.

    `poll` answers the head, then bytes, and None at the end. It answers WAITING where its duties or another change come first, and
    AGAIN where it is to be polled once more, `pause` seconds later. It raises `DownloadFailed` where the download can't go on, `Passed`,
    and what broke the exchange that was opened for it, where no head was shown.
    """

    shown: Shown | None = None
    low = at = base = offset = tries = 0
    is_over, is_resuming, is_direct, is_delivered, is_polled = True, False, False, False, False
    last_polled = 0.0
    exchange: Exchange | None = None  # the last that was opened for it
    brought: Exchange | None = None  # the one whose head it is shown
    owner: object = None  # the driver's own
    told: Act | None = None  # what its first poll was answered by, until that is looked at

    def __init__(self, resource: "Resource", method: str, fields: Fields, load: str) -> None:
        self.resource, self.method, self.fields, self.load = resource, method, fields, load
        self.consumer = 0

    def began(self, consumer: int) -> "Reader":
        """It is this consumer from now on."""
        self.consumer, self.is_over = consumer, False
        self.resource.joined(self)
        return self

    def _start_again(self, fields: Fields, load: str) -> Answer:
        try:
            self.began(self.resource.start(self.method, fields, load))
        except Refused as refused:
            raise DownloadFailed(str(refused)) from refused
        return AGAIN

    @property
    def head(self) -> Shown:
        """The head that it was shown."""
        if self.shown is None:
            raise DownloadFailed("no head was shown")
        return self.shown

    def poll(self, want: int, duties: list[Duty]) -> Answer:
        act, self.told = self.told, None
        if act is None:
            act = self.resource.poll(self, 1 if self.shown is None else want, duties)
        match act:
            case Data():
                return self._given(act)
            case Shown():
                return self._was_shown(act)
            case Ended():
                self._gone()
                self._hold_end()
                return None
            case Failed():
                self._gone()
                return self._failed(act.cause)
            case Pending():
                return self._pending(act.wait)
        self._gone()
        raise DownloadFailed("the cache denies the reader")

    def leave(self) -> None:
        """The reader wants nothing more."""
        if not self.is_over:
            self.resource.cancel(self)
            self._gone()

    def _gone(self) -> None:
        self.is_over = True
        self.resource.forget(self)

    def _given(self, act: Data) -> Answer:
        """The bytes that weren't given before."""
        known = self.at - (act.position + self.base)
        if known < 0:
            raise DownloadFailed("the cache left bytes out")
        data = act.data[known:] if known else act.data
        if not data:
            return AGAIN
        self.tries = 0
        self.at += len(data)
        return data

    def _was_shown(self, act: Shown) -> Answer:
        if self.is_resuming:
            return self._resumed(act)
        self.shown, self.low, self.at = act, act.low, act.low
        is_own = self.exchange is not None and act.why == f"fetched:{self.exchange.number}"
        self.brought = self.exchange if is_own else None
        self.is_direct, self.offset = self.resource.is_direct(self, act), self.resource.offset(self, act)
        return act

    @property
    def pause(self) -> float:
        """How many seconds a resumption waits that didn't get on."""
        return 0.2 * max(0, self.tries - 1)

    def _hold_end(self) -> None:
        """The end is told behind the last byte alone."""
        high = self.shown.high if self.shown else None
        if high is not None and self.at < high:
            raise DownloadFailed(f"short:0:{self.at}/{high}")

    # Behind a break

    def _failed(self, cause: str) -> Answer:
        if self.shown is None:
            return self._before_head(cause)
        self.tries += 1
        kind = cause.split(":")[0]
        if self.method != "GET" or self.tries > MOST_TRIES or kind not in ("net", "short", "changed", "store-write", "store-read"):
            raise self._failure(cause)
        if self.at == self.low and not self.is_delivered:
            return self._begin_again()
        if kind == "changed":
            raise Changed()
        if strong_tag(self.head.fields) is None or self.head.high is None:
            raise self._failure(cause)
        return self._resume()

    def _failure(self, cause: str) -> DownloadFailed:
        failure = DownloadFailed(cause)
        failure.__cause__ = self.exchange.error if self.exchange is not None else None
        return failure

    def _before_head(self, cause: str) -> Answer:
        """What broke the exchange is raised. A head that the cache can't use is asked for once more, past the store."""
        exchange = self.exchange
        if cause.startswith("bad-head") and self.load != "disable":
            self.load = "disable"
            return self._begin_again()
        if exchange is not None and exchange.is_passed:
            raise Passed(exchange.answer)
        raise exchange.error if exchange is not None and exchange.error is not None else DownloadFailed(cause)

    def _begin_again(self) -> Answer:
        """Nothing of it was seen by anybody, so it is asked for anew."""
        self.shown, self.brought, self.is_resuming, self.base = None, None, False, 0
        return self._start_again(self.fields, self.load)

    def _resume(self) -> Answer:
        """What is stored is read again and passed over, or, past the store, the rest alone is asked for (RFC 9110 section 13.1.5)."""
        self.is_resuming = True
        if not self.is_direct and self.head.representation not in self.resource.lost:
            return self._start_again(self.fields, self.load)
        self.is_direct = True
        fields = [line for line in self.fields if line[0].lower() not in ("range", "if-range")]
        first, last = self.offset + self.at, self.offset + self._high() - 1
        rest = [("range", f"bytes={first}-{last}"), ("if-range", strong_tag(self.head.fields) or "")]
        return self._start_again([*fields, *rest], "disable")

    def _resumed(self, act: Shown) -> Answer:
        """The head behind a break: of the same body, or the rest can't be had."""
        is_same = self._is_rest(act) if self.is_direct else self._is_alike(act)
        if is_same:
            self.base = self.at if self.is_direct else 0
            return AGAIN
        self.leave()
        if self.is_direct:
            raise Changed()
        self.is_direct = True
        return self._resume()

    def _is_alike(self, act: Shown) -> bool:
        old = self.head
        if (act.status, act.low, act.high) != (old.status, old.low, old.high):
            return False
        return act.representation == old.representation or strong_tag(act.fields) == strong_tag(old.fields)

    def _is_rest(self, act: Shown) -> bool:
        """Whether this 206 brings the bytes from `at` on of the body that was begun (section 15.3.7.3)."""
        ranges = values_of(act.fields, "content-range")
        part = PART.match(ranges[0]) if len(ranges) == 1 else None
        if act.status != 206 or part is None or strong_tag(act.fields) != strong_tag(self.head.fields):
            return False
        first, last, total = map(int, part.groups())
        return (first, last + 1) == (self.offset + self.at, self.offset + self._high()) and total == self._total()

    def _total(self) -> int:
        ranges = values_of(self.head.fields, "content-range")
        part = PART.match(ranges[0]) if ranges else None
        return int(part[3]) if part else self._high()

    def _high(self) -> int:
        """Where the body ends. It is known wherever a resumption is tried."""
        return self.head.high or 0

    # Behind another reader

    def _pending(self, wait: str) -> Answer:
        """Whoever waits for a reader that isn't polled any more goes past the store."""
        kind, _, number = wait.partition(":")
        if kind in ("turn", "busy") and self.shown is None and self.resource.is_idle(int(number)):
            self.leave()
            self.load = "disable"
            return self._begin_again()
        return WAITING


class Clock(Protocol):
    def __call__(self) -> float: ...


@dataclass(slots=True)
class Hooks:
    """How a resource tells time, and that something changed."""

    now: Clock
    tick: Clock
    changed: Callable[[], None] = field(default=lambda: None)


class Resource:
    """See above. `name` says what it is of, and `keeper` keeps it in a file; it may keep nothing."""

    def __init__(self, name: str, make: Callable[[bytes | None], Cache], keeper: Keeper, hooks: Hooks) -> None:
        self.name, self.make, self.keeper, self.hooks = name, make, keeper, hooks
        self.target = f"http://resource.invalid/{hashlib.sha256(name.encode()).hexdigest()}"
        self.readers: dict[int, Reader] = {}
        self.exchanges: dict[int, Exchange] = {}
        self.lost: set[int] = set()
        self.moment = self.users = self.weight = 0
        self.lock = threading.Condition()
        self.known: tuple[int, bytes] = (0, b"")
        self.made: Cache | None = None

    @property
    def cache(self) -> Cache:
        """The cache. Raises Gone where it was let go."""
        if self.made is None:
            raise Gone("the cache was let go")
        return self.made

    def now(self) -> int:
        now = int(self.hooks.now())
        if now > self.moment:
            self.moment = now
        return self.moment

    def begin(self) -> None:
        """Makes the cache, with what is kept. Where that changed meanwhile, by another process, it is made anew."""
        if self.made is not None and not self.readers and self.keeper.has_changed():
            self.close()
        if self.made is None:
            image, self.moment = self.keeper.image(self.target, int(self.hooks.now()))
            self.made, self.known = self._made(image), (0, b"")
            self.lost.clear()

    def _made(self, image: bytes | None) -> Cache:
        if image is not None:
            try:
                return self.make(image)
            except (CacheError, MemoryError):
                self.keeper.forget()
        return self.make(None)

    def close(self) -> None:
        """Lets the cache go, and closes what is open. What is kept stays."""
        self._hang_up_all()
        self.known = 0, b""
        self.keeper.pause()
        if self.made is not None:
            self.made.close()
        self.made = None

    def reader(self, method: str, fields: Fields, load: str = "normal") -> Reader:
        """Raises Refused where the request can't be said to a cache, or 1,024 read it already."""
        self.begin()
        return Reader(self, method, fields, load).began(self.start(method, fields, load))

    def known_or_reader(self, method: str, fields: Fields, duties: list[Duty]) -> Union[Known, Reader]:
        """The head and the body of a hit whose body is known, and else a reader. Raises as `reader` does."""
        self.begin()
        consumer = self.start(method, fields, "normal")
        acts = self.cache.poll(self.moment, consumer, 1) if self.known[1] else ()
        if len(acts) == 1 and isinstance(shown := acts[0], Shown) and (body := self.known_body(shown)) is not None:
            self.cache.cancel(self.moment, consumer)
            if self.readers:
                self.hooks.changed()
            return shown, body
        reader = Reader(self, method, fields, "normal").began(consumer)
        if acts:
            told = self._heard(acts, reader, duties)
            # (what it is to wait for may come before it waits: then it is polled again)
            reader.told = None if isinstance(told, Pending) else told
        return reader

    # Events of readers

    def start(self, method: str, fields: Fields, load: str) -> int:
        """The number of a consumer that begins."""
        consumer = self.cache.last_consumer + 1
        if self.cache.start(self.now(), consumer, method, self.target, fields, load):
            raise Refused("too many read it")
        return consumer

    def joined(self, reader: Reader) -> None:
        self.readers[reader.consumer] = reader
        reader.last_polled = self.hooks.tick()

    def poll(self, reader: Reader, want: int, duties: list[Duty]) -> Act | None:
        reader.last_polled = self.hooks.tick()
        return self._heard(self.cache.poll(self.now(), reader.consumer, want), reader, duties)

    def _heard(self, acts: Sequence[Act], reader: Reader, duties: list[Duty]) -> Act | None:
        """Carries out what a poll was answered, and returns what the reader is told."""
        if len(acts) == 1 and type(acts[0]) is Data:
            return acts[0]
        told = None
        for act in acts:
            self._take(act, reader, duties)
            if told is None and isinstance(act, TOLD):
                told = act
        if len(self.readers) > 1 and not isinstance(told, Pending):
            # (whoever waited for this reader may go on)
            self.hooks.changed()
        return told

    def cancel(self, reader: Reader) -> None:
        for act in self.cache.cancel(self.now(), reader.consumer):
            self._take(act, reader, [])
        self.hooks.changed()

    def doom(self) -> None:
        """What is stored isn't to be used any more."""
        self.keeper.doubt()
        for act in self.cache.doom(self.now(), self.target):
            if isinstance(act, Close) and act.exchange in self.exchanges:
                self.exchanges.pop(act.exchange).hang_up()
        self.hooks.changed()

    def forget(self, reader: Reader) -> None:
        """The reader's consumer is over. Behind the last one what is stored is kept."""
        self.readers.pop(reader.consumer, None)
        if not self.readers:
            self._hang_up_all()
            self.keeper.settle(self.cache)

    def _hang_up_all(self) -> None:
        for exchange in self.exchanges.values():
            exchange.hang_up()
        self.exchanges.clear()

    # Small bodies that were read whole: they needn't be copied out of the cache again

    def know_body(self, reader: Reader, body: bytes) -> None:
        shown = reader.head
        if len(body) <= SMALL and shown.status == 200 and not reader.is_direct and shown.high == len(body):
            self.known = shown.representation, body

    def known_body(self, shown: Shown) -> bytes | None:
        """The bytes of what is shown, if they are known. What an exchange of its own brings isn't whole yet."""
        number, body = self.known
        is_it = shown.representation == number and shown.status == 200 and not shown.why.startswith("fetched")
        return body if is_it and shown.high == len(body) else None

    def is_idle(self, consumer: int) -> bool:
        reader = self.readers.get(consumer)
        return reader is None or not reader.is_polled and self.hooks.tick() - reader.last_polled > IDLE

    def is_direct(self, reader: Reader, act: Shown) -> bool:
        """Whether what is shown goes past the store, as far as that can be told. Where it can't, a resumption finds out."""
        exchange = reader.brought
        return exchange is not None and (exchange.need in PAST_STORE or is_unstorable(exchange, act.status, act.fields))

    @staticmethod
    def offset(reader: Reader, act: Shown) -> int:
        """Where a part past the store begins in its body. The cache counts its bytes from 0."""
        ranges = values_of(act.fields, "content-range") if act.status == 206 else []
        part = PART.match(ranges[0]) if len(ranges) == 1 else None
        is_past = reader.brought is not None and reader.brought.need in PAST_STORE
        return int(part[1]) if part and is_past else 0

    def _take(self, act: Act, reader: Reader, duties: list[Duty]) -> None:
        match act:
            case Shown():
                self.keeper.show(act)
            case Open(x, _, need, method, _, fields):
                reader.exchange = self.exchanges[x] = Exchange(x, need, method, fields, self.moment, reader)
                duties.append(Duty("open", self.exchanges[x]))
                if need == "bypass":
                    self.keeper.doubt()
            case Ask(x) if x in self.exchanges:
                self.exchanges[x].is_read = True
                duties.append(Duty("pull", self.exchanges[x]))
            case Close(x) if x in self.exchanges:
                self.exchanges.pop(x).hang_up()
            case Lost(r):
                self.lost.add(r)
                self.keeper.doubt()

    # What the network tells

    def headed(self, exchange: Exchange, source: Source) -> None:
        """The head of the exchange came."""
        exchange.source, exchange.status, exchange.answered = source, source.status, self.now()
        if exchange.is_closed:
            return source.hang_up()
        try:
            fields = as_asked(exchange, source.kept_fields())
            acts = self.cache.head(self.moment, exchange.number, source.status, fields) if has_length(fields) else None
        except Refused:
            acts = None
        if acts is None:
            return self._pass(exchange)
        self._taken(exchange, acts)
        self.keeper.begin(exchange, exchange.is_closed or exchange.number in self.lost)
        self._over_if_done(exchange)
        self.hooks.changed()

    def _pass(self, exchange: Exchange) -> None:
        """The head can't be said to the cache: the answer is its reader's, as it is."""
        exchange.is_passed = True
        self.exchanges.pop(exchange.number, None)
        self._taken(exchange, self.cache.fault(self.moment, exchange.number))
        if exchange.method not in SAFE and exchange.status < 400:
            self.doom()
        self.hooks.changed()

    def pulled(self, exchange: Exchange, data: bytes) -> None:
        """Bytes came, or none: then the body is at its end, or broke."""
        exchange.is_read = False
        if exchange.is_closed:
            return exchange.hang_up()
        if not data:
            return self._stopped(exchange, exchange.answer.is_whole())
        acts = self.cache.piece(self.now(), exchange.number, data)
        if acts and isinstance(acts[0], Denied):
            return self._stopped(exchange, False)
        self._taken(exchange, acts)
        self.keeper.piece(exchange, data)
        self._over_if_done(exchange)
        self.hooks.changed()

    def failed(self, exchange: Exchange, error: BaseException) -> None:
        """The exchange broke: before its head, or in its body."""
        exchange.is_read, exchange.error = False, error
        if self.made is not None:
            self._stopped(exchange, False)

    def _stopped(self, exchange: Exchange, is_whole: bool) -> None:
        if not exchange.is_closed:
            call = self.cache.end if is_whole else self.cache.fault
            self._taken(exchange, call(self.now(), exchange.number))
            self.keeper.stop(exchange, is_whole)
        self.exchanges.pop(exchange.number, None)
        exchange.hang_up()
        self.hooks.changed()

    def _over_if_done(self, exchange: Exchange) -> None:
        if exchange.answer.is_done():
            self.exchanges.pop(exchange.number, None)
            exchange.hang_up()

    def _taken(self, exchange: Exchange, acts: Sequence[Act]) -> None:
        for act in acts:
            self._take(act, exchange.reader, [])
