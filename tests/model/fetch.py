"""One resource is read in parts, by consumers of one cache, and its body is written in order (RFC 9110 section 14.2)."""
from cache import Cache
from events import Act, Cancel, Ended, Event, Failed, Given, Shown, Start
from fields import values
from messages import Load, Request
from ranges import content_range_of


class Fetch:
    """Steps a cache by the events that aren't its own, and gathers what all are given."""

    def __init__(self, target: bytes, parts: int, size: int):
        self.cache = Cache()
        self.target, self.parts, self.size = target, parts, size
        self.events = 0
        self.first: int | None = None  # the representation that consumer 1 was shown
        self.total: int | None = None
        self.is_whole = False  # consumer 1 was shown a 200
        self.has_ended = False
        self.pieces: dict[int, bytes] = {}
        self.written = 0
        self.verdict: str | None = None  # what decided before the end

    def step(self, now: int, event: Event) -> bytes:
        """What is written at an event."""
        if self.events == 0:
            self._start(now, 1, b"bytes=0-%d" % (self.size - 1) if self.parts > 1 else None)
        self.events += 1
        if isinstance(event, (Start, Cancel)):
            self.verdict = f"foreign {self.events}"
            return b""
        for act in self.cache.step(now, event):
            self._hear(now, act)
        return self._ready()

    def _start(self, now: int, consumer: int, wanted: bytes | None) -> None:
        fields = ((b"range", wanted),) if wanted else ()
        self.cache.step(now, Start(consumer, Request(b"GET", Load.NORMAL, self.target, fields)))

    def _hear(self, now: int, act: Act) -> None:
        match act:
            case Failed(consumer, cause):
                self.verdict = f"failed {consumer} {cause}"
            case Shown():
                self._hear_shown(now, act)
            case Given(_, _, at, data):
                self.pieces[at] = data
            case Ended(1):
                self.has_ended = True

    def _hear_shown(self, now: int, act: Shown) -> None:
        if act.consumer != 1:
            if act.status not in (200, 206):
                self.verdict = f"status {act.consumer} {act.status}"
            elif act.representation != self.first:
                self.verdict = f"other {act.consumer} {act.representation} {self.first}"
            return
        self.first = act.representation
        if act.status == 200:
            self.is_whole = True
            return
        total = self._total_of(act)
        if total is None:
            self.verdict = f"status 1 {act.status}"
            return
        self.total = total
        self._start_others(now)

    def _total_of(self, act: Shown) -> int | None:
        """The total that a part from 0 on tells."""
        told = values(act.fields, b"content-range")
        if act.status != 206 or self.parts == 1 or len(told) != 1:
            return None
        part = content_range_of(told[0])
        return part.total if part and part.first == 0 else None

    def _start_others(self, now: int) -> None:
        count = min(self.parts, -(-self.total // self.size))
        for part in range(1, count):
            end = (part + 1) * self.size if part + 1 < count else self.total
            self._start(now, part + 1, b"bytes=%d-%d" % (part * self.size, end - 1))

    def _ready(self) -> bytes:
        """The bytes from what was written on that are there without a gap."""
        found = []
        while (data := self.pieces.pop(self.written, None)) is not None:
            found.append(data)
            self.written += len(data)
        return b"".join(found)

    def ending(self) -> str | None:
        """Why it isn't done where the input ends, or None where it is."""
        is_done = self.has_ended if self.is_whole else self.total is not None and self.written == self.total
        return None if is_done else f"unfinished {self.written}"
