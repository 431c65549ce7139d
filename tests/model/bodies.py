"""Bytes at positions, each with the exchange that brought it."""
from bisect import bisect_right
from dataclasses import dataclass, field

from ranges import Interval


@dataclass
class Run:
    """Bytes without a gap that one exchange brought."""

    at: int
    exchange: int
    data: bytearray

    @property
    def end(self) -> int:
        return self.at + len(self.data)


@dataclass
class Body:
    runs: list[Run] = field(default_factory=list)  # by position, none over another
    size: int = 0

    def put(self, at: int, exchange: int, data: bytes) -> None:
        """What is there is never overwritten: the caller puts bytes where none are."""
        place = bisect_right(self.runs, at, key=lambda it: it.at)
        self.size += len(data)
        if place and self.runs[place - 1].end == at and self.runs[place - 1].exchange == exchange:
            self.runs[place - 1].data += data
        else:
            self.runs.insert(place, Run(at, exchange, bytearray(data)))

    def _run_at(self, at: int) -> Run | None:
        place = bisect_right(self.runs, at, key=lambda it: it.at)
        found = self.runs[place - 1] if place else None
        return found if found and at < found.end else None

    def read(self, at: int, most: int) -> tuple[int, bytes] | None:
        """So many bytes at most from a position on, of one exchange; None where none is there."""
        found = self._run_at(at)
        if not found:
            return None
        return found.exchange, bytes(found.data[at - found.at : at - found.at + most])

    def hole_in(self, span: Interval) -> Interval | None:
        """The first missing range of a span."""
        at, end = span
        while at < end and (found := self._run_at(at)):
            at = found.end
        if at >= end:
            return None
        behind = next((it.at for it in self.runs if it.at > at), end)
        return at, min(behind, end)

    @property
    def reach(self) -> int:
        """The end of what came."""
        return self.runs[-1].end if self.runs else 0
