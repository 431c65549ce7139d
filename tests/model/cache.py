"""The cache: tables, and one function an event, that answers acts."""
from arrivals import on_end, on_fault, on_piece
from denials import denial_of
from events import Act, Cancel, Closed, Doom, End, Event, Fault, Head, Piece, Poll, Start
from heads import doom_key, on_head
from leaving import leave
from polls import on_poll, on_start
from tables import Tables


class Cache:
    """Each step answers the acts that are owed to its event: closings stand last, by rising number."""

    def __init__(self, tables: Tables | None = None):
        self.tables = tables or Tables()

    def step(self, now: int, event: Event) -> list[Act]:
        self.tables.now = now
        denied = denial_of(self.tables, event)
        if denied:
            return [denied]
        acts: list[Act] = []
        self._accept(event, acts)
        return sorted(acts, key=lambda it: it.exchange if isinstance(it, Closed) else -1)

    def _accept(self, event: Event, acts: list[Act]) -> None:
        tables = self.tables
        match event:
            case Start():
                on_start(tables, event)
            case Poll(number, want):
                on_poll(tables, tables.consumers[number], want, acts)
            case Head():
                on_head(tables, event, acts)
            case Piece(number, data):
                on_piece(tables, tables.exchanges[number], data, acts)
            case End(number):
                on_end(tables, tables.exchanges[number])
            case Fault(number):
                on_fault(tables, tables.exchanges[number])
            case Cancel(number):
                leave(tables, tables.consumers[number], acts)
            case Doom(key):
                doom_key(tables, key, acts)
