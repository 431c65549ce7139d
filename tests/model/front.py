"""A front before the cache, which answers requests on condition of a copy that the caller has."""
from dataclasses import replace

import caller_conditions
from cache import Cache
from events import Act, Cancel, Denied, Ended, Event, Poll, Shown, Start
from messages import Request


class Front:
    """Who is watched has its own request, and whether it was told that its copy holds."""

    def __init__(self, cache: Cache):
        self.cache = cache
        self.watched: dict[int, Request] = {}
        self.told: set[int] = set()

    def step(self, now: int, event: Event) -> list[Act]:
        match event:
            case Start():
                acts = self._start(now, event)
            case Poll(consumer, want) if consumer in self.told and want:
                acts = [*self.cache.step(now, Cancel(consumer)), Ended(consumer)]
            case _:
                acts = self.cache.step(now, event)
        told = [self._told(it) for it in acts]
        self._forget()
        return told

    def _start(self, now: int, event: Start) -> list[Act]:
        request = event.request
        is_current = request.key in self.cache.tables.current
        if not is_current or not caller_conditions.is_conditional(request):
            return self.cache.step(now, event)
        acts = self.cache.step(now, Start(event.consumer, caller_conditions.without_conditions(request)))
        if not any(isinstance(it, Denied) for it in acts):
            self.watched[event.consumer] = request
        return acts

    def _told(self, act: Act) -> Act:
        if not isinstance(act, Shown) or act.consumer not in self.watched:
            return act
        if not caller_conditions.holds(self.watched[act.consumer], act.status, act.fields):
            return act
        self.told.add(act.consumer)
        return replace(act, status=304, low=0, high=0, fields=caller_conditions.told_fields(act.fields))

    def _forget(self) -> None:
        """Who is over isn't watched any more."""
        over = [it for it in self.watched if not self.cache.tables.consumers[it].is_live]
        for number in over:
            del self.watched[number]
            self.told.discard(number)
