"""A case that differs is made shorter: items are left out, and exchanges that are opened in another order get their new numbers."""
from collections.abc import Callable
from dataclasses import replace

import images
from cache import Cache
from cases import Case
from events import End, Event, Fault, Head, Opened, Piece
from front import Front
from schedule import Refused, events_of
from texts import text_of_event, text_of_moment

OF_EXCHANGE = (Head, Piece, End, Fault)
Opening = tuple[int, int]  # a consumer, and the how manieth exchange of its own


class Course:
    """A cache that is stepped, and which exchange was opened as whose how manieth."""

    def __init__(self, case: Case):
        tables = images.tables_of(images.read_image(case.items[0])[0]) if case.words[0] == "open" else None
        self.stepper = Front(Cache(tables)) if case.words[0] == "conditional" else Cache(tables)
        self.counts: dict[int, int] = {}
        self.numbers: dict[Opening, int] = {}

    def step(self, now: int, event: Event) -> None:
        for act in self.stepper.step(now, event):
            if isinstance(act, Opened):
                self.counts[act.consumer] = self.counts.get(act.consumer, 0) + 1
                self.numbers[act.consumer, self.counts[act.consumer]] = act.exchange


def _renumbered(case: Case, kept: list[tuple[int, Event]], openings: dict[int, Opening]) -> Case:
    course, items, now = Course(case), [*_head(case)], -1
    for moment, event in kept:
        if isinstance(event, OF_EXCHANGE) and event.exchange in openings:
            number = course.numbers.get(openings[event.exchange])
            if number is None:
                continue
            event = replace(event, exchange=number)
        if moment != now:
            items.append(text_of_moment(moment))
            now = moment
        items.append(text_of_event(event))
        course.step(moment, event)
    return Case(case.words, tuple(items), 0)


def _head(case: Case) -> tuple[bytes, ...]:
    return case.items[:1] if case.words[0] == "open" else ()


def _without_parts(kept: list, size: int, differs: Callable[[list], bool]) -> list:
    """What is left where each part of this size is left out that can be, the last one first."""
    for end in range(len(kept), 0, -size):
        fewer = kept[: max(0, end - size)] + kept[end:]
        kept = fewer if differs(fewer) else kept
    return kept


def _shrink(kept: list, case_of: Callable[[list], Case], differs: Callable[[Case], bool]) -> Case:
    """Half of it is tried first, and at last each one, twice."""
    sizes = [len(kept) >> it for it in range(1, len(kept).bit_length())] + [1]
    for size in sizes:
        kept = _without_parts(kept, size, lambda fewer: differs(case_of(fewer)))
    return case_of(kept)


def shrunk(case: Case, differs: Callable[[Case], bool]) -> Case:
    """A shorter case that differs, too."""
    as_items = _shrink(list(case.items), lambda kept: Case(case.words, tuple(kept), 0), differs)
    if case.words[0] not in ("replay", "conditional", "open"):
        return as_items
    try:
        course, events = Course(as_items), list(events_of(b"".join(as_items.items[len(_head(as_items)) :])))
        for now, event in events:
            course.step(now, event)
    except (Refused, images.BadImage, images.BadContent, images.Full):
        return as_items
    openings = {number: opening for opening, number in course.numbers.items()}
    by_events = _shrink(events, lambda kept: _renumbered(as_items, kept, openings), differs)
    return by_events if differs(by_events) else as_items
