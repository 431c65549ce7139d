"""Random schedules by the model and by definition."""
import collections
from dataclasses import replace

import facts
import generator
import images
import limits
from answers import Chance
from cache import Cache
from defined_run import EMPTY, DefinedFront, DefinedRun, contents_left, may_begin_with
from definitions import MADE, contents_of, definition
from events import Cancel
from front import Front
from messages import Load
from report import text_of_act

# A body has few bytes, so a store that holds little shows what is refused and what gives way.
LIMITS = [limits.AMPLE] * 2 + [(8, 268_435_456), (5, 65_560), (100, 65_540), (100, 32_780), (100, 65_550), (100, 98_320)]


class Differs(Exception):
    pass


class Play(generator.Play):
    """More consumers than elsewhere are for what is stored alone, or ask for the rest of what was broken off."""

    def start(self):
        made = super().start()
        if self.chance.one_in(12):
            return replace(made, request=replace(made.request, load=Load.ONLY))
        low = self._within_front(made.request.key)
        if low is None or not self.chance.one_in(3):
            return made
        return replace(made, request=replace(made.request, fields=((b"range", b"bytes=%d-" % low),)))

    def _within_front(self, key):
        """A position in or just behind the first bytes of what is stored, where these are all."""
        stored = self.tables.current_of(key)
        hole = stored.body.hole_in((0, stored.total)) if stored and stored.total else None
        return self.chance.randint(0, hole[0]) if hole and hole[1] == stored.total else None


class Beside:
    """A cache of the model and a run by definition, which step together, behind a front or not."""

    def __init__(self, bounds, contents, has_front, checked):
        self.cache = Cache(images.tables_of(contents))
        self.stepper = Front(self.cache) if has_front else self.cache
        self.run, self.checked = (DefinedFront if has_front else DefinedRun)(bounds, contents), checked
        self.seen = collections.Counter()
        if checked:
            MADE[:] = [self.run.tables]
            checked.begin(contents_of(contents))

    def step(self, now, event):
        acts, old = self.stepper.step(now, event), self.run.tables
        modelled, defined = b"".join(text_of_act(act) for act in acts), self.run.step(now, event)
        if modelled != defined:
            raise Differs(f"the model:\n{modelled.decode('latin-1')}by definition:\n{defined.decode('latin-1')}")
        self.seen.update(type(act).__name__ for act in acts)
        if self.checked:
            MADE.append(self.run.tables)
            self.checked.state(self.run.tables, self.run.limits, old, self.run.entry)

    def cancel_all(self):
        for consumer in [it for it in self.cache.tables.consumers.values() if it.is_live]:
            self.step(self.cache.tables.now, Cancel(consumer.number))


def _may_begin(contents):
    """Whether the model begins with these contents."""
    try:
        images.tables_of(contents)
    except (images.BadContent, images.Full):
        return False
    return True


class Made:
    """What was made so far."""

    def __init__(self, seed, with_facts):
        self.chance = Chance(f"runs {seed}")
        self.checked = facts.Facts(definition) if with_facts else None
        self.schedules = self.events = self.beginnings = self.differ = 0
        self.contents, self.bounds = EMPTY, limits.AMPLE
        self.seen = collections.Counter()

    def one(self):
        """A schedule more, which may begin with what the last one left."""
        self.chance.draw_taste()
        if not self.contents.items or self.chance.one_in(2):
            self.contents, self.bounds = EMPTY, self.chance.choice(LIMITS)
        self.schedules += 1
        with limits.limited_to(self.bounds):
            has_front = self.chance.one_in(3)
            beside = Beside(self.bounds, self.contents, has_front, None if has_front else self.checked)
            play = Play(self.chance, beside.step, beside.cache.tables, has_front, now=max(1000, self.contents.now))
            play.items.append(b"at %d\n" % play.now)
            before, self.contents = self.contents, EMPTY
            try:
                self._play(beside, play)
            except (Differs, AssertionError) as found:
                self.differ += 1
                print(f"differs within {self.bounds}{' behind a front' if has_front else ''}: {found}")
                print("--- image", images.text_of_image(before).decode("latin-1"), sep="\n", end="")
                print("--- schedule", b"".join(play.items).decode("latin-1"), sep="\n", end="---\n", flush=True)
        self.events += play.events
        self.seen.update(beside.seen)

    def _play(self, beside, play):
        play.run(self.chance.choice([20, 60, 100, 160]))
        if beside.checked:
            beside.checked.whole(beside.run.tables)
        beside.cancel_all()
        left = images.contents_of(beside.cache.tables)
        if contents_left(beside.run.tables) != contents_of(left):
            raise Differs(f"what is left, by the model:\n{images.text_of_image(left).decode('latin-1')}")
        self._begin(left)
        self.contents = left

    def _begin(self, left):
        """Whether a cache may begin with what is left, and with something like it."""
        text = images.text_of_image(left)
        for tried in [text] + [generator._mutated(self.chance, text) for _ in range(3)]:
            try:
                contents, _ = images.read_image(tried)
            except images.BadImage:
                continue
            self.beginnings += 1
            if may_begin_with(self.bounds, contents) != _may_begin(contents):
                raise Differs(f"whether a cache may begin with\n{tried.decode('latin-1')}")

    def told(self):
        acts = ", ".join(f"{name} {count}" for name, count in sorted(self.seen.items()))
        facts = f"{len(self.checked.met)} facts, asked {self.checked.met.total()} times; " if self.checked else ""
        return f"{self.schedules} schedules, {self.events} events, {self.beginnings} beginnings; {facts}{acts}"
