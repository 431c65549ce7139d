"""Random schedules, driven by the model so that they reach deep states, with hostile events and lines among them."""
from collections.abc import Callable
from dataclasses import dataclass, field

import images
import large
import syntax
from answers import TOTALS, Chance, head_for, request_of
from cache import Cache
from cases import Case
from events import Cancel, Doom, End, Event, Fault, Head, Piece, Poll, Start
from fetch import Fetch
from front import Front
from hostile import hostile_lines
from ranges import MOST
from tables import Consumer, Exchange, Tables
from texts import text_of_event, text_of_moment

KEYS = [b"http://a.test/x", b"http://a.test/y", b"https://b.test/z?q", b"http://a.test/x"]
Step = Callable[[int, Event], object]


@dataclass
class Play:
    """A schedule that is made event by event; the step tells what the cache is then."""

    chance: Chance
    step: Step
    tables: Tables
    is_conditional: bool = False
    has_starts: bool = True
    now: int = 1000
    items: list[bytes] = field(default_factory=list)
    events: int = 0

    def wait(self, seconds: int) -> None:
        self.now += seconds
        self.items.append(text_of_moment(self.now))

    def pass_time(self) -> None:
        if self.chance.one_in(self.chance.taste.waits):
            longest = MOST - self.now
            seconds = longest if self.chance.one_in(60) else self.chance.choice([1, 1, 2, 5, 9, 10, 19, 20, 21, 60])
            self.wait(min(seconds, longest))

    def add(self, event: Event) -> None:
        self.items.append(text_of_event(event))
        self.events += 1
        self.step(self.now, event)

    def live(self) -> list[Consumer]:
        return [it for it in self.tables.consumers.values() if it.is_live]

    def open(self) -> list[Exchange]:
        return [it for it in self.tables.exchanges.values() if it.is_open]

    def start(self) -> Event:
        number = self.tables.last + (1 if not self.chance.one_in(30) else self.chance.choice([0, 2, 5]))
        key = self.chance.choice(KEYS[: self.chance.taste.keys])
        return Start(number, request_of(self.chance, key, self.is_conditional))

    def poll(self, consumer: Consumer) -> Event:
        return Poll(consumer.number, self.chance.choice([100, 100, 100, 1, 2, 3, 65_536]))

    def piece(self, exchange: Exchange) -> Event:
        promise = exchange.length.promise
        left = 4 if promise is None else min(promise - exchange.got, 1 << 16)
        size = self.chance.randint(1, max(1, left)) if self.chance.one_in(2) else max(1, left)
        return Piece(exchange.number, bytes(97 + (exchange.front + it) % 26 for it in range(size)))

    def network(self) -> Event | None:
        """What an exchange that the cache wants brings."""
        wanted = [it for it in self.open() if not it.has_head or it.is_asked]
        if not wanted:
            return None
        exchange = self.chance.choice(wanted)
        if exchange.has_head:
            is_unknown = exchange.length.promise is None
            if self.chance.one_in(3 if is_unknown else self.chance.taste.breaks):
                return self.chance.choice([End, Fault])(exchange.number)
            return self.piece(exchange)
        if self.chance.one_in(20):
            return Fault(exchange.number)
        return head_for(self.chance, self.tables, exchange, self.chance.taste.total or self.chance.choice(TOTALS))

    def hostile(self) -> Event:
        """Some of these are denied."""
        chance = self.chance
        number = chance.randint(0, self.tables.next_exchange + 1)
        consumer = chance.randint(0, self.tables.last + 1)
        if self.has_starts and chance.one_in(3):
            return Cancel(consumer)
        return chance.choice([
            Poll(consumer, chance.choice([0, 1])), Piece(number, b"abc" * chance.choice([0, 1, 9])), End(number), Fault(number),
            Head(number, 200, ()), Doom(chance.choice(KEYS)), Poll(consumer, 0),
        ])

    def event(self) -> Event:
        drawn, live = self.chance.randrange(100), self.live()
        if self.has_starts and (drawn < 14 and len(live) < self.chance.taste.live or not live):
            return self.start()
        if drawn < 58 and live:
            return self.poll(self.chance.choice(live))
        if drawn < 61 and live and self.has_starts:
            return Cancel(self.chance.choice(live).number)
        if drawn < 95:
            found = self.network()
            if found:
                return found
            return self.poll(self.chance.choice(live)) if live else self.hostile()
        return self.hostile()

    def run(self, events: int) -> None:
        for _ in range(events):
            self.pass_time()
            self.add(self.event())


def _ended(chance: Chance, play: Play) -> tuple[bytes, ...]:
    """What was played, now and then with a change or hostile lines behind it."""
    items = [*play.items]
    if chance.one_in(6):
        place = chance.randrange(len(items))
        items[place] = chance.mutated(items[place])
    elif chance.one_in(4):
        items.append(hostile_lines(chance, play.has_starts))
    return tuple(items)


def _size(chance: Chance) -> int:
    chance.draw_taste()
    return chance.choice([20, 60, 100, 100, 160])


def replay_case(chance: Chance) -> list[Case]:
    if chance.one_in(150):
        return large.crowd(chance)
    if chance.one_in(6):
        return [Case(("replay",), (hostile_lines(chance, True),), 1) for _ in range(12)]
    cache = Cache()
    play = Play(chance, cache.step, cache.tables)
    if chance.one_in(4):
        syntax.play_keys(chance, play, 15)
    else:
        play.run(_size(chance))
    return [Case(("replay",), _ended(chance, play), play.events)]


def conditional_case(chance: Chance) -> list[Case]:
    front = Front(Cache())
    play = Play(chance, front.step, front.cache.tables, is_conditional=True)
    if chance.one_in(4):
        syntax.play_keys(chance, play, 15)
    else:
        play.run(_size(chance))
    return [Case(("conditional",), _ended(chance, play), play.events)]


OTHER_WORDS = [
    (b"\nT ", b"\nR "), (b"\nR ", b"\nT "), (b"\nW ", b"\nT "), (b"\nT ", b"\nG "), (b"\nW ", b"\nR "),
    (b"\n200 ", b"\n206 "), (b"\n206 ", b"\n200 "),
]


def _mutated(chance: Chance, image: bytes) -> bytes:
    """An image that is another one, or none."""
    at = chance.randrange(len(image))
    made = [
        image[:at], image[:at] + image[at + 1 :], image[:at] + bytes([chance.randrange(32, 127)]) + image[at + 1 :],
        image[:at] + bytes([chance.randrange(48, 58)]) + image[at + 1 :],
    ]
    made += [image.replace(old, new, 1) for old, new in OTHER_WORDS if old in image]
    return chance.choice(made)


def save_case(chance: Chance) -> list[Case]:
    """A schedule that is saved, and one that goes on from what was."""
    if chance.one_in(30):
        return chance.choice([large.crowded_store, large.crowded_store, large.large_body, large.large_part])(chance)
    cache = Cache()
    play = Play(chance, cache.step, cache.tables)
    play.run(_size(chance))
    saved = Case(("save",), _ended(chance, play) if chance.one_in(4) else tuple(play.items), play.events)
    images.cancel_all(cache)
    image = images.text_of_image(images.contents_of(cache.tables))
    if chance.one_in(3):
        return [saved, Case(("open",), (_mutated(chance, image), b"poll 1 1\n"), 1)]
    contents, _ = images.read_image(image)
    begun = Cache(images.tables_of(contents))
    behind = Play(chance, begun.step, begun.tables, now=play.now)
    behind.run(_size(chance))
    return [saved, Case(("open",), (image, *_ended(chance, behind)), behind.events)]


def fetch_case(chance: Chance) -> list[Case]:
    parts, size = chance.choice([1, 2, 2, 3, 3, 8, 1000]), chance.choice([1, 2, 2, 3, 3, 10, 2**40])
    course = Fetch(KEYS[0], parts, size)
    play = Play(chance, course.step, course.cache.tables, has_starts=False)
    for _ in range(_size(chance)):
        if course.verdict:
            break
        play.pass_time()
        play.add(play.event())
    if chance.one_in(15):
        play.items.append(chance.choice([b"cancel 1\n", b"start 9 GET normal http://a.test/x 0\n", b"doom http://a.test/x\n"]))
    words = ("fetch", KEYS[0].decode(), str(parts), str(size))
    return [Case(words, _ended(chance, play), play.events)]


KINDS = {"replay": replay_case, "save and open": save_case, "conditional": conditional_case, "fetch": fetch_case}
