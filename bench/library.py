#!/usr/bin/env python3
"""Times the events of a cache from Python, in this process by the library, and over pipes by the program where it is built.

usage: bench/library.py LIBRARY [PROGRAM]

Each number is the median of many, in microseconds of the monotonic clock. In each the acts are taken with their bytes.
"""
import pathlib
import statistics
import sys
import time
from typing import Callable

sys.dont_write_bytecode = True
sys.path.insert(0, str(pathlib.Path(__file__).resolve().parent.parent / "clients" / "python"))
from vosdrieng import Cache, Ended, Failed

NOW, PIECE, MILLION = 1000, 65536, 1_000_000
FIELDS = [("Accept", "text/html")]


class Caller:
    """Plays consumers, and the network that brings what they ask for."""

    def __init__(self, cache: Cache) -> None:
        self.cache, self.last = cache, 0

    def start(self, name: str) -> None:
        self.last += 1
        self.cache.start(NOW, self.last, "GET", f"http://a.test/{name}", FIELDS)

    def poll(self) -> list:
        return self.cache.poll(NOW, self.last, PIECE)

    def read(self) -> None:
        while not any(isinstance(act, (Ended, Failed)) for act in self.poll()):
            pass

    def open(self, name: str, length: int) -> int:
        """The exchange that is opened for the name, with a head."""
        self.start(name)
        exchange = self.poll()[0].exchange
        self.cache.head(NOW, exchange, 200, [("Content-Length", str(length)), ("Cache-Control", "max-age=60"), ("ETag", '"a"')])
        return exchange

    def store(self, name: str, body: bytes) -> None:
        exchange = self.open(name, len(body))
        for at in range(0, len(body), PIECE):
            self.poll(), self.poll()
            self.cache.piece(NOW, exchange, body[at:at + PIECE])
        self.cache.end(NOW, exchange)
        self.read()

    def hit(self, name: str) -> None:
        self.start(name)
        self.read()


def median(count: int, call: Callable[[int], object], between: Callable[[], object] = lambda: None) -> float:
    times = []
    for n in range(count):
        began = time.monotonic()
        call(n)
        times.append(time.monotonic() - began)
        between()
    return statistics.median(times) * 1e6


def told(cache: Cache) -> dict[str, float]:
    """What each case takes."""
    with cache:
        caller = Caller(cache)
        times = {"an event that is denied": median(2000, lambda n: cache.cancel(NOW, 9))}
        times["a start"] = median(2000, lambda n: caller.start("film"), lambda: cache.cancel(NOW, caller.last))
        caller.store("small", bytes(100))
        times["a hit of 100 bytes"] = median(2000, lambda n: caller.hit("small"))
        times["1,000,000 bytes stored and given, to new memory"] = median(50, lambda n: caller.store(str(n), bytes(MILLION)))
        times["a hit of 1,000,000 bytes"] = median(50, lambda n: caller.hit("49"))
        exchange = caller.open("long", 200 * PIECE)
        caller.poll(), caller.poll()
        body = bytes(PIECE)
        times["a piece of 65,536 bytes"] = median(200, lambda n: cache.piece(NOW, exchange, body), lambda: (caller.poll(), caller.poll()))
        return times


def main(words: list[str]) -> None:
    ways = {"Python": told(Cache.library(words[0]))}
    if len(words) > 1:
        ways["over the pipe"] = told(Cache.process(words[1]))
    print(f"{'what':48}", *(f"{way:>14}" for way in ways))
    for what in ways["Python"]:
        print(f"{what:48}", *(f"{times[what]:14.2f}" for times in ways.values()))


if __name__ == "__main__":
    main(sys.argv[1:])
