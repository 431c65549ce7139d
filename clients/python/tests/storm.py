#!/usr/bin/env python3
"""Threads ask at random of an origin that changes and breaks at random, and no body may be cut, torn or another's.

usage: tests/storm.py SEED SECONDS

Each body of a path is told by its entity tag, so whoever is given one can say whether all of it is right: the whole, or the part that
Content-Range names. Sessions begin anew over the same folder amid all that. A call may raise an exception of requests, and `raw` that of urllib3 for
what broke; how often is written with what else was counted. The exit status is 1 where a body was wrong or anything else was raised.
"""
from __future__ import annotations

import collections
import random
import re
import shutil
import sys
import tempfile
import threading
import time

from ways import ways

import requests
import urllib3
import vosdrieng.requests
from origin import Origin, Thing

PATHS = [f"/{place}" for place in range(5)]
FIELDS = [
    [("Cache-Control", "max-age=600")], [("Cache-Control", "max-age=0")], [("Cache-Control", "no-store")], [("Cache-Control", "no-cache")],
    [("Cache-Control", "max-age=600"), ("Vary", "X-Kind")], [], [("Cache-Control", "max-age=1"), ("Age", "0")],
]


def body_of(path: str, version: str) -> bytes:
    draw = random.Random(f"{path} {version}")
    seed = draw.randbytes(1021)
    size = draw.choice([0, 1, 100, 65_536, 65_537, 300_000, draw.randrange(700_000)])
    return (seed * (size // len(seed) + 1))[:size]


def thing_of(path: str, version: str, draw: random.Random) -> Thing:
    body = body_of(path, version)
    tag = f'W/"{version}"' if draw.random() < 0.15 else f'"{version}"'
    breaks = sorted(draw.randrange(len(body) + 1) for _ in range(draw.choice([0, 0, 0, 1, 2, 4])))
    return Thing(body, tag, draw.choice(FIELDS), breaks=breaks, chunked=draw.random() < 0.2, pause=draw.choice([0, 0, 0.002]),
                 takes_ranges=draw.random() < 0.9)


class Storm:
    """What all threads share."""

    def __init__(self, seed: int, seconds: float, words: dict[str, str]) -> None:
        self.seed, self.words, self.until = seed, words, time.monotonic() + seconds
        self.folder, self.origin = tempfile.mkdtemp(), Origin()
        self.counts: collections.Counter[str] = collections.Counter()
        self.wrong: list[str] = []
        self.sessions = [self.begun() for _ in range(2)]

    def begun(self) -> requests.Session:
        session = requests.Session()
        vosdrieng.requests.mount(session, store=self.folder, **self.words)
        return session

    def change(self) -> None:
        """The origin changes; now and then a session ends, and another begins over the folder."""
        draw, version = random.Random(self.seed), 0
        while time.monotonic() < self.until:
            version += 1
            path = draw.choice(PATHS)
            self.origin.things[path] = thing_of(path, f"{version}", draw)
            if draw.random() < 0.1:
                place = draw.randrange(2)
                old, self.sessions[place] = self.sessions[place], self.begun()
                old.close()
            time.sleep(draw.random() * 0.1)

    def ask(self, place: int) -> None:
        draw = random.Random(f"{self.seed} {place}")
        while time.monotonic() < self.until and not self.wrong:
            try:
                self.one(draw, self.sessions[draw.randrange(2)])
            except (requests.RequestException, urllib3.exceptions.ProtocolError) as fault:
                self.counts[type(fault).__name__] += 1
            except Exception as fault:  # nothing else may be raised
                self.wrong.append(f"{type(fault).__name__}: {fault}")

    def one(self, draw: random.Random, session: requests.Session) -> None:
        path, fields = draw.choice(PATHS), {"X-Kind": draw.choice("ab")}
        if draw.random() < 0.3:
            first = draw.randrange(400_000)
            fields["Range"] = draw.choice([f"bytes={first}-", f"bytes={first}-{first + draw.randrange(200_000)}", f"bytes=-{first}"])
        if draw.random() < 0.1:
            fields["Cache-Control"] = draw.choice(["no-cache", "only-if-cached", "max-stale", "no-store", "max-age=0"])
        method, stream = draw.choices(["GET", "HEAD", "POST"], [95, 2, 3])[0], draw.random() < 0.5
        answer = session.request(method, self.origin.url(path), headers=fields, stream=stream, timeout=30)
        self.counts[f"{answer.status_code}"] += 1
        self.counts["from the cache"] += answer.from_cache
        if method == "GET":
            self.see(draw, path, answer, stream)

    def see(self, draw: random.Random, path: str, answer: requests.Response, stream: bool) -> None:
        """Reads it in one of several ways, or leaves it, and holds what was read against what is owed."""
        owed = self.owed(path, answer)
        if stream and draw.random() < 0.3:
            got = answer.raw.read(draw.randrange(1, 300_000))
            is_right = owed.startswith(got) and (got or not owed)
            answer.close() if draw.random() < 0.7 else None
        else:
            got = b"".join(answer.iter_content(draw.choice([1000, 70_000]))) if stream else answer.content
            is_right = got == owed
        if not is_right:
            at = next((place for place, pair in enumerate(zip(got, owed)) if pair[0] != pair[1]), min(len(got), len(owed)))
            self.wrong.append(f"{path}: {answer.status_code} {answer.cache_reason} {dict(answer.headers)}: {len(got)} bytes, wrong from {at} on")

    @staticmethod
    def owed(path: str, answer: requests.Response) -> bytes:
        if answer.status_code not in (200, 206):
            return b""
        body = body_of(path, answer.headers["ETag"].removeprefix("W/").strip('"'))
        if answer.status_code == 200:
            return body
        first, last = map(int, re.match(r"bytes (\d+)-(\d+)/", answer.headers["Content-Range"]).groups())
        return body[first:last + 1]

    def run(self) -> int:
        for path in PATHS:
            self.origin.things[path] = thing_of(path, "0", random.Random(path))
        threads = [threading.Thread(target=self.change), *(threading.Thread(target=self.ask, args=(place,)) for place in range(8))]
        for thread in threads:
            thread.start()
        for thread in threads:
            thread.join()
        self.origin.close()
        shutil.rmtree(self.folder)
        print(dict(sorted(self.counts.items())), *self.wrong, sep="\n")
        return 1 if self.wrong else 0


def main(words: list[str]) -> int:
    statuses = []
    for way in ways():
        print(way.name)
        statuses.append(Storm(int(words[0]), float(words[1]), way.words()).run())
    return max(statuses)


if __name__ == "__main__":
    sys.exit(main(sys.argv[1:]))
