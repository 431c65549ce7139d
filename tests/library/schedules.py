#!/usr/bin/env python3
"""Draws a schedule of events beside a cache that steps them: schedules.py LIBRARY SEED COUNT.

LIBRARY is libvosdrieng.so. What the cache answers tells which exchanges are open and which consumers are live, so most events meet
something. The schedule goes to standard output.
"""
import ctypes
import random
import sys

KEYS = [f"http://a.test/{name}" for name in "abcdef"]
LOADS = ["normal"] * 8 + ["validate", "bypass", "skip", "only", "disable"]
OPEN, CLOSE, ENDED, FAILED = 1, 3, 6, 7


class Act(ctypes.Structure):
    _fields_ = [("kind", ctypes.c_uint32), ("detail", ctypes.c_uint32)] + [
        (name, ctypes.c_uint64)
        for name in ("consumer", "exchange", "representation", "position", "end", "first", "second", "length", "method", "target")
    ] + [("status", ctypes.c_uint32), ("has_end", ctypes.c_uint32)]


class Cache:
    def __init__(self, path):
        self.calls, self.at, self.act = ctypes.CDLL(path), (ctypes.c_uint64 * 2)(), Act()
        self.room = ctypes.create_string_buffer(1 << 17)
        assert self.calls.vosdrieng_new(self.at, *map(ctypes.c_uint64, (1 << 24, 1 << 28))) == 0

    def step(self, word, *words):
        """The acts of an event. Numbers are of 64 bits, but for those that are marked."""
        given = []
        for it in words:
            given += [it, ctypes.c_size_t(len(it))] if isinstance(it, bytes) else [it if isinstance(it, ctypes.c_uint32) else ctypes.c_uint64(it)]
        assert self.calls["vosdrieng_" + word](self.at, *given) == 0, (word, words)
        acts = []
        while self.calls.vosdrieng_next_act(self.at, ctypes.byref(self.act)):
            n = self.calls.vosdrieng_act_bytes(self.at, self.room, ctypes.c_size_t(len(self.room)))
            acts.append((self.act.kind, self.act.consumer, self.act.exchange, self.room.raw[:n]))
        return acts


class Drawing:
    def __init__(self, library, seed):
        self.rng, self.cache = random.Random(seed), Cache(library)
        self.now, self.last, self.live, self.open, self.headed = 1000, 0, set(), {}, {}

    def some(self, numbers, odd):
        """One of these, or now and then any number."""
        numbers = sorted(numbers)
        return self.rng.choice(numbers) if numbers and self.rng.random() > odd else self.rng.randrange(self.last + 3)

    def hear(self, acts):
        for kind, c, x, said in acts:
            if kind == OPEN:
                self.open[x] = said.decode()
            elif kind == CLOSE:
                self.open.pop(x, None)
            elif kind in (ENDED, FAILED):
                self.live.discard(c)

    def fields(self):
        lines, n = [], self.rng.choice([0, 3, 6, 9, 40, 3000])
        for odds, line in ((0.7, "cache-control: max-age=%d" % self.rng.choice([1, 60])), (0.7, f"content-length: {n}"),
                           (0.6, 'etag: "v%d"' % self.rng.randrange(2)), (0.1, "vary: accept"), (0.1, "cache-control: no-store")):
            if self.rng.random() < odds:
                lines.append(line)
        return n, sorted(lines)

    def start(self):
        self.last = c = self.last + (self.rng.random() > 0.02)
        lines = sorted(it for it in ("range: bytes=%d-%d" % (2, self.rng.randrange(2, 9)), "accept: x", "cache-control: max-age=0") if self.rng.random() < 0.2)
        key, load = self.rng.choice(KEYS), self.rng.choice(LOADS)
        method = self.rng.choice(["GET"] * 9 + ["HEAD", "POST"])
        self.live.add(c)
        words = c, method.encode(), ctypes.c_uint32(["normal", "validate", "bypass", "skip", "only", "disable"].index(load)), key.encode()
        return [f"start {c} {method} {load} {key} {len(lines)}", *lines], ("start", self.now, *words, "".join(it + "\n" for it in lines).encode())

    def head(self, x):
        n, lines = self.fields()
        status = self.rng.choice([200] * 6 + [206, 304, 404, 500])
        if status == 206:
            lines = sorted(lines + ["content-range: bytes 2-%d/9" % self.rng.randrange(2, 9)])
        self.headed[x] = n
        return [f"head {x} {status} {len(lines)}", *lines], ("head", self.now, x, ctypes.c_uint32(status), "".join(it + "\n" for it in lines).encode())

    def event(self):
        """The lines of an event, and its call."""
        rng, now = self.rng, self.now
        word = rng.choices(["start", "poll", "head", "piece", "end", "fault", "cancel", "doom"], [12, 45, 14, 22, 6, 1, 2, 1])[0]
        c, x = self.some(self.live, 0.02), self.some(self.open, 0.05)
        if word == "start":
            return self.start()
        if word == "poll":
            want = rng.choice([0, 1, 2, 100, 65536])
            return [f"poll {c} {want}"], ("poll", now, c, ctypes.c_uint32(want))
        if word == "head":
            return self.head(x)
        if word == "piece":
            data = rng.randbytes(rng.choice([0, 1, 3, 6, 500]))
            return [f"piece {x} {data.hex() or '-'}"], ("piece", now, x, data)
        if word == "doom":
            key = rng.choice(KEYS)
            return [f"doom {key}"], ("doom", now, key.encode())
        n = c if word == "cancel" else x
        if word == "cancel":
            self.live.discard(c)
        return [f"{word} {n}"], (word, now, n)


def main(words):
    drawing = Drawing(words[0], int(words[1]))
    print(f"at {drawing.now}")
    for _ in range(int(words[2])):
        if drawing.rng.random() < 0.01:
            drawing.now += drawing.rng.choice([1, 5, 30, 70])
            print(f"at {drawing.now}")
        lines, call = drawing.event()
        print("\n".join(lines))
        drawing.hear(drawing.cache.step(*call))


if __name__ == "__main__":
    main(sys.argv[1:])
