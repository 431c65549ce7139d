#!/usr/bin/env python3
"""Processes that share a folder are killed at random amid their downloads, and no body may be cut, torn or another's.

usage: tests/kills.py SEED SECONDS

The origin changes and breaks as in storm.py. Three processes ask it over one folder. One of them is killed every now and then, and another
takes its place. Each holds what it is given against what is owed. The exit status is 1 where a body was wrong, or anything was raised but
an exception of requests.
"""
from __future__ import annotations

import json
import random
import shutil
import signal
import subprocess
import sys
import time

from ways import ways

import storm

PROCESSES = 3


class Worker(storm.Storm):
    """Asks until it is killed, and says what was wrong."""

    def __init__(self, seed: int, url: str, folder: str, words: dict[str, str]) -> None:
        self.seed, self.words, self.folder, self.until = seed, words, folder, time.monotonic() + 60
        self.counts, self.wrong, self.origin = storm.collections.Counter(), [], self
        self.url = lambda path: url + path
        self.sessions = [self.begun()] * 2

    def work(self) -> None:
        print("begun", flush=True)
        self.ask(self.seed)
        print(*self.wrong, sep="\n", flush=True)


class Kills(storm.Storm):
    def begin(self, draw: random.Random) -> subprocess.Popen:
        words = [str(draw.randrange(1 << 30)), self.origin.url(""), self.folder, json.dumps(self.words)]
        return subprocess.Popen([sys.executable, __file__, "work", *words], stdout=subprocess.PIPE, stderr=subprocess.STDOUT, text=True)

    def end(self, process: subprocess.Popen) -> None:
        """Kills the process once it has begun, and takes down what it said."""
        process.stdout.readline()
        time.sleep(random.random() ** 2)
        process.send_signal(signal.SIGKILL)
        told = process.communicate()[0].splitlines()
        self.counts["killed"] += 1
        self.wrong += [line for line in told if line.strip()]

    def kill(self) -> None:
        draw = random.Random(self.seed)
        running = [self.begin(draw) for _ in range(PROCESSES)]
        while time.monotonic() < self.until and not self.wrong:
            place = draw.randrange(PROCESSES)
            self.end(running[place])
            running[place] = self.begin(draw)
        self.wrong += [fault for process in running if (fault := self.end(process))]

    def run(self) -> int:
        for path in storm.PATHS:
            self.origin.things[path] = storm.thing_of(path, "0", random.Random(path))
        changing = storm.threading.Thread(target=self.change)
        changing.start()
        self.kill()
        changing.join()
        self.counts["asked"] = len(self.origin.asked)
        self.counts["resumed"] = sum("if-range" in it.fields for it in self.origin.asked)
        self.origin.close()
        shutil.rmtree(self.folder)
        print(dict(self.counts), *self.wrong, sep="\n")
        return 1 if self.wrong else 0


def main(words: list[str]) -> int:
    if words[0] == "work":
        Worker(int(words[1]), words[2], words[3], json.loads(words[4])).work()
        return 0
    statuses = []
    for way in ways():
        print(way.name)
        statuses.append(Kills(int(words[0]), float(words[1]), way.words()).run())
    return max(statuses)


if __name__ == "__main__":
    sys.exit(main(sys.argv[1:]))
