#!/usr/bin/env python3
"""Writes schedules that the generator of tests/model plays, each to a file of a folder: modelled.py FOLDER EVENTS.

The definitions are run on such schedules too (tests/evaluate). They have EVENTS events in all, and no line that is refused.
"""
import pathlib
import sys

sys.dont_write_bytecode = True
sys.path.insert(0, str(pathlib.Path(__file__).resolve().parent.parent / "model"))
from answers import Chance  # noqa: E402
from cache import Cache  # noqa: E402
from generator import Play  # noqa: E402

EACH = 100


def main(folder, events):
    for seed in range(events // EACH):
        chance, cache = Chance(f"library {seed}"), Cache()
        chance.draw_taste()
        play = Play(chance, cache.step, cache.tables)
        play.run(EACH)
        (pathlib.Path(folder) / f"{seed}.schedule").write_bytes(b"".join(play.items))


if __name__ == "__main__":
    main(sys.argv[1], int(sys.argv[2]))
