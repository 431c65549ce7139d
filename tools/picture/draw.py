#!/usr/bin/env python3
"""Draws a run of the cache: a schedule and its report become one HTML file, and a summary on standard output.

usage: vosdrieng picture SCHEDULE [PAGE]
       vosdrieng picture --report REPORT SCHEDULE PAGE

Without a report the schedule is replayed. PAGE is the name of the schedule with the ending .html, in this folder, where
it isn't told.
"""
import os
import pathlib
import subprocess
import sys

import fates
import highlights
import page
import summary
import totals
from grammar import Unreadable, shown
from model import Model
from reading import Reading

LAUNCHER = pathlib.Path(__file__).resolve().parents[2] / "vosdrieng"
DRAWN, REFUSED, WRONG_WORDS, NOT_READ, NOT_WRITTEN = range(5)


class Run:
    """A run with all that is said of it."""

    def __init__(self, schedule, report):
        """Of streams of bytes."""
        reading = Reading(schedule, report)
        self.model = Model().read(reading)
        self.notes, self.refused, self.is_limited = reading.notes, reading.refused, reading.is_limited
        for consumer in self.model.consumers.values():
            fates.judge(consumer, self.model.exchanges)
            consumer.story = fates.story(consumer, self.model.exchanges, self.moment_of)
        self.totals, self.by_key = totals.totals(self.model), totals.by_key(self.model)
        self.highlights = highlights.highlights(self.model)

    def moment_of(self, n):
        """The moment of an event, or of the last one."""
        return self.model.events[n - 1 if n else -1].now


def options(words):
    """The report or None, the schedule, and the page; None where the words are others."""
    report = None
    if words[:1] == ["--report"]:
        if len(words) != 4:
            return None
        report, words = pathlib.Path(words[1]), words[2:]
    if not 1 <= len(words) <= 2 or any(word.startswith("-") for word in words):
        return None
    schedule = pathlib.Path(words[0])
    return report, schedule, pathlib.Path(words[1] if words[1:] else schedule.with_suffix(".html").name)


def replayed(schedule):
    """The run of a schedule that is replayed, and the status of that."""
    with schedule.open("rb") as events, schedule.open("rb") as given:
        with subprocess.Popen([LAUNCHER, "replay"], stdin=given, stdout=subprocess.PIPE) as program:
            run = Run(events, program.stdout)
    return run, 0 if run.is_limited else program.returncode


def recorded(schedule, report):
    with schedule.open("rb") as events, report.open("rb") as entries:
        return Run(events, entries), 0


def draw(report, schedule, out):
    """Reads, writes the page, and answers the status."""
    try:
        run, status = recorded(schedule, report) if report else replayed(schedule)
    except Unreadable as error:
        print(f"picture: {error}", file=sys.stderr)
        return REFUSED
    except OSError as error:
        print(f"picture: {error.filename}: {error.strerror}", file=sys.stderr)
        return NOT_READ
    if status and not run.model.events and not run.refused:
        print("picture: there is no report, so nothing is drawn", file=sys.stderr)
        return status
    name = shown(os.fsencode(schedule.stem))
    text = page.page(name, page.data_of(name, run))
    try:
        out.write_text(text, encoding="utf-8")
    except OSError as error:
        print(f"picture: {out}: {error.strerror}", file=sys.stderr)
        return NOT_WRITTEN
    print(summary.text(name, run))
    print(f"  page     {out} ({fates.size(out.stat().st_size)})")
    if run.refused:
        print(f"picture: {run.refused}", file=sys.stderr)
    return status or (REFUSED if run.refused else DRAWN)


def main(words):
    if words in (["--help"], ["-h"]):
        print(__doc__)
        return DRAWN
    found = options(words)
    if found is None:
        print("\n".join(__doc__.splitlines()[2:4]), file=sys.stderr)
        return WRONG_WORDS
    return draw(*found)


if __name__ == "__main__":
    for stream in (sys.stdout, sys.stderr):
        stream.reconfigure(errors="backslashreplace")
    sys.exit(main(sys.argv[1:]))
