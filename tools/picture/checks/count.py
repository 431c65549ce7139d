#!/usr/bin/env python3
"""Counts what a schedule and its report say, line by line, without the picture's own reading.

usage: tools/picture/checks/count.py SCHEDULE REPORT

Each line of the output is a name and a number.
"""
import collections
import pathlib
import re
import sys

FIELD = re.compile(r"[!#$%&'*+.^_`|~0-9a-z-]+: ")
EVENT = re.compile(r"(start|poll|head|piece|end|fault|cancel|doom) ")


def entries_of(report):
    """The acts of each event, without field lines."""
    parts = re.split(r"(?m)^> ", report)[1:]
    return [[line for line in part.split("\n")[1:-1] if not FIELD.match(line)] for part in parts]


def counts(schedule, report):
    """The number of everything that the page counts too, by name."""
    found, opened_for = collections.Counter(), {}
    events = [line for line in schedule.split("\n") if EVENT.match(line)]
    for event, acts in zip(events, entries_of(report)):
        found["events"] += 1
        count_event(found, event, acts)
        for act in acts:
            count_act(found, act.split(" "), opened_for)
    return found


def count_event(found, event, acts):
    words = event.split(" ")
    if acts and acts[0].startswith("denied "):
        found["denied " + acts[0].split(" ")[1]] += 1
        return
    if words[0] == "start":
        found["consumers"] += 1
    elif words[0] == "piece":
        found["pieces"] += 1
        found["network"] += len(words[2]) // 2


def count_act(found, words, opened_for):
    kind = words[0]
    found[kind] += 1
    if kind == "open":
        opened_for[words[1]] = words[2]
        found["need " + words[3].split(":")[0]] += 1
    elif kind == "shown":
        found["why " + words[3].split(":")[0]] += 1
    elif kind == "data":
        size = len(words[4]) // 2
        found["given"] += size
        found[f"given to C{words[1]}"] += size
        if opened_for[words[2]] == words[1]:
            found["given own"] += size
    elif kind in ("failed", "pending"):
        found[f"{kind} {words[2].split(':')[0]}"] += 1
    elif kind == "lost":
        found["lost " + words[2]] += 1


def main(words):
    schedule, report = (pathlib.Path(word).read_text("utf-8", "backslashreplace") for word in words)
    for name, n in sorted(counts(schedule, report).items()):
        print(name, n)


if __name__ == "__main__":
    sys.exit(main(sys.argv[1:]) if len(sys.argv) == 3 else __doc__)
