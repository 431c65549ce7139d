"""Worked rows by definition: what is replayed, behind a front or not, saved and opened."""
import re

import images
import schedule
from defined_run import DefinedFront, DefinedRun, may_begin_with
from definitions import TOP, contents_of
from events import Cancel
from limits import AMPLE

ROWS = TOP / "tests" / "rows"
STREAMS_FAIL = (3, 4)


def events_in(text, now=0):
    """Up to the first line that is refused."""
    try:
        yield from schedule.events_of(text, now)
    except schedule.Refused:
        pass


def _reported(run, text, now=0):
    """The report, and how many events it has."""
    entries = [b"> %d\n" % number + run.step(*event) for number, event in enumerate(events_in(text, now), 1)]
    return b"".join(entries), len(entries)


def _replayed(path, report, _):
    found, events = _reported(DefinedRun(AMPLE), path.read_bytes())
    return events, found == report


def _conditional(path, report, _):
    found, events = _reported(DefinedFront(AMPLE), path.read_bytes())
    return events, found == report


def _saved(path, report, status):
    if status != 0:
        return 0, report == b""
    run, events = DefinedRun(AMPLE), list(events_in(path.read_bytes()))
    for now, event in events:
        run.step(now, event)
    for number in sorted(run.tables.starts):
        run.step(run.tables.moment, Cancel(number))
    return len(events), run.left() == contents_of(images.read_image(report)[0])


def _opened(path, report, status):
    text = path.read_bytes()
    try:
        contents, behind = images.read_image(text)
    except images.BadImage:
        return 0, status == 7
    if not may_begin_with(AMPLE, contents):
        return 0, status == 7
    found, events = _reported(DefinedRun(AMPLE, contents), text[behind:], contents.now)
    return events, status != 7 and found == report


COMMANDS = {"replay": _replayed, "conditional": _conditional, "save": _saved, "open": _opened}


def _status(path):
    return int(re.search(r"^status: (\d+)$", path.with_suffix(".row").read_text(), re.MULTILINE)[1])


def departures():
    """Of each row whose streams don't fail: its command, its name, how many events it has, and whether it holds."""
    for command, by_definition in COMMANDS.items():
        for path in sorted((ROWS / command).glob("*.schedule")):
            status = _status(path)
            if status not in STREAMS_FAIL:
                yield command, path.stem, *by_definition(path, path.with_suffix(".report").read_bytes(), status)
