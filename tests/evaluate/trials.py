"""Trials over a store that holds little or fails, behind a front or not, by definition: the vectors of hc_test_faults."""
import re

from defined_run import DefinedFront, DefinedRun, text_of
from definitions import TOP, bytes_of, definition, event_of, of, record, value, variant
from inputs import KEY
from worked_rows import events_in

FAULTS = TOP / "crates" / "hc_test_faults"
LOST = {"fault": "Fault", "too-large": "TooLarge", "full": "Full"}

answer = definition("Answers.answer")
kind_for = definition("Kinds.kind_for")


def _trials_in(text):
    """What stands behind each line that begins a trial, with that line's words; comments are left out."""
    lines = [line for line in text.splitlines(keepends=True) if line.strip() and not line.startswith("#")]
    for part in re.split(r"^(?=(?:trial|front) )", "".join(lines), flags=re.MULTILINE)[1:]:
        first, _, behind = part.partition("\n")
        yield first.split(" "), behind


def _flaw_in(section):
    """How the store failed, as the acts of an entry show it."""
    lost = re.search(r"^lost (\d+) (\S+)$", section, re.MULTILINE)
    if lost:
        return value("Flaws.Loses", "hc_model", int(lost[1]), variant("hc_event", "act", "LostKind", LOST[lost[2]]))
    failed = re.search(r"^failed \d+ store-read:(\d+)$", section, re.MULTILINE)
    return value("Flaws.Misreads", "hc_model", int(failed[1])) if failed else value("Flaws.NoFlaw", "hc_model")


def _is_owed(run, now, event, section):
    acts = answer(run.limits, run.tables, now, event_of(event), _flaw_in(section))
    may_stand = run.take(record(now=now, event=event_of(event), acts=acts))
    return may_stand and text_of(acts) == section.encode("latin-1")


def _holds(words, schedule, owed):
    """How many events a trial has, and whether they and what is stored then are as the definitions say."""
    report, _, behind = owed.partition("ended done\n")
    sections = re.split(r"^> \d+\n", report, flags=re.MULTILINE)[1:]
    events, run = list(events_in(schedule.encode("latin-1"))), DefinedRun((int(words[1]), int(words[2])))
    are_owed = len(events) == len(sections) and all(_is_owed(run, *event, section) for event, section in zip(events, sections))
    kind = of(kind_for(run.tables, bytes_of(KEY)))
    stored = "nothing" if kind is None else kind._name.lower()
    return len(events), are_owed and behind == f"stored {stored}\nstepped {len(events)}\n"


def _holds_behind_front(words, schedule, owed):
    run, events = DefinedFront((int(words[1]), int(words[2]))), list(events_in(schedule.encode("latin-1")))
    report = b"".join(b"> %d\n" % number + run.step(*event) for number, event in enumerate(events, 1))
    return len(events), report + b"ended done\n" == owed.encode("latin-1")


def departures():
    """Of each trial: its number, how many events it has, and whether it holds."""
    texts = [_trials_in((FAULTS / name).read_text(encoding="latin-1")) for name in ("stdin", "stdout")]
    for number, ((words, schedule), (_, owed)) in enumerate(zip(*texts, strict=True), 1):
        holds = _holds if words[0] == "trial" else _holds_behind_front
        yield words[0], str(number), *holds(words, schedule, owed)
