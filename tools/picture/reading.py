"""A schedule and its report, read side by side: each event with its acts."""
import re

import grammar
import report
import schedule

MOST_EVENTS = 250_000
MOST_TEXT = 12_000_000  # letters: what comes behind is kept without field lines


class Reading:
    """The events that are drawn, one by one, and afterwards what has to be said of the two texts."""

    def __init__(self, events, entries):
        """Of streams of bytes, a schedule and a report."""
        self.schedule, self.report = grammar.Lines(events, "the schedule"), grammar.Lines(entries, "the report")
        self.notes, self.letters = [], 0
        self.refused = None  # why the schedule can't be read further
        self.is_limited = False

    def __iter__(self):
        events, n = self.events(), 0
        for entry in report.entries(self.report):
            if entry.n > MOST_EVENTS:
                self.is_limited = True
                self.notes.append(f"Only the first {MOST_EVENTS:,} events are drawn and counted.")
                return
            event = next(events, None)
            if event is None:
                raise self.report.refused(f"event {entry.n} is answered, and the schedule has only {n}", entry.line)
            event.acts, event.said = entry.acts, "\n".join(entry.said)
            self.keep_short(event)
            yield event
            n = event.n
        self.finish(n, sum(1 for _ in events))

    def keep_short(self, event):
        """Past a sum of letters the texts of events are kept without their field lines."""
        was_short = self.letters > MOST_TEXT
        self.letters += len(event.text) + len(event.said)
        if self.letters > MOST_TEXT:
            event.text, event.said = (re.sub(r"\n  .*", "", text) for text in (event.text, event.said))
            if not was_short:
                self.notes.append(f"From event {event.n:,} on, field lines are not shown.")

    def events(self):
        try:
            yield from schedule.events(self.schedule)
        except grammar.Unreadable as error:
            self.refused = error

    def finish(self, n, left):
        if self.report.is_cut:
            self.notes.append("The report is cut short: its last line is not whole, and is left out.")
        if left:
            self.notes.append(f"The report ends with event {n:,}; the schedule has {left:,} more, which are not drawn.")
        if self.refused:
            self.notes.append(f"The schedule can't be read further. Line {self.refused.number}: {self.refused.why}.")
