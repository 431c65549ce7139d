"""Runs by definition."""
from antt.columns import kept

from definitions import contents_of, definition, event_of, record
from images import Contents
from limits import limits_of

EMPTY = Contents(0, 0, 1, ())

owed = definition("Runs.owed")
may_stand = definition("Runs.may_stand")
after = definition("Tables.after")
first_tables = definition("Tables.first_tables")
contents_left = definition("Contents.contents_of")
may_begin = definition("Beginnings.may_begin")
act_text = definition("Report.act_text", "hc_sched")
handed = definition("Fronts.handed", "hc_front")
told = definition("Fronts.reported", "hc_front")
front_after = definition("Fronts.front_after", "hc_front")
front_begun = definition("Fronts.front_begun", "hc_front")


def text_of(acts):
    return b"".join(bytes(act_text(act)) for act in acts)


class DefinedRun:
    """The tables behind the entries so far. Each column is computed once at each number."""

    def __init__(self, limits, contents=EMPTY):
        self.limits, self.asked = limits_of(limits), {}
        self.tables = kept(first_tables(contents_of(contents)), self.asked)
        self.entry = None

    def step(self, now, event):
        """The text of the acts that are owed where the store fails in nothing but its sizes."""
        entry = owed(self.limits, self.tables, now, event_of(event))
        if not self.take(entry):
            raise AssertionError("an owed entry may not stand")
        return text_of(entry.acts)

    def take(self, entry):
        """One entry more. Whether the store may fail as its acts show."""
        is_standing = may_stand(self.limits, self.tables, entry)
        self.entry, self.tables = entry, kept(after(self.tables, entry), self.asked)
        return bool(is_standing)

    def left(self):
        """What the store has then."""
        return contents_left(self.tables)


class DefinedFront(DefinedRun):
    """A run behind a front, which answers callers on condition of copies that they have."""

    def __init__(self, limits, contents=EMPTY):
        super().__init__(limits, contents)
        self.asked_of_front = {}
        self._keep(front_begun(contents_of(contents)))

    def _keep(self, fronted):
        self.tables = kept(fronted.core, self.asked)
        self.fronted = kept(fronted.with_fields(core=self.tables), self.asked_of_front)

    def step(self, now, event):
        """The text of what the front tells."""
        event = event_of(event)
        self.entry = owed(self.limits, self.tables, now, handed(self.fronted, event))
        acts = told(self.fronted, event, self.entry.acts)
        self._keep(front_after(self.fronted, record(now=now, event=event, acts=self.entry.acts)))
        return text_of(acts)


def may_begin_with(limits, contents):
    return bool(may_begin(limits_of(limits), contents_of(contents)))
