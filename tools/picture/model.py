"""What happened, thing by thing, worked out of the events and their acts.

Acts are told by the report. What a head founded or joined, what is current and what is gone are not: they follow from both texts
by the rules of docs/RULES.md.
"""
import acts
import events
import heads
from grammar import Unreadable
from things import BODY, HEAD, READY, Key

OF_CONSUMERS, OF_EXCHANGES = ("start", "poll", "cancel"), ("head", "piece", "end", "fault")


class Step:
    """One event while it is worked out."""

    def __init__(self, event):
        self.event, self.n = event, event.n
        self.going = {}  # representation -> (kind of mark, why): gone from here on
        self.lost = {act.r for act in event.acts if act.kind == "lost"}
        self.touched = {}  # the names of the rows that the event is of, as "c3", in order
        self.is_quiet = False  # a poll that is told once more what it was told before

    def touch(self, kind, number):
        self.touched[f"{kind}{number}"] = None


class Model:
    def __init__(self):
        self.events, self.rows_of, self.quiet = [], [], []
        self.keys, self.reps, self.exchanges, self.consumers = {}, {}, {}, {}
        self.waiters = {}  # (how they stand, whom they wait for) -> consumers
        self.counts = {}

    def read(self, events_with_acts):
        """Takes all events of a reading. What doesn't fit is refused, with its line of the report."""
        for event in events_with_acts:
            step = Step(event)
            self.step(step)
            self.events.append(event)
            self.rows_of.append(" ".join(step.touched))
            self.quiet.append(step.is_quiet)
            event.acts, event.fields = event.acts[:1] if event.is_denied else (), ()
        return self

    def count(self, what, n=1):
        self.counts[what] = self.counts.get(what, 0) + n

    def key_of(self, target):
        if target not in self.keys:
            self.keys[target] = Key(len(self.keys), target)
        return self.keys[target]

    def current(self, key):
        """The representation that new consumers of a key use."""
        found = self.reps[key.reps[-1]] if key.reps else None
        return found.r if found and found.gone is None else None

    # One event

    def step(self, step):
        event = step.event
        self.touch_subject(step)
        if event.is_denied:
            self.deny(step)
            return
        self.check_subject(event)
        events.happen(self, step)
        for act in event.acts:
            try:
                acts.carry_out(self, step, act)
            except (KeyError, AttributeError):
                why = f"'{act.kind}' speaks of what isn't there: this is not the report of that schedule"
                raise Unreadable("the report", act.line, why) from None
        for r, (kind, why) in step.going.items():
            rep = self.reps.get(r)
            if rep and rep.gone is None:
                rep.gone = (event.n, why)
                rep.mark(event.n, kind, why)
        if event.kind == "cancel":
            self.leave(event.id, event.n, "cancelled")

    def touch_subject(self, step):
        event = step.event
        if event.kind in OF_CONSUMERS:
            step.touch("c", event.id)
        elif event.kind in OF_EXCHANGES:
            step.touch("x", event.id)
        if event.target is not None:
            step.touch("k", self.key_of(event.target).k)

    def check_subject(self, event):
        """What isn't denied is of a consumer or an exchange that is there."""
        if event.kind in ("start", "doom"):
            return
        known = self.exchanges if event.kind in OF_EXCHANGES else self.consumers
        if event.id not in known:
            why = f"{event.kind} {event.id} speaks of what isn't there, and the report doesn't deny it"
            raise Unreadable("the schedule", event.line, why)

    def deny(self, step):
        event, reason = step.event, step.event.acts[0].why
        self.count("denied")
        self.count(f"denied {reason}")
        thing = (self.exchanges if event.kind in OF_EXCHANGES else self.consumers).get(event.id)
        if event.kind == "start":
            self.key_of(event.target).denied.append(event.n)
        elif thing:
            thing.denied.append(event.n)
            self.key_of(thing.key).denied.append(event.n)

    # What events and acts share

    def leave(self, c, n, how, cause=""):
        self.consumers[c].leave(n, how, cause)
        self.wake_behind(c, n)

    def wake(self, state, whom, n):
        """Who waited for it may go on at its next poll."""
        for c in self.waiters.pop((state, whom), ()):
            if self.consumers[c].waits_for(state, whom):
                self.consumers[c].stand(n, READY, polls=0)

    def wake_behind(self, c, n):
        for state in events.BEHIND:
            self.wake(state, c, n)

    def wake_of(self, x, n):
        for state in (HEAD, BODY):
            self.wake(state, x, n)

    def written_by(self, exchange):
        """The representation into which an exchange brings bytes, if any."""
        return self.reps.get(exchange.x if exchange.joined is None else exchange.joined)

    def see_whole(self, exchange, n):
        rep = self.written_by(exchange)
        if rep and rep.is_whole() and not any(kind == "whole" for _, kind, _ in rep.marks):
            rep.mark(n, "whole", f"all {rep.total} bytes are stored")

    def end_early(self, exchange, step, why):
        """What a 200 that breaks off founded is kept where it can be completed, and else goes."""
        rep = self.reps.get(exchange.x)
        if rep is None or rep.gone or not heads.brings_whole(rep.status) or exchange.over is not None:
            return
        if rep.is_keepable():
            rep.mark(step.n, "truncated", f"{rep.size} of {rep.total} bytes are kept, {why}")
        else:
            step.going[rep.r] = ("gone", f"{why}, and it can't be completed later")
