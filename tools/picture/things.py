"""The things of a run: keys, representations, exchanges and consumers, with what happened to each."""
import heads

# How a consumer stands between two acts that tell it something.
LINE, TURN, WRITER, HEAD, BODY, READY, READING = range(7)
WAITS = {"turn": TURN, "busy": WRITER, "head": HEAD, "body": BODY}
# How bytes that a consumer is given came: by its own exchange, by another's meanwhile, or before it started.
OWN, SHARED, STORED = range(3)


class Key:
    def __init__(self, k, target):
        self.k, self.target = k, target
        self.reps, self.consumers, self.exchanges = [], [], []  # their numbers
        self.dooms, self.denied = [], []  # [event, why]; events


class Representation:
    """A head and a body in the cache. Events stand first in all lists."""

    def __init__(self, r, key, n, status, fields, total):
        self.r, self.key, self.founded, self.status, self.total = r, key, n, status, total
        self.fields, self.tag = fields, heads.strong_tag(fields)
        self.gone = None  # [event, why]
        self.lost = None  # [event, kind]
        self.lost_by = None  # the exchange of which a piece wasn't stored, and where that piece begins
        self.detached = None  # the consumer that reads that exchange alone
        self.size = 0
        self.cells = []  # [event, from, to, exchange]: what was stored
        self.reads = []  # [event, from, to, consumer]
        self.marks = [(n, "founded", f"by X{r}")]

    def mark(self, n, kind, why):
        self.marks.append((n, kind, why))

    def is_keepable(self):
        """What is stored can be completed later."""
        may = self.tag is not None and self.total is not None and self.size > 0
        return may and not heads.refuses_ranges(self.fields)

    def is_whole(self):
        return self.lost is None and self.total is not None and self.size == self.total


class Exchange:
    def __init__(self, n, act, key):
        self.x, self.c, self.key, self.opened = act.x, act.c, key, n
        self.need, self.hole, self.method, self.fields = act.need, act.hole, act.method, act.fields
        self.headed = self.over = None  # events
        self.how = "open"  # then done, ended, short, fault or closed
        self.status, self.case, self.aim, self.joined = None, "", None, None
        self.lost = None  # [event, kind]: what it would have founded was lost at once
        self.base, self.promise, self.got = 0, None, 0
        self.pieces, self.asks, self.denied = [], [], []  # [event, at, size]; events

    def stop(self, n, how):
        if self.over is None:
            self.over, self.how = n, how


class Consumer:
    def __init__(self, event, key):
        self.c, self.key, self.started = event.id, key, event.n
        self.method, self.load = event.method, event.load
        self.range = heads.range_of(event.fields) if event.method == "GET" else None
        self.over, self.how, self.cause = None, "open", ""
        self.spans = [[event.n, None, LINE, 0, 0]]  # [from, to, how it stands, whom it waits for, polls]
        self.shown = None  # [event, representation, why, status, from, to]
        self.data = []  # [event, exchange, at, size, how it came]
        self.exchanges, self.denied, self.polls = [], [], 0
        self.detached = None  # the event from which it is the detached reader of a lost body

    def stand(self, n, state, whom=0, polls=1):
        last = self.spans[-1]
        if last[2:4] == [state, whom]:
            last[4] += polls
            return
        last[1] = n
        self.spans.append([n, None, state, whom, polls])

    def waits_for(self, state, whom):
        return self.over is None and self.spans[-1][2:4] == [state, whom]

    def leave(self, n, how, cause=""):
        if self.over is None:
            self.over, self.how, self.cause = n, how, cause
            self.spans[-1][1] = n

    def stretches(self):
        """What it was given, as [exchange, from, to, how it came], what is adjacent made one."""
        found = []
        for _, x, at, size, mode in self.data:
            if found and found[-1][0] == x and found[-1][2] == at:
                found[-1][2] = at + size
            else:
                found.append([x, at, at + size, mode])
        return found
