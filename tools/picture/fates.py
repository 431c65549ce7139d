"""What became of each consumer: tags to count and to filter by, a few words, and a sentence."""
import cases
from things import OWN, SHARED, STORED, TURN, WRITER

TAGS = ("hit", "validated", "shared", "resumed", "stitched", "fetched", "past the store", "detached reader", "failed",
        "cancelled", "unfinished")

NEEDS = {
    "disabled": "X{x} was opened past the store, since its request takes nothing of a cache",
    "timed-out": "after 20 seconds of waiting X{x} was opened past the store",
    "bypass": "X{x} was opened in place of what is stored, as its request asks",
    "miss": "nothing usable was stored, so exchange X{x} was opened",
    "vary": "what is stored is for other requests (Vary), so X{x} was opened",
    "validate": "X{x} asked whether the stored answer still holds",
    "hole": "bytes {lo}–{hi} weren't stored, so X{x} was opened for them",
    "unsatisfied": "its range can't be satisfied, so X{x} was opened past the store",
}

GIVEN = "it was given "


def size(n):
    """Bytes for people."""
    if n < 10_000:
        return f"{n} B"
    for unit in ("kB", "MB", "GB", "TB"):
        n /= 1000
        if n < 1000:
            break
    return f"{n:.0f} {unit}" if n >= 100 else f"{n:.1f} {unit}"


def cause_said(cause):
    """The cause of a failure, in words."""
    name, _, rest = cause.partition(":")
    if name == "short":
        x, _, counts = rest.partition(":")
        return f"X{x} ended at {counts.replace('/', ' of ')} bytes"
    return {"net": f"X{rest} broke", "changed": f"X{rest} brought another body",
            "store-write": f"R{rest} couldn't be stored", "store-read": f"R{rest} couldn't be read",
            "bad-head": f"the head of X{rest} has no usable length",
            "miss": "nothing usable is stored, and it takes nothing else"}[name]


class Fate:
    """What a consumer was given, seen together."""

    def __init__(self, consumer, exchanges):
        self.consumer, self.exchanges = consumer, exchanges
        self.parts = consumer.stretches()
        self.modes = {part[3] for part in self.parts}
        self.brought_by = list(dict.fromkeys(part[0] for part in self.parts))
        self.own = [exchanges[x] for x in consumer.exchanges]
        self.why = consumer.shown[2].split(":")[0] if consumer.shown else ""

    @property
    def past(self):
        """The exchange past the store that it reads, if any."""
        read = {*self.brought_by, self.consumer.shown[1] if self.consumer.shown else None}
        last = [it for it in self.own if it.case in (*cases.PAST, "TurnServerError", "FirstServerError")][-1:]
        return last[0] if last and last[0].x in read else None

    @property
    def resumes(self):
        """The place where bytes of a hole follow on what was stored before it started."""
        if len(self.parts) != 2 or self.parts[0][3] != STORED or self.parts[1][3] == STORED:
            return None
        return self.parts[1][1] if self.exchanges[self.parts[1][0]].need == "hole" else None

    def ways(self):
        """How it came to its answer: (tag, words), one for each."""
        if self.past:
            return [("past the store", f"past the store by X{self.past.x} ({self.past.need})")]
        ways = []
        if self.why in ("fresh", "stale") and not self.modes & {OWN, SHARED}:
            ways.append(("hit", f"hit ({self.consumer.shown[2].replace(':', ' ')})"))
        if self.why == "validated" and any(it.case == "Validated" for it in self.own):
            ways.append(("validated", f"validated by X{self.consumer.shown[2].split(':')[1]}"))
        if SHARED in self.modes:
            ways.append(("shared", f"shared X{next(part[0] for part in self.parts if part[3] == SHARED)}"))
        if self.resumes is not None:
            ways.append(("resumed", f"resumed at {self.resumes}"))
        elif len(self.brought_by) > 1:
            ways.append(("stitched", f"stitched of {len(self.parts)}"))
        if self.consumer.shown and not ways:
            ways.append(("fetched", f"fetched by X{self.consumer.exchanges[-1]}" if self.consumer.exchanges else "shown a head"))
        return ways

    def ending(self):
        """How it ended, where that isn't with all of its bytes: (tag, words)."""
        consumer = self.consumer
        return {"failed": ("failed", f"failed: {cause_said(consumer.cause)}" if consumer.cause else ""),
                "cancelled": ("cancelled", "left"), "open": ("unfinished", "unfinished")}.get(consumer.how)


def judge(consumer, exchanges):
    """Sets the tags and the words of a consumer."""
    fate = Fate(consumer, exchanges)
    ways, ending = fate.ways(), fate.ending()
    if consumer.detached:
        ways.append(("detached reader", "detached reader"))
    told = [*ways, ending] if ending else ways
    consumer.tags = [tag for tag, _ in told]
    consumer.words = ", ".join(words for _, words in told)


def waits_said(consumer, moment_of):
    """Its waits for others: [event, words], with how long where moments tell."""
    said = []
    for from_, to, state, whom, _ in consumer.spans:
        if state in (TURN, WRITER):
            seconds = moment_of(to) - moment_of(from_)
            time = f" for {seconds} s" if seconds else ""
            what = f"behind C{whom}, which had the turn" if state == TURN else f"for C{whom}, which wrote what it wanted"
            said.append((from_, f"it waited{time} {what}"))
    return said if len(said) <= 2 else [said[0], (said[1][0], f"it waited for others {len(said) - 1} more times")]


def opened_said(consumer, exchanges):
    said = []
    for exchange in (exchanges[x] for x in consumer.exchanges):
        lo, hi = exchange.hole or (0, 0)
        said.append((exchange.opened, NEEDS[exchange.need].format(x=exchange.x, lo=lo, hi=hi)))
    return said if len(said) <= 3 else [*said[:2], (said[2][0], f"{len(said) - 2} more exchanges were opened for it")]


def given_said(consumer, exchanges):
    """What it was given, where its first byte came and where the bytes of others begin."""
    said, parts = [], consumer.stretches()
    for x, lo, hi, mode in parts[:4]:
        how = {OWN: "", SHARED: f", shared with C{exchanges[x].c}", STORED: ", stored before"}[mode]
        n = next(event for event, by, at, _, _ in consumer.data if (by, at) == (x, lo))
        said.append((n, f"{GIVEN}bytes {lo}–{hi} of X{x}{how}"))
    if len(parts) > 4:
        said[3:] = [(said[3][0], f"{GIVEN}{len(parts) - 3} more stretches of its body")]
    return said


def end_said(consumer):
    given = sum(part[3] for part in consumer.data)
    if consumer.how == "ended":
        return "it has all of its bytes" if given else "it ended, and no byte was due"
    if consumer.how == "failed":
        return f"it failed: {cause_said(consumer.cause)}"
    end = "it left" if consumer.how == "cancelled" else "the run ends here"
    due = consumer.shown[5] if consumer.shown else None
    return end if due is None else f"{end}, with {given} of {due - consumer.shown[4]} bytes"


def story(consumer, exchanges, moment_of):
    """What happened to a consumer, in a sentence, in the order of events."""
    clauses = waits_said(consumer, moment_of) + opened_said(consumer, exchanges) + given_said(consumer, exchanges)
    if consumer.shown and consumer.shown[2].startswith(("fresh", "stale")):
        clauses.append((consumer.shown[0], f"it was shown a stored head that was {consumer.shown[2].split(':')[0]}"))
    if consumer.detached:
        clauses.append((consumer.detached, "its body was lost, and it read on alone (detached reader)"))
    said = []
    for _, words in sorted(clauses, key=lambda clause: clause[0]):
        if said and said[-1].startswith(GIVEN) and words.startswith(GIVEN):
            said[-1] += f", then {words.removeprefix(GIVEN)}"
        else:
            said.append(words)
    text = "; ".join([*said, end_said(consumer)])
    return f"{text[0].upper()}{text[1:]}."
