"""What is worth a look: of each kind the one that stands out, and how many more there are."""
from fates import cause_said, size
from things import HEAD, SHARED, TURN, WRITER

REASONS = {
    "1": "its number doesn't rise", "2": "1,024 consumers are live", "3": "no such consumer has started",
    "4": "the consumer is over", "5": "no byte is wanted", "6": "the exchange isn't open", "7": "it has its head",
    "8": "it has no head yet", "9": "no piece was asked for", "10": "the piece is empty",
    "11": "the piece passes what was promised",
}


class Highlights:
    """Kinds of things, each with what there is of it: (weight, words, row, event)."""

    def __init__(self, model):
        self.model, self.kinds = model, {}
        for consumer in model.consumers.values():
            self.of_ways(consumer)
            self.of_waits(consumer)
        for x, readers in self.sharers().items():
            self.of_sharing(model.exchanges[x], readers)
        for rep in model.reps.values():
            self.of_representation(rep)
        for exchange in model.exchanges.values():
            self.of_exchange(exchange)
        for key in model.keys.values():
            for n, why in key.dooms:
                self.add("doomed", 1, f"what is current for {key_said(key)} goes: {why}", f"k{key.k}", n)
        self.of_denials()

    def add(self, kind, weight, words, row, n):
        self.kinds.setdefault(kind, []).append((weight, words, row, n))

    def seconds(self, from_, to):
        return self.model.events[(to or len(self.model.events)) - 1].now - self.model.events[from_ - 1].now

    def of_ways(self, consumer):
        row, parts = f"c{consumer.c}", consumer.stretches()
        given = sum(hi - lo for _, lo, hi, _ in parts)
        if "stitched" in consumer.tags:
            said = ", ".join(f"{lo}–{hi} by X{x}" for x, lo, hi, _ in parts[:4]) + (" …" if len(parts) > 4 else "")
            self.add("stitched", len(parts), f"C{consumer.c}'s body is stitched: {said}", row, consumer.data[-1][0])
        if "resumed" in consumer.tags:
            (first, lo, hi, _), (second, at, _, _) = parts
            words = f"C{consumer.c} takes {size(hi - lo)} that X{first} had brought, and resumes at byte {at} by X{second}"
            self.add("resumed", hi - lo, words, row, self.model.exchanges[second].opened)
        if "hit" in consumer.tags and parts:
            words = f"C{consumer.c} is given {size(given)} that were stored: nothing comes over the network for it"
            self.add("hit", given, words, row, consumer.shown[0])
        if consumer.detached:
            words = f"C{consumer.c} reads on alone when its body is lost: the detached reader"
            self.add("detached reader", 1, words, row, consumer.detached)
        if consumer.how == "failed":
            words = f"C{consumer.c} fails: {cause_said(consumer.cause)}"
            self.add("failed " + consumer.cause.split(":")[0], len(consumer.data), words, row, consumer.over)

    def of_waits(self, consumer):
        row, exchanges = f"c{consumer.c}", self.model.exchanges
        late = next((x for x in consumer.exchanges if exchanges[x].need == "timed-out"), None)
        if late:
            words = f"C{consumer.c} waited for 20 seconds and goes past the store by X{late}"
            self.add("timed out", 1, words, row, exchanges[late].opened)
        events = len(self.model.events)
        waits = [span for span in consumer.spans if span[2] in (TURN, WRITER)]
        if waits:
            from_, to, state, whom, _ = max(waits, key=lambda span: (span[1] or events) - span[0])
            what = "behind C{}, which has the turn," if state == TURN else "for C{}, which writes what it wants,"
            long, seconds = (to or events) - from_, self.seconds(from_, to)
            time = f" and {seconds:,} s" if seconds else ""
            words = f"C{consumer.c} waits {what.format(whom)} over {long:,} event{'' if long == 1 else 's'}{time}"
            self.add("waited", long, words, row, from_)
        heads = [span for span in consumer.spans if span[2] == HEAD]
        slow = max(heads, key=lambda span: self.seconds(*span[:2]), default=None)
        if slow and self.seconds(*slow[:2]):
            took = self.seconds(*slow[:2])
            self.add("slow head", took, f"C{consumer.c} waits {took} s for the head of X{slow[3]}", row, slow[0])

    def sharers(self):
        """For each exchange the consumers that it is shared with, and how many bytes each was given of it."""
        found = {}
        for consumer in self.model.consumers.values():
            for x, lo, hi, mode in consumer.stretches():
                if mode == SHARED:
                    readers = found.setdefault(x, {})
                    readers[consumer.c] = readers.get(consumer.c, 0) + hi - lo
        return found

    def of_sharing(self, exchange, readers):
        given = sum(readers.values())
        whom = f"C{min(readers)}" if len(readers) == 1 else f"{len(readers)} others"
        words = (f"X{exchange.x}, opened for C{exchange.c}, is shared with {whom}: {size(exchange.got)} came, "
                 f"{size(given)} were given to {'it' if len(readers) == 1 else 'them'}")
        self.add("shared", given, words, f"x{exchange.x}", exchange.opened)

    def of_representation(self, rep):
        said = {"truncated": "is kept though its download broke off: {}", "evicted": "makes room for another ({size})",
                "lost": "is lost: {}", "validated": "is validated {}: nothing of {size} comes again"}
        for n, kind, why in rep.marks:
            if kind in said:
                words = f"R{rep.r} " + said[kind].format(why, size=size(rep.size))
                self.add(kind, rep.size, words, f"r{rep.r}", n)

    def of_exchange(self, exchange):
        row = f"x{exchange.x}"
        if exchange.case in ("FirstChanged", "LaterChanged", "FirstReplaced"):
            lo, hi = exchange.hole
            words = f"X{exchange.x} was to bring bytes {lo}–{hi}, and the origin has another body ({exchange.status})"
            self.add("changed", 1, words, row, exchange.headed)
        if exchange.lost:
            self.add("lost", 0, f"what X{exchange.x} was to found is lost at once: {exchange.lost[1]}", row, exchange.lost[0])
        if exchange.case in ("TurnServerError", "FirstServerError"):
            words = f"X{exchange.x} is answered {exchange.status}; what is stored stays"
            self.add("server error", 1, words, row, exchange.headed)

    def of_denials(self):
        for event in self.model.events:
            if event.is_denied:
                reason = event.acts[0].why
                words = f"event {event.n} ({event.text.split(chr(10))[0][:40]}) is denied: {REASONS[reason]}"
                self.add("denied " + reason, -event.n, words, None, event.n)


def key_said(key):
    text = key.target.decode()
    return text if len(text) < 60 else f"{text[:28]}…{text[-28:]}"


def highlights(model):
    """(kind, words, row, event) of each kind, the rarest kinds first."""
    found = []
    for kind, items in sorted(Highlights(model).kinds.items(), key=lambda pair: len(pair[1])):
        _, words, row, n = min(items, key=lambda item: (-item[0], item[3]))
        more = f" (and {len(items) - 1:,} more)" if items[1:] else ""
        found.append((kind, words[0].upper() + words[1:] + more, row, n))
    return found
