"""Facts of the states of runs, tested by the definitions of hc_model: soundness, turns, the doom barrier, sums and keys at each state,
the law of one key and what entries may change at each entry, and filters and reads of whole histories.

`Facts(definition)` is called after each entry, and `whole` at the end of a run. `definition(path, crate)` gives a definition."""
import collections


def of(option):
    """None, or what is in the Some."""
    return None if option._name == "None" else option.args()[0]


TURNS = ("Bypass", "Miss", "Vary", "Validate")
CONSTANTS = {"Exchanges": "base promised_bytes front", "Currents": "current", "Reading": "is_written bound offset hi_of own_open source",
             "Writers": "came_alone exclusive has_more", "Dooms": "doomed_key_of", "Lines": "turn", "Weights": "weights", "Polls": "move_of has_joined", "Steps": "run_held_for",
             "Keys": "concerns_exchange concerns_representation concerns_consumer loses", "ConsumerRows": "back_in_line",
             "Evictions": "evict_all unevicting", "Tables": "after_accepted", "StartingOver": "starts_over", "Flaws": "flaw_in",
             "Frames": "speaks_of speaks_of_exchange is_event_for beside",
             "Histories": "opened_in answered_in opening_of head_of delivered_of has_ended joined_of request_of since_of given_of shown_of "
                          "was_lost pieces_of stored_of over begun_with", "Reads": "ReadsEach body_of"}


class Facts:
    def __init__(self, definition):
        for file, names in CONSTANTS.items():
            for name in names.split():
                setattr(self, name, definition(file + "." + name))
        self.is_denied = definition("Filters.is_denied", "hc_event")
        self.evicts_in = definition("Filters.evicts_in", "hc_event")
        self.matches = definition("Vary.matches_vary", "hc_fresh")
        self.requests = [definition("Requests." + name, "hc_rules") for name in ("is_bypassing", "is_disabled", "is_only")]
        self.broken, self.met = collections.Counter(), collections.Counter()
        self.begin(None)

    def begin(self, contents):
        self.contents, self.barrier, self.entries = contents, {}, []

    def holds(self, name, truth):
        self.met[name] += 1
        if not truth:
            self.broken[name] += 1
            raise AssertionError("the fact %r doesn't hold" % name)

    def read_rows(self, t):
        """The rows by their numbers, and which open exchanges are about which representation."""
        self.W = {x: of(t.exchange(x)) for x in t.openings}
        self.V = {r: of(t.representation(r)) for r in t.founded}
        self.K = {c: of(t.consumer(c)) for c in t.starts}
        self.about = collections.defaultdict(list)
        for x, w in self.W.items():
            family = self.family(x)
            if w.is_open and of(w.head) is not None and family in self.V:
                self.about[family].append(x)
            elif w.is_open and of(w.head) is None and w.need._name == "Hole":
                self.about[of(w.aim)].append(x)

    def state(self, t, limits, old, entry):
        """All of one state, and of the entry that led to it."""
        self.t, self.entry = t, entry
        self.read_rows(t)
        self.numbered()
        for x, w in self.W.items():
            self.exchange(x, w)
        for r, v in self.V.items():
            self.representation(r, v)
        for c, k in self.K.items():
            self.consumer(c, k)
        self.owners()
        self.owning()
        self.promised()
        self.writing_alone()
        self.founded_alone()
        self.turns()
        self.dooms(old, entry)
        self.left(limits)
        self.places()
        self.orders()
        self.endings()
        self.whose()
        self.passed()
        self.aims()
        self.given()
        self.numbers()
        self.alone_bound()
        self.known_lengths()
        self.after_losses()
        if not self.is_denied(entry.acts):
            self.holds("within the limit", self.weights(old, entry) <= limits.max_total or not self.writes(entry))
            self.holds("few are evicted", sum(act._name == "Evicted" for act in entry.acts) <= 2)
            self.one_key(old, t, entry)
            self.evictions(old, t, entry)
            self.frames(old, t, entry)
        self.rests_on(old)
        self.entries.insert(0, entry)

    def writes(self, entry):
        return entry.event._name in ("Head", "Piece")

    def family(self, x):
        joined = of(self.W[x].joined)
        return x if joined is None else joined

    def place(self, c):
        return self.K[c].place

    def bound_to(self, r):
        return [c for c in self.K if self.place(c)._name == "Bound" and self.place(c).args()[0] == r]

    def owners(self):
        t = self.t
        owners = collections.Counter(of(k.own) for k in self.K.values() if of(k.own) is not None)
        self.holds("own: one", all(n == 1 for n in owners.values()))
        for x, w in self.W.items():
            k = self.K[w.c]
            if w.need._name == "Validate":
                self.holds("own: validates", not self.requests[0](k.request))
            if w.is_open and of(w.head) is None:
                p = k.place
                way = "Direct" if w.need._name in ("Disabled", "TimedOut", "Unsatisfied") else "Hole" if w.need._name == "Hole" else "Turn"
                self.holds("own: waiting " + way, of(k.own) == x and ((way == "Direct" and p._name == "Direct" and p.args()[0] == x)
                    or (way == "Turn" and p._name == "Turn" and p.args()[0] == x)
                    or (way == "Hole" and p._name == "Bound" and p.args()[0] == of(w.aim))))

    def owning(self):
        t = self.t
        for c, k in self.K.items():
            p = k.place
            if p._name == "Passed":
                self.holds("own: plain", not self.requests[0](k.request))
            if p._name == "Bound" and p.args()[3]._name == "FirstHole":
                y = p.args()[3].args()[0]
                self.holds("own: first own", self.W[y].c == c)
            if p._name == "Direct" and not k.shown:
                w = self.W[p.args()[0]]
                self.holds("own: past", of(w.head) is not None or (of(k.own) == p.args()[0] and w.is_open))
            own = of(self.own_open(t, k))
            if own is not None:
                self.holds("own: reads", p._name in ("Bound", "Direct") or (p._name == "Turn" and p.args()[0] == own and of(self.W[own].head) is None))
                if p._name == "Direct":
                    self.holds("own: direct", p.args()[0] == own)
            if of(k.own) is not None:
                self.holds("own: apart", not any(self.is_written(t, v) and of(v.writer) == of(k.own) for v in self.V.values()))
            if p._name == "Bound":
                lo, hi = p.args()[1], of(p.args()[2])
                v = self.V[p.args()[0]]
                total = of(v.head.total)
                if hi is not None:
                    self.holds("own: hi total", total is not None and hi <= total)
                if total is not None:
                    self.holds("own: offset", self.offset(t, k) <= (hi if hi is not None else total))

    def promised(self):
        for x, w in self.W.items():
            if w.is_open and of(w.head) is not None and self.family(x) in self.V:
                v = self.V[self.family(x)]
                n, total = of(self.promised_bytes(w)), of(v.head.total)
                if n is None:
                    self.holds("own: untold", total is None and self.base(w) == 0 and v.reach == len(w.body) and self.family(x) == x)
                else:
                    self.holds("own: told", total is not None and self.base(w) + n <= total)

    def writing_alone(self):
        t = self.t
        for r, v in self.V.items():
            for c in self.bound_to(r):
                k = self.K[c]
                first = not v.is_lost and self.came_alone(t, k.place)
                pen = first or (v.is_lost and of(v.alone) == c)
                if pen and of(k.own) is not None:
                    w = self.W[of(k.own)]
                    start = (w.need.args()[0] if w.need._name == "Hole" else 0) if of(w.head) is None else self.front(w)
                    self.holds("pen: covered", all(of(v.body(p)) is not None for p in range(self.offset(t, k), start)))
                if v.is_lost and of(v.alone) == c:
                    self.holds("pen: own", of(k.own) is not None)
                if first and of(k.due) is None and of(k.own) is None and not self.is_written(t, v):
                    hi = of(self.hi_of(t, k.place))
                    self.holds("pen: rested", hi is not None and all(of(v.stored(p)) is not None for p in range(self.offset(t, k), hi)))

    def founded_alone(self):
        t = self.t
        for r, v in self.V.items():
            total = of(v.head.total)
            if total is not None:
                self.holds("own: reach", v.reach <= total)
            if v.reach > 0:
                self.holds("own: tight", of(v.body(v.reach - 1)) is not None)
            if r in self.W:
                self.holds("own: founders", of(self.W[r].joined) is None)
            if not v.is_lost:
                for c in self.bound_to(r):
                    k = self.K[c]
                    if self.came_alone(t, k.place) and of(k.due) is None:
                        self.holds("own: all undue", all(of(self.K[d].due) is None for d in self.bound_to(r)))
                        hi = of(self.hi_of(t, k.place))
                        if of(k.own) is None and not self.is_written(t, v):
                            off = self.offset(t, k)
                            self.holds("own: first has own or rest", all(of(v.stored(p)) is not None for p in range(off, hi)))
            if v.is_lost and of(v.alone) in self.bound_to(r):
                k = self.K[of(v.alone)]
                x = of(k.own)
                if x is not None and self.W[x].is_open and of(self.W[x].head) is None:
                    self.holds("own: alone at its hole", self.W[x].need.args()[0] == self.offset(t, k))

    def numbered(self):
        t = self.t
        for rows in (self.W, self.V, self.K):
            self.holds("each number has a row", None not in rows.values())
        self.holds("each stands once", all(len(set(ns)) == len(ns) for ns in (t.openings, t.founded, t.starts))
                   and sorted(t.used) == sorted(t.founded))
        keys = collections.Counter(bytes(v.key) for v in self.V.values() if not v.is_gone)
        self.holds("one current", all(n == 1 for n in keys.values()))

    def exchange(self, x, w):
        self.holds("opened for who started", w.c in self.K)
        self.holds("of its consumer's key", w.request.key == self.K[w.c].request.key)
        for number in (of(w.aim), of(w.joined)):
            if number is not None:
                self.holds("about what was founded", number in self.V)
                self.holds("about what is of its key", self.V[number].key == w.request.key)
        if of(w.head) is None:
            self.holds("headless", not w.body and of(w.joined) is None and x not in self.V)
        if w.is_open and of(w.head) is None:
            self.holds("headless is own", of(self.K[w.c].own) == x)

    def representation(self, r, v):
        t, on, bound = self.t, self.is_written(self.t, v), self.bound_to(r)
        body = {p for p in range(v.reach + 3) if of(v.body(p)) is not None}
        stored = {p for p in range(v.reach + 3) if of(v.stored(p)) is not None}
        self.holds("ends", all(p < v.reach for p in body))
        self.holds("stored is body", all(v.stored(p) == v.body(p) for p in stored) and (v.is_lost or stored == body))
        self.holds("is counted", v.size == len(stored))
        self.holds("lost is gone", v.is_gone or not v.is_lost)
        self.holds("nobody alone", v.is_lost or of(v.alone) is None)
        self.holds("one about", len(self.about[r]) <= 1)
        self.holds("has bound", bound or not on)
        total = of(v.head.total)
        if r in self.W:
            self.holds("founded is of the key", self.W[r].request.key == v.key)
        if on:
            x = of(v.writer)
            promised = of(self.promised_bytes(self.W[x]))
            self.holds("growing", stored == set(range(v.reach)) and self.front(self.W[x]) == v.reach and self.family(x) == r
                       and total == (None if promised is None else self.base(self.W[x]) + promised))
        for x in self.about[r]:
            self.waits(x, body)
        pens = self.pens(r, v, bound)
        for c in bound:
            self.reader(r, v, c, on, pens, stored)
        for x in self.about[r]:
            self.holds("had", (on and of(v.writer) == x) or any(
                c in bound and of(self.own_open(t, self.K[c])) == x and of(self.K[c].due) is None for c in pens))
        if of(v.alone) in bound and of(self.K[of(v.alone)].due) is None:
            self.alone(v, of(v.alone))
        if not v.is_gone and (total is None or on):
            self.holds("is read", bool(bound))

    def waits(self, x, body):
        w = self.W[x]
        if of(w.head) is None:
            lo, hi = w.need.args()
        else:
            promised = of(self.promised_bytes(w))
            lo, hi = self.front(w), None if promised is None else self.base(w) + promised
        self.holds("what is to come is absent", not any(lo <= p and (hi is None or p < hi) for p in body))

    def pens(self, r, v, bound):
        first = [c for c in bound if self.came_alone(self.t, self.place(c))]
        self.holds("one first", len(first) <= 1)
        return ([] if of(v.alone) is None else [of(v.alone)]) if v.is_lost else first

    def reader(self, r, v, c, on, pens, stored):
        k = self.K[c]
        offset, hi = self.offset(self.t, k), of(self.hi_of(self.t, k.place))
        self.holds("reads its key", v.key == k.request.key)
        self.holds("known end", of(k.place.args()[2]) is not None or not self.came_alone(self.t, k.place))
        own = of(self.own_open(self.t, k))
        self.holds("own about", own is None or own in self.about[r])
        self.holds("undue", of(k.due) is None or not on)
        if of(k.due) is None:
            self.holds("served", on or c in pens or hi is not None and all(p in stored for p in range(offset, hi)))
        if not k.shown:
            by = k.place.args()[3]
            waits = by._name == "FirstHole" and own == by.args()[0] and of(self.W[own].head) is None
            self.holds("to be shown", by._name == "Founding" or waits
                       or by._name == "FirstHole" and bool(self.has_joined(self.t.exchange(by.args()[0]))))

    def alone(self, v, c):
        k = self.K[c]
        self.holds("alone has its own", of(k.own) is not None)
        offset, front = self.offset(self.t, k), self.front(self.W[of(k.own)])
        self.holds("alone is covered", all(of(v.body(p)) is not None for p in range(offset, front)))
        self.holds("alone ahead", all(v.stored(p) == v.body(p) for p in range(max(offset, front), v.reach + 1)))

    def consumer(self, c, k):
        place = k.place
        if place._name not in ("Bound", "Direct"):
            self.holds("nothing due", of(k.due) is None)
        own = of(k.own)
        if own is not None:
            self.holds("own is of its key", self.W[own].request.key == k.request.key)
        if place._name == "Bound":
            self.holds("bound to what was founded", place.args()[0] in self.V)
        if place._name == "Passed":
            r = place.args()[0]
            self.holds("has passed", of(self.current(self.t, k.request.key)) == r and not any(f(k.request) for f in self.requests)
                       and bool(self.matches(self.V[r].head, k.request)))
        if place._name in ("Bound", "Direct"):
            move = self.move_of(self.t, self.t.moment, 1, c, k)
            self.holds("who reads waits for nobody", move._name != "Waits" or move.args()[0]._name not in ("Turn", "Busy"))

    def turns(self):
        holders = collections.Counter(bytes(k.request.key) for k in self.K.values() if k.place._name == "Turn")
        self.holds("one turn", all(n == 1 for n in holders.values()))
        for x, w in self.W.items():
            if w.is_open and of(w.head) is None and w.need._name in TURNS:
                self.holds("the turn waits", of(self.turn(self.t, w.request.key)) == w.c and self.place(w.c).args() == (x,))
        for c, k in self.K.items():
            if k.place._name in ("Line", "Turn", "Passed"):
                move = self.move_of(self.t, self.t.moment, 1, c, k)
                waits = move.args()[0] if move._name == "Waits" else None
                if of(self.turn(self.t, k.request.key)) == c:
                    self.holds("the turn goes", waits is None or waits._name != "Turn")
                if waits is not None and waits._name == "Busy":
                    self.holds("busy reads", self.place(waits.args()[0])._name == "Bound")

    def dooms(self, old, entry):
        key = None if self.is_denied(entry.acts) else of(self.doomed_key_of(old, entry))
        if key is not None:
            self.barrier[bytes(key)] = old.opened
        for r, v in self.V.items():
            self.holds("behind dooms", v.is_gone or self.barrier.get(bytes(v.key), 0) < r)
        for x, w in self.W.items():
            if w.is_open and of(w.head) is None and (w.need._name in TURNS or w.need._name == "Hole" and not self.K[w.c].shown):
                self.holds("awaited behind dooms", self.barrier.get(bytes(w.request.key), 0) < x)

    def places(self):
        """What holds of a consumer by where it stands, and of the exchange that it reads past the store."""
        t = self.t
        for c, k in self.K.items():
            name, args, own, due = k.place._name, k.place.args(), of(k.own), of(k.due)
            self.holds("place: told", due is None or due._name != "StoreRead")
            if name in ("Line", "Passed", "Turn", "Down"):
                self.holds("place: idle", not k.shown and k.given == 0 and due is None)
            if name in ("Line", "Passed"):
                self.holds("place: idle own " + name, of(self.own_open(t, k)) is None)
                self.holds("place: none own", name == "Passed" or own is None)
            if name == "Turn":
                w = self.W[args[0]]
                self.holds("place: turn", own == args[0] and w.c == c and w.is_open and of(w.head) is None and w.need._name in TURNS)
            if name == "Down":
                self.holds("place: down own", of(self.own_open(t, k)) is None)
                self.holds("place: down told", args[0]._name != "StoreRead")
            if name == "Over":
                self.holds("place: over own", of(self.own_open(t, k)) is None)
            if name == "Direct":
                self.direct(c, k, args[0], due)
            if name == "Bound":
                self.holds("place: bound unshown", k.shown or k.given == 0)
                v = self.V[args[0]]
                self.holds("place: bound given", all(of(v.body(p)) is not None for p in range(args[1], args[1] + k.given)))
                self.holds("place: bound lo", args[1] + k.given <= v.reach or k.given == 0)
            if self.requests[1](k.request):
                self.holds("place: disabled", name in ("Line", "Direct", "Down", "Over"))
            if self.requests[2](k.request):
                self.holds("place: only", name in ("Line", "Bound", "Over"))
        for x, w in self.W.items():
            k, n = self.K[w.c], of(self.promised_bytes(w))
            self.holds("exchange: received", len(w.body) <= t.received)
            self.holds("exchange: promised", n is None or len(w.body) <= n)
            self.holds("exchange: unreached", n is None or not w.is_open or len(w.body) != n)
            self.holds("exchange: small", n is None or self.base(w) + n <= 1 << 62)
            self.holds("exchange: live", not w.is_open or k.place._name != "Over" or self.family(x) in self.V)
            self.holds("exchange: ended", not (w.is_ended and w.is_open))
            if w.is_open and of(w.head) is not None and self.family(x) not in self.V:
                self.holds("exchange: direct", k.place._name == "Direct" and k.place.args()[0] == x)

    def orders(self):
        """Numbers rise, and each stands once."""
        t = self.t
        for name, numbers, last in (("starts", t.starts, t.last_start), ("openings", t.openings, t.opened)):
            self.holds("order: " + name, all(a > b for a, b in zip((last + 1,) + numbers, numbers)))
        for name, numbers in (("founded", t.founded), ("used", t.used)):
            self.holds("order: " + name, len(set(numbers)) == len(numbers) and set(numbers) == set(self.V))

    def endings(self):
        """Of an answer past the store that is over without a failure all came."""
        for k in self.K.values():
            if k.place._name == "Direct" and of(k.due) is None:
                w = self.W[k.place.args()[0]]
                self.holds("ending: past", w.is_open or of(self.hi_of(self.t, k.place)) == self.front(w))

    def whose(self):
        """Whose an open exchange is, and what who owns one is about to do."""
        t = self.t
        for x, w in self.W.items():
            owners = [c for c, k in self.K.items() if of(k.own) == x]
            self.holds("whose: for it, or alone", all(c == w.c or self.family(x) in self.V and of(self.V[self.family(x)].alone) == c for c in owners))
            if not w.is_open:
                continue
            r = self.family(x)
            if r not in self.V:
                self.holds("whose: own", owners == [w.c] and self.place(w.c)._name != "Over")
                continue
            v = self.V[r]
            written = self.is_written(t, v) and of(v.writer) == x
            self.holds("whose: written or bound", written != (len(owners) == 1 and owners[0] in self.bound_to(r)))
        for k in self.K.values():
            own = of(self.own_open(t, k))
            self.holds("whose: stands", own is None or k.place._name in ("Turn", "Direct", "Bound"))
            if k.place._name == "Passed" and of(k.place.args()[1]) is None:
                self.holds("whose: passed", of(k.own) is None)
        for r, v in self.V.items():
            bound = self.bound_to(r)
            self.holds("whose: unbound", bound or not self.about[r])
            if self.is_written(t, v):
                self.holds("whose: writer's key", self.K[self.W[of(v.writer)].c].request.key == v.key)

    def passed(self):
        """Who waits for a body waits for what is current; whoever kept a 304 owned the exchange that brought it."""
        for k in self.K.values():
            if k.place._name == "Passed":
                r, kept = k.place.args()[0], of(k.place.args()[1])
                v = self.V[r]
                self.holds("passed: current", not v.is_gone and v.key == k.request.key and of(self.current(self.t, v.key)) == r)
                self.holds("passed: kept", kept is None or of(k.own) == kept and not self.W[kept].is_open)
                self.holds("passed: own", of(k.own) == kept)

    def aims(self):
        """What an exchange is about, by its need, and that what it joined is that."""
        for x, w in self.W.items():
            need, aim, joined = w.need._name, of(w.aim), of(w.joined)
            if need in ("Vary", "Validate", "Hole", "Unsatisfied"):
                self.holds("aim: there " + need, aim in self.V and self.V[aim].key == w.request.key)
            if need == "Miss":
                self.holds("aim: none", aim is None)
            if need == "Bypass":
                self.holds("aim: bypassed " + ("one" if aim in self.V else "none"), aim is None or self.V[aim].is_gone)
            self.holds("aim: joined", joined is None or joined == aim and need == "Hole")
        for k in self.K.values():
            if k.place._name == "Bound" and k.place.args()[3]._name == "FirstHole":
                self.holds("aim: first hole", of(self.W[k.place.args()[3].args()[0]].aim) == k.place.args()[0])

    def given(self):
        """What a reader was given stands in the body, and not past its end."""
        for k in self.K.values():
            if k.place._name == "Bound":
                r, lo, hi, _ = k.place.args()
                v, end = self.V[r], of(self.hi_of(self.t, k.place))
                self.holds("given: covered", all(of(v.body(p)) is not None for p in range(lo, lo + k.given)))
                self.holds("given: reach", k.given == 0 or lo + k.given <= v.reach)
                self.holds("given: end", end is None or lo <= end and lo + k.given <= end)
                self.holds("given: open end", of(hi) is not None or lo == 0)
                self.holds("given: lo", of(hi) is None or lo < of(hi) or lo == of(hi) == 0)

    def numbers(self):
        """Numbers are what heads can tell, or what was received."""
        t = self.t
        most = max(1 << 62, t.received)
        for r, v in self.V.items():
            total = of(v.head.total)
            self.holds("numbers: total", total is None or total < 1 << 62 or total <= t.received)
            self.holds("numbers: reach", v.reach <= most)
        for w in self.W.values():
            n = of(self.promised_bytes(w))
            self.holds("numbers: promise", self.base(w) + n <= 1 << 62 if n is not None else self.base(w) == 0)
            self.holds("numbers: front", self.front(w) <= most)
        for k in self.K.values():
            if k.place._name == "Bound":
                lo, hi = k.place.args()[1], of(k.place.args()[2])
                self.holds("numbers: bound", lo <= most and (hi is None or hi <= most))

    def alone_bound(self):
        """Who writes alone is the only one that is bound."""
        t = self.t
        for r, v in self.V.items():
            c = of(self.exclusive(t, r, v))
            if v.is_lost:
                continue
            if c is not None:
                self.holds("alone: bound", self.bound(t, r) == (c,))
                self.holds("alone: came", self.came_alone(t, self.place(c)))
            for d in self.bound_to(r):
                k = self.K[d]
                if self.came_alone(t, k.place) and of(k.due) is None and not self.is_written(t, v):
                    hi, offset = of(self.hi_of(t, k.place)), self.offset(t, k)
                    lacks = any(of(v.stored(p)) is None for p in range(offset, hi))
                    self.holds("alone: writes", (c == d) == (of(self.own_open(t, k)) is not None or lacks))

    def rests_on(self, old):
        """Until it is lost: whoever came alone and has nothing more to come has nothing more ever after. What somebody is bound to and
        nobody writes alone, nobody writes alone ever after."""
        t = self.t
        for r, v in self.V.items():
            was = of(old.representation(r))
            if was is None or v.is_lost:
                continue
            if self.bound(old, r) and of(self.exclusive(old, r, was)) is None:
                self.holds("rests: nobody writes alone", of(self.exclusive(t, r, v)) is None)
            for c in self.bound_to(r):
                k, before = self.K[c], of(old.consumer(c))
                if c in self.bound(old, r) and self.came_alone(old, before.place) and of(k.due) is None and not self.has_more(old, was, before):
                    self.holds("rests: has nothing more", not self.has_more(t, v, k))

    def known_lengths(self):
        """What isn't gone has a known length, or is being written."""
        t = self.t
        for r, v in self.V.items():
            if v.is_gone:
                continue
            total = of(v.head.total)
            growing = any(self.W[x].is_open and self.family(x) == r for x in self.W)
            self.holds("length: known", total is not None or growing and self.is_written(t, v) and of(v.writer) == r)
            self.holds("length: growing", growing == any(of(self.W[x].head) is not None for x in self.about[r]))

    def after_losses(self):
        """What is held for who goes on alone came of its own exchange."""
        t = self.t
        for r, v in self.V.items():
            if not v.is_lost or of(v.alone) not in self.bound_to(r):
                continue
            c = of(v.alone)
            k = self.K[c]
            x = of(k.own)
            w, offset = self.W[x], self.offset(t, k)
            base, front = self.base(w), self.front(w)
            fresh = [p for p in range(offset, v.reach) if of(v.stored(p)) is None and of(v.body(p)) is not None]
            self.holds("loss: of its own", all(of(v.body(p)).x == x for p in fresh))
            self.holds("loss: one stretch", not fresh or fresh == list(range(fresh[0], front)))
            self.holds("loss: family", of(w.head) is None or self.family(x) == r)
            self.holds("loss: its bytes", all(base <= p and of(v.body(p)).byte == w.body[p - base] for p in fresh))
            for n in (1, 3, 1000):
                got = of(self.run_held_for(t, c, k, n))
                if of(v.stored(offset)) is None:
                    brought = w.body[offset - base:][:n] if offset >= base else ()
                    self.holds("loss: held", (got is None and not brought) or got is not None and
                               (got.x, got.at, tuple(got.bytes)) == (x, offset, tuple(brought)))

    def direct(self, c, k, x, due):
        w = self.W[x]
        self.holds("direct: own", of(k.own) == x and w.c == c)
        self.holds("direct: apart", of(w.joined) is None)
        self.holds("direct: unfounded", x not in self.V)
        self.holds("direct: within", k.given <= len(w.body))
        if of(w.head) is None:
            self.holds("direct: unheard", w.is_open and not k.shown and len(w.body) == 0 and due is None)
        if not k.shown:
            self.holds("direct: ungiven", k.given == 0)
        if not w.is_open and due is None:
            n = of(self.promised_bytes(w))
            self.holds("direct: finished", len(w.body) == n if n is not None else w.is_ended)
        if due is not None:
            self.holds("direct: due over", due is None or not w.is_open)

    def left(self, limits):
        """What makes that a store may begin with what is left."""
        t, delivered = self.t, {}
        for x, w in self.W.items():
            self.holds("left: opened by now", w.opened <= t.moment)
            if of(w.joined) is not None:
                self.holds("left: joined by its tag", of(self.V[of(w.joined)].head.joining) is not None)
        for r, v in self.V.items():
            cells = [cell for cell in (of(v.body(p)) for p in range(v.reach)) if cell is not None]
            self.holds("left: a number", 0 < r <= t.opened)
            for x in {cell.x for cell in cells}:
                self.holds("left: given out", 0 < x <= t.opened)
                self.holds("left: of one body", delivered.setdefault(x, r) == r)
                self.holds("left: of its own number", x == r or x not in self.V)
                self.holds("left: of its family", x not in self.W or self.family(x) == r and of(self.W[x].head) is not None)
            self.holds("left: not too large", v.size <= limits.max_entry)
            self.head_left(r, v, cells)

    def head_left(self, r, v, cells):
        head, names = v.head, [bytes(f[0]) for f in v.head.fields]
        self.holds("left: moments", head.requested <= head.answered <= self.t.moment)
        self.holds("left: no length", b"content-length" not in names and b"content-range" not in names)
        self.holds("left: modest", len(names) <= 64 and sum(len(f[0]) + len(f[1]) for f in head.fields) <= 32768)
        if of(head.joining) is None:
            self.holds("left: whole alone", head.status != 206 and all(cell.x == r for cell in cells))
            comes = not v.is_lost and of(v.writer) == r and r in self.W and self.W[r].is_open
            self.holds("left: comes or is all there", v.is_gone or comes or len(cells) == of(head.total))

    def evictions(self, old, new, entry):
        """What makes room comes last."""
        gone = tuple(act.args()[0] for act in entry.acts if act._name == "Evicted")
        if not gone:
            return
        flaw = self.flaw_in(entry.acts)
        left = entry.with_fields(acts=tuple(self.unevicting(old, entry.now, entry.event, flaw)))
        self.holds("evicted: acts", not any(act._name == "Evicted" for act in left.acts))
        owed = self.evict_all(gone, self.after_accepted(old, left))
        self.holds("evicted: lists", all(getattr(owed, name) == getattr(new, name) for name in ("moment", "starts", "openings", "founded", "used")))
        self.holds("evicted: exchanges", all(same(new.exchange(x), owed.exchange(x)) for x in new.openings))
        self.holds("evicted: representations", all(same_row(of(new.representation(r)), of(owed.representation(r))) for r in new.founded))
        self.holds("evicted: consumers", all(of(new.consumer(c)) == of(owed.consumer(c)) for c in new.starts))

    def frames(self, old, new, entry):
        """What an entry doesn't speak of stays."""
        for r in old.founded:
            if not self.speaks_of(old, entry, r):
                self.holds("frames: representations", same_row(of(new.representation(r)), of(old.representation(r))))
        for x in old.openings:
            if not self.speaks_of_exchange(entry, x):
                self.holds("frames: exchanges", same(new.exchange(x), old.exchange(x)))
        for c in old.starts:
            if not self.is_event_for(old, c, entry.event):
                k = of(old.consumer(c))
                over = self.starts_over(old, entry, c, k)
                owed = self.back_in_line(entry.now, k) if over else self.beside(old, entry, c, k)
                self.holds("frames: consumers", of(new.consumer(c)) == owed)

    def one_key(self, old, new, entry):
        for x in old.openings:
            if not self.concerns_exchange(old, entry.event, x):
                self.holds("one key: exchanges", same(new.exchange(x), old.exchange(x)))
        for r in old.founded:
            if not self.concerns_representation(old, entry.event, r):
                v = of(old.representation(r))
                gone = self.evicts_in(r, entry.acts)
                self.holds("one key: representations", same_row(of(new.representation(r)), v.with_fields(is_gone=True) if gone else v))
        for c in old.starts:
            if not self.concerns_consumer(old, entry.event, c):
                k = of(old.consumer(c))
                owed = self.back_in_line(entry.now, k) if self.loses(entry.acts, k.place) else k
                self.holds("one key: consumers", of(new.consumer(c)) == owed)

    def whole(self, t):
        """Filters and reads of the whole history, in which `tables` gives those that were met."""
        h, contents = tuple(self.entries), self.contents
        for x in t.openings:
            w = of(t.exchange(x))
            self.holds("filters: openings", self.opened_in(w) == of(self.opening_of(x, h)))
            self.holds("filters: heads", self.answered_in(w) == self.head_of(x, h))
            self.holds("filters: bodies", w.body == self.delivered_of(x, h))
            self.holds("filters: ends", w.is_ended == self.has_ended(x, h))
            self.holds("filters: joins", w.joined == self.joined_of(contents, x, h))
        for c in t.starts:
            k = of(t.consumer(c))
            self.holds("filters: requests", k.request == of(self.request_of(c, h)))
            self.holds("filters: starts", k.since == of(self.since_of(contents, c, h)))
            self.holds("filters: offsets", k.given == len(self.given_of(c, h)))
            self.holds("filters: shown", k.shown == (len(self.shown_of(c, h)) == 1) and len(self.shown_of(c, h)) <= 1)
            self.holds("reads its body", self.reads_body(t, self.shown_of(c, h), self.given_of(c, h)))
        for r in t.founded:
            v, begun = of(t.representation(r)), self.begun_with(contents, r)
            self.holds("filters: losses", v.is_lost == self.was_lost(contents, r, h))
            for cells, runs in ((v.body, self.pieces_of(contents, r, h)), (v.stored, self.stored_of(contents, r, h))):
                over = self.over(runs, begun)
                self.holds("filters: pieces", all(cells(p) == over(p) for p in range(v.reach + 2)))
        self.holds("reads whole", bool(self.ReadsEach(contents, h)))

    def reads_body(self, t, shown, given):
        cells = [of(self.body_of(t, shown[0].r, shown[0].lo + i)) for i in range(len(given))] if shown else []
        return [cell.byte for cell in cells if cell is not None] == list(given)


def same(a, b):
    return a == b


def same_row(a, b):
    """Equal but for functions, which are equal at each position that they have."""
    for name in a._fields:
        x, y = getattr(a, name), getattr(b, name)
        if callable(x) and callable(y):
            if any(x(p) != y(p) for p in range(max(a.reach, b.reach) + 1)):
                return False
        elif x != y:
            return False
    return True
