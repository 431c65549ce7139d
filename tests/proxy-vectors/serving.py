"""The serving loop over a wire that follows a script, written apart from the program.

The cache behind it is a command that reads a schedule and writes its report, as the program does by its word `replay`, or by `open`
behind an image. It is asked anew for each event: the schedule so far, the event, and probes. These are events that are always denied, and change nothing. By
the number of its denial one tells whether an exchange is open and wanted, or a consumer live.
"""
import subprocess

import conditions
import messages

SLICE = 16_384
MOST_CLIENTS = 512


class Wire:
    """Hands out the events of a script: tuples of a moment, a word, a connection and bytes."""

    def __init__(self, script, stalls):
        self.script, self.stalls, self.moment = list(script), dict(stalls), 0
        self.seen, self.open, self.off, self.sent = [], set(), set(), {}

    def next(self):
        while self.script:
            moment, word, k, bytes_ = self.script[0]
            if word == "quiet" or word == "accepted" and k not in self.seen or word != "accepted" and k in self.open:
                break
            self.script.pop(0)
        else:
            return self.moment, "quiet", 0, b""
        if word == "got" and k in self.off:
            return self.moment, "quiet", 0, b""
        self.script.pop(0)
        if len(bytes_) > SLICE:
            self.script.insert(0, (moment, word, k, bytes_[SLICE:]))
        if word == "accepted":
            self.begin(k)
        if word == "room":
            self.stalls.pop(k, None)
        self.moment = moment
        return moment, word, k, bytes_[:SLICE]

    def begin(self, k):
        self.seen.append(k)
        self.open.add(k)
        self.sent[k] = b""

    def dial(self):
        k = max(self.seen, default=0) + 1
        self.begin(k)
        return k

    def send(self, k, bytes_):
        n = min(len(bytes_), self.stalls.get(k, len(bytes_)))
        if k in self.stalls:
            self.stalls[k] -= n
        self.sent[k] += bytes_[:n]
        return n

    def reads(self, k, on):
        (self.off.discard if on else self.off.add)(k)

    def close(self, k):
        self.open.discard(k)


class Core:
    """What the cache answers, by its report, behind an image where there is one."""

    def __init__(self, command, image=b""):
        self.command, self.image, self.text, self.count = command, image, b"", 0
        self.moment, self.last = (int(word) for word in image.split(b"\n")[1].split()[:2]) if image else (0, 0)
        self.exchanges, self.consumers = {}, {}

    def step(self, moment, event):
        """The acts that answer the event, each the words of its line, its field lines behind them."""
        if moment != self.moment:
            self.text += b"at %d\n" % moment
            self.moment = moment
        self.text += event
        self.count += 1
        acts, asked = self.report(list(self.exchanges), list(self.consumers))
        opened = [int(act[0][1]) for act in acts if act[0][0] == b"open"]
        started = [int(event.split()[1])] if event.startswith(b"start ") else []
        if opened or started:
            acts, asked = self.report([*self.exchanges, *opened], [*self.consumers, *started])
        self.exchanges, self.consumers = asked
        return acts

    def report(self, exchanges, consumers):
        probes = b"".join(b"piece %d -\n" % x for x in exchanges) + b"".join(b"poll %d 0\n" % c for c in consumers)
        ran = subprocess.run(self.command, input=self.image + self.text + probes, stdout=subprocess.PIPE, check=True)
        entries = read_report(ran.stdout)
        told = [int(entry[0][0][1]) for entry in entries[self.count :]]
        return entries[self.count - 1], (dict(zip(exchanges, told)), dict(zip(consumers, told[len(exchanges) :])))

    def is_open(self, x):
        return self.exchanges[x] != 6

    def is_wanted(self, x):
        """It has no head yet, or a piece of it was asked for."""
        return self.exchanges[x] in (8, 10)

    def open_exchanges(self):
        return sorted(x for x in self.exchanges if self.is_open(x))

    def live(self):
        return sorted(c for c, number in self.consumers.items() if number == 5)


def read_report(text):
    """The entries of a report: for each its acts, as words and field lines."""
    entries, lines = [], iter(text.split(b"\n")[:-1])
    for line in lines:
        words = line.split(b" ")
        if words[0] == b">":
            entries.append([])
            continue
        count = int(words[-1]) if words[0] in (b"open", b"shown") else 0
        entries[-1].append((words, [tuple(next(lines).split(b": ", 1)) for _ in range(count)]))
    return entries


class Client:
    def __init__(self):
        self.input, self.owed, self.taken = b"", b"", 0
        self.consumer, self.closing = None, False
        self.old, self.no_body, self.form, self.copy = False, False, None, None

    def is_behind(self):
        return self.taken < len(self.owed)


class Upstream:
    def __init__(self, k, method, text):
        self.k, self.owed, self.taken = k, text, 0
        self.state, self.input, self.ended = ("head", method == b"HEAD"), b"", False


class Loop:
    def __init__(self, wire, core, front=False):
        self.wire, self.core, self.front = wire, core, front
        self.moment, self.starts = core.moment, core.last
        self.clients, self.upstreams, self.owners = {}, {}, {}

    def run(self, turns):
        for _ in range(turns):
            self.turn()

    def turn(self):
        moment, word, k, bytes_ = self.wire.next()
        self.moment, self.acts = max(self.moment, moment), []
        self.handle(word, k, bytes_)
        for x in self.core.open_exchanges():
            self.network(x)
        for k in sorted(self.clients):
            self.start(k)
        for c in self.core.live():
            if not self.clients[self.owners[c]].is_behind():
                self.step(b"poll %d %d\n" % (c, SLICE))
        for words, fields in self.acts:
            self.carry_out(words, fields)
        self.send()

    def step(self, event):
        acts = self.core.step(self.moment, event)
        self.acts += acts
        return acts

    # What came

    def handle(self, word, k, bytes_):
        x = next((x for x, upstream in self.upstreams.items() if upstream.k == k), None)
        if word == "accepted":
            if len(self.clients) < MOST_CLIENTS:
                self.clients[k] = Client()
            else:
                self.wire.close(k)
        elif word == "got":
            (self.clients[k] if x is None else self.upstreams[x]).input += bytes_
        elif word in ("ended", "broke") and x is None:
            self.leave(k)
        elif word == "ended":
            self.upstreams[x].ended = True
        elif word == "broke" and self.core.is_open(x):
            self.step(b"fault %d\n" % x)

    def leave(self, k):
        client = self.clients.pop(k)
        if client.consumer is not None:
            self.step(b"cancel %d\n" % client.consumer)
        self.wire.close(k)

    # What the origin sent

    def network(self, x):
        upstream = self.upstreams[x]
        has_news = upstream.input or upstream.ended or upstream.state[0] == "whole"
        if self.core.is_wanted(x) and has_news:
            self.hand(x, upstream)
        if upstream.ended and self.core.is_open(x):
            found = messages.next_answer(upstream.input, upstream.state)
            if found[0] == "waits":
                self.step((b"end %d\n" if messages.ends_at_close(found[1]) else b"fault %d\n") % x)
            elif found[0] == "fails":
                self.step(b"fault %d\n" % x)

    def hand(self, x, upstream):
        found = messages.next_answer(upstream.input, upstream.state)
        if found[0] in ("tells", "brings"):
            upstream.input, upstream.state = found[2], found[3]
        if found[0] == "tells":
            status, fields = found[1]
            lines = b"".join(name + b": " + value + b"\n" for name, value in fields)
            self.step(b"head %d %d %d\n" % (x, status, len(fields)) + lines)
        elif found[0] == "brings":
            acts = self.step(b"piece %d %s\n" % (x, found[1].hex().encode()))
            if acts and acts[0][0][0] == b"denied":
                self.step(b"fault %d\n" % x)
        elif found[0] == "ends":
            self.step(b"end %d\n" % x)
        elif found[0] == "fails":
            self.step(b"fault %d\n" % x)

    # What clients ask

    def start(self, k):
        client = self.clients[k]
        if not client.input or client.consumer is not None or client.is_behind() or client.closing:
            return
        found = messages.next_request(client.input)
        if found[0] == "fails":
            client.input, client.closing = b"", True
            client.owed += messages.empty_answer(found[1])
        elif found[0] == "tells":
            request, client.input = found[1], found[2]
            self.starts += 1
            client.consumer, client.old, client.form = self.starts, request["old"], None
            client.no_body, client.copy, fields = request["method"] == b"HEAD", None, request["fields"]
            if self.front and conditions.is_fronted(request["method"], fields):
                client.copy, fields = fields, conditions.without_conditions(fields)
            self.owners[self.starts] = k
            lines = b"".join(name + b": " + value + b"\n" for name, value in fields)
            words = (self.starts, request["method"], request["key"], len(fields))
            self.step(b"start %d %s normal %s %d\n" % words + lines)

    # What is done

    def carry_out(self, words, fields):
        if words[0] == b"open":
            x, method, key = int(words[1]), words[4], words[5]
            self.upstreams[x] = Upstream(self.wire.dial(), method, messages.request_text(method, key, fields))
        elif words[0] in (b"shown", b"data", b"ended", b"failed"):
            client = self.clients.get(self.owners[int(words[1])])
            if client is not None:
                self.render(client, words, fields)

    def render(self, client, words, fields):
        if words[0] == b"shown":
            status = int(words[4])
            if client.copy is not None and conditions.holds(client.copy, status, fields):
                client.form = "held"
                client.owed += messages.head_text(304, conditions.told_fields(fields), False)
                return
            plain = client.old or client.no_body or status in (204, 304) or any(n == b"content-length" for n, _ in fields)
            client.form = "plain" if plain else "chunks"
            client.owed += messages.head_text(status, fields, client.form == "chunks")
        elif words[0] == b"data":
            bytes_ = bytes.fromhex(words[4].decode())
            client.owed += {"chunks": messages.chunk_text(bytes_), "held": b""}.get(client.form, bytes_)
        elif words[0] == b"ended":
            client.owed += messages.chunk_text(b"") if client.form == "chunks" else b""
            client.consumer, client.closing = None, client.old
        elif client.form is None:
            status = {b"miss": 504, b"net": 502, b"bad-head": 502}.get(words[2].split(b":")[0], 500)
            client.owed += messages.empty_answer(status)
            client.consumer, client.closing = None, client.old
        else:
            client.consumer, client.closing = None, client.old or client.form != "held"

    def send(self):
        for k, client in sorted(self.clients.items()):
            client.taken += self.wire.send(k, client.owed[client.taken :])
            if client.closing and not client.is_behind():
                del self.clients[k]
                self.wire.close(k)
            else:
                self.wire.reads(k, client.consumer is None and not client.is_behind())
        for x, upstream in self.upstreams.items():
            if self.core.is_open(x):
                upstream.taken += self.wire.send(upstream.k, upstream.owed[upstream.taken :])
                self.wire.reads(upstream.k, self.core.is_wanted(x))
            else:
                self.wire.close(upstream.k)
