"""The entries of a report, one by one: what the cache did at each event."""
import re

import grammar

N = rb"(?:0|[1-9][0-9]{0,18})"
NEED = re.compile(rb"(?:disabled|timed-out|bypass|miss|vary|validate|unsatisfied|hole:(%s)-(%s))\Z" % (N, N))
WHY = re.compile(rb"(?:(?:fetched|validated):%s|(?:fresh|stale):%s/%s)\Z" % (N, N, N))
CAUSE = re.compile(rb"(?:(?:net|changed|store-write|store-read|bad-head):%s|short:%s:%s/%s|miss)\Z" % (N, N, N, N))
WAIT = re.compile(rb"(turn|busy|head|body):(%s)\Z" % N)
LOSSES = (b"fault", b"too-large", b"full")
MOST_REASON, TOLD = 11, (1, 11)  # the reasons of a denial, and those that tell a number
MOST_BYTES = 65_536
MOST_FIELD_BYTES = 65_536


class Act:
    """One thing that the cache did, with the line where it is told."""

    __slots__ = ("kind", "line", "c", "x", "r", "why", "need", "hole", "method", "status", "lo", "hi",
                 "at", "size", "wait", "whom", "fields")

    def __init__(self, kind, line):
        self.kind, self.line, self.fields = kind, line, ()
        self.c = self.x = self.r = self.why = self.need = self.hole = self.method = self.status = None
        self.lo = self.hi = self.at = self.wait = self.whom = None
        self.size = 0


class Entry:
    def __init__(self, n, line):
        self.n, self.line, self.acts, self.said = n, line, [], []


def matched(pattern, word):
    found = pattern.match(word)
    if not found:
        raise ValueError(f"'{grammar.shown(word[:40])}' isn't known there")
    return found


def opened(act, line):
    words = grammar.words_of(line, 7)
    act.x, act.c = grammar.number(words[1]), grammar.number(words[2])
    found = matched(NEED, words[3])
    act.need, act.method = grammar.shown(words[3]).split(":")[0], grammar.method(words[4])
    act.hole = (int(found[1]), int(found[2])) if found[1] else None
    if act.hole and act.hole[0] >= act.hole[1]:
        raise ValueError("the hole is empty")
    grammar.target(words[5])
    return grammar.number(words[6])


def of_exchange(act, line):
    act.x = grammar.number(grammar.words_of(line, 2)[1])
    return 0


def shown(act, line):
    words = grammar.words_of(line, 8)
    act.c, act.r = grammar.number(words[1]), grammar.number(words[2])
    act.why = grammar.shown(matched(WHY, words[3])[0])
    act.status, act.lo = grammar.number(words[4], 200, 599), grammar.number(words[5])
    act.hi = None if words[6] == b"-" else grammar.number(words[6])
    return grammar.number(words[7])


def data(act, line):
    words = grammar.words_of(line, 5)
    act.c, act.x, act.at = (grammar.number(word) for word in words[1:4])
    act.size = grammar.count_of_bytes(words[4], MOST_BYTES)
    return 0


def ended(act, line):
    act.c = grammar.number(grammar.words_of(line, 2)[1])
    return 0


def failed(act, line):
    words = grammar.words_of(line, 3)
    act.c, act.why = grammar.number(words[1]), grammar.shown(matched(CAUSE, words[2])[0])
    return 0


def pending(act, line):
    words = grammar.words_of(line, 3)
    found = matched(WAIT, words[2])
    act.c, act.wait, act.whom = grammar.number(words[1]), grammar.shown(found[1]), int(found[2])
    return 0


def lost(act, line):
    words = grammar.words_of(line, 3)
    act.r, act.why = grammar.number(words[1]), grammar.one_of(words[2], LOSSES)
    return 0


def evicted(act, line):
    act.r = grammar.number(grammar.words_of(line, 2)[1])
    return 0


def denied(act, line):
    reason = grammar.number(line.split(b" ")[1] if b" " in line else b"", 1, MOST_REASON)
    words = grammar.words_of(line, 3 if reason in TOLD else 2)
    act.why = str(reason)
    for told in words[2:]:
        grammar.number(told)
    return 0


# Each reads the words of its line into the act, and answers how many field lines follow.
KINDS = {"open": opened, "ask": of_exchange, "close": of_exchange, "shown": shown, "data": data, "ended": ended,
         "failed": failed, "pending": pending, "lost": lost, "evicted": evicted, "denied": denied}


def read_act(lines, line, said):
    """The act that begins at this line, or None where the text ends before its last field line."""
    kind = line.split(b" ", 1)[0].decode("latin-1")
    try:
        if kind not in KINDS:
            raise ValueError(f"'{grammar.shown(line[:40])}' is neither an act nor an entry")
        act = Act(kind, lines.number)
        count = KINDS[kind](act, line)
    except ValueError as error:
        raise lines.refused(str(error)) from None
    act.fields = grammar.read_fields(lines, count, MOST_FIELD_BYTES)
    if act.fields is None:
        return None
    said.append((grammar.with_short_bytes(line) if kind == "data" else grammar.shown(line)) + grammar.text_of_fields(act.fields))
    return act


def entries(lines):
    """The entries of a report. The last one may lack acts where the text is cut short."""
    entry = None
    while (line := lines.next()) is not None:
        if line.startswith(b"> "):
            if entry:
                yield entry
            due = entry.n + 1 if entry else 1
            if line != b"> %d" % due:
                raise lines.refused(f"the entry of event {due} is due, '> {due}'")
            entry = Entry(due, lines.number)
            continue
        if entry is None:
            raise lines.refused("the entry of event 1 is due, '> 1'")
        act = read_act(lines, line, entry.said)
        if act is None:
            lines.is_cut = True
            break
        entry.acts.append(act)
    if entry:
        yield entry
