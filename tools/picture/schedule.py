"""The events of a schedule, one by one."""
import grammar

LOADS = (b"normal", b"validate", b"bypass", b"skip", b"only", b"disable")
MOST_FIELDS = 64
MOST_BYTES = 65_536


class Event:
    """One event, and what the cache did at it."""

    __slots__ = ("n", "line", "now", "kind", "id", "target", "method", "load", "fields",
                 "status", "size", "text", "acts", "said")

    def __init__(self, n, line, now, kind):
        self.n, self.line, self.now, self.kind = n, line, now, kind
        self.id = self.target = self.method = self.load = self.status = None
        self.fields, self.size, self.text, self.acts, self.said = (), 0, "", (), ""

    @property
    def is_denied(self):
        return bool(self.acts) and self.acts[0].kind == "denied"


def start(event, line):
    words = grammar.words_of(line, 6)
    event.id, event.method = grammar.number(words[1]), grammar.method(words[2])
    event.load, event.target = grammar.one_of(words[3], LOADS), grammar.target(words[4])
    return grammar.number(words[5], 0, MOST_FIELDS)


def poll(event, line):
    words = grammar.words_of(line, 3)
    event.id = grammar.number(words[1])
    grammar.number(words[2], 0, MOST_BYTES)
    return 0


def head(event, line):
    words = grammar.words_of(line, 4)
    event.id, event.status = grammar.number(words[1]), grammar.number(words[2], 200, 599)
    return grammar.number(words[3], 0, MOST_FIELDS)


def piece(event, line):
    words = grammar.words_of(line, 3)
    event.id = grammar.number(words[1])
    event.size = 0 if words[2] == b"-" else grammar.count_of_bytes(words[2], MOST_BYTES)
    return 0


def of_number(event, line):
    event.id = grammar.number(grammar.words_of(line, 2)[1])
    return 0


def doom(event, line):
    event.target = grammar.target(grammar.words_of(line, 2)[1])
    return 0


# Each reads the words of its line into the event, and answers how many field lines follow.
KINDS = {"start": start, "poll": poll, "head": head, "piece": piece,
         "end": of_number, "fault": of_number, "cancel": of_number, "doom": doom}


def moment(line, before):
    now = grammar.number(grammar.words_of(line, 2)[1])
    if now < before:
        raise ValueError(f"the moment is below the last one, {before}")
    return now


def events(lines):
    """The events of a schedule. What can't stand where it is is raised, with its line."""
    n, now = 0, 0
    while (line := lines.next()) is not None:
        kind = line.split(b" ", 1)[0].decode("latin-1")
        try:
            if kind == "at":
                now = moment(line, now)
                continue
            if kind not in KINDS:
                raise ValueError(f"'{grammar.shown(line[:40])}' is no event")
            n += 1
            event = Event(n, lines.number, now, kind)
            count = KINDS[kind](event, line)
        except ValueError as error:
            raise lines.refused(str(error)) from None
        event.text = grammar.with_short_bytes(line) if kind == "piece" else grammar.shown(line)
        if count:
            event.fields = grammar.read_fields(lines, count)
            if event.fields is None:
                raise cut_short(lines)
            event.text += grammar.text_of_fields(event.fields)
        yield event
    if lines.is_cut:
        raise cut_short(lines)


def cut_short(lines):
    """The text ends within a line, or where field lines are due."""
    return lines.refused("the text is cut short", lines.number + (not lines.is_cut))
