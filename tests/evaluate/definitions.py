"""The definitions of specs/ as functions, and what the model has as values of theirs."""
import pathlib
import sys

sys.dont_write_bytecode = True
HERE = pathlib.Path(__file__).resolve().parent
TOP = HERE.parent.parent
sys.path.append(str(HERE.parent / "model"))  # behind this folder

from antt.api import Specs  # noqa: E402
from antt.values import record_class  # noqa: E402
from constants import CONSTANTS  # noqa: E402

import events  # noqa: E402

# Long lists are read by recursion.
sys.setrecursionlimit(100_000)

# The tables of a run that is made are looked up here by its length, and not computed from its first entry on.
MADE = []

SPECS = Specs(TOP / "crates", overrides=CONSTANTS | {
    # its update of a field with the name `kind` can't be read
    "Rattle.hc_record.specs.Head.sealed_head": lambda kind, total, head: head.with_fields(kind=kind, total=total),
    "Rattle.hc_model.specs.Tables.tables": lambda contents, history: MADE[len(history)],
})

some = SPECS.option


def definition(path, crate="hc_model"):
    """A function of all its explicit arguments."""
    return SPECS.function(f"Rattle.{crate}.specs.{path}")


def value(path, crate, *parts):
    """A value, or what a constructor makes of these parts."""
    made = SPECS.value(f"Rattle.{crate}.specs.{path}")
    for part in parts:
        made = made(part)
    return made


def variant(crate, module, kind, name, *parts):
    """A case of a type that the sources declare."""
    return value(f"declared.{module}.{kind}.TheVariants.{name}", crate, *parts)


def record(**fields):
    made = record_class(tuple(fields))
    return made(*[fields[label] for label in made._labels])


def of(option):
    """None, or what is in the Some."""
    return None if option._name == "None" else option.args()[0]


def pair(span):
    return span.lo, span.hi


# What the model has


def bytes_of(text):
    return tuple(text)


def fields_of(fields):
    return tuple((tuple(name), tuple(told)) for name, told in fields)


def plain_fields(fields):
    return tuple((bytes(name), bytes(told)) for name, told in fields)


def span_of(interval):
    return record(lo=interval[0], hi=interval[1])


def request_of(request):
    load = variant("hc_event", "event", "Load", request.load.name.title())
    return record(method=bytes_of(request.method), key=bytes_of(request.key), load=load, fields=fields_of(request.fields))


def response_of(status, fields):
    return record(status=status, fields=fields_of(fields))


def _parts_of(event):
    match event:
        case events.Start(number, request):
            return number, request_of(request)
        case events.Poll(number, want):
            return number, want
        case events.Head(number, status, fields):
            return number, response_of(status, fields)
        case events.Piece(number, data):
            return number, bytes_of(data)
        case events.Doom(key):
            return (bytes_of(key),)
        case events.Cancel(number) | events.End(number) | events.Fault(number):
            return (number,)


def event_of(event):
    return variant("hc_event", "event", "Event", type(event).__name__, *_parts_of(event))


KINDS = {b"G": "Growing", b"W": "Whole", b"T": "Truncated", b"R": "Ranges"}


def head_of(head, total, kind=b"G"):
    """A stored head, with how much of its body is stored."""
    fields = fields_of(head.fields)
    return record(
        kind=variant("hc_record", "kind", "Kind", KINDS[kind]), total=some(total), status=head.status, requested=head.requested,
        answered=head.answered, joining=definition("Head.joining_of", "hc_record")(fields), vary_fields=fields_of(head.asked_with), fields=fields,
    )


def _content_of(item):
    runs = tuple(record(x=run.exchange, at=run.at, bytes=bytes_of(run.data)) for run in item.runs)
    head = head_of(item.record.head, item.record.total, item.record.kind)
    return record(key=bytes_of(item.key), r=item.number, head=head, runs=runs)


def contents_of(contents):
    items = tuple(_content_of(item) for item in contents.items)
    return record(now=contents.now, last_consumer=contents.last, next_exchange=contents.next_exchange, items=items)
