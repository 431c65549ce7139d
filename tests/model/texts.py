"""The text of events, as a schedule has it."""
from events import Cancel, Doom, End, Event, Fault, Head, Piece, Poll, Start
from report import text_of_fields


def text_of_event(event: Event) -> bytes:
    match event:
        case Start(number, request):
            told = (number, request.method, request.load.value, request.key, len(request.fields))
            return b"start %d %s %s %s %d\n" % told + text_of_fields(request.fields)
        case Poll(number, want):
            return b"poll %d %d\n" % (number, want)
        case Head(number, status, fields):
            return b"head %d %d %d\n" % (number, status, len(fields)) + text_of_fields(fields)
        case Piece(number, data):
            return b"piece %d %s\n" % (number, data.hex().encode() or b"-")
        case End(number):
            return b"end %d\n" % number
        case Fault(number):
            return b"fault %d\n" % number
        case Cancel(number):
            return b"cancel %d\n" % number
        case Doom(key):
            return b"doom %s\n" % key


def text_of_moment(now: int) -> bytes:
    return b"at %d\n" % now
