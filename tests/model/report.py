"""The text of acts, and of the entries of a report."""
from events import Act, Asked, Closed, Denied, Ended, Evicted, Failed, Given, Lost, Opened, Pending, Shown
from fields import Fields


def text_of_fields(fields: Fields) -> bytes:
    return b"".join(b"%s: %s\n" % it for it in fields)


def _opened(act: Opened) -> bytes:
    request = act.request
    line = b"open %d %d %s %s %s %d\n" % (act.exchange, act.consumer, act.need.encode(), request.method, request.key, len(request.fields))
    return line + text_of_fields(request.fields)


def _shown(act: Shown) -> bytes:
    high = b"-" if act.high is None else b"%d" % act.high
    told = (act.consumer, act.representation, act.why.encode(), act.status, act.low, high, len(act.fields))
    return b"shown %d %d %s %d %d %s %d\n" % told + text_of_fields(act.fields)


def _denied(act: Denied) -> bytes:
    return b"denied %d\n" % act.reason if act.told is None else b"denied %d %d\n" % (act.reason, act.told)


def text_of_act(act: Act) -> bytes:
    match act:
        case Opened():
            return _opened(act)
        case Asked(number):
            return b"ask %d\n" % number
        case Closed(number):
            return b"close %d\n" % number
        case Shown():
            return _shown(act)
        case Given():
            return b"data %d %d %d %s\n" % (act.consumer, act.exchange, act.at, act.data.hex().encode())
        case Ended(number):
            return b"ended %d\n" % number
        case Failed(number, cause):
            return b"failed %d %s\n" % (number, cause.encode())
        case Pending(number, kind, whom):
            return b"pending %d %s:%d\n" % (number, kind.encode(), whom)
        case Lost(number, kind):
            return b"lost %d %s\n" % (number, kind.encode())
        case Evicted(number):
            return b"evicted %d\n" % number
        case Denied():
            return _denied(act)


def text_of_entry(number: int, acts: list[Act]) -> bytes:
    return b"> %d\n" % number + b"".join(text_of_act(it) for it in acts)
