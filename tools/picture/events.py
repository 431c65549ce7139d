"""What each event does to the things of a run ("What each event does" in docs/RULES.md)."""
import cases
import heads
from things import BODY, TURN, WRITER, Consumer, Representation

BEHIND = (TURN, WRITER)


def happen(model, step):
    KINDS[step.event.kind](model, step)


def start(model, step):
    event, key = step.event, model.key_of(step.event.target)
    model.consumers[event.id] = Consumer(event, event.target)
    key.consumers.append(event.id)


def poll(model, step):
    model.consumers[step.event.id].polls += 1


def cancel(model, step):
    """It leaves when its acts are done."""


def head(model, step):
    event, n = step.event, step.n
    exchange = model.exchanges[event.id]
    key = model.key_of(exchange.key)
    current, aim = model.current(key), model.reps.get(exchange.aim)
    is_current = aim is not None and current == exchange.aim
    answer = cases.Answer(exchange, event, aim, model.consumers[exchange.c], is_current, bool(step.lost))
    exchange.headed, exchange.status, exchange.case = n, event.status, cases.case_of(answer)
    exchange.base, exchange.promise = answer.length or (0, None)
    let_go(step, exchange, current)
    if exchange.case in ("DirectTaken", "DirectBad") and event.status < 400 and exchange.method not in cases.SAFE:
        doom_key(model, step, key, f"X{exchange.x} was a {exchange.method}")
    if exchange.case in cases.FOUND:
        found(model, step, exchange, key)
    elif aim and exchange.case in (*cases.JOIN, "Validated"):
        renew(step, exchange, aim)
    if answer.length and exchange.promise == 0:
        exchange.stop(n, "done")
    model.see_whole(exchange, n)
    model.wake_of(exchange.x, n)


def let_go(step, exchange, current):
    """What a head lets go: what the exchange was about, and what was current."""
    case, another = exchange.case, f"X{exchange.x} brought another answer"
    by_aim = {"NotValidated": "a 304 came that isn't about it", "FirstChanged": "the origin has another body",
              "FirstReplaced": another, "FirstPassesBy": another}
    if case == "LaterChanged" and step.event.status < 500:
        by_aim[case] = "the origin has another body"
    if case in by_aim and exchange.aim is not None:
        step.going[exchange.aim] = ("gone", by_aim[case])
    replaces = case in ("FoundsWhole", "FoundsRange", "PassesBy", "FirstReplaced")
    if current is not None and (replaces or case == "FirstPassesBy" and step.lost):
        step.going[current] = ("gone", another)


def found(model, step, exchange, key):
    event = step.event
    total = heads.part_of(event.fields)[2] if heads.brings_part(event.status) else exchange.promise
    rep = Representation(exchange.x, exchange.key, step.n, event.status, event.fields, total)
    model.reps[exchange.x] = rep
    key.reps.append(exchange.x)


def renew(step, exchange, rep):
    rep.fields = heads.updated(rep.fields, step.event.fields)
    if exchange.case == "Validated":
        rep.mark(step.n, "validated", f"by X{exchange.x}")
    else:
        exchange.joined = rep.r
        lo, hi = exchange.hole
        rep.mark(step.n, "joined", f"by X{exchange.x}, which brings bytes of {lo}–{hi}")


def piece(model, step):
    event, n = step.event, step.n
    exchange = model.exchanges[event.id]
    at = exchange.base + exchange.got
    exchange.pieces.append((n, at, event.size))
    exchange.got += event.size
    model.count("network", event.size)
    model.count("pieces")
    rep = model.written_by(exchange)
    if rep and rep.lost is None and rep.r not in step.lost:
        rep.cells.append((n, at, at + event.size, exchange.x))
        rep.size += event.size
        model.count("stored", event.size)
    if exchange.promise is not None and exchange.got >= exchange.promise:
        exchange.stop(n, "done")
    model.see_whole(exchange, n)
    model.wake(BODY, exchange.x, n)


def end(model, step):
    exchange = model.exchanges[step.event.id]
    short = exchange.promise is not None and exchange.got < exchange.promise
    if short:
        model.end_early(exchange, step, f"X{exchange.x} ended short")
    exchange.stop(step.n, "short" if short else "ended")
    rep = model.reps.get(exchange.x)
    if rep and rep.total is None:
        rep.total = exchange.got
    model.see_whole(exchange, step.n)
    model.wake_of(exchange.x, step.n)


def fault(model, step):
    exchange = model.exchanges[step.event.id]
    model.end_early(exchange, step, f"X{exchange.x} broke")
    exchange.stop(step.n, "fault")
    model.wake_of(exchange.x, step.n)


def doom(model, step):
    doom_key(model, step, model.key_of(step.event.target), "a doom")


def doom_key(model, step, key, why):
    key.dooms.append((step.n, why))
    model.count("dooms")
    current = model.current(key)
    if current is not None:
        step.going[current] = ("doomed", why)


KINDS = {"start": start, "poll": poll, "head": head, "piece": piece, "end": end, "fault": fault, "cancel": cancel,
         "doom": doom}
