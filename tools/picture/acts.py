"""What each act says of the things of a run."""
from things import BODY, OWN, READING, SHARED, STORED, TURN, WAITS, WRITER, Exchange


def carry_out(model, step, act):
    KINDS[act.kind](model, step, act)


def denied(model, step, act):
    """A denial is all that an event is answered by, and was seen before."""
    raise KeyError(act.kind)


def opened(model, step, act):
    consumer = model.consumers[act.c]
    key = model.key_of(consumer.key)
    exchange = model.exchanges[act.x] = Exchange(step.n, act, consumer.key)
    exchange.aim = consumer.shown[1] if consumer.shown else model.current(key)
    key.exchanges.append(act.x)
    consumer.exchanges.append(act.x)
    model.count("opens")
    model.count(f"need {act.need}")
    if act.need == "bypass" and exchange.aim is not None:
        step.going[exchange.aim] = ("gone", f"C{act.c} goes past it")
    step.touch("x", act.x)


def asked(model, step, act):
    model.exchanges[act.x].asks.append(step.n)
    model.count("asks")
    step.touch("x", act.x)


def closed(model, step, act):
    exchange = model.exchanges[act.x]
    model.end_early(exchange, step, f"X{act.x} was closed")
    exchange.stop(step.n, "closed")
    model.count("closes")
    model.wake_of(act.x, step.n)
    step.touch("x", act.x)


def shown(model, step, act):
    consumer = model.consumers[act.c]
    consumer.shown = (step.n, act.r, act.why, act.status, act.lo, act.hi)
    consumer.stand(step.n, READING)
    model.count("shown")
    model.count("why " + act.why.split(":")[0])
    model.wake(TURN, act.c, step.n)
    step.touch("c", act.c)
    step.touch("r", act.r)


def data(model, step, act):
    consumer, exchange = model.consumers[act.c], model.exchanges[act.x]
    if exchange.c == act.c:
        mode = OWN
    else:
        mode = STORED if exchange.over is not None and exchange.over < consumer.started else SHARED
    consumer.data.append((step.n, act.x, act.at, act.size, mode))
    consumer.stand(step.n, READING)
    model.count("given", act.size)
    model.count(("given own", "given shared", "given stored")[mode], act.size)
    rep = model.reps.get(consumer.shown[1]) if consumer.shown else None
    if rep:
        rep.reads.append((step.n, act.at, act.at + act.size, act.c))
        detach(rep, consumer, act.x, act.at + act.size)
        step.touch("r", rep.r)
    step.touch("c", act.c)
    step.touch("x", act.x)


def detach(rep, consumer, x, to):
    """Who is given, or waits for, what comes behind the loss of a body is its detached reader."""
    if rep.lost_by and rep.detached is None and rep.lost_by[0] == x and to > rep.lost_by[1]:
        rep.detached, consumer.detached = consumer.c, rep.lost[0]


def ended(model, step, act):
    leave(model, step, act.c, "ended")


def failed(model, step, act):
    model.count("failed " + act.why.split(":")[0])
    if act.why.startswith("store-read:"):
        step.going[int(act.why.split(":")[1])] = ("gone", "a read failed")
    leave(model, step, act.c, "failed", act.why)


def leave(model, step, c, how, cause=""):
    model.count(how)
    model.leave(c, step.n, how, cause)
    step.touch("c", c)


def pending(model, step, act):
    consumer, state = model.consumers[act.c], WAITS[act.wait]
    step.is_quiet = len(step.event.acts) == 1 and consumer.waits_for(state, act.whom)
    consumer.stand(step.n, state, act.whom)
    model.waiters.setdefault((state, act.whom), set()).add(act.c)
    model.count("pending " + act.wait)
    rep = model.reps.get(consumer.shown[1]) if consumer.shown else None
    if rep and state == BODY:
        detach(rep, consumer, act.whom, float("inf"))
    step.touch("c", act.c)
    step.touch("c" if state in (TURN, WRITER) else "x", act.whom)


def lost(model, step, act):
    model.count("lost " + act.why)
    rep = model.reps.get(act.r)
    if rep:
        rep.lost = (step.n, act.why)
        step.going[act.r] = ("lost", act.why)
        if step.event.kind == "piece":
            x = step.event.id
            rep.lost_by = (x, model.exchanges[x].pieces[-1][1])
    else:
        model.exchanges[act.r].lost = (step.n, act.why)
        step.touch("x", act.r)
    step.touch("r", act.r)


def evicted(model, step, act):
    model.count("evicted")
    rep = model.reps[act.r]
    step.going[act.r] = ("evicted", "it made room")
    step.touch("r", rep.r)


KINDS = {"open": opened, "ask": asked, "close": closed, "shown": shown, "data": data, "ended": ended, "failed": failed,
         "pending": pending, "lost": lost, "evicted": evicted, "denied": denied}
