"""The rules of the cache, each by definition and by the model: pairs that are to be equal, with their input."""
import answers
import http_tables
import inputs
import leaving
import limits
import ranges
import requesting
import validation
from arrivals import on_piece
from bodies import Body
from definitions import bytes_of, definition, event_of, head_of, of, pair, record, request_of, response_of, some, span_of, variant
from denials import denial_of
from events import Cancel, Doom, End, Ended, Failed, Fault, Given, Head, Opened, Piece, Poll, Start
from fields import merged
from head_cases import head_case
from lengths import Length
from messages import Load, Request
from plan import Fetch, Fill, GoPast, Miss, Read, Wait, plan_of
from polls import _read
from tables import SLOT, Consumer, Exchange, Place, Purpose, Representation, Tables

refusal_of = definition("Refusals.refusal_of", "hc_rules")
defined_case = definition("HeadCases.head_case", "hc_rules")
is_conditional = definition("HeadCases.is_conditional", "hc_rules")
defined_plan = definition("Plans.plan_of", "hc_rules")
read_step = definition("Readings.read_step", "hc_rules")
room_of = definition("Rooms.room_of", "hc_rules")
survivor_at = definition("Admissions.survivor_at", "hc_rules")


def wishing(number, request, **more):
    return Consumer(number, request, requesting.wish_of(request), 0, **more)


def plain():
    return Request(b"GET", Load.NORMAL, inputs.KEY, ())


# Why an event is denied

REFUSALS = (
    "NotRising", "TooManyConsumers", "NoConsumer", "Finished", "WantZero", "NoExchange", "HeadTwice", "NoHeadYet", "NotAsked", "EmptyPiece",
    "Overlong",
)


def _any_event(chance, number):
    return chance.choice([
        Start(number, plain()), Poll(number, chance.choice([0, 1, 65_536])), Head(1, 200, ()), Piece(1, bytes(chance.choice([0, 1, 2, 5]))),
        Piece(1, bytes(chance.choice([1, 4]))), End(1), Fault(1), Cancel(number), Doom(inputs.KEY),
    ])


def _some_exchange(chance):
    """As the model has it, and as the definitions do where it is open."""
    made = Exchange(1, 1, Purpose.PAST, plain(), 0, is_open=not chance.one_in(5), is_asked=not chance.one_in(3), got=chance.randrange(5))
    made.status, promise = None if chance.one_in(4) else 200, chance.choice([None, 0, 1, 4, 6, 2**61])
    made.length = Length(0, promise, promise)
    row = record(headed=made.has_head, asked=made.is_asked, delivered=made.got, promised=some(promise))
    return made, some(row if made.is_open else None)


def refusals(chance):
    number, last, exchange = chance.randrange(6), chance.randrange(5), _some_exchange(chance)
    tables = Tables(last=last, live=chance.choice([0, 3, 1023, 1024, 1025]), exchanges={1: exchange[0]})
    is_live = not chance.one_in(3)
    tables.consumers[number] = wishing(number, plain(), place=Place.BOUND if is_live else Place.OVER)
    event = _any_event(chance, number)
    gate = record(last_start=last, live=tables.live, is_live=is_live, exchange=exchange[1])
    found, denied = of(refusal_of(gate, event_of(event))), denial_of(tables, event)
    defined = None if found is None else (REFUSALS.index(found._name) + 1, *found.args())
    modelled = None if denied is None else (denied.reason,) if denied.told is None else (denied.reason, denied.told)
    yield (gate, event), defined, modelled


# What a head is

CASES = {"PAST_BAD": "DirectBad", "PAST_TAKEN": "DirectTaken"}


def _case_name(case):
    return CASES.get(case.name) or case.name.title().replace("_", "")


def _opened_for(request, name, purpose, hole, head):
    """The request of an exchange: with conditions, or for the hole."""
    if purpose is Purpose.HOLE:
        told = (b"if-range", b'"a"'), (b"range", ranges.written_range(hole, 99))
        return http_tables.with_fields(request, told)
    if name == "Validate":
        return http_tables.with_fields(request, merged(request.fields, validation.conditions_for(head)))
    return request


def _joins(head, total, hole, answer):
    tag = head.tag
    return bool(hole and total is not None and tag) and http_tables.is_joining((False, bytes_of(tag.opaque)), total, span_of(hole), answer)


def _fitting(chance, purpose, hole, head, total):
    """Mostly what an origin would answer."""
    tag = list(dict(head.fields).values())
    if purpose is Purpose.TURN and chance.one_in(3):
        return 304, answers.clean([(b"etag", it) for it in chance.choice([[], tag, [b'"a"']])])
    if purpose is Purpose.HOLE and chance.one_in(2):
        low, end = hole[0] + chance.choice([0, 0, 0, 1]), hole[1] + chance.choice([0, 0, 0, 1])
        return 206, answers.part(chance, 1, low, max(end, low + 1), max(end, total), tag).fields
    status, fields = inputs.head(chance)
    return chance.choice([200, 304, 404, 416, 500]) if purpose is Purpose.HOLE and chance.one_in(2) else status, fields


def heads(chance):
    asker, (need, purpose, hole) = inputs.ranged_request(chance), http_tables.need(chance)
    if purpose is not Purpose.PAST and requesting.wish_of(asker).is_disabled:
        asker = plain()
    head, total, same = inputs.tagged_head(chance), chance.choice([6, 6, 6, 7]), not chance.one_in(5)
    status, fields = _fitting(chance, purpose, hole, head, total)
    request = _opened_for(asker, need._name, purpose, hole, head)
    asked, answer = request_of(request), response_of(status, fields)
    conditional = is_conditional(need, asked)
    exchange = Exchange(8, 9, purpose, request, 0, 5, bool(conditional), hole)
    stored, consumer = Representation(5, inputs.KEY, head, total), wishing(9, asker, is_shown=chance.one_in(3))
    length = http_tables.modelled_length(request, status, fields, purpose)
    modelled = head_case(consumer, exchange, stored if same else Representation(6, inputs.KEY, head, total), stored, status, fields, length)
    view = record(
        need=need, shown=consumer.is_shown, status=status, bad=http_tables.is_bad(http_tables.length_of(need, asked, answer)),
        conditional=conditional, selects=same and http_tables.selects(head_of(head, total), answer),
        storable=http_tables.is_storable(asked, answer), fits=http_tables.fits_to_found(http_tables.range_of(request_of(asker)), answer),
        joins=_joins(head, total, hole, answer), lost=False,
    )
    yield (asker, need, head, total, status, fields), defined_case(view)._name, _case_name(modelled)


# What is done at a poll


def _current(chance):
    """What is current, which somebody may be writing."""
    total = chance.choice([None, 0, 4, 6, 8])
    bound = set(chance.sample(range(11, 19), chance.randrange(4)))
    stored = Representation(1, inputs.KEY, inputs.stored_head(chance), total, inputs.body(chance, total or 6), bound)
    if total is None and not bound:
        bound.add(11)
    if total is None or bound and chance.one_in(3):
        stored.shared = 3
    elif bound and chance.one_in(3):
        stored.exclusive = chance.choice(sorted(bound))
    return stored


def _hole(stored, interval):
    found = stored.body.hole_in(interval)
    return None if found is None else span_of(found)


def _candidate(stored, request, now):
    """What is current, as the definitions look at it."""
    head, asked = head_of(stored.head, stored.total), request_of(request)
    want = http_tables.wanted_of(http_tables.range_of(asked), some(stored.total))
    hole = _hole(stored, pair(want.args()[0])) if want._name == "Interval" else None
    is_writing_alone = stored.exclusive is not None and _hole(stored, (0, stored.total)) is not None
    return record(
        allowed=http_tables.allowed(head, asked, now), vary=http_tables.matches_vary(head, asked), span=want, hole=some(hole),
        writer_group=stored.shared is not None, exclusive=some(stored.exclusive if is_writing_alone else None),
        least_bound=some(min(stored.bound, default=None)),
    )


def _why_text(why):
    word = {"Fresh": "fresh", "StaleAllowed": "stale", "Validated": "validated"}[why._name]
    return word + ":" + "/".join(str(it) for it in why.args())


def _defined_plan_text(plan):
    parts = plan.args()
    match plan._name:
        case "Bind":
            found = of(parts[1])
            return "read", _why_text(parts[0]), None if found is None else pair(found)
        case "FirstHole":
            return "fill", pair(parts[0]), pair(parts[1])
        case "Direct" | "Fetch":
            return plan._name.lower(), parts[0]._name
        case "Busy" | "Turn":
            return "wait", plan._name.lower(), parts[0]
        case "Miss":
            return ("miss",)


def _modelled_plan_text(plan, stored):
    whole = None if stored is None or stored.total is None or stored.shared is not None else (0, stored.total)
    match plan:
        case Read(why, part):
            return "read", why, part or whole
        case Fill(hole, part):
            return "fill", part or whole, hole
        case GoPast(need):
            return "direct", need.title().replace("-", "")
        case Fetch(need):
            return "fetch", need.title()
        case Wait(kind, whom):
            return "wait", kind, whom
        case Miss():
            return ("miss",)


def _in_line(chance, consumer, tables):
    """Who has the turn, which is the consumer or another."""
    if chance.one_in(2):
        return consumer.number
    is_asking = chance.one_in(2)
    number = chance.choice([1, 9] if is_asking else [1, 2])
    other = wishing(number, plain(), place=Place.ASKING if is_asking else Place.IN_LINE)
    tables.consumers[number] = other
    tables.waiting[inputs.KEY].add(number)
    return number


def plans(chance):
    request = inputs.ranged_request(chance) if chance.randrange(5) else inputs.request(chance)
    consumer, stored = wishing(5, request), None if chance.one_in(8) else _current(chance)
    wish = consumer.wish
    may_have_passed = stored and not (wish.is_disabled or wish.is_only or wish.is_bypassing)
    consumer.since = 1200 + chance.randrange(50)  # what is stored came before
    tables = Tables(now=consumer.since + chance.choice([0, 0, 1, 7, 18, 19, 20, 500]), consumers={5: consumer}, waiting={inputs.KEY: {5}})
    turn = _in_line(chance, consumer, tables)
    if stored:
        tables.representations[1], tables.current[inputs.KEY] = stored, 1
        tables.consumers |= {it: wishing(it, plain(), place=Place.BOUND) for it in stored.bound}
    candidate = _candidate(stored, request, tables.now) if stored else None
    if may_have_passed and candidate.vary and chance.one_in(2):
        consumer.place = Place.LET_THROUGH
        consumer.validated = (2, 1) if chance.one_in(2) else None
    kept = consumer.validated[0] if consumer.validated else None
    view = record(
        moment=tables.now, since=consumer.since, c=5, **{"class": http_tables.class_of(request_of(request))},
        passed=consumer.place is Place.LET_THROUGH, kept=some(kept), turn=turn, current=some(candidate),
    )
    defined = _defined_plan_text(defined_plan(view))
    yield (request, stored, view), defined, _modelled_plan_text(plan_of(tables, consumer), stored)


# What is answered who reads


def _defined_step_text(step):
    match step._name:
        case "Stored" | "Held" | "Ended":
            return (step._name.lower(),)
        case "Failed":
            return "failed", step.args()[0]._name
        case "Waits":
            return "waits", step.args()[0]
        case "Hole":
            return "hole", pair(step.args()[0])


def _modelled_step_text(acts):
    match acts[0]:
        case Given(_, exchange, _, _):
            return ("held",) if exchange == 7 else ("stored",)
        case Ended():
            return ("ended",)
        case Failed():
            return "failed", "Net"
        case Opened(_, _, need, _):
            low, end = need.partition(":")[2].split("-")
            return "hole", (int(low), int(end))
    return "waits", acts[-1].whom


def reads(chance):
    offset, end = chance.randrange(8), chance.choice([0, 3, 5, 6, 8, 8])
    stored = Representation(1, inputs.KEY, inputs.tagged_head(chance), end, inputs.body(chance), {9})
    is_due, source, is_held = chance.one_in(3), chance.choice([None, 4]), chance.one_in(4)
    consumer = wishing(9, plain(), place=Place.BOUND, is_shown=True, representation=1, offset=offset, exchange=source)
    consumer.cause, consumer.held_by = "net:3" if is_due else None, 7 if is_held else None
    holding = Exchange(7, 9, Purpose.HOLE, plain(), 0, is_open=False, held=bytearray(b"abc"), held_at=offset)
    reading = Exchange(4, 9, Purpose.HOLE, plain(), 0, status=chance.choice([None, 206]), is_asked=chance.one_in(2), length=Length(0, 9, 9))
    tables = Tables(next_exchange=9, live=1, consumers={9: consumer}, exchanges={4: reading, 7: holding}, representations={1: stored})
    tables.current[inputs.KEY] = 1
    gap = stored.body.hole_in((offset, 99))
    behind = min((run.at for run in stored.body.runs if run.at > offset), default=None)
    cause = variant("hc_event", "act", "Cause", "Net", 3) if is_due else None
    view = record(
        offset=offset, hi=some(end), stored=some(None if gap[0] == offset else gap[0]), held=is_held, due=some(cause), source=some(source),
        next_stored=some(behind),
    )
    acts = []
    if offset <= end:
        _read(tables, consumer, chance.choice([1, 3, 100]), acts)
        yield view, _defined_step_text(read_step(view)), _modelled_step_text(acts)


# What has room


def rooms(chance):
    bounds = chance.choice([4, 100, 70_000]), chance.choice([32_770, 40_000, 70_000, 140_000, 200_000])
    weights = [SLOT + chance.choice([0, 1, 5, 4000, 60_000]) for _ in range(chance.randrange(4))]
    used, has, more = sum(weights) + chance.choice([0, 32_768, 32_770, 70_000]), chance.choice([0, 1, 3, 96, 69_999]), chance.choice([1, 2, 4, 100])
    tables, acts = Tables(weight=used), []
    for number, weight in enumerate(weights, 1):
        key = b"http://a.test/%d" % number
        tables.current[key], tables.waiting[key] = number, set()
        tables.representations[number] = Representation(number, key, None, 0, Body(size=weight - SLOT), bound_last=number)
    kind = variant("hc_rules", "room", "Write", "Piece", has, more)
    found = room_of(limits.limits_of(bounds), used, kind, tuple(weights))
    with limits.limited_to(bounds):
        why = leaving.why_no_room(tables, Representation(9, inputs.KEY, None, 0, Body(size=has)), more, acts)
    modelled = {"full": ("Full",), "too-large": ("TooLarge",), None: ("After", len(acts))}[why]
    yield (bounds, used, has, more, weights), (found._name, *found.args()), modelled


def survivors(chance):
    readers, end = chance.sample(range(1, 30), chance.randrange(1, 6)), chance.randrange(4)
    tables = Tables(consumers={it: wishing(it, plain(), place=Place.BOUND, representation=1, offset=chance.randrange(end + 1)) for it in readers})
    stored = Representation(1, inputs.KEY, inputs.tagged_head(chance), 9, Body(size=end), set(readers), shared=2)
    tables.representations[1], tables.current[inputs.KEY] = stored, 1
    tables.exchanges[2] = Exchange(2, readers[0], Purpose.TURN, plain(), 0, status=200, length=Length(0, 9, 9), got=end, is_asked=True, writes=1)
    members = tuple(record(c=it, offset=tables.consumers[it].offset) for it in readers)
    with limits.limited_to((end, 10**9)):
        on_piece(tables, tables.exchanges[2], b"abc", [])
    alone = [it for it in readers if tables.consumers[it].cause is None]
    yield (members, end), of(survivor_at(end, members)), alone[0] if len(alone) == 1 else None


TABLES = (refusals, heads, plans, reads, rooms, survivors)
