"""The rules of HTTP, each by definition and by the model: pairs that are to be equal, with their input."""
import caller_conditions
import etags
import fields as model_fields
import freshness
import head_cases
import inputs
import lengths
import ranges
import requesting
import validation
import vary
from definitions import (
    bytes_of, definition, fields_of, head_of, of, pair, plain_fields, request_of, response_of, some, span_of, variant,
)
from tables import Consumer, Exchange, Purpose, Representation

range_in = definition("RangeTexts.asked_in", "hc_rules")
number_in = definition("RangeTexts.number_of", "hc_rules")
part_in = definition("RangeTexts.content_range_in", "hc_rules")
tag_in = definition("TagTexts.tag_in", "hc_etag")
class_of = definition("Requests.class_of", "hc_rules")
range_of = definition("Requests.range_of", "hc_rules")
wanted_of = definition("Requests.wanted_of", "hc_rules")
length_of = definition("Lengths.length_of", "hc_rules")
is_bad = definition("Lengths.is_bad", "hc_rules")
base_of = definition("Lengths.base_of", "hc_rules")
promise_of = definition("Lengths.promise_of", "hc_rules")
is_storable = definition("HeadCases.is_storable", "hc_rules")
fits_to_found = definition("HeadCases.fits_to_found", "hc_rules")
is_joining = definition("Joins.joins", "hc_rules")
lifetime = definition("Lifetimes.lifetime", "hc_fresh")
age = definition("Ages.age", "hc_fresh")
allowed = definition("Facts.allowed", "hc_fresh")
matches_vary = definition("Vary.matches_vary", "hc_fresh")
conditional = definition("Conditions.conditional", "hc_validate")
selects = definition("Selection.selects", "hc_validate")
updated_fields = definition("Updates.updated_fields", "hc_validate")
shown_response = definition("Showing.shown_response", "hc_validate")
is_external = definition("External.is_external", "hc_condition")
is_not_modified = definition("NotModified.is_not_modified", "hc_condition")
told_fields = definition("NotModified.fields_of_304", "hc_condition")


# Texts


def asked_text(asked):
    """A range, as the model has it."""
    if asked is None:
        return None
    parts = asked.args()
    match asked._name:
        case "Last":
            return ranges.LastBytes(*parts)
        case "From":
            return ranges.FromTo(*parts, None)
        case "FromTo":
            return ranges.FromTo(*parts)


def _part_text(found):
    if found is None or found._name != "Part":
        return None
    first, last, total = found.args()
    return ranges.ContentRange(first, last, of(total))


def _tag_text(found):
    return None if found is None else etags.Etag(found[0], bytes(found[1]))


def texts(chance):
    text = inputs.text(chance)
    told = bytes_of(text)
    yield text, asked_text(of(range_in(told))), ranges.range_of(text)
    yield text, _part_text(of(part_in(told))), ranges.content_range_of(text)
    yield text, _tag_text(of(tag_in(told))), etags.etag_of(text)
    number = model_fields.number_of(text)
    yield text, of(number_in(told)), number if number is not None and number <= ranges.MOST else None


# Requests


def with_fields(request, fields):
    return inputs.Request(request.method, request.load, request.key, fields)


def wishes(chance):
    request = inputs.request(chance, chance.one_in(4))
    found = class_of(request_of(request))
    wish = requesting.wish_of(request)
    defined = found.disabled, found.only, found.bypassing, asked_text(of(found.range))
    yield request, defined, (wish.is_disabled, wish.is_only, wish.is_bypassing, wish.range)


def wanted(chance):
    request, total = inputs.ranged_request(chance), chance.choice([None, *range(10)])
    found = wanted_of(range_of(request_of(request)), some(total))
    if total is None:
        yield (request, total), found._name, "TotalUnknown"
        return
    wish = requesting.wish_of(request)
    modelled = (0, total) if wish.range is None else ranges.resolved(wish.range, total)
    yield (request, total), None if found._name == "Unsatisfiable" else pair(found.args()[0]), modelled


# Heads


def need(chance):
    """What an exchange is for: as the definitions have it, and its purpose and its hole as the model has."""
    purpose = chance.choice(list(Purpose))
    if purpose is Purpose.HOLE:
        low = chance.randrange(5)
        hole = low, chance.randint(low + 1, 8)
        return variant("hc_event", "act", "Need", "Hole", *hole), purpose, hole
    names = inputs.NEEDS_PAST if purpose is Purpose.PAST else inputs.NEEDS_TURN
    return variant("hc_event", "act", "Need", chance.choice(names)), purpose, None


def modelled_length(request, status, fields, purpose):
    try:
        return lengths.length_of(request.method, status, fields, purpose is Purpose.PAST)
    except lengths.BadLength:
        return None


def body_lengths(chance):
    request, (asked, purpose, _), (status, fields) = inputs.request(chance), need(chance), inputs.head(chance)
    found = length_of(asked, request_of(request), response_of(status, fields))
    length = modelled_length(request, status, fields, purpose)
    defined = None if is_bad(found) else (base_of(found), of(promise_of(found)))
    yield (request, asked, status, fields), defined, None if length is None else (length.base, length.promise)


def storing(chance):
    request, (status, fields) = inputs.ranged_request(chance), inputs.head(chance)
    exchange = Exchange(1, 1, Purpose.TURN, request, 1000)
    stored = is_storable(request_of(request), response_of(status, fields))
    yield (request, status, fields), stored, head_cases.is_storable(exchange, status, fields)
    length = modelled_length(request, status, fields, Purpose.TURN)
    if stored and status == 206 and length is not None:
        consumer = Consumer(1, request, requesting.wish_of(request), 1000)
        modelled = head_cases._is_fit_to_found(consumer, fields, length)
        yield (request, fields), fits_to_found(range_of(request_of(request)), response_of(status, fields)), modelled


def joining(chance):
    (status, fields), low = inputs.part_head(chance), chance.randrange(5)
    hole, total, head = (low, chance.randint(low + 1, 7)), chance.choice([6, 6, 7]), inputs.tagged_head(chance)
    if chance.one_in(2):
        part = ranges.content_range_of(model_fields.first_value(fields, b"content-range"))
        hole = (part.first, part.last + chance.choice([1, 1, 2])) if part else hole
    length, tag = modelled_length(inputs.Request(b"GET", None, b"", ()), status, fields, Purpose.HOLE), etags.one_etag(head.fields)
    if length is not None:
        exchange = Exchange(2, 1, Purpose.HOLE, None, 1000, 1, hole=hole)
        modelled = head_cases.joins(exchange, Representation(1, inputs.KEY, head, total), status, fields, length)
        defined = is_joining((tag.is_weak, bytes_of(tag.opaque)), total, span_of(hole), response_of(status, fields))
        yield (head, total, hole, status, fields), defined, modelled


# What is stored


ALLOWED = {"Fresh": freshness.Allowed.FRESH, "StaleAllowed": freshness.Allowed.STALE}


def _use_text(found):
    return None if found is None else (ALLOWED[found._name], *found.args())


def fresh(chance):
    head, request = inputs.stored_head(chance), inputs.request(chance)
    now = head.answered + chance.choice([0, 0, 1, 5, 10, 40, 400, 700_000])
    defined, use = head_of(head, None), freshness.use_of(head, request, now)
    yield head, lifetime(defined), freshness.lifetime_of(head)
    yield (head, now), age(defined, now), freshness.age_of(head, now)
    modelled = None if use is None else (use.allowed, use.age, use.lifetime)
    yield (head, request, now), _use_text(of(allowed(defined, request_of(request), now))), modelled


def varying(chance):
    head, request = inputs.stored_head(chance), inputs.request(chance)
    if chance.one_in(2):
        request = with_fields(request, head.asked_with)
    yield (head, request), matches_vary(head_of(head, None), request_of(request)), vary.matches(head, request.fields)


def asking(chance):
    head, request = inputs.stored_head(chance), with_fields(inputs.request(chance), ())
    found = plain_fields(conditional(head_of(head, None), request_of(request)).fields)
    yield head, found, validation.conditions_for(head)


def selecting(chance):
    head, (_, fields) = inputs.stored_head(chance), inputs.any_head(chance)
    yield (head, fields), selects(head_of(head, None), response_of(304, fields)), validation.selects(head, fields)


def updating(chance):
    head, (_, fields) = inputs.stored_head(chance), inputs.any_head(chance)
    found = plain_fields(updated_fields(fields_of(head.fields), fields_of(fields)))
    yield (head, fields), found, validation.updated_fields(head.fields, fields)


def _why(chance):
    """Why a stored head is shown, and with which age, if any."""
    name = chance.choice(["Fresh", "StaleAllowed", "Validated"])
    parts = (4,) if name == "Validated" else (chance.choice([0, 3, 12]), 9)
    return variant("hc_event", "act", "Why", name, *parts), None if name == "Validated" else parts[0]


def showing(chance):
    head, total, (why, old) = inputs.stored_head(chance), chance.choice([None, 6, 10]), _why(chance)
    part = (chance.choice([0, 2]), chance.choice([3, 6])) if total is not None and chance.one_in(2) else None
    found = shown_response(head_of(head, total), why, some(None if part is None else span_of(part)), part is not None)
    made = validation.shown_part(head.fields, part, total) if part else validation.shown_whole(head.fields, total)
    modelled = 206 if part else 200, made if old is None else validation.with_age(made, old)
    yield (head, total, why, part), (found.status, plain_fields(found.fields)), modelled


# Copies that callers have


def copies(chance):
    request, (status, fields) = inputs.request(chance, is_conditional=True), inputs.any_head(chance)
    defined, is_conditional = is_external(request_of(request)), caller_conditions.is_conditional(request)
    yield request, defined, is_conditional
    if defined and is_conditional:
        modelled = caller_conditions.holds(request, status, fields)
        yield (request, status, fields), is_not_modified(request_of(request), status, fields_of(fields)), modelled
        yield fields, plain_fields(told_fields(fields_of(fields))), caller_conditions.told_fields(fields)


TABLES = (texts, wishes, wanted, body_lengths, storing, joining, fresh, varying, asking, selecting, updating, showing, copies)
