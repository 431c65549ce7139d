"""Whether a stored head may be used without validation (RFC 9111 sections 4.2 and 5.2)."""
from dataclasses import dataclass
from enum import Enum

import cache_control
from dates import date_of
from fields import Fields, first_value, number_of
from messages import Load, Request, StoredHead

WEEK = 7 * 24 * 60 * 60


class Allowed(Enum):
    FRESH = "fresh"
    STALE = "stale"


@dataclass(frozen=True)
class Use:
    """That a stored head may be used, with its age and its lifetime."""

    allowed: Allowed
    age: int
    lifetime: int


def _date_field(fields: Fields, name: bytes) -> int | None:
    value = first_value(fields, name)
    return None if value is None else date_of(value)


def _date(head: StoredHead) -> int:
    found = _date_field(head.fields, b"date")
    return head.answered if found is None else found


def lifetime_of(head: StoredHead) -> int:
    """Section 4.2.1; where nothing is told, a tenth of the time since it changed (section 4.2.2)."""
    max_age = cache_control.of_response(head.fields).max_age
    if max_age is not None:
        return max_age
    if first_value(head.fields, b"expires") is not None:
        expires = _date_field(head.fields, b"expires")
        return 0 if expires is None else max(0, expires - _date(head))
    modified = _date_field(head.fields, b"last-modified")
    return 0 if modified is None else min(WEEK, max(0, _date(head) - modified) // 10)


def age_of(head: StoredHead, now: int) -> int:
    """Section 4.2.3."""
    told = first_value(head.fields, b"age")
    age_value = number_of(told) if told is not None else None
    apparent = max(0, head.answered - _date(head))
    corrected = min(age_value or 0, cache_control.MOST_SECONDS) + head.answered - head.requested
    return max(apparent, corrected) + now - head.answered


def use_of(head: StoredHead, request: Request, now: int) -> Use | None:
    """How it may be used; None where it has to be validated."""
    asked, stored = cache_control.of_request(request.fields), cache_control.of_response(head.fields)
    age, lifetime = age_of(head, now), lifetime_of(head)
    if request.load is Load.VALIDATE or asked.max_age == 0 or stored.no_cache:
        return None
    if asked.max_age is not None and age > asked.max_age:
        return None
    if asked.min_fresh is not None and lifetime < age + asked.min_fresh:
        return None
    if lifetime > age:
        return Use(Allowed.FRESH, age, lifetime)
    if stored.must_revalidate:
        return None
    accepted = asked.max_stale is not None and age - lifetime <= asked.max_stale
    return Use(Allowed.STALE, age, lifetime) if request.load is Load.SKIP or accepted else None
