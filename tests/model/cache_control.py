"""Directives of Cache-Control (RFC 9111 sections 1.2.2, 5.2 and 5.4)."""
import math
import re
from dataclasses import dataclass

from fields import Fields, all_elements, is_token, number_of

MOST_SECONDS = 2**31
UNBOUNDED = math.inf  # max-stale without an argument

_QUOTED = re.compile(rb'"((?:[^"\\]|\\.)*)"\Z', re.DOTALL)
_ESCAPED = re.compile(rb"\\(.)", re.DOTALL)


@dataclass(frozen=True)
class RequestDirectives:
    no_store: bool
    no_cache: bool
    only_if_cached: bool
    max_age: int | None
    min_fresh: int | None
    max_stale: float | None


@dataclass(frozen=True)
class ResponseDirectives:
    no_store: bool
    no_cache: bool
    must_revalidate: bool
    max_age: int | None


def directives_of(fields: Fields, name: bytes = b"cache-control") -> dict[bytes, bytes | None]:
    """The argument of each directive, or None where it has none; the first element of a name counts."""
    found: dict[bytes, bytes | None] = {}
    for element in all_elements(fields, name):
        left, sign, right = element.partition(b"=")
        found.setdefault(left.lower(), right if sign else None)
    return found


def seconds_of(argument: bytes | None) -> int | None:
    """A number of seconds, as a token or a quoted string; None where it can't be read."""
    if argument is None:
        return None
    quoted = _QUOTED.match(argument)
    plain = _ESCAPED.sub(rb"\1", quoted[1]) if quoted else argument
    seconds = number_of(plain) if quoted or is_token(argument) else None
    return None if seconds is None else min(seconds, MOST_SECONDS)


def _seconds_or(found: dict[bytes, bytes | None], name: bytes, unreadable: int) -> int | None:
    if name not in found:
        return None
    seconds = seconds_of(found[name])
    return unreadable if seconds is None else seconds


def _max_stale(found: dict[bytes, bytes | None]) -> float | None:
    if b"max-stale" not in found:
        return None
    argument = found[b"max-stale"]
    return UNBOUNDED if argument is None else seconds_of(argument)


def of_request(fields: Fields) -> RequestDirectives:
    """Sections 5.2.1 and 5.4. What can't be read errs on the side of asking again."""
    found = directives_of(fields)
    return RequestDirectives(
        no_store=b"no-store" in found,
        no_cache=b"no-cache" in found or b"no-cache" in directives_of(fields, b"pragma"),
        only_if_cached=b"only-if-cached" in found,
        max_age=_seconds_or(found, b"max-age", 0),
        min_fresh=_seconds_or(found, b"min-fresh", MOST_SECONDS),
        max_stale=_max_stale(found),
    )


def of_response(fields: Fields) -> ResponseDirectives:
    """Section 5.2.2."""
    found = directives_of(fields)
    return ResponseDirectives(
        no_store=b"no-store" in found,
        no_cache=b"no-cache" in found,
        must_revalidate=b"must-revalidate" in found,
        max_age=_seconds_or(found, b"max-age", 0),
    )
