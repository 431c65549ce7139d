"""What a head says of the length of its body (RFC 9110 sections 8.6 and 14.4, RFC 9112 section 6.3)."""
from dataclasses import dataclass

from fields import Fields, all_elements, number_of, values
from ranges import MOST, content_range_of
from statuses import brings_part


@dataclass(frozen=True)
class Length:
    """Where the body begins, how many bytes are promised, and of how many they are a part."""

    base: int
    promise: int | None
    total: int | None


class BadLength(Exception):
    """The length can't be told, or contradicts itself."""


def _declared(fields: Fields) -> int | None:
    """The one number that Content-Length tells, None where it tells nothing."""
    told = {number_of(it) for it in all_elements(fields, b"content-length")}
    if not told:
        return None
    if len(told) > 1 or None in told or max(told) > MOST:
        raise BadLength
    return told.pop()


def _part(fields: Fields) -> Length:
    told = values(fields, b"content-range")
    part = content_range_of(told[0]) if len(told) == 1 else None
    if part is None:
        raise BadLength
    count = part.last + 1 - part.first
    if _declared(fields) not in (None, count):
        raise BadLength
    return Length(part.first, count, part.total)


def length_of(method: bytes, status: int, fields: Fields, is_past_store: bool) -> Length:
    """Of the answer to such a request; a part counts as one where what is stored is concerned."""
    if method == b"HEAD" or status in (204, 304):
        return Length(0, 0, 0)
    if brings_part(status) and not is_past_store:
        return _part(fields)
    declared = _declared(fields)
    return Length(0, declared, declared)
