"""Byte ranges (RFC 9110 sections 14.1.2, 14.2 and 14.4)."""
import re
from dataclasses import dataclass

MOST = 2**62 - 1

_RANGE = re.compile(rb"bytes=(?:([0-9]+)-([0-9]*)|-([0-9]+))\Z", re.IGNORECASE)
_PART = re.compile(rb"bytes ([0-9]+)-([0-9]+)/([0-9]+|\*)\Z", re.IGNORECASE)

Interval = tuple[int, int]  # from a position to the one behind the last


@dataclass(frozen=True)
class FromTo:
    first: int
    last: int | None


@dataclass(frozen=True)
class LastBytes:
    count: int


ByteRange = FromTo | LastBytes


@dataclass(frozen=True)
class ContentRange:
    first: int
    last: int
    total: int | None


def _are_small(*numbers: int | None) -> bool:
    return all(it is None or it <= MOST for it in numbers)


def range_of(value: bytes) -> ByteRange | None:
    """The one range of a Range, or None where it can't be read."""
    found = _RANGE.match(value)
    if not found:
        return None
    if found[3] is not None:
        count = int(found[3])
        return LastBytes(count) if _are_small(count) else None
    first, last = int(found[1]), int(found[2]) if found[2] else None
    if not _are_small(first, last) or last is not None and last < first:
        return None
    return FromTo(first, last)


def resolved(wanted: ByteRange, total: int) -> Interval | None:
    """The bytes that a range has of so many, or None where it can't be satisfied (section 14.1.2)."""
    if isinstance(wanted, LastBytes):
        return (max(0, total - wanted.count), total) if wanted.count and total else None
    if wanted.first >= total:
        return None
    return wanted.first, total if wanted.last is None else min(wanted.last + 1, total)


def content_range_of(value: bytes) -> ContentRange | None:
    """The part that a Content-Range tells; None where it tells none."""
    found = _PART.match(value)
    if not found:
        return None
    first, last = int(found[1]), int(found[2])
    total = None if found[3] == b"*" else int(found[3])
    if not _are_small(first, last, total) or last < first or total is not None and total <= last:
        return None
    return ContentRange(first, last, total)


def written_range(interval: Interval, total: int) -> bytes:
    """The Range of a request for these bytes: open where they go to the end."""
    first, end = interval
    return b"bytes=%d-" % first if end == total else b"bytes=%d-%d" % (first, end - 1)


def written_content_range(interval: Interval, total: int) -> bytes:
    first, end = interval
    return b"bytes %d-%d/%d" % (first, end - 1, total)
