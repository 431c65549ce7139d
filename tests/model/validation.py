"""Asking whether what is stored still holds, what a 304 selects and changes, and what is shown (RFC 9111 sections 3.2 and 4.3)."""
from dataclasses import replace

from dates import date_of
from etags import are_strongly_equal, are_weakly_equal, one_etag
from fields import Fields, are_within_limits, first_value, merged, values, with_value, without
from messages import StoredHead
from ranges import Interval, written_content_range
import cache_control

NOT_UPDATED = frozenset((
    b"content-length", b"content-range", b"content-encoding", b"transfer-encoding", b"connection",
    b"keep-alive", b"trailer", b"upgrade", b"etag", b"vary",
))

NOT_STORED = (b"content-length", b"content-range")  # what is shown has them anew


def stored_fields(answer: Fields) -> Fields:
    return without(answer, *NOT_STORED)


def conditions_for(head: StoredHead) -> Fields:
    """The fields that ask whether a stored head holds (section 4.3.1)."""
    found = []
    if one_etag(head.fields):
        found.append((b"if-none-match", values(head.fields, b"etag")[0]))
    modified = first_value(head.fields, b"last-modified")
    if modified is not None and date_of(modified) is not None:
        found.append((b"if-modified-since", modified))
    return tuple(sorted(found))


def selects(head: StoredHead, answer: Fields) -> bool:
    """Whether a 304 with these fields is about this stored head (section 4.3.4)."""
    if cache_control.of_response(answer).no_store:
        return False
    told = values(answer, b"etag")
    if not told:
        return True
    tag, stored = one_etag(answer), one_etag(head.fields)
    if tag is None or stored is None:
        return False
    return are_weakly_equal(tag, stored) if tag.is_weak else are_strongly_equal(tag, stored)


def updated_fields(stored: Fields, answer: Fields) -> Fields:
    """The stored fields where those of an answer take their place (section 3.2)."""
    new = tuple(it for it in answer if it[0] not in NOT_UPDATED)
    result = merged(without(stored, *{name for name, _ in new}), new)
    return result if are_within_limits(result) else stored


def renewed(head: StoredHead, answer: Fields, requested: int, answered: int) -> StoredHead:
    return replace(head, fields=updated_fields(head.fields, answer), requested=requested, answered=answered)


def shown_part(fields: Fields, part: Interval, total: int) -> Fields:
    """RFC 9110 section 15.3.7."""
    sized = with_value(fields, b"content-length", b"%d" % (part[1] - part[0]))
    return with_value(sized, b"content-range", written_content_range(part, total))


def shown_whole(fields: Fields, total: int | None) -> Fields:
    plain = without(fields, b"content-range")
    return plain if total is None else with_value(plain, b"content-length", b"%d" % total)


def with_age(fields: Fields, age: int) -> Fields:
    """RFC 9111 section 5.1."""
    return with_value(fields, b"age", b"%d" % age)
