"""Requests on condition of a copy that the caller has (RFC 9110 sections 13.1 and 13.2.2, RFC 9111 section 4.3.2)."""
import cache_control
from dates import date_of
from etags import Etag, are_weakly_equal, etags_of, one_etag
from fields import Fields, has, values, without
from messages import Load, Request

TOLD = (b"age", b"cache-control", b"content-location", b"date", b"etag", b"expires", b"vary")  # section 15.4.5
CONDITIONS = (b"if-none-match", b"if-modified-since")
OTHERS = (b"range", b"if-match", b"if-unmodified-since", b"if-range")


def _listed_tags(told: list[bytes]) -> list[Etag] | None:
    """The tags of all lines, each a list of its own; None where one is no list, or where they have no tag."""
    lists = [etags_of(it) for it in told]
    if None in lists:
        return None
    return [tag for it in lists for tag in it] or None


def _is_list(told: list[bytes]) -> bool:
    """One asterisk, or tags."""
    return told == [b"*"] or _listed_tags(told) is not None


def is_conditional(request: Request) -> bool:
    """Whether it asks on condition that a copy of the caller has changed, and on nothing else."""
    fields = request.fields
    if request.method != b"GET" or request.load is Load.DISABLE or cache_control.of_request(fields).no_store:
        return False
    if any(has(fields, name) for name in OTHERS):
        return False
    tags, dates = values(fields, b"if-none-match"), values(fields, b"if-modified-since")
    if not tags and not dates:
        return False
    return (not tags or _is_list(tags)) and (not dates or len(dates) == 1 and date_of(dates[0]) is not None)


def without_conditions(request: Request) -> Request:
    return Request(request.method, request.load, request.key, without(request.fields, *CONDITIONS))


def _is_listed(tag: Etag | None, told: list[bytes]) -> bool:
    """Section 13.1.2."""
    if told == [b"*"]:
        return True
    return tag is not None and any(are_weakly_equal(tag, it) for it in _listed_tags(told) or [])


def holds(request: Request, status: int, fields: Fields) -> bool:
    """Whether the copy is what a head with this status and these fields would give again."""
    if status != 200:
        return False
    told = values(request.fields, b"if-none-match")
    if told:
        return _is_listed(one_etag(fields), told)
    modified, since = values(fields, b"last-modified"), date_of(values(request.fields, b"if-modified-since")[0])
    changed = date_of(modified[0]) if len(modified) == 1 else None
    return changed is not None and since is not None and changed <= since


def told_fields(fields: Fields) -> Fields:
    return tuple(it for it in fields if it[0] in TOLD)
