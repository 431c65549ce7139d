"""Requests on condition of a copy that a client has (docs/RULES.md, "Conditions of callers"), written apart from the program."""
import datetime
import re

OTHERS = {b"range", b"if-match", b"if-unmodified-since", b"if-range"}
CONDITIONS = {b"if-none-match", b"if-modified-since"}
TOLD = {b"age", b"cache-control", b"content-location", b"date", b"etag", b"expires", b"vary"}
TAG = rb'(?:W/)?"([\x21\x23-\x7e\x80-\xff]*)"'
BLANK = rb"[ \t]*"


def values(fields, name):
    return [value for it, value in fields if it == name]


def tags_of(text):
    """What stands between the quotes of each tag of a list, None where it is no list."""
    element = BLANK + rb"(?:" + TAG + rb")?" + BLANK
    if not re.fullmatch(element + rb"(?:," + element + rb")*", text):
        return None
    return re.findall(TAG, text) or None


def date_of(texts):
    """The moment, where one text stands there and is a date of the preferred form."""
    if len(texts) != 1:
        return None
    try:
        return datetime.datetime.strptime(texts[0].decode("latin-1"), "%a, %d %b %Y %H:%M:%S GMT")
    except ValueError:
        return None


def is_fronted(method, fields):
    """Whether a front answers it: a GET on condition of a copy, and of nothing else."""
    names = {name for name, _ in fields}
    if method != b"GET" or names & OTHERS or b"no-store" in b",".join(values(fields, b"cache-control")).lower():
        return False
    tags, dates = values(fields, b"if-none-match"), values(fields, b"if-modified-since")
    is_list = not tags or b", ".join(tags) == b"*" or tags_of(b", ".join(tags)) is not None
    is_date = not dates or date_of(dates) is not None
    return bool(tags or dates) and is_list and is_date


def without_conditions(fields):
    return [it for it in fields if it[0] not in CONDITIONS]


def holds(asked, status, fields):
    """Whether a head is that of the copy on condition of which this was asked."""
    if status != 200:
        return False
    tags, own = values(asked, b"if-none-match"), values(fields, b"etag")
    if not tags:
        changed, since = date_of(values(fields, b"last-modified")), date_of(values(asked, b"if-modified-since"))
        return changed is not None and since is not None and changed <= since
    if b", ".join(tags) == b"*":
        return True
    found = re.fullmatch(TAG, own[0]) if len(own) == 1 else None
    return found is not None and found[1] in tags_of(b", ".join(tags))


def told_fields(fields):
    """Those that a 304 tells."""
    return [it for it in fields if it[0] in TOLD]
