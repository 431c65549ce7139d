"""Entity tags and lists of them (RFC 9110 sections 8.8.3 and 13.1.2)."""
import re
from dataclasses import dataclass

from fields import Fields, values

_TAG = rb'(W/)?"([\x21\x23-\x7e\x80-\xff]*)"'
_ONE = re.compile(_TAG + rb"\Z")
_NEXT = re.compile(_TAG)
_GAP = re.compile(rb"[ \t,]*")
_BLANK = re.compile(rb"[ \t]*")


@dataclass(frozen=True)
class Etag:
    is_weak: bool
    opaque: bytes


def etag_of(text: bytes) -> Etag | None:
    found = _ONE.match(text)
    return Etag(found[1] is not None, found[2]) if found else None


def one_etag(fields: Fields) -> Etag | None:
    """The tag of a head that has one ETag, which can be read."""
    found = values(fields, b"etag")
    return etag_of(found[0]) if len(found) == 1 else None


def one_strong_etag(fields: Fields) -> Etag | None:
    tag = one_etag(fields)
    return None if tag is None or tag.is_weak else tag


def are_strongly_equal(one: Etag | None, other: Etag | None) -> bool:
    """Section 8.8.3.2."""
    return one is not None and other is not None and one == other and not one.is_weak


def are_weakly_equal(one: Etag, other: Etag) -> bool:
    return one.opaque == other.opaque


def etags_of(text: bytes) -> list[Etag] | None:
    """The tags of a list, maybe none; None where the text is no list (section 5.6.1)."""
    at, found = _GAP.match(text).end(), []
    while at < len(text):
        tag = _NEXT.match(text, at)
        if not tag:
            return None
        found.append(Etag(tag[1] is not None, tag[2]))
        at = _BLANK.match(text, tag.end()).end()
        if at < len(text) and text[at : at + 1] != b",":
            return None
        at = _GAP.match(text, at).end()
    return found
