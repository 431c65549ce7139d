"""What heads say, as far as a picture needs it: lengths, parts, tags and directives. Fields are pairs of bytes."""
import re

NUMBER = re.compile(rb"[0-9]{1,20}\Z")
PART = re.compile(rb"(?i:bytes) ([0-9]{1,20})-([0-9]{1,20})/([0-9]{1,20}|\*)\Z")
RANGE = re.compile(rb"(?i:bytes)=([0-9]{0,20})-([0-9]{0,20})\Z")
TAG = re.compile(rb'(W/)?("[\x21\x23-\x7e\x80-\xff]*")\Z')
# What an update of a stored head leaves as it is (RFC 9111 section 3.2).
KEPT = (b"content-length", b"content-range", b"content-encoding", b"transfer-encoding", b"connection",
        b"keep-alive", b"trailer", b"upgrade", b"etag", b"vary")


def values(fields, name):
    return [value for key, value in fields if key == name]


def only(items):
    return items[0] if len(items) == 1 else None


def elements(fields, name):
    """The elements of all values, value by value; a comma in quotes ends none."""
    found = []
    for value in values(fields, name):
        part, quoted, escaped = bytearray(), False, False
        for byte in value:
            if byte == ord(",") and not quoted:
                found.append(part)
                part = bytearray()
                continue
            if escaped:
                escaped = False
            elif quoted and byte == ord("\\"):
                escaped = True
            elif byte == ord('"'):
                quoted = not quoted
            part.append(byte)
        found.append(part)
    return [bytes(it.strip(b" \t")) for it in found if it.strip(b" \t")]


def has_directive(fields, name):
    return any(it.split(b"=")[0].lower() == name for it in elements(fields, b"cache-control"))


def refuses_ranges(fields):
    return any(it.lower() == b"none" for it in elements(fields, b"accept-ranges"))


def tag_of(fields):
    """Whether the one entity tag is weak, and what it says; None where there is no such."""
    value = only(values(fields, b"etag"))
    found = TAG.match(value) if value is not None else None
    return (bool(found[1]), found[2]) if found else None


def strong_tag(fields):
    tag = tag_of(fields)
    return tag[1] if tag and not tag[0] else None


def part_of(fields):
    """The first and the last position of the one Content-Range, and the total or None."""
    value = only(values(fields, b"content-range"))
    found = PART.match(value) if value is not None else None
    if not found:
        return None
    first, last = int(found[1]), int(found[2])
    total = None if found[3] == b"*" else int(found[3])
    return (first, last, total) if first <= last and (total is None or last < total) else None


def range_of(fields):
    """The first and the last position of the one Range, either of them None."""
    value = only(values(fields, b"range"))
    found = RANGE.match(value) if value is not None else None
    if not found or not (found[1] or found[2]):
        return None
    first, last = (int(word) if word else None for word in found.groups())
    return None if first is not None and last is not None and first > last else (first, last)


def resolved(asked, total):
    """From which position up to which a range reaches within a body of this length, or None."""
    first, last = asked
    if first is None:
        return (max(0, total - last), total) if last and total else None
    if first >= total:
        return None
    return first, total if last is None else min(last + 1, total)


def declared_length(fields):
    """Whether Content-Length is usable, and the one number that it has or None."""
    told = elements(fields, b"content-length")
    numbers = {int(it) if NUMBER.match(it) else None for it in told}
    if len(numbers) > 1 or None in numbers or any(it >= 2**62 for it in numbers):
        return False, None
    return True, numbers.pop() if numbers else None


def brings_whole(status):
    """RFC 9110 section 15.3.1."""
    return status == 200


def brings_part(status):
    """RFC 9110 section 15.3.7."""
    return status == 206


def length_of(takes_part, method, status, fields):
    """Where the body of an answer begins and how many bytes it has, or None for that; None where that is bad."""
    if method == "HEAD" or status in (204, 304):
        return 0, 0
    usable, declared = declared_length(fields)
    if brings_part(status) and takes_part:
        part = part_of(fields)
        if part is None or not usable or declared not in (None, part[1] + 1 - part[0]):
            return None
        return part[0], part[1] + 1 - part[0]
    return (0, declared) if usable else None


def updated(stored, new):
    """The stored fields where a 304 or a joining 206 came with new ones."""
    names = {name for name, _ in new if name not in KEPT}
    kept = [field for field in stored if field[0] not in names]
    return tuple(sorted(kept + [field for field in new if field[0] in names], key=lambda field: field[0]))
