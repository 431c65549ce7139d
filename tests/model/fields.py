"""Field lines of a message, and the lists that their values are (RFC 9110 sections 5.1 to 5.6)."""
import re

Field = tuple[bytes, bytes]
Fields = tuple[Field, ...]  # sorted by name; of one name in the order in which they came

MOST_FIELDS = 64
MOST_FIELD_BYTES = 32_768

_TOKEN = re.compile(rb"[!#$%&'*+.^_`|~0-9A-Za-z-]+\Z")
_NUMBER = re.compile(rb"[0-9]+\Z")
_ELEMENT = re.compile(rb'(?:[^",]|"(?:[^"\\]|\\.|\\\Z)*(?:"|\Z))*', re.DOTALL)
_BLANKS = b" \t"


def is_token(text: bytes) -> bool:
    """RFC 9110 section 5.6.2."""
    return bool(_TOKEN.match(text))


def number_of(text: bytes) -> int | None:
    """One or more digits, leading zeros too."""
    return int(text) if _NUMBER.match(text) else None


def values(fields: Fields, name: bytes) -> list[bytes]:
    return [value for found, value in fields if found == name]


def first_value(fields: Fields, name: bytes) -> bytes | None:
    return next((value for found, value in fields if found == name), None)


def has(fields: Fields, name: bytes) -> bool:
    return any(found == name for found, _ in fields)


def elements(value: bytes) -> list[bytes]:
    """The elements of a list: a comma in a quoted string parts nothing, empty ones are skipped (section 5.6.1)."""
    if b'"' not in value:
        found = value.split(b",")
    else:
        found, at = [], 0
        while at <= len(value):
            end = _ELEMENT.match(value, at).end()
            found.append(value[at:end])
            at = end + 1
    return [it for it in (part.strip(_BLANKS) for part in found) if it]


def all_elements(fields: Fields, name: bytes) -> list[bytes]:
    """The elements of all values of a name, value by value: nothing is joined."""
    return [it for value in values(fields, name) for it in elements(value)]


def without(fields: Fields, *names: bytes) -> Fields:
    return tuple(it for it in fields if it[0] not in names)


def with_value(fields: Fields, name: bytes, value: bytes) -> Fields:
    """The fields with this as the one value of a name."""
    return tuple(sorted((*without(fields, name), (name, value)), key=lambda it: it[0]))


def merged(fields: Fields, others: Fields) -> Fields:
    """Both, sorted by name."""
    return tuple(sorted((*fields, *others), key=lambda it: it[0]))


def bytes_of(fields: Fields) -> int:
    return sum(len(name) + len(value) for name, value in fields)


def are_within_limits(fields: Fields) -> bool:
    return len(fields) <= MOST_FIELDS and bytes_of(fields) <= MOST_FIELD_BYTES
