"""Whether what was stored for one request serves another (RFC 9111 section 4.1)."""
from fields import Fields, all_elements, is_token, values
from messages import StoredHead


def names_of(fields: Fields) -> list[bytes]:
    """The names that a Vary has, in lower case."""
    return [it.lower() for it in all_elements(fields, b"vary")]


def named_fields(head: Fields, request: Fields) -> Fields:
    """The fields of a request that the Vary of the answer names."""
    names = set(names_of(head))
    return tuple(it for it in request if it[0] in names)


def _joined(fields: Fields, name: bytes) -> bytes | None:
    found = values(fields, name)
    return b", ".join(found) if found else None


def matches(head: StoredHead, request: Fields) -> bool:
    names = names_of(head.fields)
    if any(name == b"*" or not is_token(name) for name in names):
        return False
    return all(_joined(head.asked_with, name) == _joined(request, name) for name in names)
