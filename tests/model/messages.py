"""Requests, and heads that are stored."""
from dataclasses import dataclass
from enum import Enum

from etags import Etag, one_strong_etag
from fields import Fields


class Load(Enum):
    NORMAL = b"normal"
    VALIDATE = b"validate"
    BYPASS = b"bypass"
    SKIP = b"skip"
    ONLY = b"only"
    DISABLE = b"disable"


@dataclass(frozen=True)
class Request:
    method: bytes
    load: Load
    key: bytes
    fields: Fields


@dataclass(frozen=True)
class StoredHead:
    """The head of an answer that is stored, with the fields of the request that its Vary names."""

    status: int
    fields: Fields
    requested: int
    answered: int
    asked_with: Fields

    @property
    def tag(self) -> Etag | None:
        """The one strong tag by which parts join (RFC 9110 section 15.3.7.3)."""
        return one_strong_etag(self.fields)
