"""Records: a stored head as a text, and how much of its body is stored."""
import re
from dataclasses import dataclass

from fields import MOST_FIELD_BYTES, MOST_FIELDS, Fields, bytes_of, first_value
from messages import StoredHead
from report import text_of_fields
from schedule import Lines, OffGrammar, field_of, number
from statuses import brings_part, brings_whole

MOST_ASKED, MOST_ASKED_BYTES = 80, 49_152
UNKNOWN = b"-" * 20

_KIND = re.compile(rb"[GWTR] (?:[0-9]{20}|-{20})\Z")


@dataclass(frozen=True)
class Record:
    kind: bytes
    total: int | None
    head: StoredHead


def _tag_text(head: StoredHead) -> bytes:
    return first_value(head.fields, b"etag") if head.tag else b"-"


def text_of_record(record: Record) -> bytes:
    head, total = record.head, record.total
    counts = (head.status, head.requested, head.answered, len(head.asked_with), len(head.fields))
    told = UNKNOWN if total is None else b"%020d" % total
    lines = b"record 2\n%s %s\n%d %d %d %d %d\ntag %s\n" % (record.kind, told, *counts, _tag_text(head))
    return lines + text_of_fields(head.asked_with) + text_of_fields(head.fields)


def line_of(lines: Lines) -> bytes:
    line = lines.next()
    if line is None:
        raise OffGrammar
    return line


def numbers_of(line: bytes, count: int) -> list[int]:
    words = line.split(b" ")
    if len(words) != count:
        raise OffGrammar
    return [number(it) for it in words]


def _fields(lines: Lines, count: int, most: int, most_bytes: int) -> Fields:
    if count > most:
        raise OffGrammar
    found = tuple(field_of(line_of(lines)) for _ in range(count))
    names = [name for name, _ in found]
    if names != sorted(names) or bytes_of(found) > most_bytes:
        raise OffGrammar
    return found


def read_record(lines: Lines) -> Record:
    version, kind_line = line_of(lines), line_of(lines)
    if version not in (b"record 1", b"record 2") or not _KIND.match(kind_line):
        raise OffGrammar
    told = kind_line[2:]
    total = None if told == UNKNOWN else number(b"%d" % int(told))
    status, requested, answered, asked, had = numbers_of(line_of(lines), 5)
    tag_line = line_of(lines) if version == b"record 2" else None
    asked_with = _fields(lines, asked, MOST_ASKED, MOST_ASKED_BYTES)
    head = StoredHead(status, _fields(lines, had, MOST_FIELDS, MOST_FIELD_BYTES), requested, answered, asked_with)
    if not (brings_whole(status) or brings_part(status)) or tag_line is not None and tag_line != b"tag " + _tag_text(head):
        raise OffGrammar
    return Record(kind_line[:1], total, head)
