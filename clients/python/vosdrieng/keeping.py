"""What is kept of one resource in a file, beside its cache in memory.

A download that goes its plain way is written as it comes: a 200 that founds, the rest of it behind a break, all of its bytes. After
anything else nobody guesses what the cache has: the file goes at once, and what the cache's own image has is written once nobody
reads.
"""
from __future__ import annotations

import functools
import re
from dataclasses import dataclass
from typing import TYPE_CHECKING, Callable

from .acts import Fields, Shown
from .cache import Cache
from .errors import CacheError
from .images import Stored, read_image, write_image
from .sources import Source
from .store import Folder, Kept, Part, Signature

if TYPE_CHECKING:
    from .resource import Reader

TAG = re.compile(r'"[\x21\x23-\x7e\x80-\xff]*"\Z')
PAST_STORE = ("disabled", "timed-out", "unsatisfied")
SAFE = ("GET", "HEAD", "OPTIONS", "TRACE")
LARGE = 8 << 20  # bytes of a body whose file isn't written anew after a mere validation
NONE, VALIDATED, ALL = 0, 1, 2  # what is doubtful of the file


@dataclass(slots=True, eq=False)
class Exchange:
    """One request to the origin. `position` is where its next byte stands in the body."""

    number: int
    need: str
    method: str
    fields: Fields
    requested: int
    reader: "Reader"
    status: int = 0
    answered: int = 0
    position: int = 0
    source: Source | None = None
    error: BaseException | None = None
    is_read: bool = False
    is_closed: bool = False
    is_passed: bool = False

    @property
    def answer(self) -> Source:
        """What brings the answer, whose head has come."""
        if self.source is None:
            raise ValueError("the exchange has no head yet")
        return self.source

    def hang_up(self) -> None:
        """The connection is given back, unless somebody reads from it right now and can't be stopped: then that one does."""
        self.is_closed = True
        if self.source is not None and (self.source.is_stoppable or not self.is_read):
            self.source.hang_up()


def values_of(fields: Fields, name: str) -> list[str]:
    return [value for it, value in fields if it.lower() == name]


def strong_tag(fields: Fields) -> str | None:
    """The one strong entity tag of a head."""
    tags = values_of(fields, "etag")
    return tags[0] if len(tags) == 1 and TAG.match(tags[0]) else None


def is_unstorable(exchange: Exchange, status: int, fields: Fields) -> bool:
    """Whether an answer may not be stored, or looks so: the cache decides, and this errs on one side."""
    said = values_of(exchange.fields, "cache-control") + values_of(fields, "cache-control")
    return exchange.method != "GET" or status not in (200, 206) or any("no-store" in value.lower() for value in said)


def promised(fields: Fields) -> int | None:
    """How long a body is, where all lines of Content-Length tell the same."""
    values = set(values_of(fields, "content-length"))
    value = values.pop() if len(values) == 1 else ""
    return int(value) if re.fullmatch("[0-9]{1,18}", value) else None


def has_length(fields: Fields) -> bool:
    """Whether what a head says of its length can be read: by the cache, and by those below it alike."""
    return len(values_of(fields, "content-length")) == 0 or promised(fields) is not None


def as_asked(exchange: Exchange, fields: Fields) -> Fields:
    """The fields of a 304, with the weak tag that was asked for in place of the strong one that says the same.

    nginx weakens the tag of an answer that it compresses, and not that of the 304 to it. One tag was asked about, and the server
    says that it holds.
    """
    asked = values_of(exchange.fields, "if-none-match")
    if exchange.status != 304 or len(asked) != 1 or not asked[0].startswith("W/"):
        return fields
    return [(name, asked[0] if name.lower() == "etag" and f"W/{value}" == asked[0] else value) for name, value in fields]


def stored_of(exchange: Exchange, fields: Fields) -> Stored:
    """The head that an exchange founds, as a store has it."""
    plain = sorted(((name.lower(), value.strip(" \t")) for name, value in fields), key=lambda line: line[0])
    named = {it.strip().lower() for value in values_of(plain, "vary") for it in value.split(",")}
    vary = [line for line in exchange.fields if line[0] in named]
    head = [line for line in plain if line[0] not in ("content-length", "content-range")]
    tag = strong_tag(plain) or "-"
    return Stored("", "G", promised(plain), 200, exchange.requested, exchange.answered, head, vary, tag)


@dataclass(slots=True)
class Journal:
    """The file of a download that isn't whole yet, and the exchange that brings its next bytes."""

    part: Part
    kept: Kept
    writes: Exchange | None


class Keeper:
    """See above. Without a folder it keeps nothing, but for the order and the case of names."""

    def __init__(self, folder: Folder | None, name: str) -> None:
        self.folder, self.name, self.size = folder, name, 0
        self.spelling: list[str] = []
        self.signature: Signature | None = None
        self.kept: Kept | None = None
        self.journal: Journal | None = None
        self.doubts = NONE

    # The file and the cache that begins with it

    def has_changed(self) -> bool:
        return self.folder is not None and self.folder.signature(self.name) != self.signature

    def image(self, target: str, now: int) -> tuple[bytes | None, int]:
        """The image of what is kept, or None, and its moment."""
        self.kept, self.doubts, self.size = None, NONE, 0
        if self.folder is None:
            return None, now
        self.signature = self.folder.signature(self.name)
        kept = self.folder.load(self.name)
        if kept is None:
            return None, now
        stored, self.spelling, self.size = kept.stored, kept.spelling, kept.stored.size
        stored.key = target
        image = write_image(stored.answered, [stored])
        self.kept, stored.runs = kept, []
        return image, stored.answered

    def forget(self) -> None:
        """Nothing is kept any more."""
        self.pause()
        self.kept = self.signature = None
        if self.folder is not None:
            self.folder.remove(self.name)

    def pause(self) -> None:
        """The file of a download that isn't whole stays, and others may go on with it."""
        self.journal, journal = None, self.journal
        if journal is not None:
            self._try(journal.part.close)

    def settle(self, cache: Cache) -> None:
        """Nobody reads any more: what is doubtful of the file is put right."""
        self.pause()
        doubts, self.doubts = self.doubts, NONE
        if self.folder is None or doubts == NONE or doubts == VALIDATED and self.size > LARGE:
            return
        try:
            items = read_image(cache.image())
            self._write(self.folder, items[0] if items else None)
        except (CacheError, MemoryError, OSError):
            self.forget()

    def _write(self, folder: Folder, stored: Stored | None) -> None:
        if stored is None or not stored.runs and stored.total != 0:
            return self.forget()
        self.kept = Kept(self.name, stored, self.spelling)
        self.size = stored.size
        folder.write(self.kept)
        self.signature, stored.runs = folder.signature(self.name), []

    # What happens

    def doubt(self, how: int = ALL) -> None:
        if how == ALL and self.doubts != ALL:
            self.forget()
        self.doubts = max(self.doubts, how)

    def begin(self, exchange: Exchange, is_refused: bool) -> None:
        """The head of the exchange came, and the cache didn't take it where `is_refused`."""
        status, fields = exchange.status, exchange.answer.kept_fields()
        if exchange.need in PAST_STORE:
            if exchange.method not in SAFE and status < 400:
                self.doubt()
        elif status == 304:
            self._respell(fields)
            self.doubt(VALIDATED)
        elif is_refused:
            self.doubt()
        elif exchange.need.startswith("hole:"):
            self._join(exchange)
        elif status < 500:
            self._found(exchange, fields)

    def _respell(self, fields: Fields) -> None:
        known = {name.lower() for name in self.spelling}
        self.spelling = self.spelling + [name for name, _ in fields if name.lower() not in known]

    def _found(self, exchange: Exchange, fields: Fields) -> None:
        """What was kept is replaced."""
        self.forget()
        self.spelling, self.size, self.doubts = [name for name, _ in fields], 0, ALL
        is_plain = exchange.status == 200 and not is_unstorable(exchange, 200, fields) and "*" not in "".join(values_of(fields, "vary"))
        if self.folder is None or not is_plain:
            return
        kept = Kept(self.name, stored_of(exchange, fields), self.spelling)
        self._write_on(exchange, kept, functools.partial(self.folder.begin, kept))
        if self.journal is not None and kept.stored.total == 0:
            self._finish(self.journal, 0)

    def _join(self, exchange: Exchange) -> None:
        """The rest of what was begun, or the bytes of a hole."""
        at = exchange.position = int(exchange.need[5:].split("-")[0])
        folder, kept, journal = self.folder, self.kept, self.journal
        if exchange.status != 206 or folder is None or kept is None or self.doubts == ALL:
            return self.doubt() if exchange.status < 500 else None
        if journal is not None and journal.part.end == at:
            journal.writes = exchange
        else:
            self.pause()
            self._write_on(exchange, kept, functools.partial(folder.resume, kept, at))

    def _write_on(self, exchange: Exchange, kept: Kept, opened: Callable[[], Part | None]) -> None:
        """What the exchange brings is written as it comes, where the file is there. Else it is doubtful."""
        try:
            part = opened()
        except OSError:
            part = None
        self.kept, self.doubts = (kept, NONE) if part is not None else (None, ALL)
        self.journal = Journal(part, kept, exchange) if part is not None else None

    def show(self, act: Shown) -> None:
        """The head that the rest updated, as it is shown to one without a range."""
        journal = self.journal
        exchange = journal.writes if journal is not None else None
        if journal is None or exchange is None or act.why != f"validated:{exchange.number}":
            return
        if act.status != 200:
            return self.doubt()
        stored = journal.kept.stored
        stored.fields = [line for line in act.fields if line[0] != "content-length"]
        stored.requested, stored.answered = exchange.requested, exchange.answered
        self._try(functools.partial(journal.part.head, journal.kept))

    def piece(self, exchange: Exchange, data: bytes) -> None:
        """Bytes of the body came."""
        at, journal = exchange.position, self.journal
        exchange.position += len(data)
        if exchange.need not in PAST_STORE:
            self.size = max(self.size, exchange.position)
        if journal is None or exchange is not journal.writes:
            return
        self._try(functools.partial(journal.part.data, at, data))
        if self.journal is journal and exchange.position == journal.kept.stored.total:
            self._finish(journal, exchange.position)

    def stop(self, exchange: Exchange, is_whole: bool) -> None:
        """The exchange ended, or broke."""
        journal = self.journal
        if journal is None or exchange is not journal.writes:
            return
        journal.writes = None
        stored = journal.kept.stored
        if is_whole and stored.total is None:
            self._finish(journal, exchange.position)
        elif stored.total is None or stored.tag == "-":
            self.doubt()

    def _finish(self, journal: Journal, total: int) -> None:
        self._try(functools.partial(journal.part.finish, total))
        if self.journal is journal and self.folder is not None:
            self.journal, self.signature = None, self.folder.signature(self.name)

    def _try(self, call: Callable[[], None]) -> None:
        """A file that can't be written is let go. The cache goes on without."""
        try:
            call()
        except OSError:
            self.doubt()
