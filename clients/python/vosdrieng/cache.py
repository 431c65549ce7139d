"""A cache: one call an event, answered by the acts that are due."""
from __future__ import annotations

import abc
import os
from typing import TYPE_CHECKING, BinaryIO

from .acts import Act, Fields

if TYPE_CHECKING:
    from .library import LibraryCache

LARGEST_BODY = 16 << 20
LARGEST_STORE = 256 << 20


class Cache(abc.ABC):
    """A cache of Vosdrieng. It decides and stores; the caller brings the bytes and hands out what it is told.

    `Cache.library` has it in this process, `Cache.process` in a process of the program. docs/RULES.md tells what is due at an event.
    Each event has a moment `now`, in whole seconds since 1970, that isn't below the one before. Consumers are numbered by the caller,
    each above all before it. An event that the cache denies is answered by one act, `Denied`.

    Each event raises `Refused` where it can't be said: a number, a field, a method or a target is none, or the moment is below the
    last one. Then nothing has changed. Each raises `Gone` where the cache answers nothing any more. One thread at a time may call.
    """

    last_consumer: int
    """The number of the last consumer that started: the next one has to be above it."""

    @staticmethod
    def library(path: str | os.PathLike[str] | None = None, *, max_body: int = LARGEST_BODY, max_total: int = LARGEST_STORE,
                image: bytes | None = None) -> "LibraryCache":
        """A cache in this process, over the shared library at `path`, which begins with what `image` has.

        It takes the text of a schedule too (`schedule`), in place of events. Raises OSError where the library can't be loaded, `BadImage`
        where no cache may begin with the image, and MemoryError.
        """
        from .library import LibraryCache
        return LibraryCache(path, max_body, max_total, image)

    @staticmethod
    def process(program: str | os.PathLike[str] = "vosdrieng", *, image: bytes | None = None, log: BinaryIO | None = None) -> "Cache":
        """A cache in a process of the program `vosdrieng`, over pipes, which begins with what `image` has.

        `log` is a file, open for reading and writing: the schedule so far. `image()` needs it. A representation of the image that
        isn't stored from its first byte on isn't taken over. Raises OSError where the program can't be run, and `BadImage`.
        """
        from .process import ProcessCache
        return ProcessCache(program, image, log)

    @abc.abstractmethod
    def start(self, now: int, consumer: int, method: str, target: str, fields: Fields = (), load: str = "normal") -> list[Act]:
        """The consumer begins with this request. `load` is `normal`, `validate`, `bypass`, `skip`, `only` or `disable`."""

    @abc.abstractmethod
    def poll(self, now: int, consumer: int, want: int) -> list[Act]:
        """The consumer asks for at most `want` bytes, 0 to 65,536."""

    @abc.abstractmethod
    def cancel(self, now: int, consumer: int) -> list[Act]:
        """The consumer leaves."""

    @abc.abstractmethod
    def doom(self, now: int, target: str) -> list[Act]:
        """What is stored for the target isn't to be used any more."""

    @abc.abstractmethod
    def head(self, now: int, exchange: int, status: int, fields: Fields = ()) -> list[Act]:
        """The head of the exchange came."""

    @abc.abstractmethod
    def piece(self, now: int, exchange: int, data: bytes) -> list[Act]:
        """Bytes of the body of the exchange came, at most 65,536."""

    @abc.abstractmethod
    def end(self, now: int, exchange: int) -> list[Act]:
        """The body of the exchange came to its end."""

    @abc.abstractmethod
    def fault(self, now: int, exchange: int) -> list[Act]:
        """The exchange broke."""

    @abc.abstractmethod
    def image(self) -> bytes:
        """The image of what the store has. Nobody may be live: else it raises `Refused`."""

    @abc.abstractmethod
    def close(self) -> None:
        """Lets the cache go. It may be closed again."""

    def __enter__(self) -> "Cache":
        return self

    def __exit__(self, *_: object) -> None:
        self.close()
