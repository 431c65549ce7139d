"""A cache in a process: `vosdrieng replay` behind pipes.

The end of an entry of the report isn't marked. So behind each event goes another one that is denied, `cancel 0`, and its entry is the
fence that ends the one before. One event is sent at a time, so that neither side waits for the other with full pipes.
"""
from __future__ import annotations

import contextlib
import functools
import itertools
import os
import re
import subprocess
import tempfile
from typing import BinaryIO, Iterator

from . import text
from .acts import Act, Ask, Fields, Open
from .cache import Cache
from .errors import BadImage, Gone, Refused
from .images import Stored, read_image

FENCE = "cancel 0\n"
PLAIN_TARGET = re.compile(r"https?://[a-z][a-z0-9-]*(\.[a-z][a-z0-9-]*)*/[A-Za-z0-9_~!$&()*+,;=:@/-]*\Z")


@functools.lru_cache(4096)
def is_target(program: str, target: str) -> bool:
    """Whether the program takes the target. A line that is refused ends a process, so where it isn't plain another one is asked."""
    if not 1 <= len(target) <= 8192 or not target.isascii() or re.search(r"[\x00-\x20\x7f]", target):
        return False
    if PLAIN_TARGET.match(target) and "xn--" not in target:
        return True
    ran = subprocess.run([program, "replay"], input=f"doom {target}\n".encode(), capture_output=True)
    return ran.returncode == 0


class ProcessCache(Cache):
    closes_log = False

    def __init__(self, program: str | os.PathLike[str], image: bytes | None, log: BinaryIO | None) -> None:
        self._program, self._log = os.fspath(program), log
        items = read_image(image) if image is not None else []
        pipe = subprocess.PIPE
        self._process = subprocess.Popen([self._program, "replay"], stdin=pipe, stdout=pipe, stderr=subprocess.DEVNULL)
        assert self._process.stdin is not None and self._process.stdout is not None
        self._input, self._output = self._process.stdin, self._process.stdout
        self._now, self._number, self.last_consumer = 0, 0, 0
        if items:
            self._begin(items)

    def start(self, now: int, consumer: int, method: str, target: str, fields: Fields = (), load: str = "normal") -> list[Act]:
        self._hold(target)
        acts = self._step(now, text.started(consumer, method, load, target, fields))
        self.last_consumer = self.last_consumer if acts else consumer
        return acts

    def poll(self, now: int, consumer: int, want: int) -> list[Act]:
        return self._step(now, text.polled(consumer, want))

    def cancel(self, now: int, consumer: int) -> list[Act]:
        return self._step(now, f"cancel {text.number(consumer)}\n")

    def doom(self, now: int, target: str) -> list[Act]:
        self._hold(target)
        return self._step(now, f"doom {target}\n")

    def head(self, now: int, exchange: int, status: int, fields: Fields = ()) -> list[Act]:
        return self._step(now, text.headed(exchange, status, fields))

    def piece(self, now: int, exchange: int, data: bytes) -> list[Act]:
        return self._step(now, text.pieced(exchange, data))

    def end(self, now: int, exchange: int) -> list[Act]:
        return self._step(now, f"end {text.number(exchange)}\n")

    def fault(self, now: int, exchange: int) -> list[Act]:
        return self._step(now, f"fault {text.number(exchange)}\n")

    def image(self) -> bytes:
        """By `vosdrieng save` over the log. It would cancel who is live, so the caller sees to it that nobody is."""
        if self._log is None:
            raise Refused("a cache in a process has an image only where it has a log")
        self._log.flush()
        self._log.seek(0)
        ran = subprocess.run([self._program, "save"], stdin=self._log, capture_output=True)
        self._log.seek(0, os.SEEK_END)
        if ran.returncode != 0:
            raise Gone(f"the log can't be saved: {ran.stderr.decode(errors='replace').strip()}")
        return ran.stdout

    def close(self) -> None:
        if not self._output.closed:
            with contextlib.suppress(OSError):
                self._input.close()
            self._output.close()
            self._process.wait()
        if self.closes_log and self._log is not None:
            self._log.close()

    def __del__(self) -> None:
        if hasattr(self, "_output"):
            self.close()

    def _hold(self, target: str) -> None:
        if not is_target(self._program, target):
            raise Refused(f"{target!r} is no target in the spelling of the URL Standard")

    def _step(self, now: int, event: str) -> list[Act]:
        """Sends the event with the fence behind it, and reads what it is answered."""
        if text.number(now) < self._now:
            raise Refused(f"the moment {now} is below {self._now}")
        if now > self._now:
            event = f"at {now}\n{event}"
        sent = event.encode("latin-1")
        try:
            self._input.write(sent + FENCE.encode())
            self._input.flush()
            self._now, self._number = now, self._number + 2
            lines = list(self._entry())
        except (OSError, ValueError) as fault:
            raise Gone("the process of the cache has ended") from fault
        if self._log is not None:
            self._log.write(sent)
        return text.acts_of(iter(lines[1:]))

    def _entry(self) -> Iterator[str]:
        """The lines of the entry, without the fence behind it."""
        fence = b"> %d\n" % self._number
        for line in iter(self._output.readline, fence):
            if not line:
                raise ValueError("the report ended")
            yield line[:-1].decode("latin-1")
        if not self._output.readline():
            raise ValueError("the report ended")

    # A restart: the events of the past that lead to what an image has.

    def _begin(self, items: list[Stored]) -> None:
        kept = [item for item in items if item.status == 200 and (item.front() or item.total == 0)]
        order = [(moment, place, item) for item in kept for place, moment in enumerate((item.requested, item.answered))]
        consumers = {item.key: number for number, item in enumerate(kept, 1)}
        opened: dict[str, int] = {}
        for moment, place, item in sorted(order, key=lambda it: it[:2]):
            if place == 0:
                opened[item.key] = self._asked(consumers[item.key], item)
            else:
                self._brought(consumers[item.key], opened[item.key], item)

    def _asked(self, consumer: int, item: Stored) -> int:
        """The exchange that is opened for the item."""
        self.start(item.requested, consumer, "GET", item.key, item.vary)
        acts = self.poll(item.requested, consumer, 1)
        if not acts or not isinstance(acts[0], Open):
            raise BadImage(f"no cache can begin with {item.key}")
        return acts[0].exchange

    def _brought(self, consumer: int, exchange: int, item: Stored) -> None:
        """The head and the bytes of the item are brought again."""
        now, data = item.answered, item.front()
        length = [] if item.total is None else [("content-length", str(item.total))]
        self.head(now, exchange, 200, [*item.fields, *length])
        self.poll(now, consumer, 1)
        for at in range(0, len(data), text.MOST_PIECE):
            acts = list(itertools.chain.from_iterable(self.poll(now, consumer, text.MOST_PIECE) for _ in range(2)))
            if Ask(exchange) not in acts and at:
                raise BadImage(f"no cache can begin with {item.key}")
            self.piece(now, exchange, data[at:at + text.MOST_PIECE])
        self.cancel(now, consumer)


def with_a_log(program: str | os.PathLike[str], image: bytes | None) -> ProcessCache:
    """A cache in a process that has a log of its own."""
    cache = ProcessCache(program, image, temporary_log())
    cache.closes_log = True
    return cache


def temporary_log() -> BinaryIO:
    """A log for a cache in a process whose image is wanted."""
    return tempfile.TemporaryFile("w+b")  # type: ignore[return-value]
