"""A transport adapter for `requests` that caches.

    session = requests.Session()
    vosdrieng.requests.mount(session, store="~/.cache/film")
    session.get("https://example.org/film")

README.md beside this package tells what it does, and what it leaves to the origin.
"""
from __future__ import annotations

import collections
import functools
import gc
import http.client
import io
import os
import time
import weakref
from dataclasses import dataclass
from typing import Any, Callable, Mapping

import requests
import urllib3
from requests.adapters import HTTPAdapter
from requests.structures import CaseInsensitiveDict

from . import text
from .acts import Fields, Shown
from .errors import Changed, DownloadFailed, Gone, Refused
from .keeping import SAFE, Exchange
from .names import name_of
from .pool import Options, Pool
from .resource import WAITING, Duty, Passed, Reader, Resource, Sign
from .responses import Head, Lines, Message, Telling, as_text, spelled_head, told_head
from .sources import Source

LOOK_AGAIN = 1.0  # seconds after which who waits polls again: the moment may have changed what is due
WANT = 65536
AT_ONCE = 4 << 20
MOST_TIMES = 3  # how often a body is begun that changes in mid-download
CONDITIONS = ("if-none-match", "if-modified-since", "if-range", "range")
NETWORK = (requests.RequestException, urllib3.exceptions.HTTPError, http.client.HTTPException, OSError)

COLLECTING: list[bool] = []  # not empty while garbage is collected


def _note_collection(phase: str, _: object) -> None:
    COLLECTING.append(True) if phase == "start" else COLLECTING.clear()


gc.callbacks.append(_note_collection)


class Adapter(HTTPAdapter):
    """Sends what the cache lacks, and answers the rest.

    `store` is a folder in which downloads are kept through restarts; other processes may use it too. `library`, `program` and the
    limits are those of `vosdrieng.pool.Options`. All further words are HTTPAdapter's own. An answer tells by `from_cache` whether its
    head came without a download of its own, and by `cache_reason` why it could be given.

    Raises OSError where neither the library nor the program is here, or the folder can't be made.
    """

    __attrs__ = [*HTTPAdapter.__attrs__, "_words"]

    def __init__(self, store: str | os.PathLike[str] | None = None, *, library: str | os.PathLike[str] | None = None,
                 program: str | os.PathLike[str] | None = None, max_body: int | None = None, max_memory: int | None = None,
                 max_store: int | None = None, clock: Callable[[], float] | None = None, **rest: Any) -> None:
        words = {"library": library, "program": program, "max_body": max_body, "max_memory": max_memory, "max_store": max_store,
                 "clock": clock, "store": os.path.expanduser(store) if store is not None else None}
        self._words: dict[str, Any] = {name: value for name, value in words.items() if value is not None}
        self._begin()
        super().__init__(**rest)

    def _begin(self) -> None:
        self._pool = Pool(Options(**self._words), lambda resource: resource.lock.notify_all())
        self._left: collections.deque[Pump] = collections.deque()
        self._process = os.getpid()

    def _begin_in_child(self) -> None:
        """The caches of the parent aren't this process's. They are left alone, since other threads may have been amid their calls."""
        self._parents = self._pool, self._left
        self._begin()

    def __setstate__(self, state: Mapping[str, Any]) -> None:
        super().__setstate__(state)
        self._begin()

    def close(self) -> None:
        """Lets go what is in memory. What is in the store stays."""
        self._pool.close()
        super().close()

    def send(self, request: requests.PreparedRequest, stream: bool = False, timeout: Any = None, verify: Any = True, cert: Any = None,
             proxies: Any = None) -> requests.Response:
        """As HTTPAdapter.send. Raises the exceptions of requests, and `vosdrieng.Gone` where the cache itself has ended."""
        if self._process != os.getpid():
            self._begin_in_child()
        self.drain()
        asked = asked_of(request)
        answer = self._answer(asked, request, stream, {"timeout": timeout, "verify": verify, "cert": cert, "proxies": proxies})
        if request.method not in SAFE and answer.status_code < 400:
            self._pool.doom_others(asked.name)
        return answer

    def _answer(self, asked: "Asked", request: requests.PreparedRequest, stream: bool, words: dict[str, Any]) -> requests.Response:
        resource = self._pool.take(asked.name)
        duties: list[Duty] = []
        try:
            if asked.fields is None:
                raise Refused("the request has a line that a cache can't be told")
            method = request.method or "GET"
            with resource.lock:
                begun = resource.reader(method, asked.fields) if stream else resource.known_or_reader(method, asked.fields, duties)
        except Refused:
            return self._past(resource, request, stream, words)
        except BaseException as fault:
            self._drop_if_gone(resource, fault)
            self._pool.give_back(resource)
            raise
        if isinstance(begun, tuple):
            self._pool.give_back(resource)
            shown, body = begun
            return Telling(self, request, shown, stored_head(resource, shown)).whole(body)
        pump = Pump(self, resource, request, words, asked.fields, begun, duties)
        try:
            return pump.streamed() if stream else pump.read()
        except BaseException as fault:
            self._drop_if_gone(resource, fault)
            pump.close()
            raise

    def _drop_if_gone(self, resource: Resource, fault: BaseException) -> None:
        """Behind a cache that has ended the next call begins with another one."""
        if isinstance(fault, (Gone, MemoryError)):
            self._pool.drop(resource)

    def _past(self, resource: Resource, request: requests.PreparedRequest, stream: bool, words: dict[str, Any]) -> requests.Response:
        """A request that can't be said to the cache."""
        try:
            answer = super().send(request, stream=stream, **words)
            if request.method not in SAFE and answer.status_code < 400:
                with resource.lock:
                    resource.begin()
                    resource.doom()
            return answer
        finally:
            self._pool.give_back(resource)

    def fetch(self, request: requests.PreparedRequest, words: dict[str, Any]) -> requests.Response:
        """The answer of the origin."""
        return super().send(request, stream=True, **words)

    def drain(self) -> None:
        """Whoever was forgotten, and not closed, leaves."""
        while self._left:
            self._left.popleft().close()

    def leave(self, pump: "Pump") -> None:
        """Notes that somebody was forgotten. It may be called amid any other call, so nothing else is done."""
        self._left.append(pump)


def mount(session: requests.Session, store: str | os.PathLike[str] | None = None, **words: Any) -> Adapter:
    """Puts one adapter before both schemes of the session, and returns it."""
    adapter = Adapter(store, **words)
    session.mount("http://", adapter)
    session.mount("https://", adapter)
    return adapter


@dataclass(slots=True)
class Asked:
    """What a request asks for: the name of the resource, and its lines as a cache is told them, or None where it can't be."""

    name: str
    fields: Lines | None


def asked_of(request: requests.PreparedRequest) -> Asked:
    """What the request asks for."""
    headers = request.headers
    return _asked_of(request.url, tuple(headers._store.values() if isinstance(headers, CaseInsensitiveDict) else headers.items()))


@functools.lru_cache(1024)
def _asked_of(url: str | bytes, lines: tuple[tuple[str | bytes, str | bytes], ...]) -> Asked:
    """(Most requests of a session have the same header.)"""
    plain = [(as_text(name).lower(), value) for name, value in lines]
    resource = name_of(as_text(url), dict(plain).get("authorization"))
    try:
        return Asked(resource, tuple(text.sorted_fields([(name, as_text(value)) for name, value in plain])))
    except Refused:
        return Asked(resource, None)


class Answer(Source):
    """A source over an answer of `requests`, which `_past` gives on as it is."""

    def __init__(self, response: requests.Response) -> None:
        raw = response.raw
        original: Any = getattr(raw, "_original_response", None)
        self.is_plain = isinstance(original, http.client.HTTPResponse)
        told = original.msg.items() if self.is_plain else raw.headers.items()
        lines = [(name, " ".join(as_text(value).split("\r\n"))) for name, value in told]
        super().__init__(original, response.status_code, lines, self._done)
        self.response, self.reason = response, response.reason

    def kept_fields(self) -> list[tuple[str, str]]:
        """As for each source. An answer over anything but `http.client` is its caller's as it is."""
        if not self.is_plain:
            raise Refused("the answer didn't come over http.client")
        return super().kept_fields()

    def _done(self, is_whole: bool) -> None:
        if not is_whole:
            self.response.raw.close()
        self.response.raw.release_conn()


class Pump:
    """Drives one reader for one call of `send`: polls it, carries out its duties in this thread, and waits for other threads."""

    is_closed = is_reading = False
    times = 1

    def __init__(self, adapter: Adapter, resource: Resource, request: requests.PreparedRequest, words: dict[str, Any],
                 fields: Lines, reader: Reader, duties: list[Duty]) -> None:
        self.adapter, self.resource, self.request, self.words, self.fields = adapter, resource, request, words, fields
        self.reader, self.duties = reader, duties

    @property
    def patience(self) -> float:
        """How many seconds this call waits for what another's download brings."""
        timeout = self.words["timeout"]
        timeout = timeout[1] if isinstance(timeout, tuple) else getattr(timeout, "read_timeout", timeout)
        return timeout if isinstance(timeout, (int, float)) else float("inf")

    def next(self, want: int = WANT) -> Shown | bytes | None:
        """The head, then bytes, and None at the end. Raises what `Reader.poll` does, or ReadTimeout."""
        self.adapter.drain()
        waited, reader, lock = 0.0, self.reader, self.resource.lock
        while True:
            with lock:
                reader.is_polled = True
                answer = reader.poll(want, self.duties)
                if answer is WAITING and not self.duties:
                    glance = min(LOOK_AGAIN, max(self.patience, 0.01))
                    waited = 0.0 if lock.wait(glance) else waited + glance
                reader.is_polled = self.is_reading or isinstance(answer, Sign)
            if not isinstance(answer, Sign):
                return answer
            self._carry_out(waited)

    def _carry_out(self, waited: float) -> None:
        while self.duties:
            duty = self.duties[0]
            self._network(duty.exchange, self._open if duty.word == "open" else self._pull)
            self.duties.pop(0)
        if waited >= self.patience:
            raise requests.exceptions.ReadTimeout("another's download brought nothing in this time", request=self.request)
        if self.reader.pause and not self.reader.is_over:
            time.sleep(self.reader.pause)

    def _network(self, exchange: Exchange, call: Callable[[Exchange], None]) -> None:
        """What breaks is told to the cache, and what isn't the network's is raised as well."""
        try:
            call(exchange)
        except BaseException as error:
            with self.resource.lock:
                self.resource.failed(exchange, error)
            if not isinstance(error, NETWORK):
                raise

    def _open(self, exchange: Exchange) -> None:
        source = Answer(self.adapter.fetch(self._asked(exchange.fields), self.words))
        with self.resource.lock:
            self.resource.headed(exchange, source)

    def _pull(self, exchange: Exchange) -> None:
        data = exchange.answer.read()
        with self.resource.lock:
            self.resource.pulled(exchange, data)

    def _asked(self, fields: Fields) -> requests.PreparedRequest:
        """The request of this call, with the condition and the range that the cache asks for. The caller's own stays as it is."""
        wanted = {name: value for name, value in fields if name in CONDITIONS}
        own = {name.lower(): as_text(value) for name, value in self.request.headers.items() if name.lower() in CONDITIONS}
        if wanted == own:
            return self.request
        request = self.request.copy()
        for name in CONDITIONS:
            request.headers.pop(name, None)
        request.headers.update({name.title(): value for name, value in wanted.items()})
        return request

    def close(self) -> None:
        """The reader leaves, if it is still there, and the resource is given back. Once. What it didn't carry out has failed."""
        if self.is_closed:
            return
        self.is_closed = True
        try:
            if self.duties or not self.reader.is_over:
                self._leave()
        except (Gone, MemoryError):
            pass
        finally:
            self.adapter._pool.give_back(self.resource)

    def _leave(self) -> None:
        with self.resource.lock:
            self.reader.is_polled = False
            for duty in self.duties:
                self.resource.failed(duty.exchange, InterruptedError())
            self.reader.leave()

    # Answers

    def read(self) -> requests.Response:
        """The answer with all of its body."""
        self.is_reading = True
        try:
            body = self._whole()
        except Changed as changed:
            return self.read() if self._begins_again() else self._failed(changed, True)
        except DownloadFailed as failed:
            return self._failed(failed, self.reader.shown is not None)
        except Passed as passed:
            return self._passed(passed, False)
        self.close()
        return self._telling(self.reader.head).whole(body)

    def _begins_again(self) -> bool:
        """What changed in mid-download is asked for anew, where nobody has seen any of it; not for ever."""
        self.times += 1
        if self.times > MOST_TIMES:
            return False
        with self.resource.lock:
            self.reader = self.resource.reader("GET", self.fields)
        return True

    def _whole(self) -> bytes:
        """All bytes. Those of a small body that was read whole before are known: the bytes of a representation never change."""
        shown = self.next()
        known = self.resource.known_body(shown) if isinstance(shown, Shown) else None
        if known is not None:
            self.close()
            return known
        body = self._joined()
        with self.resource.lock:
            self.resource.know_body(self.reader, body)
        return body

    def _joined(self) -> bytes:
        """All bytes. They are joined at once where that is less than a large body, which is never there twice."""
        parts, room, size = [], io.BytesIO(), 0
        while data := self.next():
            # (a head comes again where a download broke before its first byte)
            parts += [data] if isinstance(data, bytes) else []
            size += len(parts[-1]) if parts else 0
            if size >= AT_ONCE:
                room.write(b"".join(parts))
                parts.clear()
                size = 0
        if not room.tell():
            return parts[0] if len(parts) == 1 else b"".join(parts)
        room.write(b"".join(parts))
        return room.getvalue()

    def streamed(self) -> requests.Response:
        """The answer whose body is read from `raw`."""
        try:
            first = self.next()
            while isinstance(first, Shown):
                first = self.next() if first.status == 206 else b""
        except DownloadFailed as failed:
            return self._failed(failed, False)
        except Passed as passed:
            return self._passed(passed, True)
        self.reader.is_delivered = True
        return self._telling(self.reader.head).streamed(Body(self, first))

    def _passed(self, passed: Passed, stream: bool) -> requests.Response:
        self.close()
        response: requests.Response = getattr(passed.source, "response")
        response.from_cache, response.cache_reason = False, "passed"
        if not stream:
            response.content
        return response

    def _failed(self, failed: DownloadFailed, is_begun: bool) -> requests.Response:
        """A request for what is stored alone is answered (RFC 9111 section 5.2.1.7), and all else raises."""
        self.close()
        if failed.cause == "miss" and not is_begun:
            return self._telling(Shown(0, 0, "miss", 504, 0, 0, [("content-length", "0")])).whole(b"")
        kind = requests.exceptions.ChunkedEncodingError if is_begun else requests.exceptions.ConnectionError
        raise kind(f"the download failed: {failed.cause}", request=self.request) from failed

    def _telling(self, shown: Shown) -> Telling:
        """What a response tells of what the reader is shown."""
        brought = self.reader.brought
        exchange = brought or self.reader.exchange
        message = Message(exchange.source.answer.msg) if exchange is not None and exchange.source is not None else None
        head = told_head(tuple(brought.answer.fields)) if brought else stored_head(self.resource, shown)
        return Telling(self.adapter, self.request, shown, head, brought, message)


def stored_head(resource: Resource, shown: Shown) -> Head:
    """The head of what came by no exchange of this call, with its lines in the order and case in which they came first."""
    return spelled_head(tuple(shown.fields), tuple(resource.keeper.spelling))


class Body(io.RawIOBase):
    """The body as it comes: what `raw` reads."""

    def __init__(self, pump: Pump, first: bytes | None) -> None:
        self.pump, self.rest, self.is_ended = pump, memoryview(first or b""), first is None
        self.fault: urllib3.exceptions.ProtocolError | None = None
        self.fp = Chunks(self)

    def _safe_read(self, size: int) -> bytes:
        return self.fp.read(size)

    def readable(self) -> bool:
        return True

    def read(self, size: int | None = -1) -> bytes:  # type: ignore[override]
        """At most so many bytes, or all. Raises ProtocolError of urllib3, which requests takes for its own."""
        if size is None or size < 0:
            return b"".join(iter(lambda: self._some(WANT), b""))
        parts, left = [], size
        while left and (data := self._some(left)):
            parts.append(data)
            left -= len(data)
        return parts[0] if len(parts) == 1 else b"".join(parts)

    def read1(self, size: int = -1) -> bytes:
        """What there is, at most so many bytes."""
        return self._some(size if size and size > 0 else WANT)

    def ready(self) -> int:
        """How many bytes are there, once there are some; 0 at the end."""
        if not self.rest and not self.is_ended:
            self.rest = memoryview(self._next())
        return len(self.rest)

    def _some(self, most: int) -> bytes:
        """The next bytes, at most so many; none at the end."""
        self.ready()
        data, self.rest = bytes(self.rest[:most]), self.rest[most:]
        return data

    def _next(self) -> bytes:
        """The next bytes from the pump. What broke is broken at each further call."""
        if self.fault is not None:
            raise self.fault
        try:
            data = self.pump.next()
        except (DownloadFailed, requests.RequestException) as failed:
            self.pump.close()
            self.fault = urllib3.exceptions.ProtocolError(f"the download failed: {failed}", failed)
            raise self.fault from failed
        if data is None:
            self.is_ended = True
            self.pump.close()
        return data if isinstance(data, bytes) else b""

    def close(self) -> None:
        """The reader leaves. A collection of garbage, which may come amid any call, has it leave with the adapter's next call."""
        if not self.closed and not self.pump.is_closed:
            self.is_ended, self.rest = True, memoryview(b"")
            self.pump.adapter.leave(self.pump) if COLLECTING else self.pump.close()
        super().close()

    def __del__(self) -> None:
        if not self.pump.is_closed:
            self.pump.adapter.leave(self.pump)


class Chunks:
    """A body of no known length, as urllib3 reads those: each piece as a chunk of its own."""

    def __init__(self, body: Body) -> None:
        self.body, self.left, self.is_over = weakref.proxy(body), 0, False

    def readline(self) -> bytes:
        """The line with the size of the next chunk; that of the last one is 0."""
        if self.is_over:
            return b""
        self.left = self.body.ready()
        self.is_over = not self.left
        return b"%x\r\n" % self.left

    def read(self, size: int) -> bytes:
        """Bytes of the chunk, or the end of a line behind it."""
        if not self.left:
            return b"\r\n"
        data = self.body.read(min(size, self.left))
        self.left -= len(data)
        return data
