"""An asyncio downloader: consumers of one URL share one download, and any of them may leave.

    async with vosdrieng.download.Downloader(store="downloads") as downloader:
        async with downloader.get("http://example.org/film") as answer:
            async for data in answer:
                ...

A broken download is resumed where its answer has a strong entity tag. With a `store`, it is resumed after a restart too.
"""
from __future__ import annotations

import asyncio
import concurrent.futures
import contextlib
import functools
import http.client
import os
import socket
import ssl
from typing import Any, AsyncIterator, Callable
from urllib.parse import urlsplit

from .acts import Fields, Shown
from .errors import DownloadFailed, Gone, Refused
from .keeping import Exchange
from .names import name_of
from .pool import Options, Pool
from .resource import WAITING, Duty, Passed, Reader, Resource, Sign
from .sources import Source

LOOK_AGAIN = 1.0  # seconds after which who waits polls again: the moment may have changed what is due
WANT = 65536
NETWORK = (OSError, http.client.HTTPException)
MOST_AT_ONCE = 64


class Downloader:
    """Downloads over HTTP/1.1, by GET. Redirects are told and not followed.

    `store` is a folder that keeps what was downloaded, in part too. `library`, `program`, the limits and the clock are those of
    `vosdrieng.pool.Options`. `timeout` is how many seconds the origin may be silent, and `at_once` how many exchanges wait for the
    network at once. Raises OSError where neither the library nor the program is here, or the folder can't be made.

    It belongs to the event loop in which it is used.
    """

    def __init__(self, store: str | os.PathLike[str] | None = None, *, timeout: float = 30.0, at_once: int = MOST_AT_ONCE,
                 context: ssl.SSLContext | None = None, **words: Any) -> None:
        self._pool = Pool(Options(store=store, **words), self._changed)
        self._moved: dict[Resource, asyncio.Event] = {}
        self._tasks: set[asyncio.Task[None]] = set()
        self._threads = concurrent.futures.ThreadPoolExecutor(at_once, "vosdrieng")
        self._timeout, self._context = timeout, context

    async def __aenter__(self) -> "Downloader":
        return self

    async def __aexit__(self, *_: object) -> None:
        await self.close()

    def get(self, url: str, fields: Fields = (), load: str = "normal") -> "Answer":
        """A consumer of the URL, which begins with `async with`. `load` is that of `Cache.start`."""
        return Answer(self, url, fields, load)

    async def close(self) -> None:
        """Ends what is open. Parts that came stay in the store."""
        for task in self._tasks:
            task.cancel()
        await asyncio.gather(*self._tasks, return_exceptions=True)
        self._pool.close()
        self._threads.shutdown(wait=False, cancel_futures=True)

    def _changed(self, resource: Resource) -> None:
        event = self._moved.pop(resource, None)
        if event is not None:
            event.set()

    async def _wait(self, resource: Resource) -> None:
        event = self._moved.setdefault(resource, asyncio.Event())
        try:
            await asyncio.wait_for(event.wait(), LOOK_AGAIN)
        except asyncio.TimeoutError:
            pass

    def _carry_out(self, resource: Resource, duties: list[Duty]) -> None:
        """The network's work goes on by itself, whoever asked for it leaves."""
        for duty in duties:
            task = asyncio.get_running_loop().create_task(self._network(resource, duty))
            self._tasks.add(task)
            task.add_done_callback(self._tasks.discard)

    async def _network(self, resource: Resource, duty: Duty) -> None:
        exchange = duty.exchange
        try:
            if duty.word == "open":
                resource.headed(exchange, await self._in_thread(self._open, str(exchange.reader.owner), exchange))
            else:
                resource.pulled(exchange, await self._in_thread(exchange.answer.read))
        except BaseException as error:
            resource.failed(exchange, error)
            if not isinstance(error, NETWORK):
                raise

    async def _in_thread(self, call: Callable[..., Any], *arguments: object) -> Any:
        return await asyncio.get_running_loop().run_in_executor(self._threads, functools.partial(call, *arguments))

    def _open(self, url: str, exchange: Exchange) -> Source:
        """Sends the request of the exchange, and reads the head of its answer. In a thread."""
        parts = urlsplit(url)
        connection = self._connection(parts.scheme, parts.hostname, parts.port)
        try:
            path = (parts.path or "/") + (f"?{parts.query}" if parts.query else "")
            connection.putrequest(exchange.method, path, skip_accept_encoding=True)
            for name, value in exchange.fields:
                connection.putheader(name, value)
            connection.endheaders()
            wire = connection.sock
            answer = connection.getresponse()
        except BaseException:
            connection.close()
            raise
        lines = [(name, " ".join(value.split("\r\n"))) for name, value in answer.getheaders()]
        source = Source(answer, answer.status, lines, lambda _: _hang_up(connection, wire))
        source.is_stoppable = True
        return source

    def _connection(self, scheme: str, host: str | None, port: int | None) -> http.client.HTTPConnection:
        if scheme == "https":
            return http.client.HTTPSConnection(host or "", port, timeout=self._timeout, context=self._context)
        return http.client.HTTPConnection(host or "", port, timeout=self._timeout)


def _hang_up(connection: http.client.HTTPConnection, wire: socket.socket) -> None:
    """Ends a read that another thread may be in, and closes."""
    with contextlib.suppress(OSError):
        wire.shutdown(socket.SHUT_RDWR)
    connection.close()


class Answer:
    """One consumer of a URL: its head once it has begun, and its bytes by `async for`.

    Beginning it raises what broke the connection, `DownloadFailed`, and `Refused` where the URL or a field is none. Reading raises
    `DownloadFailed` where the rest can't be had, and `Changed` where it is of another body by now. Leaving early leaves the download
    to the others.
    """

    def __init__(self, downloader: Downloader, url: str, fields: Fields, load: str) -> None:
        parts = urlsplit(url)
        if parts.scheme not in ("http", "https") or not parts.hostname or not url.isascii() or any(it <= " " for it in url):
            raise Refused(f"{url!r} is no URL that can be downloaded")
        self.url, self.fields, self.load = url.partition("#")[0], fields, load
        self.downloader = downloader
        self._first: bytes | None = b""
        self._fault: DownloadFailed | None = None
        self._resource: Resource | None = None
        self._reader: Reader | None = None

    @property
    def shown(self) -> Shown:
        """The head. Raises DownloadFailed before it has begun."""
        return self._begun().head

    def _begun(self) -> Reader:
        if self._reader is None:
            raise DownloadFailed("it hasn't begun")
        return self._reader

    @property
    def status(self) -> int:
        return self.shown.status

    @property
    def why(self) -> str:
        """Why the head may be shown: `fetched:X`, `fresh:AGE/LIFETIME`, `stale:AGE/LIFETIME` or `validated:X`."""
        return self.shown.why

    @property
    def length(self) -> int | None:
        """How many bytes the body has, where that is known."""
        return None if self.shown.high is None else self.shown.high - self.shown.low

    @property
    def headers(self) -> dict[str, str]:
        """The fields by their names in lower case; lines of one name are joined."""
        joined: dict[str, str] = {}
        for name, value in self.shown.fields:
            joined[name] = f"{joined[name]}, {value}" if name in joined else value
        return joined

    async def __aenter__(self) -> "Answer":
        who = next((value for name, value in self.fields if name.lower() == "authorization"), None)
        self._resource = self.downloader._pool.take(name_of(self.url, who))
        try:
            self._reader = self._resource.reader("GET", self.fields, self.load)
            self._reader.owner = self.url
            answer = await self._next()
            while isinstance(answer, Shown):
                answer = await self._next() if answer.status == 206 else b""
            self._first, self._reader.is_delivered = answer, True
            return self
        except Passed as passed:
            self._leave()
            passed.source.hang_up()
            raise DownloadFailed("bad-head") from passed
        except BaseException:
            self._leave()
            raise

    async def __aexit__(self, *_: object) -> None:
        self._leave()

    async def __aiter__(self) -> AsyncIterator[bytes]:
        data = self._first or await self._next() if self._first is not None else None
        self._first = b""
        while isinstance(data, bytes):
            yield data
            data = await self._next()

    async def read(self) -> bytes:
        """All bytes that are left."""
        return b"".join([data async for data in self])

    async def _next(self) -> Shown | bytes | None:
        """What comes next. What failed fails again at each further call."""
        if self._fault is not None:
            raise self._fault
        try:
            return await self._come()
        except DownloadFailed as fault:
            self._fault = fault
            raise

    async def _come(self) -> Shown | bytes | None:
        reader, resource = self._begun(), self._resource
        if reader.is_over or resource is None:
            return None
        while True:
            duties: list[Duty] = []
            reader.is_polled = True
            answer = reader.poll(WANT, duties)
            self.downloader._carry_out(resource, duties)
            if not isinstance(answer, Sign):
                reader.is_polled = False
                return answer
            if answer is WAITING:
                await self.downloader._wait(resource)
            elif reader.pause:
                await asyncio.sleep(reader.pause)

    def _leave(self) -> None:
        resource, self._resource = self._resource, None
        if resource is None:
            return
        try:
            if self._reader is not None:
                self._reader.is_polled = False
                self._reader.leave()
        except (Gone, MemoryError):
            self.downloader._pool.drop(resource)
        finally:
            self.downloader._pool.give_back(resource)


async def save(answer: Answer, path: str | os.PathLike[str]) -> int:
    """Writes the body to a file, beside it first, and returns how many bytes it has. Raises what reading and writing do."""
    beside, size = f"{os.fspath(path)}.beside", 0
    try:
        with open(beside, "wb") as file:
            async for data in answer:
                size += file.write(data)
        os.replace(beside, path)
    except BaseException:
        os.unlink(beside)
        raise
    return size


__all__ = ["Answer", "Downloader", "DownloadFailed", "save"]
