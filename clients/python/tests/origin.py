"""A test origin on loopback: what it answers is told by each test, and what it was asked is kept."""
from __future__ import annotations

import contextlib
import email.utils
import http.server
import re
import socket
import threading
import time
from dataclasses import dataclass, field
from typing import Callable


@dataclass
class Thing:
    """What stands at a path. `breaks` are positions at which a connection breaks, each once; `after` takes its place at a break."""

    body: bytes = b""
    tag: str | None = '"v1"'
    fields: list[tuple[str, str]] = field(default_factory=lambda: [("Cache-Control", "max-age=600")])
    status: int = 200
    breaks: list[int] = field(default_factory=list)
    chunked: bool = False
    pause: float = 0.0
    step: int = 65536
    gate: threading.Event | None = None
    takes_ranges: bool = True
    after: "Thing | None" = None


@dataclass
class Asked:
    method: str
    path: str
    fields: dict[str, str]
    status: int = 0
    sent: int = 0


class Origin:
    """Serves `things` by their path, in threads. `asked` is what came, in order."""

    def __init__(self, clock: Callable[[], float] = time.time) -> None:
        self.clock = clock
        self.things: dict[str, Thing] = {}
        self.asked: list[Asked] = []
        origin = self

        class Handler(_Handler):
            server_of = origin

        self.server = http.server.ThreadingHTTPServer(("127.0.0.1", 0), Handler)
        self.server.daemon_threads = True
        self.thread = threading.Thread(target=self.server.serve_forever, kwargs={"poll_interval": 0.02}, daemon=True)
        self.thread.start()

    def put(self, path: str, body: bytes = b"", **words: object) -> Thing:
        self.things[path] = Thing(body, **words)  # type: ignore[arg-type]
        return self.things[path]

    def url(self, path: str) -> str:
        return f"http://127.0.0.1:{self.server.server_port}{path}"

    def of(self, path: str) -> list[Asked]:
        return [it for it in self.asked if it.path == path]

    def close(self) -> None:
        self.server.shutdown()
        self.server.server_close()
        self.thread.join()

    def __enter__(self) -> "Origin":
        return self

    def __exit__(self, *_: object) -> None:
        self.close()


class _Handler(http.server.BaseHTTPRequestHandler):
    protocol_version = "HTTP/1.1"
    server_of: Origin

    def log_message(self, *_: object) -> None:
        pass

    def handle(self) -> None:
        with contextlib.suppress(ConnectionError):
            super().handle()

    def setup(self) -> None:
        self.request.setsockopt(socket.IPPROTO_TCP, socket.TCP_NODELAY, 1)
        super().setup()

    def _answer(self) -> None:
        asked = Asked(self.command, self.path, {name.lower(): value for name, value in self.headers.items()})
        self.server_of.asked.append(asked)
        self.rfile.read(int(self.headers.get("content-length") or 0))
        thing = self.server_of.things.get(self.path, Thing(status=404, fields=[], tag=None))
        if thing.gate is not None:
            thing.gate.wait(20)
        self._send(asked, thing)

    do_GET = do_HEAD = do_POST = do_PUT = do_DELETE = do_PATCH = do_OPTIONS = _answer

    def _part(self, thing: Thing) -> tuple[int, int, int]:
        """The status, and which bytes."""
        wanted = re.fullmatch(r"bytes=(\d+)-(\d*)", self.headers.get("range") or "")
        condition = self.headers.get("if-range")
        if not wanted or thing.status != 200 or not thing.takes_ranges or condition not in (None, thing.tag):
            return thing.status, 0, len(thing.body)
        first, end = int(wanted[1]), min(int(wanted[2] or len(thing.body)) + 1, len(thing.body))
        return (206, first, end) if first < end else (416, 0, 0)

    def _send(self, asked: Asked, thing: Thing) -> None:
        tags = [it.strip() for it in (self.headers.get("if-none-match") or "").split(",")]
        status, first, end = (304, 0, 0) if thing.tag and thing.tag in tags else self._part(thing)
        asked.status = status
        self.send_response_only(status)
        for name, value in [*thing.fields, *[("ETag", thing.tag)] * bool(thing.tag), ("Date", email.utils.formatdate(self.server_of.clock(), usegmt=True))]:
            self.send_header(name, value)
        if status in (206, 416):
            part = f"{first}-{end - 1}" if status == 206 else "*"
            self.send_header("Content-Range", f"bytes {part}/{len(thing.body)}")
        is_chunked = thing.chunked and status == 200
        if is_chunked:
            self.send_header("Transfer-Encoding", "chunked")
        elif status != 304:
            self.send_header("Content-Length", str(end - first))
        self.end_headers()
        if self.command != "HEAD" and status != 304:
            self._body(asked, thing, first, end, is_chunked)

    def _body(self, asked: Asked, thing: Thing, first: int, end: int, is_chunked: bool) -> None:
        """The bytes, to the end or to the next break."""
        stop = next((at for at in thing.breaks if first <= at < end), None)
        if stop is not None:
            thing.breaks.remove(stop)
        try:
            for at in range(first, end if stop is None else stop, thing.step):
                data = thing.body[at:min(at + thing.step, end if stop is None else stop)]
                asked.sent += len(data)  # (before it is there for whoever counts)
                self.wfile.write(b"%x\r\n%b\r\n" % (len(data), data) if is_chunked else data)
                time.sleep(thing.pause)
            if stop is not None:
                self.server_of.things[self.path] = thing.after or thing
                self.close_connection = True
            elif is_chunked:
                self.wfile.write(b"0\r\n\r\n")
        except OSError:
            self.close_connection = True
