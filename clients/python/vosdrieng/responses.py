"""Responses of `requests`, made of what a consumer is shown."""
from __future__ import annotations

import email.message
import functools
import http.client
import http.cookiejar
import io
from dataclasses import dataclass
from typing import Any, Callable

import requests
import urllib3
from requests.adapters import HTTPAdapter
from requests.cookies import RequestsCookieJar, extract_cookies_to_jar
from requests.structures import CaseInsensitiveDict
from requests.utils import get_encoding_from_headers

from .acts import Fields, Shown
from .keeping import Exchange

BLANK = vars(requests.Response())
POLICY = http.cookiejar.DefaultCookiePolicy()  # that of each response's cookies, as `requests` makes it for each
Lines = tuple[tuple[str, str], ...]
Headers = CaseInsensitiveDict[str]


def as_text(it: str | bytes) -> str:
    return it.decode("latin-1") if isinstance(it, bytes) else it


@dataclass(slots=True)
class Message:
    """What `requests` takes cookies from."""

    msg: Any
    _method: str = "GET"

    def isclosed(self) -> bool:
        return True

    def close(self) -> None:
        pass


class _HasCookies:
    """Shaped as `extract_cookies_to_jar` takes it."""

    def __init__(self, lines: Lines) -> None:
        message = email.message.Message()
        for name, value in lines:
            if name.lower() == "set-cookie":
                message[name] = value
        self._original_response = Message(message)


@dataclass(slots=True)
class Head:
    """A head as `requests` tells it. `told` is the dictionary of its headers, a line for each name; `names` are in lower case."""

    lines: Lines
    told: dict[str, tuple[str, str]]
    encoding: str | None
    names: frozenset[str]

    def headers(self) -> Headers:
        """(`CaseInsensitiveDict(..)` sets one line after the other.)"""
        headers: Headers = object.__new__(CaseInsensitiveDict)
        headers._store = self.told.copy()
        return headers

    def response(self) -> requests.Response:
        """A response with this head. (`requests.Response()` looks for cookies in an empty jar, with a policy of its own.)"""
        response = object.__new__(requests.Response)
        response.__dict__.update(BLANK)
        response.history, response.cookies = [], RequestsCookieJar(POLICY)
        response.headers, response.encoding = self.headers(), self.encoding
        return response


@functools.lru_cache(256)
def told_head(lines: Lines) -> Head:
    """The head of these lines. What stands on several is joined."""
    headers: Headers = CaseInsensitiveDict()
    for name, value in lines:
        headers[name] = f"{headers[name]}, {value}" if name in headers else value
    return Head(lines, dict(headers._store), get_encoding_from_headers(headers), frozenset(name.lower() for name in headers))


@functools.lru_cache(256)
def spelled_head(fields: Lines, spelling: tuple[str, ...]) -> Head:
    """The head of the fields, in the order and case in which they came first, and behind them those that are new.

    (Hits of one second have the same.)
    """
    values = _by_name(fields)
    known = [(name, values[name.lower()].pop(0)) for name in spelling if values.get(name.lower())]
    return told_head((*known, *((name.title(), value) for name, left in values.items() for value in left)))


def _by_name(fields: Fields) -> dict[str, list[str]]:
    values: dict[str, list[str]] = {}
    for name, value in fields:
        values.setdefault(name, []).append(value)
    return values


@dataclass(slots=True)
class Telling:
    """What a response tells: a head, how it came about, and the exchange whose head it is, if this call brought it.

    `message` is what the origin told this call, from which the session takes cookies. A hit sets none.
    """

    adapter: HTTPAdapter
    request: requests.PreparedRequest
    shown: Shown
    head: Head
    brought: Exchange | None = None
    message: Message | None = None

    @property
    def reason(self) -> str:
        return self.brought.answer.reason if self.brought else http.client.responses.get(self.shown.status, "")

    def streamed(self, body: Any) -> requests.Response:
        """A response whose body is read from `raw`."""
        response = self._response()
        response.raw = self._raw(body)
        return response

    def whole(self, body: bytes) -> requests.Response:
        """A response with all of its body. Raises ContentDecodingError."""
        response = self._response()
        response.raw, response._content_consumed = LazyRaw(lambda: self._raw(io.BytesIO(body)), self.message), True
        response._content = decoded(body, response) if "content-encoding" in self.head.names else body
        return response

    def _response(self) -> requests.Response:
        response, request = self.head.response(), self.request
        response.status_code, response.reason = self.shown.status, self.reason
        response.url, response.request, response.connection = as_text(request.url), request, self.adapter
        response.from_cache, response.cache_reason = self.brought is None, self.shown.why
        if "set-cookie" in self.head.names:
            extract_cookies_to_jar(response.cookies, request, _HasCookies(self.head.lines))
        return response

    def _raw(self, body: Any) -> urllib3.HTTPResponse:
        headers = urllib3._collections.HTTPHeaderDict()
        for name, value in self.head.lines:
            headers.add(name, value)
        if self.shown.high is None:
            # (urllib3 hands on each piece of such a body as it comes, and fills up those of others)
            headers["Transfer-Encoding"] = "chunked"
        return urllib3.HTTPResponse(body=body, headers=headers, status=self.shown.status, version=11, reason=self.reason,
                                    preload_content=False, decode_content=False, original_response=self.message,
                                    request_method=self.request.method)


class LazyRaw:
    """What stands as `raw` beside a body that was read: made where somebody asks for it."""

    def __init__(self, make: Callable[[], urllib3.HTTPResponse], message: Message | None) -> None:
        self._made, self._original_response = make, message

    def __getattr__(self, name: str) -> Any:
        if name == "_real":
            self._real = self._made()
            return self._real
        return getattr(self._real, name)

    def __iter__(self) -> Any:
        return iter(self._real)

    def close(self) -> None:
        pass

    def release_conn(self) -> None:
        pass


def decoded(body: bytes, response: requests.Response) -> bytes:
    """The body without its content coding. Raises ContentDecodingError."""
    if not body:
        return body
    try:
        return urllib3.HTTPResponse(body=io.BytesIO(body), headers=response.headers, preload_content=False).read(decode_content=True)
    except urllib3.exceptions.DecodeError as fault:
        raise requests.exceptions.ContentDecodingError(fault, response=response) from fault
