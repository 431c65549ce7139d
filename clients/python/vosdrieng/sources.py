"""What brings an answer: a head, and its body piece by piece as it came over the network."""
from __future__ import annotations

import http.client
from typing import Callable, Sequence

from .errors import Refused

DROPPED = frozenset({"connection", "keep-alive", "proxy-authenticate", "proxy-authentication-info", "proxy-connection", "te", "trailer",
                     "transfer-encoding", "upgrade"})
PIECE = 65536


class Source:
    """An answer over `http.client`, below whatever opened its connection.

    `fields` are all lines of its head in their order. `hang_up(whole)` gives the connection back, for another request where the
    answer is whole. It `is_stoppable` where that ends a read in another thread.
    """

    is_stoppable = False

    def __init__(self, answer: http.client.HTTPResponse, status: int, fields: Sequence[tuple[str, str]],
                 hang_up: Callable[[bool], None]) -> None:
        self.answer, self.status, self.fields, self._hang_up = answer, status, fields, hang_up
        self.reason = getattr(answer, "reason", "")

    def kept_fields(self) -> list[tuple[str, str]]:
        """The fields without those of the connection (RFC 9111 section 3.1), and without a length beside chunks (RFC 9112 section 6.3).

        Raises Refused where the body comes in a coding that isn't read.
        """
        codings = [value.strip().lower() for name, value in self.fields if name.lower() == "transfer-encoding"]
        if codings not in ([], ["chunked"]):
            raise Refused("the body comes in a coding that isn't read")
        named = {it.strip().lower() for name, value in self.fields if name.lower() == "connection" for it in value.split(",")}
        named |= {"content-length"} if codings else set()
        return [line for line in self.fields if line[0].lower() not in DROPPED and line[0].lower() not in named]

    def read(self) -> bytes:
        """The next bytes, as soon as there are some; none at the end. Raises OSError or HTTPException where the connection broke."""
        before = self.answer.length
        data = self.answer.read1(PIECE)
        if before is not None and data and self.answer.length == before:
            # (before Python 3.12 this call doesn't count what is left)
            self.answer.length = before - len(data)
        if self.answer.length == 0:
            self.answer.close()
        return data

    def is_done(self) -> bool:
        """Whether all of a body of a known length has come."""
        return self.answer.length == 0

    def is_whole(self) -> bool:
        """Behind the last bytes: whether that was the end, and no break."""
        return self.answer.length in (None, 0)

    def hang_up(self) -> None:
        hang_up, self._hang_up = self._hang_up, lambda whole: None
        hang_up(self.answer.isclosed() and self.is_whole())
