"""Heads and bodies of HTTP/1.1 as the proxy reads and writes them (docs/FORMATS.md), written apart from the program.

A reader is asked what stands next in bytes that came. It answers one of these:
    ("waits", state)           nothing whole stands there
    ("tells", what, rest, state)   a request or a head, and the bytes behind it
    ("brings", bytes, rest, state) bytes of a body
    ("ends",)                  the body is over
    ("fails", status)          it is refused; for a request with this status
"""
import re

TOKEN = rb"[!#$%&'*+.^_`|~0-9A-Za-z-]+"
TOKEN_BYTES = frozenset(b"!#$%&'*+-.^_`|~0123456789ABCDEFGHIJKLMNOPQRSTUVWXYZabcdefghijklmnopqrstuvwxyz")
MOST_HEAD = 32_768
MOST_LINE = 1_024
MOST_METHOD = 15
MOST_FIELDS = 64
MOST_VALUE = 8_192
HOP = {b"connection", b"keep-alive", b"proxy-connection", b"te", b"trailer", b"transfer-encoding", b"upgrade"}


class Refused(Exception):
    def __init__(self, status):
        self.status = status


# HEADS


def head_end(text):
    """Where the head ends: behind its first empty line, empty ones before its first line passed over. None where none has come."""
    at, began = 0, False
    while True:
        feed = text.find(b"\n", at)
        if feed < 0:
            return None
        line = text[at:feed].removesuffix(b"\r")
        at = feed + 1
        if line:
            began = True
        elif began:
            return at


def whole_head(text):
    """The head and the bytes behind it, where it is whole. Too long where 32,768 bytes hold none and one more came."""
    end = head_end(text[:MOST_HEAD])
    if end is not None:
        return text[:end], text[end:]
    if len(text) > MOST_HEAD:
        raise Refused(431)
    return None


def can_begin_request(text):
    """Whether the first line begins as one of a request may: a token of at most 15 bytes, then a space."""
    text = re.sub(rb"\A(\r?\n)*\r?", b"", text)
    for n, byte in enumerate(text[: MOST_METHOD + 1]):
        if byte == 32:
            return n > 0
        if byte not in TOKEN_BYTES or n == MOST_METHOD:
            return False
    return True


def lines_of(head):
    lines = [line.removesuffix(b"\r") for line in head.split(b"\n")[:-1]]
    while not lines[0]:
        lines.pop(0)
    return lines[0], lines[1:-1]


def fields_of(lines):
    fields = []
    for line in lines:
        found = re.fullmatch(rb"(" + TOKEN + rb"):([\t\x20-\x7e\x80-\xff]*)", line)
        if not found:
            raise Refused(400)
        fields.append((found[1].lower(), found[2].strip(b" \t")))
    if len(fields) > MOST_FIELDS:
        raise Refused(400)
    return fields


def values(fields, name):
    return [value for n, value in fields if n == name]


def elements(fields, name):
    return [it.strip(b" \t") for value in values(fields, name) for it in value.split(b",") if it.strip(b" \t")]


def passed_on(fields, also=()):
    """The fields that are not of this connection alone, sorted by name."""
    left = HOP | set(also) | {it.lower() for it in elements(fields, b"connection")}
    return sorted((it for it in fields if it[0] not in left), key=lambda it: it[0])


def check_sizes(fields):
    if any(len(value) > MOST_VALUE for _, value in fields):
        raise Refused(400)


# REQUESTS


def target_of(target, fields):
    """The key: the URL in its one spelling, without a fragment. Only the forms that the table has are known here."""
    if target.startswith(b"/"):
        hosts = values(fields, b"host")
        if len(hosts) != 1 or not hosts[0] or re.search(rb"[ \t/?#@\\]", hosts[0]):
            raise Refused(400)
        target = b"http://" + hosts[0] + target
    elif not target.startswith(b"http://"):
        raise Refused(400)
    found = re.fullmatch(rb"http://([A-Za-z0-9.-]+)(:[0-9]+)?(/[A-Za-z0-9._~/-]*)(\?[A-Za-z0-9=&]*)?(#.*)?", target)
    if not found:
        raise Refused(400)
    path = []
    for part in found[3].split(b"/")[1:]:
        if part == b"..":
            path = path[:-1]
        elif part != b".":
            path.append(part)
    if found[3].endswith((b"/..", b"/.")):
        path.append(b"")
    port = b"" if found[2] in (None, b":80") else found[2]
    return b"http://" + found[1].lower() + port + b"/" + b"/".join(path) + (found[4] or b"")


def request_of(head):
    first, lines = lines_of(head)
    found = re.fullmatch(rb"(" + TOKEN + rb") ([\x21-\x7e]+) HTTP/1\.([01])", first)
    if not found:
        raise Refused(400)
    fields = fields_of(lines)
    if found[1] == b"CONNECT":
        raise Refused(501)
    if len(found[1]) > MOST_METHOD:
        raise Refused(400)
    key = target_of(found[2], fields)
    if values(fields, b"transfer-encoding") or any(value != b"0" for value in values(fields, b"content-length")):
        raise Refused(501)
    kept = passed_on(fields, (b"host", b"content-length"))
    check_sizes(kept)
    return {"method": found[1], "key": key, "fields": kept, "old": found[3] == b"0"}


def next_request(text):
    """What stands next in the bytes of a client."""
    try:
        if not can_begin_request(text):
            raise Refused(400)
        found = whole_head(text)
        if found is None:
            return ("waits", None)
        return ("tells", request_of(found[0]), found[1], None)
    except Refused as refused:
        return ("fails", refused.status)


def request_text(method, key, fields):
    """The request that the origin is sent."""
    host, _, path = key.removeprefix(b"http://").partition(b"/")
    lines = [method + b" /" + path + b" HTTP/1.1", b"host: " + host]
    lines += [name + b": " + value for name, value in fields]
    return b"\r\n".join([*lines, b"connection: close", b"", b""])


# ANSWERS


def length_told(fields):
    """The length that Content-Length tells, None where it tells none or no one number."""
    told = elements(fields, b"content-length")
    if told and all(it.isdigit() for it in told) and len({int(it) for it in told}) == 1:
        return int(told[0])
    return None


def framing_of(status, fields, no_body):
    """How the body is framed, and the fields without what only says that."""
    codings = [it.lower() for it in elements(fields, b"transfer-encoding")]
    if no_body or status in (204, 304):
        return ("whole",), fields
    if codings:
        if codings != [b"chunked"]:
            raise Refused(None)
        return ("size",), [it for it in fields if it[0] != b"content-length"]
    length = length_told(fields)
    if length is None:
        return ("close",), fields
    return (("length", length) if length else ("whole",)), fields


def next_of_head(text, no_body):
    while True:
        found = whole_head(text)
        if found is None:
            return ("waits", ("head", no_body))
        first, lines = lines_of(found[0])
        status = re.fullmatch(rb"HTTP/1\.[01] ([0-9]{3})( [\t\x20-\x7e\x80-\xff]*)?", first)
        if not status:
            raise Refused(None)
        fields, status = fields_of(lines), int(status[1])
        if 100 <= status <= 199 and status != 101:
            text = found[1]
            continue
        if not 200 <= status <= 599:
            raise Refused(None)
        state, fields = framing_of(status, fields, no_body)
        kept = passed_on(fields)
        check_sizes(kept)
        return ("tells", (status, kept), found[1], state)


def size_of(line):
    """The size that a chunk's line tells."""
    found = re.fullmatch(rb"([0-9A-Fa-f]{1,15})[ \t]*(;.*)?", line)
    if not found:
        raise Refused(None)
    return int(found[1], 16)


def next_of_chunks(text, state):
    while True:
        if state[0] == "size":
            feed = text.find(b"\n", 0, MOST_LINE)
            if feed < 0:
                if len(text) >= MOST_LINE:
                    raise Refused(None)
                return ("waits", state)
            if not text[:feed].endswith(b"\r"):
                raise Refused(None)
            size, text = size_of(text[: feed - 1]), text[feed + 1 :]
            state = ("chunk", size) if size else ("trailers",)
        elif state[0] == "behind":
            if not b"\r\n".startswith(text[:2]):
                raise Refused(None)
            if len(text) < 2:
                return ("waits", state)
            text, state = text[2:], ("size",)
        elif state[0] == "trailers":
            at = 0
            while (feed := text.find(b"\r\n", at)) > at:
                at = feed + 2
            return ("ends",) if feed == at else ("waits", state)
        else:
            return next_of_run(text, state)


def next_of_run(text, state):
    """Bytes of a chunk or of a body whose length is known."""
    if not text:
        return ("waits", state)
    bytes_, rest = text[: min(state[1], 16_384)], text[min(state[1], 16_384) :]
    left = state[1] - len(bytes_)
    behind = ("behind",) if state[0] == "chunk" else ("whole",)
    return ("brings", bytes_, rest, (state[0], left) if left else behind)


def next_answer(text, state):
    """What stands next in the bytes of the origin."""
    try:
        if state[0] == "head":
            return next_of_head(text, state[1])
        if state[0] == "whole":
            return ("ends",)
        if state[0] == "length":
            return next_of_run(text, state)
        if state[0] == "close":
            return ("brings", text[:16_384], text[16_384:], state) if text else ("waits", state)
        return next_of_chunks(text, state)
    except Refused:
        return ("fails", None)


def ends_at_close(state):
    """Whether an answer that stands so is over where its connection is closed; else it was cut off."""
    return state[0] in ("close", "length", "whole")


def head_text(status, fields, chunked):
    lines = [b"HTTP/1.1 %d " % status, *(name + b": " + value for name, value in fields)]
    if chunked:
        lines.append(b"transfer-encoding: chunked")
    return b"\r\n".join([*lines, b"", b""])


def empty_answer(status):
    return head_text(status, [(b"content-length", b"0")], False)


def chunk_text(bytes_):
    return b"%x\r\n" % len(bytes_) + bytes_ + b"\r\n"
