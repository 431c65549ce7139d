"""The table: scripts of a wire, each with what it shows."""

MOMENT = 1000


class Case:
    """Events of a wire in their order, who takes how many bytes and then none, how many turns are made, the image begun with, and a front."""

    def __init__(self, title, *events, turns=None, stalls=(), told=None, image=b"", front=False):
        self.title, self.stalls, self.told, self.image, self.front = title, dict(stalls), told, image, front
        self.events = [it for event in events for it in (event if isinstance(event, list) else [event])]
        self.turns = len(self.events) + 3 if turns is None else turns
        assert all(bytes_ for _, word, _, bytes_ in self.events if word == "got"), title


def accepted(k, at=MOMENT):
    return (at, "accepted", k, b"")


def got(k, bytes_, at=MOMENT):
    return (at, "got", k, bytes_)


def ended(k, at=MOMENT):
    return (at, "ended", k, b"")


def broke(k, at=MOMENT):
    return (at, "broke", k, b"")


def room(k, at=MOMENT):
    return (at, "room", k, b"")


def quiet(n=1, at=MOMENT):
    return [(at, "quiet", 0, b"")] * n


def head(*lines):
    return "\r\n".join([*lines, "", ""]).encode("latin-1")


def request(target="/x", *fields, method="GET", version="1.1", host="a.test"):
    named = [] if host is None else [f"Host: {host}"]
    return head(f"{method} {target} HTTP/{version}", *named, *fields)


def answer(body, *fields, status="200 OK", length=True):
    told = [f"Content-Length: {len(body)}"] if length else []
    return head(f"HTTP/1.1 {status}", *told, *fields) + body


def chunked(*chunks, fields=("Cache-Control: max-age=60",), last=b"0\r\n\r\n", status="200 OK"):
    body = b"".join(b"%x\r\n%s\r\n" % (len(it), it) for it in chunks)
    return head(f"HTTP/1.1 {status}", "Transfer-Encoding: chunked", *fields) + body + last


def parts(k, text, *places):
    """The text in parts, cut at these places."""
    marks = [0, *places, len(text)]
    return [got(k, text[a:b]) for a, b in zip(marks, marks[1:])]


FRESH = "Cache-Control: max-age=60"
TAGGED = 'ETag: "v"'
GET = request()
HI = answer(b"hi", FRESH)
PLAIN = answer(b"hi")
CHUNKED = head("HTTP/1.1 200 OK", "Transfer-Encoding: chunked", FRESH)
HALF = answer(b"abc", "Content-Length: 6", FRESH, TAGGED, length=False)
ROW = [
    accepted(1),
    got(1, request("/x", "User-Agent: b", "Accept: */*", "Accept-Encoding: gzip, br", "Connection: keep-alive")),
    got(2, answer(b"hi", "Content-Type: text/plain", FRESH, "Connection: close")),
    *quiet(3),
]


def asks(*texts, k=1):
    """A client comes and sends these."""
    return [accepted(k), got(k, b"".join(texts))]


def refused(title, text):
    """One request that is refused, and one that comes too late."""
    return Case(title, asks(text), quiet(2), got(1, GET), quiet())


def answered(title, *texts, asked=GET):
    """What comes of an answer, in one part or among other events."""
    events = [got(2, it) if isinstance(it, bytes) else it for it in texts]
    return Case(title, asks(asked), *events, quiet(3))


WHOLE = [
    Case("The row: one request, and an answer whose length is told.", ROW, turns=6),
    answered("An answer in one chunk.", chunked(b"hi")),
    answered("Chunks, and trailers, which are dropped.", chunked(b"ab", b"cde", last=b"0\r\nX: y\r\nZ: z\r\n\r\n")),
    answered(
        "Chunk sizes with an extension, with blanks and leading zeros, and in capitals.",
        CHUNKED + b"0A;x=1\r\n" + b"f" * 10 + b"\r\n02  \r\nhi\r\n00\r\n\r\n",
    ),
    answered("A coding in capitals.", head("HTTP/1.1 200 OK", "Transfer-Encoding: CHUNKED") + b"2\r\nhi\r\n0\r\n\r\n"),
    answered(
        "Chunks that are cut within a size, a body and a line end.",
        parts(2, chunked(b"f" * 17, b"hi"), 75, 76, 80, 97, 98, 101, 104, 108),
    ),
    answered("Content-Length beside chunks isn't passed on.", chunked(b"hi", fields=("Content-Length: 9", FRESH))),
    answered("A body that runs to the close.", answer(b"hi", FRESH, length=False), quiet(3), b"jk", ended(2), quiet(2)),
    answered("No body at all before the close.", answer(b"", FRESH, length=False), quiet(2), ended(2), quiet(2)),
    answered("An empty body.", answer(b"", FRESH)),
    answered(
        "A head that comes in parts, and a body byte by byte.",
        parts(2, answer(b"hijk", FRESH), 5, 30, 64, 65),
        [it for byte in b"ijk" for it in [*quiet(2), got(2, bytes([byte]))]],
    ),
    answered(
        "Answers 100 and 103 are passed over.",
        head("HTTP/1.1 100 Continue") + head("HTTP/1.1 103 Early Hints", "Link: x") + HI,
    ),
    answered("Bytes behind a whole answer are dropped.", HI + b"more"),
    answered(
        "Fields of the connection alone are not passed on, nor those that it names.",
        answer(b"hi", "X-A: 1", "X-B: 2", "Connection: close, X-A", "Keep-Alive: 5", "Upgrade: h2c", "Trailer: X", FRESH),
    ),
    answered(
        "Lines that end with a line feed alone.",
        b"HTTP/1.1 200 OK\nContent-Length: 2\n\nhi",
        asked=b"GET /x HTTP/1.1\nHost: a.test\n\n",
    ),
    answered("A reason phrase may be missing.", answer(b"hi", FRESH, status="200")),
    answered("A body of 40,000 bytes, in pieces of at most 16,384.", answer(b"f" * 40_000, FRESH), quiet(4)),
    answered("Chunks of 20,000 bytes.", chunked(b"f" * 20_000, b"w" * 20_000), quiet(6)),
    answered("204 has no body.", head("HTTP/1.1 204 No Content", FRESH)),
    answered("A 404 is passed on.", answer(b"no", status="404 Not Found")),
]

CUT = [
    answered(
        "The origin closes after 1 byte of 2: the client is closed.",
        answer(b"h", "Content-Length: 2", FRESH, length=False), quiet(3), ended(2), got(1, GET),
    ),
    answered("The origin closes within a chunk: a fault.", CHUNKED + b"5\r\nhi", quiet(3), ended(2), got(1, GET)),
    answered("The origin closes before the last chunk: a fault.", chunked(b"hi", last=b""), quiet(3), ended(2)),
    answered("The origin closes within its head: 502.", b"HTTP/1.1 200 OK\r\nContent-Le", ended(2)),
    answered(
        "The origin closes at once: 502, and the client may go on.",
        ended(2), quiet(), got(1, request("/y")), quiet(), got(3, answer(b"y")),
    ),
    answered("The origin breaks off at once, before a client of HTTP/1.0: 502, and the close.", broke(2), asked=request(version="1.0")),
    answered(
        "The origin breaks off in mid-body.",
        answer(b"hi", "Content-Length: 6", FRESH, length=False), quiet(3), broke(2), got(1, GET),
    ),
    answered("The origin ends its side with a whole answer that isn't read yet.", HI, ended(2)),
    answered(
        "A piece past what the head promised is denied, and a fault follows.",
        chunked(b"abc", fields=("Content-Range: bytes 0-1/6", TAGGED, FRESH), status="206 Partial Content"),
        quiet(2), got(1, GET), asked=request("/x", "Range: bytes=0-1"),
    ),
    answered(
        "The length concerns the connection alone, so the cache isn't told it: an end comes without a byte.",
        answer(b"hi", "Connection: content-length", FRESH),
    ),
    answered(
        "The same, where each byte is handed on by itself.",
        answer(b"h", "Content-Length: 2", "Connection: content-length", FRESH, length=False), quiet(2), b"i", quiet(2),
    ),
]

BAD_ANSWERS = [
    answered(f"A bad answer: {what}.", text)
    for what, text in [
        ("no HTTP", b"HELLO\r\n\r\n"),
        ("a status below 100", head("HTTP/1.1 099 No", "Content-Length: 0")),
        ("a status from 600 on", head("HTTP/1.1 600 No", "Content-Length: 0")),
        ("101", head("HTTP/1.1 101 Switching Protocols")),
        ("HTTP/2", head("HTTP/2 200 OK", "Content-Length: 0")),
        ("a field without a colon", head("HTTP/1.1 200 OK", "Content-Length 0")),
        ("a blank before the colon", head("HTTP/1.1 200 OK", "Content-Length : 0")),
        ("65 fields", head("HTTP/1.1 200 OK", *["X: y"] * 65)),
        ("a value of 8,193 bytes", head("HTTP/1.1 200 OK", "X: " + "y" * 8_193)),
        ("a head of 32,769 bytes that isn't whole", b"HTTP/1.1 200 OK\r\nX: " + b"y" * 32_749),
        ("another coding", head("HTTP/1.1 200 OK", "Transfer-Encoding: gzip, chunked") + b"0\r\n\r\n"),
        ("two lengths", answer(b"hi", "Content-Length: 3")),
        ("a length that is no number", answer(b"hi", "Content-Length: 2x", length=False)),
    ]
]

CHUNKS = [
    answered(f"A chunk's line: {what}.", CHUNKED + text)
    for what, text in [
        ("it has no number", b"xy\r\nhi\r\n0\r\n\r\n"),
        ("more stands behind it than its size", b"2\r\nhijk\r\n0\r\n\r\n"),
        ("its size is 2^62", b"4000000000000000\r\nhi"),
        ("it has 1,025 bytes", b"2;" + b"x" * 1_021 + b"\r\nhi\r\n0\r\n\r\n"),
        ("it has 1,024 bytes, and is read", b"2;" + b"x" * 1_020 + b"\r\nhi\r\n0\r\n\r\n"),
        ("it ends with a line feed alone", b"2\nhi\r\n0\r\n\r\n"),
    ]
]

REQUESTS = [
    Case(
        "HEAD: the head alone, with its length. It isn't stored.",
        asks(request(method="HEAD")), got(2, head("HTTP/1.1 200 OK", "Content-Length: 2", FRESH)), quiet(2),
        got(1, GET), quiet(), got(3, HI), quiet(3),
    ),
    answered(
        "HEAD, answered with chunks: no chunk, not even the last.",
        head("HTTP/1.1 200 OK", "Transfer-Encoding: chunked"), asked=request(method="HEAD"),
    ),
    answered("HTTP/1.0: no chunks, and the close.", chunked(b"hi"), quiet(2), got(1, GET), asked=request(version="1.0")),
    answered("HTTP/1.0, where the length is told: the close all the same.", HI, quiet(2), got(1, GET), asked=request(version="1.0")),
    answered("Two requests at once: the second is answered from the store, behind the first.", HI, quiet(3), asked=GET + GET),
    answered("Three at once, of which the second is refused: the third is dropped.", HI, quiet(2), asked=GET + request(host="") + GET),
    answered("A second request that comes while the first is answered waits on the wire.", HI, got(1, GET, at=1005), quiet(2, at=1005)),
    Case(
        "A request in parts, and empty lines before it.",
        accepted(1), parts(1, b"\r\n\r\n" + GET, 3, 8, 20, 30), got(2, PLAIN), quiet(3),
    ),
    answered("A Host with a port, which the key has too.", PLAIN, asked=request(host="a.test:8080")),
    answered(
        "Fields of the client's connection alone are not passed on.",
        PLAIN,
        asked=request("/x", "X-A: 1", "X-B: 2", "Connection: X-A", "TE: trailers", "Keep-Alive: 5", "Content-Length: 0"),
    ),
    answered("64 fields, one of them with a value of 8,192 bytes.", PLAIN, asked=request("/x", *["X: y"] * 62, "Y: " + "y" * 8_192)),
    answered(
        "The absolute form, without Host; the fragment goes, and the path is made plain.",
        PLAIN,
        asked=request("http://A.test:80/a/../b/./c?q=1#d", host=None),
    ),
    Case(
        "POST without a body: what is stored for its key goes.",
        asks(GET), got(2, HI), quiet(3), got(1, request(method="POST")), quiet(), got(3, answer(b"ok")), quiet(3),
        got(1, GET), quiet(), got(4, answer(b"new")), quiet(3),
    ),
    Case("A request line, and then the end: nothing happens.", accepted(1), got(1, b"GET /x HTTP/1.1\r\n"), ended(1), quiet()),
    answered("A whole request, and then the end: it is cancelled.", ended(1), PLAIN),
    Case("32,768 bytes of a head that isn't whole: one more is waited for.", asks(b"GET /x HTTP/1.1\r\nX: " + b"y" * 32_748), quiet(2)),
    Case(
        "Only what is stored, and nothing is: 504.",
        asks(request("/x", "Cache-Control: only-if-cached")), quiet(2),
        got(1, request("/x", "Cache-Control: only-if-cached", version="1.0")), quiet(2),
    ),
]

REFUSED = [
    Case("A TLS hello: 400, and the close, though no line has come.", asks(bytes.fromhex("160301")), quiet(2)),
    Case("A line that begins with a blank.", asks(b" GET /x"), quiet(2)),
    Case("A method of 16 bytes, before its space.", asks(b"ABCDEFGHIJKLMNOP"), quiet(2)),
    Case("A method of 15 bytes, before its space: more is waited for.", asks(b"ABCDEFGHIJKLMNO"), quiet(2)),
    refused("A head of 32,769 bytes that isn't whole: 431.", b"GET /x HTTP/1.1\r\nX: " + b"y" * 32_749),
    refused("CONNECT: 501.", head("CONNECT a.test:80 HTTP/1.1", "Host: a.test:80")),
    refused("A body that is told by its length: 501.", request("/x", "Content-Length: 5", method="POST") + b"hello"),
    refused("A body in chunks: 501.", request("/x", "Transfer-Encoding: chunked", method="POST") + b"0\r\n\r\n"),
    refused("No version.", b"GET /x\r\nHost: a.test\r\n\r\n"),
    refused("HTTP/1.2.", request(version="1.2")),
    refused("The asterisk form.", request("*", method="OPTIONS")),
    refused("Another scheme.", request("https://a.test/x")),
    refused("No Host.", request(host=None)),
    refused("Two Hosts.", request("/x", "Host: b.test")),
    refused("A field without a colon.", request("/x", "X")),
    refused("A blank before the colon.", request("/x", "X : y")),
    refused("A NUL in a value.", request("/x", "X: a\0b")),
    refused("65 fields.", request("/x", *["X: y"] * 64)),
    refused("A value of 8,193 bytes.", request("/x", "X: " + "y" * 8_193)),
] + [
    refused(f"A bad Host: {what}.", request(host=host))
    for what, host in [
        ("empty", ""),
        ("with a path", "a.test/b"),
        ("with a query", "a.test?b"),
        ("with a fragment", "a.test#b"),
        ("with a user", "u@a.test"),
        ("with a backslash", "a.test\\b"),
        ("with a blank", "a test"),
    ]
]

STORE = [
    Case(
        "A range of what is stored, and one past it, which the origin is asked for.",
        asks(GET), got(2, answer(b"abcdef", FRESH, TAGGED)), quiet(3), got(1, request("/x", "Range: bytes=2-3")), quiet(3),
        got(1, request("/x", "Range: bytes=9-")), quiet(),
        got(3, answer(b"", "Content-Range: bytes */6", status="416 Range Not Satisfiable")), quiet(3),
    ),
    Case(
        "A client that ends early, and one that resumes: what is missing is asked for.",
        asks(GET), got(2, HALF), quiet(2), ended(1), asks(GET, k=3),
        got(4, answer(b"def", "Content-Range: bytes 3-5/6", FRESH, TAGGED, status="206 Partial Content")), quiet(5),
    ),
    Case(
        "The same, but the origin has another one now: the client gets that.",
        asks(GET), got(2, HALF), quiet(2), ended(1), asks(GET, k=3), got(4, answer(b"ABCDEF", FRESH, 'ETag: "w"')), quiet(5),
    ),
    Case(
        "Stale: the origin is asked whether it changed, and it didn't.",
        asks(GET), got(2, answer(b"hi", FRESH, TAGGED)), quiet(3), got(1, GET, at=1061), quiet(1, at=1061),
        got(3, head("HTTP/1.1 304 Not Modified", TAGGED, FRESH), at=1061), quiet(4, at=1062),
    ),
    Case(
        "Two clients share a download.",
        accepted(1), accepted(2), got(1, GET), got(2, GET),
        got(3, answer(b"ab", "Content-Length: 4", FRESH, length=False)), quiet(3), got(3, b"cd"), quiet(3),
    ),
    Case(
        "Two clients share a download, and one of them leaves.",
        accepted(1), accepted(2), got(1, GET), got(2, GET),
        got(3, answer(b"ab", "Content-Length: 4", FRESH, length=False)), quiet(3), broke(1), got(3, b"cd"), quiet(3),
    ),
    Case(
        "Two clients come while a large body is handed on: in each turn that comes before the new requests.",
        accepted(1), accepted(2), accepted(3), got(1, GET), got(4, answer(b"f" * 40_000, FRESH)),
        got(2, request("/y")), got(3, request("/z")), quiet(4),
    ),
    Case("The moment of the wire goes back: that of the record stays.", asks(GET), got(2, HI, at=900), quiet(3, at=1001)),
    answered(
        "A client's own condition goes to the origin, and its 304 to the client.",
        head("HTTP/1.1 304 Not Modified", TAGGED), asked=request("/x", 'If-None-Match: "v"'),
    ),
]

STALLS = [
    Case(
        "A client that takes nothing, beside one that does, of one body.",
        accepted(1), accepted(2), got(1, GET), got(2, GET), got(3, answer(b"abcdef", FRESH)), quiet(6),
        turns=12, stalls={1: 0},
    ),
    Case(
        "The same with a body of 40,000 bytes, and then there is room.",
        accepted(1), accepted(2), got(1, GET), got(2, GET), got(3, answer(b"f" * 40_000, FRESH)), quiet(8), room(1), quiet(8),
        stalls={1: 100},
    ),
    Case("A client that takes 10 bytes, and all once there is room.", asks(GET), got(2, HI), quiet(3), room(1), quiet(3), stalls={1: 10}),
    Case(
        "A client that takes no part of a refusal is closed once it did.",
        asks(request(host="")), quiet(2), room(1), got(1, GET), quiet(), stalls={1: 3},
    ),
    Case(
        "An origin that takes 5 bytes of its request, and all once there is room.",
        asks(GET), quiet(2), room(2), got(2, PLAIN), quiet(3), stalls={2: 5},
    ),
    Case(
        "Two requests at once, and no room for all of the first answer: the second starts behind it.",
        asks(request("/x", "Cache-Control: only-if-cached") * 2), quiet(2), room(1, at=1005), quiet(3, at=1005), stalls={1: 5},
    ),
    Case("A client that takes nothing leaves.", asks(GET), got(2, HI), quiet(2), ended(1), quiet(), stalls={1: 0}),
]

MANY = [
    Case(
        "514 clients: the 513th and the 514th are closed at once.",
        [accepted(k) for k in range(1, 515)], got(513, GET), got(514, GET), got(512, GET), got(515, PLAIN), quiet(3),
        turns=522, told=[1, 512, 513, 514, 515],
    ),
    Case(
        "One leaves, and another may come.",
        [accepted(k) for k in range(1, 514)], ended(1), accepted(514), got(514, GET), got(515, PLAIN), quiet(3),
        turns=521, told=[1, 513, 514, 515],
    ),
]


IMAGE = b"""image 1
990 7 5 1
item http://a.test/x 3 1
record 2
W 00000000000000000002
200 990 990 0 1
tag -
cache-control: max-age=60
run 3 0 2
hi
"""

BEGUN = [
    Case("From an image: what is stored is a hit at once, by the next consumer.", asks(GET), quiet(3), image=IMAGE),
    Case(
        "From an image: what isn't stored is asked for by the next exchange, and then it is a hit.",
        asks(request("/y")), got(2, HI), quiet(2), got(1, request("/y") + GET), quiet(4), image=IMAGE,
    ),
    Case("From an image: what is stored is too old, and asked for anew.", asks(GET), got(2, HI), quiet(3), image=IMAGE.replace(b"=60", b"=09")),
    Case("From an image: a moment before that of the image doesn't count.", accepted(1, at=5), got(1, GET, at=6), quiet(3, at=7), image=IMAGE),
]


CHANGED = "Last-Modified: Thu, 01 Jan 1970 00:05:00 GMT"
GONE_ON = head("HTTP/1.1 304 Not Modified", TAGGED)


def fronted(title, *events, **words):
    return Case(f"Behind a front: {title}", *events, front=True, **words)


def held(*fields, **words):
    """What a client asks that has a copy."""
    return request("/x", *fields, **words)


STORED = [*asks(GET), got(2, answer(b"hi", FRESH, TAGGED)), *quiet(3)]
LISTED = 'If-None-Match: "u", W/"v"'
OWN = 'If-None-Match: "v"'

FRONTED = [
    fronted("a tag of the list is that of what is stored, by the weak comparison. It gets a 304, and no origin is asked.", STORED, got(1, held(LISTED)), quiet(2)),
    fronted("no tag is, so it gets the head and the body.", STORED, got(1, held('If-None-Match: "u"')), quiet(2)),
    Case("The same without a front: the origin is asked, and sees the condition.", STORED, got(1, held(LISTED)), got(3, GONE_ON), quiet(2)),
    fronted(
        "nothing is stored. The origin is asked without the condition, and what comes is stored. Who had the copy gets a 304, and who comes next the body.",
        asks(held(OWN)), got(2, answer(b"hi", FRESH, TAGGED)), quiet(3), got(1, GET), quiet(2),
    ),
    fronted(
        "no later than the moment that the client names, and later than that.",
        asks(GET), got(2, answer(b"hi", FRESH, CHANGED)), quiet(3), got(1, held("If-Modified-Since: Thu, 01 Jan 1970 00:05:00 GMT")), quiet(2),
        got(1, held("If-Modified-Since: Thu, 01 Jan 1970 00:04:59 GMT")), quiet(2),
    ),
    fronted("over a part it is none that the front answers. The origin is asked for it as it is.", STORED, got(1, held(OWN, "Range: bytes=0-0")), got(3, GONE_ON), quiet(2)),
    fronted("nor is it by HEAD.", STORED, got(1, held(OWN, method="HEAD")), got(3, GONE_ON), quiet(2)),
    fronted(
        "the body breaks off behind the 304. That was whole, so the connection stays.",
        asks(held(OWN)), got(2, answer(b"h", "Content-Length: 2", FRESH, TAGGED, length=False)), quiet(2), broke(2), quiet(),
        got(1, request("/y")), got(3, answer(b"hi", FRESH, TAGGED)), quiet(3),
    ),
    fronted("a body in chunks is held by a client, too.", asks(held("If-None-Match: *")), got(2, chunked(b"hi")), quiet(4), got(1, GET), quiet(2)),
    fronted(
        "one of HTTP/1.0 gets a 304, and the close behind the body that it is not sent.",
        asks(held(OWN, version="1.0")), got(2, answer(b"hi", FRESH, TAGGED)), quiet(4),
    ),
    fronted("from an image, the client has a copy of whatever is stored.", asks(held("If-None-Match: *")), quiet(2), got(1, GET), quiet(2), image=IMAGE),
    Case("The front was of that run alone.", asks(held("If-None-Match: *")), got(2, GONE_ON), quiet(2)),
]


def breaks():
    """A break of either connection at each turn of the row."""
    for k, whose in ((1, "client"), (2, "origin")):
        for place in range(k, len(ROW) + 1):
            title = f"The row, but the {whose} breaks off behind turn {place}."
            yield Case(title, ROW[:place], broke(k), ROW[place:], turns=len(ROW) + 2)


CASES = [*WHOLE, *CUT, *BAD_ANSWERS, *CHUNKS, *REQUESTS, *REFUSED, *STORE, *STALLS, *BEGUN, *breaks(), *MANY, *FRONTED]
