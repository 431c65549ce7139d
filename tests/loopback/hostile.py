"""Clients and origins that keep no rule. In each case the proxy answers as it owes, goes on for others, and its record replays."""
import contextlib
import socket
import time

from peers import Saying, asked, fetched, free_port, letters, request, serving, split

FRESH = "cache-control: max-age=600"
GOOD = b"HTTP/1.1 200 OK\r\ncontent-length: 2\r\ncache-control: max-age=600\r\n\r\nhi"
LARGE = 8_000_000


def answer(*fields, body=b"", status="200 OK"):
    return ("\r\n".join([f"HTTP/1.1 {status}", *fields, "", ""])).encode() + body


def large(size=LARGE):
    return answer(f"content-length: {size}", FRESH, body=letters(0, size - 1))


def is_refused(proxy, status, text):
    """These bytes get this status, no body and the close, and another client is served all the same."""
    found = asked(proxy, text)
    return split(found)[0] == status and found.endswith(b"content-length: 0\r\n\r\n") and fetched(proxy, "/good") == (200, b"hi")


# CLIENTS


def tls_hello(program):
    """Bytes that begin a TLS hello are refused at once, though no line has come."""
    with serving(program, Saying(GOOD)) as proxy:
        return is_refused(proxy, 400, b"\x16\x03\x01")


def a_head_without_end(program):
    """One byte more than a head may have, and no empty line; and another that stops within a line, and is waited for."""
    with serving(program, Saying(GOOD)) as proxy, proxy.connect() as waiting:
        waiting.sendall(b"GET /x HTTP/1.1\r\nhost: a.te")
        return is_refused(proxy, 431, b"GET /x HTTP/1.1\r\nx: " + b"y" * 32_749)


def long_lines(program):
    """A request line and a field past the limits: the one is a head too long, the other a bad one."""
    with serving(program, Saying(GOOD)) as proxy:
        target = is_refused(proxy, 431, b"GET /" + b"x" * 33_000)
        return target and is_refused(proxy, 400, request("/x", "x: " + "y" * 8_193))


def bad_hosts(program):
    with serving(program, Saying(GOOD)) as proxy:
        hosts = ["", "a.test/b", "a.test?b", "a.test#b", "u@a.test", "a.test\\b", "a test", "a.test\r\nhost: b.test"]
        return all(is_refused(proxy, 400, f"GET /x HTTP/1.1\r\nhost: {host}\r\n\r\n".encode()) for host in hosts)


def a_length_twice(program):
    """No body is taken, whether two lengths agree or not."""
    with serving(program, Saying(GOOD)) as proxy:
        same = is_refused(proxy, 501, request("/x", "content-length: 5", "content-length: 5", method="POST") + b"hello")
        return same and is_refused(proxy, 501, request("/x", "content-length: 5", "transfer-encoding: chunked", method="POST"))


def one_never_reads(program):
    """One asks for a large body and reads nothing; others get all of it, and another body too."""
    with serving(program, Saying(large(), good=[GOOD])) as proxy, proxy.connect() as idle:
        idle.setsockopt(socket.SOL_SOCKET, socket.SO_RCVBUF, 4_096)
        idle.sendall(request("/film"))
        return fetched(proxy, "/film") == (200, letters(0, LARGE - 1)) and fetched(proxy, "/good") == (200, b"hi")


def one_stalls_beside_another(program):
    """Two download one body. One reads nothing until the other has all of it, and then gets all of it too."""
    with serving(program, Saying(large())) as proxy, proxy.connect() as slow:
        slow.sendall(request("/film", "connection: close"))
        time.sleep(0.1)
        other = fetched(proxy, "/film")
        found, due = b"", letters(0, LARGE - 1)
        while not found.endswith(due[-100:]) or len(found) < len(due):
            found += slow.recv(1 << 20) or b"\0" * LARGE
        return other == (200, due) and split(found)[2] == due


def one_breaks_off(program):
    """A client breaks its connection in mid-body, and another has its body."""
    with serving(program, Saying(large())) as proxy:
        with proxy.connect() as breaker:
            breaker.setsockopt(socket.SOL_SOCKET, socket.SO_LINGER, b"\1\0\0\0\0\0\0\0")
            breaker.sendall(request("/film"))
            breaker.recv(1_000)
        return fetched(proxy, "/film") == (200, letters(0, LARGE - 1))


def more_than_may(program):
    """Of 520 clients the last are closed; the others stay, and one more may come once they have left."""
    with serving(program, Saying(GOOD)) as proxy, contextlib.ExitStack() as stack:
        clients = [stack.enter_context(proxy.connect()) for _ in range(520)]
        closed = [client.recv(1) for client in clients[512:]]
        clients[0].sendall(request("/good"))
        served = split(clients[0].recv(65_536))[2]
        for client in clients:
            client.close()
        time.sleep(0.2)
        return closed == [b""] * 8 and served == b"hi" and fetched(proxy, "/good") == (200, b"hi")


def ends_its_side(program):
    """A client that ends its sending side before its answer is whole gets no more of it, and is closed."""
    with serving(program, Saying(GOOD, never=["hold"])) as proxy:
        with proxy.connect() as client:
            client.sendall(request("/never"))
            client.shutdown(socket.SHUT_WR)
            found = client.recv(1)
        return found == b"" and fetched(proxy, "/good") == (200, b"hi")


def many_leave_while_they_wait(program):
    """600 clients ask an origin that says nothing, and leave one after another. Nobody counts who has left, and others are served."""
    with serving(program, Saying(GOOD, never=["hold"])) as proxy:
        for _ in range(600):
            with proxy.connect() as client:
                client.sendall(request("/never"))
        time.sleep(0.2)
        return fetched(proxy, "/good") == (200, b"hi")


# ORIGINS


def is_bad_gateway(program, *steps):
    """What the origin does at one path gets 502, and another path is served."""
    with serving(program, Saying(*steps, good=[GOOD])) as proxy:
        return fetched(proxy, "/bad") == (502, b"") and fetched(proxy, "/good") == (200, b"hi")


def is_cut_off(program, *steps):
    """What the origin does in mid-body ends with the close, behind what had come."""
    with serving(program, Saying(*steps, good=[GOOD])) as proxy:
        status, _, body = split(asked(proxy, request("/bad")))
        return status == 200 and b"hi" in body and not body.endswith(b"0\r\n\r\n") and fetched(proxy, "/good") == (200, b"hi")


def garbage(program):
    return is_bad_gateway(program, b"\0\1\2 no HTTP at all\r\n\r\n")


def a_head_that_is_too_long(program):
    return is_bad_gateway(program, b"HTTP/1.1 200 OK\r\nx: " + b"y" * 33_000)


def lengths_that_differ(program):
    return is_bad_gateway(program, answer("content-length: 2", "content-length: 3", body=b"hi"))


def closes_at_once(program):
    return is_bad_gateway(program)


def breaks_at_once(program):
    return is_bad_gateway(program, "break")


def nobody_listens(program):
    with serving(program, Nobody()) as proxy:
        return fetched(proxy, "/x") == (502, b"")


class Nobody:
    """No origin: nothing listens at its address."""

    def __init__(self):
        self.port = free_port()

    def __enter__(self):
        return self

    def __exit__(self, *ignored):
        pass


def closes_in_mid_body(program):
    return is_cut_off(program, answer("content-length: 6", FRESH, body=b"hi"))


def breaks_in_mid_body(program):
    return is_cut_off(program, answer("content-length: 6", FRESH, body=b"hi"), 0.2, "break")


def a_chunk_that_is_longer(program):
    return is_cut_off(program, answer("transfer-encoding: chunked", FRESH, body=b"2\r\nhijk\r\n0\r\n\r\n"))


def a_chunk_that_is_shorter(program):
    return is_cut_off(program, answer("transfer-encoding: chunked", FRESH, body=b"9\r\nhi\r\n0\r\n\r\n"))


def a_chunk_line_too_long(program):
    body = b"2\r\nhi\r\n2;" + b"x" * 1_021 + b"\r\nhi\r\n0\r\n\r\n"
    return is_cut_off(program, answer("transfer-encoding: chunked", FRESH, body=body))


def a_chunk_past_the_limit(program):
    return is_cut_off(program, answer("transfer-encoding: chunked", FRESH, body=b"2\r\nhi\r\n4000000000000000\r\nhi"))


def never_answers(program):
    """One waits for an origin that says nothing, others are served meanwhile, and it may leave."""
    with serving(program, Saying(GOOD, never=["hold"])) as proxy:
        with proxy.connect() as waiting:
            waiting.sendall(request("/never"))
            waiting.settimeout(0.3)
            served = [fetched(proxy, f"/good{n}") for n in range(3)]
            is_silent = says_nothing(waiting)
        return is_silent and served == [(200, b"hi")] * 3 and fetched(proxy, "/good") == (200, b"hi")


def says_nothing(connection):
    try:
        connection.recv(1)
    except TimeoutError:
        return True
    return False


def goes_on_after_a_break(program):
    """A download is broken off, and the next client gets the whole body: what is missing is asked for anew."""
    body = letters(0, 99_999)
    tagged = ['etag: "v"', FRESH]
    first = answer("content-length: 100000", *tagged, body=body[:40_000])
    rest = answer("content-length: 60000", "content-range: bytes 40000-99999/100000", *tagged, body=body[40_000:], status="206 Partial Content")
    with serving(program, InTurn([first], [rest])) as proxy:
        cut = split(asked(proxy, request("/film")))[2]
        return cut == body[:40_000] and fetched(proxy, "/film") == (200, body)


class InTurn(Saying):
    """An origin that says one thing to its first connection, and another to the next."""

    def __init__(self, *turns):
        super().__init__()
        self.turns = list(turns)

    def answer(self, connection):
        self.steps = self.turns.pop(0)
        super().answer(connection)


CASES = [tls_hello, a_head_without_end, long_lines, bad_hosts, a_length_twice, one_never_reads, one_stalls_beside_another]
CASES += [one_breaks_off, more_than_may, ends_its_side, many_leave_while_they_wait]
CASES += [garbage, a_head_that_is_too_long, lengths_that_differ, closes_at_once, breaks_at_once]
CASES += [nobody_listens, closes_in_mid_body, breaks_in_mid_body, a_chunk_that_is_longer, a_chunk_that_is_shorter]
CASES += [a_chunk_line_too_long, a_chunk_past_the_limit, never_answers, goes_on_after_a_break]
