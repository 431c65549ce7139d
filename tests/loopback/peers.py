"""The programs and the other ends of their connections, for the cases of `check` and of `hostile`."""
import contextlib
import http.client
import socket
import struct
import subprocess
import tempfile
import threading
import time

SECONDS = 20
TURNS = 1 << 40


def free_port():
    with socket.socket() as probe:
        probe.bind(("127.0.0.1", 0))
        return probe.getsockname()[1]


class Listening:
    """The program by words behind which it listens, which ends when the case does. Its record goes to a file: a pipe that
    nobody reads would stop it."""

    def __init__(self, program, word, *words):
        self.port = free_port()
        words = [str(program), word, f"127.0.0.1:{self.port}", *words]
        self.out = tempfile.TemporaryFile()
        self.process = subprocess.Popen(words, stdin=subprocess.DEVNULL, stdout=self.out, stderr=self.out)

    def __enter__(self):
        return self

    def __exit__(self, *ignored):
        self.process.kill()
        self.process.wait()
        self.out.close()

    def written(self):
        self.out.seek(0)
        return self.out.read()

    def ended(self):
        """Ends it, and tells what it has written."""
        self.process.kill()
        self.process.wait()
        return self.written()

    def connect(self):
        end = time.monotonic() + SECONDS
        while True:
            try:
                return socket.create_connection(("127.0.0.1", self.port), SECONDS)
            except ConnectionRefusedError:
                if time.monotonic() > end:
                    raise
                time.sleep(0.02)


def Origin(program, turns):
    return Listening(program, "origin", str(turns))


def Proxy(program, port):
    return Listening(program, "serve", f"127.0.0.1:{port}", str(TURNS))


class Slow:
    """An origin that counts its requests, and sends its body of letters in pieces, after a while each."""

    def __init__(self, size, pieces, wait):
        self.size, self.pieces, self.wait, self.requests = size, pieces, wait, []
        self.listener = socket.create_server(("127.0.0.1", 0))
        self.port = self.listener.getsockname()[1]
        threading.Thread(target=self.accept, daemon=True).start()

    def __enter__(self):
        return self

    def __exit__(self, *ignored):
        self.listener.close()

    def accept(self):
        with contextlib.suppress(OSError):
            while True:
                connection = self.listener.accept()[0]
                threading.Thread(target=self.answer, args=(connection,), daemon=True).start()

    def answer(self, connection):
        text = b""
        with connection, contextlib.suppress(OSError):
            while b"\r\n\r\n" not in text:
                text += connection.recv(65_536) or b"\r\n\r\n"
            self.requests.append(text)
            first = 0
            for line in text.decode("latin-1").lower().split("\r\n"):
                if line.startswith("range: bytes="):
                    first = int(line.removeprefix("range: bytes=").split("-")[0])
            connection.sendall(self.head(first))
            for n in range(self.pieces):
                time.sleep(self.wait)
                low = max(first, self.size * n // self.pieces)
                connection.sendall(letters(low, self.size * (n + 1) // self.pieces - 1))

    def head(self, first):
        lines = ["HTTP/1.1 200 OK" if first == 0 else "HTTP/1.1 206 Partial Content"]
        lines += ["etag: \"a\"", "cache-control: max-age=600", f"content-length: {self.size - first}", "connection: close"]
        if first:
            lines.append(f"content-range: bytes {first}-{self.size - 1}/{self.size}")
        return ("\r\n".join(lines) + "\r\n\r\n").encode()


def fetched(proxy, path, fields=()):
    """The status and the body that a client of Python's library gets."""
    proxy.connect().close()
    client = http.client.HTTPConnection("127.0.0.1", proxy.port, timeout=SECONDS)
    with contextlib.closing(client):
        client.request("GET", path, headers={"host": "a.test", **dict(fields)})
        response = client.getresponse()
        return response.status, response.read()


def received(connection):
    """All that comes up to the close."""
    found = b""
    while True:
        try:
            piece = connection.recv(65_536)
        except ConnectionResetError:
            return found
        if not piece:
            return found
        found += piece


def asked(origin, *parts):
    """What is answered to these bytes, sent part by part."""
    with origin.connect() as connection:
        for part in parts:
            connection.sendall(part)
            time.sleep(0.02)
        return received(connection)


def split(answer):
    """The status, the fields by their names in small letters, and the body of an answer."""
    head, _, body = answer.partition(b"\r\n\r\n")
    first, *lines = head.decode("latin-1").split("\r\n")
    fields = {}
    for line in lines:
        name, _, value = line.partition(":")
        fields[name.lower()] = value.strip()
    return int(first.split(" ")[1]) if first else 0, fields, body


def request(path, *fields, method="GET"):
    lines = [f"{method} {path} HTTP/1.1", "host: a.test", *fields]
    return ("\r\n".join(lines) + "\r\n\r\n").encode()


def letters(first, last):
    """The body of /d/N between two positions: the letters from a to z, again and again."""
    return bytes(97 + i % 26 for i in range(first, last + 1))


class Saying:
    """An origin that says to each connection what its path is owed, once it has the request: bytes, seconds of nothing, or a break.
    Behind that it closes, or holds the connection where that is said."""

    def __init__(self, *steps, **paths):
        self.steps, self.paths, self.held = steps, paths, []
        self.listener = socket.create_server(("127.0.0.1", 0))
        self.port = self.listener.getsockname()[1]
        threading.Thread(target=self.accept, daemon=True).start()

    def __enter__(self):
        return self

    def __exit__(self, *ignored):
        self.listener.close()
        for connection in self.held:
            connection.close()

    def accept(self):
        with contextlib.suppress(OSError):
            while True:
                connection = self.listener.accept()[0]
                threading.Thread(target=self.answer, args=(connection,), daemon=True).start()

    def answer(self, connection):
        text = b""
        with contextlib.suppress(OSError):
            while b"\r\n\r\n" not in text:
                text += connection.recv(65_536) or b"\r\n\r\n"
            path = text.split(b" ")[1][1:].decode() if text.count(b" ") else ""
            for step in self.paths.get(path, self.steps):
                if step == "hold":
                    self.held.append(connection)
                    return
                if step == "break":
                    connection.setsockopt(socket.SOL_SOCKET, socket.SO_LINGER, struct.pack("ii", 1, 0))
                elif isinstance(step, float):
                    time.sleep(step)
                else:
                    connection.sendall(step)
        connection.close()


@contextlib.contextmanager
def serving(program, origin):
    """The proxy before this origin. What it writes has to replay with status 0."""
    with origin, Proxy(program, origin.port) as proxy:
        yield proxy
        time.sleep(0.1)
        record = proxy.ended()
    ran = subprocess.run([str(program), "replay"], input=record, capture_output=True, timeout=SECONDS)
    if ran.returncode:
        raise ValueError(f"the record replays with status {ran.returncode}")
