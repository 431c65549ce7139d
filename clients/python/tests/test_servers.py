"""The adapter before servers that others wrote: Python's own, and nginx where it is here."""
from __future__ import annotations

import os
import pathlib
import random
import re
import shutil
import socket
import subprocess
import sys
import tempfile
import time
import unittest

from ways import Way, suite_of

import requests
import vosdrieng.requests

BODY = random.Random(1).randbytes(3_000_000)
NGINX = """
{user}
daemon off;
pid {folder}/pid;
error_log {folder}/error.log;
events {{}}
http {{
    access_log {folder}/access.log;
    client_body_temp_path {folder}/body;
    proxy_temp_path {folder}/proxy;
    fastcgi_temp_path {folder}/fastcgi;
    uwsgi_temp_path {folder}/uwsgi;
    scgi_temp_path {folder}/scgi;
    server {{
        listen 127.0.0.1:{port};
        root {folder}/site;
        gzip on;
        gzip_min_length 1;
        gzip_types text/plain;
        default_type application/octet-stream;
        types {{ text/plain txt; }}
        location /day/ {{ alias {folder}/site/; expires 1d; }}
    }}
}}
"""


class ServerTest(unittest.TestCase):
    way: Way

    def setUp(self) -> None:
        self.folder = pathlib.Path(tempfile.mkdtemp())
        self.addCleanup(shutil.rmtree, self.folder)
        (self.folder / "site").mkdir()
        self.write(BODY, 1_000_000_000)
        (self.folder / "site" / "a.txt").write_bytes(b"line\n" * 1000)
        self.now = time.time()

    def write(self, body: bytes, moment: int) -> None:
        path = self.folder / "site" / "film"
        path.write_bytes(body)
        os.utime(path, (moment, moment))

    def session(self) -> requests.Session:
        session = requests.Session()
        vosdrieng.requests.mount(session, store=self.folder / "store", clock=lambda: self.now, **self.way.words())
        self.addCleanup(session.close)
        return session

    def begin(self, words: list[str], url: str) -> str:
        process = subprocess.Popen(words, cwd=self.folder, stdout=subprocess.DEVNULL, stderr=subprocess.DEVNULL)
        self.addCleanup(process.wait)
        self.addCleanup(process.terminate)
        for _ in range(200):
            try:
                requests.head(url)
                return url
            except requests.ConnectionError:
                time.sleep(0.05)
        self.fail("the server doesn't begin")

    def free_port(self) -> int:
        with socket.socket() as it:
            it.bind(("127.0.0.1", 0))
            return it.getsockname()[1]

    def all_of(self, url: str) -> None:
        """Fresh, stale and changed, and through a restart."""
        session = self.session()
        for _ in range(2):
            self.assertTrue(session.get(f"{url}/film").content == BODY)
        self.now += 8 * 86400
        stale = session.get(f"{url}/film")
        self.assertEqual((stale.content == BODY, stale.cache_reason.split(":")[0]), (True, "validated"))
        again = self.session().get(f"{url}/film", headers={"Cache-Control": "max-stale"})
        self.assertEqual((again.content == BODY, again.from_cache), (True, True))
        self.write(BODY[::-1], 1_100_000_000)
        self.now += 8 * 86400
        self.assertTrue(session.get(f"{url}/film").content == BODY[::-1])
        self.assertEqual(session.get(f"{url}/none").status_code, 404)

    def test_python(self) -> None:
        port = self.free_port()
        words = [sys.executable, "-m", "http.server", "--bind", "127.0.0.1", "--directory", str(self.folder / "site"), str(port)]
        self.all_of(self.begin(words, f"http://127.0.0.1:{port}"))

    @unittest.skipUnless(shutil.which("nginx"), "nginx isn't here: apt-get install nginx-light")
    def test_nginx(self) -> None:
        port = self.free_port()
        (self.folder / "nginx.conf").write_text(NGINX.format(folder=self.folder, port=port, user="" if os.geteuid() else "user root;"))
        url = self.begin(["nginx", "-c", str(self.folder / "nginx.conf"), "-p", str(self.folder)], f"http://127.0.0.1:{port}")
        self.all_of(url)
        self.write(BODY, 1_200_000_000)
        self.ranges(f"{url}/day/film")
        for _ in range(2):
            answer = self.session().get(f"{url}/day/a.txt")
            self.assertEqual((answer.content, answer.headers["Content-Encoding"]), (b"line\n" * 1000, "gzip"))
        self.now += 2 * 86400
        stale = self.session().get(f"{url}/day/a.txt")
        self.assertEqual((stale.content, stale.cache_reason.split(":")[0]), (b"line\n" * 1000, "validated"))

    def ranges(self, url: str) -> None:
        """Only what lacks is asked for."""
        session = self.session()
        for first, last in ((100, 999_999), (2_000_000, 2_999_999), (500_000, 2_500_000)):
            part = session.get(url, headers={"Range": f"bytes={first}-{last}"})
            self.assertEqual((part.status_code, part.content == BODY[first:last + 1]), (206, True))
        self.assertTrue(session.get(url).content == BODY)
        self.assertEqual(session.get(url, headers={"Range": "bytes=3000000-"}).status_code, 416)
        log = (self.folder / "access.log").read_text()
        sent = sum(int(it) for it in re.findall(r'"GET /day/film [^"]*" 20[06] (\d+)', log))
        self.assertEqual(sent, len(BODY), log)


def load_tests(loader: unittest.TestLoader, *_: object) -> unittest.TestSuite:
    return suite_of(loader, [ServerTest])


if __name__ == "__main__":
    unittest.main()
