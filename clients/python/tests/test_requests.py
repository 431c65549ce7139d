"""The adapter for requests, over each way that is here, before a test origin."""
from __future__ import annotations

import gc
import gzip
import os
import pathlib
import pickle
import random
import shutil
import signal
import subprocess
import sys
import tempfile
import threading
import time
import unittest

from ways import Way, suite_of

import requests
import urllib3
import vosdrieng.requests
from origin import Origin, Thing

SMALL = b"0123456789" * 10
OLD = [("Cache-Control", "max-age=10"), ("Age", "11")]


class Case(unittest.TestCase):
    """A test origin, a folder, and sessions of which each has an adapter of its own. `way` is set by `load_tests`."""

    way: Way

    def setUp(self) -> None:
        self.now = time.time()
        self.origin = Origin(lambda: self.now)
        self.addCleanup(self.origin.close)
        self.folder = tempfile.mkdtemp()
        self.addCleanup(shutil.rmtree, self.folder)

    def session(self, store: bool = False, **words: object) -> requests.Session:
        session = requests.Session()
        given = self.way.words() | words | ({"store": self.folder} if store else {})
        vosdrieng.requests.mount(session, clock=lambda: self.now, **given)
        self.addCleanup(session.close)
        return session

    def fresh(self, **words: object) -> requests.Session:
        """A session, with a clean origin and a clean folder."""
        self.origin.asked.clear()
        self.origin.things.clear()
        for path in pathlib.Path(self.folder).iterdir():
            path.unlink()
        return self.session(**words)


class RulesTest(Case):
    def test_fresh(self) -> None:
        session = self.fresh()
        self.origin.put("/a", SMALL)
        first, second = (session.get(self.origin.url("/a")) for _ in range(2))
        self.now += 5
        third = session.get(self.origin.url("/a"))
        self.assertEqual([it.content for it in (first, second, third)], [SMALL] * 3)
        self.assertEqual([it.from_cache for it in (first, second, third)], [False, True, True])
        self.assertEqual([it.headers.get("Age") for it in (first, second, third)], [None, "0", "5"])
        self.assertEqual(len(self.origin.asked), 1)

    def test_a_known_body_is_given_at_once_and_its_reader_has_left(self) -> None:
        session = self.fresh()
        self.origin.put("/a", SMALL, fields=[("Cache-Control", "max-age=10")])
        url = self.origin.url("/a")
        session.get(url)
        slow = session.get(url, stream=True)
        hits = [session.get(url) for _ in range(3)]
        resource = next(iter(session.get_adapter(url)._pool.resources.values()))
        self.assertEqual([(it.content, it.raw.headers["Cache-Control"], it.from_cache) for it in hits], [(SMALL, "max-age=10", True)] * 3)
        self.assertEqual(slow.content, SMALL)
        self.assertEqual((resource.readers, resource.users, len(self.origin.asked)), ({}, 0, 1))
        self.now += 11
        self.assertEqual(session.get(url).content, SMALL)
        self.assertEqual(session.get(url, headers={"Cache-Control": "max-age=0, only-if-cached"}).status_code, 504)
        self.assertEqual((resource.readers, resource.users), ({}, 0))

    def test_received_age_counts(self) -> None:
        session = self.fresh()
        self.origin.put("/a", SMALL, fields=[("Cache-Control", "max-age=10"), ("Age", "8")])
        session.get(self.origin.url("/a"))
        self.assertEqual(session.get(self.origin.url("/a")).headers["Age"], "8")
        self.now += 3
        session.get(self.origin.url("/a"))
        self.assertEqual([it.status for it in self.origin.asked], [200, 304])

    def test_stale_is_validated(self) -> None:
        session = self.fresh()
        self.origin.put("/a", SMALL, fields=[("Cache-Control", "max-age=1")])
        session.get(self.origin.url("/a"))
        self.now += 2
        answer = session.get(self.origin.url("/a"))
        self.assertEqual((answer.status_code, answer.content, answer.from_cache), (200, SMALL, True))
        self.assertEqual([it.status for it in self.origin.asked], [200, 304])
        self.assertEqual(self.origin.asked[1].fields["if-none-match"], '"v1"')

    def test_changed(self) -> None:
        session = self.fresh()
        self.origin.put("/a", SMALL, fields=OLD)
        session.get(self.origin.url("/a"))
        self.origin.put("/a", b"new", tag='"v2"', fields=OLD)
        answer = session.get(self.origin.url("/a"))
        self.assertEqual((answer.content, answer.from_cache), (b"new", False))

    def test_no_store_in_any_case(self) -> None:
        for value in ("no-store", "No-Store", 'private="x", NO-STORE'):
            session = self.fresh()
            self.origin.put("/a", SMALL, fields=[("Cache-Control", "max-age=600"), ("Cache-Control", value)])
            for _ in range(2):
                self.assertEqual(session.get(self.origin.url("/a")).content, SMALL)
            self.assertEqual([it.status for it in self.origin.asked], [200, 200])

    def test_no_cache_is_validated(self) -> None:
        session = self.fresh()
        self.origin.put("/a", SMALL, fields=[("Cache-Control", "No-Cache, max-age=600")])
        for _ in range(2):
            self.assertEqual(session.get(self.origin.url("/a")).content, SMALL)
        self.assertEqual([it.status for it in self.origin.asked], [200, 304])

    def test_directives_of_the_request(self) -> None:
        session = self.fresh()
        self.origin.put("/a", SMALL)
        url = self.origin.url("/a")
        miss = session.get(url, headers={"Cache-Control": "Only-If-Cached"})
        self.assertEqual((miss.status_code, miss.content), (504, b""))
        session.get(url)
        self.now += 5
        session.get(url, headers={"Cache-Control": "max-age=9"})
        session.get(url, headers={"Cache-Control": "max-age=3"})
        session.get(url, headers={"Cache-Control": "min-fresh=700"})
        session.get(url, headers={"Cache-Control": "no-cache"})
        self.assertEqual([it.status for it in self.origin.asked], [200, 304, 304, 200])
        self.now += 700
        self.assertEqual(session.get(url, headers={"Cache-Control": "max-stale"}).headers["Age"], "700")
        self.assertEqual(len(self.origin.asked), 4)

    def test_vary(self) -> None:
        session = self.fresh()
        self.origin.put("/a", SMALL, fields=[("Cache-Control", "max-age=600"), ("Vary", "X-Kind")])
        for kind in ("one", "one", "two", "two", "one"):
            session.get(self.origin.url("/a"), headers={"X-Kind": kind})
        self.assertEqual([it.fields["x-kind"] for it in self.origin.asked], ["one", "two", "one"])

    def test_head_goes_to_the_origin(self) -> None:
        session = self.fresh()
        self.origin.put("/a", SMALL)
        session.get(self.origin.url("/a"))
        for _ in range(2):
            answer = session.head(self.origin.url("/a"))
            self.assertEqual((answer.content, answer.headers["Content-Length"]), (b"", "100"))
        self.assertEqual([it.method for it in self.origin.asked], ["GET", "HEAD", "HEAD"])

    def test_unsafe_methods_invalidate(self) -> None:
        for method in ("POST", "PUT", "DELETE", "PATCH"):
            session = self.fresh(store=True)
            self.origin.put("/a", SMALL)
            session.get(self.origin.url("/a"))
            self.assertEqual(session.request(method, self.origin.url("/a"), data=b"more").status_code, 200)
            self.assertFalse(session.get(self.origin.url("/a")).from_cache)
            session.request(method, self.origin.url("/a"), data=b"more")
            self.assertFalse(self.session(store=True).get(self.origin.url("/a")).from_cache)

    def test_failed_unsafe_methods_do_not(self) -> None:
        session = self.fresh()
        thing = self.origin.put("/a", SMALL)
        session.get(self.origin.url("/a"))
        thing.status = 500
        session.post(self.origin.url("/a"))
        self.assertTrue(session.get(self.origin.url("/a")).from_cache)

    def test_users_share_nothing(self) -> None:
        session = self.fresh()
        self.origin.put("/a", SMALL)
        for user in ("ann", "bob", "ann"):
            session.get(self.origin.url("/a"), auth=(user, "x"))
        session.get(self.origin.url("/a"))
        self.assertEqual(len(self.origin.asked), 3)

    def test_unsafe_methods_invalidate_for_all_users(self) -> None:
        for store in (False, True):
            session = self.fresh(store=store)
            self.origin.put("/a", SMALL)
            self.origin.put("/ab", SMALL)
            users = [None, ("ann", "x"), ("bob", "x")]
            for user in users:
                session.get(self.origin.url("/a"), auth=user)
                session.get(self.origin.url("/ab"), auth=user)
            session.post(self.origin.url("/a"), auth=users[1])
            asker = self.session(store=True) if store else session
            self.assertEqual([asker.get(self.origin.url("/a"), auth=user).from_cache for user in users], [False] * 3)
            self.assertEqual([asker.get(self.origin.url("/ab"), auth=user).from_cache for user in users], [True] * 3)

    def test_callers_own_condition(self) -> None:
        session = self.fresh()
        self.origin.put("/a", SMALL)
        session.get(self.origin.url("/a"))
        self.assertEqual(session.get(self.origin.url("/a"), headers={"If-None-Match": '"v1"'}).status_code, 304)

    def test_server_error_keeps_what_is_stored(self) -> None:
        session = self.fresh()
        thing = self.origin.put("/a", SMALL, fields=OLD)
        session.get(self.origin.url("/a"))
        thing.status, thing.tag = 503, None
        self.assertEqual(session.get(self.origin.url("/a")).status_code, 503)
        thing.status, thing.tag = 200, '"v1"'
        self.assertEqual(session.get(self.origin.url("/a")).content, SMALL)
        self.assertEqual([it.status for it in self.origin.asked], [200, 503, 304])

    def test_a_cache_that_was_killed(self) -> None:
        session = self.fresh(store=True)
        self.origin.put("/a", SMALL)
        session.get(self.origin.url("/a"))
        (resource,) = session.get_adapter("http://")._pool.resources.values()
        if self.way.name == "process":
            resource.cache._process.kill()
        else:
            resource.cache.close()
        self.assertRaises(vosdrieng.Gone, session.get, self.origin.url("/a"))
        self.assertTrue(session.get(self.origin.url("/a")).from_cache)

    def test_no_connection(self) -> None:
        session = self.fresh()
        with self.assertRaises(requests.ConnectionError):
            session.get("http://127.0.0.1:9/a")
        self.assertRaises(requests.ConnectionError, session.get, "http://127.0.0.1:9/a")


class RangesTest(Case):
    def test_out_of_the_whole(self) -> None:
        session = self.fresh()
        self.origin.put("/a", SMALL)
        session.get(self.origin.url("/a"))
        part = session.get(self.origin.url("/a"), headers={"Range": "bytes=3-7"})
        self.assertEqual((part.status_code, part.content, part.headers["Content-Range"]), (206, b"34567", "bytes 3-7/100"))
        last = session.get(self.origin.url("/a"), headers={"Range": "bytes=-4"})
        self.assertEqual(last.content, b"6789")
        past = session.get(self.origin.url("/a"), headers={"Range": "bytes=100-"})
        self.assertEqual(past.status_code, 416)
        self.assertEqual([it.status for it in self.origin.asked], [200, 416])

    def test_parts_are_stitched(self) -> None:
        session = self.fresh(store=True)
        body = random.Random(1).randbytes(1000)
        self.origin.put("/a", body)
        for first, last in ((0, 299), (600, 799), (200, 699)):
            got = session.get(self.origin.url("/a"), headers={"Range": f"bytes={first}-{last}"})
            self.assertEqual((got.status_code, got.content), (206, body[first:last + 1]))
        self.assertTrue(session.get(self.origin.url("/a")).content == body)
        sent = [(it.fields.get("range"), it.sent) for it in self.origin.asked]
        self.assertEqual(sum(size for _, size in sent), 1000, sent)

    def test_a_changed_part_starts_over(self) -> None:
        for stream in (False, True):
            session = self.fresh()
            self.origin.put("/a", b"a" * 100)
            session.get(self.origin.url("/a"), headers={"Range": "bytes=0-9"})
            self.origin.put("/a", b"b" * 100, tag='"v2"')
            got = session.get(self.origin.url("/a"), headers={"Range": "bytes=5-19"}, stream=stream)
            self.assertIn(got.content, (b"b" * 15, b"b" * 100))
            self.assertEqual(got.status_code, 206 if len(got.content) == 15 else 200)


class BrokenTest(Case):
    def test_resumed_within_the_call(self) -> None:
        for stream in (False, True):
            session = self.fresh()
            body = random.Random(2).randbytes(1_000_000)
            self.origin.put("/a", body, breaks=[100_000, 500_000, 900_000])
            self.assertTrue(session.get(self.origin.url("/a"), stream=stream).content == body)
            self.assertEqual(sum(it.sent for it in self.origin.asked), len(body))
            self.assertTrue(session.get(self.origin.url("/a")).from_cache)

    def test_resumed_past_the_store(self) -> None:
        for stream in (False, True):
            session = self.fresh()
            body = random.Random(2).randbytes(1_000_000)
            self.origin.put("/a", body, breaks=[100_000, 500_000], fields=[("Cache-Control", "no-store")])
            self.assertTrue(session.get(self.origin.url("/a"), stream=stream).content == body)
            self.assertEqual(sum(it.sent for it in self.origin.asked), len(body))

    def test_cut_without_a_strong_tag(self) -> None:
        for tag in (None, 'W/"v1"'):
            for stream in (False, True):
                session = self.fresh()
                self.origin.put("/a", b"a" * 1_000_000, breaks=[100_000] * 9, tag=tag)
                with self.assertRaises(requests.exceptions.ChunkedEncodingError):
                    session.get(self.origin.url("/a"), stream=stream).content
                self.origin.put("/a", SMALL)
                self.assertEqual(session.get(self.origin.url("/a")).content, SMALL)

    def test_a_broken_stream_stays_broken(self) -> None:
        session = self.fresh()
        self.origin.put("/a", b"a" * 300_000, breaks=[100_000], tag=None)
        raw = session.get(self.origin.url("/a"), stream=True).raw
        self.assertEqual(len(raw.read(50_000)), 50_000)
        for _ in range(2):
            self.assertRaises(urllib3.exceptions.ProtocolError, raw.read, 100_000)

    def test_cut_chunks(self) -> None:
        session = self.fresh(store=True)
        self.origin.put("/a", b"a" * 1_000_000, breaks=[100_000], chunked=True, tag=None)
        with self.assertRaises(requests.exceptions.ChunkedEncodingError):
            session.get(self.origin.url("/a")).content
        self.assertEqual(session.get(self.origin.url("/a")).content, b"a" * 1_000_000)
        self.assertTrue(session.get(self.origin.url("/a")).from_cache)

    def test_changed_behind_a_break(self) -> None:
        for stream in (False, True):
            session = self.fresh()
            thing = self.origin.put("/a", b"a" * 1_000_000, breaks=[300_000], fields=[("Cache-Control", "max-age=0")])
            got = session.get(self.origin.url("/a"), stream=True)
            self.assertEqual(got.raw.read(10), b"a" * 10)
            thing.body, thing.tag = b"b" * 1_000_000, '"v2"'
            with self.assertRaises(requests.exceptions.ChunkedEncodingError):
                got.content
            self.assertEqual(session.get(self.origin.url("/a"), stream=stream).content, b"b" * 1_000_000)

    def test_changed_at_a_break_is_begun_again(self) -> None:
        session = self.fresh(store=True)
        stale, new = [("Cache-Control", "max-age=0")], Thing(b"b" * 500_000, '"v2"')
        self.origin.put("/a", b"a" * 1_000_000, breaks=[300_000], fields=stale, after=new)
        self.assertTrue(session.get(self.origin.url("/a")).content == new.body)
        self.origin.put("/b", b"a" * 1_000_000, breaks=[300_000], fields=stale, after=new)
        with self.assertRaises(requests.exceptions.ChunkedEncodingError):
            session.get(self.origin.url("/b"), stream=True).content
        self.assertTrue(self.session(store=True).get(self.origin.url("/b")).content == new.body)

    def test_broken_at_the_first_byte(self) -> None:
        session = self.fresh()
        self.origin.put("/a", SMALL, breaks=[0])
        self.assertEqual(session.get(self.origin.url("/a")).content, SMALL)

    def test_a_server_that_always_breaks(self) -> None:
        session = self.fresh()
        self.origin.put("/a", SMALL, breaks=[0] * 99)
        with self.assertRaises(requests.RequestException):
            session.get(self.origin.url("/a"))
        self.assertLess(len(self.origin.asked), 6)


class SharedTest(Case):
    def _threads(self, count: int, call: object) -> list[object]:
        got: list[object] = [None] * count

        def run(place: int) -> None:
            try:
                got[place] = call(place)
            except Exception as error:
                got[place] = error

        threads = [threading.Thread(target=run, args=(place,)) for place in range(count)]
        for thread in threads:
            thread.start()
        for thread in threads:
            thread.join(60)
        return got

    def test_sixteen_threads_one_request(self) -> None:
        for stream in (False, True):
            session = self.fresh()
            body = random.Random(3).randbytes(2_000_000)
            self.origin.put("/a", body, pause=0.002)
            got = self._threads(16, lambda _: session.get(self.origin.url("/a"), stream=stream).content == body)
            self.assertEqual(got, [True] * 16)
            self.assertEqual(len(self.origin.asked), 1)

    def test_sixteen_threads_over_breaks(self) -> None:
        session = self.fresh()
        body = random.Random(3).randbytes(2_000_000)
        self.origin.put("/a", body, breaks=[200_000, 1_000_000, 1_900_000])
        got = self._threads(16, lambda _: session.get(self.origin.url("/a")).content == body)
        self.assertEqual(got, [True] * 16)
        self.assertEqual(sum(it.sent for it in self.origin.asked), len(body))

    def test_who_idles_leaves_or_is_forgotten_holds_up_nobody(self) -> None:
        session = self.fresh()
        body = random.Random(4).randbytes(1_000_000)
        self.origin.put("/a", body)
        idle = session.get(self.origin.url("/a"), stream=True)
        idle.raw.read(10)
        left = session.get(self.origin.url("/a"), stream=True)
        left.raw.read(20)
        left.close()
        session.get(self.origin.url("/a"), stream=True).raw.read(30)
        began = time.monotonic()
        self.assertTrue(session.get(self.origin.url("/a")).content == body)
        self.assertLess(time.monotonic() - began, 15)
        self.assertEqual(idle.raw.read(), body[10:])
        self.assertEqual(len(self.origin.asked), 1)

    def test_an_idle_reader_of_a_part(self) -> None:
        session = self.fresh()
        body = random.Random(4).randbytes(1_000_000)
        self.origin.put("/a", body)
        idle = session.get(self.origin.url("/a"), headers={"Range": "bytes=100-900000"}, stream=True)
        self.assertEqual(idle.raw.read(5), body[100:105])
        began = time.monotonic()
        self.assertTrue(session.get(self.origin.url("/a")).content == body)
        self.assertLess(time.monotonic() - began, 15)
        self.assertEqual(idle.raw.read(), body[105:900001])

    def test_a_slow_head_is_waited_for(self) -> None:
        session = self.fresh()
        gate = threading.Event()
        self.origin.put("/a", SMALL, gate=gate)
        threading.Timer(0.3, gate.set).start()
        got = self._threads(8, lambda _: session.get(self.origin.url("/a")).content)
        self.assertEqual(got, [SMALL] * 8)
        self.assertEqual(len(self.origin.asked), 1)

    def test_a_waiting_call_has_its_own_timeout(self) -> None:
        session = self.fresh()
        gate = threading.Event()
        self.origin.put("/a", SMALL, gate=gate)
        threading.Timer(3, gate.set).start()
        got = self._threads(2, lambda place: session.get(self.origin.url("/a"), timeout=(5, 20 if place else 1)))
        self.assertIsInstance(got[0], requests.Timeout)

    def test_many_threads_many_urls(self) -> None:
        session = self.fresh(store=True)
        bodies = {f"/{it}": random.Random(it).randbytes(random.Random(it).randrange(200_000)) for it in range(8)}
        for path, body in bodies.items():
            self.origin.put(path, body, fields=[("Cache-Control", f"max-age={int(path[1]) % 2}")])

        def call(place: int) -> bool:
            draw = random.Random(place)
            paths = [draw.choice(list(bodies)) for _ in range(12)]
            return all(session.get(self.origin.url(path), stream=draw.random() < 0.5).content == bodies[path] for path in paths)

        self.assertEqual(self._threads(12, call), [True] * 12)


class SurfaceTest(Case):
    def test_order_and_lines_of_headers(self) -> None:
        session = self.fresh(store=True)
        fields = [("X-Zebra", "1"), ("Cache-Control", "max-age=600"), ("X-Apple", "a"), ("X-Apple", "b"), ("Set-Cookie", "k=v; Path=/")]
        self.origin.put("/a", SMALL, fields=fields)
        first = session.get(self.origin.url("/a"))
        self.assertEqual(session.cookies.get("k"), "v")
        session.cookies.set("k", "w", domain="127.0.0.1", path="/")
        again = self.session(store=True).get(self.origin.url("/a"))
        for answer in (first, session.get(self.origin.url("/a")), again):
            self.assertEqual([name for name in answer.headers][:4], ["X-Zebra", "Cache-Control", "X-Apple", "Set-Cookie"])
            self.assertEqual(answer.headers["X-Apple"], "a, b")
            self.assertEqual(answer.raw.headers.getlist("X-Apple"), ["a", "b"])
            self.assertEqual(answer.cookies.get("k"), "v")

    def test_gzip(self) -> None:
        session = self.fresh(store=True)
        packed = gzip.compress(SMALL)
        self.origin.put("/a", packed, fields=[("Cache-Control", "max-age=600"), ("Content-Encoding", "gzip")])
        for _ in range(2):
            self.assertEqual(session.get(self.origin.url("/a")).content, SMALL)
            self.assertEqual(session.get(self.origin.url("/a"), stream=True).content, SMALL)
            self.assertEqual(session.get(self.origin.url("/a"), stream=True).raw.read(), packed)
            self.assertEqual(session.get(self.origin.url("/a")).raw.read(7), packed[:7])

    def test_raw_and_request_of_this_call(self) -> None:
        session = self.fresh()
        self.origin.put("/a", SMALL)
        session.get(self.origin.url("/a"))
        request = session.prepare_request(requests.Request("GET", self.origin.url("/a"), headers={"X-Mine": "1"}))
        before = dict(request.headers)
        seen = []
        request.hooks["response"] = [lambda answer, **_: seen.append(answer)]
        answer = session.send(request, stream=True)
        self.assertIs(answer.request, request)
        self.assertEqual(seen, [answer])
        self.assertEqual(dict(request.headers), before)
        self.assertEqual((answer.raw.read(3), answer.raw.read(3), answer.raw.status), (b"012", b"345", 200))
        self.assertGreaterEqual(answer.elapsed.total_seconds(), 0)

    def test_a_live_stream_comes_line_by_line(self) -> None:
        session = self.fresh()
        lines = b"".join(b"line %d\n" % place for place in range(6))
        for path in ("/a", "/b"):
            fields = [("Cache-Control", "no-store" if path == "/b" else "max-age=600")]
            self.origin.put(path, lines, chunked=True, step=7, pause=0.25, fields=fields)
            began, times = time.monotonic(), []
            for line in session.get(self.origin.url(path), stream=True).iter_lines():
                times.append(time.monotonic() - began)
            self.assertEqual(len(times), 6)
            self.assertLess(times[0], times[-1] - 0.6)
            with session.get(self.origin.url(path), stream=True) as answer:
                self.assertEqual(b"".join(answer.iter_content(4)), lines)

    def test_a_closed_session_lets_streams_end(self) -> None:
        session = self.fresh(store=True)
        body = random.Random(4).randbytes(500_000)
        self.origin.put("/a", body)
        answer = session.get(self.origin.url("/a"), stream=True)
        session.close()
        self.assertTrue(answer.content == body)
        self.assertTrue(self.session(store=True).get(self.origin.url("/a")).from_cache)

    def test_a_forked_process_has_caches_of_its_own(self) -> None:
        session = self.fresh(store=True)
        self.origin.put("/a", SMALL)
        body = random.Random(4).randbytes(500_000)
        self.origin.put("/b", body)
        session.get(self.origin.url("/a"))
        half = session.get(self.origin.url("/b"), stream=True)
        half.raw.read(100_000)
        child = os.fork()
        if child == 0:
            answer = session.get(self.origin.url("/a"))
            os._exit(0 if answer.from_cache and answer.content == SMALL else 1)
        self.assertEqual(os.waitpid(child, 0)[1], 0)
        self.assertTrue(half.content == body[100_000:])
        self.assertTrue(session.get(self.origin.url("/a")).from_cache)

    def test_garbage_holds_up_nobody(self) -> None:
        body = random.Random(4).randbytes(300_000)
        self.origin.put("/a", body)
        for _ in range(20):
            session = requests.Session()
            vosdrieng.requests.mount(session, **self.way.words())
            answer = session.get(self.origin.url("/a"), stream=True)
            answer.raw.read(1000)
            answer.itself = answer
            del answer
            self.assertTrue(session.get(self.origin.url("/a")).content == body)
            gc.collect()
            self.assertTrue(session.get(self.origin.url("/a")).content == body)
        del session
        gc.collect()

    def test_no_password_is_kept(self) -> None:
        session = self.fresh(store=True)
        self.origin.put("/a", SMALL)
        for user in ("", "ann:secret@", "bob:secret@"):
            session.get(self.origin.url("/a").replace("//", f"//{user}"))
        self.assertEqual(len(self.origin.asked), 3)
        self.assertNotIn(b"secret", b"".join(it.read_bytes() for it in pathlib.Path(self.folder).iterdir()))

    def test_it_pickles(self) -> None:
        self.origin.put("/a", SMALL)
        session = requests.Session()
        vosdrieng.requests.mount(session, store=self.folder, **self.way.words())
        session.get(self.origin.url("/a"))
        other = pickle.loads(pickle.dumps(session))
        self.assertTrue(other.get(self.origin.url("/a")).from_cache)

    def test_what_the_cache_cannot_be_told(self) -> None:
        session = self.fresh()
        self.origin.put("/a", SMALL, fields=[("X-Long", "x" * 9000), ("Cache-Control", "max-age=600")])
        for stream in (False, True):
            self.assertEqual(session.get(self.origin.url("/a"), stream=stream).content, SMALL)
        self.origin.put("/b", SMALL)
        self.assertEqual(session.get(self.origin.url("/b"), headers={"X-Long": "x" * 9000}).content, SMALL)
        self.assertEqual(session.request("A-VERY-LONG-METHOD-NAME", self.origin.url("/b")).status_code, 501)

    def test_lengths_beside_codings(self) -> None:
        session = self.fresh(store=True)
        self.origin.put("/a", SMALL, chunked=True, fields=[("Content-Length", "5"), ("Cache-Control", "max-age=600")])
        for _ in range(2):
            self.assertEqual(session.get(self.origin.url("/a")).content, SMALL)
        self.assertEqual(len(self.origin.asked), 1)
        self.origin.put("/b", SMALL, fields=[("Transfer-Encoding", "gzip"), ("Cache-Control", "max-age=600")])
        for _ in range(2):
            self.assertFalse(session.get(self.origin.url("/b")).from_cache)
        self.origin.put("/c", SMALL, fields=[("Content-Length", "100"), ("Cache-Control", "max-age=600")])
        self.assertEqual([session.get(self.origin.url("/c")).from_cache for _ in range(2)], [False, True])

    def test_redirects(self) -> None:
        session = self.fresh()
        self.origin.put("/a", b"", status=302, fields=[("Location", "/b")], tag=None)
        self.origin.put("/b", SMALL)
        for _ in range(2):
            answer = session.get(self.origin.url("/a"))
            self.assertEqual((answer.content, len(answer.history)), (SMALL, 1))

    def test_empty_bodies(self) -> None:
        session = self.fresh(store=True)
        self.origin.put("/a", b"")
        self.origin.put("/b", b"", status=204, tag=None)
        for path in ("/a", "/b"):
            for stream in (False, True, False):
                self.assertEqual(session.get(self.origin.url(path), stream=stream).content, b"")
        self.assertTrue(self.session(store=True).get(self.origin.url("/a")).from_cache)


class StoreTest(Case):
    def test_kept_through_a_restart(self) -> None:
        session = self.fresh(store=True)
        bodies = {"/a": SMALL, "/b": random.Random(5).randbytes(300_000)}
        for path, body in bodies.items():
            self.origin.put(path, body, chunked=path == "/b")
            session.get(self.origin.url(path))
        session.close()
        self.now += 7
        for path, body in bodies.items():
            answer = self.session(store=True).get(self.origin.url(path))
            self.assertEqual((answer.content, answer.from_cache, answer.headers["Age"]), (body, True, "7"))
        self.assertEqual({oct(it.stat().st_mode & 0o777) for it in pathlib.Path(self.folder).iterdir()}, {"0o600"})

    def test_what_was_validated_is_kept(self) -> None:
        session = self.fresh(store=True)
        self.origin.put("/a", SMALL, fields=[("Cache-Control", "max-age=10")])
        session.get(self.origin.url("/a"))
        self.now += 20
        session.get(self.origin.url("/a"))
        self.now += 5
        self.assertEqual(self.session(store=True).get(self.origin.url("/a")).headers["Age"], "5")
        self.assertEqual(len(self.origin.asked), 2)

    def test_damage_is_a_miss(self) -> None:
        session = self.fresh(store=True)
        body = random.Random(6).randbytes(3000)
        self.origin.put("/a", body)
        session.get(self.origin.url("/a"))
        session.close()
        (path,) = pathlib.Path(self.folder).glob("*.vos")
        good = path.read_bytes()
        draw = random.Random(7)
        step = 41 if self.way.name == "library" else 97
        damaged = [good[:at] + bytes([good[at] ^ 1 << draw.randrange(8)]) + good[at + 1:] for at in range(0, len(good), step)]
        damaged += [good[:at] for at in range(0, len(good), step)] + [good + b"x", b"", os.urandom(5000)]
        for image in damaged:
            path.write_bytes(image)
            answer = self.session(store=True).get(self.origin.url("/a"))
            self.assertEqual((answer.content, answer.from_cache), (body, False))

    def test_anothers_file_is_a_miss(self) -> None:
        session = self.fresh(store=True)
        for path in ("/a", "/b"):
            self.origin.put(path, path.encode() * 50)
            session.get(self.origin.url(path))
        session.close()
        one, two = pathlib.Path(self.folder).glob("*.vos")
        one.write_bytes(two.read_bytes())
        again = self.session(store=True)
        for path in ("/a", "/b"):
            self.assertEqual(again.get(self.origin.url(path)).content, path.encode() * 50)
        self.assertEqual(len(self.origin.asked), 3)

    def test_two_processes_share(self) -> None:
        session = self.fresh(store=True)
        other = self.session(store=True)
        thing = self.origin.put("/a", SMALL)
        session.get(self.origin.url("/a"))
        self.assertTrue(other.get(self.origin.url("/a")).from_cache)
        thing.body, thing.tag = b"new", '"v2"'
        other.get(self.origin.url("/a"), headers={"Cache-Control": "no-cache"})
        self.assertEqual(session.get(self.origin.url("/a")).content, b"new")
        other.post(self.origin.url("/a"))
        self.assertFalse(session.get(self.origin.url("/a")).from_cache)

    def test_a_store_that_cannot_be_written(self) -> None:
        session = self.fresh(store=True)
        shutil.rmtree(self.folder)
        try:
            self.origin.put("/a", SMALL)
            for _ in range(2):
                self.assertEqual(session.get(self.origin.url("/a")).content, SMALL)
        finally:
            os.makedirs(self.folder, exist_ok=True)

    def test_a_body_above_the_limit(self) -> None:
        if self.way.name == "process":
            self.skipTest("the program has a limit of its own")
        session = self.fresh(store=True, max_body=100_000)
        body = random.Random(8).randbytes(1_000_000)
        self.origin.put("/a", body, pause=0.002, breaks=[700_000])
        got = []
        threads = [threading.Thread(target=lambda: got.append(session.get(self.origin.url("/a")).content == body)) for _ in range(6)]
        for thread in threads:
            thread.start()
        for thread in threads:
            thread.join()
        self.assertEqual(got, [True] * 6)
        self.assertEqual(list(pathlib.Path(self.folder).iterdir()), [])
        self.assertFalse(session.get(self.origin.url("/a"), stream=True).from_cache)

    def test_what_left_memory_is_in_the_folder(self) -> None:
        session = self.fresh(store=True, max_memory=300_000)
        for _ in range(2):
            for place in range(12):
                path, body = f"/{place}", random.Random(place).randbytes(60_000)
                self.origin.put(path, body)
                self.assertTrue(session.get(self.origin.url(path)).content == body)
        self.assertEqual(len(self.origin.asked), 12)
        self.assertLess(len(session.get_adapter("http://")._pool.resources), 6)

    def test_left_midway(self) -> None:
        session = self.fresh(store=True)
        body = random.Random(8).randbytes(1_000_000)
        self.origin.put("/a", body)
        with session.get(self.origin.url("/a"), stream=True) as answer:
            answer.raw.read(500_000)
        session.close()
        self.assertTrue(self.session(store=True).get(self.origin.url("/a")).content == body)
        self.assertGreaterEqual(int(self.origin.asked[1].fields["range"].split("=")[1][:-1]), 500_000)


KILLED = """
import sys
sys.path[:0] = {paths!r}
import requests, vosdrieng.requests
session = requests.Session()
vosdrieng.requests.mount(session, store={folder!r}, **{words!r})
answer = session.get({url!r}, stream=True)
got = 0
while data := answer.raw.read(65536):
    got += len(data)
    print(got, flush=True)
"""


class KilledTest(Case):
    """Whoever is killed in mid-download goes on from the file."""

    size = 8_000_000

    def _killed(self, after: int) -> None:
        here = pathlib.Path(__file__).resolve().parent
        script = KILLED.format(paths=[str(here.parent)], folder=self.folder, words=self.way.words(), url=self.origin.url("/a"))
        process = subprocess.Popen([sys.executable, "-c", script], stdout=subprocess.PIPE, text=True)
        for line in process.stdout:
            if int(line) >= after:
                break
        process.send_signal(signal.SIGKILL)
        process.wait()
        process.stdout.close()

    def test_killed_twice(self) -> None:
        self.fresh()
        body = random.Random(9).randbytes(self.size)
        self.origin.put("/a", body, pause=0.001)
        self._killed(self.size // 4)
        self._killed(self.size // 2)
        self.origin.things["/a"].pause = 0
        self.assertTrue(self.session(store=True).get(self.origin.url("/a")).content == body)
        firsts = [int((it.fields.get("range") or "bytes=0-").split("=")[1].split("-")[0]) for it in self.origin.asked]
        self.assertEqual(len(firsts), 3)
        self.assertGreaterEqual(firsts[1], self.size // 4)
        self.assertGreaterEqual(firsts[2], self.size // 2)

    def test_nobody_resumes_from_a_file_that_is_written(self) -> None:
        session = self.fresh(store=True)
        body = random.Random(9).randbytes(2_000_000)
        self.origin.put("/a", body)
        half = session.get(self.origin.url("/a"), stream=True)
        half.raw.read(1_000_000)
        other = self.session(store=True).get(self.origin.url("/a"))
        self.assertTrue(other.content == body)
        self.assertNotIn("range", self.origin.asked[1].fields)
        self.assertEqual(half.raw.read(), body[1_000_000:])
        self.assertTrue(self.session(store=True).get(self.origin.url("/a")).from_cache)


class LargeTest(Case):
    def test_fifty_megabytes_broken_five_times(self) -> None:
        body = random.Random(10).randbytes(50_000_000)
        for stream in (False, True):
            session = self.fresh()
            self.origin.put("/a", body, breaks=[3_000_000, 12_345_678, 25_000_000, 31_000_000, 49_999_999])
            answer = session.get(self.origin.url("/a"), stream=stream)
            parts = list(answer.iter_content(1 << 20)) if stream else [answer.content]
            self.assertTrue(b"".join(parts) == body)
            self.assertEqual((len(self.origin.asked), sum(it.sent for it in self.origin.asked)), (6, len(body)))


def load_tests(loader: unittest.TestLoader, *_: object) -> unittest.TestSuite:
    return suite_of(loader, [RulesTest, RangesTest, BrokenTest, SharedTest, SurfaceTest, StoreTest, KilledTest, LargeTest])


if __name__ == "__main__":
    unittest.main()
