"""The cache itself, over each way that is here: the worked rows, what is refused, images."""
from __future__ import annotations

import os
import pathlib
import unittest

from ways import LIBRARY, PROGRAM, ways

import rows
from vosdrieng import BadImage, BadText, Cache, Denied, Gone, Refused, Shown

URL = "http://a.test/film"
HEAD = [("ETag", '"a"'), ("Content-Length", "6"), ("Cache-Control", "max-age=60")]


def partly(cache: Cache) -> None:
    """Half of a body is stored, and nobody is live."""
    cache.start(1000, 1, "GET", URL)
    cache.poll(1000, 1, 1)
    cache.head(1001, 1, 200, HEAD)
    cache.poll(1001, 1, 1)
    cache.poll(1001, 1, 1)
    cache.piece(1001, 1, b"abc")
    cache.cancel(1001, 1)


class CacheTest(unittest.TestCase):
    def test_rows(self) -> None:
        self.assertGreater(len(rows.rows()), 50)
        for way in ways():
            for path in rows.rows():
                with self.subTest(way=way.name, row=path.stem), way.cache() as cache:
                    self.assertEqual(rows.replay(cache, path.read_bytes()), path.with_suffix(".report").read_bytes())

    def test_refused_changes_nothing(self) -> None:
        bad = [
            lambda cache: cache.start(5, 1, "GET /", URL),
            lambda cache: cache.start(5, 1, "CONNECT", URL),
            lambda cache: cache.start(5, 1, "GET", URL, load="often"),
            lambda cache: cache.start(5, 1, "GET", "http://A.test/"),
            lambda cache: cache.start(5, 1, "GET", "http://a.test:80/"),
            lambda cache: cache.start(5, 1, "GET", "http://a.test/a b"),
            lambda cache: cache.start(5, 1, "GET", "http://a.test/\npoll 1 1"),
            lambda cache: cache.start(5, 1, "GET", URL, [("a", "b\nc: d")]),
            lambda cache: cache.start(5, 1, "GET", URL, [("a\n", "b")]),
            lambda cache: cache.start(5, 1, "GET", URL, [("a b", "c")]),
            lambda cache: cache.start(5, 1, "GET", URL, [("a", "b" * 8193)]),
            lambda cache: cache.start(5, 1, "GET", URL, [("a", "b")] * 65),
            lambda cache: cache.start(5, 1 << 62, "GET", URL),
            lambda cache: cache.poll(5, 1, 65537),
            lambda cache: cache.poll(5, -1, 1),
            lambda cache: cache.poll(1 << 62, 1, 1),
            lambda cache: cache.head(5, 1, 199),
            lambda cache: cache.head(5, 1, 600),
            lambda cache: cache.piece(5, 1, b"a" * 65537),
            lambda cache: cache.poll(0, 1, 1),
        ]
        for way in ways():
            with way.cache() as cache:
                cache.cancel(1, 0)
                for place, call in enumerate(bad):
                    with self.subTest(way=way.name, place=place):
                        self.assertRaises(Refused, call, cache)
                self.assertEqual(cache.start(5, 1, "GET", URL), [])

    def test_closed(self) -> None:
        for way in ways():
            cache = way.cache()
            cache.close()
            cache.close()
            with self.subTest(way=way.name):
                self.assertRaises(Gone, cache.poll, 1, 1, 1)

    def test_image(self) -> None:
        for way in ways():
            with self.subTest(way=way.name), way.cache(kept=True) as cache:
                partly(cache)
                image = cache.image()
                self.assertIn(b"\nT 00000000000000000006\n200 1000 1001 0 2\n", image)
                with way.cache(kept=True, image=image) as again:
                    self.assertEqual(again.image().split(b"\n", 2)[2], image.split(b"\n", 2)[2])
                    again.start(1005, again.last_consumer + 1, "GET", URL)
                    (opened, *_) = again.poll(1005, again.last_consumer, 1)
                    self.assertEqual(opened.need, "hole:3-6")

    def test_no_image(self) -> None:
        for way in ways():
            for image in (b"", b"image 1\n", b"image 1\n0 0 1 0\nmore", b"image 1\n0 0 1 1\nitem x 1 0\n"):
                with self.subTest(way=way.name, image=image):
                    self.assertRaises(BadImage, way.cache, image=image)

    def test_what_is_denied(self) -> None:
        for way in ways():
            with self.subTest(way=way.name), way.cache() as cache:
                self.assertEqual(cache.poll(1, 1, 1), [Denied(3, 0)])
                cache.start(1, 7, "GET", URL)
                self.assertEqual(cache.start(1, 7, "GET", URL), [Denied(1, 7)])


@unittest.skipUnless(LIBRARY, "the library isn't here")
class LibraryTest(unittest.TestCase):
    def test_no_library(self) -> None:
        self.assertRaises(OSError, Cache.library, "/no/such/library.so")

    def test_a_text(self) -> None:
        first = pathlib.Path(__file__).resolve().parents[3] / "examples" / "first.schedule"
        schedule, due = first.read_bytes(), first.with_suffix(".report").read_bytes()
        for most in (1, 7, len(schedule)):
            with self.subTest(most=most), Cache.library(LIBRARY) as cache:
                report = b"".join(cache.schedule(schedule[at:at + most]) for at in range(0, len(schedule), most))
                cache.schedule_end()
                self.assertEqual(report, due)

    def test_who_started_last_by_a_text(self) -> None:
        film = b"start %d GET normal http://a.test/film %d\n"
        text = b"at 5\n" + film % (3, 0) + film % (2, 0) + b"poll 3 1\nhead 1 200 1\na: start 9\n" + film % (7, 1) + b"a: b\n" + film % (8, 1)
        for most in (1, 7, len(text)):
            with self.subTest(most=most), Cache.library(LIBRARY) as cache:
                for at in range(0, len(text), most):
                    cache.schedule(text[at:at + most])
                self.assertEqual(cache.last_consumer, 7)
                cache.schedule(b"a: b\n")
                self.assertEqual((cache.last_consumer, cache.start(5, 9, "GET", URL)), (8, []))

    def test_who_started_last_before_a_refused_line(self) -> None:
        with Cache.library(LIBRARY) as cache:
            self.assertRaises(BadText, cache.schedule, b"start 1 GET normal http://a.test/ 0\nstart\nstart 5 GET normal http://a.test/ 0\n")
            self.assertEqual(cache.last_consumer, 1)

    def test_a_refused_line(self) -> None:
        with Cache.library(LIBRARY) as cache:
            with self.assertRaises(BadText) as told:
                cache.schedule(b"at 5\ncancel 1\nfilm\n")
            self.assertEqual((told.exception.line, told.exception.report[:4]), (3, b"> 1\n"))
            self.assertRaises(BadText, cache.schedule, b"cancel 1\n")
            self.assertRaises(BadText, cache.schedule_end)

    def test_a_late_text(self) -> None:
        with Cache.library(LIBRARY) as cache:
            cache.end(1, 7)
            self.assertRaises(Refused, cache.schedule, b"at 5\n")


@unittest.skipUnless(PROGRAM, "the program isn't here")
class ProcessTest(unittest.TestCase):
    def test_no_program(self) -> None:
        self.assertRaises(OSError, Cache.process, "/no/such/program")

    def test_a_killed_process(self) -> None:
        cache = Cache.process(PROGRAM)
        cache._process.kill()
        self.assertRaises(Gone, cache.poll, 1, 1, 1)
        cache.close()

    def test_pieces_of_the_largest_size(self) -> None:
        body = os.urandom(65536 * 4)
        with Cache.process(PROGRAM) as cache:
            cache.start(1, 1, "GET", URL)
            cache.poll(1, 1, 1)
            cache.head(1, 1, 200, [("content-length", str(len(body)))])
            self.assertIsInstance(cache.poll(1, 1, 1)[0], Shown)
            got = b""
            for at in range(0, len(body), 65536):
                cache.poll(1, 1, 65536)
                cache.piece(1, 1, body[at:at + 65536])
                got += cache.poll(1, 1, 65536)[0].data
        self.assertEqual(got, body)


if __name__ == "__main__":
    unittest.main()
