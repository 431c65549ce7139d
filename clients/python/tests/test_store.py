"""The folder and the images, without a cache."""
from __future__ import annotations

import os
import pathlib
import random
import tempfile
import unittest

import ways  # noqa: F401
from vosdrieng import BadImage
from vosdrieng.images import Stored, read_image, write_image
from vosdrieng.store import Folder, Kept

BODY = random.Random(1).randbytes(200_000)
NAME = "http://a.test/film"


def kept(name: str = NAME, total: int | None = len(BODY)) -> Kept:
    stored = Stored("", "G", total, 200, 10, 11, [("cache-control", "max-age=60"), ("etag", '"a"')], [("x-kind", "one")], '"a"')
    return Kept(name, stored, ["ETag", "Cache-Control"])


class ImageTest(unittest.TestCase):
    def test_there_and_back(self) -> None:
        items = [
            Stored("http://a.test/a", "T", 9, 200, 1, 2, [("etag", '"a"')], [], '"a"', [(0, b"abc"), (3, b"\nrun 1 0 3\n")]),
            Stored("http://a.test/b", "G", None, 206, 1, 2, [], [("x", "")], "-", []),
        ]
        self.assertEqual(read_image(write_image(5, items)), items)

    def test_cut_or_continued(self) -> None:
        image = write_image(5, [Stored("http://a.test/a", "W", 3, 200, 1, 2, [("etag", '"a"')], [], '"a"', [(0, b"abc")])])
        for end in range(len(image)):
            self.assertRaises(BadImage, read_image, image[:end])
        self.assertRaises(BadImage, read_image, image + b"x")


class FolderTest(unittest.TestCase):
    def setUp(self) -> None:
        room = tempfile.TemporaryDirectory()
        self.addCleanup(room.cleanup)
        self.path = pathlib.Path(room.name)
        self.folder = Folder(self.path, 1 << 30)

    def part(self, size: int, **words: object) -> None:
        part = self.folder.begin(kept(**words))
        for at in range(0, size, 1000):
            part.data(at, BODY[at:min(at + 1000, size)])
        part.close()

    def test_finished(self) -> None:
        part = self.folder.begin(kept())
        part.data(0, BODY[:150_000])
        part.data(150_000, BODY[150_000:])
        self.assertIsNone(self.folder.signature(NAME))
        part.finish(len(BODY))
        found = self.folder.load(NAME)
        self.assertEqual((found.stored.kind, found.stored.total, found.stored.runs), ("W", len(BODY), [(0, BODY)]))
        self.assertEqual((found.stored.vary, found.spelling), ([("x-kind", "one")], ["ETag", "Cache-Control"]))
        self.assertEqual([it.suffix for it in self.path.iterdir()], [".vos"])

    def test_a_part_and_its_front(self) -> None:
        self.part(50_000)
        whole = next(self.path.iterdir()).read_bytes()
        for cut in (0, 1, 20, 21, 500, 1021):
            next(self.path.iterdir()).write_bytes(whole[:len(whole) - cut])
            front = self.folder.load(NAME).stored
            self.assertEqual((front.kind, front.runs[0][1]), ("T", BODY[:50_000 if not cut else 49_000]))

    def test_a_part_without_a_length_is_none(self) -> None:
        self.part(50_000, total=None)
        self.assertIsNone(self.folder.load(NAME))

    def test_resumed(self) -> None:
        self.part(50_000)
        found = self.folder.load(NAME)
        self.assertIsNone(self.folder.resume(found, 49_000))
        part = self.folder.resume(found, 50_000)
        part.data(50_000, BODY[50_000:])
        part.finish(len(BODY))
        self.assertEqual(self.folder.load(NAME).stored.runs, [(0, BODY)])

    def test_resumed_behind_a_torn_record(self) -> None:
        self.part(50_000)
        path = next(self.path.iterdir())
        path.write_bytes(path.read_bytes()[:-7])
        part = self.folder.resume(self.folder.load(NAME), 49_000)
        part.data(49_000, BODY[49_000:])
        part.finish(len(BODY))
        self.assertEqual(self.folder.load(NAME).stored.runs, [(0, BODY)])

    def test_anothers_part_is_not_resumed(self) -> None:
        self.part(50_000)
        found = self.folder.load(NAME)
        self.part(50_000)
        self.assertIsNone(self.folder.resume(found, 50_000))

    def test_who_writes_holds_it(self) -> None:
        part = self.folder.begin(kept())
        part.data(0, BODY[:1000])
        other = Folder(self.path, 1 << 30)
        self.assertIsNone(other.begin(kept()))
        self.assertIsNone(other.load(NAME))
        other.remove(NAME)
        part.close()
        self.assertEqual(other.load(NAME).stored.runs, [(0, BODY[:1000])])

    def test_records_of_another_place_or_file(self) -> None:
        for name in ("http://a.test/a", "http://a.test/b"):
            one = kept(name)
            one.stored.kind, one.stored.runs = "W", [(0, BODY)]
            self.folder.write(one)
        paths = sorted(self.path.iterdir())
        one, two = (path.read_bytes() for path in paths)
        size = len(BODY) // 4
        paths[0].write_bytes(one[:-size] + two[-size:])
        self.assertEqual([self.folder.load(name) is None for name in ("http://a.test/a", "http://a.test/b")].count(True), 1)

    def test_the_oldest_goes(self) -> None:
        folder = Folder(self.path, 1_000_000)
        for place in range(20):
            one = kept(f"http://a.test/{place}")
            one.stored.kind, one.stored.runs = "W", [(0, BODY)]
            folder.write(one)
            os.utime(folder._file(one.name, "vos"), (place, place))
        self.assertLessEqual(sum(it.stat().st_size for it in self.path.iterdir()), 1_250_000)
        self.assertIsNone(folder.load("http://a.test/0"))
        self.assertIsNotNone(folder.load("http://a.test/19"))

    def test_no_folder(self) -> None:
        (self.path / "file").write_bytes(b"")
        self.assertRaises(OSError, Folder, self.path / "file", 1)


if __name__ == "__main__":
    unittest.main()
