"""The callers that README shows, as they are run by a user."""
from __future__ import annotations

import os
import pathlib
import random
import subprocess
import sys
import tempfile
import unittest

from ways import LIBRARY, PROGRAM, Way, suite_of

from origin import Origin

EXAMPLES = pathlib.Path(__file__).resolve().parents[1] / "examples"


class ExamplesTest(unittest.TestCase):
    way: Way

    def run_example(self, name: str, *words: str) -> list[str]:
        named = {"VOSDRIENG_LIBRARY": LIBRARY} if self.way.name == "library" else {"VOSDRIENG_PROGRAM": PROGRAM, "VOSDRIENG_LIBRARY": ""}
        env = {**os.environ, "PYTHONPATH": str(EXAMPLES.parent), **named}
        ran = subprocess.run([sys.executable, EXAMPLES / name, *words], env=env, capture_output=True, text=True, timeout=60)
        self.assertEqual((ran.returncode, ran.stderr), (0, ""))
        return ran.stdout.splitlines()

    def test_cached(self) -> None:
        with Origin() as origin, tempfile.TemporaryDirectory() as folder:
            origin.put("/a", b"abc")
            for reasons in (["fetched:1", "fresh:0/600"], ["fresh:0/600", "fresh:0/600"]):
                told = [line.split(" ")[-1].split("/")[-1] for line in self.run_example("cached.py", folder, origin.url("/a"))]
                self.assertEqual(told, [it.split("/")[-1] for it in reasons])
            self.assertEqual(len(origin.asked), 1)

    def test_together(self) -> None:
        with Origin() as origin, tempfile.TemporaryDirectory() as folder:
            origin.put("/a", random.Random(1).randbytes(1_000_000), breaks=[600_000])
            told = self.run_example("together.py", folder, origin.url("/a"))
            self.assertEqual(len([line for line in told if "has all 1000000 bytes" in line]), 2, told)
            self.assertEqual(len([line for line in told if line.startswith("two leaves")]), 1, told)
            self.assertEqual(sum(it.sent for it in origin.asked), 1_000_000)

    def test_events(self) -> None:
        told = self.run_example("events.py", self.way.name, LIBRARY if self.way.name == "library" else PROGRAM)
        self.assertEqual(told, [
            "ask the origin for GET http://a.test/film because of miss",
            "1 is shown 200 fetched:1",
            "1 is given b'hello, world'",
            "2 is shown 200 fresh:9/60",
            "2 is given b'hello, world'",
        ])

    def test_an_installation(self) -> None:
        with tempfile.TemporaryDirectory() as folder:
            words = ["-m", "pip", "install", "--quiet", "--no-index", "--no-deps", "--target", folder, str(EXAMPLES.parent)]
            ran = subprocess.run([sys.executable, *words], capture_output=True, text=True)
            if "No module named pip" in ran.stderr:
                self.skipTest("pip isn't here: apt-get install python3-pip")
            self.assertEqual(ran.returncode, 0, ran.stderr)
            code = "import vosdrieng; print(vosdrieng.__file__)"
            told = subprocess.run([sys.executable, "-c", code], env={"PYTHONPATH": folder}, capture_output=True, text=True)
            self.assertTrue(told.stdout.startswith(folder), told.stderr)

    def test_they_are_short(self) -> None:
        for path in EXAMPLES.glob("*.py"):
            self.assertLessEqual(len(path.read_text().splitlines()), 30, path.name)

    def test_the_page_shows_them(self) -> None:
        page = (EXAMPLES.parent / "README.md").read_text()
        for path in EXAMPLES.glob("*.py"):
            self.assertIn(path.read_text().split('"""\n', 1)[1].strip(), page.replace("\n    ", "\n"), path.name)


def load_tests(loader: unittest.TestLoader, *_: object) -> unittest.TestSuite:
    return suite_of(loader, [ExamplesTest])


if __name__ == "__main__":
    unittest.main()
