"""The downloader, over each way that is here, before a test origin."""
from __future__ import annotations

import asyncio
import pathlib
import random
import shutil
import signal
import subprocess
import sys
import tempfile
import threading
import time
import unittest

from ways import Way, suite_of

from origin import Origin
from vosdrieng import Changed, DownloadFailed, Refused
from vosdrieng.download import Answer, Downloader, save

BODY = random.Random(1).randbytes(2_000_000)


class DownloadTest(unittest.IsolatedAsyncioTestCase):
    way: Way

    async def asyncSetUp(self) -> None:
        self.now = time.time()
        self.origin = Origin(lambda: self.now)
        self.addCleanup(self.origin.close)
        self.folder = tempfile.mkdtemp()
        self.addCleanup(shutil.rmtree, self.folder)

    def downloader(self, store: bool = False, **words: object) -> Downloader:
        downloader = Downloader(self.folder if store else None, clock=lambda: self.now, **self.way.words(), **words)
        self.addAsyncCleanup(downloader.close)
        return downloader

    async def read(self, downloader: Downloader, most: int | None = None, fields: list[tuple[str, str]] | None = None) -> bytes:
        got = b""
        async with downloader.get(self.origin.url("/a"), fields or []) as answer:
            async for data in answer:
                got += data
                if most is not None and len(got) >= most:
                    break
        return got

    async def test_shared_and_left(self) -> None:
        self.origin.put("/a", BODY, pause=0.002)
        downloader = self.downloader()
        wants = [None, 300_000, None, 1, None, 900_000]
        got = await asyncio.gather(*(self.read(downloader, most) for most in wants))
        for data, most in zip(got, wants):
            self.assertEqual(data, BODY[:len(data)])
            self.assertGreaterEqual(len(data), most or len(BODY))
        self.assertEqual(len(self.origin.asked), 1)

    async def test_many_more_consumers_than_threads(self) -> None:
        gate = threading.Event()
        self.origin.put("/a", BODY[:1000], gate=gate)
        asyncio.get_running_loop().call_later(0.3, gate.set)
        downloader = self.downloader(at_once=1)
        got = await asyncio.gather(*(self.read(downloader) for _ in range(100)))
        self.assertEqual(set(got), {BODY[:1000]})
        self.assertEqual(len(self.origin.asked), 1)

    async def test_who_opened_it_leaves(self) -> None:
        self.origin.put("/a", BODY, pause=0.002)
        downloader = self.downloader()
        first = downloader.get(self.origin.url("/a"))
        async with first:
            other = asyncio.create_task(self.read(downloader))
            await asyncio.sleep(0.05)
        self.assertEqual(await other, BODY)
        self.assertEqual(len(self.origin.asked), 1)

    async def test_a_cancelled_task_leaves(self) -> None:
        gate = threading.Event()
        self.origin.put("/a", BODY, gate=gate)
        downloader = self.downloader()
        tasks = [asyncio.create_task(self.read(downloader)) for _ in range(3)]
        await asyncio.sleep(0.1)
        tasks[0].cancel()
        gate.set()
        got = await asyncio.gather(*tasks, return_exceptions=True)
        self.assertIsInstance(got[0], asyncio.CancelledError)
        self.assertEqual(got[1:], [BODY, BODY])

    async def test_who_leaves_alone_hangs_up_at_once(self) -> None:
        self.origin.put("/a", BODY, step=1000, pause=5)
        downloader = self.downloader()
        began = time.monotonic()
        async with downloader.get(self.origin.url("/a")) as answer:
            data = aiter(answer)
            await anext(data)
            waiting = asyncio.create_task(anext(data))
            await asyncio.sleep(0.2)
            waiting.cancel()
        await downloader.close()
        self.assertLess(time.monotonic() - began, 4.9)

    async def test_broken_and_resumed(self) -> None:
        self.origin.put("/a", BODY, breaks=[300_000, 1_000_000, 1_999_999])
        downloader = self.downloader()
        got = await asyncio.gather(*(self.read(downloader) for _ in range(4)))
        self.assertEqual(got, [BODY] * 4)
        self.assertEqual(sum(it.sent for it in self.origin.asked), len(BODY))

    async def test_cut_without_a_tag(self) -> None:
        self.origin.put("/a", BODY, breaks=[300_000] * 9, tag=None)
        async with self.downloader().get(self.origin.url("/a")) as answer:
            for _ in range(2):
                with self.assertRaises(DownloadFailed):
                    await answer.read()

    async def test_changed_behind_a_break(self) -> None:
        thing = self.origin.put("/a", BODY, breaks=[900_000], fields=[("Cache-Control", "max-age=0")])
        async with self.downloader().get(self.origin.url("/a")) as answer:
            data = aiter(answer)
            self.assertTrue(BODY.startswith(await anext(data)))
            thing.tag = '"v2"'
            with self.assertRaises(Changed):
                async for _ in data:
                    pass

    async def test_left_and_begun_again_from_the_file(self) -> None:
        self.origin.put("/a", BODY)
        downloader = self.downloader(store=True)
        await self.read(downloader, 700_000)
        await downloader.close()
        self.assertEqual(await self.read(self.downloader(store=True)), BODY)
        self.assertGreaterEqual(int(self.origin.asked[1].fields["range"][6:-1]), 700_000)

    async def test_kept_through_a_restart(self) -> None:
        self.origin.put("/a", BODY)
        await self.read(self.downloader(store=True))
        async with self.downloader(store=True).get(self.origin.url("/a")) as answer:
            self.assertEqual((answer.status, answer.why, answer.length), (200, "fresh:0/600", len(BODY)))
            self.assertEqual(answer.headers["age"], "0")
            self.assertEqual(await answer.read(), BODY)
        self.assertEqual(len(self.origin.asked), 1)

    async def test_killed_and_begun_again(self) -> None:
        self.origin.put("/a", BODY, pause=0.005)
        here = pathlib.Path(__file__).resolve().parent
        script = KILLED.format(paths=[str(here.parent)], folder=self.folder, words=self.way.words(), url=self.origin.url("/a"))
        process = subprocess.Popen([sys.executable, "-c", script], stdout=subprocess.PIPE, text=True)
        await asyncio.to_thread(lambda: next(line for line in process.stdout if int(line) > 500_000))
        process.send_signal(signal.SIGKILL)
        process.wait()
        process.stdout.close()
        self.assertEqual(await self.read(self.downloader(store=True)), BODY)
        self.assertGreater(int(self.origin.asked[1].fields["range"][6:-1]), 500_000)

    async def test_ranges(self) -> None:
        self.origin.put("/a", BODY)
        downloader = self.downloader()
        for first, last in ((0, 9), (5, 19), (0, 19)):
            self.assertEqual(await self.read(downloader, fields=[("Range", f"bytes={first}-{last}")]), BODY[first:last + 1])
        self.assertEqual(sum(it.sent for it in self.origin.asked), 20)

    async def test_only_what_is_stored(self) -> None:
        self.origin.put("/a", BODY)
        with self.assertRaises(DownloadFailed) as caught:
            async with self.downloader().get(self.origin.url("/a"), load="only"):
                pass
        self.assertEqual(caught.exception.cause, "miss")

    async def test_save(self) -> None:
        self.origin.put("/a", BODY)
        path = pathlib.Path(self.folder) / "film"
        async with self.downloader().get(self.origin.url("/a")) as answer:
            self.assertEqual(await save(answer, path), len(BODY))
        self.assertEqual(path.read_bytes(), BODY)

    async def test_no_url_and_no_connection(self) -> None:
        downloader = self.downloader()
        for url in ("", "ftp://a.test/", "http:///a", "http://a.test/a b", "/a"):
            self.assertRaises(Refused, Answer, downloader, url, (), "normal")
        with self.assertRaises(OSError):
            async with downloader.get("http://127.0.0.1:9/a"):
                pass

    async def test_an_idle_consumer_holds_up_nobody(self) -> None:
        self.origin.put("/a", BODY)
        downloader = self.downloader()
        async with downloader.get(self.origin.url("/a")) as idle:
            self.assertEqual(await self.read(downloader), BODY)
            self.assertEqual(await idle.read(), BODY)
        self.assertEqual(len(self.origin.asked), 1)


KILLED = """
import asyncio, sys
sys.path[:0] = {paths!r}
from vosdrieng.download import Downloader

async def main():
    async with Downloader({folder!r}, **{words!r}) as downloader:
        async with downloader.get({url!r}) as answer:
            got = 0
            async for data in answer:
                got += len(data)
                print(got, flush=True)

asyncio.run(main())
"""


def load_tests(loader: unittest.TestLoader, *_: object) -> unittest.TestSuite:
    return suite_of(loader, [DownloadTest])


if __name__ == "__main__":
    unittest.main()
