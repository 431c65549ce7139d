"""Three consumers share one download, one leaves, and the others have all of it.  usage: together.py FOLDER URL"""
import asyncio
import sys

from vosdrieng.download import Downloader


async def read(downloader: Downloader, name: str, url: str, most: int | None = None) -> None:
    size = 0
    async with downloader.get(url) as answer:
        async for data in answer:
            size += len(data)
            if most is not None and size >= most:
                print(f"{name} leaves after {size} bytes")
                return
    print(f"{name} has all {size} bytes ({answer.why})")


async def main(folder: str, url: str) -> None:
    async with Downloader(folder) as downloader:
        await asyncio.gather(read(downloader, "one", url), read(downloader, "two", url, 1), read(downloader, "three", url))


asyncio.run(main(*sys.argv[1:]))
