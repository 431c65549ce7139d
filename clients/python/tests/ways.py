"""The ways to a cache that are here: the program, and the shared library.

VOSDRIENG_PROGRAM and VOSDRIENG_LIBRARY name them; else those that the repository's own builds leave are taken.
"""
from __future__ import annotations

import os
import pathlib
import sys
import unittest
from dataclasses import dataclass
from typing import Callable

sys.path.insert(0, str(pathlib.Path(__file__).resolve().parents[1]))

from vosdrieng import Cache  # noqa: E402
from vosdrieng.process import temporary_log  # noqa: E402

TOP = pathlib.Path(__file__).resolve().parents[3]


def _found(name: str, path: pathlib.Path) -> str:
    named = os.environ.get(name) or str(path)
    return named if os.path.exists(named) else ""


PROGRAM = _found("VOSDRIENG_PROGRAM", TOP / "crates/hc_app/out/hc_app")
LIBRARY = _found("VOSDRIENG_LIBRARY", TOP / "out/library/libvosdrieng.so")


@dataclass
class Way:
    name: str
    make: Callable[..., Cache]

    def words(self) -> dict[str, str]:
        """How an adapter or a downloader is told of it."""
        return {"program": PROGRAM} if self.name == "process" else {"library": LIBRARY}

    def cache(self, kept: bool = False, image: bytes | None = None) -> Cache:
        return self.make(kept, image)


def _process(kept: bool, image: bytes | None) -> Cache:
    return Cache.process(PROGRAM, image=image, log=temporary_log() if kept else None)


def _library(kept: bool, image: bytes | None) -> Cache:
    return Cache.library(LIBRARY, image=image)


def ways() -> list[Way]:
    """Each way to a cache that is here. There has to be one."""
    here = [Way("process", _process)] * bool(PROGRAM) + [Way("library", _library)] * bool(LIBRARY)
    if not here:
        raise RuntimeError("neither the program nor the library is here: './vosdrieng build', or './vosdrieng library'")
    return here


def suite_of(loader: unittest.TestLoader, cases: list[type[unittest.TestCase]]) -> unittest.TestSuite:
    """Each case once for each way that is here."""
    made = [type(f"{case.__name__}_{way.name}", (case,), {"way": way}) for way in ways() for case in cases]
    return unittest.TestSuite(loader.loadTestsFromTestCase(it) for it in made)
