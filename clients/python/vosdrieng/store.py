"""A folder with what a cache has kept: a file for each resource, fields and body together.

A file is a line and then records, each with a sum over it. `H` is a head, `D` bytes with their position, `E` the end. A whole file
`NAME.vos` was written beside, synced and renamed, and ends with `E`. A download that isn't whole yet is `NAME.part`. It is written as
its bytes come, so a killed process loses none that it had; whoever writes it holds its lock. The sums of `D` and `E` have the
head's random number as their key, and each sum has its place, so no record of another file or place is taken. A file that is damaged
is let go, and counts as none.
"""
from __future__ import annotations

import contextlib
import fcntl
import hashlib
import json
import os
import pathlib
import secrets
import tempfile
import time
from dataclasses import dataclass, field, fields
from typing import Iterator

from .images import Stored
from .names import url_of

FIRST = b"vosdrieng store 1\n"
HEAD_BYTES, SUM_BYTES = 5, 16
CHUNK = 65536
LEFT_BEHIND = 3600  # seconds after which what a killed process was writing beside is let go
HEAD_FIELDS = [it.name for it in fields(Stored) if it.name != "runs"]
Signature = tuple[int, int, int]


@dataclass(slots=True)
class Kept:
    """What is stored, for whom (`name`), and the names of its fields as they came: their order and case.

    `key` is the random number of the file that has it, which tells it from any other file.
    """

    name: str
    stored: Stored
    spelling: list[str] = field(default_factory=list)
    key: bytes = b""


class Damaged(Exception):
    """A record isn't what was written."""


def _sum(key: bytes, place: int, kind: bytes, payload: bytes | memoryview) -> bytes:
    it = hashlib.blake2b(kind + place.to_bytes(8, "big"), digest_size=SUM_BYTES, key=key)
    it.update(payload)
    return it.digest()


def _head_payload(kept: Kept, key: bytes) -> bytes:
    head = {it: getattr(kept.stored, it) for it in HEAD_FIELDS}
    return json.dumps({"name": kept.name, "key_of_sums": key.hex(), "spelling": kept.spelling, "head": head}).encode()


def _stem(text: str) -> str:
    return hashlib.sha256(text.encode()).hexdigest()[:40]


class Writer:
    """Writes records to an open file, from its end on."""

    def __init__(self, descriptor: int, key: bytes, place: int, end: int) -> None:
        self.descriptor, self.key, self.place, self.end = descriptor, key, place, end

    def record(self, kind: bytes, payload: bytes, more: bytes = b"") -> None:
        it = hashlib.blake2b(kind + self.place.to_bytes(8, "big"), digest_size=SUM_BYTES, key=b"" if kind == b"H" else self.key)
        it.update(payload)
        it.update(more)
        first = kind + (len(payload) + len(more)).to_bytes(4, "big") + it.digest()
        due = len(first) + len(payload) + len(more)
        if os.writev(self.descriptor, [first, payload, more]) != due:
            raise OSError("the record was written in part")
        self.place += 1

    def head(self, kept: Kept) -> None:
        self.record(b"H", _head_payload(kept, self.key))

    def data(self, at: int, data: bytes) -> None:
        self.record(b"D", at.to_bytes(8, "big"), data)
        self.end = at + len(data)

    def close(self) -> None:
        descriptor, self.descriptor = self.descriptor, -1
        if descriptor >= 0:
            os.close(descriptor)


class _Records:
    """The records of a file, as far as they are right."""

    def __init__(self, image: bytes, name: str) -> None:
        self.image, self.at, self.place, self.name = memoryview(image), len(FIRST), 0, name
        self.key, self.is_whole = b"", False
        self.kept: Kept | None = None
        self.runs: list[tuple[int, memoryview]] = []
        if bytes(self.image[:len(FIRST)]) != FIRST:
            raise Damaged("it is no file of a store")

    def read(self) -> None:
        """Reads on to the first record that isn't right, or to the end."""
        while self.at < len(self.image) and not self.is_whole:
            self._record()

    def _record(self) -> None:
        first = self.image[self.at:self.at + HEAD_BYTES + SUM_BYTES]
        kind, size = bytes(first[:1]), int.from_bytes(first[1:HEAD_BYTES], "big")
        start = self.at + HEAD_BYTES + SUM_BYTES
        payload = self.image[start:start + size]
        key = b"" if kind == b"H" else self.key
        if len(payload) != size or _sum(key, self.place, kind, payload) != bytes(first[HEAD_BYTES:]):
            raise Damaged(f"record {self.place} isn't what was written")
        {b"H": self._head, b"D": self._data, b"E": self._end}[kind](payload)
        self.at, self.place = start + size, self.place + 1

    def _head(self, payload: memoryview) -> None:
        told = json.loads(bytes(payload))
        if told["name"] != self.name:
            raise Damaged("it is another's")
        head = told["head"]
        head["fields"], head["vary"] = ([tuple(line) for line in head[it]] for it in ("fields", "vary"))
        self.key = bytes.fromhex(told["key_of_sums"])
        self.kept = Kept(self.name, Stored(**head), told["spelling"], self.key)

    def _data(self, payload: memoryview) -> None:
        self.runs.append((int.from_bytes(payload[:8], "big"), payload[8:]))

    def _end(self, payload: memoryview) -> None:
        if self.kept is None:
            raise Damaged("it has no head")
        told = json.loads(bytes(payload))
        self.kept.stored.kind, self.kept.stored.total = told["kind"], told["total"]
        self.is_whole = True

    def end(self) -> int:
        """Where the bytes end that were written from 0 on."""
        runs = self.joined().stored.runs if self.kept is not None else []
        return len(runs[0][1]) if runs and runs[0][0] == 0 else -1

    def joined(self) -> Kept:
        """What was kept, its bytes joined to as few runs as there are. Raises Damaged where it has none."""
        if self.kept is None:
            raise Damaged("it has no head")
        runs: list[tuple[int, list[memoryview]]] = []
        end = -1
        for at, data in self.runs:
            if at != end:
                runs.append((at, []))
            runs[-1][1].append(data)
            end = at + len(data)
        self.kept.stored.runs = [(at, b"".join(parts)) for at, parts in runs]
        return self.kept


class Part(Writer):
    """A download that is written as its bytes come. Its lock is held until it is closed."""

    def __init__(self, folder: "Folder", path: pathlib.Path, whole: pathlib.Path, *rest: object) -> None:
        super().__init__(*rest)  # type: ignore[arg-type]
        self.folder, self.path, self.whole = folder, path, whole

    def close(self) -> None:
        """Gives the lock back, also where a forked process has the file open too."""
        if self.descriptor >= 0:
            with contextlib.suppress(OSError):
                fcntl.flock(self.descriptor, fcntl.LOCK_UN)
        super().close()

    def finish(self, total: int) -> None:
        """All has come: it is synced and renamed."""
        self.record(b"E", json.dumps({"kind": "W", "total": total}).encode())
        os.fsync(self.descriptor)
        os.rename(self.path, self.whole)
        self.folder.sync()
        self.close()
        self.folder.count(self.end)

    def drop(self) -> None:
        """It is of no use any more."""
        with contextlib.suppress(OSError):
            self.path.unlink()
        self.close()


class Folder:
    """The store itself. Each call but `Folder(..)` tells damage by None, and a full disk by OSError."""

    def __init__(self, path: str | os.PathLike[str], most: int) -> None:
        """`most` bytes stay at most, about: what was used longest ago goes first. Raises OSError where it can't be made."""
        self.path, self.most, self.grown = pathlib.Path(path), most, most
        self.path.mkdir(mode=0o700, parents=True, exist_ok=True)
        for left in self.path.glob("*.tmp"):
            with contextlib.suppress(OSError):
                if left.stat().st_mtime < time.time() - LEFT_BEHIND:
                    left.unlink()

    def _file(self, name: str, kind: str) -> pathlib.Path:
        return self.path / f"{_stem(url_of(name))}-{_stem(name)}.{kind}"

    def signature(self, name: str) -> Signature | None:
        """What tells that the whole file is the same as before. None where there is none."""
        try:
            it = os.stat(self._file(name, "vos"))
        except OSError:
            return None
        return it.st_ino, it.st_mtime_ns, it.st_size

    def load(self, name: str) -> Kept | None:
        """What is kept for the name: a whole file, or a part that nobody writes."""
        return self._load_whole(name) or self._load_part(name)

    def _load_whole(self, name: str) -> Kept | None:
        path = self._file(name, "vos")
        try:
            records = _Records(path.read_bytes(), name)
            records.read()
            if not records.is_whole or records.at != len(records.image):
                raise Damaged("it is torn")
            return records.joined()
        except OSError:
            return None
        except (Damaged, ValueError, KeyError, TypeError, AttributeError):
            self.remove(name)
            return None

    def _load_part(self, name: str) -> Kept | None:
        path = self._file(name, "part")
        with self._locked(path, os.O_RDONLY) as descriptor:
            records = self._right(descriptor, name) if descriptor is not None else None
        if records is None or records.kept is None or records.kept.stored.total is None or not records.runs:
            return None
        kept = records.joined()
        kept.stored.kind, kept.stored.runs = "T", kept.stored.runs[:1]
        return kept

    @staticmethod
    def _right(descriptor: int, name: str) -> _Records | None:
        """The records of an open part, as far as they are right."""
        with open(descriptor, "rb", closefd=False) as file:
            file.seek(0)
            image = file.read()
        records = None
        with contextlib.suppress(Damaged, ValueError, KeyError, TypeError, AttributeError):
            records = _Records(image, name)
            records.read()
        return records

    @contextlib.contextmanager
    def _locked(self, path: pathlib.Path, flags: int) -> Iterator[int | None]:
        """The open file, whose lock is held, or None where it isn't there or another holds it."""
        descriptor = self._lock(path, flags)
        try:
            yield descriptor
        finally:
            if descriptor is not None:
                os.close(descriptor)

    @staticmethod
    def _lock(path: pathlib.Path, flags: int) -> int | None:
        try:
            descriptor = os.open(path, flags | os.O_CLOEXEC, 0o600)
        except OSError:
            return None
        try:
            fcntl.flock(descriptor, fcntl.LOCK_EX | fcntl.LOCK_NB)
            if os.fstat(descriptor).st_ino == os.stat(path).st_ino:
                return descriptor
        except OSError:
            pass
        os.close(descriptor)
        return None

    def begin(self, kept: Kept) -> Part | None:
        """A new part. None where another writes one for this name."""
        path = self._file(kept.name, "part")
        descriptor = self._lock(path, os.O_RDWR | os.O_CREAT)
        if descriptor is None:
            return None
        kept.key = secrets.token_bytes(16)
        part = Part(self, path, self._file(kept.name, "vos"), descriptor, kept.key, 0, 0)
        os.ftruncate(descriptor, 0)
        os.write(descriptor, FIRST)
        part.head(kept)
        with contextlib.suppress(OSError):
            part.whole.unlink()
        return part

    def resume(self, kept: Kept, end: int) -> Part | None:
        """The part that was loaded or begun so and ends there, to be written on. None where it is another, or another writes it."""
        name = kept.name
        path = self._file(name, "part")
        descriptor = self._lock(path, os.O_RDWR)
        if descriptor is None:
            return None
        records = self._right(descriptor, name)
        if records is None or records.key != kept.key or records.end() != end:
            os.close(descriptor)
            return None
        os.ftruncate(descriptor, records.at)
        os.lseek(descriptor, 0, os.SEEK_END)
        return Part(self, path, self._file(name, "vos"), descriptor, records.key, records.place, end)

    def write(self, kept: Kept) -> None:
        """Keeps it whole: written beside, synced and renamed."""
        descriptor, path = tempfile.mkstemp(dir=self.path, suffix=".tmp")
        writer = Writer(descriptor, secrets.token_bytes(16), 0, 0)
        try:
            os.write(descriptor, FIRST)
            writer.head(kept)
            for at, data in _chunks(kept.stored.runs):
                writer.data(at, data)
            writer.record(b"E", json.dumps({"kind": kept.stored.kind, "total": kept.stored.total}).encode())
            os.fsync(descriptor)
            os.rename(path, self._file(kept.name, "vos"))
        except OSError:
            os.unlink(path)
            raise
        finally:
            writer.close()
        self.sync()
        self.count(kept.stored.size)

    def remove(self, name: str) -> None:
        """Nothing is kept for the name any more. What another process writes stays."""
        with contextlib.suppress(OSError):
            self._file(name, "vos").unlink()
        path = self._file(name, "part")
        with self._locked(path, os.O_RDONLY) as descriptor, contextlib.suppress(OSError):
            if descriptor is not None:
                path.unlink()

    def remove_others(self, name: str) -> None:
        """Nothing is kept any more for others who ask for the same URL."""
        for path in self.path.glob(f"{_stem(url_of(name))}-*"):
            with self._locked(path, os.O_RDONLY) as descriptor, contextlib.suppress(OSError):
                if descriptor is not None and path.stem != self._file(name, "vos").stem:
                    path.unlink()

    def sync(self) -> None:
        """What was renamed stays so, over a loss of power too."""
        descriptor = os.open(self.path, os.O_RDONLY | os.O_DIRECTORY)
        try:
            os.fsync(descriptor)
        finally:
            os.close(descriptor)

    def count(self, size: int) -> None:
        """So many bytes more are kept. From time to time the oldest files go."""
        self.grown += size
        if self.grown * 8 >= self.most:
            self.grown = 0
            self._let_go(sorted(self._files()))

    def _files(self) -> Iterator[tuple[int, int, str]]:
        """When each file was written, its size and its path."""
        for it in os.scandir(self.path):
            with contextlib.suppress(OSError):
                if it.name.endswith((".vos", ".part")):
                    yield it.stat().st_mtime_ns, it.stat().st_size, it.path

    def _let_go(self, files: list[tuple[int, int, str]]) -> None:
        total = sum(size for _, size, _ in files)
        for _, size, path in files:
            if total <= self.most:
                break
            # (nobody's lock is held on what nobody writes)
            with self._locked(pathlib.Path(path), os.O_RDONLY) as descriptor, contextlib.suppress(OSError):
                if descriptor is not None:
                    os.unlink(path)
            total -= size


def _chunks(runs: list[tuple[int, bytes]]) -> Iterator[tuple[int, bytes]]:
    for at, data in runs:
        yield from ((at + start, data[start:start + CHUNK]) for start in range(0, len(data), CHUNK))
