#!/usr/bin/env python3
"""What caches for `requests` do, side by side: this one, CacheControl and requests-cache.

usage: tests/compare.py [--times]

Each check is asked of each cache before the same test origin. `yes` is what a caller needs, `no` anything else, an exception
too, and `-` what a cache without a file can't be asked. With --times it tells what calls cost instead. CacheControl and requests-cache
are Debian's python3-cachecontrol and python3-requests-cache; which of them isn't here is left out.
"""
from __future__ import annotations

import gzip
import pathlib
import pickle
import random
import shutil
import signal
import subprocess
import sys
import tempfile
import threading
import time
import warnings
from dataclasses import dataclass, field
from typing import Callable

from ways import LIBRARY, PROGRAM

import requests
from origin import Origin, Thing

BODY = random.Random(1).randbytes(400_000)
SMALL = b"0123456789" * 10
FRESH = [("Cache-Control", "max-age=600")]
PAST = [("Cache-Control", "max-age=10"), ("Age", "11")]


@dataclass(frozen=True)
class Peer:
    """A cache: how a session of it is made over a folder, as code too, and whether it keeps a file."""

    name: str
    code: str
    is_kept: bool

    def session(self, folder: str) -> requests.Session:
        names: dict[str, object] = {"folder": folder}
        exec(self.code, names)
        return names["session"]  # type: ignore[return-value]


CONTROL = "import requests, cachecontrol\nfrom cachecontrol import caches\nsession = cachecontrol.CacheControl(requests.Session(), %s)"
SEPARATE = CONTROL % "caches.SeparateBodyFileCache(folder)"
OTHER = "import requests_cache\nsession = requests_cache.CachedSession(%s, cache_control=True, allowable_methods=('GET', 'HEAD'))"
OURS = "import requests, vosdrieng.requests\nsession = requests.Session()\nvosdrieng.requests.mount(session, {store}, {way})"


def peers() -> list[Peer]:
    way = f"library={LIBRARY!r}" if LIBRARY else f"program={PROGRAM!r}"
    named = [
        Peer("vosdrieng, memory", OURS.format(store=None, way=way), False),
        Peer("vosdrieng, store", OURS.format(store="folder", way=way), True),
        Peer("CacheControl, dict", CONTROL % "", False),
        Peer("CacheControl, file", CONTROL % "caches.FileCache(folder)", True),
        Peer("CacheControl, separate", SEPARATE, True),
        Peer("requests-cache, memory", OTHER % "'x', backend='memory'", False),
        Peer("requests-cache, sqlite", OTHER % "folder + '/cache.sqlite'", True),
    ]
    return [it for it in named if _is_here(it)]


def _is_here(peer: Peer) -> bool:
    with tempfile.TemporaryDirectory() as folder:
        try:
            peer.session(folder).close()
        except (ImportError, AttributeError):
            return False
    return True


@dataclass
class Bench:
    """What a check works with: an origin, a folder, and sessions of one peer."""

    peer: Peer
    origin: Origin
    folder: str
    opened: list[requests.Session] = field(default_factory=list)

    def again(self) -> requests.Session:
        """A session over the same folder, as after a restart."""
        self.opened.append(self.peer.session(self.folder))
        return self.opened[-1]

    @property
    def session(self) -> requests.Session:
        return self.opened[0] if self.opened else self.again()

    def put(self, body: bytes = SMALL, **words: object) -> Thing:
        return self.origin.put("/a", body, **words)

    def get(self, session: requests.Session | None = None, **fields: str) -> requests.Response:
        named = {name.replace("_", "-"): value for name, value in fields.items()}
        return (session or self.session).get(self.origin.url("/a"), headers=named, timeout=20)

    @property
    def statuses(self) -> list[int]:
        return [it.status for it in self.origin.asked]


CHECKS: list[tuple[str, bool, Callable[[Bench], bool]]] = []


def check(words: str, is_kept: bool = False) -> Callable[[Callable[[Bench], bool]], Callable[[Bench], bool]]:
    def noted(call: Callable[[Bench], bool]) -> Callable[[Bench], bool]:
        CHECKS.append((words, is_kept, call))
        return call
    return noted


@check("a fresh answer is given without a request, with its Age")
def _(it: Bench) -> bool:
    it.put()
    return [it.get().content for _ in range(2)] == [SMALL] * 2 and "Age" in it.get().headers and len(it.statuses) == 1


@check("an Age that came counts")
def _(it: Bench) -> bool:
    it.put(fields=PAST)
    return [it.get().content for _ in range(2)] == [SMALL] * 2 and len(it.statuses) == 2


@check("a stale answer is validated, and given by its 304")
def _(it: Bench) -> bool:
    it.put(fields=[("Cache-Control", "max-age=1")])
    it.get()
    time.sleep(2.1)
    return it.get().content == SMALL and it.statuses == [200, 304]


@check("a changed one is replaced")
def _(it: Bench) -> bool:
    it.put(fields=[("Cache-Control", "max-age=0")])
    it.get()
    it.put(b"new", tag='"v2"')
    return [it.get().content for _ in range(2)] == [b"new"] * 2 and it.statuses == [200, 200]


@check("`No-Store` in capitals is not stored")
def _(it: Bench) -> bool:
    it.put(fields=[*FRESH, ("Cache-Control", "No-Store")])
    it.get()
    it.get()
    kept = b"".join(path.read_bytes() for path in pathlib.Path(it.folder).rglob("*") if path.is_file())
    return it.statuses == [200, 200] and SMALL not in kept


@check("`no-cache` is never given without a validation")
def _(it: Bench) -> bool:
    it.put(fields=[("Cache-Control", "no-cache, max-age=600")])
    it.get()
    it.get()
    return it.statuses == [200, 304]


@check("`only-if-cached` without anything stored is answered 504")
def _(it: Bench) -> bool:
    it.put()
    return it.get(Cache_Control="only-if-cached").status_code == 504 and not it.statuses


@check("`max-age` and `min-fresh` of a request are held")
def _(it: Bench) -> bool:
    it.put(fields=[("Cache-Control", "max-age=600"), ("Age", "100")])
    it.get()
    it.get(Cache_Control="max-age=50")
    it.get(Cache_Control="min-fresh=550")
    return it.statuses[1:] == [304, 304]


@check("`max-stale` of a request allows a stale answer")
def _(it: Bench) -> bool:
    it.put(fields=PAST)
    it.get()
    return it.get(Cache_Control="max-stale").content == SMALL and len(it.statuses) == 1


@check("Vary: another request gets its own answer")
def _(it: Bench) -> bool:
    it.put(fields=[*FRESH, ("Vary", "X-Kind")])
    it.get(X_Kind="one")
    it.put(b"two", tag='"v2"', fields=[*FRESH, ("Vary", "X-Kind")])
    return it.get(X_Kind="two").content == b"two"


@check("two users of a session share nothing")
def _(it: Bench) -> bool:
    it.put(fields=FRESH)
    it.session.get(it.origin.url("/a"), auth=("ann", "x"))
    it.put(b"bob's", tag='"v2"')
    return it.session.get(it.origin.url("/a"), auth=("bob", "x")).content == b"bob's"


for _method in ("POST", "PUT", "DELETE", "PATCH"):
    @check(f"{_method} invalidates")
    def _(it: Bench, method: str = _method) -> bool:
        it.put()
        it.get()
        it.session.request(method, it.origin.url("/a"), data=b"x")
        it.put(b"new", tag='"v2"')
        return it.get().content == b"new"


@check("HEAD and its lengths are right behind a GET")
def _(it: Bench) -> bool:
    it.put()
    it.get()
    answer = it.session.head(it.origin.url("/a"))
    return answer.content == b"" and answer.headers["Content-Length"] == "100"


@check("a range comes out of what is stored whole")
def _(it: Bench) -> bool:
    it.put()
    it.get()
    answer = it.get(Range="bytes=3-7")
    return (answer.status_code, answer.content, len(it.statuses)) == (206, b"34567", 1)


@check("parts are kept, and only a hole is fetched")
def _(it: Bench) -> bool:
    it.put(BODY)
    parts = ((0, 99_999), (200_000, 299_999), (50_000, 250_000))
    got = [it.get(Range=f"bytes={first}-{last}").content == BODY[first:last + 1] for first, last in parts]
    return all(got) and it.get().content == BODY and sum(one.sent for one in it.origin.asked) == len(BODY)


@check("a part is never taken for the whole")
def _(it: Bench) -> bool:
    it.put(BODY)
    it.get(Range="bytes=0-99")
    return it.get().content == BODY


@check("a range past the end is answered 416")
def _(it: Bench) -> bool:
    it.put()
    it.get()
    return it.get(Range="bytes=200-").status_code == 416


def _is_cut_told(it: Bench, **words: object) -> bool:
    it.put(BODY, breaks=[100_000], **words)
    try:
        return it.get().content == BODY
    except requests.RequestException:
        return True


@check("a cut body is not given as whole")
def _(it: Bench) -> bool:
    return _is_cut_told(it, tag=None)


@check("a cut body is not stored as whole")
def _(it: Bench) -> bool:
    _is_cut_told(it, tag=None)
    return it.get().content == BODY


@check("a cut body in chunks is told, and not stored")
def _(it: Bench) -> bool:
    return _is_cut_told(it, tag=None, chunked=True) and it.get().content == BODY


@check("a cut body with a strong tag is resumed within the call, each byte once")
def _(it: Bench) -> bool:
    it.put(BODY, breaks=[100_000, 200_000, 300_000])
    return it.get().content == BODY and sum(one.sent for one in it.origin.asked) == len(BODY)


@check("a stream that its reader leaves is not stored as whole")
def _(it: Bench) -> bool:
    it.put(BODY)
    with it.session.get(it.origin.url("/a"), stream=True) as answer:
        answer.raw.read(1000)
    return it.get().content == BODY


def _threads(count: int, call: Callable[[int], bool]) -> list[bool]:
    got = [False] * count

    def run(place: int) -> None:
        got[place] = call(place)

    threads = [threading.Thread(target=run, args=(place,)) for place in range(count)]
    for thread in threads:
        thread.start()
    for thread in threads:
        thread.join(60)
    return got


@check("16 threads ask for one URL: all bodies are right")
def _(it: Bench) -> bool:
    it.put(BODY, pause=0.002)
    session = it.session
    return all(_threads(16, lambda _: it.get(session).content == BODY))


@check("16 threads ask for one URL: one request")
def _(it: Bench) -> bool:
    it.put(BODY, pause=0.002)
    session = it.session
    return all(_threads(16, lambda _: it.get(session).content == BODY)) and len(it.statuses) == 1


@check("threads that read stale and changed answers get no torn body")
def _(it: Bench) -> bool:
    bodies = [bytes([65 + place]) * 50_000 for place in range(4)]
    thing = it.put(bodies[0], fields=[("Cache-Control", "max-age=0")])
    session, is_over = it.session, threading.Event()

    def change() -> None:
        for place in range(200):
            if is_over.wait(0.01):
                break
            it.put(bodies[place % 4], tag=f'"v{place}"', fields=thing.fields)

    changing = threading.Thread(target=change)
    changing.start()
    got = _threads(8, lambda _: all(it.get(session).content in bodies for _ in range(12)))
    is_over.set()
    changing.join()
    return all(got)


@check("a reader that idles holds up nobody, and both share one download")
def _(it: Bench) -> bool:
    it.put(BODY)
    idle = it.session.get(it.origin.url("/a"), stream=True)
    first = idle.raw.read(1000)
    return it.get().content == BODY and first + idle.raw.read() == BODY and len(it.statuses) == 1


@check("all lines of a header, in their order, on a hit too")
def _(it: Bench) -> bool:
    it.put(fields=[("X-B", "1"), *FRESH, ("X-A", "a"), ("X-A", "b")])
    answers = [it.session.get(it.origin.url("/a"), stream=True) for _ in range(2)]
    lists = [(list(answer.headers)[:3], answer.raw.headers.getlist("X-A"), answer.content) for answer in answers]
    return lists == [(["X-B", "Cache-Control", "X-A"], ["a", "b"], SMALL)] * 2


@check("gzip: decoded as content, as it came as raw, on a hit too")
def _(it: Bench) -> bool:
    packed = gzip.compress(SMALL)
    it.put(packed, fields=[*FRESH, ("Content-Encoding", "gzip")])
    got = []
    for _ in range(2):
        got.append(it.get().content)
        got.append(it.session.get(it.origin.url("/a"), stream=True).raw.read())
    return got == [SMALL, packed] * 2


@check("an old Set-Cookie of a hit doesn't overwrite a session's cookie")
def _(it: Bench) -> bool:
    it.put(fields=[*FRESH, ("Set-Cookie", "k=old; Path=/")])
    it.get()
    it.session.cookies.clear()
    it.session.cookies.set("k", "new")
    it.get()
    return len(it.statuses) == 1 and [cookie.value for cookie in it.session.cookies] == ["new"]


@check("the caller's PreparedRequest stays as it was")
def _(it: Bench) -> bool:
    it.put(fields=[("Cache-Control", "max-age=0")])
    it.get()
    request = it.session.prepare_request(requests.Request("GET", it.origin.url("/a")))
    before = dict(request.headers)
    answer = it.session.send(request)
    return dict(request.headers) == before and answer.request is request and it.statuses == [200, 304]


@check("a session pickles")
def _(it: Bench) -> bool:
    it.put()
    it.get()
    return pickle.loads(pickle.dumps(it.session)).get(it.origin.url("/a")).content == SMALL


@check("what is stored is there after a restart", True)
def _(it: Bench) -> bool:
    it.put()
    it.get()
    it.session.close()
    return it.get(it.again()).content == SMALL and len(it.statuses) == 1


@check("files can be read by their owner alone", True)
def _(it: Bench) -> bool:
    it.put()
    it.get()
    files = [path for path in pathlib.Path(it.folder).rglob("*") if path.is_file()]
    return bool(files) and all(path.stat().st_mode & 0o077 == 0 for path in files)


def _is_harmless(it: Bench, damage: Callable[[bytes, int], bytes], count: int) -> bool:
    """Each file is damaged at places at random, and never is another body given, or anything raised."""
    it.put(BODY, tag=None)
    it.get()
    it.session.close()
    kept = {path: path.read_bytes() for path in pathlib.Path(it.folder).rglob("*") if path.is_file()}
    draw = random.Random(5)
    for _ in range(count):
        path = draw.choice(list(kept))
        for other, image in kept.items():
            other.write_bytes(image)
        path.write_bytes(damage(kept[path], draw.randrange(len(kept[path]))))
        if it.get(it.again()).content != BODY:
            return False
        it.opened[-1].close()
    return True


@check("a changed byte of a file is found", True)
def _(it: Bench) -> bool:
    return _is_harmless(it, lambda image, at: image[:at] + bytes([image[at] ^ 1]) + image[at + 1:], 60)


@check("a file that is cut is found", True)
def _(it: Bench) -> bool:
    return _is_harmless(it, lambda image, at: image[:at], 30)


READS = """
import sys
sys.path[:0] = {paths!r}
folder = {folder!r}
{code}
answer = session.get({url!r}, stream=True)
got = 0
while data := answer.raw.read(16384):
    got += len(data)
    print(got, flush=True)
"""


def _killed(it: Bench, after: int) -> None:
    here = pathlib.Path(__file__).resolve().parent
    script = READS.format(paths=[str(here.parent)], folder=it.folder, code=it.peer.code, url=it.origin.url("/a"))
    process = subprocess.Popen([sys.executable, "-c", script], stdout=subprocess.PIPE, stderr=subprocess.DEVNULL, text=True)
    for line in process.stdout:
        if int(line) >= after:
            break
    process.send_signal(signal.SIGKILL)
    process.wait()
    process.stdout.close()


@check("killed in mid-download: the next call gives the right body", True)
def _(it: Bench) -> bool:
    it.put(BODY, pause=0.01)
    for after in (50_000, 200_000, 400_000):
        _killed(it, after)
        if it.get(it.again()).content != BODY:
            return False
        it.put(BODY, tag=f'"{after}"', pause=0.01)
    return True


@check("killed in mid-download: the next call goes on from the file", True)
def _(it: Bench) -> bool:
    it.put(BODY, pause=0.01)
    _killed(it, 200_000)
    return it.get(it.again()).content == BODY and it.origin.asked[-1].sent <= len(BODY) - 200_000 and len(it.statuses) == 2


@check("two processes over one folder see each other's answers", True)
def _(it: Bench) -> bool:
    it.put()
    one, two = it.session, it.again()
    it.get(one)
    if it.get(two).content != SMALL or len(it.statuses) != 1:
        return False
    it.put(b"new", tag='"v2"')
    it.get(two, Cache_Control="no-cache")
    return it.get(one).content == b"new"


def _said(peer: Peer, is_kept: bool, call: Callable[[Bench], bool]) -> str:
    if is_kept and not peer.is_kept:
        return "-"
    folder = tempfile.mkdtemp()
    with Origin() as origin:
        it = Bench(peer, origin, folder)
        try:
            return "yes" if call(it) else "no"
        except Exception as fault:
            return "no" if isinstance(fault, (AssertionError, requests.RequestException)) else "no (raised)"
        finally:
            for session in it.opened:
                session.close()
            shutil.rmtree(folder, ignore_errors=True)


def table(found: list[Peer]) -> bool:
    """Writes the table. Whether all is `yes` or `-` of those that are this package's."""
    print("| |", " | ".join(peer.name for peer in found), "|")
    print("|---|", "|".join("---" for _ in found), "|")
    counts, is_right = [0] * len(found), True
    for words, is_kept, call in CHECKS:
        said = [_said(peer, is_kept, call) for peer in found]
        print("|", words, "|", " | ".join(said), "|", flush=True)
        counts = [count + it.startswith("no") for count, it in zip(counts, said)]
        is_right &= all(it in ("yes", "-") for peer, it in zip(found, said) if peer.name.startswith("vosdrieng"))
    print("| **no** |", " | ".join(f"**{count}**" for count in counts), "|")
    return is_right


# Times


@dataclass
class Timed:
    """A session of a cache, and a request of it that is a hit."""

    session: requests.Session
    url: str

    def __post_init__(self) -> None:
        self.session.get(self.url)
        self.request = self.session.prepare_request(requests.Request("GET", self.url))
        self.adapter = self.session.get_adapter(self.url)


ROUNDS = 25
CALLS = 50  # of a round
# Of each row its words, how many bytes are hit, whether it is asked of those whose adapter caches alone, and the call.
ROWS: tuple[tuple[str, int, bool, Callable[[Timed], object]], ...] = (
    ("`session.get`, a hit of 100 bytes", 100, False, lambda it: it.session.get(it.url).content),
    ("`session.get`, a hit of 1,000,000 bytes", 1_000_000, False, lambda it: it.session.get(it.url).content),
    ("`send` of the adapter, a hit of 100 bytes", 100, True, lambda it: it.adapter.send(it.request)),
    ("`send` of the adapter and its body, a hit of 100 bytes", 100, True, lambda it: it.adapter.send(it.request).content),
)


def _costs(timed: list[Timed], call: Callable[[Timed], object]) -> list[float]:
    """Microseconds of processor time of one call of each, the least of the rounds, in which they are asked by turns."""
    best = [float("inf")] * len(timed)
    for _ in range(ROUNDS):
        for place, it in enumerate(timed):
            began = time.process_time()
            for _ in range(CALLS):
                call(it)
            best[place] = min(best[place], (time.process_time() - began) / CALLS)
    return [it * 1e6 for it in best]


def times(found: list[Peer]) -> None:
    print("| µs of processor time |", " | ".join(peer.name for peer in found), "|")
    print("|---|" + "---:|" * len(found))
    with Origin() as origin, tempfile.TemporaryDirectory() as folder:
        sessions = {peer: peer.session(tempfile.mkdtemp(dir=folder)) for peer in found}
        for words, size, is_of_adapter, call in ROWS:
            origin.put(f"/{size}", bytes(size), fields=[("Cache-Control", "max-age=6000")])
            asked = {peer.name: session for peer, session in sessions.items() if not is_of_adapter or "requests_cache" not in peer.code}
            costs = dict(zip(asked, _costs([Timed(session, origin.url(f"/{size}")) for session in asked.values()], call)))
            told = (f"{costs[peer.name]:,.0f}" if peer.name in costs else "-" for peer in found)
            print("|", words, "|", " | ".join(told), "|", flush=True)
        for session in sessions.values():
            session.close()


def main(words: list[str]) -> int:
    warnings.simplefilter("ignore")
    if words == ["--times"]:
        times(peers())
        return 0
    return 0 if table(peers()) else 1


if __name__ == "__main__":
    sys.exit(main(sys.argv[1:]))
