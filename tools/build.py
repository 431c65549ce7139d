#!/usr/bin/env python3
"""Proves and builds the programs: each crate as soon as those that it stands on are done, several side by side.

usage: tools/build.py [AT_ONCE]

A line tells each crate that is done, how many there are, and about how much time is left. That is reckoned by the times that the
crates took when they were last proved in this clone, which are kept; of a crate that never was, by its lines of code. What was built
before and hasn't changed is done at once. Where a crate is not proved, what the toolchain says is shown.
"""
import concurrent.futures
import contextlib
import json
import os
import subprocess
import sys
import time

sys.dont_write_bytecode = True
from crates import CRATES, TOP, below, crate_lines

PROGRAMS = ("hc_app", "hc_keep_app")
PARTS = ("src", "specs", "proofs")
KEPT = TOP / "tools" / "out" / "build-times.json"
# Memory of a check, in bytes: so many are made side by side as memory has room for.
OF_A_CHECK = 5 << 30
# Seconds within which a crate is done that was built before: it tells nothing of how long its proof takes.
AT_ONCE = 5


def sources(crate, part):
    return [it for it in (CRATES / crate / part).rglob("*") if it.is_file()]


def size(crate):
    """How much work a crate is: its lines of code, with which the time of its check goes, and a line for 127 of proofs."""
    lines = {part: sum(len(path.read_bytes().splitlines()) for path in sources(crate, part)) for part in PARTS}
    return lines["src"] + (lines["specs"] + lines["proofs"]) / 127


def built(crates):
    """The crates whose libraries are newer than what they are made from. They are done at once."""
    found = set()
    for crate, under in crates.items():
        stamp = CRATES / crate / "out" / "rlib" / "stamp"
        made = stamp.stat().st_mtime if stamp.exists() else 0
        if found.issuperset(under) and all(it.stat().st_mtime < made for part in PARTS for it in sources(crate, part)):
            found.add(crate)
    return found


def at_once():
    """How many checks fit beside one another."""
    memory = os.sysconf("SC_PAGE_SIZE") * os.sysconf("SC_PHYS_PAGES")
    return max(1, min(os.cpu_count() or 1, memory // OF_A_CHECK))


def build(crate):
    """Proves and builds one crate. What the toolchain said, where it isn't proved."""
    program = CRATES / crate / "out" / crate
    words = ["rt", "lib"]
    if crate in PROGRAMS:
        program.unlink(missing_ok=True)
        words = ["rt", "run", "--", "--help"]
    ran = subprocess.run(words, cwd=CRATES / crate, stdin=subprocess.DEVNULL, stdout=subprocess.PIPE, stderr=subprocess.STDOUT, text=True, errors="replace")
    # (a program answers these words with its usage, and one of them with 2)
    is_built = program.exists() if crate in PROGRAMS else ran.returncode == 0
    return None if is_built else ran.stdout


def minutes(seconds):
    return f"{seconds / 60:.0f} min" if seconds >= 90 else f"{seconds:.0f} s"


class Times:
    """How long each crate takes: as when it was last proved, or else by its size, at the pace of those that were."""

    def __init__(self, crates):
        self.sizes, self.built, self.kept = {crate: size(crate) for crate in crates}, built(crates), {}
        with contextlib.suppress(OSError, ValueError):
            self.kept = json.loads(KEPT.read_text())

    def keep(self, crate, seconds):
        if seconds <= AT_ONCE:
            return
        self.kept[crate] = round(seconds)
        with contextlib.suppress(OSError):
            KEPT.parent.mkdir(exist_ok=True)
            KEPT.write_text(json.dumps(self.kept, indent=1) + "\n")

    def expected(self, crate):
        if crate in self.built:
            return 1
        if crate in self.kept:
            return self.kept[crate]
        known = [it for it in self.sizes if it in self.kept]
        pace = sum(self.kept[it] for it in known) / sum(self.sizes[it] for it in known) if known else 0
        return self.sizes[crate] * pace


def next_ones(crates, waiting, done, places):
    """The crates that may begin: all that they stand on is done."""
    return [it for it in waiting if done.issuperset(crates[it])][:places]


def left(crates, times, done, began, most):
    """How many seconds the rest takes, where each crate begins as `build_all` has it. `began` tells since when some are at work."""
    now, done = time.time(), set(done)
    ends = {crate: max(now, since + times.expected(crate)) for crate, since in began.items()}
    waiting = [it for it in crates if it not in done and it not in ends]
    while waiting or ends:
        ready = next_ones(crates, waiting, done, most - len(ends))
        waiting = [it for it in waiting if it not in ready]
        ends |= {it: now + times.expected(it) for it in ready}
        now, crate = min((end, crate) for crate, end in ends.items())
        del ends[crate]
        done.add(crate)
    return now - time.time()


def tell(crate, done, crates, seconds):
    # Nothing is known before the first crate is proved.
    rest = " (all is built)" if len(done) == len(crates) else f" (about {minutes(seconds)} left)" if seconds >= 1 else ""
    print(f"vosdrieng: {len(done)} of {len(crates)}: {crate}{rest}", file=sys.stderr, flush=True)


def build_all(crates, most):
    """Builds each crate behind those that it stands on. What the toolchain said of one that isn't proved."""
    times, waiting, done, began = Times(crates), list(crates), set(), {}
    print(f"vosdrieng: proving and building {len(crates)} crates, {most} at a time", file=sys.stderr, flush=True)
    with concurrent.futures.ThreadPoolExecutor(most) as pool:
        running = {}
        while waiting or running:
            ready = next_ones(crates, waiting, done, most - len(running))
            waiting = [it for it in waiting if it not in ready]
            began |= {it: time.time() for it in ready}
            running.update({pool.submit(build, it): it for it in ready})
            ended, _ = concurrent.futures.wait(running, return_when=concurrent.futures.FIRST_COMPLETED)
            for future in ended:
                crate = running.pop(future)
                if future.result() is not None:
                    return f"{crate} is not proved:\n{future.result()}"
                times.keep(crate, time.time() - began.pop(crate))
                done.add(crate)
                tell(crate, done, crates, left(crates, times, done, began, most))
    return None


def main(words):
    lines, crates = crate_lines(), below(PROGRAMS)
    fault = build_all({crate: [it for it in lines[crate] if it in crates] for crate in crates}, int(words[0]) if words else at_once())
    if fault:
        print("vosdrieng: " + "\n".join(fault.splitlines()[:1] + fault.splitlines()[-40:]), file=sys.stderr)
    return 70 if fault else 0


if __name__ == "__main__":
    sys.exit(main(sys.argv[1:]))
