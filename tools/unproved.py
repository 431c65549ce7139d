#!/usr/bin/env python3
"""Runs the program as it stands in its sources, by a toolchain that compiles it with checks and proves nothing.

usage: tools/unproved.py COMMAND [WORD..] 3< INPUT

The words, the output and the exit status are those of the program. Its input is descriptor 3, since Python doesn't begin with an
input that can't be read. The report comes at once when the run has ended. With status 70
there was none: it is past what can be run so, or the sources are no program. To compile takes about a minute. For `replay`, which
is what is tried first, it takes less: only that is compiled, with functions that are cut out of the whole program as they stand.
"""
import os
import pathlib
import re
import shutil
import signal
import subprocess
import sys
import tempfile

sys.dont_write_bytecode = True
from crates import CRATES, TOP, below, crate_lines

NO_RUN = 70
SOURCE_FAILED = 3
INPUT = 3
# What `rt try` takes of its input, in bytes.
MOST_INPUT = 64 << 20
# What the program says on standard error. All else that stands there is of the toolchain.
DIAGNOSTICS = re.compile(r"(?m)^(?:usage|image|line \d+|foreign|failed|status|other|unfinished)\b.*\n")
ENDED = re.compile(r"(?m)^run=ended status=(\d+)\b")
NO_ANSWER = re.compile(r"(?m)^checked: no-answer: (.*)$")

# The program that replays and does nothing else: its items, by the file of the whole program in which they stand.
ITEMS = {
    "run.rt": ["fn replay_input", "fn conclude"],
    "say.rt": ["fn say_refusal", "fn write_refusal", "fn named"],
    "status.rt": ["enum Status", "impl Status", "fn stopped"],
}
LIBRARIES = ["hc_text", "hc_store", "hc_core", "hc_io", "hc_sched", "hc_replay"]
MAIN = """\
//! The program that replays a schedule.
#![tactic(auto)]

use hc_core::Cache;
use hc_io::{Sink, SinkError, Source, StdSink, StdSource, write_all};
use hc_replay::{PROGRAM_LIMITS, replay};
use hc_sched::{Ended, Refused, SchedRefusal};
use hc_store::Memory;
use hc_text::{NoMemory, write_number};
use std::alloc::Global;
use std::process::ExitCode;

fn main(rt: HostRuntime) -> ExitCode {
    let mut input = StdSource::new(rt.stdin());
    let mut out = StdSink::new(rt.stdout());
    let mut diag = StdSink::new(rt.stderr());
    ExitCode::from(replay_input(rt.alloc(), &mut input, &mut out, &mut diag).code())
}
"""


def say(text):
    print(f"vosdrieng: {text}", file=sys.stderr, flush=True)


def item(text, words):
    """The item that begins with these words, with its comment. It ends at the first brace that stands at the margin."""
    return re.search(rf"(?ms)^(?:(?:///|#\[)[^\n]*\n)*(?:pub(?:\(crate\))? )?{words}\b.*?^\}}\n", text)[0]


def without_clauses(text):
    """The text of an item without its contract, whose words stand in specs/."""
    lines, depth = [], 0
    for line in text.splitlines():
        if depth or re.match(r"\s+(requires|ensures)\b", line):
            depth += line.count("{") - line.count("}")
        else:
            lines.append(line)
    return "\n".join(lines) + "\n"


def lay_out(folder):
    """A repository with the program that only replays. Its crate's folder, or None where the whole program is written otherwise."""
    crate, libraries = folder / "crates" / "hc_app", below(LIBRARIES)
    sources = CRATES / "hc_app" / "src"
    try:
        items = [item((sources / name).read_text(), words) for name, found in ITEMS.items() for words in found]
    except (OSError, TypeError):
        return None
    for library in libraries:
        shutil.copytree(CRATES / library / "src", folder / "crates" / library / "src")
    (crate / "src").mkdir(parents=True)
    (crate / "src" / "main.rt").write_text("\n".join([MAIN, *map(without_clauses, items)]))
    lines = crate_lines() | {"hc_app": LIBRARIES}
    (folder / "crates.txt").write_text("".join(f"{it}: {' '.join(lines[it])}\n" for it in [*libraries, "hc_app"]))
    shutil.copy(TOP / "HANDLES", folder)
    return crate


def take_input(to):
    """Copies the input to a file. The status where it can't be read, or is more than can be run so."""
    while to.tell() <= MOST_INPUT:
        try:
            piece = os.read(INPUT, 1 << 20)
        except OSError:
            return NO_RUN if to.tell() else SOURCE_FAILED
        if not piece:
            return None
        to.write(piece)
    return NO_RUN


def unblock():
    signal.pthread_sigmask(signal.SIG_UNBLOCK, [signal.SIGTERM])


def tried(crate, words, given):
    """Runs the program of a crate. What was said on standard error, by it and by the toolchain."""
    given.seek(0)
    how = {"cwd": crate, "stdin": given, "stderr": subprocess.PIPE, "preexec_fn": unblock}
    # A signal waits until there is somebody to end.
    signal.pthread_sigmask(signal.SIG_BLOCK, [signal.SIGTERM])
    with subprocess.Popen(["rt", "try", "--", *words], **how) as running:
        try:
            unblock()
            return running.communicate()[1].decode(errors="replace")
        finally:
            running.terminate()


def run(words, given):
    """What was said where the words are run on the input that was given."""
    with tempfile.TemporaryDirectory() as folder:
        alone = lay_out(pathlib.Path(folder)) if words == ["replay"] else None
        said = tried(alone, words, given) if alone else ""
    # Where what was cut out is no program, since the whole one is written otherwise now, that is run.
    return said if ENDED.search(said) or NO_ANSWER.search(said) else tried(CRATES / "hc_app", words, given)


def conclude(said):
    """Passes on what the program said. Its exit status."""
    if ended := ENDED.search(said):
        sys.stderr.write("".join(DIAGNOSTICS.findall(said)))
        return int(ended[1])
    if why := NO_ANSWER.search(said):
        say(why[1])
        say("this run is past what can be run unproved (a report of 1 MiB, one minute): './vosdrieng build'")
    else:
        sys.stderr.write(said)
        say("the toolchain ran nothing")
    return NO_RUN


def main(words):
    signal.signal(signal.SIGTERM, lambda number, _: sys.exit(128 + number))
    say("the program is not built, so this run is not proved, and takes about a minute.")
    say("'./vosdrieng build' proves and builds it; after that each run starts at once.")
    with tempfile.TemporaryFile() as given:
        fault = None if words[0] == "generate" else take_input(given)
        if fault == NO_RUN:
            say("the input is past what can be run unproved (64 MiB), or breaks off: './vosdrieng build'")
        return conclude(run(words, given)) if fault is None else fault


if __name__ == "__main__":
    if len(sys.argv) < 2 or sys.argv[1].startswith("-"):
        sys.exit(__doc__.split("\n\n")[1])
    sys.exit(main(sys.argv[1:]))
