"""The program that is timed, as it is now and as it was at an older revision.

`rt run` in crates/hc_bench builds it.
"""
import os
import pathlib
import subprocess
import sys
import tempfile

TOP = pathlib.Path(__file__).resolve().parent.parent
PROGRAM = TOP / "crates" / "hc_bench" / "out" / "hc_bench"
if not os.access(PROGRAM, os.X_OK):
    sys.exit("bench: build the program first: rt run in crates/hc_bench")


def used(program, words):
    """The processor time that a run of the program takes, and its peak memory in bytes."""
    child = subprocess.Popen([program, *map(str, words)], stdin=subprocess.DEVNULL)
    _, status, usage = os.wait4(child.pid, 0)
    child.returncode = os.waitstatus_to_exitcode(status)
    if child.returncode != 0:
        sys.exit(f"{program} ended with {child.returncode}")
    return usage.ru_utime + usage.ru_stime, usage.ru_maxrss * 1024


def seconds(program, words):
    """The processor time that a run of the program takes."""
    time, _ = used(program, words)
    return time


def nanoseconds(program, words, times):
    """The time of a round, between a short and a long run."""
    short = seconds(program, [*words, times])
    long = seconds(program, [*words, 3 * times])
    return (long - short) / (2 * times) * 1e9


def build(top):
    """Proves and builds the program of a tree, and gives its path."""
    crate = top / "crates" / "hc_bench"
    subprocess.run(["rt", "run"], cwd=crate, check=True, stdout=subprocess.DEVNULL)
    return crate / "out" / "hc_bench"


def programs(revision):
    """The program now, and the one at the revision, if one is named.

    The revision is a folder with a tree that was built, or a commit: that is checked out into a folder of its
    own, whose name is told, and built there.
    """
    if revision is None:
        return [PROGRAM]
    old = pathlib.Path(revision)
    if not old.is_dir():
        old = pathlib.Path(tempfile.mkdtemp(prefix="hc_bench-")) / "tree"
        subprocess.run(["git", "worktree", "add", "--detach", old, revision], cwd=TOP, check=True, stdout=sys.stderr)
        print(f"{revision} is built in {old}; `git worktree remove --force` takes it away", file=sys.stderr)
        build(old)
    return [PROGRAM, old.resolve() / "crates" / "hc_bench" / "out" / "hc_bench"]
