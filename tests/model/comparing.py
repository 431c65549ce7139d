"""Random schedules through a program and the model, and the first difference between them."""
import subprocess
from collections.abc import Callable, Iterator

import program
from answers import Chance
from cases import Case
from generator import KINDS

Outcome = tuple[int, bytes, bytes]  # status, output, diagnostics
Runner = Callable[[Case], Outcome]


def by_model(case: Case) -> Outcome:
    result = program.command_of(list(case.words))(program.Input(case.text))
    return result.status, b"".join(result.output), result.said.encode()


def by_program(path: str) -> Runner:
    def run(case: Case) -> Outcome:
        ran = subprocess.run([path, *case.words], input=case.text, capture_output=True, timeout=120)
        return ran.returncode, ran.stdout, ran.stderr

    return run


def cases_of(kind: str, events: int, seed: int) -> Iterator[Case]:
    """Cases of a kind, with so many events in all."""
    chance = Chance(f"{kind} {seed}")
    while events > 0:
        for case in KINDS[kind](chance):
            events -= case.events
            yield case


def is_different(case: Case, run: Runner) -> bool:
    return run(case) != by_model(case)
