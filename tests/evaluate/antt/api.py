"""Definitions as Python functions."""
import os
import subprocess
import sys
import threading

from .compiler import Compiler
from .lexer import SpecError
from .modules import Declaration, Library
from .natives import TABLE


def kit_folder():
    """The folder of the toolchain: RATTLE_KIT, or where `rt doc` has its first page."""
    if os.environ.get("RATTLE_KIT"):
        return os.environ["RATTLE_KIT"]
    try:
        page = subprocess.run(["rt", "doc"], capture_output=True, text=True, timeout=60).stdout.split()
    except (OSError, subprocess.SubprocessError):
        page = []
    if not page:
        raise SystemExit("the toolchain isn't found: set RATTLE_KIT to its folder")
    return os.path.dirname(page[0])


class Specs:
    """The definitions of a folder of crates.

    specs = Specs("crates")
    answer = specs.function("Rattle.hc_model.specs.Answers.answer")    # takes its arguments at once
    poll = specs.value("Rattle.hc_event.specs.declared.event.Event.TheVariants.Poll")

    overrides: Python functions, or values, in place of definitions, by their paths.
    """

    def __init__(self, crates, kit=None, overrides=None):
        self.library = Library(os.path.abspath(crates), kit or kit_folder(), dict(TABLE))
        self.compiler = Compiler(self.library, overrides)

    def find(self, path):
        names = path.split(".")
        module = self.library.module(names[:-1])
        if module is None:
            raise SystemExit("there is no module %s" % ".".join(names[:-1]))
        found = module.exported(names[-1])
        if found is None:
            raise SystemExit("%s isn't found in %s" % (names[-1], ".".join(names[:-1])))
        return found

    def function(self, path):
        found = self.find(path)
        if isinstance(found, Declaration) and found.kind in ("fun", "record"):
            made = self.compiler.call(found)
            return made
        if isinstance(found, Declaration):
            cls, _, count, single = self.compiler.class_of(found)
            return cls if count else (lambda: self.compiler.space[single])
        names = ["x%d" % i for i in range(found.arity)]
        return eval("lambda %s: %s" % (", ".join(names), found.template.format(*names)), self.compiler.space)

    def value(self, path):
        """A constructor or a constant as it is, a function as one of one argument at a time."""
        return self.compiler.value(self.find(path))

    def option(self, value):
        """None for None, and else Some of the value."""
        base = "Rattle.core.specs.declared.option.Option.TheVariants."
        return self.value(base + "None") if value is None else self.value(base + "Some")(value)


def deep(main):
    """Runs a function where recursion may go deep, and exits with what it gives."""
    sys.setrecursionlimit(10 ** 6)
    threading.stack_size(512 * 1024 * 1024)
    result = []

    def run():
        try:
            result.append(main() or 0)
        except SpecError as error:
            print(error, file=sys.stderr)
            result.append(2)
        except SystemExit as error:
            if error.code not in (None, 0) and not isinstance(error.code, int):
                print(error.code, file=sys.stderr)
            result.append(error.code if isinstance(error.code, int) else (1 if error.code else 0))

    thread = threading.Thread(target=run)
    thread.start()
    thread.join()
    sys.exit(result[0] if result else 1)
