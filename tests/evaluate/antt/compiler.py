"""Turns definitions into Python functions, each when it is first needed.

A definition becomes a function of its explicit arguments. Its clauses are tried in order, and the first that fits is the answer.
Arguments are computed before a call; only the branches of `if`, `cond`, `&&`, `||`, `elim`, and what a `let` binds, wait. All
definitions end, so this changes no value. Types, levels and implicit arguments leave nothing.
"""
import inspect
import linecache

from . import values
from .forms import Clause, Function, explicit, explicit_count, names_in
from .lexer import SpecError
from .modules import top_level
from .natives import HELPERS, Native
from .parser import Parser
from .propositions import HELPERS as SEARCHES
from .values import mangled
from .writer import Writer


class Compiler:
    def __init__(self, library, overrides=None):
        self.library = library
        self.functions, self.classes, self.queue = {}, {}, []
        self.count = 0
        self.space = dict(HELPERS, **SEARCHES)
        for name in ("monus", "divided", "remainder", "now_of", "items_of", "bytes_of", "Lazy", "curried", "NoClause", "Undecided"):
            self.space[name] = getattr(values, name)
        self.space.update(ANY_NAT="ℕ", ANY_BOOL="Bool", ANY_LIST="List")
        for path, made in (overrides or {}).items():
            self.override(path, made)
        self.records, self.updaters, self.curries = {}, {}, {}

    def override(self, path, made):
        """A Python function of all explicit arguments, or a value, in place of a definition."""
        count = len(inspect.signature(made).parameters) if callable(made) else 0
        name = self.constant(made, "override")
        args = ", ".join("{%d}" % i for i in range(count))
        self.library.natives[path] = Native(path, count, "%s(%s)" % (name, args) if callable(made) else name)

    # ---- names of Python

    def fresh(self, name):
        self.count += 1
        return "%s_%d" % (mangled(name), self.count)

    def constant(self, value, name):
        made = self.fresh(name)
        self.space[made] = value
        return made

    def record_name(self, labels):
        labels = tuple(sorted(labels))
        if labels not in self.records:
            self.records[labels] = self.constant(values.record_class(labels), "R")
        return self.records[labels]

    def updater_name(self, labels):
        if labels not in self.updaters:
            self.updaters[labels] = self.constant(values.updater(labels), "U")
        return self.updaters[labels]

    def class_of(self, made):
        """The class of a constructor, and its name."""
        if made not in self.classes:
            names = list(made.fields)
            if made.declared is not None:
                count = len(made.fields)
            else:
                kind = made.type()
                count = explicit_count(kind)
                names = []
                while kind is not None and (kind[0] == "arrow" or (kind[0] == "bind" and kind[2] == "→")):
                    if kind[0] == "arrow":
                        names.append(None)
                        kind = kind[3]
                    else:
                        names += [name for name, _, is_implicit in kind[3] if not is_implicit]
                        kind = kind[4]
            cls = values.data_class(made.path, made.name, count, names)
            name = self.constant(cls, "C_" + made.name)
            single = self.constant(cls(), "V_" + made.name) if count == 0 else None
            self.classes[made] = (cls, name, count, single)
        return self.classes[made]

    # ---- definitions

    def function(self, decl):
        if decl not in self.functions:
            presets = [name for name, _, is_implicit in (decl.section.all_params() if decl.section else []) if not is_implicit]
            name = self.fresh(decl.name)
            if decl.kind == "fun":
                try:
                    clauses = self.clauses(decl)
                    walked = Writer(self, decl.module, decl).walks(clauses)
                    made = Function(name, len(clauses[0].patterns), presets, walked, self.waiting(decl, clauses) - set(walked))
                    self.queue.append((decl, made, clauses))
                except SpecError as error:
                    made = Function(name, explicit_count(decl.type()), presets)
                    self.stub(made, error)
            else:
                made = Function(name, len([p for p in decl.params if not p[2]]) + (explicit_count(decl.type()) if decl.kind == "data" else 0), presets)
                self.queue.append((decl, made, None))
            self.functions[decl] = made
        return self.functions[decl]

    def clauses(self, decl):
        if not decl.clauses:
            raise SpecError(decl.module.file, decl.line, "%s has no clause" % decl.name)
        clauses = [self.clause(decl, words) for words in decl.clauses]
        if len({len(clause.patterns) for clause in clauses}) != 1:
            raise SpecError(decl.module.file, decl.line, "the clauses of %s take different numbers of arguments" % decl.name)
        return clauses

    def waiting(self, decl, clauses):
        """The arguments that some clause neither reads nor takes apart, but for the one that is taken apart first."""
        found, writer = set(), Writer(self, decl.module, decl)
        binds = lambda pattern: pattern[0] == "wild" or (pattern[0] == "var" and writer.constructor(pattern, {}) is None)
        for clause in clauses:
            if clause.helpers:
                return set()
            names = names_in(clause.body, set())
            found |= {i for i, pattern in enumerate(clause.patterns) if binds(pattern) and pattern[2:] and pattern[2] not in names or pattern[0] == "wild"}
        first = [i for i, pattern in enumerate(clauses[0].patterns) if not binds(pattern)][:1]
        return found - set(first)

    def stub(self, made, error):
        """A definition that can't be read says so when it is asked for."""
        def refuse(*_):
            raise error
        made.error = error
        self.space[made.name] = refuse

    def clause(self, decl, words, operators=None):
        module = decl.module
        operators = operators or module.operators()
        equals = top_level(words, {"="})
        if equals < 0:
            raise SpecError(module.file, words[0].line, "a clause of %s without =" % decl.name)
        where = top_level(words, {"where"}, equals)
        head = Parser(words[:equals], operators, module.file).whole()
        body = Parser(words[equals + 1:where if where >= 0 else len(words)], operators, module.file).whole()
        if head[0] == "app":
            name, patterns = head[2], head[3]
        else:
            name, patterns = head, []
        if name[0] != "var" or name[2] != decl.name:
            raise SpecError(module.file, words[0].line, "a clause of %s is wanted, not of %s" % (decl.name, name[2] if name[0] == "var" else "this"))
        erased = [arg for arg in patterns if arg[0] == "implicit"]
        made = Clause(words[0].line, explicit(patterns), body, words[where + 1:] if where >= 0 else None)
        made.erased = [(arg[2] or (arg[3][2] if arg[3][0] == "var" else None)) for arg in erased]
        made.erased += [arg[3][2] for arg in erased if arg[3][0] == "var"]
        return made

    def finish(self):
        while self.queue:
            decl, made, clauses = self.queue.pop()
            try:
                Writer(self, decl.module, decl).definition(decl, made, clauses)
            except SpecError as error:
                self.stub(made, error)

    def execute(self, source, label, name):
        code = compile(source, label, "exec")
        linecache.cache[label] = (len(source), None, source.splitlines(True), label)
        exec(code, self.space)

    def value(self, found):
        """The Python value of a declaration or a native: a function of one argument at a time, or what it is."""
        term = Writer(self, None, None).value_of(found, None)
        self.finish()
        return eval(term, self.space)

    def call(self, decl):
        """The Python function of a definition, which takes all its arguments at once."""
        made = self.function(decl)
        self.finish()
        if made.error is not None:
            raise made.error
        return self.space[made.name]
