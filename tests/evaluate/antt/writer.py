"""Writes one definition as Python."""
from . import values
from .forms import LOOPS, Local, Suffix, Waiting, explicit, names_in
from .lexer import SpecError
from .modules import Declaration, Module, split
from .natives import Native
from .propositions import ERASED, Propositions
from .values import mangled


class Writer(Propositions):
    """Writes one definition as Python."""

    def __init__(self, compiler, module, decl):
        self.compiler, self.module, self.decl = compiler, module, decl
        self.lines, self.depth = [], 0
        self.walked = {}            # of the function that is written: its parameters that are walked along, with their places
        self.walker = None          # and its name where the places are told too
        self.heads = {}             # a name that stands for an element of such a list: (list, place)
        self.results = []           # the hypotheses of the pattern that is read: (variable, name of its result)

    def fail(self, line, why):
        raise SpecError(self.module.file if self.module else "?", line, why + (" (in %s)" % self.decl.name if self.decl else ""))

    def emit(self, text):
        self.lines.append("    " * self.depth + text)

    def block(self):
        """A place for lines of its own."""
        kept = self.lines, self.depth
        self.lines = []
        return kept

    # ---- a definition

    def definition(self, decl, made, clauses):
        if decl.kind == "record":
            self.proposition(decl, made)
        elif decl.kind == "data":
            self.family(decl, made)
        elif not made.arity and not made.presets:
            self.named_value(decl, made, clauses)
        else:
            env, params = {}, []
            for name, _, is_implicit in (decl.section.all_params() if decl.section else []):
                if is_implicit:
                    env[name] = ERASED
                else:
                    env[name] = self.compiler.fresh(name)
                    params.append(env[name])
            self.clauses(made.name, params, clauses, env, decl.line)
            self.compiler.execute("\n".join(self.lines) + "\n", "<%s>" % decl.path, made.name)

    def named_value(self, decl, made, clauses):
        """A definition without arguments: a value that is computed when it is first asked for."""
        maker = self.compiler.fresh("make_" + decl.name)
        self.clauses(maker, [], clauses, {}, decl.line)
        self.emit("%s = Lazy(%s)" % (made.name, maker))
        self.compiler.execute("\n".join(self.lines) + "\n", "<%s>" % decl.path, made.name)

    def clauses(self, name, presets, clauses, env, line):
        count = len(clauses[0].patterns)
        params = [self.compiler.fresh("a") for _ in range(count)]
        made = self.compiler.functions.get(self.decl) if not self.lines else None
        subjects = [Waiting(param) if made is not None and i in made.waiting else param for i, param in enumerate(params)]
        walked = made.walked if made is not None else ()
        if walked:
            self.walker = self.compiler.fresh(self.decl.name + "_from")
            places = [self.compiler.fresh("i") for _ in walked]
            self.emit("def %s(%s):" % (name, ", ".join(presets + params)))
            self.emit("    return %s(%s)" % (self.walker, ", ".join(presets + params + ["0"] * len(walked))))
            for i, place in zip(walked, places):
                self.walked[i] = place
                subjects[i] = Suffix(params[i], place)
            name, params = self.walker, params + places
        self.emit("def %s(%s):" % (name, ", ".join(presets + params)))
        self.depth += 1
        total = False
        for clause in clauses:
            inner = dict(env)
            for erased in clause.erased:
                if erased:
                    inner[erased] = ERASED
            used = names_in(clause.body, set())
            if clause.helpers:
                for tok in clause.helpers:
                    if tok.kind == "name":
                        used.add(tok.text)
            depth = self.depth
            for pattern, subject in zip(clause.patterns, subjects):
                self.match(pattern, subject, inner, used)
            if clause.helpers:
                self.helpers(clause.helpers, inner)
            self.tail(clause.body, inner)
            total = total or self.depth == depth
            self.depth = depth
            if total:
                break
        if not total:
            self.emit("raise NoClause(%r)" % ("%s:%s: no clause of %s fits" % (self.module.file, line, self.decl.name if self.decl else name)))
        self.depth -= 1

    def walks(self, clauses):
        """The arguments along which a function walks: lists that it takes apart and calls itself on."""
        if not any(self.decl.name in names_in(clause.body, set()) for clause in clauses):
            return []
        return [i for i in range(len(clauses[0].patterns))
                if any(clause.patterns[i][0] == "app" and clause.patterns[i][2] == ("var", clause.patterns[i][2][1], "◌∷◌") for clause in clauses)]

    def walk(self, term, env):
        """The list and the place of a term that is such a list from a place on, or None."""
        if term[0] == "var" and isinstance(env.get(term[2]), Suffix):
            return env[term[2]].whole, env[term[2]].base, env[term[2]].more
        if term[0] == "app" and term[2] == ("var", term[2][1], "◌∷◌") and len(explicit(term[3])) == 2:
            first, rest = explicit(term[3])
            found = self.walk(rest, env)
            if found and found[2] and first[0] == "var" and self.heads.get(env.get(first[2])) == (found[0], found[1], found[2] - 1):
                return found[0], found[1], found[2] - 1
        return None

    def helpers(self, words, env):
        """The functions of a `where` block."""
        scratch = Module(self.compiler.library, self.module.name, self.module.file)
        scratch.read(split(words), None)
        operators = self.module.operators()
        for decl in scratch.decls.values():
            decl.module = self.module
            if decl.kind != "fun" or not decl.clauses:
                self.fail(decl.line, "only functions are read in a where block")
            made = [self.compiler.clause(decl, clause, operators) for clause in decl.clauses]
            name = self.compiler.fresh(decl.name)
            # A helper may call itself.
            env[decl.name] = Local(name, len(made[0].patterns))
            self.clauses(name, [], made, env, decl.line)

    # ---- patterns

    def constructor(self, term, env):
        """The constructor that a pattern's head names, or None where it is a variable."""
        if term[0] == "var":
            found = self.module.lookup(term[2], term[1])
        elif term[0] == "proj":
            found = self.path(term, {})
            if found is None:
                self.fail(term[1], "%s isn't found" % self.spelled(term))
        else:
            return None
        if isinstance(found, Declaration) and found.kind == "constructor":
            # A name of this file means something only below its declaration.
            return None if found.module is self.module and found.declared is None and found.line > term[1] else found
        if isinstance(found, Native) and found.kind == "constructor":
            return found
        return None

    def match(self, pattern, value, env, used):
        """Lines that test a value against a pattern; what follows stands under the tests."""
        form, line = pattern[0], pattern[1]
        if isinstance(value, Suffix):
            self.match_suffix(pattern, value, env, used)
            return
        if isinstance(value, Waiting):
            if form == "wild":
                return
            if form == "var" and self.constructor(pattern, env) is None:
                env[pattern[2]] = value
                return
            self.emit("if %s.__class__ is Lazy:" % value.name)
            self.emit("    %s = %s()" % (value.name, value.name))
            value = value.name
        if form == "wild":
            return
        if form == "implicit":
            return
        if form == "num":
            self.emit("if %s == %d:" % (value, pattern[2]))
            self.depth += 1
            return
        if form == "tuple":
            for i, part in enumerate(pattern[2]):
                self.match(part, "%s[%d]" % (value, i), env, used)
            return
        if form == "record":
            for label, part in pattern[2]:
                self.match(part, self.field(value, label), env, used)
            return
        if form == "app":
            head, args = pattern[2], explicit(pattern[3])
        else:
            head, args = pattern, []
        made = self.constructor(head, env)
        if made is None:
            if form != "var":
                self.fail(line, "a pattern whose head isn't a constructor: %s" % self.spelled(head))
            if pattern[2] in used:
                if value.isidentifier():
                    env[pattern[2]] = value
                else:
                    name = self.compiler.fresh(pattern[2])
                    self.emit("%s = %s" % (name, value))
                    env[pattern[2]] = name
            else:
                env.pop(pattern[2], None)
            return
        if isinstance(made, Native):
            self.match_native(made, args, value, env, used, line)
            return
        cls, name, count, single = self.compiler.class_of(made)
        if len(args) != count:
            self.fail(line, "%s has %d parts, not %d" % (made.name, count, len(args)))
        if not value.isidentifier():
            kept = self.compiler.fresh("v")
            self.emit("%s = %s" % (kept, value))
            value = kept
        self.emit("if %s.__class__ is %s:" % (value, name))
        self.depth += 1
        for i, part in enumerate(args):
            self.match(part, "%s._%d" % (value, i), env, used)

    def match_suffix(self, pattern, value, env, used):
        if pattern[0] in ("wild", "var") and (pattern[0] == "wild" or self.constructor(pattern, env) is None):
            if pattern[0] == "var":
                env[pattern[2]] = value
            return
        made = self.constructor(pattern[2] if pattern[0] == "app" else pattern, env)
        args = explicit(pattern[3]) if pattern[0] == "app" else []
        if not isinstance(made, Native) or (made.name, len(args)) not in (("[]", 0), ("◌∷◌", 2)):
            self.fail(pattern[1], "a pattern of a list is wanted")
        if made.name == "[]":
            self.emit("if %s >= len(%s):" % (value.place, value.whole))
            self.depth += 1
            return
        self.emit("if %s < len(%s):" % (value.place, value.whole))
        self.depth += 1
        self.match(args[0], "%s[%s]" % (value.whole, value.place), env, used)
        if args[0][0] == "var" and args[0][2] in env:
            self.heads[env[args[0][2]]] = (value.whole, value.base, value.more)
        self.match(args[1], Suffix(value.whole, value.base, value.more + 1), env, used)

    def match_native(self, made, args, value, env, used, line):
        if made.arity != len(args):
            self.fail(line, "%s has %d parts, not %d" % (made.name, made.arity, len(args)))
        if not value.isidentifier():
            kept = self.compiler.fresh("v")
            self.emit("%s = %s" % (kept, value))
            value = kept
        if made.name == "tt":
            return
        test = {"zero": "%s == 0", "suc": "%s > 0", "true": "%s", "false": "not %s", "[]": "not %s", "◌∷◌": "%s"}[made.name] % value
        self.emit("if %s:" % test)
        self.depth += 1
        if made.name == "suc":
            self.match(args[0], "%s - 1" % value, env, used)
        elif made.name == "◌∷◌":
            self.match(args[0], "%s[0]" % value, env, used)
            self.match(args[1], "%s[1:]" % value, env, used)

    # ---- terms

    def spelled(self, term):
        if term[0] == "var":
            return term[2]
        if term[0] == "proj":
            return self.spelled(term[2]) + "." + term[3]
        return "a term of the form %s" % term[0]

    def path(self, term, env):
        """What a dotted path names, or None where it is a field of a value."""
        names, head = [], term
        while head[0] == "proj":
            names.insert(0, head[3])
            head = head[2]
        if head[0] != "var" or head[2] in env:
            return None
        first = head[2]
        found = self.module.lookup(first, head[1]) if first in self.module.imports or self.module.own(first) is not None else None
        if isinstance(found, Declaration) and found.kind == "data" and len(names) == 1:
            for made in found.members:
                if made.name == names[0]:
                    return made
        target = self.module.alias(first)
        if target is None:
            return None
        path = self.module.absolute(list(target) + names[:-1])
        native = self.compiler.library.native(".".join(path + names[-1:]))
        if native is not None:
            return native
        module = self.compiler.library.module(path, self.module, term[1])
        if module is None:
            # A constructor behind a type of that module.
            if len(path) > 1:
                return self.compiler.library.item(path, names[-1], self.module, term[1])
            self.fail(term[1], "the module %s isn't found" % ".".join(path))
        found = module.exported(names[-1], term[1])
        if found is None and len(names) > 1:
            return None
        if found is None:
            self.fail(term[1], "%s isn't found in %s" % (names[-1], ".".join(path)))
        return found

    def tail(self, term, env):
        """Lines that return the value of a term."""
        form, line = term[0], term[1]
        if form == "app":
            found = self.head(term[2], env)
            if isinstance(found, Native) and found.kind == "special" and found.name in ("if◌then◌else◌", "cond"):
                args = explicit(term[3])
                if len(args) == 3:
                    self.emit("if %s:" % self.term(args[0], env))
                    self.depth += 1
                    self.tail(args[1], env)
                    self.depth -= 1
                    self.tail(args[2], env)
                    return
        elif form == "let":
            inner = dict(env)
            self.bind(term, inner)
            self.tail(term[4], inner)
            return
        elif form == "elim" and term[2] is not None and not self.has_hypothesis(term[3]):
            value = self.compiler.fresh("e")
            self.emit("%s = %s" % (value, self.term(term[2], env)))
            self.cases(term[3], value, env, line)
            return
        self.emit("return %s" % self.term(term, env))

    def bind(self, term, env):
        """The line of a `let`."""
        pattern, bound = term[2], term[3]
        if pattern[0] == "var" and self.constructor(pattern, env) is None:
            name = self.compiler.fresh(pattern[2])
            if bound[0] in ("var", "num", "str", "proj", "lam"):
                self.emit("%s = %s" % (name, self.term(bound, env)))
                env[pattern[2]] = name
            else:
                self.emit("%s = Lazy(%s)" % (name, self.delayed(bound, env)))
                env[pattern[2]] = name + "()"
            return
        if pattern[0] == "app":
            self.fail(pattern[1], "a let binds a name, a tuple or a record")
        value = self.compiler.fresh("t")
        self.emit("%s = %s" % (value, self.term(bound, env)))
        depth = self.depth
        self.match(pattern, value, env, names_in(term[4], set()))
        if self.depth != depth:
            self.fail(pattern[1], "a let whose pattern may fail")

    def delayed(self, term, env):
        """A Python function without arguments that computes a term."""
        return self.lambda_of([], term, env)

    def lambda_of(self, params, term, env):
        kept = self.block()
        self.depth = 0
        value = self.term(term, env)
        inner, (self.lines, self.depth) = self.lines, kept
        if not inner:
            return "(lambda %s: %s)" % (", ".join(params), value)
        name = self.compiler.fresh("f")
        self.emit("def %s(%s):" % (name, ", ".join(params)))
        pad = "    " * (self.depth + 1)
        self.lines += [pad + each for each in inner]
        self.lines.append(pad + "return " + value)
        return name

    def cases(self, cases, value, env, line, hypothesis=None):
        for pattern, body in cases:
            inner, depth = dict(env), self.depth
            pattern = self.without_hypotheses(pattern, inner, hypothesis)
            results, self.results = self.results, []
            self.match(pattern, value, inner, names_in(body, set()) | {variable for variable, _ in results})
            for variable, result in results:
                inner[result] = "%s(%s)" % (hypothesis, inner[variable])
            self.tail(body, inner)
            total = self.depth == depth
            self.depth = depth
            if total:
                return
        self.emit("raise NoClause(%r)" % ("%s:%s: no case of elim fits" % (self.module.file, line)))

    def has_hypothesis(self, cases):
        def holds(term):
            if isinstance(term, tuple):
                return term[:1] == ("arrow",) or any(holds(part) for part in term if isinstance(part, (tuple, list)))
            return isinstance(term, list) and any(holds(part) for part in term)
        return any(holds(pattern) for pattern, _ in cases)

    def without_hypotheses(self, pattern, env, hypothesis):
        """`(n → h)` in a pattern binds n, and h to the result at n."""
        self.results = []

        def plain(term):
            if isinstance(term, tuple) and term[:1] == ("arrow",):
                if term[2][0] != "var" or term[3][0] != "var":
                    self.fail(term[1], "a hypothesis names two variables")
                self.results.append((term[2][2], term[3][2]))
                return term[2]
            if isinstance(term, tuple):
                return tuple(plain(part) for part in term)
            if isinstance(term, list):
                return [plain(part) for part in term]
            return term
        return plain(pattern)

    def head(self, term, env):
        """What the head of an application names outside its variables, or None."""
        if term[0] == "var":
            if term[2] in env:
                return None
            found = self.module.lookup(term[2], term[1])
            if found is None and term[2] == "◌≡◌":
                found = self.compiler.library.native("mathlib.Core.Path.◌≡◌")
            if found is None:
                self.fail(term[1], "%s isn't in scope" % term[2])
            return found
        if term[0] == "proj":
            return self.path(term, env)
        return None

    def term(self, term, env):
        """A Python expression for a term."""
        form, line = term[0], term[1]
        method = getattr(self, "term_" + form, None)
        if method is None:
            self.fail(line, "a term of the form %s isn't run" % form)
        return method(term, env)

    def term_num(self, term, env):
        return str(term[2])

    def term_str(self, term, env):
        return repr(term[2])

    def term_var(self, term, env):
        name = term[2]
        if name in env:
            return self.variable(name, env, term[1])
        found = self.module.lookup(name, term[1])
        if found is None:
            self.fail(term[1], "%s isn't in scope" % name)
        return self.value_of(found, env)

    def variable(self, name, env, line):
        found = env[name]
        if found is ERASED:
            self.fail(line, "%s is an implicit argument and can't be used as a value" % name)
        if isinstance(found, (Suffix, Waiting)):
            return str(found)
        if isinstance(found, Local):
            return "curried(%s, %d)" % (found.name, found.arity) if found.arity > 1 else (found.name if found.arity else found.name + "()")
        return found

    def term_wild(self, term, env):
        self.fail(term[1], "_ can't be used as a value")

    def term_proj(self, term, env):
        found = self.path(term, env)
        if found is not None:
            return self.value_of(found, env)
        return self.field(self.term(term[2], env), term[3])

    def field(self, value, label):
        if label.isdigit():
            return "%s[%s]" % (value, label)
        if label == "now":
            return "now_of(%s)" % value
        if label == "items":
            return "items_of(%s)" % value
        if label == "bytes":
            return "bytes_of(%s)" % value
        return "%s.%s" % (value, mangled(label))

    def term_tuple(self, term, env):
        return "(%s)" % "".join(self.term(part, env) + ", " for part in term[2])

    def term_record(self, term, env):
        fields = sorted(term[2])
        labels = tuple(label for label, _ in fields)
        if len(set(labels)) != len(labels):
            self.fail(term[1], "a field is given twice")
        if labels and all(label.isdigit() for label in labels):
            return "(%s)" % "".join(self.term(part, env) + ", " for _, part in sorted(fields, key=lambda f: int(f[0])))
        return "%s(%s)" % (self.compiler.record_name(labels), ", ".join(self.term(part, env) for _, part in fields))

    def term_update(self, term, env):
        labels = tuple(label for label, _ in term[3])
        return "%s(%s, %s)" % (self.compiler.updater_name(labels), self.term(term[2], env), ", ".join(self.term(part, env) for _, part in term[3]))

    def term_let(self, term, env):
        kept = self.block()
        self.depth = 1
        inner = dict(env)
        self.bind(term, inner)
        self.tail(term[4], inner)
        lines, (self.lines, self.depth) = self.lines, kept
        return self.hoisted([], lines) + "()"

    def hoisted(self, params, lines, name=None):
        """A function of these lines, which are indented by one, before the present line."""
        name = name or self.compiler.fresh("f")
        self.emit("def %s(%s):" % (name, ", ".join(params)))
        pad = "    " * self.depth
        self.lines += [pad + each for each in lines]
        return name

    def term_elim(self, term, env):
        kept = self.block()
        self.depth = 1
        name, value = self.compiler.fresh("f"), self.compiler.fresh("e")
        self.cases(term[3], value, env, term[1], name)
        lines, (self.lines, self.depth) = self.lines, kept
        self.hoisted([value], lines, name)
        return name if term[2] is None else "%s(%s)" % (name, self.term(term[2], env))

    def term_lam(self, term, env):
        return self.function_of(term[2], term[3], env)

    def function_of(self, patterns, body, env):
        inner = dict(env)
        pattern, rest = patterns[0], patterns[1:]
        while pattern[0] == "implicit":
            if not rest:
                return self.term(body, inner)
            pattern, rest = rest[0], rest[1:]
        if pattern[0] in ("wild", "var"):
            param = self.compiler.fresh(pattern[2] if pattern[0] == "var" else "w")
            if pattern[0] == "var":
                inner[pattern[2]] = param
            return self.lambda_of([param], ("lam", pattern[1], rest, body) if rest else body, inner)
        param = self.compiler.fresh("p")
        kept = self.block()
        self.depth = 1
        self.match(pattern, param, inner, names_in(body, set()))
        self.tail(("lam", pattern[1], rest, body) if rest else body, inner)
        lines, (self.lines, self.depth) = self.lines, kept
        return self.hoisted([param], lines)

    def term_section(self, term, env):
        _, line, op, left, right = term
        param = "s_%d" % line
        inner = dict(env)
        name = self.compiler.fresh("s")
        inner[" section"] = name
        hole = ("var", line, " section")
        return self.lambda_of([name], ("app", line, ("var", line, op), [left or hole, right or hole]), inner)

    def term_implicit(self, term, env):
        self.fail(term[1], "an implicit argument stands alone")

    # ---- applications

    def term_app(self, term, env):
        head, args = term[2], explicit(term[3])
        if head[0] == "var" and head[2] in env and isinstance(env[head[2]], Local):
            local = env[head[2]]
            return self.apply(local.name, local.arity, args, env)
        found = self.head(head, env)
        if found is None:
            made = self.term(head, env)
            return made + "".join("(%s)" % self.term(arg, env) for arg in args)
        if isinstance(found, Native):
            return self.apply_native(found, args, env, term[1])
        if found.kind == "constructor":
            cls, name, count, single = self.compiler.class_of(found)
            if count == 0:
                return single
            return self.apply(name, count, args, env)
        made = self.compiler.function(found)
        if not made.arity and not made.presets:
            return "%s()%s" % (made.name, "".join("(%s)" % self.term(arg, env) for arg in args))
        presets = self.presets(found, made, env)
        if found is self.decl and self.walker and len(args) >= made.arity and len(presets) == len(made.presets):
            return self.step(made, args, env, presets)
        return self.apply(made.name, made.arity + len(made.presets) - len(presets), args, env, presets, made.waiting)

    def argument(self, term, env, may_wait):
        """An argument, as a Lazy where it is a call that may not be wanted."""
        if may_wait:
            if term[0] == "var" and isinstance(env.get(term[2]), Waiting):
                return env[term[2]].name
            if self.calls(term, env):
                return "Lazy(%s)" % self.delayed(term, env)
        return self.term(term, env)

    def calls(self, term, env):
        """Whether a definition is called in a term."""
        if not isinstance(term, (tuple, list)):
            return False
        if isinstance(term, tuple) and term and term[0] == "app":
            found = self.head(term[2], env) if term[2][0] in ("var", "proj") else None
            if found is None or (isinstance(found, Declaration) and found.kind == "fun") or (isinstance(found, Native) and found.name in LOOPS):
                return True
        if isinstance(term, tuple) and term and term[0] in ("elim", "let", "bind"):
            return True
        if isinstance(term, tuple) and term and term[0] == "lam":
            return False
        return any(self.calls(part, env) for part in term if isinstance(part, (tuple, list)))

    def step(self, made, args, env, presets):
        """A function that walks along a list calls itself further on."""
        given, places = [], []
        for i, arg in enumerate(args[:made.arity]):
            found = self.walk(arg, env) if i in self.walked else None
            given.append(found[0] if found else self.argument(arg, env, i in made.waiting))
            if i in self.walked:
                places.append(Suffix(*found).place if found else "0")
        call = "%s(%s)" % (self.walker, ", ".join(list(presets) + given + places))
        return call + "".join("(%s)" % self.term(arg, env) for arg in args[made.arity:])

    def presets(self, decl, made, env):
        """A sibling of one `module _` block is called at the block's own parameters."""
        if not made.presets or self.decl is None or self.decl.section is None:
            return []
        section, own = decl.section, self.decl.section
        while own is not None and own is not section:
            own = own.parent
        if own is None:
            return []
        return [env[name] for name in made.presets]

    def apply(self, name, arity, args, env, presets=(), waits=()):
        waits = waits if len(args) >= arity else ()
        given = [self.argument(arg, env, i in waits) for i, arg in enumerate(args)]
        if len(given) >= arity:
            made = "%s(%s)" % (name, ", ".join(list(presets) + given[:arity]))
            return made + "".join("(%s)" % each for each in given[arity:])
        if presets:
            params = [self.compiler.fresh("x") for _ in range(arity)]
            made = "curried(lambda %s: %s(%s), %d)" % (", ".join(params), name, ", ".join(list(presets) + params), arity)
        else:
            made = self.curry(name, arity)
        return made + "".join("(%s)" % each for each in given)

    def curry(self, name, arity):
        if arity == 1:
            return name
        return "curried(%s, %d)" % (name, arity)

    def apply_native(self, found, args, env, line):
        if found.path == "lib.Chars.codes" and len(args) == 1 and args[0][0] == "str":
            return self.compiler.constant(values.codes(args[0][2]), "codes")
        if found.name in ("◌∷◌", "◌++◌") and len(args) == 2:
            return self.chain(found, args, env)
        given = [self.term(arg, env) for arg in args]
        if len(given) < found.arity:
            return self.native_value(found) + "".join("(%s)" % each for each in given)
        made = found.template.format(*given[:found.arity])
        return made + "".join("(%s)" % each for each in given[found.arity:])

    def chain(self, found, args, env):
        """A list that is written out, or a row of lists, without a bracket for each."""
        if found.name == "◌++◌":
            parts = []
            while True:
                parts.insert(0, self.term(args[1], env))
                left = args[0]
                if left[0] != "app" or len(explicit(left[3])) != 2 or self.head(left[2], env) is not found:
                    break
                args = explicit(left[3])
            return "(%s)" % " + ".join([self.term(left, env)] + parts)
        items = []
        while True:
            items.append(self.term(args[0], env))
            rest = args[1]
            if rest[0] != "app" or len(explicit(rest[3])) != 2 or self.head(rest[2], env) is not found:
                break
            args = explicit(rest[3])
        whole = "(%s,)" % ", ".join(items)
        empty = self.head(rest, env) if rest[0] == "var" else None
        if isinstance(empty, Native) and empty.name == "[]":
            return whole
        return "(%s + %s)" % (whole, self.term(rest, env))

    def native_value(self, found):
        """A native as a function of one argument at a time."""
        if found not in self.compiler.curries:
            params = ["x%d" % i for i in range(found.arity)]
            if found.arity == 0:
                return found.template
            made = eval("".join("lambda %s: " % p for p in params) + found.template.format(*params), self.compiler.space)
            self.compiler.curries[found] = self.compiler.constant(made, "native")
        return self.compiler.curries[found]

    def value_of(self, found, env):
        if isinstance(found, Native):
            return self.native_value(found)
        if found.kind == "constructor":
            cls, name, count, single = self.compiler.class_of(found)
            return single if count == 0 else self.curry(name, count)
        made = self.compiler.function(found)
        if not made.arity and not made.presets:
            return made.name + "()"
        return self.apply(made.name, made.arity + len(made.presets) - len(self.presets(found, made, env or {})), [], env, self.presets(found, made, env or {}))
