"""Definitions that are not read but done in Python, by the path where they are declared.

A native has a number of explicit arguments and a Python expression with {0}, {1}, .. for them.
"""
from .values import codes


class Native:
    """kind: fun, constructor, special (its arguments aren't all computed), or type."""

    def __init__(self, path, arity, template, kind="fun"):
        self.path, self.arity, self.template, self.kind = path, arity, template, kind
        self.name = path.rsplit(".", 1)[-1]


TABLE = {}


def native(path, arity, template, kind="fun"):
    TABLE[path] = Native(path, arity, template, kind)


NAT, BOOL, LIST = "Prim.Native.Nat.", "mathlib.Core.Bool.", "mathlib.Core.List."
for name, arity, template in (
        ("◌+◌", 2, "({0} + {1})"), ("◌-◌", 2, "monus({0}, {1})"), ("◌*◌", 2, "({0} * {1})"), ("◌^◌", 2, "({0} ** {1})"),
        ("◌/◌", 2, "divided({0}, {1})"), ("◌%◌", 2, "remainder({0}, {1})"), ("pred", 1, "monus({0}, 1)"),
        ("min", 2, "min({0}, {1})"), ("max", 2, "max({0}, {1})"),
        ("◌≤◌", 2, "({0} <= {1})"), ("◌<◌", 2, "({0} < {1})")):
    native(NAT + name, arity, template)
native(NAT + "zero", 0, "0", "constructor")
native(NAT + "suc", 1, "({0} + 1)", "constructor")
native(NAT + "ℕ", 0, "ANY_NAT", "type")

for name in ("true", "false"):
    native(BOOL + name, 0, name.title(), "constructor")
native(BOOL + "Bool", 0, "ANY_BOOL", "type")
native(BOOL + "cond", 3, "({1} if {0} else {2})", "special")
native(BOOL + "◌&&◌", 2, "({0} and {1})", "special")
native(BOOL + "◌||◌", 2, "({0} or {1})", "special")
native(BOOL + "not", 1, "(not {0})")
native("Rattle.core.specs.Bool.if◌then◌else◌", 3, "({1} if {0} else {2})", "special")
native("Rattle.core.specs.Bool.◌==◌", 2, "({0} == {1})")
native("lib.Dec.eqb", 2, "({0} == {1})")
native("lib.Dec.ltb", 2, "({0} < {1})")
native("lib.Dec.leb", 2, "({0} <= {1})")
native("lib.Dec.T", 1, "{0}")

for base in (LIST, LIST + "Defs."):
    native(base + "List", 1, "ANY_LIST", "type")
    native(base + "[]", 0, "()", "constructor")
    native(base + "◌∷◌", 2, "({0},) + {1}", "constructor")
    native(base + "◌++◌", 2, "({0} + {1})")
    native(base + "map", 2, "tuple([{0}(x) for x in {1}])")
    native(base + "reverse", 1, "{0}[::-1]")
TABLE[LIST + "◌∷◌"].template = TABLE[LIST + "Defs.◌∷◌"].template = "(({0},) + {1})"

for name, arity, template in (
        ("length", 1, "len({0})"), ("take", 2, "{1}[:{0}]"), ("drop", 2, "{1}[{0}:]"), ("replicate", 2, "(({1},) * {0})"),
        ("get_or", 3, "get_or({0}, {1}, {2})"), ("set", 3, "set_at({0}, {1}, {2})")):
    native("lib.ListN." + name, arity, template)

SPEC_LIST = "Rattle.core.specs.List."
for name, arity, template in (
        ("slice_index", 2, "get_or({0}, {1}, 0)"), ("slice_range", 3, "{0}[{1}:{2}]"), ("filter", 2, "tuple([x for x in {1} if {0}(x)])"),
        ("list_any", 2, "any([{0}(x) for x in {1}])"), ("list_all", 2, "all([{0}(x) for x in {1}])"),
        ("flat_map", 2, "flat_map({0}, {1})"), ("concat", 1, "flat({0})"), ("sum_by", 2, "sum([{0}(x) for x in {1}])"),
        ("count_by", 2, "sum([1 for x in {1} if {0}(x)])"), ("All", 2, "all([{0}(x) for x in {1}])"),
        ("Any", 2, "any([{0}(x) for x in {1}])"), ("Contains", 2, "({1} in {0})")):
    native(SPEC_LIST + name, arity, template)

native("Rattle.core.specs.Str.bytes_eq", 2, "({0} == {1})")
native("lib.Chars.codes", 1, "codes({0})")
native("Rattle.core.specs.Fmt.decimal", 1, "decimal({0})")
native("Rattle.hex.specs.Hex.encode_lower", 1, "hex_lower({0})")
native("Rattle.core.specs.Option.ForSome", 2, "for_some({0}, {1})")

# Propositions that can be decided are truth values.
native("mathlib.Core.Path.◌≡◌", 2, "({0} == {1})")
native("mathlib.Core.Logic.◌≢◌", 2, "({0} != {1})")
native("mathlib.Core.Logic.◌⊎◌", 2, "({0} or {1})", "special")
native("mathlib.Core.Logic.◌↔◌", 2, "({0} == {1})")
native("Prim.¬◌", 1, "(not {0})")
native("Prim.⊥", 0, "False")
native("Prim.Unit", 0, "True")
native("Prim.tt", 0, "True", "constructor")


# ---- what the expressions call

def get_or(items, i, other):
    return items[i] if i < len(items) else other


def set_at(items, i, item):
    return items[:i] + (item,) + items[i + 1:] if i < len(items) else items


def flat_map(function, items):
    out = []
    for item in items:
        out.extend(function(item))
    return tuple(out)


def flat(items):
    out = []
    for item in items:
        out.extend(item)
    return tuple(out)


DECIMALS = [tuple(b"%d" % n) for n in range(1000)]


def decimal(n):
    return DECIMALS[n] if n < 1000 else tuple(b"%d" % n)


def hex_lower(items):
    return tuple(bytes(items).hex().encode())


def for_some(option, test):
    parts = option.args()
    return test(parts[0]) if parts else True


HELPERS = {"get_or": get_or, "set_at": set_at, "flat_map": flat_map, "flat": flat, "decimal": decimal, "hex_lower": hex_lower,
           "for_some": for_some, "codes": codes}
