"""What is known of definitions while they are compiled, and what their terms have."""

# The natives that go through a list with a function.
LOOPS = {"map", "filter", "list_any", "list_all", "flat_map", "sum_by", "count_by", "All", "Any"}


class Local:
    """A function of a `where` block."""

    def __init__(self, name, arity):
        self.name, self.arity = name, arity


class Suffix:
    """What is left of a list from a place on, in a function that walks along it: the list isn't cut at each step."""

    def __init__(self, whole, base, more=0):
        self.whole, self.base, self.more = whole, base, more

    def __str__(self):
        return "%s[%s:]" % (self.whole, self.place)

    @property
    def place(self):
        return "%s + %d" % (self.base, self.more) if self.more else self.base


class Waiting:
    """A parameter that not each clause reads: what is handed in may be a Lazy."""

    def __init__(self, name):
        self.name = name

    def __str__(self):
        return "(%s() if %s.__class__ is Lazy else %s)" % (self.name, self.name, self.name)


class Function:
    """What is known of a definition before it is compiled.

    walked: the parameters along which it walks; waiting: those that not each clause reads.
    """

    def __init__(self, name, arity, presets, walked=(), waiting=()):
        self.name, self.arity, self.presets, self.walked, self.waiting = name, arity, presets, walked, waiting
        self.error = None


class Clause:
    def __init__(self, line, patterns, body, helpers):
        self.line, self.patterns, self.body, self.helpers = line, patterns, body, helpers


def explicit(args):
    return [arg for arg in args if arg[0] != "implicit"]


def names_in(term, found):
    """All names in a term, also bound ones."""
    if isinstance(term, tuple):
        if term and term[0] == "var":
            found.add(term[2])
        for part in term:
            if isinstance(part, (tuple, list)):
                names_in(part, found)
    elif isinstance(term, list):
        for part in term:
            names_in(part, found)
    return found


def explicit_count(kind):
    """How many explicit arguments a type's function takes."""
    if kind is None:
        return 0
    if kind[0] == "arrow":
        return 1 + explicit_count(kind[3])
    if kind[0] == "bind" and kind[2] == "→":
        return sum(1 for _, _, is_implicit in kind[3] if not is_implicit) + explicit_count(kind[4])
    return 0
