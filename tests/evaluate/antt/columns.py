"""Tables of which a column is a function on numbers, so that each column is computed once at each number."""
from .values import Data, Record


class Table:
    """A function on numbers that keeps what it gave.

    It gives what the function gives, since a function of the logic gives the same at every call. `settle` computes it at each number
    at which it was ever asked, so that the table after it doesn't go back to the first one.
    """
    __slots__ = ("function", "known", "asked")

    def __init__(self, function, asked):
        self.function, self.known, self.asked = function, {}, asked

    def __call__(self, n):
        known = self.known
        if n in known:
            return known[n]
        value = known[n] = with_tables(self.function(n))
        self.asked.add(n)
        return value

    def settle(self):
        for n in list(self.asked):
            self(n)


FUNCTIONS = {}      # of each class of records, the fields that are functions


def with_tables(row):
    """A row, or Some of one, whose own functions keep what they gave: a map from positions, that grows by a layer at each change."""
    if isinstance(row, Data) and len(row._fields) == 1:
        inner = with_tables(row._0)
        return row if inner is row._0 else row.__class__(inner)
    if not isinstance(row, Record):
        return row
    names = FUNCTIONS.get(row.__class__)
    if names is None:
        names = FUNCTIONS[row.__class__] = [name for name in row._fields if callable(getattr(row, name))]
    changed = {name: Table(getattr(row, name), set()) for name in names if not isinstance(getattr(row, name), Table)}
    return row.with_fields(**changed) if changed else row


def kept(tables, asked):
    """The same tables, with each function on numbers as a Table. `asked` has at which numbers each was asked so far."""
    columns = {}
    for name in tables._fields:
        column = getattr(tables, name)
        if callable(column) and not isinstance(column, (Record, Table)):
            columns[name] = Table(column, asked.setdefault(name, set()))
    tables = tables.with_fields(**columns) if columns else tables
    for column in columns.values():
        column.settle()
    return tables
