"""The run in a few lines for a terminal."""
from fates import TAGS, size

MOST_CONSUMERS = 8
MOST_HIGHLIGHTS = 10


def counted(n, what):
    return f"{n:,} {what}{'' if n == 1 else 's'}"


def listed(pairs):
    return ", ".join(f"{n:,} {name}" for name, n in pairs if n) or "none"


def saving(network, given):
    part = f" ({100 * abs(given - network) / given:.1f} % of what was given)" if given else ""
    return f"{size(abs(given - network))} {'saved' if given >= network else 'in excess'}{part}"


def starting(counts, prefix):
    return [(name.removeprefix(prefix), n) for name, n in sorted(counts.items()) if name.startswith(prefix)]


def text(name, run):
    totals, counts = run.totals, run.model.counts
    count = counts.get
    head = [f"{name}: {counted(totals['events'], 'event')} in {totals['seconds']:,} s, {counted(totals['keys'], 'key')}, "
            f"{counted(totals['consumers'], 'consumer')}, {counted(totals['exchanges'], 'exchange')}"]
    network, given = totals["network"], totals["given"]
    rows = [
        ("bytes", f"{size(network)} came, {size(given)} were given: {saving(network, given)}"),
        ("given", f"{size(totals['given own'])} own, {size(totals['given shared'])} shared, "
                  f"{size(totals['given stored'])} stored before"),
        ("answers", listed((tag, totals["tags"][tag]) for tag in TAGS)),
        ("opened", listed(starting(counts, "need "))),
        ("waits", listed((f"for the {name}", n) for name, n in
                         zip(("turn", "writer", "head", "body"), totals["spans"].values()))),
        ("failures", listed(starting(counts, "failed ")) + f"; {counted(count('denied', 0), 'event')} denied"),
        ("store", f"{totals['representations']:,} founded, {sum(n for _, n in starting(counts, 'lost ')):,} lost, "
                  f"{count('evicted', 0):,} evicted, {counted(count('dooms', 0), 'doom')}"),
    ]
    lines = head + [f"  {title:<9}{said}" for title, said in rows] + stories(run) + worth_a_look(run)
    return "\n".join(lines + [f"  note     {note}" for note in run.notes])


def stories(run):
    consumers = list(run.model.consumers.values())
    return [f"  C{it.c:<8}{it.story}" for it in consumers] if len(consumers) <= MOST_CONSUMERS else []


def worth_a_look(run):
    lines = [f"    {kind:<18} event {n:<7,} {words}" for kind, words, _, n in run.highlights[:MOST_HIGHLIGHTS]]
    left = len(run.highlights) - len(lines)
    return (["  worth a look"] if lines else []) + lines + ([f"    and {left} more kinds on the page"] if left else [])
