"""What a page shows, as sentences, read out of the data that it carries.

C, X and R are a consumer, an exchange and a representation; K is a key, numbered from 0 in the order of appearance.
"""
TURN, BODY = 1, 4
WAITS = ("", "the turn of C", "the writer C", "the head of X", "the body of X")
CAME = ("own", "shared", "stored before")


def things(table):
    return [dict(zip(table["columns"], row)) for row in table["rows"]]


def of_consumer(it):
    name = f"C{it['c']}"
    yield from (f"{name} is {tag}" for tag in it["tags"])
    yield f"{name} is {it['how']}" + (f" {it['cause']}" if it["cause"] else "")
    for from_, to, state, whom, _ in it["spans"]:
        if TURN <= state <= BODY:
            yield f"{name} waits for {WAITS[state]}{whom} from {from_} to {to or 'the end'}"
    for x, lo, hi, mode in stretches(it["data"]):
        yield f"{name} is given {lo}-{hi} of X{x}, {CAME[mode]}"
    yield from (f"{name} is denied at {n}" for n in it["denied"])
    yield f"{name}: {it['story']}"


def stretches(data):
    found = []
    for _, x, at, size, mode in data:
        if found and found[-1][0] == x and found[-1][2] == at:
            found[-1][2] = at + size
        else:
            found.append([x, at, at + size, mode])
    return found


def of_exchange(it):
    name = f"X{it['x']}"
    yield f"{name} is opened for C{it['c']}: {it['need']}" + (f" {it['hole'][0]}-{it['hole'][1]}" if it["hole"] else "")
    yield f"{name} is {it['how']} with {it['got']} bytes"
    if it["joined"] is not None:
        yield f"{name} joins R{it['joined']}"
    if it["lost"]:
        yield f"{name} founds nothing: {it['lost'][1]}"
    yield from (f"{name} is denied at {n}" for n in it["denied"])


def of_rep(it):
    name = f"R{it['r']}"
    yield from (f"{name} is {kind} at {n}" for n, kind, _ in it["marks"])
    yield from (f"{name} stores {lo}-{hi} of X{x}" for _, lo, hi, x in it["cells"])
    if it["detached"] is not None:
        yield f"{name} is read on by C{it['detached']}"


def of_key(k, it):
    yield f"K{k} is {it['target']}"
    yield from (f"K{k} is doomed at {n}: {why}" for n, why in it["dooms"])
    yield from (f"K{k} has a denial at {n}" for n in it["denied"])


def of_page(data):
    """All sentences of a page."""
    facts = {f"note: {note}" for note in data["notes"]}
    for name, say in (("consumers", of_consumer), ("exchanges", of_exchange), ("reps", of_rep)):
        for thing in things(data[name]):
            facts.update(say(thing))
    for k, key in enumerate(things(data["keys"])):
        facts.update(of_key(k, key))
    facts.update(f"worth a look: {kind}" for kind, _, _, _ in data["highlights"])
    return facts


def numbers(data):
    """The numbers of a page by the names that the count of the texts has."""
    counts, totals = dict(data["counts"]), data["totals"]
    names = {"opens": "open", "asks": "ask", "closes": "close"}
    found = {names.get(name, name): n for name, n in counts.items() if name not in ("stored", "dooms")}
    found.update({name: totals[name] for name in ("events", "consumers", "network", "given", "given own")})
    found["lost"] = sum(n for name, n in counts.items() if name.startswith("lost "))
    for name in ("data", "pending"):
        found[name] = sum(n for kind, n in counts.items() if kind.startswith(f"{name} "))
    found["data"] = sum(len(it["data"]) for it in things(data["consumers"]))
    for it in things(data["consumers"]):
        found[f"given to C{it['c']}"] = sum(part[3] for part in it["data"])
    found.pop("given shared", None)
    found.pop("given stored", None)
    return {name: n for name, n in found.items() if n}
