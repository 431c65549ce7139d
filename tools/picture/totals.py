"""Numbers of the whole run and of each key."""
from fates import TAGS
from things import BODY, HEAD, TURN, WRITER

WAIT_NAMES = {TURN: "turn", WRITER: "busy", HEAD: "head", BODY: "body"}
MODES = ("own", "shared", "stored")  # bytes
FATES = ("hit", "validated", "failed", "cancelled")  # consumers
COLUMNS = ("consumers", "exchanges", "network", "given", *MODES, "waits", *FATES, "denied", "lost", "evicted")


def by_key(model):
    """For each target its numbers by column."""
    rows = {target: dict.fromkeys(COLUMNS, 0) for target in model.keys}
    for key in model.keys.values():
        rows[key.target]["denied"] = len(key.denied)
    for consumer in model.consumers.values():
        add_consumer(rows[consumer.key], consumer)
    for exchange in model.exchanges.values():
        rows[exchange.key]["exchanges"] += 1
        rows[exchange.key]["network"] += exchange.got
        rows[exchange.key]["lost"] += exchange.lost is not None
    for rep in model.reps.values():
        rows[rep.key]["lost"] += rep.lost is not None
        rows[rep.key]["evicted"] += any(kind == "evicted" for _, kind, _ in rep.marks)
    return rows


def add_consumer(row, consumer):
    row["consumers"] += 1
    for tag in set(FATES) & set(consumer.tags):
        row[tag] += 1
    for _, _, _, size, mode in consumer.data:
        row["given"] += size
        row[MODES[mode]] += size
    row["waits"] += sum(span[2] in WAIT_NAMES for span in consumer.spans)


def totals(model):
    count = model.counts.get
    spans, tags = dict.fromkeys(WAIT_NAMES.values(), 0), dict.fromkeys(TAGS, 0)
    for consumer in model.consumers.values():
        for tag in consumer.tags:
            tags[tag] += 1
        for span in consumer.spans:
            if span[2] in WAIT_NAMES:
                spans[WAIT_NAMES[span[2]]] += 1
    return {
        "events": len(model.events), "keys": len(model.keys), "consumers": len(model.consumers),
        "exchanges": len(model.exchanges), "representations": len(model.reps), "tags": tags, "spans": spans,
        "seconds": model.events[-1].now - model.events[0].now if model.events else 0,
        "network": count("network", 0), "given": count("given", 0), "stored": count("stored", 0),
        **{f"given {mode}": count(f"given {mode}", 0) for mode in MODES},
    }
