"""The page: the run as data and the files of the view, all in one text."""
import base64
import html
import json
import pathlib
import re
import zlib

from fates import TAGS
from grammar import shown
from highlights import REASONS
from totals import COLUMNS

VIEW = pathlib.Path(__file__).resolve().parent / "view"
SCRIPTS = ("data.js", "words.js", "elements.js", "scale.js", "rows.js", "signs.js", "ground.js", "strips.js", "consumers.js",
           "exchanges.js", "bodies.js", "keys.js", "painter.js", "names.js", "legend.js", "lists.js", "totals.js", "view.js",
           "pointer.js", "keyboard.js", "tools.js", "print.js", "main.js")
PLAIN = 400_000  # a longer text of data is deflated
LETTERS = {"start": "s", "poll": "p", "head": "h", "piece": "b", "end": "e", "fault": "f", "cancel": "c", "doom": "d"}


def moments(events):
    """[first event, moment] of each moment."""
    found = []
    for event in events:
        if not found or found[-1][1] != event.now:
            found.append([event.n, event.now])
    return found


def steps(numbers):
    """Numbers as the steps between them, which are short."""
    return [number - before for number, before in zip(numbers, [0, *numbers])]


def table(columns, rows):
    """Things as lists of values, and the names of the values once."""
    return {"columns": columns.split(), "rows": rows}


def keys_of(run):
    rows = [[shown(key.target), key.dooms, key.denied, [run.by_key[key.target][it] for it in COLUMNS]]
            for key in run.model.keys.values()]
    return table("target dooms denied sums", rows)


def reps_of(model, number):
    rows = [[it.r, number[it.key], it.founded, it.status, it.total, it.gone, it.lost, it.detached, it.size, it.cells,
             it.marks, it.reads] for it in model.reps.values()]
    return table("r k founded status total gone lost detached size cells marks reads", rows)


def exchanges_of(model, number):
    rows = [[it.x, it.c, number[it.key], it.need, it.hole, it.method, it.opened, it.headed, it.status, it.over, it.how,
             it.case, it.aim, it.joined, it.base, it.promise, it.got, it.pieces, it.asks, it.denied, it.lost]
            for it in model.exchanges.values()]
    return table("x c k need hole method opened headed status over how case aim joined base promise got pieces asks denied "
                 "lost", rows)


def consumers_of(model, number):
    rows = [[it.c, number[it.key], it.method, it.load, it.range, it.started, it.over, it.how, it.cause, it.spans, it.shown,
             it.data, it.exchanges, it.denied, it.polls, it.detached, it.words, it.tags, it.story]
            for it in model.consumers.values()]
    return table("c k method load range started over how cause spans shown data exchanges denied polls detached words tags "
                 "story", rows)


def data_of(name, run):
    model = run.model
    number = {target: key.k for target, key in model.keys.items()}
    return {
        "name": name, "notes": run.notes, "tags": TAGS, "sums": COLUMNS, "reasons": REASONS, "totals": run.totals,
        "counts": model.counts, "highlights": run.highlights,
        "kinds": "".join(LETTERS[event.kind] for event in model.events),
        "quiet": "".join("01"[is_quiet] for is_quiet in model.quiet),
        "denied": [event.n for event in model.events if event.is_denied],
        "lines": steps([event.line for event in model.events]), "moments": moments(model.events),
        "texts": [event.text for event in model.events], "said": [event.said for event in model.events],
        "rows": model.rows_of, "keys": keys_of(run), "reps": reps_of(model, number),
        "exchanges": exchanges_of(model, number), "consumers": consumers_of(model, number),
    }


def block_of(data):
    """The element that carries the data: plain where that is short. No text of it can end the element."""
    text = json.dumps(data, ensure_ascii=False, separators=(",", ":"))
    if len(text) > PLAIN:
        packed = base64.b64encode(zlib.compress(text.encode())).decode()
        return f'<script type="text/plain" id="data">{packed}</script>'
    text = text.replace("<", "\\u003c").replace("\u2028", "\\u2028").replace("\u2029", "\\u2029")
    return f'<script type="application/json" id="data">{text}</script>'


def data_in(page):
    """The data that a page carries."""
    kind, text = re.search(r'<script type="([a-z/]+)" id="data">(.*?)</script>', page, re.S).groups()
    return json.loads(zlib.decompress(base64.b64decode(text)) if kind == "text/plain" else text)


def page(name, data):
    scripts = "\n".join((VIEW / it).read_text() for it in SCRIPTS)
    parts = {"TITLE": html.escape(name), "STYLE": (VIEW / "page.css").read_text(), "DATA": block_of(data),
             "SCRIPT": f'"use strict";\n{scripts}'}
    pieces = (VIEW / "page.html").read_text().split("@@")
    return "".join(parts[piece] if at % 2 else piece for at, piece in enumerate(pieces))
