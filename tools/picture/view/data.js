// The run: read from the page, and looked up by number.

// how a consumer stands, and how bytes that it is given came
const LINE = 0, TURN = 1, WRITER = 2, HEAD = 3, BODY = 4, READY = 5, READING = 6;
const OWN = 0, SHARED = 1, STORED = 2;
const KIND_NAMES = { s: "start", p: "poll", h: "head", b: "piece", e: "end", f: "fault", c: "cancel", d: "doom" };

async function loadRun() {
  const block = document.getElementById("data");
  let text = block.textContent;
  if (block.type === "text/plain") {
    const bytes = Uint8Array.from(atob(text), letter => letter.charCodeAt(0));
    const stream = new Blob([bytes]).stream().pipeThrough(new DecompressionStream("deflate"));
    text = await new Response(stream).text();
  }
  block.remove();
  return new Run(JSON.parse(text));
}

// the things of a table, with their values by name
function thingsOf(table) {
  return table.rows.map(row => Object.fromEntries(table.columns.map((name, i) => [name, row[i]])));
}

// the place of the last item whose value is at most n, and 0 where there is none
function lastAtMost(items, n, value) {
  let lo = 0, hi = items.length - 1;
  while (lo < hi) {
    const middle = (lo + hi + 1) >> 1;
    if (value(items[middle]) <= n) lo = middle; else hi = middle - 1;
  }
  return lo;
}

const first = item => item[0];

class Run {
  constructor(data) {
    for (const name of ["name", "notes", "tags", "sums", "reasons", "totals", "counts", "highlights", "kinds", "quiet",
      "texts", "said", "rows", "moments"]) this[name] = data[name];
    this.n = data.kinds.length;
    this.denied = new Set(data.denied);
    this.lines = new Int32Array(this.n + 1);
    data.lines.forEach((step, i) => { this.lines[i + 1] = this.lines[i] + step; });
    this.takeKeys(data.keys);
    this.reps = new Map(thingsOf(data.reps).map(rep => [rep.r, rep]));
    this.exchanges = new Map(thingsOf(data.exchanges).map(exchange => [exchange.x, exchange]));
    this.consumers = new Map(thingsOf(data.consumers).map(consumer => [consumer.c, consumer]));
    this.reps.forEach(rep => this.placeRep(rep));
    this.exchanges.forEach(exchange => this.placeExchange(exchange));
    this.consumers.forEach(consumer => this.placeConsumer(consumer));
    for (const key of this.keys) for (const n of [...key.dooms.map(first), ...key.denied]) this.widen(key, n, n);
    this.byRow = null;
  }
  takeKeys(table) {
    this.keys = thingsOf(table).map((key, k) =>
      ({ ...key, k, reps: [], consumers: [], exchanges: [], first: this.n + 1, last: 0 }));
    for (const key of this.keys) key.sums = Object.fromEntries(this.sums.map((name, i) => [name, key.sums[i]]));
    // the origin that most keys have isn't repeated
    const origins = new Map(), originOf = key => key.target.split("/").slice(0, 3).join("/");
    for (const key of this.keys) origins.set(originOf(key), (origins.get(originOf(key)) || 0) + 1);
    this.origin = [...origins].sort((a, b) => b[1] - a[1]).map(first)[0] || "";
    for (const key of this.keys) {
      key.name = originOf(key) === this.origin ? key.target.slice(this.origin.length) : key.target.replace(/^https?:../, "");
    }
  }
  placeRep(rep) {
    const behind = items => items.length ? items[items.length - 1][0] + 1 : 0;
    this.keys[rep.k].reps.push(rep);
    // those who are bound to it read and write on when it is gone
    rep.till = rep.gone ? Math.min(this.n, Math.max(rep.gone[0], behind(rep.cells), behind(rep.reads))) : null;
  }
  placeExchange(exchange) {
    exchange.color = this.keys[exchange.k].exchanges.length % PALETTE.length;
    this.keys[exchange.k].exchanges.push(exchange);
  }
  placeConsumer(consumer) {
    const key = this.keys[consumer.k];
    key.consumers.push(consumer);
    consumer.parts = stretchesOf(consumer.data);
    this.widen(key, consumer.started, consumer.over);
  }
  widen(key, from, to) {
    key.first = Math.min(key.first, from);
    key.last = Math.max(key.last, to || this.n);
  }
  momentOf(n) { return this.moments[lastAtMost(this.moments, n, first)][1]; }
  // a thing by the name of its row, as "c3"
  thing(id) {
    const number = +id.slice(1);
    if (id[0] === "k") return this.keys[number];
    return { c: this.consumers, x: this.exchanges, r: this.reps }[id[0]].get(number);
  }
  // the events of a row
  eventsOf(id) {
    if (!this.byRow) this.indexRows();
    return this.byRow.get(id) || [];
  }
  indexRows() {
    const byRow = this.byRow = new Map();
    this.rows.forEach((names, i) => {
      for (const name of names.split(" ")) {
        if (!byRow.has(name)) byRow.set(name, []);
        byRow.get(name).push(i + 1);
      }
    });
    for (const key of this.keys) {
      const names = [...key.consumers.map(it => "c" + it.c), ...key.exchanges.map(it => "x" + it.x),
        ...key.reps.map(it => "r" + it.r), "k" + key.k];
      byRow.set("k" + key.k, [...new Set(names.flatMap(name => byRow.get(name) || []))].sort((a, b) => a - b));
    }
  }
  // how long the body is that a consumer reads, as far as that is known
  bodyOf(consumer) {
    const rep = consumer.shown && this.reps.get(consumer.shown[1]);
    const given = consumer.parts.reduce((most, part) => Math.max(most, part[2]), 0);
    return Math.max(rep && rep.total || 0, consumer.shown && consumer.shown[5] || 0, given);
  }
}

// [exchange, from, to, how it came], of what is adjacent made one
function stretchesOf(data) {
  const out = [];
  for (const [, x, at, size, mode] of data) {
    const last = out[out.length - 1];
    if (last && last[0] === x && last[2] === at && last[3] === mode) last[2] = at + size;
    else out.push([x, at, at + size, mode]);
  }
  return out;
}
