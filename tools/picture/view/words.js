// Sentences: what is drawn, said.

function bytesSaid(n) {
  if (n === null || n === undefined) return "?";
  if (n < 10000) return n + " B";
  for (const unit of ["kB", "MB", "GB", "TB"]) {
    n /= 1000;
    if (n < 1000) return n.toFixed(n >= 100 ? 0 : 1) + " " + unit;
  }
  return n.toFixed(0) + " TB";
}

const number = n => n.toLocaleString("en");
const counted = (n, what) => `${number(n)} ${what}${n === 1 ? "" : "s"}`;

// some first items, said, and how many more there are
function some(items, most, say, between = ", ") {
  const said = items.slice(0, most).map(say).join(between);
  return said + (items.length > most ? `${between}and ${number(items.length - most)} more` : "");
}

const STATES = ["not polled yet", "waits behind C#, which has the turn", "waits for C#, which writes what it wants",
  "waits for the head of X#", "waits for bytes of X#", "may go on, and wasn't polled since", "reads"];
const isWait = state => state >= TURN && state <= BODY;

function stateSaid([from, to, state, whom, polls]) {
  const times = polls > 1 && isWait(state) ? `, polled ${polls} times` : "";
  return STATES[state].replace("#", whom) + ` (events ${from}–${to || "the end"}${times})`;
}

function rangeSaid(range) {
  return range ? `bytes=${range[0] ?? ""}-${range[1] ?? ""}` : "";
}

const needSaid = exchange => exchange.hole ? `hole ${exchange.hole[0]}–${exchange.hole[1]}` : exchange.need;
const MODES = ["its own", "shared", "stored before"];

function consumerSaid(run, it) {
  const till = it.over ? `to ${it.over}` : "to the end";
  const request = [it.method, rangeSaid(it.range)].filter(Boolean).join(" ");
  const words = [it.story, `${request} with load ${it.load}, events ${it.started} ${till}.`];
  if (it.shown) {
    const [n, r, why, status, lo, hi] = it.shown;
    words.push(`It is shown R${r} at event ${n}: ${status}, ${why}, bytes ${lo} to ${hi ?? "?"}.`);
  }
  if (it.parts.length) {
    words.push(`It is given ${some(it.parts, 12, ([x, lo, hi, mode]) => `${lo}–${hi} of X${x} (${MODES[mode]})`)}.`);
  }
  const waits = it.spans.filter(span => isWait(span[2]));
  if (waits.length) words.push(`It ${some(waits, 6, stateSaid, "; ")}.`);
  if (it.denied.length) words.push(`Denied: events ${some(it.denied, 8, String)}.`);
  return words;
}

const HOWS = { open: "it is open at the end", done: "all that it promised came", ended: "it ended", short: "it ended short",
  fault: "it broke", closed: "it was closed by the cache" };

function exchangeSaid(run, it) {
  const words = [`Opened at event ${it.opened} for C${it.c}: ${needSaid(it)}, ${it.method}.`,
    it.headed ? `Its head came at event ${it.headed}: ${it.status}, ${caseSaid(it)}.` : "No head of it came."];
  const promised = it.promise === null ? "" : ` of ${bytesSaid(it.promise)}`;
  const over = it.over ? ` at event ${it.over}` : "";
  words.push(`${bytesSaid(it.got)}${promised} came in ${counted(it.pieces.length, "piece")} from byte ${it.base} on; ` +
    `${HOWS[it.how]}${over}.`);
  if (it.denied.length) words.push(`Denied: events ${some(it.denied, 8, String)}.`);
  return words;
}

function caseSaid(it) {
  const unstored = it.lost ? `isn't stored: lost, ${it.lost[1]}` : "is not stored";
  return {
    DirectBad: "no usable length", DirectTaken: "goes past the store", TurnBad: "no usable length",
    Validated: `validates R${it.aim}`, NotValidated: `isn't about R${it.aim}`, TurnServerError: "a server error: not stored",
    FoundsWhole: `founds R${it.x}`, FoundsRange: `founds R${it.x} with a part`, PassesBy: unstored,
    FirstBad: "no usable length", FirstJoins: `joins R${it.joined}`, FirstServerError: "a server error: not stored",
    FirstChanged: `the origin has another body than R${it.aim}`, FirstReplaced: `replaces R${it.aim} by R${it.x}`,
    FirstPassesBy: unstored, LaterBad: "no usable length", LaterJoins: `joins R${it.joined}`,
    LaterChanged: `the origin has another body than R${it.aim}`,
  }[it.case];
}

function repSaid(run, it) {
  const gone = it.gone ? `gone at event ${it.gone[0]}: ${it.gone[1]}.` : "kept to the end.";
  const readers = new Set(it.reads.map(read => read[3]));
  return [`Founded at event ${it.founded} by X${it.r} (${it.status}): ` +
    `${bytesSaid(it.size)} of ${bytesSaid(it.total)} are stored, ${gone}`,
    `Events: ${some(it.marks, 10, ([n, kind, why]) => `${n} ${kind} (${why})`, "; ")}.`,
    `${counted(readers.size, "consumer")} read of it.` +
      (it.detached === null ? "" : ` C${it.detached} is the detached reader.`)];
}

function keySaid(run, key) {
  const sums = key.sums;
  return [`${counted(sums.consumers, "consumer")}, ${counted(sums.exchanges, "exchange")}, ` +
    `${counted(key.reps.length, "representation")}.`,
    `${bytesSaid(sums.network)} came over the network and ${bytesSaid(sums.given)} were given: ` +
      `${bytesSaid(sums.own)} own, ${bytesSaid(sums.shared)} shared, ${bytesSaid(sums.stored)} stored before.`,
    `${counted(sums.hit, "hit")}, ${sums.validated} validated, ${sums.failed} failed, ${sums.cancelled} cancelled, ` +
      `${counted(sums.denied, "event")} denied, ${counted(key.dooms.length, "doom")}.`];
}

const SAID = { k: keySaid, c: consumerSaid, x: exchangeSaid, r: repSaid };
const rowSaid = (run, row) => SAID[row.type](run, row.thing);

function titleOf(row) {
  const names = { c: "Consumer C", x: "Exchange X", r: "Representation R" };
  return row.type === "k" ? row.thing.target : names[row.type] + row.thing[row.type];
}

// a line with its bytes as how many they are
function brief(line) {
  return line.replace(/^(piece \d+|data \d+ \d+ \d+) ([0-9a-f]+)(… \((\d+) bytes\))?$/,
    (all, words, digits, cut, count) => `${words} (${count || digits.length / 2} B)`);
}

const cut = (text, most) => text.length > most ? text.slice(0, most) + "…" : text;
const textLine = (run, n) => brief(run.texts[n - 1].split("\n")[0]);
const actLines = (run, n) => run.said[n - 1].split("\n").filter(line => line && !line.startsWith("  "));
const denialSaid = (run, n) => run.reasons[run.said[n - 1].split(" ")[1]];

function eventSaid(run, n) {
  const acts = run.denied.has(n) ? `Denied: ${denialSaid(run, n)}` : actLines(run, n).map(brief).join("; ");
  return `Event ${n}, ${textLine(run, n)}. ${acts || "Nothing is done"}.`;
}
