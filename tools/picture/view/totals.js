// The numbers above the picture, and the tables of "Totals".

const MOST_KEYS = 500;

const savingName = saved => saved >= 0 ? "saved" : "in excess";
const savingSaid = (given, network) => given ? `${(100 * (given - network) / given).toFixed(0)} %` : "–";

function fillTiles(run) {
  const { totals, counts } = run, { tags, spans, given, network } = totals, saved = given - network;
  const tile = (value, name, kind = "") => {
    const made = element("li", "tile " + kind);
    made.append(element("b", "", value), element("span", "", name));
    return made;
  };
  const bad = n => n ? "bad" : "", failed = counts.failed || 0, denied = counts.denied || 0;
  byId("tiles").replaceChildren(barsOf(totals),
    tile(savingSaid(given, network), `${savingName(saved)} (${bytesSaid(Math.abs(saved))})`, saved > 0 ? "good" : ""),
    tile(number(tags.hit), tags.hit === 1 ? "hit" : "hits"), tile(number(tags.shared), "shared"),
    tile(number(tags.resumed + tags.stitched), "resumed, stitched"), tile(number(tags.validated), "validated"),
    tile(number(spans.turn + spans.busy), "waits for others"), tile(number(failed), "failed", bad(failed)),
    tile(number(tags.cancelled), "cancelled"), tile(number(denied), "denied", bad(denied)));
}

function barsOf({ network, given }) {
  const made = element("li", "tile bars"), most = Math.max(network, given, 1);
  for (const [n, color, name] of [[network, "var(--soft)", "over the network"], [given, "var(--pick)", "given"]]) {
    const bar = element("i"), part = element("u");
    part.style.cssText = `width:${100 * n / most}%;background:${color}`;
    bar.title = name;
    bar.append(part);
    made.append(bar);
  }
  made.append(element("span", "", `${bytesSaid(network)} came → ${bytesSaid(given)} given`));
  return made;
}

function fillTotals(run, go) {
  const tables = element("div", "tables");
  tables.append(bytesTable(run.totals), answersTable(run), exchangesTable(run), waitsTable(run), endsTable(run));
  const keys = [...run.keys].sort((a, b) => b.sums.given - a.sums.given).slice(0, MOST_KEYS);
  byId("totals").replaceChildren(tables, keysTable(run, keys, go));
  if (run.keys.length > MOST_KEYS) {
    byId("totals").append(element("p", "", `The ${MOST_KEYS} keys to which most was given, of ${number(run.keys.length)}.`));
  }
}

// the counts of which the name begins so, as rows
function countsOf(run, prefix) {
  return Object.entries(run.counts).filter(([name]) => name.startsWith(prefix))
    .map(([name, n]) => ["… " + name.slice(prefix.length), number(n)]);
}

const countOf = (run, name) => number(run.counts[name] || 0);

function bytesTable(totals) {
  const saved = totals.given - totals.network;
  const rows = [["came over the network", totals.network], ["given to consumers", totals.given],
    ["… own", totals["given own"]], ["… shared", totals["given shared"]], ["… stored before", totals["given stored"]],
    [savingName(saved), Math.abs(saved)], ["stored", totals.stored]];
  return tableOf(["bytes", ""], rows.map(([name, n]) => [name, number(n) + " B"]));
}

function answersTable(run) {
  const tags = Object.entries(run.totals.tags).filter(([, n]) => n).map(([name, n]) => [name, number(n)]);
  return tableOf(["answers", ""], [["consumers", number(run.totals.consumers)], ...tags,
    ["heads shown", countOf(run, "shown")], ...countsOf(run, "why ")]);
}

function exchangesTable(run) {
  return tableOf(["exchanges", ""], [["opened", countOf(run, "opens")], ...countsOf(run, "need "),
    ["pieces", countOf(run, "pieces")], ["asks", countOf(run, "asks")], ["closed", countOf(run, "closes")]]);
}

function waitsTable(run) {
  const names = { turn: "the turn", busy: "a writer", head: "a head", body: "bytes" };
  return tableOf(["waits for", "waits", "polls"], Object.entries(run.totals.spans)
    .map(([name, n]) => [names[name], number(n), countOf(run, "pending " + name)]));
}

function endsTable(run) {
  const denials = Object.entries(run.reasons).filter(([reason]) => run.counts["denied " + reason])
    .map(([reason, why]) => ["… " + why, countOf(run, "denied " + reason)]);
  return tableOf(["ends and store", ""], [["ended", countOf(run, "ended")], ["failed", countOf(run, "failed")],
    ...countsOf(run, "failed "), ["denied", countOf(run, "denied")], ...denials,
    ["founded", number(run.totals.representations)], ["lost", number(run.keys.reduce((n, key) => n + key.sums.lost, 0))],
    ...countsOf(run, "lost "), ["evicted", countOf(run, "evicted")], ["dooms", countOf(run, "dooms")]]);
}

const BYTE_SUMS = ["network", "given", "own", "shared", "stored"];

function keysTable(run, keys, go) {
  const rows = keys.map(key => {
    const name = button(key.name, () => go("k" + key.k, key.first));
    name.title = key.target;
    const sums = run.sums.map(sum => BYTE_SUMS.includes(sum) ? bytesSaid(key.sums[sum]) : number(key.sums[sum]));
    return [name, ...sums, savingSaid(key.sums.given, key.sums.network)];
  });
  return tableOf(["key", ...run.sums, "saved"], rows);
}
