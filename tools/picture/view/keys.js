// A key: a heading where it is unfolded; folded, all of it in one row.

const MOST_LANES = 3;

// consumers that share a line, one after another, or null where there would be too many lines
function linesOf(consumers, n) {
  const lines = [];
  for (const it of consumers) {
    const line = lines.find(found => (found[found.length - 1].over || n) < it.started);
    if (line) line.push(it);
    else if (lines.length === MOST_LANES) return null;
    else lines.push([it]);
  }
  return lines;
}

function drawKey(p, g, row, y) {
  const key = row.thing;
  g.fillStyle = p.css.sheet;
  g.fillRect(0, y, p.room, row.h);
  g.fillStyle = p.css.line;
  g.fillRect(0, y, p.room, 1);
  g.fillRect(0, y + row.h - 1, p.room, 1);
  if (!row.open) drawFolded(p, g, key, y);
  for (const [n] of key.dooms) if (p.sees(n, n + 1)) markAt(p, g, p.middle(n), y + (row.open ? 13 : 18), "doomed");
  for (const n of key.denied) if (p.sees(n, n + 1)) denialAt(p, g, p.middle(n), y + (row.open ? 13 : 28));
}

// its exchanges above, its bodies as a line, its consumers below
function drawFolded(p, g, key, y) {
  g.fillStyle = p.css.line;
  for (const rep of key.reps) {
    if (!p.sees(rep.founded, rep.gone && rep.gone[0])) continue;
    const a = Math.max(-4, p.x(rep.founded));
    g.fillRect(a, y + 16.5, Math.max(1, p.end(rep.gone && rep.gone[0]) - a), 3);
  }
  for (const it of key.exchanges) drawExchange(p, g, it, y + 4, 10, false);
  if (key.lines === undefined) key.lines = linesOf(key.consumers, p.run.n);
  if (key.lines) {
    const h = 12 / key.lines.length;
    key.lines.forEach((line, i) => { for (const it of line) drawConsumer(p, g, it, y + 21 + i * h, h, false); });
  } else drawCrowd(p, g, key, y + 20, 14);
  for (const [n, kind] of key.reps.flatMap(rep => rep.marks)) {
    if (RARE_MARKS.includes(kind) && p.sees(n, n + 1)) markAt(p, g, p.middle(n), y + 18, kind);
  }
}
