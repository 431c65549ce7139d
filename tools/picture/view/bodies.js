// A body over time: first byte below, last above; each piece from where it came on, at its place.

const MANY_CELLS = 400;

function drawBodies(p, g, row, y) {
  const reps = row.reps || [row.thing];
  for (const rep of reps) if (p.sees(rep.founded, rep.till && rep.till + 1)) drawBody(p, g, rep, row, y);
  row.marks = row.marks || reps.flatMap(markedOf).sort((a, b) => a[0] - b[0]);
  drawMarks(p, g, row.marks, y + 8);
}

// as far as it is known: what was lost is read on behind what is stored
function lengthOf(rep) {
  return rep.total || [...rep.cells, ...rep.reads].reduce((most, [, , to]) => Math.max(most, to), 1);
}

// [event, kind, words] of each mark
function markedOf(rep) {
  const readOn = kind => kind === "lost" && rep.detached !== null ? `lost, C${rep.detached} reads on` : kind;
  return rep.marks.map(([n, kind]) => [n, kind, readOn(kind)]);
}

function drawBody(p, g, rep, row, y) {
  const top = y + 15, tall = row.h - 20, total = lengthOf(rep);
  const box = { top, tall, a: Math.max(-4, p.x(rep.founded)), b: Math.min(p.room + 4, p.end(rep.till)) };
  box.place = at => top + tall - at / total * tall;
  g.fillStyle = p.css.body;
  g.fillRect(box.a, top, Math.max(1, box.b - box.a), tall);
  drawCells(p, g, rep, box);
  const gone = rep.gone ? Math.max(box.a, p.x(rep.gone[0])) : Infinity;
  g.fillStyle = p.css.paper;
  if (gone < box.b) fillFaint(g, 0.6, gone, top, box.b - gone, tall);
  g.strokeStyle = p.pick === "r" + rep.r ? p.css.pick : p.css.line;
  g.lineWidth = 1;
  g.strokeRect(box.a + 0.5, top - 0.5, Math.max(1, box.b - box.a - 1), tall + 1);
  drawReads(p, g, rep, box);
  if (row.reps) textAt(g, "R" + rep.r, box.a + 4, top + 7, p.css.ink, box.b - box.a - 8);
}

function drawCells(p, g, rep, { a, b, place }) {
  const { cells } = rep, many = cells.length > MANY_CELLS;
  for (let i = 0; i < cells.length && p.begins(cells[i][0]); i++) {
    let [n, from, to, x] = cells[i];
    const left = Math.max(a, p.x(n)), adjacent = cell => cell[3] === x && cell[1] === to && p.x(cell[0]) < left + 1;
    while (many && i + 1 < cells.length && adjacent(cells[i + 1])) to = cells[++i][2];
    g.fillStyle = p.color(x);
    if (b > left) fillFaint(g, 0.78, left, place(to), b - left, Math.max(0.7, place(from) - place(to)));
  }
}

function drawReads(p, g, rep, { place }) {
  const { reads } = rep, thin = p.unit < 4;
  let last = -Infinity, deep = 0;
  g.fillStyle = p.css.ink;
  for (let i = p.firstInSight(reads); i < reads.length && p.begins(reads[i][0]); i++) {
    const [n, from, to] = reads[i], x = p.middle(n);
    if (x - last < 1.2 && deep++ > 6) continue;
    if (x - last >= 1.2) { last = x; deep = 0; }
    fillFaint(g, thin ? 0.3 : 0.75, x - 1, place(to), thin ? 1 : 2, Math.max(1.5, place(from) - place(to)));
  }
}

function drawMarks(p, g, marks, y) {
  let last = -Infinity;
  marks.forEach(([n, kind, words], i) => {
    const beside = i > 0 && marks[i - 1][0] === n && p.unit > 8;
    const x = beside ? last + 12 : p.middle(n), next = marks[i + 1];
    if (!p.sees(n, n + 1) || x - last < 9 && !RARE_MARKS.includes(kind)) return;
    last = x;
    markAt(p, g, x, y, kind);
    const until = next ? p.middle(next[0]) + (next[0] === n ? 12 : 0) : Infinity;
    textAt(g, words, x + 7, y + 0.5, markColor(p, kind), Math.min(until - x - 14, Math.max(p.unit * 40, 110)));
  });
}
