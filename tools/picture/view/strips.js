// The column "body": the intervals of a body, from its first byte to its last, in the colours of who brought them.

function drawStrip(p, g, row, y) {
  const width = layout.strip - 20, box = { x: 8, w: width, ...stripPlace(row, y) };
  if (row.type === "k") return drawSums(p, g, row.thing.sums, box);
  const body = { c: stripOfConsumer, x: stripOfExchange, r: stripOfBody }[row.type](p, row);
  if (body.total) drawIntervals(p, g, body, box, row.type);
}

function stripPlace(row, y) {
  if (row.type === "r") return { y: y + 15, h: row.h - 20 };
  return row.type === "k" ? { y: y + row.h / 2 - 4, h: 8 } : { y: y + 5, h: row.h - 10 };
}

// what was given of a key: own, shared and stored before; the stroke is what came over the network
function drawSums(p, g, sums, box) {
  const most = Math.max(sums.given, sums.network);
  if (!most) return;
  let x = box.x;
  for (const [n, alpha] of [[sums.own, 1], [sums.shared, 0.6], [sums.stored, 0.28]]) {
    g.fillStyle = p.css.pick;
    fillFaint(g, alpha, x, box.y, n / most * box.w, box.h);
    x += n / most * box.w;
  }
  g.fillStyle = p.css.ink;
  g.fillRect(box.x + sums.network / most * box.w - 1, box.y - 3, 2, box.h + 6);
}

function stripOfConsumer(p, row) {
  const it = row.thing, total = p.run.bodyOf(it), [lo, hi] = it.shown ? it.shown.slice(4) : [0, 0];
  return { total, lo, hi: hi ?? total, parts: it.parts };
}

function stripOfExchange(p, row) {
  const it = row.thing, rep = p.run.reps.get(it.joined ?? it.x), hi = it.base + (it.promise ?? it.got);
  const parts = it.got ? [[it.x, it.base, it.base + it.got, OWN]] : [];
  return { total: Math.max(rep && rep.total || 0, hi), lo: it.base, hi, parts };
}

function stripOfBody(p, row) {
  const picked = row.reps && row.reps.find(rep => "r" + rep.r === p.pick);
  const rep = picked || p.rows.subjectAt(row, p.scale.eventAt(p.scale.hi)).thing;
  const total = rep.total || rep.cells.reduce((most, cell) => Math.max(most, cell[2]), 0);
  if (!rep.parts) {
    const cells = [...rep.cells].sort((a, b) => a[1] - b[1]);
    rep.parts = stretchesOf(cells.map(([n, from, to, x]) => [n, x, from, to - from, OWN]));
  }
  return { total, lo: 0, hi: total, parts: rep.parts };
}

function drawIntervals(p, g, { total, lo, hi, parts }, box, type) {
  const at = place => box.x + place / total * box.w, wide = (from, to) => Math.max(1, at(to) - at(from));
  g.fillStyle = p.css.faint;
  if (type !== "x") g.fillRect(box.x, box.y + box.h / 2 - 1, box.w, 2);
  g.fillStyle = p.css.body;
  g.fillRect(at(lo), box.y, wide(lo, hi), box.h);
  let done = -1;
  for (const [x, from, to, mode] of parts) {
    if (at(to) < done + 0.3) continue;
    blockAt(p, g, at(from), box.y, wide(from, to), box.h, p.color(x), mode);
    done = at(to);
  }
  g.strokeStyle = p.css.soft;
  g.lineWidth = 1;
  g.strokeRect(at(lo) + 0.5, box.y + 0.5, Math.max(1, at(hi) - at(lo) - 1), box.h - 1);
}
