// An exchange: from its opening to its head, its pieces, its end.

function drawExchange(p, g, it, y, h, labels) {
  if (!p.begins(it.opened) || !labels && !p.sees(it.opened, it.over && it.over + 1)) return;
  const place = { y, h, top: y + (labels ? 3 : 0), tall: labels ? h - 6 : h, middle: y + h / 2, color: PALETTE[it.color] };
  drawBeforeHead(p, g, it, place, labels);
  drawBehindHead(p, g, it, place, labels);
  drawPieces(p, g, it, place, labels);
  if (!labels) return;
  g.fillStyle = place.color;
  for (const n of it.asks) if (p.sees(n, n + 1)) g.fillRect(p.middle(n) - 1, place.top + place.tall - 1, 2, 4);
  drawStatus(p, g, it, place);
  if (it.over) breakAt(p, g, p.middle(it.over), place.middle, it.how);
  for (const n of it.denied) if (p.sees(n, n + 1)) denialAt(p, g, p.middle(n), place.middle);
  if (it.lost && p.sees(it.lost[0], it.lost[0] + 1)) markAt(p, g, p.middle(it.lost[0]), place.middle, "lost");
  drawOutcome(p, g, it, place);
}

function drawBeforeHead(p, g, it, { top, tall, color }, labels) {
  const a = Math.max(-4, p.x(it.opened)), b = Math.min(p.room + 4, p.end(it.headed || it.over));
  if (b <= a) return;
  g.fillStyle = p.patterns.get(g, "head", color);
  g.fillRect(a, top, b - a, tall);
  if (!labels) return;
  g.strokeStyle = color;
  g.lineWidth = 1;
  g.setLineDash([3, 2]);
  g.strokeRect(a + 0.5, top + 0.5, b - a - 1, tall - 1);
  g.setLineDash([]);
}

function drawBehindHead(p, g, it, { top, tall, color }, labels) {
  if (!it.headed) return;
  const a = Math.max(-4, p.x(it.headed)), b = Math.min(p.room + 4, p.end(it.over)), thin = labels ? 0 : tall / 2 - 1;
  if (b <= a) return;
  g.fillStyle = g.strokeStyle = color;
  fillFaint(g, labels ? 0.2 : 0.5, a, top + thin, b - a, tall - 2 * thin);
  g.lineWidth = 1;
  if (labels) g.strokeRect(a + 0.5, top + 0.5, b - a - 1, tall - 1);
}

function drawPieces(p, g, it, { top, tall, middle, color }, labels) {
  let done = -Infinity;
  for (let i = p.firstInSight(it.pieces); i < it.pieces.length && p.begins(it.pieces[i][0]); i++) {
    const [n, , size] = it.pieces[i], a = p.x(n), w = Math.max(1.6, p.tail(n) - a - 1);
    if (a < done - 1) continue;
    done = a + w;
    g.fillStyle = color;
    g.fillRect(a, top, w, tall);
    if (labels && w > 30) textAt(g, bytesSaid(size), a + 4, middle + 0.5, "#fff", w - 6);
  }
}

function drawStatus(p, g, it, { top, tall, middle, color }) {
  if (!it.headed || !p.sees(it.headed, it.headed + 1)) return;
  const a = p.x(it.headed), w = p.tail(it.headed) - a;
  g.fillStyle = it.status >= 400 ? p.css.bad : color;
  g.fillRect(a, top - 1, Math.min(2.5, Math.max(1, w)), tall + 2);
  if (w <= 26) return;
  g.fillRect(a, top - 1, 26, tall + 2);
  textAt(g, String(it.status), a + 3, middle + 0.5, "#fff");
}

// behind its end: what its head was to the store, and how it ended
function drawOutcome(p, g, it, { middle }) {
  const after = (it.over ? Math.max(p.tail(it.over), p.x(it.over)) : p.end(null)) + 6;
  if (after < -200 || after > p.room) return;
  const how = { fault: "broke", short: "ended short", closed: "closed" }[it.how];
  const said = [it.headed ? `${it.status} ${caseSaid(it)}` : "no head", how].filter(Boolean).join(", ");
  textAt(g, said, after, middle + 0.5, how && it.how !== "closed" ? p.css.bad : p.css.soft);
}
