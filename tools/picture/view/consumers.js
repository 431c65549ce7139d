// A consumer: how it stands from its start to its end, what it is shown and given.

const WAIT_STYLES = { [TURN]: "turn", [WRITER]: "writer", [HEAD]: "head", [BODY]: "body" };

function drawConsumer(p, g, it, y, h, labels) {
  if (!p.sees(it.started, it.over && it.over + 1)) return;
  const place = { y, h, middle: y + h / 2, labels };
  drawSpans(p, g, it, place);
  drawShown(p, g, it, place);
  drawGiven(p, g, it, place);
  if (labels) {
    for (const n of it.denied) if (p.sees(n, n + 1)) denialAt(p, g, p.middle(n), place.middle);
    if (it.detached) drawDetached(p, g, it, place);
  }
  drawFinish(p, g, it, place);
}

function drawSpans(p, g, it, place) {
  let done = -Infinity;
  for (let i = p.firstInSight(it.spans); i < it.spans.length && p.begins(it.spans[i][0]); i++) {
    const [from, to, state, whom] = it.spans[i], a = Math.max(-4, p.x(from)), b = Math.min(p.room + 4, p.end(to));
    if (b - a < 0.4 && a < done) continue;
    done = Math.max(done, a + 0.4);
    if (isWait(state)) drawWait(p, g, state, whom, a, Math.max(b - a, 0.8), place);
    else drawStanding(p, g, state, a, b, place.middle);
  }
}

// dots until it is polled; a line while it may go on, a dark one while it reads
function drawStanding(p, g, state, a, b, middle) {
  g.fillStyle = state === READING ? p.css.ink : p.css.wait;
  if (state === LINE) for (let x = a; x < b; x += 4) g.fillRect(x, middle - 0.5, 2, 1);
  else fillFaint(g, state === READING ? 0.55 : 1, a, middle - 1, Math.max(b - a, 0.8), 2);
}

function waitColor(p, state, whom) {
  return { [TURN]: p.css.wait, [WRITER]: p.css.writer }[state] || p.color(whom);
}

function drawWait(p, g, state, whom, a, w, { y, h, middle, labels }) {
  const color = waitColor(p, state, whom), top = y + (h > 16 ? 5 : 1), tall = h > 16 ? h - 10 : h - 2;
  g.fillStyle = p.patterns.get(g, WAIT_STYLES[state], color);
  g.fillRect(a, top, w, tall);
  if (w > 3) {
    g.strokeStyle = color;
    g.lineWidth = 1;
    g.setLineDash(state === HEAD ? [3, 2] : []);
    g.strokeRect(a + 0.5, top + 0.5, w - 1, tall - 1);
    g.setLineDash([]);
  }
  if (!labels) return;
  const short = (state === TURN || state === WRITER ? "C" : "X") + whom, long = `${WAIT_STYLES[state]} ${short}`;
  const said = [long, short].find(it => g.measureText(it).width < w - 6);
  if (!said) return;
  g.fillStyle = p.css.paper;
  fillFaint(g, 0.82, a + 3, middle - 6, g.measureText(said).width + 4, 12);
  textAt(g, said, a + 5, middle + 0.5, p.css.ink);
}

function drawShown(p, g, it, { y, h, middle, labels }) {
  if (!it.shown || !p.sees(it.shown[0], it.shown[0] + 1)) return;
  const a = p.x(it.shown[0]), w = p.tail(it.shown[0]) - a;
  g.fillStyle = p.css.ink;
  g.fillRect(a, y + 2, Math.min(2.5, Math.max(1, w)), h - 4);
  if (!labels || w <= 26) return;
  g.fillRect(a, y + 4, 26, h - 8);
  textAt(g, String(it.shown[3]), a + 4, middle + 0.5, p.css.paper);
}

function drawGiven(p, g, it, { y, h, middle, labels }) {
  let done = -Infinity;
  for (let i = p.firstInSight(it.data); i < it.data.length && p.begins(it.data[i][0]); i++) {
    const [n, x, , size, mode] = it.data[i], a = p.x(n), w = Math.max(1.6, p.tail(n) - a - 1);
    if (a < done - 1) continue;
    done = a + w;
    const color = p.color(x), said = bytesSaid(size);
    blockAt(p, g, a, y + 3, w, h - 6, color, mode);
    if (!labels || w <= 24) continue;
    const wide = g.measureText(said).width;
    if (wide >= w - 6) continue;
    if (mode === SHARED) { g.fillStyle = color; g.fillRect(a + 2, middle - 7, wide + 4, 14); }
    textAt(g, said, a + 4, middle + 0.5, mode === STORED ? p.css.ink : "#fff");
  }
}

// from where on it reads alone
function drawDetached(p, g, it, { y }) {
  if (!p.sees(it.detached, it.detached + 1)) return;
  const x = p.middle(it.detached);
  g.fillStyle = p.css.warn;
  fillPoints(g, [[x - 5, y + 1], [x + 5, y + 1], [x, y + 7]]);
}

function drawFinish(p, g, it, { middle, labels }) {
  const x = it.over ? p.middle(it.over) : p.room + 99;
  if (x < -20 || x > p.room + 20) return;
  finishAt(p, g, x, middle, it.how, labels);
  const said = { failed: it.cause, cancelled: "leaves" }[it.how];
  if (labels && said) textAt(g, said, x + 9, middle + 0.5, it.how === "failed" ? p.css.bad : p.css.warn);
}

// how many of a key's consumers are live, and wait, from left to right
function drawCrowd(p, g, key, y, h) {
  const width = Math.ceil(p.room), live = new Float32Array(width + 2), waits = new Float32Array(width + 2), failures = [];
  const put = (steps, from, to) => {
    const a = Math.max(0, Math.floor(from)), b = Math.min(width, Math.ceil(to));
    if (b > a) { steps[a]++; steps[b]--; }
  };
  for (const it of key.consumers) {
    if (!p.sees(it.started, it.over)) continue;
    put(live, p.x(it.started), p.end(it.over));
    if (it.how === "failed") failures.push(p.x(it.over));
    for (const [from, to, state] of it.spans) if (isWait(state)) put(waits, p.x(from), p.end(to));
  }
  const most = Math.max(1, ...summed(live));
  for (const [steps, color, alpha] of [[live, p.css.pick, 0.35], [waits, p.css.writer, 0.9]]) {
    g.fillStyle = color;
    summed(steps).forEach((n, x) => { if (n) fillFaint(g, alpha, x, y + h - n / most * h, 1, n / most * h); });
  }
  g.fillStyle = p.css.bad;
  for (const x of failures) g.fillRect(x, y, 1.5, 4);
  textAt(g, `up to ${most} at once`, 4, y + 6, p.css.soft, p.x(key.first) - 8);
}

function summed(steps) {
  let sum = 0;
  return Array.from(steps, step => sum += step);
}
