// What stands above the rows: the whole run with the part in sight, and the axis; and the bands behind the rows.

const STACKED = "pshbecdf";  // the kinds of events in a bar, from below
const STEPS = [1, 2, 5].flatMap(n => [1, 10, 100, 1000, 10000, 100000].map(ten => n * ten)).sort((a, b) => a - b);

// THE WHOLE RUN

function countBins(p, bins) {
  const made = Array.from({ length: bins }, () => ({ all: 0, denied: 0 }));
  for (let n = 1; n <= p.run.n; n++) {
    const bin = made[Math.min(bins - 1, Math.floor(p.scale.pos[n] / p.scale.end * bins))], kind = p.run.kinds[n - 1];
    bin[kind] = (bin[kind] || 0) + 1;
    bin.all++;
    if (p.run.denied.has(n)) bin.denied++;
  }
  return made;
}

function drawOverview(p, canvas) {
  const width = canvas.clientWidth, height = canvas.clientHeight, g = drawingOn(canvas, width, height);
  const bins = Math.max(1, Math.floor(width / 3)), name = p.scale.kind + bins;
  if (p.binned !== name) {
    p.binned = name;
    p.bins = countBins(p, bins);
  }
  const most = p.bins.reduce((sum, bin) => Math.max(sum, bin.all), 1), w = width / bins;
  p.bins.forEach((bin, i) => {
    let y = height;
    for (const kind of STACKED) {
      if (!bin[kind]) continue;
      const h = Math.max(0.6, bin[kind] / most * (height - 6));
      g.fillStyle = KIND_COLORS[kind];
      fillFaint(g, kind === "p" ? 0.5 : 0.95, i * w, y - h, Math.max(1, w - 0.5), h);
      y -= h;
    }
    g.fillStyle = p.css.bad;
    if (bin.denied) g.fillRect(i * w, 1.5, Math.max(2, w - 0.5), 4);
  });
  drawWindow(p, g, width, height);
}

function drawWindow(p, g, width, height) {
  const { scale, css } = p, lo = scale.lo / scale.end * width, hi = scale.hi / scale.end * width;
  g.fillStyle = css.paper;
  fillFaint(g, 0.65, 0, 0, Math.max(0, lo), height);
  fillFaint(g, 0.65, hi, 0, Math.max(0, width - hi), height);
  g.strokeStyle = g.fillStyle = css.pick;
  g.lineWidth = 1.5;
  g.strokeRect(Math.max(0.75, lo), 0.75, Math.min(width - 1.5, hi - Math.max(0, lo)), height - 1.5);
  if (p.event) g.fillRect(scale.pos[p.event] / scale.end * width - 0.5, 0, 1.5, height);
}

// THE AXIS: moments above, events below

function drawAxis(p, canvas) {
  const width = canvas.clientWidth, g = drawingOn(canvas, width, canvas.clientHeight);
  p.unit = width / (p.scale.hi - p.scale.lo);
  const from = p.scale.eventAt(p.scale.lo), to = p.scale.eventAt(p.scale.hi);
  p.room = width;
  drawMoments(p, g, from, to, width);
  drawGaps(p, g, width);
  drawEventNumbers(p, g, from, to, width);
  drawCursors(p, g);
}

// the moments in sight, each with where it begins and ends
function momentsIn(p, from, to, width) {
  const { moments } = p.run, found = [];
  for (let i = lastAtMost(moments, from, first); i < moments.length && moments[i][0] <= to + 1; i++) {
    const next = i + 1 < moments.length ? p.x(moments[i + 1][0]) : width;
    found.push({ i, now: moments[i][1], x: p.x(moments[i][0]), next });
  }
  return found;
}

function drawMoments(p, g, from, to, width) {
  const { css } = p, seen = momentsIn(p, from, to, width), dense = seen.length * 9 > width;
  if (!dense) {
    for (const { i, x, next } of seen) {
      if (i % 2) { g.fillStyle = css.faint; g.fillRect(x, 0, next - x, 18); }
      g.fillStyle = css.line;
      g.fillRect(x, 0, 1, 18);
    }
  }
  const start = p.run.n ? p.run.moments[0][1] : 0;
  let free = -Infinity;
  for (const { i, now, x, next } of seen) {
    const at = Math.max(0, x);
    if (at < free) continue;
    const short = i ? `+${number(now - start)} s` : `${now} s`, long = i ? `${short} = ${now} s` : short;
    const said = g.measureText(long).width + 12 < next - at ? long : short;
    g.fillStyle = css.soft;
    if (dense) g.fillRect(at, 12, 1, 6);
    free = at + textAt(g, said, at + 4, 9, css.soft) + (dense ? 24 : 10);
  }
}

// where time isn't drawn to scale, as far as there is room to say so
function drawGaps(p, g, width) {
  g.strokeStyle = p.css.warn;
  g.lineWidth = 1;
  for (const [from, to] of p.scale.gaps) {
    const x = ((from + to) / 2 - p.scale.lo) * p.unit;
    if (x < 0 || x > width || (to - from) * p.unit < 24) continue;
    strokeLines(g, [[x - 4, 34], [x - 1, 22]], [[x + 1, 34], [x + 4, 22]]);
  }
}

function drawEventNumbers(p, g, from, to, width) {
  const each = (p.x(to) - p.x(from)) / Math.max(1, to - from), named = each >= 15;
  const step = named ? Math.max(1, Math.ceil(24 / each)) : STEPS.find(it => it * each > 46) || 200000;
  g.textAlign = "center";
  if (named) for (let n = Math.max(1, from); n <= to; n++) drawKind(p, g, n);
  let last = -Infinity;
  for (let n = Math.max(1, named ? from : Math.ceil(from / step) * step); n <= to; n += named ? 1 : step) {
    const x = p.middle(n);
    const room = g.measureText(String(n)).width / 2 + 4;
    if (n % step && n !== 1 || x - room < last || x > width - 12) continue;
    last = x + room;
    textAt(g, String(n), x, 24, p.css.soft);
    g.fillStyle = p.css.line;
    if (!named) g.fillRect(x, 32, 1, 10);
  }
  g.textAlign = "left";
}

// the kind of an event, as a word or a letter
function drawKind(p, g, n) {
  const kind = p.run.kinds[n - 1], word = KIND_NAMES[kind], room = p.tail(n) - p.x(n), denied = p.run.denied.has(n);
  if (room <= 0) return;
  const said = g.measureText(word).width + 3 < room ? word : word[0].toUpperCase();
  const width = textAt(g, said, p.middle(n), 36, denied ? p.css.bad : KIND_COLORS[kind]);
  if (denied) g.fillRect(p.middle(n) - width / 2 - 1, 36, width + 2, 1);
}

// the numbers of the event that is picked and of that under the pointer
function drawCursors(p, g) {
  g.textAlign = "center";
  for (const [n, color] of [[p.event, p.css.pick], [p.hoverEvent, p.css.soft]]) {
    if (!n) continue;
    const width = g.measureText(String(n)).width + 8;
    g.fillStyle = color;
    g.fillRect(p.middle(n) - width / 2, 17, width, 14);
    textAt(g, String(n), p.middle(n), 24.5, p.css.paper);
  }
  g.textAlign = "left";
}

// BEHIND THE ROWS

function drawBands(p, g, height) {
  const { css, scale } = p, from = Math.max(1, scale.eventAt(scale.lo)), to = scale.eventAt(scale.hi);
  const seen = momentsIn(p, from, to, p.room);
  if (seen.length * 9 <= p.room) {
    for (const { i, x, next } of seen) {
      if (i % 2) { g.fillStyle = css.band; g.fillRect(x, 0, next - x, height); }
      g.fillStyle = css.line;
      if (next - x > 3) g.fillRect(x, 0, 1, height);
    }
  }
  if (p.x(to) - p.x(from) > 14 * (to - from)) {
    g.fillStyle = css.line;
    for (let n = from; n <= to + 1; n++) fillFaint(g, 0.35, p.x(n), 0, 1, height);
  }
}
