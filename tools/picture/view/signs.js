// Colours, patterns and signs.

// the hues of exchanges; red is kept for what fails, grey and brown for who waits for a consumer
const PALETTE = ["#2f7ed8", "#e69f00", "#009e73", "#a55fd0", "#35b3d6", "#d4679f", "#8f8f1f", "#5b5bd6", "#c9793a",
  "#4c9a2a"];
const KIND_COLORS = { s: "#2f7ed8", p: "#8792a0", h: "#8a63c9", b: "#009e73", e: "#4c9a2a", f: "#c62828", c: "#e08a00",
  d: "#d0478c" };
const THEME = ["paper", "sheet", "line", "faint", "ink", "soft", "bad", "good", "warn", "pick", "pickbg", "wait", "writer", "band",
  "body"];

function themeColors() {
  const style = getComputedStyle(document.documentElement);
  return Object.fromEntries(THEME.map(name => [name, style.getPropertyValue("--" + name).trim()]));
}

// a canvas of this size, cleared, to be drawn on
function drawingOn(canvas, width, height) {
  const ratio = window.devicePixelRatio || 1, wide = Math.round(width * ratio), high = Math.round(height * ratio);
  if (canvas.width !== wide) canvas.width = wide;
  if (canvas.height !== high) canvas.height = high;
  canvas.style.width = width + "px";
  canvas.style.height = height + "px";
  const g = canvas.getContext("2d");
  g.setTransform(ratio, 0, 0, ratio, 0, 0);
  g.clearRect(0, 0, width, height);
  g.font = '11px system-ui, "DejaVu Sans", sans-serif';
  g.textBaseline = "middle";
  return g;
}

function strokeLines(g, ...lines) {
  g.beginPath();
  for (const [[x, y], ...points] of lines) {
    g.moveTo(x, y);
    for (const [a, b] of points) g.lineTo(a, b);
  }
  g.stroke();
}

function fillPoints(g, points) {
  g.beginPath();
  for (const [x, y] of points) g.lineTo(x, y);
  g.fill();
}

function cross(g, x, y, r) {
  strokeLines(g, [[x - r, y - r], [x + r, y + r]], [[x + r, y - r], [x - r, y + r]]);
}

function fillFaint(g, alpha, x, y, w, h) {
  g.globalAlpha = alpha;
  g.fillRect(x, y, w, h);
  g.globalAlpha = 1;
}

// The patterns of waits and of shared bytes: a small tile of stripes, a grid, dots or lines.

function tileOf(kind, color) {
  const ratio = window.devicePixelRatio || 1, tile = document.createElement("canvas");
  const u = { turn: 6, writer: 5 }[kind] || 4;
  tile.width = tile.height = u * ratio;
  const g = tile.getContext("2d");
  g.scale(ratio, ratio);
  g.strokeStyle = g.fillStyle = color;
  fillFaint(g, 0.16, 0, 0, u, u);
  g.globalAlpha = 0.85;
  g.lineWidth = kind === "turn" ? 1.4 : 1;
  const rising = [[[-1, u + 1], [u + 1, -1]], [[-1, 1], [1, -1]], [[u - 1, u + 1], [u + 1, u - 1]]];
  if (kind === "turn" || kind === "shared") strokeLines(g, ...rising);
  if (kind === "writer") strokeLines(g, ...rising, [[-1, -1], [u + 1, u + 1]]);
  if (kind === "body") strokeLines(g, [[0, u / 2], [u, u / 2]]);
  if (kind === "head") g.fillRect(u / 2 - 0.6, u / 2 - 0.6, 1.3, 1.3);
  return tile;
}

class Patterns {
  constructor() { this.made = new Map(); }
  get(g, kind, color) {
    const name = kind + color;
    if (!this.made.has(name)) {
      const pattern = g.createPattern(tileOf(kind, color), "repeat");
      pattern.setTransform(new DOMMatrix().scale(1 / (window.devicePixelRatio || 1)));
      this.made.set(name, pattern);
    }
    return this.made.get(name);
  }
}

// Signs. P is the painter, G what it draws on.

// text where there is room for it; how wide it is, or 0
function textAt(g, text, x, y, color, room = Infinity) {
  const width = g.measureText(text).width;
  if (width > room) return 0;
  g.fillStyle = color;
  g.fillText(text, x, y);
  return width;
}

// bytes: full where its own exchange brought them, striped where shared, pale where they were stored before
function blockAt(p, g, x, y, w, h, color, mode) {
  if (mode === STORED) { g.fillStyle = p.css.paper; g.fillRect(x, y, w, h); }
  g.fillStyle = color;
  fillFaint(g, mode === STORED ? 0.34 : 1, x, y, w, h);
  if (mode === SHARED) { g.fillStyle = p.patterns.get(g, "shared", "#ffffff"); g.fillRect(x, y, w, h); }
  if (mode === STORED && w > 3) { g.strokeStyle = color; g.lineWidth = 1; g.strokeRect(x + 0.5, y + 0.5, w - 1, h - 1); }
}

// how a consumer ended
function finishAt(p, g, x, y, how, big) {
  const r = big ? 5 : 2;
  if (how === "ended") {
    g.fillStyle = p.css.good;
    g.beginPath(); g.arc(x, y, r, 0, 7); g.fill();
    g.strokeStyle = p.css.paper;
    g.lineWidth = 1.4;
    if (big) strokeLines(g, [[x - 2.4, y], [x - 0.6, y + 2], [x + 2.5, y - 2]]);
  } else if (how === "failed") {
    g.strokeStyle = p.css.bad;
    g.lineWidth = big ? 2.4 : 1.4;
    cross(g, x, y, r);
  } else if (how === "cancelled") {
    g.fillStyle = p.css.warn;
    g.fillRect(x - 1.5, y - r - 1, 3, 2 * r + 2);
    if (big) g.fillRect(x - 5, y - 1.2, 10, 2.4);
  }
}

// how an exchange ended, where that is no good end
function breakAt(p, g, x, y, how) {
  if (how === "fault" || how === "short") {
    g.strokeStyle = p.css.bad;
    g.lineWidth = 2;
    cross(g, x, y, 4);
  } else if (how === "closed") {
    g.strokeStyle = p.css.soft;
    g.lineWidth = 1.5;
    g.strokeRect(x - 3.5, y - 3.5, 7, 7);
    strokeLines(g, [[x - 3.5, y + 3.5], [x + 3.5, y - 3.5]]);
  }
}

// an event that was denied
function denialAt(p, g, x, y) {
  g.strokeStyle = p.css.bad;
  g.fillStyle = p.css.paper;
  g.lineWidth = 1.6;
  g.beginPath();
  for (const [a, b] of [[x, y - 5], [x + 5, y], [x, y + 5], [x - 5, y]]) g.lineTo(a, b);
  g.closePath();
  g.fill();
  g.stroke();
}

// what happens to a representation
const MARKS = {
  founded: (g, x, y) => fillPoints(g, [[x, y - 5], [x + 5, y], [x, y + 5], [x - 5, y]]),
  joined: (g, x, y) => strokeLines(g, [[x - 4, y], [x + 4, y]], [[x, y - 4], [x, y + 4]]),
  validated: (g, x, y) => strokeLines(g, [[x - 4, y], [x - 1, y + 3.5], [x + 4, y - 3.5]]),
  truncated: (g, x, y) => { g.strokeRect(x - 4, y - 4, 8, 8); g.fillRect(x - 4, y, 8, 4); },
  whole: (g, x, y) => g.fillRect(x - 4, y - 4, 8, 8),
  evicted: (g, x, y) => { fillPoints(g, [[x - 5, y + 1], [x, y - 5], [x + 5, y + 1]]); g.fillRect(x - 5, y + 2.5, 10, 2); },
  doomed: (g, x, y) => fillPoints(g, [[x + 1, y - 6], [x - 4, y + 1], [x, y + 1], [x - 1, y + 6], [x + 4, y - 1], [x, y - 1]]),
  lost: (g, x, y) => cross(g, x, y, 4),
  gone: (g, x, y) => { g.strokeRect(x - 4, y - 3, 8, 6); strokeLines(g, [[x - 4, y + 3], [x + 4, y - 3]]); },
};
const BAD_MARKS = ["lost", "evicted", "doomed"], RARE_MARKS = ["lost", "evicted", "truncated"];

function markColor(p, kind) {
  if (BAD_MARKS.includes(kind)) return p.css.bad;
  return { gone: p.css.soft, truncated: p.css.warn, whole: p.css.good, validated: p.css.good }[kind] || p.css.pick;
}

function markAt(p, g, x, y, kind) {
  g.fillStyle = g.strokeStyle = markColor(p, kind);
  g.lineWidth = 1.6;
  MARKS[kind](g, x, y);
}
