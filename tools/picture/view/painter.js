// The picture: which part is in sight, and all rows in it.

const FEW_ROWS = 40, FEW_EVENTS = 400;  // up to which who waits for whom is drawn of all rows

const WIDE = 1100;  // the width of a window from which the columns are wide

// the widths of the two columns before the picture
const layout = { names: 320, strip: 140 };

function layOut(width) {
  const [names, strip] = width > WIDE ? [320, 140] : width > 640 ? [200, 140] : [128, 56];
  Object.assign(layout, { names, strip });
  document.documentElement.style.setProperty("--names", names + "px");
  document.documentElement.style.setProperty("--strip", strip + "px");
}

class Painter {
  constructor(run, rows, scale) {
    Object.assign(this, { run, rows, scale, hover: null, pick: null, event: null, hoverEvent: null });
    this.theme();
  }
  theme() {
    this.css = themeColors();
    this.patterns = new Patterns();
    this.sign = null;
  }

  // WHERE THINGS STAND

  x(n) { return (this.scale.pos[n] - this.scale.lo) * this.unit; }
  tail(n) { return (this.scale.tail[n] - this.scale.lo) * this.unit; }
  middle(n) { return (this.x(n) + this.tail(n)) / 2; }
  end(n) { return this.x(n || this.run.n + 1); }
  begins(n) { return this.scale.pos[n] <= this.scale.hi; }
  sees(from, to) { return this.scale.pos[to || this.run.n + 1] >= this.scale.lo && this.begins(from); }
  firstInSight(items) { return Math.max(0, lastAtMost(items, this.scale.eventAt(this.scale.lo), first)); }
  color(x) {
    const exchange = this.run.exchanges.get(x);
    return exchange ? PALETTE[exchange.color] : this.css.wait;
  }

  // THE ROWS: what doesn't change while the pointer moves is kept in a canvas of its own

  paint(canvas, top, width, height) {
    if (width <= layout.strip || height <= 0) return;
    this.room = width - layout.strip;
    this.unit = this.room / (this.scale.hi - this.scale.lo);
    const seen = this.rowsIn(top, height);
    const sign = [top, width, height, this.scale.kind, this.scale.lo, this.scale.hi, this.pick].join();
    if (this.sign !== sign || this.drawn !== this.rows.list) {
      this.sign = sign;
      this.drawn = this.rows.list;
      this.still = this.still || document.createElement("canvas");
      this.drawRows(drawingOn(this.still, width, height), seen, top, height);
    }
    const g = drawingOn(canvas, width, height), over = seen.find(row => row.id === this.hover);
    g.drawImage(this.still, 0, 0, width, height);
    g.fillStyle = this.css.pick;
    if (over) fillFaint(g, 0.06, 0, over.y - top, width, over.h);
    this.inPicture(g, height, () => { this.drawLinks(g, top); this.drawLines(g, height); });
  }
  rowsIn(top, height) {
    const { list } = this.rows, seen = [];
    for (let i = lastAtMost(list, top, row => row.y); i < list.length && list[i].y < top + height; i++) seen.push(list[i]);
    return seen;
  }
  inPicture(g, height, draw) {
    g.save();
    g.beginPath();
    g.rect(layout.strip, 0, this.room, height);
    g.clip();
    g.translate(layout.strip, 0);
    draw();
    g.restore();
  }
  drawRows(g, seen, top, height) {
    this.inPicture(g, height, () => {
      drawBands(this, g, height);
      for (const row of seen) {
        g.fillStyle = this.css.pickbg;
        if (this.pick === row.id && row.type !== "k") g.fillRect(0, row.y - top, this.room, row.h);
        this.drawRow(g, row, row.y - top);
      }
    });
    g.fillStyle = this.css.line;
    g.fillRect(layout.strip - 1, 0, 1, height);
    for (const row of seen) {
      g.fillStyle = row.type === "k" ? this.css.sheet : this.css.pickbg;
      if (row.type === "k" || this.pick === row.id) g.fillRect(0, row.y - top, layout.strip - 1, row.h);
      drawStrip(this, g, row, row.y - top);
    }
    g.fillStyle = this.css.line;
    g.fillRect(0, 0, 1, height);
  }
  drawRow(g, row, y) {
    if (row.type === "k") drawKey(this, g, row, y);
    else if (row.type === "r") drawBodies(this, g, row, y);
    else if (row.type === "c") drawConsumer(this, g, row.thing, y, row.h, true);
    else drawExchange(this, g, row.thing, y, row.h, true);
  }
  // the event that is picked, and that under the pointer
  drawLines(g, height) {
    for (const [n, color] of [[this.event, this.css.pick], [this.hoverEvent, this.css.soft]]) {
      if (!n) continue;
      g.fillStyle = color;
      fillFaint(g, 0.12, this.x(n), 0, Math.max(1, this.tail(n) - this.x(n)), height);
      fillFaint(g, 0.8, this.middle(n) - 0.5, 0, 1, height);
    }
  }

  // WHO WAITS FOR WHOM: of the row that is looked at, and of all where they are few

  drawLinks(g, top) {
    const { list } = this.rows, all = list.length <= FEW_ROWS && this.scale.hi - this.scale.lo < FEW_EVENTS;
    const looked = [this.pick, this.hover].map(id => id && this.rows.rowOf(id)).filter(Boolean);
    for (const row of all ? list : looked) {
      if (row.type !== "c") continue;
      const strong = row.id === this.pick || row.id === this.hover;
      for (const span of row.thing.spans) this.drawLink(g, row, span, top, strong);
    }
  }
  drawLink(g, row, [from, to, state, whom], top, strong) {
    if (!isWait(state) || !strong && state > WRITER || !this.sees(from, to)) return;
    const target = this.rows.rowOf((state <= WRITER ? "c" : "x") + whom);
    if (!target || target === row) return;
    const x = Math.max(3, this.x(from) + 3), a = row.y - top + row.h / 2, b = target.y - top + target.h / 2;
    const bend = Math.min(18, 6 + Math.abs(b - a) / 6);
    g.strokeStyle = g.fillStyle = waitColor(this, state, whom);
    g.globalAlpha = strong ? 1 : 0.55;
    g.lineWidth = strong ? 1.8 : 1.2;
    g.beginPath();
    g.moveTo(x, a);
    g.bezierCurveTo(x - bend, a, x - bend, b, x, b);
    g.stroke();
    fillPoints(g, [[x + 1, b], [x - 5, b - 3.4], [x - 5, b + 3.4]]);
    g.globalAlpha = 1;
  }
}
