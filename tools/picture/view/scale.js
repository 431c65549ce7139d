// Where events stand from left to right, and which part is in sight.

const IDLE = 3;         // seconds up to which the time between two moments is drawn to scale
const SHORT_RUN = 200;  // events up to which there is room for words behind the last one

class Scale {
  constructor(run) {
    this.run = run;
    this.use("event");
  }
  use(kind) {
    const middle = this.pos ? this.eventAt((this.lo + this.hi) / 2) : null;
    const share = this.pos ? (this.hi - this.lo) / this.end : 1;
    this.kind = kind;
    // where an event begins and ends
    this.pos = new Float64Array(this.run.n + 2);
    this.tail = new Float64Array(this.run.n + 2);
    this.gaps = [];  // [from, to, seconds] that aren't drawn to scale
    if (kind === "moment") this.placeByMoment(); else this.placeByEvent(kind === "change");
    this.end = this.pos[this.run.n + 1] || 1;
    if (middle && share < 0.99) this.show(this.pos[middle] - share * this.end / 2, this.pos[middle] + share * this.end / 2);
    else this.fit();
  }
  // one after another; a poll that is told the same again takes no room where only changes do
  placeByEvent(changes) {
    for (let n = 1; n <= this.run.n; n++) {
      this.tail[n] = this.pos[n + 1] = this.pos[n] + (changes && this.run.quiet[n - 1] === "1" ? 0 : 1);
    }
  }
  // the events of a moment side by side within its second
  placeByMoment() {
    const { pos, tail, run } = this;
    let at = 0;
    run.moments.forEach(([first, now], i) => {
      const [next, later] = run.moments[i + 1] || [run.n + 1, now + 1], count = next - first, gap = later - now;
      for (let j = 0; j < count; j++) {
        pos[first + j] = at + 0.92 * j / count;
        tail[first + j] = at + 0.92 * (j + 1) / count;
      }
      const width = gap <= IDLE ? gap : IDLE + Math.log2(gap / IDLE);
      if (gap > IDLE) this.gaps.push([at + 1, at + width, gap]);
      at += width;
    });
    pos[run.n + 1] = at;
  }
  get room() { return this.end * (this.run.n < SHORT_RUN ? 1.09 : 1.015); }
  fit() { this.show(0, this.room); }
  show(lo, hi) {
    const least = Math.min(this.end, this.kind === "moment" ? 0.02 : 6);
    const width = Math.min(Math.max(hi - lo, least), this.room * 1.01);
    this.lo = Math.min(Math.max((lo + hi - width) / 2, -0.01 * this.end), this.room - width);
    this.hi = this.lo + width;
  }
  zoom(factor, at = (this.lo + this.hi) / 2) { this.show(at - (at - this.lo) / factor, at + (this.hi - at) / factor); }
  pan(by) { this.show(this.lo + by, this.hi + by); }
  reveal(n) {
    const at = this.pos[n], width = this.hi - this.lo;
    if (at < this.lo || at > this.hi - 0.02 * width) this.show(at - width / 2, at + width / 2);
  }
  // the event that stands there
  eventAt(place) {
    let lo = 1, hi = this.run.n;
    while (lo < hi) {
      const middle = (lo + hi + 1) >> 1;
      if (this.pos[middle] <= place) lo = middle; else hi = middle - 1;
    }
    return lo;
  }
}
