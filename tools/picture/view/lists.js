// A list of events, of which only those in sight are elements.

const LINE_HEIGHT = 20, LONGEST_TEXT = 60;

class EventList {
  constructor(run, pick) {
    Object.assign(this, { run, pick, event: null, box: byId("list"), sizer: byId("list-sizer") });
    this.box.addEventListener("scroll", () => this.draw());
    this.box.addEventListener("keydown", e => {
      const by = { ArrowDown: 1, ArrowUp: -1, PageDown: 20, PageUp: -20 }[e.key];
      if (!by) return;
      e.preventDefault();
      this.move(by);
    });
    this.show(null);
  }
  // these events, or all
  show(items, title = "All events") {
    this.items = items;
    this.count = items ? items.length : this.run.n;
    byId("list-title").textContent = `${title} (${number(this.count)})`;
    this.sizer.style.height = this.count * LINE_HEIGHT + "px";
    this.draw();
  }
  at(i) { return this.items ? this.items[i] : i + 1; }
  indexOf(n) { return this.items ? lastAtMost(this.items, n, it => it) : n - 1; }
  move(by) {
    if (!this.count) return;
    const i = this.event ? this.indexOf(this.event) + by : 0;
    this.pick(this.at(Math.min(this.count - 1, Math.max(0, i))));
  }
  reveal(n) {
    this.event = n;
    const y = this.indexOf(n) * LINE_HEIGHT, { scrollTop, clientHeight } = this.box;
    if (y < scrollTop || y > scrollTop + clientHeight - LINE_HEIGHT) this.box.scrollTop = y - clientHeight / 3;
    this.draw();
  }
  draw() {
    const first = Math.max(0, Math.floor(this.box.scrollTop / LINE_HEIGHT) - 3);
    const last = Math.min(this.count, first + Math.ceil(this.box.clientHeight / LINE_HEIGHT) + 8), made = [];
    for (let i = first; i < last; i++) made.push(this.lineOf(i));
    this.sizer.replaceChildren(...made);
    const picked = made.find(line => line.classList.contains("pick"));
    if (picked) this.box.setAttribute("aria-activedescendant", picked.id);
    else this.box.removeAttribute("aria-activedescendant");
  }
  lineOf(i) {
    const n = this.at(i), picked = n === this.event;
    const line = element("div", "event-line" + (picked ? " pick" : "") + (this.run.denied.has(n) ? " denied" : ""));
    line.id = "event-line-" + n;
    line.style.top = i * LINE_HEIGHT + "px";
    line.setAttribute("role", "option");
    line.setAttribute("aria-selected", picked);
    line.setAttribute("aria-setsize", this.count);
    line.setAttribute("aria-posinset", i + 1);
    const acts = actLines(this.run, n).map(act => cut(brief(act), LONGEST_TEXT)).join("; ");
    line.append(element("span", "", n), cut(textLine(this.run, n), LONGEST_TEXT), element("em", "", acts && "  → " + acts));
    line.onclick = () => this.pick(n);
    return line;
  }
}
