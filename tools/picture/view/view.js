// The page: what is in sight, what is picked, and what is said of it.

const MANY_CONSUMERS = 60;  // from which on only rows of which there is something in sight are shown at first
const MOST_STORIES = 12;    // consumers up to which what happened to each stands beside the picture

class View {
  constructor(run) {
    this.run = run;
    this.rows = new Rows(run);
    this.scale = new Scale(run);
    this.painter = new Painter(run, this.rows, this.scale);
    this.list = new EventList(run, n => this.pickEvent(n));
    this.picked = null;
    this.onlyInSight = run.consumers.size > MANY_CONSUMERS;
    this.fillHead();
    layOut(window.innerWidth);
    fillLegend(this.painter);
    this.sayRow(null);
    const quiet = run.quiet.split("1").length - 1;
    if (quiet > run.n / 2) this.useScale("change");
    const sizes = new ResizeObserver(() => { layOut(window.innerWidth); this.paint(); });
    for (const id of ["chart", "scroll", "legend"]) sizes.observe(byId(id));
    this.fitRows();
  }
  fillHead() {
    const { run } = this, { totals } = run;
    byId("name").textContent = run.name;
    byId("what").textContent = `${counted(totals.events, "event")} in ${number(totals.seconds)} s, ` +
      `${counted(totals.keys, "key")}, ${counted(totals.consumers, "consumer")}, ${counted(totals.exchanges, "exchange")}`;
    byId("notes").textContent = run.notes.join(" ");
    byId("origin").textContent = run.origin ? "paths are of " + run.origin : "";
    fillTiles(run);
  }
  useScale(kind) {
    byId("scale").value = kind;
    this.scale.use(kind);
    this.draw();
  }

  // DRAWING

  draw() {
    this.drawing = this.drawing || requestAnimationFrame(() => { this.drawing = null; this.paint(); });
  }
  // after rows came or went
  fitRows() {
    byId("sizer").style.height = Math.max(this.rows.height + 20, 10) + "px";
    byId("empty").hidden = this.rows.list.length > 0;
    byId("empty").textContent = this.run.n ? "Nothing matches the filter." : "Nothing happened: there is no event.";
    byId("rows").setAttribute("aria-rowcount", this.rows.list.length);
    byId("fold").textContent = this.rows.unfolded.size ? "Fold all" : "Unfold all";
    this.draw();
  }
  // leaves out rows of which nothing is in sight; what stands above stays where it is
  takeSight() {
    const { rows, scale, run } = this;
    const sight = this.onlyInSight && run.n ? [scale.eventAt(scale.lo), scale.eventAt(scale.hi)] : null;
    if (String(sight) === String(rows.sight)) return;
    rows.sight = sight;
    clearTimeout(this.looking);
    this.looking = setTimeout(() => {
      const scroll = byId("scroll"), shows = this.picked && rows.place.has(this.picked);
      const anchor = shows ? rows.rowOf(this.picked) : rows.at(scroll.scrollTop);
      const above = anchor ? anchor.y - scroll.scrollTop : 0;
      rows.make();
      this.fitRows();
      if (anchor && rows.place.has(anchor.id)) scroll.scrollTop = rows.rowOf(anchor.id).y - above;
    }, 90);
  }
  paint() {
    this.takeSight();
    const scroll = byId("scroll");
    drawOverview(this.painter, byId("overview"));
    drawAxis(this.painter, byId("axis"));
    for (const id of ["overview", "axis"]) byId(id).style.width = byId(id).style.height = "";
    this.painter.paint(byId("picture"), scroll.scrollTop, scroll.clientWidth - layout.names, scroll.clientHeight);
    this.drawNames(scroll.scrollTop, scroll.clientHeight);
  }
  drawNames(top, height) {
    const { rows, run } = this, sign = [top, height, this.picked, this.painter.hover, layout.names].join();
    if (this.named === rows.list && this.namedAt === sign) return;
    this.named = rows.list;
    this.namedAt = sign;
    const made = this.painter.rowsIn(top, height).map(row => {
      const at = rows.place.get(row.id), name = nameOf(run, row, at), picked = at === rows.place.get(this.picked);
      name.classList.toggle("pick", picked);
      name.classList.toggle("hover", row.id === this.painter.hover);
      name.setAttribute("aria-selected", picked);
      return name;
    });
    byId("rows").replaceChildren(...made);
    const active = made.find(name => name.classList.contains("pick"));
    if (active) byId("rows").setAttribute("aria-activedescendant", active.id);
    else byId("rows").removeAttribute("aria-activedescendant");
  }

  // PICKING

  pickRow(id, reveals) {
    this.picked = this.painter.pick = id;
    const row = id && this.rows.rowOf(id), scroll = byId("scroll");
    if (row && reveals) {
      const below = row.y + row.h - scroll.clientHeight;
      if (row.y < scroll.scrollTop) scroll.scrollTop = row.y - 30;
      else if (below > scroll.scrollTop) scroll.scrollTop = below + 60;
    }
    const subject = this.rows.subjectOf(id);
    this.sayRow(subject);
    if (subject) this.list.show(this.run.eventsOf(id), "Events of " + titleOf(subject));
    else this.list.show(null);
    if (this.painter.event) this.list.reveal(this.painter.event);
    this.draw();
  }
  pickEvent(n, quietly) {
    this.painter.event = n;
    this.sayEvent(n);
    if (n) {
      this.scale.reveal(n);
      this.list.reveal(n);
      if (!quietly) this.announce(eventSaid(this.run, n));
    }
    this.draw();
  }
  announce(words) { byId("live").textContent = words; }
  sayEvent(n) {
    const box = byId("event"), { run } = this;
    box.replaceChildren();
    if (!n) return;
    const denied = run.denied.has(n);
    box.append(element("h3", "", `Event ${n} · line ${run.lines[n]} · moment ${run.momentOf(n)}`),
      element("pre", "", run.texts[n - 1]),
      element("pre", denied ? "acts denied" : "acts", run.said[n - 1] || "(nothing is done)"));
    if (denied) box.append(element("p", "", `Denied: ${denialSaid(run, n)}.`));
    box.scrollTop = 0;
  }
  // what is said of the row that is picked, or of the whole run
  sayRow(row) {
    const said = row ? [element("h3", "", titleOf(row)), ...rowSaid(this.run, row).map(words => element("p", "", words))]
      : [...this.stories(), ...this.worthALook()];
    byId("about").replaceChildren(...said);
  }
  stories() {
    const consumers = [...this.run.consumers.values()];
    if (!consumers.length || consumers.length > MOST_STORIES) return [];
    return this.links("What happened to each consumer",
      consumers.map(it => ["C" + it.c, it.story, "c" + it.c, it.started]));
  }
  worthALook() { return this.run.highlights.length ? this.links("Worth a look", this.run.highlights) : []; }
  links(title, items) {
    const list = element("ol");
    for (const [name, words, id, n] of items) {
      const item = element("li"), link = button("", () => this.go(id, n));
      link.append(element("b", "", name + " "), words);
      item.append(link);
      list.append(item);
    }
    return [element("h3", "", title), list];
  }
  // to a row and an event, whatever is filtered or folded
  go(id, n) {
    if (id && !this.rows.place.has(id)) {
      const { rows } = this, thing = this.run.thing(id);
      rows.kinds = { r: true, c: true, x: true };
      for (const kind of "rcx") byId("rows-" + kind).checked = true;
      if (id[0] !== "k") rows.unfolded.add(thing.k);
      if (n) this.scale.reveal(n);
      if (rows.sight) rows.sight = [this.scale.eventAt(this.scale.lo), this.scale.eventAt(this.scale.hi)];
      this.filter("", null);
    }
    this.pickEvent(n);
    this.pickRow(id, true);
  }
  filter(find, tag) {
    byId("find").value = find;
    this.rows.look(find.trim().toLowerCase(), tag);
    fillChips(this);
    this.fitRows();
    this.announce(counted(this.rows.list.length, "row"));
  }
}
