// What the pointer does: it moves, zooms, picks, and tells what is under it.

const MOVED = 4, WIDE_EVENT = 8, NEAR = 10, MOST_ACTS = 9;

// the row, the place and the event under the pointer
function under(view, e) {
  const { scale, rows, painter, run } = view, box = byId("picture").getBoundingClientRect();
  const x = e.clientX - box.left - layout.strip, row = rows.at(e.clientY - box.top + byId("scroll").scrollTop);
  const place = scale.lo + x / painter.room * (scale.hi - scale.lo);
  const n = x >= 0 && place >= 0 && place <= scale.end && run.n ? scale.eventAt(place) : null;
  return { x, place, n, row: row, subject: rows.subjectAt(row, n) };
}

// where events are narrow, that of the row which is nearest
function nearest(view, row, n) {
  const { scale, run, painter } = view, each = painter.room / (scale.hi - scale.lo);
  const own = row && each <= WIDE_EVENT ? run.eventsOf(row.id) : [];
  if (!own.length) return n;
  const i = lastAtMost(own, n, it => it);
  const [near] = [own[i], own[i + 1]].filter(Boolean).sort((a, b) => Math.abs(a - n) - Math.abs(b - n));
  return Math.abs(scale.pos[near] - scale.pos[n]) * each < NEAR ? near : n;
}

function bindPointer(view) {
  bindWheel(view);
  bindDrag(view);
  bindHover(view);
  bindNames(view);
  bindOverview(view);
  byId("axis").addEventListener("click", e => {
    const box = byId("axis").getBoundingClientRect(), { scale } = view;
    if (view.run.n) view.pickEvent(scale.eventAt(scale.lo + (e.clientX - box.left) / box.width * (scale.hi - scale.lo)));
  });
}

function bindWheel(view) {
  const { scale } = view;
  const turn = e => {
    const zooms = e.ctrlKey || e.metaKey || e.altKey, pans = e.shiftKey || Math.abs(e.deltaX) > Math.abs(e.deltaY);
    if (!zooms && !pans) return;
    e.preventDefault();
    if (zooms) scale.zoom(Math.exp(-e.deltaY * 0.0022), under(view, e).place);
    else scale.pan((e.deltaX || e.deltaY) / view.painter.room * (scale.hi - scale.lo));
    view.draw();
  };
  for (const id of ["picture", "axis", "overview"]) byId(id).addEventListener("wheel", turn, { passive: false });
  byId("scroll").addEventListener("scroll", () => view.draw());
  byId("picture").addEventListener("dblclick", e => { scale.zoom(3, under(view, e).place); view.draw(); });
}

function bindDrag(view) {
  const { scale } = view, picture = byId("picture"), scroll = byId("scroll");
  let drag = null;
  picture.addEventListener("pointerdown", e => {
    if (e.button !== 0) return;
    drag = { x: e.clientX, y: e.clientY, lo: scale.lo, hi: scale.hi, top: scroll.scrollTop, moved: false };
    picture.setPointerCapture(e.pointerId);
  });
  picture.addEventListener("pointermove", e => {
    if (!drag) return;
    drag.moved = drag.moved || Math.abs(e.clientX - drag.x) + Math.abs(e.clientY - drag.y) > MOVED;
    if (!drag.moved) return;
    const by = (drag.x - e.clientX) / view.painter.room * (drag.hi - drag.lo);
    scale.show(drag.lo + by, drag.hi + by);
    scroll.scrollTop = drag.top + drag.y - e.clientY;
    picture.style.cursor = "grabbing";
  });
  picture.addEventListener("pointerup", e => {
    if (drag && !drag.moved) press(view, e);
    drag = null;
    picture.style.cursor = "";
  });
  picture.addEventListener("pointercancel", () => { drag = null; });
}

function press(view, e) {
  const { row, subject, x, n } = under(view, e);
  if (row && row.type === "k" && x < 0) {
    view.rows.fold(row.thing.k);
    view.fitRows();
  }
  if (n) view.pickEvent(nearest(view, subject, n), true);
  view.pickRow(subject ? subject.id : null);
  byId("rows").focus({ preventScroll: true });
}

function bindHover(view) {
  const picture = byId("picture"), { painter } = view;
  picture.addEventListener("pointermove", e => {
    const { row, subject, n } = under(view, e);
    painter.hover = row ? row.id : null;
    painter.hoverEvent = n;
    showTip(view, e, subject, n);
    view.draw();
  });
  picture.addEventListener("pointerleave", () => {
    painter.hover = painter.hoverEvent = null;
    byId("tip").hidden = true;
    view.draw();
  });
}

function bindNames(view) {
  const names = byId("rows"), idOf = e => { const name = e.target.closest(".row"); return name && name.id.slice(4); };
  names.addEventListener("click", e => {
    const id = idOf(e);
    if (!id) return;
    if (id[0] === "k") {
      view.rows.fold(+id.slice(1));
      view.fitRows();
    }
    view.pickRow(id);
  });
  names.addEventListener("pointermove", e => {
    view.painter.hover = idOf(e);
    showTip(view, e, view.rows.subjectOf(view.painter.hover), null);
    view.draw();
  });
  names.addEventListener("pointerleave", () => { view.painter.hover = null; byId("tip").hidden = true; view.draw(); });
}

// the part in sight is moved, or chosen anew
function bindOverview(view) {
  const { scale } = view, overview = byId("overview");
  let brush = null;
  const placeOf = e => (e.clientX - overview.getBoundingClientRect().left) / overview.clientWidth * scale.end;
  const isShort = place => Math.abs(place - brush.from) <= scale.end * 0.004;
  overview.addEventListener("pointerdown", e => {
    const from = placeOf(e), inside = from > scale.lo && from < scale.hi && scale.hi - scale.lo < 0.98 * scale.end;
    brush = { from, moves: inside, lo: scale.lo, hi: scale.hi };
    overview.setPointerCapture(e.pointerId);
  });
  overview.addEventListener("pointermove", e => {
    if (!brush) return;
    const place = placeOf(e);
    if (brush.moves) scale.show(brush.lo + place - brush.from, brush.hi + place - brush.from);
    else if (!isShort(place)) scale.show(Math.min(place, brush.from), Math.max(place, brush.from));
    view.draw();
  });
  overview.addEventListener("pointerup", e => {
    const place = placeOf(e), half = (scale.hi - scale.lo) / 2;
    if (brush && !brush.moves && isShort(place)) scale.show(place - half, place + half);
    brush = null;
    view.draw();
  });
}

// THE WORDS BESIDE THE POINTER

function showTip(view, e, row, n) {
  const tip = byId("tip");
  tip.hidden = !row && !n;
  if (tip.hidden) return;
  tip.replaceChildren(...(row ? tipOfRow(view.run, row, n) : []), ...(n ? tipOfEvent(view, row, nearest(view, row, n)) : []));
  const box = tip.getBoundingClientRect(), below = e.clientY + 20;
  tip.style.left = Math.max(4, Math.min(e.clientX + 16, innerWidth - box.width - 8)) + "px";
  tip.style.top = (below + box.height > innerHeight ? Math.max(4, e.clientY - box.height - 14) : below) + "px";
}

function tipOfRow(run, row, n) {
  const title = element("b", "", titleOf(row) + " ");
  if (row.type !== "c" || !n) return [title, element("span", "", rowSaid(run, row)[row.type === "x" ? 1 : 0])];
  const it = row.thing, span = it.spans[lastAtMost(it.spans, n, first)];
  if (n < it.started) return [title, element("span", "", "hasn't started")];
  return [title, element("span", "", it.over && n > it.over ? "is over: " + (it.words || it.how) : stateSaid(span))];
}

function tipOfEvent(view, row, n) {
  const { run } = view, acts = run.said[n - 1].split("\n");
  const other = row && row.type !== "k" && !run.rows[n - 1].split(" ").includes(row.id) ? " (of another row)" : "";
  return [element("pre", "where", `event ${n}${other} · line ${run.lines[n]} · moment ${run.momentOf(n)}`),
    element("pre", "", cut(textLine(run, n), 160)),
    element("pre", run.denied.has(n) ? "acts denied" : "acts",
      acts.slice(0, MOST_ACTS).map(brief).join("\n") + (acts.length > MOST_ACTS ? "\n…" : "") || "(nothing is done)")];
}
