// What the keys do.

function bindKeys(view) {
  document.addEventListener("keydown", e => {
    if (e.target.matches("input, select")) {
      if (e.key === "Escape") e.target.blur();
      return;
    }
    if (e.ctrlKey || e.metaKey || e.altKey) return;
    const does = keyDoes(view)[e.key];
    if (!does) return;
    if (e.key === "/") e.preventDefault();
    does();
    view.draw();
  });
  byId("rows").addEventListener("keydown", e => {
    if (moveRow(view, e.key) || foldRow(view, e.key) || stepInRow(view, e.key)) e.preventDefault();
  });
}

function keyDoes(view) {
  const { scale, painter } = view, width = scale.hi - scale.lo;
  const zoom = factor => () => scale.zoom(factor, painter.event ? scale.pos[painter.event] : undefined);
  return {
    w: zoom(1.5), "+": zoom(1.5), s: zoom(1 / 1.5), "-": zoom(1 / 1.5),
    a: () => scale.pan(-width / 6), d: () => scale.pan(width / 6), 0: () => scale.fit(),
    "/": () => byId("find").focus(), "]": () => stepEvent(view, 1), "[": () => stepEvent(view, -1),
    Escape: () => { view.pickEvent(null); view.pickRow(null); },
  };
}

function stepEvent(view, by) {
  const { n } = view.run, now = view.painter.event || (by > 0 ? 0 : n + 1);
  if (n) view.pickEvent(Math.min(n, Math.max(1, now + by)));
}

const pickedAt = view => view.picked && view.rows.place.has(view.picked) ? view.rows.place.get(view.picked) : -1;

function moveRow(view, key) {
  const { list } = view.rows, i = pickedAt(view);
  const to = { ArrowDown: i + 1, ArrowUp: i - 1, PageDown: i + 12, PageUp: i - 12, Home: 0, End: list.length - 1 }[key];
  if (to === undefined || !list.length) return false;
  const row = list[Math.min(list.length - 1, Math.max(0, to))];
  view.pickRow(row.id, true);
  view.announce(`${titleOf(row)}: ${rowSaid(view.run, row).join(" ")}`);
  return true;
}

function foldRow(view, key) {
  const row = view.rows.list[pickedAt(view)];
  if (key !== "Enter" && key !== " " || !row || row.type !== "k") return false;
  view.rows.fold(row.thing.k);
  view.fitRows();
  return true;
}

// the event of the row before or behind the one that is picked
function stepInRow(view, key) {
  const row = view.rows.subjectOf(view.picked), now = view.painter.event;
  if (key !== "ArrowRight" && key !== "ArrowLeft" || !row) return false;
  const own = view.run.eventsOf(row.id);
  if (!own.length) return true;
  const at = own.findIndex(n => n >= (now || 0)), i = at < 0 ? own.length : at;
  const forward = !now || own[i] !== now ? i : i + 1;
  view.pickEvent(own[Math.min(own.length - 1, Math.max(0, key === "ArrowRight" ? forward : i - 1))]);
  return true;
}
