// The buttons, boxes and lists above the picture.

function bindTools(view) {
  const { rows, scale, run } = view;
  let typing;
  byId("find").addEventListener("input", e => {
    clearTimeout(typing);
    typing = setTimeout(() => view.filter(e.target.value, rows.tag), 120);
  });
  fillChips(view);
  for (const kind of "rcx") {
    byId("rows-" + kind).onchange = e => { rows.kinds[kind] = e.target.checked; rows.make(); view.fitRows(); };
  }
  byId("fold").onclick = () => { rows.foldAll(rows.unfolded.size > 0); view.fitRows(); };
  byId("in-sight").checked = view.onlyInSight;
  byId("in-sight").onchange = e => { view.onlyInSight = e.target.checked; view.draw(); };
  byId("scale").onchange = e => view.useScale(e.target.value);
  byId("in").onclick = () => { scale.zoom(1.6); view.draw(); };
  byId("out").onclick = () => { scale.zoom(1 / 1.6); view.draw(); };
  byId("fit").onclick = () => { scale.fit(); view.draw(); };
  bindSection("show-totals", "totals", () => fillTotals(run, (id, n) => view.go(id, n)));
  bindSection("show-help", "help", () => fillHelp(view.painter));
  bindTheme(view);
}

// A button that shows a section, which is filled then. One is open at most: the picture needs the room.
function bindSection(name, section, fill) {
  byId(name).onclick = () => {
    const opens = byId(section).hidden;
    for (const other of ["totals", "help"]) {
      byId(other).hidden = true;
      byId("show-" + other).setAttribute("aria-expanded", false);
    }
    byId(section).hidden = !opens;
    byId(name).setAttribute("aria-expanded", opens);
    if (opens) fill();
  };
}

// the consumers by what became of them: each a button that filters
function fillChips(view) {
  const { run, rows } = view;
  byId("chips").replaceChildren(...run.tags.filter(tag => run.totals.tags[tag]).map(tag => {
    const chip = button(tag + " ", () => view.filter(byId("find").value, rows.tag === tag ? null : tag));
    chip.append(element("b", "", number(run.totals.tags[tag])));
    chip.setAttribute("aria-pressed", rows.tag === tag);
    return chip;
  }));
}

function useTheme(view, dark) {
  document.documentElement.classList.toggle("dark", dark);
  view.painter.theme();
  fillLegend(view.painter);
  if (!byId("help").hidden) fillHelp(view.painter);
  view.draw();
}

function bindTheme(view) {
  const wish = matchMedia("(prefers-color-scheme: dark)");
  useTheme(view, wish.matches);
  wish.addEventListener("change", e => useTheme(view, e.matches));
  byId("theme").onclick = () => useTheme(view, !document.documentElement.classList.contains("dark"));
}
