// The beginning: the run is read, the page is set up, and what stands behind the page's name is done.

// as #row=c3&event=16&scale=moment&from=10&to=90&find=film&tag=hit&unfold&totals&help&dark
function begin(view, wishes) {
  const { run, rows, scale } = view;
  if (wishes.has("dark") || wishes.has("light")) useTheme(view, wishes.has("dark"));
  if (wishes.has("find") || wishes.has("tag")) view.filter(wishes.get("find") || "", wishes.get("tag"));
  if (wishes.has("unfold") || wishes.has("fold")) {
    rows.foldAll(wishes.has("fold"));
    view.fitRows();
  }
  if (wishes.has("scale")) view.useScale(wishes.get("scale"));
  if (wishes.has("from")) scale.show(scale.pos[+wishes.get("from")], scale.pos[Math.min(run.n, +wishes.get("to")) + 1]);
  if (wishes.has("row")) view.pickRow(wishes.get("row"), true);
  if (wishes.has("event")) view.pickEvent(+wishes.get("event"));
  for (const name of ["totals", "help"]) if (wishes.has(name)) byId("show-" + name).click();
}

loadRun().then(run => {
  const view = new View(run);
  bindTools(view);
  bindPointer(view);
  bindKeys(view);
  bindPrint(view);
  begin(view, new URLSearchParams(location.hash.slice(1)));
}).catch(error => {
  byId("notes").textContent = "The run can't be drawn: " + error.message;
  throw error;
});
