// The names of the rows, at the left, as elements of the page.

const MOST_LETTERS = 30;

function nameOf(run, row, index) {
  const made = element("div", "row " + row.type);
  made.style.top = row.y + "px";
  made.style.height = row.h + "px";
  made.id = "row-" + row.id;
  made.setAttribute("role", "row");
  made.setAttribute("aria-level", { k: 1, x: 3 }[row.type] || 2);
  made.setAttribute("aria-rowindex", index + 1);
  const cell = element("span", "cell");
  cell.setAttribute("role", "gridcell");
  cell.setAttribute("aria-label", `${titleOf(row)}: ${rowSaid(run, row).join(" ")}`);
  ({ k: nameOfKey, c: nameOfConsumer, x: nameOfExchange, r: nameOfBody })[row.type](row, cell, made);
  made.append(cell);
  return made;
}

function shortened(text) {
  return text.length > MOST_LETTERS ? text.slice(0, 9) + "…" + text.slice(-20) : text;
}

function nameOfKey(row, cell, made) {
  const key = row.thing, sums = key.sums;
  made.setAttribute("aria-expanded", row.open);
  cell.append(element("span", "target", shortened(key.name)),
    element("span", "sums", `${sums.consumers} C · ${sums.exchanges} X · ${bytesSaid(sums.given)}`));
  made.title = key.target;
}

function nameOfConsumer(row, cell) {
  const it = row.thing, load = it.load === "normal" ? "" : it.load;
  const request = [it.method === "GET" ? "" : it.method, rangeSaid(it.range), load].filter(Boolean).join(" ");
  cell.append(element("span", "id", "C" + it.c));
  if (request) cell.append(element("span", "", request));
  cell.append(element("span", it.how === "failed" ? "fate bad" : "fate", it.words || it.how));
}

function nameOfExchange(row, cell) {
  const it = row.thing, dot = element("span", "dot");
  dot.style.background = PALETTE[it.color];
  const said = it.headed ? `${it.status}, ${caseSaid(it)}` : it.how === "open" ? "no head yet" : "no head";
  cell.append(dot, element("span", "id", "X" + it.x), element("span", "", needSaid(it)), element("span", "fate", said));
  const end = { fault: "broke", short: "ended short", closed: "closed" }[it.how];
  if (end) cell.append(element("span", it.how === "closed" ? "fate" : "bad", end));
}

function nameOfBody(row, cell) {
  const it = row.thing;
  if (row.reps && row.reps.length > 1) {
    const last = row.reps[row.reps.length - 1].r, said = `${row.reps.length} bodies, one after another`;
    cell.setAttribute("aria-label", `${said}, R${it.r} to R${last}.`);
    cell.append(element("span", "id", `R${it.r} … R${last}`), element("span", "fate", said));
    return;
  }
  const gone = it.gone ? `, ${it.marks.find(mark => mark[0] === it.gone[0] && /gone|lost|evicted|doomed/.test(mark[1]))[1]}` : "";
  cell.append(element("span", "id", "R" + it.r),
    element("span", "fate", `${bytesSaid(it.size)} of ${bytesSaid(it.total)}${gone}`));
}
