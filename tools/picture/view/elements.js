// Elements of the page. All that comes from a run is set as text, never as markup.

const byId = id => document.getElementById(id);

function element(name, className, text) {
  const made = document.createElement(name);
  if (className) made.className = className;
  if (text !== undefined) made.textContent = text;
  return made;
}

function button(text, press) {
  const made = element("button", "", text);
  made.type = "button";
  made.onclick = press;
  return made;
}

function tableOf(names, rows) {
  const table = element("table"), head = element("tr"), body = element("tbody");
  for (const name of names) {
    const cell = element("th", "", name);
    cell.setAttribute("scope", "col");
    head.append(cell);
  }
  for (const row of rows) {
    const line = element("tr");
    for (const value of row) {
      const cell = element("td");
      cell.append(value);
      line.append(cell);
    }
    body.append(line);
  }
  const top = element("thead");
  top.append(head);
  table.append(top, body);
  return table;
}
