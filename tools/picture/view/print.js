// On paper: in light colours, all rows one below another, in parts that fit a sheet; then what is worth a look.

const WIDTH = 1000, FIRST_SHEET = 460, SHEET = 600, MOST_SHEETS = 40;

// the rows in parts, each of rows that fit one sheet; above the first stands the head
function sheetsOf(rows) {
  const sheets = [];
  for (const row of rows) {
    const last = sheets[sheets.length - 1], room = sheets.length === 1 ? FIRST_SHEET : SHEET;
    if (last && row.y + row.h - last[0].y <= room) last.push(row); else sheets.push([row]);
  }
  return sheets;
}

function sheetOf(view, rows, width) {
  const top = rows[0].y, bottom = rows[rows.length - 1], height = bottom.y + bottom.h - top;
  const sheet = element("div", "sheet"), axis = element("canvas"), canvas = element("canvas");
  for (const row of rows) {
    const name = nameOf(view.run, { ...row, y: row.y - top + 42 }, 0);
    name.removeAttribute("id");
    sheet.append(name);
  }
  sheet.append(axis, canvas);
  byId("paper").append(sheet);
  axis.style.cssText = `margin-left: ${layout.names + layout.strip}px; width: ${width - layout.strip}px; height: 42px`;
  drawAxis(view.painter, axis);
  view.painter.paint(canvas, top, width, height);
  canvas.style.marginLeft = layout.names + "px";
  return sheet;
}

function fillPaper(view) {
  const paper = byId("paper"), legend = element("div", "legend"), sheets = sheetsOf(view.rows.list);
  fillLegend(view.painter, legend);
  paper.append(legend);
  for (const rows of sheets.slice(0, MOST_SHEETS)) sheetOf(view, rows, WIDTH - layout.names);
  const left = sheets.length - MOST_SHEETS;
  if (left > 0) paper.append(element("p", "", `${counted(left, "more sheet")} of rows are left out: fold keys, or filter.`));
  paper.append(...view.stories(), ...view.worthALook());
}

function bindPrint(view) {
  const paper = byId("paper");
  let dark = false;
  window.addEventListener("beforeprint", () => {
    dark = document.documentElement.classList.contains("dark");
    useTheme(view, false);
    layOut(WIDE + 1);
    paper.hidden = false;
    fillPaper(view);
  });
  window.addEventListener("afterprint", () => {
    paper.replaceChildren();
    paper.hidden = true;
    layOut(window.innerWidth);
    useTheme(view, dark);
  });
}
