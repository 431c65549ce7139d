// The legend below the picture, and "How to read it": each sign as it is drawn.

// a wait, as it is drawn
function waitSign(kind, color, dashed) {
  return (p, g, w, h) => {
    g.fillStyle = p.patterns.get(g, kind, color || p.css[kind === "turn" ? "wait" : kind]);
    g.fillRect(1, 2, w - 2, h - 4);
    g.strokeStyle = color || p.css[kind === "turn" ? "wait" : kind];
    g.setLineDash(dashed ? [3, 2] : []);
    g.strokeRect(1.5, 2.5, w - 3, h - 5);
    g.setLineDash([]);
  };
}

const [BLUE, ORANGE, GREEN] = PALETTE;
const blockSign = mode => (p, g, w, h) => blockAt(p, g, 1, 2, w - 2, h - 4, BLUE, mode);
const finishSign = how => (p, g, w, h) => finishAt(p, g, w / 2, h / 2, how, true);
const breakSign = how => (p, g, w, h) => breakAt(p, g, w / 2, h / 2, how);
const markSign = kind => (p, g, w, h) => markAt(p, g, w / 2, h / 2, kind);
const lineSign = (name, thick) => (p, g, w, h) => { g.fillStyle = p.css[name]; g.fillRect(2, h / 2 - 1, w - 4, thick); };

const SIGNS = {
  unpolled: (p, g, w, h) => { g.fillStyle = p.css.wait; for (let x = 2; x < w - 2; x += 4) g.fillRect(x, h / 2, 2, 1); },
  turn: waitSign("turn"), writer: waitSign("writer"), head: waitSign("head", BLUE, true), body: waitSign("body", BLUE),
  ready: lineSign("wait", 2), own: blockSign(OWN), shared: blockSign(SHARED), stored: blockSign(STORED),
  ended: finishSign("ended"), failed: finishSign("failed"), cancelled: finishSign("cancelled"),
  denied: (p, g, w, h) => denialAt(p, g, w / 2, h / 2),
  shown: (p, g, w, h) => {
    g.fillStyle = p.css.ink;
    g.fillRect(8, 3, 26, h - 6);
    textAt(g, "200", 11, h / 2 + 0.5, p.css.paper);
  },
  detached: (p, g, w, h) => { g.fillStyle = p.css.warn; fillPoints(g, [[w / 2 - 5, 7], [w / 2 + 5, 7], [w / 2, 13]]); },
  open: (p, g, w, h) => {
    g.fillStyle = BLUE;
    fillFaint(g, 0.2, 1, 3, w - 2, h - 6);
    for (const x of [0.25, 0.65]) g.fillRect(w * x, 3, w * 0.2, h - 6);
  },
  ask: (p, g, w, h) => { g.fillStyle = BLUE; g.fillRect(w / 2 - 1, h - 6, 2, 4); },
  fault: breakSign("fault"), closed: breakSign("closed"),
  resumed: (p, g) => { blockAt(p, g, 2, 3, 20, 14, BLUE, STORED); blockAt(p, g, 22, 3, 20, 14, ORANGE, OWN); },
  stitched: (p, g) => [[2, 12, BLUE, STORED], [14, 12, ORANGE, OWN], [26, 16, GREEN, STORED]]
    .forEach(([x, w, color, mode]) => blockAt(p, g, x, 3, w, 14, color, mode)),
  part: (p, g) => {
    g.fillStyle = p.css.faint;
    g.fillRect(2, 9, 40, 2);
    blockAt(p, g, 16, 3, 10, 14, BLUE, OWN);
    g.strokeStyle = p.css.soft;
    g.strokeRect(16.5, 3.5, 20, 13);
  },
  overTime: (p, g) => {
    g.fillStyle = p.css.body;
    g.fillRect(1, 1, 42, 18);
    for (const [color, x, y, h] of [[BLUE, 8, 11, 8], [ORANGE, 22, 1, 6]]) { g.fillStyle = color; g.fillRect(x, y, 43 - x, h); }
    g.fillStyle = p.css.ink;
    g.fillRect(30, 11, 2, 8);
  },
};
for (const kind of Object.keys(MARKS)) SIGNS[kind] = markSign(kind);

function signOf(painter, name, width, height) {
  const canvas = element("canvas");
  SIGNS[name](painter, drawingOn(canvas, width, height), width, height);
  return canvas;
}

// The words of the legend stand in docs/PICTURE.md too.
const LEGEND = [
  ["waits for", [["turn", "the turn"], ["writer", "a writer"], ["head", "a head"], ["body", "bytes"]]],
  ["given", [["own", "own"], ["shared", "shared"], ["stored", "stored before"]]],
  ["end", [["ended", "has all"], ["failed", "fails"], ["cancelled", "leaves"], ["denied", "denied"]]],
];

const HELP = [
  ["A consumer, from its start to its end", [
    ["unpolled", "has started, and wasn't polled yet"], ["turn", "waits behind the consumer that has the turn of its key"],
    ["writer", "waits for a consumer that writes what it wants to read"],
    ["head", "waits for the head of the exchange of that colour"], ["body", "waits for more bytes of that exchange"],
    ["ready", "what it waited for is there; it wasn't polled since"], ["shown", "is shown a head"],
    ["own", "is given bytes that its own exchange brought"], ["shared", "… that another's exchange brought meanwhile: shared"],
    ["stored", "… that were stored before it started"], ["ended", "has all of its bytes"], ["failed", "fails"],
    ["cancelled", "leaves: it is cancelled"], ["denied", "an event that was denied"],
    ["detached", "reads on alone when its body is lost: the detached reader"]]],
  ["Its body, in the column before the picture", [
    ["resumed", "resumed: the first part was stored, another exchange brought the rest"],
    ["stitched", "stitched of several exchanges"], ["part", "the frame is what it asked for of the whole body"]]],
  ["An exchange: one request over the network", [
    ["head", "is open, and its head hasn't come"], ["open", "its head has come; each block is a piece of its body"],
    ["ask", "the next piece is asked for"], ["fault", "it broke, or ended short"], ["closed", "the cache closed it"]]],
  ["A representation: a stored body, over time", [
    ["overTime", "first byte below, last above; gaps are holes, dark strokes are reads; pale once it is gone"],
    ["founded", "founded: a head created it"], ["joined", "joined: an exchange for a hole brings bytes of it"],
    ["validated", "validated: a 304 says that it still holds"],
    ["truncated", "truncated: its download broke off, and what came is kept"], ["whole", "whole: all of it is stored"],
    ["evicted", "evicted: it made room for another"], ["doomed", "doomed: by an unsafe request, or from outside"],
    ["lost", "lost: a write failed"], ["gone", "gone for another reason: new consumers don't use it"]]],
];

const KEYS = [["↑ ↓", "rows"], ["← →", "events of the row"], ["[ ]", "events"], ["Enter", "folds a key"], ["W S", "zoom"],
  ["A D", "move"], ["0", "all events"], ["/", "filter"], ["Esc", "nothing picked"], ["Ctrl+wheel, drag", "zoom, move"]];

const HELP_WORDS = ["A colour is an exchange, wherever its bytes went: who shows another's colour was spared the network. " +
  "Below each key stand its bodies, then its consumers, each with the exchanges that were opened for it.",
"Bytes LO–HI are those from LO up to before HI. What a head founded, joined or replaced isn't in the report: " +
  "it is worked out by the rules of the cache."];

function fillLegend(painter, box = byId("legend")) {
  const signs = LEGEND.flatMap(([title, items]) => [element("b", "", title), ...items.map(([name, words]) => {
    const sign = element("span");
    sign.append(signOf(painter, name, 24, 16), words);
    return sign;
  })]);
  box.replaceChildren(...signs, element("span", "", "colour = exchange"));
}

function fillHelp(painter) {
  const columns = element("div", "columns");
  for (const [title, items] of HELP) {
    const list = element("dl");
    for (const [name, words] of items) {
      const pair = element("div"), sign = element("dt");
      sign.append(signOf(painter, name, 44, 20));
      pair.append(sign, element("dd", "", words));
      list.append(pair);
    }
    columns.append(element("h2", "", title), list);
  }
  const keys = element("p");
  for (const [key, words] of KEYS) keys.append(element("kbd", "", key), ` ${words}  `);
  byId("help").replaceChildren(...HELP_WORDS.map(words => element("p", "", words)), keys, columns);
}
