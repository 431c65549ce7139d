// The rows: which are there, and where each stands.

const HEIGHTS = { k: 26, folded: 36, r: 58, c: 24, x: 20 };
const ROOMY = { k: 28, folded: 40, r: 104, c: 32, x: 26 };  // where there are few
const FEW_THINGS = 16, MOST_UNFOLDED = 160, MOST_BODIES = 3;

class Rows {
  constructor(run) {
    this.run = run;
    this.unfolded = new Set();
    this.turned = new Set();  // keys that were folded or unfolded while something was looked for
    this.find = "";
    this.tag = null;
    this.kinds = { r: true, c: true, x: true };
    this.sight = null;        // [from, to]: only what there was between these events
    const things = run.consumers.size + run.exchanges.size + run.reps.size;
    if (run.keys.length === 1 || things <= MOST_UNFOLDED) for (const key of run.keys) this.unfolded.add(key.k);
    this.heights = things <= FEW_THINGS ? ROOMY : HEIGHTS;
    this.make();
  }
  get isFiltered() { return this.find !== "" || this.tag !== null; }
  look(find, tag) {
    this.find = find;
    this.tag = tag;
    this.turned.clear();
    this.make();
  }
  // the text that is looked for is part of the key's target
  isNamed(key) {
    return this.find !== "" && !/^[cxr]\d+$/.test(this.find) && key.target.toLowerCase().includes(this.find);
  }
  matches(kid) {
    const thing = kid.thing;
    if (this.tag && !(kid.type === "c" && thing.tags.includes(this.tag))) return false;
    if (!this.find) return true;
    return kid.id === this.find || kid.type === "c" && thing.words.toLowerCase().includes(this.find);
  }
  make() {
    const rows = [], fewNamed = this.run.keys.filter(key => this.isNamed(key)).length <= 3;
    for (const key of this.run.keys) {
      const kids = this.wantedKids(key);
      if (!kids) continue;
      const opens = this.isFiltered && (fewNamed || !this.isNamed(key) || this.tag);
      const open = opens ? !this.turned.has(key.k) : this.unfolded.has(key.k);
      rows.push({ type: "k", thing: key, id: "k" + key.k, h: open ? this.heights.k : this.heights.folded, open });
      if (open) rows.push(...kids.filter(kid => this.kinds[kid.type]));
    }
    this.place = new Map();
    this.height = 0;
    rows.forEach((row, i) => {
      row.y = this.height;
      this.height += row.h;
      this.place.set(row.id, i);
      for (const rep of row.reps || []) this.place.set("r" + rep.r, i);
    });
    this.list = rows;
  }
  // the rows below a key that are looked for, or null where the key isn't
  wantedKids(key) {
    let kids = this.kidsOf(key);
    if (this.isFiltered) kids = this.foundKids(key, kids);
    if (kids && this.sight) {
      if (key.first > this.sight[1] || key.last < this.sight[0]) return null;
      kids = kids.filter(kid => this.isInSight(kid));
      if (this.isFiltered && !kids.length) return null;
    }
    return kids;
  }
  // what matches, with the exchanges that opened for a consumer and the body that it was shown
  foundKids(key, kids) {
    const named = this.isNamed(key), wanted = new Set(), reps = new Set();
    for (const kid of kids) {
      const hits = (kid.reps || [kid.thing]).some(thing => this.matches({ ...kid, thing, id: kid.type + thing[kid.type] }));
      const fits = named && (!this.tag || kid.type === "c" && kid.thing.tags.includes(this.tag));
      if (!hits && !fits) continue;
      wanted.add(kid.id);
      if (kid.type === "c") {
        for (const x of kid.thing.exchanges) wanted.add("x" + x);
        if (kid.thing.shown) reps.add(kid.thing.shown[1]);
      }
    }
    const found = kids.filter(kid =>
      wanted.has(kid.id) || kid.type === "r" && (kid.reps || [kid.thing]).some(rep => reps.has(rep.r)));
    return found.length || named && !this.tag ? found : null;
  }
  isInSight(kid) {
    const [from, to] = this.sight, n = this.run.n;
    const begins = { c: "started", x: "opened", r: "founded" }[kid.type], ends = kid.type === "r" ? "till" : "over";
    return (kid.reps || [kid.thing]).some(thing => thing[begins] <= to && (thing[ends] || n) >= from);
  }
  kidsOf(key) {
    if (key.kids) return key.kids;
    const kid = (type, thing) => ({ type, thing, id: type + thing[type], h: this.heights[type] });
    const bodies = key.reps.length <= MOST_BODIES ? key.reps.map(rep => kid("r", rep))
      : lanesOf(key.reps, this.run.n).map(reps => ({ ...kid("r", reps[0]), reps }));
    const readers = key.consumers.flatMap(consumer =>
      [kid("c", consumer), ...consumer.exchanges.map(x => kid("x", this.run.exchanges.get(x)))]);
    return key.kids = [...bodies, ...readers];
  }
  fold(k) {
    for (const folds of this.isFiltered ? [this.turned, this.unfolded] : [this.unfolded]) {
      if (folds.has(k)) folds.delete(k); else folds.add(k);
    }
    this.make();
  }
  foldAll(folds) {
    this.unfolded = new Set(folds ? [] : this.run.keys.map(key => key.k));
    this.make();
  }
  at(y) {
    return y < 0 || y >= this.height ? null : this.list[lastAtMost(this.list, y, row => row.y)];
  }
  // what a row is of at an event: some rows have one representation after another
  subjectAt(row, n) {
    if (!row || !row.reps) return row;
    const rep = row.reps[lastAtMost(row.reps, n || this.run.n, it => it.founded)];
    return { ...row, thing: rep, id: "r" + rep.r, reps: undefined };
  }
  subjectOf(id) {
    const row = id && this.place.has(id) ? this.list[this.place.get(id)] : null;
    if (!row || !row.reps) return row;
    return { ...row, thing: this.run.thing(id), id, reps: undefined };
  }
  // the row of a thing, or that of its key where it is folded
  rowOf(id) {
    const thing = this.run.thing(id);
    const at = this.place.get(id) ?? (thing && this.place.get("k" + thing.k));
    return at === undefined ? null : this.list[at];
  }
}

// representations of a key that share a row, since each begins behind the one before it
function lanesOf(reps, n) {
  const lanes = [];
  for (const rep of reps) {
    const lane = lanes.find(it => (it[it.length - 1].till || n + 1) < rep.founded);
    if (lane) lane.push(rep); else lanes.push([rep]);
  }
  return lanes;
}
