// Realms: the attributes of each realm, and its tables as a tree.
const folded = new Set(), NO_ROWS = [];
const endOf = (row) => row.first + row.count * COVERED[row.level];
const lastOf = (row) => row.granule + row.count - 1;
// Merges adjacent rows of one level whose granules are adjacent too, but not rows that the turn has changed.
function asRuns(rows, items) {
  const runs = [];
  for (const row of rows) {
    const last = runs[runs.length - 1], isNew = isIn(row, items);
    const isPlain = (it) => it && it.state !== "TABLE" && it.granule !== null && !it.isNew;
    const isNext = isPlain(last) && isPlain({ ...row, isNew })
      && ["level", "state", "ripas"].every((it) => last[it] === row[it])
      && endOf(last) === row.first && lastOf(last) + 1 === row.granule;
    if (isNext) last.count += row.count;
    else runs.push({ ...row, isNew });
  }
  return runs;
}
const isIn = (row, items) =>
  items.some((it) => it.level === row.level && it.first < endOf(row) && row.first < endOf(it));
function rangeText(row) {
  const last = endOf(row) - 1;
  return "IPA " + row.first + (row.first === last ? "" : "\u2013" + last);
}
function rowLine(row) {
  const line = element("span", undefined, row.isNew ? "new" : "");
  line.append(element("span", "L" + row.level, "level"), " " + rangeText(row) + ": " + row.state);
  line.firstChild.title = "level " + row.level;
  const granules = row.count === 1 ? "granule " + row.granule : "granules " + row.granule + "\u2013" + lastOf(row);
  if (row.granule !== null) line.append(" \u2192 " + granules);
  if (row.state !== "TABLE") line.append(" ", element("span", row.ripas, "ripas " + row.ripas));
  return line;
}
// The entry of a table, which a user can fold. The entry stays open or folded while the turns change.
function tableEntry(key, line) {
  const details = element("details"), summary = element("summary"), list = element("ul");
  details.open = !folded.has(key);
  summary.dataset.key = key;
  summary.append(line);
  summary.addEventListener("click", () => (details.open ? folded.add(key) : folded.delete(key)));
  details.append(summary, list);
  return { details, list };
}
// The rows as a tree by ascending address, in which the rows of a table are below its TABLE row.
function treeOf(b, rows, items) {
  const root = element("ul", undefined, "tree"), stack = [{ level: 0, end: Infinity, list: root }];
  const top = () => stack[stack.length - 1];
  for (const row of asRuns(rows, items)) {
    while (row.level <= top().level || row.first >= top().end) stack.pop();
    const entry = element("li"), line = rowLine(row);
    top().list.append(entry);
    if (row.state !== "TABLE") { entry.append(line); continue; }
    const { details, list } = tableEntry([b, row.level, row.first].join("/"), line);
    entry.append(details);
    stack.push({ level: row.level, end: endOf(row), list });
  }
  return root;
}
function recText(rec) {
  const auxiliaries = rec.auxiliaries.length ? ", auxiliaries " + rec.auxiliaries.join(" ") : "";
  return "REC " + rec.number + ": " + rec.state + ", granule " + rec.granule + auxiliaries;
}
function realmBox(b, realm, items, isMarked) {
  const box = element("div", undefined, "realm" + (isMarked ? " differs" : "")), head = element("h3");
  const measured = element("p", "Measurement", "measured");
  box.dataset.b = b;
  head.append(element("span", b, "tag"), " Realm of build " + b + ": " + realm.state);
  head.firstChild.dataset.b = b;
  const last = realm.table + realm.tables - 1;
  const tables = realm.tables === 1
    ? "starting table " + realm.table
    : "starting tables " + realm.table + " to " + last;
  measured.append(element("code", realm.measurement));
  const ids = "VMID " + realm.vmid + ", RD " + realm.rd + ", " + realm.width + " bits of IPA, " + tables;
  box.append(head, element("p", ids), measured);
  const recs = realm.recs.length ? realm.recs.map(recText).join("; ") : "No REC";
  box.append(element("p", recs), treeOf(b, realm.rows, items));
  return box;
}

// The boxes of a world's realms. A box whose realm is as it was stays in its place, with its focus and its scroll.
class Realms {
  constructor(place) {
    this.place = place;
    this.slots = Array.from({ length: builds }, () => ({ shown: [], box: null }));
    this.none = element("p", "There is no realm.", "none");
  }
  draw(realms, turn, isMarked) {
    const focused = this.place.contains(document.activeElement) ? document.activeElement.dataset.key : undefined;
    const folds = [...folded].join(" ");
    realms.forEach((realm, b) => {
      const items = realm && turn !== null && turn.build === b && turn.rows ? turn.rows : NO_ROWS;
      const shown = realm ? [realm, items, isMarked(b), folds] : [];
      if (shown.length === this.slots[b].shown.length && shown.every((it, k) => it === this.slots[b].shown[k])) return;
      this.slots[b].shown = shown;
      this.replace(b, realm && realmBox(b, realm, items, isMarked(b)));
    });
    if (this.slots.every(({ box }) => box === null)) this.place.replaceChildren(this.none);
    else this.none.remove();
    if (focused) this.place.querySelector('[data-key="' + focused + '"]')?.focus({ preventScroll: true });
  }
  replace(b, box) {
    const old = this.slots[b].box, next = this.slots.slice(b + 1).find((it) => it.box !== null);
    const top = old ? old.lastChild.scrollTop : 0;
    if (old) old.remove();
    if (box) this.place.insertBefore(box, next ? next.box : null);
    if (box && top) box.lastChild.scrollTop = top;
    this.slots[b].box = box;
  }
}
