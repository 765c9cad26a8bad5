// The worlds of the run: the states of its machine after each number of turns. The data has what each turn changed of
// granules, rows, RECs and realms; a world is made by applying these changes in order. The world without a build is
// made by those of the others alone. What a page contains follows from the events: fill, data and poke write, and any
// other event clears the granules that it changes.
const data = JSON.parse(document.getElementById("data").textContent);
const run = data.run, turns = run.turns, pages = run.settings.pages, builds = run.settings.builds;
const COVERED = { 1: 262144, 2: 512, 3: 1 };

// ---- the bytes of a page: one value, and the bytes that were written over it

const filled = (value) => ({ value, written: new Map(), sum: 4096 * value });
const ZERO = filled(0);
const byteAt = (page, offset) => page.written.get(offset) ?? page.value;
function withByte(page, offset, value) {
  return { value: page.value, written: new Map(page.written).set(offset, value),
    sum: page.sum - byteAt(page, offset) + value };
}
function isSamePage(one, other) {
  if (one === other || one.sum !== other.sum) return one === other;
  if (one.value === other.value && one.written.size + other.written.size === 0) return true;
  for (let offset = 0; offset < 4096; offset++) if (byteAt(one, offset) !== byteAt(other, offset)) return false;
  return true;
}

// ---- worlds

const FREE = { state: "UNDELEGATED", build: null, realm: null };
function freshWorld() {
  return {
    granules: Array.from({ length: pages }, (_, granule) => ({ granule, ...FREE })),
    contents: Array(pages).fill(ZERO), numbers: Array(pages).fill(0), leased: Array(builds).fill(0),
    realms: Array(builds).fill(null), open: Array(builds).fill(0),
    mark: Array(builds).fill(null), aborting: Array(builds).fill(false),
  };
}
function copyWorld(world) {
  return {
    granules: world.granules.slice(), contents: world.contents.slice(), numbers: world.numbers.slice(),
    leased: world.leased.slice(),
    realms: world.realms.slice(), open: world.open.slice(), mark: world.mark.slice(), aborting: world.aborting.slice(),
  };
}
// The rows with an item put in, which replaces the rows in its range at its level and below.
function withRow(rows, item) {
  const from = item.first, to = item.first + item.count * COVERED[item.level], kept = [];
  for (const row of rows) {
    const size = COVERED[row.level], start = row.first, end = row.first + row.count * size;
    if (row.level < item.level || end <= from || to <= start) { kept.push(row); continue; }
    if (start < from) kept.push({ ...row, count: (from - start) / size });
    if (to < end) kept.push({ ...row, first: to, count: (end - to) / size });
  }
  kept.push(item);
  return kept.sort((a, b) => a.first - b.first || a.level - b.level);
}
function withRec(recs, rec) {
  const others = recs.filter((it) => it.number !== rec.number);
  return rec.state ? [...others, rec].sort((a, b) => a.number - b.number) : others;
}
function granuleAt(realm, ipa) {
  return realm.rows.find((row) => row.level === 3 && row.first <= ipa && ipa < row.first + row.count).granule;
}
// The operation of an event, as its word and its numbers.
function eventOf(turn) {
  const [, word, ...numbers] = turn.event.split(" ");
  return { word, numbers: numbers.map(Number) };
}
// The granules whose attributes or content a turn changed.
function changedBy(turn, world) {
  if (turn === null || turn.event === null) return [];
  const { word, numbers } = eventOf(turn);
  if (word === "fill") return [numbers[0]];
  if (word === "poke") return [granuleAt(world.realms[turn.build], numbers[1])];
  return (turn.granules || []).map((item) => item.granule);
}
function stepRealm(world, turn) {
  const old = world.realms[turn.build];
  let realm = old;
  if ("realm" in turn) realm = turn.realm && { ...turn.realm, rows: old ? old.rows : [], recs: old ? old.recs : [] };
  if (realm && turn.rows) realm = { ...realm, rows: turn.rows.reduce(withRow, realm.rows) };
  if (realm && turn.recs) realm = { ...realm, recs: turn.recs.reduce(withRec, realm.recs) };
  world.realms[turn.build] = realm;
}
// Updates the leases of a build. The number of a page is the count of pages that the build had when it took the page.
function stepLeases(world, build, word, [order, first]) {
  if (word === "take") for (let k = 0; k < 2 ** order; k++) world.numbers[first + k] = world.leased[build]++;
  if (word === "untake") world.leased[build] -= 2 ** order;
}
function stepContents(world, turn, word, numbers) {
  const contents = world.contents, [changed] = changedBy(turn, world);
  if (word === "fill") contents[changed] = filled(numbers[1]);
  else if (word === "data") contents[changed] = contents[numbers[2]];
  else if (word === "poke") contents[changed] = withByte(contents[changed], numbers[2], numbers[3]);
  else for (const granule of changedBy(turn, world)) contents[granule] = ZERO;
}
function stepWorld(world, turn) {
  for (const item of turn.granules || []) world.granules[item.granule] = item;
  stepRealm(world, turn);
  if (turn.event !== null) {
    const { word, numbers } = eventOf(turn);
    stepLeases(world, turn.build, word, numbers);
    stepContents(world, turn, word, numbers);
  }
  world.open[turn.build] = turn.open;
  world.mark[turn.build] = turn.mark;
  world.aborting[turn.build] = turn.aborting;
}

// The worlds after each number of turns, if only the chosen turns are performed.
// Every so often one is kept, to begin from.
class Worlds {
  constructor(isChosen) {
    this.isChosen = isChosen;
    this.every = 512;
    this.kept = [freshWorld()];
    this.go(0);
  }
  go(k) {
    this.world = copyWorld(this.kept[k]);
    this.at = k * this.every;
  }
  after(n) {
    const k = Math.min(Math.floor(n / this.every), this.kept.length - 1);
    if (n < this.at || k * this.every > this.at) this.go(k);
    while (this.at < n) {
      const turn = turns[this.at++];
      if (this.isChosen(turn)) stepWorld(this.world, turn);
      if (this.at === this.kept.length * this.every) this.kept.push(copyWorld(this.world));
    }
    return this.world;
  }
}
const everyone = new Worlds(() => true);
const othersOf = Array.from({ length: builds }, (_, b) => new Worlds((turn) => turn.build !== b));
