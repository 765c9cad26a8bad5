// The turn that is shown: its line, its reason, the machine after it, and the history up to it.
const refusedAt = new Map((data.refused || []).map((it) => [it.turn, it]));
const bare = (text, label) => (text.startsWith(label + ": ") ? text.slice(label.length + 2) : text);
const isRefused = (turn) => turn.accepted === false;
const lineOf = (turn) => turn.build + (turn.step === null ? " - idle" : " " + turn.step + " = " + turn.answer);

// The text of the turn at a place: the reason and the help of a refusal, or the event that it added to the history.
function reasonOf(at) {
  const turn = turns[at], found = refusedAt.get(at);
  if (turn.step === null) return { text: "The build has no step left." };
  if (!isRefused(turn)) return { text: turn.event === null ? "Nothing changes." : "Event: " + turn.event };
  return found
    ? { error: bare(found.error, "error"), help: found.help && bare(found.help, "help") }
    : { error: refusalText(turn) };
}
// A text in which each part between two backquotes becomes code.
const withCode = (text) => text.split("`").map((part, k) => (k % 2 ? element("code", part) : part));
function drawReason(reason) {
  const error = reason.error && [element("b", "error:"), " ", ...withCode(reason.error)];
  $("reason").replaceChildren(...(error || [reason.text]));
  $("help").replaceChildren(...(reason.help ? [element("b", "help:"), " ", ...withCode(reason.help)] : []));
}

// ---- the history

const entries = [];
function makeEntry(at) {
  const turn = turns[at], button = element("button"), item = element("li");
  button.type = "button";
  button.tabIndex = -1;
  button.title = "Turn " + (at + 1);
  button.append(element("span", at + 1, "turn"), element("span", turn.event === null ? lineOf(turn) : turn.event));
  button.addEventListener("click", () => { stop(); show(at + 1); });
  item.append(button);
  entries.push({ at, button, isRefused: isRefused(turn) });
  return item;
}
function makeHistory() {
  const told = turns.map((_, at) => at).filter((at) => turns[at].event !== null || isRefused(turns[at]));
  $("history").append(...told.map(makeEntry));
  if (!told.length) $("history").append(element("li", "No command was asked for.", "none"));
  else entries[0].button.tabIndex = 0;
}
let current = 0;
function drawHistory() {
  for (const { at, button, isRefused } of entries) {
    const isOut = out !== null && turns[at].build === out;
    button.className = (isRefused ? "refused" : "") + (at >= now ? " later" : "") + (isOut ? " out" : "");
  }
  if (!entries.length) return;
  const past = entries.findIndex(({ at }) => at >= now), last = past < 0 ? entries.length - 1 : past - 1;
  entries[current].button.removeAttribute("aria-current");
  entries[current].button.tabIndex = -1;
  current = Math.max(0, last);
  entries[current].button.tabIndex = 0;
  if (last >= 0) entries[current].button.setAttribute("aria-current", "true");
  reveal(entries[current].button);
}
function reveal(button) {
  const list = $("history"), [inner, outer] = [button, list].map((it) => it.getBoundingClientRect());
  const isIn = outer.top <= inner.top && inner.bottom <= outer.bottom;
  if (!isIn) list.scrollTop += inner.top - outer.top - list.clientHeight / 2;
}

// ---- the builds

function buildRow(b, world, isNow) {
  const row = element("tr", undefined, isNow ? "now" : ""), tag = element("span", b, "tag"), realm = world.realms[b];
  const texts = [world.leased[b], world.open[b] + (world.aborting[b] ? ", aborting" : ""),
    world.mark[b] === null ? "-" : "at " + world.mark[b],
    realm ? realm.state + ", VMID " + realm.vmid : "-"];
  tag.dataset.b = b;
  const head = element("th");
  head.scope = "row";
  head.append(tag);
  row.append(head, ...texts.map((text) => element("td", text)));
  return row;
}
function drawBuilds(world, turn) {
  const rows = world.leased.map((_, b) => buildRow(b, world, turn !== null && turn.build === b));
  $("builds").tBodies[0].replaceChildren(...rows);
  $("free").textContent = counted(pages - world.leased.reduce((sum, n) => sum + n, 0), "page") + " free";
}

// ---- all of it

let now = 0, out = null;
const grid = new Grid($("grid")), realms = new Realms($("realms"));
function drawTurn(turn) {
  $("slider").value = now;
  $("slider").setAttribute("aria-valuetext", "turn " + now + " of " + turns.length);
  $("count").textContent = "turn " + now + " of " + turns.length;
  $("line").textContent = turn ? lineOf(turn) : "Before the first turn";
  drawReason(turn ? reasonOf(now - 1) : { text: "All pages are free and zero." });
  $("turn").classList.toggle("refused", turn !== null && isRefused(turn));
}
function drawRun(turn) {
  const world = everyone.after(now), changed = new Set(changedBy(turn, world));
  grid.draw(world, (g) => (changed.has(g) ? "new" : ""));
  realms.draw(world.realms, turn, () => false);
  drawBuilds(world, turn);
}
function draw() {
  const turn = now ? turns[now - 1] : null;
  drawTurn(turn);
  if (out === null) drawRun(turn);
  else drawCompared(turn);
  drawHistory();
  drawPicked();
  tellAddress();
}
function show(n) {
  now = Math.max(0, Math.min(turns.length, n));
  if (now === turns.length) stop();
  draw();
}
