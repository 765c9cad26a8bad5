// The controls, the keys, and the start of the page.
let playing = null;
function stop() {
  if (playing === null) return;
  clearInterval(playing);
  playing = null;
  $("play").textContent = "Play";
  $("turn").setAttribute("aria-live", "polite");
}
function play() {
  if (playing !== null) { stop(); return; }
  if (now === turns.length) show(0);
  $("play").textContent = "Pause";
  $("turn").setAttribute("aria-live", "off");
  playing = setInterval(() => show(now + 1), Math.max(40, Math.min(700, 60000 / Math.max(1, turns.length))));
}
function go(n) {
  stop();
  show(n);
}

// ---- the granule that is pointed at or gone to

let picked = null;
const gridsNow = () => (out === null ? [grid] : pair.grids);
const allGrids = () => (pair ? [grid, ...pair.grids] : [grid]);
function drawPicked() {
  if (picked === null) return;
  $("cell").textContent = out === null
    ? granuleText(everyone.world, picked)
    : "In the run: " + granuleText(everyone.world, picked)
      + ". Without build " + out + ": " + granuleText(othersOf[out].world, picked);
}
function pick(g) {
  if (picked !== null) allGrids().forEach((it) => it.pick(picked, false));
  picked = g;
  gridsNow().forEach((it) => it.pick(g, true));
  drawPicked();
}
function pickAt(e) {
  const it = allGrids().find(({ place }) => place === e.currentTarget), g = it.granuleOf.get(e.target);
  if (g !== undefined) pick(g);
}
for (const id of ["grid", "run-grid", "other-grid"]) {
  $(id).addEventListener("mouseover", pickAt);
  $(id).addEventListener("click", pickAt);
  $(id).addEventListener("focus", () => pick(picked === null ? 0 : picked));
}
function walk(step) {
  const g = (picked === null ? 0 : picked) + step;
  if (g >= 0 && g < pages) pick(g);
}
function walkHistory(step) {
  const at = entries.findIndex(({ button }) => button === document.activeElement) + step;
  if (entries[at]) { go(entries[at].at + 1); entries[at].button.focus(); }
}

// ---- keys: the same wherever the focus is

const TURNS = {
  ArrowLeft: () => go(now - 1), ArrowRight: () => go(now + 1), Home: () => go(0),
  End: () => go(turns.length), " ": play,
  Escape: () => { stop(); leaveOut(null); }, t: () => $("theme").click(), T: () => $("theme").click(),
};
const WALKS = {
  ArrowLeft: () => walk(-1), ArrowRight: () => walk(1),
  ArrowUp: () => walk(-columnsNow()), ArrowDown: () => walk(columnsNow()),
};
const LIST = { ArrowUp: () => walkHistory(-1), ArrowDown: () => walkHistory(1) };
function actionOf(e) {
  const at = e.target instanceof Element ? e.target : document.body;
  const inGrid = at.closest(".grid"), inHistory = at.closest("#history");
  if (inGrid && (e.shiftKey || e.key === "ArrowUp" || e.key === "ArrowDown") && WALKS[e.key]) return WALKS[e.key];
  if (inHistory && LIST[e.key]) return LIST[e.key];
  const build = countIn(e.key, builds - 1);
  if (build !== undefined) return () => leaveOut(out === build ? null : build);
  return TURNS[e.key];
}
document.addEventListener("keydown", (e) => {
  const action = e.ctrlKey || e.metaKey || e.altKey ? undefined : actionOf(e);
  if (!action) return;
  e.preventDefault();
  e.stopPropagation();
  if (e.key !== " " || !e.repeat) action();
}, true);
// Keeps Space from pressing the button that has the focus when the key is let go.
document.addEventListener("keyup", (e) => { if (e.key === " ") e.preventDefault(); }, true);

// ---- the beginning

function addKey(sign, meaning) {
  const key = element("span");
  key.append(sign, meaning);
  $("legend").append(key);
}
function makeLegend() {
  const isSmall = SIZE === "small" || SIZE === "tiny";
  for (const state of Object.keys(WORDS)) {
    addKey(element("i", isSmall ? "" : WORDS[state], state), state + ": " + MEANINGS[state]);
  }
  addKey(element("i", "", "free"), "free");
  if (!isSmall) addKey(element("i", "", "dot zero"), "all bytes zero");
  addKey(element("i", "", "dot full"), "not zero");
  const tag = element("i", "0", "tag");
  tag.dataset.b = 0;
  addKey(tag, "leased by build 0");
}
function makeTitle() {
  if (!data.title) return;
  const title = data.title.replace(/`|\*\*/g, "");
  const [, first, rest] = title.match(/^(.*?[.!?])\s+(\S.*)$/s) || [null, title, ""];
  document.title = title;
  $("title").textContent = first;
  $("about").textContent = rest && !/[.!?]$/.test(rest) ? rest + " \u2026" : rest;
}
function begin() {
  const s = run.settings, events = turns.filter((turn) => turn.event !== null).length;
  const sizes = [[s.pages, "page"], [s.vmids, "VMID"], [s.builds, "build"], [turns.length, "turn"], [events, "event"]];
  $("machine").textContent = sizes.map(([n, one]) => counted(n, one)).join(", ");
  $("run").classList.add(SIZE);
  if ((data.refused || []).some((it) => it.help)) $("turn").classList.add("helped");
  for (let b = 0; b < builds; b++) $("without").append(new Option("build " + b, b));
  $("slider").max = turns.length;
  setTheme(DARK.matches ? "dark" : "light");
  makeTitle();
  makeLegend();
  makeHistory();
  const asked = location.hash;
  show(turns.length);
  followAddress(asked);
}
$("slider").addEventListener("input", () => go(Number($("slider").value)));
const BUTTONS = { first: TURNS.Home, back: TURNS.ArrowLeft, next: TURNS.ArrowRight, last: TURNS.End, play };
for (const [id, action] of Object.entries(BUTTONS)) $(id).addEventListener("click", action);
$("theme").addEventListener("click", () => {
  chooseTheme(document.documentElement.dataset.theme === "dark" ? "light" : "dark");
  tellAddress();
});
$("without").addEventListener("change", () => leaveOut($("without").value === "" ? null : Number($("without").value)));
DARK.addEventListener("change", () => { if (themeAsked === null) setTheme(DARK.matches ? "dark" : "light"); });
isNarrow.addEventListener("change", () => allGrids().forEach((it) => it.arrange()));
addEventListener("hashchange", (e) => followAddress(new URL(e.newURL).hash));
begin();
