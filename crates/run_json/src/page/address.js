// The address of the page names the turn that is shown, the build that is left out, and the theme. A link can ask for
// them, also in an open tab.
const DARK = matchMedia("(prefers-color-scheme: dark)");
let themeAsked = null;
function setTheme(theme) {
  document.documentElement.dataset.theme = theme;
  $("theme").textContent = theme === "dark" ? "Light" : "Dark";
}
function chooseTheme(theme) {
  themeAsked = theme;
  setTheme(theme);
}
// The number in a part of the address, if it is a count up to `most`.
function countIn(text, most) {
  return /^(0|[1-9][0-9]{0,5})$/.test(text) && Number(text) <= most ? Number(text) : undefined;
}
// Shows what an address asks for. A missing part asks for the default, and a wrong part is ignored. So is an address
// that has none of the parts.
function followAddress(hash) {
  const asked = new URLSearchParams(hash.slice(1));
  const [turn, build, theme] = ["turn", "without", "theme"].map((it) => asked.get(it));
  if (turn !== null || build !== null || theme !== null) {
    if (theme === "dark" || theme === "light") chooseTheme(theme);
    now = turn === null ? turns.length : countIn(turn, turns.length) ?? now;
    leaveOut(build === null ? null : countIn(build, builds - 1) ?? out);
  }
  tellAddress();
}
function addressNow() {
  const parts = { turn: now };
  if (out !== null) parts.without = out;
  if (themeAsked !== null) parts.theme = themeAsked;
  return "#" + new URLSearchParams(parts);
}
// Changes the address at once, and then at most four times a second, since browsers limit such changes.
let pending = null;
function tellAddress() {
  if (pending !== null) return;
  writeAddress();
  pending = setTimeout(() => { pending = null; writeAddress(); }, 250);
}
function writeAddress() {
  if (location.hash === addressNow()) return;
  try { history.replaceState(null, "", addressNow()); } catch { /* a browser that lets no page of a file do so */ }
}
