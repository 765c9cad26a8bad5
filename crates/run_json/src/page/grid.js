// Grids of granules: each granule is a tile, filled by its state and framed by its build.
const element = (tag, text, className) => {
  const made = document.createElement(tag);
  if (text !== undefined) made.textContent = text;
  if (className) made.className = className;
  return made;
};
const $ = (id) => document.getElementById(id);
const SIZE = pages <= 64 ? "large" : pages <= 256 ? "middle" : pages <= 1024 ? "small" : "tiny";
const COLUMNS = { large: [8, 8], middle: [16, 8], small: [32, 16], tiny: [64, 32] };
const isNarrow = matchMedia("(max-width: 760px)");
const columnsNow = () => Math.min(pages, COLUMNS[SIZE][isNarrow.matches ? 1 : 0]);
const hasBytes = (state) => state === "UNDELEGATED" || state === "DELEGATED" || state === "DATA";

// The kind of a granule's content: the RMM's own, all zeros, or other bytes.
const kindOf = (state, page) => (!hasBytes(state) ? "" : page.sum === 0 ? "zero" : "full");
function contentText(state, page) {
  if (!hasBytes(state)) return "holds what the RMM keeps there";
  return page.sum === 0 ? "all bytes zero" : "not zero, sum of its bytes " + page.sum;
}
function granuleText(world, g) {
  const { state, build, realm } = world.granules[g], bytes = contentText(state, world.contents[g]);
  if (build === null) return "granule " + g + ", free; " + bytes;
  const own = "granule " + g + ", page " + world.numbers[g] + " of build " + build + ": ";
  const whose = realm === null ? "" : ", of the realm with RD " + realm;
  return own + state + ", " + MEANINGS[state] + whose + "; " + bytes;
}

const CELL = element("i", " ");
CELL.setAttribute("role", "gridcell");
class Grid {
  constructor(place) {
    this.place = place;
    place.classList.add(SIZE);
    this.cells = Array.from({ length: pages }, () => CELL.cloneNode(true));
    if (SIZE === "large") this.cells.forEach((cell, g) => (cell.dataset.g = g));
    this.granuleOf = new Map(this.cells.map((cell, g) => [cell, g]));
    this.shown = Array(pages).fill("");
    this.arrange();
  }
  arrange() {
    const columns = columnsNow(), rows = [];
    for (let g = 0; g < pages; g++) {
      if (g % columns === 0) rows.push(element("div"));
      rows[rows.length - 1].append(this.cells[g]);
    }
    rows.forEach((row) => row.setAttribute("role", "row"));
    this.place.style.setProperty("--columns", columns);
    this.place.replaceChildren(...rows);
  }
  draw(world, marks) {
    for (let g = 0; g < pages; g++) {
      const { state, build, realm } = world.granules[g], page = world.contents[g], mark = marks(g);
      const shown = [state, build, realm, world.numbers[g], page.sum, mark].join(" ");
      if (this.shown[g] === shown) continue;
      this.shown[g] = shown;
      this.drawCell(g, world, (build === null ? "free" : state) + " " + kindOf(state, page) + " " + mark);
    }
  }
  drawCell(g, world, className) {
    const cell = this.cells[g], { state, build } = world.granules[g];
    cell.className = className;
    cell.firstChild.data = build === null ? "" : SIZE === "small" || SIZE === "tiny" ? build : WORDS[state];
    if (build === null) cell.removeAttribute("data-b");
    else cell.setAttribute("data-b", build);
    cell.setAttribute("aria-label", granuleText(world, g));
  }
  pick(g, isPicked) {
    const cell = this.cells[g];
    cell.classList.toggle("pick", isPicked);
    cell.title = cell.getAttribute("aria-label");
    cell.id = this.place.id + "-" + g;
    if (isPicked) this.place.setAttribute("aria-activedescendant", cell.id);
  }
}
