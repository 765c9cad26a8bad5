// What `tests/test_page.py` asks of a page: what it shows of the machine, and whether it can be read.
const audit = (() => {
  const numbers = (text) => text.match(/[\d.]+/g).map(Number);
  const parsed = (text) => { const [r, g, b, a = 1] = numbers(text); return { r, g, b, a }; };
  const over = (top, low) => Object.fromEntries(["r", "g", "b"].map((k) => [k, top[k] * top.a + low[k] * (1 - top.a)]).concat([["a", 1]]));
  const light = ({ r, g, b }) => {
    const [x, y, z] = [r, g, b].map((it) => it / 255).map((it) => (it <= 0.04045 ? it / 12.92 : ((it + 0.055) / 1.055) ** 2.4));
    return 0.2126 * x + 0.7152 * y + 0.0722 * z;
  };
  const contrast = (one, two) => {
    const [low, high] = [light(one), light(two)].sort((a, b) => a - b);
    return (high + 0.05) / (low + 0.05);
  };
  const groundOf = (element) => {
    if (!element) return { r: 255, g: 255, b: 255, a: 1 };
    const own = parsed(getComputedStyle(element).backgroundColor);
    return own.a === 1 ? own : over(own, groundOf(element.parentElement));
  };
  const isShown = (element) => element.checkVisibility({ checkOpacity: true, contentVisibilityAuto: true }) && element.getClientRects().length > 0;
  const nameOf = (element) => element.tagName + "#" + element.id + "." + element.className;
  const opacityOf = (element) => (element ? Number(getComputedStyle(element).opacity) * opacityOf(element.parentElement) : 1);
  const hasText = (element) => [...element.childNodes].some((it) => it.nodeType === Node.TEXT_NODE && it.textContent.trim());
  const all = () => [...document.body.querySelectorAll("*")].filter(isShown);

  // Texts of less than 4.5 to 1, with those that are made by the style sheet.
  function faintTexts() {
    const faint = [];
    const look = (element, style, ground) => {
      const found = contrast(over({ ...parsed(style.color), a: parsed(style.color).a * opacityOf(element) }, ground), ground);
      if (found < 4.5) faint.push(nameOf(element) + " " + found.toFixed(2));
    };
    for (const element of all()) {
      if (hasText(element)) look(element, getComputedStyle(element), groundOf(element));
      for (const part of ["::before", "::after"]) {
        const style = getComputedStyle(element, part);
        if (!["none", "normal", '""'].includes(style.content)) look(element, style, over(parsed(style.backgroundColor), groundOf(element)));
      }
    }
    return [...new Set(faint)];
  }
  // Borders of less than 3 to 1 against what is around their element.
  function faintBorders() {
    const faint = [];
    for (const element of all()) {
      const style = getComputedStyle(element);
      for (const side of ["Top", "Right", "Bottom", "Left"]) {
        const colour = parsed(style["border" + side + "Color"]);
        if (style["border" + side + "Style"] === "none" || parseFloat(style["border" + side + "Width"]) === 0 || colour.a === 0) continue;
        const found = contrast(colour, groundOf(element.parentElement));
        if (found < 3) faint.push(nameOf(element) + " " + found.toFixed(2));
      }
    }
    return [...new Set(faint)];
  }
  // (one range for all: the browser moves each that is left at each later change of the page, which took it 20 seconds)
  const range = document.createRange();
  const boxOfText = (element) => {
    range.selectNodeContents(element);
    return range.getBoundingClientRect();
  };
  const isInside = (inner, outer) => inner.left >= outer.left - 0.5 && inner.right <= outer.right + 0.5 && inner.top >= outer.top - 0.5 && inner.bottom <= outer.bottom + 0.5;
  // What is wider than the window, and labels that are larger than their tiles.
  function overflows() {
    const wide = document.documentElement.scrollWidth > innerWidth ? ["the page is " + document.documentElement.scrollWidth + " wide"] : [];
    const past = all().filter((it) => !it.closest(".tree, #history") && it.getBoundingClientRect().right > innerWidth + 0.5).map(nameOf);
    const labels = [...document.querySelectorAll(".grid i")].filter((it) => isShown(it) && it.textContent && !isInside(boxOfText(it), it.getBoundingClientRect()));
    return [...wide, ...past, ...labels.map(nameOf)];
  }
  // Pairs of controls that lie over each other.
  function overlaps() {
    const them = [...document.querySelectorAll("#controls button, #controls input, #controls output, #controls label")];
    const boxes = them.map((it) => (it.tagName === "OUTPUT" ? boxOfText(it) : it.getBoundingClientRect()));
    const isApart = (a, b) => a.right <= b.left + 0.5 || b.right <= a.left + 0.5 || a.bottom <= b.top + 0.5 || b.bottom <= a.top + 0.5;
    return them.flatMap((it, k) => them.slice(k + 1).filter((_, n) => !isApart(boxes[k], boxes[k + 1 + n])).map((other) => it.id + " " + other.id));
  }
  // Whether the event of the turn can be seen in the list of the history.
  function isHistoryAtTurn() {
    const [entry, list] = [document.querySelector("#history [aria-current]"), $("history")];
    return entry.textContent.startsWith(audit.shown().turn) && isInside(entry.getBoundingClientRect(), list.getBoundingClientRect());
  }
  const labels = (id) => [...document.querySelectorAll("#" + id + " i")].map((it) => it.getAttribute("aria-label"));
  // The sign of each tile for what its page contains.
  const signs = (id) => [...document.querySelectorAll("#" + id + " i")].map((it) => (it.classList.contains("full") ? "full" : it.classList.contains("zero") ? "zero" : ""));
  const realms = (id) => [...document.querySelectorAll("#" + id + " .realm")].map((it) => it.children[0].textContent + ", " + it.children[1].textContent);
  const shown = () => ({ line: $("line").textContent, turn: Number($("slider").value), without: $("without").value, isCompared: !$("compare").hidden });
  return { faintTexts, faintBorders, overflows, overlaps, isHistoryAtTurn, labels, signs, realms, shown };
})();
