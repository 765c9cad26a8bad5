"""The picture of the crates: the groups of crates.txt, and which depends on which."""
import textwrap
from itertools import pairwise
from pathlib import Path

from drawing import HEAD, MARKER, path, picture, rect, text

CRATES = Path(__file__).resolve().parent.parent / "crates.txt"
TITLE = "The crates"
# The place of each group: those of the main column one above the other, and the others beside it.
MAIN = ["Programs", "Plans", "Threads", "Host", "RMM", "Stores", "Model"]
BESIDE = {"Traces": ("Programs", "Programs"), "Texts": ("Host", "Host"), "RMM by registers": ("RMM", "RMM")}
LEFT, WIDE, RIGHT, NARROW, GAP, LINE = 16, 476, 540, 274, 26, 16


def groups_of(lines):
    """The groups by name: what each is, and its crates with the libraries on which they depend."""
    groups, crates = {}, {}
    for line in lines[1:]:
        name, _, rest = line.partition(":")
        if line.startswith("#"):
            crates = {}
            groups[name[1:].strip()] = rest.strip(), crates
        elif line:
            crates[name.split()[0]] = rest.split()
    return groups


def edges_of(groups):
    """The groups on which each depends, but for those on which another of them depends."""
    group_of = {crate: name for name, (_, crates) in groups.items() for crate in crates}
    below = {
        name: {group_of[it] for libraries in crates.values() for it in libraries if it in group_of} - {name}
        for name, (_, crates) in groups.items()
    }
    # (a group comes after those on which it depends)
    for name in below:
        below[name] |= {it for other in below[name] for it in below[other]}
    return {name: its - {it for other in its for it in below[other]} for name, its in below.items()}


class Box:
    """A group's place: its left side, top, width and height, and the lines with its crates."""

    def __init__(self, name, said, crates, x, y, width, height=0):
        self.name, self.said, self.x, self.y, self.width = name, said, x, y, width
        self.lines = textwrap.wrap(", ".join(crates), (width - 24) * 10 // 73)
        self.height = max(height, 50 + LINE * len(self.lines))

    def drawn(self):
        yield rect(self.x, self.y, self.width, self.height, "band", 6)
        yield text(self.x + 12, self.y + 20, self.name, "ink b")
        yield text(self.x + 12, self.y + 36, self.said, "soft s")
        for place, line in enumerate(self.lines):
            yield text(self.x + 12, self.y + 54 + LINE * place, line, "m ink")


def boxes_of(groups):
    boxes, y = {}, 72
    for name in MAIN:
        said, crates = groups[name]
        boxes[name] = Box(name, said, crates, LEFT, y, WIDE)
        y += boxes[name].height + GAP
    for name, (first, last) in BESIDE.items():
        said, crates = groups[name]
        top, bottom = boxes[first].y, boxes[last].y + boxes[last].height
        boxes[name] = Box(name, said, crates, RIGHT, top, NARROW, bottom - top)
    return boxes


def arrows(boxes, edges):
    for above, below in pairwise(MAIN):
        if below in edges[above]:
            yield path(f"M{LEFT + 40} {boxes[above].y + boxes[above].height}V{boxes[below].y - 2}", more=HEAD)
    for name, box in boxes.items():
        for it in sorted(edges[name]):
            if name in MAIN and it in BESIDE:
                # to the right, and down into a box beside or past one
                x = RIGHT - 16 if boxes[it].y > box.y + 200 and name != "Programs" else RIGHT + NARROW // 2
                y = box.y + box.height // 2
                end = f"V{boxes[it].y + 40}H{RIGHT - 2}" if x < RIGHT else f"V{boxes[it].y - 2}"
                yield path(f"M{LEFT + WIDE} {y}H{x}{end}", more=HEAD)
            elif name in BESIDE and it in MAIN:
                x, y = RIGHT + 40, boxes[it].y + boxes[it].height // 2
                yield path(f"M{x} {box.y + box.height}V{y}H{LEFT + WIDE + 2}", more=HEAD)
            elif name in BESIDE:
                yield path(f"M{RIGHT + NARROW - 40} {box.y + box.height}V{boxes[it].y - 2}", more=HEAD)


def crates_picture():
    groups = groups_of(CRATES.read_text(encoding="utf-8").splitlines())
    edges = edges_of(groups)
    shown = {name: its for name, its in groups.items() if name in MAIN or name in BESIDE}
    boxes = boxes_of(shown)
    said = "; ".join(f"{name} depends on {', '.join(sorted(edges[name])) or 'no other'}" for name in shown)
    last = boxes["Model"]
    drawn = [
        MARKER, text(20, 34, TITLE, "ink b h"),
        text(20, 54, "An arrow leads from a group to one on which it depends. Crates of tests are left out.", "soft"),
        *(it for box in boxes.values() for it in box.drawn()), *arrows(boxes, edges),
    ]
    return picture(TITLE, said, last.y + last.height + 18, drawn)
