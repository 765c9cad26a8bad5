"""The picture of the tables in plans/guide/tables.toml before its undo: from the descriptor by walks down to level 3."""
from drawing import HEAD, MARKER, cell, path, picture, rect, text

TITLE = "The tables of the plan, before its undo"
SAID = (
    "Page 0, the descriptor RD, leads to page 1, the starting table of level 1. Entry 0 of that is for IPA granules 0 to 262143, "
    "and leads to page 2, a table of level 2. Entry 0 of page 2 is for IPA granules 0 to 511, and leads to page 3; entry 1 is for "
    "512 to 1023, and leads to page 4. These two are tables of level 3, and each of their entries is for one IPA granule. No other "
    "entry leads anywhere yet. The undo takes page 4 away."
)
ROW, TOP, BELOW = 26, 112, 276
NUMBERS = ("0", "1", "..", "511")
# The state of each page, what it is, its place and width, and what its rows are for.
PLACES = (
    ("RD", "page 0", 22, TOP, 104, ("descriptor",)),
    ("RTT", "page 1: level 1", 176, TOP, 204, ("0 to 262143", "262144 to 524287", "", "133955584 to 134217727")),
    ("RTT", "page 2: level 2", 430, TOP, 178, ("0 to 511", "512 to 1023", "", "261632 to 262143")),
    ("RTT", "page 3: level 3", 658, TOP, 150, ("0", "1", "", "511")),
    ("RTT", "page 4: level 3", 658, BELOW, 150, ("512", "513", "", "1023")),
)
FACTS = (
    ("A row has the number of an entry, and the IPA granules that the entry is for: 262,144 of them", "soft"),
    ("in a table of level 1 (1 GiB), 512 in one of level 2 (2 MiB), one in a table of level 3 (4 KiB).", "soft"),
    ("The walk to IPA granule 0 takes entry 0 of pages 1, 2 and 3.", "ink b"),
    ("The walk to IPA granule 512 takes entry 0 of page 1, entry 1 of page 2, entry 0 of page 4.", "ink b"),
    ("The undo takes page 4 away. Then that walk ends in page 2, which is at level 2.", "soft"),
)


def place(state, said, x, top, width, rows):
    """A page with its rows."""
    yield text(x, top - 14, said, "ink b")
    yield rect(x, top, width, ROW * len(rows) + 8, "band") + cell(x + width - 46, top - 26, 42, 18, state)
    for row, granules in enumerate(rows):
        y = top + 22 + ROW * row
        yield text(x + 10, y, NUMBERS[row] if state == "RTT" else granules, "m ink")
        if state == "RTT" and granules:
            yield text(x + width - 8, y, f"for {granules}", "soft s", "end")


def leads_on():
    """The arrows from the descriptor, and from each entry that leads to a table."""
    for x, end in ((126, 176), (380, 430), (608, 658)):
        yield path(f"M{x} {TOP + 17}H{end - 5}", more=HEAD)
    yield path(f"M608 {TOP + 17 + ROW}H634V{BELOW + 17}H653", more=HEAD)


def tables_picture():
    drawn = [
        MARKER, text(22, 34, TITLE, "ink b h"),
        text(22, 56, "A walk begins at the starting table, page 1, and ends where an entry leads to no further table.", "soft"),
        *(it for row in PLACES for it in place(*row)), *leads_on(),
        *(text(22, BELOW + 14 + 22 * row, said, kind) for row, (said, kind) in enumerate(FACTS)),
    ]
    return picture(TITLE, SAID, BELOW + ROW * 4 + 28, drawn)
