"""The picture of a run: from top to bottom its turns, from left to right the free pages and those of each build."""
from itertools import groupby, takewhile

from drawing import WIDTH, WORD, cell, path, picture, rect, text, word

ROW, COLUMN, GAP, LEFT, BAR, NOTES = 20, 31, 18, 20, 36, 132
CHARACTER = 7.3  # the width of a character in a line of the run, at most
MEANING = dict(zip(WORD, ("UNDELEGATED", "DELEGATED", "a realm's descriptor", "translation table", "a realm's memory",
                          "virtual processor", "auxiliary of one")))


class Sheet:
    """The places of things. Row 0 is the machine before the first turn."""

    def __init__(self, turns, pages):
        self.turns, self.pages, self.last = turns, pages, turns[-1].states
        self.most = [max(len(turn.states[build]) for turn in turns) for build in range(len(self.last))]
        self.free = LEFT + CHARACTER * max(len(turn.line) for turn in turns) + GAP
        self.lefts = [self.free + 22 + BAR + GAP]
        for most in self.most:
            self.lefts.append(self.lefts[-1] + max(most, 3) * COLUMN + GAP)
        self.right = self.lefts[-1] - GAP + 4
        has_notes = any(turn.is_refused or turn.step == "abort" for turn in turns)
        self.width = max(WIDTH, round(self.right + (NOTES if has_notes else LEFT - 4)))
        self.legend, x, y = [], LEFT, 70
        for state, meaning in MEANING.items():
            if any(state in states.values() for turn in turns for states in turn.states):
                width = COLUMN + 22 + (8.6 if meaning.isupper() else 6.6) * len(meaning)
                x, y = (x, y) if x + width < self.width else (LEFT, y + 24)
                self.legend.append((x, y, state))
                x += width
        self.top = y + 68

    def y(self, row):
        return self.top + ROW * row

    def x(self, build, page):
        return self.lefts[build] + COLUMN * page

    def head(self, title, said):
        """The title, the legend, and the heads of the columns."""
        yield text(LEFT, 34, title, "ink b h") + text(LEFT, 56, said, "soft")
        for x, y, state in self.legend:
            yield cell(x, y, COLUMN - 2, 18, state) + text(x + COLUMN + 4, y + 13, MEANING[state])
        y = self.top - 9
        yield text(LEFT, y, "build, step = answer", "soft") + text(self.free, y, "free pages", "soft")
        for build, most in enumerate(self.most):
            yield text(self.lefts[build], y - 17, f"pages of build {build}", "ink b")
            for page in range(most):
                yield text(self.x(build, page) + COLUMN / 2, y, str(page), "soft w", "middle")

    def rows(self):
        """The lines of the run, on a band where they are an odd build's, and how many pages are free."""
        yield text(LEFT, self.y(0) + 14, "before the first turn", "soft") + self.free_bar(self.y(0), self.pages)
        for row, turn in enumerate(self.turns, 1):
            y, x, kind = self.y(row), LEFT - 8, "m bad b" if turn.is_refused else "m ink"
            if turn.is_refused:
                yield rect(x, y, self.width - 2 * x, ROW, "alarm")
                yield from self.refusal(row, turn)
            elif turn.build % 2:
                yield rect(x, y, self.right - x, ROW, "band")
            yield text(LEFT, y + 14, turn.line, kind) + self.free_bar(y, turn.free)

    def free_bar(self, y, free):
        bar = rect(self.free + 22, y + 4, BAR * free / self.pages, ROW - 8, "bar", 2)
        return text(self.free + 16, y + 14, str(free), "m ink", "end") + bar

    def refusal(self, row, turn):
        """A cross beside a refused turn, and why the build fails if it is aborted next."""
        y, x = self.y(row), self.right + 4
        fails = next((it.step for it in self.turns[row:] if it.build == turn.build), "") == "abort"
        yield path(f"M{x:g} {y + 6}l8 8m0-8l-8 8", "cross", ' stroke-width="2"')
        yield text(x + 16, y + 14, f"build {turn.build} fails" if fails else "refused", "bad b")
        if fails and " NoBlock " in turn.line:
            yield text(x + 16, y - 22, f"no block of {1 << int(turn.line.split()[-1])}", "bad")
            yield text(x + 16, y - 6, "pages is free:", "bad")

    def lane(self, build, page):
        """A page's states from top to bottom, each with its word: where it is new, and fainter where it stays."""
        x, row = self.x(build, page), 1
        for state, same in groupby(turn.states[build].get(page) for turn in self.turns):
            rows = range(row, row := row + len(list(same)))
            if state:
                yield rect(x + 1, self.y(rows[0]) + 1, COLUMN - 2, ROW * len(rows) - 2, WORD[state].lower())
                for it in rows:
                    yield word(x + COLUMN / 2, self.y(it) + 14, state, "" if it == rows[0] else ' opacity=".45"')

    def aborts(self):
        """Brackets beside the turns of each build that is aborted: those before, and those of its first abort."""
        for build, most in enumerate(self.most):
            own = [(row, it.step) for row, it in enumerate(self.turns, 1) if it.build == build and not it.is_refused]
            before = [row for row, _ in takewhile(lambda it: it[1] != "abort", own)]
            back = [row for row, _ in takewhile(lambda it: it[1] == "abort", own[len(before) :])]
            if before and back and most:
                yield from self.bracket(build, before[0], before[-1], f"build {build} grows")
                said = f"build {build} shrinks:", "each turn undoes", "one operation, the", "newest first"
                yield from self.bracket(build, back[0], back[-1], *said)

    def bracket(self, build, first, last, *said):
        x, y, end = self.x(build, self.most[build]) + 8, self.y(first) + 3, self.y(last + 1) - 3
        yield path(f"M{x:g} {y}h5V{end}h-5")
        for i, line in enumerate(said):
            yield text(x + 16, (y + end) / 2 + 4 + 16 * (i - (len(said) - 1) / 2), line, "soft" if i else "ink b")

    def map(self, found, erased):
        """The last states once more, what the map says of the realms, and which builds can be left out of it."""
        y = self.y(len(self.turns) + 1) + 12
        yield path(f"M{LEFT - 8} {y - 6}H{self.right:g}", "edge")
        yield text(LEFT, y + 14, "the map in the end", "ink b") + self.free_bar(y, self.turns[-1].free)
        for build, states in enumerate(self.last):
            yield from (cell(self.x(build, p) + 1, y + 1, COLUMN - 2, ROW - 2, it) for p, it in states.items())
            realm = next((line for line in found if line.startswith(f"{build} realm ")), "")
            said = realm.removeprefix(f"{build} ").replace(" vmid", ", VMID") if states else "nothing is left"
            yield text(self.lefts[build], y + (35 if states else 14), said, "ink b")
        for i, build in enumerate(erased):
            said = f"The same history without build {build} leads to this very map, line by line: "
            yield text(LEFT, y + 60 + 18 * i, f"{said}replay --erase {build} prints it.", "ink b")


def run_picture(title, name, pages, turns, found, erased):
    """`name` is the plan's, and `found` the map of its run, which is also that of the run without each of `erased`."""
    sheet = Sheet(turns, pages)
    said = f"From top to bottom the turns of {name}; each column is a page, its colour the state that it is in."
    told = f"{said} The turns: {'; '.join(turn.line for turn in turns)}. The map in the end: {'; '.join(found)}."
    lanes = [it for build, most in enumerate(sheet.most) for page in range(most) for it in sheet.lane(build, page)]
    drawn = [*sheet.head(title, said), *sheet.rows(), *lanes, *sheet.aborts(), *sheet.map(found, erased)]
    return picture(title, told, sheet.y(len(turns) + 1) + 66 + 18 * len(erased), drawn, sheet.width)
