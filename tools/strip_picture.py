"""The picture of a run as a strip: its turns from left to right, and a row for each page of each build."""
from itertools import groupby

from drawing import WORD, cell, path, picture, rect, text, word
from run_picture import MEANING

COLUMN, ROW, LEFT, CELLS, TOP = 27, 12, 20, 116, 96


class Strip:
    """The places of things."""

    def __init__(self, turns):
        self.turns, self.tops, y = turns, [], TOP
        for build in range(len(turns[-1].states)):
            self.tops.append(y)
            y += ROW * max(len(turn.states[build]) for turn in turns) + 14
        self.bottom = y
        self.refused = next(i for i, turn in enumerate(turns) if turn.is_refused)

    def x(self, turn):
        return CELLS + COLUMN * turn

    def head(self, title):
        """The title, the legend, whose turn each is, and how many pages are free after it."""
        yield text(LEFT, 26, title, "ink b h")
        x = LEFT
        for state, meaning in MEANING.items():
            if any(state in states.values() for turn in self.turns for states in turn.states):
                yield cell(x, 38, COLUMN, 16, state) + text(x + COLUMN + 5, 50, meaning, "soft")
                x += COLUMN + 24 + (8.6 if meaning.isupper() else 6.4) * len(meaning)
        yield text(LEFT, 72, "turn of build", "soft") + text(LEFT, 87, "free pages", "soft")
        for i, turn in enumerate(self.turns):
            kind = "m bad b" if turn.is_refused else "m ink"
            yield text(self.x(i) + COLUMN / 2, 72, str(turn.build), kind, "middle")
            yield text(self.x(i) + COLUMN / 2, 87, str(turn.free), "m soft", "middle")

    def lanes(self, build):
        """A row for each page of a build: where its state is new it has the state's word."""
        pages = sorted({page for turn in self.turns for page in turn.states[build]})
        yield text(LEFT, self.tops[build] + ROW * len(pages) / 2 + 4, f"build {build}", "ink b")
        yield text(CELLS - 22, self.tops[build] + 10, "page 0", "soft s", "end")
        yield text(CELLS - 22, self.tops[build] + ROW * len(pages) - 2, f"page {pages[-1]}", "soft s", "end")
        for page in pages:
            y, begin = self.tops[build] + ROW * page, 0
            for state, same in groupby(turn.states[build].get(page) for turn in self.turns):
                length = len(list(same))
                if state:
                    yield rect(self.x(begin) + 0.5, y + 0.5, COLUMN * length - 1, ROW - 1, WORD[state].lower(), 2)
                    yield word(self.x(begin) + COLUMN / 2, y + 10, state)
                begin += length

    def failure(self):
        """The refused turn from top to bottom, and the abort after it with its turns marked."""
        turn, x = self.turns[self.refused], self.x(self.refused)
        back = [i for i, it in enumerate(self.turns) if it.build == turn.build and it.step == "abort"]
        yield rect(x, 60, COLUMN, self.bottom - 66, "alarm", 3)
        asked = f"build {turn.build} asks for {1 << int(turn.line.split()[-1])} pages, and fails"
        yield text(x + 4, self.bottom + 10, asked, "bad b", "end")
        first, last, y = self.x(back[0]), self.x(back[-1]) + COLUMN, self.bottom - 6
        yield path(f"M{first + 2:g} {y - 5}v6H{last - 2:g}v-6")
        said = f"build {turn.build} aborts: each of its turns undoes one operation"
        yield text(last, self.bottom + 10, said, "ink b", "end")


def strip_picture(title, name, turns, found, erased):
    """`name` is the plan's; `found` is the map of its run, and that of the run without each of `erased`."""
    strip = Strip(turns)
    told = f"From left to right the turns of {name}; each row is a page, its colour the state that it is in. "
    told += f"The turns: {'; '.join(turn.line for turn in turns)}. The map in the end: {'; '.join(found)}."
    lanes = [it for build in range(len(strip.tops)) for it in strip.lanes(build)]
    notes = []
    for i, it in enumerate(erased):
        said = f"The history without the commands of build {it} leads to the same machine."
        notes.append(text(LEFT, strip.bottom + 32 + 18 * i, said, "soft"))
    drawn = [*strip.failure(), *strip.head(title), *lanes, *notes]
    return picture(title, told, strip.bottom + 24 + 18 * len(erased), drawn)
