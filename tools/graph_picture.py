"""The picture of the graph of a small plan's schedules: its states by layers, and the turns that lead from one to another."""
from drawing import HEAD, MARKER, path, picture, rect, text

TITLE = "All schedules of two builds that take a page each, and fill it"
SAID = (
    "The states after none, one, two, three and four turns are columns. A turn of build 0 or of build 1 leads from a state to "
    "one of the next column. Build 0 has taken its page first in the upper states, build 1 in the lower ones. A state that two "
    "ways lead to is one: of the six schedules three end in the upper state, and three in the lower."
)
STEPS = ("take", "fill")
TOP, HEIGHT, WIDE, HIGH, LEFT, APART = 84, 300, 112, 56, 24, 168


def after(state, build):
    """The state after a turn: how many steps each build has done, and which of them took its page first."""
    done, first = list(state[:2]), state[2]
    done[build] += 1
    return (*done, build if first is None else first)


def layers_of():
    """The layers: each state with the number of ways to it; and the turns from each layer, with the places that they lead to."""
    layers, turns = [{(0, 0, None): 1}], []
    while True:
        found, here = {}, []
        for place, (state, ways) in enumerate(layers[-1].items()):
            for build in (it for it in (0, 1) if state[it] < len(STEPS)):
                to = after(state, build)
                found[to] = found.get(to, 0) + ways
                here.append((place, build, list(found).index(to)))
        if not found:
            return layers, turns
        layers.append(found)
        turns.append(here)


def middle(layer, place):
    return TOP + HEIGHT * (2 * place + 1) / (2 * len(layer))


def state_box(x, y, state, ways):
    yield rect(x, y - HIGH / 2, WIDE, HIGH, "band", 6)
    for build in (0, 1):
        yield text(x + 8, y - 12 + 15 * build, f"{build} {' '.join(STEPS[: state[build]])}", "m ink")
    yield text(x + WIDE - 8, y + 20, "1 way" if ways == 1 else f"{ways} ways", "soft s", "end")


def graph_picture():
    layers, turns = layers_of()
    drawn = [
        MARKER, text(20, 34, TITLE, "ink b h"),
        text(20, 56, "There are six, and thirteen states. Each state has the steps that builds 0 and 1 have done; on top build 0 "
             "took its page first.", "soft"),
    ]
    for depth, layer in enumerate(layers):
        x = LEFT + APART * depth
        for place, build, to in turns[depth] if depth < len(turns) else ():
            y, end = middle(layer, place) + (16 if build else -16), middle(layers[depth + 1], to)
            drawn += [path(f"M{x + WIDE} {y:g}L{x + APART - 3} {end:g}", more=HEAD), text(x + WIDE + 5, y - 3, str(build), "m b ink")]
        for place, (state, ways) in enumerate(layer.items()):
            drawn += state_box(x, middle(layer, place), state, ways)
    drawn.append(text(20, TOP + HEIGHT + 28, "A schedule is a path from left to right. Where two lead to one state, they go on "
                      "alike, and their ways are added.", "soft"))
    return picture(TITLE, SAID, TOP + HEIGHT + 46, drawn)
