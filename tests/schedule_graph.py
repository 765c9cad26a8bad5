"""Every schedule of a plan, by a graph of states: for `tests/test_schedules.py`.

Schedules that have led to the same state are one from there on. A layer has the states after as many turns, in the sequence of
the first schedule that leads to each, so the state that is met first is the least. The counts are sums over paths.
"""
from __future__ import annotations

import tomllib
from collections.abc import Callable, Hashable, Iterator
from dataclasses import dataclass, field, replace
from hashlib import sha256
from functools import lru_cache

from second_host import Blocks, Build, Machine, Turn, map_of, monitor_after
from second_machine import Entry

Locals = tuple[int, ...]
# A step's end: the build, the place of the step, and the answer.
End = tuple[int, int, str]
# The place of the abort of a build that gives up, after those of all steps.
GIVING_UP = 1 << 16


def machine_of(plan: dict) -> Machine:
    return Machine(plan["pages"], plan.get("vmids", 8), plan.get("aux", 0), plan.get("history", 1024))


@lru_cache(None)
def seen(machine: Machine, build: Build) -> Hashable:
    """The state that decides a build's further answers, and its lines of the map: not what it did, but what is there."""
    granules = monitor_after(machine, build.lines).machine.granules
    empty = Entry().word()
    rows = []
    for granule in build.pages:
        it = granules[granule]
        table = tuple((k, entry.word()) for k, entry in enumerate(it.table) if entry.word() != empty)
        realm = it.realm and (it.realm.vmid, tuple(it.realm.tables), it.realm.width, it.realm.state, it.realm.next)
        rec = it.rec and (it.rec.number, tuple(it.rec.auxiliaries), it.rec.state)
        rows.append((granule, it.state, sha256(it.page).digest(), table, realm, rec))
    return (replace(build, lines=()), tuple(rows))


@dataclass
class State:
    """A state: the builds, by their numbers in `Builds`, and the allocator. `came` is the first way to it."""

    builds: Locals
    blocks: Blocks
    ways: int = 0
    # The way here without a refusal: of each build, and of all.
    smooth: list[int] = field(default_factory=list)
    came: tuple[int, int] | None = None
    edges: list[Edge] = field(default_factory=list)
    # The number of ways that lead on from here, and so without refusals.
    rest: int = 0
    smooth_rest: list[int] = field(default_factory=list)


@dataclass
class Edge:
    build: int
    end: End | None
    to: int


class Builds:
    """The builds that were seen so far, each with a number."""

    def __init__(self, key: Callable[[Build], Hashable]) -> None:
        self.key, self.numbers, self.all = key, {}, []

    def number(self, build: Build) -> int:
        key = self.key(build)
        if key not in self.numbers:
            self.numbers[key] = len(self.all)
            self.all.append(build)
        return self.numbers[key]


class Outside(Exception):
    """There are more states than may be."""


class Graph:
    def __init__(self, text: str, most_states: int = 10**7, gives_up: bool = False, exact: bool = False) -> None:
        plan = tomllib.loads(text)
        self.machine, self.steps = machine_of(plan), [build["steps"] for build in plan["build"]]
        self.gives_up, self.most_states = gives_up, most_states
        self.count = len(self.steps)
        self.builds = Builds((lambda it: it) if exact else (lambda it: seen(self.machine, it)))
        self.turns: dict = {}
        self.layers = self.forward()
        self.backward()
        self.schedules = sum(state.ways for layer in self.layers for state in layer if not state.edges)

    # ---- the graph

    def step_of(self, build: int, it: Build) -> str | None:
        if it.done == len(self.steps[build]):
            return None
        return "abort" if it.gives_up else self.steps[build][it.done]

    def turn(self, build: int, number: int, blocks: Blocks, vmids: frozenset[int]) -> tuple[int, Blocks, End | None]:
        it = self.builds.all[number]
        step = self.step_of(build, it)
        word = step.split(" ")[0]
        # (only these look at what builds share)
        shared = (blocks,) if word in ("take", "undo", "abort", "back") else (vmids,) if word == "realm" else ()
        key = (build, number, *shared)
        if key not in self.turns:
            turn = Turn(self.machine, it, blocks, vmids)
            turn.step(step)
            is_end = turn.build.done != it.done
            after = self.after(build, it, turn)
            then = turn.blocks if word != "realm" and shared else None
            self.turns[key] = self.builds.number(after), then, (build, GIVING_UP if it.gives_up else it.done, turn.answer) if is_end else None
        after, then, end = self.turns[key]
        return after, blocks if then is None else then, end

    def after(self, build: int, it: Build, turn: Turn) -> Build:
        """The build after a turn. If it gives up, a refusal leaves it an abort, and nothing once that is done or refused."""
        if it.gives_up:
            is_over = not turn.build.left
            return replace(turn.build, done=len(self.steps[build]) if is_over else it.done, gives_up=not is_over)
        if self.gives_up and turn.answer != "ok":
            return replace(turn.build, done=it.done, gives_up=True)
        return turn.build

    def edges_of(self, state: State) -> Iterator[tuple[int, End | None, tuple[Locals, Blocks]]]:
        vmids = frozenset(self.builds.all[it].vmid for it in state.builds) - {None}
        for build, number in enumerate(state.builds):
            if self.step_of(build, self.builds.all[number]) is not None:
                after, blocks, end = self.turn(build, number, state.blocks, vmids)
                yield build, end, ((*state.builds[:build], after, *state.builds[build + 1 :]), blocks)

    def forward(self) -> list[list[State]]:
        first = self.builds.number(Build())
        start = State((first,) * self.count, Blocks.of(self.machine.pages), 1, [1] * (self.count + 1))
        layers, total = [[start]], 1
        while True:
            found: dict[tuple[Locals, Blocks], int] = {}
            layer: list[State] = []
            for place, state in enumerate(layers[-1]):
                for build, end, key in self.edges_of(state):
                    if key not in found:
                        found[key] = len(layer)
                        layer.append(State(*key, 0, [0] * (self.count + 1), (place, build)))
                    to = layer[found[key]]
                    to.ways += state.ways
                    for it in range(self.count + 1):
                        to.smooth[it] += 0 if self.spoils(end, it) else state.smooth[it]
                    state.edges.append(Edge(build, end, found[key]))
            if not layer:
                return layers
            total += len(layer)
            if total > self.most_states:
                raise Outside(total)
            layers.append(layer)

    def spoils(self, end: End | None, build: int) -> bool:
        """The end is a refusal of the build; of any build, if it is the number of builds."""
        return end is not None and end[2] != "ok" and build in (end[0], self.count)

    def backward(self) -> None:
        for depth in reversed(range(len(self.layers))):
            for state in self.layers[depth]:
                if not state.edges:
                    state.rest, state.smooth_rest = 1, [1] * (self.count + 1)
                    continue
                state.smooth_rest = [0] * (self.count + 1)
                for edge in state.edges:
                    to = self.layers[depth + 1][edge.to]
                    state.rest += to.rest
                    for it in range(self.count + 1):
                        state.smooth_rest[it] += 0 if self.spoils(edge.end, it) else to.smooth_rest[it]

    # ---- schedules

    def prefix(self, depth: int, place: int) -> list[int]:
        """The least schedule that leads to a state."""
        turns = []
        while depth:
            place, build = self.layers[depth][place].came
            turns.append(build)
            depth -= 1
        return turns[::-1]

    def least_rest(self, depth: int, place: int) -> list[int]:
        turns = []
        while edges := self.layers[depth][place].edges:
            turns.append(edges[0].build)
            depth, place = depth + 1, edges[0].to
        return turns

    def through(self, depth: int, place: int, edge: Edge) -> list[int]:
        return [*self.prefix(depth, place), edge.build, *self.least_rest(depth + 1, edge.to)]

    def least_smooth(self, it: int) -> list[int]:
        """The least schedule without a refusal of a build, or of any."""
        turns, depth, place = [], 0, 0
        while edges := self.layers[depth][place].edges:
            edge = next(e for e in edges if not self.spoils(e.end, it) and self.layers[depth + 1][e.to].smooth_rest[it])
            turns.append(edge.build)
            depth, place = depth + 1, edge.to
        return turns

    # ---- witnesses

    def witness(self, shows: Callable[[Edge, State], bool]) -> list[int] | None:
        """The turns up to one that shows it, by its edge and the state after it: as few as possible, and of these the least. None
        if there is no such turn."""
        for depth, layer in enumerate(self.layers):
            for place, state in enumerate(layer):
                for edge in state.edges:
                    if shows(edge, self.layers[depth + 1][edge.to]):
                        return [*self.prefix(depth, place), edge.build]
        return None

    def refused(self, build: int, step: int) -> list[int] | None:
        """The shortest way to a refusal of a step."""
        return self.witness(lambda edge, _: edge.end is not None and edge.end[:2] == (build, step) and edge.end[2] != "ok")

    def waiting(self, build: int) -> list[int] | None:
        """The shortest way to a turn at which a build gets no block or no VMID, while another has no page."""

        def shows(edge: Edge, after: State) -> bool:
            others = (it for other, it in enumerate(after.builds) if other != build)
            is_short = edge.end is not None and edge.end[0] == build and edge.end[2].split()[:2] in (["no", "11"], ["no", "12"])
            return is_short and any(not self.builds.all[it].pages for it in others)

        return self.witness(shows)

    def most_leased(self) -> int:
        """The most granules that are leased at once."""
        return max(self.machine.pages - state.blocks.free() for layer in self.layers for state in layer)

    def leased(self, granules: int) -> list[int] | None:
        """The shortest way to at least so many granules that are leased at once."""
        for depth, layer in enumerate(self.layers):
            for place, state in enumerate(layer):
                if self.machine.pages - state.blocks.free() >= granules:
                    return self.prefix(depth, place)
        return None

    # ---- the text

    def ends(self) -> dict[End, tuple[int, list[int]]]:
        """Of each end of a step, in how many schedules it is and the first of them."""
        counts: dict[End, int] = {}
        firsts: dict[End, list[int]] = {}
        for depth, layer in enumerate(self.layers):
            met = set()
            for place, state in enumerate(layer):
                for edge in state.edges:
                    if edge.end is None:
                        continue
                    ways = state.ways * self.layers[depth + 1][edge.to].rest
                    counts[edge.end] = counts.get(edge.end, 0) + ways
                    if edge.end not in met:
                        met.add(edge.end)
                        schedule = self.through(depth, place, edge)
                        firsts[edge.end] = min(schedule, firsts.get(edge.end, schedule))
        return {end: (counts[end], firsts[end]) for end in counts}

    def maps(self) -> dict[str, tuple[int, list[int]]]:
        counts: dict[str, int] = {}
        firsts: dict[str, list[int]] = {}
        for depth, layer in enumerate(self.layers):
            met = set()
            for place, state in enumerate(layer):
                if state.edges:
                    continue
                text = self.map(state)
                counts[text] = counts.get(text, 0) + state.ways
                if text not in met:
                    met.add(text)
                    schedule = self.prefix(depth, place)
                    firsts[text] = min(schedule, firsts.get(text, schedule))
        return {text: (counts[text], firsts[text]) for text in counts}

    def map(self, state: State) -> str:
        rows = [map_of(self.machine, number, self.builds.all[it]) for number, it in enumerate(state.builds)]
        return "".join(rows) + f"free {state.blocks.free()}\n"

    def smooth(self, it: int) -> tuple[int, list[int]] | None:
        count = self.layers[0][0].smooth_rest[it]
        return (count, self.least_smooth(it)) if count else None

    def lines(self) -> Iterator[str]:
        shown = lambda count, first: " in all\n" if count == self.schedules else f" in {count}, order = {first}\n"
        yield f"schedules {self.schedules}\n"
        ends, wholes = self.ends(), []
        if whole := self.smooth(self.count):
            wholes.append((whole[1], "no step refused", whole[0]))
        refused = [first for end, (_, first) in ends.items() if end[2] != "ok"]
        if refused:
            wholes.append((min(refused), "some step refused", self.schedules - (whole[0] if whole else 0)))
        for first, words, count in sorted(wholes):
            yield words + shown(count, first)
        for end in sorted(ends, key=lambda end: (end[0], end[1], ends[end][1])):
            yield self.words_of(end) + shown(*ends[end])
        for build in range(self.count):
            yield f"never refused {build}" + (shown(*it) if (it := self.smooth(build)) else " in 0\n")
        maps = self.maps()
        for text in sorted(maps, key=lambda text: maps[text][1]):
            yield "map" + shown(*maps[text]) + text

    def words_of(self, end: End) -> str:
        build, place, answer = end
        if place == GIVING_UP:
            return f"give up {build} = {answer}"
        return f"step {build} {place} {self.steps[build][place]} = {answer}"

    def text(self) -> str:
        return "".join(self.lines())

    def states(self) -> int:
        return sum(map(len, self.layers))

    def edges(self) -> int:
        return sum(len(state.edges) for layer in self.layers for state in layer)
