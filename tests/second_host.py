"""A second host, in Python, over tests/second_monitor.py: for `tests/test_schedules.py`.

It was written from PLANS.md, and has no code in common with realmhost. A build is seen alone, as what it did so far: its pages,
its open operations, its cursor in the plan, and an RMM that performed its commands. Builds meet in two places only, the
allocator and the VMIDs; both are arguments of a turn. Values are never changed: a turn makes a new one.
"""
from __future__ import annotations

from dataclasses import dataclass, replace
from functools import lru_cache

from second_machine import map_of as map_lines
from second_monitor import REVERSES, Monitor, line_of

MOST_OPEN, HIGHEST_ORDER = 512, 9
PAIRED = ("take", "delegate", "realm", "rtt", "data", "unknown", "rec")
# The number of events that a step needs; 1 for any other command.
ROOM = {**dict.fromkeys(PAIRED, 2), "enter": 2, "exit": 0}
OF_A_REALM = ("rtt", "ripas", "data", "unknown", "rec", "activate", "enter", "exit", "poke")
# The places of pages among the numbers of a step. A realm and a REC have more of them.
PAGES = {**dict.fromkeys(("fill", "peek", "delegate", "rtt", "unknown"), (0,)), "data": (0, 2), "realm": (0, 1), "rec": range(17)}
# The count of numbers of an event that are kept of an open operation.
KEPT = {"delegate": 1, "realm": 1, "rtt": 3, "data": 2, "unknown": 2, "rec": 1}
INPUT = "no 13 Rmi 1 0"


# ---- the allocator


class Blocks(tuple):
    """The free blocks: for each order the first granules of its blocks, those that were put back last in front."""

    @staticmethod
    def of(pages: int) -> Blocks:
        blocks = Blocks(() for _ in range(HIGHEST_ORDER + 1))
        for granule in reversed(range(pages)):
            blocks = blocks.given(0, granule)
        return blocks

    def with_list(self, order: int, firsts: tuple[int, ...]) -> Blocks:
        return Blocks((*self[:order], firsts, *self[order + 1 :]))

    def taken(self, order: int) -> tuple[int, Blocks] | None:
        """A block that is split from the front one of the lowest order that has one."""
        at = next((k for k in range(order, HIGHEST_ORDER + 1) if self[k]), None)
        if at is None:
            return None
        first, blocks = self[at][0], self.with_list(at, self[at][1:])
        for k in reversed(range(order, at)):
            blocks = blocks.with_list(k, (first + 2**k, *blocks[k]))
        return first, blocks

    def given(self, order: int, first: int) -> Blocks:
        """A block is merged with each other half that is free and whole, and put in front."""
        blocks = self
        while order < HIGHEST_ORDER and first ^ 2**order in blocks[order]:
            other = first ^ 2**order
            blocks = blocks.with_list(order, tuple(it for it in blocks[order] if it != other))
            first, order = min(first, other), order + 1
        return blocks.with_list(order, (first, *blocks[order]))

    def free(self) -> int:
        return sum(2**k * len(firsts) for k, firsts in enumerate(self))


# ---- a build


@dataclass(frozen=True)
class Build:
    """A build: `done` steps are used up, and `left` undos are left of the one under way."""

    done: int = 0
    left: int = 0
    mark: int | None = None
    used: int = 0
    pages: tuple[int, ...] = ()
    open: tuple[tuple, ...] = ()
    vmid: int | None = None
    # A step of it was refused, and an abort is all that is left to do.
    gives_up: bool = False
    # The lines that the RMM got so far.
    lines: tuple[str, ...] = ()


@dataclass(frozen=True)
class Machine:
    pages: int
    vmids: int
    aux: int
    history: int


@lru_cache(4096)
def monitor_after(machine: Machine, lines: tuple[str, ...]) -> Monitor:
    monitor = Monitor()
    monitor.line(f"machine {machine.pages} {machine.vmids} {machine.aux}")
    for line in lines:
        assert monitor.line(line).split(" ")[0] == "0", line
    return monitor


@lru_cache(None)
def asked(machine: Machine, lines: tuple[str, ...], line: str) -> tuple[int, int | None]:
    """The result word of a command after others, and its value."""
    monitor = Monitor()
    monitor.line(f"machine {machine.pages} {machine.vmids} {machine.aux}")
    for before in lines:
        monitor.line(before)
    word, *value = map(int, monitor.line(line).split(" "))
    return word, value[0] if value else None


def refused(word: int) -> str:
    return f"no 13 Rmi {word % 256} {word // 256}"


class Turn:
    """The turn of a build: the answer, and the build and the allocator after it."""

    def __init__(self, machine: Machine, build: Build, blocks: Blocks, vmids: frozenset[int]) -> None:
        self.machine, self.build, self.blocks, self.vmids = machine, build, blocks, vmids
        self.answer = ""

    # ---- the answers of the RMM

    def realm(self):
        rd = next((op[1] for op in self.build.open if op[0] == "realm"), None)
        if rd is None:
            return None, None
        return rd, monitor_after(self.machine, self.build.lines).machine.granules[rd].realm

    def rec_granule(self, number: int) -> int | None:
        return next((op[1] for op in self.build.open if op[0] == "rec" and op[2] == number), None)

    def runs(self, op: tuple) -> bool:
        return op[0] == "rec" and monitor_after(self.machine, self.build.lines).machine.granules[op[1]].rec.state == "RUNNING"

    # ---- steps

    def step(self, text: str) -> None:
        word, *texts = text.split(" ")
        numbers = [int(it) for it in texts]
        if word in ("abort", "back"):
            self.many(word)
        else:
            self.answer = self.undo() if word == "undo" else self.marked() if word == "mark" else self.command(word, numbers)
        if not self.build.left:
            self.build = replace(self.build, done=self.build.done + 1)

    def marked(self) -> str:
        self.build = replace(self.build, mark=len(self.build.open))
        return "ok"

    def many(self, word: str) -> None:
        """One undo of an abort or of a way back."""
        count = self.build.left or self.to_undo(word)
        if isinstance(count, str):
            self.answer = count
        elif count == 0:
            self.answer = "ok"
        else:
            self.answer = self.undo()
            self.build = replace(self.build, left=count - 1)

    def to_undo(self, word: str) -> int | str:
        if word == "abort":
            return "no 8 RecRunning" if any(map(self.runs, self.build.open)) else len(self.build.open)
        if self.build.mark is None:
            return "no 7 NothingToUndo"
        above = self.build.open[self.build.mark :]
        return "no 8 RecRunning" if any(map(self.runs, above)) else len(above)

    def undo(self) -> str:
        if not self.build.open:
            return "no 7 NothingToUndo"
        *rest, newest = self.build.open
        if self.runs(newest):
            return "no 8 RecRunning"
        rd, _ = self.realm()
        word, granule, *more = newest
        taken = range(granule, granule + 2 ** more[0]) if word == "take" else ()
        lines = [f"host_fill {it} 0" for it in taken] or [line_of(REVERSES[word], newest[1:], rd)]
        build = self.build
        if word == "take":
            self.blocks = self.blocks.given(more[0], granule)
            build = replace(build, pages=build.pages[: len(build.pages) - len(taken)])
        if word == "realm":
            build = replace(build, vmid=None)
        mark = build.mark if build.mark is not None and build.mark <= len(rest) else None
        self.build = replace(build, open=tuple(rest), mark=mark, lines=(*build.lines, *lines))
        return "ok"

    # ---- commands

    def command(self, word: str, numbers: list[int]) -> str:
        build = self.build
        if word == "take" and numbers[0] > HIGHEST_ORDER:
            return "no 3 BadOrder"
        for page in named(word, numbers):
            if page >= len(build.pages):
                return f"no 4 NotLeased {page}"
        has_realm = any(op[0] == "realm" for op in build.open)
        if word == "realm" and has_realm:
            return "no 5 RealmThere"
        if word in OF_A_REALM and not has_realm:
            return "no 6 NoRealm"
        if word in PAIRED and len(build.open) >= MOST_OPEN:
            return "no 9 JournalFull"
        if self.machine.history - build.used < ROOM.get(word, 1):
            return "no 10 HistoryFull"
        answer = self.take(numbers[0]) if word == "take" else self.asked(word, numbers)
        if answer == "ok":
            self.build = replace(self.build, used=build.used + ROOM.get(word, 1))
        return answer

    def take(self, order: int) -> str:
        taken = self.blocks.taken(order)
        if taken is None:
            return f"no 11 NoBlock {order}"
        first, self.blocks = taken
        pages = (*self.build.pages, *range(first, first + 2**order))
        self.build = replace(self.build, pages=pages, open=(*self.build.open, ("take", first, order)))
        return "ok"

    def asked(self, word: str, numbers: list[int]) -> str:
        pages, build = self.build.pages, self.build
        granules = [pages[it] if k in PAGES.get(word, ()) else it for k, it in enumerate(numbers)]
        vmid = rec = None
        if word == "realm":
            vmid = next((it for it in range(1, self.machine.vmids + 1) if it not in self.vmids), None)
            if vmid is None:
                return "no 12 NoVmid"
            tables = [pages[it] for it in named(word, numbers)[1:]]
            if tables != list(range(tables[0], tables[0] + len(tables))):
                return INPUT
            granules = [*granules[:2], *(numbers[2:] or [39]), vmid]
        elif word == "rec":
            granules.insert(1, None)
        elif word in ("enter", "exit", "poke"):
            rec = self.rec_granule(numbers[0])
            if rec is None:
                return INPUT
        line = line_of(word, granules, self.realm()[0], rec)
        result, value = asked(self.machine, build.lines, line)
        if result:
            return refused(result)
        # (what is read leaves the machine as it was)
        lines = build.lines if word == "peek" else (*build.lines, line)
        opened = [(word, *granules[: KEPT[word]], *([value] if word == "rec" else []))] if word in KEPT else []
        self.build = replace(build, lines=lines, open=(*build.open, *opened), vmid=vmid or build.vmid)
        return "ok"


def named(word: str, numbers: list[int]) -> list[int]:
    """The pages that a step names, in sequence."""
    if word == "realm":
        width = numbers[2] if len(numbers) > 2 else 39
        count = 2 ** (width - 39) if 39 <= width <= 43 else 1
        return [numbers[0], *range(numbers[1], numbers[1] + count)]
    return [it for k, it in enumerate(numbers) if k in PAGES.get(word, ())]


# ---- what is there


@lru_cache(None)
def map_of(machine: Machine, number: int, build: Build) -> str:
    """The lines of the map for a build."""
    granules = monitor_after(machine, build.lines).machine.granules
    rd = next((op[1] for op in build.open if op[0] == "realm"), None)
    return map_lines(number, [granules[it] for it in build.pages], None if rd is None else granules[rd].realm)
