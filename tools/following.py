"""Follows the text of a replayed plan: which state each page of each build is in after each turn.

The text says this of the end alone, in the map; before, it follows from the accepted steps. What else the text says is
compared on the way: whose turn it is, the step, page numbers, marks, the kind of what is undone, when an abort or a way
back is done, and in the end the map but for the sums of bytes. `Differs` is raised where the text says something else.
"""
import re
from itertools import zip_longest
from typing import NamedTuple

# The state of a page before each operation that can be undone, and again after its undo. None is free.
BEFORE = {"take": None, "delegate": "UNDELEGATED"}
BEFORE |= dict.fromkeys(("realm", "rtt", "data", "unknown", "rec"), "DELEGATED")
NARROWEST = 39  # the IPA width in bits of a realm with one starting table; each bit more doubles their number


class Differs(Exception):
    """The text does not say what follows from the plan and the lines before."""


class Turn(NamedTuple):
    build: int
    step: str
    line: str
    is_refused: bool
    states: list  # after the turn: for each build a dictionary by page
    free: int


def check(holds, otherwise):
    if not holds:
        raise Differs(otherwise)


class Build:
    """A build's steps that are left, its pages, its open operations with what each made of which page, its mark, its realm."""

    def __init__(self, steps):
        self.steps, self.states, self.open, self.mark, self.realm = list(steps), {}, [], None, None

    def made_by(self, word, first, *more):
        """The states that an operation gives to pages, by page."""
        if word == "take":
            return {len(self.states) + i: "UNDELEGATED" for i in range(1 << first)}
        if word == "realm":
            tables = 1 << (more[1] - NARROWEST if more[1:] else 0)
            return {first: "RD"} | {more[0] + i: "RTT" for i in range(tables)}
        if word == "rec":
            return {first: "REC"} | dict.fromkeys(more, "REC_AUX")
        return {first: {"delegate": "DELEGATED", "rtt": "RTT"}.get(word, "DATA")}

    def do(self, word, numbers, told):
        """An accepted step that is no undo."""
        if word in BEFORE:
            made, before = self.made_by(word, *numbers), BEFORE[word]
            check({self.states.get(page) for page in made} == {before}, f"not all of {list(made)} are {before}")
            check(word != "take" or told == [str(min(made))], f"the next page is {min(made)}")
            self.states |= made
            self.open.append((word, made))
        if word == "realm":
            self.realm = f"NEW vmid {' '.join(told)}"
        if word == "activate":
            check(self.realm, "there is no realm")
            self.realm = self.realm.replace("NEW", "ACTIVE")
        if word == "mark":
            self.mark = len(self.open)
            check(told == [str(self.mark)], f"{self.mark} operations are open")

    def undo(self, told):
        """Takes back the newest open operation, which is of the kind that the line has."""
        kind, made = self.open.pop() if self.open else ("none", {})
        check(told == [kind], f"the newest open operation is {kind}")
        self.states |= dict.fromkeys(made, BEFORE[kind])
        self.states = {page: state for page, state in self.states.items() if state}
        self.realm = None if kind == "realm" else self.realm
        self.mark = None if self.mark is not None and self.mark > len(self.open) else self.mark

    def turn(self, number, line):
        """Follows the line of a turn of this build, and returns its step and whether it was refused."""
        step = self.steps[0] if self.steps else "- idle"
        head, _, answer = line.partition(" = ")
        check(head == f"{number} {step}", f"it is the turn of build {number}, step {step}")
        (status, *told), (word, *numbers), end = answer.split(" "), step.split(" "), {"abort": 0, "back": self.mark}
        if status in ("ok", "done"):
            if word not in ("undo", *end):
                self.do(word, map(int, numbers), told)
            elif told or status == "ok":
                self.undo(told)
            check((status == "done") == (word in end and len(self.open) == end[word]), f"{len(self.open)} operations are open")
        if self.steps and not (word in end and status == "ok"):
            del self.steps[0]
        return step, status == "no"


def follow(plan, text):
    """The turns of a plan (a dictionary, as TOML has it) in the text of its run, and the lines of the map."""
    builds, lines, turns = [Build(it["steps"]) for it in plan["build"]], text.splitlines(), []
    for number, line in zip(plan.get("order", []), lines):
        try:
            step, is_refused = builds[number].turn(number, line)
        except Differs as it:
            raise Differs(f"line {len(turns) + 1}, {line!r}: {it}") from None
        states = [dict(it.states) for it in builds]
        turns.append(Turn(number, step, line, is_refused, states, plan["pages"] - sum(map(len, states))))
    found = lines[len(turns) :]
    without_sums = [re.sub(r"(UNDELEGATED|DATA) \d+$", r"\1", line) for line in found]
    for line, wanted in zip_longest(without_sums, map_of(builds, plan["pages"])):
        check(line == wanted, f"the map has {line!r}, and the turns lead to {wanted!r}")
    return turns, found


def map_of(builds, pages):
    """The lines of the map, without sums."""
    lines = []
    for number, build in enumerate(builds):
        lines += [f"{number} page {page} {state}" for page, state in sorted(build.states.items())]
        lines += [f"{number} realm {build.realm}"] if build.realm else []
    return lines + [f"free {pages - sum(len(it.states) for it in builds)}"]
