#!/usr/bin/env python3
"""The lines of RULES.md that pin rules: without its rule, a row's line has another answer.

The RMM without a rule is that of second_monitor.py, of this project's profile. With all of its rules it has to agree with
each answer in tests/profile. Each of its rules has to be that of a row, or be in `NOT_PINNED`.

**The program.** The RMM of realmhost takes no lines, so `realmview apply` performs these traces and random ones as
histories (profile_histories.py): the accepted commands have to lead to the second RMM's map, and each command that the
RMM refuses has to have its word.

In the column Switch of a row, `A` is a rule that is switched off, and `A first` a check that is made before the others
of its command; of `A`, `B` each alone has to change the answer, and of `A` + `B` both together. The rule is off in the
whole trace. If the row has a range of lines, it is off from a line on for each of them: what it lets through would
change the state.

    tests/rules.py RULE ..      the first line of each trace that has another answer without all of these rules
"""
import re
import subprocess
import sys
from collections.abc import Iterator
from pathlib import Path
from typing import NamedTuple

sys.dont_write_bytecode = True
from profile_histories import Following, Tried, machines, word_of
from second_monitor import Monitor

TOP = Path(__file__).resolve().parent.parent
TRACES, PROGRAM = TOP / "tests/profile", TOP / "bin/realmview"
SECONDS = 60
UNKNOWN = "the second monitor has no such rule"
ROW = re.compile(r"^\| (.*) \| ([^|]*) \| ([a-z0-9-]+) \| (\d+)(?:-(\d+))? \| `(.*)` \|$", re.M)
# Rules that no line pins, and why.
NOT_PINNED = {"rec_destroy.then_zero": "a REC and its auxiliaries are zero all the time"}
# The ends of the second RMM after a rule that is off has let through what it cannot go on with, as no table for one.
LOST = (AttributeError, IndexError, KeyError, TypeError)


class Line(NamedTuple):
    """A line of a trace that is performed: its number, what is asked, and the answer that is written there, if any."""

    number: int
    asked: str
    answer: str | None


def lines_of(text: bytes) -> list[Line]:
    """The lines of a trace, but for comments and for what is no command."""
    lines = []
    for number, line in enumerate(text.decode(errors="replace").split("\n"), 1):
        asked, is_answered, answer = line.partition(" = ")
        if line and line[0] != "#" and answer != "no command":
            lines.append(Line(number, asked, answer if is_answered else None))
    return lines


def answers(monitor: Monitor, lines: list[Line]) -> Iterator[tuple[Line, str | None]]:
    """Each line with the answer of an RMM. None is that of an RMM that is lost."""
    for line in lines:
        try:
            yield line, monitor.line(line.asked)
        except LOST:
            yield line, None
            return


def traces() -> list[Path]:
    return sorted(TRACES.glob("*.trace"))


def seen() -> set[str]:
    """The rules that an RMM meets in all traces."""
    found: set[str] = set()
    for path in traces():
        monitor = Monitor()
        for _ in answers(monitor, lines_of(path.read_bytes())):
            pass
        found |= monitor.seen
    return found


# ---- rows


class Switch(NamedTuple):
    """The differences of an RMM: the rules that it is without, and the check that it makes first."""

    without: tuple[str, ...]
    first: str = ""

    def __str__(self) -> str:
        return f"with {self.first} first" if self.first else f"without {' and '.join(self.without)}"


def switches_of(cell: str) -> list[Switch]:
    """The switches in the column Switch: each has to change the answer."""
    if not re.fullmatch(r"`[\w.]+( first)?`(( \+|,) `[\w.]+( first)?`)*", cell):
        return []
    each = [part.replace("`", "") for part in cell.split(", ")]
    is_order = lambda it: it.endswith(" first")
    return [Switch((), it.split(" ")[0]) if is_order(it) else Switch(tuple(it.split(" + "))) for it in each]


def answer_at(lines: list[Line], number: int, switch: Switch, since: int) -> str | None:
    """The answer to a line, by an RMM that is another from a line on."""
    monitor, told = Monitor(), None
    before, after = [it for it in lines if it.number < since], [it for it in lines if since <= it.number <= number]
    for _ in answers(monitor, before):
        pass
    monitor.without, monitor.first = frozenset(switch.without), switch.first
    for line, told in answers(monitor, after):
        if told is None and line.number < number:
            return "lost before"
    return told


def rows() -> list[tuple[str, ...]]:
    """The rows of RULES.md that name a trace: a rule, a switch, the trace, a line or a range of lines, and the line's text."""
    return ROW.findall((TOP / "docs/reference/RULES.md").read_text())


def pins(row: tuple[str, ...]) -> Iterator[str | None]:
    """For each line of a row and each of its switches, that the line has the same answer, or none."""
    rule, cell, name, begin, end, text = row
    trace = (TRACES / f"{name}.trace").read_bytes()
    lines, switches = lines_of(trace), switches_of(cell)
    is_there = trace.decode(errors="replace").split("\n")[int(begin) - 1 : int(begin)] == [text]
    yield None if is_there else f"RULES.md: {rule}: {text!r} is not line {begin} of {name}.trace"
    yield None if switches else f"RULES.md: {rule}: {cell!r} is no switch"
    for number in range(int(begin), int(end or begin) + 1):
        line = next((it for it in lines if it.number == number), None)
        for switch in switches:
            told = line and answer_at(lines, number, switch, number if end else 1)
            is_well = told not in (None, "lost before", line.answer)
            yield None if is_well else f"RULES.md: {rule}: line {number} of {name}.trace, {line and line.asked}: {told} {switch}"


def pinned() -> Iterator[str | None]:
    """For each rule, that no row has it, or none."""
    found, rules = seen(), {it for row in rows() for switch in switches_of(row[1]) for it in (*switch.without, switch.first) if it}
    for rule in sorted(rules | set(NOT_PINNED) | found):
        is_well = rule in found and (rule in rules) != (rule in NOT_PINNED)
        yield None if is_well else f"{rule}: no row of RULES.md has it" if rule in found else f"{rule}: {UNKNOWN}"


# ---- the program


def histories_of(text: bytes) -> Iterator[Tried]:
    lines = [(it.number, it.asked) for it in lines_of(text)]
    for machine in machines(lines):
        yield from Following(machine).tried()


def applied(it: Tried) -> tuple[str | None, bool]:
    """The fault of the program's outcome of a history, or none, and whether the RMM has refused its last line."""
    ran = subprocess.run([PROGRAM, "apply"], input=it.history, capture_output=True, text=True, timeout=SECONDS)
    came = ran.returncode, ran.stdout, ran.stderr
    last = it.history.splitlines()[-1]
    if it.map is not None:
        return None if came == (0, it.map, "") else f"after `{last}`: {came}, and not the map {it.map!r}", False
    if (ran.returncode, ran.stdout) != (1, ""):
        return f"`{last}` is {it.word} by the second RMM, and not refused: {came}", False
    word = word_of(ran.stderr)
    wanted = it.history.count("\n"), it.word
    return None if word in (None, wanted) else f"`{last}` is {it.word} by the second RMM: {ran.stderr}", word is not None


def first_differences(without: list[str]) -> int:
    for path in traces():
        for line, answer in answers(Monitor(without), lines_of(path.read_bytes())):
            if line.answer not in (None, answer):
                print(f"{path.stem} {line.number}: {line.asked} = {line.answer}, and without {' '.join(without)} {answer or 'none'}")
                break
    unknown = sorted(set(without) - seen())
    for rule in unknown:
        print(f"{rule}: {UNKNOWN}")
    return 1 if unknown else 0


if __name__ == "__main__":
    sys.exit(first_differences(sys.argv[1:]))
