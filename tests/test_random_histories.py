"""Random histories of calls, of the host's memory and of guests, by rmitrace and by the second model.

tests/random_rmm makes the histories; `rmitrace check` compares each answer. Of a history with an answer that is another,
the shortest lines are shown that were found to give it. `make fuzz` compares them.
"""
import os
import re
from collections import Counter
from collections.abc import Iterator
from concurrent.futures import ProcessPoolExecutor

import pytest

from programs import TRACER, needs, run
from random_rmm.lives import history
from rmm_logs import without_answers
from second_rmm.bench import Bench
from second_rmm.command import COMMANDS, LOST, names_of_checks

pytestmark = [pytest.mark.long, pytest.mark.random, needs(TRACER)]
COUNT, MANY = int(os.environ.get("COUNT") or 200), 2000
CHUNK, SECONDS = 20, 600
DIFFERENCE = re.compile(r"trace:(\d+): (?:allowed|wrong)\n.*\n(here: .*)")


def first_difference(lines: list[str]) -> tuple[int, str] | None:
    """The number of the first line that is not the same, and the program's answer; none if all are."""
    ran = run(TRACER, ["check"], "".join(f"{it}\n" for it in lines), timeout=SECONDS)
    found = DIFFERENCE.search(ran.out)
    if found:
        return int(found[1]), found[2]
    answers = sum(" = " in it for it in lines)
    is_well = ran[:2] == (int(answers == 0), f"{answers} same, 0 allowed, 0 wrong\n")
    return None if is_well else (len(lines), f"status {ran.status}: {ran.out[-200:]}{ran.err[-200:]}")


# ---- short histories


def answered(lines: list[str]) -> list[str] | None:
    """The lines with the second model's answers; none if it cannot perform one."""
    bench = Bench()
    try:
        return [bench.line(it) for it in lines]
    except LOST:
        return None


def differs(lines: list[str]) -> bool:
    """Whether the last of some lines has two answers."""
    ours = answered(lines)
    found = ours and first_difference(ours)
    return found is not None and found[0] == len(lines)


def shortened(lines: list[str]) -> list[str]:
    """Lines of which none can be left out, the last of which has two answers."""
    first, *middle, last = lines
    size = max(1, len(middle) // 2)
    while size:
        place = 0
        while place < len(middle):
            fewer = middle[:place] + middle[place + size :]
            if differs([first, *fewer, last]):
                middle = fewer
            else:
                place += size
        size //= 2
    return [first, *middle, last]


# ---- histories


def of_chunk(first: int) -> tuple[Counter[str], int, list[str]]:
    """The things that some histories met, the number of lines that were compared, and the differences."""
    met, findings, compared = Counter(), [], 0
    made = {number: history(number) for number in range(first, min(first + CHUNK, COUNT))}
    is_well = first_difference([line for it in made.values() for line in it.lines]) is None
    for number, it in made.items():
        met.update(it.met)
        compared += len(it.lines)
        found = None if is_well else first_difference(it.lines)
        if found is not None:
            short = shortened(without_answers("\n".join(it.lines[: found[0]])).splitlines())
            findings.append("\n".join([f"history {number}, line {found[0]}:", *(answered(short) or short), found[1]]))
    return met, compared, findings


def wanted() -> Iterator[str]:
    """Each command that has to succeed, and each check that has to decide."""
    for name in COMMANDS:
        yield f"{name} RMI_SUCCESS"
        yield from (f"{name} {check}" for check in names_of_checks(name))


def test_histories(check):
    """Each answer is that of the second model. In many histories each command succeeds, and each check decides, in one."""
    met, lines = Counter(), 0
    with ProcessPoolExecutor() as pool:
        for of_it, many, found in pool.map(of_chunk, range(0, COUNT, CHUNK)):
            met, lines = met + of_it, lines + many
            check.findings(found)
    check(f"{lines} lines are compared", lines > COUNT)
    if COUNT >= MANY:
        check("what no history met", [it for it in wanted() if not met[it]], [])
