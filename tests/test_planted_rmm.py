"""Mistakes of an RMM that traces find: each mistake of tests/rmm_mistakes.py, planted in the second model.

RMI-RULES.md has for each mistake a line of a trace. The model with the mistake answers the trace, and `rmitrace check`
reads that log. The first line that it says is wrong has to be the line of the row; without the mistake none is. Of a
mistake without a row, the row is shown that it needs.
"""
import re
from collections.abc import Iterator
from contextlib import nullcontext
from typing import NamedTuple

import pytest

from programs import JUDGE, TOP, TRACER, needs, run
from rmm_logs import TRACES, answered_at, lines_of, log_of, paths
from rmm_mistakes import MISTAKES, Mistake, planted
from second_rmm.bench import Bench
from second_rmm.command import LOST
from second_rmm.judge import WRONG, judge

RULES = TOP / "docs/reference/RMI-RULES.md"
ROW = re.compile(r"\| (RMI_\w+|a walk) \| (.*) \| `(\w+)` \| ([\w/-]+) \| (\d+) \| `(.*)` \|")
VERDICT = re.compile(r"trace:(\d+): wrong")
# No firmware has these: a log of it leaves them out, and what a host loads alone finds a page that is not wiped.
READINGS = ("state ", "sum ", "realm ", "rim ", "rec ", "saw ")


class Row(NamedTuple):
    command: str
    text: str
    name: str
    trace: str
    number: int
    line: str


ROWS = [Row(*it.groups()[:4], int(it[5]), it[6]) for it in map(ROW.fullmatch, RULES.read_text().splitlines()) if it]


def log(trace: str, it: Mistake | None) -> Iterator[str]:
    """The log of a trace by a model with a mistake, line for line. It ends where the model is lost."""
    bench = Bench()
    with planted(it) if it else nullcontext():
        for line in lines_of(TRACES / trace):
            try:
                yield next(log_of([line], bench), "")
            except LOST:
                return


def first_wrong(lines: Iterator[str]) -> int:
    """The number of the first line that the judge says is wrong; 0 if it says it of none."""
    ran = run(JUDGE[0], JUDGE[1:], "".join(f"{it}\n" for it in lines))
    found = VERDICT.search(ran.out)
    assert ran.status == int(found is not None) and ran.out.endswith(" wrong\n"), ran
    return int(found[1]) if found else 0


def first_row(name: str) -> str:
    """The row of a mistake: the first line of the first trace that finds it, by the judge in Python."""
    it = MISTAKES[name]
    for trace in (str(path.relative_to(TRACES).with_suffix("")) for path in paths()):
        wrong = next((found for found in judge(list(log(trace, it))) if found.verdict == WRONG), None)
        if wrong:
            line = answered_at(lines_of(TRACES / trace), wrong.number)
            return f"| {it.command} | {it.text} | `{name}` | {trace} | {wrong.number} | `{line}` |"
    return f"| {it.command} | {it.text} | `{name}` | not found |"


@needs(TRACER)
@pytest.mark.parametrize("row", ROWS, ids=lambda it: it.name)
def test_mistake_is_found(row):
    it = MISTAKES[row.name]
    assert (it.command, it.text) == (row.command, row.text)
    assert answered_at(lines_of(TRACES / row.trace), row.number) == row.line
    assert first_wrong(log(row.trace, None)) == 0
    assert first_wrong(log(row.trace, it)) == row.number


def test_each_mistake_has_a_row():
    assert [first_row(name) for name in MISTAKES if name not in {it.name for it in ROWS}] == []
    assert {it.name for it in ROWS} == set(MISTAKES)


@needs(TRACER)
@pytest.mark.parametrize("trace, found", (("guest-write", "load 0x80004000 = 0xc8"), ("rmm/kvm-boot", "load 0x80200000 = 0x7")))
def test_page_is_read_back(trace, found):
    """Without readings, a page that comes back with its bytes is found by a load."""
    lines = [it for it in log(trace, MISTAKES["page_comes_back_with_bytes"]) if not it.startswith(READINGS)]
    first = first_wrong(iter(lines))
    assert first > 0 and lines[first - 1].startswith(found)
