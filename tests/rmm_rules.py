#!/usr/bin/env python3
"""The lines of RMI-RULES.md that pin checks: without its check, a row's line has another answer.

The model without a check is that of tests/second_rmm. The lines before a row's line are performed with all checks. Each
check of each command has to have a row, and each row a check. A row of the last section has the name of a check that
another repeats: the line names the check, and without it the word is the same. CHECKS.md has each check of the model, with
its status, the checks that it comes after, and whether its name is compared.

    tests/rmm_rules.py COMMAND CHECK    the first line of each trace that is answered otherwise without this check
"""
import re
import sys
from collections.abc import Iterator
from pathlib import Path
from typing import NamedTuple

sys.dont_write_bytecode = True
from rmm_logs import answered_at, lines_of
from second_rmm.bench import Bench
from second_rmm.command import COMMANDS
from second_rmm.facts import STATUSES, Settings
from second_rmm.judge import UNSURE_NAMES, answer_of
from second_rmm.machine import Machine
from second_rmm.reading import parts_of

TOP = Path(__file__).resolve().parent.parent
TRACES, RULES, TABLE = TOP / "traces/rmm", TOP / "docs/reference/RMI-RULES.md", TOP / "docs/reference/CHECKS.md"
HEADING = re.compile(r"### (RMI_\w+)")
OF_TABLE = re.compile(r"\| (RMI_\w+) \| `(\w+)` \| (\w+)(?: [^|]*)? \| ([^|]*) \| [SLU] \| (yes|no) \|")
ROW = re.compile(r"\| (?:`(rmi_\w+)` )?`(\w+)` \| .* \| ([\w/-]+) \| (\d+) \| `(.*)` \|")


class Row(NamedTuple):
    """A row: a check of a command, and a line of a trace. `is_repeated`: another check has the same word."""

    command: str
    check: str
    trace: str
    number: int
    text: str
    is_repeated: bool


def rows_of(text: str) -> Iterator[Row]:
    command = ""
    for line in text.splitlines():
        heading, row = HEADING.fullmatch(line), ROW.fullmatch(line)
        command = heading[1].lower() if heading else command
        if row:
            named, check, trace, number, asked = row.groups()
            yield Row(named or command, check, trace, int(number), asked, named is not None)


def all_checks() -> set[tuple[str, str]]:
    """Each check of each command."""
    return {(it.command, it.check) for it in modelled()}


def answer_to(lines: list[str], without: set[tuple[str, str]]) -> str:
    """The answer to the last of some lines, which alone is performed without checks."""
    bench = Bench()
    for line in lines[:-1]:
        bench.line(line)
    bench.without = without
    return bench.ask(parts_of(lines[-1]).question) or ""


def bare(answer: str) -> tuple[list[str], dict[str, list[str]]]:
    """An answer without the name of a check: its word and its outputs."""
    it = answer_of(answer)
    return it.word, it.outputs


def finding(row: Row) -> str | None:
    """The fault of a row, or none."""
    lines, what = lines_of(TRACES / row.trace), f"{row.command} {row.check}: line {row.number} of {row.trace}.trace"
    if answered_at(lines, row.number) != row.text:
        return f"{what} is not {row.text!r}"
    here = answer_to(lines[: row.number], set())
    if here != parts_of(lines[row.number - 1]).answer or answer_of(here).check != row.check:
        return f"{what} is answered {here}"
    other = answer_to(lines[: row.number], {(row.command, row.check)})
    is_same = bare(here) == bare(other)
    if is_same != row.is_repeated or here == other:
        return f"{what} is answered {other} without it"
    return None


class OfTable(NamedTuple):
    """A row of CHECKS.md: a check, its status, the checks that it comes after, and whether its name is compared."""

    command: str
    check: str
    status: str
    after: tuple[str, ...]
    is_compared: bool


def table() -> list[OfTable]:
    rows = (OF_TABLE.fullmatch(line) for line in TABLE.read_text().splitlines())
    return [OfTable(it[1].lower(), it[2], it[3], tuple(re.findall(r"\w+", it[4])), it[5] == "yes") for it in rows if it]


def modelled() -> list[OfTable]:
    """The rows of the model: the commands in the sequence of their numbers, and their checks in theirs."""
    nowhere, rows = Machine(0, 1, Settings()), []
    for name, it in sorted(COMMANDS.items(), key=lambda pair: pair[1].fid):
        for check in it(nowhere, *[0] * len(it.operands)).checks():
            status = STATUSES[check.status].removeprefix("RMI_ERROR_")
            rows.append(OfTable(name, check.name, status, tuple(check.after), (name, check.name) not in UNSURE_NAMES))
    return rows


def rows() -> list[Row]:
    return list(rows_of(RULES.read_text()))


def of_names() -> Iterator[str | None]:
    """For each check and each name in a row, that it has no row or is no check, or none."""
    checks, named = all_checks(), {(it.command, it.check) for it in rows()}
    for name in sorted(checks | named):
        is_there = "no command has this check" if name not in checks else "RMI-RULES.md has no row for it"
        yield None if name in checks and name in named else f"{' '.join(name)}: {is_there}"


def first_differences(name: tuple[str, str]) -> int:
    """Prints the first line of each trace that is answered otherwise without a check."""
    if name not in all_checks():
        print(f"{' '.join(name)}: no command has this check")
        return 1
    for path in sorted(TRACES.rglob("*.trace")):
        with_all, without = Bench(), Bench({name})
        for number, line in enumerate(path.read_text().splitlines(), 1):
            here, other = parts_of(with_all.line(line)), parts_of(without.line(line))
            if here != other:
                trace = path.relative_to(TRACES).with_suffix("")
                print(f"{trace} {number}: {here.question} = {here.answer}, and without {other.answer}")
                break
    return 0


if __name__ == "__main__":
    if len(sys.argv) != 3:
        sys.exit(__doc__)
    sys.exit(first_differences(tuple(sys.argv[1:])))
