"""Logs of an RMM: traces, answered by the second model with freedoms or mistakes of its own.

A log has no name of a check. Its calls are by name or, as a driver prints them, raw: one `smc` line each, with X0 and
the outputs.
"""
from __future__ import annotations

import re
from collections.abc import Iterable, Iterator
from dataclasses import replace
from pathlib import Path

from second_rmm.bench import Bench
from second_rmm.command import COMMANDS
from second_rmm.printing import PSCI_RESULTS, outcome_text
from second_rmm.reading import NoCommand, parts_of

TRACES = Path(__file__).resolve().parent.parent / "traces"
FIDS = {it.fid: name for name, it in COMMANDS.items()}
NAME_OF_A_CHECK = re.compile(r" \(\w+\)")


def paths() -> list[Path]:
    """All traces; those with a subject of their own come first."""
    folders = TRACES, TRACES / "rmm", TRACES / "rmm/random"
    found = [path for folder in folders for path in sorted(folder.glob("*.trace"))]
    return sorted(found, key=lambda path: path.stem.startswith("mixed-") or path.parent.name == "random")


def lines_of(path: Path) -> list[str]:
    return path.with_name(f"{path.name}.trace").read_text().splitlines()


def answered_at(lines: list[str], number: int) -> str:
    """The question and the answer of a line, without its comment; nothing if there is no such line."""
    it = parts_of(lines[number - 1]) if number <= len(lines) else parts_of("")
    return f"{it.question} = {it.answer}"


def without_answers(text: str) -> str:
    """A trace as a question."""
    parts = map(parts_of, text.splitlines())
    return "".join(f"{it.question}{it.comment}\n" for it in parts)


def with_settings(lines: Iterable[str], settings: str) -> Iterator[str]:
    """The lines with other settings on each platform; those that a platform has stay."""
    pairs = list(zip(*[iter(settings.split(" "))] * 2))
    for line in lines:
        if line.startswith("platform "):
            question, _, comment = parts_of(line)
            more = " ".join(f"{name} {value}" for name, value in pairs if name not in question.split(" "))
            line = f"{question} {more}{comment}".replace("  ", " ") if more else line
        yield line


def raw_questions(bench: Bench, kind: str, words: list[str]) -> Iterator[str]:
    """The calls of a line, each by registers. Who asks stops at the first that is refused."""
    count, name, operands = (int(words[0]), words[1], words[2:]) if kind == "repeat" else (1, kind, words)
    firsts = bench.operands(name, [it.partition("+")[0] for it in operands])
    steps = [int(it.partition("+")[2] or "0", 0) for it in operands]
    for k in range(count):
        values = [hex((first + k * step) % 2**64) for first, step in zip(firsts, steps)]
        yield " ".join(["smc", hex(COMMANDS[name].fid), *values])


def plain(operand: str, value: int) -> str:
    """An operand of a named call."""
    if operand == "status" and value in PSCI_RESULTS:
        return PSCI_RESULTS[value]
    return str(value) if operand in ("level", "index") else hex(value)


def raw_lines(bench: Bench, kind: str, words: list[str]) -> Iterator[str]:
    """The calls of a line with their answers, up to the first that is refused. What is no call has none."""
    try:
        for raw in raw_questions(bench, kind, words):
            yield f"{raw} = {bench.ask(raw)}"
            if bench.outcome.word != 0:
                break
    except NoCommand:
        return


def raw_calls(lines: Iterable[str], bench: Bench) -> Iterator[str]:
    """The log of a trace whose calls are by name, one for each raw line. It has no exits: no register has them."""
    for line in log_of(lines, bench, is_raw=True):
        outcome, (question, _, _) = bench.outcome, parts_of(line)
        kind, *words = question.split(" ")
        name = FIDS.get(int(words[0], 0)) if kind == "smc" else None
        if name is None or outcome is None:
            yield line
            continue
        operands = [plain(of, int(it, 0)) for of, it in zip(COMMANDS[name].operands, [*words[1:], *"000000"])]
        answer = outcome_text(replace(outcome, check="", exit=None))
        yield f"{' '.join([name, *operands])} = {answer}"


def log_of(lines: Iterable[str], bench: Bench, is_raw: bool = False) -> Iterator[str]:
    """The lines of a trace with the answers of a model."""
    for line in lines:
        question = parts_of(line).question
        kind, *words = question.split(" ")
        is_call = kind in COMMANDS or kind == "repeat" and words[1] in COMMANDS
        if not question:
            continue
        if is_call and is_raw:
            yield from raw_lines(bench, kind, words)
            continue
        answer = bench.ask(question)
        bare = NAME_OF_A_CHECK.sub("", answer or "") if is_call else answer
        yield question if answer is None else f"{question} = {bare}"
