"""Raw operations with a judgement before each call: the check that decides, and the words that are allowed.

    judge X0 X1 X2 X3 X4 X5 X6 = CHECK WORD [WORD ..]      CHECK is `-` if no check fails; WORDs are numbers that rise

The second model of tests/second_rmm has the judgements. tests/rmm_lines.py has the other operations.
"""
from collections.abc import Iterable, Iterator

from rmm_lines import RawBench, digits
from second_rmm.command import smc
from second_rmm.facts import NOT_SUPPORTED, SUCCESS


class JudgingBench(RawBench):
    """A machine that keeps the judgement of its last call."""

    judgement: str

    def smc(self, *words: str) -> str:
        registers, outcome = smc(self.here, [int(it, 16) for it in words], frozenset())
        allowed = outcome.allowed or {NOT_SUPPORTED if outcome.word == NOT_SUPPORTED else SUCCESS}
        self.judgement = " ".join([outcome.check or "-", *map(digits, sorted(allowed))])
        return " ".join(map(digits, registers))


def judged(operations: Iterable[str]) -> Iterator[str]:
    """The operations, with the judgement of each call before it."""
    bench = JudgingBench()
    for operation in operations:
        if not operation.startswith("#"):
            bench.perform(operation)
        if operation.startswith("smc "):
            registers = operation.partition(" = ")[0].removeprefix("smc ")
            yield f"judge {registers} = {bench.judgement}"
        yield operation
