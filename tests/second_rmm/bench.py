"""A machine that answers lines of traces."""
from __future__ import annotations

import re
from collections.abc import Callable, Set

from . import realms, recs, tables
from .command import COMMANDS, LISTED, Outcome, call, smc
from .facts import INPUT, PAGE, SUCCESS
from .guest import MOST_STEPS, interrupt
from .machine import Granule, Machine, Realm, Rec
from .measurement import rim_of
from .printing import after_text, outcome_text, realm_text, rec_text, result_text
from .reading import (
    PAGES, PSCI_NAMES, NoCommand, aligned, machine_of, named, number, numbers, one_number, page_with, parts_of, step_of,
)

# The modules that define the commands.
OF_COMMANDS = (realms, recs, tables)
MOST_LINE, MOST_REPEAT, WORD, REGISTERS = 65536, 512, 8, 7
NOT_UTF_8 = re.compile("[\ud800-\udfff]")


class Bench:
    """A machine that answers lines. `without` has the checks that are left out, each with its command."""

    def __init__(self, without: Set[tuple[str, str]] = frozenset(), sequence: str = LISTED) -> None:
        self.without, self.sequence = without, sequence
        self.here: Machine | None = None
        # The outcome of the last call.
        self.outcome: Outcome | None = None

    def line(self, text: str) -> str:
        """The line with its answer."""
        question, _, comment = parts_of(text)
        if not question:
            return text
        is_too_long = len(text.encode(errors="surrogateescape")) > MOST_LINE
        answer = "no command" if is_too_long else self.ask(question)
        return question + ("" if answer is None else f" = {answer}") + comment

    def ask(self, question: str) -> str | None:
        """The answer to a question; None to a platform."""
        self.outcome = None
        kind, *words = question.split(" ")
        try:
            if NOT_UTF_8.search(question):
                raise NoCommand(question)
            if kind == "platform":
                self.here = machine_of(words)
                return None
            if kind in COMMANDS:
                return outcome_text(self.call(kind, self.operands(kind, words)))
            if kind in PAGES and words:
                return self.put(aligned(words[0], PAGE), page_with(PAGES[kind], words[1:]))
            if kind in LINES:
                return LINES[kind](self, words)
            raise NoCommand(kind)
        except NoCommand:
            return "no command"

    @property
    def machine(self) -> Machine:
        if self.here is None:
            raise NoCommand("no platform")
        return self.here

    # ---- calls

    def operands(self, name: str, words: list[str]) -> list[int]:
        """The operands of a command, or of a fill."""
        of_command = COMMANDS[name].operands if name in COMMANDS else ("addr", "byte")
        if len(words) != len(of_command):
            raise NoCommand(name)
        return [named(word, PSCI_NAMES if of == "status" else {}) for word, of in zip(words, of_command)]

    def call(self, name: str, values: list[int]) -> Outcome:
        self.outcome = call(self.machine, name, values, self.without, self.sequence)
        return self.outcome

    def repeat(self, words: list[str]) -> str:
        count, name, *operands = words if len(words) > 1 else ["0", ""]
        most = number(count)
        if not 2 <= most <= MOST_REPEAT or name not in (*COMMANDS, "fill") or any(it.count("+") > 1 for it in operands):
            raise NoCommand("repeat")
        firsts = self.operands(name, [it.partition("+")[0] for it in operands])
        steps = [number(it.partition("+")[2]) if "+" in it else 0 for it in operands]
        rounds = [[(first + k * step) % 2**64 for first, step in zip(firsts, steps)] for k in range(most)]
        if name == "fill":
            return self.filled(rounds)
        for accepted, values in enumerate(rounds):
            outcome = self.call(name, values)
            if outcome.word != SUCCESS:
                return outcome_text(outcome, accepted)
        return outcome_text(outcome)

    def smc(self, words: list[str]) -> str:
        given = numbers(words, 1, REGISTERS)
        padded = given + [0] * (REGISTERS - len(given))
        registers, self.outcome = smc(self.machine, padded, self.without, self.sequence)
        return " ".join(hex(it) for it in registers)

    # ---- the host's memory

    def put(self, address: int, content: bytes) -> str:
        """Stores bytes of the host."""
        if not self.machine.is_host_s(address):
            return "fault"
        self.machine.store(address, content)
        return "done"

    def filled(self, rounds: list[list[int]]) -> str:
        """Fills pages, each with a byte."""
        if any(address % PAGE or byte > 255 for address, byte in rounds):
            raise NoCommand("fill")
        for accepted, (address, byte) in enumerate(rounds):
            if self.put(address, bytes([byte]) * PAGE) == "fault":
                return "fault" + after_text(accepted)
        return "done"

    def fill(self, words: list[str]) -> str:
        return self.filled([self.operands("fill", words)])

    def store(self, words: list[str]) -> str:
        _, value = numbers(words, 2, 2)
        return self.put(aligned(words[0], WORD), value.to_bytes(WORD, "little"))

    def load(self, words: list[str]) -> str:
        one_number(words)
        address = aligned(words[0], WORD)
        if not self.machine.is_host_s(address):
            return "fault"
        return hex(int.from_bytes(self.machine.load(address, WORD), "little"))

    # ---- the guest

    def guest(self, words: list[str]) -> str:
        if len(words) < 2:
            raise NoCommand("guest")
        step, rec = step_of(words[1:]), self.rec_at(words[:1])
        if rec is None:
            return "no REC"
        if len(rec.steps) >= MOST_STEPS:
            return "full"
        rec.steps.append(step)
        return "queued"

    def interrupt(self, words: list[str]) -> str:
        rec = self.rec_at(words)
        if rec is None or not rec.is_running:
            return "not running"
        it = interrupt(self.machine, rec)
        self.outcome = Outcome(SUCCESS if it else INPUT, exit=it)
        return outcome_text(self.outcome)

    def saw(self, words: list[str]) -> str:
        rec = self.rec_at(words)
        return "none" if rec is None else ", ".join(map(result_text, rec.results)) or "nothing"

    # ---- readings

    def granule_at(self, words: list[str]) -> Granule | None:
        return self.machine.granule_at(one_number(words))

    def rec_at(self, words: list[str]) -> Rec | None:
        it = self.granule_at(words)
        return it.rec if it else None

    def realm_at(self, words: list[str]) -> Realm | None:
        it = self.granule_at(words)
        return it.realm if it else None

    def state(self, words: list[str]) -> str:
        it = self.granule_at(words)
        return it.state if it else "none"

    def sum(self, words: list[str]) -> str:
        it = self.granule_at(words)
        return str(sum(it.page)) if it else "none"

    def realm(self, words: list[str]) -> str:
        it = self.realm_at(words)
        return realm_text(it) if it else "none"

    def rim(self, words: list[str]) -> str:
        it = self.realm_at(words)
        return rim_of(it).hex() if it else "none"

    def rec(self, words: list[str]) -> str:
        it = self.rec_at(words)
        return rec_text(it) if it else "none"


LINES: dict[str, Callable[[Bench, list[str]], str]] = {
    "repeat": Bench.repeat, "smc": Bench.smc, "store": Bench.store, "load": Bench.load, "fill": Bench.fill,
    "guest": Bench.guest, "interrupt": Bench.interrupt, "saw": Bench.saw, "state": Bench.state, "sum": Bench.sum,
    "realm": Bench.realm, "rim": Bench.rim, "rec": Bench.rec,
}
