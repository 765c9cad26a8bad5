"""A history: its lines, each with the second model's answer, and what was met."""
from __future__ import annotations

from collections import Counter
from collections.abc import Sequence
from random import Random
from typing import TypeVar

from second_rmm.bench import Bench
from second_rmm.command import COMMANDS, Outcome
from second_rmm.facts import PAGE, RTT, RUNNING, STATUSES, SUCCESS
from second_rmm.machine import Machine
from second_rmm.pages import REC_EXIT, Layout
from second_rmm.printing import PSCI_RESULTS

T = TypeVar("T")
# X1 to X6 of a call.
OPERANDS, HIGHEST, WORD = 6, 2**64, 8
# The bits of an ESR below its class, and the class of a write of a system register.
ISS, OF_A_REGISTER = 2**25, 0x60000000 // 2**25


class Nothing(Exception):
    """A step finds nothing to be done with."""


class Performing:
    """A history of a number, which has nothing yet."""

    def __init__(self, number: int) -> None:
        self.dice = Random(number)
        self.bench = Bench()
        # The lines, each with its answer.
        self.lines: list[str] = []
        self.met: Counter[str] = Counter()
        # The probability that an operand is replaced.
        self.spoils = self.dice.choice((0.0, 0.04, 0.1, 0.1, 0.2, 0.35))

    @property
    def here(self) -> Machine:
        return self.bench.machine

    def is_drawn(self, chance: float) -> bool:
        return self.dice.random() < chance

    def one(self, items: Sequence[T]) -> T:
        if not items:
            raise Nothing
        return self.dice.choice(items)

    def one_of(self, right: Sequence[T], items: Sequence[T]) -> T:
        """One of the right items, and now and then any."""
        return self.one(items if self.is_drawn(self.spoils / 2) else right)

    # ---- lines

    def ask(self, *words: int | str) -> str:
        """Asks a question, and returns its answer."""
        question = " ".join(it if isinstance(it, str) else hex(it) for it in words)
        answer = self.bench.ask(question)
        self.lines.append(question if answer is None else f"{question} = {answer}")
        return answer or ""

    def other(self, operand: str, value: int, values: list[int]) -> int:
        """Another value of an operand."""
        raise NotImplementedError

    def call(self, name: str, *values: int) -> Outcome:
        """A call, of which operands can be replaced."""
        spoiled = list(values)
        while spoiled and self.is_drawn(self.spoils):
            place = self.dice.randrange(len(spoiled))
            spoiled[place] = self.other(COMMANDS[name].operands[place], spoiled[place], spoiled) % HIGHEST
        return self.exactly(name, *spoiled)

    def exactly(self, name: str, *values: int) -> Outcome:
        """A call with these operands, by name or by registers. What is in the other registers does not matter."""
        if self.is_drawn(0.9):
            self.ask(name, *(PSCI_RESULTS.get(it, it) if of == "status" else it for of, it in zip(COMMANDS[name].operands, values)))
        else:
            rest = [self.dice.randrange(HIGHEST) for _ in range(OPERANDS - len(values))]
            self.ask("smc", COMMANDS[name].fid, *values, *rest)
        outcome = self.bench.outcome
        self.count(name, outcome)
        if outcome.exit is not None:
            self.read_exit(values[0], values[1])
        return outcome

    def count(self, name: str, outcome: Outcome) -> None:
        word = outcome.word
        if word in (SUCCESS, RUNNING):
            self.met[f"{name} {'RMI_SUCCESS' if word == SUCCESS else 'RUNNING'}"] += 1
            return
        self.met[f"{name} {outcome.check}"] += 1
        if word & 0xFF == RTT:
            self.met[f"{name} {outcome.check} {STATUSES[RTT]} {word >> 8}"] += 1

    def read_exit(self, rec: int, run: int) -> None:
        """Reads what an exit has written, and what the guest saw."""
        self.ask("sum", run)
        for it in REC_EXIT.values():
            self.ask("load", run + it.offset // WORD * WORD)
        self.ask("saw", rec)
        self.ask("rec", rec)
        last = self.here.rec(rec).last
        if last is not None:
            esr = last.esr - last.esr % ISS if last.esr // ISS == OF_A_REGISTER else last.esr
            self.met[f"exit {last.reason} esr {esr:#x}"] += 1
        self.met.update(f"result {name}" for name, _ in self.here.rec(rec).results)

    # ---- pages

    def write_page(self, address: int, layout: Layout, fields: dict[str, tuple[int, ...]]) -> None:
        """Writes the fields of a page; one that is not there is 0. What is in no field can be anything."""
        byte = 0 if self.is_drawn(0.8) else self.dice.randrange(256)
        page = bytearray([byte]) * PAGE
        for name, it in layout.items():
            values = (fields.get(name, ()) + (0,) * it.most)[: it.most] if it.size <= WORD else ()
            content = b"".join((value % 256**it.size).to_bytes(it.size, "little") for value in values)
            page[it.offset : it.offset + len(content)] = content
        self.ask("fill", address, byte)
        for place in range(0, PAGE, WORD):
            word = bytes(page[place : place + WORD])
            if word != bytes([byte]) * WORD:
                self.ask("store", address + place, int.from_bytes(word, "little"))

    def spoil_fields(self, fields: dict[str, tuple[int, ...]], others: dict[str, Sequence[int]]) -> None:
        """Replaces fields of a page."""
        while self.is_drawn(self.spoils):
            name = self.dice.choice(list(others))
            fields[name] = (self.dice.choice(others[name]),)
