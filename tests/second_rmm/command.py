"""A command as a list of checks and an effect, and the groups of checks that commands share.

A check is made if each check that it comes after was made and did not fail. The first check that is made and fails
decides the answer; the words of all that are made and fail are allowed.
"""
from __future__ import annotations

from collections.abc import Callable, Iterator, Mapping, Set
from dataclasses import dataclass, field
from functools import cache, cached_property
from typing import ClassVar, NamedTuple, TypeVar

from .facts import INPUT, NOT_SUPPORTED, PAGE, RD, REC_STATE, RTT, SUCCESS, UNDELEGATED, Settings, size, word_of
from .machine import Entry, Exit, Machine, Realm, Walk

# A command or a step that cannot go on without a check that was left out ends with one of these.
LOST = (ArithmeticError, AssertionError, AttributeError, IndexError, KeyError, LookupError, TypeError, ValueError)
FIRST_FID = 0xC4000000


# Sequences of checks that the standard leaves open: that of the lists here, that of TF-RMM as far as it is known, and
# one in which the last of several checks that fail decides. None makes a check before those that it comes after.
LISTED, TF, LAST = SEQUENCES = ("listed", "tf", "last")
# In TF-RMM the state of the realm comes before this check of a command. No firmware was asked.
REALM_STATE_BEFORE = {"rmi_data_create": "ipa_bound", "rmi_rtt_init_ripas": "base_bound", "rmi_rec_create": "num_aux"}


class Check(NamedTuple):
    """A check: when it fails, the word of that, and the checks that it comes after."""

    name: str
    fails: Callable[[], bool]
    status: int = INPUT
    after: tuple[str, ...] = ()
    index: Callable[[], int] = lambda: 0


Checks = Iterator[Check]


@dataclass
class Outcome:
    """The result of a call: its word, its outputs by name, and the check that decided."""

    word: int
    outputs: Mapping[str, int] = field(default_factory=dict)
    check: str = ""
    # The words of all checks that were made and failed.
    allowed: Set[int] = frozenset()
    exit: Exit | None = None


class Command:
    """A call. Its operands are in X1, X2 and so on, and so are its outputs."""

    name: ClassVar[str]
    fid: ClassVar[int]
    operands: ClassVar[tuple[str, ...]]
    outputs: ClassVar[tuple[str, ...]] = ()
    # The operands that several commands have, and the level at which their walk ends.
    rd: int
    ipa: int
    level: int
    walk_level: int = 3

    def __init__(self, machine: Machine, *values: int) -> None:
        self.machine, self.settings = machine, machine.settings
        for name, value in zip(self.operands, values, strict=True):
            setattr(self, name, value)

    def checks(self) -> Checks:
        yield from ()

    def effect(self) -> Outcome:
        raise NotImplementedError

    def refused(self, _word: int) -> Mapping[str, int]:
        """The outputs beside a word that is not RMI_SUCCESS."""
        return {}

    def failed(self, without: Set[tuple[str, str]]) -> list[tuple[str, int]]:
        """The names and words of the checks that are made and fail."""
        held: set[str] = set()
        failed = []
        for check in self.checks():
            if not held.issuperset(check.after):
                continue
            if (self.name, check.name) in without or not self.fails(check, bool(without)):
                held.add(check.name)
            else:
                failed.append((check.name, word_of(check.status, check.index())))
        return failed

    def fails(self, check: Check, is_lost_well: bool) -> bool:
        """Whether a check fails. If another is left out, it cannot fail where nothing is there to check."""
        try:
            return check.fails()
        except LOST:
            if not is_lost_well:
                raise
            return False

    def perform(self, without: Set[tuple[str, str]] = frozenset(), sequence: str = LISTED) -> Outcome:
        """Makes the checks, but for those of `without`, and the effect if none fails."""
        failed = self.failed(without)
        if failed:
            name, word = deciding(self.name, failed, sequence)
            return Outcome(word, self.refused(word), name, frozenset(it for _, it in failed))
        try:
            return self.effect()
        except LOST:
            # Without a check there can be nothing to go on with: the command does nothing, and is accepted.
            if not without:
                raise
            return done(**dict.fromkeys(self.outputs, 0))

    # ---- what is read

    @property
    def realm(self) -> Realm:
        return self.machine.realm(self.rd)

    @cached_property
    def walk(self) -> Walk:
        return self.machine.walk(self.realm, self.ipa, self.walk_level)

    def next_live(self) -> int:
        """The output `top`: the address of the next live entry."""
        return self.machine.top(self.realm, self.ipa, self.walk_level)

    # ---- groups of checks

    def granule(self, address: Callable[[], int], state: str, align: str, bound: str, last: str) -> Checks:
        """A granule of the machine is at an address, in a state."""
        yield Check(align, lambda: address() % PAGE != 0)
        yield Check(bound, lambda: not self.machine.has(address()), after=(align,))
        yield Check(last, lambda: self.machine.granule(address()).state != state, after=(bound,))

    def host_page(self, address: Callable[[], int], align: str, bound: str, pas: str) -> Checks:
        """A page of the host is at an address, which the RMM reads."""
        granule = lambda: self.machine.granule(address())
        yield Check(align, lambda: address() % PAGE != 0)
        yield Check(bound, lambda: not self.machine.has(address()), after=(align,))
        is_wrong = lambda: granule().state != UNDELEGATED or self.machine.is_secure(address())
        yield Check(pas, is_wrong, after=(bound,))

    def rd_checks(self) -> Checks:
        yield from self.granule(lambda: self.rd, RD, "rd_align", "rd_bound", "rd_state")

    def rec_checks(self, address: Callable[[], int]) -> Checks:
        yield from self.granule(address, REC_STATE, "rec_align", "rec_bound", "rec_gran_state")

    def table_place(self) -> Checks:
        """A table of the level can begin at the IPA."""
        yield Check("level_bound", lambda: not self.realm.level < self.level <= 3, after=("rd_state",))
        yield Check("ipa_align", lambda: self.ipa % size(self.level - 1) != 0, after=("level_bound",))
        yield Check("ipa_bound", lambda: not self.realm.is_inside(self.ipa), after=("rd_state",))

    def page_place(self) -> Checks:
        """A page of data can be at the IPA."""
        yield Check("ipa_align", lambda: self.ipa % PAGE != 0)
        yield Check("ipa_bound", lambda: not self.realm.is_protected(self.ipa), after=("rd_state",))

    def unprotected_place(self) -> Checks:
        """An unprotected mapping of the level can be at the IPA."""
        least = lambda: max(self.settings.block_level, self.realm.level)
        outside = lambda: self.realm.is_protected(self.ipa) or not self.realm.is_inside(self.ipa)
        yield Check("level_bound", lambda: not least() <= self.level <= 3, after=("rd_state",))
        yield Check("ipa_align", lambda: self.ipa % size(self.level) != 0, after=("level_bound",))
        yield Check("ipa_bound", outside, after=("rd_state",))

    def entry_checks(self, is_right: Callable[[Entry], bool], *after: str) -> Checks:
        """The walk reaches its level, and the entry there is right."""
        index = lambda: self.walk.level
        place = ("rd_state", "ipa_align", "ipa_bound", *after)
        yield Check("rtt_walk", lambda: self.walk.level < self.walk_level, RTT, place, index)
        yield Check("rtte_state", lambda: not is_right(self.walk.entry), RTT, ("rtt_walk",), index)


class WithTop(Command):
    """A command whose top is an output beside RMI_ERROR_RTT too."""

    def refused(self, word: int) -> Mapping[str, int]:
        return {"top": self.next_live()} if word & 0xFF == RTT else {}


@cache
def names_of_checks(command: str) -> list[str]:
    """The names of a command's checks, in their sequence. None is made."""
    nowhere = Machine(0, 1, Settings())
    return [it.name for it in COMMANDS[command](nowhere, *[0] * len(COMMANDS[command].operands)).checks()]


def deciding(command: str, failed: list[tuple[str, int]], sequence: str) -> tuple[str, int]:
    """The check that decides, of those that were made and failed, by the sequence in which they are made."""
    if sequence == LAST:
        return failed[-1]
    realm_state = next((it for it in failed if it[0] == "realm_state"), None)
    if sequence == TF and realm_state and command in REALM_STATE_BEFORE:
        names = names_of_checks(command)
        place = names.index(REALM_STATE_BEFORE[command])
        return realm_state if names.index(failed[0][0]) >= place else failed[0]
    return failed[0]


COMMANDS: dict[str, type[Command]] = {}
C = TypeVar("C", bound=type[Command])


def command(number: int, name: str, operands: str = "", outputs: str = "") -> Callable[[C], C]:
    """Names the command that a class is."""

    def named(it: C) -> C:
        it.name, it.fid = name, FIRST_FID + number
        it.operands, it.outputs = tuple(operands.split()), tuple(outputs.split())
        COMMANDS[name] = it
        return it

    return named


def done(**outputs: int) -> Outcome:
    return Outcome(SUCCESS, outputs)


def call(
    machine: Machine, name: str, values: list[int], without: Set[tuple[str, str]] = frozenset(), sequence: str = LISTED
) -> Outcome:
    return COMMANDS[name](machine, *values).perform(without, sequence)


def smc(
    machine: Machine, registers: list[int], without: Set[tuple[str, str]] = frozenset(), sequence: str = LISTED
) -> tuple[list[int], Outcome]:
    """Performs a call by registers, X0 to X6. Returns X0 and the outputs, each 0 if there is none."""
    it = next((it for it in COMMANDS.values() if it.fid == registers[0]), None)
    if it is None:
        return [NOT_SUPPORTED], Outcome(NOT_SUPPORTED)
    outcome = call(machine, it.name, registers[1 : 1 + len(it.operands)], without, sequence)
    return [outcome.word, *(outcome.outputs.get(name, 0) for name in it.outputs)], outcome
