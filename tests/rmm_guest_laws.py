"""Statements about what guests rely on, whatever a host does, as the second model of the RMI by registers has them.

What a guest has to read, and the RIPAS that it has to meet, are inferred from calls that succeed, from steps of guests with
their results, and from the host's pages. No table and no page of data is read for it.

    pages  a guest reads at a protected address what DATA_CREATE copied there, or zeros of DATA_CREATE_UNKNOWN, and then
           what guests of its realm wrote; and only where RIPAS is RAM
    asked  RIPAS is EMPTY at first. INIT_RIPAS and DATA_CREATE make it RAM, and SET_RIPAS what a guest asked for, within
           its range. Destroyed pages and tables leave DESTROYED, and a destroyed page leaves EMPTY as it is
"""
from __future__ import annotations

from collections.abc import Callable, Iterable, Iterator
from typing import NamedTuple

from rmm_laws import entries_of
from rmm_line_laws import leaves_of, line_of, seen
from second_rmm.bench import Bench
from second_rmm.command import Outcome
from second_rmm.facts import DESTROYED, EMPTY, HOST_CALL, PAGE, PSCI, RAM, RIPAS, RIPAS_CHANGE, RUNNING, SUCCESS, size
from second_rmm.machine import Realm

ACCESSES = ("read", "write", "fetch")
Step = tuple[str, tuple[int, ...]]
Result = tuple[str, int | None]
Values = dict[str, int]
Found = Iterable[str] | None


class Given(NamedTuple):
    """The inputs of a call: the host's page that it copies, and the steps of the guest that it enters."""

    page: bytes = b""
    rd: int = 0
    steps: tuple[Step, ...] = ()


class Asked(NamedTuple):
    """A change of RIPAS that a guest asked for. `more` is whether DESTROYED changes too."""

    rd: int
    base: int
    top: int
    ripas: int
    more: bool


def ended(given: Given, left: int, it: Outcome) -> list[Step]:
    """The steps that gave a result in a run. The last one of a run can give an exit, or spin."""
    steps = list(given.steps[: len(given.steps) - left])
    gives_none = it.exit is None or it.exit.is_done or it.exit.reason in (PSCI, RIPAS_CHANGE, HOST_CALL)
    return steps[:-1] if gives_none else steps


class Guests:
    """A trace that is answered line by line, with what is wrong for guests."""

    def __init__(self) -> None:
        self.bench = Bench()
        # Of each realm its pages by address, and ranges with their RIPAS, the newest last.
        self.pages: dict[int, dict[int, bytearray]] = {}
        self.ranges: dict[int, list[tuple[int, int, int]]] = {}
        # The change of RIPAS that the guest of each REC asked for at its last exit.
        self.asked: dict[int, Asked] = {}

    def ask(self, question: str) -> Iterator[str]:
        if question.startswith("platform "):
            self.bench.ask(question)
            return
        line = line_of(self.bench, question)
        given = self.given(line.kind, line.values)
        self.bench.ask(question)
        it = self.bench.outcome
        if line.kind in AFTER and it is not None and it.word in (SUCCESS, RUNNING):
            yield from AFTER[line.kind](self, line.values, given, it) or ()

    def given(self, kind: str, values: Values) -> Given:
        name = {"rmi_data_create": "src", "rmi_rec_enter": "rec"}.get(kind)
        it = self.bench.machine.granule_at(values[name]) if name else None
        if it is None:
            return Given()
        return Given(rd=it.rec.realm.rd, steps=tuple(it.rec.steps)) if it.rec else Given(it.page)

    def ripas(self, rd: int, ipa: int) -> int:
        return next((it for begin, end, it in reversed(self.ranges[rd]) if begin <= ipa < end), EMPTY)

    def is_anywhere(self, rd: int, base: int, top: int, ripas: int) -> bool:
        """Whether some address of a range has a RIPAS."""
        begins = {base, *(it for begin, end, _ in self.ranges[rd] for it in (begin, end) if base <= it < top)}
        return any(self.ripas(rd, it) == ripas for it in begins)

    # ---- realms, tables and pages

    def realm_create(self, values: Values, _given: Given, _it: Outcome) -> Found:
        self.pages[values["rd"]], self.ranges[values["rd"]] = {}, []
        return None

    def realm_destroy(self, values: Values, _given: Given, _it: Outcome) -> Found:
        self.ranges.pop(values["rd"])
        return ["pages: a realm that has one is destroyed"] if self.pages.pop(values["rd"]) else None

    def rtt_destroy(self, values: Values, _given: Given, _it: Outcome) -> Found:
        rd, begin, end = values["rd"], values["ipa"], values["ipa"] + size(values["level"] - 1)
        self.ranges[rd].append((begin, end, DESTROYED))
        has_page = any(begin <= it < end for it in self.pages[rd])
        return [f"pages: a table at {begin:#x} is destroyed with a page"] if has_page else None

    def map(self, rd: int, ipa: int, page: bytes) -> Found:
        if ipa in self.pages[rd]:
            return [f"pages: the page at {ipa:#x} is replaced"]
        self.pages[rd][ipa] = bytearray(page)
        return None

    def data_create(self, values: Values, given: Given, _it: Outcome) -> Found:
        self.ranges[values["rd"]].append((values["ipa"], values["ipa"] + PAGE, RAM))
        return self.map(values["rd"], values["ipa"], given.page)

    def data_create_unknown(self, values: Values, _given: Given, _it: Outcome) -> Found:
        return self.map(values["rd"], values["ipa"], bytes(PAGE))

    def data_destroy(self, values: Values, _given: Given, _it: Outcome) -> Found:
        rd, ipa = values["rd"], values["ipa"]
        self.ranges[rd].append((ipa, ipa + PAGE, EMPTY if self.ripas(rd, ipa) == EMPTY else DESTROYED))
        return None if self.pages[rd].pop(ipa, None) else [f"pages: there is none at {ipa:#x} to be destroyed"]

    # ---- RIPAS

    def rtt_init_ripas(self, values: Values, _given: Given, it: Outcome) -> Found:
        self.ranges[values["rd"]].append((values["base"], it.outputs["top"], RAM))
        return None

    def rtt_set_ripas(self, values: Values, _given: Given, it: Outcome) -> Found:
        rd, rec, base, top = values["rd"], values["rec"], values["base"], it.outputs["top"]
        asked = self.asked.get(rec)
        if asked is None or asked.rd != rd or base < asked.base or top > asked.top:
            return [f"asked: no guest asked for {base:#x} to {top:#x}"]
        is_kept = asked.more or not self.is_anywhere(rd, base, top, DESTROYED)
        self.ranges[rd].append((base, top, asked.ripas))
        self.asked[rec] = asked._replace(base=top)
        return None if is_kept else [f"asked: DESTROYED is changed from {base:#x} to {top:#x}"]

    # ---- runs

    def rec_destroy(self, values: Values, _given: Given, _it: Outcome) -> Found:
        self.asked.pop(values["rec"], None)
        return None

    def rec_enter(self, values: Values, given: Given, it: Outcome) -> Iterator[str]:
        rec = self.bench.machine.rec(values["rec"])
        self.asked.pop(values["rec"], None)
        steps = ended(given, len(rec.steps), it)
        for step, result in zip(steps, rec.results[len(rec.results) - len(steps) :], strict=True):
            yield from self.stepped(rec.realm, step, result)
        if it.exit is not None and it.exit.reason == RIPAS_CHANGE:
            base, top, ripas, more = given.steps[len(steps)][1]
            self.asked[values["rec"]] = Asked(given.rd, base, top, ripas, bool(more))

    def stepped(self, realm: Realm, step: Step, result: Result) -> Iterator[str]:
        """The faults of the result of an access to a protected address."""
        (kind, operands), (name, value) = step, result
        if kind not in ACCESSES or not realm.is_protected(operands[0]):
            return
        ipa, begin, ripas = operands[0], operands[0] % PAGE, self.ripas(realm.rd, operands[0])
        page = self.pages[realm.rd].get(ipa - begin)
        if name == "sea" and ripas == EMPTY:
            return
        if page is None or ripas != RAM or name == "sea":
            yield f"pages: a {kind} at {ipa:#x} with RIPAS {RIPAS[ripas]} gives {name}"
        elif kind == "write":
            page[begin : begin + operands[2]] = operands[1].to_bytes(operands[2], "little")
        elif kind == "read" and value != int.from_bytes(page[begin : begin + operands[1]], "little"):
            yield f"pages: {value:#x} is read at {ipa:#x}"

    # ---- ends

    def at_the_end(self) -> str | None:
        """A page or a RIPAS that is another than guests have to find, or none."""
        here = self.bench.machine
        now = seen(here, None)
        for realm in here.realms():
            pages, ranges = self.pages[realm.rd], self.ranges[realm.rd]
            for ipa, page in pages.items():
                level, _, _, entry = here.walk(realm, ipa, 3)
                if entry.kind != "ASSIGNED" or here.granule(entry.address + ipa % size(level)).page != page:
                    return f"the page at {ipa:#x} is another"
            mapped = [size(level) // PAGE for level, _, it in entries_of(here, realm) if it.kind == "ASSIGNED"]
            if sum(mapped) != len(pages):
                return f"{sum(mapped)} pages are mapped, and not {len(pages)}"
            begins = {begin for begin, _, _ in leaves_of(now, realm)}
            begins |= {it for begin, end, _ in ranges for it in (begin, end)}
            for ipa in filter(realm.is_protected, sorted(begins)):
                ripas = here.walk(realm, ipa, 3).entry.ripas
                if ripas != self.ripas(realm.rd, ipa):
                    return f"RIPAS at {ipa:#x} is {RIPAS[ripas]}"
        return None


AFTER: dict[str, Callable[[Guests, Values, Given, Outcome], Found]] = {
    "rmi_realm_create": Guests.realm_create, "rmi_realm_destroy": Guests.realm_destroy,
    "rmi_rtt_destroy": Guests.rtt_destroy, "rmi_data_create": Guests.data_create,
    "rmi_data_create_unknown": Guests.data_create_unknown, "rmi_data_destroy": Guests.data_destroy,
    "rmi_rtt_init_ripas": Guests.rtt_init_ripas, "rmi_rtt_set_ripas": Guests.rtt_set_ripas,
    "rmi_rec_destroy": Guests.rec_destroy, "rmi_rec_enter": Guests.rec_enter,
}
