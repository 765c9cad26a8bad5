"""Statements about the profile's RMM and the RMM by registers, as their models in Python have them.

Commands of a random trace that the profile's RMM accepts are made as calls on the RMM by registers.

    answers   each call, load and fill is answered as it is written for its command
    function  the profile's machine is a function of the machine by registers, but for measurements

A guest's write at RIPAS EMPTY or DESTROYED is left out. RMM 1.0 has none there.
"""
from __future__ import annotations

from collections.abc import Iterator, Sequence
from random import Random

from random_traces import Life
from second_machine import Granule as ProfileGranule
from second_monitor import Monitor
from second_rmm.bench import Bench
from second_rmm.facts import PAGE, RIPAS, number_of_mpidr
from second_rmm.machine import Entry, Granule, Machine

# Granule 0 of the RMM by registers. After the granules of a trace are two pages of parameters, and those of runs.
BASE, PARAMETERS, RUNS = 0x80000000, 2, 64
READINGS = ("state", "sum", "word", "realm", "measurement", "rec")
# The machines are compared after so many commands, and at the end.
EACH = 12
SUCCESS, DONE = "RMI_SUCCESS", "done"
Known = tuple[object, ...]
Written = Iterator[tuple[str, str]]


def address(granule: int) -> int:
    return BASE + PAGE * granule


# ---- the machine of the profile


def of_profile(machine: Machine, granule: Granule) -> Known:
    """The profile's view of a granule of the RMM by registers."""
    number = lambda it: (it - machine.base) // PAGE

    def of_entry(it: Entry) -> tuple[str, str, int]:
        leads = it.kind in ("ASSIGNED", "TABLE")
        return it.kind.removesuffix("_NS"), RIPAS[it.ripas], number(it.address) if leads else 0

    realm, rec = granule.realm, granule.rec
    of_realm = realm and (realm.vmid, [*map(number, realm.tables)], realm.s2sz, realm.state, realm.next)
    state = "RUNNING" if rec and rec.is_running else "READY"
    of_rec = rec and (number(rec.realm.rd), number_of_mpidr(rec.mpidr), [*map(number, rec.aux)], state)
    return granule.state, granule.page, [*map(of_entry, granule.table)], of_realm, of_rec


def in_profile(granules: Sequence[ProfileGranule], granule: ProfileGranule) -> Known:
    """A granule of the profile, but for its measurement."""
    realm, rec = granule.realm, granule.rec
    of_realm = realm and (realm.vmid, realm.tables, realm.width, realm.state, realm.next)
    rd = next((k for k, it in enumerate(granules) if rec and it.realm is rec.realm), 0)
    of_rec = rec and (rd, rec.number, rec.auxiliaries, rec.state)
    return granule.state, granule.page, [(it.kind, it.ripas, it.granule) for it in granule.table], of_realm, of_rec


# ---- calls of commands


class Calls:
    """A machine of the profile, and the RMM by registers on which its commands are made as calls."""

    def __init__(self, opening: str) -> None:
        self.pages, _, aux = map(int, opening.split(" ")[1:])
        self.monitor, self.bench = Monitor(), Bench()
        self.monitor.line(opening)
        size = self.pages + PARAMETERS + RUNS
        self.bench.ask(f"platform {BASE:#x} {size} aux {aux} vmid_bits 8 s2sz 43 max_recs_order 15")
        # The REC of each page of a run.
        self.runs: list[int | None] = [None] * RUNS

    def entry(self, rd: int, ipa: int, level: int) -> tuple[str, int]:
        """The RIPAS and the granule of the entry at which a walk ends."""
        granules = self.monitor.machine.granules
        realm = granules[rd].realm if rd < self.pages else None
        if realm is None or ipa >= 2 ** (realm.width - 13):
            return "EMPTY", 0
        it = self.monitor.walk(realm, ipa, level)[1]
        return it.ripas, it.granule

    def written(self, word: str, numbers: list[int], before: tuple[str, int], answer: list[str]) -> Written:
        """The lines of an accepted command, each with its answer."""
        if word.startswith(("rec_", "guest_")) and word != "rec_create":
            yield from self.of_rec(word, numbers)
        elif word.startswith(("host_", "granule_")):
            yield self.of_granule(word, numbers, answer)
        else:
            yield from self.parameters(word, numbers, answer)
            yield self.in_realm(word, numbers, address(before[1]))

    def of_granule(self, word: str, numbers: list[int], answer: list[str]) -> tuple[str, str]:
        at = address(numbers[0])
        if word == "host_fill":
            return f"fill {at:#x} {numbers[1]}", DONE
        if word == "host_peek":
            # A page that a host can read has one value.
            return f"load {at + numbers[1] // 8 * 8:#x}", hex(int.from_bytes(bytes([int(answer[1])]) * 8, "little"))
        return f"rmi_{word} {at:#x}", SUCCESS

    def parameters(self, word: str, numbers: list[int], answer: list[str]) -> Written:
        if word == "realm_create":
            _, root, vmid, width = numbers
            tables = f"rtt_base {address(root):#x} rtt_level_start 1 rtt_num_start {2 ** (width - 39)}"
            yield f"realm_params {address(self.pages):#x} s2sz {width} vmid {vmid} {tables}", DONE
        elif word == "rec_create":
            number, auxiliaries = int(answer[1]), [hex(address(it)) for it in numbers[2:]]
            named = " ".join(["aux", *auxiliaries] if auxiliaries else [])
            fields = f"flags 0x1 mpidr {number % 16 | number // 16 << 8} {named}".rstrip(" ")
            yield f"rec_params {address(self.pages + 1):#x} {fields}", DONE

    def in_realm(self, word: str, numbers: list[int], removed: int) -> tuple[str, str]:
        """A call on a realm. What it removes was at an address."""
        first, *rest = [address(numbers[0]), *numbers[1:]]
        page = lambda k: f"{rest[k] * PAGE:#x}"
        at = lambda k: f"{address(rest[k]):#x}"
        end = f"{sum(rest[:2]) * PAGE:#x}"
        of = {
            "realm_create": lambda: (f"{address(self.pages):#x}", ""),
            "realm_activate": lambda: ("", ""),
            "realm_destroy": lambda: ("", ""),
            "rtt_create": lambda: (f"{at(0)} {page(1)} {rest[2]}", ""),
            "rtt_destroy": lambda: (f"{page(0)} {rest[1]}", f", rtt {removed:#x}"),
            "rtt_init_ripas": lambda: (f"{page(0)} {end}", f", top {end}"),
            "data_create": lambda: (f"{at(0)} {page(1)} {at(2)} 0x1", ""),
            "data_create_unknown": lambda: (f"{at(0)} {page(1)}", ""),
            "data_destroy": lambda: (page(0), f", data {removed:#x}"),
            "rec_create": lambda: (f"{at(0)} {address(self.pages + 1):#x}", ""),
        }
        operands, outputs = of[word]()
        return f"rmi_{word} {first:#x} {operands}".rstrip(" "), SUCCESS + outputs

    def of_rec(self, word: str, numbers: list[int]) -> Written:
        """Lines of a run: a REC spins until an interrupt."""
        granule, rec = numbers[0], f"{address(numbers[0]):#x}"
        if word == "rec_destroy":
            yield f"rmi_rec_destroy {rec}", SUCCESS
            return
        if word != "rec_enter":
            yield f"interrupt {rec}", f"{SUCCESS}, exit IRQ"
        if word == "rec_exit":
            self.runs[self.runs.index(granule)] = None
            return
        if word == "guest_write":
            _, ipa, offset, value = numbers
            yield f"guest {rec} write {ipa * PAGE + offset:#x} {value}", "queued"
        else:
            self.runs[self.runs.index(None)] = granule
        run = address(self.pages + PARAMETERS + self.runs.index(granule))
        yield f"guest {rec} spin", "queued"
        yield f"rmi_rec_enter {rec} {run:#x}", "RUNNING"
        if word == "guest_write":
            yield f"saw {rec}", DONE

    # ---- statements

    def command(self, line: str) -> Iterator[str]:
        """Performs a command on both, and says what is wrong. One that is refused is no call."""
        word, *words = line.split(" ")
        numbers = [int(it) for it in words]
        before = "RAM", 0
        if word in ("rtt_destroy", "data_destroy"):
            before = self.entry(numbers[0], numbers[1], numbers[2] - 1 if word == "rtt_destroy" else 3)
        elif word == "guest_write" and numbers[0] < self.pages and self.monitor.machine.granules[numbers[0]].rec:
            granules = self.monitor.machine.granules
            rd = next(k for k, it in enumerate(granules) if it.realm is granules[numbers[0]].rec.realm)
            before = self.entry(rd, numbers[1], 3)
        if word == "guest_write" and before[0] != "RAM":
            return
        answer = self.monitor.line(line).split(" ")
        if answer[0] != "0":
            return
        for question, wanted in self.written(word, numbers, before, answer):
            came = str(self.bench.ask(question))
            if not f"{came},".startswith(f"{wanted},"):
                yield f"answers: {question} of {line} is answered {came}, and not {wanted}"

    def differences(self) -> Iterator[str]:
        here, there = self.bench.machine, self.monitor.machine.granules
        for k, (one, other) in enumerate(zip(here.granules, there)):
            if of_profile(here, one) != in_profile(there, other):
                yield f"function: granule {k} is {one.state} and {other.state}, or has other attributes"


def profile(number: int) -> str | None:
    """The fault of the calls of the random trace of a number, or none."""
    opening, *lines = Life(Random(number)).lines()
    calls = Calls(opening)
    for k, line in enumerate(it for it in lines if it.split(" ")[0] not in READINGS):
        for wrong in calls.command(line):
            return f"{wrong} (command {k})"
        if k % EACH == 0:
            for wrong in calls.differences():
                return f"{wrong} (after command {k}, {line})"
    return next(calls.differences(), None)
