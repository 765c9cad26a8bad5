"""Statements that hold of each machine that the second model of the RMI by registers reaches.

    roles     each granule of a realm is named once: by the realm, an entry or a REC
    entries   tables end at level 3, blocks are aligned, and each half of the addresses has its own kinds of entries
    teardown  a host that steps by `top` alone takes a realm down, and each of its granules comes back with zeros
"""
from __future__ import annotations

from collections import Counter
from collections.abc import Iterator

from second_rmm.bench import Bench
from second_rmm.facts import DATA, DELEGATED, PAGE, RD, REC_AUX, REC_STATE, RTT, RTT_STATE, SUCCESS, UNDELEGATED, size
from second_rmm.machine import ZEROS, Entry, Machine, Realm

UNPROTECTED_KINDS, PROTECTED_KINDS = ("UNASSIGNED_NS", "ASSIGNED_NS", "TABLE"), ("UNASSIGNED", "ASSIGNED", "TABLE")
# More calls than a teardown of a machine of 4,096 granules can take.
MOST_CALLS = 20_000


def tables_of(machine: Machine, realm: Realm) -> Iterator[tuple[int, int, list[Entry]]]:
    """Each table of a realm: its level, where it begins, and its entries."""
    span = size(realm.level)
    below = [(realm.level, 512 * span * k, table) for k, table in enumerate(realm.tables)]
    while below:
        level, begin, table = below.pop()
        entries, step = machine.granule(table).table, size(level)
        yield level, begin, entries
        below += [(level + 1, begin + k * step, it.address) for k, it in enumerate(entries) if it.kind == "TABLE"]


def entries_of(machine: Machine, realm: Realm) -> Iterator[tuple[int, int, Entry]]:
    """Each entry of a realm's tables: its level, where it begins, and itself."""
    for level, begin, entries in tables_of(machine, realm):
        step = size(level)
        yield from ((level, begin + k * step, entry) for k, entry in enumerate(entries))


def is_entry_right(machine: Machine, realm: Realm, level: int, at: int, entry: Entry) -> bool:
    kinds = PROTECTED_KINDS if realm.is_protected(at) else UNPROTECTED_KINDS
    if entry.kind == "TABLE":
        return level < 3
    if entry.kind in ("ASSIGNED", "ASSIGNED_NS"):
        is_aligned = (entry.address & 0xFFFF_FFFF_F000) % size(level) == 0
        return entry.kind in kinds and is_aligned and level >= machine.settings.block_level
    return entry.kind in kinds


def named_by(machine: Machine, realm: Realm) -> Iterator[tuple[int, str]]:
    """The granules that a realm names, each with the state that it has to have."""
    yield realm.rd, RD
    yield from ((table, RTT_STATE) for table in realm.tables)
    for level, _, entries in tables_of(machine, realm):
        yield from ((it.address, RTT_STATE) for it in entries if it.kind == "TABLE")
        for mapped in (it for it in entries if it.kind == "ASSIGNED"):
            yield from ((mapped.address + it, DATA) for it in range(0, size(level), PAGE))
    for number, granule in enumerate(machine.granules):
        if granule.rec is not None and granule.rec.realm is realm:
            yield machine.base + PAGE * number, REC_STATE
            yield from ((it, REC_AUX) for it in granule.rec.aux)


def of_roles(machine: Machine) -> str | None:
    """The fault of the roles of granules, or none."""
    named = Counter(it for realm in machine.realms() for it in named_by(machine, realm))
    addresses = range(machine.base, machine.base + PAGE * len(machine.granules), PAGE)
    states = zip(addresses, (it.state for it in machine.granules))
    wanted = Counter(it for it in states if it[1] not in (UNDELEGATED, DELEGATED))
    odd = (named - wanted) + (wanted - named)
    return f"the granule {min(odd)} is named {named[min(odd)]} times" if odd else None


def of_entries(machine: Machine) -> str | None:
    """The fault of an entry, or none."""
    for realm in machine.realms():
        for level, at, entry in entries_of(machine, realm):
            if not is_entry_right(machine, realm, level, at, entry):
                return f"an entry of level {level} at {at:#x}: {entry}"
    return None


# ---- teardown


class Teardown:
    """A host that takes a realm down. It knows what calls return, and a spare granule."""

    def __init__(self, bench: Bench, realm: Realm, spares: list[int]) -> None:
        self.bench, self.realm, self.spares = bench, realm, spares
        self.calls = 0

    def call(self, name: str, *values: int) -> tuple[int, dict[str, int]]:
        """The status of a call, and its outputs."""
        self.calls += 1
        outcome = self.bench.call(name, list(values))
        if self.calls > MOST_CALLS or outcome.word & 0xFF not in (SUCCESS, RTT):
            raise ValueError(f"{name} {' '.join(map(hex, values))} is answered {outcome.word:#x}")
        return outcome.word, dict(outcome.outputs)

    def step(self, at: int) -> int:
        """Undoes what is at an address. Returns the address that `top` gives."""
        rd = self.realm.rd
        _, entry = self.call("rmi_rtt_read_entry", rd, at & -PAGE, 3)
        level, begin = entry["level"], at - at % size(entry["level"])
        if not self.realm.is_protected(at):
            least = max(self.bench.machine.settings.block_level, self.realm.level)
            _, outputs = self.call("rmi_rtt_unmap_unprotected", rd, begin, max(level, least))
        elif level < 3 and entry["state"] == 1:
            self.call("rmi_rtt_create", rd, self.spares.pop(), begin, level + 1)
            return at
        else:
            _, outputs = self.call("rmi_data_destroy", rd, at)
        return self.up(level, at, outputs["top"])

    def up(self, level: int, at: int, top: int) -> int:
        """Destroys the tables that end at `top`, from the lowest up."""
        while level > self.realm.level and top % size(level - 1) == 0 and top > at:
            begin = top - size(level - 1)
            word, outputs = self.call("rmi_rtt_destroy", self.realm.rd, begin, level)
            if word != SUCCESS:
                raise ValueError(f"a table of level {level} at {begin:#x} is live")
            self.spares.append(outputs["rtt"])
            level, top = level - 1, outputs["top"]
        return top

    def run(self) -> None:
        here = self.bench.machine
        for number, granule in enumerate(here.granules):
            if granule.rec is not None and granule.rec.realm is self.realm:
                self.call("rmi_rec_destroy", here.base + PAGE * number)
        at = 0
        while self.realm.is_inside(at):
            at = self.step(at)
        self.call("rmi_realm_destroy", self.realm.rd)


def of_teardown(bench: Bench) -> str | None:
    """The fault of the teardown of all realms, or none."""
    here = bench.machine
    for number, granule in enumerate(here.granules):
        if granule.rec is not None and granule.rec.is_running:
            bench.ask(f"interrupt {here.base + PAGE * number:#x}")
    free = [here.base + PAGE * k for k, it in enumerate(here.granules) if it.state == UNDELEGATED]
    # One spare granule unfolds a block of 2 MiB, and each page of the block is one more. No machine has 1 GiB.
    spares = free[-1:]
    for address in spares:
        bench.call("rmi_granule_delegate", [address])
    try:
        for realm in list(here.realms()):
            Teardown(bench, realm, spares).run()
    except (ValueError, IndexError) as error:
        return str(error)
    is_clean = all(it.state in (UNDELEGATED, DELEGATED) for it in here.granules)
    is_zero = all(it.page == ZEROS for it in here.granules if it.state == DELEGATED)
    return None if is_clean and is_zero else "a granule is not DELEGATED and zero"
