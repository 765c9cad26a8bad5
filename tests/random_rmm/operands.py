"""The values that operands are drawn from, and those that replace them."""
from __future__ import annotations

from collections.abc import Callable, Iterator

from second_rmm.facts import (
    DATA, DELEGATED, ENTRIES, PAGE, PSCI_DENIED, RD, REC_STATE, SUCCESS, UNDELEGATED, size,
)
from second_rmm.machine import Entry, Granule, Realm, Rec

from .performing import HIGHEST, Performing

GRANULES = {"rd", "rec", "params", "addr", "rtt", "data", "src", "run", "calling", "target"}
ADDRESSES = {"ipa", "base", "top"}
# The places of pages after the beginning of a region: the first and last pages, and the ends of tables and blocks.
OFFSETS = (0, 0, 0, 1, 2, 3, 4, 7, 510, 511, 512, 513, 1023, 1024, 262143, 262144, 262145)
# MemAttr of a descriptor, of which 0b100 is reserved, and the lowest bit of SH.
MEMORY_BITS, RESERVED_MEMORY, SH = 0x1C, 0x10, 0x100


def mpidr_of(number: int) -> int:
    """The MPIDR that names a number."""
    return number & 0xF | (number >> 4) << 8


class Operands(Performing):
    """A history, with what operands are drawn from."""

    def __init__(self, number: int) -> None:
        super().__init__(number)
        # The granules that mostly stay the host's, for pages that it reads and writes.
        self.kept: set[int] = set()
        self.regions: dict[int, list[int]] = {}

    # ---- granules

    def address(self, number: int) -> int:
        return self.here.base + PAGE * number

    def end(self) -> int:
        return self.address(len(self.here.granules))

    def all_of(self, is_right: Callable[[Granule], bool]) -> list[int]:
        return [self.address(k) for k, it in enumerate(self.here.granules) if is_right(it)]

    def of_state(self, state: str) -> list[int]:
        return self.all_of(lambda it: it.state == state)

    def spare(self) -> int:
        return self.one(self.of_state(DELEGATED))

    def host_page(self) -> int:
        """A page that the host keeps, or any of its pages."""
        pages = sorted(it for it in self.kept if self.here.is_host_s(it))
        return self.one(pages if pages and self.is_drawn(0.9) else self.of_state(UNDELEGATED))

    def realms(self, state: str = "") -> list[Realm]:
        """All realms, or those of a state."""
        return [it for it in self.here.realms() if state in ("", it.state)]

    def realm(self) -> Realm:
        return self.one(self.realms())

    def recs(self, is_right: Callable[[Rec], bool] = lambda rec: True) -> list[int]:
        return self.all_of(lambda it: it.rec is not None and is_right(it.rec))

    # ---- addresses of realms

    def regions_of(self, realm: Realm) -> list[int]:
        """The starts of the regions in which a realm is used: of each half the first, the last and one more."""
        if realm.rd not in self.regions:
            half, unit = 2 ** (realm.s2sz - 1), self.dice.choice((size(1), size(2)))
            between = [it + unit * self.dice.randrange(half // unit) for it in (0, half)]
            table = ENTRIES * size(realm.level)
            of_tables = [table, half + table] if table < half else []
            self.regions[realm.rd] = [0, half - unit, half, 2 * half - unit, *between, *of_tables]
        return self.regions[realm.rd]

    def ipa(self, realm: Realm, is_protected: bool) -> int:
        """The address of a page in a region of a half, mostly in the first."""
        half = 2 ** (realm.s2sz - 1)
        regions = [it for it in self.regions_of(realm) if (it < half) == is_protected]
        ipa = (regions[0] if self.is_drawn(0.6) else self.dice.choice(regions)) + PAGE * self.dice.choice(OFFSETS)
        return min(ipa, (half if is_protected else 2 * half) - PAGE)

    def any_ipa(self, realm: Realm) -> int:
        return self.ipa(realm, self.is_drawn(0.6))

    def down(self, realm: Realm, ipa: int, level: int) -> bool:
        """Makes the tables for an address down to a level. Whether all are there."""
        while (walk := self.here.walk(realm, ipa, level)).level < level:
            begin = ipa - ipa % size(walk.level)
            if self.call("rmi_rtt_create", realm.rd, self.spare(), begin, walk.level + 1).word != SUCCESS:
                return False
        return True

    def entries(self, realm: Realm) -> Iterator[tuple[int, int, Entry]]:
        """Entries on the way to each region: their level, where they begin, and themselves."""
        for begin in self.regions_of(realm):
            for offset in (0, 1, 2, 511, 512):
                ipa = min(begin + PAGE * offset, 2**realm.s2sz - PAGE)
                for level in range(realm.level, 4):
                    walk = self.here.walk(realm, ipa, level)
                    if walk.level < level:
                        break
                    yield level, ipa - ipa % size(level), walk.entry

    def of_kind(self, realm: Realm, *kinds: str) -> list[tuple[int, int]]:
        """The level and the beginning of each of these entries that is of a kind."""
        return sorted({(level, ipa) for level, ipa, entry in self.entries(realm) if entry.kind in kinds})

    def tables(self, realm: Realm) -> list[tuple[int, int]]:
        """The level and the beginning of each table below a starting one on the way to a region."""
        return [(level + 1, ipa) for level, ipa in self.of_kind(realm, "TABLE")]

    # ---- what replaces operands

    def other(self, operand: str, value: int, values: list[int]) -> int:
        if operand in GRANULES:
            return self.other_granule(value, values)
        if operand in ADDRESSES:
            return self.other_address(value)
        bit = self.dice.randrange(64)
        reserved = (value & ~MEMORY_BITS | RESERVED_MEMORY, value | SH, value | 2 * SH)
        others = {
            "level": (0, 1, 2, 3, 4, value - 1, value + 1, value + 256, value + 2**32, value + 2**63),
            "desc": (value ^ 1 << bit, value ^ 1 << bit % 12, value + PAGE, *reserved),
            "flags": (0, 1, 2, 3, value + 2**63),
            "status": (0, 1, PSCI_DENIED, PSCI_DENIED - 1, 2**32 - 3),
        }
        return self.dice.choice(others.get(operand, (0, 1, 2, 0x10000, 0x10001, 2**32 + 0x10000)))

    def other_granule(self, value: int, values: list[int]) -> int:
        """Another address of a granule: outside, not aligned, another operand, or in another state."""
        dice, there = self.dice, self.address(self.dice.randrange(len(self.here.granules)))
        outside = (0, self.here.base - PAGE, self.end(), HIGHEST - PAGE, value + 2**63, value + 2**48)
        near = (value + 1, value + 8, value + 0x800, value + PAGE - 8, value + PAGE, self.end() - PAGE)
        known = (dice.choice(values), there, self.here.settings.secure[0]) * 2
        of_a_state = self.of_state(dice.choice((UNDELEGATED, DELEGATED, RD, REC_STATE, DATA)))
        alike = self.of_state(self.here.granule(value).state) if self.here.has(value) else []
        of_states = [dice.choice(it) for it in (of_a_state, alike) * 5 if it]
        return dice.choice((*outside, *near, *known, *of_states))

    def other_address(self, value: int) -> int:
        """Another address of a realm: at the ends of its halves, near the right one, or in a region."""
        realms = self.realms()
        half = 2 ** (self.dice.choice(realms).s2sz - 1) if realms else 2**47
        ends = (0, half, half - PAGE, half + PAGE, 2 * half, 2 * half - PAGE, 2**48, HIGHEST - PAGE, value + 2**63)
        steps = [sign * it for it in (PAGE, size(2), size(1)) for sign in (1, -1)]
        near = (value + 8, value + 8, *(value + it for it in steps), value ^ 1 << self.dice.randrange(12, 49))
        there = [self.any_ipa(self.dice.choice(realms)) for _ in range(4)] if realms else ()
        return self.dice.choice((*ends, *near, *near, *there))
