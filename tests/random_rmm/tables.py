"""Steps on granules, realms, tables, pages of data and RIPAS."""
from __future__ import annotations

from second_rmm.facts import DELEGATED, PAGE, RD, SUCCESS, UNDELEGATED, size, starting_tables
from second_rmm.machine import Realm
from second_rmm.pages import REALM_PARAMS

from .operands import Operands
from .performing import HIGHEST

WIDTHS = (32, 33, 34, 35, 39, 40, 41, 43, 44, 47, 48)
ATTRIBUTES = (0xC0, 0xC0, 0xD8, 0xDC, 0x40, 0x80, 0x00, 0xC4)
NO_COMMANDS = (
    0xC4000156, 0xC4000160, 0xC4000163, 0xC400014F, 0xC400016A, 0x84000150, 0xC4000151 + 2**32, 0, HIGHEST - 1,
)


class Tables(Operands):
    # ---- the interface itself, granules, and the host's memory

    def interface(self) -> None:
        if self.is_drawn(0.3):
            self.ask("smc", self.dice.choice(NO_COMMANDS), *[self.dice.randrange(HIGHEST) for _ in range(6)])
            self.met["unknown function"] += 1
        elif self.is_drawn(0.5):
            self.call("rmi_version", 0x10000)
        else:
            self.call("rmi_features", 0)

    def delegate(self) -> None:
        free = [it for it in self.of_state(UNDELEGATED) if it not in self.kept]
        self.call("rmi_granule_delegate", self.one(free or self.of_state(UNDELEGATED)))

    def undelegate(self) -> None:
        self.call("rmi_granule_undelegate", self.spare())

    def memory(self) -> None:
        """A load, a store or a fill of the host, anywhere."""
        dice, address = self.dice, self.address(self.dice.randrange(len(self.here.granules)))
        if self.is_drawn(0.1):
            address = self.other_granule(address, [address]) // PAGE * PAGE % HIGHEST
        place = address + 8 * dice.randrange(511)
        kind, *words = dice.choice((
            ("load", place), ("store", place, dice.randrange(HIGHEST)), ("fill", address, dice.randrange(256)),
        ))
        result = self.ask(kind, *words)
        self.met[f"{kind} {'fault' if result == 'fault' else 'done'}"] += 1

    def reading(self) -> None:
        address = self.address(self.dice.randrange(len(self.here.granules)))
        kind = self.dice.choice(("state", "sum", "realm", "rim", "rec", "saw"))
        self.ask(kind, address + 8 * self.is_drawn(0.02))

    # ---- realms

    def shape(self) -> tuple[int, int, int]:
        """A width with a starting level, and as many starting tables as it takes."""
        most = self.here.settings.s2sz
        s2sz = self.one([it for it in WIDTHS if it <= most])
        level = self.one([it for it in range(4) if starting_tables(s2sz, it)])
        return s2sz, level, starting_tables(s2sz, level) or 0

    def adjacent(self, count: int) -> int:
        """The first of some DELEGATED granules, at a multiple of their size."""
        spares = set(self.of_state(DELEGATED))
        is_right = lambda it: it % (PAGE * count) == 0 and all(it + PAGE * k in spares for k in range(count))
        return self.one(sorted(filter(is_right, spares)))

    def realm_create(self) -> None:
        dice, (s2sz, level, count) = self.dice, self.shape()
        base = self.adjacent(count)
        rd = self.one([it for it in self.of_state(DELEGATED) if not base <= it < base + PAGE * count])
        fields = {
            "s2sz": (s2sz,), "hash_algo": (dice.randrange(2),), "vmid": (dice.randrange(1, 5),), "rtt_base": (base,),
            "rtt_level_start": (level,), "rtt_num_start": (count,), "sve_vl": (dice.choice((0, 0, 0, 1)),),
            "num_bps": (dice.choice((0, 0, 1, 3, 16)),), "num_wps": (dice.choice((0, 0, 1, 3, 16)),),
            "pmu_num_ctrs": (dice.choice((0, 0, 31)),),
        }
        all_tables = PAGE * count
        outside = (self.here.base - all_tables, self.end() - all_tables + PAGE, self.end(), HIGHEST - all_tables, 0)
        self.spoil_fields(fields, {
            "flags": (1, 2, 4, 8, 2**63), "s2sz": (0, 31, 32, 48, 49, s2sz + 1, s2sz - 1, 255),
            "hash_algo": (2, 255), "vmid": (0, 255, 256, 257, 65535),
            "rtt_level_start": (0, 1, 2, 3, 4, HIGHEST - 1, level + 256, level + 2**32),
            "rtt_num_start": (0, 1, count + 1, 2 * count, count + 2**16, 17, 32, 2**31),
            "rtt_base": (*(rd, base + PAGE, base + 8) * 3, self.host_page(), *outside),
        })
        params = self.host_page()
        self.write_page(params, REALM_PARAMS, fields)
        if self.call("rmi_realm_create", rd, params).word == SUCCESS:
            self.regions.pop(rd, None)
            self.ask("realm", rd)
            self.ask("rim", rd)

    def realm_activate(self) -> None:
        self.call("rmi_realm_activate", self.one_of([it.rd for it in self.realms("NEW")], self.of_state(RD)))

    def realm_destroy(self) -> None:
        self.call("rmi_realm_destroy", self.realm().rd)

    def aux_count(self) -> None:
        self.call("rmi_rec_aux_count", self.realm().rd)

    # ---- tables

    def table_place(self, realm: Realm) -> tuple[int, int]:
        """A level and an address where a table of it could begin."""
        level, ipa = self.dice.randrange(1, 4), self.any_ipa(realm)
        return level, ipa - ipa % size(level - 1)

    def rtt_create(self) -> None:
        realm = self.realm()
        ipa = self.any_ipa(realm)
        level = self.here.walk(realm, ipa, 2).level + 1
        self.call("rmi_rtt_create", realm.rd, self.spare(), ipa - ipa % size(level - 1), level)

    def tables_to_pages(self) -> None:
        realm = self.realm()
        self.down(realm, self.any_ipa(realm), self.dice.choice((1, 2, 2, 3, 3, 3)))

    def rtt_destroy(self) -> None:
        realm = self.realm()
        level, ipa = self.table_place(realm) if self.is_drawn(0.2) else self.one(self.tables(realm))
        self.call("rmi_rtt_destroy", realm.rd, ipa, level)

    def rtt_fold(self) -> None:
        realm = self.realm()
        level, ipa = self.table_place(realm) if self.is_drawn(0.1) else self.one(self.tables(realm))
        self.call("rmi_rtt_fold", realm.rd, ipa, level)

    def read_entry(self) -> None:
        realm, level = self.realm(), self.dice.randrange(4)
        ipa = self.any_ipa(realm)
        self.call("rmi_rtt_read_entry", realm.rd, ipa - ipa % size(level), level)

    # ---- memory of the host

    def least_level(self, realm: Realm) -> int:
        """The least level at which a realm can have a block."""
        return max(self.here.settings.block_level, realm.level)

    def map_unprotected(self) -> None:
        realm, dice = self.realm(), self.dice
        ipa, least = self.ipa(realm, False), self.least_level(realm)
        reached = max(least, self.here.walk(realm, ipa, 3).level)
        level = reached if self.is_drawn(0.8) else dice.randrange(least, 4)
        address = self.one(self.of_state(UNDELEGATED)) if self.is_drawn(0.9) else PAGE * dice.randrange(2**36)
        desc = address - address % size(level) | dice.choice(ATTRIBUTES)
        self.call("rmi_rtt_map_unprotected", realm.rd, ipa - ipa % size(level), level, desc)

    def unmap_unprotected(self) -> None:
        realm = self.realm()
        mapped = self.of_kind(realm, "ASSIGNED_NS")
        level, ipa = self.dice.randrange(self.least_level(realm), 4), self.ipa(realm, False)
        if mapped and self.is_drawn(0.8):
            level, ipa = self.dice.choice(mapped)
        self.call("rmi_rtt_unmap_unprotected", realm.rd, ipa - ipa % size(level), level)

    # ---- pages of data

    def page_place(self, realms: list[Realm]) -> tuple[Realm, int]:
        """One of some realms, and a protected address where most often a page can be mapped."""
        realm = self.one_of(realms, self.realms())
        ipa = self.ipa(realm, True)
        if self.is_drawn(0.7):
            self.down(realm, ipa, 3)
        return realm, ipa

    def data_create(self) -> None:
        realm, ipa = self.page_place(self.realms("NEW"))
        src = self.host_page()
        if self.is_drawn(0.7):
            self.ask("fill", src, self.dice.randrange(256))
            self.ask("store", src + 8 * self.dice.randrange(512), self.dice.randrange(HIGHEST))
        self.call("rmi_data_create", realm.rd, self.spare(), ipa, src, self.dice.randrange(2))
        self.ask("rim", realm.rd)

    def data_create_unknown(self) -> None:
        realm, ipa = self.page_place(self.realms())
        self.call("rmi_data_create_unknown", realm.rd, self.spare(), ipa)

    def data_destroy(self) -> None:
        realm = self.realm()
        pages = [ipa for _, ipa in self.of_kind(realm, "ASSIGNED")]
        ipa = self.dice.choice(pages) if pages and self.is_drawn(0.6) else self.ipa(realm, True)
        self.call("rmi_data_destroy", realm.rd, ipa)

    # ---- RIPAS

    def range_begin(self, realm: Realm) -> int:
        """A protected address, mostly where an entry begins that is not a table."""
        ipa = self.ipa(realm, True)
        return ipa - (ipa % size(self.here.walk(realm, ipa, 3).level) if self.is_drawn(0.9) else 0)

    def range_end(self, realm: Realm, base: int) -> int:
        """The end of a range: after some entries of the level where the walk ends, or after some pages."""
        span = size(self.here.walk(realm, base, 3).level) if realm.is_inside(base) else PAGE
        lengths = (span, span, 2 * span, PAGE, 3 * PAGE, 3 * span + PAGE, 511 * span, 512 * span, 600 * span)
        return min(base + self.dice.choice(lengths), 2 ** (realm.s2sz - 1))

    def init_ripas(self) -> None:
        realm = self.one_of(self.realms("NEW"), self.realms())
        base = self.range_begin(realm)
        top = self.range_end(realm, base) + PAGE * self.is_drawn(0.1)
        if self.call("rmi_rtt_init_ripas", realm.rd, base, top).word == SUCCESS:
            self.ask("rim", realm.rd)
