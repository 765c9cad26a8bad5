"""Whole histories: a beginning, steps, blocks, a teardown, and readings."""
from __future__ import annotations

from collections.abc import Callable

from second_rmm.facts import ENTRIES, PAGE, UNDELEGATED, VALUES, Settings, size
from second_rmm.machine import Realm

from .performing import Nothing
from .recs import Recs

# The other value of each setting that has two; VMIDs are drawn apart.
OTHERS = {
    name: next(it for it in values if it != getattr(Settings(), name))
    for name, values in VALUES.items() if not isinstance(values, range) and name != "vmid_bits"
}
BASES, BASES_WITH_BLOCKS = (0x80000000, 0x80000000, 0, 0x10000, 2**46, 2**47 - 0x200000), (0x80000000, 2**40)
# Of so many histories each some begin with these; MANY RECs reach the second affinity.
CYCLE, WITH_PAGES, WITH_BLOCKS, WITH_TABLE, WITH_RECS, MANY = 100, range(3, 100, 10), range(5, 100, 5), (7,), (11,), 40
MOST_CALLS = 4000
# Granules beside the 512 that become a block; secure ones are among them.
LAST = 64
WEIGHTS = {
    "rec_enter": 24, "set_ripas": 16, "psci_complete": 20, "interrupt": 5, "tables_to_pages": 5, "rtt_create": 4,
    "rtt_destroy": 4, "rtt_fold": 4, "read_entry": 5, "map_unprotected": 6, "unmap_unprotected": 4, "data_create": 8,
    "data_create_unknown": 5, "data_destroy": 5, "init_ripas": 8, "rec_create": 8, "rec_destroy": 2, "realm_create": 2,
    "realm_activate": 2, "realm_destroy": 1, "aux_count": 1, "delegate": 4, "undelegate": 2, "interface": 1,
    "memory": 4, "reading": 6,
}


class History(Recs):
    def tried(self, step: Callable[[], None]) -> bool:
        """Whether a step had something to be done with."""
        try:
            step()
        except Nothing:
            return False
        return True

    # ---- beginnings

    def platform(self, count: int, base: int) -> None:
        dice = self.dice
        numbers = {
            "aux": dice.choice((0, 0, 0, 1, 1, 2, 2, 3, 16)), "vmid_bits": dice.choice((8, 16)), "s2sz": dice.choice((48, 48, 48, 40, 34)),
            "max_recs_order": dice.choice((0, 1, 2, 4, 4, 15)), "bps": dice.choice((0, 1, 15)), "wps": dice.choice((0, 1, 15)),
            "lrs": dice.choice((0, 3, 15)),
        }
        words = [word for name, it in numbers.items() for word in (name, str(it))]
        words += [str(word) for name, it in OTHERS.items() if self.is_drawn(0.2) for word in (name, it)]
        if self.is_drawn(0.3):
            first = dice.randrange(max(0, count - LAST), count)
            words += ["secure", hex(base + PAGE * first), str(dice.randrange(1, 1 + min(2, count - first)))]
        self.ask("platform", base, str(count), *words)
        self.kept = {self.address(count - 1 - k) for k in range(4)}

    def begun(self, first: int) -> None:
        """Delegated granules from one on, and realms with tables, pages and RECs. Few operands are replaced here."""
        dice, spoils = self.dice, self.spoils
        self.spoils = dice.choice((0.0, 0.0, spoils / 4, spoils))
        for address in self.all_of(lambda _: True):
            if address >= self.address(first) and address not in self.kept and self.is_drawn(0.85):
                self.call("rmi_granule_delegate", address)
        life = [self.realm_create, *[self.tables_to_pages] * 2, *[self.init_ripas] * 2, self.data_create]
        recs = [self.rec_create] * dice.choice((0, 2, 3, 4))
        for step in life * dice.randrange(1, 3) + recs:
            self.tried(step)
        while self.realms("NEW") and self.is_drawn(0.85):
            self.tried(self.realm_activate)
        self.spoils = spoils

    def steps(self, count: int) -> None:
        for name in self.dice.choices(list(WEIGHTS), list(WEIGHTS.values()), k=4 * count):
            count -= self.tried(getattr(self, name))
            if count <= 0:
                return

    # ---- blocks, and many RECs

    def fold_pages(self) -> None:
        """Maps the first 512 granules, and folds their table; now and then one of them is missing or another."""
        realm, first = self.realm(), self.here.base
        ipa = self.ipa(realm, True)
        ipa -= ipa % size(2)
        for k in range(ENTRIES):
            self.exactly("rmi_granule_delegate", first + PAGE * k)
        self.down(realm, ipa, 3)
        if self.here.walk(realm, ipa, 3).level < 3:
            raise Nothing
        odd, is_missing = self.dice.randrange(ENTRIES) if self.is_drawn(0.3) else -1, self.is_drawn(0.5)
        for k in range(ENTRIES):
            if k != odd or not is_missing:
                page = first + PAGE * (k ^ (k == odd))
                self.exactly("rmi_data_create_unknown", realm.rd, page, ipa + PAGE * k)
        self.exactly("rmi_rtt_fold", realm.rd, ipa, 3)
        self.regions_of(realm)[0] = ipa

    def unfold_block(self) -> None:
        """Maps a block of the host, unfolds it, and folds its table; now and then one page is gone before."""
        realm = self.realm()
        level, ipa = max(self.dice.choice((2, 2, 1)), self.least_level(realm)), self.ipa(realm, False)
        self.down(realm, ipa, level)
        ipa -= ipa % size(level)
        desc = self.dice.randrange(2**17) * size(1) | 0xC0
        self.call("rmi_rtt_map_unprotected", realm.rd, ipa, level, desc)
        if level < 3:
            self.call("rmi_rtt_create", realm.rd, self.spare(), ipa, level + 1)
            self.tried(self.dice.choice((self.unmap_unprotected, self.map_unprotected, self.read_entry)))
            self.call("rmi_rtt_fold", realm.rd, ipa, level + 1)

    def fold_blocks(self) -> None:
        """Fills a table with blocks of the host, and folds it."""
        realm = self.realm()
        level = self.one(range(max(self.here.settings.block_level, realm.level + 1), 3))
        ipa = self.ipa(realm, False)
        ipa -= ipa % size(level - 1)
        self.down(realm, ipa, level)
        for k in range(ENTRIES):
            self.exactly("rmi_rtt_map_unprotected", realm.rd, ipa + k * size(level), level, k * size(level) | 0xC0)
        self.call("rmi_rtt_fold", realm.rd, ipa, level)

    def many_recs(self) -> None:
        """Makes and destroys RECs, so that their numbers rise."""
        for _ in range(MANY):
            self.tried(self.rec_create)
            self.tried(self.rec_destroy)

    # ---- ends

    def teardown(self) -> None:
        """Ends the runs, destroys the RECs, and steps through the addresses by `top`."""
        for rec in self.recs():
            self.ask("interrupt", rec)
            self.exactly("rmi_rec_destroy", rec)
        for realm in self.realms():
            at = 0
            for _ in range(MOST_CALLS):
                at = self.remove(realm, at)
                if not realm.is_inside(at):
                    break
            self.exactly("rmi_realm_destroy", realm.rd)

    def remove(self, realm: Realm, at: int) -> int:
        """Undoes what is at an address. Returns the address that `top` gives."""
        walk = self.here.walk(realm, at, 3)
        begin = at - at % size(walk.level)
        if not realm.is_protected(at):
            level = max(walk.level, self.least_level(realm))
            outcome = self.exactly("rmi_rtt_unmap_unprotected", realm.rd, begin, level)
        elif walk.level < 3 and walk.entry.kind == "ASSIGNED":
            self.exactly("rmi_rtt_create", realm.rd, self.spare(), begin, walk.level + 1)
            return at
        else:
            outcome = self.exactly("rmi_data_destroy", realm.rd, at)
        level, top = walk.level, outcome.outputs["top"]
        while level > realm.level and top % size(level - 1) == 0 and top > at:
            outcome = self.exactly("rmi_rtt_destroy", realm.rd, top - size(level - 1), level)
            level, top = level - 1, outcome.outputs["top"]
        return top

    def all_read(self) -> None:
        """Reads each granule, REC and realm, and entries of each table."""
        for address in self.all_of(lambda _: True):
            it = self.here.granule(address)
            self.ask("state", address)
            self.ask("sum", address)
            if it.state == UNDELEGATED and any(it.page):
                for word in self.dice.sample(range(0, PAGE, 8), 4):
                    self.ask("load", address + word)
            for kind in ("rec", "saw") if it.rec is not None else ("realm", "rim") if it.realm is not None else ():
                self.ask(kind, address)
            if it.realm is not None:
                self.read_tables(it.realm)

    def read_tables(self, realm: Realm) -> None:
        """Reads some entries of each table, and now and then all of one."""
        begins = range(0, ENTRIES * size(realm.level) * len(realm.tables), ENTRIES * size(realm.level))
        tables = [(realm.level, it) for it in begins] + self.tables(realm)
        whole = self.dice.randrange(12 * len(tables))
        for number, (level, begin) in enumerate(tables):
            some = {0, 1, 2, 3, 4, 7, 255, 256, 510, 511, self.dice.randrange(ENTRIES)}
            for k in range(ENTRIES) if number == whole else sorted(some):
                ipa = begin + k * size(level)
                if realm.is_inside(ipa):
                    self.exactly("rmi_rtt_read_entry", realm.rd, ipa, level)


def history(number: int) -> History:
    """The history of a number: the same at each run."""
    it, kind = History(number), number % CYCLE
    has_pages = kind in WITH_PAGES
    count = ENTRIES + LAST if has_pages else it.dice.choice((32, 64, 96, 96, 128))
    it.platform(count, it.dice.choice(BASES_WITH_BLOCKS if has_pages else BASES))
    it.begun(ENTRIES if has_pages else 0)
    beginnings = {
        it.fold_pages: WITH_PAGES, it.unfold_block: WITH_BLOCKS, it.fold_blocks: WITH_TABLE, it.many_recs: WITH_RECS,
    }
    for step, kinds in beginnings.items():
        if kind in kinds:
            it.tried(step)
    it.steps(it.dice.choice((20, 60, 100, 160)))
    if it.is_drawn(0.4):
        it.tried(it.teardown)
    it.all_read()
    return it
