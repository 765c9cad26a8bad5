"""A second RMM, in which each rule can be switched off: for `tests/test_rules.py`, and to see what a rule is good for.

It was written from RULES.md and the definitions in crates/realm_model/specs/Command, and has no code in
common with the proved RMM. A command is a generator: it yields its checks in their order, and then changes the
machine. A rule is named by its command and a word, as `data_create.new`; effects begin with `then_` or `says_`, and
what is allowed with `may_`.

    Monitor().line("granule_delegate 0")               the answer
    Monitor(without={"realm_create.vmid_unused"})      a check is left out, or an effect is another
    Monitor(first="data_create.new")                   a check is made before the others of its command
"""
from __future__ import annotations

from collections.abc import Collection, Generator, Sequence
from dataclasses import replace
from hashlib import sha256

from second_machine import ENTRIES, PAGE, ZEROS, Entry, Granule, Machine, Realm, Rec

SUCCESS, INPUT, REALM, REC = 0, 1, 2, 3
# The number of IPA granules that an entry of a level covers.
COVERED = {1: 2**18, 2: 2**9, 3: 1}
MEASURED = ("rtt_init_ripas", "data_create", "rec_create")
# Checks that find what is changed: if one of them is off and fails, the command does nothing, and answers 0.
FINDING = ("inside", "rd", "rec", "level", "walk", "table", "page")

# The command of each event of a history, by its word. The numbers in braces are places in the event, as REALMVIEW.md has them.
EVENTS = {
    "fill": "host_fill {0} {1}", "peek": "host_peek {0} {1}", "delegate": "granule_delegate {0}",
    "undelegate": "granule_undelegate {0}", "realm": "realm_create {0} {1} {3} {2}", "unrealm": "realm_destroy {0}",
    "activate": "realm_activate {rd}", "rtt": "rtt_create {rd} {0} {1} {2}", "unrtt": "rtt_destroy {rd} {1} {2}",
    "ripas": "rtt_init_ripas {rd} {0} {1}", "data": "data_create {rd} {0} {1} {2}",
    "unknown": "data_create_unknown {rd} {0} {1}", "undata": "data_destroy {rd} {1}",
    "rec": "rec_create {rd} {0} {auxiliaries}", "unrec": "rec_destroy {0}", "enter": "rec_enter {rec}",
    "exit": "rec_exit {rec}", "poke": "guest_write {rec} {1} {2} {3}",
}
# The reverse of each event that has one.
REVERSES = {
    "delegate": "undelegate", "realm": "unrealm", "rtt": "unrtt", "data": "undata", "unknown": "undata", "rec": "unrec",
}

# A check: the word of its rule (None: it cannot be switched off), whether it holds, and else the result word.
Check = tuple[str | None, bool, int]
# A command yields its checks. It returns the value that it answers beside its result word, if any.
Command = Generator[Check, None, int | None]


def line_of(word: str, numbers: Sequence[int | None], rd: int | None = None, rec: int | None = None) -> str:
    """The line of an event, where the build's realm and the REC are these."""
    return EVENTS[word].format(*numbers, rd=rd, rec=rec, auxiliaries=" ".join(map(str, numbers[2:]))).strip()


def rtt(level: int) -> int:
    """RMI_ERROR_RTT with a level."""
    return 4 + 256 * level


class Monitor:
    def __init__(self, without: Collection[str] = (), first: str = "") -> None:
        self.without, self.first = frozenset(without), first
        # The rules that were asked for so far.
        self.seen: set[str] = set()
        self.machine, self.command = Machine(0, 0, 0), ""

    def line(self, line: str) -> str:
        """The answer to the line of a command or of a reading; to the line of a machine, none."""
        word, *numbers = line.split(" ")
        operands = [int(number) for number in numbers]
        if word == "machine":
            self.machine = Machine(*operands)
            return ""
        if word in ("state", "sum", "word", "realm", "measurement", "rec"):
            return self.machine.reading(word, *operands)
        self.command = word
        status, value = self.performed(getattr(self, word)(*operands))
        if status or word not in MEASURED:
            self.not_measured("refused.not_measured" if status else "not_measured")
        return str(status) if value is None else f"{status} {value}"

    # ---- rules

    def keeps(self, rule: str) -> bool:
        """Whether a rule is kept: of the command that is performed, or one with its whole name."""
        name = rule if "." in rule else f"{self.command}.{rule}"
        self.seen.add(name)
        return name not in self.without

    def performed(self, checks: Command) -> tuple[int, int | None]:
        """Makes the checks, up to the first that fails, and then all else. Returns the result word, and the value."""
        failed, waits = SUCCESS, self.first.startswith(f"{self.command}.")
        while True:
            try:
                rule, holds, word = next(checks)
            except StopIteration as done:
                return SUCCESS, done.value
            is_kept, is_first = rule is None or self.keeps(rule), f"{self.command}.{rule}" == self.first
            waits &= not is_first
            if not holds and is_kept:
                failed = word if is_first else failed or word
            if failed and not waits or not holds and rule in FINDING:
                return failed, None

    def not_measured(self, rule: str) -> None:
        for realm in () if self.keeps(rule) else self.machine.realms():
            self.measure(realm, b"\0")

    # ---- what commands have in common

    def measure(self, realm: Realm, event: bytes) -> None:
        for it in [realm] if self.keeps("measurement.of_one_realm") else self.machine.realms():
            old, new = (it.measurement, event) if self.keeps("measurement.old_first") else (event, it.measurement)
            it.measurement = sha256(old + new).digest()

    def leave(self, granule: int) -> None:
        """A granule is DELEGATED and zero, whatever it was."""
        it = self.machine.granules[granule]
        page = ZEROS if self.keeps("then_zero") else it.content()
        left = Granule("DELEGATED", page) if self.keeps("then_delegated") else replace(it, page=page)
        self.machine.granules[granule] = left

    def realm_of(self, rd: int) -> Generator[Check, None, Realm]:
        realm = self.machine.granules[rd].realm if self.machine.has(rd) else None
        yield "rd", realm is not None, INPUT
        return realm

    def rec_of(self, granule: int) -> Generator[Check, None, Rec]:
        rec = self.machine.granules[granule].rec if self.machine.has(granule) else None
        yield "rec", rec is not None, INPUT
        return rec

    def protected(self, realm: Realm, ipa: int) -> Check:
        """An IPA granule is in the lower half of the realm's addresses."""
        return "protected", ipa < 2 ** (realm.width - 13), INPUT

    def walk(self, realm: Realm, ipa: int, level: int) -> tuple[int, Entry]:
        """The level and the entry where a walk towards a level ends."""
        start = ipa // 2**27 % len(realm.tables) if self.keeps("walk.starting_table") else 0
        at, table = 1, self.machine.granules[realm.tables[start]].table
        while True:
            entry = table[ipa // COVERED[at] % ENTRIES]
            if at == level or entry.kind != "TABLE":
                return at, entry
            at, table = at + 1, self.machine.granules[entry.granule].table

    # ---- granules

    def granule_delegate(self, granule: int) -> Command:
        yield "inside", self.machine.has(granule), INPUT
        yield "undelegated", self.machine.are("UNDELEGATED", granule), INPUT
        self.leave(granule)

    def granule_undelegate(self, granule: int) -> Command:
        yield "inside", self.machine.has(granule), INPUT
        yield "delegated", self.machine.are("DELEGATED", granule), INPUT
        self.machine.granules[granule].state = "UNDELEGATED" if self.keeps("then_undelegated") else "DELEGATED"

    def host_fill(self, granule: int, value: int) -> Command:
        yield "inside", self.machine.has(granule), INPUT
        yield "undelegated", self.machine.are("UNDELEGATED", granule), INPUT
        filled = PAGE if self.keeps("then_each_byte") else 1
        self.machine.granules[granule].page = bytes([value]) * filled + ZEROS[filled:]

    def host_peek(self, granule: int, offset: int) -> Command:
        yield "inside", self.machine.has(granule), INPUT
        yield "undelegated", self.machine.are("UNDELEGATED", granule), INPUT
        yield "offset", offset < PAGE, INPUT
        return self.machine.granules[granule].page[offset % PAGE] if self.keeps("then_the_byte") else 0

    # ---- realms

    def realm_create(self, rd: int, root: int, vmid: int, width: int) -> Command:
        yield "width", 39 <= width <= 43, INPUT
        count = 2 ** max(width - 39, 0)
        tables = range(root, root + count)
        yield "aligned", root % count == 0, INPUT
        yield "inside", self.machine.has(rd, root, root + count - 1), INPUT
        yield "rd_delegated", self.machine.are("DELEGATED", rd), INPUT
        yield "root_delegated", self.machine.are("DELEGATED", root), INPUT
        yield "other_tables_delegated", self.machine.are("DELEGATED", *tables[1:]), INPUT
        yield "apart_from_root", rd != root, INPUT
        yield "apart_from_other_tables", rd not in tables[1:], INPUT
        yield "vmid_above_0", vmid > 0, INPUT
        yield "vmid_of_the_machine", vmid <= self.machine.vmids, INPUT
        yield "vmid_unused", vmid not in [it.vmid for it in self.machine.realms()], INPUT
        yield None, self.keeps("may_be_255") or vmid < 255, INPUT
        realm = Realm(vmid, list(tables), width if self.keeps("then_of_width") else 39)
        realm.state = "NEW" if self.keeps("then_new") else "ACTIVE"
        realm.measurement = bytes(32) if self.keeps("then_zeros") else sha256(b"").digest()
        self.machine.granules[rd] = Granule("RD", realm=realm)
        for table in tables if self.keeps("then_all_tables") else tables[:1]:
            self.machine.granules[table] = Granule("RTT", table=[Entry() for _ in range(ENTRIES)])

    def realm_activate(self, rd: int) -> Command:
        realm = yield from self.realm_of(rd)
        yield "new", realm.state == "NEW", REALM
        realm.state = "ACTIVE" if self.keeps("then_active") else "NEW"

    def realm_destroy(self, rd: int) -> Command:
        realm = yield from self.realm_of(rd)
        yield "no_rec", not self.machine.recs_of(realm), REALM
        entries = [entry for table in realm.tables for entry in self.machine.granules[table].table]
        yield "no_table", all(entry.kind != "TABLE" for entry in entries), REALM
        for granule in [rd, *(realm.tables if self.keeps("then_all_tables") else realm.tables[:1])]:
            self.leave(granule)
        if not self.keeps("then_gone"):
            self.machine.granules[rd].realm = realm

    # ---- tables

    def place(self, realm: Realm, ipa: int, level: int) -> Generator[Check, None, Entry]:
        """The entry above the table of a level at an IPA granule."""
        yield "level", level in (2, 3), INPUT
        yield "aligned", ipa % COVERED[level - 1] == 0, INPUT
        yield self.protected(realm, ipa)
        at, above = self.walk(realm, ipa, level - 1)
        yield "walk", at == level - 1, rtt(at if self.keeps("says_where_the_walk_ends") else level - 1)
        return above

    def rtt_create(self, rd: int, granule: int, ipa: int, level: int) -> Command:
        realm = yield from self.realm_of(rd)
        yield "inside", self.machine.has(granule), INPUT
        yield "granule_delegated", self.machine.are("DELEGATED", granule), INPUT
        above = yield from self.place(realm, ipa, level)
        yield "no_table", above.kind != "TABLE", rtt(level - 1 if self.keeps("says_the_level_above") else level)
        ripas = above.ripas if self.keeps("then_ripas_of_above") else "RAM" if above.ripas == "EMPTY" else "EMPTY"
        self.machine.granules[granule] = Granule("RTT", table=[Entry(ripas=ripas) for _ in range(ENTRIES)])
        if self.keeps("then_linked"):
            above.kind, above.ripas, above.granule = "TABLE", "EMPTY", granule

    def rtt_destroy(self, rd: int, ipa: int, level: int) -> Command:
        realm = yield from self.realm_of(rd)
        above = yield from self.place(realm, ipa, level)
        yield "table", above.kind == "TABLE", rtt(level - 1)
        entries = self.machine.granules[above.granule].table
        kinds = [entry.kind for entry in (entries if self.keeps("last_entry") else entries[:-1])]
        yield "no_page", "ASSIGNED" not in kinds, rtt(level)
        yield "no_table", "TABLE" not in kinds, rtt(level)
        self.leave(above.granule)
        ripas = "DESTROYED" if self.keeps("then_destroyed") else "EMPTY"
        above.kind, above.ripas, above.granule = "UNASSIGNED", ripas, 0

    def rtt_init_ripas(self, rd: int, ipa: int, count: int) -> Command:
        realm = yield from self.realm_of(rd)
        yield "count_above_0", count > 0, INPUT
        yield "count_to_512", count <= 512, INPUT
        yield None, self.keeps("may_be_512") or count < 512, INPUT
        yield "one_table", ipa % ENTRIES + count <= ENTRIES, INPUT
        yield self.protected(realm, ipa)
        yield "new", realm.state == "NEW", REALM
        at, _ = self.walk(realm, ipa, 3)
        yield "walk", at == 3, rtt(at)
        entries = [self.walk(realm, ipa + k, 3)[1] for k in range(count)]
        if not self.keeps("then_all_or_none"):
            self.make_ram([entry for entry in entries if entry.kind == "UNASSIGNED"])
        yield "unassigned", all(entry.kind == "UNASSIGNED" for entry in entries), rtt(3)
        self.make_ram(entries if self.keeps("then_all_pages") else entries[:-1])
        self.make_ram([] if self.keeps("then_no_more") else [self.walk(realm, ipa + count, 3)[1]])
        if self.keeps("then_measured"):
            self.measure(realm, b"\2" + ipa.to_bytes(4, "big") + count.to_bytes(4, "big"))

    def make_ram(self, entries: list[Entry]) -> None:
        for entry in entries:
            entry.ripas = "RAM" if entry.ripas != "DESTROYED" or self.keeps("then_of_destroyed") else "DESTROYED"

    # ---- pages of data

    def mapped(self, realm: Realm, granule: int, ipa: int, page: bytes) -> Generator[Check, None, Entry]:
        """A page is mapped; returns its entry."""
        at, entry = self.walk(realm, ipa, 3)
        yield "walk", at == 3, rtt(at)
        yield "unassigned", entry.kind == "UNASSIGNED", rtt(3)
        self.machine.granules[granule] = Granule("DATA" if self.keeps("then_data") else "DELEGATED", page)
        entry.kind, entry.granule = "ASSIGNED", granule
        return entry

    def data_create(self, rd: int, granule: int, ipa: int, source: int) -> Command:
        realm = yield from self.realm_of(rd)
        yield "inside", self.machine.has(granule, source), INPUT
        yield "granule_delegated", self.machine.are("DELEGATED", granule), INPUT
        yield "source_undelegated", self.machine.are("UNDELEGATED", source), INPUT
        yield self.protected(realm, ipa)
        yield "new", realm.state == "NEW", REALM
        page = self.machine.granules[source].page
        entry = yield from self.mapped(realm, granule, ipa, page if self.keeps("then_the_bytes") else ZEROS)
        entry.ripas = "RAM" if self.keeps("then_ram") else entry.ripas
        self.machine.granules[source].page = page if self.keeps("then_source_kept") else ZEROS
        if self.keeps("then_measured"):
            self.measure(realm, b"\1" + ipa.to_bytes(4, "big") + sha256(page).digest())

    def data_create_unknown(self, rd: int, granule: int, ipa: int) -> Command:
        realm = yield from self.realm_of(rd)
        yield "inside", self.machine.has(granule), INPUT
        yield "granule_delegated", self.machine.are("DELEGATED", granule), INPUT
        yield self.protected(realm, ipa)
        yield None, self.keeps("may_be_active") or realm.state == "NEW", REALM
        entry = yield from self.mapped(realm, granule, ipa, ZEROS)
        if not self.keeps("then_ripas_kept"):
            entry.ripas = "EMPTY" if entry.ripas == "RAM" else "RAM"

    def data_destroy(self, rd: int, ipa: int) -> Command:
        realm = yield from self.realm_of(rd)
        yield self.protected(realm, ipa)
        yield None, self.keeps("may_be_active") or realm.state == "NEW", REALM
        at, entry = self.walk(realm, ipa, 3)
        yield "walk", at == 3, rtt(at)
        yield "page", entry.kind == "ASSIGNED", rtt(3)
        self.leave(entry.granule)
        others = {"EMPTY": "DESTROYED", "RAM": "RAM", "DESTROYED": "EMPTY"}
        left = {"EMPTY": "EMPTY", "RAM": "DESTROYED", "DESTROYED": "DESTROYED"}
        for it in [realm] if self.keeps("then_in_one_realm") else self.machine.realms():
            entry = self.walk(it, ipa, 3)[1]
            ripas = (left if self.keeps(f"then_of_{entry.ripas.lower()}") else others)[entry.ripas]
            entry.kind, entry.ripas, entry.granule = "UNASSIGNED", ripas, 0

    # ---- RECs

    def rec_create(self, rd: int, granule: int, *auxiliaries: int) -> Command:
        realm = yield from self.realm_of(rd)
        yield "inside", self.machine.has(granule, *auxiliaries), INPUT
        yield "granule_delegated", self.machine.are("DELEGATED", granule), INPUT
        yield "auxiliaries_delegated", self.machine.are("DELEGATED", *auxiliaries), INPUT
        yield "not_too_few", len(auxiliaries) >= self.machine.aux, INPUT
        yield "not_too_many", len(auxiliaries) <= self.machine.aux, INPUT
        yield None, self.keeps("may_be_16") or len(auxiliaries) < 16, INPUT
        yield "each_once", len(set(auxiliaries)) == len(auxiliaries), INPUT
        yield "apart", granule not in auxiliaries, INPUT
        # (a precondition of the proved RMM; no history has that many)
        yield None, realm.next < 65535, INPUT
        yield "new", realm.state == "NEW", REALM
        number, realm.next = realm.next, realm.next + (1 if self.keeps("then_next_rises") else 0)
        rec = Rec(realm, number if self.keeps("then_its_number") else number + 1, list(auxiliaries))
        self.machine.granules[granule] = Granule("REC", rec=rec)
        for it in auxiliaries if self.keeps("then_all_auxiliaries") else auxiliaries[:-1]:
            self.machine.granules[it] = Granule("REC_AUX")
        if self.keeps("then_measured"):
            self.measure(realm, b"\3" + number.to_bytes(4, "big"))
        return number

    def rec_enter(self, granule: int) -> Command:
        rec = yield from self.rec_of(granule)
        yield "active", rec.realm.state == "ACTIVE", REALM
        yield "ready", rec.state == "READY", REC
        rec.state = "RUNNING" if self.keeps("then_running") else "READY"

    def rec_exit(self, granule: int) -> Command:
        rec = yield from self.rec_of(granule)
        yield "running", rec.state == "RUNNING", REC
        rec.state = "READY" if self.keeps("then_ready") else "RUNNING"

    def rec_destroy(self, granule: int) -> Command:
        rec = yield from self.rec_of(granule)
        yield "ready", rec.state == "READY", REC
        for it in [granule, *(rec.auxiliaries if self.keeps("then_all_auxiliaries") else rec.auxiliaries[:-1])]:
            self.leave(it)
        rec.realm.next -= 0 if self.keeps("then_next_kept") else 1

    def guest_write(self, granule: int, ipa: int, offset: int, value: int) -> Command:
        rec = yield from self.rec_of(granule)
        yield "offset", offset < PAGE, INPUT
        yield self.protected(rec.realm, ipa)
        yield "running", rec.state == "RUNNING", REC
        at, entry = self.walk(rec.realm, ipa, 3)
        yield "page", entry.kind == "ASSIGNED", rtt(at)
        yield None, self.keeps("may_be_any_ripas") or entry.ripas == "RAM", rtt(3)
        page = bytearray(self.machine.granules[entry.granule].page)
        page[offset % PAGE] = value if self.keeps("then_written") else page[offset % PAGE]
        self.machine.granules[entry.granule].page = bytes(page)
