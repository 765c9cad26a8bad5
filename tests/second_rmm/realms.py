"""The commands of the interface itself, of granules and of realms."""
from __future__ import annotations

from collections.abc import Mapping
from functools import cached_property

from .command import Check, Checks, Command, Outcome, command, done
from .facts import DELEGATED, ENTRIES, LEAST_S2SZ, PAGE, RD, REALM, RTT_STATE, UNDELEGATED, size, starting_tables
from .machine import LIVE, UNASSIGNED_NS, Entry, Realm
from .measurement import HASHES, first_rim
from .pages import REALM_PARAMS, one_of, signed

VERSION = 0x10000


@command(0x150, "rmi_version", "req", "lower higher")
class Version(Command):
    req: int

    def checks(self) -> Checks:
        yield Check("version", lambda: self.req != VERSION)

    def effect(self) -> Outcome:
        return done(**self.refused(0))

    def refused(self, _word: int) -> Mapping[str, int]:
        return {"lower": VERSION, "higher": VERSION}


@command(0x165, "rmi_features", "index", "value")
class Features(Command):
    index: int

    def effect(self) -> Outcome:
        return done(value=0 if self.index else self.settings.features())


@command(0x151, "rmi_granule_delegate", "addr")
class GranuleDelegate(Command):
    addr: int

    def checks(self) -> Checks:
        yield from self.granule(lambda: self.addr, UNDELEGATED, "gran_align", "gran_bound", "gran_state")
        yield Check("gran_gpt", lambda: self.machine.is_secure(self.addr), after=("gran_bound",))

    def effect(self) -> Outcome:
        self.machine.become(self.addr, DELEGATED)
        return done()


@command(0x152, "rmi_granule_undelegate", "addr")
class GranuleUndelegate(Command):
    addr: int

    def checks(self) -> Checks:
        yield from self.granule(lambda: self.addr, DELEGATED, "gran_align", "gran_bound", "gran_state")

    def effect(self) -> Outcome:
        self.machine.become(self.addr, UNDELEGATED)
        return done()


@command(0x158, "rmi_realm_create", "rd params")
class RealmCreate(Command):
    params: int

    @cached_property
    def page(self) -> bytes:
        return self.machine.granule(self.params).page

    def field(self, name: str) -> int:
        return one_of(self.page, REALM_PARAMS[name])

    def tables(self) -> range:
        """The addresses of the starting tables."""
        base, count = self.field("rtt_base"), self.field("rtt_num_start")
        return range(base, base + PAGE * count, PAGE)

    def is_supported(self) -> bool:
        settings, has = self.settings, self.field
        is_loose = settings.params == "loose"
        extras = has("num_bps") <= settings.bps and has("num_wps") <= settings.wps and has("sve_vl") == 0
        return has("flags") == 0 and LEAST_S2SZ <= has("s2sz") <= settings.s2sz and (is_loose or extras)

    def is_vmid_free(self) -> bool:
        vmid = self.field("vmid")
        return vmid < 2**self.settings.vmid_bits and vmid not in (it.vmid for it in self.machine.realms())

    def checks(self) -> Checks:
        level = lambda: signed(self.field("rtt_level_start"))
        count = lambda: self.field("rtt_num_start")
        right_count = lambda: starting_tables(self.field("s2sz"), level())
        are_delegated = lambda: all(self.machine.is_state(it, DELEGATED) for it in self.tables())
        yield from self.host_page(lambda: self.params, "params_align", "params_bound", "params_pas")
        read = ("params_pas",)
        yield Check("params_valid", lambda: self.field("hash_algo") >= len(HASHES), after=read)
        yield Check("params_supp", lambda: not self.is_supported(), after=read)
        yield Check("rtt_num_level", lambda: count() != right_count(), after=("params_supp",))
        yield Check("rtt_align", lambda: self.field("rtt_base") % (count() * PAGE) != 0, after=("rtt_num_level",))
        yield Check("alias", lambda: self.rd in self.tables(), after=("rtt_num_level",))
        yield from self.granule(lambda: self.rd, DELEGATED, "rd_align", "rd_bound", "rd_state")
        yield Check("rtt_state", lambda: not are_delegated(), after=("rtt_align",))
        yield Check("vmid_valid", lambda: not self.is_vmid_free(), after=read)

    def effect(self) -> Outcome:
        realm = Realm(
            self.rd, self.field("s2sz"), signed(self.field("rtt_level_start")), self.tables(),
            self.field("vmid"), self.field("hash_algo"), first_rim(self.page),
        )
        protected = 2 ** (realm.s2sz - 1) // size(realm.level)
        self.machine.become(self.rd, RD).realm = realm
        for number, table in enumerate(realm.tables):
            here = min(max(protected - number * ENTRIES, 0), ENTRIES)
            entries = [Entry()] * here + [UNASSIGNED_NS] * (ENTRIES - here)
            self.machine.become(table, RTT_STATE).table = entries
        return done()


@command(0x157, "rmi_realm_activate", "rd")
class RealmActivate(Command):
    def checks(self) -> Checks:
        yield from self.rd_checks()
        yield Check("realm_state", lambda: self.realm.state != "NEW", REALM, after=("rd_state",))

    def effect(self) -> Outcome:
        self.realm.state = "ACTIVE"
        return done()


@command(0x159, "rmi_realm_destroy", "rd")
class RealmDestroy(Command):
    def is_live(self) -> bool:
        entries = (entry for table in self.realm.tables for entry in self.machine.granule(table).table)
        return self.realm.recs > 0 or any(entry.kind in LIVE for entry in entries)

    def checks(self) -> Checks:
        yield from self.rd_checks()
        yield Check("realm_live", self.is_live, REALM, after=("rd_state",))

    def effect(self) -> Outcome:
        for it in (*self.realm.tables, self.rd):
            self.machine.become(it, DELEGATED)
        return done()


@command(0x167, "rmi_rec_aux_count", "rd", "count")
class RecAuxCount(Command):
    def checks(self) -> Checks:
        yield from self.rd_checks()

    def effect(self) -> Outcome:
        return done(count=self.settings.aux)
