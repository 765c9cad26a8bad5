"""Wrong definitions of the second RMM, each with the statements that find it."""
from __future__ import annotations

from contextlib import AbstractContextManager
from dataclasses import replace
from typing import Any, NamedTuple
from unittest.mock import patch

from second_rmm import guest, machine, realms, recs, tables
from second_rmm.command import Checks, Command, Outcome, done
from second_rmm.facts import DELEGATED, DESTROYED, ENTRIES, IRQ, RAM, REC, RTT, size
from second_rmm.guest import Result
from second_rmm.machine import LIVE, Entry, Exit, Granule, Machine, Realm, Rec


class Mistake(NamedTuple):
    """A mistake while its context lasts, and the statements that find it."""

    planted: AbstractContextManager[Any]
    found_by: tuple[str, ...]


def table_leaves_its_entry(self: tables.TableCommand, _entry: Entry) -> int:
    self.machine.become(self.walk.entry.address, DELEGATED)
    return self.walk.entry.address


def page_is_mapped_twice(self: tables.DataCreateUnknown) -> Outcome:
    self.machine.put(self.walk, Entry("ASSIGNED", self.walk.entry.ripas, self.data))
    return done()


def page_becomes_ram(self: tables.DataCreateUnknown) -> Outcome:
    self.machine.become(self.data, "DATA")
    self.machine.put(self.walk, Entry("ASSIGNED", RAM, self.data))
    return done()


def top_passes_one(self: Machine, realm: Realm, ipa: int, level: int) -> int:
    walk = self.walk(realm, ipa, level)
    span, entries = size(walk.level), self.granule(walk.table).table
    begin = ipa - ipa % span
    if walk.entry.kind in LIVE:
        return ipa if self.settings.live_top == "given" else begin
    live = [k for k in range(walk.index, ENTRIES) if entries[k].kind in LIVE]
    return begin + ([*live, ENTRIES, ENTRIES][len(live) > 1] - walk.index) * span


def wipe_is_left_out(self: realms.GranuleDelegate) -> Outcome:
    self.machine.granule(self.addr).state = DELEGATED
    return done()


def data_is_not_wiped(self: Machine, address: int, state: str, page: bytes = machine.ZEROS) -> Granule:
    old = self.granule(address)
    kept = old.page if old.state == "DATA" else page
    self.granules[(address - self.base) // 4096] = granule = Granule(state, kept)
    return granule


def activate_switches_off(self: realms.RealmActivate) -> Outcome:
    self.realm.state = "SYSTEM_OFF"
    return done()


def activate_does_nothing(self: realms.RealmActivate) -> Outcome:
    return done()


made = realms.RealmCreate.effect


def realm_begins_active(self: realms.RealmCreate) -> Outcome:
    outcome = made(self)
    self.machine.realm(self.rd).state = "ACTIVE"
    return outcome


def realm_begins_as_ram(self: realms.RealmCreate) -> Outcome:
    outcome = made(self)
    for table in self.tables():
        granule = self.machine.granule(table)
        granule.table = [it._replace(ripas=RAM) if it.kind == "UNASSIGNED" else it for it in granule.table]
    return outcome


of_delegate = realms.GranuleDelegate.checks


def secure_is_delegated(self: realms.GranuleDelegate) -> Checks:
    yield from (it for it in of_delegate(self) if it.name != "gran_gpt")


def range_is_passed(self: tables.RttSetRipas) -> Outcome:
    self.asking.asked.base = self.top
    return done(top=self.top)


def data_is_not_measured(self: tables.DataCreate) -> Outcome:
    self.map(RAM, self.machine.granule(self.src).page)
    return done()


def data_is_not_copied(self: tables.DataCreate) -> Outcome:
    page = self.machine.granule(self.src).page
    self.map(RAM, machine.ZEROS)
    tables.extend_by_data(self.realm, self.ipa, self.flags, page)
    return done()


def data_is_moved(self: tables.DataCreate) -> Outcome:
    page = self.machine.granule(self.src).page
    self.machine.granule(self.src).page = machine.ZEROS
    self.map(RAM, page)
    tables.extend_by_data(self.realm, self.ipa, self.flags, page)
    return done()


of_data = tables.DataCreate.checks


def data_is_read_anywhere(self: tables.DataCreate) -> Checks:
    yield from (it for it in of_data(self) if it.name != "src_pas")


def page_is_not_mapped(self: tables.DataCreateUnknown) -> Outcome:
    self.machine.become(self.data, "DATA")
    return done()


of_rec = recs.RecCreate.effect


def rec_begins_at_zero(self: recs.RecCreate) -> Outcome:
    outcome = of_rec(self)
    self.machine.rec(self.rec).pc = 0
    return outcome


def rec_stays_counted(self: recs.RecDestroy) -> Outcome:
    for it in (*self.named.aux, self.rec):
        self.machine.become(it, DELEGATED)
    return done()


def aux_is_kept(self: recs.RecDestroy) -> Outcome:
    self.named.realm.recs -= 1
    self.machine.become(self.rec, DELEGATED)
    return done()


left = guest.leave


def exit_shows_registers(here: Machine, rec: machine.Rec, it: Exit) -> Exit:
    return left(here, rec, Exit(IRQ, gprs=rec.gprs) if it.reason == IRQ else it)


def exit_runs_on(here: Machine, rec: machine.Rec, it: Exit) -> Exit:
    exits = left(here, rec, it)
    rec.is_running = True
    return exits


def fold_destroys(self: tables.RttFold) -> Outcome:
    entry = self.below()[0]
    return done(rtt=self.remove(entry._replace(ripas=DESTROYED) if entry.kind == "UNASSIGNED" else entry))


def refusal_counts(self: Command, word: int) -> dict[str, int]:
    if word & 0xFF in (REC, RTT) and hasattr(self, "rd"):
        self.realm.next += 1
    return {}


# ---- of guests


def page_is_replaced(self: tables.DataCreateUnknown) -> Checks:
    yield from self.delegated_data()
    yield from self.rd_checks()
    yield from self.page_place()
    yield from self.entry_checks(lambda entry: entry.kind in ("UNASSIGNED", "ASSIGNED"))


def destroyed_page_stays_ram(self: tables.DataDestroy) -> Outcome:
    entry = self.walk.entry
    self.machine.become(entry.address, DELEGATED)
    self.machine.put(self.walk, Entry("UNASSIGNED", entry.ripas))
    return done(data=entry.address, top=self.next_live())


def empty_becomes_destroyed(self: tables.DataDestroy) -> Outcome:
    entry = self.walk.entry
    self.machine.become(entry.address, DELEGATED)
    self.machine.put(self.walk, Entry("UNASSIGNED", DESTROYED))
    return done(data=entry.address, top=self.next_live())


def destroyed_is_changed(_self: tables.RttSetRipas, entry: Entry) -> bool:
    return entry.kind in ("UNASSIGNED", "ASSIGNED")


of_init, of_range = tables.RttInitRipas.checks, tables.RttSetRipas.checks


def request_is_exceeded(self: tables.RttSetRipas) -> Checks:
    yield from (it for it in of_range(self) if it.name != "top_bound")


def active_realm_gets_ram(self: tables.RttInitRipas) -> Checks:
    yield from (it for it in of_init(self) if it.name != "realm_state")


entered = guest.begin


def request_stays(rec: Rec, run: int, page: bytes) -> None:
    asked = rec.asked
    entered(rec, run, page)
    rec.asked = asked


aborted, found = guest.aborts, guest.physical


def memory_is_emulated(here: Machine, rec: Rec, ipa: int, exception: int) -> Result | Exit | None:
    it = aborted(here, rec, ipa, exception)
    return replace(it, is_emulatable=True) if isinstance(it, Exit) and exception == guest.EC_DATA else it


def abort_shows_value(here: Machine, rec: Rec, ipa: int, access: int, esr: int, value: int) -> int | Result | Exit:
    it = found(here, rec, ipa, access, esr, value)
    return replace(it, gprs=(value,)) if isinstance(it, Exit) else it


read = tables.RttReadEntry.effect


def entry_shows_memory(self: tables.RttReadEntry) -> Outcome:
    outputs, entry = read(self).outputs, self.machine.walk(self.realm, self.ipa, self.level).entry
    shown = self.machine.load(entry.address, 2) if entry.kind == "ASSIGNED" else b""
    return done(**{**outputs, "desc": outputs["desc"] + int.from_bytes(shown, "little")})


# ---- of the profile


destroyed = recs.RecDestroy.effect


def number_is_given_again(self: recs.RecDestroy) -> Outcome:
    self.named.realm.next -= 1
    return destroyed(self)


MISTAKES = {
    "table_leaves_its_entry": Mistake(patch.object(tables.TableCommand, "remove", table_leaves_its_entry), ("roles", "walks")),
    "page_is_mapped_twice": Mistake(patch.object(tables.DataCreateUnknown, "effect", page_is_mapped_twice), ("roles",)),
    "page_becomes_ram": Mistake(patch.object(tables.DataCreateUnknown, "effect", page_becomes_ram), ("ripas",)),
    "top_passes_one": Mistake(patch.object(Machine, "top", top_passes_one), ("tops", "teardowns")),
    "wipe_is_left_out": Mistake(patch.object(realms.GranuleDelegate, "effect", wipe_is_left_out), ("wiped",)),
    "data_is_not_wiped": Mistake(patch.object(Machine, "become", data_is_not_wiped), ("wiped", "secrets", "teardowns")),
    "activate_switches_off": Mistake(patch.object(realms.RealmActivate, "effect", activate_switches_off), ("states",)),
    "activate_does_nothing": Mistake(patch.object(realms.RealmActivate, "effect", activate_does_nothing), ("effects",)),
    "realm_begins_active": Mistake(patch.object(realms.RealmCreate, "effect", realm_begins_active), ("states",)),
    "realm_begins_as_ram": Mistake(patch.object(realms.RealmCreate, "effect", realm_begins_as_ram), ("ripas",)),
    "secure_is_delegated": Mistake(patch.object(realms.GranuleDelegate, "checks", secure_is_delegated), ("hosts",)),
    "range_is_passed": Mistake(patch.object(tables.RttSetRipas, "effect", range_is_passed), ("ripas",)),
    "rec_stays_counted": Mistake(patch.object(recs.RecDestroy, "effect", rec_stays_counted), ("teardowns",)),
    "aux_is_kept": Mistake(patch.object(recs.RecDestroy, "effect", aux_is_kept), ("roles", "teardowns")),
    "data_is_not_measured": Mistake(patch.object(tables.DataCreate, "effect", data_is_not_measured), ("effects",)),
    "data_is_not_copied": Mistake(patch.object(tables.DataCreate, "effect", data_is_not_copied), ("effects",)),
    "data_is_moved": Mistake(patch.object(tables.DataCreate, "effect", data_is_moved), ("hosts",)),
    "data_is_read_anywhere": Mistake(patch.object(tables.DataCreate, "checks", data_is_read_anywhere), ("effects",)),
    "page_is_not_mapped": Mistake(patch.object(tables.DataCreateUnknown, "effect", page_is_not_mapped), ("places", "roles")),
    "rec_begins_at_zero": Mistake(patch.object(recs.RecCreate, "effect", rec_begins_at_zero), ("effects",)),
    "exit_shows_registers": Mistake(patch.object(guest, "leave", exit_shows_registers), ("secrets",)),
    "exit_runs_on": Mistake(patch.object(guest, "leave", exit_runs_on), ("effects",)),
    "fold_destroys": Mistake(patch.object(tables.RttFold, "effect", fold_destroys), ("folds", "ripas")),
    "refusal_counts": Mistake(patch.object(Command, "refused", refusal_counts), ("refusals",)),
    "page_is_replaced": Mistake(patch.object(tables.DataCreateUnknown, "checks", page_is_replaced), ("pages", "places")),
    "destroyed_page_stays_ram": Mistake(patch.object(tables.DataDestroy, "effect", destroyed_page_stays_ram), ("guests",)),
    "empty_becomes_destroyed": Mistake(patch.object(tables.DataDestroy, "effect", empty_becomes_destroyed), ("ripas",)),
    "destroyed_is_changed": Mistake(patch.object(tables.RttSetRipas, "is_right", destroyed_is_changed), ("asked", "ripas")),
    "request_is_exceeded": Mistake(patch.object(tables.RttSetRipas, "checks", request_is_exceeded), ("ripas",)),
    "active_realm_gets_ram": Mistake(patch.object(tables.RttInitRipas, "checks", active_realm_gets_ram), ("ripas",)),
    "request_stays": Mistake(patch.object(recs, "begin", request_stays), ("asked",)),
    "memory_is_emulated": Mistake(patch.object(guest, "aborts", memory_is_emulated), ("pages",)),
    "abort_shows_value": Mistake(patch.object(guest, "physical", abort_shows_value), ("secrets",)),
    "entry_shows_memory": Mistake(patch.object(tables.RttReadEntry, "effect", entry_shows_memory), ("secrets",)),
    "number_is_given_again": Mistake(patch.object(recs.RecDestroy, "effect", number_is_given_again), ("profile",)),
}
