"""Mistakes that an RMM could make, each planted in the second model.

A mistake changes methods of the model for a while: `with planted(MISTAKES["activate_does_nothing"]): ..`.
"""
from __future__ import annotations

from collections.abc import Callable, Iterator
from contextlib import ExitStack, contextmanager
from dataclasses import replace
from typing import Any, NamedTuple
from unittest.mock import patch

from second_rmm import guest, measurement, realms, recs, tables
from second_rmm.command import COMMANDS, Check, Checks, Command, Outcome
from second_rmm.facts import DATA, DELEGATED, EMPTY, PAGE, RAM, UNDELEGATED, size
from second_rmm.machine import Entry, Exit, Machine

# Puts a value in the place of an attribute.
Put = Callable[[Any, str, Any], None]


class Mistake(NamedTuple):
    """A mistake: the command that it belongs to, what goes wrong, and the changes that make it."""

    command: str
    text: str
    plant: Callable[[Put], None]


MISTAKES: dict[str, Mistake] = {}


def mistake(command: str, text: str) -> Callable[[Callable[[Put], None]], None]:
    def named(plant: Callable[[Put], None]) -> None:
        MISTAKES[plant.__name__] = Mistake(command, text, plant)

    return named


def short(name: str, command: str, text: str, plant: Callable[[Put], None]) -> None:
    """A mistake by a single change."""
    MISTAKES[name] = Mistake(command, text, plant)


@contextmanager
def planted(it: Mistake) -> Iterator[None]:
    """The model makes a mistake."""
    with ExitStack() as stack:
        it.plant(lambda owner, name, value: stack.enter_context(patch.object(owner, name, value)))
        yield


# ---- kinds of changes


def then(put: Put, command: str, change: Callable[[Any, Outcome], Outcome | None]) -> None:
    """The effect of a command, and then a change of the machine or of the outcome."""
    right = COMMANDS[command].effect

    def effect(self: Command) -> Outcome:
        outcome = right(self)
        return change(self, outcome) or outcome

    put(COMMANDS[command], "effect", effect)


def without_effect(put: Put, command: str) -> None:
    """A command is accepted, and nothing changes."""
    put(COMMANDS[command], "effect", lambda self: Outcome(0, dict.fromkeys(self.outputs, 0)))


def with_checks(put: Put, command: str, change: Callable[[Any, Check], Check | None]) -> None:
    """Each check of a command is another, or is left out."""
    right = COMMANDS[command].checks

    def checks(self: Command) -> Checks:
        yield from (it for it in (change(self, check) for check in right(self)) if it)

    put(COMMANDS[command], "checks", checks)


def left_out(put: Put, command: str, name: str) -> None:
    """A check is made, and never fails."""
    with_checks(put, command, lambda _, check: check._replace(fails=lambda: False) if check.name == name else check)


def output(name: str, change: Callable[[Any, int], int]) -> Callable[[Any, Outcome], Outcome]:
    """An output of a command is another."""
    return lambda self, it: replace(it, outputs={**it.outputs, name: change(self, it.outputs[name])})


# ---- the interface

short("version_is_1_1", "RMI_VERSION", "higher is 1.1",
      lambda put: then(put, "rmi_version", output("higher", lambda _, it: it + 1)))
short("features_at_each_index", "RMI_FEATURES", "each index has the value of index 0",
      lambda put: then(put, "rmi_features", output("value", lambda self, _: self.settings.features())))


# ---- granules


@mistake("RMI_GRANULE_DELEGATE", "the bytes of the granule stay")
def delegate_keeps_bytes(put: Put) -> None:
    def effect(self: Any) -> Outcome:
        self.machine.become(self.addr, DELEGATED, self.machine.granule(self.addr).page)
        return Outcome(0)

    put(realms.GranuleDelegate, "effect", effect)


short("delegate_does_nothing", "RMI_GRANULE_DELEGATE", "the granule stays UNDELEGATED",
      lambda put: without_effect(put, "rmi_granule_delegate"))


@mistake("RMI_GRANULE_UNDELEGATE", "a granule of DATA is accepted")
def undelegate_takes_data(put: Put) -> None:
    def change(self: Any, check: Check) -> Check:
        is_taken = lambda: check.fails() and self.machine.granule(self.addr).state != DATA
        return check._replace(fails=is_taken) if check.name == "gran_state" else check

    with_checks(put, "rmi_granule_undelegate", change)


@mistake("RMI_GRANULE_UNDELEGATE", "the host gets a page of DATA back with its bytes")
def page_comes_back_with_bytes(put: Put) -> None:
    def effect(self: Any) -> Outcome:
        self.machine.become(self.addr, UNDELEGATED, self.machine.granule(self.addr).page)
        return Outcome(0)

    MISTAKES["destroyed_page_keeps_bytes"].plant(put)
    put(realms.GranuleUndelegate, "effect", effect)


# ---- realms


@mistake("RMI_REALM_CREATE", "the realm has one starting table, whatever was asked")
def create_takes_one_table(put: Put) -> None:
    def change(self: Any, _: Outcome) -> None:
        for it in self.realm.tables[1:]:
            self.machine.become(it, DELEGATED)

    then(put, "rmi_realm_create", change)


short("create_activates", "RMI_REALM_CREATE", "the realm is ACTIVE at once",
      lambda put: then(put, "rmi_realm_create", lambda self, _: setattr(self.realm, "state", "ACTIVE")))


@mistake("RMI_REALM_CREATE", "the measurement leaves s2sz out")
def rim_without_s2sz(put: Put) -> None:
    fields = tuple(it for it in measurement.MEASURED_OF_REALM if it != "s2sz")
    put(measurement, "MEASURED_OF_REALM", fields)


short("rim_by_sha_256", "RMI_REALM_CREATE", "the measurement is by SHA-256, whatever was asked",
      lambda put: put(measurement, "HASHES", (measurement.sha256, measurement.sha256)))
short("activate_does_nothing", "RMI_REALM_ACTIVATE", "the realm stays NEW",
      lambda put: without_effect(put, "rmi_realm_activate"))


@mistake("RMI_REALM_ACTIVATE", "a realm that is refused is SYSTEM_OFF")
def refused_activate_stops(put: Put) -> None:
    def refused(self: Any, word: int) -> dict[str, int]:
        if word & 0xFF == 2:
            self.realm.state = "SYSTEM_OFF"
        return {}

    put(realms.RealmActivate, "refused", refused)


@mistake("RMI_REALM_DESTROY", "the VMID is not given back")
def destroy_keeps_vmid(put: Put) -> None:
    right_effect, right_free = realms.RealmDestroy.effect, realms.RealmCreate.is_vmid_free

    def effect(self: Any) -> Outcome:
        self.machine.kept = {*vars(self.machine).get("kept", ()), self.realm.vmid}
        return right_effect(self)

    put(realms.RealmDestroy, "effect", effect)
    is_free = lambda self: right_free(self) and self.field("vmid") not in vars(self.machine).get("kept", ())
    put(realms.RealmCreate, "is_vmid_free", is_free)


@mistake("RMI_REALM_DESTROY", "starting tables after the first stay RTT")
def destroy_gives_back_one_table(put: Put) -> None:
    def effect(self: Any) -> Outcome:
        for it in (self.realm.tables[0], self.rd):
            self.machine.become(it, DELEGATED)
        return Outcome(0)

    put(realms.RealmDestroy, "effect", effect)


short("aux_count_is_one_more", "RMI_REC_AUX_COUNT", "the count is one more",
      lambda put: then(put, "rmi_rec_aux_count", output("count", lambda _, it: it + 1)))


# ---- RECs

short("aux_are_not_checked", "RMI_REC_CREATE", "the state of the auxiliary granules is not checked",
      lambda put: left_out(put, "rmi_rec_create", "aux_state"))


@mistake("RMI_REC_CREATE", "the last auxiliary granule stays DELEGATED")
def last_aux_is_not_taken(put: Put) -> None:
    def change(self: Any, _: Outcome) -> None:
        for it in self.aux()[-1:]:
            self.machine.become(it, DELEGATED)

    then(put, "rmi_rec_create", change)


short("next_does_not_rise", "RMI_REC_CREATE", "the next REC has the same number",
      lambda put: then(put, "rmi_rec_create", lambda self, _: setattr(self.realm, "next", self.realm.next - 1)))
short("rec_is_not_measured", "RMI_REC_CREATE", "the REC is not measured",
      lambda put: put(recs, "extend_by_rec", lambda realm, params: None))
short("rec_begins_at_0", "RMI_REC_CREATE", "the REC begins at pc 0",
      lambda put: then(put, "rmi_rec_create", lambda self, _: setattr(self.machine.rec(self.rec), "pc", 0)))


@mistake("RMI_REC_DESTROY", "the auxiliary granules stay REC_AUX")
def aux_stay(put: Put) -> None:
    def effect(self: Any) -> Outcome:
        self.named.realm.recs -= 1
        self.machine.become(self.rec, DELEGATED)
        return Outcome(0)

    put(recs.RecDestroy, "effect", effect)


@mistake("RMI_REC_DESTROY", "the realm still counts the REC")
def recs_do_not_fall(put: Put) -> None:
    def effect(self: Any) -> Outcome:
        rec = self.named
        for it in (*rec.aux, self.rec):
            self.machine.become(it, DELEGATED)
        return Outcome(0)

    put(recs.RecDestroy, "effect", effect)


@mistake("RMI_REC_ENTER", "the exit has registers of the exit before")
def exit_is_stale(put: Put) -> None:
    right = guest.leave

    def leave(here: Machine, rec: Any, it: Exit) -> Exit:
        before = vars(rec).get("before", ())
        stale = it.gprs + before[len(it.gprs) :]
        rec.before = stale
        return right(here, rec, replace(it, gprs=stale))

    put(guest, "leave", leave)


@mistake("RMI_REC_ENTER", "a host call returns none of the registers of RmiRecEnter")
def host_call_returns_nothing(put: Put) -> None:
    right = guest.begin

    def begin(rec: Any, run: int, page: bytes) -> None:
        is_call = rec.last is not None and rec.last.reason == guest.HOST_CALL
        right(rec, run, bytes(PAGE) if is_call else page)

    put(recs, "begin", begin)


short("rejection_is_lost", "RMI_REC_ENTER", "a rejected change of RIPAS is accepted",
      lambda put: put(guest, "RIPAS_RESPONSE", 0))
short("cpu_off_leaves_runnable", "RMI_REC_ENTER", "a guest that turns its REC off can run on",
      lambda put: put(guest, "STEPS", {**guest.STEPS, "cpu_off": lambda *_: Exit(guest.PSCI, gprs=(guest.CPU_OFF,))}))
short("system_off_leaves_active", "RMI_REC_ENTER", "SYSTEM_OFF of a guest leaves the realm ACTIVE",
      lambda put: put(guest, "STEPS", {**guest.STEPS, "system_off": lambda *_: Exit(guest.PSCI, gprs=(guest.SYSTEM_OFF,))}))


@mistake("RMI_REC_ENTER", "a guest writes at RIPAS EMPTY")
def guest_writes_at_empty(put: Put) -> None:
    right = guest.at_protected

    def at_protected(here: Machine, rec: Any, ipa: int) -> tuple[int, Entry]:
        level, entry = right(here, rec, ipa)
        return level, entry._replace(ripas=RAM) if entry.kind == "ASSIGNED" else entry

    put(guest, "at_protected", at_protected)


@mistake("RMI_PSCI_COMPLETE", "the request is pending still")
def request_stays(put: Put) -> None:
    def change(self: Any, _: Outcome) -> None:
        self.machine.rec(self.calling).pending = self.request

    right = recs.PsciComplete.checks

    def checks(self: Any) -> Checks:
        here = self.machine
        is_rec = here.is_state(self.calling, "REC") and self.calling % PAGE == 0
        self.request = here.rec(self.calling).pending if is_rec else None
        yield from right(self)

    put(recs.PsciComplete, "checks", checks)
    then(put, "rmi_psci_complete", change)


@mistake("RMI_PSCI_COMPLETE", "a target that is turned on cannot run")
def target_stays_off(put: Put) -> None:
    right = recs.PsciComplete.effect

    def effect(self: Any) -> Outcome:
        target = self.machine.rec(self.target)
        was_runnable, outcome = target.is_runnable, right(self)
        target.is_runnable = was_runnable
        return outcome

    put(recs.PsciComplete, "effect", effect)


# ---- tables


@mistake("a walk", "it begins in the first starting table, whatever the address")
def walk_begins_in_first_table(put: Put) -> None:
    right = Machine.walk
    put(Machine, "walk", lambda self, realm, ipa, level: right(self, realm, ipa % (512 * size(realm.level)), level))


short("block_is_not_spread", "RMI_RTT_CREATE", "the entries below a block all have its address",
      lambda put: put(Entry, "children", lambda self, level: [self] * 512))


@mistake("RMI_RTT_CREATE", "the entries of the new table are EMPTY")
def new_table_is_empty(put: Put) -> None:
    right = Entry.children
    is_plain = lambda it: it.kind == "UNASSIGNED"
    put(Entry, "children", lambda self, level: right(self._replace(ripas=EMPTY) if is_plain(self) else self, level))


short("top_ends_at_the_table", "RMI_RTT_DESTROY", "top is the end of the table that is destroyed",
      lambda put: then(put, "rmi_rtt_destroy", output("top", lambda self, _: self.ipa + size(self.level - 1))))
short("destroyed_table_is_empty", "RMI_RTT_DESTROY", "the entry is EMPTY, and not DESTROYED",
      lambda put: put(tables, "DESTROYED", EMPTY))


@mistake("RMI_RTT_DESTROY", "the index of a live table is one level above")
def index_of_live_is_above(put: Put) -> None:
    def change(self: Any, check: Check) -> Check:
        return check._replace(index=lambda: self.level - 1) if check.name == "rtt_live" else check

    with_checks(put, "rmi_rtt_destroy", change)


@mistake("RMI_RTT_DESTROY", "the last entry of the table is not looked at")
def last_entry_is_not_live(put: Put) -> None:
    right = tables.TableCommand.below
    put(tables.RttDestroy, "below", lambda self: right(self)[:-1])


@mistake("RMI_RTT_FOLD", "the entry that remains is EMPTY")
def fold_loses_ripas(put: Put) -> None:
    right = tables.TableCommand.remove
    put(tables.RttFold, "remove", lambda self, entry: right(self, entry._replace(ripas=EMPTY)))


short("fold_of_any_table", "RMI_RTT_FOLD", "tables whose entries differ are folded",
      lambda put: left_out(put, "rmi_rtt_fold", "rtt_homo"))
short("read_level_is_asked", "RMI_RTT_READ_ENTRY", "level is the one that was asked for",
      lambda put: then(put, "rmi_rtt_read_entry", output("level", lambda self, _: self.level)))
short("read_knows_no_destroyed", "RMI_RTT_READ_ENTRY", "a DESTROYED entry is EMPTY",
      lambda put: then(put, "rmi_rtt_read_entry", output("ripas", lambda _, it: it % 2)))


@mistake("RMI_RTT_MAP_UNPROTECTED", "the attributes of the descriptor are lost")
def descriptor_is_an_address(put: Put) -> None:
    def change(self: Any, _: Outcome) -> None:
        self.machine.put(self.walk, Entry("ASSIGNED_NS", EMPTY, self.desc & tables.ADDRESS_BITS | 0xC0))

    then(put, "rmi_rtt_map_unprotected", change)


short("unmap_does_nothing", "RMI_RTT_UNMAP_UNPROTECTED", "the mapping stays",
      lambda put: without_effect(put, "rmi_rtt_unmap_unprotected"))


# ---- pages and RIPAS


@mistake("RMI_DATA_CREATE", "the bytes are not copied")
def bytes_are_not_copied(put: Put) -> None:
    right = tables.DataCommand.map
    put(tables.DataCreate, "map", lambda self, ripas, page: right(self, ripas, bytes(PAGE)))


@mistake("RMI_DATA_CREATE", "the RIPAS stays")
def data_keeps_ripas(put: Put) -> None:
    right = tables.DataCommand.map
    put(tables.DataCreate, "map", lambda self, ripas, page: right(self, self.walk.entry.ripas, page))


@mistake("RMI_DATA_CREATE", "the measurement leaves the flags out")
def rim_without_flags(put: Put) -> None:
    content = lambda realm, flags, page: measurement.digest(realm.hash_algo, page) if flags & 1 else bytes(64)
    number, extend = measurement.number, measurement.extend
    without = lambda realm, ipa, flags, page: extend(realm, 0, number(ipa) + number(0) + content(realm, flags, page))
    put(tables, "extend_by_data", without)


@mistake("RMI_DATA_CREATE", "a page that is not measured extends the measurement by its bytes")
def flags_are_ignored(put: Put) -> None:
    right = measurement.extend_by_data
    put(tables, "extend_by_data", lambda realm, ipa, flags, page: right(realm, ipa, flags | 1, page))


@mistake("RMI_DATA_CREATE_UNKNOWN", "the RIPAS becomes RAM")
def unknown_is_ram(put: Put) -> None:
    right = tables.DataCommand.map
    put(tables.DataCreateUnknown, "map", lambda self, ripas, page: right(self, RAM, page))


@mistake("RMI_DATA_DESTROY", "RAM stays RAM")
def destroyed_page_is_ram(put: Put) -> None:
    def change(self: Any, _: Outcome) -> None:
        here = self.machine.walk(self.realm, self.ipa, 3)
        if self.walk.entry.ripas == RAM:
            self.machine.put(here, here.entry._replace(ripas=RAM))

    then(put, "rmi_data_destroy", change)


@mistake("RMI_DATA_DESTROY", "the bytes of the page stay")
def destroyed_page_keeps_bytes(put: Put) -> None:
    right = tables.DataDestroy.effect

    def effect(self: Any) -> Outcome:
        page, outcome = self.machine.granule(self.walk.entry.address).page, right(self)
        self.machine.become(self.walk.entry.address, DELEGATED, page)
        return outcome

    put(tables.DataDestroy, "effect", effect)


short("top_is_the_next_page", "RMI_DATA_DESTROY", "top is the next page",
      lambda put: then(put, "rmi_data_destroy", output("top", lambda self, _: self.ipa + PAGE)))


@mistake("RMI_RTT_INIT_RIPAS", "it goes one entry too far")
def init_goes_too_far(put: Put) -> None:
    def change(self: Any, outcome: Outcome) -> None:
        here = self.machine.walk(self.realm, outcome.outputs["top"] % 2 ** (self.realm.s2sz - 1), 3)
        if here.entry.kind == "UNASSIGNED" and here.level == self.walk.level:
            self.machine.put(here, here.entry._replace(ripas=RAM))

    then(put, "rmi_rtt_init_ripas", change)


@mistake("RMI_RTT_INIT_RIPAS", "it extends the measurement once, and not for each entry")
def init_is_measured_once(put: Put) -> None:
    def effect(self: Any) -> Outcome:
        top = self.change(RAM, lambda base, end: None)
        measurement.extend_by_ripas(self.realm, self.base, top)
        return Outcome(0, {"top": top})

    put(tables.RttInitRipas, "effect", effect)


short("request_does_not_advance", "RMI_RTT_SET_RIPAS", "the request of the REC does not advance",
      lambda put: then(put, "rmi_rtt_set_ripas", lambda self, _: setattr(self.asking.asked, "base", self.base)))


@mistake("RMI_RTT_SET_RIPAS", "pages that are mapped are refused")
def set_stops_at_pages(put: Put) -> None:
    right = tables.RttSetRipas.is_right
    put(tables.RttSetRipas, "is_right", lambda self, entry: right(self, entry) and entry.kind == "UNASSIGNED")
