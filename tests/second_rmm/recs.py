"""The commands of RECs."""
from __future__ import annotations

from functools import cached_property

from .command import Check, Checks, Command, Outcome, command, done
from .facts import (
    AFFINITY_INFO, CPU_ON, DELEGATED, EMUL_MMIO, HCR_BITS, LR_HW, MPIDR_BITS, PAGE, PSCI_ALREADY_ON, PSCI_DENIED,
    PSCI_SUCCESS, REALM, REC, REC_AUX, REC_STATE, RUNNING, number_of_mpidr,
)
from .guest import begin, go_on
from .machine import Rec
from .measurement import extend_by_rec
from .pages import REC_ENTER, REC_PARAMS, all_of, one_of

RUNNABLE = 1


@command(0x15A, "rmi_rec_create", "rd rec params")
class RecCreate(Command):
    rec: int
    params: int

    @cached_property
    def page(self) -> bytes:
        return self.machine.granule(self.params).page

    def field(self, name: str) -> int:
        return one_of(self.page, REC_PARAMS[name])

    def aux(self) -> tuple[int, ...]:
        return all_of(self.page, REC_PARAMS["aux"])[: self.field("num_aux")]

    def checks(self) -> Checks:
        machine, mpidr = self.machine, lambda: self.field("mpidr")
        granules = lambda: (self.rec, *self.aux())
        states = lambda: [machine.granule(it).state for it in self.aux()]
        yield from self.host_page(lambda: self.params, "params_align", "params_bound", "params_pas")
        yield from self.granule(lambda: self.rec, DELEGATED, "rec_align", "rec_bound", "rec_state")
        yield from self.rd_checks()
        read, counted = ("params_pas",), ("num_aux",)
        yield Check("num_aux", lambda: self.field("num_aux") != self.settings.aux, after=read)
        yield Check("aux_align", lambda: any(it % PAGE for it in self.aux()), after=counted)
        yield Check("aux_bound", lambda: not all(machine.has(it) for it in self.aux()), after=("aux_align",))
        yield Check("aux_alias", lambda: len(set(granules())) < len(granules()), after=counted)
        yield Check("aux_state", lambda: any(it != DELEGATED for it in states()), after=("aux_bound",))
        yield Check("params_valid", lambda: mpidr() & ~MPIDR_BITS != 0, after=read)
        is_other = lambda: number_of_mpidr(mpidr()) != self.realm.next
        yield Check("mpidr_index", is_other, after=("params_valid", "rd_state"))
        is_full = lambda: self.realm.recs >= 2**self.settings.max_recs_order
        yield Check("realm_state", lambda: self.realm.state != "NEW", REALM, after=("rd_state",))
        yield Check("num_recs", is_full, REALM, after=("rd_state",))

    def effect(self) -> Outcome:
        is_runnable = self.field("flags") & RUNNABLE != 0
        gprs = all_of(self.page, REC_PARAMS["gprs"]) + (0,) * 23
        rec = Rec(self.realm, self.aux(), self.field("mpidr"), self.field("pc"), gprs, is_runnable)
        self.machine.become(self.rec, REC_STATE).rec = rec
        for it in rec.aux:
            self.machine.become(it, REC_AUX)
        rec.realm.next += 1
        rec.realm.recs += 1
        if is_runnable or self.settings.measure_rec == "all":
            extend_by_rec(rec.realm, self.page)
        return done()


class RecCommand(Command):
    """A command on a REC."""

    rec: int

    @property
    def named(self) -> Rec:
        return self.machine.rec(self.rec)

    def is_ready(self) -> Check:
        return Check("rec_state", lambda: self.named.is_running, REC, after=("rec_gran_state",))


@command(0x15B, "rmi_rec_destroy", "rec")
class RecDestroy(RecCommand):
    def checks(self) -> Checks:
        yield from self.granule(lambda: self.rec, REC_STATE, "rec_align", "rec_bound", "rec_gran_state")
        yield self.is_ready()

    def effect(self) -> Outcome:
        rec = self.named
        rec.realm.recs -= 1
        for it in (*rec.aux, self.rec):
            self.machine.become(it, DELEGATED)
        return done()


@command(0x15C, "rmi_rec_enter", "rec run")
class RecEnter(RecCommand):
    run: int

    @cached_property
    def page(self) -> bytes:
        return self.machine.granule(self.run).page

    def is_gic_wrong(self) -> bool:
        """Whether gicv3_hcr or an LR is none that a host may give."""
        lrs = all_of(self.page, REC_ENTER["gicv3_lrs"])
        is_beyond = any(lrs[self.settings.lrs + 1 :])
        return one_of(self.page, REC_ENTER["gicv3_hcr"]) & ~HCR_BITS != 0 or is_beyond or any(it & LR_HW for it in lrs)

    def checks(self) -> Checks:
        emulates = lambda: one_of(self.page, REC_ENTER["flags"]) & EMUL_MMIO != 0
        is_emulatable = lambda: self.named.last is not None and self.named.last.is_emulatable
        state = lambda: self.named.realm.state
        is_checked = self.settings.gic == "checked"
        yield from self.host_page(lambda: self.run, "run_align", "run_bound", "run_pas")
        yield from self.rec_checks(lambda: self.rec)
        of_rec = ("rec_gran_state",)
        yield Check("realm_new", lambda: state() == "NEW", REALM, of_rec)
        yield Check("system_off", lambda: state() == "SYSTEM_OFF", REALM, of_rec, lambda: 1)
        yield self.is_ready()
        ready = ("rec_state",)
        yield Check("rec_runnable", lambda: not self.named.is_runnable, REC, ready)
        yield Check("rec_mmio", lambda: emulates() and not is_emulatable(), REC, ("rec_state", "run_pas"))
        yield Check("rec_gicv3", lambda: is_checked and self.is_gic_wrong(), REC, ("rec_state", "run_pas"))
        yield Check("rec_psci", lambda: self.named.pending is not None, REC, ready)

    def effect(self) -> Outcome:
        begin(self.named, self.run, self.page)
        it = go_on(self.machine, self.named, one_of(self.page, REC_ENTER["flags"]))
        return Outcome(RUNNING) if it is None else Outcome(0, exit=it)


@command(0x164, "rmi_psci_complete", "calling target status")
class PsciComplete(Command):
    calling: int
    target: int
    status: int

    def checks(self) -> Checks:
        calling, target = lambda: self.machine.rec(self.calling), lambda: self.machine.rec(self.target)
        request = lambda: calling().pending
        is_denial = lambda: self.status == PSCI_DENIED and request().function == CPU_ON
        both = ("calling_state", "target_state")
        yield Check("alias", lambda: self.calling == self.target)
        yield from self.granule(
            lambda: self.calling, REC_STATE, "calling_align", "calling_bound", "calling_state"
        )
        yield from self.granule(lambda: self.target, REC_STATE, "target_align", "target_bound", "target_state")
        yield Check("pending", lambda: request() is None, after=("calling_state",))
        yield Check("owner", lambda: calling().realm is not target().realm, after=both)
        yield Check("target", lambda: target().mpidr != request().mpidr, after=("pending", "target_state"))
        is_status = lambda: self.status == PSCI_SUCCESS or is_denial()
        yield Check("status", lambda: not is_status(), after=("pending",))

    def effect(self) -> Outcome:
        calling, target = self.machine.rec(self.calling), self.machine.rec(self.target)
        request, is_on = calling.pending, target.is_runnable or target.is_running
        calling.pending = None
        if request.function == AFFINITY_INFO:
            calling.psci = 0 if is_on else 1
        elif is_on or self.status == PSCI_DENIED:
            calling.psci = PSCI_ALREADY_ON if is_on else PSCI_DENIED
        else:
            calling.psci = PSCI_SUCCESS
            target.is_runnable, target.pc = True, request.entry
            target.gprs = (request.context, *target.gprs[1:])
        return done()
