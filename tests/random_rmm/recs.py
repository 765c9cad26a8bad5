"""Steps on RECs, and what a host does after an exit."""
from __future__ import annotations

from second_rmm.facts import CPU_ON, DELEGATED, PAGE, PSCI, PSCI_DENIED, RIPAS_CHANGE, RUNNING, SYNC
from second_rmm.machine import Exit, Rec
from second_rmm.pages import REC_ENTER, REC_PARAMS

from .guests import Guests
from .operands import mpidr_of
from .performing import HIGHEST, Nothing
from .tables import ATTRIBUTES

# Flags of an entry that do not emulate an access; the last one is none.
FLAGS = (0, 0, 2, 4, 8, 16, 18, 12, 1 << 40)


def is_ready(rec: Rec) -> bool:
    is_idle = not rec.is_running and rec.pending is None
    return is_idle and rec.is_runnable and rec.realm.state == "ACTIVE"


class Recs(Guests):
    def rec_create(self) -> None:
        dice, wanted = self.dice, self.here.settings.aux
        realm = self.one_of(self.realms("NEW"), self.realms())
        spares = self.of_state(DELEGATED)
        if len(spares) <= wanted:
            raise Nothing
        rec, *aux = dice.sample(spares, wanted + 1)
        number = mpidr_of(realm.next)
        fields = {
            "flags": (dice.choice((1, 1, 1, 1, 1, 3, 0, 2)),), "mpidr": (number,), "pc": (dice.randrange(HIGHEST),),
            "gprs": tuple(dice.randrange(HIGHEST) for _ in range(8)), "num_aux": (wanted,),
            "aux": (*aux, *[dice.choice((0, rec, rec + 8)) for _ in range(16 - wanted)]),
        }
        if wanted and self.is_drawn(self.spoils):
            outside = (self.here.base - PAGE, self.end(), HIGHEST - PAGE)
            others = (rec, aux[0], aux[-1], rec + 8, rec + 1, *outside, self.host_page(), realm.rd)
            place = dice.randrange(wanted)
            fields["aux"] = (*fields["aux"][:place], dice.choice(others), *fields["aux"][place + 1 :])
        self.spoil_fields(fields, {
            "mpidr": (0, 1, 0x100, 0x10, 0xF0, 1 << 31, 1 << 32, mpidr_of(realm.next + 1), number + 2**40),
            "num_aux": (0, wanted + 1, wanted - 1, 16, 17, wanted + 256, wanted + 2**32),
        })
        params = self.host_page()
        self.write_page(params, REC_PARAMS, fields)
        self.call("rmi_rec_create", realm.rd, rec, params)
        self.ask("rim", realm.rd)

    def rec_destroy(self) -> None:
        self.call("rmi_rec_destroy", self.one(self.recs()))

    # ---- runs

    def rec_enter(self) -> None:
        dice = self.dice
        rec = self.one_of(self.recs(is_ready), self.recs())
        for _ in range(17 if self.is_drawn(0.01) else dice.choice((0, 1, 1, 1, 2, 2, 3, 5))):
            self.guest(rec)
        run, last, flags = self.host_page(), self.here.rec(rec).last, dice.choice(FLAGS)
        if last is not None and last.is_emulatable:
            flags |= dice.randrange(2)
        flags |= self.is_drawn(self.spoils / 2)
        if self.is_drawn(0.9):
            gprs = tuple(dice.randrange(HIGHEST) for _ in range(31))
            fields = {"flags": (flags,), "gprs": gprs}
            if self.here.settings.gic == "checked":
                lrs = tuple(dice.randrange(2**61) for _ in range(dice.randrange(self.here.settings.lrs + 2)))
                fields |= {"gicv3_hcr": (dice.choice((0, 0x2, 0x40FE, 0x1)),), "gicv3_lrs": lrs}
                self.spoil_fields(fields, {"gicv3_hcr": (1, 1 << 63), "gicv3_lrs": (1 << 61,)})
            layout = {name: it for name, it in REC_ENTER.items() if name in fields}
            self.write_page(run, layout, fields)
        outcome = self.call("rmi_rec_enter", rec, run)
        if outcome.word == RUNNING:
            self.ask("saw", rec)
        if outcome.exit is not None and self.is_drawn(0.7):
            self.serve(rec, outcome.exit)

    def interrupt(self) -> None:
        rec = self.one_of(self.recs(lambda it: it.is_running), self.recs())
        run = self.here.rec(rec).run
        if run and self.is_drawn(0.1):
            self.exactly("rmi_granule_delegate", run)
        result = self.ask("interrupt", rec)
        self.met[f"interrupt {result}"] += 1
        if result.startswith("RMI_SUCCESS"):
            self.read_exit(rec, run)

    # ---- after an exit

    def serve(self, rec: int, it: Exit) -> None:
        """Does what a host does after an exit: maps a page, changes RIPAS, or completes a request."""
        if it.reason == SYNC and it.hpfar:
            self.map_page(rec, it.hpfar >> 4 << 12)
        for _ in range(3 * (it.reason == RIPAS_CHANGE)):
            asked = self.here.rec(rec).asked
            if asked.base < asked.top or self.is_drawn(0.1):
                self.set_ripas_of(rec)
        if it.reason == PSCI:
            self.psci_complete()

    def map_page(self, rec: int, ipa: int) -> None:
        realm = self.here.rec(rec).realm
        if not self.down(realm, ipa, 3):
            return
        if realm.is_protected(ipa):
            self.call("rmi_data_create_unknown", realm.rd, self.spare(), ipa)
        else:
            desc = self.host_page() | self.dice.choice(ATTRIBUTES)
            self.call("rmi_rtt_map_unprotected", realm.rd, ipa, 3, desc)

    def set_ripas(self) -> None:
        self.set_ripas_of(self.one_of(self.recs(lambda it: it.asked.base < it.asked.top), self.recs()))

    def set_ripas_of(self, rec: int) -> None:
        it = self.here.rec(rec)
        base, top = it.asked.base, it.asked.top
        if self.is_drawn(0.3) and it.realm.is_protected(base):
            self.down(it.realm, base, self.dice.choice((2, 3)))
        if self.is_drawn(0.3):
            top = min(self.range_end(it.realm, base), top + PAGE * self.is_drawn(0.1))
        self.call("rmi_rtt_set_ripas", it.realm.rd, rec, base, top)

    def psci_complete(self) -> None:
        calling = self.one_of(self.recs(lambda rec: rec.pending is not None), self.recs())
        it = self.here.rec(calling)
        named = lambda rec: it.pending is not None and rec.realm is it.realm and rec.mpidr == it.pending.mpidr
        target = self.one_of(self.recs(named), self.recs())
        is_denied = it.pending is not None and it.pending.function == CPU_ON and self.is_drawn(0.3)
        self.call("rmi_psci_complete", calling, target, PSCI_DENIED if is_denied else 0)
        self.ask("rec", target)
