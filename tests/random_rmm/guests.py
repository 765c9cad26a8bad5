"""Steps of guests."""
from __future__ import annotations

from second_rmm.facts import PAGE, RIPAS
from second_rmm.machine import MAPPINGS, Realm

from .operands import mpidr_of
from .performing import HIGHEST
from .tables import Tables

Step = tuple[str, tuple[int, ...]]


class Guests(Tables):
    def guest(self, rec: int) -> None:
        """Gives a guest a step."""
        kind, operands = self.step_of(self.here.rec(rec).realm)
        words: list[int | str] = list(operands)
        if kind == "set_ripas":
            words[2:] = [RIPAS[operands[2]], *["destroyed"] * operands[3]]
        self.met[f"guest {self.ask('guest', rec, kind, *words)}"] += 1

    def step_of(self, realm: Realm) -> Step:
        draws = (
            *[self.access] * 7, *[self.change] * 3, *[self.cpu_on] * 5, *[self.affinity_info] * 4, *[self.wait] * 2,
            self.host_call, self.register, self.turn_off,
        )
        return self.dice.choice(draws)(realm)

    # ---- accesses

    def access(self, realm: Realm) -> Step:
        dice = self.dice
        kind, width = dice.choice(("write", "write", "read", "read", "fetch")), dice.choice((1, 1, 1, 2, 4, 8))
        ipa = self.accessed(realm) // width * width
        return kind, {"write": (ipa, dice.randrange(256**width), width), "read": (ipa, width)}.get(kind, (ipa,))

    def accessed(self, realm: Realm) -> int:
        """An address that a guest accesses: mostly in a page or block that is mapped."""
        dice, half = self.dice, 2 ** (realm.s2sz - 1)
        if self.is_drawn(0.05):
            return dice.choice((half - 1, half, 2 * half - 1, 2 * half, HIGHEST - 1))
        mapped = [ipa for _, ipa in self.of_kind(realm, *MAPPINGS)]
        begin = dice.choice(mapped) if mapped and self.is_drawn(0.6) else self.any_ipa(realm)
        return begin + dice.choice((0, 0, 1, 8, 4095))

    # ---- calls

    def host_call(self, _realm: Realm) -> Step:
        gprs = [self.dice.randrange(HIGHEST) for _ in range(self.dice.randrange(4))]
        return "host_call", (self.dice.randrange(65536), *gprs)

    def change(self, realm: Realm) -> Step:
        """A change of RIPAS, and whether DESTROYED changes too; now and then of no range."""
        dice, half, base = self.dice, 2 ** (realm.s2sz - 1), self.range_begin(realm)
        top = self.range_end(realm, base)
        if self.is_drawn(0.15):
            at_the_end = ((base, half + PAGE), (half, half + PAGE), (0, half), (half - PAGE, half))
            base, top = dice.choice(((base + 8, top), (base, top + 8), (top, base), (base, base), *at_the_end))
        return "set_ripas", (base, top, dice.choice((0, 1, 1, 1, 2)), dice.randrange(2))

    def mpidr(self, realm: Realm) -> int:
        """An MPIDR, mostly one that was given."""
        given = [mpidr_of(k) for k in range(min(realm.next + 1, 4))]
        return self.dice.choice((*given, *given, 0x10, 0x100, 1 << 40))

    def cpu_on(self, realm: Realm) -> Step:
        half = 2 ** (realm.s2sz - 1)
        entry = self.dice.choice((0, PAGE, half - 1, half))
        return "cpu_on", (self.mpidr(realm), entry, self.dice.randrange(HIGHEST))

    def affinity_info(self, realm: Realm) -> Step:
        return "affinity_info", (self.mpidr(realm), self.dice.choice((0, 0, 0, 1)))

    def register(self, _realm: Realm) -> Step:
        return "sysreg", (self.dice.randrange(2**25), self.dice.randrange(HIGHEST))

    def wait(self, _realm: Realm) -> Step:
        return self.dice.choice(("wfi", "wfe", "spin", "spin")), ()

    def turn_off(self, _realm: Realm) -> Step:
        rare = ("system_off", "system_reset") if self.is_drawn(0.3) else ("cpu_off", "cpu_suspend", "cpu_suspend")
        return self.dice.choice(rare), ()
