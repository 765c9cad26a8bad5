"""Random traces of the profile, drawn by hypothesis: the lives of realms with other steps between, and readings of what they have
made. No answers are known for them here.
"""
import random

# IPA granules on both sides of what tables serve, and the last ones of the protected half of 39 bits.
IPAS = (0, 1, 2, 3, 511, 512, 1023, 262143, 262144, 67108863, 67108864)
MOST_STEPS = 220


class Life:
    """Two realms on a small machine. Granules are mostly drawn from those that a step would take: of the realm's own half."""

    def __init__(self, dice):
        self.dice, self.half = dice, dice.choice((9, 12, 20))
        self.rds, self.recs = [0, self.half], []
        self.auxiliaries = dice.choice((0, 0, 1, 2, 3))

    def granule(self):
        # Now and then one that the machine has not got.
        return self.dice.choice((2 * self.half, 4096, 65535)) if self.dice.random() < 0.02 else self.dice.randrange(2 * self.half)

    def spare(self, rd):
        """A granule that most often is of no use yet, close to the realm's."""
        return rd + self.dice.randrange(4, self.half - 1) if self.dice.random() < 0.9 else self.granule()

    def rd(self):
        return self.dice.choice(self.rds) if self.dice.random() < 0.95 else self.dice.randrange(2 * self.half)

    def rec(self):
        return self.dice.choice(self.recs) if self.recs and self.dice.random() < 0.9 else self.granule()

    def ipa(self):
        return self.dice.choice(IPAS[:4]) if self.dice.random() < 0.8 else self.dice.choice(IPAS)

    def rec_create(self, rd):
        rec, count = self.spare(rd), self.auxiliaries if self.dice.random() < 0.95 else self.dice.randrange(17)
        self.recs = [*self.recs[-2:], rec]
        auxiliaries = [self.spare(rd) for _ in range(count)]
        if count <= self.half - 6 and self.dice.random() < 0.9:
            auxiliaries = self.dice.sample([rd + k for k in range(4, self.half - 1) if rd + k != rec], count)
        return " ".join(["rec_create", *map(str, (rd, rec, *auxiliaries))])

    def begun(self):
        """The lines that make both realms with their tables."""
        for rd in self.rds:
            yield from (f"granule_delegate {rd + k}" for k in range(self.half - 1))
            yield f"host_fill {rd + self.half - 1} {1 + self.dice.randrange(255)}"
            yield f"realm_create {rd} {rd + 1} {1 + (rd > 0)} {self.dice.choice((39, 39, 39, 39, 39, 40, 38))}"
            yield f"rtt_create {rd} {rd + 2} 0 2"
            yield f"rtt_create {rd} {rd + 3} 0 3"
            yield f"rtt_init_ripas {rd} 0 {self.dice.choice((0, 1, 3))}"
            yield f"data_create {rd} {self.spare(rd)} 0 {rd + self.half - 1}"
            yield self.rec_create(rd)
            if self.dice.random() < 0.6:
                yield f"realm_activate {rd}"

    def step(self):
        dice, granule, rd, rec, ipa = self.dice, self.granule, self.rd(), self.rec, self.ipa
        spare, level = lambda: self.spare(rd), lambda: dice.choice((2, 3, 3, 3, 1, 4))
        source = lambda: rd + self.half - 1 if dice.random() < 0.7 else granule()
        return dice.choice((
            lambda: f"granule_delegate {spare()}", lambda: f"granule_delegate {granule()}", lambda: f"granule_undelegate {granule()}",
            lambda: f"host_fill {source()} {dice.randrange(256)}", lambda: f"host_peek {source()} {dice.choice((0, 7, 4095, 4096))}",
            lambda: f"realm_create {rd} {rd + 1} {dice.randrange(60)} {dice.choice((39, 40, 43))}", lambda: f"realm_destroy {rd}",
            lambda: f"realm_activate {rd}", lambda: f"rtt_create {rd} {spare()} {ipa()} {level()}",
            lambda: f"rtt_destroy {rd} {ipa()} {level()}", lambda: f"rtt_init_ripas {rd} {ipa()} {dice.choice((0, 1, 3, 509, 513))}",
            lambda: f"data_create {rd} {spare()} {ipa()} {source()}", lambda: f"data_create {rd} {spare()} {ipa()} {source()}",
            lambda: f"data_create_unknown {rd} {spare()} {ipa()}", lambda: f"data_destroy {rd} {ipa()}", lambda: self.rec_create(rd),
            lambda: f"rec_enter {rec()}", lambda: f"rec_exit {rec()}", lambda: f"rec_exit {rec()}", lambda: f"rec_destroy {rec()}",
            lambda: f"guest_write {rec()} {ipa()} {dice.choice((0, 4095, 4096))} {dice.randrange(256)}",
        ))()

    def reading(self):
        dice, granule = self.dice, self.granule
        return dice.choice((
            lambda: f"state {granule()}", lambda: f"sum {granule()}", lambda: f"realm {self.rd()}", lambda: f"measurement {self.rd()}",
            lambda: f"word {self.rd() + dice.randrange(4)} {dice.choice((0, 1, 2, 511, 512))}", lambda: f"rec {self.rec()}",
        ))()

    def lines(self):
        yield f"machine {2 * self.half} {self.dice.choice((1, 4, 200))} {self.auxiliaries}"
        yield from self.begun()
        for _ in range(self.dice.randrange(MOST_STEPS)):
            yield self.step()
            yield self.reading()


def random_traces():
    """A trace, without answers: the first lines of a life, so that one that fails is made short."""
    # tests/random_laws draws lives without hypothesis.
    from hypothesis import strategies as st

    cut = lambda seed, count: "".join(f"{line}\n" for line in [*Life(random.Random(seed)).lines()][:count]).encode()
    return st.builds(cut, st.integers(0, 2**32 - 1), st.integers(40, 2 * MOST_STEPS + 60))
