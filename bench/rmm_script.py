"""The scripts that measure the commands of an RMM by registers: a scene each, and parts that are performed in each round.

A part is calls of one command, each of other granules or addresses. A part without a name prepares the next ones. After
the last part the machine is as it was before the first one, so that each round has the same answers. A script uses few
granules: what is measured is the code, and not the memory.
"""
from collections import namedtuple

BASE, PAGE, PAGES = 0x8000_0000, 4096, 1024
HALF, BLOCK = 1 << 39, 1 << 21
# The function identifiers of the commands that are called here.
COMMANDS = {
    "version": 0x150, "granule_delegate": 0x151, "granule_undelegate": 0x152, "data_create": 0x153,
    "data_create_unknown": 0x154, "data_destroy": 0x155, "realm_activate": 0x157, "realm_create": 0x158,
    "realm_destroy": 0x159, "rec_create": 0x15A, "rec_destroy": 0x15B, "rec_enter": 0x15C, "rtt_create": 0x15D,
    "rtt_destroy": 0x15E, "rtt_map_unprotected": 0x15F, "rtt_read_entry": 0x161, "rtt_unmap_unprotected": 0x162,
    "psci_complete": 0x164, "features": 0x165, "rtt_fold": 0x166, "rec_aux_count": 0x167, "rtt_init_ripas": 0x168,
    "rtt_set_ripas": 0x169,
}
# Steps of guests, by the number of their kind.
WRITE, READ, HOST_CALL, SET_RIPAS, AFFINITY_INFO = 0, 1, 2, 3, 5
SUCCESS, ERROR_INPUT = 0, 1

# An operation: its kind, its numbers, and the result word that a call has to have.
Operation = namedtuple("Operation", "kind numbers word", defaults=(None,))
Part = namedtuple("Part", "name operations")
# Granules of a realm: its RD, the first of its two starting tables, and tables of levels 2 and 3 at address 0.
Realm = namedtuple("Realm", "rd start tables")
Rec = namedtuple("Rec", "rec aux run")


def call(name, *operands, word=SUCCESS):
    registers = [0xC400_0000 + COMMANDS[name], *operands]
    return Operation("smc", tuple(registers + [0] * (7 - len(registers))), word)


def store(page, words):
    """Stores of words into a page of the host, each by its place."""
    return [Operation("store", (page + 8 * place, word)) for place, word in words.items()]


def guest(rec, kind, *operands):
    return Operation("guest", tuple([rec, kind, *operands] + [0] * (4 - len(operands))))


class Pages:
    """The granules of the machine, handed out one after the other."""

    def __init__(self):
        self.next = 0

    def take(self, count=1, alignment=1):
        """The addresses of adjacent granules, from a multiple of `alignment` on."""
        first = -(-self.next // alignment) * alignment
        self.next = first + count
        assert self.next <= PAGES
        return [BASE + PAGE * (first + k) for k in range(count)]

    def one(self):
        return self.take()[0]


class Script:
    """The scene and the parts."""

    def __init__(self):
        self.pages, self.scene, self.vmid = Pages(), [], 0
        # (the first part is the clock's own time)
        self.parts = [Part("", [])]

    def add(self, name, operations):
        self.parts.append(Part(name, list(operations)))

    def delegated(self, count=1, alignment=1):
        """Granules that the scene delegates."""
        taken = self.pages.take(count, alignment)
        self.scene += [call("granule_delegate", it) for it in taken]
        return taken

    # ---- realms and RECs

    def realm_operands(self, sha=0):
        """Granules of a realm of 40 bits, and its parameters, which the scene stores."""
        rd, start, params = self.delegated()[0], self.delegated(2, 2)[0], self.pages.one()
        self.vmid += 1
        self.scene += store(params, {1: 40, 6: sha, 256: self.vmid, 257: start, 258: 1, 259: 2})
        return rd, start, params

    def rec_operands(self, number):
        """Granules of a REC, its parameters and its run page."""
        rec, *aux = self.delegated(3)
        params, run = self.pages.take(2)
        gprs = {96 + k: 7 * k for k in range(8)}
        self.scene += store(params, {0: 1, 32: number, 64: PAGE, 256: 2, 257: aux[0], 258: aux[1], **gprs})
        return Rec(rec, aux, run), params

    def realm(self):
        """A realm that stays: NEW, with tables of levels 2 and 3 at address 0 and at the first unprotected one."""
        rd, start, params = self.realm_operands()
        self.scene.append(call("realm_create", rd, params))
        for ipa in (0, HALF):
            for level, table in zip((2, 3), self.delegated(2)):
                self.scene.append(call("rtt_create", rd, table, ipa, level))
        return rd

    def recs(self, rd, count):
        made = []
        for number in range(count):
            rec, params = self.rec_operands(number)
            self.scene.append(call("rec_create", rd, rec.rec, params))
            made.append(rec)
        return made

    def text(self, rounds):
        """The script as the programs read it."""
        lines = [f"machine {PAGES} {rounds}", *map(line_of, self.scene)]
        for part in self.parts:
            lines += ["part", *map(line_of, part.operations)]
        return "\n".join(lines) + "\n"


def line_of(operation):
    return " ".join([operation.kind, *map(str, operation.numbers)])


# ---- the parts


def readings():
    script = Script()
    rd = script.realm()
    script.add("RMI_VERSION", [call("version", 0x1_0000)] * 512)
    script.add("RMI_FEATURES", [call("features", 0)] * 512)
    script.add("RMI_REC_AUX_COUNT", [call("rec_aux_count", rd)] * 512)
    script.add("RMI_RTT_READ_ENTRY", [call("rtt_read_entry", rd, PAGE * k, 3) for k in range(512)])
    refused = [call("rtt_read_entry", rd, PAGE * k + 8, 3, word=ERROR_INPUT) for k in range(512)]
    script.add("RMI_RTT_READ_ENTRY, refused", refused)
    return script


def granules():
    script = Script()
    granules = script.pages.take(64)
    script.add("RMI_GRANULE_DELEGATE", [call("granule_delegate", it) for it in granules])
    refused = [call("granule_delegate", it, word=ERROR_INPUT) for it in granules]
    script.add("RMI_GRANULE_DELEGATE, refused", refused)
    script.add("RMI_GRANULE_UNDELEGATE", [call("granule_undelegate", it) for it in granules])
    return script


def tables():
    """Tables of level 3, without entries and under blocks."""
    script = Script()
    rd, tables = script.realm(), script.delegated(64)
    ipas = [BLOCK * (64 + k) for k in range(64)]
    creations = [call("rtt_create", rd, table, ipa, 3) for table, ipa in zip(tables, ipas)]
    script.add("RMI_RTT_CREATE", creations)
    script.add("RMI_RTT_DESTROY", [call("rtt_destroy", rd, ipa, 3) for ipa in ipas])
    script.add("", creations)
    script.add("RMI_RTT_FOLD", [call("rtt_fold", rd, ipa, 3) for ipa in ipas])
    blocks = [HALF + BLOCK * (64 + k) for k in range(64)]
    script.scene += [call("rtt_map_unprotected", rd, ipa, 2, BASE | 0xD8) for ipa in blocks]
    unfolding = [call("rtt_create", rd, table, ipa, 3) for table, ipa in zip(tables, blocks)]
    script.add("RMI_RTT_CREATE, of a block", unfolding)
    script.add("RMI_RTT_FOLD, to a block", [call("rtt_fold", rd, ipa, 3) for ipa in blocks])
    return script


def mappings():
    script = Script()
    rd = script.realm()
    ipas = [HALF + PAGE * k for k in range(512)]
    script.add("RMI_RTT_MAP_UNPROTECTED", [call("rtt_map_unprotected", rd, ipa, 3, BASE | 0xD8) for ipa in ipas])
    script.add("RMI_RTT_UNMAP_UNPROTECTED", [call("rtt_unmap_unprotected", rd, ipa, 3) for ipa in ipas])
    return script


def data():
    script = Script()
    rd, pages, source = script.realm(), script.delegated(64), script.pages.one()
    script.scene += store(source, {k: 0x0123_4567_89AB_CDEF * k % 2**64 for k in range(0, 512, 7)})
    ipas = [PAGE * k for k in range(64)]
    destructions = [call("data_destroy", rd, ipa) for ipa in ipas]
    script.add("RMI_DATA_CREATE_UNKNOWN", [call("data_create_unknown", rd, *it) for it in zip(pages, ipas)])
    script.add("RMI_DATA_DESTROY", destructions)
    for name, flags in (("RMI_DATA_CREATE", 0), ("RMI_DATA_CREATE, measured", 1)):
        script.add(name, [call("data_create", rd, *it, source, flags) for it in zip(pages, ipas)])
        script.add("", destructions)
    return script


def ripas():
    script = Script()
    rd = script.realm()
    pages = [(PAGE * k, PAGE * (k + 1)) for k in range(64)]
    script.add("RMI_RTT_INIT_RIPAS", [call("rtt_init_ripas", rd, *it) for it in pages])
    script.add("RMI_RTT_INIT_RIPAS, 512 pages", [call("rtt_init_ripas", rd, 0, BLOCK)])
    return script


def lives():
    """Realms that are made and destroyed in each round, half of them with a REC."""
    script = Script()
    realms = [script.realm_operands() for _ in range(16)]
    more = [script.realm_operands(sha=1) for _ in range(16)]
    recs = [script.rec_operands(0) for _ in realms]
    script.add("RMI_REALM_CREATE", [call("realm_create", rd, params) for rd, _, params in realms])
    script.add("RMI_REALM_CREATE, SHA-512", [call("realm_create", rd, params) for rd, _, params in more])
    made = [call("rec_create", rd, rec.rec, params) for (rd, *_), (rec, params) in zip(realms, recs)]
    script.add("RMI_REC_CREATE", made)
    script.add("RMI_REALM_ACTIVATE", [call("realm_activate", rd) for rd, *_ in realms + more])
    script.add("RMI_REC_ENTER", [call("rec_enter", rec.rec, rec.run) for rec, _ in recs])
    script.add("RMI_REC_DESTROY", [call("rec_destroy", rec.rec) for rec, _ in recs])
    script.add("RMI_REALM_DESTROY", [call("realm_destroy", rd) for rd, *_ in realms + more])
    return script


def guests():
    """Guests of 32 RECs in two realms that are ACTIVE, each realm with a page of memory at address 0."""
    script, every = Script(), []
    for _ in range(2):
        rd = script.realm()
        recs = script.recs(rd, 16)
        script.scene += [call("realm_activate", rd), call("data_create_unknown", rd, script.delegated()[0], 0)]
        every += [(rd, rec, recs[(number + 1) % 16], (number + 1) % 16) for number, rec in enumerate(recs)]
    entries = [call("rec_enter", rec.rec, rec.run) for _, rec, *_ in every]
    script.add("", [guest(rec.rec, AFFINITY_INFO, number) for _, rec, _, number in every])
    script.add("RMI_REC_ENTER, PSCI", entries)
    script.add("RMI_PSCI_COMPLETE", [call("psci_complete", rec.rec, target.rec) for _, rec, target, _ in every])
    script.add("", [guest(rec.rec, SET_RIPAS, 0, BLOCK, 1, 1) for _, rec, *_ in every])
    script.add("", entries)
    script.add("RMI_RTT_SET_RIPAS", [call("rtt_set_ripas", rd, rec.rec, 0, PAGE) for rd, rec, *_ in every])
    rest = [call("rtt_set_ripas", rd, rec.rec, PAGE, BLOCK) for rd, rec, *_ in every]
    script.add("RMI_RTT_SET_RIPAS, 511 pages", rest)
    script.add("", [guest(rec.rec, HOST_CALL, 5, 6, 7, 8) for _, rec, *_ in every])
    script.add("RMI_REC_ENTER, host call", entries)
    accesses = [step for k in range(8) for step in ((WRITE, 8 * k, k, 1), (READ, 8 * k, 1))]
    script.add("", [guest(rec.rec, *step) for _, rec, *_ in every for step in accesses])
    script.add("RMI_REC_ENTER, 16 accesses", entries)
    return script


SCRIPTS = (readings, granules, tables, mappings, data, ripas, lives, guests)
