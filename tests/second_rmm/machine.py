"""The machine: granules, and the tables, realms and RECs that they are."""
from __future__ import annotations

from collections.abc import Iterator
from dataclasses import dataclass, field
from typing import NamedTuple

from .facts import DATA, EMPTY, ENTRIES, PAGE, UNDELEGATED, Settings, size

ZEROS = bytes(PAGE)
MAPPINGS = ("ASSIGNED", "ASSIGNED_NS")
LIVE = (*MAPPINGS, "TABLE")


class Entry(NamedTuple):
    """An entry of a table. Its address is a granule's, a table's, or a descriptor, by its kind."""

    kind: str = "UNASSIGNED"
    ripas: int = EMPTY
    address: int = 0

    def children(self, level: int) -> list[Entry]:
        """The entries of a table of a level that say the same as this one above it."""
        if self.kind not in MAPPINGS:
            return [self] * ENTRIES
        return [self._replace(address=self.address + k * size(level)) for k in range(ENTRIES)]


UNASSIGNED_NS = Entry("UNASSIGNED_NS")


class Walk(NamedTuple):
    """The end of a walk: a level, a table, and an entry in it."""

    level: int
    table: int
    index: int
    entry: Entry


@dataclass
class Realm:
    """The record of a realm."""

    rd: int
    s2sz: int
    level: int
    tables: range
    vmid: int
    hash_algo: int
    rim: bytes
    state: str = "NEW"
    next: int = 0
    recs: int = 0

    def is_protected(self, ipa: int) -> bool:
        return ipa < 2 ** (self.s2sz - 1)

    def is_inside(self, ipa: int) -> bool:
        return ipa < 2**self.s2sz


@dataclass(frozen=True)
class Exit:
    """An exit of a REC: its fields of RmiRecExit, and how a host can answer it."""

    reason: int
    esr: int = 0
    far: int = 0
    hpfar: int = 0
    gprs: tuple[int, ...] = ()
    base: int = 0
    top: int = 0
    ripas: int = 0
    imm: int = 0
    is_unprotected: bool = False
    is_emulatable: bool = False
    # A SYNC exit whose step is done, and not tried again.
    is_done: bool = False


@dataclass
class Asked:
    """A change of RIPAS that a REC asked for; its base rises as the change goes on."""

    base: int = 0
    top: int = 0
    ripas: int = EMPTY
    destroyed: bool = False


class Request(NamedTuple):
    """A PSCI request that the host has to complete."""

    function: int
    mpidr: int
    entry: int = 0
    context: int = 0


@dataclass
class Rec:
    """The record of a REC, with what its guest has to do."""

    realm: Realm
    aux: tuple[int, ...]
    mpidr: int
    pc: int
    gprs: tuple[int, ...]
    is_runnable: bool
    is_running: bool = False
    pending: Request | None = None
    # The PSCI result that the guest gets at its next entry.
    psci: int | None = None
    asked: Asked = field(default_factory=Asked)
    last: Exit | None = None
    run: int = 0
    gic: tuple[int, tuple[int, ...]] = (0, ())
    steps: list[tuple[str, tuple[int, ...]]] = field(default_factory=list)
    results: list[tuple[str, int | None]] = field(default_factory=list)


@dataclass
class Granule:
    """A granule: its state, and its page, table, realm or REC."""

    state: str = UNDELEGATED
    page: bytes = ZEROS
    table: list[Entry] = field(default_factory=list)
    realm: Realm | None = None
    rec: Rec | None = None


class Machine:
    """The granules from an address on, all of the host and zero at first."""

    def __init__(self, base: int, count: int, settings: Settings) -> None:
        self.base, self.settings = base, settings
        self.granules = [Granule() for _ in range(count)]

    def has(self, address: int) -> bool:
        """Whether a granule of the machine is at an address."""
        return 0 <= address - self.base < PAGE * len(self.granules)

    def granule(self, address: int) -> Granule:
        if not self.has(address):
            raise LookupError(f"no granule at {address:#x}")
        return self.granules[(address - self.base) // PAGE]

    def granule_at(self, address: int) -> Granule | None:
        """The granule that begins at an address."""
        return self.granule(address) if address % PAGE == 0 and self.has(address) else None

    def is_state(self, address: int, state: str) -> bool:
        """Whether a granule of the machine is at an address, in this state."""
        return self.has(address) and self.granule(address).state == state

    def is_secure(self, address: int) -> bool:
        first, count = self.settings.secure
        return 0 <= address - first < PAGE * count

    def is_host_s(self, address: int) -> bool:
        """Whether the host's loads and stores reach an address."""
        return self.is_state(address, UNDELEGATED) and not self.is_secure(address)

    def become(self, address: int, state: str, page: bytes = ZEROS) -> Granule:
        """Gives a granule another state; what was in it is gone."""
        self.granules[(address - self.base) // PAGE] = granule = Granule(state, page)
        return granule

    def store(self, address: int, content: bytes) -> None:
        """Puts bytes into a granule of the host or of data."""
        granule, begin = self.granule(address), address % PAGE
        assert granule.state in (UNDELEGATED, DATA) and begin + len(content) <= PAGE
        granule.page = granule.page[:begin] + content + granule.page[begin + len(content) :]

    def load(self, address: int, count: int) -> bytes:
        begin = address % PAGE
        return self.granule(address).page[begin : begin + count]

    def realm(self, rd: int) -> Realm:
        realm = self.granule(rd).realm
        if realm is None:
            raise LookupError(f"no realm at {rd:#x}")
        return realm

    def rec(self, address: int) -> Rec:
        rec = self.granule(address).rec
        if rec is None:
            raise LookupError(f"no REC at {address:#x}")
        return rec

    def realms(self) -> Iterator[Realm]:
        return (it.realm for it in self.granules if it.realm)

    # ---- tables

    def walk(self, realm: Realm, ipa: int, level: int) -> Walk:
        """The walk from the starting table that serves an IPA, to a level or to an entry that is no TABLE."""
        at = realm.level
        number, index = divmod(ipa // size(at), ENTRIES)
        table = realm.tables[number]
        while True:
            entry = self.granule(table).table[index]
            if at >= level or entry.kind != "TABLE":
                return Walk(at, table, index, entry)
            at, table = at + 1, entry.address
            index = ipa // size(at) % ENTRIES

    def top(self, realm: Realm, ipa: int, level: int) -> int:
        """The first live entry from the end of a walk on, in the table where it ended: where it begins."""
        walk = self.walk(realm, ipa, level)
        span, entries = size(walk.level), self.granule(walk.table).table
        begin = ipa - ipa % span
        if walk.entry.kind in LIVE:
            return ipa if self.settings.live_top == "given" else begin
        following = (k for k in range(walk.index, ENTRIES) if entries[k].kind in LIVE)
        return begin + (next(following, ENTRIES) - walk.index) * span

    def put(self, walk: Walk, entry: Entry) -> None:
        """Puts an entry in the place where a walk ended."""
        self.granule(walk.table).table[walk.index] = entry
