"""The state of the second RMM: granules, with the tables, realms and RECs that they are, and what is read of them."""
from __future__ import annotations

from collections.abc import Iterator
from dataclasses import dataclass, field

PAGE, ENTRIES, ZEROS = 4096, 512, bytes(4096)
KINDS, RIPAS = ("UNASSIGNED", "ASSIGNED", "TABLE"), ("EMPTY", "RAM", "DESTROYED")
# The states of pages whose bytes are added up in a map.
WITH_SUM = ("UNDELEGATED", "DATA")


@dataclass
class Entry:
    """An entry of a table: what the IPAs that it covers lead to."""

    kind: str = "UNASSIGNED"
    ripas: str = "EMPTY"
    granule: int = 0

    def word(self) -> int:
        return KINDS.index(self.kind) | RIPAS.index(self.ripas) << 2 | self.granule << 12


@dataclass
class Realm:
    vmid: int
    tables: list[int]
    width: int
    state: str = "NEW"
    next: int = 0
    measurement: bytes = bytes(32)


@dataclass
class Rec:
    realm: Realm
    number: int
    auxiliaries: list[int]
    state: str = "READY"


@dataclass
class Granule:
    """A granule: a page of bytes, or a table of entries. An RD has a realm."""

    state: str = "UNDELEGATED"
    page: bytes = ZEROS
    table: list[Entry] = field(default_factory=list)
    realm: Realm | None = None
    rec: Rec | None = None

    def content(self) -> bytes:
        return b"".join(entry.word().to_bytes(8, "little") for entry in self.table) or self.page


class Machine:
    """`granules` granules of the host, all zero, `vmids` VMIDs, and `aux` auxiliary granules of each REC."""

    def __init__(self, granules: int, vmids: int, aux: int) -> None:
        self.granules, self.vmids, self.aux = [Granule() for _ in range(granules)], vmids, aux

    def has(self, *granules: int) -> bool:
        return all(granule < len(self.granules) for granule in granules)

    def are(self, state: str, *granules: int) -> bool:
        return all(self.granules[granule].state == state for granule in granules)

    def realms(self) -> Iterator[Realm]:
        return (it.realm for it in self.granules if it.realm)

    def recs_of(self, realm: Realm) -> list[Rec]:
        return [it.rec for it in self.granules if it.rec and it.rec.realm is realm]

    def reading(self, name: str, granule: int, index: int = 0) -> str:
        """The answer to a line that reads."""
        if not self.has(granule) or index >= ENTRIES:
            return "none"
        it = self.granules[granule]
        if name == "state":
            return it.state
        if name == "sum":
            return str(sum(it.page))
        if name == "word":
            return str(int.from_bytes(it.content()[8 * index : 8 * index + 8], "little"))
        if name == "realm" and it.realm:
            vmid, root, width = it.realm.vmid, it.realm.tables[0], it.realm.width
            return f"{it.realm.state} vmid {vmid} root {root} width {width} next {it.realm.next}"
        if name == "measurement" and it.realm:
            return it.realm.measurement.hex()
        if name == "rec" and it.rec:
            return " ".join(map(str, ["number", it.rec.number, it.rec.state, "aux", *it.rec.auxiliaries]))
        return "none"


def map_of(build: int, granules: list[Granule], realm: Realm | None) -> str:
    """The lines of a map for a build, by its pages and its realm."""
    sums = [f" {sum(it.page)}" if it.state in WITH_SUM else "" for it in granules]
    rows = [f"{build} page {page} {it.state}{of_bytes}\n" for page, (it, of_bytes) in enumerate(zip(granules, sums))]
    return "".join(rows) + (f"{build} realm {realm.state} vmid {realm.vmid}\n" if realm else "")
