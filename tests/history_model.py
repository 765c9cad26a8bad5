"""The state that a history leads to on the second RMM: for `tests/test_json.py`.

Each event of a history (REALMVIEW.md) is a command to tests/second_monitor.py. What the host keeps itself, as which pages a
build leases and which granule is which REC, is kept here, from the events. The state is given as a document of
`realmview json` has it (REALMVIEW.md). The module has no code in common with `realmview`.
"""
from collections.abc import Iterator

from second_machine import Entry, Realm
from second_monitor import COVERED, Monitor, line_of

# The answer of the RMM that an event has, by its place.
ANSWERED = {"peek": 2, "rec": 1}


def told_entry(entry: Entry) -> dict:
    return {"state": entry.kind, "ripas": entry.ripas, "granule": None if entry.kind == "UNASSIGNED" else entry.granule}


class HistoryModel:
    def __init__(self, settings: dict) -> None:
        self.monitor = Monitor()
        self.monitor.line(f"machine {settings['pages']} {settings['vmids']} {settings['aux']}")
        builds = range(settings["builds"])
        # Of each build: its pages by their own numbers, its RD, and the granules of its RECs by their numbers.
        self.pages, self.rds, self.recs = [[] for _ in builds], [None for _ in builds], [{} for _ in builds]
        # The build that leases a granule.
        self.leased: dict[int, int] = {}
        # The events whose answer by the RMM is another than theirs.
        self.faults: list[tuple[str, str]] = []

    # ---- events

    def take(self, event: str) -> None:
        build, word, *numbers = event.split()
        build, numbers = int(build), [int(number) for number in numbers]
        if word in ("take", "untake"):
            self.lease(event, build, word, range(numbers[1], numbers[1] + 2 ** numbers[0]))
            return
        wanted = f"0 {numbers[ANSWERED[word]]}" if word in ANSWERED else "0"
        self.command(event, line_of(word, numbers, self.rds[build], self.recs[build].get(numbers[0]) if numbers else None), wanted)
        if word in ("realm", "unrealm"):
            self.rds[build], self.recs[build] = numbers[0] if word == "realm" else None, {}
        elif word == "rec":
            self.recs[build][numbers[1]] = numbers[0]
        elif word == "unrec":
            del self.recs[build][numbers[1]]

    def command(self, event: str, line: str, wanted: str) -> None:
        answer = self.monitor.line(line)
        if answer != wanted:
            self.faults.append((event, answer))

    def lease(self, event: str, build: int, word: str, block: range) -> None:
        """A block that is taken is free before; one that is given back is the build's newest, and is cleared."""
        if word == "take":
            if any(granule in self.leased for granule in block):
                self.faults.append((event, "leased"))
            self.pages[build] += block
            self.leased.update(dict.fromkeys(block, build))
            return
        if self.pages[build][-len(block) :] != list(block):
            self.faults.append((event, "not the newest block"))
        del self.pages[build][-len(block) :]
        for granule in block:
            self.leased.pop(granule, None)
            self.command(event, f"host_fill {granule} 0", "0")

    # ---- what is there

    def realm_of(self, build: int) -> Realm:
        return self.monitor.machine.granules[self.rds[build]].realm

    def granule(self, number: int, owners: dict[int, int]) -> dict:
        state = self.monitor.machine.granules[number].state
        return {"granule": number, "state": state, "build": self.leased.get(number), "realm": owners.get(number)}

    def owners(self) -> dict[int, int]:
        """The RD of the realm that a granule belongs to, of each that belongs to one."""
        owners = {}
        for build, rd in enumerate(self.rds):
            if rd is not None:
                realm = self.realm_of(build)
                recs = [granule for rec in self.recs_of(build).values() for granule in (rec["granule"], *rec["auxiliaries"])]
                owners.update(dict.fromkeys([rd, *realm.tables, *self.below(realm.tables), *recs], rd))
        return owners

    def below(self, tables: list[int]) -> Iterator[int]:
        """The granules of the tables and pages below some tables."""
        for entry in (entry for table in tables for entry in self.monitor.machine.granules[table].table):
            if entry.kind != "UNASSIGNED":
                yield entry.granule
                yield from self.below([entry.granule])

    def rows_of(self, build: int) -> list[dict]:
        return self.rows(self.realm_of(build).tables)

    def rows(self, tables: list[int], level: int = 1, first: int = 0) -> list[dict]:
        """The rows of tables that follow one another. Those that say the same are one item."""
        items, before = [], None
        for place, entry in enumerate(entry for table in tables for entry in self.monitor.machine.granules[table].table):
            told, begin = told_entry(entry), first + place * COVERED[level]
            if told == before:
                items[-1]["count"] += 1
            else:
                items.append({"level": level, "first": begin, "count": 1, **told})
            if entry.kind == "TABLE":
                items += self.rows([entry.granule], level + 1, begin)
            before = told
        return items

    def rec(self, build: int, number: int) -> dict:
        if number not in self.recs[build]:
            return {"number": number, "state": None}
        granule = self.recs[build][number]
        rec = self.monitor.machine.granules[granule].rec
        return {"number": rec.number, "state": rec.state, "granule": granule, "auxiliaries": rec.auxiliaries}

    def recs_of(self, build: int) -> dict[int, dict]:
        return {number: self.rec(build, number) for number in self.recs[build]}

    def realm(self, build: int) -> dict | None:
        """The realm of a build, without its rows and RECs."""
        if self.rds[build] is None:
            return None
        it = self.realm_of(build)
        size = {"width": it.width, "table": it.tables[0], "tables": len(it.tables)}
        return {"rd": self.rds[build], "state": it.state, "vmid": it.vmid, **size, "next_rec": it.next, "measurement": it.measurement.hex()}

    def build(self, build: int) -> dict:
        """Of a build, what a world has of it beside what the host alone keeps."""
        pages = [{"granule": it, "sum": int(self.monitor.line(f"sum {it}"))} for it in self.pages[build]]
        realm = self.realm(build)
        if realm:
            realm["rows"] = self.rows_of(build)
            realm["recs"] = [self.rec(build, number) for number in range(realm["next_rec"])]
        return {"build": build, "pages": pages, "realm": realm}

    def granules(self) -> list[dict]:
        owners = self.owners()
        return [self.granule(number, owners) for number in range(len(self.monitor.machine.granules))]

    def world(self) -> dict:
        granules = self.granules()
        return {"free": len(granules) - len(self.leased), "granules": granules, "builds": [self.build(it) for it in range(len(self.pages))]}
