"""Traces of the profile as histories, which `realmview apply` performs on the proved RMM of realmhost: for `tests/test_rules.py`.

A history has accepted commands alone, and in it a host takes back its newest operation first. So a trace is followed up
to the first command that no history has. Each realm is a build's; all granules that it names are leased by that build.
A command that the RMM refuses is put after those accepted before it: `apply` names the first check that fails, with its
word. Refusals of the host itself, as of a granule of another build, are no answers of the RMM.
"""
from __future__ import annotations

import re
from collections.abc import Iterator
from typing import NamedTuple

from second_machine import map_of
from second_monitor import REVERSES, Monitor

MOST_BUILDS, ROOM, MOST_OPERATIONS, GRANULES = 8, 16384, 512, 4096
DESTROYING = ("granule_undelegate", "realm_destroy", "rtt_destroy", "data_destroy", "rec_destroy")
OF_AN_RD = (
    "realm_create", "realm_activate", "realm_destroy", "rtt_create", "rtt_destroy", "rtt_init_ripas", "data_create",
    "data_create_unknown", "data_destroy", "rec_create",
)
READINGS = ("state", "sum", "word", "realm", "measurement", "rec")
FAULT = "on hardware: a granule protection fault"
REFUSAL = re.compile(
    rf"line (\d+) is refused: .* \((?:({FAULT})|RMI_ERROR_(INPUT|REALM|REC|RTT)(?:, index (\d))?)\)\n"
)
STATUSES = ("INPUT", "REALM", "REC", "RTT")


class Tried(NamedTuple):
    """A history, and what `apply` has to say: the map, or the word of the command in its last line."""

    number: int
    history: str
    map: str | None
    word: int


def word_of(message: str) -> tuple[int, int] | None:
    """The line and the result word of a refusal by the RMM; none if it is the host's."""
    it = REFUSAL.fullmatch(message)
    if it is None:
        return None
    return int(it[1]), 1 if it[2] else STATUSES.index(it[3]) + 1 + 256 * int(it[4] or 0)


def machines(lines: list[tuple[int, str]]) -> Iterator[list[tuple[int, str]]]:
    """The lines of each machine of a trace."""
    begins = [k for k, (_, line) in enumerate(lines) if line.startswith("machine ")]
    for begin, end in zip(begins, [*begins[1:], len(lines)]):
        yield lines[begin:end]


def granules_of(word: str, numbers: list[int]) -> list[int]:
    """The granules that a command on a realm names."""
    if word == "realm_create":
        root, width = numbers[1], numbers[3]
        return [numbers[0], *range(root, root + 2 ** min(max(width - 39, 0), 4))]
    places = {"rtt_create": (0, 1), "data_create": (0, 1, 3), "data_create_unknown": (0, 1)}
    return numbers if word == "rec_create" else [numbers[k] for k in places.get(word, (0,))]


class Following:
    """A machine of a trace, followed as a history."""

    def __init__(self, lines: list[tuple[int, str]]) -> None:
        (_, self.opening), *self.lines = lines
        self.pages, vmids, aux = map(int, self.opening.split(" ")[1:])
        self.monitor = Monitor()
        self.monitor.line(self.opening)
        split = [(line.split(" ")[0], [int(it) for it in line.split(" ")[1:]]) for _, line in self.lines]
        rds = list(dict.fromkeys(numbers[0] for word, numbers in split if word == "realm_create"))[:MOST_BUILDS]
        self.builds = {rd: build for build, rd in enumerate(rds)}
        self.owners = dict.fromkeys(range(self.pages), 0)
        named = [(word, numbers) for word, numbers in reversed(split) if word in OF_AN_RD and numbers[0] in self.builds]
        for word, numbers in named:
            self.owners |= {it: self.builds[numbers[0]] for it in granules_of(word, numbers) if it < self.pages}
        self.taken = {build: [it for it, owner in self.owners.items() if owner == build] for build in range(max(1, len(rds)))}
        takes = [f"{build} take 0 {it}" for build, granules in self.taken.items() for it in granules]
        self.history = [f"history 1 {self.pages} {vmids} {aux} {ROOM} {len(self.taken)}", *takes]
        # Of each build the operations that are open, each as its reverse.
        self.open: dict[int, list[str]] = {build: [] for build in self.taken}

    # ---- events

    def rec(self, granule: int):
        return self.monitor.machine.granules[granule].rec if granule < self.pages else None

    def build_of(self, word: str, numbers: list[int]) -> int:
        if word in OF_AN_RD:
            return self.builds.get(numbers[0], 0)
        rec = self.rec(numbers[0]) if word.startswith(("rec_", "guest_")) else None
        if rec is not None:
            return next(build for rd, build in self.builds.items() if self.monitor.machine.granules[rd].realm is rec.realm)
        return self.owners.get(numbers[0], 0)

    def event(self, word: str, numbers: list[int]) -> str | None:
        """The event of a command without its build; none if no history has it."""
        first, *rest = numbers
        if word in ("host_fill", "host_peek"):
            if numbers[0] >= GRANULES or word == "host_peek" and numbers[1] > 4095:
                return None
            byte = self.monitor.line(f"host_peek {first} {rest[0]}").split(" ")[1:] if word == "host_peek" else []
            return f"fill {first} {rest[0]}" if word == "host_fill" else f"peek {first} {rest[0]} {byte[0] if byte else 0}"
        if word in ("granule_delegate", "granule_undelegate"):
            return f"{word.removeprefix('granule_')} {first}"
        if word == "realm_create":
            return f"realm {first} {rest[0]} {rest[2]} {rest[1]}" if rest[1] and 39 <= rest[2] <= 43 else None
        names = {"rtt_create": "rtt", "rtt_init_ripas": "ripas", "data_create": "data", "data_create_unknown": "unknown"}
        if word in names:
            return " ".join(map(str, [names[word], *rest]))
        if word == "realm_activate":
            return "activate"
        if word == "rec_create":
            realm = self.monitor.machine.granules[first].realm if first < self.pages else None
            return " ".join(map(str, ["rec", rest[0], realm.next if realm else 0, *rest[1:]]))
        rec = self.rec(first)
        if word in ("rec_enter", "rec_exit", "guest_write") and rec is not None and (word != "guest_write" or rest[1] <= 4095):
            name = {"rec_enter": "enter", "rec_exit": "exit", "guest_write": "poke"}[word]
            return " ".join(map(str, [name, rec.number, *rest]))
        return None

    def taken_back(self, word: str, numbers: list[int]) -> str | None:
        """The event of an accepted command that takes another one back; none if no history has it."""
        machine, first = self.monitor.machine, numbers[0]
        if word == "granule_undelegate":
            return f"undelegate {first}"
        if word == "rec_destroy":
            rec = self.rec(first)
            return " ".join(map(str, ["unrec", first, rec.number, *rec.auxiliaries]))
        realm = machine.granules[first].realm
        if word == "realm_destroy":
            return f"unrealm {first} {realm.tables[0]} {realm.width} {realm.vmid}"
        ipa, level = numbers[1], numbers[2] - 1 if word == "rtt_destroy" else 3
        granule = self.monitor.walk(realm, ipa, level)[1].granule
        return f"unrtt {granule} {ipa} {numbers[2]}" if word == "rtt_destroy" else f"undata {granule} {ipa}"

    # ---- histories

    def planned(self, build: int, word: str, numbers: list[int]) -> str | None:
        """The event of a command, before it is performed; none if no history has it."""
        if word in DESTROYING:
            try:
                event = self.taken_back(word, numbers)
            except (AttributeError, IndexError, KeyError):
                return None
            return event if self.open[build][-1:] == [event] else None
        if word in OF_AN_RD and numbers[0] not in self.builds:
            # An event names the build, and so its own realm.
            return None
        is_leased = word not in OF_AN_RD or all(self.owners.get(it, build) == build for it in granules_of(word, numbers))
        has_room = len(self.open[build]) + len(self.taken[build]) < MOST_OPERATIONS
        return self.event(word, numbers) if is_leased and has_room else None

    def accept(self, build: int, word: str, event: str) -> None:
        """Adds the event of an accepted command."""
        self.history.append(f"{build} {event}")
        if word in DESTROYING:
            self.open[build].pop()
            return
        kind, *words = event.split(" ")
        if kind in REVERSES:
            self.open[build].append(" ".join([REVERSES[kind], *(words[:2] if word.startswith("data_") else words)]))

    def map(self) -> str:
        """The map that `apply` prints: each build's pages, and its realm."""
        all_granules, maps = self.monitor.machine.granules, []
        for build, granules in self.taken.items():
            realm = next((all_granules[rd].realm for rd, of in self.builds.items() if of == build), None)
            maps.append(map_of(build, [all_granules[it] for it in granules], realm))
        return "".join(maps) + "free 0\n"

    def text(self, *more: str) -> str:
        return "".join(f"{it}\n" for it in [*self.history, *more])

    def tried(self) -> Iterator[Tried]:
        """The histories of the machine: one for each command that is refused, and that of all that are accepted."""
        followed = 0
        for place, (number, line) in enumerate(self.lines):
            word, *texts = line.split(" ")
            if word in READINGS:
                continue
            numbers = [int(it) for it in texts]
            build = self.build_of(word, numbers)
            event = self.planned(build, word, numbers)
            answer = int(self.monitor.line(line).split(" ")[0])
            if answer and event is not None:
                yield Tried(number, self.text(f"{build} {event}"), None, answer)
            elif not answer and event is None:
                break
            elif not answer:
                self.accept(build, word, event)
            followed = place + 1
        if followed < len(self.lines):
            yield Tried(self.lines[followed][0], self.text(), self.map_after(followed), 0)
        else:
            yield Tried(self.lines[-1][0] if self.lines else 0, self.text(), self.map(), 0)

    def map_after(self, count: int) -> str:
        """The map after some of the lines, on a fresh machine."""
        fresh = Following([(0, self.opening), *self.lines[:count]])
        fresh.builds, fresh.taken = self.builds, self.taken
        for _, line in fresh.lines:
            fresh.monitor.line(line)
        return fresh.map()
