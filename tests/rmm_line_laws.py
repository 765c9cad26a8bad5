"""Statements about each line of a trace, and about two machines, as the second model of the RMI by registers has them.

    refusals  a refused call leaves the machine as it was; no other word is allowed beside RMI_SUCCESS
    realms    a line changes nothing of a realm that it does not name
    hosts     a call changes a page of the host if it delegates it, and the bytes of one if a REC is entered; an interrupt
              changes the bytes of one; none of these is of the secure world
    memory    a page of data changes by steps of its realm's own guests alone, and by no more bytes than they write
    ripas     RIPAS becomes RAM by INIT_RIPAS and DATA_CREATE in a NEW realm, DESTROYED by a destroyed page where it was RAM
              or by a destroyed table, and what a REC asked for by SET_RIPAS; each time in the call's range alone, and by
              SET_RIPAS in all of it; a new realm is EMPTY
    places    a protected address leads to the page that it led to; DATA_CREATE and DATA_CREATE_UNKNOWN give one where none was,
              at their address, and DATA_DESTROY takes it
    states    a realm is NEW, ACTIVE and SYSTEM_OFF in turn; from REALM_ACTIVATE on its RIM is the same
    wiped     a granule that is delegated or given back is zero
    effects   a realm that is activated was NEW; a page of data has the bytes that are measured, of a page of the host outside
              the secure world; a REC begins where its parameters say; a REC that leaves is READY
    secrets   two machines that differ in memory and registers of guests, and in what these write to their own memory,
              answer a host alike, and differ in nothing else after that
    tops      steps by `top` from address 0 meet each live entry
    folds     RTT_FOLD after RTT_CREATE leaves all entries and granules as they were, and the other way round
"""
from __future__ import annotations

import copy
from collections.abc import Iterator
from dataclasses import replace
from itertools import groupby
from random import Random
from typing import NamedTuple

from rmm_laws import entries_of, named_by
from second_rmm.bench import Bench
from second_rmm.command import COMMANDS, Command, Outcome
from second_rmm.facts import DATA, DELEGATED, DESTROYED, EMPTY, ENTRIES, PAGE, RAM, RUNNING, SUCCESS, UNDELEGATED, size
from second_rmm.machine import LIVE, ZEROS, Asked, Granule, Machine, Realm
from second_rmm.pages import REC_PARAMS, one_of
from second_rmm.reading import number, step_of

NAMES_REALM, NAMES_REC = ("rd",), ("rec", "calling", "target")
# The operations of a host; the others are readings of the model's own, and steps of guests.
OF_A_HOST = (*COMMANDS, "smc", "repeat", "load", "store", "fill", "realm_params", "rec_params", "rec_run", "interrupt")
Kept = tuple[object, ...]
Step = tuple[str, tuple[int, ...]]
# The places of the pc and the registers of a REC in what is kept of it.
PC, GPRS = 3, 4


def kept(it: Granule) -> Kept:
    """All that a granule is, in copies."""
    rec = it.rec
    of_rec = rec and (
        rec.realm.rd, rec.aux, rec.mpidr, rec.pc, rec.gprs, rec.is_runnable, rec.is_running, rec.pending, rec.psci,
        replace(rec.asked), rec.last, rec.run, rec.gic, (*rec.steps,), (*rec.results,),
    )
    return it.state, it.page, (*it.table,), it.realm and replace(it.realm), of_rec


class Seen(NamedTuple):
    """A machine at one time: its granules, which realm has each of them, its realms, and the granules that are secure."""

    granules: list[Kept]
    owners: dict[int, int]
    realms: dict[int, Realm]
    base: int
    secure: range


def seen(machine: Machine, before: Seen | None) -> Seen:
    """The machine now; what is as it was before is not read once more."""
    granules = [kept(it) for it in machine.granules]
    if before and granules == before.granules:
        return before
    index = lambda address: (address - machine.base) // PAGE
    if before and [it[0] for it in granules] == [it[0] for it in before.granules]:
        owners = before.owners
    else:
        owners = {index(it): realm.rd for realm in machine.realms() for it, _ in named_by(machine, realm)}
    realms = {realm.rd: replace(realm) for realm in machine.realms()}
    first, count = machine.settings.secure
    return Seen(granules, owners, realms, machine.base, range(index(first), index(first) + count))


Leaf = tuple[int, int, int]


def leaves_of(it: Seen, realm: Realm) -> list[Leaf]:
    """The protected addresses with their RIPAS: where each range of one RIPAS begins and ends."""
    ranges: list[Leaf] = []
    spans = [(realm.level, ENTRIES * size(realm.level) * k, table) for k, table in enumerate(realm.tables)]
    while spans:
        level, at, table = spans.pop(0)
        step = size(level)
        # Adjacent entries are mostly alike.
        for entry, alike in groupby(it.granules[(table - it.base) // PAGE][2]):  # type: ignore[call-overload]
            end = at + step * len([*alike])
            if entry.kind == "TABLE":
                spans.append((level + 1, at, entry.address))
            elif entry.kind in ("UNASSIGNED", "ASSIGNED"):
                if ranges and ranges[-1][1] == at and ranges[-1][2] == entry.ripas:
                    ranges[-1] = ranges[-1][0], end, entry.ripas
                else:
                    ranges.append((at, end, entry.ripas))
            at = end
    ordered: list[Leaf] = []
    for begin, end, ripas in sorted(ranges):
        is_next = ordered and ordered[-1][1:] == (begin, ripas)
        ordered[-1:] = [(ordered[-1][0], end, ripas)] if is_next else [*ordered[-1:], (begin, end, ripas)]
    return ordered


class Line(NamedTuple):
    """A line that was answered: its command if it is a call, the operands, and the realms that it names."""

    kind: str
    values: dict[str, int]
    realms: set[int]


def line_of(bench: Bench, question: str) -> Line:
    kind, *words = question.split(" ")
    if kind == "smc":
        fid, *values = [int(it, 0) for it in words]
        command: type[Command] | None = next((it for it in COMMANDS.values() if it.fid == fid), None)
        kind, values = (command.name, values) if command else (kind, [])
    elif kind in COMMANDS:
        values = bench.operands(kind, words)
    names = COMMANDS[kind].operands if kind in COMMANDS else ("rec",) if kind in ("guest", "interrupt") else ()
    if kind in ("guest", "interrupt"):
        values = [number(words[0])]
    named = dict(zip(names, values)) if names else {}
    realms = {it for name, it in named.items() if name in NAMES_REALM}
    for name, it in named.items():
        granule = bench.machine.granule_at(it) if name in NAMES_REC else None
        realms |= {granule.rec.realm.rd} if granule and granule.rec else set()
    return Line(kind, named, realms)


class Watch:
    """A trace that is answered line by line, with what is wrong with each."""

    def __init__(self) -> None:
        self.bench, self.before = Bench(), Seen([], {}, {}, 0, range(0))
        self.count = 0

    def ask(self, question: str) -> Iterator[str]:
        if question.startswith("platform "):
            self.bench.ask(question)
            self.before = seen(self.bench.machine, None)
            return
        line, before = line_of(self.bench, question), self.before
        written = self.written(line)
        asked = self.asked(line)
        self.bench.ask(question)
        after = seen(self.bench.machine, before)
        self.before, self.count = after, self.count + 1
        yield from self.of_refusals(before, after)
        yield from of_effects(line, self.bench.outcome, before, after)
        if after is not before:
            yield from of_realms(line, before, after)
            yield from of_hosts(line, before, after)
            yield from of_memory(line, before, after, written)
            yield from of_ripas(line, before, after, asked)
            yield from of_places(line, before, after)
            yield from of_given(line, self.bench.outcome, after)
            yield from of_new(before, after)
            yield from of_range(line, self.bench.outcome, after, asked)
            yield from of_states(line, before, after)
            yield from of_wiped(before, after)

    def written(self, line: Line) -> int:
        """The bytes that the steps of a guest write at most."""
        it = self.bench.machine.granule_at(line.values.get("rec", -1)) if line.kind == "rmi_rec_enter" else None
        return sum(operands[2] for kind, operands in it.rec.steps if kind == "write") if it and it.rec else 0

    def asked(self, line: Line) -> Asked | None:
        """The change of RIPAS that a REC asked for."""
        it = self.bench.machine.granule_at(line.values.get("rec", -1)) if line.kind == "rmi_rtt_set_ripas" else None
        return replace(it.rec.asked) if it and it.rec else None

    def of_refusals(self, before: Seen, after: Seen) -> Iterator[str]:
        it = self.bench.outcome
        if it is None:
            return
        if it.word not in (SUCCESS, RUNNING) and it.exit is None and it.check and before is not after:
            yield "refusals: a refusal changes something"
        if SUCCESS in it.allowed or (it.word == SUCCESS and it.allowed):
            yield "refusals: another word is allowed beside RMI_SUCCESS"


def of_effects(line: Line, outcome: Outcome | None, before: Seen, after: Seen) -> Iterator[str]:
    """The faults in what a call that succeeds has found, and in what it has done."""
    if outcome is None or outcome.word != SUCCESS:
        return
    number_of = lambda name: (line.values[name] - before.base) // PAGE
    rd = line.values.get("rd", -1)
    if line.kind == "rmi_realm_activate":
        states = before.realms[rd].state, after.realms[rd].state
        if states != ("NEW", "ACTIVE"):
            yield f"effects: a realm that was {states[0]} is {states[1]}"
    elif line.kind == "rmi_data_create":
        if after.granules[number_of("data")][1] != before.granules[number_of("src")][1]:
            yield "effects: a page of data has other bytes than its source"
        if before.realms[rd].rim == after.realms[rd].rim:
            yield "effects: a page of data is not measured"
        if before.granules[number_of("src")][0] != UNDELEGATED or number_of("src") in before.secure:
            yield "effects: a page of data is read from a page that is not the host's"
    elif line.kind == "rmi_rec_create":
        page, rec = before.granules[number_of("params")][1], after.granules[number_of("rec")][4]
        if rec is None or rec[PC] != one_of(page, REC_PARAMS["pc"]):  # type: ignore[index,arg-type]
            yield "effects: a REC begins elsewhere than its parameters say"
    elif line.kind == "rmi_rec_enter":
        rec = after.granules[number_of("rec")][4]
        if rec is None or rec[6]:  # type: ignore[index]
            yield "effects: a REC that has left runs"
        if any(before.realms[it].state != "ACTIVE" for it in line.realms):
            yield "effects: a REC is entered before its realm is ACTIVE"


def of_realms(line: Line, before: Seen, after: Seen) -> Iterator[str]:
    for k, (one, other) in enumerate(zip(before.granules, after.granules)):
        if one != other and k in before.owners and before.owners[k] not in line.realms:
            yield f"realms: granule {k} of another realm is changed"


def of_hosts(line: Line, before: Seen, after: Seen) -> Iterator[str]:
    if line.kind not in (*COMMANDS, "interrupt"):
        return
    for k, (one, other) in enumerate(zip(before.granules, after.granules)):
        is_named = line.kind == "rmi_granule_delegate" and line.values["addr"] == before.base + PAGE * k
        is_delegated = is_named and other[0] == DELEGATED
        is_written = line.kind in ("rmi_rec_enter", "interrupt") and other[0] == UNDELEGATED
        is_allowed = (is_delegated or is_written) and k not in before.secure
        if one[0] == UNDELEGATED and one != other and not is_allowed:
            yield f"hosts: the page {k} of the host is changed"


def of_memory(line: Line, before: Seen, after: Seen, written: int) -> Iterator[str]:
    for k, (one, other) in enumerate(zip(before.granules, after.granules)):
        if one[0] == other[0] == DATA and one[1] != other[1]:
            changed = sum(a != b for a, b in zip(one[1], other[1]))  # type: ignore[call-overload]
            if line.kind != "rmi_rec_enter" or before.owners[k] not in line.realms or changed > written:
                yield f"memory: {changed} bytes of the page of data {k} are changed"


def are_tables_other(rd: int, before: Seen, after: Seen) -> bool:
    """Whether an entry of a realm's tables is another one."""
    return any(before.granules[k][2] != after.granules[k][2] for k, owner in before.owners.items() if owner == rd)


def ripas_at(ranges: list[tuple[int, int, int]], at: int) -> int | None:
    return next((ripas for begin, end, ripas in ranges if begin <= at < end), None)


def gives_ripas(line: Line, state: str, at: int, was: int | None, now: int | None, asked: Asked | None) -> bool:
    """Whether a call on a realm of a state gives an address another RIPAS."""
    values, is_new = line.values, state == "NEW"
    begin = values.get("ipa", values.get("base", 0))
    if line.kind == "rmi_rtt_init_ripas":
        return is_new and now == RAM and begin <= at < values["top"]
    if line.kind == "rmi_data_create":
        return is_new and now == RAM and begin <= at < begin + PAGE
    if line.kind == "rmi_data_destroy":
        return (was, now) == (RAM, DESTROYED) and begin <= at < begin + PAGE
    if line.kind == "rmi_rtt_destroy":
        return now == DESTROYED and begin <= at < begin + size(values["level"] - 1)
    return asked is not None and asked.base <= at < asked.top and now == asked.ripas and (was != DESTROYED or asked.destroyed)


def of_ripas(line: Line, before: Seen, after: Seen, asked: Asked | None) -> Iterator[str]:
    for rd, realm in before.realms.items():
        if rd not in after.realms or not are_tables_other(rd, before, after):
            continue
        one, other = leaves_of(before, realm), leaves_of(after, after.realms[rd])
        for at in sorted({it for ranges in (one, other) for begin, end, _ in ranges for it in (begin, end - PAGE)}):
            was, now = ripas_at(one, at), ripas_at(other, at)
            if was != now and not (rd == line.values.get("rd") and gives_ripas(line, realm.state, at, was, now, asked)):
                yield f"ripas: at {at:#x} it is {now}"


def of_new(before: Seen, after: Seen) -> Iterator[str]:
    for rd, realm in after.realms.items():
        if rd not in before.realms and any(ripas != EMPTY for _, _, ripas in leaves_of(after, realm)):
            yield "ripas: a new realm is not EMPTY"


def of_range(line: Line, outcome: Outcome | None, after: Seen, asked: Asked | None) -> Iterator[str]:
    """The faults in the range up to which RMI_RTT_SET_RIPAS has come."""
    if asked is None or outcome is None or outcome.word != SUCCESS:
        return
    base, top = line.values["base"], outcome.outputs["top"]
    within = [it for begin, end, it in leaves_of(after, after.realms[line.values["rd"]]) if begin < top and base < end]
    if top <= base or set(within) != {asked.ripas}:
        yield f"ripas: from {base:#x} to {top:#x} it is not what was asked for"


def places_of(it: Seen, realm: Realm) -> dict[int, int]:
    """The page that each protected address leads to, if it leads to one."""
    places: dict[int, int] = {}
    spans = [(realm.level, ENTRIES * size(realm.level) * k, table) for k, table in enumerate(realm.tables)]
    while spans:
        level, at, table = spans.pop()
        for k, entry in enumerate(it.granules[(table - it.base) // PAGE][2]):  # type: ignore[arg-type]
            begin = at + size(level) * k
            if entry.kind == "TABLE":
                spans.append((level + 1, begin, entry.address))
            elif entry.kind == "ASSIGNED":
                places |= {begin + part: entry.address + part for part in range(0, size(level), PAGE)}
    return places


def of_places(line: Line, before: Seen, after: Seen) -> Iterator[str]:
    for rd, realm in before.realms.items():
        if rd not in after.realms or not are_tables_other(rd, before, after):
            continue
        one, other = places_of(before, realm), places_of(after, after.realms[rd])
        is_data = line.kind in ("rmi_data_create", "rmi_data_create_unknown")
        for at in one.keys() | other.keys():
            was, now = one.get(at), other.get(at)
            is_named = rd == line.values.get("rd") and at == line.values.get("ipa")
            is_given = is_data and was is None and now == line.values["data"]
            is_taken = line.kind == "rmi_data_destroy" and now is None
            if was != now and not (is_named and (is_given or is_taken)):
                yield f"places: {at:#x} leads to another page"


def of_given(line: Line, outcome: Outcome | None, after: Seen) -> Iterator[str]:
    """The page that a call gives if it succeeds."""
    is_data = line.kind in ("rmi_data_create", "rmi_data_create_unknown")
    if is_data and outcome is not None and outcome.word == SUCCESS:
        places = places_of(after, after.realms[line.values["rd"]])
        if places.get(line.values["ipa"]) != line.values["data"]:
            yield "places: a page that is given is not there"


def of_states(line: Line, before: Seen, after: Seen) -> Iterator[str]:
    by = {("NEW", "ACTIVE"): "rmi_realm_activate", ("ACTIVE", "SYSTEM_OFF"): "rmi_rec_enter"}
    for rd, realm in after.realms.items():
        if rd not in before.realms and (realm.state, line.kind) != ("NEW", "rmi_realm_create"):
            yield f"states: a realm begins as {realm.state}"
    for rd, realm in before.realms.items():
        now = after.realms.get(rd)
        if now is None:
            continue
        if realm.state != now.state and by.get((realm.state, now.state)) != line.kind:
            yield f"states: a realm that was {realm.state} is {now.state}"
        if realm.state != "NEW" and realm.rim != now.rim:
            yield "states: the RIM of an ACTIVE realm is changed"


def of_wiped(before: Seen, after: Seen) -> Iterator[str]:
    for k, (one, other) in enumerate(zip(before.granules, after.granules)):
        if one[0] != other[0] and other[0] in (UNDELEGATED, DELEGATED) and other[1] != ZEROS:
            yield f"wiped: granule {k} is {other[0]} and not zero"


# ---- two machines


def shown(it: Granule) -> Kept:
    """A granule without its secrets: a page of data, registers of a REC, what its steps write, and what they read."""
    state, page, *others, rec = kept(it)
    if it.rec is None or rec is None:
        return state, page if state == UNDELEGATED else b"", *others
    hidden = lambda kind, operands: (operands[0], operands[2]) if kind == "write" else operands
    steps = [(kind, hidden(kind, operands)) for kind, operands in it.rec.steps]
    *of_rec, _, _ = rec  # type: ignore[misc]
    return state, *others, of_rec[:PC] + of_rec[GPRS + 1 :], steps, [name for name, _ in it.rec.results]


def with_other_value(realm: Realm, step: Step, dice: Random) -> Step:
    """A step; one that writes to memory of the realm's own writes another value."""
    kind, operands = step
    if kind != "write" or not realm.is_protected(operands[0]):
        return step
    return kind, (operands[0], dice.randrange(256 ** operands[2]), operands[2])


def with_other_secrets(bench: Bench, dice: Random) -> Bench:
    """The same machine, but for pages of data, registers of RECs, and what guests are to write to their memory."""
    other = copy.deepcopy(bench)
    for it in other.machine.granules:
        if it.state == DATA:
            it.page = dice.randbytes(PAGE)
        if it.rec is not None:
            it.rec.gprs, it.rec.pc = tuple(dice.getrandbits(64) for _ in it.rec.gprs), dice.getrandbits(64)
            it.rec.steps = [with_other_value(it.rec.realm, step, dice) for step in it.rec.steps]
    return other


def with_another(bench: Bench, question: str, dice: Random) -> str:
    """A line; a step that writes to a realm's own memory writes another value."""
    kind, *words = question.split(" ")
    it = bench.machine.granule_at(number(words[0])) if kind == "guest" and words[1:2] == ["write"] else None
    if it is None or it.rec is None:
        return question
    _, (ipa, value, size_of_it) = with_other_value(it.rec.realm, step_of(words[1:]), dice)
    return f"guest {words[0]} write {ipa:#x} {value:#x} {size_of_it}"


def of_secrets(questions: list[str], dice: Random) -> str | None:
    """The difference by which a host learns of a guest's secrets, or none."""
    bench, cut = Bench(), dice.randrange(1, len(questions))
    for it in questions[:cut]:
        bench.ask(it)
    other = with_other_secrets(bench, dice)
    for it in questions[cut:]:
        one, two = bench.ask(it), other.ask(with_another(other, it, dice))
        if it.split(" ")[0] in OF_A_HOST and one != two:
            return f"{it} is answered {one} and {two}"
    both = zip(bench.machine.granules, other.machine.granules)
    other_ones = [k for k, (one, two) in enumerate(both) if shown(one) != shown(two)]
    return f"granule {other_ones[0]} is another by them" if other_ones else None


# ---- walks


def of_tops(machine: Machine) -> str | None:
    """The fault of the steps by `top` from address 0 on, or none."""
    for realm in machine.realms():
        met, at, end = set(), 0, ENTRIES * size(realm.level) * len(realm.tables)
        while at < end:
            walk = machine.walk(realm, at, 3)
            if walk.entry.kind in LIVE:
                begin = at - at % size(walk.level)
                met.add(begin)
                at = begin + size(walk.level)
            else:
                at = machine.top(realm, at, 3)
        live = {begin for _, begin, it in entries_of(machine, realm) if it.kind in ("ASSIGNED", "ASSIGNED_NS")}
        if met != live:
            return f"an entry at {min(met ^ live):#x} is not met"
    return None


def of_folds(bench: Bench, dice: Random) -> str | None:
    """The fault of a table that is made, folded and made once more, or none."""
    here = bench.machine
    spares = [k for k, it in enumerate(here.granules) if it.state == DELEGATED]
    places = [
        (realm, level, begin) for realm in here.realms() for level, begin, it in entries_of(here, realm)
        if level < 3 and it.kind != "TABLE" and realm.is_inside(begin)
    ]
    if not spares or not places:
        return None
    other = copy.deepcopy(bench)
    realm, level, begin = dice.choice(places)
    rtt = here.base + PAGE * dice.choice(spares)
    made = other.call("rmi_rtt_create", [realm.rd, rtt, begin, level + 1])
    unfolded = [kept(it) for it in other.machine.granules]
    folded = other.call("rmi_rtt_fold", [realm.rd, begin, level + 1])
    if (made.word, folded.word) != (SUCCESS, SUCCESS):
        return f"a table at {begin:#x} is made and folded with {made.word:#x} and {folded.word:#x}"
    if [kept(it) for it in here.granules] != [kept(it) for it in other.machine.granules]:
        return f"a table at {begin:#x} that is folded leaves something"
    again = other.call("rmi_rtt_create", [realm.rd, folded.outputs["rtt"], begin, level + 1])
    is_same = again.word == SUCCESS and unfolded == [kept(it) for it in other.machine.granules]
    return None if is_same else f"a table at {begin:#x} that is folded and made is another one"
