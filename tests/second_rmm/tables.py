"""The commands of tables, of pages of data, and of RIPAS."""
from __future__ import annotations

from collections.abc import Callable
from functools import cached_property

from .command import Check, Checks, Command, Outcome, WithTop, command, done
from .facts import DATA, DELEGATED, DESTROYED, EMPTY, ENTRIES, PAGE, RAM, REALM, REC, RTT, RTT_STATE, Settings, size
from .machine import LIVE, MAPPINGS, UNASSIGNED_NS, Entry, Rec, Walk
from .measurement import extend_by_data, extend_by_ripas

ADDRESS_BITS = 0xFFFF_FFFF_F000
ATTRIBUTES, RESERVED_ATTRIBUTE, ACCESS_BITS, SH_BITS, RESERVED_SH = 0x1C, 0x10, 0xC0, 0x300, 0x100


class TableCommand(Command):
    """A command on the table of a level: its walk ends one level above."""

    @property
    def walk_level(self) -> int:  # type: ignore[override]
        return self.level - 1

    def below(self) -> list[Entry]:
        """The entries of the table."""
        return self.machine.granule(self.walk.entry.address).table

    def remove(self, entry: Entry) -> int:
        """Puts an entry in the place of the table. Returns where the table was."""
        self.machine.put(self.walk, entry)
        self.machine.become(self.walk.entry.address, DELEGATED)
        return self.walk.entry.address


def is_table(entry: Entry) -> bool:
    return entry.kind == "TABLE"


@command(0x15D, "rmi_rtt_create", "rd rtt ipa level")
class RttCreate(TableCommand):
    rtt: int

    def checks(self) -> Checks:
        yield from self.granule(lambda: self.rtt, DELEGATED, "rtt_align", "rtt_bound", "rtt_state")
        yield from self.rd_checks()
        yield from self.table_place()
        yield from self.entry_checks(lambda entry: not is_table(entry))

    def effect(self) -> Outcome:
        children = self.walk.entry.children(self.level)
        self.machine.become(self.rtt, RTT_STATE).table = children
        self.machine.put(self.walk, Entry("TABLE", EMPTY, self.rtt))
        return done()


@command(0x15E, "rmi_rtt_destroy", "rd ipa level", "rtt top")
class RttDestroy(WithTop, TableCommand):
    def checks(self) -> Checks:
        is_live = lambda: any(entry.kind in LIVE for entry in self.below())
        yield from self.rd_checks()
        yield from self.table_place()
        yield from self.entry_checks(is_table)
        yield Check("rtt_live", is_live, RTT, ("rtte_state",), lambda: self.level)

    def effect(self) -> Outcome:
        is_protected = self.realm.is_protected(self.ipa)
        rtt = self.remove(Entry("UNASSIGNED", DESTROYED) if is_protected else UNASSIGNED_NS)
        return done(rtt=rtt, top=self.next_live())


@command(0x166, "rmi_rtt_fold", "rd ipa level", "rtt")
class RttFold(TableCommand):
    def is_homogeneous(self) -> bool:
        first = self.below()[0]
        is_aligned = first.kind not in MAPPINGS or (first.address & ADDRESS_BITS) % size(self.level - 1) == 0
        return not is_table(first) and self.below() == first.children(self.level) and is_aligned

    def checks(self) -> Checks:
        is_no_block = lambda: self.below()[0].kind in MAPPINGS and self.level <= self.settings.block_level
        yield from self.rd_checks()
        yield from self.table_place()
        yield from self.entry_checks(is_table)
        yield Check("rtt_homo", lambda: not self.is_homogeneous(), RTT, ("rtte_state",), lambda: self.level)
        yield Check("rtt_block", is_no_block, RTT, ("rtt_homo",), lambda: self.level - 1)

    def effect(self) -> Outcome:
        return done(rtt=self.remove(self.below()[0]))


@command(0x161, "rmi_rtt_read_entry", "rd ipa level", "level state desc ripas")
class RttReadEntry(Command):
    def checks(self) -> Checks:
        yield from self.rd_checks()
        yield Check("level_bound", lambda: not self.realm.level <= self.level <= 3, after=("rd_state",))
        yield Check("ipa_align", lambda: self.ipa % size(self.level) != 0, after=("level_bound",))
        yield Check("ipa_bound", lambda: not self.realm.is_inside(self.ipa), after=("rd_state",))

    def effect(self) -> Outcome:
        walk = self.machine.walk(self.realm, self.ipa, self.level)
        kind, ripas, address = walk.entry
        state = ("UNASSIGNED", "ASSIGNED", "TABLE").index(kind.removesuffix("_NS"))
        return done(level=walk.level, state=state, desc=address, ripas=ripas)


class UnprotectedCommand(Command):
    """A command on an unprotected mapping: its walk ends at the mapping's level."""

    @property
    def walk_level(self) -> int:  # type: ignore[override]
        return self.level


def is_descriptor(settings: Settings, desc: int, level: int) -> bool:
    """Whether a number describes an unprotected mapping of a level."""
    is_sh_right = desc & SH_BITS != RESERVED_SH if settings.desc_sh == "any" else desc & SH_BITS == 0
    is_rest_zero = desc & ~(ADDRESS_BITS | ATTRIBUTES | ACCESS_BITS | SH_BITS) == 0
    is_aligned = (desc & ADDRESS_BITS) % size(level) == 0
    return is_sh_right and is_rest_zero and is_aligned and desc & ATTRIBUTES != RESERVED_ATTRIBUTE


@command(0x15F, "rmi_rtt_map_unprotected", "rd ipa level desc")
class RttMapUnprotected(UnprotectedCommand):
    desc: int

    def checks(self) -> Checks:
        is_wrong = lambda: not is_descriptor(self.settings, self.desc, self.level)
        yield from self.rd_checks()
        yield from self.unprotected_place()
        yield Check("desc_bound", is_wrong, after=("level_bound",))
        yield from self.entry_checks(lambda entry: entry.kind == "UNASSIGNED_NS")

    def effect(self) -> Outcome:
        self.machine.put(self.walk, Entry("ASSIGNED_NS", EMPTY, self.desc))
        return done()


@command(0x162, "rmi_rtt_unmap_unprotected", "rd ipa level", "top")
class RttUnmapUnprotected(WithTop, UnprotectedCommand):
    def checks(self) -> Checks:
        yield from self.rd_checks()
        yield from self.unprotected_place()
        yield from self.entry_checks(lambda entry: entry.kind == "ASSIGNED_NS")

    def effect(self) -> Outcome:
        self.machine.put(self.walk, UNASSIGNED_NS)
        return done(top=self.next_live())


# ---- pages of data


class DataCommand(Command):
    """A command that maps a page of data."""

    data: int

    def delegated_data(self) -> Checks:
        yield from self.granule(lambda: self.data, DELEGATED, "data_align", "data_bound", "data_state")

    def map(self, ripas: int, page: bytes) -> None:
        self.machine.become(self.data, DATA, page)
        self.machine.put(self.walk, Entry("ASSIGNED", ripas, self.data))


def is_unassigned(entry: Entry) -> bool:
    return entry.kind == "UNASSIGNED"


@command(0x153, "rmi_data_create", "rd data ipa src flags")
class DataCreate(DataCommand):
    src: int
    flags: int

    def checks(self) -> Checks:
        is_flagged = lambda: self.settings.data_flags == "checked" and self.flags > 1
        is_other = lambda: self.settings.data_ripas == "ram" and self.walk.entry.ripas != RAM
        yield Check("flags_valid", is_flagged)
        yield from self.host_page(lambda: self.src, "src_align", "src_bound", "src_pas")
        yield from self.delegated_data()
        yield from self.rd_checks()
        yield from self.page_place()
        yield Check("realm_state", lambda: self.realm.state != "NEW", REALM, after=("rd_state",))
        yield from self.entry_checks(is_unassigned, "realm_state")
        yield Check("rtte_ripas", is_other, RTT, ("rtte_state",), lambda: self.walk.level)

    def effect(self) -> Outcome:
        page = self.machine.granule(self.src).page
        self.map(RAM, page)
        extend_by_data(self.realm, self.ipa, self.flags, page)
        return done()


@command(0x154, "rmi_data_create_unknown", "rd data ipa")
class DataCreateUnknown(DataCommand):
    def checks(self) -> Checks:
        yield from self.delegated_data()
        yield from self.rd_checks()
        yield from self.page_place()
        yield from self.entry_checks(is_unassigned)

    def effect(self) -> Outcome:
        self.map(self.walk.entry.ripas, bytes(PAGE))
        return done()


@command(0x155, "rmi_data_destroy", "rd ipa", "data top")
class DataDestroy(WithTop):
    def checks(self) -> Checks:
        yield from self.rd_checks()
        yield from self.page_place()
        yield from self.entry_checks(lambda entry: entry.kind == "ASSIGNED")

    def effect(self) -> Outcome:
        entry = self.walk.entry
        self.machine.become(entry.address, DELEGATED)
        self.machine.put(self.walk, Entry("UNASSIGNED", EMPTY if entry.ripas == EMPTY else DESTROYED))
        return done(data=entry.address, top=self.next_live())


# ---- RIPAS


class RipasCommand(Command):
    """A command that changes the RIPAS of a range, as far as one table goes."""

    base: int
    top: int
    operands = ("rd", "base", "top")

    @cached_property
    def walk(self) -> Walk:
        return self.machine.walk(self.realm, self.base, 3)

    def is_right(self, entry: Entry) -> bool:
        """Whether the RIPAS of an entry can be changed."""
        raise NotImplementedError

    def ends_of_range(self) -> tuple[Check, Check]:
        """The checks of the range's size and of its top."""
        return (
            Check("size", lambda: self.top <= self.base),
            Check("top_gran_align", lambda: self.top % PAGE != 0),
        )

    def range_checks(self, *after: str) -> Checks:
        """The range begins with a whole entry that can be changed."""
        index, span = lambda: self.walk.level, lambda: size(self.walk.level)
        yield Check("base_align", lambda: self.base % span() != 0, RTT, after, index)
        yield Check("rtte_state", lambda: not self.is_right(self.walk.entry), RTT, ("base_align",), index)
        yield Check("no_progress", lambda: self.base + span() > self.top, RTT, ("base_align",), index)

    def change(self, ripas: int, then: Callable[[int, int], None]) -> int:
        """Changes the entries of one table. Returns the end of what was changed."""
        at, span = self.base, size(self.walk.level)
        table = self.machine.granule(self.walk.table).table
        for k in range(self.walk.index, ENTRIES):
            if not self.is_right(table[k]) or at + span > self.top:
                break
            table[k] = table[k]._replace(ripas=ripas)
            then(at, at + span)
            at += span
        return at


@command(0x168, "rmi_rtt_init_ripas", "rd base top", "top")
class RttInitRipas(RipasCommand):
    def is_right(self, entry: Entry) -> bool:
        stops = self.settings.init_destroyed == "stop" and entry.ripas == DESTROYED
        return is_unassigned(entry) and not stops

    def checks(self) -> Checks:
        range_size, top_align = self.ends_of_range()
        is_protected = lambda ipa: self.realm.is_protected(ipa)
        yield range_size
        yield from self.rd_checks()
        yield Check("base_gran_align", lambda: self.base % PAGE != 0)
        yield top_align
        yield Check("base_bound", lambda: not is_protected(self.base), after=("rd_state",))
        yield Check("top_bound", lambda: not is_protected(self.top - PAGE), after=("rd_state", "size"))
        yield Check("realm_state", lambda: self.realm.state != "NEW", REALM, after=("rd_state",))
        yield from self.range_checks("size", "rd_state", "base_bound", "top_bound", "realm_state")

    def effect(self) -> Outcome:
        return done(top=self.change(RAM, lambda base, top: extend_by_ripas(self.realm, base, top)))


@command(0x169, "rmi_rtt_set_ripas", "rd rec base top", "top")
class RttSetRipas(RipasCommand):
    rec: int

    @property
    def asking(self) -> Rec:
        return self.machine.rec(self.rec)

    def is_right(self, entry: Entry) -> bool:
        stops = entry.ripas == DESTROYED and not self.asking.asked.destroyed
        return entry.kind in ("UNASSIGNED", "ASSIGNED") and not stops

    def checks(self) -> Checks:
        range_size, top_align = self.ends_of_range()
        asked = lambda: self.asking.asked
        of_both = ("rec_gran_state", "rd_state")
        yield range_size
        yield from self.rd_checks()
        yield from self.rec_checks(lambda: self.rec)
        yield top_align
        yield Check("rec_state", lambda: self.asking.is_running, REC, after=("rec_gran_state",))
        yield Check("rec_owner", lambda: self.asking.realm is not self.realm, REC, after=of_both)
        yield Check("base_bound", lambda: self.base != asked().base, after=("rec_state",))
        yield Check("top_bound", lambda: self.top > asked().top, after=("rec_state",))
        yield from self.range_checks("size", *of_both, "rec_state", "rec_owner", "base_bound", "top_bound")

    def effect(self) -> Outcome:
        asked = self.asking.asked
        asked.base = self.change(asked.ripas, lambda base, top: None)
        return done(top=asked.base)
