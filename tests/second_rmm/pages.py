"""The parameter pages: where their fields are, and pages with given fields."""
from __future__ import annotations

from collections.abc import Mapping
from typing import NamedTuple

from .facts import LRS, PAGE


class Field(NamedTuple):
    """A field: its first byte, its bytes, and how many values it can have."""

    offset: int
    size: int
    most: int = 1


Layout = Mapping[str, Field]

# num_aux is no field of a line: it is the number of aux.
REALM_PARAMS: Layout = {
    "flags": Field(0x000, 8), "s2sz": Field(0x008, 1), "sve_vl": Field(0x010, 1), "num_bps": Field(0x018, 1),
    "num_wps": Field(0x020, 1), "pmu_num_ctrs": Field(0x028, 1), "hash_algo": Field(0x030, 1),
    "rpv": Field(0x400, 64), "vmid": Field(0x800, 2), "rtt_base": Field(0x808, 8),
    "rtt_level_start": Field(0x810, 8), "rtt_num_start": Field(0x818, 4),
}
REC_PARAMS: Layout = {
    "flags": Field(0x000, 8), "mpidr": Field(0x100, 8), "pc": Field(0x200, 8), "gprs": Field(0x300, 8, 8),
    "num_aux": Field(0x800, 8), "aux": Field(0x808, 8, 16),
}
REC_ENTER: Layout = {
    "flags": Field(0x000, 8), "gprs": Field(0x200, 8, 31), "gicv3_hcr": Field(0x300, 8),
    "gicv3_lrs": Field(0x308, 8, LRS),
}
REC_EXIT: Layout = {
    "exit": Field(0x800, 1), "esr": Field(0x900, 8), "far": Field(0x908, 8), "hpfar": Field(0x910, 8),
    "gprs": Field(0xA00, 8, 31), "gicv3_hcr": Field(0xB00, 8), "gicv3_lrs": Field(0xB08, 8, LRS),
    "base": Field(0xD00, 8), "top": Field(0xD08, 8), "ripas": Field(0xD10, 1), "imm": Field(0xE00, 2),
}
EXIT_BEGINS = 0x800


def page_of(layout: Layout, values: Mapping[str, int | tuple[int, ...]]) -> bytes:
    """A page that has these fields, and else zeros."""
    page = bytearray(PAGE)
    for name, value in values.items():
        it = layout[name]
        for k, number in enumerate((value,) if isinstance(value, int) else value):
            begin = it.offset + k * it.size
            page[begin : begin + it.size] = number.to_bytes(it.size, "little")
    return bytes(page)


def all_of(page: bytes, it: Field) -> tuple[int, ...]:
    """All values of a field."""
    places = range(it.offset, it.offset + it.most * it.size, it.size)
    return tuple(int.from_bytes(page[k : k + it.size], "little") for k in places)


def one_of(page: bytes, it: Field) -> int:
    """The value of a field that has one."""
    return all_of(page, it)[0]


def signed(number: int) -> int:
    """A number of 64 bits, read with its sign."""
    return number - 2**64 if number >= 2**63 else number
