"""Constants of RMM 1.0, result words, and the settings of a platform."""
from __future__ import annotations

from collections.abc import Container
from dataclasses import dataclass

PAGE, ENTRIES = 4096, 512
SUCCESS, INPUT, REALM, REC, RTT = range(5)
STATUSES = ("RMI_SUCCESS", "RMI_ERROR_INPUT", "RMI_ERROR_REALM", "RMI_ERROR_REC", "RMI_ERROR_RTT")
# X0 of a number that is no command, and of a REC that runs on.
NOT_SUPPORTED, RUNNING = 2**64 - 1, 2**64 - 2

UNDELEGATED, DELEGATED, RD, REC_STATE, REC_AUX, DATA, RTT_STATE = (
    "UNDELEGATED", "DELEGATED", "RD", "REC", "REC_AUX", "DATA", "RTT",
)
ENTRY_STATES = ("UNASSIGNED", "ASSIGNED", "TABLE")
RIPAS = ("EMPTY", "RAM", "DESTROYED")
EMPTY, RAM, DESTROYED = range(3)
EXIT_REASONS = ("SYNC", "IRQ", "FIQ", "PSCI", "RIPAS_CHANGE", "HOST_CALL", "SERROR")
SYNC, IRQ, _, PSCI, RIPAS_CHANGE, HOST_CALL, _ = range(7)
# Flags of RmiRecEnter.
EMUL_MMIO, INJECT_SEA, TRAP_WFI, TRAP_WFE, RIPAS_RESPONSE = 1, 2, 4, 8, 16

CPU_SUSPEND, CPU_OFF, CPU_ON, AFFINITY_INFO = 0xC4000001, 0x84000002, 0xC4000003, 0xC4000004
SYSTEM_OFF, SYSTEM_RESET = 0x84000008, 0x84000009
PSCI_SUCCESS, PSCI_INVALID_PARAMETERS, PSCI_DENIED, PSCI_ALREADY_ON, PSCI_INVALID_ADDRESS = (
    it % 2**64 for it in (0, -2, -3, -4, -9)
)

LEAST_S2SZ = 32
MPIDR_BITS = 0xFFFFFF0F
# Bits of gicv3_hcr that a host may set, the bit of an LR that it may not, and how many LRs RmiRecRun has.
HCR_BITS, LR_HW, LRS = 0x40FE, 1 << 61, 16


def word_of(status: int, index: int = 0) -> int:
    """The result word with a status and an index."""
    return status | index << 8


def size(level: int) -> int:
    """The bytes that an entry of a level covers."""
    return 1 << (12 + 9 * (3 - level))


def number_of_mpidr(mpidr: int) -> int:
    """The number of the REC that an MPIDR names."""
    return mpidr & 0xF | (mpidr >> 8 & 0xFF) << 4 | (mpidr >> 16 & 0xFF) << 12 | (mpidr >> 24 & 0xFF) << 20


def starting_tables(s2sz: int, level: int) -> int | None:
    """The number of starting tables of a realm; None if its addresses cannot begin at that level."""
    bits = s2sz - (12 + 9 * (3 - level))
    return max(1, 2 ** (bits - 9)) if 0 <= level <= 3 and 1 <= bits <= 13 else None


@dataclass(frozen=True)
class Settings:
    """The choices that the standard leaves to a platform, and those that are unsure."""

    aux: int = 2
    vmid_bits: int = 16
    s2sz: int = 48
    max_recs_order: int = 4
    layout: str = "rel0"
    init_destroyed: str = "change"
    measure_rec: str = "runnable"
    data_flags: str = "checked"
    live_top: str = "given"
    psci_args: str = "all"
    block_level: int = 2
    desc_sh: str = "zero"
    data_ripas: str = "any"
    bps: int = 0
    wps: int = 0
    lrs: int = 0
    params: str = "loose"
    gic: str = "none"
    # Granules that cannot be delegated: the first, and how many.
    secure: tuple[int, int] = (0, 0)

    def features(self) -> int:
        """Feature register 0."""
        places = (14, 20, 32, 33, 34, 38) if self.layout == "rel0" else (14, 18, 28, 29, 30, 34)
        values = (self.bps, self.wps, 1, 1, self.lrs, self.max_recs_order)
        return self.s2sz | sum(value << place for value, place in zip(values, places))


# The values that each setting of a `platform` line can have.
VALUES: dict[str, Container[int | str]] = {
    "aux": range(17), "vmid_bits": (8, 16), "s2sz": range(LEAST_S2SZ, 49), "max_recs_order": range(16),
    "layout": ("rel0", "eac5"), "init_destroyed": ("change", "stop"), "measure_rec": ("runnable", "all"),
    "data_flags": ("checked", "ignored"), "live_top": ("given", "aligned"), "psci_args": ("all", "target"),
    "block_level": (1, 2), "desc_sh": ("zero", "any"), "data_ripas": ("any", "ram"), "bps": range(16),
    "wps": range(16), "lrs": range(16), "params": ("loose", "strict"), "gic": ("none", "checked"),
}
