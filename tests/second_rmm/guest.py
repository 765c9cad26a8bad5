"""The guest of a REC: its steps, and the exits that they make."""
from __future__ import annotations

from collections.abc import Callable

from .facts import (
    AFFINITY_INFO, CPU_OFF, CPU_ON, CPU_SUSPEND, DESTROYED, EMPTY, EMUL_MMIO, HOST_CALL, INJECT_SEA, IRQ, PAGE, PSCI,
    PSCI_ALREADY_ON, PSCI_INVALID_ADDRESS, PSCI_INVALID_PARAMETERS, PSCI_SUCCESS, RAM, RIPAS_CHANGE, RIPAS_RESPONSE,
    MPIDR_BITS, SYNC, SYSTEM_OFF, SYSTEM_RESET, TRAP_WFE, TRAP_WFI, number_of_mpidr, size,
)
from .machine import Asked, Entry, Exit, Machine, Rec, Request
from .pages import EXIT_BEGINS, REC_ENTER, REC_EXIT, all_of, one_of, page_of

# Parts of ESR_EL2: the class of an exception, and the bits of a data abort.
EC_WFX, EC_SYSREG, EC_FETCH, EC_DATA = 0x04000000, 0x60000000, 0x80000000, 0x90000000
ISV, WNR, SAS = 0x01000000, 0x40, 22
TRANSLATION, PERMISSION, GRANULE_PROTECTION = 0x04, 0x0C, 0x28
MAY_READ, MAY_WRITE, ADDRESS_BITS = 0x40, 0x80, 0xFFFF_FFFF_F000

Result = tuple[str, int | None]
# A step gives a result or an exit; None is a guest that spins.
Step = Callable[..., Result | Exit | None]
DONE, SEA, RSI_ERROR = ("done", None), ("sea", None), ("rsi_error_input", None)
STEPS: dict[str, Step] = {}
MOST_STEPS = 16


def step(it: Step) -> Step:
    STEPS[it.__name__] = it
    return it


# ---- entries and exits


def begin(rec: Rec, run: int, page: bytes) -> None:
    """An entry with a run page: the guest gets the answer to the last exit."""
    last, flags = rec.last, one_of(page, REC_ENTER["flags"])
    gprs = all_of(page, REC_ENTER["gprs"])
    rec.is_running, rec.run, rec.last, rec.results = True, run, None, []
    rec.gic = one_of(page, REC_ENTER["gicv3_hcr"]), all_of(page, REC_ENTER["gicv3_lrs"])
    if last is None:
        return
    if last.reason == RIPAS_CHANGE:
        asked, rec.asked = rec.asked, Asked()
        is_rejected = flags & RIPAS_RESPONSE and asked.ripas == RAM and asked.base != asked.top
        rec.results.append(("rejected" if is_rejected else "accepted", asked.base))
    elif last.reason == HOST_CALL:
        rec.gprs = gprs
        rec.results.append(("returned", gprs[0]))
    elif last.reason == PSCI and rec.psci is not None:
        rec.results.append(("psci", rec.psci))
        rec.psci = None
    elif last.is_done:
        rec.results.append(DONE)
    elif last.is_unprotected and flags & INJECT_SEA:
        rec.steps.pop(0)
        rec.results.append(SEA)
    elif last.is_emulatable and flags & EMUL_MMIO:
        kind, operands = rec.steps.pop(0)
        rec.results.append(DONE if kind == "write" else ("read", gprs[0] % 256 ** operands[1]))


def go_on(machine: Machine, rec: Rec, flags: int) -> Exit | None:
    """Performs steps until one makes an exit. None: the guest spins, and the REC stays RUNNING."""
    while rec.steps:
        kind, operands = rec.steps[0]
        came = STEPS[kind](machine, rec, flags, *operands)
        is_exit = isinstance(came, Exit)
        # A step that made a SYNC exit is tried again.
        if not is_exit or came.reason != SYNC or came.is_done:
            rec.steps.pop(0)
        if came is None:
            return None
        if is_exit:
            return leave(machine, rec, came)
        rec.results.append(came)
    return leave(machine, rec, Exit(IRQ))


def interrupt(machine: Machine, rec: Rec) -> Exit | None:
    """Ends the run of a REC that spins. None: its run page is not the host's any more."""
    if not machine.is_host_s(rec.run):
        rec.is_running = False
        return None
    return leave(machine, rec, Exit(IRQ))


def leave(machine: Machine, rec: Rec, it: Exit) -> Exit:
    """Writes an exit into the run page."""
    rec.is_running, rec.last = False, it
    fields = {name: getattr(it, name) for name in ("esr", "far", "hpfar", "gprs", "base", "top", "ripas", "imm")}
    if machine.settings.gic == "checked":
        fields["gicv3_hcr"], fields["gicv3_lrs"] = rec.gic
    page = page_of(REC_EXIT, {"exit": it.reason, **fields})
    machine.store(rec.run + EXIT_BEGINS, page[EXIT_BEGINS:])
    return it


# ---- accesses to memory


def at_protected(machine: Machine, rec: Rec, ipa: int) -> tuple[int, Entry]:
    """The level and the entry where a walk to a protected address ends."""
    walk = machine.walk(rec.realm, ipa, 3)
    return walk.level, walk.entry


def aborts(machine: Machine, rec: Rec, ipa: int, exception: int) -> Result | Exit | None:
    """The abort of an access to a protected address; None if there is none."""
    level, entry = at_protected(machine, rec, ipa)
    if entry.ripas == EMPTY:
        return SEA
    if entry.kind == "ASSIGNED" and entry.ripas == RAM:
        return None
    return Exit(SYNC, exception + TRANSLATION + level, hpfar=ipa >> 12 << 4)


def unprotected(machine: Machine, rec: Rec, ipa: int, access: int, esr: int, value: int) -> int | Exit:
    """The physical address of an unprotected one, or the exit of an access to it."""
    level, _, _, entry = machine.walk(rec.realm, ipa, 3)
    is_mapped = entry.kind == "ASSIGNED_NS"
    if not is_mapped or not entry.address & access:
        fault = PERMISSION if is_mapped else TRANSLATION
        at, gprs = {"far": ipa % PAGE, "hpfar": ipa >> 12 << 4}, (value,)
        return Exit(SYNC, EC_DATA + ISV + esr + fault + level, gprs=gprs, is_unprotected=True, is_emulatable=True, **at)
    address = (entry.address & ADDRESS_BITS) + ipa % size(level)
    if not machine.is_host_s(address):
        return Exit(SYNC, EC_DATA + GRANULE_PROTECTION, hpfar=ipa >> 12 << 4, is_unprotected=True)
    return address


def physical(machine: Machine, rec: Rec, ipa: int, access: int, esr: int, value: int) -> int | Result | Exit:
    """The physical address of an access, or its result or exit if there is none."""
    if not rec.realm.is_inside(ipa):
        return SEA
    if not rec.realm.is_protected(ipa):
        return unprotected(machine, rec, ipa, access, esr, value)
    aborted = aborts(machine, rec, ipa, EC_DATA)
    if aborted is not None:
        return aborted
    level, entry = at_protected(machine, rec, ipa)
    return entry.address + ipa % size(level)


@step
def write(machine: Machine, rec: Rec, _flags: int, ipa: int, value: int, width: int) -> Result | Exit:
    esr = WNR | width.bit_length() - 1 << SAS
    address = physical(machine, rec, ipa, MAY_WRITE, esr, value)
    if not isinstance(address, int):
        return address
    machine.store(address, value.to_bytes(width, "little"))
    return DONE


@step
def read(machine: Machine, rec: Rec, _flags: int, ipa: int, width: int) -> Result | Exit:
    address = physical(machine, rec, ipa, MAY_READ, width.bit_length() - 1 << SAS, 0)
    if not isinstance(address, int):
        return address
    return "read", int.from_bytes(machine.load(address, width), "little")


@step
def fetch(machine: Machine, rec: Rec, _flags: int, ipa: int) -> Result | Exit:
    if not rec.realm.is_protected(ipa):
        return SEA
    return aborts(machine, rec, ipa, EC_FETCH) or DONE


# ---- calls and waits


@step
def host_call(_machine: Machine, _rec: Rec, _flags: int, imm: int, *gprs: int) -> Exit:
    return Exit(HOST_CALL, imm=imm, gprs=gprs)


@step
def set_ripas(
    _machine: Machine, rec: Rec, _flags: int, base: int, top: int, ripas: int, destroyed: int
) -> Result | Exit:
    is_range = base % PAGE == 0 and top % PAGE == 0 and base < top and rec.realm.is_protected(top - 1)
    if not is_range or ripas == DESTROYED:
        return RSI_ERROR
    rec.asked = Asked(base, top, ripas, bool(destroyed))
    return Exit(RIPAS_CHANGE, base=base, top=top, ripas=ripas)


def was_given(rec: Rec, mpidr: int) -> bool:
    """Whether a REC of the realm was made with an MPIDR."""
    return mpidr & ~MPIDR_BITS == 0 and number_of_mpidr(mpidr) < rec.realm.next


def request(machine: Machine, rec: Rec, it: Request, gprs: tuple[int, ...]) -> Exit:
    """The exit of a PSCI request that the host has to complete."""
    rec.pending = it
    shown = gprs if machine.settings.psci_args == "all" else gprs[:1]
    return Exit(PSCI, gprs=(it.function, *shown))


@step
def cpu_on(machine: Machine, rec: Rec, _flags: int, mpidr: int, entry: int, context: int) -> Result | Exit:
    if not rec.realm.is_protected(entry):
        return "psci", PSCI_INVALID_ADDRESS
    if not was_given(rec, mpidr):
        return "psci", PSCI_INVALID_PARAMETERS
    if mpidr == rec.mpidr:
        return "psci", PSCI_ALREADY_ON
    return request(machine, rec, Request(CPU_ON, mpidr, entry, context), (mpidr, entry, context))


@step
def affinity_info(machine: Machine, rec: Rec, _flags: int, mpidr: int, level: int) -> Result | Exit:
    if level != 0 or not was_given(rec, mpidr):
        return "psci", PSCI_INVALID_PARAMETERS
    if mpidr == rec.mpidr:
        return "psci", PSCI_SUCCESS
    return request(machine, rec, Request(AFFINITY_INFO, mpidr), (mpidr, level))


@step
def cpu_off(_machine: Machine, rec: Rec, _flags: int) -> Exit:
    rec.is_runnable = False
    return Exit(PSCI, gprs=(CPU_OFF,))


@step
def cpu_suspend(_machine: Machine, rec: Rec, _flags: int) -> Exit:
    rec.psci = PSCI_SUCCESS
    return Exit(PSCI, gprs=(CPU_SUSPEND,))


@step
def system_off(_machine: Machine, rec: Rec, _flags: int) -> Exit:
    rec.realm.state = "SYSTEM_OFF"
    return Exit(PSCI, gprs=(SYSTEM_OFF,))


@step
def system_reset(_machine: Machine, rec: Rec, _flags: int) -> Exit:
    rec.realm.state = "SYSTEM_OFF"
    return Exit(PSCI, gprs=(SYSTEM_RESET,))


@step
def wfi(_machine: Machine, _rec: Rec, flags: int) -> Result | Exit:
    return Exit(SYNC, EC_WFX) if flags & TRAP_WFI else DONE


@step
def wfe(_machine: Machine, _rec: Rec, flags: int) -> Result | Exit:
    return Exit(SYNC, EC_WFX + 1) if flags & TRAP_WFE else DONE


@step
def sysreg(_machine: Machine, _rec: Rec, _flags: int, iss: int, value: int) -> Exit:
    return Exit(SYNC, EC_SYSREG + iss, gprs=(value,), is_done=True)


@step
def spin(_machine: Machine, _rec: Rec, _flags: int) -> None:
    return None
