"""Answers of lines, printed: each in one way."""
from __future__ import annotations

from collections.abc import Mapping

from .command import Outcome
from .facts import (
    ENTRY_STATES, EXIT_REASONS, HOST_CALL, PSCI, PSCI_DENIED, PSCI_SUCCESS, RIPAS, RIPAS_CHANGE, RTT, RUNNING, STATUSES,
    SYNC,
)
from .machine import Exit, Realm, Rec

IN_DECIMAL = ("level", "count")
NAMES: Mapping[str, tuple[str, ...]] = {"state": ENTRY_STATES, "ripas": RIPAS, "exit": EXIT_REASONS}
PSCI_RESULTS = {PSCI_SUCCESS: "PSCI_SUCCESS", PSCI_DENIED: "PSCI_DENIED"}
# The fields of an exit that are printed, by its reason.
OF_EXIT = {
    SYNC: ("esr", "far", "hpfar", "gprs"), PSCI: ("gprs",), RIPAS_CHANGE: ("base", "top", "ripas"),
    HOST_CALL: ("imm", "gprs"),
}


def word_text(word: int) -> str:
    if word == RUNNING:
        return "RUNNING"
    status, index = word & 0xFF, word >> 8
    return STATUSES[status] + (f" {index}" if index or status == RTT else "")


def value_text(name: str, value: int) -> str:
    if name in NAMES:
        return NAMES[name][value]
    return str(value) if name in IN_DECIMAL else hex(value)


def gprs_text(gprs: tuple[int, ...]) -> str:
    """gprs without the zeros at the end, but one at least."""
    most = max((k for k, value in enumerate(gprs) if value), default=0)
    return " ".join(hex(it) for it in (gprs or (0,))[: most + 1])


def exit_fields(it: Exit) -> list[str]:
    text = lambda name: gprs_text(it.gprs) if name == "gprs" else value_text(name, getattr(it, name))
    return [f"exit {EXIT_REASONS[it.reason]}", *(f"{name} {text(name)}" for name in OF_EXIT.get(it.reason, ()))]


def outcome_text(outcome: Outcome, accepted: int = 0) -> str:
    """The answer to a call; to a repeat that ends early, with how many were accepted."""
    outputs = [f"{name} {value_text(name, value)}" for name, value in outcome.outputs.items()]
    fields = exit_fields(outcome.exit) if outcome.exit else []
    check = f" ({outcome.check})" if outcome.check else ""
    return ", ".join([word_text(outcome.word), *outputs, *fields]) + check + after_text(accepted)


def after_text(accepted: int) -> str:
    return f", after {accepted}" if accepted else ""


def result_text(result: tuple[str, int | None]) -> str:
    """A result of a guest's step."""
    name, value = result
    if value is None:
        return name
    return f"{name} {PSCI_RESULTS.get(value, hex(value)) if name == 'psci' else hex(value)}"


def realm_text(it: Realm) -> str:
    shape = f"s2sz {it.s2sz}, level {it.level}, tables {len(it.tables)}, base {it.tables.start:#x}"
    return f"{it.state}, {shape}, vmid {it.vmid}, next {it.next}, recs {it.recs}"


def rec_text(it: Rec) -> str:
    flags = ["runnable" if it.is_runnable else "off", *(["pending"] if it.pending else [])]
    state = "RUNNING" if it.is_running else "READY"
    named = [f"rd {it.realm.rd:#x}", f"mpidr {it.mpidr:#x}", *flags, f"pc {it.pc:#x}", f"gpr0 {it.gprs[0]:#x}"]
    return ", ".join([state, *named])
