"""Lines of traces, read: their parts, numbers, settings, parameter pages and steps."""
from __future__ import annotations

import re
from collections.abc import Iterator, Mapping
from typing import NamedTuple

from .facts import PAGE, PSCI_DENIED, PSCI_SUCCESS, RIPAS, VALUES, Settings
from .guest import STEPS
from .machine import Machine
from .pages import REALM_PARAMS, REC_ENTER, REC_PARAMS, Layout, page_of

MOST_GRANULES, ADDRESS_BITS, MOST_IMM, ISS_BITS = 65536, 48, 0xFFFF, 25
NUMBER = re.compile(r"0|[1-9][0-9]*|0x(?:0|[1-9a-f][0-9a-f]*)")
PSCI_NAMES = {"PSCI_SUCCESS": PSCI_SUCCESS, "PSCI_DENIED": PSCI_DENIED}
RIPAS_NAMES = {name: number for number, name in enumerate(RIPAS)}
PAGES: Mapping[str, Layout] = {"realm_params": REALM_PARAMS, "rec_params": REC_PARAMS, "rec_run": REC_ENTER}
# The number of operands of a step, if it has any.
OPERANDS = {
    "write": (2, 3), "read": (1, 2), "fetch": (1, 1), "host_call": (1, 32), "cpu_on": (3, 3), "affinity_info": (2, 2),
    "sysreg": (2, 2),
}


class NoCommand(Exception):
    """A line that is no command."""


class Line(NamedTuple):
    """A line of a trace: its question, its answer if it has one, and its comment with the spaces before it."""

    question: str
    answer: str | None
    comment: str


def parts_of(text: str) -> Line:
    bare = text.partition("#")[0].rstrip(" ")
    question, is_answered, answer = bare.partition(" = ")
    return Line(question, answer if is_answered else None, text[len(bare) :])


# ---- numbers


def number(text: str, most: int = 2**64 - 1) -> int:
    value = int(text, 0) if NUMBER.fullmatch(text) else most + 1
    if value > most:
        raise NoCommand(text)
    return value


def numbers(words: list[str], least: int, most: int) -> list[int]:
    if not least <= len(words) <= most:
        raise NoCommand("operands")
    return [number(it) for it in words]


def one_number(words: list[str]) -> int:
    return numbers(words, 1, 1)[0]


def named(text: str, names: Mapping[str, int]) -> int:
    """A number, or the name of one."""
    return names[text] if text in names else number(text)


def aligned(text: str, unit: int) -> int:
    """An address that is a multiple of a unit."""
    address = number(text)
    if address % unit:
        raise NoCommand(text)
    return address


# ---- platforms


def settings_of(words: list[str]) -> Iterator[tuple[str, int | str | tuple[int, int]]]:
    """The settings of a platform with their values, one after another."""
    while words:
        name, *words = words
        if name == "secure":
            first, count = numbers(words[:2], 2, 2)
            words = words[2:]
            yield name, (aligned(hex(first), PAGE), count)
            continue
        text, *words = words or [""]
        value: int | str = int(text, 0) if NUMBER.fullmatch(text) else text
        if name not in VALUES or value not in VALUES[name]:
            raise NoCommand(name)
        yield name, value


def machine_of(words: list[str]) -> Machine:
    """The fresh machine of a platform."""
    base, count = numbers(words[:2], 2, 2)
    pairs = list(settings_of(words[2:]))
    settings = Settings(**dict(pairs))
    first, secure = settings.secure
    end = base + PAGE * count
    is_memory = base % PAGE == 0 and 1 <= count <= MOST_GRANULES and end <= 2**ADDRESS_BITS
    is_secure = "secure" not in dict(pairs) or secure > 0 and base <= first and first + PAGE * secure <= end
    if len(dict(pairs)) < len(pairs) or not is_memory or not is_secure:
        raise NoCommand("platform")
    return Machine(base, count, settings)


# ---- parameter pages


def page_with(layout: Layout, words: list[str]) -> bytes:
    """The page with the fields of a line. They come in the sequence of the page, each once."""
    names, values = [it for it in layout if it != "num_aux"], {}
    while words:
        name, *words = words
        if name not in names:
            raise NoCommand(name)
        names, it = names[names.index(name) + 1 :], layout[name]
        count = next((k for k, word in enumerate(words) if not NUMBER.fullmatch(word)), len(words))
        if not 1 <= count <= it.most:
            raise NoCommand(name)
        values[name] = tuple(number(word, min(256**it.size, 2**64) - 1) for word in words[:count])
        words = words[count:]
    if "aux" in values:
        values["num_aux"] = (len(values["aux"]),)
    return page_of(layout, values)


# ---- steps


def ripas_step(words: list[str]) -> tuple[int, ...]:
    """BASE TOP RIPAS [destroyed]"""
    base, top = numbers(words[:2], 2, 2)
    is_destroyed = words[3:] == ["destroyed"]
    ripas = named(words[2], RIPAS_NAMES) if len(words) == 3 + is_destroyed else len(RIPAS)
    if ripas >= len(RIPAS):
        raise NoCommand("set_ripas")
    return base, top, ripas, int(is_destroyed)


def is_access(ipa: int, width: int, value: int) -> bool:
    """Whether a guest can access as many bytes there, and a value has as many."""
    return width in (1, 2, 4, 8) and ipa % width == 0 and value < 256**width


def step_of(words: list[str]) -> tuple[str, tuple[int, ...]]:
    """A step of a guest, and its operands with those that it can leave out."""
    kind, *rest = words
    if kind not in STEPS:
        raise NoCommand(kind)
    if kind == "set_ripas":
        return kind, ripas_step(rest)
    least, most = OPERANDS.get(kind, (0, 0))
    values = numbers(rest, least, most)
    is_right = True
    if kind in ("write", "read"):
        values += [1] * (most - len(values))
        is_right = is_access(values[0], values[-1], values[1] if kind == "write" else 0)
    elif kind == "host_call":
        is_right = values[0] <= MOST_IMM
    elif kind == "sysreg":
        is_right = values[0] < 1 << ISS_BITS
    if not is_right:
        raise NoCommand(kind)
    return kind, tuple(values)
