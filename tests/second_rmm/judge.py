"""The comparison of the answers in a trace with those of the model: same, allowed, or wrong.

What is not written is not compared. `-` is an index or a register that is not compared, and `/MASK` after a value
compares the bits of the mask alone. A word that another check would answer, which was made and failed, is allowed.
"""
from __future__ import annotations

import re
from collections.abc import Iterable, Iterator
from typing import NamedTuple

from .bench import Bench
from .command import COMMANDS, Outcome, names_of_checks
from .facts import STATUSES, word_of
from .printing import NAMES
from .reading import parts_of

SAME, ALLOWED, WRONG = "same", "allowed", "wrong"
NO_COMMAND = "no command"
# Checks whose names are not the standard's, or are unsure: their names are not compared.
UNSURE_NAMES = {
    ("rmi_version", "version"), ("rmi_data_create", "flags_valid"), ("rmi_data_create", "rtte_ripas"),
    ("rmi_rec_create", "aux_bound"), ("rmi_rec_create", "params_valid"), ("rmi_rec_create", "num_recs"),
    ("rmi_rtt_map_unprotected", "desc_bound"), ("rmi_rtt_fold", "rtt_homo"), ("rmi_rtt_fold", "rtt_block"),
    ("rmi_rtt_init_ripas", "size"), ("rmi_rtt_init_ripas", "base_gran_align"), ("rmi_rtt_init_ripas", "base_bound"),
    ("rmi_rtt_init_ripas", "top_gran_align"), ("rmi_rtt_init_ripas", "no_progress"),
    ("rmi_rtt_set_ripas", "size"), ("rmi_rtt_set_ripas", "top_gran_align"), ("rmi_rtt_set_ripas", "base_align"),
    ("rmi_rtt_set_ripas", "rtte_state"), ("rmi_rtt_set_ripas", "no_progress"), ("rmi_psci_complete", "status"),
}
ANSWER = re.compile(r"(?P<values>.*?)(?: \((?P<check>\w+)\))?(?:, after (?P<after>\d+))?")
MASKED = re.compile(r"(\w+)/(0x[0-9a-f]+)")


class Answer(NamedTuple):
    """An answer in its parts."""

    word: list[str]
    outputs: dict[str, list[str]]
    check: str
    after: str


def answer_of(text: str) -> Answer:
    it = ANSWER.fullmatch(text)
    word, *outputs = it["values"].split(", ")
    named = {name: values for name, *values in (output.split(" ") for output in outputs)}
    return Answer(word.split(" "), named, it["check"] or "", it["after"] or "")


# ---- values


def number(text: str) -> int | None:
    return int(text, 0) if re.fullmatch(r"0x[0-9a-f]+|\d+", text) else None


def is_value(written: str, here: str, name: str = "") -> bool:
    """Whether a value is the same, with its mask if it has one."""
    if written in ("-", here):
        return True
    names = NAMES.get(name, ())
    read = lambda text: names.index(text) if text in names else number(text)
    masked = MASKED.fullmatch(written)
    wanted, mask = (read(masked[1]), int(masked[2], 0)) if masked else (read(written), 2**64 - 1)
    got = read(here)
    return wanted is not None and got is not None and wanted & mask == got & mask


def are_values(written: list[str], here: list[str], name: str = "") -> bool:
    """Whether values are the same. Those of gprs go on with zeros."""
    if name == "gprs":
        length = max(len(written), len(here))
        written, here = (it + ["0x0"] * (length - len(it)) for it in (written, here))
    return len(written) == len(here) and all(is_value(a, b, name) for a, b in zip(written, here))


# ---- answers


def full(word: list[str]) -> list[str]:
    """A word with its status and index. One of a status alone has index 0; a number is X0 as it was returned."""
    x0 = number(word[0]) if len(word) == 1 else None
    if x0 is not None and x0 & 0xFF < len(STATUSES):
        return [STATUSES[x0 & 0xFF], str(x0 >> 8)]
    return [*word, "0"] if len(word) == 1 and word[0] in STATUSES else word


def is_word(written: list[str], here: list[str]) -> bool:
    return are_values(full(written), full(here))


def is_name(written: str, here: str, command: str) -> bool:
    """Whether the name of a check is the same, or cannot be compared."""
    is_unsure = any((command, it) in UNSURE_NAMES for it in (written, here))
    is_known = any(written in names_of_checks(it) for it in COMMANDS)
    return not written or written == here or bool(here) and is_unsure and is_known


def is_register(written: str) -> bool:
    """Whether a text can be that of a register: a number, with or without a mask, or `-`."""
    masked = MASKED.fullmatch(written)
    return written == "-" or number(masked[1] if masked else written) is not None


def are_registers(written: list[str], here: list[str], outputs: tuple[str, ...], outcome: Outcome | None) -> bool:
    """Whether X0 is the same, and each register in which the call returns an output. The standard says nothing of others."""
    returned = [outcome is not None and name in outcome.outputs for name in outputs]
    is_compared = [True, *returned, *[False] * len(written)]
    ours = [*here, *["0x0"] * len(written)]
    return all(is_register(a) and (is_value(a, b) or not it) for a, b, it in zip(written, ours, is_compared))


def is_same(written: str, here: str, question: str, outcome: Outcome | None = None) -> bool:
    kind = question.split(" ")[0]
    if kind == "smc":
        fid = number(question.split(" ")[1])
        outputs = next((it.outputs for it in COMMANDS.values() if it.fid == fid), ())
        return are_registers(written.split(" "), here.split(" "), outputs, outcome)
    if kind not in (*COMMANDS, "repeat", "interrupt"):
        return are_values(written.split(" "), here.split(" "))
    theirs, ours = answer_of(written), answer_of(here)
    outputs = ours.outputs
    are_outputs = all(it in outputs and are_values(value, outputs[it], it) for it, value in theirs.outputs.items())
    command = question.split(" ")[2] if kind == "repeat" else kind
    is_after = theirs.after in ("", ours.after)
    return is_word(theirs.word, ours.word) and are_outputs and is_after and is_name(theirs.check, ours.check, command)


def is_allowed(written: str, bench: Bench, question: str) -> bool:
    """Whether the word is that of another check that was made and failed."""
    outcome = bench.outcome
    if outcome is None or not outcome.allowed:
        return False
    others = outcome.allowed - {outcome.word}
    if question.startswith("smc "):
        return number(written.split(" ")[0]) in others
    status, *index = answer_of(written).word
    if status not in STATUSES[1:]:
        return False
    if index == ["-"]:
        return any(it & 0xFF == STATUSES.index(status) for it in others)
    return word_of(STATUSES.index(status), number(index[0]) or 0 if index else 0) in others


def judged(bench: Bench, question: str, written: str | None) -> tuple[str, str]:
    """Performs a question. Returns how the answer that is written compares, and the model's."""
    here = bench.ask(question) or ""
    if here == NO_COMMAND or written == NO_COMMAND:
        return SAME if here == written else WRONG, here
    if written is None or is_same(written, here, question, bench.outcome):
        return SAME, here
    return ALLOWED if is_allowed(written, bench, question) else WRONG, here


class Judged(NamedTuple):
    """A line that was compared."""

    number: int
    line: str
    verdict: str
    here: str


def judge(lines: Iterable[str], bench: Bench | None = None) -> Iterator[Judged]:
    """Each line that has an answer or is no command, compared. The model goes on from its own state."""
    bench = bench or Bench()
    for place, line in enumerate(lines, 1):
        question, answer, _ = parts_of(line)
        if not question and answer is None:
            continue
        verdict, here = judged(bench, question, answer)
        if answer is not None or here == NO_COMMAND:
            yield Judged(place, line, verdict, here)


def report(
    lines: Iterable[str], is_stopped: bool = False, name: str = "trace", is_each: bool = False
) -> tuple[list[str], int]:
    """The report on a trace, and its status: 0 if something is the same, and nothing wrong."""
    counts, findings = {SAME: 0, ALLOWED: 0, WRONG: 0}, []
    for it in judge(lines):
        counts[it.verdict] += 1
        if it.verdict != SAME or is_each:
            findings.append(f"{name}:{it.number}: {it.verdict}")
        if it.verdict != SAME:
            findings += [it.line, f"here: {it.here or 'no answer'}"]
        if is_stopped and it.verdict == WRONG:
            break
    same, allowed, wrong = counts.values()
    return [*findings, f"{same} same, {allowed} allowed, {wrong} wrong"], int(same == 0 or wrong > 0)
