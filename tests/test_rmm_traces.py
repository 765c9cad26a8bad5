"""The second model of the RMI, in tests/second_rmm, over the traces of traces/ and traces/rmm.

    traces    each answer is the model's, with the answers and without them; another answer is found
    refusals  a call that is refused leaves the machine as it was
    laws      after each trace the statements of tests/rmm_laws.py hold
    lines     what is no command, and what is read in several ways
    verdicts  what the judge says of a line: same, allowed or wrong
    rim       the chain of four measurements, from their definition and from the model
    raw       the raw operations that tests/rmm_lines.py makes of a trace have the trace's answers
"""
import copy
import hashlib
import re
from collections.abc import Iterator
from pathlib import Path

import pytest

from programs import TOP, named
from rmm_cases import AFTER_ENTRY, ALIKE, COMMENTS, ENTRY, NO_COMMANDS, NO_COMMANDS_EITHER, REALM, VERDICTS
from rmm_laws import of_entries, of_roles, of_teardown
from rmm_line_laws import Kept, kept
from rmm_lines import differences, raw
from rmm_logs import paths, without_answers
from second_rmm.bench import Bench
from second_rmm.command import COMMANDS
from second_rmm.facts import RUNNING, SUCCESS
from second_rmm.judge import WRONG, judge, report
from second_rmm.machine import Machine
from second_rmm.reading import parts_of

# The number of traces that are searched for refusals that change something, and of how many one is taken for these statements.
SEARCHED, EACH = 20, 3
# The fault that a case finds, or none.
Finding = str | None


def answered(text: str) -> str:
    bench = Bench()
    return "".join(f"{bench.line(line)}\n" for line in text.splitlines())


# ---- traces


def of_other_answers(path: Path) -> Iterator[Finding]:
    """Each answer is turned into another, and that line alone is wrong."""
    lines = path.read_text().splitlines()
    turned = [re.sub(r" = [^#]*", " = another ", line) if parts_of(line).answer else line for line in lines]
    verdicts = {it.number: it.verdict for it in judge(turned)}
    wanted = {k for k, line in enumerate(lines, 1) if parts_of(line).answer}
    is_well = verdicts == dict.fromkeys(wanted, WRONG)
    yield None if is_well else f"{path.name}: an answer that is another is not found"


def snapshot(machine: Machine) -> list[Kept]:
    return [kept(it) for it in machine.granules]


def of_refusals(path: Path) -> Iterator[Finding]:
    bench, calls = Bench(), 0
    for number, line in enumerate(path.read_text().splitlines(), 1):
        question = parts_of(line).question
        before = snapshot(bench.here) if question.split(" ")[0] in COMMANDS else []
        bench.line(line)
        calls += bool(before)
        if before and bench.outcome and bench.outcome.word not in (SUCCESS, RUNNING):
            is_kept = before == snapshot(bench.here)
            yield None if is_kept else f"{path.name}, line {number}: {question} is refused, and changes something"
    yield None if calls else f"{path.name}: no call is made"


def of_laws(path: Path) -> Iterator[Finding]:
    bench = Bench()
    for line in path.read_text().splitlines():
        bench.line(line)
    for it in of_roles(bench.machine), of_entries(bench.machine), of_teardown(bench):
        yield it and f"{path.name}: {it}"


# ---- lines


def of_lines() -> Iterator[Finding]:
    nowhere, bench = Bench(), Bench()
    yield None if nowhere.line("state 0x0") == "state 0x0 = no command" else "a reading before a platform is answered"
    for line in REALM:
        bench.line(line)
    before = copy.deepcopy(bench.here.granules)
    for line in (*NO_COMMANDS.strip().splitlines(), *NO_COMMANDS_EITHER):
        came = bench.line(line)
        is_well = came == f"{line} = no command" and bench.here.granules == before
        yield None if is_well else f"{line[:80]!r} is answered {came[-80:]!r}"
    for one, other in (it.split(" | ") for it in ALIKE.strip().splitlines()):
        here, there = copy.deepcopy(bench), copy.deepcopy(bench)
        is_well = here.ask(one) == there.ask(other) != "no command" and here.here.granules == there.here.granules
        yield None if is_well else f"{one!r} is not read as {other!r}"
    for line, wanted in COMMENTS.items():
        yield None if bench.line(line) == wanted else f"{line!r} is answered {bench.line(line)!r}"
    guests = [bench.ask("guest 0x80005000 wfi") for _ in range(17)]
    yield None if guests == ["queued"] * 16 + ["full"] else "a REC does not have 16 steps"
    yield None if bench.ask("guest 0x80006000 wfi") == "no REC" else "an auxiliary granule takes a step"
    bench.line("platform 0x80000000 16")
    yield None if bench.ask("state 0x80000000") == "UNDELEGATED" else "a platform is not fresh"


# ---- verdicts


def of_verdicts() -> Iterator[Finding]:
    for before, cases in (REALM, VERDICTS), ((*REALM, *ENTRY), AFTER_ENTRY):
        for question, answer, wanted in (it.split(" | ") for it in cases.strip().splitlines()):
            *_, it = judge([*before, f"{question} = {answer}"])
            yield None if it.verdict == wanted else f"{question} = {answer} is {it.verdict}: {it.here}"
    stopped = [*REALM, "state 0x80000000 = RTT", "state 0x80000000 = RD"]
    for is_stopped, last in (True, "0 same, 0 allowed, 1 wrong"), (False, "1 same, 0 allowed, 1 wrong"):
        said, status = report(stopped, is_stopped)
        yield None if (said[-1], status) == (last, 1) else f"the report ends with {said[-1]}, and {status}"
    yield None if report(REALM) == (["0 same, 0 allowed, 0 wrong"], 1) else "nothing is compared, and all is well"


# ---- the measurement

# REALM_CREATE, INIT_RIPAS, DATA_CREATE and REC_CREATE of a realm of 33 bits; no firmware was asked for them.
CHAIN = (
    "bf97de388b1abb45577017aa8a9a8d1f160889b11df8e5803e2bf9d8a33e788c",
    "7d707e49c096803507c18c891404086ee6a46f96a6c412941cffccdd96fba779",
    "eff6a44298a7c99f55eea105afab7b1cf83893187d3c0561765969c715d793ec",
    "3dfd809fc28200386ed791bc6d4dec892afae01d89a16dd888612e84f1673fa8",
)
CHAIN_LINES = (
    "platform 0x80000000 2048", "repeat 32 rmi_granule_delegate 0x80000000+0x1000", "fill 0x80400000 7",
    "realm_params 0x80020000 s2sz 33 vmid 1 rtt_base 0x80008000 rtt_level_start 2 rtt_num_start 8",
    "rmi_realm_create 0x80000000 0x80020000", "rim 0x80000000",
    "rmi_rtt_init_ripas 0x80000000 0x80000000 0x80200000", "rim 0x80000000",
    "rmi_rtt_create 0x80000000 0x80010000 0x80000000 3",
    "rmi_data_create 0x80000000 0x80014000 0x80000000 0x80400000 0x1", "rim 0x80000000",
    "rec_params 0x80021000 flags 0x1 pc 0x80000000 aux 0x80012000 0x80013000",
    "rmi_rec_create 0x80000000 0x80011000 0x80021000", "rim 0x80000000",
)


def chain(algorithm: str) -> Iterator[str]:
    """The four measurements, from their definition alone."""
    made = lambda content: hashlib.new(algorithm, content).digest().ljust(64, b"\0")
    at = lambda size, *fields: b"".join(dict(fields).get(k, b"\0") for k in range(size))[:size]
    number = lambda begin, value: [(begin + k, bytes([byte])) for k, byte in enumerate(value.to_bytes(8, "little"))]
    head = lambda kind: kind.to_bytes(8, "little") + (256).to_bytes(8, "little")
    extended = lambda kind, rim, content: made((head(kind) + rim + content).ljust(256, b"\0"))
    size = hashlib.new(algorithm).digest_size
    rim = made(at(4096, *number(0x008, 33), (0x030, bytes([algorithm == "sha512"]))))
    yield rim[:size].hex()
    rim = extended(2, rim, (0x80000000).to_bytes(8, "little") + (0x80200000).to_bytes(8, "little"))
    yield rim[:size].hex()
    content = made(b"\7" * 4096)
    rim = extended(0, rim, (0x80000000).to_bytes(8, "little") + (1).to_bytes(8, "little") + content)
    yield rim[:size].hex()
    rim = extended(1, rim, made(at(4096, *number(0, 1), *number(0x200, 0x80000000))))
    yield rim[:size].hex()


def of_rim() -> Iterator[Finding]:
    yield None if tuple(chain("sha256")) == CHAIN else "the chain of SHA-256 is another by its definition"
    for algorithm, field in ("sha256", "s2sz 33"), ("sha512", "s2sz 33 hash_algo 1"):
        bench = Bench()
        answers = [parts_of(bench.line(line.replace("s2sz 33", field))).answer for line in CHAIN_LINES]
        rims = [it for line, it in zip(CHAIN_LINES, answers) if line.startswith("rim")]
        yield None if rims == list(chain(algorithm)) else f"the chain of {algorithm} is another in the model"


# ---- raw operations


def of_raw(path: Path) -> Iterator[Finding]:
    operations = list(raw(path.read_text().splitlines()))
    for number, operation, came in differences(operations):
        yield f"{path.name}, operation {number}: {operation}, and by the model {came}"
    other = lambda it: f"{it.partition(' = ')[0]} = 1234567"
    turned = [it if it.startswith(("#", "platform")) else other(it) for it in operations]
    found, wanted = len(list(differences(turned))), sum(it.endswith(" = 1234567") for it in turned)
    yield None if found == wanted else f"{path.name}: {found} of {wanted} operations that differ are found"


# ---- tests

OF_A_SUBJECT = [it for it in paths() if it.parent.name != "random"]


def over(files: list[Path]) -> pytest.MarkDecorator:
    return pytest.mark.parametrize("path", files, ids=named)


@over(paths())
def test_trace(check, path):
    text = path.read_text()
    count = sum(parts_of(line).answer is not None for line in text.splitlines())
    check("more than 10 answers, in ASCII", text.isascii() and count > 10)
    check(f"tests/second_rmm answer < {path.relative_to(TOP)}", answered(without_answers(text)), text)
    if path.parent.name != "random":
        check("with its answers", answered(text), text)
        check("the report", report(text.splitlines()), ([f"{count} same, 0 allowed, 0 wrong"], 0))


@over(OF_A_SUBJECT)
def test_other_answers(check, path):
    check.findings(of_other_answers(path))


@over(paths()[:SEARCHED])
def test_refusals(check, path):
    check.findings(of_refusals(path))


@over(paths()[::EACH])
def test_laws(check, path):
    check.findings(of_laws(path))


@over(OF_A_SUBJECT)
def test_raw_operations(check, path):
    check.findings(of_raw(path))


@pytest.mark.parametrize("cases", [of_lines, of_verdicts, of_rim], ids=lambda it: it.__name__[3:])
def test_model(check, cases):
    check.findings(cases())
