"""The program rmitrace over the traces of traces/, and over lines that are no commands.

    files      `check` finds each answer the same, and another one wrong; `answer` repeats the file, with its answers and without
    model      `check` prints of wrong answers what the judge in Python prints of them; so it does of each case of rmm_cases.py
    block      512 pages become a block, which a host unfolds again; each entry is read
    lines      what is no command, lines that are read alike, comments, long lines, carriage returns
    names      raw lines as named ones: the log of a trace by registers becomes its log by names
    reasons    `why` has below each refused call the checks that the model in Python makes, in its sequence
    words      each check of each command has the words of rmm_requirements.py, in all traces
    choices    --each, --stop, --only and --skip
    around     files, pipes, devices that fail, too little memory, and answers that come at once
    changed    traces with random changes: each answer is that of the second model
"""
import os
import re
import resource
import subprocess
import sys
import tempfile
from collections.abc import Iterator
from pathlib import Path

import pytest
from hypothesis import given

from changed_traces import changed_traces, findings
from differences import differing, shown
from programs import TOP, TRACER, Ran, named as name_of, needs, run
from random_plans import examples
from rmm_cases import AFTER_ENTRY, ALIKE, COMMENTS, ENTRY, NO_COMMANDS, NO_COMMANDS_EITHER, REALM, VERDICTS
from rmm_logs import FIDS, log_of, paths, raw_calls, without_answers
from rmm_requirements import REQUIREMENTS
from second_rmm.bench import Bench
from second_rmm.command import COMMANDS, names_of_checks
from second_rmm.facts import STATUSES
from second_rmm.judge import answer_of, report
from second_rmm.printing import word_text
from second_rmm.reading import PSCI_NAMES, named, parts_of

pytestmark = needs(TRACER)
MOST_LINE = 65536
# The fault that a case finds, or none.
Finding = str | None


def ran(words: str, given: bytes | None = b"", **how: object) -> Ran:
    return run(TRACER, words.split(), given, **how)


def differs(name: str, came: Ran, status: int, out: bytes = b"", err: bytes = b"") -> Finding:
    """The difference of an outcome, or none."""
    return differing(name, came, status, out, err)


def differs_in(name: str, came: object, wanted: object) -> Finding:
    return None if came == wanted else f"{name}: {came!r}, wanted: {wanted!r}"


def counted(same: int, allowed: int = 0, wrong: int = 0) -> bytes:
    return b"%d same, %d allowed, %d wrong\n" % (same, allowed, wrong)


def bytes_of(lines: object) -> bytes:
    return "".join(f"{it}\n" for it in lines).encode(errors="surrogateescape")


# ---- files


def of_file(path: Path) -> Iterator[Finding]:
    name, text = str(path.relative_to(TOP)), path.read_bytes()
    lines = text.decode().splitlines()
    answers = [k for k, line in enumerate(lines) if parts_of(line).answer is not None]
    bare = without_answers(text.decode()).encode()
    yield differs(f"check {name}", ran(f"check {path}"), 0, counted(len(answers)))
    yield differs(f"answer {name} without its answers", ran("answer", bare), 0, text)
    if path.parent.name == "random":
        return
    yield differs(f"answer {name}", ran(f"answer {path}"), 0, text)
    for k in sorted({answers[0], answers[len(answers) // 2], answers[-1]}):
        question, answer, comment = parts_of(lines[k])
        turned = f"{question} = another{comment}"
        said = f"trace:{k + 1}: wrong\n{turned}\nhere: {answer}\n".encode() + counted(len(answers) - 1, 0, 1)
        yield differs(f"{name}, another answer in line {k + 1}", ran("check", bytes_of([*lines[:k], turned, *lines[k + 1 :]])), 1, said)


def of_model() -> Iterator[Finding]:
    """The program and the judge in Python print the same of answers that differ."""
    for path in (it for it in paths() if it.parent.name == "rmm"):
        lines = path.read_text().splitlines()
        turned = [re.sub(r"RMI_ERROR_INPUT( \(\w+\))?", "RMI_ERROR_REALM", it).replace("queued", "full") for it in lines]
        said, status = report(turned)
        yield differs(f"{path.name} with other words", ran("check", bytes_of(turned)), status, bytes_of(said))
    for before, cases in (REALM, VERDICTS), ((*REALM, *ENTRY), AFTER_ENTRY):
        for question, answer, wanted in (it.split(" | ") for it in cases.strip().splitlines()):
            given = [*before, f"{question} = {answer}"]
            said, status = report(given)
            is_wanted = said[-1] == f"{int(wanted == 'same')} same, {int(wanted == 'allowed')} allowed, {int(wanted == 'wrong')} wrong"
            yield None if is_wanted else f"{question} = {answer} is not {wanted} in Python"
            yield differs(f"{question} = {answer}", ran("check", bytes_of(given)), status, bytes_of(said))


# ---- a block


def answers_to(*calls: tuple[str, str]) -> Iterator[str]:
    """Raw lines with their answers, each of a call by name."""
    for question, answer in calls:
        name, *operands = question.split(" ")
        yield " ".join(["smc", hex(COMMANDS[f"rmi_{name}"].fid), *operands]) + f" = {answer}"


def of_block() -> Iterator[Finding]:
    """512 adjacent pages become a block; a host that takes the realm down unfolds it with a spare granule."""
    rd, pages = "0x80000000", [(hex(0x80200000 + k * 4096), hex(0x200000 + k * 4096)) for k in range(512)]
    lines = [
        "platform 0x80000000 1024", *answers_to(*((f"granule_delegate {hex(0x80000000 + k * 4096)}", "0x0") for k in range(5))),
        "realm_params 0x80020000 s2sz 48 vmid 1 rtt_base 0x80001000 rtt_num_start 1 = done",
        *answers_to(
            (f"realm_create {rd} 0x80020000", "0x0"), (f"rtt_create {rd} 0x80002000 0x0 0x1", "0x0"),
            (f"rtt_create {rd} 0x80003000 0x0 0x2", "0x0"), (f"data_create_unknown {rd} 0x80200000 0x200000", "0x1"),
            ("granule_delegate 0x80200000", "0x0"), (f"data_create_unknown {rd} 0x80200000 0x200000", "0x204"),
            ("granule_undelegate 0x80200000", "0x0"), (f"rtt_create {rd} 0x80004000 0x200000 0x3", "0x0"),
        ),
    ]
    for page, ipa in pages:
        lines += answers_to(
            (f"granule_delegate {page}", "0x0"), (f"data_create_unknown {rd} {page} {ipa}", "0x0"),
            (f"data_create_unknown {rd} {rd} {ipa}", "0x1"), (f"rtt_read_entry {rd} {ipa} 0x3", f"0x0 0x3 0x1 {page} 0x0"),
        )
    lines += answers_to(
        (f"rtt_destroy {rd} 0x200000 0x3", "0x304 0x0 0x200000"), (f"rtt_fold {rd} 0x200000 0x3", "0x0 0x80004000"),
        (f"rtt_read_entry {rd} 0x200000 0x3", "0x0 0x2 0x1 0x80200000 0x0"), (f"rtt_fold {rd} 0x0 0x2", "0x204 0x0"),
        (f"data_destroy {rd} 0x200000", "0x204 0x0 0x200000"), (f"rtt_create {rd} 0x80004000 0x200000 0x3", "0x0"),
        (f"rtt_read_entry {rd} 0x205000 0x3", "0x0 0x3 0x1 0x80205000 0x0"),
    )
    for page, ipa in pages:
        freed = f"0x0 {page} {hex(int(ipa, 0) + 4096)}"
        lines += answers_to((f"data_destroy {rd} {ipa}", freed), (f"granule_undelegate {page}", "0x0"))
    lines += answers_to(
        (f"data_destroy {rd} 0x200000", "0x304 0x0 0x400000"), (f"rtt_destroy {rd} 0x200000 0x3", "0x0 0x80004000 0x40000000"),
        (f"rtt_read_entry {rd} 0x200000 0x3", "0x0 0x2 0x0 0x0 0x2"), (f"rtt_destroy {rd} 0x0 0x2", "0x0 0x80003000 0x8000000000"),
        (f"rtt_destroy {rd} 0x0 0x1", "0x0 0x80002000 0x1000000000000"), (f"realm_destroy {rd}", "0x0"),
    )
    yield differs("check", ran("check", bytes_of(lines)), 0, counted(len(lines) - 1))
    yield None if report(lines) == ([f"{len(lines) - 1} same, 0 allowed, 0 wrong"], 0) else "the judge in Python says otherwise"


# ---- lines

HINTS = {
    "Rmi_granule_delegate 0": "rmi_granule_delegate", "rmi_granule_delegat 0": "rmi_granule_delegate",
    "rmi_rec_entre 1 2": "rmi_rec_enter", "platfrom 0x80000000 16": "platform", "stat 1": "state",
}
PLATFORM = "platform 0x80000000 16"


def answer_after(lines: tuple[str, ...], question: str) -> str | None:
    """The model's answer to a question after some lines."""
    bench = Bench()
    for it in lines:
        bench.ask(it)
    return bench.ask(question)


def of_lines() -> Iterator[Finding]:
    no_commands = [*NO_COMMANDS.strip().splitlines(), *NO_COMMANDS_EITHER[:-1]]
    answered = [f"{it} = no command" for it in no_commands]
    bench = Bench()
    realm = [bench.line(it) for it in REALM]
    yield differs("no commands", ran("answer", bytes_of([*REALM, *no_commands])), 0, bytes_of([*realm, *answered]))
    yield differs("no commands that say so", ran("check", bytes_of([*REALM, *answered])), 0, counted(len(answered)))
    for line in no_commands:
        said, status = report([*REALM, line])
        came = ran("check", bytes_of([*REALM, line]))
        without_hint = came[0], re.sub(rb"help: did you mean \S+\n", b"", came[1]), came[2]
        yield differs(f"{line!r} without an answer", without_hint, status, bytes_of(said))
    for one, other in (it.split(" | ") for it in ALIKE.strip().splitlines()):
        answers = [answer_after(REALM, question) for question in (one, other)]
        for question, answer in zip((one, other), answers):
            line = f"{question} = {answer}"
            yield differs(line, ran("check", bytes_of([*REALM, line])), 0, counted(1))
        yield None if answers[0] == answers[1] else f"{one!r} and {other!r} have two answers"
    for line, wanted in COMMENTS.items():
        yield differs(f"{line!r}", ran("answer", bytes_of([*REALM, line])), 0, bytes_of([*realm, wanted]))
    for line, meant in HINTS.items():
        said = bytes_of(["trace:2: wrong", line, "here: no command", f"help: did you mean {meant}?"]) + counted(0, 0, 1)
        yield differs(f"{line!r}", ran("check", bytes_of([PLATFORM, line])), 1, said)


def of_whole_texts() -> Iterator[Finding]:
    some, longest = f"{PLATFORM}\n".encode(), b"#" * MOST_LINE
    state = b"state 0x80000000 = UNDELEGATED"
    for name, text, out in (
        ("nothing", b"", b""), ("an empty line", b"\n", b"\n"), ("a comment", b"# a = b\n", b"# a = b\n"),
        ("a comment of other letters", b"#\xc3\xa9\n", b"#\xc3\xa9\n"),
        ("a carriage return", some + b"state 0x80000000\r\n", some + state + b"\r\n"),
        ("no line feed at the end", some + b"state 0x80000000", some + state + b"\n"),
        ("before a platform", b"state 0x0\n", b"state 0x0 = no command\n"),
        ("two platforms", some + b"rmi_granule_delegate 0x80000000\n" + some + b"state 0x80000000\n",
         some + b"rmi_granule_delegate 0x80000000 = RMI_SUCCESS\n" + some + state + b"\n"),
        ("no platform leaves the last", some + b"rmi_granule_delegate 0x80000000\nplatform 0x1 1\nstate 0x80000000\n",
         some + b"rmi_granule_delegate 0x80000000 = RMI_SUCCESS\nplatform 0x1 1 = no command\nstate 0x80000000 = DELEGATED\n"),
        ("a line of the greatest length", longest + b"\n", longest + b"\n"),
        ("a longer line", b"0" * 65538 + b"\n", b"0" * 65537 + b" = no command\n"),
        ("a longer comment", b"#" * 65538 + b"\n", b"#" * 65537 + b"\n"),
    ):
        yield differs(f"answer: {name}", ran("answer", text), 0, out)
    for name, text, same, wrong in (
        ("nothing", b"", 0, 0), ("a comment", b"# a = b\n", 0, 0), ("a platform", some, 0, 0), ("a call", some + b"rmi_version 0x10000\n", 0, 0),
        ("no line feed at the end", some + state, 1, 0), ("a carriage return", some + state + b"\r\n", 1, 0),
        ("a longer line that says so", b"0" * 65538 + b" = no command\n", 0, 1),
        ("a line that is not UTF-8, and says so", b"\xff = no command\n", 1, 0),
    ):
        came = ran("check", text)
        is_well = came[0] == int(same == 0 or wrong > 0) and came[1].endswith(counted(same, 0, wrong)) and came[2] == b""
        yield None if is_well else f"check: {name}: {shown(came)}"


# ---- names, reasons, choices


def of_names(path: Path) -> Iterator[Finding]:
    lines = path.read_text().splitlines()
    raw, by_name = list(log_of(lines, Bench(), is_raw=True)), list(raw_calls(lines, Bench()))
    yield differs("names", ran("names", bytes_of(raw)), 0, bytes_of(by_name))
    yield differs("by names", ran("check", bytes_of(by_name)), 0, counted(sum(parts_of(it).answer is not None for it in by_name)))


def of_named_lines() -> Iterator[Finding]:
    for line, wanted in {
        "smc 0xc4000151 0x80000000 = 0x0": "rmi_granule_delegate 0x80000000 = RMI_SUCCESS",
        "smc 0xc4000151 0x80000000 = 0x1 # twice": "rmi_granule_delegate 0x80000000 = RMI_ERROR_INPUT # twice",
        "smc 0xc4000155 0x80000000 0x1000 = 0x204 0x0 0x200000": "rmi_data_destroy 0x80000000 0x1000 = RMI_ERROR_RTT 2, top 0x200000",
        "smc 0xc4000200 0x1 = 0xffffffffffffffff": "smc 0xc4000200 0x1 = 0xffffffffffffffff",
        "# smc 0xc4000151 0x80000000 = 0x0": "# smc 0xc4000151 0x80000000 = 0x0", "state 0x80000000 = RD": "state 0x80000000 = RD",
    }.items():
        yield differs(f"names of {line!r}", ran("names", bytes_of([line])), 0, bytes_of([wanted]))


def last_call(question: str, answer: str) -> tuple[str, list[int]]:
    """The command and the operands of the last call that a question made."""
    kind, *words = question.split(" ")
    if kind == "smc":
        return FIDS[int(words[0], 0)], [int(it, 0) for it in (*words[1:], *"000000")]
    place = int(answer_of(answer).after or 0)
    name, operands = (words[1], words[2:]) if kind == "repeat" else (kind, words)
    pairs = [[named(part, PSCI_NAMES) for part in it.split("+")] for it in operands]
    return name, [it[0] + place * sum(it[1:]) for it in pairs]


def made(bench: Bench, name: str, values: list[int]) -> list[tuple[str, str, str]]:
    """The checks of a refused call that are made: the one that decides, those that fail too, and those that pass."""
    command = COMMANDS[name](bench.machine, *values[: len(COMMANDS[name].operands)])
    words = dict(command.failed(frozenset()))
    rows, held = [], set()
    for check in command.checks():
        if held.issuperset(check.after):
            kind = "ok" if check.name not in words else "error" if check.name == next(iter(words)) else "also"
            rows.append((kind, check.name, word_text(words[check.name]) if kind != "ok" else ""))
            held |= {check.name} - set(words)
    return sorted(rows, key=lambda it: ("error", "also", "ok").index(it[0]))


REASON = re.compile(r"    (error|also|ok): (\w+): (.+?)(?: \((RMI_ERROR_\w+(?: \d)?)\))?")


def of_reasons(path: Path) -> Iterator[Finding]:
    lines, bench, wanted = path.read_text().splitlines(), Bench(), []
    for line in lines:
        wanted.append(bench.line(line))
        # A call that is refused changes nothing: its checks are those of the machine before it.
        is_call = bench.outcome is not None and not line.startswith(("#", "interrupt"))
        if line and is_call and bench.outcome.word & 0xFF in range(1, len(STATUSES)):
            wanted += made(bench, *last_call(parts_of(line).question, parts_of(wanted[-1]).answer or ""))
    status, out, err = ran(f"why {path}")
    lines = [it for it in out.decode().splitlines() if not it.startswith("    help: ")]
    said = [REASON.fullmatch(it) if it.startswith("    ") else it for it in lines]
    came = [it if isinstance(it, str) else it and (it[1], it[2], it[4] or "") for it in said]
    yield differing("why", Ran(status, came, err), 0, wanted, b"")


def said_of(path: Path) -> Iterator[tuple[str, str, str]]:
    """Each check that `why` prints for a trace: its command, its name, and its words."""
    asked = "", ""
    for line in ran(f"why {path}").out.decode().splitlines():
        it = REASON.fullmatch(line)
        if it:
            yield last_call(*asked)[0], it[2], it[3]
        else:
            asked = parts_of(line).question, parts_of(line).answer or ""


def of_words() -> Iterator[Finding]:
    for command in COMMANDS:
        yield differs_in(f"the checks of {command}", {*REQUIREMENTS[command]}, {*names_of_checks(command)})
    left = {(command, name): words for command, of in REQUIREMENTS.items() for name, words in of.items()}
    for command, name, words in {it for path in paths() for it in said_of(path)}:
        yield differs_in(f"{name} of {command}", words, left.pop((command, name), None))
    yield f"`why` prints no words of {sorted(left)}" if left else None


def of_no_reason() -> Iterator[Finding]:
    wrong = f"{PLATFORM}\nrmi_rec_entre 1\n".encode()
    yield differs("why of no command", ran("why", wrong), 0, wrong[:-1] + b" = no command\n    help: did you mean rmi_rec_enter?\n")


CHOSEN = [PLATFORM, "rmi_granule_delegate 0x80000800 = RMI_SUCCESS", "rmi_version 0x10000 = RMI_SUCCESS", "smc 0xc4000150 0x10000 = 0x1",
          "state 0x80000000 = RD", "rmi_granule_delegate 0x90000000 = RMI_ERROR_INPUT (gran_bound)"]


def of_choices() -> Iterator[Finding]:
    for words, same, wrong in (
        ("", 2, 3), ("--stop", 0, 1), ("--only rmi_version", 1, 1), ("--skip rmi_granule_delegate", 1, 2), ("--skip gran_align", 2, 2),
        ("--only gran_bound", 1, 0), ("--only smc", 0, 1), ("--only state --only gran_align", 0, 2), ("--skip state --skip smc", 2, 1),
        ("--only rmi_granule_delegate --skip gran_align", 1, 0), ("--only rmi_rec_enter", 0, 0),
    ):
        status, out, err = ran(f"check {words}", bytes_of(CHOSEN))
        is_well = status == int(same == 0 or wrong > 0) and out.endswith(counted(same, 0, wrong)) and err == b""
        yield None if is_well else f"check {words}: {status}, {shown(out)}, {shown(err)}"
    for words in "--each", "--stop --each", "--each --skip rmi_version", "--each --only smc":
        said, status = report(CHOSEN, "--stop" in words, is_each=True)
        left_out = {"rmi_version": (3, 4), "smc": (2, 3, 5, 6)}.get(words.split(" ")[-1], ())
        kept = "".join(f"{it}\n" for it in said[:-1])
        for number in left_out:
            kept = re.sub(rf"trace:{number}: .*\n(?:(?!trace:).*\n)*", "", kept)
        out = ran(f"check {words}", bytes_of(CHOSEN)).out
        yield differs_in(f"check {words}", out.decode().splitlines()[:-1], kept.splitlines())
    status, out, err = ran("check --only rmi_rec_entre")
    yield None if status == 2 and b"rmi_rec_enter" in err and out == b"" else f"--only of no name: {status}, {shown(err)}"


# ---- what is around


def of_a_file() -> Iterator[Finding]:
    path = TOP / "traces/granules.trace"
    text = path.read_bytes()
    answers = counted(sum(parts_of(it).answer is not None for it in text.decode().splitlines()))
    yield differs("check -", ran("check -", text), 0, answers)
    yield differs("answer -", ran("answer -", text), 0, text)
    wrong = text.replace(b"RMI_SUCCESS", b"RMI_ERROR_REC", 1)
    said, status = report(wrong.decode().splitlines())
    yield differs("a difference of standard input", ran("check", wrong), status, bytes_of(said))
    with tempfile.NamedTemporaryFile(suffix=".trace") as file:
        file.write(wrong)
        file.flush()
        said, status = report(wrong.decode().splitlines(), name=file.name)
        yield differs("a difference of a FILE", ran(f"check {file.name}"), status, bytes_of(said))
    for word in ("answer", "check", "names", "why"):
        yield differs(f"{word} of no file", ran(f"{word} no.trace"), 5, err=b"rmitrace: no.trace: No such file or directory\n")
        yield differs(f"{word} of a folder", ran(f"{word} {TOP}"), 5, err=b"rmitrace: %s: Is a directory\n" % os.fsencode(TOP))
        status, out, err = ran(f"{word} one two")
        yield None if (status, out) == (2, b"") and b"'two'" in err else f"{word} of two files: {status}, {shown(err)}"


def of_surroundings() -> Iterator[Finding]:
    some = f"{PLATFORM}\nstate 0x80000000 = RD\n".encode()
    for word in ("answer", "check", "names", "why"):
        yield differs(f"{word}: a folder as standard input", ran(word, None, stdin=os.open(TOP, os.O_RDONLY)), 5, err=b"device\n")
        yield differs(f"{word}: a full standard output", ran(word, some, stdout=open("/dev/full", "wb")), 5, err=b"device\n")
        yield differs(f"{word}: a closed standard output", ran(word, some, preexec_fn=lambda: os.close(1)), 5, err=b"device\n")
        yield differs(f"{word}: a closed standard input", ran(word, None, preexec_fn=lambda: os.close(0)), 5, err=b"device\n")
    for word in ("answer", "check", "why"):
        # The pages alone take all of these 16 MiB.
        little = lambda: resource.setrlimit(resource.RLIMIT_AS, (1 << 24, 1 << 24))
        yield differs(f"{word}: too little memory", ran(word, b"platform 0x80000000 4096\n", preexec_fn=little), 3, err=b"memory\n")
    status, out, _ = ran("--version")
    yield None if (status, out[:9]) == (0, b"rmitrace ") else f"--version: {status}, {out!r}"
    for word in ("", "replay"):
        status, out, err = ran(word)
        yield None if (status, out) == (2, b"") and err.startswith(b"error: ") else f"the subcommand {word!r}: {status}, {shown(err)}"


def of_a_pipe() -> Iterator[Finding]:
    """Each answer comes before the next line is written, from the program and from the second model."""
    how = {"stdin": subprocess.PIPE, "stdout": subprocess.PIPE, "bufsize": 0}
    wanted = [f"{PLATFORM}\n".encode(), b"fill 0x80002000 7 = done\n", b"load 0x80002008 = 0x707070707070707\n"]
    for words in ([TRACER], [sys.executable, TOP / "tests/second_rmm"]):
        with subprocess.Popen([*words, "answer"], **how) as bench:
            told = []
            for line in (PLATFORM, "fill 0x80002000 7", "load 0x80002008"):
                bench.stdin.write(line.encode() + b"\n")
                told.append(bench.stdout.readline())
            bench.stdin.close()
            rest = bench.stdout.read()
        is_well = told == wanted and not rest and bench.returncode == 0
        yield None if is_well else f"{words[-1]} on a pipe: {told!r}, then {rest!r}, status {bench.returncode}"


def of_a_stop() -> Iterator[Finding]:
    """With --stop a check ends at its wrong line, although its input may go on."""
    with subprocess.Popen([TRACER, "check", "--stop"], stdin=subprocess.PIPE, stdout=subprocess.PIPE, bufsize=0) as bench:
        bench.stdin.write(bytes_of(CHOSEN))
        try:
            status = bench.wait(10)
        except subprocess.TimeoutExpired:
            status = None
        yield differs_in("the status of check --stop on a pipe", status, 1)


# ---- tests

OF_A_SUBJECT = [it for it in paths() if it.parent.name != "random"]
ALONE = (of_model, of_block, of_lines, of_whole_texts, of_named_lines, of_words, of_no_reason, of_choices, of_a_file, of_surroundings,
         of_a_pipe, of_a_stop)


@pytest.mark.parametrize("path", paths(), ids=name_of)
def test_file(check, path):
    check.findings(of_file(path))


@pytest.mark.parametrize("path", paths()[:60], ids=name_of)
def test_names(check, path):
    check.findings(of_names(path))


@pytest.mark.parametrize("path", OF_A_SUBJECT, ids=name_of)
def test_reasons(check, path):
    check.findings(of_reasons(path))


@pytest.mark.parametrize("cases", ALONE, ids=lambda it: it.__name__[3:])
def test_program(check, cases):
    check.findings(cases())


@examples(40)
@given(changed_traces())
def test_changed_traces(lines):
    ask = lambda words, text: run(TRACER, words, text, preexec_fn=lambda: resource.setrlimit(resource.RLIMIT_CPU, (1, 1)))
    assert list(findings(ask, lines)) == []
