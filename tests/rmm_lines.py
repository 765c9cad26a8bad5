#!/usr/bin/env python3
"""Turns lines of traces into raw operations on a machine: registers, stores, loads, and steps of guests.

    tests/rmm_lines.py < TRACE      the raw operations of a trace
    tests/rmm_lines.py --run        performs raw operations by the second model; the status is 1 if one differs
    tests/rmm_lines.py --by PROGRAM [WORD ..]       in the repository: performs the operations of all traces by a program,
                                    as by `bench/out/cargo/release/plain_rmm lines`, once bench/rmm has built it

An operation is a line: what is done, and after ` = ` the result that it has to have. An operation without a result is
not compared. Words are separated by one space. Numbers are hexadecimal with small digits, without 0x. HEX is bytes, two
digits each. A line that begins with `#` is a comment: each line of the trace, before its operations.

    platform BASE GRANULES AUX VMID_BITS S2SZ MAX_RECS_ORDER FLAGS BPS WPS LRS SECURE COUNT
    smc X0 X1 X2 X3 X4 X5 X6 = X0 [X1 ..]            a register that is `-` is not compared; X5 and X6 have to stay
    fill ADDR BYTE = done                            a whole granule; or `fault`
    store ADDR HEX = done                            within a granule; or `fault`
    load ADDR COUNT = HEX                            COUNT bytes within a granule; or `fault`
    guest REC KIND [OPERAND ..] = queued             or `full`, `none`
    interrupt REC = WORD                             or `none`: it does not run
    state ADDR = STATE                               by its place in STATES; or `none`, as in all that follow
    sum ADDR = SUM
    realm RD = STATE S2SZ LEVEL TABLES BASE VMID NEXT RECS    STATE: 0 NEW, 1 ACTIVE, 2 SYSTEM_OFF
    rim RD = HEX                                     32 or 64 bytes
    rec REC = RUNNING RD MPIDR RUNNABLE PENDING PC GPR0       RUNNING, RUNNABLE and PENDING: 0 or 1
    saw REC = COUNT [RESULT VALUE ..]                results by their place in RESULTS; a value that is none is 0

A raw line of a trace has X0 and the outputs; its operation has X0 to X4, of which those that are no output are 0.

FLAGS has a bit for each setting of SETTINGS that is not its default. KIND is a step's place in KINDS. After an entry or
an interrupt that made an exit, `load` compares the fields of RmiRecExit that the trace names. SECURE and COUNT are 0
where no granules are secure.
"""
from __future__ import annotations

import subprocess
import sys
from collections.abc import Callable, Iterator

sys.dont_write_bytecode = True
from second_rmm.command import COMMANDS, smc
from second_rmm.facts import INPUT, PAGE, RUNNING, STATUSES, SUCCESS, Settings, word_of
from second_rmm.guest import MOST_STEPS, interrupt
from second_rmm.judge import MASKED, Answer, answer_of, full
from second_rmm.printing import NAMES
from second_rmm.reading import PAGES, PSCI_NAMES, machine_of, named, parts_of, step_of
from second_rmm.machine import Granule, Machine, Realm, Rec
from second_rmm.pages import REC_EXIT

STATES = ("UNDELEGATED", "DELEGATED", "RD", "REC", "REC_AUX", "DATA", "RTT")
REALM_STATES = ("NEW", "ACTIVE", "SYSTEM_OFF")
KINDS = (
    "write", "read", "host_call", "set_ripas", "cpu_on", "affinity_info", "cpu_off", "cpu_suspend", "system_off",
    "system_reset", "wfi", "wfe", "spin", "fetch", "sysreg",
)
RESULTS = ("done", "read", "sea", "accepted", "rejected", "returned", "psci", "rsi_error_input")
SETTINGS = (
    ("layout", "eac5"), ("init_destroyed", "stop"), ("measure_rec", "all"), ("data_flags", "ignored"),
    ("live_top", "aligned"), ("psci_args", "target"), ("block_level", 1), ("desc_sh", "any"), ("data_ripas", "ram"),
    ("params", "strict"), ("gic", "checked"),
)
NOT_COMPARED = "-"
RUN_OPERAND, ENTER = 2, "rmi_rec_enter"


def digits(number: int) -> str:
    return f"{number:x}"


def value(text: str, name: str = "") -> str:
    """A value of an answer as a raw number; one with a mask is not compared."""
    if text == NOT_COMPARED or MASKED.fullmatch(text):
        return NOT_COMPARED
    names = NAMES.get(name, ())
    return digits(names.index(text) if text in names else int(text, 0))


def word(answer: Answer) -> str:
    """The result word of an answer, as X0."""
    status, *index = full(answer.word)
    if status == "RUNNING":
        return digits(RUNNING)
    if index == [NOT_COMPARED]:
        return NOT_COMPARED
    return digits(word_of(STATUSES.index(status), int(index[0]) if index else 0))


def turned(answer: str | None, turn: Callable[[str], str]) -> str | None:
    """An answer in the words of the form. Some are the same there."""
    return answer if answer in (None, "none", "fault") else turn(answer)


def line(*words: str, answer: str | None = None) -> str:
    return " ".join(words) + ("" if answer is None else f" = {answer}")


def registers_after(asked: list[int], answered: list[str]) -> list[str]:
    """X0 to X4 after a call, where X0 and all outputs are known. A register that is no output is 0; a call that is none
    changes X0 alone."""
    it = next((it for it in COMMANDS.values() if it.fid == asked[0]), None)
    others = ["0"] * 5 if it else [*map(digits, asked)]
    return answered if it and len(answered) <= len(it.outputs) else [*answered, *others[len(answered) : 5]]


class NoLine(Exception):
    """A line that has no raw operations, since it is none of a trace."""


class Raw:
    """Makes operations of lines. It knows the run page of each REC that was entered."""

    def __init__(self) -> None:
        self.runs: dict[int, int] = {}

    def operations(self, text: str) -> Iterator[str]:
        """The operations of a line, after it as a comment."""
        question, answer, _ = parts_of(text)
        if not question or answer == "no command":
            return
        yield f"# {text}"
        kind, *words = question.split(" ")
        if kind in COMMANDS:
            values = [named(it, PSCI_NAMES) for it in words]
            yield from self.call(kind, values, None if answer is None else answer_of(answer))
        elif kind in PAGES:
            yield from self.page(kind, int(words[0], 0), words[1:], answer)
        else:
            yield from getattr(self, kind)(words, answer)

    # ---- calls

    def registers(self, name: str, values: list[int]) -> list[str]:
        padded = [COMMANDS[name].fid, *values, *[0] * (6 - len(values))]
        return ["smc", *map(digits, padded)]

    def call(self, name: str, values: list[int], answer: Answer | None) -> Iterator[str]:
        registers = self.registers(name, values)
        if answer is None:
            yield line(*registers)
            return
        written = answer.outputs
        outputs = [value(written[it][0], it) if it in written else NOT_COMPARED for it in COMMANDS[name].outputs]
        while outputs and outputs[-1] == NOT_COMPARED:
            outputs.pop()
        yield line(*registers, answer=" ".join([word(answer), *outputs]))
        if name == ENTER and not answer.word[0].startswith("RMI_ERROR"):
            self.runs[values[0]] = values[1]
            yield from self.exit_fields(values[1], answer)

    def exit_fields(self, run: int, answer: Answer) -> Iterator[str]:
        """Loads of the fields of RmiRecExit that an answer has."""
        for name, texts in answer.outputs.items():
            numbers, it = [value(text, name) for text in texts], REC_EXIT[name]
            if NOT_COMPARED in numbers:
                continue
            numbers += ["0"] * (it.most - len(numbers))
            content = b"".join(int(number, 16).to_bytes(it.size, "little") for number in numbers)
            yield line("load", digits(run + it.offset), digits(len(content)), answer=content.hex())

    def repeat(self, words: list[str], answer: str | None) -> Iterator[str]:
        """Each call of a repeat: those before the last are accepted."""
        count, name, *operands = words
        accepted = "done" if name == "fill" else "RMI_SUCCESS"
        last, written = int(count, 0), None if answer is None else answer_of(answer)
        if written is not None and written.word != [accepted]:
            last = int(written.after or 0) + 1
        for k in range(last):
            pairs = [[named(part, PSCI_NAMES) for part in it.split("+")] for it in operands]
            values = [(it[0] + k * sum(it[1:])) % 2**64 for it in pairs]
            came = written if k == last - 1 or written is None else answer_of(accepted)
            if name == "fill":
                yield line("fill", *map(digits, values), answer=came and came.word[0])
            else:
                yield from self.call(name, values, came)

    def smc(self, words: list[str], answer: str | None) -> Iterator[str]:
        registers = [int(it, 0) for it in words] + [0] * (7 - len(words))
        if registers[0] == COMMANDS[ENTER].fid and (answer or "0x0").split(" ")[0] in ("0x0", hex(RUNNING)):
            self.runs[registers[1]] = registers[RUN_OPERAND]
        came = None if answer is None else " ".join(registers_after(registers, [*map(value, answer.split(" "))]))
        yield line("smc", *map(digits, registers), answer=came)

    # ---- memory

    def page(self, kind: str, address: int, words: list[str], answer: str | None) -> Iterator[str]:
        """A page of parameters: zeros, and then its fields."""
        yield line("fill", digits(address), "0", answer=answer)
        if answer == "fault":
            return
        layout = PAGES[kind]
        while words:
            name, *words = words
            count = next((k for k, it in enumerate(words) if it in layout), len(words))
            numbers, it = [int(text, 0) for text in words[:count]], layout[name]
            if name == "aux":
                num_aux = digits(address + layout["num_aux"].offset)
                yield line("store", num_aux, count.to_bytes(8, "little").hex(), answer=answer)
            content = b"".join(number.to_bytes(it.size, "little") for number in numbers)
            yield line("store", digits(address + it.offset), content.hex(), answer=answer)
            words = words[count:]

    def fill(self, words: list[str], answer: str | None) -> Iterator[str]:
        yield line("fill", *(value(it) for it in words), answer=answer)

    def store(self, words: list[str], answer: str | None) -> Iterator[str]:
        yield line("store", value(words[0]), int(words[1], 0).to_bytes(8, "little").hex(), answer=answer)

    def load(self, words: list[str], answer: str | None) -> Iterator[str]:
        yield line("load", value(words[0]), "8", answer=turned(answer, lambda it: int(it, 0).to_bytes(8, "little").hex()))

    # ---- the guest

    def guest(self, words: list[str], answer: str | None) -> Iterator[str]:
        kind, operands = step_of(words[1:])
        came = "none" if answer == "no REC" else answer
        yield line("guest", value(words[0]), digits(KINDS.index(kind)), *map(digits, operands), answer=came)

    def interrupt(self, words: list[str], answer: str | None) -> Iterator[str]:
        if answer in (None, "not running"):
            yield line("interrupt", value(words[0]), answer=answer and "none")
            return
        came = answer_of(answer)
        yield line("interrupt", value(words[0]), answer=word(came))
        yield from self.exit_fields(self.runs[int(words[0], 0)], came)

    def saw(self, words: list[str], answer: str | None) -> Iterator[str]:
        def came(text: str) -> str:
            results = [(*it.split(" "), "0")[:2] for it in text.split(", ")] if text != "nothing" else []
            pairs = [f"{digits(RESULTS.index(it))} {digits(named(number, PSCI_NAMES))}" for it, number in results]
            return " ".join([digits(len(pairs)), *pairs])

        yield line("saw", value(words[0]), answer=turned(answer, came))

    # ---- readings and the platform

    def platform(self, words: list[str], _answer: str | None) -> Iterator[str]:
        here = machine_of(words)
        it = here.settings
        flags = sum(1 << k for k, (name, other) in enumerate(SETTINGS) if getattr(it, name) == other)
        numbers = (here.base, len(here.granules), it.aux, it.vmid_bits, it.s2sz, it.max_recs_order, flags)
        yield line("platform", *map(digits, (*numbers, it.bps, it.wps, it.lrs, *it.secure)))

    def state(self, words: list[str], answer: str | None) -> Iterator[str]:
        yield line("state", value(words[0]), answer=turned(answer, lambda it: digits(STATES.index(it))))

    def sum(self, words: list[str], answer: str | None) -> Iterator[str]:
        yield line("sum", value(words[0]), answer=turned(answer, value))

    def realm(self, words: list[str], answer: str | None) -> Iterator[str]:
        def came(text: str) -> str:
            state, *fields = text.split(", ")
            return " ".join([digits(REALM_STATES.index(state)), *(value(it.split(" ")[1]) for it in fields)])

        yield line("realm", value(words[0]), answer=turned(answer, came))

    def rim(self, words: list[str], answer: str | None) -> Iterator[str]:
        yield line("rim", value(words[0]), answer=answer)

    def rec(self, words: list[str], answer: str | None) -> Iterator[str]:
        def came(text: str) -> str:
            state, *fields = text.split(", ")
            numbers = dict(it.split(" ") for it in fields if " " in it)
            flags = [str(int(it)) for it in (state == "RUNNING", "runnable" in fields, "pending" in fields)]
            rd, mpidr, pc, gpr0 = (value(numbers[it]) for it in ("rd", "mpidr", "pc", "gpr0"))
            return " ".join([flags[0], rd, mpidr, *flags[1:], pc, gpr0])

        yield line("rec", value(words[0]), answer=turned(answer, came))


def raw(lines: list[str]) -> Iterator[str]:
    """The raw operations of a trace."""
    made = Raw()
    for number, text in enumerate(lines, 1):
        try:
            yield from made.operations(text)
        except (AttributeError, IndexError, TypeError, ValueError):
            raise NoLine(f"line {number}: no line of a trace by registers: {text}") from None


# ---- raw operations, performed


def differing(operations: list[str], results: list[str]) -> Iterator[str]:
    """The operations whose result is another one than what is written."""
    return (f"{it} came as {came}" for it, came in zip(operations, results, strict=True) if not is_met(it, came))


def differences_by(program: list[str]) -> Iterator[str]:
    """Of each trace that a program performs otherwise, the first difference."""
    from rmm_logs import paths

    for path in paths():
        operations = list(raw(path.read_text().splitlines()))
        text = "".join(f"{it}\n" for it in operations)
        results = subprocess.run(program, input=text, capture_output=True, text=True, check=True).stdout.splitlines()
        yield from (f"{path.stem}: {it}" for it in [*differing(operations, results)][:1])


def is_met(operation: str, came: str) -> bool:
    """Whether a result is the one that is written beside its operation, if one is."""
    asked, is_written, wanted = operation.partition(" = ")
    words, got = wanted.split(" "), came.split(" ")
    are_alike = all(NOT_COMPARED in (a, b) or a == b for a, b in zip(words, got))
    is_whole = len(words) == len(got) or asked.startswith("smc ") and len(words) < len(got)
    return operation.startswith("#") or not is_written or are_alike and is_whole


class RawBench:
    """A machine that performs raw operations. Each returns its result, in the words of the form."""

    here: Machine

    def perform(self, operation: str) -> str | None:
        """The difference of an operation, or none."""
        kind, *words = operation.partition(" = ")[0].split(" ")
        came = getattr(self, kind)(*words)
        return None if is_met(operation, came or "") else came

    def platform(self, *words: str) -> None:
        base, count, aux, vmid_bits, s2sz, order, flags, bps, wps, lrs, *secure = (int(it, 16) for it in words)
        others = {name: other for k, (name, other) in enumerate(SETTINGS) if flags >> k & 1}
        numbers = {"aux": aux, "vmid_bits": vmid_bits, "s2sz": s2sz, "max_recs_order": order}
        settings = Settings(**numbers, **others, bps=bps, wps=wps, lrs=lrs, secure=tuple(secure))
        self.here = Machine(base, count, settings)

    def smc(self, *words: str) -> str:
        asked = [int(it, 16) for it in words]
        registers, _ = smc(self.here, asked, frozenset())
        return " ".join(registers_after(asked, [*map(digits, registers)]))

    def put(self, address: str, content: bytes) -> str:
        if not self.here.is_host_s(int(address, 16)):
            return "fault"
        self.here.store(int(address, 16), content)
        return "done"

    def fill(self, address: str, byte: str) -> str:
        return self.put(address, bytes([int(byte, 16)]) * PAGE)

    def store(self, address: str, content: str) -> str:
        return self.put(address, bytes.fromhex(content))

    def load(self, address: str, count: str) -> str:
        if not self.here.is_host_s(int(address, 16)):
            return "fault"
        begin = int(address, 16) % PAGE
        return self.here.granule(int(address, 16)).page[begin : begin + int(count, 16)].hex()

    def granule(self, address: str) -> Granule | None:
        number = int(address, 16)
        return self.here.granule(number) if number % PAGE == 0 and self.here.has(number) else None

    def rec_at(self, address: str) -> Rec | None:
        it = self.granule(address)
        return it and it.rec

    def guest(self, address: str, kind: str, *operands: str) -> str:
        rec = self.rec_at(address)
        if rec is None or len(rec.steps) >= MOST_STEPS:
            return "none" if rec is None else "full"
        rec.steps.append((KINDS[int(kind, 16)], tuple(int(it, 16) for it in operands)))
        return "queued"

    def interrupt(self, address: str) -> str:
        rec = self.rec_at(address)
        if rec is None or not rec.is_running:
            return "none"
        return digits(SUCCESS if interrupt(self.here, rec) else INPUT)

    def state(self, address: str) -> str:
        it = self.granule(address)
        return digits(STATES.index(it.state)) if it else "none"

    def sum(self, address: str) -> str:
        it = self.granule(address)
        return digits(sum(it.page)) if it else "none"

    def realm_at(self, address: str) -> Realm | None:
        it = self.granule(address)
        return it and it.realm

    def realm(self, address: str) -> str:
        it = self.realm_at(address)
        if it is None:
            return "none"
        shape = (it.s2sz, it.level, len(it.tables), it.tables.start, it.vmid, it.next, it.recs)
        return " ".join(map(digits, (REALM_STATES.index(it.state), *shape)))

    def rim(self, address: str) -> str:
        it = self.realm_at(address)
        return it.rim[: (32, 64)[it.hash_algo]].hex() if it else "none"

    def rec(self, address: str) -> str:
        it = self.rec_at(address)
        if it is None:
            return "none"
        flags = it.is_running, it.is_runnable, it.pending is not None
        return " ".join(map(digits, (flags[0], it.realm.rd, it.mpidr, *flags[1:], it.pc, it.gprs[0])))

    def saw(self, address: str) -> str:
        it = self.rec_at(address)
        if it is None:
            return "none"
        pairs = [f"{digits(RESULTS.index(name))} {digits(number or 0)}" for name, number in it.results]
        return " ".join([digits(len(pairs)), *pairs])


def differences(operations: list[str]) -> Iterator[tuple[int, str, str]]:
    """The number of each operation that differs, the operation, and its result."""
    bench = RawBench()
    for number, operation in enumerate(operations, 1):
        came = None if operation.startswith("#") else bench.perform(operation)
        if came is not None:
            yield number, operation, came


def main(words: list[str]) -> int:
    lines = sys.stdin.read().splitlines() if words[:1] != ["--by"] else []
    if words[:1] == ["--by"]:
        told = list(differences_by(words[1:]))
    elif words == ["--run"]:
        told = [f"operation {number}: {operation}, and here {came}" for number, operation, came in differences(lines)]
    else:
        try:
            told = list(raw(lines))
        except NoLine as why:
            sys.stderr.write(f"rmm_lines: {why}\n")
            return 2
    sys.stdout.write("".join(f"{it}\n" for it in told))
    return int(words != [] and bool(told))


if __name__ == "__main__":
    sys.exit(main(sys.argv[1:]))
