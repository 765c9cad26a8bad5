#!/usr/bin/env python3
"""A driver: it asks an RMM what traces ask, by registers and by pages, and compares the answers.

    drive.py [OPTION ..] TRACE ..     each line with another answer, and at the end the counts; `-` is standard input
      --log                           prints each line with the answer of the RMM, for `rmitrace check`
      --c                             prints a table of C, which examples/c/table.c runs without Python
      --base HEX                      moves the memory of the traces to this address
      --seconds N                     the longest that a call may take (5)

`Simulated` is in the place of your RMM: the proved one of python/rmm.py. Put a class of your own there, with the three
methods of `Firmware`. If its guests perform the steps of the traces, it has three more:

    guest(rec, step, *operands)     the guest of a REC gets a step: 'queued', 'full' or 'no REC'
    interrupt(rec)                  the host interrupts the REC, and so its RMI_REC_ENTER comes back
    results(rec)                    the results of its steps, each a name and a value; None if there is no REC

Before the next platform the driver takes down what the calls have made: RECs, pages and mappings by `top`, tables,
realms. Then it undelegates each granule, and clears the memory that the trace has named. Readings are left out. Without
a method for a guest's line, this line and all below it are left out, up to the next platform.

Verdicts: `same`, `refused` if both refuse and by another word, `wrong` else. By the standard another refusal can be
right: `rmitrace check` says so of a log. The names of checks are not compared. The status is 0 if an answer is the
same and none is wrong. A trace that ends early is wrong too, and the last one: a machine that cannot be taken down, an
entry that does not come back after an interrupt, a line that is none.
"""
import argparse
import os
import queue
import sys
import threading
import time
from pathlib import Path

sys.dont_write_bytecode = True
from rmi_lines import (
    ADDRESS_OF_DESC, COMMANDS, EXIT, EXIT_REASONS, FIELDS, NAME_OF, OF_EXIT, PAGE, PHYSICAL, PSCI_RESULTS, READINGS,
    SUCCESS, X0_RUNNING, Memory, NoLine, fields_of, line_of, number, operand, outputs_of, repeated, rtt_index,
    settings_of, size, step_of, value_text, verdict, word_text,
)


# ---- the RMM that is asked


class Firmware:
    """The methods that an RMM needs here. Addresses are those of the machine's memory."""

    def smc(self, registers):
        """X0 to X4 after a call with X0 to X6. RMI_REC_ENTER comes back at the exit."""
        raise NotImplementedError

    def store(self, address, content):
        """The host stores bytes within a granule. False if it gets a fault."""
        raise NotImplementedError

    def load(self, address, count):
        """The host loads bytes within a granule. None if it gets a fault."""
        raise NotImplementedError

    def fresh(self, base, granules, settings):
        """A new platform begins, and nothing of the last one is left. Returns whether the RMM has these settings."""
        return True


class Simulated(Firmware):
    """The RMM of python/rmm.py, as firmware: it is called by registers, and a guest that spins does not come back."""

    # Of a setting with names the first name, and the flag that another one sets.
    FLAGS = {
        "init_destroyed": ("change", "stops_at_destroyed"), "measure_rec": ("runnable", "measures_all_recs"),
        "data_flags": ("checked", "ignores_data_flags"), "live_top": ("given", "aligns_live_top"),
        "psci_args": ("all", "shows_target_alone"), "desc_sh": ("zero", "takes_shareability"),
        "data_ripas": ("any", "data_needs_ram"), "params": ("loose", "checks_params"), "gic": ("none", "checks_gic"),
    }

    def __init__(self):
        sys.path[:0] = [str(Path(__file__).resolve().parent.parent / "python")]
        import rmm

        self.module, self.rmm, self.platform, self.spinning = rmm, None, None, {}

    def fresh(self, base, granules, settings):
        """A machine that was taken down is one of the same settings again, so it is kept."""
        if (base, granules, settings) != self.platform:
            self.platform = base, granules, settings
            numbers = {it: value for it, value in settings.items() if it not in self.FLAGS and it != "secure"}
            flags = {flag: settings[it] != first for it, (first, flag) in self.FLAGS.items() if it in settings}
            secure = dict(zip(("secure_base", "secure_count"), settings.get("secure", ())))
            if self.rmm:
                self.rmm.close()
            self.rmm = self.module.Rmm(base=base, granules=granules, **numbers, **flags, **secure)
        return True

    def smc(self, registers):
        after = self.rmm.smc(*registers)
        if after[0] == X0_RUNNING:
            came = self.spinning[registers[1]] = queue.Queue()
            after[0] = came.get()
        return after

    def interrupt(self, rec):
        self.spinning.pop(rec).put(self.rmm.interrupt(rec).word)

    def store(self, address, content):
        return self.rmm.store(address, content)

    def load(self, address, count):
        return self.rmm.load(address, count)

    def guest(self, rec, step, *operands):
        return self.rmm.guest(rec, step, *operands)

    def results(self, rec):
        return None if self.rmm.read_rec(rec) is None else self.rmm.results(rec)


class Late(Exception):
    """An entry that does not come back after an interrupt."""


class Entry(threading.Thread):
    """An entry of a REC. It has a thread of its own, since it comes back when the guest makes an exit."""

    def __init__(self, call, registers):
        super().__init__(daemon=True)
        self.call, self.registers, self.came = call, registers, queue.SimpleQueue()
        self.start()

    def run(self):
        try:
            self.came.put((self.call(self.registers), None))
        except Exception as error:
            self.came.put((None, error))

    def after(self, seconds):
        """X0 to X4, or None if the guest runs on. An error of the call is raised."""
        try:
            after, error = self.came.get(timeout=seconds)
        except queue.Empty:
            return None
        if error:
            raise error
        return after


class Watch(threading.Thread):
    """Ends the program if a call does not come back in time: nothing more can be asked of the RMM."""

    def __init__(self, seconds):
        super().__init__(daemon=True)
        self.seconds, self.call = seconds, None
        self.start()

    def run(self):
        seen, since = None, 0.0
        while True:
            time.sleep(min(self.seconds, 0.1))
            call = self.call
            seen, since = (seen, since + min(self.seconds, 0.1)) if call and call is seen else (call, 0.0)
            if since >= self.seconds:
                print(f"smc {' '.join(map(hex, call))} has not come back in {self.seconds:g} seconds", flush=True)
                os._exit(1)


# ---- the ledger: what has to be taken down


class Ledger:
    """The ledger of a machine: the results of its accepted calls."""

    def __init__(self):
        self.delegated, self.recs, self.realms, self.named = set(), {}, {}, set()

    def accepted(self, name, values, after, params):
        """Keeps what an accepted call has made. `params` has the s2sz and the starting level of a realm to be."""
        if name == "rmi_granule_delegate":
            self.delegated.add(values[0])
        elif name == "rmi_granule_undelegate":
            self.delegated.discard(values[0])
        elif name == "rmi_realm_create":
            self.realms[values[0]] = params
        elif name == "rmi_realm_destroy":
            del self.realms[values[0]]
        elif name == "rmi_rec_create":
            self.recs[values[1]] = values[0]
        elif name == "rmi_rec_destroy":
            del self.recs[values[0]]
        elif name == "rmi_rtt_map_unprotected":
            desc, most = values[3] & ADDRESS_OF_DESC, size(max(values[2], 2))
            self.named.update(range(desc, desc + most, PAGE))


class NotUndone(Exception):
    """A part that the teardown of a machine could not take down."""


class Machine:
    """A machine of a trace on the RMM: it makes calls, and takes down what they have made."""

    def __init__(self, rmm, base, granules, watch):
        self.rmm, self.memory, self.watch = rmm, range(base, base + PAGE * granules, PAGE), watch
        self.seconds, self.ledger, self.running = watch.seconds, Ledger(), {}

    def registers_after(self, registers):
        """X0 to X4 after a call that comes back at once."""
        self.watch.call = [*registers, *[0] * (7 - len(registers))]
        after = self.rmm.smc(self.watch.call)
        self.watch.call = None
        return after

    def entered(self, registers, seconds):
        """X0 to X4 after an entry, or None if the guest runs on."""
        entry = Entry(self.rmm.smc, [*registers, *[0] * (7 - len(registers))])
        after = entry.after(seconds)
        if after is None:
            self.running[registers[1]] = entry
        return after

    def call(self, name, values, seconds=None):
        """X0 to X4 after a command, which is kept in the ledger if it is accepted."""
        fid, taken, _ = COMMANDS[name]
        params = self.params(values[1]) if name == "rmi_realm_create" else None
        self.ledger.named.update(it - it % PAGE for role, it in zip(taken, values) if role in PHYSICAL)
        registers, is_entry = [fid, *values], name == "rmi_rec_enter"
        after = self.entered(registers, seconds or self.seconds) if is_entry else self.registers_after(registers)
        if after is not None and after[0] == SUCCESS:
            self.ledger.accepted(name, values, after, params)
        return after

    def params(self, address):
        page = self.rmm.load(address, PAGE) if address in self.memory else None
        return (page[0x008], page[0x810]) if page else None

    def ended(self, rec):
        """Interrupts a REC that runs on. X0 of its entry, and its run page."""
        entry = self.running.pop(rec)
        if not hasattr(self.rmm, "interrupt"):
            raise Late(f"the entry of {rec:#x} runs on, and the RMM has no method `interrupt`")
        self.rmm.interrupt(rec)
        after = entry.after(self.seconds)
        if after is None:
            raise Late(f"the entry of {rec:#x} has not come back after an interrupt")
        return after[0], entry.registers[2]

    # ---- teardown

    def done(self, name, *values):
        after = self.call(name, values)
        if after is None or after[0] != SUCCESS:
            raise NotUndone(f"{name} {' '.join(map(hex, values))}: {word_text(after[0]) if after else 'RUNNING'}")

    def take_down(self):
        """Leaves the memory as it was before the trace: the host's, and zeros."""
        for rec in [*self.running]:
            self.ended(rec)
        for rec in [*self.ledger.recs]:
            self.done("rmi_rec_destroy", rec)
        for rd, (s2sz, start) in [*self.ledger.realms.items()]:
            self.unmap(rd, "rmi_data_destroy", 0, 1 << s2sz - 1)
            self.unmap(rd, "rmi_rtt_unmap_unprotected", 1 << s2sz - 1, 1 << s2sz, 3)
            for level in range(3, start, -1):
                self.unmap(rd, "rmi_rtt_destroy", 0, 1 << s2sz, level)
            self.done("rmi_realm_destroy", rd)
        for granule in [*self.ledger.delegated]:
            self.done("rmi_granule_undelegate", granule)
        for page in self.ledger.named & set(self.memory):
            self.rmm.store(page, bytes(PAGE))
        self.ledger = Ledger()

    def unmap(self, rd, name, ipa, end, *level):
        """Takes down all entries from an IPA on, each at the address that the output `top` before it has."""
        while ipa < end:
            word, *outputs = self.call(name, [rd, ipa, *level])
            top, index = dict(zip(COMMANDS[name][2], outputs))["top"], rtt_index(word)
            if word != SUCCESS and index is None:
                raise NotUndone(f"{name} of {ipa:#x}: {word_text(word)}")
            if word != SUCCESS and top <= ipa:
                top = self.unmap_block(rd, name, ipa, index)
            ipa = top

    def unmap_block(self, rd, name, ipa, level):
        """A block above level 3. One that is protected is unfolded first, which takes a spare granule. Returns the
        address to go on with."""
        if name == "rmi_rtt_destroy" or level == 3:
            raise NotUndone(f"{name} of {ipa:#x}: the entry is live")
        if name == "rmi_rtt_unmap_unprotected":
            self.done(name, rd, ipa, level)
            return ipa + size(level)
        self.done("rmi_rtt_create", rd, self.spare(), ipa, level + 1)
        return ipa

    def spare(self):
        free = (it for it in reversed(self.memory) if it not in self.ledger.delegated)
        found = next((it for it in free if self.call("rmi_granule_delegate", [it])[0] == SUCCESS), None)
        if found is None:
            raise NotUndone("there is no granule to unfold a block with")
        return found


# ---- the driver


class LeftOut(Exception):
    """The reason for which a line is not asked."""


# The results of a guest's steps that have a value.
WITH_VALUE = ("read", "accepted", "rejected", "returned", "psci")


class Driver:
    """Performs lines on an RMM. `base` is where the memory of the traces is moved to, if it is moved."""

    # An entry that is expected to run on is given this time, and else the longest that a call may take.
    SPIN_SECONDS = 0.2
    LINES = ("repeat", "smc", "fill", "store", "load", "guest", "interrupt", "saw")

    def __init__(self, rmm, seconds=5.0, base=None):
        self.rmm, self.watch, self.base = rmm, Watch(seconds), base
        self.machine, self.memory, self.why = None, Memory(), "there is no platform yet"

    def answer(self, line):
        """The answer of the RMM to a line, or none to a platform."""
        kind, *words = line.question.split(" ")
        if kind == "platform":
            return self.fresh(words)
        if kind in READINGS or line.answer == "no command":
            raise LeftOut("it is no call")
        if self.machine is None:
            raise LeftOut(self.why)
        if kind in COMMANDS:
            return self.call(kind, [operand(it) for it in words], line.answer)
        if kind in FIELDS:
            return self.stored(number(words[0]), self.memory.page(kind, fields_of(kind, words[1:])))
        if kind not in self.LINES:
            raise NoLine(line.question)
        return getattr(self, kind)(words, line.answer)

    def fresh(self, words):
        self.end()
        base, granules = number(words[0]), number(words[1])
        self.memory = Memory(0 if self.base is None else self.base - base)
        settings, at = self.memory.settings(settings_of(words[2:])), self.memory.moved(base)
        if not self.rmm.fresh(at, granules, settings):
            self.why = "the RMM has other settings"
            raise LeftOut(self.why)
        self.machine = Machine(self.rmm, at, granules, self.watch)

    def end(self):
        """Takes down the machine, if there is one."""
        machine, self.machine = self.machine, None
        if machine:
            machine.take_down()

    # ---- calls

    def called(self, name, values, written):
        """X0 to X4 after a command, as the trace has them, or None if the guest runs on."""
        if len(values) != len(COMMANDS[name][1]):
            raise NoLine(name)
        is_spin = name == "rmi_rec_enter" and (written or "RUNNING").startswith(("RUNNING", hex(X0_RUNNING)))
        after = self.machine.call(name, self.memory.operands(name, values), self.SPIN_SECONDS if is_spin else None)
        return after and [after[0], *self.memory.outputs(name, after)]

    def call(self, name, values, written):
        after = self.called(name, values, written)
        if after is None:
            return "RUNNING"
        outputs = [f"{role} {value_text(role, it)}" for role, it in outputs_of(name, after).items()]
        is_exit = name == "rmi_rec_enter" and after[0] == SUCCESS
        return ", ".join([word_text(after[0]), *(self.exit(self.memory.moved(values[1])) if is_exit else outputs)])

    def exit(self, run):
        """The fields that an exit has written to a run page, as far as a line has them."""
        page = self.rmm.load(run, PAGE)
        read = lambda at, width: int.from_bytes(page[at : at + width], "little")
        values = {name: [read(at + k * width, width) for k in range(most)] for name, (at, width, most) in EXIT.items()}
        (reason,) = values["exit"]
        last = max((k for k, it in enumerate(values["gprs"]) if it), default=0)
        values["gprs"] = values["gprs"][: last + 1]
        names = OF_EXIT.get(EXIT_REASONS[reason], ()) if reason < len(EXIT_REASONS) else ()
        return [" ".join([name, *(value_text(name, it) for it in values[name])]) for name in ("exit", *names)]

    def repeat(self, words, written):
        accepted = "done" if words[1] == "fill" else "RMI_SUCCESS"
        for k, (name, values) in enumerate(repeated(words)):
            came = self.filled(*values) if name == "fill" else self.call(name, values, written)
            if not came.startswith(accepted):
                return came + f", after {k}" * (k > 0)
        return came

    def smc(self, words, written):
        fid, *given = map(number, words)
        name = NAME_OF.get(fid)
        if name is None:
            return hex(self.machine.registers_after([fid, *given])[0])
        count = len(COMMANDS[name][1])
        after = self.called(name, (given + [0] * count)[:count], written)
        return " ".join(map(hex, after or [X0_RUNNING]))

    # ---- the host's memory

    def stored(self, address, content):
        at = self.memory.moved(address)
        self.machine.ledger.named.add(at - at % PAGE)
        return "done" if self.rmm.store(at, content) else "fault"

    def filled(self, address, byte):
        return self.stored(address, bytes([byte]) * PAGE)

    def fill(self, words, _written):
        return self.filled(*map(number, words))

    def store(self, words, _written):
        return self.stored(number(words[0]), number(words[1]).to_bytes(8, "little"))

    def load(self, words, _written):
        content = self.rmm.load(self.memory.moved(number(words[0])), 8)
        return "fault" if content is None else hex(int.from_bytes(content, "little"))

    # ---- the guest

    def method(self, name):
        """A method of an RMM with such guests. Without it the answers from here on are those of another guest."""
        if not hasattr(self.rmm, name):
            self.end()
            self.why = f"the RMM has no method `{name}`"
            raise LeftOut(self.why)
        return getattr(self.rmm, name)

    def guest(self, words, _written):
        kind, operands = step_of(words[1:])
        return self.method("guest")(self.memory.moved(number(words[0])), kind, *operands)

    def interrupt(self, words, _written):
        self.method("interrupt")
        rec = self.memory.moved(number(words[0]))
        if rec not in self.machine.running:
            return "not running"
        word, run = self.machine.ended(rec)
        return ", ".join([word_text(word), *(self.exit(run) if word == SUCCESS else ())])

    def saw(self, words, _written):
        found = self.method("results")(self.memory.moved(number(words[0])))
        if found is None:
            return "none"
        names = {number: name for name, number in PSCI_RESULTS.items()}
        shown = lambda name, it: names.get(it, hex(it)) if name == "psci" else hex(it)
        texts = [f"{name} {shown(name, it)}" if name in WITH_VALUE else name for name, it in found]
        return ", ".join(texts) or "nothing"


class Report:
    """Drives traces, and prints what differs, or each line with the answer of the RMM."""

    def __init__(self, driver, is_log=False):
        self.driver, self.is_log = driver, is_log
        self.counts = {"same": 0, "refused": 0, "wrong": 0, "left out": 0}

    def trace(self, name, lines):
        """Drives a trace. False if it has ended early: what is left in the RMM is not known, so no other can follow."""
        try:
            self.ask(name, lines)
        except (Late, NoLine, NotUndone) as why:
            self.driver.machine = None
            self.counts["wrong"] += 1
            print(f"{name}: {why}", file=sys.stderr if self.is_log else sys.stdout)
            return False
        return True

    def ask(self, name, lines):
        for place, text in enumerate(lines, 1):
            line = line_of(text.rstrip("\r\n"))
            try:
                here = self.driver.answer(line) if line.question else None
            except LeftOut:
                self.counts["left out"] += 1
                here = None
            if self.is_log:
                # (a line that is no command stays one)
                told = here or (line.answer if line.answer == "no command" else None)
                print(line.question + (f" = {told}" if told else "") + line.comment)
            if here and line.answer:
                self.compared(f"{name}, line {place}", text.rstrip("\r\n"), line, here)
        self.driver.end()

    def compared(self, place, text, line, here):
        found = verdict(line.question, line.answer, here)
        self.counts[found] += 1
        if found != "same" and not self.is_log:
            print(f"{place}: {found}\n{text}\nthis RMM: {here}")

    def total(self):
        return ", ".join(f"{count} {name}" for name, count in self.counts.items())


# ---- the program


def lines_in(path):
    if path == "-":
        return sys.stdin.read().splitlines()
    return Path(path).read_text(errors="surrogateescape").splitlines()


def main(words):
    parser = argparse.ArgumentParser(description="asks an RMM what traces ask, and compares the answers")
    parser.add_argument("--log", action="store_true", help="print each line with the answer of the RMM")
    parser.add_argument("--c", action="store_true", help="print a table for examples/c/table.c")
    parser.add_argument("--base", type=lambda it: int(it, 16), help="the address of the memory, a multiple of 2 MiB")
    parser.add_argument("--seconds", type=float, default=5.0, help="the longest that a call may take (5)")
    parser.add_argument("traces", nargs="*", default=["-"], metavar="TRACE")
    given = parser.parse_args(words)
    if (given.base or 0) % size(2):
        parser.error("--base is a multiple of 2 MiB")
    if given.c:
        from c_table import Table

        for path in given.traces:
            Table(given.base).trace(Path(path).name, lines_in(path))
        return 0
    report = Report(Driver(Simulated(), given.seconds, given.base), given.log)
    for path in given.traces:
        if not report.trace(path, lines_in(path)):
            break
    print(report.total(), file=sys.stderr if given.log else sys.stdout)
    return 0 if report.counts["same"] and not report.counts["wrong"] else 1


if __name__ == "__main__":
    sys.exit(main(sys.argv[1:]))
