"""The table of C that `drive.py --c` prints: rows for examples/c/table.c, which says what each kind of row is.

What faults on hardware is no row, and neither is a reading. Of a line the values that it does not have, `-` and a value
with `/MASK` are not compared.
"""
from rmi_lines import (
    COMMANDS, EXIT, FIELDS, NAME_OF, NAMES, PAGE, STATUSES, STEPS, SUCCESS, X0_RUNNING, Memory, NoLine, fields_of,
    line_of, number, operand, repeated, settings_of, step_of, values_of,
)

NOT_COMPARED, NOT_RUNNING = "-", 2**64 - 1
# The settings of a platform, in the sequence of table.h: each with its default, or with the names of its values.
SETTINGS = {
    "aux": 2, "vmid_bits": 16, "s2sz": 48, "max_recs_order": 4, "block_level": 2, "bps": 0, "wps": 0, "lrs": 0,
    "secure_base": 0, "secure_count": 0, "layout": ("rel0", "eac5"), "init_destroyed": ("change", "stop"),
    "measure_rec": ("runnable", "all"), "data_flags": ("checked", "ignored"), "live_top": ("given", "aligned"),
    "psci_args": ("all", "target"), "desc_sh": ("zero", "any"), "data_ripas": ("any", "ram"),
    "params": ("loose", "strict"), "gic": ("none", "checked"),
}
OF_GUESTS = ("queued", "full", "no REC")


def value_of(role, text):
    """An output as a number."""
    if text == NOT_COMPARED or "/" in text:
        return NOT_COMPARED
    return NAMES[role].index(text) if text in NAMES.get(role, ()) else number(text)


def x0_of(word):
    """The result word of an answer."""
    status, *index = word
    if status == "RUNNING":
        return X0_RUNNING
    return NOT_COMPARED if NOT_COMPARED in index else STATUSES.index(status) | number((*index, "0")[0]) << 8


def structure_of(settings):
    """All settings of a platform as a structure of table.h. `settings` has those that are not left out."""
    given = dict(settings)
    given.update(zip(("secure_base", "secure_count"), given.pop("secure", ())))
    for name, values in SETTINGS.items():
        is_named = isinstance(values, tuple)
        value = given.pop(name, values[0] if is_named else values)
        yield f".{name} = {values.index(value) if is_named else value:#x}"
    if given:
        raise NoLine(f"platform .. {min(given)}")


class Table:
    """The rows of a trace. `base` is where its memory is moved to, if it is moved."""

    def __init__(self, base=None):
        self.base, self.memory = base, Memory()
        # The run page of each REC that runs on.
        self.runs = {}

    def trace(self, name, lines):
        print(f"/* {name} */")
        for place, text in enumerate(lines, 1):
            line = line_of(text.rstrip("\r\n"))
            kind, *words = line.question.split(" ")
            group = "call" if kind in COMMANDS else "page" if kind in FIELDS else kind
            if line.answer not in ("fault", "no command") and hasattr(self, f"of_{group}"):
                print(f"/* line {place} */")
                getattr(self, f"of_{group}")(kind, words, line.answer)

    def row(self, kind, *numbers, compared=(), results=0, text="", settings=()):
        """One row: what goes in, and what has to come out."""
        mask = sum(1 << k for k, it in enumerate(compared) if it != NOT_COMPARED)
        given = ", ".join(map(hex, numbers))
        out = ", ".join("0" if it == NOT_COMPARED else hex(it) for it in compared) or "0"
        more = f", .results = {results}" * (results > 0) + f', .text = "{text}"' * (text != "")
        if settings:
            more += f", .settings = &(const struct table_settings){{{', '.join(settings)}}}"
        print(f"{{.kind = {kind}, .in = {{{given}}}, .out = {{{out}}}, .compared = {mask:#x}{more}}},")

    # ---- calls

    def of_call(self, name, words, answer):
        self.call(name, [operand(it) for it in words], None if answer is None else values_of(answer))

    def call(self, name, values, answered):
        """The row of a command, and of an entry the fields of its exit. `answered` is a word and outputs, or None."""
        fid, _, roles = COMMANDS[name]
        word, outputs = answered or ([NOT_COMPARED, NOT_COMPARED], {})
        is_mapped = outputs.get("state", [""])[0] in NAMES["state"][1:]
        texts = {role: outputs.get(role, [NOT_COMPARED])[0] for role in roles}
        results = [value_of(role, text) for role, text in texts.items()]
        moved = [self.result(role, it, is_mapped) for role, it in zip(roles, results)]
        self.row("SMC", fid, *self.memory.operands(name, values), compared=[self.x0(word), *moved],
                 results=1 + len(roles))
        if name == "rmi_rec_enter" and word == ["RUNNING"]:
            self.runs[values[0]] = self.memory.moved(values[1])
        elif name == "rmi_rec_enter":
            self.exit(self.memory.moved(values[1]), outputs)

    def result(self, role, value, is_mapped):
        """An output as the RMM has it. If nothing is mapped, `desc` is 0, and no address."""
        is_plain = value == NOT_COMPARED or role == "desc" and not is_mapped
        return value if is_plain else self.memory.operand(role, value)

    @staticmethod
    def x0(word):
        return NOT_COMPARED if word[0] == NOT_COMPARED else x0_of(word)

    def exit(self, run, outputs):
        """Loads of the fields of an exit that an answer has."""
        for role, texts in outputs.items():
            first, width, _ = EXIT[role]
            for k, text in enumerate(texts):
                self.row("LOAD", run + first + k * width, width, compared=[value_of(role, text)])

    def of_repeat(self, _kind, words, answer):
        """Each call of a repeat: those before the last are accepted."""
        accepted = ["done"] if words[1] == "fill" else ["RMI_SUCCESS"]
        answered = None if answer is None else values_of(answer)
        after = number(answered[1].pop("after", ["0"])[0]) if answered else 0
        last = after if answered and answered[0] != accepted else number(words[0]) - 1
        for k, (name, values) in enumerate(repeated(words)):
            if k <= last and name == "fill":
                self.row("FILL", self.memory.moved(values[0]), values[1])
            elif k <= last:
                self.call(name, values, answered if k == last or answered is None else (accepted, {}))

    def of_smc(self, _kind, words, answer):
        fid, *given = map(number, words)
        results = [value_of("", it) for it in (answer or NOT_COMPARED).split(" ")]
        name = NAME_OF.get(fid)
        if name is None:
            self.row("SMC", fid, *given, compared=results, results=1)
            return
        roles, is_mapped = COMMANDS[name][2], results[2:3] in ([1], [2])
        if results[0] == SUCCESS:
            results[1:] = [self.result(role, it, is_mapped) for role, it in zip(roles, results[1:])]
        self.row("SMC", fid, *self.memory.operands(name, given), compared=results, results=1 + len(roles))
        if results[0] == X0_RUNNING:
            self.runs[given[0]] = self.memory.moved(given[1])

    # ---- the host's memory, and platforms

    def of_platform(self, _kind, words, _answer):
        base, granules = number(words[0]), number(words[1])
        self.memory = Memory(0 if self.base is None else self.base - base)
        at, settings = self.memory.moved(base), self.memory.settings(settings_of(words[2:]))
        shown = {name: "{:#x} {}".format(*it) if name == "secure" else it for name, it in settings.items()}
        text = " ".join(["platform", hex(at), str(granules), *(f"{name} {it}" for name, it in shown.items())])
        self.row("PLATFORM", at, granules, text=text, settings=[*structure_of(settings)])

    def of_page(self, kind, words, _answer):
        address, page = self.memory.moved(number(words[0])), self.memory.page(kind, fields_of(kind, words[1:]))
        self.row("FILL", address, 0)
        for at in range(0, PAGE, 8):
            if any(page[at : at + 8]):
                self.row("STORE", address + at, int.from_bytes(page[at : at + 8], "little"))

    def of_fill(self, _kind, words, _answer):
        self.row("FILL", self.memory.moved(number(words[0])), number(words[1]))

    def of_store(self, _kind, words, _answer):
        self.row("STORE", self.memory.moved(number(words[0])), number(words[1]))

    def of_load(self, _kind, words, answer):
        self.row("LOAD", self.memory.moved(number(words[0])), 8, compared=[number(answer)] if answer else ())

    # ---- the guest

    def of_guest(self, _kind, words, answer):
        step, operands = step_of(words[1:])
        compared = [OF_GUESTS.index(answer)] if answer else ()
        rec = self.memory.moved(number(words[0]))
        self.row("GUEST", rec, STEPS.index(step), *operands[:4], compared=compared, text=" ".join(words[1:]))

    def of_interrupt(self, _kind, words, answer):
        rec = number(words[0])
        word, outputs = values_of(answer) if answer else ([NOT_COMPARED], {})
        is_running = answer != "not running"
        self.row("INTERRUPT", self.memory.moved(rec), compared=[self.x0(word) if is_running else NOT_RUNNING])
        if is_running and rec in self.runs:
            self.exit(self.runs.pop(rec), outputs)
