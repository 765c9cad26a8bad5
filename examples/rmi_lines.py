"""Lines of traces by registers, the tables of RMM 1.0 that they need, and answers compared. For drive.py, c_table.py."""
import re
from typing import NamedTuple

PAGE = 4096
FIRST_FID, X0_RUNNING = 0xC4000000, 2**64 - 2
STATUSES = ("RMI_SUCCESS", "RMI_ERROR_INPUT", "RMI_ERROR_REALM", "RMI_ERROR_REC", "RMI_ERROR_RTT")
SUCCESS, RTT = 0, 4

# Of each command the number of its function, its operands from X1 on, and its outputs from X1 on. RMM 1.0, 4.3.
COMMANDS = {
    "rmi_version": (0x150, "req", "lower higher"),
    "rmi_granule_delegate": (0x151, "addr", ""),
    "rmi_granule_undelegate": (0x152, "addr", ""),
    "rmi_data_create": (0x153, "rd data ipa src flags", ""),
    "rmi_data_create_unknown": (0x154, "rd data ipa", ""),
    "rmi_data_destroy": (0x155, "rd ipa", "data top"),
    "rmi_realm_activate": (0x157, "rd", ""),
    "rmi_realm_create": (0x158, "rd params", ""),
    "rmi_realm_destroy": (0x159, "rd", ""),
    "rmi_rec_create": (0x15A, "rd rec params", ""),
    "rmi_rec_destroy": (0x15B, "rec", ""),
    "rmi_rec_enter": (0x15C, "rec run", ""),
    "rmi_rtt_create": (0x15D, "rd rtt ipa level", ""),
    "rmi_rtt_destroy": (0x15E, "rd ipa level", "rtt top"),
    "rmi_rtt_map_unprotected": (0x15F, "rd ipa level desc", ""),
    "rmi_rtt_read_entry": (0x161, "rd ipa level", "level state desc ripas"),
    "rmi_rtt_unmap_unprotected": (0x162, "rd ipa level", "top"),
    "rmi_psci_complete": (0x164, "calling target status", ""),
    "rmi_features": (0x165, "index", "value"),
    "rmi_rtt_fold": (0x166, "rd ipa level", "rtt"),
    "rmi_rec_aux_count": (0x167, "rd", "count"),
    "rmi_rtt_init_ripas": (0x168, "rd base top", "top"),
    "rmi_rtt_set_ripas": (0x169, "rd rec base top", "top"),
}
COMMANDS = {name: (FIRST_FID + it, taken.split(), given.split()) for name, (it, taken, given) in COMMANDS.items()}
NAME_OF = {fid: name for name, (fid, _, _) in COMMANDS.items()}
# Operands and outputs that are addresses of the machine's memory, and no IPAs.
PHYSICAL = {"addr", "rd", "data", "src", "params", "rec", "run", "rtt", "calling", "target", "desc"}
ADDRESS_OF_DESC = 0xFFFFFFFFF000
# With RMI_ERROR_RTT these have the output `top` too.
WITH_TOP = ("rmi_data_destroy", "rmi_rtt_destroy", "rmi_rtt_unmap_unprotected")

# Of each field of a page its first byte, its bytes, and how many of them there can be. RMM 1.0, 4.4.
FIELDS = {
    "realm_params": {
        "flags": (0x000, 8, 1), "s2sz": (0x008, 1, 1), "sve_vl": (0x010, 1, 1), "num_bps": (0x018, 1, 1),
        "num_wps": (0x020, 1, 1), "pmu_num_ctrs": (0x028, 1, 1), "hash_algo": (0x030, 1, 1), "rpv": (0x400, 1, 64),
        "vmid": (0x800, 2, 1), "rtt_base": (0x808, 8, 1), "rtt_level_start": (0x810, 8, 1),
        "rtt_num_start": (0x818, 4, 1),
    },
    "rec_params": {
        "flags": (0x000, 8, 1), "mpidr": (0x100, 8, 1), "pc": (0x200, 8, 1), "gprs": (0x300, 8, 8),
        "num_aux": (0x800, 8, 1), "aux": (0x808, 8, 16),
    },
    "rec_run": {
        "flags": (0x000, 8, 1), "gprs": (0x200, 8, 31), "gicv3_hcr": (0x300, 8, 1), "gicv3_lrs": (0x308, 8, 16),
    },
}
EXIT = {
    "exit": (0x800, 1, 1), "esr": (0x900, 8, 1), "far": (0x908, 8, 1), "hpfar": (0x910, 8, 1), "gprs": (0xA00, 8, 31),
    "base": (0xD00, 8, 1), "top": (0xD08, 8, 1), "ripas": (0xD10, 1, 1), "imm": (0xE00, 2, 1),
}
EXIT_REASONS = ("SYNC", "IRQ", "FIQ", "PSCI", "RIPAS_CHANGE", "HOST_CALL", "SERROR")
# The fields of an exit that a line has, by its reason.
OF_EXIT = {
    "SYNC": ("esr", "far", "hpfar", "gprs"), "PSCI": ("gprs",), "RIPAS_CHANGE": ("base", "top", "ripas"),
    "HOST_CALL": ("imm", "gprs"),
}
NAMES = {
    "state": ("UNASSIGNED", "ASSIGNED", "TABLE"), "ripas": ("EMPTY", "RAM", "DESTROYED"), "exit": EXIT_REASONS,
}
PSCI_RESULTS = {"PSCI_SUCCESS": 0, "PSCI_DENIED": 2**64 - 3}
STEPS = (
    "write", "read", "host_call", "set_ripas", "cpu_on", "affinity_info", "cpu_off", "cpu_suspend", "system_off",
    "system_reset", "wfi", "wfe", "spin", "fetch", "sysreg",
)
READINGS = ("state", "sum", "realm", "rim", "rec")


def size(level):
    """The bytes that an entry of a level covers."""
    return 1 << 12 + 9 * (3 - level)


def rtt_index(word):
    """The level of RMI_ERROR_RTT, and None of another word."""
    return word >> 8 & 0xFF if word & 0xFF == RTT else None


# ---- lines of traces


class Line(NamedTuple):
    """A line: its question, its answer if it has one, and its comment with the spaces before it."""

    question: str
    answer: str | None
    comment: str


def line_of(text):
    bare = text.partition("#")[0].rstrip(" ")
    question, is_answered, answer = bare.partition(" = ")
    return Line(question, answer if is_answered else None, text[len(bare) :])


class NoLine(Exception):
    """A line that is none of a trace by registers."""

    def __init__(self, text):
        super().__init__(f"no line of a trace by registers: {text}")


def is_number(text):
    return bool(re.fullmatch(r"0x[0-9a-f]+|[0-9]+", text))


def number(text):
    if not is_number(text):
        raise NoLine(text)
    return int(text, 0)


def operand(text):
    return PSCI_RESULTS[text] if text in PSCI_RESULTS else number(text)


def settings_of(words):
    """The settings of a platform by name."""
    found = {}
    while words:
        if words[0] == "secure":
            found["secure"], words = (number(words[1]), number(words[2])), words[3:]
        else:
            found[words[0]], words = number(words[1]) if is_number(words[1]) else words[1], words[2:]
    return found


def fields_of(kind, words):
    """The fields of a page by name, each with its values."""
    found = {}
    for word in words:
        if word in FIELDS[kind]:
            name, found[word] = word, []
        elif not found:
            raise NoLine(word)
        else:
            found[name].append(number(word))
    if "aux" in found:
        found["num_aux"] = [len(found["aux"])]
    return found


def page_of(kind, fields):
    page = bytearray(PAGE)
    for name, values in fields.items():
        first, width, _ = FIELDS[kind][name]
        for k, value in enumerate(values):
            page[first + k * width : first + (k + 1) * width] = value.to_bytes(width, "little")
    return bytes(page)


def step_of(words):
    """A step of a guest, and its operands as numbers, with those that a line can leave out."""
    kind, *rest = words
    named = {"destroyed": 1, **{name: ripas for ripas, name in enumerate(NAMES["ripas"])}}
    operands = [named[it] if it in named else number(it) for it in rest]
    left_out = {"write": [0, 0, 1], "read": [0, 1], "set_ripas": [0, 0, 0, 0]}.get(kind, [])
    return kind, operands + left_out[len(operands) :]


def repeated(words):
    """The calls of a repeat, one after another: a name, and its operands."""
    count, name, *operands = words
    pairs = [[operand(part) for part in it.split("+")] for it in operands]
    for k in range(number(count)):
        yield name, [(first + k * sum(step)) % 2**64 for first, *step in pairs]


# ---- addresses


class Memory:
    """The memory of a trace, moved by a number of bytes to memory that the RMM has."""

    def __init__(self, by=0):
        self.by = by

    def moved(self, address):
        return (address + self.by) % 2**64

    def operand(self, role, value):
        """An operand or an output as the RMM has it. Of a descriptor the address is moved."""
        if role == "desc":
            return value & ~ADDRESS_OF_DESC | value + self.by & ADDRESS_OF_DESC
        return self.moved(value) if role in PHYSICAL else value

    def operands(self, name, values):
        return [self.operand(role, value) for role, value in zip(COMMANDS[name][1], values)]

    def page(self, kind, fields):
        """The bytes of a page."""
        is_moved = {"realm_params": "rtt_base", "rec_params": "aux"}.get(kind)
        return page_of(kind, {it: [*map(self.moved, ks)] if it == is_moved else ks for it, ks in fields.items()})

    def settings(self, found):
        """The settings of a platform, of which `secure` has an address."""
        return {it: (self.moved(value[0]), value[1]) if it == "secure" else value for it, value in found.items()}

    def outputs(self, name, after):
        """X1 on after a call, as the trace has them. If nothing is mapped, `desc` is 0, and no address."""
        roles = COMMANDS[name][2]
        is_mapped = dict(zip(roles, after[1:])).get("state") in (1, 2)
        is_address = lambda role: after[0] == SUCCESS and (role != "desc" or is_mapped)
        back = Memory(-self.by)
        return [back.operand(role, it) if is_address(role) else it for role, it in zip(roles, after[1:])]


# ---- answers, as they are printed


def word_text(word):
    if word & 0xFF >= len(STATUSES):
        return hex(word)
    index = word >> 8
    return STATUSES[word & 0xFF] + f" {index}" * (index > 0 or word == RTT)


def value_text(name, value):
    if name in NAMES:
        return NAMES[name][value] if value < len(NAMES[name]) else hex(value)
    return str(value) if name in ("level", "count") else hex(value)


def outputs_of(name, after):
    """The outputs of a call that are specified, by name."""
    outputs = dict(zip(COMMANDS[name][2], after[1:]))
    if after[0] == SUCCESS or name == "rmi_version":
        return outputs
    return {"top": outputs["top"]} if name in WITH_TOP and rtt_index(after[0]) is not None else {}


def values_of(texts):
    """The parts of an answer: its word, and the values of its outputs by name."""
    without_check = re.sub(r" \(\w+\)", "", texts)
    word, *outputs = without_check.split(", ")
    return word.split(" "), {name: values for name, *values in (it.split(" ") for it in outputs)}


def is_value(name, written, here):
    """Whether a value is the same. `-` is not compared, and of a value with `/MASK` its bits alone."""
    if written in ("-", here):
        return True
    read = lambda it: NAMES[name].index(it) if it in NAMES.get(name, ()) else number(it) if is_number(it) else None
    written, _, mask = written.partition("/")
    return None not in (read(written), read(here)) and (read(written) ^ read(here)) & number(mask or hex(2**64 - 1)) == 0


def are_values(name, written, here):
    most = max(len(written), len(here)) if name == "gprs" else 0
    written, here = (it + ["0x0"] * (most - len(it)) for it in (written, here))
    return len(written) == len(here) and all(is_value(name, *pair) for pair in zip(written, here))


def verdict(question, written, here):
    """The comparison of the RMM's answer with the one that is written."""
    kind = question.split(" ")[0]
    if kind == "smc":
        written, here = written.split(" "), here.split(" ")
        is_same = len(written) <= len(here) and are_values("", written, here[: len(written)])
        are_refused = all(it != "-" and 1 <= number(it) & 0xFF < len(STATUSES) for it in (written[0], here[0]))
        return "same" if is_same else "refused" if are_refused and written[0] != here[0] else "wrong"
    if kind not in COMMANDS and kind not in ("repeat", "interrupt"):
        return "same" if are_values("", written.split(" "), here.split(" ")) else "wrong"
    (word, outputs), (our_word, ours) = values_of(written), values_of(here)
    full = lambda it: it if len(it) > 1 else [*it, "0"]
    is_same = are_values("", full(word), full(our_word)) and all(
        name in ours and are_values(name, values, ours[name]) for name, values in outputs.items())
    are_refused = all(it[0] in STATUSES[1:] for it in (word, our_word))
    return "same" if is_same else "refused" if are_refused and full(word) != full(our_word) else "wrong"
