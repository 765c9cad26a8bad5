"""A simulated Realm Management Monitor (RMM 1.0, DEN0137) to test hosts against, from Python.

    from rmm import RealmParams, Rmm

    with Rmm(granules=2048, base=0x80000000, aux=2) as rmm:
        rmm.granule_delegate(0x80010000)                   # Answer(word=0)
        rmm.rtt_destroy(0x80010000, 0x80000000, 3).name    # 'RMI_ERROR_INPUT': it is no RD
        rmm.rtt_destroy(0x80010000, 0x80000000, 3).check   # 'rd_state'
        rmm.store(0x80014000, RealmParams(s2sz=33, vmid=1))
        rmm.load(0x80014008, 1)                            # b'!'
        rmm.smc(0xC4000151, 0x80010000)                    # [1, 0, 0, 0, 0]
        rmm.line("state 0x80010000")                       # 'DELEGATED': a line of a trace

A method has the name of a function of include/rmm.h or include/rmm_commands.h; `results` is rmm_result. A command returns
its Answer. With `raises=True` a command that is refused is raised as `Refused`, and a load or store that faults as
`Fault`; what `smc` and `interrupt` return is not. A number that no register holds, below 0 or from 2^64 on, is an
OverflowError. An RMM that is closed is a ValueError.

This needs librmm.so.0 (`make c-library`). It is looked for at the path of $RMM_LIBRARY, beside this file, in the
folder build/ of the repository, and where the system has its libraries. Where it is not found, there is an OSError.
"""
import ctypes
import operator
import os
from pathlib import Path
from typing import NamedTuple

__all__ = [
    "Rmm", "Answer", "Exit", "RealmParams", "RecParams", "RecRun", "Realm", "Rec", "Refused", "Fault", "NoMachine",
]

GRANULE = 4096
MOST = 2**64 - 1
NOT_SUPPORTED, RUNS_ON = MOST, MOST - 1
RUNNING = RUNS_ON  # old name, which goes with librmm.so.1
STATUSES = ("RMI_SUCCESS", "RMI_ERROR_INPUT", "RMI_ERROR_REALM", "RMI_ERROR_REC", "RMI_ERROR_RTT")
GRANULE_STATES = ("UNDELEGATED", "DELEGATED", "RD", "REC", "REC_AUX", "DATA", "RTT")
REALM_STATES = ("NEW", "ACTIVE", "SYSTEM_OFF")
REC_STATES = ("READY", "RUNNING")
RIPAS = ("EMPTY", "RAM", "DESTROYED")
EXIT_REASONS = ("SYNC", "IRQ", "FIQ", "PSCI", "RIPAS_CHANGE", "HOST_CALL", "SERROR")
STEPS = (
    "write", "read", "host_call", "set_ripas", "cpu_on", "affinity_info", "cpu_off", "cpu_suspend", "system_off",
    "system_reset", "wfi", "wfe", "spin", "fetch", "sysreg",
)
# Of a step with operands how many it has, at least and at most.
OPERANDS = {
    "write": (2, 3), "read": (1, 2), "host_call": (1, 4), "set_ripas": (3, 4), "cpu_on": (3, 3),
    "affinity_info": (2, 2), "fetch": (1, 1), "sysreg": (2, 2),
}
RESULTS = ("done", "read", "sea", "accepted", "rejected", "returned", "psci", "rsi_error_input")
LAYOUTS = {"rel0": 0, "eac5": 1}
QUEUED = ("queued", "full", "no REC")
# The checks of commands by their numbers, from 1 on.
CHECKS = (
    "version", "gran_align", "gran_bound", "gran_state", "gran_gpt", "rd_align", "rd_bound", "rd_state", "params_align",
    "params_bound", "params_pas", "params_valid", "params_supp", "rtt_num_level", "rtt_align", "rtt_bound", "rtt_state",
    "alias", "vmid_valid", "realm_state", "realm_live", "level_bound", "ipa_align", "ipa_bound", "rtt_walk",
    "rtte_state", "rtt_live", "rtt_homo", "rtt_block", "desc_bound", "data_align", "data_bound", "data_state",
    "src_align", "src_bound", "src_pas", "flags_valid", "rtte_ripas", "size", "base_gran_align", "top_gran_align",
    "base_bound", "top_bound", "base_align", "no_progress", "rec_align", "rec_bound", "rec_gran_state", "num_aux",
    "aux_align", "aux_bound", "aux_alias", "aux_state", "mpidr_index", "num_recs", "rec_state", "rec_owner",
    "run_align", "run_bound", "run_pas", "realm_new", "system_off", "rec_runnable", "rec_mmio", "rec_psci", "rec_gicv3",
    "calling_align", "calling_bound", "calling_state", "target_align", "target_bound", "target_state", "pending",
    "owner", "target", "status",
)
# The words of refusals: REALM has index 0 or 1, and RTT the level of a table.
REFUSALS = (0x1, 0x2, 0x3, 0x4, 0x102, 0x104, 0x204, 0x304)
# The answers of rmm_open.
OPENED, NO_MACHINE, NO_MEMORY = 0, 1, 2
# The room for the answer to a line, and what rmm_line returns where there is no memory.
ANSWER_SIZE, NOT_ANSWERED = 2048, MOST

# The defaults of rmm_settings, in the sequence of its fields.
NUMBERS = {
    "granules": 2048, "base": 0x80000000, "secure_base": 0, "secure_count": 0, "aux": 2, "vmid_bits": 16, "s2sz": 48,
    "max_recs_order": 4, "block_level": 2, "bps": 0, "wps": 0, "lrs": 0, "layout": "rel0",
}
FLAGS = (
    "stops_at_destroyed", "measures_all_recs", "ignores_data_flags", "data_needs_ram", "aligns_live_top",
    "shows_target_alone", "takes_shareability", "checks_params", "checks_gic",
)

# Of each command the number of its function, its operands and its outputs.
COMMANDS = {
    "version": (0x150, ("requested",), ("lower", "higher")),
    "granule_delegate": (0x151, ("address",), ()),
    "granule_undelegate": (0x152, ("address",), ()),
    "data_create": (0x153, ("rd", "data", "ipa", "src", "flags"), ()),
    "data_create_unknown": (0x154, ("rd", "data", "ipa"), ()),
    "data_destroy": (0x155, ("rd", "ipa"), ("data", "top")),
    "realm_activate": (0x157, ("rd",), ()),
    "realm_create": (0x158, ("rd", "params"), ()),
    "realm_destroy": (0x159, ("rd",), ()),
    "rec_create": (0x15A, ("rd", "rec", "params"), ()),
    "rec_destroy": (0x15B, ("rec",), ()),
    "rec_enter": (0x15C, ("rec", "run"), ()),
    "rtt_create": (0x15D, ("rd", "rtt", "ipa", "level"), ()),
    "rtt_destroy": (0x15E, ("rd", "ipa", "level"), ("rtt", "top")),
    "rtt_map_unprotected": (0x15F, ("rd", "ipa", "level", "desc"), ()),
    "rtt_read_entry": (0x161, ("rd", "ipa", "level"), ("walk_level", "state", "desc", "ripas")),
    "rtt_unmap_unprotected": (0x162, ("rd", "ipa", "level"), ("top",)),
    "psci_complete": (0x164, ("calling", "target", "status"), ()),
    "features": (0x165, ("index",), ("value",)),
    "rtt_fold": (0x166, ("rd", "ipa", "level"), ("rtt",)),
    "rec_aux_count": (0x167, ("rd",), ("count",)),
    "rtt_init_ripas": (0x168, ("rd", "base", "top"), ("out_top",)),
    "rtt_set_ripas": (0x169, ("rd", "rec", "base", "top"), ("out_top",)),
}
FIRST_FID = 0xC4000000


class Answer:
    """The answer of a command: its result word, and its outputs by name, which are attributes too.

    `check` is the name of the check that decided, None if no check failed. `allowed` has the words that an RMM may answer,
    of which this is one; RUNS_ON is the answer of no RMM. `exit` is what an entry or an interrupt wrote to the run page:
    None if the REC runs on, or was not entered.
    """

    def __init__(self, word, outputs=(), exit=None, check=None, allowed=()):
        self.word, self.outputs, self.exit = word, dict(outputs), exit
        self.check, self.allowed = check, allowed

    @property
    def status(self):
        return self.word & 0xFF

    @property
    def index(self):
        return self.word >> 8 & 0xFF

    @property
    def is_running(self):
        """Whether the guest that was entered spins."""
        return self.word == RUNS_ON

    @property
    def name(self):
        """The name of the status, as RMI_ERROR_RTT."""
        special = {RUNS_ON: "RUNNING", NOT_SUPPORTED: "NOT_SUPPORTED"}
        return special.get(self.word) or (STATUSES[self.status] if self.status < len(STATUSES) else "?")

    def __getattr__(self, name):
        if name != "outputs" and name in self.outputs:
            return self.outputs[name]
        raise AttributeError(name)

    def __repr__(self):
        outputs = "".join(f", {name}={value:#x}" for name, value in self.outputs.items())
        return f"Answer(word={self.word:#x}{outputs})" if self.word else f"Answer(word=0{outputs})"


class Refused(Exception):
    """A command was refused: `answer` has its result word."""

    def __init__(self, command, answer):
        super().__init__(f"{command}: {answer.name}" + f" {answer.index}" * (answer.name == "RMI_ERROR_RTT"))
        self.command, self.answer = command, answer


class Fault(Exception):
    """The granule protection fault of a load or a store of the host."""


class NoMachine(ValueError):
    """A setting is out of its range."""


class Exit(NamedTuple):
    """The fields that an exit writes to the run page. RMM 1.0, RmiRecExit."""

    reason: str
    esr: int
    far: int
    hpfar: int
    gprs: tuple
    ripas_base: int
    ripas_top: int
    ripas: int
    imm: int


class Realm(NamedTuple):
    """The attributes of a realm. `rim` is the digest alone."""

    state: str
    hash_algo: int
    s2sz: int
    rtt_level_start: int
    rtt_num_start: int
    rtt_base: int
    vmid: int
    next_rec: int
    rec_count: int
    rim: bytes


class Rec(NamedTuple):
    """The attributes of a REC."""

    state: str
    mpidr: int
    is_runnable: bool
    is_psci_pending: bool
    ripas_base: int
    ripas_top: int
    ripas: str
    step_count: int
    result_count: int


# ---- parameter pages


class _Page:
    """A page of a host: its fields, and zeros between them. FIELDS has the place, the size and the count of each."""

    FIELDS = {}

    def __init__(self, **fields):
        unknown = set(fields) - set(self.FIELDS)
        if unknown:
            raise TypeError(f"{type(self).__name__} has no field {min(unknown)}")
        self.fields = fields

    def __bytes__(self):
        page = bytearray(GRANULE)
        for name, value in self.fields.items():
            place, size, most = self.FIELDS[name]
            values = [value] if isinstance(value, int) else list(value)
            if len(values) > most:
                raise ValueError(f"{name} has {most} elements at most")
            for k, it in enumerate(values):
                number = operator.index(it) % 256**size if -(256**size) < 2 * it < 0 else operator.index(it)
                page[place + k * size : place + (k + 1) * size] = number.to_bytes(size, "little")
        return bytes(page)


class RealmParams(_Page):
    """RMM 1.0, RmiRealmParams."""

    FIELDS = {
        "flags": (0x000, 8, 1), "s2sz": (0x008, 1, 1), "sve_vl": (0x010, 1, 1), "num_bps": (0x018, 1, 1),
        "num_wps": (0x020, 1, 1), "pmu_num_ctrs": (0x028, 1, 1), "hash_algo": (0x030, 1, 1), "rpv": (0x400, 1, 64),
        "vmid": (0x800, 2, 1), "rtt_base": (0x808, 8, 1), "rtt_level_start": (0x810, 8, 1),
        "rtt_num_start": (0x818, 4, 1),
    }


class RecParams(_Page):
    """RMM 1.0, RmiRecParams. `num_aux` is the number of `aux` where it is not given."""

    FIELDS = {
        "flags": (0x000, 8, 1), "mpidr": (0x100, 8, 1), "pc": (0x200, 8, 1), "gprs": (0x300, 8, 8),
        "num_aux": (0x800, 8, 1), "aux": (0x808, 8, 16),
    }

    def __init__(self, **fields):
        if "aux" in fields:
            fields.setdefault("num_aux", len(fields["aux"]))
        super().__init__(**fields)


class RecRun(_Page):
    """RMM 1.0, RmiRecEnter: the first half of a run page."""

    FIELDS = {
        "flags": (0x000, 8, 1), "gprs": (0x200, 8, 31), "gicv3_hcr": (0x300, 8, 1), "gicv3_lrs": (0x308, 8, 16),
    }


def _exit_of(page):
    number = lambda place, size=8: int.from_bytes(page[place : place + size], "little")
    gprs = tuple(number(0xA00 + 8 * k) for k in range(31))
    ripas = number(0xD00), number(0xD08), number(0xD10, 1)
    reason, syndrome = EXIT_REASONS[number(0x800, 1)], (number(0x900), number(0x908), number(0x910))
    return Exit(reason, *syndrome, gprs, *ripas, number(0xE00, 2))


# ---- the library

_U64, _BOOL, _TO = ctypes.c_uint64, ctypes.c_bool, ctypes.POINTER


def _structure(name, *fields):
    return type(name, (ctypes.Structure,), {"_fields_": list(fields)})


def _numbers(*names):
    return [(name, _U64) for name in names]


_Handle = _structure("_Handle", ("is_open", _BOOL), ("monitor", ctypes.c_void_p))
_Settings = _structure("_Settings", *_numbers(*NUMBERS), *[(name, _BOOL) for name in FLAGS])
_Registers = _structure("_Registers", *_numbers("x0", "x1", "x2", "x3", "x4", "x5", "x6"))
_Step = _structure("_Step", *_numbers("kind", "a", "b", "c", "d"))
_Result = _structure("_Result", *_numbers("kind", "value"))
_REALM = ("state", "hash_algo", "s2sz", "rtt_level_start", "rtt_num_start", "rtt_base", "vmid", "next_rec", "rec_count")
_Realm = _structure("_Realm", *_numbers(*_REALM), ("rim", ctypes.c_uint8 * 64))
_REC = (
    "state", "mpidr", "ripas_base", "ripas_top", "ripas_value", "step_count", "result_count", "is_runnable",
    "is_psci_pending",
)
_Rec = _structure("_Rec", *_numbers(*_REC))

_LINE = ctypes.c_char_p, ctypes.c_size_t, ctypes.c_char_p, ctypes.c_size_t
# Of each function its result, and its parameters after the handle.
_FUNCTIONS = {
    "open": (_U64, _TO(_Settings)), "close": (None,), "smc": (None, _TO(_Registers)),
    "deciding_check": (_U64, _TO(_Registers)), "is_allowed": (_BOOL, _TO(_Registers), _U64),
    "load": (_BOOL, _U64, ctypes.c_char_p, ctypes.c_size_t), "store": (_BOOL, _U64, ctypes.c_char_p, ctypes.c_size_t),
    "guest": (_U64, _U64, _TO(_Step)), "interrupt": (_BOOL, _U64, _TO(_U64)),
    "result": (_BOOL, _U64, _U64, _TO(_Result)), "read_state": (_BOOL, _U64, _TO(_U64)),
    "read_word": (_BOOL, _U64, _U64, _TO(_U64)), "read_realm": (_BOOL, _U64, _TO(_Realm)),
    "read_rec": (_BOOL, _U64, _TO(_Rec)), "line": (_U64, *_LINE),
}


# (rhm.py has _places and load too: each of the modules is one file, which needs no other one beside it)
def _places():
    here = Path(__file__).resolve().parent
    named = os.environ.get("RMM_LIBRARY")
    if named:
        return [named]
    # (installed, it lies in PREFIX/share/realmhost/python, and the library in PREFIX/lib)
    folders = [here, here.parent / "build", here.parent.parent.parent / "lib"]
    near = [folder / "librmm.so.0" for folder in folders]
    return [str(it) for it in near if it.exists()] + ["librmm.so.0"]


def load(path=None):
    """The library, at this path or where it is looked for. A call keeps the interpreter's lock: no two come at once."""
    try:
        library = ctypes.PyDLL(path or _places()[0])
    except OSError as error:
        hint = "`make c-library` builds the library, and RMM_LIBRARY can name its path"
        raise OSError(f"{error} ({hint})") from None
    for name, (result, *given) in _FUNCTIONS.items():
        function = getattr(library, f"rmm_{name}")
        function.restype, function.argtypes = result, [_TO(_Handle), *given]
    return library


def _number(it):
    """A number that a register holds: ctypes would cut another."""
    it = operator.index(it)
    if not 0 <= it <= MOST:
        raise OverflowError(f"no register of 64 bits holds {it}")
    return it


def _registers(given):
    """The registers of a call; those that are not given are 0."""
    if len(given) > 7:
        raise TypeError("a call has the registers X0 to X6")
    return _Registers(*map(_number, given))


def _settings(given):
    unknown = set(given) - set(NUMBERS) - set(FLAGS)
    if unknown:
        raise TypeError(f"there is no setting {min(unknown)}")
    chosen = {**NUMBERS, **dict.fromkeys(FLAGS, False), **given}
    chosen["layout"] = LAYOUTS.get(chosen["layout"], chosen["layout"])
    return _Settings(*[_number(chosen[name]) for name in NUMBERS], *[bool(chosen[name]) for name in FLAGS])


_loaded = {}


class Rmm:
    """An RMM with the settings of `rmm_settings`, each of which has its default. Each granule is UNDELEGATED and 0."""

    def __init__(self, *, raises=False, library=None, **settings):
        self._handle, self.raises, self._runs = None, raises, {}
        if library not in _loaded:
            _loaded[library] = load(library)
        self._library, handle = _loaded[library], _Handle()
        answer = self._library.rmm_open(ctypes.byref(handle), ctypes.byref(_settings(settings)))
        if answer == NO_MACHINE:
            raise NoMachine(NoMachine.__doc__)
        if answer == NO_MEMORY:
            raise MemoryError("there is no memory for the RMM")
        self._handle = handle

    def close(self):
        """Gives the memory back. An RMM that is closed stays closed."""
        handle, self._handle = self._handle, None
        if handle is not None:
            self._library.rmm_close(ctypes.byref(handle))

    def __enter__(self):
        return self

    def __exit__(self, *_):
        self.close()

    def __del__(self):
        if getattr(self, "_handle", None) is not None:
            self.close()

    def __copy__(self):
        raise TypeError("an RMM cannot be copied")

    def __deepcopy__(self, _):
        raise TypeError("an RMM cannot be copied")

    def __reduce__(self):
        raise TypeError("an RMM cannot be copied")

    def _call(self, name, *given):
        if self._handle is None:
            raise ValueError("the RMM is closed")
        return getattr(self._library, f"rmm_{name}")(ctypes.byref(self._handle), *given)

    # ---- calls

    def smc(self, *registers):
        """X0 to X4 after a call with these registers; those that are not given are 0."""
        it = _registers(registers)
        rec, run = it.x1, it.x2
        self._call("smc", ctypes.byref(it))
        if it.x0 == RUNS_ON:
            # (the run page of an entry that has not come back)
            self._runs[rec] = run
        return [it.x0, it.x1, it.x2, it.x3, it.x4]

    def deciding_check(self, *registers):
        """The name of the check that decides a call, on the machine as it is; None if no check fails."""
        number = self._call("deciding_check", ctypes.byref(_registers(registers)))
        return CHECKS[number - 1] if number else None

    def is_allowed(self, word, *registers):
        """Whether an RMM may answer a call with a word, on the machine as it is."""
        return self._call("is_allowed", ctypes.byref(_registers(registers)), _number(word))

    def allowed(self, *registers):
        """The words that an RMM may answer a call with, on the machine as it is."""
        words = (0,) if self.is_allowed(0, *registers) else (*REFUSALS, NOT_SUPPORTED)
        return tuple(word for word in words if self.is_allowed(word, *registers))

    def command(self, name, *operands):
        """The answer of a command, by its name as rtt_create."""
        number, taken, outputs = COMMANDS[name]
        if len(operands) != len(taken):
            raise TypeError(f"{name} takes {', '.join(taken)}")
        registers = FIRST_FID + number, *operands
        check, allowed = self.deciding_check(*registers), self.allowed(*registers)
        word, *values = self.smc(*registers)
        answer = Answer(word, zip(outputs, values), check=check, allowed=allowed)
        if name == "rec_enter" and word == 0:
            answer.exit = self._exit(operands[1])
        if self.raises and word not in (0, RUNS_ON):
            raise Refused(name, answer)
        return answer

    def _exit(self, run):
        page = self.load(run, GRANULE)
        return page and _exit_of(page)

    # ---- memory of the host

    def load(self, address, count):
        """Bytes within one granule; None where the host faults."""
        count = operator.index(count)
        room = ctypes.create_string_buffer(max(count, 1))
        is_loaded = 0 <= count <= GRANULE and self._call("load", _number(address), room, count)
        if not is_loaded and self.raises:
            raise Fault(f"load of {count} bytes at {address:#x}")
        return room.raw[:count] if is_loaded else None

    def store(self, address, content):
        """Stores bytes, or a parameter page, within one granule. False, with nothing changed, where the host faults."""
        content = bytes(content)
        is_stored = self._call("store", _number(address), content, len(content))
        if not is_stored and self.raises:
            raise Fault(f"store of {len(content)} bytes at {address:#x}")
        return is_stored

    # ---- guests

    def guest(self, rec, step, *operands):
        """Gives the guest of a REC a step, by its name in STEPS. Returns 'queued', 'full' or 'no REC'.

        OPERANDS has how many operands a step has; one that is left out is 0. Too few or too many are a TypeError.
        """
        if step not in STEPS:
            raise ValueError(f"no step is named {step!r}")
        least, most = OPERANDS.get(step, (0, 0))
        if not least <= len(operands) <= most:
            raise TypeError(f"{step} has {least} to {most} operands, and not {len(operands)}")
        it = _Step(STEPS.index(step), *map(_number, operands))
        return QUEUED[self._call("guest", _number(rec), ctypes.byref(it))]

    def interrupt(self, rec):
        """Ends the run of a REC. The answer is that of its entry; None if it is not RUNNING."""
        word = _U64()
        if not self._call("interrupt", _number(rec), ctypes.byref(word)):
            return None
        # (an entry that a line made has a run page that is not known here)
        run = self._runs.pop(rec, None)
        return Answer(word.value, exit=None if word.value or run is None else self._exit(run))

    def results(self, rec):
        """The results since the last entry of a REC, each with its value, as ('read', 5)."""
        result, found = _Result(), []
        while self._call("result", _number(rec), len(found), ctypes.byref(result)):
            found.append((RESULTS[result.kind], result.value))
        return found

    # ---- lines of traces

    def line(self, text):
        """The answer to a line of a trace, as 'RMI_SUCCESS'; '' to a comment, and to a platform: a fresh machine."""
        # (an interrupt or a platform ends runs; what run page a later entry has is not known here)
        if text.startswith(("interrupt ", "platform ")):
            self._runs.clear()
        line, room = text.encode(errors="surrogateescape"), ctypes.create_string_buffer(ANSWER_SIZE)
        count = self._call("line", line, len(line), room, len(room))
        if count == NOT_ANSWERED:
            raise MemoryError("there is no memory for the answer")
        return room.raw[:count].decode()

    def lines(self, lines):
        """Each line of a trace with the model's answer, as `rmitrace answer` prints it. It performs one line after another."""
        for text in lines:
            text = text.rstrip("\n")
            bare = text.partition("#")[0].rstrip(" \r")
            question, answer = bare.partition(" = ")[0], self.line(text)
            yield question + (f" = {answer}" if answer else "") + text[len(bare) :]

    # ---- readings, which no host has

    def read_state(self, address):
        """The state of a granule, as 'DELEGATED'; None if there is none."""
        state = _U64()
        return GRANULE_STATES[state.value] if self._call("read_state", _number(address), ctypes.byref(state)) else None

    def read_word(self, address, index):
        """The eight bytes from 8 * index on of a granule in any state; None if there is none, and above index 511."""
        word = _U64()
        is_read = self._call("read_word", _number(address), _number(index), ctypes.byref(word))
        return word.value if is_read else None

    def read_realm(self, rd):
        """The realm whose RD is at an address; None if none is."""
        it = _Realm()
        if not self._call("read_realm", _number(rd), ctypes.byref(it)):
            return None
        _, *numbers = (getattr(it, name) for name in _REALM)
        return Realm(REALM_STATES[it.state], *numbers, bytes(it.rim)[: (32, 64)[it.hash_algo]])

    def read_rec(self, rec):
        """The REC at an address; None if none is."""
        it = _Rec()
        if not self._call("read_rec", _number(rec), ctypes.byref(it)):
            return None
        flags = bool(it.is_runnable), bool(it.is_psci_pending)
        ripas = it.ripas_base, it.ripas_top, RIPAS[it.ripas_value]
        return Rec(REC_STATES[it.state], it.mpidr, *flags, *ripas, it.step_count, it.result_count)


def _method(name):
    _, operands, outputs = COMMANDS[name]

    def method(self, *given):
        return self.command(name, *given)

    method.__name__, method.__qualname__ = name, f"Rmm.{name}"
    shown = f"; the outputs are {', '.join(outputs)}" if outputs else ""
    method.__doc__ = f"RMI_{name.upper()}: takes {', '.join(operands)}{shown}."
    return method


for _name in COMMANDS:
    setattr(Rmm, _name, _method(_name))
