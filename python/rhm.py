"""The host of realm builds, from Python: alone, or in front of an RMM.

    from rhm import Host

    with Host(pages=64, builds=2, base=0x80000000) as host:
        host.take(0, 3).value                      # 0: the number of the first page
        host.delegate(0, 0)                        # Result(RHM_DONE, 0)
        host.delegate(0, 9).name                   # 'RHM_NOT_LEASED'
        host.undo(0).value                         # 1: one operation is left open
        host.run(0, "delegate", 1, perform=smc)    # in front of an RMM

A method has the name of a kind of command; its first argument is the number of the build. `run`, `run_undo` and
`run_abort` perform the operations of a command or of an undo by a function of the caller, `perform(action)`. It returns
X0 and X1 for a call, and what it returns for any other operation does not matter. A number below 0 or from 2^64 on is an
OverflowError, and a host that is closed a ValueError.

This needs librhm.so.0 (`make c-library`). It is looked for at the path of $RHM_LIBRARY, beside this file, in the folder
build/ of the repository, and where the system has its libraries. Where it is not found, there is an OSError.
"""
import ctypes
import operator
import os
from pathlib import Path
from typing import NamedTuple

__all__ = ["Host", "Result", "Action", "NoHost"]

MOST = 2**64 - 1
STATUSES = (
    "RHM_DONE", "RHM_NO_BUILD", "RHM_ABORTING", "RHM_BAD_ORDER", "RHM_NOT_LEASED", "RHM_REALM_THERE", "RHM_NO_REALM",
    "RHM_NOTHING_TO_UNDO", "RHM_REC_RUNNING", "RHM_JOURNAL_FULL", "RHM_HISTORY_FULL", "RHM_NO_BLOCK", "RHM_NO_VMID",
    "RHM_RMI", "RHM_HANDLE_CLOSED", "RHM_NO_COMMAND", "RHM_DIVERGED", "RHM_OTHER_OUTPUT",
)
DONE, ABORTING = 0, 2
# X0 and X1 where no call was made.
NOT_CALLED = 255, 0
GRANULE_STATES = ("UNDELEGATED", "DELEGATED", "RD", "REC", "REC_AUX", "DATA", "RTT")
ACTIONS = (
    "none", "store", "load", "realm_params", "rec_params", "call", "call_enter", "interrupt", "guest_write", "guest_spin",
    "guest_saw",
)
# The answers of rhm_open.
OPENED, NO_HOST, NO_MEMORY = 0, 1, 2
# The defaults of rhm_settings, in the sequence of its fields.
NUMBERS = {"pages": 1024, "vmids": 255, "aux": 2, "builds": 8, "history": 2048, "base": 0x80000000}
# Of each kind of command its operands, in the sequence of the kinds.
COMMANDS = {
    "take": ("order",),
    "fill": ("page", "value"),
    "peek": ("page", "offset"),
    "delegate": ("page",),
    "realm": ("page", "second", "width"),
    "rtt": ("page", "ipa", "level"),
    "ripas": ("ipa", "count"),
    "data": ("page", "ipa", "second"),
    "unknown": ("page", "ipa"),
    "rec": ("page", "aux"),
    "activate": (),
    "enter": ("rec", "run"),
    "exit": ("rec",),
    "poke": ("rec", "ipa", "offset", "value", "run"),
}
KINDS = {name: number for number, name in enumerate(COMMANDS)}
OPERANDS = ("order", "page", "second", "ipa", "level", "count", "width", "rec", "offset", "value", "run")
EVENT = (
    "build", "kind", "granule", "second", "ipa", "level", "count", "width", "rec", "offset", "value", "vmid",
)
# Of each kind of event its operands as a line has them, in the sequence of the kinds.
EVENT_OPERANDS = {
    "take": "order granule", "untake": "order granule", "fill": "granule value", "peek": "granule offset value",
    "delegate": "granule", "undelegate": "granule", "realm": "granule second width vmid",
    "unrealm": "granule second width vmid", "activate": "", "rtt": "granule ipa level", "unrtt": "granule ipa level",
    "ripas": "ipa count", "data": "granule ipa second", "unknown": "granule ipa", "undata": "granule ipa",
    "rec": "granule rec aux", "unrec": "granule rec aux", "enter": "rec", "exit": "rec", "poke": "rec ipa offset value",
}
EVENTS = tuple(EVENT_OPERANDS)
FIELDS = (
    "x0", "x1", "x2", "x3", "x4", "x5", "x6", "address", "count", "value", "ipa", "vmid", "tables", "output", "has_output",
)

_U64, _BOOL = ctypes.c_uint64, ctypes.c_bool
_TO = ctypes.POINTER


class NoHost(ValueError):
    """A setting is out of its range."""


class Result(NamedTuple):
    """The status of a call, and its value."""

    status: int
    value: int

    @property
    def name(self):
        """The name of the status, as RHM_NO_BLOCK."""
        return STATUSES[self.status] if self.status < len(STATUSES) else "?"

    @property
    def is_done(self):
        return self.status == DONE

    def __repr__(self):
        return f"Result({self.name}, {self.value})"


class Action:
    """An operation of a host on an RMM: its kind, its registers x0 to x6 and its operands, which are attributes."""

    def __init__(self, it):
        self.kind = ACTIONS[it.kind] if it.kind < len(ACTIONS) else "none"
        for name in FIELDS:
            setattr(self, name, getattr(it, name))
        self.aux = list(it.aux)

    @property
    def is_call(self):
        """Whether it is an SMC, whose X0 and X1 the host needs."""
        return self.kind in ("call", "call_enter")

    @property
    def registers(self):
        return [self.x0, self.x1, self.x2, self.x3, self.x4, self.x5, self.x6]

    @property
    def params(self):
        """The parameter page of 4096 bytes, with the fields that the host decides; None for another operation."""
        page = bytearray(4096)

        def put(offset, value, count):
            page[offset : offset + count] = value.to_bytes(count, "little")

        if self.kind == "realm_params":
            for field in ((0x008, self.value, 1), (0x800, self.vmid, 2), (0x808, self.tables, 8), (0x810, 1, 8), (0x818, self.count, 4)):
                put(*field)
        elif self.kind == "rec_params":
            for field in ((0x000, 1, 8), (0x100, self.value, 8), (0x800, self.count, 8)):
                put(*field)
            for k, address in enumerate(self.aux):
                put(0x808 + 8 * k, address, 8)
        else:
            return None
        return bytes(page)

    def __repr__(self):
        if self.is_call:
            return f"Action({self.kind} {' '.join(f'{it:#x}' for it in self.registers)})"
        return f"Action({self.kind} {self.address:#x})"


class Actions(list):
    """The operations for a command, in sequence. `expected` is X0 of the model: 0, or the word of its refusal."""

    def __init__(self, it):
        super().__init__(Action(one) for one in it.actions[: it.count])
        self.expected = it.expected


class _Handle(ctypes.Structure):
    _fields_ = [("is_open", _BOOL), ("host", ctypes.c_void_p)]


class _Settings(ctypes.Structure):
    _fields_ = [(name, _U64) for name in NUMBERS]


class _Command(ctypes.Structure):
    _fields_ = [("kind", _U64), *[(name, _U64) for name in OPERANDS], ("aux_count", _U64), ("aux", _U64 * 16)]


class _Action(ctypes.Structure):
    _fields_ = [("kind", _U64), *[(name, _U64) for name in FIELDS], ("aux", _U64 * 16)]


class _Actions(ctypes.Structure):
    _fields_ = [("count", _U64), ("expected", _U64), ("actions", _Action * 5)]


class _Answer(ctypes.Structure):
    _fields_ = [("x0", _U64), ("x1", _U64)]


class _Reading(ctypes.Structure):
    def as_dict(self):
        return {name: getattr(self, name) for name, _ in self._fields_}


class _Build(_Reading):
    _fields_ = [(name, _U64) for name in ("page_count", "open_count", "mark", "has_mark", "is_aborting")]

    def as_dict(self):
        return {**super().as_dict(), "has_mark": self.has_mark == 1, "is_aborting": self.is_aborting == 1}


class _Page(_Reading):
    _fields_ = [("address", _U64), ("state", _U64)]


class _Realm(_Reading):
    _fields_ = [(name, _U64) for name in ("rd", "tables", "state", "vmid", "width", "next_rec")]


class _Rec(_Reading):
    _fields_ = [("address", _U64), ("state", _U64)]


class _Event(_Reading):
    _fields_ = [*[(name, _U64) for name in EVENT], ("aux", _U64 * 16)]

    def as_dict(self):
        kind = EVENTS[self.kind]
        aux = self.aux[: self.count] if kind in ("rec", "unrec") else []
        return {**super().as_dict(), "kind": kind, "aux": aux}


_FUNCTIONS = {
    "open": (_U64, _TO(_Settings)), "close": (None,),
    "ask": (_U64, _U64, _TO(_Command), _TO(_U64)), "undo": (_U64, _U64, _TO(_U64)),
    "prepare": (_U64, _U64, _TO(_Command), _TO(_Actions)), "prepare_undo": (_U64, _U64, _TO(_Actions)),
    "commit": (_U64, _U64, _TO(_Command), _TO(_Answer), _TO(_U64)),
    "commit_undo": (_U64, _U64, _TO(_Answer), _TO(_U64)),
    "begin_abort": (_U64, _U64, _TO(_U64)), "abort": (_U64, _U64, _TO(_U64)),
    "mark": (_U64, _U64, _TO(_U64)), "roll_back": (_U64, _U64, _TO(_U64)),
    "free_count": (_U64,), "read_build": (_BOOL, _U64, _TO(_Build)), "read_page": (_BOOL, _U64, _U64, _TO(_Page)),
    "read_realm": (_BOOL, _U64, _TO(_Realm)), "read_rec": (_BOOL, _U64, _U64, _TO(_Rec)),
    "event_count": (_U64,), "read_event": (_BOOL, _U64, _TO(_Event)),
}


# (rmm.py has _places and load too: each of the modules is one file, which needs no other one beside it)
def _places():
    here = Path(__file__).resolve().parent
    named = os.environ.get("RHM_LIBRARY")
    if named:
        return [named]
    # (installed, it lies in PREFIX/share/realmhost/python, and the library in PREFIX/lib)
    folders = [here, here.parent / "build", here.parent.parent.parent / "lib"]
    near = [folder / "librhm.so.0" for folder in folders]
    return [str(it) for it in near if it.exists()] + ["librhm.so.0"]


def load(path=None):
    """The library, at this path or where it is looked for. A call keeps the interpreter's lock: no two come at once."""
    try:
        library = ctypes.PyDLL(path or _places()[0])
    except OSError as error:
        hint = "`make c-library` builds the library, and RHM_LIBRARY can name its path"
        raise OSError(f"{error} ({hint})") from None
    for name, (result, *given) in _FUNCTIONS.items():
        function = getattr(library, f"rhm_{name}")
        function.restype, function.argtypes = result, [_TO(_Handle), *given]
    return library


def _number(it):
    """A number of 64 bits: ctypes would cut another."""
    it = operator.index(it)
    if not 0 <= it <= MOST:
        raise OverflowError(f"64 bits do not hold {it}")
    return it


def _command(name, operands):
    if name not in COMMANDS:
        raise TypeError(f"there is no command {name}")
    if len(operands) != len(COMMANDS[name]):
        raise TypeError(f"{name} takes {', '.join(COMMANDS[name]) or 'no operand'}")
    command = _Command(kind=KINDS[name])
    for field, value in zip(COMMANDS[name], operands):
        if field != "aux":
            setattr(command, field, _number(value))
            continue
        command.aux_count = len(value)
        for k, page in enumerate(value[:16]):
            command.aux[k] = _number(page)
    return command


def _line(event, base):
    """The line of an event."""
    granule = lambda address: (address - base) // 4096
    values = {**event, "order": event["count"].bit_length() - 1, "granule": granule(event["granule"])}
    values.update(second=granule(event["second"]), aux=" ".join(str(granule(it)) for it in event["aux"]))
    operands = [str(values[name]) for name in EVENT_OPERANDS[event["kind"]].split()]
    return " ".join(it for it in [str(event["build"]), event["kind"], *operands] if it)


_loaded = {}


class Host:
    """A host with the settings of `rhm_settings`, each of which has its default."""

    def __init__(self, *, library=None, **settings):
        self._handle = None
        unknown = set(settings) - set(NUMBERS)
        if unknown:
            raise TypeError(f"there is no setting {min(unknown)}")
        if library not in _loaded:
            _loaded[library] = load(library)
        self._library, handle = _loaded[library], _Handle()
        given = _Settings(*[_number(settings.get(name, number)) for name, number in NUMBERS.items()])
        answer = self._library.rhm_open(ctypes.byref(handle), ctypes.byref(given))
        if answer == NO_HOST:
            raise NoHost(NoHost.__doc__)
        if answer == NO_MEMORY:
            raise MemoryError("there is no memory for the host")
        self._handle, self._settings = handle, given

    def close(self):
        """Gives the memory back. A host that is closed stays closed."""
        handle, self._handle = self._handle, None
        if handle is not None:
            self._library.rhm_close(ctypes.byref(handle))

    def __enter__(self):
        return self

    def __exit__(self, *_):
        self.close()

    def __del__(self):
        if getattr(self, "_handle", None) is not None:
            self.close()

    def __copy__(self):
        raise TypeError("a host cannot be copied")

    def __deepcopy__(self, _):
        raise TypeError("a host cannot be copied")

    def __reduce__(self):
        raise TypeError("a host cannot be copied")

    def _call(self, name, *given):
        if self._handle is None:
            raise ValueError("the host is closed")
        return getattr(self._library, f"rhm_{name}")(ctypes.byref(self._handle), *given)

    def _valued(self, name, *given):
        value = _U64()
        status = self._call(name, *given, ctypes.byref(value))
        return Result(status, value.value)

    # ---- on the model at once

    def ask(self, build, name, *operands):
        """Performs a command by its name."""
        return self._valued("ask", _number(build), ctypes.byref(_command(name, operands)))

    def __getattr__(self, name):
        if name in COMMANDS:
            return lambda build, *operands: self.ask(build, name, *operands)
        raise AttributeError(name)

    def undo(self, build):
        """Reverses the newest operation that a build has open."""
        return self._valued("undo", _number(build))

    def begin_abort(self, build):
        return self._valued("begin_abort", _number(build))

    def abort(self, build):
        return self._valued("abort", _number(build))

    def mark(self, build):
        return self._valued("mark", _number(build))

    def roll_back(self, build):
        return self._valued("roll_back", _number(build))

    # ---- in front of an RMM

    def prepare(self, build, name, *operands):
        """The Actions for a command; or the Result that refuses it. Nothing changes."""
        return self._prepared("prepare", _number(build), ctypes.byref(_command(name, operands)))

    def prepare_undo(self, build):
        return self._prepared("prepare_undo", _number(build))

    def _prepared(self, name, *given):
        actions = _Actions()
        status = self._call(name, *given, ctypes.byref(actions))
        return Actions(actions) if status == DONE else Result(status, 0)

    def commit(self, build, name, *operands, answer=(0, 0)):
        """Commits a command that was prepared, after an answer with this X0 and X1."""
        return self._valued("commit", _number(build), ctypes.byref(_command(name, operands)), ctypes.byref(_Answer(*map(_number, answer))))

    def commit_undo(self, build, answer=(0, 0)):
        return self._valued("commit_undo", _number(build), ctypes.byref(_Answer(*map(_number, answer))))

    @staticmethod
    def _performed(actions, perform):
        answer = NOT_CALLED
        for action in actions:
            got = perform(action)
            if action.is_call:
                answer = tuple(got)[:2]
        return answer

    def run(self, build, name, *operands, perform):
        """Prepares a command, performs its operations by `perform`, and commits it."""
        actions = self.prepare(build, name, *operands)
        if isinstance(actions, Result):
            return actions
        return self.commit(build, name, *operands, answer=self._performed(actions, perform))

    def run_undo(self, build, *, perform):
        """An undo in the two steps. The value is the number of operations that are left open, also if the RMM refuses it."""
        actions = self.prepare_undo(build)
        if isinstance(actions, Result):
            return actions
        result = self.commit_undo(build, self._performed(actions, perform))
        return result if result.is_done else Result(result.status, self.read_build(build)["open_count"])

    def settle_undo(self, build):
        """Commits the next undo with the output that the host expects, and performs nothing: the RMM has performed it."""
        actions = self.prepare_undo(build)
        if isinstance(actions, Result):
            return actions
        return self.commit_undo(build, (0, sum(it.output for it in actions)))

    def run_abort(self, build, *, perform):
        """Begins an abort or goes on with it, up to an undo that is not done. The Result of the last undo. After
        RHM_OTHER_OUTPUT settle_undo has to come first."""
        result = self.begin_abort(build)
        if result.status == ABORTING:
            result = Result(DONE, 1)
        while result.is_done and result.value > 0:
            result = self.run_undo(build, perform=perform)
        return result

    # ---- readings; None if there is nothing to read

    @property
    def free_count(self):
        return self._call("free_count")

    def _read(self, kind, name, *numbers):
        it = kind()
        return it.as_dict() if self._call(name, *map(_number, numbers), ctypes.byref(it)) else None

    def read_build(self, build):
        return self._read(_Build, "read_build", build)

    def read_page(self, build, page):
        return self._read(_Page, "read_page", build, page)

    def read_realm(self, build):
        return self._read(_Realm, "read_realm", build)

    def read_rec(self, build, number):
        return self._read(_Rec, "read_rec", build, number)

    @property
    def history(self):
        """The events: each a dictionary, with the name of its kind."""
        return [self._read(_Event, "read_event", number) for number in range(self._call("event_count"))]

    @property
    def history_text(self):
        """The history as the lines that `realmview apply` reads."""
        it = self._settings
        opening = f"history 1 {it.pages} {it.vmids} {it.aux} {it.history} {it.builds}"
        return "".join(f"{line}\n" for line in [opening, *[_line(event, it.base) for event in self.history]])
