"""The RMM for C, C++ and Python, as it is in build/.

  header     each function that the crate exports is declared in include/rmm.h with the same types, and no other is; its
             structures have the crate's fields; each function says what its caller has to guarantee. The libraries
             have these functions, and the shared one no other name
  defaults   RMM_DEFAULTS and those of the Python module are the defaults of the RMM's settings
  names      no name of the headers is one of a host's: each begins with rmm_ or RMM_
  numbers    the checks in the header and in the Python module have the names and the numbers of the definitions
  traces     each answer in traces/rmm comes through C and through Python, and before each call the check that decides it
             and the words that are allowed, as the second model has them; an answer that is another one is found
  lines      the lines of each trace of traces/ are answered as they are written, through C and through Python
  histories  the same in random histories of tests/random_rmm
  handles    closed handles, settings out of their range, two machines at once, accesses that a host may not make, and
             texts without room
  memory     each allocation of rmm_open and of rmm_line is refused in turn; every block is given back, and no other call
             takes one
  threads    two handles in two threads answer as one does
  Python     exits, exceptions, closed RMMs, numbers that no register holds
  C++        both headers are C++11
  document   the first programs of C.md do what they say, and are linked by what pkg-config says, also installed

`make c-test` also has the sanitizers and valgrind, and more histories. A C compiler is needed, $CC or cc.
"""
import os
import re
import sys
from functools import cached_property

import pytest

import c_programs
from c_programs import CXX, MEMCHECK, WRAPPED, Library, has_compiler, last_line, names_of
from differences import same
from programs import SHARED, STATIC, TOP, parts, ran

HERE = TOP / "tests/rmm_c"
sys.path += [os.fspath(HERE), os.fspath(TOP / "python")]
from judging import judged
from random_rmm.lives import history
from rmm_lines import differing, raw
from rmm_logs import paths, without_answers
from second_rmm.reading import parts_of

pytestmark = has_compiler(STATIC, SHARED)
TRACES = TOP / "traces/rmm"
HEADERS = [TOP / "include/rmm.h", TOP / "include/rmm_commands.h"]
# Random histories, and those of `make c-test`. Without it Python performs a part of the traces.
FEW, MANY = 10, 60

# The types of C, of those in the crate.
LIBRARY = Library("rmm", {
    "u8": "uint8_t", "u64": "uint64_t", "bool": "bool", "RmmHandle": "rmm_handle", "PlatformSettings": "rmm_settings",
    "SmcRegisters": "rmm_registers", "RawStep": "rmm_step", "GuestStepResult": "rmm_step_result",
    "RealmAttributes": "rmm_realm", "RecAttributes": "rmm_rec",
}, "RmmHandle", "docs/how-to/C.md", "RMI_ERROR_INPUT: gran_state\n")


# ---- header


def header(_room):
    wanted = LIBRARY.compare(15)
    # Each comment over functions says what is required of each pointer.
    text = HEADERS[0].read_text()
    for name, (_, kinds) in wanted.items():
        said = text[: re.search(rf"^\w+ {name}\(", text, re.M).start()].rsplit("/*", 1)[1]
        given = re.search(rf"\b{name}\(([^)]*)\)", text[text.index(f" {name}(") :])[1]
        pointers = [it.rsplit("*", 1)[1] for it in given.split(",") if "*" in it][1:]
        missing = [it for it in pointers if f"`{it}` is not NULL" not in said.split("Required:")[-1]]
        same(f"what is not said of {name}", ("Required: handle" in said, missing), (True, []))


def defaults(_room):
    """The settings of the header and of the Python module, by name, beside those of the RMM."""
    text = (TOP / "crates/rmi_abi/src/settings.rt").read_text()
    body = re.search(r"DEFAULT: RmmSettings = RmmSettings \{(.*?)\}", text, re.S)[1]
    wanted = dict(re.findall(r"(\w+): ([\w:]+),", body))
    wanted = {name: value.replace("_", "").replace("Layout::", "") for name, value in wanted.items()}
    macro = re.search(r"#define RMM_DEFAULTS\s*\\\n\s*\{(.*?)\}", HEADERS[0].read_text(), re.S)[1].replace("\\", "")
    fields = [name for name, _ in LIBRARY.structures()[1]["rmm_settings"]]
    of_header = dict(zip(fields, (it.strip() for it in macro.split(",")), strict=True))
    # (the number of granules is no setting of an RMM)
    count = of_header.pop("granules")
    same("RMM_DEFAULTS", {it: value.replace("RMM_REL0", "Rel0") for it, value in of_header.items()}, wanted)
    import rmm

    same("the settings of the module", [*rmm.NUMBERS, *rmm.FLAGS], fields)
    numbers = {it: int(of_header[it], 0) for it in fields if of_header.get(it, "").startswith(tuple("0123456789"))}
    same("the defaults of the module", rmm.NUMBERS, {"granules": int(count), **numbers, "layout": "rel0"})
    same("the flags", {wanted[it] for it in rmm.FLAGS}, {"false"})


def numbers(_room):
    """The checks of the header and of the Python module, beside the definitions of their names and numbers."""
    read = lambda path, pattern: dict(re.findall(pattern, (TOP / path).read_text(), re.M))
    names = read("crates/rmm_checks/specs/Names.antt", r'^name_of (\w+) = codes "(\w+)"')
    of_names = read("crates/rmm_model/specs/Allowed.antt", r"^condition_number (\w+) = (\d+)")
    wanted = {name: int(of_names[condition]) for condition, name in names.items()}
    text = HEADERS[1].read_text()
    same("the enum", {name.lower(): int(it) for name, it in re.findall(r"RMM_CHECK_(\w+) = (\d+)", text)}, wanted)
    table = re.search(r"rmm_check_name\(.*?names\[\] = \{(.*?)\}", text, re.S)[1]
    import rmm

    in_sequence = sorted(wanted, key=wanted.get)
    same("the numbers", [wanted[it] for it in in_sequence], list(range(1, len(wanted) + 1)))
    same("the names of the header", re.findall(r'"(\w+)"', table), in_sequence)
    same("the names of the module", list(rmm.CHECKS), in_sequence)


def names(_room):
    for path in HEADERS:
        found = names_of(path)
        same(f"the other names of {path.name}", {it for it in found if not re.match(r"rmm_|RMM_", it)}, set())
        same("the number of names", len(found) > 40, True)


# ---- programs


def widened(operation):
    """A guest that writes fewer than eight bytes has more bits in its register. They change nothing."""
    bits = lambda it: f"{it[1]}{int(it[2], 16) | 0xA5 << 8 * int(it[3], 16):x} {it[3]}"
    return re.sub(r"^(guest \w+ 0 \w+ )(\w+) ([124])\b", bits, operation)


class Room(c_programs.Room):
    """A folder with the compiled tests, and what they replay."""

    def test(self, name, *flags, **how):
        return self.compiled(name, [HERE / f"{name}.c", STATIC], *flags, **how)

    @cached_property
    def traces(self):
        """The raw operations of each trace, with judgements."""
        paths = [*sorted(TRACES.glob("*.trace")), *sorted(TRACES.glob("random/*.trace"))]
        found = [(path.name, list(judged(raw(path.read_text().splitlines())))) for path in paths]
        entries = dict(found)["raw-entries.trace"]
        return [("wide writes", [*map(widened, entries)]), *found]

    @cached_property
    def histories(self):
        return [(f"history {k}", list(judged(raw(history(k).lines)))) for k in range(MANY if self.is_all else FEW)]


def replayed(words, texts):
    """A program performs raw operations with the results that are written."""
    compared = 0
    for name, operations in texts:
        text = "".join(f"{it}\n" for it in operations)
        results = ran(words, input=text.encode()).splitlines()
        same(f"what differs in {name}", next(differing(operations, results), None), None)
        compared += sum(" = " in it for it in operations)
    same("the number of results", compared > 1000, True)


def traces_of_c(room):
    replayed([room.test("lines")], room.traces)
    # A program that answers otherwise is found.
    name, operations = room.traces[0]
    wrong = room.folder / "wrong"
    wrong.write_text(f"#!/bin/sh\n{room.folder}/lines | sed s/done/fault/\n")
    wrong.chmod(0o755)
    results = ran([wrong], input="".join(f"{it}\n" for it in operations).encode()).splitlines()
    same("what is found", " = done came as fault" in next(differing(operations, results), ""), True)


def traces_of_python(room):
    replayed([sys.executable, HERE / "lines.py"], room.traces if room.is_all else room.traces[:: MANY // FEW])


def lines(room):
    """The lines of traces, without their answers, get these answers back."""
    import rmm

    program, count = room.test("trace"), 0
    for path in paths():
        text = path.read_text()
        asked, answers = without_answers(text), [parts_of(it).answer or "" for it in text.splitlines()]
        same(f"{path.name} in C", ran([program], input=asked.encode()).splitlines(), answers)
        with rmm.Rmm(granules=1) as one:
            same(f"{path.name} in Python", [*one.lines(asked.splitlines())], text.splitlines())
        count += sum(it != "" for it in answers)
    same("the number of answers", count > 10_000, True)


def histories(room):
    replayed([room.test("lines")], room.histories)
    replayed([sys.executable, HERE / "lines.py"], room.histories[:FEW])


def handles(room):
    last_line(ran([room.test("handles")]), r"[1-9]\d* checks passed")


def memory(room):
    last_line(ran([room.test("no_memory", *WRAPPED)]), r"[1-9]\d* allocations were refused, each in turn")


def threads(room):
    last_line(ran([room.test("threads", "-pthread")]), "two threads answer as one")


def python(_room):
    last_line(ran([sys.executable, HERE / "module.py"]), "the module is as its text says")


def in_cpp(room):
    ran([room.from_text("both.cpp", """#include <rmm_commands.h>
int main() {
    rmm_handle handle = RMM_CLOSED;
    rmm_settings settings = RMM_DEFAULTS;
    uint64_t lower = 0;
    bool is_open = rmm_open(&handle, &settings) == RMM_OPENED;
    bool is_right = is_open && rmm_version(&handle, 0x10000, &lower, nullptr) == RMM_SUCCESS && lower == 0x10000;
    rmm_close(&handle);
    return is_right ? 0 : 1;
}
""", STATIC, compiler=CXX, standard="-std=c++11")])


# ---- the document


def of_the_document(room):
    said = LIBRARY.of_document(room, status=1)
    same("the program in Python", "DELEGATED RMI_ERROR_INPUT gran_state" in said, True)
    same("its exception", said[-1], "rmm.Refused: granule_delegate: RMI_ERROR_INPUT")


def by_pkg_config(room):
    LIBRARY.linked(room)


def installed(room):
    LIBRARY.installed(room, "import rmm; print(rmm.Rmm().version(0x10000).lower)", "65536\n")


# ---- what takes long


def sanitized(room):
    flags = ["-g", "-fsanitize=address,undefined", "-fno-sanitize-recover=all"]
    for name, *more in ("handles",), ("threads", "-pthread"):
        ran([room.test(name, *flags, *more, compiler="clang")])
    replayed([room.test("lines", *flags, compiler="clang")], room.traces)


def in_valgrind(room):
    ran([*MEMCHECK, room.test("handles")])
    ran([*MEMCHECK, room.test("no_memory", *WRAPPED)])


# ---- tests


def traces(room):
    traces_of_c(room)
    traces_of_python(room)


@parts(
    header, defaults, names, numbers, traces, lines, histories, handles, memory, threads, python, of_the_document, (in_cpp, CXX),
    (by_pkg_config, "pkg-config"), (installed, "make", "pkg-config"),
)
def test_library(room, part):
    part(room)


@pytest.mark.long
@pytest.mark.parametrize("room", [True], ids=["all"], indirect=True)
@parts(traces, histories, (sanitized, "clang"), (in_valgrind, "valgrind"))
def test_all_of_the_library(room, part):
    part(room)
