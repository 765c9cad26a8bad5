"""The examples: those in C and C++ over build/librmm.a, and those in Python over build/librmm.so.0.

  calls      the calls of smccc.h pass on their registers, and return the results
  first      the program of LINK-A-HOST.md prints what the tutorial shows, and has the code that it shows
  boot       the host boots a realm, each exit is the one that its guest asks for, and nothing is left. The RIM of one
             page is the one that is known. The log of the calls is right, says the second model
  fail_each  if a call is refused, by any word, no granule stays delegated or lost; each of five planted leaks is found
  window     a host's wrong access ends the process with a line that names the granule; a right one does not
  interrupt  a guest that spins is interrupted over window.h: the exit is in the run page, and the log is right
  lives      the lives of a realm in C++ and Python are the same, and right, says the second model
  drive      all traces by registers are answered as they are written, at their addresses and moved; each machine is
             taken down
  mistakes   an RMM with a mistake is found, a line with one, and an RMM that does not answer
  log        what `drive.py --log` prints is right, says the second model
  table      the tables of `drive.py --c` run without a difference, and their output is right, says the second model
  plans      so do those of `realmview calls --c` of all plans, if bin/ has it

`make c-test` also has all tables, larger images, the sanitizers and valgrind; and CMake and Meson build the examples over the
installed package, and run them. A C compiler is needed.
"""
import os
import re
import resource
import shutil
import subprocess
import sys

import pytest

import c_programs
from c_programs import MEMCHECK, with_python
from differences import same
from programs import SHARED, STATIC, TOP, VIEW, needs, parts
from programs import ran as run

HERE, EXAMPLES, TRACES = TOP / "tests/examples_c", TOP / "examples", TOP / "traces/rmm"
SANITIZERS = ["-fsanitize=address,undefined", "-fno-sanitize-recover=all"]
COMPILERS, LEAKS = ("gcc", "clang"), 5
# Of so many traces and machines one is tried, if all of them would take long.
EACH = 8
HOST = [EXAMPLES / "c" / f"{name}.c" for name in ("host", "host_run", "granules", "window")]
JUDGE = [sys.executable, TOP / "tests/second_rmm", "check"]

# The exits that the guests of guest.h make. RMM 1.0: the esr of an abort is 0x90000004 and the level where the walk
# ends, if it can be emulated 0x91000004, with 0x40 for a write; hpfar is the page's number in bits 63:4.
EXITS = """\
REC 0: SYNC, esr 0x90000007, hpfar 0x801ff0, gprs 0x0
REC 0: SYNC, esr 0x91000046, hpfar 0x1090000, gprs 0x68
UART: h
REC 0: SYNC, esr 0x91000046, hpfar 0x1090000, gprs 0x69
UART: i
REC 0: RIPAS_CHANGE, esr 0x0, hpfar 0x0, gprs 0x0
REC 0: SYNC, esr 0x91000046, hpfar 0x1800020, gprs 0x2a
REC 0: HOST_CALL, esr 0x0, hpfar 0x0, gprs 0x0
shared: 42
REC 0: RIPAS_CHANGE, esr 0x0, hpfar 0x0, gprs 0x0
REC 0: SYNC, esr 0x90000007, hpfar 0x800020, gprs 0x0
REC 0: PSCI, esr 0x0, hpfar 0x0, gprs 0xc4000003
REC 1: SYNC, esr 0x91000046, hpfar 0x1090000, gprs 0x32
UART: 2
REC 1: PSCI, esr 0x0, hpfar 0x0, gprs 0x84000002
REC 0: PSCI, esr 0x0, hpfar 0x0, gprs 0xc4000004
REC 0: PSCI, esr 0x0, hpfar 0x0, gprs 0x84000008
off: 0 granules are in use
"""
# The RIM after traces/rmm/kvm-boot.trace has made the same realm, page and REC.
RIM = "3dfd809fc28200386ed791bc6d4dec892afae01d89a16dd888612e84f1673fa8"


def judged(log):
    """The number of answers of a log that the second model has compared. All of them have to be its own."""
    last = run(JUDGE, input=log).splitlines()[-1]
    count, same_, *others = last.split()
    same("the verdict", (same_, others), ("same,", ["0", "allowed,", "0", "wrong"]))
    return int(count)


class Room(c_programs.Room):
    """A folder with the compiled programs."""

    def compiled(self, name, sources, *flags, compiler=None, **how):
        more = ["-O1", "-g", "-Wno-sign-conversion", *flags]
        return super().compiled(name, [*sources, STATIC], *more, compiler=compiler or compilers()[0], **how)


def compilers():
    return [it for it in COMPILERS if shutil.which(it)]


# ---- C


def calls(room):
    for compiler in compilers():
        program = room.compiled(f"smccc-{compiler}", [HERE / "smccc.c"], compiler=compiler)
        same("the last line", run([program]).splitlines()[-1], "18 checks passed")


def first(room):
    source, tutorial = EXAMPLES / "c/first.c", (TOP / "docs/tutorial/LINK-A-HOST.md").read_text()
    printed = "".join(re.findall(r"^```text\n(.*?)^```$", tutorial, re.M | re.S))
    for compiler in compilers():
        same("the output", run([room.compiled(f"first-{compiler}", [source], compiler=compiler)]), printed)
    blocks = re.findall(r"^```c\n(.*?)^```$", tutorial, re.M | re.S)
    same("the number of blocks", len(blocks), 5)
    same("blocks that first.c has not got", [it for it in blocks if it not in source.read_text()], [])


def boot(room):
    for compiler in compilers():
        program = room.compiled(f"boot-{compiler}", [EXAMPLES / "c/boot.c", *HOST], compiler=compiler)
    log = room.folder / "boot.log"
    rim, exits = run([program, "8", log]).split("\n", 1)
    same("the exits", exits, EXITS)
    # (of 8 pages at least two calls each, to map them and to take them down)
    same("that there are calls", judged(log.read_text()) > 100, True)
    same("the RIM of one page", run([program, "1"]).splitlines()[0], f"RIM {RIM}")
    same("the exits with 2 MiB", run([program, "512"]).split("\n", 1)[1].splitlines()[-1], EXITS.splitlines()[-1])


def fail_each(room):
    pages = "64" if room.is_all else "3"
    for compiler in compilers():
        program = room.compiled(f"fail_each-{compiler}", [EXAMPLES / "c/fail_each.c", *HOST], compiler=compiler)
    said = run([program, pages]).splitlines()
    same("the number of lines", len(said), 1)
    same("the end", said[0].split(": ")[1], "0 leave granules delegated or lost")
    same("that there are runs", int(said[0].split()[0]) > 500, True)
    for leak in range(1, LEAKS + 1):
        program = room.compiled(f"leak-{leak}", [EXAMPLES / "c/fail_each.c", *HOST], f"-DLEAK={leak}")
        said = run([program, "1"], status=1).splitlines()
        same(f"leak {leak}", said[0].endswith("is DELEGATED"), True)


def window(room):
    # (a program that ends by a fault leaves no file)
    resource.setrlimit(resource.RLIMIT_CORE, (0, resource.getrlimit(resource.RLIMIT_CORE)[1]))
    program = room.compiled("wrong_access", [HERE / "wrong_access.c", EXAMPLES / "c/window.c"])
    same("a right access", run([program, "1"]), "")
    line = "window: the host has no access to 0x40003006: granule 0x40003000 is DELEGATED\n"
    same("a wrong access", run([program, "0"], status=-11), line)
    line = "window: the host has no access to 0x4000f006: granule 0x4000f000 is UNDELEGATED, and secure\n"
    same("an access to secure memory", run([program, "2"], status=-11), line)


def interrupt(room):
    for compiler in compilers():
        log = room.folder / f"interrupt-{compiler}.log"
        sources = [HERE / "interrupt.c", EXAMPLES / "c/window.c"]
        program = room.compiled(f"interrupt-{compiler}", sources, compiler=compiler)
        same("the last line", run([program, log]).splitlines()[-1], "9 checks passed")
        lines = [it for it in log.read_text().splitlines() if it.startswith("interrupt")]
        same("the line of the interrupt", lines, ["interrupt 0x40001000 = RMI_SUCCESS, exit IRQ"])
        # (16 delegations, a realm, a REC, its activation, two entries, a step, the interrupt)
        same("the answers", judged(log.read_text()), 23)


def lives(room):
    source, printed = [EXAMPLES / "c/realm_life.cpp"], set()
    for compiler in (it for it in ("g++", "clang++") if shutil.which(it)):
        for standard in "c++11", "c++17":
            it = room.compiled(f"life-{compiler}-{standard}", source, compiler=compiler, standard=f"-std={standard}")
            printed.add(run([it]))
    printed.add(run([sys.executable, EXAMPLES / "c/realm_life.py"], env=with_python(TOP / "python")))
    same("the number of lives", len(printed), 1)
    same("the answers", judged(printed.pop()), 25)


# ---- Python


def driver_modules():
    sys.path[:0] = [str(EXAMPLES), str(TOP / "python")]
    import drive
    import rmi_lines

    return drive, rmi_lines


def traces():
    """All traces by registers."""
    found = [it for folder in (TOP / "traces", TRACES, TRACES / "random") for it in sorted(folder.glob("*.trace"))]
    return [path for path in found if "\nplatform " in f"\n{path.read_text()}"]


def driven(rmm, paths, base=None, seconds=60.0):
    """The numbers of answers that are the same, refused, wrong, and left out. A machine that is not taken down is wrong too."""
    drive, _ = driver_modules()
    report = drive.Report(drive.Driver(rmm, seconds, base), is_log=True)
    with open(os.devnull, "w") as nowhere:
        shown, sys.stdout = sys.stdout, nowhere
        try:
            for path in paths:
                if not report.trace(path, path.read_text().splitlines()):
                    break
        finally:
            sys.stdout = shown
    return report.counts


def answers_of_calls(paths):
    """The number of lines of traces with an answer that a driver compares."""
    _, rmi_lines = driver_modules()
    lines = [rmi_lines.line_of(text) for path in paths for text in path.read_text().splitlines()]
    is_call = lambda line: line.question.split(" ")[0] not in rmi_lines.READINGS and line.answer != "no command"
    return sum(line.answer is not None and is_call(line) for line in lines)


def drive(room):
    module, _ = driver_modules()

    class TakenDown(module.Simulated):
        """The simulated RMM, which has to be as it was opened before each platform. The bytes of some are read."""

        count = 0

        def fresh(self, base, granules, settings):
            self.count += 1
            if self.rmm:
                first, count, _ = self.platform
                pages = range(first, first + 4096 * count, 4096)
                left = [it for it in pages if self.rmm.read_state(it) != "UNDELEGATED"]
                loaded = (self.rmm.load(it, 4096) or b"" for it in pages if self.count % EACH == 0)
                same("what is left of a machine", (left, any(it.strip(b"\0") for it in loaded)), ([], False))
            return super().fresh(base, granules, settings)

    for base, paths in (None, traces()), (0x300000000, traces() if room.is_all else traces()[::EACH]):
        counts = driven(TakenDown(), paths, base)
        answers = counts["same"], counts["refused"], counts["wrong"]
        same("the answers", answers, (answers_of_calls(paths), 0, 0))


def mistakes(room):
    module, _ = driver_modules()

    class WithoutGuest(module.Firmware):
        """Firmware whose guests perform no steps."""

        def __init__(self):
            it = module.Simulated()
            self.smc, self.store, self.load, self.fresh = it.smc, it.store, it.load, it.fresh

    class MakesNoRealm(module.Simulated):
        """RMI_REALM_CREATE is accepted, and nothing is made."""

        def smc(self, registers):
            return [0] * 5 if registers[0] == 0xC4000158 else super().smc(registers)

    class KeepsRealm(module.Simulated):
        """RMI_REALM_DESTROY is refused, so no machine is taken down."""

        def smc(self, registers):
            return [2, 0, 0, 0, 0] if registers[0] == 0xC4000159 else super().smc(registers)

    class Breaks(module.Simulated):
        """The connection to the RMM breaks at an entry."""

        def smc(self, registers):
            if registers[0] == 0xC400015C:
                raise ConnectionError
            return super().smc(registers)

    boot, life = TRACES / "kvm-boot.trace", TRACES / "life.trace"
    counts = driven(WithoutGuest(), [boot, life])
    same("the verdicts without a guest", (counts["wrong"], counts["left out"] > 0, counts["same"] > 0), (0, True, True))
    counts = driven(MakesNoRealm(), [boot])
    same("that a mistake is found", counts["wrong"] > 0, True)
    # (nothing is asked after it)
    counts, wanted = driven(KeepsRealm(), [life, boot]), driven(module.Simulated(), [life])
    same("a machine that is not taken down", counts, {**wanted, "wrong": 1})
    try:
        driven(Breaks(), [boot])
        raise AssertionError("an error of an entry is not raised")
    except ConnectionError:
        pass
    changed = life.read_text().replace("top 0x", "top 0x1", 1)
    said = run([sys.executable, EXAMPLES / "drive.py", "-"], status=1, input=changed)
    same("the wrong answers to a changed line", said.splitlines()[-1].split(", ")[2], "1 wrong")
    silent = f"""
import sys, time
sys.path.insert(0, {str(EXAMPLES)!r})
import drive
drive.Simulated.smc = lambda self, registers: time.sleep(600)
drive.main(['--seconds', '0.5', {str(life)!r}])
"""
    said = run([sys.executable, "-c", silent], status=1)
    same("an RMM that does not answer", said.endswith("has not come back in 0.5 seconds\n"), True)


def log(room):
    path = TRACES / "refusals.trace"
    printed = subprocess.run([sys.executable, EXAMPLES / "drive.py", "--log", path], capture_output=True, text=True)
    same("the status", printed.returncode, 0)
    same("that answers are compared", judged(printed.stdout) >= 50, True)


def table(room):
    """All tables in one program, which is compiled once."""
    paths, rows = traces() if room.is_all else traces()[::EACH], room.folder / "rows.inc"
    rows.write_text(run([sys.executable, EXAMPLES / "drive.py", "--c", *paths]))
    sources = [EXAMPLES / "c/table.c", EXAMPLES / "c/table_rmm.c"]
    said = run([room.compiled("table", sources, f'-DROWS="{rows}"')])
    same("the end", said.splitlines()[-1].startswith("# 0 of "), True)
    same("that the answers of each trace are compared", judged(said) >= len(paths), True)
    made = [len(re.findall(r"\.compared = 0x[1-9a-f]", it)) for it in re.split(r"^/\* .*\.trace \*/$", rows.read_text(), flags=re.M)[1:]]
    same("traces whose table compares nothing", (len(made), made.count(0)), (len(paths), 0))


def plans(room):
    """The tables of all plans in one program."""
    rows = room.folder / "plans.inc"
    paths = sorted(TOP.glob("plans/**/*.toml"))
    rows.write_text("".join(run([VIEW, "calls", "--c", it]) for it in paths))
    sources = [EXAMPLES / "c/table.c", EXAMPLES / "c/table_rmm.c"]
    said = run([room.compiled("plans", sources, f'-DROWS="{rows}"')])
    same("the end", said.splitlines()[-1].startswith("# 0 of "), True)
    same("that the answers of each plan are compared", judged(said) >= len(paths), True)


# ---- the installed package


def builds(room):
    run(["make", "-s", "-C", TOP, "install-c-library", f"DESTDIR={room.folder}", "PREFIX=/usr"])
    prefix = room.folder / "usr"
    source = prefix / "share/realmhost/examples/c"
    paths = {"PKG_CONFIG_PATH": str(prefix / "lib/pkgconfig"), "LD_LIBRARY_PATH": str(prefix / "lib")}
    how = {"env": {**os.environ, **paths}}
    words = run(["pkg-config", "--cflags", "--libs", "rmm"], **how).split()
    run([compilers()[0], source / "first.c", *words, "-o", room.folder / "first"], **how)
    same("the first line of first.c", run([room.folder / "first"], **how).splitlines()[0], "delegate: RMI_SUCCESS 0")
    out = room.folder / "cmake"
    run(["cmake", "-S", source, "-B", out], **how)
    run(["cmake", "--build", out], **how)
    run(["ctest", "--test-dir", out, "--output-on-failure"], **how)
    out = room.folder / "meson"
    run(["meson", "setup", out, source], **how)
    run(["meson", "test", "-C", out], **how)


# ---- what takes long


def sanitized(room):
    for name, sources, *words in (
        ("boot", [EXAMPLES / "c/boot.c", *HOST], "8"), ("fail_each", [EXAMPLES / "c/fail_each.c", *HOST], "1"),
        ("smccc", [HERE / "smccc.c"]),
    ):
        run([room.compiled(f"{name}-sanitized", sources, *SANITIZERS, compiler="clang"), *words])
    life = [EXAMPLES / "c/realm_life.cpp"]
    run([room.compiled("life-sanitized", life, *SANITIZERS, compiler="clang++", standard="-std=c++11")])


def in_valgrind(room):
    run([*MEMCHECK, room.compiled("boot-memcheck", [EXAMPLES / "c/boot.c", *HOST]), "4"])


# ---- tests


pytestmark = [pytest.mark.skipif(not compilers(), reason="there is no C compiler"), needs(STATIC, SHARED)]


@parts(calls, first, boot, fail_each, window, interrupt, lives, drive, mistakes, log, table, (plans, os.fspath(VIEW)))
def test_example(room, part):
    part(room)


@pytest.mark.long
@pytest.mark.parametrize("room", [True], ids=["all"], indirect=True)
@parts(fail_each, drive, table, (builds, "cmake", "meson", "pkg-config"), (sanitized, "clang"), (in_valgrind, "valgrind"))
def test_all_of_the_examples(room, part):
    part(room)
