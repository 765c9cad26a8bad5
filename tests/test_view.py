"""The subcommands of realmview over plans, histories and what they refuse.

Of each plan of plans/, plans/guide/ and tests/runs/, `history` and then `apply` have to print the map at the end of the run
that is stored beside it; with `--erase B` at either of the two, they have to print what `realmhost replay --erase B` prints,
for each build.
`calls` has to print a trace of which `rmitrace check` finds each answer the same, or of a refused call allowed. With `--c` it has
to print the rows that `examples/drive.py --c` makes of that trace.
tests/histories/NAME.history is the standard input of `apply`, or of what NAME.args has, one word a line; NAME.txt is what is
expected: a line `status N`, standard output, and standard error, which begins after a line `--`. They are written by hand.
tests/lines/ has single lines, by hand too: those that `apply` has to take for an event or for an opening, and those that are none.
tests/checks/NAME.toml is the standard input of `check`, and NAME.txt is what is expected: a line `status N`, and standard output.
They are written by hand too. tests/reasons/NAME.toml is the standard input of `why`, and NAME.txt is its standard output, by hand
as well, and NAME.all that of `why --all`; of each plan, `why` has to print what a replay does, with the check that fails below
each refusal and nothing else, and the data of its page has to have the same words.
Of each plan that realmhost replays, `check` has to find no error, and of each that it refuses, one; so too of random plans.
"""
import contextlib
import io
import json
import os
import re
import sys
import tempfile

import pytest
from hypothesis import given

from answers import fault_of_a_check, map_of
from programs import HOST, LITTLE_MEMORY, PLANS, RUNS, TOP, TRACER, VIEW, data_of, files, named, needs, of_devices, over, run
from random_plans import CHANGED_PLANS, broken_plans, examples, random_plans

sys.path.append(str(TOP / "examples"))
from c_table import Table

pytestmark = needs(HOST, VIEW, TRACER)


@over("path", *PLANS, RUNS)
def test_history(check, path):
    """The map that the history of a plan leads to, whole and without each build."""
    plan = path.read_bytes()
    status, history, err = run(VIEW, ["history"], plan)
    check("history", (status, err), (0, b""))
    text = path.with_suffix(".txt").read_bytes()
    check("history, applied", run(VIEW, ["apply"], history), (0, b"".join(map_of(text)), b""))
    for build in range(int(history.split(b"\n", 1)[0].split()[-1])):
        words = ["--erase", str(build)]
        left = run(HOST, ["replay", *words], plan)
        check(f"left out after it, build {build}", run(VIEW, ["apply", *words], history), left)
        status, shorter, err = run(VIEW, ["history", *words], plan)
        check(f"left out before it, build {build}", (status, err, run(VIEW, ["apply"], shorter)), (0, b"", left))
        wanted = b"".join(line for line in history.splitlines(keepends=True) if not line.startswith(b"%d " % build))
        check(f"the lines without build {build}", shorter, wanted)


@over("path", *PLANS, RUNS)
def test_calls(check, path):
    """The calls of a plan are answered as they are written, by the RMM by registers. It has 4,096 granules at most."""
    status, calls, err = run(VIEW, ["calls", "--base", "0x88000000"], path.read_bytes())
    check("calls", (status, err), (0, b""))
    lines = [it for it in calls.splitlines() if not it.startswith(b"#")]
    if int(lines[0].split()[2]) <= 4096:
        answered = sum(b" = " in it for it in lines)
        wanted = b"%d same, 0 allowed, 0 wrong\n" % answered
        check("calls, answered", run(TRACER, ["check"], calls), (0 if answered else 1, wanted, b""))


# A plan of one build, in which the RMM refuses steps: each with the lines of its call, or with that there is none. The RMM
# is that of TRACES.md, at 0x80000000. Parameters and pages of runs are after 16 pages, and the last page of a run is 0x80051000.
OTHERWISE = "# no call: RMM 1.0 has none for it, or may answer otherwise"
REFUSED = (
    ("take 3", None), ("delegate 0", None), ("delegate 0", "rmi_granule_delegate 0x80000000 = RMI_ERROR_INPUT"), ("delegate 8", None),
    ("delegate 1", None), ("realm 0 1", None), ("data 2 0 3", "rmi_data_create 0x80000000 0x80002000 0x0 0x80003000 0x1 = RMI_ERROR_INPUT"),
    ("unknown 2 1", "rmi_data_create_unknown 0x80000000 0x80002000 0x1000 = RMI_ERROR_INPUT"),
    ("rtt 4 0 2", "rmi_rtt_create 0x80000000 0x80004000 0x0 2 = RMI_ERROR_INPUT"), ("fill 0 1", OTHERWISE), ("delegate 4", None),
    ("rtt 4 0 3", "rmi_rtt_create 0x80000000 0x80004000 0x0 3 = RMI_ERROR_RTT 1"), ("rtt 4 67108864 2", OTHERWISE),
    ("ripas 511 2", OTHERWISE), ("ripas 0 0", "rmi_rtt_init_ripas 0x80000000 0x0 0x0 = RMI_ERROR_INPUT"), ("ripas 0 1", OTHERWISE),
    ("delegate 5", None), ("delegate 6", None), ("rec 5 6", None), ("enter 0", "rmi_rec_enter 0x80005000 0x80051000 = RMI_ERROR_REALM"),
    ("activate", None), ("activate", "rmi_realm_activate 0x80000000 = RMI_ERROR_REALM"), ("enter 0", None),
    ("enter 0", "rmi_rec_enter 0x80005000 0x80051000 = RMI_ERROR_REC"), ("enter 1", OTHERWISE), ("poke 0 0 0 1", OTHERWISE),
)


def test_refused_calls(check):
    """The RMM's refusals are calls with their words, where RMM 1.0 has the same."""
    steps = [step for step, _ in REFUSED]
    plan = f"pages = 16\naux = 1\norder = {[0] * len(steps)}\n[[build]]\nsteps = {steps}\n".encode()
    status, calls, err = run(VIEW, ["calls"], plan)
    check("calls", (status, err), (0, b""))
    turns = re.split(r"^# 0 (.*) = (.*)\n", calls.decode(), flags=re.M)[1:]
    found = [(step, lines.rstrip("\n") if answer.startswith("no 13") else None) for step, answer, lines in zip(*[iter(turns)] * 3)]
    check("refused calls", found, list(REFUSED))


# A plan of one build with two pages of memory, of which the first alone is RAM. The guest writes 7 to byte 8 of each.
WRITES = ["take 4", "delegate 0", "delegate 1", "realm 0 1", "delegate 2", "delegate 3", "delegate 4", "rtt 2 0 2", "rtt 3 0 3", "ripas 0 1",
          "delegate 5", "unknown 5 0", "unknown 4 1", "delegate 6", "delegate 7", "rec 6 7", "activate", "enter 0", "poke 0 0 8 7", "poke 0 1 8 7"]  # fmt: skip


def test_writes_of_a_guest(check):
    """A guest's write to RAM is a line of the trace. Elsewhere RMM 1.0 refuses it, and a comment takes its place."""
    plan = f"pages = 16\naux = 1\norder = {[0] * len(WRITES)}\n[[build]]\nsteps = {WRITES}\n".encode()
    status, calls, err = run(VIEW, ["calls"], plan)
    check("calls", (status, err), (0, b""))
    (there,), (elsewhere,) = [re.findall(rf"^# 0 poke 0 {page} 8 7 = ok\n((?:(?!# 0 ).*\n)*)", calls.decode(), re.M) for page in (0, 1)]
    check("to RAM", [it for it in there.splitlines() if "write" in it], ["guest 0x80006000 write 0x8 0x7 = queued"])
    check("elsewhere", elsewhere, "# no call: the RIPAS there is not RAM, and in RMM 1.0 the guest's write is refused\n")


def rows_of(text):
    """The rows of a table of C, without what the trace alone has: the field of an exit, and zeros at an end."""
    rows = [it for it in text.splitlines() if it.startswith("{") and not re.search(r"LOAD.*, 0x1}, .out", it)]
    rows = [re.sub(r"(, 0x0)+}, .out", "}, .out", it) for it in rows]
    rows = [re.sub(r"(, 0)+}, .compared", "}, .compared", it) for it in rows]
    return [re.sub(r"(, .\w+ = 0x0)+}}", "}}", it) for it in rows]


@over("path", *PLANS, RUNS)
def test_rows_of_calls(check, path):
    """The rows of C are those that the driver makes of the trace."""
    status, rows, err = run(VIEW, ["calls", "--c", "--base", "0x88000000"], path.read_bytes())
    check("calls", (status, err), (0, b""))
    trace = run(VIEW, ["calls", "--base", "0x88000000"], path.read_bytes())[1].decode()
    with contextlib.redirect_stdout(io.StringIO()) as made:
        Table().trace(path.name, [it for it in trace.splitlines() if not it.startswith("#")])
    check("rows", rows_of(rows.decode()), rows_of(made.getvalue()))
    turns = [it.removeprefix("# ") for it in trace.splitlines() if it.startswith("#")]
    check("turns", [it.removeprefix("// ") for it in rows.decode().splitlines() if it.startswith("//")], turns)


def test_bases(check):
    """Granule 0 is at the base, and a base that is none is refused."""
    plan = (TOP / "plans/first.toml").read_bytes()
    for base in ("0x0", "0x3ffffffff000"):
        check(f"base {base}", run(VIEW, ["calls", "--base", base], plan)[1].split()[1], base.encode())
    for base in ("0x800", "0x400000000000", "1000", "0x", "0xg"):
        check(f"no base {base}", run(VIEW, ["calls", "--base", base], plan)[:2], (2, b""))


@over("path", "tests/histories", suffix="txt")
def test_stored_history(path):
    head, rest = path.read_bytes().split(b"\n", 1)
    out, err = rest.split(b"--\n", 1)
    args, given = path.with_suffix(".args"), path.with_suffix(".history")
    words = args.read_text().split() if args.exists() else ["apply"]
    assert run(VIEW, words, given.read_bytes() if given.exists() else b"") == (int(head.split()[1]), out, err)


def lines_of(name):
    """The lines of a file of tests/lines/, without its remarks."""
    for line in (TOP / f"tests/lines/{name}.txt").read_text().splitlines():
        if not line.startswith("#"):
            yield line.replace("\\t", "\t").replace("\\r", "\r").encode()


def test_lines(check):
    """The lines that are events and openings. An event may be refused, in words of its own."""
    opening, no_event, no_opening = b"history 1 4096 255 16 16384 8\n", b"line 2 is no event\n", b"line 1 opens no history\n"
    for line in lines_of("events"):
        told = run(VIEW, ["apply"], opening + line + b"\n")[2]
        check(f"event {line.decode()}", told == b"" or told.startswith(b"line 2 is refused: "), True)
    for line in [*lines_of("no_events"), b"0 \xff"]:
        check(f"no event {line!r}", run(VIEW, ["apply"], opening + line + b"\n"), (1, b"", no_event))
    for line in lines_of("openings"):
        pages = int(line.split()[2])
        check(f"opening {line.decode()}", run(VIEW, ["apply"], line + b"\n"), (0, b"free %d\n" % pages, b""))
    for line in lines_of("no_openings"):
        check(f"no opening {line!r}", run(VIEW, ["apply"], line + b"\n"), (1, b"", no_opening))


NO_PLANS = [path for path in files("tests/faults") if not path.with_suffix(".args").exists()]


@pytest.mark.parametrize("path", NO_PLANS, ids=named)
def test_fault(check, path):
    """Of bytes that are no plan each subcommand writes to standard error what `check` finds, and ends as a replay does."""
    plan = path.read_bytes()
    wanted = (run(HOST, ["replay"], plan)[0], b"", run(VIEW, ["check"], plan)[1])
    for word in "history", "json", "page", "why", "explore", "calls":
        check(word, run(VIEW, [word], plan), wanted)


@over("path", "tests/checks", suffix="txt")
def test_check(path):
    head, out = path.read_bytes().split(b"\n", 1)
    assert run(VIEW, ["check"], path.with_suffix(".toml").read_bytes()) == (int(head.split()[1]), out, b"")


def test_control_characters(check):
    """No report shows a control character of ASCII: neither as a byte of the plan, nor as an escape in a string."""
    for code in (*range(9), *range(11, 32), 127):
        for plan in (f"pages = 1 {chr(code)}[2J\n", f'pages = 1\n"{chr(code)}[2J" = 1\n', f'pages = 1\n"\\u{code:04x}[2J" = 1\n',
                     f'pages = 1\n[[build]]\nsteps = ["\\u{code:04x}[2J"]\n'):  # fmt: skip
            status, out, err = run(VIEW, ["check"], plan)
            shown = [it for it in out if ord(it) < 32 or ord(it) == 127]
            check(repr(plan), (status != 0, set(shown), err), (True, {"\n"}, ""))


@over("path", "tests/reasons")
def test_why(path):
    assert run(VIEW, ["why"], path.read_bytes()) == (0, path.with_suffix(".txt").read_bytes(), b"")


@over("path", "tests/reasons", suffix="all")
def test_why_all(path):
    assert run(VIEW, ["why", "--all"], path.with_suffix(".toml").read_bytes()) == (0, path.read_bytes(), b"")


# The text that follows RMI_ERROR_, by the status in a refusal.
RESULTS = {b"1": b"INPUT", b"2": b"REALM", b"3": b"REC", b"4": b"RTT, index %s"}
# The lines below that of a refused turn: what must be and what is, with the name of the refusal; what helps; how many checks passed.
BELOW = re.compile(rb"    error: .* \((.*)\)\n(    help: .*\n)?(    (1 earlier check|\d+ earlier checks) passed\n)?")


def name_of(line):
    """The name of the refusal of a turn, as the line of its check has it, or None."""
    step, _, refusal = line.partition(b" = no ")
    if not refusal:
        return None
    number, name, *rest = refusal.split()
    if number != b"13":
        return name
    if step.split()[1] in (b"fill", b"peek"):
        return b"on hardware: a granule protection fault"
    return b"RMI_ERROR_" + RESULTS[rest[0]].replace(b"%s", rest[1])


def fault_of_reasons(line, below):
    """The fault of the lines below a turn, or None: of a refusal, the check that fails comes first, and ends with its name."""
    name = name_of(line)
    if name is None:
        return f"words below {line}" if below else None
    found = BELOW.fullmatch(b"".join(it + b"\n" for it in below))
    return None if found and found[1] == name else f"{below} below {line}"


def unfinished(plan):
    """The lines of the aborts that are under way when the run of a plan ends, as its document has them."""
    builds = json.loads(run(VIEW, ["json"], plan)[1])["world"]["builds"]
    text = ""
    for it in builds:
        if it["aborting"]:
            turns = f"{len(it['open'])} more turn{'s' * (len(it['open']) != 1)}"
            text += f"    error: the abort of build {it['build']} needs {turns} in `order`\n"
            text += f"    help: add {turns} of build {it['build']} to `order`; `realmview order` does it\n"
    return text.encode()


def turns_of(out):
    """The turns of a run with reasons: the line of each, and the lines below it; and the lines below the map."""
    turns, below = [], []
    for line in out.splitlines():
        if not line.startswith(b"    "):
            turns.append((line, []))
        elif turns[-1][0].startswith(b"free "):
            below.append(line)
        else:
            turns[-1][1].append(line)
    return turns, below


def refused_of(out):
    """The refused turns of a run with reasons, as the data of a page has them."""
    for number, (_, below) in enumerate(turns_of(out)[0]):
        words = [line.decode().strip().partition(": ") for line in below]
        if below:
            yield {"turn": number, **{kind: it for kind, _, it in words if kind in ("error", "help")}}


def without_ok(out):
    """A run with all checks, without those that passed; each as many as are counted above them."""
    lines, left = [], 0
    for line in out.splitlines(keepends=True):
        if line.startswith(b"        ok: ") and left > 0:
            left -= 1
            continue
        lines += [b"too few checks\n"] if left else []
        lines.append(line)
        left = int(line.split()[0]) if line.endswith(b" passed\n") else 0
    return b"".join(lines)


@over("path", *PLANS, RUNS, "tests/reasons")
def test_run_with_reasons(check, path):
    plan = path.read_bytes()
    status, out, err = run(VIEW, ["why"], plan)
    bare = b"\n".join(it for it in out.split(b"\n") if not it.startswith(b"    "))
    check("why", (status, bare, err), run(HOST, ["replay"], plan))
    turns, below = turns_of(out)
    check("aborts under way", b"".join(it + b"\n" for it in below), unfinished(plan))
    check("reasons", [it for it in (fault_of_reasons(*turn) for turn in turns) if it], [])
    status, more, err = run(VIEW, ["why", "--all"], plan)
    check("all checks", (status, without_ok(more), err), (0, out, b""))
    check("refused turns of the page", data_of(run(VIEW, ["page"], plan)[1])["refused"], list(refused_of(out)))


# ---- checks, and calls of random plans


def fault_of(plan):
    return fault_of_a_check(plan, run(HOST, ["replay"], plan), run(VIEW, ["check"], plan))


@over("path", "plans", RUNS, "tests/faults", "tests/checks")
def test_check_agrees_with_a_replay(path):
    """There is an error exactly where a replay has the fault of a plan, and each place lies inside the text."""
    assert fault_of(path.read_bytes()) is None


@examples(CHANGED_PLANS, 5)
@given(broken_plans())
def test_check_of_broken_plans(plan):
    assert fault_of(plan) is None


@examples(50)
@given(random_plans())
def test_calls_of_random_plans(case):
    """Each call is answered by the RMM by registers as it is written."""
    status, calls, err = run(VIEW, ["calls"], case[0])
    assert (status, err) == (0, b"")
    _, out, err = run(TRACER, ["check"], calls)
    assert (out.endswith(b" same, 0 allowed, 0 wrong\n"), err) == (True, b""), out[-300:]


# ---- limits and surroundings


def test_check_of_the_longest(check):
    """Of each thing that is counted one too many, and a line with a mistake in each of its many turns."""
    place = lambda line, column, words: b"plan:%d:%d: error: %s\n" % (line, column, words)
    steps = b"pages = 1\n[[build]]\nsteps = [" + b'"undo",' * 1025 + b"]\n"
    told = place(3, 10 + 7 * 1024, b"expected at most 1024 steps, found 1025")
    line = b".." + (b'"undo",' * 12)[-78:] + b'"undo",]\n' + b" " * 80 + b"^^^^^^\n"
    check("a step too many", run(VIEW, ["check"], steps), (1, told + line, b""))
    turns = b"pages = 1\n[[build]]\nsteps = []\n"
    plan = b"order = [" + b"0," * 16385 + b"]\n" + turns
    told = place(1, 10 + 2 * 16384, b"expected at most 16384 turns, found 16385")
    line = b".." + b"0," * 39 + b"0,]\n" + b" " * 80 + b"^\n"
    check("a turn too many", run(VIEW, ["check"], plan), (1, told + line, b""))
    size = b"# " + b"-" * (1 << 20)
    told = place(1, 1, b"a plan has at most 1048576 bytes, and this is longer") + b"# " + b"-" * 76 + b"..\n^\n"
    check("bytes too many", run(VIEW, ["check"], size), (1, told, b""))
    many = b"order = [" + b"1," * 500000 + b"]\n" + turns
    status, out, err = run(VIEW, ["check"], many)
    found = status, out.count(b"error: build 1 does not exist"), b"\nnote: 499999 more turns name it\n" in out, err
    check("the same mistake in each turn", found, (1, 1, True, b""))
    many = b"order = [" + b",".join(b"%d" % number for number in range(1, 140001)) + b"]\n" + turns
    status, out, err = run(VIEW, ["check"], many)
    check("another mistake in each turn", (status, out.count(b" does not exist; builds are numbered from 0 and there is 1\n"), err), (1, 140000, b""))
    plan = b"pages = 1\n" + b"".join(b"k%d=1\n" % k for k in range(90000))
    status, out, err = run(VIEW, ["check"], plan)
    check("an unknown key in each line", (status, out.count(b"error: unknown key `k"), err), (1, 90000, b""))
    plan = b"pages = 1\n" + b"[[build]]\n" * 90000
    status, out, err = run(VIEW, ["check"], plan)
    check("no steps in each build", (status, out.count(b"error: missing key `steps` in build "), err), (1, 90000, b""))


def test_the_largest_history(check):
    """Eight builds that use all of their room, and one event more."""
    opening = b"history 1 8 8 0 16384 8\n"
    events = b"".join(b"%d take 0 %d\n" % (build, build) for build in range(8))
    events += b"".join(b"%d peek %d 0 0\n" % (build, build) for _ in range(16382) for build in range(8))
    wanted = b"".join(b"%d page 0 UNDELEGATED 0\n" % build for build in range(8)) + b"free 0\n"
    check("a full history", run(VIEW, ["apply"], opening + events), (0, wanted, b""))
    more = opening + events + b"0 peek 0 0 0\n"
    refused = b"line %d is refused: the build's history must have room for 1 more event; it has room for 0 (HistoryFull)\n"
    check("an event more", run(VIEW, ["apply"], more), (1, b"", refused % (8 * 16383 + 2)))
    check("reverses need no room", run(VIEW, ["apply"], opening + events + b"0 untake 0 0\n")[0], 0)
    long = b"history 1 8 8 0 16 1\n0 take 0 " + b"0" * (1 << 24)
    check("a line of 16 MiB", run(VIEW, ["apply"], long), (1, b"", b"line 2 is no event\n"))


HISTORY = b"history 1 1 1 0 16 1\n0 take 0 0\n"


@pytest.mark.parametrize("word", ["apply", "check", "explore", "history", "json", "why"])
def test_devices(check, word):
    check.all(of_devices(VIEW, [word], HISTORY if word == "apply" else (TOP / "plans/first.toml").read_bytes()))


def test_surroundings(check):
    check("no line feed at the end", run(VIEW, ["apply"], HISTORY[:-1]), (0, b"0 page 0 UNDELEGATED 0\nfree 0\n", b""))
    check("a full standard error", run(VIEW, ["apply"], b"", stderr=open("/dev/full", "wb")), (1, b"", b""))
    check("too little memory", run(VIEW, ["apply"], b"history 1 4096 1 0 16 1\n", **LITTLE_MEMORY), (3, b"", b"memory\n"))
    check("help to a full output", run(VIEW, ["--help"], stdout=open("/dev/full", "wb")), (5, b"", b"device\n"))


NO_WORDS = (
    [], ["look"], ["apply", "--erase", "8"], ["history", "--erase"], ["check", "--erase", "0"], ["explore", "--most-states"],
    ["explore", "--most-states", "4294967296"], ["explore", "--seed", "-1"], ["explore", "--erase", "0"], ["why", "one", "two"], ["help", "look"],
    ["json", "--erase", "0"], ["json", "plan", "more"],
)


@pytest.mark.parametrize("words", NO_WORDS, ids=" ".join)
def test_usage(words):
    status, out, err = run(VIEW, words)
    assert (status, out, err != b"") == (2, b"", True)


def test_help(check):
    check("the version", run(VIEW, ["--version"]), (0, b"realmview 0.2.0\n", b""))
    for words in ["--help"], ["-h"], ["help"]:
        status, out, err = run(VIEW, words)
        check(f"{words}", (status, b"\nUsage: realmview <COMMAND>\n" in out, b"\nExamples:\n" in out, err), (0, True, True, b""))
    for command in "history", "apply", "json", "page", "why", "explore", "check":
        wanted = run(VIEW, [command, "--help"])
        check(f"{command} --help", (wanted[0], b"\nExamples:\n  realmview %s " % command.encode() in wanted[1], wanted[2]), (0, True, b""))
        check(f"{command} -h", run(VIEW, [command, "-h"]), wanted)
        check(f"help {command}", run(VIEW, ["help", command]), wanted)


def test_files(check):
    """A FILE is read as standard input is; `-` is standard input."""
    path = "plans/failed-build.toml"
    plan = (TOP / path).read_bytes()
    for command in "history", "json", "page", "why", "order":
        wanted = run(VIEW, [command], plan)
        check(f"{command} FILE", run(VIEW, [command, path], b"", cwd=TOP), wanted)
        check(f"{command} -", run(VIEW, [command, "-"], plan), wanted)
    status, wanted, _ = run(VIEW, ["check"], plan)
    check("check FILE", run(VIEW, ["check", path], b"", cwd=TOP), (status, wanted.replace(b"plan:", path.encode() + b":"), b""))
    check("check -", run(VIEW, ["check", "-"], plan), (status, wanted, b""))
    explored = "plans/some-orders.toml"
    check("explore FILE", run(VIEW, ["explore", explored], cwd=TOP), run(VIEW, ["explore"], (TOP / explored).read_bytes()))
    _, history, _ = run(VIEW, ["history"], plan)
    with tempfile.NamedTemporaryFile(suffix=".history") as file:
        file.write(history)
        file.flush()
        for words in [], ["--erase", "1"]:
            check(f"apply {words} FILE", run(VIEW, ["apply", *words, file.name]), run(VIEW, ["apply", *words], history))
            check(f"apply FILE {words}", run(VIEW, ["apply", file.name, *words]), run(VIEW, ["apply", *words], history))
    for command in "history", "apply", "json", "page", "why", "explore", "order", "check":
        check(f"{command} of no file", run(VIEW, [command, "no.toml"]), (5, b"", b"realmview: no.toml: No such file or directory\n"))
        check(f"{command} of a folder", run(VIEW, [command, "plans"], cwd=TOP), (5, b"", b"realmview: plans: Is a directory\n"))
    with tempfile.NamedTemporaryFile() as file:
        os.chmod(file.name, 0)
        if not os.access(file.name, os.R_OK):
            check("a file of somebody else", run(VIEW, ["why", file.name]), (5, b"", b"realmview: %s: Permission denied\n" % file.name.encode()))
