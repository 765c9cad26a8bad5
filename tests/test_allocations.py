"""The blocks that the built programs take and give back, and their reads, watched by tests/watch.c, which is loaded before
the C library.

  refusals    each allocation of a run is refused in turn, until a run meets no refusal. A run that is refused one says
              `memory` with status 3 and prints nothing (`rmitrace answer`: the first lines), or it prints the plain text
  given back  each of these runs has given all of its blocks back when it ends
  handed back the program of crates/test_memory boots a host, shares it and builds a worker, each at the second try if
              memory was refused at the first, from what came back
  commands    from its boot to its text a run takes no block: a replay takes as many as one of the same plan in which each
              turn is idle; while builds work in threads, only the start of a further thread takes one; the lines of a trace take
              none after some rounds; and test_memory takes none between two of its lines, by every call of a
              host and of a seat
  reads       an input is read in parts of 4,096 bytes, with one read more for its end; or byte by byte, if each read gives
              one byte, up to the longest plan
  threads     each build but one has a thread of its own; if no thread can be made, the text of `run` is as good
  blocks      a block that is named is taken as fast as one that the store chooses, and in 4,096 pages as fast as in 512

`make allocations` also has tests/runs, tests/faults, all traces, and the words of realmview over all plans, which takes some minutes. A
C compiler is needed, $CC or cc, and the C library of GNU.
"""
import collections
import itertools
import os
import re
import shutil
import subprocess

import pytest

from answers import TURNS, fault_of_threads, map_of, without
from programs import HOST, MEMORY, RUNS, SECONDS, TOP, TRACER, VIEW, fault_at, files, named, needs, over

pytestmark = needs(HOST, TRACER, VIEW, MEMORY)
PART, MOST_BYTES = 4096, 1 << 20
NO_MEMORY = (3, b"", b"memory\n")
# The plans that each view of realmview is refused memory for, and two of one view each: each refusal, and schedules that differ.
FEW_VIEWS = ("realm", "rollback")
ONE_VIEW = (("refusals", b"why"), ("some-orders", b"explore"))
# Beside plans/: traces in which commands are accepted and refused, and faults of each kind.
FEW_TRACES = ("granules", "measurement", "rec")
FEW_CHECKS = ("all_at_once", "numbers_of_other_kinds", "steps_of_inline_tables", "toml_open_array", "warning_too_few_turns")
FEW_FAULTS = (
    "empty", "erase_names_no_build", "limit_9_builds", "no_value", "order_names_no_build", "step_letter", "unknown_key",
    "words_erase_build_8", "words_help", "words_none", "words_not_utf8",
)

# The number of times that a program is watched, since others may take the processor; and the greatest ratio of the time of a
# part of the program to that of another part, if both have as much to do.
TRIES, MOST_RATIO = 5, 3

# `fits` says whether an outcome is one of a run that was refused nothing; `told` whether it is one of a run that prints `memory`.
Case = collections.namedtuple("Case", "name program words given fits told", defaults=[lambda outcome: outcome == NO_MEMORY])
# An outcome is a status, standard output and standard error. A mark is what the program had taken when it wrote a line, and
# its microseconds until then.
Run = collections.namedtuple("Run", "outcome counts marks")


def watched(library, program, words, given, **settings):
    """Runs a program over an input, which it can read as a file."""
    report, to = os.pipe()
    env = {"LD_PRELOAD": library, "REPORT": str(to), **{name: str(value) for name, value in settings.items()}}
    with os.fdopen(os.memfd_create("input"), "r+b") as source:
        source.write(given)
        source.seek(0)
        ran = subprocess.run([os.fsencode(program), *words], env=env, pass_fds=[to], stdin=source, capture_output=True, timeout=SECONDS)
    os.close(to)
    with open(report) as it:
        rows = [line.split() for line in it]
    counts = {name: int(count) for name, count, *more in rows if not more}
    marks = [(int(taken), int(time)) for _, taken, *more in rows for time in more]
    return Run((ran.returncode, ran.stdout, ran.stderr), counts, marks)


def shown(outcome):
    status, out, err = outcome
    return f"status {status}, {len(out)} bytes that end in {out[-60:]!r}, and on standard error {err!r}"


# ---- what is run


def printed(text):
    return lambda outcome: outcome == (0, text, b"")


def builds_of(plan):
    return len(re.findall(rb"\bsteps = \[", plan))


def plan_of(path):
    """Name, plan and text of its replay."""
    return named(path), path.read_bytes(), path.with_suffix(".txt").read_bytes()


def run_of(name, plan, text):
    """A plan in threads. Its text is stored where it is the same whatever the schedule of the builds."""
    stored = TOP / f"{'tests/' * name.startswith('runs/')}{name}.run.txt"
    fits = printed(stored.read_bytes()) if stored.exists() else lambda outcome: not fault_of_threads((0, text, b""), outcome)
    return Case(f"{name} run", HOST, [b"run"], plan, fits)


def of_plan(path):
    name, plan, text = plan_of(path)
    last = builds_of(plan) - 1
    yield Case("replay", HOST, [b"replay"], plan, printed(text))
    yield Case(f"--erase {last}", HOST, [b"replay", b"--erase", b"%d" % last], plan, printed(without(last, map_of(text))))
    yield run_of(name, plan, text)


def of_views(path):
    """The history of a plan, and the map that it leads to, whole and without its last build."""
    _, plan, text = plan_of(path)
    last = builds_of(plan) - 1
    history = subprocess.run([VIEW, "history"], input=plan, stdout=subprocess.PIPE, check=True).stdout
    yield Case("history", VIEW, [b"history"], plan, printed(history))
    for words in [b"json"], [b"page"], [b"why"], [b"explore"], [b"explore", b"--sample", b"1"]:
        whole = subprocess.run([VIEW, *words], input=plan, stdout=subprocess.PIPE, check=True).stdout
        yield Case(b" ".join(words).decode(), VIEW, words, plan, printed(whole))
    yield Case("apply", VIEW, [b"apply"], history, printed(b"".join(map_of(text))))
    yield Case(f"apply --erase {last}", VIEW, [b"apply", b"--erase", b"%d" % last], history, printed(without(last, map_of(text))))


def of_check(path):
    """The findings on a plan, or on what is none. Those on what is none come to standard error of `history`."""
    head, out = path.read_bytes().split(b"\n", 1)
    status, plan = int(head.split()[1]), path.with_suffix(".toml").read_bytes()
    yield Case("check", VIEW, [b"check"], plan, lambda outcome: outcome == (status, out, b""))
    if status == 1:
        yield Case("history", VIEW, [b"history"], plan, lambda outcome: outcome == (1, b"", out))


def of_trace(path):
    text = path.read_bytes()
    answers = sum(b" = " in line.split(b"#")[0] for line in text.splitlines())
    # The text that was written when memory was refused is an answer to the first lines.
    told = lambda it: (it[0], b"", it[2]) == NO_MEMORY and text.startswith(it[1]) and it[1][-1:] in (b"", b"\n")
    yield Case("answer", TRACER, [b"answer"], text, printed(text), told)
    yield Case("check", TRACER, [b"check"], text, printed(b"%d same, 0 allowed, 0 wrong\n" % answers))


def of_fault(path):
    words, plan, wanted = fault_at(path)
    yield Case(b" ".join(words).decode(errors="replace"), HOST, words, plan, lambda outcome: outcome == wanted)


def of_calls():
    """If a boot, a start or a building of a worker is refused memory, its line says that it came at the second try."""
    text = (TOP / "crates/test_memory/stdout").read_bytes()

    def fits(outcome):
        status, out, err = outcome
        again = out.count(b" at the second try")
        return (status, out.replace(b" at the second try", b""), err) == (0, text, b"") and again < 2

    def told(outcome):
        return (outcome[0], b"", outcome[2]) == NO_MEMORY and text.startswith(outcome[1])

    yield Case("every call of a host", MEMORY, [], b"", fits, told)


# ---- checks


def reads_of(given):
    """A read of each part, and one for the end; none beyond what is kept of an input."""
    return -(-len(given) // PART) + 1 if len(given) <= MOST_BYTES else MOST_BYTES // PART + 1


def refusals(library, it):
    """Refuses each allocation of a run in turn. Yields what is wrong."""
    plain = watched(library, it.program, it.words, it.given)
    if not it.fits(plain.outcome):
        yield f"with no refusal: {shown(plain.outcome)}"
    if plain.outcome[0] < 2 and it.program != MEMORY and plain.counts["reads"] != reads_of(it.given):
        yield f"{plain.counts['reads']} reads of {len(it.given)} bytes"
    told = 0
    for number in itertools.count(1):
        run = watched(library, it.program, it.words, it.given, REFUSED=number)
        if run.counts.get("held") != 0:
            yield f"allocation {number}: {run.counts.get('held')} blocks are not given back"
        if run.counts.get("asked", 0) < number:
            break
        told += it.told(run.outcome)
        if not it.told(run.outcome) and not it.fits(run.outcome):
            yield f"allocation {number}: {shown(run.outcome)}"
    if told == 0:
        yield "no refusal is told"


def taken(library, program, words, given):
    """The number of blocks that a run takes and of times that each grows, but for growths of its text."""
    run = watched(library, program, words, given)
    return run.counts["taken"] - run.counts["grown_text"], run.outcome


def quiet_turns(library, name, plan):
    """A replay takes as many blocks as one of the same plan in which each turn is that of a build without steps."""
    builds, turns = builds_of(plan), TURNS.search(plan)
    if builds == 8 or b"[[build]]" not in plan or not turns:
        return
    plan += b"\n[[build]]\nsteps = []\n"
    idle = plan[: turns.start()] + re.sub(rb"\d+", b"%d" % builds, turns[0]) + plan[turns.end() :]
    (performed, (status, _, _)), (unperformed, (_, out, _)) = (taken(library, HOST, [b"replay"], it) for it in (plan, idle))
    if status != 0 or set(out.splitlines()[:-1]) - {b"%d - idle" % builds}:
        yield f"{name}: a plan with a build more has no text"
    if performed != unperformed:
        yield f"{name}: {performed} blocks with its turns, and {unperformed} with idle ones"


def quiet_threads(library, name, plan, text):
    """Builds that work in threads take no block, and each but one has a thread. Where there are none, the text is as good."""
    it, builds = run_of(name, plan, text), builds_of(plan)
    run = watched(library, it.program, it.words, it.given)
    alone = watched(library, it.program, it.words, it.given, THREADLESS=1)
    if run.counts["taken_in_threads"] != run.counts["started_in_threads"]:
        yield f"{name} run: {run.counts['taken_in_threads']} blocks where {run.counts['started_in_threads']} threads are started"
    if run.counts["started"] != builds - 1 or alone.counts["started"] != 0:
        yield f"{name} run: {run.counts['started']} threads for {builds} builds"
    if not it.fits(run.outcome) or not it.fits(alone.outcome):
        yield f"{name} run: {shown(run.outcome)}; where no thread can be made, {shown(alone.outcome)}"


def quiet_lines(library, name, text):
    """After some rounds of the lines of a machine, more rounds take no block."""
    for number, part in enumerate(re.split(rb"^(?=platform )", text, flags=re.M)[1:]):
        machine, lines = part.split(b"\n", 1)
        asked = [machine + b"\n" + rounds * lines for rounds in (4, 8)]
        answered = [watched(library, TRACER, [b"answer"], given).outcome[1] for given in asked]
        for word, pair in (b"answer", asked), (b"check", answered):
            few, many = (taken(library, TRACER, [word], given)[0] for given in pair)
            if few != many:
                yield f"{name}.trace {word.decode()}, machine {number}: {many - few} blocks are taken by 4 more rounds of its lines"


def read_byte_by_byte(library):
    """If each read gives one byte, there is one read for each byte, and one for the end."""
    plan, text = (TOP / "plans/two-builds.toml").read_bytes(), (TOP / "plans/two-builds.txt").read_bytes()
    trace = (TOP / "traces/rec.trace").read_bytes()
    longest = plan + b"#" * (MOST_BYTES - len(plan) - 1) + b"\n"
    left = without(1, map_of(text))
    for program, words, given, wanted, reads in (
        (HOST, [b"replay"], longest, (0, text, b""), MOST_BYTES + 1),
        (HOST, [b"replay", b"--erase", b"1"], longest, (0, left, b""), MOST_BYTES + 1),
        (HOST, [b"replay"], b" " * MOST_BYTES, (1, b"", b"plan 21 key\n"), MOST_BYTES + 1),
        (HOST, [b"run"], b" " * (MOST_BYTES + 2), (1, b"", b"plan 24 limit\n"), MOST_BYTES + 1),
        (TRACER, [b"answer"], trace, (0, trace, b""), len(trace) + 1),
    ):
        run = watched(library, program, words, given, SHORT=1)
        if run.outcome != wanted or run.counts["reads"] != reads:
            yield f"{words}: {run.counts['reads']} reads of {len(given)} bytes, one a read, and {shown(run.outcome)}"


def parts_of_calls(library):
    """For each line `quiet` of test_memory, the blocks and the microseconds until the next line."""
    run = watched(library, MEMORY, [], b"")
    rows = zip(run.outcome[1].splitlines(), run.marks, run.marks[1:])
    return [(after[0] - before[0], after[1] - before[1]) for line, before, after in rows if line == b"quiet"]


def quiet_calls(library):
    parts = parts_of_calls(library)
    if len(parts) != 6 or any(blocks for blocks, _ in parts):
        yield f"blocks are taken by calls: {[blocks for blocks, _ in parts]} in the parts of test_memory"


def fast_blocks(library):
    """The last three parts of test_memory take as many blocks, in one turn of the store's loop each."""
    tries = [[time for _, time in parts_of_calls(library)[-3:]] for _ in range(TRIES)]
    picked, named_in_few, named_in_many = map(min, zip(*tries))
    if named_in_many > MOST_RATIO * min(picked, named_in_few):
        yield f"microseconds: {picked} where blocks are picked, {named_in_few} by name in 512 pages, {named_in_many} by name in 4,096"


# ---- tests


@pytest.fixture(scope="module")
def library(tmp_path_factory):
    compiler = os.environ.get("CC", "cc")
    if not shutil.which(compiler):
        pytest.skip(f"there is no C compiler ({compiler})")
    made = tmp_path_factory.mktemp("watch") / "watch.so"
    subprocess.run([compiler, "-std=gnu11", "-O1", "-shared", "-fPIC", "-o", made, TOP / "tests/watch.c"], check=True)
    return os.fspath(made)


def some(paths, names):
    """A test for each file. Those of other names are long."""
    marks = lambda path: () if path.stem in names else pytest.mark.long
    return pytest.mark.parametrize("path", [pytest.param(it, id=named(it), marks=marks(it)) for it in paths])


PLANS = {it.stem for it in files("plans")}
over_plans, over_traces = some(files("plans", RUNS), PLANS), some(files("traces", suffix="trace"), FEW_TRACES)


def refused(check, library, cases):
    for it in cases:
        check(it.name, list(refusals(library, it))[:3], [])


@over_plans
def test_refusals_of_plan(check, library, path):
    refused(check, library, of_plan(path))


@some(files("plans", RUNS), FEW_VIEWS)
def test_refusals_of_views(check, library, path):
    refused(check, library, of_views(path))


@pytest.mark.parametrize(("plan", "word"), ONE_VIEW, ids=[plan for plan, _ in ONE_VIEW])
def test_refusals_of_one_view(check, library, plan, word):
    cases = [it for it in of_views(TOP / f"plans/{plan}.toml") if it.words == [word]]
    check("the view", len(cases), 1)
    refused(check, library, cases)


@some(files("tests/checks", suffix="txt"), FEW_CHECKS)
def test_refusals_of_check(check, library, path):
    refused(check, library, of_check(path))


@over_traces
def test_refusals_of_trace(check, library, path):
    refused(check, library, of_trace(path))


@some(files("tests/faults", suffix="txt"), FEW_FAULTS)
def test_refusals_of_fault(check, library, path):
    refused(check, library, of_fault(path))


def test_refusals_of_calls(check, library):
    refused(check, library, of_calls())


@over("path", "plans", RUNS)
def test_plan_is_quiet(check, library, path):
    name, plan, text = plan_of(path)
    check("turn by turn", list(quiet_turns(library, name, plan)), [])
    check("in threads", list(quiet_threads(library, name, plan, text)), [])


@over("path", "traces", suffix="trace")
def test_trace_is_quiet(library, path):
    assert list(quiet_lines(library, path.stem, path.read_bytes())) == []


def test_calls_are_quiet(library):
    assert list(quiet_calls(library)) == []


def test_reads_byte_by_byte(library):
    assert list(read_byte_by_byte(library)) == []


def test_blocks_are_found_at_once(library):
    assert list(fast_blocks(library)) == []
