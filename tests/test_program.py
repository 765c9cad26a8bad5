"""The program realmhost over plans, and over what it refuses: all that it prints, byte by byte.

plans/NAME.toml has the text of its run in plans/NAME.txt: that on standard output, nothing on standard error, status 0.
So have those of plans/guide/, and of tests/runs/, which show a rule each. Over the plain store (crates/test_memory) the texts are the same.
That program adds up the results of a script of calls by registers too, for bench/rmm.
If NAME.erase-B.txt is beside it, `--erase B` prints that, and if NAME.run.txt is, `run` prints that.
tests/faults/NAME.txt is what is expected of a refusal: a line `status N`, then standard error. Standard output stays empty.
Beside it NAME.toml is the standard input (none: empty), and NAME.args the arguments, one a line (none: `replay`).
tests/prefixes/NAME.txt has a line for each prefix of the plan beside it: its bytes, the status, and the line on standard error,
or how many lines are printed, as a second reader of plans found them.
What RULES.md says of the lines of runs has to be there.
"""
import re
import resource

import pytest
from hypothesis import given

from answers import findings
from failing_builds import failing_builds
from no_steps import NO_STEPS
from programs import (
    HOST, LITTLE_MEMORY, MEMORY, PLANS, RUNS, TOP, Ran, fault_at, files, limited, named, needs, of_devices, over, plan_of, run,
)
from random_plans import CHANGED_PLANS, changed_plans, examples, random_plans

pytestmark = needs(HOST, MEMORY)
# A plan is run over the allocator's store and over the plain one.
over_both_stores = pytest.mark.parametrize("program", [HOST, MEMORY], ids=lambda it: it.name)


def replay(plan, program=HOST, words=("replay",), **how):
    return run(program, words, plan, **how)


# ---- stored texts


@over_both_stores
@over("path", *PLANS, RUNS)
def test_replay(path, program):
    assert replay(path.read_bytes(), program) == Ran(0, path.with_suffix(".txt").read_bytes(), b"")


@pytest.mark.parametrize("path", files(*PLANS, RUNS, suffix="erase-[0-7].txt"), ids=named)
def test_erase(path):
    name, build = re.fullmatch(r"(.*)\.erase-(\d)\.txt", path.name).groups()
    plan = path.with_name(f"{name}.toml").read_bytes()
    assert run(HOST, ["replay", "--erase", build], plan) == Ran(0, path.read_bytes(), b"")


@pytest.mark.parametrize("path", files(*PLANS, RUNS, suffix="run.txt"), ids=named)
def test_run_in_threads(path):
    plan = path.with_name(path.name.replace(".run.txt", ".toml")).read_bytes()
    assert run(HOST, ["run"], plan) == Ran(0, path.read_bytes(), b"")


@over("path", "tests/faults", suffix="txt")
def test_fault(path):
    words, given, wanted = fault_at(path)
    assert run(HOST, words, given) == wanted


def rows_of_rules():
    """The rows of RULES.md that name a run: a rule, the run, a line's number, and the line. The name of a run has a `_`."""
    text = (TOP / "docs/reference/RULES.md").read_text()
    return re.findall(r"^\| (.*) \| ([a-z0-9.-]+_[a-z0-9_.-]+) \| (\d+) \| `(.*)` \|$", text, re.M)


@pytest.mark.parametrize(("rule", "name", "number", "text"), rows_of_rules())
def test_rule_stands_in_its_run(rule, name, number, text):
    lines = (TOP / f"tests/runs/{name}.txt").read_text().split("\n")
    assert lines[int(number) - 1 : int(number)] == [text], rule


# ---- what is no plan


@pytest.mark.parametrize("text", NO_STEPS)
def test_no_step(text):
    assert replay(plan_of([[text]], pages=1)) == Ran(1, b"", b"plan 22 step 0 0\n")


def test_prefixes(check):
    path = TOP / "tests/prefixes/an_aborted_build.toml"
    plan, text = path.read_bytes(), (TOP / "tests/runs/an_aborted_build_leaves_no_trace.txt").read_bytes()
    rows = (row.split(" ", 2) for row in path.with_suffix(".txt").read_text().splitlines())
    known = {int(length): (int(status), printed) for length, status, printed in rows}
    whole = f"text of {len(text.splitlines())} lines"
    for length in range(len(plan) + 1):
        status, printed = known[length]
        out, err = (text, b"") if printed == whole else (b"", printed.encode() + b"\n")
        check(f"the first {length} bytes", replay(plan[:length]), Ran(status, out, err))


def plan_with(builds, steps, turns):
    return plan_of([["undo"] * steps] * builds, pages=1, order=[0] * turns)


@over_both_stores
def test_the_largest_plan(program):
    text = b"0 undo = no 7 NothingToUndo\n" * 1024 + b"0 - idle\n" * (16384 - 1024) + b"free 1\n"
    assert replay(plan_with(8, 1024, 16384), program) == Ran(0, text, b"")


@pytest.mark.parametrize("more", [(9, 0, 0), (1, 1025, 0), (1, 0, 16385)], ids=["a build", "a step", "a turn"])
def test_one_too_many(more):
    assert replay(plan_with(*more)) == Ran(1, b"", b"plan 24 limit\n")


def test_length(check):
    most = 1 << 20
    check("the greatest length", replay(b" " * most), Ran(1, b"", b"plan 21 key\n"))
    check("a byte more", replay(b" " * (most + 1)), Ran(1, b"", b"plan 24 limit\n"))


# ---- long lives


def life(build):
    """The steps of a build that makes a realm, runs it and undoes all, and their answers."""
    yield "take 3", "ok 0"
    for page in (0, 1, 2, 3, 4, 6):
        yield f"delegate {page}", "ok"
    yield "realm 0 1", f"ok {build + 1}"
    for step in "rtt 2 0 2", "rtt 3 0 3", "ripas 1 2", "data 4 0 5":
        yield step, "ok"
    yield "rec 6", "ok 0"
    for step in "activate", "enter 0", "poke 0 0 0 1", "exit 0":
        yield step, "ok"
    for kind in ["rec", "data", "rtt", "rtt", "realm"] + ["delegate"] * 6 + ["take"]:
        yield "undo", f"ok {kind}"


@over_both_stores
def test_many_lives(program):
    """Eight builds live 35 times, turn about; then their turns are idle."""
    lives = [[it for _ in range(35) for it in life(build)] for build in range(8)]
    turns = [place % 8 for place in range(16384)]
    text = "".join(f"{build} {steps[place][0]} = {steps[place][1]}\n" for place in range(35 * 29) for build, steps in enumerate(lives))
    text += "".join(f"{build} - idle\n" for build in turns[35 * 29 * 8 :]) + "free 64\n"
    plan = plan_of([[step for step, _ in steps] for steps in lives], pages=64, history=16384, order=turns)
    assert replay(plan, program) == Ran(0, text.encode(), b"")


@pytest.mark.parametrize("build", failing_builds(), ids=lambda it: f"{it[0]}")
def test_abort_after_steps(check, build):
    """A build that aborts after some of its steps, and the run without it."""
    _, plan, text, left = build
    check.all((program.name, replay(plan, program), Ran(0, text, b"")) for program in (HOST, MEMORY))
    check("left out", run(HOST, ["replay", "--erase", "1"], plan), Ran(0, left, b""))


# RMI_VERSION, whose two outputs count three and five times, and in the one part a granule that is undelegated twice: the second
# time is refused. Each result is added to 31 times the sum before.
SCRIPT = b"""\
machine 2 1
smc 3288334672 65536
part
smc 3288334673 2147487744
smc 3288334674 2147487744
smc 3288334674 2147487744
"""


def test_script_of_calls():
    """The sum of the results, and the time of the one part."""
    status, out, err = run(MEMORY, [], SCRIPT)
    assert (status, out, err[:-1].isdigit(), err[-1:]) == (0, b"%d\n" % ((3 + 5) * 65536 * 31**3 + 1), True, b"\n")


# ---- the surroundings


def test_devices(check):
    check.all(of_devices(HOST, ["replay"], (TOP / "plans/first.toml").read_bytes()))
    check("a full standard error", replay(b"", stderr=open("/dev/full", "wb")), Ran(1, b"", b""))


def test_small_stacks():
    """The stacks of threads have the size of the limit too."""
    plan, text = ((TOP / f"plans/three-workers.{it}").read_bytes() for it in ("toml", "run.txt"))
    assert run(HOST, ["run"], plan, preexec_fn=limited((resource.RLIMIT_STACK, 1 << 17))) == Ran(0, text, b"")


def test_little_memory():
    assert replay(plan_of([[]], pages=4096), **LITTLE_MEMORY) == Ran(3, b"", b"memory\n")


# ---- random plans


def ask(words, plan):
    """An answer within a second of the processor's time."""
    return run(HOST, words, plan, preexec_fn=limited((resource.RLIMIT_CPU, 1)))


@examples(CHANGED_PLANS)
@given(changed_plans())
def test_changed_plans(case):
    assert list(findings(ask, *case)) == []


@examples(50)
@given(random_plans())
def test_random_plans(case):
    assert list(findings(ask, *case)) == []
