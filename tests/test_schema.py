"""plans/plan.schema.json, the JSON Schema of plans for editors, against the built program.

The schema has to accept what the program takes for a plan, and to refuse what it does not, if that is TOML at all:

  plans/, plans/guide/, tests/runs/     accepted, all of them
  tests/faults/                         refused, if the fault is 21, 22, 23 or 24
  the limits of each key                accepted, and refused a step beyond
  texts that are no steps               refused; the greatest numbers of each step are accepted
  plans with random changes             as the program does

What no schema can find is in `BEYOND`, with why.
"""
import json
import re
import tomllib

import jsonschema
import pytest
from hypothesis import assume, given

from no_steps import NO_STEPS
from programs import HOST, PLANS, RUNS, TOP, files, named, needs, over, plan_of, run
from random_plans import CHANGED_PLANS, changed_plans, examples

SCHEMA = jsonschema.Draft202012Validator(json.loads((TOP / "plans/plan.schema.json").read_text()))
SCHEMA.check_schema(SCHEMA.schema)
# Faults that no schema sees, by the name in tests/faults/ or by the plan.
BEYOND = {
    b"pages = 1.0\n[[build]]\nsteps = []\n": "1.0 is an integer for a schema",
    b" " * (1 << 20) + b"\npages = 1\n[[build]]\nsteps = []\n": "it is too long by its blanks",
}
# Each step with the greatest numbers that it can have, and one number more than that in each place.
GREATEST = """
take 255|fill 4095 255|peek 4095 4095|delegate 4095|realm 4095 4095|realm 4095 4095 255|rtt 4095 4294967295 255
ripas 4294967295 65535|data 4095 4294967295 4095|unknown 4095 4294967295|rec 4095|enter 65535|exit 65535
poke 65535 4294967295 4095 255|activate|undo|abort|mark|back
""".strip().replace("\n", "|").split("|")


def is_accepted(plan):
    """Whether the schema accepts a plan; None if the plan is no TOML."""
    try:
        value = tomllib.loads(plan.decode("utf-8"))
    except (UnicodeDecodeError, tomllib.TOMLDecodeError):
        return None
    return SCHEMA.is_valid(value)


def is_taken(plan):
    """Whether the program takes it for a plan, or None if it finds no TOML."""
    ran = run(HOST, ["replay"], plan)
    return None if ran.err == b"plan 20 syntax\n" else ran.status == 0


def no_steps():
    """Texts that are none, and the greatest numbers with one more."""
    yield from NO_STEPS
    for step in GREATEST:
        words = step.split(" ")
        for at in range(1, len(words)):
            yield " ".join([*words[:at], str(int(words[at]) + 1), *words[at + 1 :]])
            yield " ".join([*words[:at], "0" + words[at], *words[at + 1 :]])
        yield f"{step}\n"


def plan_with(builds, steps, turns):
    return plan_of([["undo"] * steps] * builds, pages=1, order=turns)


def limits():
    """As many builds, steps and turns as there may be, and one more of each; the last build's turn, and the next one's."""
    yield "the most of all", plan_with(8, 1024, [0] * 16384), True
    yield "a build too many", plan_with(9, 0, []), False
    yield "a step too many", plan_with(1, 1025, []), False
    yield "a turn too many", plan_with(1, 0, [0] * 16385), False
    for builds in range(1, 9):
        yield f"the last of {builds} builds", plan_with(builds, 0, [builds - 1]), True
        yield f"one behind the last of {builds} builds", plan_with(builds, 0, [builds]), False


@over("path", *PLANS, RUNS)
def test_plans(path):
    assert is_accepted(path.read_bytes())


FAULTS = [path for path in files("tests/faults") if "plan 20 " not in path.with_suffix(".txt").read_text()]


@pytest.mark.parametrize("path", FAULTS, ids=named)
def test_faults(path):
    assert is_accepted(path.read_bytes()) == ("\nplan " not in path.with_suffix(".txt").read_text())


def test_limits(check):
    check.all((name, is_accepted(plan), wanted) for name, plan, wanted in limits())


def test_steps(check):
    check.all((f"the step {step}", is_accepted(plan_of([[step]], pages=1))) for step in GREATEST)
    check.all((f"no step: {step!r}", is_accepted(plan_of([[step]], pages=1)), False) for step in no_steps())


def test_words_of_steps():
    """The steps that `plan_lint` knows, and those that its help lists, are these too."""
    source = (TOP / "crates/plan_lint/src/forms.rt").read_text()
    help_text = source[source.index("const ALL_STEPS") : source.index("macro_rules! form")]
    known = re.findall(r'form!\("(\w+)"', source)
    assert known == re.findall(r"`(\w+)`", help_text)
    assert set(known) == {step.split(" ")[0] for step in GREATEST}


@needs(HOST)
@examples(CHANGED_PLANS)
@given(changed_plans())
def test_changed_plans(case):
    plan, _ = case
    is_plan = is_taken(plan)
    assume(is_plan is not None)
    assert is_accepted(plan) == is_plan


@needs(HOST)
@pytest.mark.parametrize("plan", BEYOND, ids=BEYOND.get)
def test_what_no_schema_tells(plan):
    assert is_accepted(plan) and is_taken(plan) is False
