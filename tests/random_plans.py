"""Random plans, drawn by hypothesis: plans of the repository with changes, and plans of random steps.

`make fuzz` sets COUNT, the number of inputs of each kind. In the gate each test has its own number, and the same inputs each time.
"""
import os
import re

import pytest
from hypothesis import settings
from hypothesis import strategies as st

from failing_builds import life
from programs import TOP, plan_of

# Only short plans are changed: in a long one, most changes would meet one step of many that are alike.
MOST_BYTES = 2000
# The number of changed plans that the gate runs.
CHANGED_PLANS = 300
# Beside the numbers below 9, which most pages, orders of blocks and levels have: both sides of limits.
NUMBERS = (
    15, 16, 17, 38, 39, 40, 43, 44, 255, 256, 511, 512, 513, 1024, 4095, 4096, 4097, 16384, 65535, 65536, 262143, 262144,
    67108863, 67108864, 134217728, 4294967295, 4294967296,
)
STEP, TURNS, WORD = re.compile(rb'"[^"]*"'), re.compile(rb"order = \[[^]]*\]"), re.compile(rb"[A-Za-z]+|\d+")
# The parts whose change spoils a plan, mostly: its marks, letters in its words, and whole lines.
MARKS = (b'"', b"[", b"]", b"[[", b",", b"=", b"#", b".", b"{", b"}", b" ", b"\t", b"\n", b"\\", b"'", b"-", b"0x", b"\xc3\xa9", b"\xff")
LETTERS = b"abcdefghijklmnopqrstuvwxyzABCXYZ_0189 "


def examples(count, share=1):
    """Sets the number of inputs that a test draws in the gate. In `make fuzz`, which runs the tests with the mark `random`, these
    are COUNT times a share."""
    drawn = int(os.environ.get("COUNT") or 0) * share or count
    return lambda test: pytest.mark.random(settings(max_examples=drawn)(test))


def short_plans(*folders):
    paths = sorted(path for folder in folders for path in TOP.glob(f"{folder}/*.toml"))
    return [path.read_bytes() for path in paths if path.stat().st_size < MOST_BYTES]


# ---- changes: each draws another plan


def replaced(plan, at, text):
    return plan[: at.start()] + text + plan[at.end() :]


def below(draw, count):
    return draw(st.integers(0, count - 1))


def with_a_number(plan, draw):
    """Another number, but for those of turns."""
    turns = [range(*at.span()) for at in TURNS.finditer(plan)]
    places = [at for at in re.finditer(rb"\d+", plan) if not any(at.start() in its for its in turns)]
    number = draw(st.integers(0, 8) | st.sampled_from(NUMBERS))
    return replaced(plan, draw(st.sampled_from(places)), b"%d" % number) if places else plan


def with_a_step(plan, draw):
    """A copy of one step in the place of another."""
    places = list(STEP.finditer(plan))
    return replaced(plan, draw(st.sampled_from(places)), draw(st.sampled_from(places)).group()) if places else plan


def with_other_turns(plan, draw):
    """The same turns in another schedule."""
    shuffled = lambda at: b"order = [" + b", ".join(draw(st.permutations(re.findall(rb"\d+", at.group())))) + b"]"
    return TURNS.sub(shuffled, plan)


def with_a_byte(plan, draw):
    """Any byte in the place of one, or between two."""
    at = below(draw, len(plan))
    return plan[:at] + bytes([below(draw, 256)]) + plan[at + below(draw, 2) :]


def with_another_word(plan, draw):
    """A word of the plan with a letter more, less or other, or in the place of another word."""
    places = list(WORD.finditer(plan))
    if not places:
        return plan
    at, word = draw(st.sampled_from(places)), draw(st.sampled_from(places)).group()
    cut, letter = below(draw, len(word) + 1), bytes([draw(st.sampled_from(LETTERS))])
    return replaced(plan, at, draw(st.sampled_from((word, word[:cut] + letter + word[cut:], word[:cut] + word[cut + 1 :]))))


def with_a_mark(plan, draw):
    at = below(draw, len(plan) + 1)
    return plan[:at] + draw(st.sampled_from(MARKS)) + plan[at + below(draw, 2) :]


def with_other_lines(plan, draw):
    """A line twice, or not at all, or in another place."""
    lines = plan.splitlines(keepends=True)
    if not lines:
        return plan
    line = draw(st.sampled_from(lines))
    if draw(st.booleans()):
        lines.remove(line)
    if draw(st.booleans()):
        lines.insert(below(draw, len(lines) + 1), line)
    return b"".join(lines)


# Most changes keep a plan a plan; the number of a change is its share.
CHANGES = 12 * [with_a_number] + 12 * [with_a_step] + 6 * [with_other_turns] + [with_a_byte]
SPOILS = 6 * [with_another_word] + 3 * [with_a_mark] + 3 * [with_other_lines] + 4 * [with_a_number] + 4 * [with_a_step]


@st.composite
def changed_plans(draw):
    """A changed plan, and a build to leave out."""
    plan = draw(st.sampled_from(short_plans("plans", "tests/runs")))
    build = below(draw, plan.count(b"[[build]]") or 1)
    for change in draw(st.lists(st.sampled_from(CHANGES), min_size=1, max_size=4)):
        plan = change(plan, draw)
    return plan, build


@st.composite
def broken_plans(draw):
    """A plan that is mostly none any more, but often still TOML."""
    plan = draw(st.sampled_from(short_plans("plans", "tests/runs", "tests/checks")))
    for spoil in draw(st.lists(st.sampled_from(SPOILS), min_size=1, max_size=4)):
        plan = spoil(plan, draw) or b"#"
    return plan


# ---- plans of random steps


def one_of(*values):
    return st.sampled_from(values).map(str)


def step(word, *operands):
    return st.tuples(*operands).map(lambda it: " ".join([word, *it]))


PAGE, LEVEL, FEW = st.integers(0, 8).map(str), one_of(2, 3), one_of(0, 1)
IPA, BYTE = one_of(0, 1, 8, 9, 511, 512, 262144, 67108863, 67108864), st.integers(0, 255).map(str)
STEPS = st.one_of(
    step("take", one_of(0, 1, 2, 3)), step("fill", PAGE, BYTE), step("peek", PAGE, one_of(4095)), step("delegate", PAGE),
    step("realm", PAGE, PAGE), step("realm", PAGE, PAGE, st.integers(39, 43).map(str)), step("rtt", PAGE, IPA, LEVEL),
    step("ripas", IPA, one_of(1, 4, 512)), step("data", PAGE, IPA, PAGE), step("unknown", PAGE, IPA), step("rec", PAGE, PAGE),
    step("enter", FEW), step("exit", FEW), step("poke 0", IPA, one_of(0), one_of(1)),
    one_of("activate", "undo", "abort", "mark", "back"), one_of("undo"),
)


@st.composite
def random_plans(draw):
    """A plan with the life of a realm up to some step in each of up to eight builds, and random steps after it; and a build to
    leave out."""
    builds = draw(st.integers(1, 8))
    steps = [life(below(draw, 256))[: below(draw, 19)] + draw(st.lists(STEPS, max_size=23)) for _ in range(builds)]
    turns = [build for build, its in enumerate(steps) for _ in range(len(its) + below(draw, 20))]
    draw(st.randoms(use_true_random=False)).shuffle(turns)
    keys = {"pages": draw(one_of(8, 24, 64)), "aux": 1, "vmids": draw(one_of(1, 8)), "history": draw(one_of(24, 1024)), "order": turns}
    return plan_of(steps, **keys), below(draw, builds)
