"""Traces of the repository with random changes, drawn by hypothesis, and what has to hold whatever they have become: each answer of
the program is that of the second model.
"""
import functools
import random
import re

from hypothesis import strategies as st

from rmm_logs import paths, without_answers
from second_rmm.bench import Bench
from second_rmm.command import LOST
from second_rmm.judge import report
from second_rmm.reading import parts_of

# Only short traces are changed: in a long one, most changes would meet one line of many that are alike.
MOST_BYTES = 9000
# Beside numbers of the trace: both sides of limits.
NUMBERS = (
    "0", "1", "2", "3", "4", "15", "16", "17", "255", "256", "512", "513", "4096", "0x800", "0xfff", "0x1000", "0x1001", "0x200000",
    "0x40000000", "0x4000000000", "0x7fffffffffff", "0x800000000000", "0xffffffffffffffff", "0x10000000000000000", "00", "0x01", "0xA",
)
NUMBER = re.compile(r"0x[0-9a-f]+|\b\d+\b")


def with_a_number(lines, dice):
    """Another number in a line, which is not that of a platform."""
    at = dice.randrange(1, len(lines))
    places = list(NUMBER.finditer(lines[at]))
    if places:
        place, others = dice.choice(places), NUMBER.findall(dice.choice(lines)) or NUMBERS
        number = dice.choice(others if dice.random() < 0.6 else NUMBERS)
        lines[at] = lines[at][: place.start()] + number + lines[at][place.end() :]


def with_a_line(lines, dice):
    """A copy of one line before another."""
    lines.insert(dice.randrange(1, len(lines)), dice.choice(lines))


def without_a_line(lines, dice):
    del lines[dice.randrange(1, len(lines))]


def with_two_lines_turned(lines, dice):
    at, to = dice.randrange(1, len(lines)), dice.randrange(1, len(lines))
    lines[at], lines[to] = lines[to], lines[at]


def with_a_byte(lines, dice):
    """Any byte in the place of one, or between two."""
    at = dice.randrange(len(lines))
    line = lines[at].encode(errors="surrogateescape")
    place = dice.randrange(len(line) + 1)
    changed = line[:place] + bytes([dice.choice([it for it in range(256) if it != 10])]) + line[place + dice.randrange(2) :]
    lines[at] = changed.decode(errors="surrogateescape")


# The number of a change is its share.
CHANGES = 12 * [with_a_number] + 6 * [with_a_line] + 6 * [without_a_line] + 12 * [with_two_lines_turned] + [with_a_byte]


@functools.cache
def short_traces():
    return [without_answers(path.read_text()).splitlines() for path in paths() if path.stat().st_size < MOST_BYTES]


@st.composite
def changed_traces(draw):
    """The lines of a changed trace, without answers."""
    lines, dice = [*draw(st.sampled_from(short_traces()))], draw(st.randoms(use_true_random=False))
    for change in draw(st.lists(st.sampled_from(CHANGES), min_size=1, max_size=8)):
        change(lines, dice)
    return lines


def text_of(lines):
    return "".join(f"{it}\n" for it in lines).encode(errors="surrogateescape")


def findings(ask, lines):
    """The answers to a trace that are wrong. `ask(words, trace)` answers status, standard output and standard error."""
    bench = Bench()
    try:
        answered = [bench.line(it) for it in lines]
    except LOST as error:
        yield "the second model", repr(error)
        return
    for given, name in (lines, "answer"), (answered, "answer of what was answered"):
        came = ask((b"answer",), text_of(given))
        if came != (0, text_of(answered), b""):
            yield name, came
    # One answer is another's.
    dice = random.Random(len(lines))
    places = [k for k, it in enumerate(answered) if parts_of(it).answer is not None]
    if places:
        at, other = dice.choice(places), dice.choice(places)
        question, _, comment = parts_of(answered[at])
        answered[at] = f"{question} = {parts_of(answered[other]).answer}{comment}"
    said, status = report(answered)
    out = ask((b"check",), text_of(answered))
    hints = re.sub(rb"help: did you mean \S+\n", b"", out[1])
    if (out[0], hints, out[2]) != (status, text_of(said), b""):
        yield "check of an answer that is another", out
