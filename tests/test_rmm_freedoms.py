"""Logs of RMMs that answer otherwise, and are right: nothing in them may be wrong.

An RMM may make checks in another sequence, and it may have other settings. The second model, with such freedoms, answers
all traces; `rmitrace check` compares these logs, given the settings. It has to say `wrong` of none. With the settings of
the trace alone, a log by another value of a setting has to have a wrong line.

With JUDGE=`python3 tests/second_rmm check` this is the same by the judge in Python.
"""
import re
import subprocess
from pathlib import Path
from typing import NamedTuple

import pytest

from programs import JUDGE, TRACER, needs
from random_rmm.lives import OTHERS
from rmm_logs import log_of, paths, with_settings
from second_rmm.bench import Bench
from second_rmm.command import LAST, LISTED, TF

pytestmark = needs(TRACER)
COUNTS = re.compile(r"(\d+) same, (\d+) allowed, (\d+) wrong")
SECONDS = 300
# One random trace of so many is answered with each freedom but the first, and of so many with each setting alone.
SHARE, SHARE_OF_SETTINGS, FIRST = 4, 8, 3


class Freedom(NamedTuple):
    """The differences of an RMM: the sequence of its checks, and settings. Its log may be raw."""

    sequence: str
    settings: str = ""
    is_raw: bool = False

    def __str__(self) -> str:
        return f"{self.sequence}{', raw' if self.is_raw else ''}{f', {self.settings}' if self.settings else ''}"


class Counts(NamedTuple):
    same: int
    allowed: int
    wrong: int


ALL_OTHERS = " ".join(f"{name} {value}" for name, value in OTHERS.items())
FREEDOMS = (
    Freedom(LAST), Freedom(LAST, is_raw=True), Freedom(TF, "init_destroyed stop block_level 1"), Freedom(LAST, ALL_OTHERS),
)


def logs(files: list[Path], freedom: Freedom) -> str:
    """The logs of some traces, one after another."""
    answered = []
    for path in files:
        lines = with_settings(path.read_text().splitlines(), freedom.settings)
        answered += log_of(lines, Bench(sequence=freedom.sequence), freedom.is_raw)
    return "".join(f"{it}\n" for it in answered)


def judged(text: str) -> Counts:
    """The counts of the judge over a log. Its status has to be that of the counts."""
    ran = subprocess.run(JUDGE, input=text, capture_output=True, text=True, timeout=SECONDS)
    counts = COUNTS.fullmatch((ran.stdout.splitlines() or [""])[-1])
    assert counts, f"status {ran.returncode}: {ran.stdout[-200:]} {ran.stderr[:200]}"
    found = Counts(*map(int, counts.groups()))
    assert ran.returncode == int(found.same == 0 or found.wrong > 0)
    return found


def some(share: int) -> list[Path]:
    """The traces of a subject, and a share of those that are drawn: one in which each setting decides somewhere."""
    is_drawn = lambda it: it.stem.startswith("mixed-") or it.parent.name == "random"
    drawn = [it for it in paths() if is_drawn(it)]
    return [*(it for it in paths() if not is_drawn(it)), *drawn[FIRST::share]]


@pytest.mark.parametrize("freedom", FREEDOMS, ids=str)
def test_freedom(freedom):
    """The judge says of no answer of an RMM with a freedom that it is wrong."""
    files = paths() if freedom is FREEDOMS[0] else some(SHARE)
    text = logs(files, freedom)
    counts = judged(text)
    assert (counts.wrong, sum(counts)) == (0, text.count(" = "))
    assert counts.allowed > 0


@pytest.mark.parametrize(("name", "value"), OTHERS.items())
def test_setting(name, value):
    """A log by another value of a setting is wrong if the judge does not know of it."""
    text = logs(some(SHARE_OF_SETTINGS), Freedom(LISTED, f"{name} {value}"))
    unknown = re.sub(rf"^(platform .*?) {name} {value}\b", r"\1", text, flags=re.M)
    counts = judged(text)
    assert (counts.wrong, counts.allowed) == (0, 0)
    assert judged(unknown).wrong > 0
