"""RULES.md, the second RMM of the profile and the program, against one another, as tests/rules.py has them."""
import os
from concurrent.futures import ThreadPoolExecutor

import pytest
from hypothesis import given

import rules
from programs import VIEW, named, needs
from random_plans import examples
from random_traces import random_traces
from second_monitor import Monitor

# The number of commands that the RMM has to refuse in the traces of tests/profile.
REFUSED = 200
ROWS = rules.rows()


@pytest.mark.parametrize("path", rules.traces(), ids=named)
def test_second_rmm(path):
    """The second RMM has each answer of a trace."""
    lines = [(line, answer) for line, answer in rules.answers(Monitor(), rules.lines_of(path.read_bytes())) if line.answer is not None]
    answered = [f"{line.number}: {line.asked} = {answer}" for line, answer in lines]
    assert answered == [f"{line.number}: {line.asked} = {line.answer}" for line, _ in lines]


def test_rows_are_many():
    assert len(ROWS) > 100


@pytest.mark.parametrize("row", ROWS, ids=lambda row: f"{row[2]}-{row[3]}")
def test_row_pins_its_rule(check, row):
    check.findings(rules.pins(row))


def test_each_rule_has_a_row(check):
    check.findings(rules.pinned())


@needs(VIEW)
def test_program(check):
    """The program performs the traces as histories, and refuses what the second RMM refuses."""
    refused = 0
    with ThreadPoolExecutor(os.cpu_count()) as pool:
        for path in rules.traces():
            tried = list(rules.histories_of(path.read_bytes()))
            for it, (wrong, is_refusal) in zip(tried, pool.map(rules.applied, tried)):
                refused += is_refusal
                check(f"{path.name}, line {it.number}", wrong, None)
    check(f"the RMM has refused {refused} commands", refused >= REFUSED)


@needs(VIEW)
@examples(60)
@given(random_traces())
def test_program_over_random_traces(text):
    found = ((it.number, rules.applied(it)[0]) for it in rules.histories_of(text))
    assert [(number, wrong) for number, wrong in found if wrong] == []
