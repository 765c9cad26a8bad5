"""RMI-RULES.md and CHECKS.md against the second model, as tests/rmm_rules.py has them."""
import pytest

import rmm_rules


def test_table_of_checks():
    assert rmm_rules.table() == rmm_rules.modelled()


@pytest.mark.parametrize("row", rmm_rules.rows(), ids=lambda it: f"{it.command}-{it.check}")
def test_row_pins_its_check(row):
    assert rmm_rules.finding(row) is None


def test_each_check_has_a_row(check):
    check.findings(rmm_rules.of_names())
