"""The bounds of documents and comments, as tests/prose.py measures them."""
import pytest

import prose


@pytest.mark.parametrize("name", prose.names())
def test_counts(check, name):
    check.findings(prose.of_counts(name))


def test_stored_names(check):
    check.findings(prose.of_stored(prose.names()))


def test_readme(check):
    check.findings(prose.of_readme())


def test_terms(check):
    check.findings(prose.of_terms())


def test_index(check):
    check.findings(prose.of_index())
