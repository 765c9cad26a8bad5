"""DEFINITIONS.md and the documents' numbers against the definitions that the headline needs, as tests/believed.py finds them."""
import pytest

import believed


@pytest.fixture(scope="module")
def needed():
    return believed.by_file(believed.needed())


@pytest.mark.parametrize("kind", [believed.of_list, believed.of_the_rest, believed.of_numbers], ids=lambda it: it.__name__[3:])
def test_believed(check, needed, kind):
    check.findings(kind(needed))
