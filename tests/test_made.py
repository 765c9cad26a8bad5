"""Documents, pictures and texts that a tool makes: the stored ones are those that it would make."""
import pytest

from programs import TOP, Ran, run


@pytest.mark.parametrize("tool", ["pictures", "calls", "commands_index", "page_template"])
def test_stored(tool):
    assert run(TOP / "tools" / tool, ["--check"], "") == Ran(0, "", "")
