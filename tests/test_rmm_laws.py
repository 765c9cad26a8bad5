"""Statements about machines of the RMM by registers, over a few random histories. `make planted` plants mistakes."""
import re

from programs import TOP, run

HISTORIES, SECONDS = "4", 600


def test_statements():
    ran = run(TOP / "tests/random_laws", [HISTORIES], "", timeout=SECONDS)
    assert (ran.status, ran.err) == (0, ""), ran.out[-2000:]
    assert re.fullmatch(r"random_laws: [1-9]\d* passed, 0 failed", ran.out.splitlines()[-1])
