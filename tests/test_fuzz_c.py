"""Random calls of the RMM for C, as it is in build/: tests/rmm_c/fuzz.c says what is checked after each call. `make fuzz` makes them.

  random     libFuzzer makes inputs for FUZZ_SECONDS, with the sanitizers of addresses and of undefined behaviour
  reached    these inputs reach enough pairs of a command and the check that decides it; with 20 seconds or more
  memory     valgrind finds nothing in the largest of them
  planted    each of the wrong libraries in fuzz.c is found; with 20 seconds or more

An input in which something is wrong is kept as build/fuzz_c-*, and the next run begins with it. clang with libFuzzer is needed.
"""
import os
import re
import shutil
from random import Random

import pytest

from c_programs import BUILD, FLAGS, MEMCHECK
from programs import STATIC, TOP, needs, ran

SECONDS = int(os.environ.get("FUZZ_SECONDS") or 60)
pytestmark = [
    pytest.mark.long, pytest.mark.random, needs(STATIC), pytest.mark.skipif(not shutil.which("clang"), reason="there is no clang"),
]
FUZZER = ["-fsanitize=fuzzer,address,undefined", "-fno-sanitize-recover=all"]
SOURCE = TOP / "tests/rmm_c/fuzz.c"
PLANTED = sorted({int(it) for it in re.findall(r"PLANTED == (\d+)", SOURCE.read_text())})
# The length of inputs in bytes, how many of them valgrind performs, and how many there are at first.
MOST_BYTES, MOST_INPUTS, FIRST_INPUTS = 1000, 20, 16
LONG, EACH_PLANTED = 20, 60
# The pairs of a command and its deciding check that inputs of LONG seconds reach at least.
PAIRS = 100


def compiled(folder, name, *flags):
    to = folder / name
    ran(["clang", "-std=c11", *FLAGS, "-O1", "-g", *flags, SOURCE, STATIC, "-o", to])
    return to


def fuzzed(program, inputs, seconds, status=0, kept=f"{BUILD}/fuzz_c-"):
    """The output of libFuzzer, which goes on from some first inputs."""
    inputs.mkdir()
    for number in range(FIRST_INPUTS):
        (inputs / str(number)).write_bytes(Random(number).randbytes(MOST_BYTES))
    how = [f"-max_total_time={seconds}", f"-max_len={MOST_BYTES}", "-len_control=0", f"-artifact_prefix={kept}"]
    return ran([program, *how, inputs], status)


def test_random_calls(tmp_path):
    program, alone, inputs = compiled(tmp_path, "fuzz", *FUZZER), compiled(tmp_path, "alone", "-DALONE"), tmp_path / "inputs"
    for it in BUILD.glob("fuzz_c-*"):
        ran([program, it])
    fuzzed(program, inputs, SECONDS)
    if SECONDS >= LONG:
        assert int(re.search(r"(\d+) pairs", ran([alone, *inputs.iterdir()]))[1]) >= PAIRS
    if shutil.which("valgrind"):
        ran([*MEMCHECK, alone, *sorted(inputs.iterdir(), key=lambda it: it.stat().st_size)[-MOST_INPUTS:]])


@pytest.mark.skipif(SECONDS < LONG, reason="it takes longer")
@pytest.mark.parametrize("number", PLANTED)
def test_planted_library(tmp_path, number):
    """Each of the wrong libraries in fuzz.c is found."""
    program = compiled(tmp_path, "wrong", *FUZZER, f"-DPLANTED={number}")
    assert "fuzz.c:" in fuzzed(program, tmp_path / "inputs", EACH_PLANTED, None, f"{tmp_path}/")
