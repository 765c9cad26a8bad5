"""The programs in little memory, and over inputs that are longer than any memory.

  little memory   with less and less memory a plan has its text, or the one line `memory`
  long inputs     5 GiB in one line, in 32 MiB of memory, within a minute of the processor's time
"""
import resource
import subprocess

import pytest

from programs import HOST, TOP, TRACER, VIEW, Ran, limited, needs, run

pytestmark = [pytest.mark.long, pytest.mark.random, needs(HOST, TRACER, VIEW)]
MIB = 1 << 20


def little(seconds, memory):
    return limited((resource.RLIMIT_CPU, seconds), (resource.RLIMIT_AS, memory))


@pytest.mark.parametrize(("word", "more"), [("replay", b""), ("run", b"audit ok\n")])
def test_little_memory(word, more):
    plan, text = ((TOP / f"tests/runs/the_greatest_limits.{it}").read_bytes() for it in ("toml", "txt"))
    told = {run(HOST, [word], plan, preexec_fn=little(1, size * MIB)) for size in range(8, 64, 2)}
    assert told == {Ran(0, text + more, b""), Ran(3, b"", b"memory\n")}


LINE = b"\0" * 65537
NO_PLAN = b"plan:1:1: error: a plan has at most 1048576 bytes, and this is longer\n" + b" " * 78 + b"..\n^\n"
JUDGED = b"trace:1: wrong\n" + LINE + b"\nhere: no command\n0 same, 0 allowed, 1 wrong\n"


@pytest.mark.parametrize(
    ("program", "word", "wanted"),
    [
        (HOST, "replay", Ran(1, b"", b"plan 24 limit\n")),
        (HOST, "run", Ran(1, b"", b"plan 24 limit\n")),
        (TRACER, "answer", Ran(0, LINE + b" = no command\n", b"")),
        (TRACER, "check", Ran(1, JUDGED, b"")),
        (VIEW, "check", Ran(1, NO_PLAN, b"")),
        (VIEW, "history", Ran(1, b"", NO_PLAN)),
        (VIEW, "apply", Ran(1, b"", b"line 1 opens no history\n")),
    ],
    ids=["replay", "run", "answer", "check", "check of a plan", "history", "apply"],
)
def test_zeros(program, word, wanted):
    """5 GiB of zeros. A program may end before it has read them all."""
    zeros = subprocess.Popen(["head", "-c", "5G", "/dev/zero"], stdout=subprocess.PIPE)
    ran = run(program, [word], None, stdin=zeros.stdout, preexec_fn=little(60, 32 * MIB), timeout=600)
    zeros.stdout.close()
    zeros.wait()
    assert ran == wanted
