"""The statuses of the host for C of which rhm.h says when they come, each at its place.

    statuses.py

A row is a call of a host in a state, and its status and value as rhm.h has them. The words are those of RMM 1.0,
RmiStatusCode. The last line is `N statuses are as rhm.h has them`.
"""
import sys
from pathlib import Path

sys.dont_write_bytecode = True
TOP = Path(__file__).resolve().parent.parent.parent
sys.path[:0] = [str(TOP / "python")]
from rhm import Host, Result

# RMI_ERROR_INPUT, RMI_ERROR_REALM, RMI_ERROR_REC, RMI_ERROR_RTT.
INPUT, REALM, REC, RTT = 1, 2, 3, 4
# The first page of the half of 39 bits that is unprotected: 2^38 / 4096.
UNPROTECTED = 2**26
BASE, BLOCK = 0x80000000, 4
BOOT = [
    ("take", BLOCK), *[("delegate", page) for page in range(8)], ("realm", 0, 1, 39), ("rtt", 2, 0, 2), ("rtt", 3, 0, 3),
    ("ripas", 0, 2), ("fill", 9, 7), ("data", 4, 0, 9), ("rec", 6, [7]),
]
counted = 0


def wanted(what, got, name, value=0):
    """The status has this name, and the value is this one. What is prepared has operations."""
    global counted
    counted += 1
    it = (got.name, got.value) if isinstance(got, Result) else ("RHM_DONE", 0)
    if it != (name, value):
        raise AssertionError(f"{what}: {it}, and not {(name, value)}")


def booted(*more, history=64):
    host = Host(pages=64, vmids=4, aux=1, builds=2, history=history, base=BASE)
    for step in [*BOOT, *more]:
        wanted(step, host.ask(0, *step), "RHM_DONE", 1 if step[0] == "realm" else 0)
    return host


def prepared_and_asked(host, step, word):
    """A command that the model refuses before a call, with this word. Nothing is recorded."""
    before = host.history
    wanted(f"prepare {step}", host.prepare(0, *step), "RHM_RMI")
    wanted(f"commit {step}", host.commit(0, *step), "RHM_RMI", word)
    wanted(f"ask {step}", host.ask(0, *step), "RHM_RMI", word)
    if host.history != before:
        raise AssertionError(f"{step} is recorded")


def refused_before():
    """What makes no call, or names a REC that there is not, is refused before."""
    host = booted()
    for step in ("enter", 1, 0), ("exit", 1), ("poke", 1, 0, 0, 9, 0), ("fill", 0, 9), ("peek", 0, 0):
        prepared_and_asked(host, step, INPUT)
    prepared_and_asked(host, ("exit", 0), REC)
    # (a call that the RMM may refuse is prepared)
    wanted("prepare of an entry", host.prepare(0, "enter", 0, 0), "RHM_DONE")


def answers():
    """The statuses of a commit, by the answer of the RMM."""
    host = booted()
    wanted("an entry that both refuse", host.commit(0, "enter", 0, 0, answer=(REALM, 0)), "RHM_RMI", REALM)
    wanted("an entry that the RMM refuses with another word", host.commit(0, "enter", 0, 0, answer=(REC, 0)), "RHM_DIVERGED", REALM)
    wanted("an entry that the model refuses", host.commit(0, "enter", 0, 0, answer=(0, 0)), "RHM_DIVERGED", REALM)
    wanted("the same", host.commit(0, "enter", 0, 0, answer=(2**64 - 2, 0)), "RHM_DIVERGED", REALM)
    wanted("a delegation that the RMM refuses", host.commit(0, "delegate", 8, answer=(INPUT, 0)), "RHM_DIVERGED")
    wanted("an entry's answer", host.commit(0, "delegate", 8, answer=(2**64 - 2, 0)), "RHM_DIVERGED")
    wanted("an index beside RMI_SUCCESS", host.commit(0, "delegate", 8, answer=(0x100, 9)), "RHM_DONE")
    wanted("a block", host.prepare(0, "take", 9), "RHM_NO_BLOCK")
    wanted("a block", host.commit(0, "take", 9), "RHM_NO_BLOCK", 9)


def expected_of(host, build, rows):
    """The word that the model is said to answer to a call, and does answer."""
    for step, word in rows:
        before = host.history
        prepared = host.prepare(build, *step)
        wanted(f"prepare {step}", prepared, "RHM_DONE")
        if prepared.expected != word or host.history != before:
            raise AssertionError(f"prepare {step}: {prepared.expected:#x}, and not {word:#x}")
        if word:
            wanted(f"ask {step}", host.ask(build, *step), "RHM_RMI", word)


def expected_words():
    """X0 of the model is known before the call. RMM 1.0, RMI_ERROR_RTT has the level where the walk ends in its index."""
    host, second = booted(("delegate", 10)), 2**18
    expected_of(host, 0, [
        (("delegate", 8), 0), (("delegate", 0), INPUT), (("rtt", 10, second, 2), 0), (("rtt", 9, second, 2), INPUT),
        (("rtt", 10, 0, 2), RTT + 0x100), (("rtt", 10, second, 3), RTT + 0x100), (("rtt", 10, 512, 3), 0), (("rtt", 10, 513, 3), INPUT),
        (("rtt", 10, UNPROTECTED, 2), INPUT), (("ripas", 1, 2), 0), (("ripas", 0, 1), RTT + 0x300), (("ripas", 1, 511), 0),
        (("ripas", 511, 2), INPUT), (("ripas", second, 1), RTT + 0x100), (("ripas", 512, 1), RTT + 0x200), (("ripas", UNPROTECTED, 1), INPUT),
        (("data", 10, 1, 9), 0), (("data", 10, 0, 9), RTT + 0x300), (("data", 10, 1, 0), INPUT), (("data", 9, 1, 8), INPUT),
        (("data", 10, 512, 9), RTT + 0x200), (("unknown", 10, 1), 0), (("unknown", 10, 0), RTT + 0x300), (("unknown", 9, 1), INPUT),
        (("unknown", 10, UNPROTECTED), INPUT), (("rec", 10, [11]), INPUT), (("rec", 10, [10]), INPUT), (("rec", 10, []), INPUT),
        (("activate",), 0), (("enter", 0, 0), REALM), (("poke", 0, 0, 0, 9, 0), REC),
    ])
    wanted("a delegation", host.delegate(0, 11), "RHM_DONE")
    expected_of(host, 0, [(("rec", 10, [11]), 0)])
    wanted("the realm", host.activate(0), "RHM_DONE")
    expected_of(host, 0, [
        (("activate",), REALM), (("ripas", 1, 1), REALM), (("ripas", 511, 2), INPUT), (("data", 10, 0, 9), REALM), (("unknown", 10, 1), 0),
        (("rec", 10, [11]), REALM), (("rec", 10, []), INPUT), (("enter", 0, 0), 0),
    ])
    wanted("an entry", host.enter(0, 0, 0), "RHM_DONE")
    expected_of(host, 0, [
        (("enter", 0, 0), REC), (("poke", 0, 0, 0, 9, 0), 0), (("poke", 0, 1, 0, 9, 0), RTT + 0x300), (("poke", 0, 512, 0, 9, 0), RTT + 0x200),
        (("poke", 0, UNPROTECTED, 0, 9, 0), INPUT),
    ])
    wanted("four pages", host.take(1, 2), "RHM_DONE")
    expected_of(host, 1, [(("realm", 0, 1, 39), INPUT), (("delegate", 0), 0)])
    for page in 0, 1:
        wanted("a delegation", host.delegate(1, page), "RHM_DONE")
    expected_of(host, 1, [(("realm", 0, 1, 39), 0), (("realm", 1, 1, 39), INPUT), (("realm", 0, 2, 39), INPUT), (("realm", 0, 1, 40), INPUT)])


def outputs():
    """An undo with another output stays open, and is performed with the output that the host knows."""
    host = booted()
    wanted("the REC", host.undo(0), "RHM_DONE", 13)
    # (the data are page 4, and the table of level 3 is page 3)
    for page, answer, name in (4, (0, BASE), "RHM_OTHER_OUTPUT"), (3, (0x304, 0), "RHM_DIVERGED"):
        left = host.read_build(0)["open_count"]
        wanted("an undo", host.commit_undo(0, answer), name)
        wanted("it again", host.commit_undo(0, (0, BASE + 4096 * page)), "RHM_DONE", left - 1)


def settled():
    """An undo that the RMM has performed is committed without a call, whatever its output is."""
    host = booted()
    for left in reversed(range(14)):
        wanted("an undo", host.settle_undo(0), "RHM_DONE", left)
    wanted("one more", host.settle_undo(0), "RHM_NOTHING_TO_UNDO")


def two_entries():
    """Between the two steps of an entry another REC of the build is entered. Neither changes what the other one does."""
    host = booted(("delegate", 10), ("delegate", 11))
    wanted("a second REC", host.rec(0, 10, [11]), "RHM_DONE", 1)
    wanted("the realm", host.activate(0), "RHM_DONE")
    first = host.prepare(0, "enter", 0, 0)
    wanted("the first REC", first, "RHM_DONE")
    wanted("the second REC", host.prepare(0, "enter", 1, 1), "RHM_DONE")
    wanted("the second REC", host.commit(0, "enter", 1, 1), "RHM_DONE")
    again = host.prepare(0, "enter", 0, 0)
    if repr(again) != repr(first):
        raise AssertionError(f"the first REC: {again}, and not {first}")
    wanted("the first REC", host.commit(0, "enter", 0, 0), "RHM_DONE")
    wanted("the exits", host.exit(0, 0), "RHM_DONE")
    wanted("the exits", host.exit(0, 1), "RHM_DONE")
    came = [(it["kind"], it["rec"]) for it in host.history[-4:]]
    if came != [("enter", 1), ("enter", 0), ("exit", 0), ("exit", 1)]:
        raise AssertionError(f"the events: {came}")


def way_back():
    """The first refusal of a way back comes, with a mark and without."""
    host = booted()
    for mark in False, True:
        wanted("no build", host.roll_back(2), "RHM_NO_BUILD")
        wanted("no mark", host.roll_back(1), "RHM_NOTHING_TO_UNDO")
        if mark:
            wanted("a mark", host.mark(0), "RHM_DONE", host.read_build(0)["open_count"])
        wanted("an abort", host.begin_abort(0), "RHM_DONE", host.read_build(0)["open_count"])
        wanted("in abort", host.roll_back(0), "RHM_ABORTING")
        host = booted()
    wanted("no mark", host.roll_back(0), "RHM_NOTHING_TO_UNDO")


def full_history():
    """An exit has kept its room: it is performed when the history is full, in front of an RMM too."""
    host = booted(("activate",), ("enter", 0, 0), history=64)
    while host.fill(0, 9, 1).is_done:
        pass
    wanted("a full history", host.fill(0, 9, 1), "RHM_HISTORY_FULL")
    wanted("an entry", host.prepare(0, "enter", 0, 0), "RHM_HISTORY_FULL")
    wanted("an undo", host.prepare_undo(0), "RHM_REC_RUNNING")
    wanted("an exit", host.prepare(0, "exit", 0), "RHM_DONE")
    wanted("an exit", host.commit(0, "exit", 0), "RHM_DONE")
    wanted("an abort", host.abort(0), "RHM_DONE", 14)


for part in refused_before, answers, expected_words, outputs, settled, two_entries, way_back, full_history:
    part()
print(f"{counted} statuses are as rhm.h has them")
