"""Plans in which a build aborts after each of its steps, beside two that go on, with their texts, for `tests/test_program.py`.

The texts are worked out here by the rules: every step is accepted, and an abort undoes what is open, newest first.
"""
from programs import plan_of

# The steps that open an operation, by their word; the reverse of an operation has the same word.
OPENING = {"take", "delegate", "realm", "rtt", "data", "rec"}
# The number of turns that the failing build has after those that all three have.
TURNS_TO_ABORT = 14

MAP_OF_THE_OTHERS = """\
0 page 0 RD
0 page 1 RTT
0 page 2 RTT
0 page 3 RTT
0 page 4 DATA 28666
0 page 5 UNDELEGATED 28672
0 page 6 REC
0 page 7 REC_AUX
0 realm ACTIVE vmid 1
2 page 0 RD
2 page 1 RTT
2 page 2 RTT
2 page 3 RTT
2 page 4 DATA 36856
2 page 5 UNDELEGATED 36864
2 page 6 REC
2 page 7 REC_AUX
2 realm ACTIVE vmid {vmid}
free 8
"""


def life(value):
    """Eighteen steps that make a realm, fill a page of it with a value, and let a guest write."""
    delegates = [f"delegate {page}" for page in (0, 1, 2, 3, 4, 6, 7)]
    tables = ["rtt 2 0 2", "rtt 3 0 3"]
    running = ["activate", "enter 0", "poke 0 0 4095 1"]
    return ["take 3", f"fill 5 {value}", *delegates, "realm 0 1", *tables, "ripas 8 4", "data 4 0 5", "rec 6 7", *running]


def accepted(build, steps, vmid):
    """The lines of steps that are all accepted. The first page and the first REC of a build have the number 0."""
    answers = {"take": "ok 0", "realm": f"ok {vmid}", "rec": "ok 0"}
    return [f"{build} {step} = {answers.get(step.split()[0], 'ok')}" for step in steps]


def aborted(build, steps):
    """The lines of an abort after these steps: what is open is undone, newest first."""
    kinds = [step.split()[0] for step in reversed(steps) if step.split()[0] in OPENING]
    ends = ["ok"] * (len(kinds) - 1) + ["done"]
    return [f"{build} abort = {end} {kind}" for end, kind in zip(ends, kinds)] or [f"{build} abort = done"]


def failing_build(done):
    """A plan in which build 1 aborts after `done` steps, the text of its run, and the map of the run without build 1."""
    lives = [life(7), life(8)[:done], life(9)]
    # A REC that runs would prevent the abort.
    exits = ["exit 0"] if "enter 0" in lives[1] else []
    # Build 1 has VMID 2 before build 2 asks for one, where it has come as far as its realm.
    vmid = 3 if "realm 0 1" in lives[1] else 2
    lines = [
        accepted(0, lives[0], 1),
        accepted(1, lives[1] + exits, 2) + aborted(1, lives[1]),
        accepted(2, lives[2], vmid),
    ]
    order = [0, 1, 2] * len(life(0)) + [1] * TURNS_TO_ABORT
    rest = [iter(its) for its in lines]
    turns = "".join(next(rest[build], f"{build} - idle") + "\n" for build in order)
    plan = plan_of([lives[0], lives[1] + exits + ["abort"], lives[2]], pages=24, aux=1, order=order)
    left = MAP_OF_THE_OTHERS.format(vmid=vmid)
    return plan, (turns + left).encode(), left.encode()


def failing_builds():
    for done in range(len(life(0)) + 1):
        yield done, *failing_build(done)
