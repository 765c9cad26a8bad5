"""The subcommands `explore` and `order` of realmview over plans, against replays by realmhost of each schedule.

The schedules of a plan are found here by replays alone: a build has a step left if its next turn is not idle. Of each one the
lines of the replay say how each step ended, and what the map is. From these the whole text of `explore` is made, and it has to
be the one that the program writes. Of a plan of more schedules the first one of each line is replayed: it has to show what the
line says. The number of schedules is known besides, if each step has one turn: the multinomial of the builds' numbers of
steps.
If builds give up, the plan that is replayed has an abort after a build's first refusal.
Of schedules that are drawn, the numbers of xoshiro256++ are made here too. The lines of the progress are read from a terminal.

What `order` writes of a plan is replayed: no turn is idle, each build performs every step, and the builds take turns as they have
to. The rest of the text is as it was. A few such texts are stored in tests/reordered.
"""
import json
import math
import os
import pty
import random
import re
import subprocess
import threading
import time
import tomllib
from collections import Counter

import pytest

from programs import HOST, PLANS, RUNS, SECONDS, TOP, VIEW, needs, over, run

pytestmark = needs(HOST, VIEW)
# The most schedules of a plan that are replayed here. Plans that have more are compared in tests/test_schedules.py.
MOST = 40
# The number of plans of random steps.
RANDOM_PLANS = 25
# The text to a terminal before each line, and in the end: it goes back to the line's first column, and clears it.
CLEARED = "\r\x1b[K"
# The most bytes of a plan, and the message if one would have more.
MOST_BYTES = 1048576
OUTSIDE = "with the turns that its builds need, the plan has more than 16384 turns or 1048576 bytes\n"
# The place of a build's giving up, after those of all steps.
BEYOND = 1 << 16
# The most lines of progress in a second.
LINES_A_SECOND = 5


def with_order(plan, schedule):
    """The plan with another schedule."""
    text, count = re.subn(r"(?ms)^order *= *\[.*?\]", f"order = {schedule}", plan)
    return text if count else f"order = {schedule}\n{plan}"


class Replay:
    """A replay of a plan in a schedule: the turns' lines, and the map."""

    def __init__(self, plan, schedule):
        status, out, err = run(HOST, ["replay"], with_order(plan, schedule))
        assert (status, err) == (0, ""), (status, err, schedule)
        lines = out.splitlines(keepends=True)
        self.turns, self.map = lines[: len(schedule)], "".join(lines[len(schedule) :])

    def ends(self):
        """Each step that is used up: its build, its place, its text, and the refusal or `ok`."""
        places = {}
        for line in self.turns:
            if line.endswith(" - idle\n"):
                continue
            build, rest = line.rstrip("\n").split(" ", 1)
            text, answer = rest.rsplit(" = ", 1)
            if text in ("abort", "back") and answer.startswith("ok"):
                continue
            place = places.get(build, 0)
            places[build] = place + 1
            yield int(build), place, text, answer if answer.startswith("no ") else "ok"


class GivingUp(Replay):
    """A replay of a plan by a schedule, in which a build gives up once a step of it is refused.

    `realmhost` goes on after a refusal. So after the first step of a build that is refused its steps are cut off, and an abort
    is put in their place. The plan is replayed again, the earliest refusal first: the abort decides what others get after it.
    """

    def __init__(self, plan, schedule):
        self.cuts = {}
        while True:
            super().__init__(self.cut(plan), schedule)
            refused = [end for end in super().ends() if end[3] != "ok" and end[0] not in self.cuts]
            if not refused:
                return
            build, place, _, _ = refused[0]
            self.cuts[build] = place + 1

    def cut(self, plan):
        """The plan with the builds' steps as they are cut so far."""
        settings = tomllib.loads(plan)
        settings.pop("order", None)
        builds = [build["steps"] for build in settings.pop("build")]
        for build, place in self.cuts.items():
            builds[build] = [*builds[build][:place], "abort"]
        return plan_of(builds, **{"vmids": 8, **settings})

    def ends(self):
        """Each step that is used up, and after those of a build its giving up."""
        for build, place, text, answer in super().ends():
            yield (build, BEYOND, None, answer) if place == self.cuts.get(build) else (build, place, text, answer)


def words_of(end):
    """The words on the end of a step, or of a build's giving up."""
    build, place, text, answer = end
    return f"give up {build} = {answer}" if text is None else f"step {build} {place} {text} = {answer}"


def left_behind(plan, builds, prefix, replay):
    """The builds that have a step left after these turns, by one more turn of each: whether it is idle, no other build decides."""
    more = replay(plan, [*prefix, *range(builds)]).turns[len(prefix) :]
    return [build for build, line in enumerate(more) if not line.endswith(" - idle\n")]


def schedules_of(plan, builds, replay, prefix=()):
    """Each schedule of the plan that begins so, the lowest first, with its replay."""
    left = left_behind(plan, builds, prefix, replay)
    if not left:
        yield list(prefix), replay(plan, list(prefix))
    for build in left:
        yield from schedules_of(plan, builds, replay, (*prefix, build))


# The options of `explore` for what builds do after a refusal, and the replays that do so.
WAYS = (((), Replay), (("--give-up",), GivingUp))


class Shown(dict):
    """The number of schedules that show a thing, and the first of them."""

    def add(self, thing, schedule):
        count, first = self.get(thing, (0, schedule))
        self[thing] = (count + 1, first)

    def text(self, thing, schedules):
        count, first = self[thing]
        return " in all\n" if count == schedules else f" in {count}, order = {first}\n"


class Totals:
    """The outcomes of schedules."""

    def __init__(self, builds):
        self.builds, self.schedules = builds, 0
        self.wholes, self.ends, self.smooth, self.maps = Shown(), Shown(), Shown(), Shown()

    def add(self, schedule, replay):
        self.schedules += 1
        refused = set()
        for build, place, text, answer in replay.ends():
            self.ends.add((build, place, text, answer), schedule)
            if answer != "ok":
                refused.add(build)
        self.wholes.add("some step refused" if refused else "no step refused", schedule)
        for build in set(range(self.builds)) - refused:
            self.smooth.add(build, schedule)
        self.maps.add(replay.map, schedule)

    def lines(self):
        for words in self.wholes:
            yield words + self.wholes.text(words, self.schedules)
        # of one step the ends come in the sequence in which schedules first show them
        for end in sorted(self.ends, key=lambda end: end[:2]):
            yield words_of(end) + self.ends.text(end, self.schedules)
        for build in range(self.builds):
            yield f"never refused {build}" + (self.smooth.text(build, self.schedules) if build in self.smooth else " in 0\n")
        for map_text in self.maps:
            yield "map" + self.maps.text(map_text, self.schedules) + map_text


def text_of(plan, builds, most, replay):
    """The text that `explore` has to write; none if there are more schedules."""
    totals = Totals(builds)
    for schedule, replayed in schedules_of(plan, builds, replay):
        if totals.schedules == most:
            return None
        totals.add(schedule, replayed)
    return f"schedules {totals.schedules}\n" + "".join(totals.lines())


def numbers_of(seed):
    """The upper halves of the numbers of xoshiro256++, by Blackman and Vigna, seeded by splitmix64."""
    mask = (1 << 64) - 1
    rotated = lambda word, count: ((word << count) | (word >> (64 - count))) & mask
    state = []
    for _ in range(4):
        seed = (seed + 0x9E3779B97F4A7C15) & mask
        word = ((seed ^ (seed >> 30)) * 0xBF58476D1CE4E5B9) & mask
        word = ((word ^ (word >> 27)) * 0x94D049BB133111EB) & mask
        state.append(word ^ (word >> 31))
    while True:
        yield ((rotated((state[0] + state[3]) & mask, 23) + state[0]) & mask) >> 32
        shifted = (state[1] << 17) & mask
        state[2] ^= state[0]
        state[3] ^= state[1]
        state[1] ^= state[2]
        state[0] ^= state[3]
        state[2] ^= shifted
        state[3] = rotated(state[3], 45)


def text_of_sample(plan, builds, count, seed, replay):
    """The text that `explore --sample --seed` has to write."""
    numbers, totals = numbers_of(seed), Totals(builds)
    for _ in range(count):
        schedule = []
        while left := left_behind(plan, builds, schedule, replay):
            schedule.append(left[next(numbers) % len(left)])
        totals.add(schedule, replay(plan, schedule))
    return f"schedules drawn {count}\n" + "".join(totals.lines())


def plan_of(builds, **settings):
    """A plan of these builds' steps, with any schedule."""
    head = "".join(f"{name} = {value}\n" for name, value in {"pages": 16, "vmids": 2, **settings}.items())
    return head + "order = [0]\n" + "".join(f"[[build]]\nsteps = {list(steps)}\n".replace("'", '"') for steps in builds)


def shows(replay, words, rest):
    """Whether a replay shows what a line says of its schedule. `rest` is the text below the line."""
    ends = list(replay.ends())
    refused = {build for build, _, _, answer in ends if answer != "ok"}
    match words.split(" ", 2):
        case ["map"]:
            return rest.startswith(replay.map)
        case ["no", *_]:
            return not refused
        case ["some", *_]:
            return bool(refused)
        case ["never", _, build]:
            return int(build) not in refused
    return words in map(words_of, ends)


def of_first_schedules(name, plan, words, replay):
    """The first schedule of each line, replayed: it shows what the line says."""
    status, out, err = run(VIEW, words, plan)
    yield f"{name}, status", (status, err), (0, "")
    for line in re.finditer(r"(?m)^(.*) in \d+, order = (\[.*\])\n", out):
        yield f"{name}, {line[0]}", shows(replay(plan, json.loads(line[2])), line[1], out[line.end() :]), True


def of_plan(name, plan, builds, most=MOST):
    for words, replay in WAYS:
        name, words = f"{name} {words}", ["explore", *words]
        yield from of_first_schedules(name, plan, words, replay)
        if wanted := text_of(plan, builds, most, replay):
            yield name, run(VIEW, words, plan), (0, wanted, "")


def of_sample(name, plan, builds, count, seed):
    for words, replay in WAYS:
        words = ["explore", *words, "--sample", str(count), "--seed", str(seed)]
        yield f"{name}, drawn", run(VIEW, words, plan), (0, text_of_sample(plan, builds, count, seed, replay), "")


def of_counts():
    """The multinomials of numbers of steps, each of one turn; and the most states."""
    for lengths in ((1,), (3,), (1, 1), (2, 2), (3, 4), (1, 2, 3), (1, 1, 1, 1), (2, 2, 2, 2), (1,) * 6, (10, 10), (40, 40), (20, 20, 20)):
        plan = plan_of([["take 0"] + ["fill 0 7"] * (length - 1) for length in lengths], pages=64)
        count = math.factorial(sum(lengths)) // math.prod(map(math.factorial, lengths))
        status, out, err = run(VIEW, ["explore"], plan)
        yield f"steps {lengths}", (status, out.split("\n", 1)[0], err), (0, f"schedules {count}", "")
    # (a build's take is the only step that what another did has to do with: which of two granules it gets)
    plan = plan_of([["take 0", "fill 0 7"], ["take 0", "fill 0 7"]])
    states = 1 + 2 + 4 + 4 + 2
    for most, first in ((states, "schedules 6"), (states - 1, f"states more than {states - 1}"), (0, "states more than 0")):
        status, out, err = run(VIEW, ["explore", "--most-states", str(most)], plan)
        yield f"{most} states", (status, out.split("\n", 1)[0], err), (0, first, "")
        yield f"{most} states, lines", out.count("\n") > 1, first == "schedules 6"


def random_steps(source, length):
    """Steps that are mostly accepted, some that compete, and one that gives all back."""
    steps = ["take 2", "delegate 0", "delegate 1", "realm 0 1"]
    pool = ["take 0", "take 1", "take 2", "take 3", "mark", "back", "undo", "abort", "fill 2 7", "peek 2 0", "delegate 3", "activate", "rtt 3 0 1"]
    steps = steps[: source.randrange(5)]
    return steps + [source.choice(pool) for _ in range(length - len(steps))]


def of_random_plan(number):
    source = random.Random(number)
    builds = [random_steps(source, source.randrange(1, 7)) for _ in range(source.randrange(1, 4))]
    plan = plan_of(builds, pages=source.choice([4, 8, 16]), vmids=source.choice([1, 2]))
    yield from of_plan("all schedules", plan, len(builds))
    if number < 5:
        yield from of_sample("some schedules", plan, len(builds), 12, number * 1000003)


def of_options():
    """Calls with one option alone, and with more to be drawn than may be."""
    plan = plan_of([["take 0"], ["take 1"]])
    for words, first in (
        (["--seed", "4294967295"], "schedules drawn 1000"),
        (["--sample", "7"], "schedules drawn 7"),
        (["--sample", "7", "--most-states", "1"], "schedules drawn 7"),
        (["--most-states", "1"], "states more than 1"),
    ):
        status, out, err = run(VIEW, ["explore", *words], plan)
        yield f"{words}", (status, out.split("\n", 1)[0], err), (0, first, "")
    words = ["--sample", "1000001"]
    status, out, err = run(VIEW, ["explore", *words], plan)
    yield f"{words}", (status, out, err.split("\n", 1)[0]), (2, "", "error: --sample 1000001 is above 1000000")
    status, out, err = run(VIEW, ["explore", "--give-up", "--refused", "0:0"], plan)
    wanted = "error: --give-up is not for --refused, --waiting and --leased: a replay of the plan that they print does not give up"
    yield "a printed plan that is to give up", (status, out, err.split("\n", 1)[0]), (2, "", wanted)
    alike = [run(VIEW, ["explore", *words], plan) for words in (["--sample", "20"], ["--sample", "20", "--seed", "0"])]
    yield "the seed 0 where none is given", *alike


def of_alike_refusals():
    """A step whose refusals differ in a number alone: there is a table of level 2 where build 0 was first to take the last page."""
    steps = ["take 2", "delegate 0", "delegate 1", "delegate 2", "realm 0 1", "take 0", "delegate 4", "rtt 4 0 2", "data 2 0 3"]
    plan = plan_of([steps, ["take 0"]], pages=5)
    yield from of_plan("refusals alike", plan, 2)
    told = run(VIEW, ["explore"], plan)[1]
    yield "refusals alike, both told", [words in told for words in ("no 13 Rmi 4 1 in 6,", "no 13 Rmi 4 2 in 4,")], [True, True]


def on_a_terminal(words, given):
    """Status, standard output, what a terminal got that is standard error, and the seconds that it took."""
    ours, its = pty.openpty()
    got = []

    def read():
        try:
            while part := os.read(ours, 4096):
                got.append(part)
        except OSError:
            # (so a terminal ends whose other side is closed)
            pass

    reader = threading.Thread(target=read)
    reader.start()
    begun = time.monotonic()
    try:
        ran = subprocess.run([VIEW, *words], input=given.encode(), stdout=subprocess.PIPE, stderr=its, timeout=SECONDS)
    finally:
        took = time.monotonic() - begun
        os.close(its)
        reader.join()
        os.close(ours)
    return (ran.returncode, ran.stdout.decode(), b"".join(got).decode(), took)


def of_progress():
    """The lines while schedules are run, if standard error is a terminal; if it is none, `run` sees that there are none."""
    plan = (TOP / "plans/failed-build.toml").read_text()
    words, count = ["explore", "--sample", "40000"], 40000
    status, out, told, took = on_a_terminal(words, plan)
    yield f"{words}, on a terminal", (status, out, ""), run(VIEW, words, plan)
    first, *lines, last = told.split(CLEARED)
    behind = f" of {count} schedules run"
    numbers = [int(line.removesuffix(behind)) for line in lines]
    yield f"{words}, before and after", (first, last), ("", "")
    yield f"{words}, lines", [f"{number}{behind}" for number in numbers], lines
    yield f"{words}, numbers rise", [*numbers, count], sorted({*numbers, count})
    yield f"{words}, how many lines", 2 <= len(lines) <= LINES_A_SECOND * took, True
    plan = plan_of([["take 0"]] * 2, pages=64)
    yield "all schedules, on a terminal", on_a_terminal(["explore"], plan)[2], ""


# ---- order


def order_in(plan):
    return tomllib.loads(plan)["order"]


def without_order(plan):
    """The plan without the value of its order, or without the line of the key."""
    return re.sub(r"(?ms)^order = \[.*?\]", "order", plan)


def in_rotation(schedule):
    """The same turns in rotation, as each build has as many."""
    left, at = Counter(schedule), 0
    while +left:
        build = min(+left, key=lambda build: (build < at, build))
        left[build] -= 1
        at = build + 1
        yield build


def of_whole_order(name, plan, words):
    """The plan that `order` writes."""
    name = f"{name}, order {words}"
    status, text, err = run(VIEW, ["order", *words], plan)
    yield name, (status, err), (0, "")
    order = order_in(text)
    replay = Replay(text, order)
    yield f"{name}, idle turns", [line for line in replay.turns if line.endswith(" - idle\n")], []
    builds = tomllib.loads(plan)["build"]
    done = [[text for build, _, text, _ in replay.ends() if build == place] for place in range(len(builds))]
    yield f"{name}, steps", done, [build["steps"] for build in builds]
    yield f"{name}, whose turns", order, sorted(order) if words else list(in_rotation(order))
    had = "order" in tomllib.loads(plan)
    kept = without_order(text) if had else re.sub(r"(?ms)^order = \[.*?\]\n", "", text)
    yield f"{name}, the rest of the text", kept, without_order(plan) if had else plan
    lines = re.search(r"(?ms)^order = \[.*?\]", text)[0].splitlines()
    yield f"{name}, columns", [line for line in lines if len(line) > 100], []
    yield f"{name}, once more", run(VIEW, ["order", *words], text), (0, text, "")


def of_stored_schedules():
    for path in sorted((TOP / "tests/reordered").glob("*.toml")):
        for words, suffix in ([], ".txt"), (["--one-by-one"], ".one-by-one.txt"):
            if path.with_suffix(suffix).exists():
                yield f"{path.stem} {words}", run(VIEW, ["order", *words], path.read_text()), (0, path.with_suffix(suffix).read_text(), "")


def of_no_order():
    """An input that is no plan, and a plan that its schedule would make too long."""
    status, findings, _ = run(VIEW, ["check"], "pages = 1\n")
    yield "order of no plan", run(VIEW, ["order"], "pages = 1\n"), (status, "", findings)
    plan = plan_of([["take 0", "take 1"]])
    for bytes_more, wanted in ((0, (0, "")), (1, (1, OUTSIDE))):
        # (a last line that fills the plan up; `[0, 0]` has three bytes more than its own `[0]`)
        text = plan + "#" * (MOST_BYTES - len(", 0") - len(plan) - 1 + bytes_more) + "\n"
        status, out, err = run(VIEW, ["order"], text)
        yield f"a plan of {len(text)} bytes", (status, err), wanted


# ---- tests


ALONE = (of_counts, of_progress, of_options, of_alike_refusals, of_stored_schedules, of_no_order)


@pytest.mark.parametrize("cases", ALONE, ids=lambda it: it.__name__[3:])
def test_schedules(check, cases):
    check.all(cases())


@pytest.mark.parametrize("number", range(RANDOM_PLANS))
def test_random_plan(check, number):
    check.all(of_random_plan(number))


@over("path", *PLANS)
def test_plan(check, path):
    plan = path.read_text()
    check.all(of_plan(path.stem, plan, plan.count("[[build]]"), 6))


@over("path", *PLANS, RUNS)
def test_order_to_replay(check, path):
    for words in ([], ["--one-by-one"]):
        check.all(of_whole_order(path.stem, path.read_text(), words))
