"""The subcommand `explore` of realmview, against a graph of states in Python, and against runs of each schedule.

The graph is that of tests/schedule_graph.py, over the second host. What it says of a plan has to be what the program says. For
a plan of few schedules it is what runs of each schedule say, from boot, with the text of each first schedule.
"""
import copy
import functools
import random
import tomllib

import pytest

from programs import HOST, PLANS, VIEW, needs, over, run
from schedule_graph import Graph, machine_of
from second_host import Blocks, Build, Turn, map_of

pytestmark = needs(VIEW, HOST)
# The most schedules of a plan that are run one after the other.
MOST = 500
# The most schedules if the shortest way to a thing is found by trying all.
FEW = 100
RANDOM_PLANS, MOST_TURNS, PARTS = 300, 12, 10


class Run:
    """A run of a plan from boot."""

    def __init__(self, text: str, turns: list[int], gives_up: bool = False) -> None:
        plan = tomllib.loads(text)
        self.machine, self.steps = machine_of(plan), [build["steps"] for build in plan["build"]]
        self.last = None
        # The state of each build: whether a step of it was refused, and whether the abort after that is over.
        self.gives_up, self.refused, self.over = gives_up, set(), set()
        self.builds, self.blocks, self.ends = [Build() for _ in self.steps], Blocks.of(self.machine.pages), []
        for build in turns:
            self.turn(build)

    def left(self) -> list[int]:
        is_left = lambda it: it not in self.over if it in self.refused else self.builds[it].done < len(self.steps[it])
        return list(filter(is_left, range(len(self.steps))))

    def turn(self, number: int) -> None:
        before = self.builds[number]
        turn = Turn(self.machine, before, self.blocks, frozenset(it.vmid for it in self.builds) - {None})
        aborts = number in self.refused
        turn.step("abort" if aborts else self.steps[number][before.done])
        self.builds[number], self.blocks, self.last = turn.build, turn.blocks, number
        if turn.build.done != before.done:
            self.ends.append((number, "give up" if aborts else before.done, turn.answer))
            if aborts:
                self.over.add(number)
            elif self.gives_up and turn.answer != "ok":
                self.refused.add(number)

    def then(self, number: int) -> "Run":
        """The run with one turn more. What a turn changes is made anew."""
        more = copy.copy(self)
        more.builds, more.ends = self.builds.copy(), self.ends.copy()
        more.refused, more.over = self.refused.copy(), self.over.copy()
        more.turn(number)
        return more

    def map(self) -> str:
        rows = [map_of(self.machine, number, build) for number, build in enumerate(self.builds)]
        return "".join(rows) + f"free {self.blocks.free()}\n"


def each_schedule(run: Run, turns: tuple[int, ...] = ()):
    """Each schedule that begins with these turns, the lowest first, with its run."""
    left = run.left()
    if not left:
        yield list(turns), run
    for build in left:
        yield from each_schedule(run.then(build), (*turns, build))


class Shown(dict):
    """In how many schedules a thing is, and the first of them."""

    def add(self, thing, schedule: list[int]) -> None:
        count, first = self.get(thing, (0, schedule))
        self[thing] = (count + 1, first)


def one_by_one(text: str, gives_up: bool = False) -> str | None:
    """The text that `explore` has to print of a plan, by a run of each schedule; none if there are too many."""
    steps = [build["steps"] for build in tomllib.loads(text)["build"]]
    schedules, wholes, ends, smooth, maps = 0, Shown(), Shown(), Shown(), Shown()
    for schedule, ended in each_schedule(Run(text, [], gives_up)):
        schedules += 1
        if schedules > MOST:
            return None
        refused = {end[0] for end in ended.ends if end[2] != "ok"}
        wholes.add("some step refused" if refused else "no step refused", schedule)
        for end in ended.ends:
            ends.add(end, schedule)
        for build in set(range(len(steps))) - refused:
            smooth.add(build, schedule)
        maps.add(ended.map(), schedule)

    def shown(thing) -> str:
        count, first = thing
        return " in all\n" if count == schedules else f" in {count}, order = {first}\n"

    rows = [f"schedules {schedules}\n"]
    rows += [words + shown(wholes[words]) for words in wholes]
    # (a stable sort: of one step the ends stay in the sequence in which schedules first show them)
    for build in range(len(steps)):
        for place in [*range(len(steps[build])), "give up"]:
            words = f"give up {build}" if place == "give up" else f"step {build} {place} {steps[build][place]}"
            rows += [f"{words} = {it[2]}" + shown(ends[it]) for it in ends if it[:2] == (build, place)]
    rows += [f"never refused {it}" + (shown(smooth[it]) if it in smooth else " in 0\n") for it in range(len(steps))]
    return "".join(rows + ["map" + shown(maps[it]) + it for it in maps])


# ---- plans


def plan_of(builds, **settings) -> str:
    head = "".join(f"{name} = {value}\n" for name, value in {"pages": 16, "vmids": 2, **settings}.items())
    return head + "".join(f"[[build]]\nsteps = {list(steps)}\n".replace("'", '"') for steps in builds)


def random_steps(source: random.Random, length: int) -> list[str]:
    """Steps that are mostly accepted, some that compete, and some that give back."""
    steps = ["take 2", "delegate 0", "delegate 1", "realm 0 1"][: source.randrange(5)]
    pool = [
        "take 0", "take 1", "take 2", "take 3", "mark", "back", "undo", "undo", "abort", "fill 2 7", "peek 2 0", "delegate 2",
        "delegate 3", "activate", "rtt 3 0 1", "rtt 2 0 2", "realm 0 1", "realm 0 2 40", "rec 2", "enter 0", "exit 0", "ripas 0 1",
    ]
    return (steps + [source.choice(pool) for _ in range(length)])[:length]


def random_plans():
    source = random.Random(63)
    for number in range(RANDOM_PLANS):
        count = source.randrange(1, 5)
        lengths = [source.randrange(1, MOST_TURNS // count + 1) for _ in range(count)]
        builds = [random_steps(source, length) for length in lengths]
        yield f"random plan {number}", plan_of(builds, pages=source.choice([4, 5, 8, 16]), vmids=source.choice([1, 2]))


def shortest(text: str, shows) -> list[int] | None:
    """The fewest turns after which a run shows a thing, and of these the least, by trying all."""
    front = [([], Run(text, []))]
    while front:
        for turns, ended in front:
            if shows(ended):
                return turns
        front = [([*turns, build], ended.then(build)) for turns, ended in front for build in ended.left()]
    return None


def refuses(build: int, step: int):
    return lambda run: any(end[:2] == (build, step) and end[2] != "ok" for end in run.ends)


def waits(build: int):
    def shows(run: Run) -> bool:
        is_short = bool(run.ends) and run.ends[-1][0] == build and run.ends[-1][2].split()[1:2] in (["11"], ["12"])
        return run.last == build and is_short and any(not it.pages for other, it in enumerate(run.builds) if other != build)

    return shows


def leases(granules: int):
    return lambda run: run.machine.pages - run.blocks.free() >= granules


@functools.lru_cache(4)
def graph_of(text: str, gives_up: bool = False, exact: bool = False) -> Graph:
    """The graph of a plan. Several questions are asked of it."""
    return Graph(text, gives_up=gives_up, exact=exact)


def of_plan(name: str, text: str):
    graph = graph_of(text)
    yield name, run(VIEW, ["explore"], text), (0, graph.text(), "")
    wanted = one_by_one(text)
    if wanted is not None:
        yield f"{name}, each schedule", graph.text(), wanted
        yield f"{name}, exactly", graph_of(text, exact=True).text(), wanted
    graph = graph_of(text, gives_up=True)
    yield f"{name}, giving up", run(VIEW, ["explore", "--give-up"], text), (0, graph.text(), "")
    wanted = one_by_one(text, gives_up=True)
    if wanted is not None:
        yield f"{name}, giving up, each schedule", graph.text(), wanted
        yield f"{name}, giving up, exactly", graph_of(text, gives_up=True, exact=True).text(), wanted
    graph = graph_of(text)
    if graph.schedules <= FEW:
        build, last = 0, len(graph.steps[0]) - 1
        yield f"{name}, a witness", graph.refused(build, last), shortest(text, refuses(build, last))
        for build in range(len(graph.steps)):
            yield f"{name}, build {build} waits", graph.waiting(build), shortest(text, waits(build))
        for granules in (5, 8):
            yield f"{name}, {granules} granules", graph.leased(granules), shortest(text, leases(granules))


def of_refusals(name: str, text: str):
    """The plan with the shortest schedule to each refusal, and to one of a step that is never refused."""
    graph = graph_of(text)
    refused = sorted({end[:2] for end in graph.ends() if end[2] != "ok"})
    for build, step in refused:
        status, out, err = run(VIEW, ["explore", "--refused", f"{build}:{step}"], text)
        schedule = graph.refused(build, step)
        yield f"{name}, to {build}:{step}", (status, err, tomllib.loads(out)), (0, "", tomllib.loads(text) | {"order": schedule})
        last = run(HOST, ["replay"], out)[1].splitlines()[len(schedule) - 1]
        yield f"{name}, {build}:{step} is refused", last.startswith(f"{build} {graph.steps[build][step]} = no "), True
    others = ((build, step) for build, steps in enumerate(graph.steps) for step in range(len(steps) + 1))
    build, step = next(it for it in others if it not in refused)
    yield f"{name}, never", run(VIEW, ["explore", "--refused", f"{build}:{step}"], text), (0, f"step {build} {step} refused in 0\n", "")


def of_running_rec():
    """A build that is refused while its REC runs: the abort is refused too, so that the build keeps all that it has."""
    steps = ["take 2", "delegate 0", "delegate 1", "delegate 2", "realm 0 1", "rec 2", "activate", "enter 0", "take 4", "fill 3 7"]
    text = plan_of([steps, ["take 0"]])
    yield from of_plan("a REC that runs", text)
    told = run(VIEW, ["explore", "--give-up"], text)[1].splitlines()
    # (ten turns of build 0, the last but one refused, and one of build 1 before, between or after them)
    for line in ("schedules 11", "step 0 8 take 4 = no 11 NoBlock 4 in all", "give up 0 = no 8 RecRunning in all", "0 page 2 REC", "free 11"):
        yield f"a REC that runs, {line}", line in told, True
    yield "a REC that runs, the step that is left out", [line for line in told if line.startswith("step 0 9")], []


def test_running_rec(check):
    check.all(of_running_rec())


def with_answer(text: str, words: list[str], schedule: list[int] | None, never: str):
    """The printed and the expected output: the plan with this schedule, or the line that there is none; and its replay."""
    status, out, err = run(VIEW, ["explore", *words], text)
    if schedule is None:
        return (status, out, err), (0, never, ""), []
    wanted = (0, "", tomllib.loads(text) | {"order": schedule})
    return (status, err, tomllib.loads(out)), wanted, run(HOST, ["replay"], out)[1].splitlines()


def of_waits(name: str, text: str):
    """The plan with the shortest schedule after which each build waits, and a build that the plan lacks."""
    graph = graph_of(text)
    for build in range(len(graph.steps) + 1):
        schedule = graph.waiting(build)
        printed, wanted, lines = with_answer(text, ["--waiting", str(build)], schedule, f"build {build} waiting in 0\n")
        yield f"{name}, build {build} waits", printed, wanted
        if schedule is not None:
            turn, after = lines[len(schedule) - 1], lines[len(schedule) :]
            yield f"{name}, build {build} is refused", turn.split(" = ")[1].split()[:2] in (["no", "11"], ["no", "12"]), True
            yield f"{name}, build {build} has the turn", turn.split()[0], str(build)
            idle = [it for it in range(len(graph.steps)) if it != build and not any(row.startswith(f"{it} page ") for row in after)]
            yield f"{name}, another build than {build} has no page", idle != [], True


def of_leases(name: str, text: str):
    """The plan with the shortest schedule after which one granule is leased, as many as ever, and one more."""
    graph = graph_of(text)
    most = graph.most_leased()
    for granules in sorted({1, max(1, most // 2), max(1, most), most + 1}):
        schedule = graph.leased(granules)
        printed, wanted, lines = with_answer(text, ["--leased", str(granules)], schedule, f"leased {granules} in 0\n")
        yield f"{name}, {granules} leased", printed, wanted
        if schedule is not None:
            leased = sum(" page " in row for row in lines[len(schedule) :])
            yield f"{name}, at least {granules} are leased", leased >= granules, True
            free = int(lines[-1].removeprefix("free "))
            yield f"{name}, {granules} leased, the others are free", leased + free, graph.machine.pages


def of_questions(name: str, text: str):
    yield from of_refusals(name, text)
    yield from of_waits(name, text)
    yield from of_leases(name, text)


@over("path", *PLANS)
def test_plan(check, path):
    check.all(of_plan(path.stem, path.read_text()))
    check.all(of_questions(path.stem, path.read_text()))


@pytest.mark.parametrize("part", range(PARTS))
def test_random_plans(check, part):
    for name, text in list(random_plans())[part::PARTS]:
        check.all(of_plan(name, text))
        check.all(of_questions(name, text))


# Two builds make a realm on a machine of one VMID.
REALM = ["take 2", "delegate 0", "delegate 1", "realm 0 1"]
ONE_VMID = plan_of([REALM, REALM, ["take 0"]], vmids=1)


def test_a_build_waits_for_a_vmid(check):
    # By hand: four turns each of builds 0 and 1, so that the second realm finds no VMID. Build 2 holds nothing.
    schedule = [0, 0, 0, 0, 1, 1, 1, 1]
    plan = tomllib.loads(ONE_VMID) | {"order": schedule}
    check("for a VMID", tomllib.loads(run(VIEW, ["explore", "--waiting", "1"], ONE_VMID)[1]), plan)
    check("build 2 never", run(VIEW, ["explore", "--waiting", "2"], ONE_VMID), (0, "build 2 waiting in 0\n", ""))


def test_comments_stay(check):
    """The plan that answers a question is its source, but for the value of `order`."""
    plan = plan_of([REALM, REALM, ["take 0"]], vmids=1, order=[0])
    text = "# one VMID\n\n" + plan.replace("[0]\n", "[0]  # to be another\n  # below it\n", 1) + "# the end\n"
    wanted = text.replace("[0]", "[0, 0, 0, 0, 1, 1, 1, 1]", 1)
    check("the text", run(VIEW, ["explore", "--waiting", "1"], text), (0, wanted, ""))


def test_questions_that_are_none(check):
    two = "error: of --refused, --waiting and --leased only one may be given"
    for words, line in (
        (["--refused", "0:0", "--waiting", "0"], two),
        (["--leased", "1", "--waiting", "0"], two),
        (["--refused", "no step", "--leased", "0"], two),
        (["--leased", "0"], "error: --leased 0 is not from 1 to 4096"),
        (["--leased", "4097"], "error: --leased 4097 is not from 1 to 4096"),
        (["--refused", "0"], "error: --refused is no step as 1:4: a build, and a place in its steps, both from 0"),
    ):
        status, out, err = run(VIEW, ["explore", *words], ONE_VMID)
        check(" ".join(words), (status, out, err.split("\n", 1)[0]), (2, "", line))
    # There are more states than three.
    for words in (["--refused", "0:0"], ["--waiting", "0"], ["--leased", "4096"]):
        ran = run(VIEW, ["explore", "--most-states", "3", *words], ONE_VMID)
        check(f"few states, {words[0]}", ran, (0, "states more than 3\n", ""))
    # A sample plays no part.
    for words in (["--refused", "1:3"], ["--waiting", "1"], ["--leased", "9"]):
        drawn = run(VIEW, ["explore", "--sample", "7", "--seed", "1", *words], ONE_VMID)
        check(f"no sample, {words[0]}", drawn, run(VIEW, ["explore", *words], ONE_VMID))
