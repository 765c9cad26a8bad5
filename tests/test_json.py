"""The documents of `realmview json`, against what other subcommands and programs say of the same plans.

Of each plan of plans/, plans/guide/ and tests/runs/: the schema realmview.schema.json accepts the document; its turns as
lines, and after them the map made of its last world, are what `realmhost replay` prints; its events are those of `realmview
history`; its changes, replayed one after another from a machine that is all free, lead to its last world, and a turn has those
members of change alone that its event can change; what each turn says that its build has open, had at its mark, and whether it is
in abort, is what the lines up to it give; and what each build has open in the end is what brackets matched in its events leave
open. `realmview page` has this document in its data, and for each build the world to which the changes of the other builds alone
lead. The rows of a realm are compared as lists: in their order, and in the items of REALMVIEW.md. A second RMM, in Python,
accepts the events, and has after each turn and in each of these worlds what the document says (tests/history_model.py). A plan
with a fault has no document.
"""
import json

import jsonschema

from history_model import HistoryModel
from programs import HOST, LITTLE_MEMORY, PLANS, RUNS, TOP, VIEW, Ran, data_of, needs, over, plan_of, run
from second_monitor import COVERED

pytestmark = needs(HOST, VIEW)
# Each operation that has a reverse, by the word of the reverse.
REVERSED = {f"un{it}": (it,) for it in ("take", "delegate", "realm", "rtt", "rec")} | {"undata": ("data", "unknown")}
PAIRED = {word for words in REVERSED.values() for word in words}
# The members that an event can change, by its word. REALMVIEW.md, Turns.
MEMBERS = {
    "take": {"granules"}, "untake": {"granules"}, "delegate": {"granules"}, "undelegate": {"granules"},
    "realm": {"granules", "rows", "realm"}, "unrealm": {"granules", "realm"}, "activate": {"realm"},
    "rtt": {"granules", "rows"}, "unrtt": {"granules", "rows"}, "ripas": {"rows", "realm"},
    "data": {"granules", "rows", "realm"}, "unknown": {"granules", "rows"}, "undata": {"granules", "rows"},
    "rec": {"granules", "recs", "realm"}, "unrec": {"granules", "recs"}, "enter": {"recs"}, "exit": {"recs"},
    "fill": set(), "peek": set(), "poke": set(),
}


VALIDATOR = jsonschema.Draft202012Validator(json.loads((TOP / "docs/reference/realmview.schema.json").read_text()))
VALIDATOR.check_schema(VALIDATOR.schema)


# ---- the lines of a replay


def line_of(turn):
    if turn["step"] is None:
        return f"{turn['build']} - idle"
    return f"{turn['build']} {turn['step']} = {turn['answer']}"


def map_of(world):
    """The map: the pages of each build and its realm, and how many pages nobody leases."""
    for build in world["builds"]:
        for number, page in enumerate(build["pages"]):
            state = world["granules"][page["granule"]]["state"]
            told = f" {page['sum']}" if state in ("UNDELEGATED", "DATA") else ""
            yield f"{build['build']} page {number} {state}{told}"
        if build["realm"]:
            yield f"{build['build']} realm {build['realm']['state']} vmid {build['realm']['vmid']}"
    yield f"free {world['free']}"


def numbers_of(turn):
    """The numbers in an answer's text."""
    return [int(word) for word in (turn["answer"] or "").split() if word.isdigit()]


# ---- changes


def put_row(rows, item):
    """The rows of an item take the place of what was in their range, at their level and below."""
    size, begin = COVERED[item["level"]], item["first"]
    end = begin + item["count"] * size
    for place in [it for it in rows if it[0] >= item["level"] and begin <= it[1] < end]:
        del rows[place]
    said = (item["state"], item["ripas"], item["granule"])
    rows.update({(item["level"], begin + k * size): said for k in range(item["count"])})


def row_items(rows):
    """The items of rows: in rising address, the row of a table before the rows of the table. Rows that follow each other are one
    item where they are of one table and say the same; the starting tables count as one."""
    items = []
    for (level, first), said in sorted(rows.items(), key=lambda row: (row[0][1], row[0][0])):
        size, last = COVERED[level], items[-1] if items else None
        is_next = last and last["level"] == level and last["first"] + last["count"] * size == first
        if is_next and (level == 1 or first % (512 * size)) and (last["state"], last["ripas"], last["granule"]) == said:
            last["count"] += 1
        else:
            items.append({"level": level, "first": first, "count": 1, **dict(zip(("state", "ripas", "granule"), said))})
    return items


def without_arrays(realm):
    return {key: value for key, value in realm.items() if key not in ("rows", "recs")}


class Replayed:
    """A machine as the changes of the turns make it."""

    def __init__(self, settings):
        count = settings["builds"]
        self.granules = [{"granule": n, "state": "UNDELEGATED", "build": None, "realm": None} for n in range(settings["pages"])]
        self.realms, self.rows, self.recs = [None] * count, [{} for _ in range(count)], [{} for _ in range(count)]
        self.last = [(0, None, False)] * count

    def take(self, turn):
        build = turn["build"]
        for item in turn.get("granules", ()):
            self.granules[item["granule"]] = item
        if "realm" in turn:
            self.realms[build] = turn["realm"]
            if turn["realm"] is None:
                self.rows[build], self.recs[build] = {}, {}
        for item in turn.get("rows", ()):
            put_row(self.rows[build], item)
        for rec in turn.get("recs", ()):
            self.recs[build].pop(rec["number"], None)
            if rec["state"]:
                self.recs[build][rec["number"]] = rec
        self.last[build] = (turn["open"], turn["mark"], turn["aborting"])

    def told(self):
        return (self.granules, self.realms, [row_items(rows) for rows in self.rows], self.recs, self.last)


def told_world(world):
    """The last world, in the form of a machine that was made of changes."""
    builds = world["builds"]
    realms = [it["realm"] and without_arrays(it["realm"]) for it in builds]
    rows = [it["realm"]["rows"] if it["realm"] else [] for it in builds]
    recs = [{rec["number"]: rec for rec in it["realm"]["recs"] if rec["state"]} if it["realm"] else {} for it in builds]
    return (world["granules"], realms, rows, recs, [(len(it["open"]), it["mark"], it["aborting"]) for it in builds])


def members_of(turn):
    """The members of change that a turn has."""
    return {"granules", "rows", "recs", "realm"} & turn.keys()


def kept(turns, builds):
    """The host's ledger of the build of each turn after it, by the lines up to it: how many operations are open, how many were at
    the mark, and whether the build is in abort."""
    last = [(0, None, False)] * builds
    for turn in turns:
        count, mark, aborting = last[turn["build"]]
        word, answer = (turn["step"] or "-").split()[0], (turn["answer"] or "no").split()
        if answer[0] != "no":
            if word in PAIRED:
                count += 1
            elif word == "mark":
                mark = count
            elif word in ("undo", "abort", "back"):
                count -= len(answer) - 1
                mark = None if mark is not None and count < mark else mark
                aborting = word == "abort" and answer[0] == "ok"
        last[turn["build"]] = (count, mark, aborting)
        yield last[turn["build"]]


def is_there(turn, machine, model):
    """Whether the changes up to a turn lead to what the second RMM has of whatever the turn changed."""
    build = turn["build"]
    return (
        ("granules" not in turn or machine.granules == model.granules())
        and ("rows" not in turn or row_items(machine.rows[build]) == model.rows_of(build))
        and ("recs" not in turn or machine.recs[build] == model.recs_of(build))
        and machine.realms[build] == model.realm(build)
    )


def of_model(document):
    """The events on the second RMM: it accepts each; the changes lead, turn by turn, to what is there; so is the last world."""
    machine, model, faults = Replayed(document["settings"]), HistoryModel(document["settings"]), []
    for turn in (it for it in document["turns"] if it["event"]):
        machine.take(turn)
        model.take(turn["event"])
        if not is_there(turn, machine, model):
            faults.append(turn)
    yield "events on the second monitor", model.faults, []
    yield "changes on the second monitor", faults, []
    yield "the world of the second monitor", model.world(), of_machine(document["world"])


def of_machine(world):
    """A world without what the host alone keeps."""
    builds = [{key: it[key] for key in ("build", "pages", "realm")} for it in world["builds"]]
    return {"free": world["free"], "granules": world["granules"], "builds": builds}


def are_open(turns, build):
    """The events of a build that brackets matched in its events leave open, the newest last."""
    stack = []
    for event in (turn["event"] for turn in turns if turn["build"] == build and turn["event"]):
        word = event.split()[1]
        if word in PAIRED:
            stack.append(event)
        elif word in REVERSED:
            opened, numbers = stack.pop().split(), event.split()[2:]
            assert opened[1] in REVERSED[word] and opened[2:][: len(numbers)] == numbers, (opened, event)
    return stack


# ---- cases


def of_document(plan):
    status, out, err = run(VIEW, ["json"], plan)
    yield "status", (status, err), (0, b"")
    document = json.loads(out)
    turns, world = document["turns"], document["world"]
    yield "the schema", [f"{fault.json_path}: {fault.message}" for fault in VALIDATOR.iter_errors(document)], []
    told = "".join(line + "\n" for line in [*map(line_of, turns), *map_of(world)])
    yield "turns and map", (0, told.encode(), b""), run(HOST, ["replay"], plan)
    yield "numbers", [turn["numbers"] for turn in turns], list(map(numbers_of, turns))
    yield "refusals", [turn["accepted"] for turn in turns], [turn["answer"] and not turn["answer"].startswith("no ") for turn in turns]
    s = document["settings"]
    history = [f"history 1 {s['pages']} {s['vmids']} {s['aux']} {s['history']} {s['builds']}", *(turn["event"] for turn in turns if turn["event"])]
    yield "events", (0, "".join(line + "\n" for line in history).encode(), b""), run(VIEW, ["history"], plan)
    members = [MEMBERS[turn["event"].split()[1]] if turn["event"] else set() for turn in turns]
    yield "members of change", list(map(members_of, turns)), members
    yield "what is kept", [(it["open"], it["mark"], it["aborting"]) for it in turns], list(kept(turns, s["builds"]))
    machine = Replayed(s)
    for turn in turns:
        machine.take(turn)
    yield "the changes lead to the last world", machine.told(), told_world(world)
    yield from of_model(document)
    yield from of_page(plan, document)
    yield "what is open", [it["open"] for it in world["builds"]], [are_open(turns, it["build"]) for it in world["builds"]]


def of_page(plan, document):
    """The data of a page: the document, and the world without each build, which the other builds' changes lead to."""
    data = data_of(run(VIEW, ["page"], plan).out)
    yield "the data of the page", data["run"], document
    for build, world in enumerate(data["without"]):
        machine, model = Replayed(document["settings"]), HistoryModel(document["settings"])
        for turn in (it for it in document["turns"] if it["build"] != build):
            machine.take(turn)
            if turn["event"]:
                model.take(turn["event"])
        yield f"the world without build {build}", machine.told()[:4], told_world(world)[:4]
        yield f"the world of the second monitor without build {build}", (model.faults, model.world()), ([], of_machine(world))


# ---- tests


@over("path", *PLANS, RUNS)
def test_document(check, path):
    check.all(of_document(path.read_bytes()))


def test_the_largest_document(check):
    """Eight builds with 16,384 turns."""
    steps = ["take 0", *(f"fill 0 {k % 256}" for k in range(1023))]
    check.all(of_document(plan_of([steps] * 8, pages=8, history=2048, order=[k % 8 for k in range(16384)])))


def test_a_misaligned_realm(check):
    """A realm of the widest address space."""
    check.all(of_document(plan_of([["take 5", *(f"delegate {k}" for k in range(20)), "realm 0 16 43", "undo"]], pages=32)))


def test_little_memory():
    assert run(VIEW, ["json"], plan_of([["take 0"]], pages=4096), **LITTLE_MEMORY) == Ran(3, b"", b"memory\n")
