"""Pages of `realmview page` in a browser without a window: what is shown, against the texts of other programs.

Of each plan: the page is the template, as crates/run_json/src/page/ has it, around data in JSON, whose `run` is the
document of `realmview json`. Stepped through by the arrow key, it shows the lines of `realmhost replay`, in their
order, and its history is that of `realmview history` with the lines of the refused turns. After each turn the
granules, the realms and the sums of the pages make the map of `realmhost replay` of the plan cut off there; with a
build left out, those of the second grid make the map of `realmhost replay --erase B`, and the page says that there is
a difference exactly if the build has something open. (Of long plans some of the turns.) Of one plan: links, keys,
folded tables, words of refusals, roles; of machines of three sizes: room, contrast (of the largest by -m ""), speed. The
colours of builds can be distinguished by the colour-blind. If there is no browser, all but the colours is skipped.
"""
import functools
import itertools
import json
import math
import re
import tempfile
import time
import tomllib
from pathlib import Path

import pytest

import browser
import colours
import page_plans
from programs import HOST, TOP, VIEW, needs, run

PAGE = TOP / "crates/run_json/src/page"
AUDIT = (TOP / "tests/page_audit.js").read_text()
# Plans of plans/, and plans of page_plans.py.
PLANS = ("failed-build", "two-realms", "refusals", "guide/recs", "128-pages", "written-pages", "each-build")
SECONDS = 300
# Of a plan with more turns than this, some are checked.
MOST_TURNS = 80
SIZES = (400, 1280, 1920)
# The least distances of colours (CIEDE2000): 2 is seen by a practised eye.
# Beside its colour a build has its number on each tile.
LEAST_OF_BUILDS, LEAST_OF_STATES = 15, 9
STATES = ("undelegated", "delegated", "rd", "rec", "rec-aux", "data", "rtt")
# Milliseconds of the processor in which a build is left out, with 4,096 pages and eight builds.
MOST_OF_LEAVING_OUT = 1000
TRIES = 25


def template():
    """The page before its data, and after it."""
    whole = re.sub(r"@([a-z]+\.(?:css|js))@\n", lambda it: (PAGE / it[1]).read_text(), (PAGE / "page.html").read_text())
    return whole.split("@DATA@")


def page_of(data):
    head, tail = template()
    return head + json.dumps(data).replace("<", "\\u003c") + tail


class Shown:
    """A page in the browser."""

    def __init__(self, at, page, link=""):
        self.at, self.folder = at, tempfile.TemporaryDirectory()
        path = Path(self.folder.name) / "run.html"
        path.write_text(page)
        self.url = path.as_uri()
        self.open(link)

    def open(self, link=""):
        self.at.open(self.url + link)
        self.value(f"{AUDIT}; window.audit = audit; 0")

    def value(self, text):
        return self.at.value(text)

    def now(self):
        return self.value("audit.shown()")

    def wait(self, text):
        """Whether an expression becomes true within three seconds."""
        end = time.monotonic() + 3
        while not self.value(text):
            if time.monotonic() > end:
                return False
            time.sleep(0.02)
        return True

    def press(self, *keys, shift=False):
        for key in keys:
            self.at.press(key, shift)


# ---- maps

LEASED = re.compile(
    r"granule \d+, page (\d+) of build (\d): ([A-Z_]+), .*; "
    r"(?:holds what the RMM keeps there|all bytes (zero)|not zero, sum of its bytes (\d+))"
)
FREE = re.compile(r"granule \d+, free; all bytes zero")
REALM = re.compile(r"\d Realm of build (\d): ([A-Z]+), VMID (\d+),")


def map_of(labels, realms):
    """The map of what a page shows: the pages and the realm of each build, and how many granules are free."""
    pages, lines = sorted((it for it in map(LEASED.fullmatch, labels) if it), key=lambda it: (it[2], int(it[1]))), []
    of_realms = {it[1]: f"{it[1]} realm {it[2]} vmid {it[3]}" for it in map(REALM.match, realms)}
    for build in "01234567":
        for number, _, state, zero, total in (it.groups() for it in pages if it[2] == build):
            told = f" {total or 0}" if state in ("UNDELEGATED", "DATA") else ""
            lines.append(f"{build} page {number} {state}{told}")
        lines += [of_realms[build]] if build in of_realms else []
    free = len([it for it in labels if FREE.fullmatch(it)])
    assert len(pages) + free == len(labels), labels
    return [*lines, f"free {free}"]


def signs_of(labels):
    """The signs that the tiles have to show for the contents of their pages."""
    return ["full" if "not zero" in it else "zero" if "all bytes zero" in it else "" for it in labels]


def cut(plan, turns):
    """A plan with no more turns than these."""
    order = tomllib.loads(plan.decode()).get("order", [])[:turns]
    return re.sub(rb"^order = \[.*?\]$", f"order = {order}".encode(), plan, flags=re.S | re.M)


def replayed(plan, *words):
    return run(HOST, ["replay", *words], plan)[1].decode().splitlines()


# ---- a plan, turn by turn


def of_template(name, plan, page):
    head, tail = template()
    data = page[len(head) : -len(tail)]
    yield f"{name}: the template", (page.startswith(head), page.endswith(tail), "</" in data), (True, True, False)
    yield f"{name}: the document", json.loads(data)["run"], json.loads(run(VIEW, ["json"], plan).out)
    yield f"{name}: nothing is fetched", re.findall(r"(?:src|href)=|url\(|import |fetch\(|https?://", head + tail), []


def of_steps(name, plan, shown, turns):
    shown.press("Home")
    lines = []
    for _ in range(turns):
        shown.press("ArrowRight")
        lines.append(shown.now()["line"])
    wanted = replayed(plan)[:turns]
    yield f"{name}: the lines", lines, wanted
    told = "[...document.querySelectorAll('#history button%s')].map((it) => it.lastChild.textContent)"
    history = run(VIEW, ["history"], plan)[1].decode().splitlines()[1:]
    yield f"{name}: the history", shown.value(told % ":not(.refused)"), history
    yield f"{name}: what was refused", shown.value(told % ".refused"), [line for line in wanted if " = no " in line]


def of_turn(name, plan, shown, document, turn):
    """The parts shown at a turn, of the run and without each build."""
    before = cut(plan, turn)
    shown.value(f"leaveOut(null); show({turn}); 0")
    labels = shown.value("audit.labels('grid')")
    whole = replayed(before)[turn:]
    yield f"{name}: the map at turn {turn}", map_of(labels, shown.value("audit.realms('realms')")), whole
    yield f"{name}: the signs at turn {turn}", shown.value("audit.signs('grid')"), signs_of(labels)
    for build in range(document["settings"]["builds"]):
        is_open = next((it["open"] for it in reversed(document["turns"][:turn]) if it["build"] == build), 0)
        shown.value(f"leaveOut({build}); 0")
        maps = [map_of(shown.value(f"audit.labels('{it}-grid')"), shown.value(f"audit.realms('{it}-realms')")) for it in ("run", "other")]
        yield f"{name}: the map beside that without build {build} at turn {turn}", maps[0], whole
        yield f"{name}: the map without build {build} at turn {turn}", maps[1], replayed(before, "--erase", str(build))
        verdict = shown.value("$('verdict').className")
        yield f"{name}: the verdict on build {build} at turn {turn}", verdict, "differ" if is_open else "same"


def of_why(name, plan, shown, data):
    """The words of refusals are those of `realmview why`, where the page has them."""
    lines = run(VIEW, ["why"], plan)[1].decode().splitlines()
    said = lambda k: [it.strip().replace("`", "") for it in lines[k + 1 : k + 3] if re.match(r" +(error|help): ", it)]
    told, shown_words = [(line, said(k)) for k, line in enumerate(lines) if " = no " in line], []
    for it in data["refused"]:
        shown.value(f"leaveOut(null); show({it['turn'] + 1}); 0")
        words = [shown.value(f"$('{part}').textContent") for part in ("reason", "help")]
        shown_words.append((shown.now()["line"], [word for word in words if word]))
    yield f"{name}: why", shown_words, told


def title_of(plan):
    """The comment that a plan begins with, as one line."""
    lines = [line.strip() for line in plan.decode().lstrip("\ufeff").lstrip().splitlines()]
    comment = itertools.takewhile(lambda line: line.startswith("#"), lines)
    return " ".join(line[1:].strip() for line in comment).replace("`", "").replace("**", "")


def of_plan(at, name, plan):
    status, out, err = run(VIEW, ["page"], plan)
    yield f"{name}: status", (status, err), (0, b"")
    page = out.decode()
    yield from of_template(name, plan, page)
    document, data = json.loads(run(VIEW, ["json"], plan).out), json.loads(page[len(template()[0]) : -len(template()[1])])
    shown, turns = Shown(at, page), len(document["turns"])
    step = max(1, turns // 12)
    if turns <= MOST_TURNS:
        yield from of_steps(name, plan, shown, turns)
        step = 1
    for turn in [*range(0, turns, step), turns]:
        yield from of_turn(name, plan, shown, document, turn)
    if "refused" in data:
        yield from of_why(name, plan, shown, data)
    yield f"{name}: the title", shown.value("document.title"), title_of(plan) or "A run of realm builds"


# ---- what a person does

FOCUS = (
    "#slider", "#without", "#first", "#back", "#play", "#next", "#last", "#theme", "#history button[aria-current]", "#grid",
    "#realms summary", "body",
)


def of_keys(at, data):
    shown = Shown(at, page_of(data), "#turn=22")
    for where in FOCUS:
        to_focus = f"document.activeElement.blur(); document.querySelector('{where}').focus()"
        focus = f"{to_focus}; document.activeElement.matches('{where}')"
        yield f"keys: {where} has the focus", shown.value(f"show(22); {focus}"), True
        shown.press("ArrowRight")
        yield f"keys: Right in {where}", shown.now()["turn"], 23
        shown.value(focus)
        shown.press("ArrowLeft", "ArrowLeft")
        yield f"keys: Left in {where}", shown.now()["turn"], 21
        shown.value(focus)
        shown.press(" ")
        playing = "[$('play').textContent, $('turn').getAttribute('aria-live')]"
        begun = shown.value(playing)
        shown.press(" ")
        yield f"keys: Space in {where}", (begun, shown.value(playing)), (["Pause", "off"], ["Play", "polite"])
        shown.value(focus)
        shown.press("1")
        left_out = shown.now()
        shown.press("Escape")
        compared = left_out["without"], left_out["isCompared"], shown.now()["isCompared"]
        yield f"keys: 1 and Escape in {where}", compared, ("1", True, False)
    shown.press("Home")
    first = shown.now()["turn"]
    shown.press("End")
    yield "keys: Home and End", (first, shown.now()["turn"]), (0, 25)
    shown.value("$('grid').focus(); 0")
    shown.press("ArrowRight", "ArrowDown", shift=True)
    picked = shown.value("[$('grid').getAttribute('aria-activedescendant'), $('cell').textContent]")
    yield "keys: Shift and arrows in the granules", picked, ["grid-9", "granule 9, free; all bytes zero"]
    shown.value("show(14); document.querySelector('#history [aria-current]').focus()")
    shown.press("ArrowUp")
    yield "keys: Up in the history", (shown.now()["turn"], shown.value("document.activeElement.textContent")), (13, "130 delegate 4")


def of_links(at, data):
    shown = Shown(at, page_of(data), "#turn=5&without=1")
    here = {"turn": 5, "without": "1"}
    part = lambda: {key: it for key, it in shown.now().items() if key in here}
    yield "links: one that opens the page", part(), here
    # (of a wrong one each wrong part is ignored)
    wrong = [f"#turn={it}&without=1" for it in ("26", "x", "-1", "1e1", "05", "")]
    steps = (
        ("#turn=7&without=0", 7, "0"), ("#turn=3", 3, ""), ("#without=1", 25, "1"), ("#turn=0&theme=dark", 0, ""), ("#turn=25", 25, ""),
        ("#turn=9&without=1", 9, "1"), *((it, 9, "1") for it in wrong), ("#turn=8&without=2", 8, "1"),
        ("#turn=8&without=build", 8, "1"), ("#nothing", 8, "1"), ("#theme=pink&turn=8&without=1", 8, "1"),
    )
    for link, turn, without in steps:
        shown.value(f"location.hash = '{link}'; 0")
        followed = shown.wait(f"audit.shown().turn === {turn} && audit.shown().without === '{without}'")
        told = f"#turn={turn}" + (f"&without={without}" if without else "")
        is_told = shown.wait(f"location.hash.replace('&theme=dark', '') === '{told}'")
        yield f"links: {link} in an open tab", (followed, is_told, part()), (True, True, {"turn": turn, "without": without})
    yield "links: the theme", shown.value("document.documentElement.dataset.theme"), "dark"
    shown.press("ArrowLeft", "Escape")
    yield "links: the address follows", shown.wait("location.hash === '#turn=7&theme=dark'"), True
    for link in ("#turn=26&without=2", "#turn=x", "#nothing"):
        shown.open(link)
        yield f"links: {link} opens the page", part(), {"turn": 25, "without": ""}


def of_folds(at, data):
    shown = Shown(at, page_of(data), "#turn=22")
    opened = "[...document.querySelectorAll('#%s details')].map((it) => it.open)"
    before = shown.value(opened % "realms")
    shown.value("document.querySelectorAll('#realms summary')[1].click(); 0")
    after = shown.value(opened % "realms")
    shown.press("ArrowRight", "ArrowRight", "ArrowRight", "ArrowLeft", "ArrowLeft", "ArrowLeft", "ArrowLeft", "ArrowRight")
    yield "folds: they stay", (before, after, shown.value(opened % "realms")), ([True, True], [True, False], [True, False])
    shown.press("1")
    yield "folds: also with a build left out", shown.value(opened % "run-realms"), [True, False]
    shown.press("Escape")
    shown.value("document.querySelectorAll('#realms summary')[1].click(); 0")
    shown.press("ArrowLeft", "ArrowRight")
    yield "folds: what is opened again stays open", shown.value(opened % "realms"), [True, True]


def of_verdicts(at, data):
    """The words on a build that is left out: before it begins, while it has something, and after its abort."""
    shown = Shown(at, page_of(data), "#turn=1&without=1")
    verdict = "[$('verdict').textContent, $('verdict').className]"
    for turn, text, kind in (
        (1, "No difference: at this turn build 1 has done nothing yet", "same"),
        (2, "Build 1 makes a difference here: in 4 granules and 0 realms", "differ"),
        (8, "Build 1 makes a difference here: in 4 granules and 1 realm", "differ"),
        (len(data["run"]["turns"]), "No difference: at this turn nothing of build 1 is left", "same"),
    ):
        yield f"verdict: turn {turn}", shown.value(f"show({turn}); {verdict}"), [text, kind]


def of_words(at, data, refusals):
    """A title and the words of refusals, by data made by hand; and what is shown without them."""
    error, help = "no aligned block of 8 pages is free; 4 pages are (NoBlock)", "`take 2` asks for <4> pages"
    words = {"title": "A build fails & <another> goes on. Nothing is left", "refused": [{"turn": 13, "error": error, "help": help}]}
    shown_in = "[$('title'), $('about'), document.querySelector('title'), $('reason'), $('help')]"
    texts = f"{shown_in}.map((it) => it.textContent)"
    shown = Shown(at, page_of({**data, **words}), "#turn=14")
    wanted = ["A build fails & <another> goes on.", "Nothing is left \u2026", words["title"], f"error: {error}", "help: take 2 asks for <4> pages"]
    yield "words: a title, an error and a help", shown.value(texts), wanted
    shown = Shown(at, page_of({**data, "title": "Two builds", "refused": [{"turn": 13, "error": error}]}), "#turn=14")
    yield "words: no help", shown.value(texts), ["Two builds", "", "Two builds", f"error: {error}", ""]
    shown = Shown(at, page_of(data), "#turn=14")
    title, error = "A run of realm builds", "error: No 2^3 pages in a row, from a multiple of 2^3 on, are free."
    yield "words: none", shown.value(texts), [title, "", title, error, ""]
    shown = Shown(at, page_of(refusals))
    lines = {}
    for turn in range(1, len(refusals["run"]["turns"]) + 1):
        shown.value(f"show({turn}); 0")
        lines[shown.now()["line"]] = shown.value("$('reason').textContent")
    refused = {line: text for line, text in lines.items() if " = no 13" in line}
    of_access = [it for it in refused if re.match(r"\d (fill|peek) ", it)]
    yield "words: there is such an access", len(of_access) > 0, True
    yield "words: a refused access is the hardware's", [it for it in of_access if "hardware" not in refused[it] or "RMM refuses" in refused[it]], []
    of_rmm = [it for it in refused if it not in of_access]
    yield "words: a refused command is the RMM's", [it for it in of_rmm if not refused[it].startswith("error: The RMM refuses: RMI_ERROR_")], []
    without = [line for line, text in lines.items() if " = no " in line and not text.startswith("error: ")]
    yield "words: each refusal has some", without, []


def of_roles(at, data):
    shown = Shown(at, page_of(data), "#turn=22")
    at.call("Accessibility.enable")
    nodes = [it for it in at.call("Accessibility.getFullAXTree")["nodes"] if not it["ignored"]]
    at.call("Accessibility.disable")
    named = [(it["role"]["value"], it["name"]["value"]) for it in nodes if "name" in it]
    yield "roles: the grid", [it for it in named if it[0] == "grid"], [("grid", "Granules of the machine")]
    yield "roles: its rows", [it[0] for it in named].count("row") >= 2, True
    cells = [it[1] for it in named if it[0] == "gridcell"][:16]
    yield "roles: its cells", cells, shown.value("audit.labels('grid')")
    live = shown.value("['turn', 'cell'].map((it) => $(it).getAttribute('aria-live'))")
    role = shown.value("$('verdict').parentNode.getAttribute('role')")
    yield "roles: live regions", (live, role), (["polite", "polite"], "status")
    controls = [it for it in nodes if it["role"]["value"] in ("button", "slider", "combobox", "grid")]
    yield "roles: each control has a name", [it["role"]["value"] for it in controls if not it["name"]["value"]], []


# ---- how it looks


def of_room(at, name, data, turn):
    for width in SIZES:
        at.size(width)
        shown = Shown(at, page_of(data), f"#turn={turn}")
        yield f"room: {name} at {width}", shown.value("audit.overflows()"), []
        yield f"room: {name} at {width}, the history is at its turn", shown.value("audit.isHistoryAtTurn()"), True
        shown.value("leaveOut(1); 0")
        yield f"room: {name} at {width}, compared", shown.value("audit.overflows()"), []
        yield f"room: {name} at {width}, controls", shown.value("audit.overlaps()"), []
        # (with the header of the turn above it, the machine begins in the upper half of a small window)
        yield f"room: {name} at {width}, height of the controls", shown.value("$('controls').offsetHeight") <= 100, True
        shown.value("leaveOut(null); 0")
        yield f"room: {name} at {width}, tiles", shown.value("$('grid').querySelector('i').offsetWidth") >= 11, True
    at.size(1280)


def of_contrast(at, name, data, turn):
    for dark in (False, True):
        at.size(1280, dark=dark)
        shown = Shown(at, page_of(data), f"#turn={turn}")
        for state in ("", "leaveOut(1); "):
            shown.value(f"{state}pick(0); 0")
            about = f"contrast: {name}, {'dark' if dark else 'light'}{', compared' if state else ''}"
            yield f"{about}, texts", shown.value("audit.faintTexts()"), []
            yield f"{about}, borders", shown.value("audit.faintBorders()"), []
    at.size(1280)


def of_colours():
    # Sharma, Wu and Dalal 2005, table 1, pairs 1, 7, 10 and 25; and WCAG's black on white.
    pairs = {
        2.0425: ((50, 2.6772, -79.7751), (50, 0, -82.7485)), 2.3669: ((50, 0, 0), (50, -1, 2)),
        7.1792: ((50, 2.49, -0.001), (50, -2.49, 0.0009)), 1.2644: ((60.2574, -34.0099, 36.2677), (60.4626, -34.1751, 39.4387)),
    }
    yield "colours: the distance is CIEDE2000", [round(colours.distance(*it), 4) for it in pairs.values()], [*pairs]
    yield "colours: the contrast is WCAG's", round(colours.contrast("#000000", "#ffffff"), 3), 21.0
    for theme, found in colours.themes((PAGE / "page.css").read_text()).items():
        builds = {f"b{k}": found[f"b{k}"] for k in range(8)}
        for eyes in colours.SEEN_BY:
            nearest = colours.nearest(builds, eyes)
            yield f"colours: builds, {theme}, {eyes}: {nearest}", nearest[0] >= LEAST_OF_BUILDS, True
            nearest = colours.nearest({it: found[it] for it in STATES}, eyes)
            yield f"colours: states, {theme}, {eyes}: {nearest}", nearest[0] >= LEAST_OF_STATES, True
        for ground in ("paper", "panel"):
            faint = [it for it in ("ink", "soft", "wrong", "accent") if colours.contrast(found[it], found[ground]) < 4.5]
            yield f"colours: texts, {theme}, {ground}", faint, []
        faint = [it for it in (*builds, "line", "accent", "new", "wrong") if colours.contrast(found[it], found["paper"]) < 3]
        yield f"colours: borders, {theme}", faint, []
        faint = [it for it in (*builds, *STATES) if colours.contrast(found[it], found[f"on-{it}"]) < 4.5]
        yield f"colours: what is on them, {theme}", faint, []


def of_builds(at, data):
    """Each tile has its build's number, whatever its size."""
    for pages in (16, 128, 512, 2048):
        more = [{"granule": k, "state": "UNDELEGATED", "build": None, "realm": None} for k in range(16, pages)]
        settings = {**data["run"]["settings"], "pages": pages}
        world = {**data["run"]["world"], "granules": data["run"]["world"]["granules"] + more}
        shown = Shown(at, page_of({**data, "run": {**data["run"], "settings": settings, "world": world}}))
        after = "getComputedStyle(it, '::after').content"
        number = f"({after} === 'attr(data-b)' ? it.dataset.b : {after}.replaceAll('\"', ''))"
        text = shown.value(f"[...document.querySelectorAll('#grid i')].slice(0, 16).map((it) => [it.textContent, {number}])")
        found = [own if own in "01234567" else after for own, after in text]
        yield f"builds: numbers on {pages} tiles", found, [str(k // 2) for k in range(16)]


def spent(at, shown, what):
    """The milliseconds of the processor that a call of the page takes, with what is drawn after it."""
    all_told = lambda: next(it["value"] for it in at.call("Performance.getMetrics")["metrics"] if it["name"] == "TaskDuration")
    before, drawn = all_told(), "await new Promise((done) => requestAnimationFrame(() => setTimeout(done)))"
    shown.value(f"(async () => {{ {what}; document.body.offsetHeight; {drawn}; }})()")
    return 1000 * (all_told() - before)


def of_speed(at, data):
    """The least of a few tries counts: on a busy machine the same work takes the processor longer."""
    at.call("Performance.enable", timeDomain="threadTicks")
    calls, least = ("leaveOut(3)", "leaveOut(5)", "show(2999)", "leaveOut(null)"), {}
    for _ in range(TRIES):
        shown = Shown(at, page_of(data), "#turn=3000")
        for what in calls:
            least[what] = min(spent(at, shown, what), least.get(what, math.inf))
        if max(least.values()) < MOST_OF_LEAVING_OUT:
            break
    for what in calls:
        yield f"speed: {what} took {least[what]:.0f} ms", least[what] < MOST_OF_LEAVING_OUT, True
    at.call("Performance.disable")


# ---- tests


@pytest.fixture(scope="module")
def opened():
    path = browser.found()
    if path is None:
        pytest.skip("there is no browser")
    with browser.Browser(path, SECONDS) as it:
        yield it


@pytest.fixture
def at(opened):
    """A browser. The script of a page stops nowhere."""
    opened.size(1280)
    yield opened
    faults, opened.faults = opened.faults, []
    assert faults == []


def plan_of(name):
    return page_plans.PLANS[name]() if name in page_plans.PLANS else (TOP / f"plans/{name}.toml").read_bytes()


@functools.cache
def data_of(name):
    """The data of a plan's page."""
    head, tail = template()
    return json.loads(run(VIEW, ["page"], plan_of(name)).out.decode()[len(head) : -len(tail)])


def bare(name):
    """The data of a plan's page, without its title and the words of its refusals."""
    return {key: it for key, it in data_of(name).items() if key not in ("title", "refused")}


def machine(name):
    return bare(name) if name == "failed-build" else data_of(name)


MACHINES = [("failed-build", 14), ("128-pages", 120), ("4096-pages", 3000)]
# The colours of many tiles are those of few.
MANY_TILES = pytest.param(*MACHINES[-1], marks=pytest.mark.long)


@needs(HOST, VIEW)
@pytest.mark.parametrize("name", PLANS)
def test_plan(check, at, name):
    check.all(of_plan(at, name, plan_of(name)))


@needs(VIEW)
@pytest.mark.parametrize("part", [of_keys, of_links, of_folds, of_roles, of_verdicts], ids=lambda it: it.__name__[3:])
def test_a_person_does(check, at, part):
    check.all(part(at, bare("failed-build")))


@needs(VIEW)
def test_words(check, at):
    check.all(of_words(at, bare("failed-build"), bare("refusals")))


@needs(VIEW)
@pytest.mark.parametrize(("name", "turn"), MACHINES)
def test_room(check, at, name, turn):
    check.all(of_room(at, name, machine(name), turn))


@needs(VIEW)
@pytest.mark.parametrize(("name", "turn"), [*MACHINES[:-1], MANY_TILES])
def test_contrast(check, at, name, turn):
    check.all(of_contrast(at, name, machine(name), turn))


def test_colours(check):
    check.all(of_colours())


@needs(VIEW)
def test_numbers_of_builds(check, at):
    check.all(of_builds(at, data_of("each-build")))


@needs(VIEW)
def test_speed(check, at):
    check.all(of_speed(at, data_of("4096-pages")))
