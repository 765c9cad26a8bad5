"""The files that tools and editors read: the toolchain's version, and which files are made or laid out how."""
import collections
import configparser
import io
import os
import shutil
import types
from typing import NamedTuple

import pytest

import progress
from edits import FOLDERS
from programs import SECONDS, TOP, module_of, ran, run
from toolchain import Toolchain

ANOTHER, NAMED = "rattle-kit-0 logic 0", (TOP / "rattle-toolchain").read_text().splitlines()
# A toolchain of another version, which has no crates.
RT = f"""#!/usr/bin/env python3
import types
rtlib = types.SimpleNamespace(Crate=types.SimpleNamespace(stamp=None), guarded=lambda: None, crates_below=lambda top: [], KIT="")
processors = free = lambda: 1
if __name__ == "__main__":
    print("{ANOTHER}")
"""
TOOLS = {
    "build": ["tools/build"],
    "check": ["tools/check", "realmhost"],
    "costs": ["tools/costs", "realmhost"],
    "gate": ["tools/gate"],
    "library": ["tools/rmm-library"],
    "mutants": ["tests/mutants.py"],
    "quick": ["tools/quick", "realmhost"],
    "try": ["tools/try", "realmview", "plans/first.toml", "--", "why"],
}


@pytest.fixture
def toolchain(tmp_path):
    """The PATH with another toolchain first."""
    for name in ("rt", "rtlib.py", "rt-plant-bodies"):
        (tmp_path / name).write_text(RT)
        (tmp_path / name).chmod(0o755)
    return f"{tmp_path}{os.pathsep}{os.environ['PATH']}"


@pytest.mark.parametrize("words", TOOLS.values(), ids=TOOLS)
def test_another_toolchain(toolchain, words):
    came = run(words[0], words[1:], "", cwd=TOP, env={**os.environ, "PATH": toolchain})
    note = f"note: the toolchain on the PATH is `{ANOTHER}`, and rattle-toolchain names `{'`, `'.join(NAMED)}`"
    said = came.err.splitlines()
    assert said and said[0] == said[-1] == note and len(said) > 1, came.err


def test_each_tool_checks_the_version():
    """A tool that calls the toolchain is one of TOOLS, but for the one that packs its licences."""
    programs = [path for folder in ("tools", "tests", "bench") for path in (TOP / folder).iterdir() if os.access(path, os.X_OK) and path.is_file()]
    calling = {f"{it.parent.name}/{it.name}" for it in programs if "from toolchain import" in it.read_text() or '["rt"' in it.read_text()}
    assert calling == {words[0] for words in TOOLS.values()} | {"tools/dist"}


def attribute(name, paths):
    """The value of an attribute of git for each path."""
    return [line.rsplit(": ", 1)[1] for line in ran(["git", "check-attr", name, "--", *paths], cwd=TOP).splitlines()]


@pytest.mark.skipif(not (TOP / ".git").exists(), reason="this is no clone")
def test_made_files_are_marked():
    patterns = "completions/*", "docs/pictures/*.svg", "crates/run_json/src/template.rt", "docs/reference/CALLS-HOST.md"
    made = [path for it in patterns for path in TOP.glob(it)]
    assert set(attribute("linguist-generated", made)) == {"set"}
    written = [TOP / "README.md", TOP / "crates/run_json/src/lib.rt", TOP / "traces/rmm/life.trace"]
    assert set(attribute("linguist-generated", written)) == {"unspecified"}


def test_editors():
    config = configparser.ConfigParser()
    config.read_string("[top]\n" + (TOP / ".editorconfig").read_text())
    assert config["top"]["root"] == "true" and config["Makefile"]["indent_style"] == "tab"
    laid_out = [*TOP.glob("*.md"), *TOP.glob("docs/**/*.md"), *TOP.glob("tools/*"), *TOP.glob("tests/*.py"), *TOP.glob("crates/*/src/**/*.rt")]
    found = [path for path in laid_out if path.is_file() for text in [path.read_text()] if not text.endswith("\n") or " \n" in text or "\r" in text]
    assert found == []


# ---- edits of bodies

EDITS = [path for folder in FOLDERS for path in sorted(TOP.glob(f"crates/*/{folder}/*.edit"))]


@pytest.mark.skipif(not shutil.which("rt"), reason="there is no rt")
def test_each_edit_can_be_applied():
    """Each old text is in its file once. Whether the edit compiles and is refused, `make mutants` finds."""
    read_edit = Toolchain().rt.read_edit
    assert {path: why for path in EDITS for _, why in [read_edit(path, path.parent.parent)] if why} == {}


def test_no_edit_is_there_twice():
    texts = collections.Counter((path.parent.parent.name, path.read_text()) for path in EDITS)
    assert [it for it, count in texts.items() if count > 1] == []


# ---- make quick, and how far the gate is


class Crate(NamedTuple):
    name: str
    libraries: tuple = ()
    is_program: bool = False
    is_static: bool = False

    def below(self):
        return [it for library in self.libraries for it in [*library.below(), library]]


LOW = Crate("low")
MIDDLE = Crate("middle", (LOW,))
HIGH = Crate("realmhost", (MIDDLE,), is_program=True)
BESIDE = Crate("beside", (LOW,))


@pytest.mark.parametrize(("seconds", "changed", "chosen", "built", "left_out"), [
    (50, [LOW], [LOW, MIDDLE, HIGH, BESIDE], [HIGH], []),
    # (realmhost would come after 300 seconds)
    (100, [LOW], [LOW, MIDDLE, BESIDE], [], [HIGH]),
    (150, [LOW], [LOW], [], [MIDDLE, HIGH, BESIDE]),
    (100, [MIDDLE], [LOW, MIDDLE], [], [HIGH]),
    (500, [HIGH], [LOW, MIDDLE, HIGH], [HIGH], []),
])
def test_choice_of_quick(monkeypatch, seconds, changed, chosen, built, left_out):
    quick = module_of(TOP / "tools/quick")
    monkeypatch.setattr(quick, "seconds_of", lambda _name: seconds)
    monkeypatch.setattr(quick, "is_built", lambda _crate: False)
    assert quick.choose(changed, [LOW, MIDDLE, HIGH, BESIDE], 2) == (chosen, built, left_out)


def test_minutes_that_are_left(monkeypatch):
    """Half of the work in ten minutes: as much time is left. A crate that is kept says nothing of the speed."""
    monkeypatch.setattr(progress, "seconds_of", lambda _name: 1200)
    clock, out = iter([0, 300, 900]), io.StringIO()
    monkeypatch.setattr(progress.time, "monotonic", lambda: next(clock))
    it = progress.Progress(["one", "two", "three"], 2, after=60, out=out)
    assert it.minutes_left(0) == 31
    it.say("one", "is kept", is_done=False)
    it.say("two", "proved")
    assert out.getvalue().splitlines() == [
        "[ 5:00]  1 of 3  one: is kept, about 21 min left", "[15:00]  2 of 3  two: proved, about 11 min left",
    ]


def test_costs_by_function(capsys):
    """A module takes the time since the one before it. Its parts count with it."""
    costs = module_of(TOP / "tools/costs")
    modules = {1: "specs.one.Line", 2: "proofs.read.line.Lts-2", 5: "proofs.read.line.Lts.View", 6: "proofs.read.line.Proof", 8: "proofs.ViewLine.TheLaws"}
    log = ["7 1.5 openat(AT_FDCWD, \"/etc/hosts\", O_RDONLY) = 3"]
    log += [f'7 {moment}.0 openat(AT_FDCWD, "/tmp/built/Rattle-one-{it}.oantt.tmp.7.1", O_WRONLY) = 3' for moment, it in modules.items()]
    costs.tell(costs.modules_in(log, types.SimpleNamespace(at=lambda moment: 10 * moment)))
    assert capsys.readouterr().out.splitlines() == [
        "kinds: Lts 40.0, other 20.0, Proof 10.0",
        "    50.0  read.line: Lts 40.0, Proof 10.0",
        "    20.0  ViewLine.TheLaws: other 20.0",
    ]


# Lines of `rt ci`: of crates that are done, of their tests, and of something else.
LINES = """\
rt: one is kept: an earlier run
fn two::it: proved
rt: two proved
rt: two: its tests are proved
rt: three NOT PROVED
2 passed, 1 failed
"""


def test_gate_passes_on_what_it_reads(monkeypatch, tmp_path, capfd):
    (tmp_path / "rt").write_text(f"#!/bin/sh\nprintf '%s' '{LINES}'\nexit 1\n")
    (tmp_path / "rt").chmod(0o755)
    env = {**os.environ, "PATH": f"{tmp_path}{os.pathsep}{os.environ['PATH']}"}
    monkeypatch.setenv("PATH", env["PATH"])
    said = []
    told = progress.Progress(["one", "two", "three"], 4)
    monkeypatch.setattr(told, "say", lambda *how, is_done: said.append((*how, is_done)))
    assert module_of(TOP / "tools/gate").run(["rt", "ci"], env, told) == 1
    assert capfd.readouterr().out == LINES
    assert said == [("one", "is kept", False), ("two", "proved", True), ("three", "NOT PROVED", True)]


# ---- make try

# The words that `rt try` is called with, and then a line of the program and one of the build.
TRIED = """\
#!/bin/sh
[ "$1" = version ] && exec tail -n 1 "$NAMED"
echo "$PWD: $* < $(cat)"
echo "realmview: no plan" >&2
echo "checked: ended" >&2
exit 2
"""


def test_try_runs_a_program_over_a_file(tmp_path):
    (tmp_path / "rt").write_text(TRIED)
    (tmp_path / "rt").chmod(0o755)
    env = {**os.environ, "PATH": f"{tmp_path}{os.pathsep}{os.environ['PATH']}", "NAMED": f"{TOP}/rattle-toolchain"}
    (tmp_path / "a.toml").write_text("pages = 8")
    words = ["realmview", f"{tmp_path}/a.toml", "--", "why", "--text"]
    status, said, errors = run("tools/try", words, "", cwd=TOP, env=env)
    assert said == f"{TOP}/crates/realmview: try -- why --text < pages = 8\n"
    assert errors.splitlines()[1:] == ["realmview: no plan"] and status == 2


# ---- linters


def scripts(head, *suffixes):
    """The files of the repository with a suffix, or with this in their first line."""
    listed = ran(["git", "ls-files", "--cached", "--others", "--exclude-standard"], cwd=TOP)
    paths = [TOP / it for it in listed.splitlines() if (TOP / it).is_file()]
    is_one = lambda it: it.suffix in suffixes or not it.suffix and it.read_bytes().startswith(b"#!") and head in it.read_bytes().split(b"\n")[0]
    return [it for it in paths if is_one(it)]


LINTERS = {
    "shellcheck": (["shellcheck"], b"sh", ".sh", ".bash"),
    "pyflakes3": (["pyflakes3"], b"python", ".py"),
    # (a module is imported after its folder is known; a lambda may have a name)
    "pycodestyle": (["pycodestyle", "--max-line-length=150", "--ignore=E203,E402,E731,W503,W504"], b"python", ".py"),
}


@pytest.mark.skipif(not (TOP / ".git").exists(), reason="this is no clone")
@pytest.mark.parametrize("name", LINTERS)
def test_linter_finds_nothing(name):
    words, *kind = LINTERS[name]
    if not shutil.which(name):
        pytest.skip(f"there is no {name}")
    found = scripts(*kind)
    assert found and run(words[0], [*words[1:], *found], "", cwd=TOP, timeout=4 * SECONDS)[:2] == (0, "")
