"""The command lines of the documents, *.md here and below docs/: their output against the lines below them.

Lines of a block ```console that begin with `$ ` are typed, one after another, into one shell at the top of the repository;
below each is what it prints, standard error too. There a line `...` is any number of lines. A block ```sh is not run: each
of its lines has to be one of `NOT_RUN`, which says why. The programs are those of bin/.
What builds with nothing proved takes minutes: the proved program of the gate prints the same (`PROVED`), and test_try compares both.
In README.md an item of a numbered list that begins with a command in backticks is run too, in a folder that has all that the
repository has: it prints or writes something, and its status is 0, or 1 for a comparison.
"""
import os
import re
import subprocess

import pytest

from programs import HOST, TOP, TRACER, VIEW, needs

SECONDS = 600
BLOCK = re.compile(r"^```(console|sh)\n(.*?)^```$", re.M | re.S)
# Between the outputs of two commands.
BETWEEN = "---- the next command ----"

# Command lines that are shown and not run here, and why.
NOT_RUN = {
    "make try": "the example at the top of README.md shows it",
    "make build": "the gate has built the programs",
    "make test": "it is the gate itself",
    "make mutants": "it takes as long as the gate, and is run beside it",
    "make bench": "it needs rustc, and idle processors",
    "make c-library": "the gate has built it where there is a C compiler",
    "make c-test": "it needs a C compiler, and the gate has run most of it",
    "cc": "it needs a C compiler, and tests/test_c_library.py does the same",
    "PYTHONPATH=python python3 mine.py": "it is a file of the reader's, and tests/test_c_library.py does the same",
    "export": "it is for the line below it",
    "sed 's/^platform": "it prints a whole trace",
    "bin/rmitrace check --skip rtte_ripas": "my.trace is a file of the reader's",
    "make allocations": "it needs a C compiler, and the gate has run the first of it",
    "make memcheck": "it needs valgrind",
    "make fuzz": "it takes minutes, and more inputs take longer",
    "dpkg": "it is for root, and tests/test_dist.py unpacks the package",
    "realmhost --version": "tests/test_dist.py runs what is in the packages",
    "tar -xzf": "tests/test_dist.py runs this block",
    "cd": "tests/test_dist.py runs this block",
    "realmview why plans/missing-tables.toml": "tests/test_dist.py runs this block",
    "rmitrace check traces/vmids.trace": "tests/test_dist.py runs this block",
    "PYTHONPATH=python python3 examples/drive.py": "tests/test_dist.py runs this block",
    "make install": "it writes outside of the repository",
    "make install-c-library": "it writes outside of the repository, and tests/test_examples.py does the same",
}

# Commands that build a program with nothing proved, and what prints the same with the proved one.
PROVED = {
    "make try": "bin/realmview why < plans/missing-tables.toml",
    "make try-trace": "bin/rmitrace check < traces/granules.trace",
}


def commands_of(block):
    """Returns each command of a block, with the lines that are below it."""
    found = []
    for line in block.splitlines():
        if line.startswith("$ "):
            found.append((line[2:], []))
        elif found:
            found[-1][1].append(line)
    return found


def printed(commands, cwd=TOP, env=os.environ):
    """Runs commands in one shell. Returns the lines that each prints."""
    script = "".join(f"{PROVED.get(it, it)}\nprintf '\\n%s\\n' '{BETWEEN}'\n" for it, _ in commands)
    ran = subprocess.run(["bash", "-c", script], cwd=cwd, stdin=subprocess.DEVNULL, stdout=subprocess.PIPE,
                         stderr=subprocess.STDOUT, text=True, errors="replace", timeout=SECONDS, env={**env, "LC_ALL": "C.UTF-8"})
    outputs = ran.stdout.split(f"\n{BETWEEN}\n")
    return [it.removesuffix("\n").split("\n") if it else [] for it in outputs[: len(commands)]]


def fits(lines, wanted):
    """Returns whether the lines are the wanted ones, of which `...` is any number."""
    if not wanted:
        return not lines
    if wanted[0] == "...":
        return any(fits(lines[at:], wanted[1:]) for at in range(len(lines) + 1))
    return bool(lines) and lines[0] == wanted[0] and fits(lines[1:], wanted[1:])


def shown(lines, wanted):
    """The lines, where the wanted ones fit them: then a difference is that of these two."""
    return wanted if fits(lines, wanted) else lines


def blocks(kind):
    """A test for each block of a kind, by the document and the line."""
    found = []
    for path in [*sorted(TOP.glob("*.md")), *sorted((TOP / "docs").rglob("*.md"))]:
        text = path.read_text(encoding="utf-8")
        for it in BLOCK.finditer(text):
            where = f"{path.relative_to(TOP)}:{text.count(chr(10), 0, it.start()) + 1}"
            if it[1] == kind:
                found.append(pytest.param(it[2], id=where))
    return pytest.mark.parametrize("block", found)


@needs(HOST, VIEW, TRACER)
@blocks("console")
def test_console(check, block):
    commands = commands_of(block)
    outputs = printed(commands)
    assert commands and len(outputs) == len(commands), "the block has no command, or its shell ended early"
    for (command, wanted), lines in zip(commands, outputs):
        check(f"`{command}`", shown(lines, wanted), wanted)


@blocks("sh")
def test_commands_that_are_not_run(check, block):
    for line in filter(None, (it.split("#")[0].strip() for it in block.splitlines())):
        is_known = any(line == it or line.startswith(f"{it} ") for it in NOT_RUN)
        check(f"`{line}` is neither run nor known: make its block ```console", is_known)


ITEMS = re.findall(r"^\d+\. `([^`]+)`", (TOP / "README.md").read_text(encoding="utf-8"), re.M)


@needs(HOST, VIEW, TRACER)
@pytest.mark.parametrize("command", [it for it in ITEMS if not it.startswith(tuple(NOT_RUN))])
def test_items_of_readme(command, tmp_path):
    for it in TOP.iterdir():
        (tmp_path / it.name).symlink_to(it)
    before = set(os.listdir(tmp_path))
    ran = subprocess.run(["bash", "-c", command], cwd=tmp_path, stdin=subprocess.DEVNULL, capture_output=True, timeout=SECONDS)
    assert ran.returncode < 2, ran.stderr.decode(errors="replace")
    assert ran.stdout or set(os.listdir(tmp_path)) - before, "it neither prints nor writes anything"


@pytest.mark.long
@needs(VIEW, TRACER)
@pytest.mark.parametrize("command", PROVED)
def test_try(command):
    """A program that is built with nothing proved prints what the proved program prints."""
    unproved, proved = (subprocess.run(["bash", "-c", it], cwd=TOP, stdin=subprocess.DEVNULL, capture_output=True, timeout=SECONDS)
                        for it in (command, PROVED[command]))
    assert proved.stdout and unproved.stdout == proved.stdout
