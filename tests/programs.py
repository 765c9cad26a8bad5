"""The built programs, the repository's plans, and how the tests run them."""
import importlib.machinery
import importlib.util
import json
import os
import resource
import shlex
import shutil
import subprocess
from pathlib import Path
from typing import NamedTuple

import pytest

TOP = Path(__file__).resolve().parent.parent
HOST, VIEW, TRACER = (TOP / "bin" / name for name in ("realmhost", "realmview", "rmitrace"))
# The library for C, as `make c-library` puts it into build/.
STATIC, SHARED = TOP / "build/librmm.a", TOP / "build/librmm.so.0"
# A program of the gate alone: plans over the plain store, and every call of a host.
MEMORY = TOP / "bin/test_memory"
# The folders with plans that have the text of their run beside them.
PLANS, RUNS = ("plans", "plans/guide"), "tests/runs"
# The program that judges the log of an RMM; JUDGE names another one, as `python3 tests/second_rmm check`.
JUDGE = shlex.split(os.environ.get("JUDGE", "")) or [os.fspath(TRACER), "check"]
SECONDS, LONG_SECONDS = 60, 900


class Ran(NamedTuple):
    """The outcome of a program."""

    status: int | str
    out: bytes | str
    err: bytes | str


def run(program, words, given=b"", **how):
    """Runs a program over an input, which is bytes, a text, or None if `how` has the standard input. The outcome is of the kind
    of the input."""
    how = {"stdout": subprocess.PIPE, "stderr": subprocess.PIPE, "timeout": SECONDS, "text": isinstance(given, str), **how}
    if given is not None:
        how["input"] = given
    none = "" if how["text"] else b""
    try:
        ran = subprocess.run([os.fsencode(program), *words], **how)
    except subprocess.TimeoutExpired:
        return Ran(f"none within {how['timeout']} seconds", none, none)
    return Ran(ran.returncode, ran.stdout or none, ran.stderr or none)


def ran(words, status=0, **how):
    """The output of a program on both streams. Its status has to be this one, or any but 0 for None."""
    words, given = [os.fspath(word) for word in words], how.get("input")
    how = {"stdout": subprocess.PIPE, "stderr": subprocess.STDOUT, "timeout": LONG_SECONDS, **how}
    how |= {"input": given.encode()} if isinstance(given, str) else {} if "input" in how else {"stdin": how.get("stdin", subprocess.DEVNULL)}
    it = subprocess.run(words, **how)
    said = it.stdout.decode(errors="replace")
    if it.returncode != status and not (status is None and it.returncode):
        raise AssertionError(f"{Path(words[0]).name}: status {it.returncode}, and not {status or 'another'}: {said[-2000:]}")
    return said


def limited(*limits):
    """A function for a process before it becomes a program: it limits each of these resources."""
    return lambda: [resource.setrlimit(of, (most, most)) for of, most in limits]


# Too little memory for the pages of a large machine alone.
LITTLE_MEMORY = {"preexec_fn": limited((resource.RLIMIT_AS, 1 << 24))}


def of_devices(program, words, given):
    """The ends of a program when a device fails: a name for each, the outcome, and the expected one."""
    for name, text, how in (
        ("a folder as standard input", None, {"stdin": os.open(TOP, os.O_RDONLY)}),
        ("a closed standard input", None, {"preexec_fn": lambda: os.close(0)}),
        ("a full standard output", given, {"stdout": open("/dev/full", "wb")}),
        ("a closed standard output", given, {"preexec_fn": lambda: os.close(1)}),
    ):
        yield f"{words}: {name}", run(program, words, text, **how), Ran(5, b"", b"device\n")


def module_of(path):
    """A script as a module."""
    loader = importlib.machinery.SourceFileLoader(path.name, str(path))
    module = importlib.util.module_from_spec(importlib.util.spec_from_loader(path.name, loader))
    loader.exec_module(module)
    return module


def files(*folders, suffix="toml"):
    """The files of folders with a suffix."""
    return [path for folder in folders for path in sorted((TOP / folder).glob(f"*.{suffix}"))]


def named(path):
    """The name of a test over a file: its path without the suffix."""
    return os.fspath(path.relative_to(TOP).with_suffix("")).removeprefix("tests/")


def fault_at(path):
    """A refusal of tests/faults: the words that realmhost is given, its input, and the outcome."""
    head, err = path.read_bytes().split(b"\n", 1)
    args, given = path.with_suffix(".args"), path.with_suffix(".toml")
    words = args.read_bytes().split(b"\n")[:-1] if args.exists() else [b"replay"]
    return words, given.read_bytes() if given.exists() else b"", Ran(int(head.split()[1]), b"", err)


def plan_of(builds, **keys):
    """A plan with these keys, and the steps of each build."""
    tables = [f"[[build]]\nsteps = {json.dumps([*steps])}" for steps in builds]
    return "\n".join([*(f"{key} = {it}" for key, it in keys.items()), *tables, ""]).encode()


def data_of(page):
    """The data in a page of `realmview page`."""
    return json.loads(page[page.index(b'{"run":') :].split(b"</script>", 1)[0])


def over(name, *folders, suffix="toml"):
    """A test for each of these files."""
    return pytest.mark.parametrize(name, files(*folders, suffix=suffix), ids=named)


def needs(*programs):
    """A mark of tests that run these programs."""
    return pytest.mark.needs(*programs)


def parts(*checks):
    """A test for each function that checks a part. Each comes alone, or with the programs that it needs: without these it is
    skipped."""
    found = []
    for it in checks:
        check, *words = it if isinstance(it, tuple) else (it,)
        lacking = [word for word in words if not shutil.which(word)]
        mark = pytest.mark.skipif(bool(lacking), reason=f"there is no {', '.join(lacking)}")
        found.append(pytest.param(check, id=check.__name__, marks=mark))
    return pytest.mark.parametrize("part", found)
