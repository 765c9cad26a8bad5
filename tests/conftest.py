"""Parts that all tests share: checks that are counted, differences as a diff, and a word if a program is not built."""
import collections
import os
import sys
from pathlib import Path

import hypothesis
import pytest

from differences import difference

sys.dont_write_bytecode = True
# In the gate the same inputs are drawn each time. `make fuzz` sets COUNT, and draws other ones at each run.
COUNT = int(os.environ.get("COUNT") or 0)
hypothesis.settings.register_profile("gate", derandomize=True, database=None, deadline=None, print_blob=False)
hypothesis.settings.register_profile("more", deadline=None, max_examples=COUNT or 100)
hypothesis.settings.load_profile("more" if COUNT else "gate")


def pytest_assertrepr_compare(op, left, right):
    return ["they differ (- is wanted, + came):", *difference(left, right)] if op == "==" else None


# ---- checks


class Checks:
    """The checks of a test, each with a name. The test goes on after one that fails, and shows them all at its end."""

    def __init__(self):
        self.passed, self.failed = 0, []

    def __call__(self, name, got, wanted=True):
        """Checks that a value is the wanted one."""
        if got == wanted:
            self.passed += 1
        else:
            self.failed.append("\n".join([f"{name}:", *difference(got, wanted)]))

    def all(self, cases):
        """Checks each of some cases: a name, a value, and the wanted one."""
        for case in cases:
            self(*case)

    def findings(self, found):
        """Checks that each finding is none."""
        for it in found:
            if it is None:
                self.passed += 1
            else:
                self.failed.append(f"{it}")


@pytest.fixture
def check():
    return Checks()


@pytest.fixture(scope="module")
def room(request, tmp_path_factory):
    """A folder with the compiled programs of a file of tests, which has a class `Room`."""
    return request.module.Room(tmp_path_factory.mktemp("room"), getattr(request, "param", False))


@pytest.hookimpl(tryfirst=True)
def pytest_pyfunc_call(pyfuncitem):
    """Runs a test that checks, and ends it with what has failed."""
    checks, names = pyfuncitem.funcargs.get("check"), pyfuncitem._fixtureinfo.argnames
    if checks is None:
        return None
    try:
        pyfuncitem.obj(**{name: pyfuncitem.funcargs[name] for name in names})
    except Exception:
        pyfuncitem.add_report_section("call", "checks", "\n".join(checks.failed))
        raise
    finally:
        pyfuncitem.user_properties.append(("checks", (checks.passed, len(checks.failed))))
    if checks.failed or not checks.passed:
        pytest.fail("\n".join(checks.failed) or "nothing was checked", pytrace=False)
    return True


def pytest_terminal_summary(terminalreporter):
    """Writes of each file how many checks passed and how many failed. A test that counts none is one."""
    told = collections.defaultdict(lambda: [0, 0])
    for kind in ("passed", "failed", "error"):
        for report in terminalreporter.stats.get(kind, []):
            passed, failed = dict(getattr(report, "user_properties", ())).get("checks") or (int(kind == "passed"), 0)
            it = told[Path(report.nodeid.split("::")[0]).stem.removeprefix("test_")]
            it[0] += passed
            it[1] += failed or int(kind != "passed")
    for name, (passed, failed) in sorted(told.items()):
        terminalreporter.write_line(f"{name}: {passed} passed, {failed} failed")


# ---- programs

# The tests that read the sources of the crates, and need no program.
OF_THE_SOURCES = {f"test_{it}" for it in ("believed", "documents", "made", "names", "prose")}


def pytest_configure(config):
    config.addinivalue_line("markers", "random: the test draws inputs, of which `make fuzz` draws more")
    config.addinivalue_line("markers", "long: the test takes minutes, and runs where `-m` asks for it")
    config.addinivalue_line("markers", "needs(program, ..): the test runs these programs, as `make build` or `make test` puts them into bin/")


def pytest_addoption(parser):
    parser.addoption("--of", metavar="NAMES", help="run the tests that need one of these programs and libraries, and those of the sources")
    parser.addoption("--without", metavar="NAMES", default="", help="with --of: run no test that needs one of these")


def pytest_collection_modifyitems(config, items):
    """Leaves out what --of does not ask for: a program or a library is named by its file, up to the first dot."""
    if config.getoption("of") is not None:
        some, none = (set(config.getoption(it).split(",")) for it in ("of", "without"))
        needed = {it: {path.name.split(".")[0] for mark in it.iter_markers("needs") for path in mark.args} for it in items}
        chosen = [it for it, names in needed.items() if names & some and not names & none or it.path.stem in OF_THE_SOURCES]
        config.hook.pytest_deselected(items=[it for it in items if it not in chosen])
        items[:] = chosen


def pytest_runtest_setup(item):
    lacking = [it for mark in item.iter_markers("needs") for it in mark.args if not it.exists()]
    for it in lacking[:1]:
        by = {"test_memory": "make test", "librmm": "make c-library"}.get(it.name.split(".")[0], "make build")
        pytest.fail(f"{it.parent.name}/{it.name} is not built: {by}", pytrace=False)
