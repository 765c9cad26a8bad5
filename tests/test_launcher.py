"""The search of tools/pytest for an interpreter, where there is none that has what the tests need."""
import os
import shutil
import subprocess
import sys

import pytest

from programs import TOP


@pytest.fixture
def launch(tmp_path):
    """Runs the launcher in a repository of its own, whose PATH has an interpreter without packages."""
    (tmp_path / "tests").mkdir()
    (tmp_path / "tests/test_it.py").write_text("def test_it():\n    pass\n")
    shutil.copy(TOP / "tests/requirements.txt", tmp_path / "tests")
    shutil.copytree(TOP / "tools", tmp_path / "tools", ignore=shutil.ignore_patterns("__pycache__"))
    (tmp_path / "bin").mkdir()
    python = tmp_path / "bin/python3"
    # (-S: without site-packages, so that no package is found; and no venv, as on Debian without python3-venv)
    python.write_text(f'#!/bin/sh\ncase "$*" in "-m venv"*) exit 1;; esac\nexec {sys.executable} -S -E "$@"\n')
    python.chmod(0o755)

    def launched(*words):
        env = {"PATH": f"{tmp_path}/bin", "PIP_NO_INDEX": "1", "HOME": f"{tmp_path}"}
        return subprocess.run([python, tmp_path / "tools/pytest", *words], env=env, capture_output=True, text=True, timeout=60)

    return launched


def test_nothing_fits(launch, tmp_path):
    ran = launch("-q")
    typed = f"python3 -m venv {tmp_path}/.venv && {tmp_path}/.venv/bin/pip install -r {tmp_path}/tests/requirements.txt"
    assert ran.returncode == 1
    assert ran.stderr.endswith(f"pytest: no interpreter has what the tests need. Type: {typed}\n")
    assert not (tmp_path / ".venv").exists()


INSTALL = "install --yes --quiet python3-pytest python3-pytest-xdist python3-hypothesis python3-jsonschema\n"
# An apt that keeps what it is asked. It installs nothing until it has a list of packages.
APT = """\
#!/bin/sh
echo "$@" >> {folder}/asked
[ "$1" = update ] && exec touch {folder}/list
[ -e {folder}/list ] && exec ln -s {python} {folder}/bin/python3.11
exit 100
"""


@pytest.mark.skipif(os.geteuid() != 0, reason="apt is for root alone")
@pytest.mark.parametrize("has_list", [True, False])
def test_apt_installs(launch, tmp_path, has_list):
    apt = tmp_path / "bin/apt-get"
    apt.write_text(APT.format(folder=tmp_path, python=sys.executable))
    apt.chmod(0o755)
    for name in ("touch", "ln"):
        (tmp_path / "bin" / name).symlink_to(shutil.which(name))
    if has_list:
        (tmp_path / "list").touch()
    ran = launch("-q", "-p", "no:cacheprovider")
    assert "1 passed" in ran.stdout, ran.stderr
    asked = (tmp_path / "asked").read_text()
    assert asked == (INSTALL if has_list else f"{INSTALL}update --quiet\n{INSTALL}")
