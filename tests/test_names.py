"""The name of a public definition, type or function is used for one thing. In the files of crates/*/specs each name means
one definition, type or theorem that others may cite. Names of fields and of constructors are read with their type, and are not
meant. In the files of crates/*/src each name means one public type of the repository, with no exception, and one function that a
library exports in its lib.rt.

The RMM by registers has a model of its own, with the names that the standard gives, as that of the profile has: the crates of its
group in crates.txt are compared among themselves.

A name that is used twice on purpose has a line in tests/names.txt: the name, the crates that define it, and the reason. That of
a function ends with `()`. A line there fails if its name is no longer used in just these crates, or if it gives no reason.

Each name that is used twice without such a line, and each line that is not right, is shown.
"""
import collections
import itertools
import re

import pytest

from programs import TOP

ALLOWED = TOP / "tests/names.txt"
DEFINITION = re.compile(r"^(?:abbrev |unfoldable |opaque )*pub (?:record |data )?(?!mod |record |data )([^\s:({.]+)", re.M)
TYPE = re.compile(r"^\s*pub (?:unsafe )?(?:struct|enum|trait|union|type) (\w+)", re.M)
FUNCTION = re.compile(r"^pub (?:const |unsafe )*fn (\w+)", re.M)
EXPORT = re.compile(r"^pub use [^;]+;", re.M)


def group(title):
    """The crates of a group in crates.txt."""
    lines = (TOP / "crates.txt").read_text().split(f"\n# {title}:", 1)[1].splitlines()[1:]
    return {line.split(":")[0].split()[0] for line in itertools.takewhile(lambda it: it and it[0] != "#", lines)}


def definitions():
    """Of each name, the crates that define it, one for each definition: of the RMM by registers, and of the others."""
    by_registers, others = collections.defaultdict(list), collections.defaultdict(list)
    own = group("RMM by registers")
    for path in sorted((TOP / "crates").glob("*/specs/**/*.antt")):
        crate = path.relative_to(TOP / "crates").parts[0]
        for name in DEFINITION.findall(path.read_text()):
            (by_registers if crate in own else others)[name].append(crate)
    return by_registers, others


def types():
    """Of each name, the crates that have a public type of that name, one for each type."""
    found = collections.defaultdict(list)
    for path in sorted((TOP / "crates").glob("*/src/**/*.rt")):
        for name in TYPE.findall(path.read_text()):
            found[name].append(path.relative_to(TOP / "crates").parts[0])
    return found


def functions():
    """Of each name, with `()`, the libraries that define a function of that name and export it."""
    found = collections.defaultdict(list)
    for head in sorted((TOP / "crates").glob("*/src/lib.rt")):
        exported = set(re.findall(r"\w+", " ".join(EXPORT.findall(head.read_text()))))
        own = {name for path in head.parent.glob("**/*.rt") for name in FUNCTION.findall(path.read_text())}
        for name in exported & own:
            found[f"{name}()"].append(head.parts[-3])
    return found


def allowed(is_function):
    """Of each name in tests/names.txt, of a function or of a definition, the crates and the reason."""
    lines = [it for it in ALLOWED.read_text().splitlines() if it and not it.startswith("#")]
    cells = [[cell.strip() for cell in line.split(":", 2)] for line in lines]
    return {name: (crates.split(), reason) for name, crates, reason in cells if name.endswith("()") == is_function}


def findings(crates, allowed):
    """For each name, what is wrong with it, or none."""
    for name, places in sorted(crates.items()):
        named, reason = allowed.get(name, ([], ""))
        if len(places) == 1:
            yield f"{name} is defined once, in {places[0]}: its line in tests/names.txt is not needed" if named else None
        elif not named:
            yield f"{name} is defined in {' and in '.join(places)}"
        elif sorted(named) != places:
            yield f"{name} is defined in {', '.join(places)}, but its line in tests/names.txt has {', '.join(named)}"
        else:
            yield None if reason else f"the line of {name} in tests/names.txt gives no reason"
    for name in sorted(set(allowed) - set(crates)):
        yield f"tests/names.txt has {name}, which is not defined"


@pytest.mark.parametrize("kind", ["profile", "registers", "types", "functions"])
def test_each_name_has_one_meaning(check, kind):
    by_registers, others = definitions()
    names = {"profile": others, "registers": by_registers, "types": types(), "functions": functions()}[kind]
    check.findings(findings(names, allowed(kind == "functions") if kind in ("profile", "functions") else {}))
