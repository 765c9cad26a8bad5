#!/usr/bin/env python3
"""The definitions that must be believed of the headline: those that the contracts of CONTRACTS name, and what these name in
turn, by the `use` lines of each file. With a type comes what it is seen as, and with a field of a type the field's own type;
of the types of WHOLE also what always holds of them. So from Host on, this leads from its memory to the world that contracts
speak of.

tests/test_believed.py holds DEFINITIONS.md and the documents' numbers against that. As a program:

    tests/believed.py --list    writes each file, and the definitions in it that are needed
    tests/believed.py --text    writes the definitions themselves, with their comments; the types in src/ that they name are in --list

Of DEFINITIONS.md, the part "What the headline needs" has to name each file that is needed, and no other; if only names
are in brackets after a file, they are the definitions that are needed of it. Each other file of definitions is named below.

A name that is bound in a definition counts as the definition of that name, if the file has one: so there may be a little
too much, and nothing is left out. The library of the toolchain, and its ports, are not followed.
"""
import collections
import functools
import re
import signal
import sys
from pathlib import Path

TOP = Path(__file__).resolve().parent.parent
CRATES = TOP / "crates"
LIST, HEADING, DEFAULT = TOP / "docs/reference/DEFINITIONS.md", "### What the headline needs", CRATES / "realm_model/specs"
# The functions whose contracts are the headline.
CONTRACTS = {
    "realm_host/src/host.rt": ["boot", "history"],
    "realm_host/src/command.rt": ["command"],
    "realm_host/src/undo.rt": ["undo"],
    "realm_host/src/abort.rt": ["begin_abort", "abort"],
    "realm_host/src/law.rt": ["aborts_are_shared"],
    "realm_model/src/law.rt": ["schedule_does_not_matter"],
}
# The type whose invariant ties memory to the history.
WHOLE = {"Host"}
USE = re.compile(r"^ *(?:ghost )?use Rattle\.([\w.]+?)(?:\.\{([^}]*)\}|(?: as (\S+?))?);?$", re.M)
DEFINED = re.compile(r"(?:abbrev |unfoldable |opaque )*pub (record |data )?(?!mod |record |data )([^\s:({.]+)")
WORD = re.compile(r"(?<![\w.'])([A-Za-z_][\w']*(?:-[\w']+)*)(?:\.([A-Za-z_][\w']*))?")
NUMBERS = re.compile(r"(\d+)\s+definitions\s+in\s+(\d+)\s+files,\s+about\s+([\d,]+)\s+lines")
# The end of a line of a document after which its paragraph or item goes on.
WRAPPED = re.compile(r"\n(?=[ \t]*[^\s|#>!<])(?![ \t]*([-*] |\d+\.\s))")

# The parts of a file of specs/: of each definition its lines, and those of the comment above it; of each constructor its type.
Specs = collections.namedtuple("Specs", "definitions comments constructors scope")
# The origins of the names of a file: of a name its module and its name there, and of an alias its module.
Scope = collections.namedtuple("Scope", "names modules")


def scope_of(text):
    names, modules = {}, {}
    for module, listed, alias in USE.findall(text):
        for name in filter(None, listed.split(",")):
            there, _, here = name.strip().partition(" as ")
            names[here or there] = module, there
        if not listed:
            modules[alias or module.split(".")[-1]] = module
    return Scope(names, modules)


@functools.cache
def specs_of(path):
    text = path.read_text(encoding="utf-8")
    definitions, comments, constructors, name, above = {}, {}, {}, None, []
    for line in USE.sub("", text).split("\n"):
        found = DEFINED.match(line)
        if line.startswith("--"):
            name, above = None, [*above, line]
        elif found:
            name = found[2]
            definitions[name], comments[name], above = [line], above, []
        elif line and name is None and line.split()[0] in definitions:
            name = line.split()[0]
            definitions[name].append(line)
        elif line and name:
            name = line.split()[0] if line[0] not in " }]" and line.split()[0] in definitions else name
            definitions[name].append(line)
            constructor = re.match(r"  ([A-Z]\w*) :", line)
            if constructor and definitions[name][0].startswith("pub data "):
                constructors[constructor[1]] = name
        elif not line:
            above = []
    return Specs(definitions, comments, constructors, scope_of(text))


def code_of(lines):
    """The lines without comments, texts and the names of fields that are declared."""
    plain = re.sub(r'"(?:[^"\\]|\\.)*"', "", "\n".join(lines))
    return re.sub(r"^  pub [\w']+ :", "  :", re.sub(r"--.*", "", plain), flags=re.M)


def file_of(module):
    crate, *parts = module.split(".")
    return CRATES / crate / ("/".join(parts) + ".antt")


def named(code, scope, path=None, own=()):
    """The names in a piece of code: definitions, each as its file and its name, and types, as the file of src/ and the name."""
    pairs = [(path, it) for it in own if re.search(rf"(?<![\w.']){re.escape(it)}(?![\w'])", code)]
    modules = [scope.names[word] for word, _ in WORD.findall(code) if word in scope.names and word not in own]
    modules += [(scope.modules[word], part) for word, part in WORD.findall(code) if part and word in scope.modules]
    modules += [it for name, it in scope.names.items() if "◌" in name and name.strip("◌") in code.split()]
    for module, name in modules:
        crate, _, rest = module.partition(".specs.")
        if rest.startswith("declared.") and (CRATES / crate).is_dir():
            parts = [it for it in rest.split(".")[1:] if it != "TheVariants"]
            pairs.append((CRATES / crate / "src" / ("/".join(parts[:-1]) + ".rt"), parts[-1]))
        elif (CRATES / crate).is_dir() and not rest.startswith("contracts."):
            pairs.append((file_of(module), name))
    return pairs


# ---- types


@functools.cache
def types():
    """The files of src/ that declare a type of each name."""
    found = collections.defaultdict(list)
    for path in sorted(CRATES.glob("*/src/**/*.rt")):
        for name in re.findall(r"^pub(?:\(crate\))? (?:struct|enum|trait) (\w+)", path.read_text(encoding="utf-8"), re.M):
            found[name].append(path)
    return found


def types_in(code, path):
    """The types that Rust code of a file names, each with the file that declares it."""
    text, crate = path.read_text(encoding="utf-8"), path.relative_to(CRATES).parts[0]
    used = re.findall(r"^use (\w+)::(\{[^}]*\}|[\w:]+);", text, re.M)
    for name in sorted(set(re.findall(r"\b[A-Z]\w*", code))):
        crates = [crate, *(home for home, names in used if re.search(rf"\b{name}\b", names))]
        homes = [it for it in types()[name] if it.relative_to(CRATES).parts[0] in crates]
        # A type that a crate has from another one under its own name.
        homes = homes or [it for it in types()[name] if re.search(rf"use crate::(\{{[^}}]*)?\b{name}\b", text)]
        yield from ((it, name) for it in homes[:1])


def clause(block, word):
    """The text in the braces of a line `ghost WORD = { .. };`, or nothing."""
    at = re.search(rf"ghost {word} = \{{", block)
    return block[at.end() : at.end() + re.search(r"\};\n", block[at.end() :]).start()] if at else ""


def of_type(path, name):
    """The names that a type leads to: the types of its fields, and what it is seen as."""
    text = path.read_text(encoding="utf-8")
    declared = re.search(rf"^pub(?:\(crate\))? (?:struct|enum) {name}\b.*?(?:;$|^\}})", text, re.M | re.S)
    model = re.search(rf"^impl\b[^\n]*\bModel for {name}\b.*?^\}}", text, re.M | re.S)
    fields = "\n".join(line for line in (declared[0] if declared else "").split("\n") if not re.match(r" *(//|#|ghost )", line))
    # The variants of an enum are no types.
    fields = re.sub(r"^    [A-Z]\w*", "", fields, flags=re.M) if declared and " enum " in declared[0].split("{")[0] else fields
    yield from types_in(fields, path)
    for word in ("Value", "view", *(["invariant"] if name in WHOLE else [])) if model else ():
        yield from named(clause(model[0], word), scope_of(model[0]))


def of_contract(path, function):
    """The names in the contract of a function, with the types of its signature and its own."""
    text = path.read_text(encoding="utf-8")
    found = re.search(rf"^( *)pub fn {function}\b.*?^\1\{{", text, re.M | re.S)
    head, _, contract = found[0].partition("\n")
    kind = re.findall(r"^impl\b.* (\w+)(?:<.*>)? \{", text[: found.start()], re.M) if found[1] else []
    return [*types_in(f"{head} {' '.join(kind[-1:])}", path), *named(code_of([contract]), scope_of(text))]


def needed():
    """Each definition and each type that is needed: its file and its name, in the order in which they are met."""
    todo = [it for path, functions in CONTRACTS.items() for function in functions for it in of_contract(CRATES / path, function)]
    found = {}
    for path, name in todo:
        if path.suffix == ".rt":
            more = () if (path, name) in found else of_type(path, name)
        else:
            specs = specs_of(path)
            name = specs.constructors.get(name, name)
            own = {**specs.definitions, **specs.constructors}
            more = () if (path, name) in found else named(code_of(specs.definitions[name]), specs.scope, path, own)
        todo += [it for it in more if it not in found]
        found[path, name] = True
    return list(found)


def by_file(names):
    """Of each file the names that are needed of it."""
    files = collections.defaultdict(list)
    for path, name in names:
        files[path].append(name)
    return files


# ---- the documents


def parts():
    """The part of the list that the headline needs, and what is below it."""
    _, _, behind = LIST.read_text(encoding="utf-8").partition(HEADING + "\n")
    part, *rest = re.split(r"^##", behind, flags=re.M)
    return WRAPPED.sub(" ", part), WRAPPED.sub(" ", "\n".join(rest))


def files_in(text):
    """The files of crates that a part of the list names, each with the names that alone are in brackets after it."""
    found = {}
    for line in text.split("\n"):
        folder = DEFAULT
        for span, brackets in re.findall(r"`([\w/]+\.(?:antt|rt))`(?: \(((?:`\w+`(?:, )?)+)\))?", line):
            known = [it for it in (CRATES / span, DEFAULT / span) if "/" in span and it.is_file()]
            path = [*known, folder / span][0]
            found[path], folder = re.findall(r"`(\w+)`", brackets), path.parent
    return found


def of_list(files):
    """For each file that is needed or listed, what is wrong with the list, or none."""
    listed = files_in(parts()[0])
    for path in sorted({*files, *listed}):
        short, names = path.relative_to(CRATES), ", ".join(files.get(path, []))
        if path not in listed:
            yield f"the list does not have {short}: the headline needs {names}"
        elif path not in files:
            yield f"the list has {short}, which the headline does not need"
        else:
            is_right = not listed[path] or sorted(listed[path]) == sorted(files[path])
            yield None if is_right else f"of {short} the headline needs {names}"


def of_the_rest(files):
    """For each other file of definitions, whether it is named below the list. Codes are none that have to be read."""
    others = files_in(parts()[1])
    for path in sorted(CRATES.glob("*/specs/**/*.antt")):
        if path not in files and path.name != "Codes.antt" and specs_of(path).definitions:
            yield None if path in others else f"DEFINITIONS.md does not have {path.relative_to(CRATES)}"


def of_numbers(files):
    """For each sentence that has the numbers, whether they are right."""
    definitions = [(path, name) for path, names in files.items() if path.suffix == ".antt" for name in names]
    lines = [line for path, name in definitions for line in code_of(specs_of(path).definitions[name]).split("\n") if line.strip()]
    right = len(definitions), len({path for path, _ in definitions})
    for document in sorted({*TOP.glob("*.md"), *TOP.glob("docs/**/*.md")}):
        for number, count, about in NUMBERS.findall(document.read_text(encoding="utf-8")):
            is_right = (int(number), int(count)) == right and abs(int(about.replace(",", "")) - len(lines)) <= 5
            told = f"there are {right[0]} definitions in {right[1]} files, about {round(len(lines), -1):,} lines"
            yield None if is_right else f"{document.relative_to(TOP)}: {told}"


def write_text(files):
    """Writes the definitions, file by file in the order of the list."""
    for path in dict.fromkeys([*files_in(parts()[0]), *files]):
        if path.suffix == ".antt" and path in files:
            print(f"-- ==== {path.relative_to(TOP)}\n")
            specs = specs_of(path)
            for name in (it for it in specs.definitions if it in files[path]):
                print("\n".join([*specs.comments[name], *specs.definitions[name]]) + "\n")


def main(words):
    signal.signal(signal.SIGPIPE, signal.SIG_DFL)
    files = by_file(needed())
    if words == ["--list"]:
        for path in sorted(files):
            print(f"{path.relative_to(TOP)}: {' '.join(files[path])}")
    elif words == ["--text"]:
        write_text(files)
    else:
        print(__doc__.split("\n\n", 1)[1], end="", file=sys.stderr)
        return 2
    return 0


if __name__ == "__main__":
    sys.exit(main(sys.argv[1:]))
