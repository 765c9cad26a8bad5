"""The documents, *.md here and below docs/, against what they name.

  links   the file of a relative link exists, and so does the heading that it leads to
  paths   a path that begins with a folder of the repository or with the name of a crate exists. In backticks, one that
          begins with a folder of a crate, as src/ or specs/, is looked for in the crates that its line names, and a file
          without a folder in the folders that its line names
  rows    in a table with the columns File, What holds and Contract, each function and type of the last column is defined
          in a file of the first one, and a function of a type in a file with functions of this type
  crates  a table with the column Crate has a row for each crate of crates.txt, and no other row
  names   a name in backticks that is written like a name of the code is a word of the code, or a crate
  quotes  a line of a block of code that is a contract, a definition or a field of one is in a source
  stands  a sentence on the libraries of crates.txt has those that are there: which ports of the toolchain are trusted, and
          which crates do not depend on one
  counts  a number in a sentence of COUNTS is what is counted. One from 1,000 on that ends in zeros is rounded. Each of these
          sentences is in some document
  profile the files of specs that DEFINITIONS.md names in its section on the profile are those with a comment on it

In a path NAME, MODULE, TYPE, FUNCTION and B mean any text. Of what is built (bin/, out/) only the crate is looked for,
and what is in build/ not at all.

This cannot find: whether a contract says what its row says; which of several functions of one name a row means;
whether an output that a document shows is that of the program; and whether a crate is gone whose name is still a word of
the code.
"""
import collections
import functools
import os
import re

import pytest

from random_plans import CHANGED_PLANS
from programs import TOP

DOCUMENTS = [*sorted(TOP.glob("*.md")), *sorted((TOP / "docs").rglob("*.md"))]
BELOW_CRATES = TOP / "crates"
# Each crate with its libraries, which are crates too or those of the toolchain.
STANDS_ON = {
    line.split(":")[0].split()[0]: line.split(":")[1].split() for line in (TOP / "crates.txt").read_text().splitlines() if line[:1] not in ("", "#")
}
LIBRARIES = {library for libraries in STANDS_ON.values() for library in libraries} - set(STANDS_ON)
# Libraries that are no ports but parts of the standard library, and the programs.
OF_THE_STANDARD, PROGRAMS = {"core", "std_alloc", "std_heap"}, {"realmhost", "rmitrace", "realmview"}
WORDS = (
    "no one two three four five six seven eight nine ten eleven twelve thirteen fourteen fifteen sixteen seventeen eighteen nineteen twenty"
).split()
FOLDERS = {path.name for path in TOP.iterdir() if path.is_dir() and not path.name.startswith(".")} | {"bin"}
# Folders with code that is in no crate.
CODE = ("tests", "bench", "include", "python", "examples")
# The files in these are made from the code.
MADE = {"out", "__pycache__"}
OF_A_CRATE = ("src", "specs", "proofs", "must-fail", "mutants")
# Names without a folder are in these, as DEFINITIONS.md says.
OF_THE_MODEL = [BELOW_CRATES / "realm_model/specs", BELOW_CRATES / "realm_model/specs/Command"]
PLACEHOLDER = re.compile(r"(?<![A-Za-z])(?:NAME|MODULE|TYPE|FUNCTION|B)(?![A-Za-z])")

# A line of a document; of a paragraph that is wrapped, all of its lines are one. Its text is without the targets of its links;
# `is_code` says that it is in a block of code.
Line = collections.namedtuple("Line", "place text is_code links")
# A line that begins so goes on with no line above it.
BEGINS = re.compile(r"\s*([-*] |[|#>!<]|\d+\.\s|```|$)")


def unwrapped(text):
    """The lines of a text, each with its number; those of a wrapped paragraph or item are one."""
    found, is_fenced, is_open = [], False, False
    for number, line in enumerate(text.split("\n"), 1):
        is_mark = line.startswith("```")
        is_code = is_fenced or is_mark or line.startswith("    ") and not is_open
        is_fenced ^= is_mark
        if is_open and not is_code and not BEGINS.match(line):
            found[-1] = (*found[-1][:1], f"{found[-1][1]} {line.strip()}", False)
        else:
            found.append((number, line, is_code))
            is_open = not is_code and bool(re.match(r"\s*([-*] |\d+\. |[^|#>!<\s])", line))
    return found


@functools.cache
def lines_of(document):
    lines = []
    for number, text, is_code in unwrapped(document.read_text()):
        links = re.findall(r"\]\(([^)\s]+)\)", text)
        bare = re.sub(r"\]\([^)\s]+\)", "]", text)
        lines.append(Line(f"{document.relative_to(TOP)}:{number}", bare, is_code, links))
    return lines


def in_backticks(line):
    return [] if line.is_code else re.findall(r"`([^`]+)`", line.text)


def tables_of(document):
    """The tables of a document: the cells of the head, and the rows, each with its line."""
    rows = []
    for line in [*lines_of(document), Line("", "", False, [])]:
        if line.text.startswith("|"):
            rows.append((line, [cell.strip() for cell in line.text.strip()[1:-1].split("|")]))
        elif rows:
            yield rows[0][1], rows[2:]
            rows = []


# ---- links


@functools.cache
def anchors_of(document):
    """The anchors of the headings. If several have the same text, those after the first are numbered."""
    anchors, counts = set(), collections.Counter()
    for line in lines_of(document):
        heading = re.match(r"#+ (.*)", line.text)
        if heading and not line.is_code:
            anchor = re.sub(r"[^\w\- ]", "", heading[1].strip().lower()).replace(" ", "-")
            anchors.add(f"{anchor}-{counts[anchor]}" if counts[anchor] else anchor)
            counts[anchor] += 1
    return anchors


def of_links(document):
    for line in lines_of(document):
        for link in [] if line.is_code else line.links:
            name, _, anchor = link.partition("#")
            target = (document.parent / name).resolve() if name else document
            if re.match(r"[a-z]+:", link):
                continue
            elif not target.exists():
                yield line, f"the link {link} leads to no file"
            elif anchor and anchor not in anchors_of(target):
                yield line, f"the link {link} leads to no heading"
            else:
                yield line, None


# ---- paths


def is_there(folder, name):
    name = re.sub(r"^bin(/|$)", "crates/", re.sub(r"/out(/.*)?$", "", name.rstrip("/")))
    return (folder / name).exists() or any(folder.glob(PLACEHOLDER.sub("*", name)))


def paths_in(line):
    """The words of a line that are paths, and of each whether it is in backticks."""
    quoted = {word for span in in_backticks(line) for word in span.split()}
    for word in re.split(r"[\s`()|,;:'\"<>\[\]]+", line.text):
        word = word.rstrip(".")
        if re.fullmatch(r"[\w.+*-]+(/[\w.+*-]*)+", word):
            yield word, word in quoted


def folder_of(word):
    """The folder that a path is, or that its file is in; None where it begins with no folder that is known."""
    head = word.split("/")[0]
    if head not in FOLDERS and head not in STANDS_ON:
        return None
    path = (BELOW_CRATES if head in STANDS_ON else TOP) / word
    return path.parent if path.suffix else path


def crates_in(line):
    """The crates that a line names: as a path, as a function of a crate, or alone."""
    heads = [part for word, _ in paths_in(line) for part in word.split("/")[:2]]
    heads += [span.split("::")[0] for span in in_backticks(line)]
    return [head for head in heads if head in STANDS_ON]


def of_paths(document):
    for line in lines_of(document):
        crates = crates_in(line)
        folders = [folder for folder in (folder_of(word) for word, _ in paths_in(line)) if folder]
        folders += [BELOW_CRATES / crate / folder for crate in crates for folder in OF_A_CRATE]
        for word, is_quoted in paths_in(line):
            head = word.split("/")[0]
            if head == "build":
                continue
            elif head in FOLDERS:
                yield line, None if is_there(TOP, word) else f"there is no {word}"
            elif is_quoted and head in STANDS_ON:
                yield line, None if is_there(BELOW_CRATES, word) else f"there is no crates/{word}"
            elif is_quoted and head in OF_A_CRATE:
                found = any(is_there(BELOW_CRATES / crate, word) for crate in crates or STANDS_ON)
                yield line, None if found else f"there is no {word} in {', '.join(crates) or 'any crate'}"
            elif is_quoted and re.search(r"\.(rt|antt|edit|md|toml|txt|trace)$|/$|^\w+/(src|specs|proofs)\b", word):
                found = any(is_there(folder, word) for folder in folders + OF_THE_MODEL)
                yield line, None if found else f"there is no {word}"
        for span in in_backticks(line):
            if re.fullmatch(r"[\w.-]+\.(rt|antt)", span):
                found = any((folder / span).exists() for folder in folders + OF_THE_MODEL)
                yield line, None if found else f"there is no {span} in the folders that this line names"


# ---- rows


def files_in(cell):
    """The files that a cell names. One without a folder is in the folder of the one before it."""
    files = []
    for span in re.findall(r"`([^`]+)`", cell):
        files.append(files[-1].parent / span if files and "/" not in span else BELOW_CRATES / span)
    return files


def defines(file, name):
    """Whether a file has the definition of a type, a function, or a function of a type."""
    text = file.read_text() if file.is_file() else ""
    kind, _, function = name.rpartition("::")
    if not kind and name[0].isupper():
        return bool(re.search(rf"\b(struct|enum|trait|type) {name}\b", text))
    has_kind = not kind or re.search(rf"^((pub )?(impl|trait)\b.*|.*\bfor |> )\b{kind}\b", text, re.M)
    return bool(has_kind and re.search(rf"\bfn {function}\b", text))


def of_rows(document):
    for head, rows in tables_of(document):
        files = []
        for line, row in rows if head == ["File", "What holds", "Contract"] else []:
            # An empty cell has the files of the row above it.
            files = files_in(row[0]) or files
            for name in re.findall(r"`(\w+(?:::\w+)*)`", row[-1]):
                found = any(defines(file, name) for file in files)
                named = ", ".join(str(file.relative_to(BELOW_CRATES)) for file in files)
                yield line, None if found else f"{name} is not defined in {named}"


# ---- crates


def of_crates(document):
    for head, rows in tables_of(document):
        if head[0] == "Crate":
            named = {name: line for line, row in rows for name in re.findall(r"`(\w+)`", row[0])}
            for name, line in named.items():
                yield line, None if name in STANDS_ON else f"{name} is no crate of crates.txt"
            for name in STANDS_ON:
                yield rows[0][0], None if name in named else f"the table that begins here has no row for {name}"


# ---- names


@functools.cache
def words_of_the_code():
    files = [path for path in TOP.iterdir() if path.is_file() and path.suffix != ".md"]
    for folder in (*(BELOW_CRATES / crate / folder for crate in STANDS_ON for folder in OF_A_CRATE), *(TOP / it for it in CODE)):
        files += [path for path in folder.rglob("*") if path.is_file() and not MADE & set(path.relative_to(folder).parts)]
    words = {word for path in files for word in re.findall(r"\w+", path.read_text(errors="replace"))}
    return words | {path.stem for path in files} | set(STANDS_ON)


def of_names(document):
    for line in lines_of(document):
        for span in in_backticks(line):
            is_name = re.fullmatch(r"[A-Za-z]\w*(::\w+)*", span) and re.search(r"_|::|[a-z][A-Z]", span)
            if is_name and span.split("::")[0] not in LIBRARIES:
                lacking = set(span.split("::")) - words_of_the_code()
                yield line, f"nothing in the code is named {span}" if lacking else None


# ---- quotes


@functools.cache
def lines_of_the_code():
    files = [path for crate in STANDS_ON for folder in ("src", "specs") for path in (BELOW_CRATES / crate / folder).rglob("*") if path.is_file()]
    return {line.strip() for path in files for line in path.read_text().split("\n")}


def of_quotes(document):
    for line in lines_of(document):
        if line.is_code and re.match(r" *(pub (fn|record) |(abbrev|unfoldable) pub |(ensures|requires) |pub \w+ : )", line.text):
            yield line, None if line.text.strip() in lines_of_the_code() else "no source has this line"


# ---- stands


@functools.cache
def below(crate):
    """All that a crate depends on."""
    libraries = STANDS_ON.get(crate, [])
    return frozenset(libraries).union(*(below(it) for it in libraries))


def of_stands(document):
    product = [crate for crate in STANDS_ON if not crate.startswith(("example_", "test_"))]
    ports = {library for crate in product for library in STANDS_ON[crate]} - set(STANDS_ON) - OF_THE_STANDARD
    for line in lines_of(document):
        for listed in re.findall(r"\bports of ((?:`\w+`(?:, | and )?)+)", line.text):
            wrong = ports ^ set(re.findall(r"`(\w+)`", listed))
            yield line, f"by crates.txt the ports are {', '.join(sorted(ports))}" if wrong else None
        for library, listed in re.findall(r"independent of `(\w+)`: ((?:`\w+`(?:, | and )?)+)", line.text):
            without = {crate for crate in STANDS_ON if library not in below(crate)} - {library}
            wrong = without ^ set(re.findall(r"`(\w+)`", listed))
            yield line, f"by crates.txt this is not so of {', '.join(sorted(wrong))}" if wrong else None


# ---- counts


def written(folder):
    """The number of lines in a folder of the crates, blank ones not counted."""
    return sum(1 for path in BELOW_CRATES.glob(f"*/{folder}/**/*.antt") for line in path.read_text().split("\n") if line.strip())


def edits(crate="*"):
    return sum(1 for folder in ("mutants", "must-fail") for _ in BELOW_CRATES.glob(f"{crate}/{folder}/*.edit"))


def variants(path, name):
    inside = re.search(rf"^pub enum {name} \{{\n(.*?)^\}}", (BELOW_CRATES / path).read_text(), re.M | re.S)[1]
    return len(re.findall(r"^    [A-Z]\w*", inside, re.M))


def unsafe_files():
    """The texts of the files with a block of unsafe code."""
    return [text for path in BELOW_CRATES.glob("*/src/**/*.rt") if "unsafe {" in (text := path.read_text())]


ROW = BELOW_CRATES / "page_arena/src/row.rt"
COUNTS = {
    r"proves ([\d,]+) libraries and the three programs": lambda: len(set().union(*map(below, PROGRAMS)) & set(STANDS_ON) - PROGRAMS),
    r"CRATE=realm_host` tries ([\d,]+) ": lambda: edits("realm_host"),
    r"tries ([\d,]+) mutants": edits,
    r"definitions \(([\d,]+) lines": lambda: written("specs"),
    r"\b([\d,]+) lines of proofs": lambda: written("proofs"),
    r"`unsafe` blocks are in (\w+) files": lambda: len(unsafe_files()),
    r"`unsafe` blocks are in \w+ files of ([\d,]+) lines": lambda: sum(len(text.splitlines()) for text in unsafe_files()),
    r"`page_arena/src/row.rt`, a file of ([\d,]+) lines": lambda: len(ROW.read_text().splitlines()),
    r"and (\w+) `unsafe impl`": lambda: ROW.read_text().count("\nunsafe impl"),
    r"each of the (\w+) commands and an undo": lambda: variants("host_commands/src/cmd.rt", "Cmd"),
    r"(?:each of|over) the (\w+) (?:acts|operations)\b": lambda: variants("realm_model/src/act.rt", "Act"),
    r"`make test` tries (\w+) mutants?\b": lambda: len(list(BELOW_CRATES.glob("*/must-fail/*.edit"))),
    r"(\w+) plans with random changes get": lambda: CHANGED_PLANS,
}


def is_count(text, count):
    if text.lower() in WORDS:
        return WORDS.index(text.lower()) == count
    digits = text.replace(",", "")
    unit = 10 ** (len(digits) - len(digits.rstrip("0"))) if len(digits) > 3 else 1
    return abs(int(digits) - count) * 2 <= unit if unit > 1 else int(digits) == count


def of_counts(document):
    for line in lines_of(document):
        for pattern, count in COUNTS.items():
            for text in re.findall(pattern, line.text):
                yield line, None if is_count(text, count()) else f"{text} where {count():,} are counted: {pattern}"
# ---- profile


def section_of(document, heading):
    """The lines of a section, up to the next heading of its level."""
    is_inside = False
    for line in lines_of(document):
        is_inside = line.text == heading or is_inside and not line.text.startswith("## ")
        if is_inside:
            yield line


def of_profile(document):
    section = list(section_of(document, "## The profile")) if document.name == "DEFINITIONS.md" else []
    files = {path for crate in STANDS_ON for path in (BELOW_CRATES / crate / "specs").rglob("*.antt")} if section else set()
    remarked = {os.fspath(it.relative_to(BELOW_CRATES)) for it in files if re.search(r"--.*\bprofile\b", it.read_text())}
    named = {span: line for line in section for span in in_backticks(line) if span.endswith(".antt")}
    for name in sorted(remarked | set(named)):
        line = named.get(name) or section[0]
        if name not in named:
            yield line, f"{name} says that something is the profile's own, and does not stand here"
        else:
            yield line, None if name in remarked else f"{name} has no comment on the profile"


KINDS = (of_links, of_paths, of_rows, of_crates, of_names, of_quotes, of_stands, of_counts, of_profile)


@pytest.mark.parametrize("kind", KINDS, ids=lambda it: it.__name__.removeprefix("of_"))
def test_documents(check, kind):
    found = [it for document in DOCUMENTS for it in kind(document)]
    check.findings(finding and f"{line.place}: {finding}" for line, finding in found)


def test_each_sentence_is_there(check):
    texts = [line.text for document in DOCUMENTS for line in lines_of(document)]
    missing = [pattern for pattern in COUNTS if not any(re.search(pattern, text) for text in texts)]
    check("sentences of COUNTS that are in no document", missing, [])
