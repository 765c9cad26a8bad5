"""Man pages and completions against what the built programs and docs/ say.

man/NAME.1 has the version of the program, which CHANGELOG.md and include/rmm.pc have too; a part for each of its
subcommands with the very options of that, and what --help says of each. Its statuses are those that docs/ has, and those
that the program ends with here are among them. Its command lines are run. Where mandoc or groff is there, it has nothing
to say of the page.
man/NAME.5 is a format: it lists the very keys, steps, commands and events that the tables of docs/ have, by LISTS. Its
command lines are run too.
completions/ is what tools/completions writes, and bash, fish and zsh, where they are there, take it: bash and fish complete
the words of --help and no others.
"""
import collections
import itertools
import os
import re
import shutil
import subprocess

import pytest

from help_text import PROGRAMS, program_of, version_of
from programs import HOST, TOP, TRACER, VIEW, module_of, needs, run

pytestmark = needs(HOST, TRACER, VIEW)
STATUSES = TOP / "docs/reference/STATUSES.md"
# Of a page of section 5, each part that is a list: the document and the head of the table that has the same entries,
# and whether an entry is the whole text or its first word.
LISTS = {
    "realmhost-plan": {
        "KEYS": ("PLANS.md", "Key", True),
        "STEPS": ("PLANS.md", "Step | What it does", True),
        "REFUSALS": ("PLANS.md", "Refusal", True),
    },
    "rmitrace-trace": {
        "QUESTIONS": ("TRACES.md", "Question", False),
        "COMMANDS": ("TRACES.md", "Command", True),
        "READINGS": ("TRACES.md", "Reading", True),
        "STEPS": ("TRACES.md", "Step", True),
    },
    "realmview-history": {"EVENTS": ("REALMVIEW.md", "Event", False)},
}


def printed(words, given="", **how):
    """Status, and all that is printed."""
    return run(words[0], words[1:], given, stderr=subprocess.STDOUT, cwd=TOP, text=True, errors="replace", **how)[:2]


# ---- man pages


def plain(text):
    """The text of a page, without the marks of its form: a line of a page is a line here."""
    lines = []
    for line in text.split("\n"):
        macro = re.match(r"\.(\w+) ?(.*)", line)
        if macro and macro[1] in ("BR", "BI", "RB", "IR"):
            words = re.findall(r'"([^"]*)"|(\S+)', macro[2])
            line = "".join(quoted or bare for quoted, bare in words)
        elif macro:
            line = macro[2].strip('"')
        lines.append(re.sub(r"\\\(.q", '"', line).replace("\\-", "-").replace("\\\\", "\\"))
    return "\n".join(lines)


def parts_of(page, macro):
    """The parts of a page that begin with a macro, by what follows it. One that is not there is empty."""
    cut = re.split(rf"^\.{macro} (.*)$", page, flags=re.M)
    return collections.defaultdict(str, {plain(head).strip('"'): body for head, body in zip(cut[1::2], cut[2::2])})


def options_in(part):
    """The heads of the options of a part, as --help writes them."""
    return sorted(plain(head) for head in re.findall(r"^\.TP\n(\..*)$", part, re.M) if "\\-" in head)


def written(option):
    letter, value = f"-{option.letter}, " if option.letter else "", f" {option.value}" if option.value else ""
    return f"{letter}--{option.name}{value}"


def says(part, text):
    return text in " ".join(plain(part).split())


def statuses_of_docs(name):
    """The statuses in the table of all programs: those of the rows in which the program's cell is not empty."""
    lines = [line for line in STATUSES.read_text().splitlines() if line.startswith("| ")]
    head, *rows = [[cell.strip() for cell in line.strip()[1:-1].split("|")] for line in lines]
    column = head.index(f"`{name}`")
    return {row[0] for row in rows if row[column]}


def of_page(name):
    program, page = program_of(name), (TOP / f"man/{name}.1").read_text()
    sections = parts_of(page, "SH")
    commands = parts_of(sections["COMMANDS"], "SS")
    yield "the version", version_of(name) in page.split("\n")[0]
    newest = re.search(r"^## ([\d.]+) - \d{4}-\d\d-\d\d$", (TOP / "CHANGELOG.md").read_text(), re.M)
    yield "the version of CHANGELOG.md", newest and newest[1], version_of(name).split()[-1]
    yield "the version of include/rmm.pc", f"Version: {version_of(name).split()[-1]}\n" in (TOP / "include/rmm.pc").read_text()
    yield "what the program is", says(sections["DESCRIPTION"], program.said)
    yield "its subcommands", [it.split()[0] for it in commands], [it.name for it in program.commands]
    yield "its options", options_in(sections["OPTIONS"]), sorted(map(written, program.options))
    for command, (head, part) in zip(program.commands, commands.items()):
        values = [f"[--{it.name} {it.value}]" if it.value else f"[--{it.name}]" for it in command.options if it.name != "help"]
        after = [f"[{command.argument.name}]"] if command.argument else []
        yield f"the head of {command.name}", head, " ".join([command.name, *values, *after])
        yield f"what {command.name} does", says(part, command.said)
        yield f"the options of {command.name}", options_in(part), sorted(map(written, command.options))
        yield f"what the options of {command.name} do", all(says(part, it.said) for it in command.options)
        yield f"the argument of {command.name}", command.argument is None or says(part, command.argument.said)
    statuses = set(re.findall(r"^\.TP\n\.B (\d+)$", sections["EXIT STATUS"], re.M))
    yield f"its statuses {sorted(statuses)}", statuses, statuses_of_docs(name)
    first, *_, last = [it.name for it in program.commands if it.name != "help"]
    folder = {"given": None, "stdin": os.open(TOP, os.O_RDONLY)}
    for words, how in ([], {}), (["--help"], {}), ([last], {"given": "?"}), ([first], folder):
        status, _ = printed([TOP / "bin" / name, *words], **how)
        yield f"status {status} of {words}", str(status) in statuses
    yield from of_examples(sections)


def of_examples(sections):
    examples = re.findall(r"^\$ (.*)$", plain(sections["EXAMPLES"]), re.M)
    yield "that it has examples", bool(examples)
    for line in examples:
        status, out = printed(["bash", "-o", "pipefail", "-c", f'PATH="{TOP}/bin:$PATH"; {line}'])
        yield f"the example {line}", status == 0 and out != ""


def entries_of(document, head):
    """The code spans in the first column of the table of a document that begins with this head."""
    lines = (TOP / "docs/reference" / document).read_text().splitlines()
    first = next(at for at, line in enumerate(lines) if line.startswith(f"| {head} |"))
    rows = itertools.takewhile(lambda line: line.startswith("|"), lines[first + 2 :])
    return {span for row in rows for span in re.findall(r"`([^`]+)`", row.split("|")[1])}


def of_format(name):
    page = (TOP / f"man/{name}.5").read_text()
    sections = parts_of(page, "SH")
    yield "the version", version_of(name.split("-")[0]) in page.split("\n")[0]
    for part, (document, head, is_whole) in LISTS[name].items():
        entry = (lambda it: it) if is_whole else (lambda it: it.split()[0])
        listed = {entry(plain(it)) for it in re.findall(r"^\.T[PQ]\n(\..*)$", sections[part], re.M)}
        wanted = {entry(it) for it in entries_of(document, head)}
        yield f"its {part}, where {document} differs by {sorted(listed ^ wanted)}", listed, wanted
    yield from of_examples(sections)


def of_form(page):
    for words in ["mandoc", "-T", "lint", "-W", "warning"], ["groff", "-man", "-Tutf8", "-ww", "-z"]:
        if shutil.which(words[0]):
            status, out = printed([*words, f"man/{page}"])
            # That a page above is not installed is nothing of the page.
            found = [line for line in out.splitlines() if "referenced manual not found" not in line]
            yield f"what {words[0]} says: {found}", not found


# ---- completions


def asked_of(name):
    """Lines to complete, and what each can be completed with: words of --help alone."""
    program, made = program_of(name), module_of(TOP / "tools/completions")
    yield [], {it.name for it in program.commands} | set(made.words_of(program.options))
    for command in program.commands:
        named = set(made.others(program, command)) if command.name == "help" else set()
        yield [command.name], set(made.words_of(command.options)) | named
        for option in (it for it in command.options if it.value in made.VALUES):
            yield [command.name, f"--{option.name}"], set(made.VALUES[option.value].split())


def by_bash(name, words, begun):
    asked = f"COMP_WORDS=({' '.join([name, *words])} '{begun}'); COMP_CWORD={len(words) + 1}; _{name}"
    return set(printed(["bash", "-c", f'source completions/{name}.bash; {asked}; echo "${{COMPREPLY[@]}}"'])[1].split())


def by_fish(name, words, is_value):
    """fish offers options if a word begins with their sign."""
    lines = [" ".join([name, *words, begun]) for begun in ("", "-", "--")[: 1 if is_value else 3]]
    asked = "; ".join(f"complete -C '{line}'" for line in lines)
    out = printed(["fish", "--no-config", "-c", f"source completions/{name}.fish; {asked}"])[1]
    return {row.split("\t")[0] for row in out.splitlines()}


def of_completions(name):
    files = {it.name for it in program_of(name).commands if it.argument and it.argument.name == "FILE"}
    for words, wanted in asked_of(name):
        is_file = len(words) == 1 and words[0] in files
        yield f"bash completes {words}", by_bash(name, words, "-" if is_file else ""), wanted
        yield f"bash leaves the file of {words} to the shell", not is_file or by_bash(name, words, "") == set()
        if shutil.which("fish"):
            yield f"fish completes {words}", by_fish(name, words, "0" in wanted), wanted
    if shutil.which("zsh"):
        yield "zsh reads it", printed(["zsh", "-n", f"completions/_{name}"]), (0, "")


# ---- tests


@pytest.mark.parametrize("name", PROGRAMS)
def test_page(check, name):
    check.all(of_page(name))


@pytest.mark.parametrize("name", LISTS)
def test_format(check, name):
    check.all(of_format(name))


@pytest.mark.skipif(not shutil.which("mandoc") and not shutil.which("groff"), reason="there is neither mandoc nor groff")
@pytest.mark.parametrize("page", [*(f"{it}.1" for it in PROGRAMS), *(f"{it}.5" for it in LISTS)])
def test_form(check, page):
    check.all(of_form(page))


@pytest.mark.parametrize("name", PROGRAMS)
def test_completions(check, name):
    check.all(of_completions(name))


def test_stored_completions():
    assert printed([TOP / "tools/completions", "--check"]) == (0, "")
