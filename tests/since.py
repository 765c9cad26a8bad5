"""The crates that have changed since a commit, and the edits of the crates above them that name what changed."""
import os
import re
import subprocess
import tempfile

# The folders that a check of a crate reads.
PARTS = ("src", "specs", "proofs", "must-fail", "mutants")
# The head of an item that is no function.
ITEM = re.compile(r"^\s*(?:pub(?:\(\w+\))? )?(?:struct|enum|trait|type|const|macro_rules!) (\w+)", re.M)


def git(*words):
    """Returns what git says, or raises LookupError with why it does not."""
    ran = subprocess.run(["git", *words], capture_output=True, text=True, errors="replace")
    if ran.returncode:
        raise LookupError(ran.stderr.strip())
    return ran.stdout


def changed_files(commit):
    """Returns the files that differ from those of the commit, new ones too."""
    new = git("ls-files", "--others", "--exclude-standard")
    return sorted({*git("diff", "--name-only", commit, "--").split("\n"), *new.split("\n")} - {""})


def listed(text):
    """Returns the line of each crate in a crates.txt."""
    rows = [line.split("#")[0].partition(":") for line in text.split("\n")]
    return {head.split()[0]: " ".join(rest.split()) for head, _, rest in rows if head.split()}


def changed_crates(commit, crates):
    """Returns the names of the crates that have changed: in a file that a check reads, or in the libraries they name."""
    files = changed_files(commit)
    before, now = listed(git("show", f"{commit}:crates.txt")), listed(open("crates.txt", encoding="utf-8").read())
    changed = {name for name in now if before.get(name) != now[name]}
    for crate in crates:
        parts = tuple(f"crates/{crate.name}/{part}/" for part in PARTS)
        if any(it.startswith(parts) for it in files):
            changed.add(crate.name)
    return changed


def items_of(toolchain, text):
    """Returns the text of each function and of the lines that begin another item, by name."""
    with tempfile.TemporaryDirectory() as room:
        with open(f"{room}/read.rt", "w", encoding="utf-8") as it:
            it.write(text)
        source = toolchain.reader.Source(room, follows=False)
        source.read("read.rt")
    found = {(it.owner, it.name): source.data["read.rt"][it.first : it.end] for it in source.functions}
    return {**found, **{("", it[1]): it[0] for it in ITEM.finditer(text)}}


def changed_names(toolchain, commit, crate):
    """Returns the names of the functions and types of a crate that are others than at the commit."""
    names, files = set(), [it for it in changed_files(commit) if it.startswith(f"crates/{crate.name}/src/")]
    for file in files:
        is_old = subprocess.run(["git", "cat-file", "-e", f"{commit}:{file}"], stderr=subprocess.DEVNULL).returncode == 0
        before = items_of(toolchain, git("show", f"{commit}:{file}")) if is_old else {}
        now = items_of(toolchain, open(file, encoding="utf-8").read()) if os.path.exists(file) else {}
        names |= {name for key in {*before, *now} if before.get(key) != now.get(key) for name in key[1:]}
    return names


def names_one(path, names):
    """Returns whether an edit has one of the names in its text."""
    with open(path, encoding="utf-8") as it:
        return bool(names & set(re.findall(r"\w+", it.read())))


def touched(toolchain, commit, crates, edits_of):
    """Returns the names of the crates that have changed, and of those above them an edit of which names what changed."""
    changed = changed_crates(commit, crates)
    names = {it.name: changed_names(toolchain, commit, it) for it in crates if it.name in changed}
    found = set(changed)
    for crate in crates:
        below = set().union(*(names.get(it.name, set()) for it in crate.below()))
        if any(names_one(path, below) for path in edits_of(crate)):
            found.add(crate.name)
    return found
