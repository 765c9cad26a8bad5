"""Files that a tool makes of the sources: it writes them, or says which of the stored ones are others."""
import os
import sys
from pathlib import Path

TOP = Path(__file__).resolve().parent.parent


def run(doc, files, faults=lambda: ()):
    """Writes what `files` gives: of each path its text. With the word --check it prints which of these are others as they are
    stored, and what `faults` finds besides. Returns the status: 1 if anything is printed, and 2 for other words."""
    words, tool = sys.argv[1:], os.path.relpath(os.path.realpath(sys.argv[0]), TOP)
    if words not in ([], ["--check"]):
        print(doc.split("\n\n", 1)[1], end="", file=sys.stderr)
        return 2
    try:
        made = dict(files())
    except LookupError as it:
        print(it)
        return 1
    if not words:
        for path, text in made.items():
            path.parent.mkdir(exist_ok=True)
            path.write_text(text, encoding="utf-8")
        return 0
    differing = [path for path, text in made.items() if not path.is_file() or path.read_text(encoding="utf-8") != text]
    found = [*(f"{path.relative_to(TOP)} is not what {tool} writes" for path in differing), *faults()]
    for it in found:
        print(it)
    return 1 if found else 0
