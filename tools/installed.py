#!/usr/bin/env python3
"""The installed files of the repository's own, and their places: documents, man pages, completions, plans, traces, examples.

    tools/installed.py PREFIX       copies all of it below PREFIX

The documents are those for users. As installed they name and link what is installed: a program without bin/, and `second_rmm`
and `rmm_lines.py` without tests/. Command lines are typed in share/realmhost, as FORMS has them. A path of what is in the
repository alone begins with SOURCES/, and of a link to it the text is left.
"""
import functools
import os
import re
import sys
from pathlib import Path

TOP = Path(__file__).resolve().parent.parent
DOC, SHARE = "share/doc/realmhost/{path}", "share/realmhost/{path}"
# The files that are installed, and their places below PREFIX. Of two that fit, the first one counts.
PLACES = {
    **dict.fromkeys(("README.md", "CHANGELOG.md", "SECURITY.md", "LICENSE", "docs/**/*.*"), DOC),
    **dict.fromkeys(("plans/**/*.*", "traces/**/*.*", "examples/**/*.*", "python/*.py"), SHARE),
    "tests/second_rmm/*.py": "share/realmhost/second_rmm/{path.name}",
    "tests/rmm_lines.py": "share/realmhost/{path.name}",
    "include/*.h": "include/{path.name}",
    "man/*.1": "share/man/man1/{path.name}",
    "man/*.5": "share/man/man5/{path.name}",
    "completions/_*": "share/zsh/site-functions/{path.name}",
    "completions/*.fish": "share/fish/vendor_completions.d/{path.name}",
    "completions/*.bash": "share/bash-completion/completions/{path.stem}",
}
# The documents on the sources, which are not installed.
OF_THE_SOURCES = ("ARCHITECTURE.md", "CALLS.md", "CALLS-HOST.md", "DECISIONS.md", "DEFINITIONS.md", "MUTANTS.md", "PERFORMANCE.md")
PROGRAM = re.compile(r"(?<![\w./-])bin/(?=(realmhost|realmview|rmitrace)\b)")
MODEL = re.compile(r"(?<![\w./-])tests/(?=second_rmm\b|rmm_lines\.py\b)")
# Command lines that have another form with a package.
FORMS = (
    (r"(?m)^\$ make try$", "$ realmview why plans/missing-tables.toml"),
    (r"(?m)^cc -Iinclude (.*) build/lib(\w+)\.a build/lib(\w+)\.a ", r"cc \1 $(pkg-config --cflags --libs \2 \3) "),
    (r"(?m)^cc -Iinclude (.*) build/lib(\w+)\.a ", r"cc \1 $(pkg-config --cflags --libs \2) "),
    (
        r"(?m)^export PKG_CONFIG_PATH=build LD_LIBRARY_PATH=build$",
        'export PKG_CONFIG_PATH="$PWD/../../lib/pkgconfig" LD_LIBRARY_PATH="$PWD/../../lib"',
    ),
)
SOURCES = re.compile(r"(?<![\w./-])(?=(bench|bin|completions|crates|tests|tools)/[\w*`])")
LINK = re.compile(r"\[((?:[^\[\]]|\[[^\]]*\])*)\]\(([^)\s]+)\)")
NOTE = (
    "\n*As installed: type command lines in `share/realmhost`. What begins with SOURCES, or with `make`, needs a clone of the"
    " repository.*\n"
)
# The document that says where share/realmhost is.
OF_PACKAGES = "INSTALL.md"


@functools.cache
def places():
    """Of each file that is installed its place below PREFIX."""
    found = {}
    for pattern, place in PLACES.items():
        for path in (it.relative_to(TOP) for it in sorted(TOP.glob(pattern)) if it.name not in OF_THE_SOURCES and it.is_file()):
            found.setdefault(path, Path(place.format(path=path)))
    return found


@functools.cache
def place_of(path):
    """The place of a file or folder of the repository below PREFIX. None if it is not installed."""
    below = [(place, file.relative_to(path).parts) for file, place in places().items() if file.is_relative_to(path)]
    return Path(*below[0][0].parts[: len(below[0][0].parts) - len(below[0][1])]) if below else None


def target_of(path, target):
    """The file or folder that a link of a document leads to, and the anchor. None if the link is no path."""
    name, _, anchor = target.partition("#")
    is_path = name and not re.match(r"[a-z]+:", target)
    return (Path(os.path.normpath(path.parent / name)), anchor) if is_path else None


def linked(path, target, start=None):
    """The target of a link of an installed document, from `start` or its own folder. Nothing if that is not installed."""
    found = target_of(path, target)
    if found is None:
        return target
    place = place_of(found[0])
    return place and os.path.relpath(place, start or place_of(path).parent) + (f"#{found[1]}" if found[1] else "")


def text_of(path, link=linked):
    """The text of a document as it is installed. `link` gives what a link leads to."""

    def turned(it):
        target = link(path, it[2])
        return f"[{it[1]}]({target})" if target else it[1]

    text = (TOP / path).read_text(encoding="utf-8")
    # (targets are left as they are)
    parts = re.split(r"(\]\([^)\s]+\))", MODEL.sub("", PROGRAM.sub("", LINK.sub(turned, text))))
    text = "".join(part if part.startswith("](") else SOURCES.sub("SOURCES/", part) for part in parts)
    for repository, package in FORMS:
        text = re.sub(repository, package, text)
    title = re.match(r"# .*\n", text)
    return title[0] + NOTE + text[title.end() :] if title and path.name != OF_PACKAGES else text


def bytes_of(path):
    """A file as it is installed."""
    if path.suffix == ".md":
        return text_of(path).encode()
    found = (TOP / path).read_bytes()
    return MODEL.sub("", found.decode()).encode() if path.is_relative_to("tests") else found


def main(prefix):
    for path, place in places().items():
        target = Path(prefix) / place
        target.parent.mkdir(parents=True, exist_ok=True)
        target.write_bytes(bytes_of(path))
        target.chmod(0o644)


if __name__ == "__main__":
    main(*sys.argv[1:])
