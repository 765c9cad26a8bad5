#!/usr/bin/env python3
"""Measures of how the documents read, *.md here, below docs/ and in examples/, and the comments of each crate's src/ and specs/.

  paragraph  has at most 70 words; an item of a list is a paragraph, and so is a cell of a table
  sentence   has at most 30 words; it ends with a full stop, a question mark or an exclamation mark before a space
  spans      a paragraph has at most four code spans (cells of tables may have more)
  columns    a line has at most 120, the targets of its links not counted; tables and blocks of code may be wider
  phrase     none of PHRASES is used: each has a better one beside it
  opening    the first paragraph of a document does not begin with a question word

A code span is one word. Blocks of code, headings and pictures are not read. Of a crate, `sentence`, `phrase` and
`opening` are counted: the first comment of each of its files is an opening.

README.md has bounds of its own: its lines, its words outside of blocks of code, the line of its first command, the
height of its pictures. Each term of GLOSSARY.md is linked to its entry where README.md uses it first, and each
abbreviation in README.md is a term of the glossary, or one of KNOWN. docs/README.md links every file below docs/.

tests/prose.txt has, for each document or crate that is not clean, how many findings of each kind it may have. One that
has no line there has to be clean. The numbers can only fall.

tests/test_prose.py holds documents and crates against these bounds. As a program:

    tests/prose.py --list FILE  prints each finding of a document, or of a crate: crates/NAME
    tests/prose.py --lower      writes lower numbers into tests/prose.txt, and never a higher one

It cannot see whether a sentence is true, clear or needed, whether a word means the term that it is spelled like, or
whether two sentences say the same. Nor does it find every use of a word that PHRASES replaces: an order of turns is a
schedule, an order of a block is not.
"""
import collections
import re
import sys
from pathlib import Path

TOP = Path(__file__).resolve().parent.parent
README, GLOSSARY, INDEX = TOP / "README.md", TOP / "docs/reference/GLOSSARY.md", TOP / "docs/README.md"
COUNTS = TOP / "tests/prose.txt"
WORDS_OF_A_PARAGRAPH, WORDS_OF_A_SENTENCE, SPANS, COLUMNS = 70, 30, 4, 120
README_LINES, README_WORDS, README_COMMAND, PIXELS = 150, 900, 25, 320
GLOSSARY_TERMS, INDEX_LINES = 30, 60
# Abbreviations that readers of README.md know, or that mean something there that is not here.
KNOWN = set("CCA CPU HTML JSON KVM LLVM PATH QEMU TF TOML VM FEATURES LICENSE PSCI RSI VERSION".split())
# A phrase, and what to write in its place.
PHRASES = {
    r"\b(stands?|standing|stood) on\b": "depends on",
    r"\b(stands?|standing|stood) (in|at|there|below|above|beside|behind|before|for)\b": "is in, is below, means",
    r"\b(stands?|stood) after\b": "follows",
    r"\b(tells?|telling|told)\b": "prints, reports, returns, says, distinguishes",
    r"(?<!nothing )\bbehind\b(?! (a|the|one|this) (lock|mutex))": "after",
    r"\b(lends?|lent)\b": "borrows, returns a reference",
    r"\b(has|have|had) room for\b": "has capacity for",
    r"\bwants\b|\bis wanted\b": "requires, expects",
    r"\b(a|the|its|one|each|no|first|last|of|two) looks?\b|\blooks whether\b": "check",
    r"\bdesks?\b": "view",
    r"\b(picks|picked|picking)\b": "allocates, the allocator's choice",
    r"\bacts?\b": "operation",
    r"\bwrong bod(y|ies)\b": "mutant",
    r"\blaws?\b": "theorem",
    r"\bone text\b": "injective, unique",
    r"\bno trace\b": "leaves nothing behind, noninterference",
    r"\bbooks\b": "ledger",
    r"\borders\b|\border of (its |the |a |all )?(\w+' )?turns\b": "schedule",
    r"(?<!test )\bbench(es)?\b": "model, simulator; test bench",
    r"\b(what|whatever) (comes|came) (out )?of\b|\bas it is answered here\b": "the result, our answer",
    r"(?<!Management )\b[Mm]onitors?\b": "RMM",
    r"\b(owes?|owed|owing)\b": "has to, an obligation",
    r"^Who [^?]*$": "whoever; or name the subject",
    r"^Where [^?]*$": "if, when",
}
KINDS = ("paragraph", "sentence", "spans", "columns", "phrase", "opening")
KINDS_OF_COMMENTS = ("sentence", "phrase", "opening")
# A piece of prose: the number of its first line, what it is, and its text. A source line is a piece too, of kind `line`.
Piece = collections.namedtuple("Piece", "number kind text")
Finding = collections.namedtuple("Finding", "kind number said")


# ---- the pieces of a document


def pieces_of(text):
    """The paragraphs, items, cells, headings and source lines of a document, and its blocks of code."""
    found, begun, fence, is_list = [], None, None, False
    for number, line in enumerate([*text.split("\n"), ""], 1):
        bare = line.lstrip("> ").rstrip()
        item = re.match(r"\s*(?:[-*]|\d+\.) +(?=\S)", line)
        if fence is not None or line.startswith("```"):
            is_end = fence is not None and line.startswith("```")
            begun, fence = None, None if is_end else "code"
            found.append(Piece(number, "code", line))
            continue
        is_code = line.startswith("    ") and begun is None and not is_list
        kind = "code" if is_code else "row" if line.startswith("|") else "heading" if line.startswith("#") else None
        kind = kind or ("other" if bare.startswith(("<", "![")) else "item" if item else "paragraph" if bare else None)
        if kind in (None, "code", "row", "heading", "other"):
            begun = None
            is_list = is_list and kind is None
            found += [Piece(number, kind, line)] if kind else []
        elif kind == "item" or begun is None:
            begun, is_list = len(found), kind == "item" or is_list
            found.append(Piece(number, kind, line[item.end() :] if item else bare))
        else:
            found[begun] = found[begun]._replace(text=f"{found[begun].text} {bare.strip()}")
        if kind not in ("row", "code", None):
            found.append(Piece(number, "line", line))
    return found


def cells_of(row):
    """The cells of a row of a table, but for the row below the head."""
    cells = [it.strip() for it in re.split(r"(?<!\\)\|", row.strip().strip("|"))]
    return [] if all(re.fullmatch(r":?-+:?", it) for it in cells) else cells


def read(text):
    """A text without the targets of links, pictures and marks; each code span is one word."""
    text = re.sub(r"!\[[^\]]*\]\([^)]*\)", "", text)
    text = re.sub(r"`[^`]+`", "X", text)
    text = re.sub(r"\[([^\]]*)\]\([^)]*\)", r"\1", text)
    return re.sub(r"[*_]{1,2}(?=\S)|(?<=\S)[*_]{1,2}", "", text)


def sentences_of(text):
    return [it for it in re.split(r"(?<![.\s])[.?!][\"')]*\s+", read(text)) if it.strip()]


def words_of(text):
    return [it for it in read(text).split() if re.search(r"\w", it)]


# ---- what every document keeps


def of_text(piece, text, is_cell=False):
    """The findings of a paragraph, an item or a cell."""
    words, spans = len(words_of(text)), len(re.findall(r"`[^`]+`", text))
    if words > WORDS_OF_A_PARAGRAPH:
        yield Finding("paragraph", piece.number, f"{words} words")
    if spans > SPANS and not is_cell:
        yield Finding("spans", piece.number, f"{spans} code spans")
    for sentence in sentences_of(text):
        length = len(sentence.split())
        if length > WORDS_OF_A_SENTENCE:
            yield Finding("sentence", piece.number, f"{length} words: {' '.join(sentence.split()[:8])} ..")
        for phrase, better in PHRASES.items():
            for hit in re.finditer(phrase, sentence):
                said = hit[0] if len(hit[0]) < 30 else f"{hit[0][:30]}.."
                yield Finding("phrase", piece.number, f"`{said}`; better: {better}")


def findings_in(path):
    """The findings of a document, or those of a crate's comments."""
    if not path.is_dir():
        yield from findings_of(path.read_text(encoding="utf-8"))
        return
    for file in [*sorted(path.glob("src/**/*.rt")), *sorted(path.glob("specs/**/*.antt"))]:
        for it in findings_of(comments_of(file)):
            if it.kind in KINDS_OF_COMMENTS:
                yield it._replace(number=f"{file.relative_to(path)}:{it.number}")


def comments_of(file):
    """The comments of a source, each on its line, and an empty line for each other one."""
    marked = re.compile(r"\s*//[/!]? ?(.*)" if file.suffix == ".rt" else r"\s*-- ?(?!-)(.*)")
    hits = (marked.fullmatch(line) for line in file.read_text(encoding="utf-8").split("\n"))
    return "\n".join(hit[1] if hit else "" for hit in hits)


def findings_of(text):
    is_first = True
    for piece in pieces_of(text):
        if piece.kind == "row":
            for cell in cells_of(piece.text):
                yield from of_text(piece, cell, True)
        elif piece.kind in ("paragraph", "item"):
            if is_first and re.match(r"(What|Where|Who|How|Why|When|Whether|Which)\b", read(piece.text)):
                yield Finding("opening", piece.number, f"begins with {piece.text.split()[0]}: write a noun phrase")
            is_first = False
            yield from of_text(piece, piece.text)
        elif piece.kind == "line":
            length = len(re.sub(r"\]\([^)]*\)", "]", piece.text))
            if length > COLUMNS:
                yield Finding("columns", piece.number, f"{length} columns")


def documents():
    return [*sorted(TOP.glob("*.md")), *sorted(TOP.glob("docs/**/*.md")), *sorted(TOP.glob("examples/*.md"))]


def names():
    """The names of all documents and crates."""
    return [str(it.relative_to(TOP)) for it in [*documents(), *crates()]]


def crates():
    return sorted(it.parent for it in TOP.glob("crates/*/src"))


def counted(path):
    return collections.Counter(it.kind for it in findings_in(path))


# ---- the counts


def stored():
    """Of each document or crate in tests/prose.txt, how many findings of each kind it may have."""
    found = {}
    for line in COUNTS.read_text(encoding="utf-8").splitlines() if COUNTS.exists() else []:
        if line and not line.startswith("#"):
            name, _, counts = line.partition(": ")
            pairs = (it.split() for it in counts.split(", "))
            found[name] = collections.Counter({kind: int(count) for kind, count in pairs})
    return found


def of_counts(name):
    """For each kind of finding, the fault of the count of a document or crate, or none."""
    found, bound = list(findings_in(TOP / name)), stored().get(name, {})
    for kind in KINDS:
        them, may = [it for it in found if it.kind == kind], bound.get(kind, 0)
        said = f"{name}: {kind}: {len(them)} findings, and {may} are in tests/prose.txt"
        listed = "".join(f"\n  {name}:{it.number}: {it.said}" for it in them)
        yield f"{said}:{listed}" if len(them) > may else f"{said}: tests/prose.py --lower" if len(them) < may else None


def of_stored(names):
    """For each name in tests/prose.txt that is no document and no crate, that it is not there."""
    for name in sorted(set(stored()) - set(names)):
        yield f"tests/prose.txt has {name}, which is not there: tests/prose.py --lower"
    yield "README.md is in tests/prose.txt: it has to be clean" if "README.md" in stored() else None


HEAD = """\
# How many findings of each kind a document or a crate may have: tests/prose.py. One that is not here has none.
# `tests/prose.py --lower` writes this file. It never raises a number.
"""


def lower():
    allowed, lines = stored(), []
    for path in [*documents(), *crates()]:
        name, found = str(path.relative_to(TOP)), counted(path)
        bounds = allowed.get(name, {})
        kept = {kind: min(found[kind], bounds.get(kind, 0)) for kind in KINDS}
        if any(kept.values()):
            lines.append(f"{name}: " + ", ".join(f"{kind} {count}" for kind, count in kept.items() if count) + "\n")
    COUNTS.write_text(HEAD + "".join(lines), encoding="utf-8")


# ---- README.md, the glossary and the index


def of_readme():
    """The faults of README.md by its bounds, or none for each."""
    text = README.read_text(encoding="utf-8")
    lines, inside = text.rstrip("\n").split("\n"), re.sub(r"^```.*?^```$", "", text, flags=re.M | re.S)
    yield f"README.md has {len(lines)} lines, more than {README_LINES}" if len(lines) > README_LINES else None
    words = len(re.sub(r"[|#*`>-]", " ", inside).split())
    yield f"README.md has {words} words, more than {README_WORDS}" if words > README_WORDS else None
    first = next((number for number, line in enumerate(lines, 1) if line.startswith("$ ")), len(lines))
    yield f"README.md has its first command on line {first}, after {README_COMMAND}" if first > README_COMMAND else None
    for tag in re.findall(r"<img [^>]*>|!\[[^\]]*\]\([^)]*\)", text):
        height = re.search(r'height="(\d+)"', tag)
        is_low = height and int(height[1]) <= PIXELS
        yield None if is_low else f"README.md shows a picture without a height of at most {PIXELS}: {tag}"


def terms():
    """The terms of the glossary: of each heading the anchor and its forms."""
    headings = re.findall(r"^### (.*)$", GLOSSARY.read_text(encoding="utf-8"), re.M)
    anchor = lambda it: re.sub(r"[^\w\- ]", "", it.lower()).replace(" ", "-")
    return {anchor(heading): [re.sub(r"[`*]", "", it).strip() for it in heading.split(",")] for heading in headings}


def forms_of(word):
    """A pattern for a term and its plural or its tenses."""
    stem = re.escape(word[:-1] if word.endswith("e") else word)
    tail = r"e(?:s|d)?|ing" if word.endswith("e") else r"(?:e?s|ed|ing)?"
    first = f"[{word[0].upper()}{word[0].lower()}]" if word[1:].islower() else re.escape(word[0])
    return rf"(?<![\w-]){first}{stem[len(re.escape(word[0])):]}(?:{tail})(?![\w-])"


def of_terms():
    """The faults of README.md's first use of a term, and of its abbreviations, or none for each."""
    known = terms()
    yield f"the glossary has {len(known)} terms, more than {GLOSSARY_TERMS}" if len(known) > GLOSSARY_TERMS else None
    prose = [it.text for it in pieces_of(README.read_text(encoding="utf-8")) if it.kind in ("paragraph", "item", "row")]
    text = re.sub(r"`[^`]+`", lambda it: "`" * len(it[0]), "\n".join(prose))
    links = [(it.start(1), it.end(1), it[2]) for it in re.finditer(r"\[([^\]]*)\]\(([^)]*)\)", text)]
    # Targets of links are no text.
    bare = re.sub(r"\]\([^)]*\)", lambda it: " " * len(it[0]), text)
    for anchor, forms in known.items():
        hits = [it for form in forms for it in re.finditer(forms_of(form), bare)]
        hit = min(hits, key=lambda it: it.start(), default=None)
        target = f"docs/reference/GLOSSARY.md#{anchor}"
        is_linked = hit and any(begin <= hit.start() and hit.end() <= end and to == target for begin, end, to in links)
        yield None if is_linked or not hit else f"README.md uses `{hit[0]}` first without a link to {target}"
    words = {form for forms in known.values() for form in forms} | KNOWN
    for short in sorted(set(re.findall(r"(?<![\w-])[A-Z]{2,}(?!\w)", re.sub(r"[A-Z-]+\.md", "", bare)))):
        yield None if short in words else f"README.md has {short}, which is neither in the glossary nor in KNOWN"


def of_index():
    text = INDEX.read_text(encoding="utf-8")
    linked = {(INDEX.parent / it.split("#")[0]).resolve() for it in re.findall(r"\]\(([^)]+)\)", text)}
    for path in sorted(it for it in INDEX.parent.rglob("*.*") if it.parent.name != "pictures" and it != INDEX):
        yield None if path in linked else f"docs/README.md does not link {path.relative_to(TOP)}"
    lines = len(text.rstrip("\n").split("\n"))
    yield f"docs/README.md has {lines} lines, more than {INDEX_LINES}" if lines > INDEX_LINES else None


def main(words):
    if words == ["--lower"]:
        lower()
    elif len(words) == 2 and words[0] == "--list":
        for it in sorted(findings_in(Path(words[1])), key=lambda it: (str(it.number).partition(":")[0], it.number)):
            print(f"{words[1]}:{it.number}: {it.kind}: {it.said}")
    else:
        print(__doc__.split("\n\n", 1)[1], end="", file=sys.stderr)
        return 2
    return 0


if __name__ == "__main__":
    sys.exit(main(sys.argv[1:]))
