"""Lines that show how two values differ: of texts and of lists a diff, in which `-` is expected and `+` came; of outcomes the
parts that are not alike.
"""
import difflib

# The most lines of a difference that are shown, the equal ones around them, and the most characters of what is no text.
MOST_LINES, CONTEXT, MOST_CHARACTERS = 40, 1, 600


def lines_of(it):
    if isinstance(it, bytes):
        it = it.decode(errors="backslashreplace")
    return it.splitlines() if isinstance(it, str) else [f"{item!r}" for item in it]


def is_text(it):
    return isinstance(it, (str, bytes, list))


def shown(it):
    return f"{it!r}" if len(f"{it!r}") <= MOST_CHARACTERS else f"{it!r:.{MOST_CHARACTERS}}.."


def difference(got, wanted):
    """The lines that show how two values differ."""
    if isinstance(got, tuple) and isinstance(wanted, tuple) and len(got) == len(wanted):
        names = getattr(got, "_fields", None) or getattr(wanted, "_fields", None) or range(len(got))
        parts = [(name, one, other) for name, one, other in zip(names, got, wanted) if one != other]
        return [line for name, one, other in parts for line in (f"{name}:", *difference(one, other))]
    ours, theirs = (lines_of(it) if is_text(it) else [] for it in (got, wanted))
    if is_text(got) and is_text(wanted) and ours != theirs and max(len(ours), len(theirs)) > 1:
        # (the first two lines name files)
        found = [f"  {it}" for it in [*difflib.unified_diff(theirs, ours, n=CONTEXT, lineterm="")][2:]]
        return found[:MOST_LINES] + [f"  .. {len(found) - MOST_LINES} more lines"] * (len(found) > MOST_LINES)
    return [f"  got    {shown(got)}", f"  wanted {shown(wanted)}"]


def differing(name, came, *wanted):
    """The difference of an outcome, or none."""
    return None if tuple(came) == wanted else "\n".join([f"{name}:", *difference(came, wanted)])


def same(what, got, wanted):
    """Raises the difference of a value from the wanted one."""
    __tracebackhide__ = True
    if got != wanted:
        raise AssertionError("\n".join([f"{what}:", *difference(got, wanted)]))
