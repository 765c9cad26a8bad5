"""Properties of the programs' answers to any bytes, for inputs whose text is not known.

The answers to one plan are compared with one another: `findings` runs it, leaves a build out, and runs what was accepted alone.
"""
import re
import tomllib

from programs import plan_of

TURNS = re.compile(rb"order = \[[^]]*\]")
REFUSED = re.compile(rb"plan (20 syntax|21 key|22 step [0-7] \d{1,4}|23 order \d{1,5}|24 limit)\n")
FREE = re.compile(rb"free (\d+)\n")


def map_of(text):
    """The lines of a text that are those of no turn."""
    return [line for line in text.splitlines(keepends=True) if b" = " not in line and not line.endswith(b" - idle\n")]


def is_of(build, line):
    return line.startswith(b"%d " % build)


def without(build, lines):
    """A map without a build: its lines are gone, and its pages are free."""
    pages = sum(line.startswith(b"%d page " % build) for line in lines)
    free = int(FREE.fullmatch(lines[-1])[1])
    return b"".join(line for line in lines[:-1] if not is_of(build, line)) + b"free %d\n" % (free + pages)


def accepted_alone(plan, text):
    """A plan without the steps that were refused and without their turns, and the text that its run has to have."""
    keys, lines = tomllib.loads(plan.decode()), text.decode().splitlines()
    order, told, steps = [], [], [[] for _ in keys.pop("build")]
    is_underway = [False] * len(steps)
    for build, line in zip(keys.pop("order", []), lines):
        step, _, answer = line[2:].partition(" = ")
        if answer.startswith("no "):
            continue
        if answer and not is_underway[build]:
            steps[build].append(step)
        # An abort and a way back stay the build's step until they are done.
        is_underway[build] = step in ("abort", "back") and answer.startswith("ok ")
        order.append(build)
        told.append(f"{line}\n".encode())
    return plan_of(steps, **keys, order=order), b"".join([*told, *map_of(text)])


def fault_of_a_replay(status, out, err):
    """There is a text that ends with its map, or nothing but one line on standard error."""
    if status == 1:
        return not REFUSED.fullmatch(err) or out != b""
    return status != 0 or err != b"" or not FREE.fullmatch(out[out.rfind(b"free ") :])


def fault_of_an_erasure(replayed, erased, build):
    """Leaving a build out takes its lines from the map and frees its pages, and changes nothing else."""
    if replayed[0] == 1:
        return erased != replayed
    if erased == (2, b"", b"erase names no build\n"):
        return any(is_of(build, line) for line in replayed[1].splitlines())
    return erased != (0, without(build, map_of(replayed[1])), b"")


def fault_of_threads(replayed, ran):
    """There is a text that ends with its audit, and a build that was refused has no line of the map: it has cleared itself."""
    if replayed[0] == 1:
        return ran != replayed
    status, out, err = ran
    refused = {line[:1] for line in out.splitlines() if b" = no " in line}
    return status != 0 or err != b"" or not out.endswith(b"\naudit ok\n") or any(line[:1] in refused for line in map_of(out))


# A finding: its line, its column, and `error` or `warning`.
FINDING = re.compile(r"plan:(\d+):(\d+): (error|warning): (.+)\n")
# A line below the carets of a finding.
NOTE = re.compile(r"(help: |note: |    ).*\n")
# The number of bytes of a line that are shown on either side of a place; two fewer if some are left out.
SHOWN = 80


def cut_lines(text):
    """The line of each place as it is shown, and how much of it may be before and above the carets below it."""

    def plain(part):
        return bytes(0x20 if byte < 0x20 or byte == 0x7F else byte for byte in part).decode(errors="replace")

    def shown(line, column):
        # (columns count characters, and what is no UTF-8 counts as it does in the text)
        row = text.split(b"\n")[line - 1]
        starts = [at for at, byte in enumerate(row) if byte & 0xC0 != 0x80] + [len(row)]
        front, back = row[: starts[column - 1]], row[starts[column - 1] :]
        if len(front) > SHOWN:
            front = b".." + front[2 - SHOWN :]
        if len(back) > SHOWN:
            back = back[: SHOWN - 2] + b".."
        return f"{plain(front)}{plain(back)}\n", len(plain(front)), len(plain(back))

    return shown


def size_of(plan):
    """The line that has the size of a plan."""
    keys = tomllib.loads(plan.decode().removeprefix("\ufeff"))
    counts = len(keys["build"]), sum(len(it["steps"]) for it in keys["build"]), len(keys.get("order", []))
    nouns = ("build", "step", "turn")
    return "plan: " + ", ".join(f"{count} {noun}{'s' if count != 1 else ''}" for count, noun in zip(counts, nouns)) + "\n"


def fault_of_a_check(plan, replayed, checked):
    """The fault of a check of a plan, or none: it has an error exactly if a replay has the fault of a plan, it ends with the
    plan's size if there is none, and each place lies inside the text and is shown."""
    status, out, err = checked
    is_fault = replayed[0] == 1 and REFUSED.fullmatch(replayed[2]) is not None
    if (status, err) != (1 if is_fault else 0, b""):
        return f"status {status} and {err!r}, where a replay has {replayed[0]} and {replayed[2]!r}"
    shown, lines = cut_lines(plan), [f"{line}\n" for line in out.decode().split("\n")[:-1]]
    if not is_fault and lines.pop() != size_of(plan):
        return "another size of the plan"
    if is_fault and not lines:
        return "no line"
    places = []
    while lines:
        if len(lines) < 3 or not (at := FINDING.fullmatch(lines[0])) or at[3] != ("error" if is_fault else "warning"):
            return f"the lines {lines[:3]!r}"
        line, column = int(at[1]), int(at[2])
        if not 1 <= line <= plan.count(b"\n") + 1:
            return f"the line {lines[0]!r}"
        row, before, most = shown(line, column)
        carets = lines[2][before:-1]
        if lines[1] != row or lines[2][:before].strip() or carets.strip("^") or not 1 <= len(carets) <= max(most, 1):
            return f"{lines[0]!r} shows {lines[1]!r} and {lines[2]!r}"
        places.append((line, column))
        del lines[:3]
        while lines and NOTE.fullmatch(lines[0]):
            del lines[0]
    return None if places == sorted(places) else "the places are in no order"


def findings(ask, plan, build):
    """The answers to a plan that are wrong. `ask(words, plan)` answers status, standard output and standard error."""
    erase = (b"replay", b"--erase", b"%d" % build)
    replayed, erased, ran = (ask(words, plan) for words in ((b"replay",), erase, (b"run",)))
    if fault_of_a_replay(*replayed):
        yield "replay", replayed
        return
    if replayed[0] == 0:
        accepted, text = accepted_alone(plan, replayed[1])
        again = ask((b"replay",), accepted)
        if again != (0, text, b""):
            yield f"a replay of its accepted steps, {accepted!r},", again
    if fault_of_an_erasure(replayed, erased, build):
        yield f"replay --erase {build}", erased
    if fault_of_threads(replayed, ran):
        yield "run", ran
