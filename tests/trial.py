"""Tries edits of a crate, several in one check, and reads in the prover's lines what has to be reported of each."""
import collections
import copy
import os
import re
import shutil
import tempfile
import threading
import time

import edits as read
from proving import is_stamped

REFUSED, NOT_REFUSED, BAD_EDIT, NO_VERDICT = "refused", "NOT REFUSED", "BAD EDIT", "NO VERDICT"
Told = collections.namedtuple("Told", "edit kind why")

# Each check is one process.
FLAGS = ["--jobs", "1"]
# The most characters of a line of the prover's that are reported.
LONGEST = 160
# The place in the crate's folder that keeps what these checks prove of it.
KEPT = "out/tried"

# A name that the prover refuses, and what it says after that:
UNPROVED = re.compile(r"\w+ (\S+): (?:not proved|no proof|could not tell)\b(.*)")
# .. if it has nothing against a body but what that calls, or waits for;
BY_OTHERS = re.compile(r"it calls|it passes|it waits for|a call of|depends on|for what it cites")
# .. a goal or a text that it refuses, and where, but for what it leaves unread since that cites a refused text.
FAULT = re.compile(
    r"(?:note: )?((?:\./)?(\S+?):(\d+):\d+: (?:error(?!.*which was rejected)|it is not proved|`search` found no proof).*)"
)
# A text that does not reach the prover.
NOT_COMPILED = re.compile(r"((?:\./)?(\S+?):(\d+):\d+: error\[.*)")
# The place at which a line goes on in the next one: what is no longer there is named first, and described there.
GOES_ON = re.compile(r"\n +(?=has no |is not in scope)")
# A proof's file that does not fit the edited body: it names what is no longer there, or answers what is not asked for.
LOST = "has no field|is not in scope|has no `|was not admitted|could not tell"
LOST_NAME = re.compile(rf"((?:\./)?(\S+?):(\d+):\d+: error.*(?:{LOST}).*)")
NOT_ASKED = re.compile(r"note: ((?:\./)?(\S+?): .* is no name that rattle asks for.*)")


class Check:
    """The report of a check of a crate with edits. `lines` are those that each edited function has in its file, and
    `is_unread` returns of a line whether it says that an edited text could not be read."""

    def __init__(self, ran, lines, is_unread):
        self.said, self.lines = GOES_ON.sub(" ", ran.stdout.rstrip("\n")).split("\n"), lines
        self.is_proved = ran.returncode == 0
        self.unread = [it for it in self.said if is_unread(it)]
        is_refused = ran.returncode == 1 and self.said[-1].startswith("logic=not-proved")
        self.is_verdict = is_refused and not self.unread
        self.unproved, self.faults = self.found(UNPROVED), self.found(FAULT)
        self.not_compiled = self.found(NOT_COMPILED)
        self.misfits = self.found(LOST_NAME) + self.found(NOT_ASKED)

    def found(self, form):
        return [it for it in map(form.match, self.said) if it]

    def is_inside(self, place, edit):
        """Returns whether a place is in the edited function, or in its own folder of proofs."""
        path, line = place[2], int(place[3])
        return path.startswith(folders_of(edit.name)) or path == edit.file and line in self.lines[edit]

    def own_fault(self, edit):
        """Returns the first thing that the prover has against the edited function's own body, or ''.

        Goals are made of a body and of the contracts of what it calls, so that a mutant of a callee leaves them as
        they are: then the function's line blames the callee, and no goal of its own is refused."""
        lines = [it for it in self.unproved if it[1] == edit.name]
        misfits, lost = self.misfits_of(edit), {it.string for it in self.misfits}
        faults = [it for it in self.faults if self.is_inside(it, edit) and it.string not in lost]
        # If an invariant is lost, or the answer of a goal, goals are refused for want of that, whatever the body
        # means. Then only an answer counts that fits its goal's names and yet does not prove it.
        if any(it[2].endswith("/Invariants.antt") for it in misfits):
            faults = []
        elif misfits:
            faults = [it for it in faults if it[2].endswith("/Answers.antt")]
        return faults[0][1] if faults and len(lines) == 1 else ""

    def misfits_of(self, edit):
        """Returns what shows that a file of the function's proof does not fit its edited body."""
        return [it for it in self.misfits if it[2].startswith(folders_of(edit.name))]

    def is_of_edits_alone(self):
        """Returns whether all that is refused is an edited function, or depends on one. If not, nobody knows
        which edit it was. So the callers of the edited functions show in each check that no fault passes on to them."""
        names = {name for edit in self.lines for name in (edit.name, *edit.added)}
        are_told = all(it[1] in names or BY_OTHERS.search(it[2]) for it in self.unproved)
        return are_told and all(any(self.is_inside(it, edit) for edit in self.lines) for it in self.faults)


def folders_of(name):
    """Returns the folders of a function's proof: its own, and that of a function which calls itself."""
    *modules, last = name.split("::")[1:]
    return tuple("/".join(["proofs", *modules, it, ""]) for it in (last, f"+{last}"))


class Trial:
    """A crate whose edits are tried, in a room of its own: a copy of its texts and of what was proved of them. So a
    change of the crate meanwhile does not matter, and no check proves again what another one changed. While it is made,
    no other rt may work in the crate's folder and its libraries'."""

    def __init__(self, toolchain, crate, room):
        self.rt, self.library = toolchain.rt, toolchain.library
        self.room, self.kept, self.printed = room, f"{room}/kept", set()
        # The number of checks, and the time that they took in all.
        self.checks, self.seconds, self.counting = 0, 0.0, threading.Lock()
        self.crate = copy.copy(crate)
        self.crate.folder = f"{room}/crate"
        self.why_not = self.prepare(crate)
        self.sources = None if self.why_not else read.Sources(toolchain, self.crate, self.printed)

    def prepare(self, crate):
        """Proves the crate as it stands, over what its folder out/ keeps, and copies it. Returns why that failed, or
        ''."""
        for library in crate.below():
            if not is_stamped(library, library.rlib):
                return f"its library {library.name} is not proved: see rt check there"
        for part in self.library.PARTS:
            if os.path.isdir(f"{crate.folder}/{part}"):
                shutil.copytree(f"{crate.folder}/{part}", f"{self.crate.folder}/{part}")
        kept = f"{crate.folder}/{KEPT}"
        os.makedirs(kept, exist_ok=True)
        ran = self.timed({}, kept)
        if ran.returncode:
            return "the crate is not proved as it stands: see rt check"
        self.printed.update(re.findall(r"^fn (\S+): proved(?:, may wait)?$", ran.stdout, re.M))
        shutil.copytree(kept, self.kept)
        return ""

    def timed(self, texts, kept):
        """Checks the crate with these texts in place of its own, over what `kept` holds."""
        began = time.monotonic()
        ran = self.rt.checked(self.crate, texts, FLAGS, kept)
        with self.counting:
            self.checks, self.seconds = self.checks + 1, self.seconds + time.monotonic() - began
        return ran

    def check(self, edits):
        """Checks the crate with these edits."""
        texts, lines = self.sources.merged(edits)
        with tempfile.TemporaryDirectory(dir=self.room) as room:
            ran = self.timed(texts, shutil.copytree(self.kept, f"{room}/kept"))
        check = Check(ran, lines, lambda line: self.rt.unread(line, texts))
        # (someone may have built a library anew meanwhile)
        check.is_verdict = check.is_verdict and not self.library.STALE.search(ran.stdout)
        return check

    def tell(self, edits):
        """Tries edits in one check, or in more if that one does not decide. Returns the report of each."""
        check = self.check(edits)
        if check.is_proved:
            return [Told(it, NOT_REFUSED, "the crate is proved with it") for it in edits]
        if len(edits) == 1:
            return [tell_alone(edits[0], check)]
        if not check.is_verdict or not check.is_of_edits_alone():
            return [told for part in parts_of(edits, check) for told in self.tell(part)]
        told = []
        for edit in edits:
            fault = check.own_fault(edit)
            told += [Told(edit, REFUSED, f"{fault[:LONGEST]} (of {len(edits)})")] if fault else self.tell([edit])
        return told


def tell_alone(edit, check):
    """Returns the report of an edit that had a check of its own, in which the crate was not proved."""
    not_read = [it[1] for it in check.not_compiled] + check.unread
    if not_read:
        return Told(edit, BAD_EDIT, f"it does not compile: {not_read[0][:LONGEST]}")
    if not check.is_verdict:
        return Told(edit, NO_VERDICT, f"the check ended so: {check.said[-1][:LONGEST]}")
    fault, misfits = check.own_fault(edit), check.misfits_of(edit)
    if fault:
        return Told(edit, REFUSED, f"{fault[:LONGEST]} (alone)")
    if misfits:
        why = "its proof does not fit it, so this says nothing of the contract: change a value and keep the names"
        return Told(edit, NOT_REFUSED, f"{why}: {misfits[0][1][:LONGEST]}")
    own = [it.string for it in check.unproved if it[1] == edit.name]
    others = [it.string for it in [*check.unproved, *check.faults]]
    if own:
        return Told(edit, NOT_REFUSED, f"not for its own sake: {own[0][:LONGEST]}")
    return Told(edit, NOT_REFUSED, f"{edit.name} is proved, and refused is {others[0][:LONGEST]}")


def parts_of(edits, check):
    """Parts edits whose check did not decide: those that do not compile from the others, or else in halves."""
    bad = [it for it in edits if any(check.is_inside(place, it) for place in check.not_compiled)]
    if bad and len(bad) < len(edits):
        return [[it for it in edits if it not in bad], *([it] for it in bad)]
    return [edits[: len(edits) // 2], edits[len(edits) // 2 :]]
