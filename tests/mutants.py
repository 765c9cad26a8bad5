#!/usr/bin/env python3
"""The edits of the crates: mutants, each of which the prover has to refuse. Several share a check.

    tests/mutants.py [--jobs N] [--since COMMIT] [CRATE ..]        of these crates (all)

The edits are those of crates/NAME/must-fail/ and crates/NAME/mutants/. Each gets one line:
  refused      the prover refuses that very function for its own sake
  NOT REFUSED  it does not: the body may be right, or the contract too weak
  BAD EDIT     it changes more than one function's body, or it does not compile
  NO VERDICT   the prover did not say
The last line is `edits: N passed, M failed`. The status is 0 if none failed, 1 if one did, and 2 if none was
tried. Of the repository only folders out/ are written.

With --since, only the crates that have changed since a commit are tried, and those above them an edit of which names a
function or a type that has changed. With --planted, the edits of tests/planted/NAME/ are tried beside the crate's own, in
the same checks. They keep the meaning, or are bad, and the line `told: ..` of each is the report that it has to get. The last
line then counts those.
"""
# The planted edits are tried again at each change of this tool and of the toolchain: what is said here is read in the
# prover's lines, and nothing else would show that it reads them rightly.
import argparse
import collections
import os
import re
import resource
import sys
import tempfile
from concurrent.futures import FIRST_COMPLETED, ThreadPoolExecutor, wait

TOP = os.path.dirname(os.path.dirname(os.path.realpath(__file__)))
sys.dont_write_bytecode = True
sys.path.append(f"{TOP}/tools")
import edits as read
from proving import libraries_of, prove_all, read_statements
from since import touched
from toolchain import Toolchain
from trial import BAD_EDIT, NO_VERDICT, REFUSED, Told, Trial


def planted_of(name):
    """Returns what has to be said of each planted edit of a crate, by its path."""
    wanted = {}
    for path in read.paths_of(f"{TOP}/tests/planted/{name}"):
        with open(path, encoding="utf-8") as it:
            found = re.search(r"^told: (.*)$", it.read(), re.M)
        wanted[path] = found[1] if found else "(it has no line told:)"
    return wanted


def edits_of(crate):
    """Returns the paths of a crate's own edits."""
    return [path for folder in read.FOLDERS for path in read.paths_of(f"{crate.folder}/{folder}")]


def chosen(toolchain, given):
    """Returns the crates that are asked for, the highest first: their checks are the longest."""
    crates = toolchain.crates(TOP)
    known = [it.name for it in crates]
    for name in given.crates:
        if name not in known:
            raise LookupError(f"there is no crate {name}: there are {', '.join(known)}")
        if given.planted and not planted_of(name):
            raise LookupError(f"no edits of {name} are planted: there is no tests/planted/{name}/*.edit")
    names = given.crates or known
    if given.since:
        names = touched(toolchain, given.since, crates, edits_of) & set(names)
    has_some = lambda it: planted_of(it.name) if given.planted else edits_of(it)
    return [it for it in reversed(crates) if it.name in names and has_some(it)]


class Work:
    """The edits of a crate, and the checks in which they are tried."""

    def __init__(self, toolchain, crate, paths, room):
        self.crate, self.paths, self.bad, self.rounds = crate, paths, [], []
        os.mkdir(room)
        self.trial = Trial(toolchain, crate, room)
        if self.trial.why_not:
            self.bad = [Told(read.Edit(crate.name, path), NO_VERDICT, self.trial.why_not) for path in paths]
            return
        edits = [self.trial.sources.edit(path) for path in paths]
        self.bad = [Told(it, BAD_EDIT, it.why_bad) for it in edits if it.why_bad]
        self.rounds = read.rounds_of([it for it in edits if not it.why_bad])

    def spent(self):
        return f"{len(self.paths)} edits, {self.trial.checks} checks of {self.trial.seconds:.0f} s in all"


def try_crates(toolchain, crates, wanted, jobs):
    """Tries the edits of crates side by side, and yields what is said of each crate's, as soon as it and those before it are
    done: the work, and the verdicts."""
    with tempfile.TemporaryDirectory(prefix="mutants-") as room, ThreadPoolExecutor(jobs) as pool:
        # (the planted ones first, so that each shares its check with as many others as can be)
        make = lambda it: Work(toolchain, it, [*wanted[it.name], *edits_of(it)], f"{room}/{it.name}")
        # Until these are closed, no other rt works in the crates' folders.
        held = toolchain.library.lock([*libraries_of(crates), *crates])
        left, tried = list(crates), collections.deque()
        made = {pool.submit(make, left.pop(0)) for _ in range(min(jobs, len(left)))}
        try:
            while made:
                done, made = wait(made, return_when=FIRST_COMPLETED)
                for work in [it.result() for it in done]:
                    # its edits come before the next crate
                    tried.append((work, [pool.submit(work.trial.tell, it) for it in work.rounds]))
                    if left:
                        made.add(pool.submit(make, left.pop(0)))
                while tried and all(it.done() for it in tried[0][1]):
                    yield verdicts_of(*tried.popleft())
        finally:
            for it in held:
                os.close(it)
        for work, checks in tried:
            yield verdicts_of(work, checks)


def verdicts_of(work, checks):
    return work, work.bad + [told for it in checks for told in it.result()]


def try_all(toolchain, crates, is_planted, jobs):
    """Tries the edits of crates. Returns how many passed and how many did not, of their own and of the planted."""
    own, planted = collections.Counter(), collections.Counter()
    wanted = {it.name: planted_of(it.name) if is_planted else {} for it in crates}
    for work, verdicts in try_crates(toolchain, crates, wanted, jobs):
        for edit, kind, why in verdicts:
            to_say = wanted[work.crate.name].get(edit.path)
            if to_say:
                planted[kind == to_say] += 1
                print(f"planted, to be told {to_say}: {edit.label}: {kind}: {why}")
            else:
                own[kind == REFUSED] += 1
                print(f"{edit.label}: {kind}: {why}")
        failed = sum(kind != REFUSED for edit, kind, _ in verdicts if edit.path not in wanted[work.crate.name])
        print(f"{work.crate.name}: {work.spent()}; {failed} failed", flush=True)
    return own, planted


def minutes():
    """Returns the CPU minutes of all checks so far."""
    used = resource.getrusage(resource.RUSAGE_CHILDREN)
    return (used.ru_utime + used.ru_stime) / 60


def main():
    parser = argparse.ArgumentParser(description=__doc__, formatter_class=argparse.RawDescriptionHelpFormatter)
    most = len(os.sched_getaffinity(0))
    parser.add_argument("--jobs", metavar="N", type=int, default=most, help=f"how many checks run side by side ({most})")
    parser.add_argument("--since", metavar="COMMIT", help="try the crates that have changed since, and what they touch")
    parser.add_argument("--planted", action="store_true", help="try the planted edits too")
    parser.add_argument("crates", metavar="CRATE", nargs="*", help="a crate by its name (all)")
    given = parser.parse_args()
    os.chdir(TOP)
    try:
        toolchain = Toolchain()
        crates = chosen(toolchain, given)
    except LookupError as error:
        print(f"mutants: {error}", file=sys.stderr)
        return 2
    read_statements(crates)
    prove_all(toolchain, libraries_of(crates))
    own, planted = try_all(toolchain, crates, given.planted, max(given.jobs, 1))
    print(f"{len(crates)} crates, {minutes():.0f} CPU minutes")
    print(f"edits: {own[True]} passed, {own[False]} failed")
    if given.planted:
        print(f"planted: {planted[True]} told as they must be, {planted[False]} not")
    return 1 if own[False] or planted[False] else 0


if __name__ == "__main__":
    # (each line shall be seen at once, in a file too)
    sys.stdout.reconfigure(line_buffering=True)
    sys.exit(main())
