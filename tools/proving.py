"""Proves libraries side by side, each after those that it depends on, and keeps what the crates above them read.

Of a library its statements are kept, without their proofs: a check reads these much faster. They lie in the crate's folder
out/statements/, beside a stamp of all that they are made from. If that is still the same, nothing is proved again.
"""
import copy
import os
import shutil
import tempfile
import time
from concurrent.futures import FIRST_COMPLETED, ThreadPoolExecutor, wait

from progress import Progress

FOLDER = "out/statements"


def libraries_of(crates):
    """Returns the repository's libraries that these crates depend on, each after its own."""
    found = []
    for crate in crates:
        found += [it for it in crate.below() if it not in found]
    return found


def read_statements(crates):
    """From now on the checks of these crates read the statements of the libraries that lie in FOLDER."""
    for it in [*libraries_of(crates), *crates]:
        it.rlib = f"{it.folder}/{FOLDER}/{it.name}.rlib"


def is_stamped(crate, made):
    """Returns whether what was made of a crate is made of all that it is made from now."""
    path = f"{made}.stamp"
    if not os.path.exists(made) or not os.path.isfile(path):
        return False
    with open(path, encoding="utf-8") as it:
        return it.read() == crate.stamp()


def place_of(crate):
    """Returns the path at which a program or an archive is built."""
    return f"{crate.folder}/out/built/" + (f"lib{crate.name}.a" if crate.is_static else crate.name)


def is_built(crate):
    """Returns whether a library is proved as it is now, or a program or an archive built."""
    return is_stamped(crate, place_of(crate) if crate.is_program or crate.is_static else crate.rlib)


def keep(libraries, stamps):
    """Keeps what `rt ci` has just made of libraries, each where the crate is still that of its stamp, which was taken before:
    the statements that it has left in out/rlib/, and the archives of static ones."""
    for crate in libraries:
        found, copied = (f"{crate.folder}/out/lib{crate.name}.a", shutil.copy) if crate.is_static else (crate.rlib, shutil.copytree)
        to = place_of(crate) if crate.is_static else f"{crate.folder}/{FOLDER}/{crate.name}.rlib"
        # (of an archive that an earlier run has proved, nothing is made)
        if os.path.exists(found):
            make(crate, to, lambda it: it.stamp() == stamps[it.name] and bool(copied(found, to)))


def make(crate, made, work):
    """Does the work that makes a file or a folder of a crate, and stamps it. Returns whether that went well, and what was said."""
    crate, stamp = copy.copy(crate), crate.stamp()
    with tempfile.TemporaryFile("a+", errors="replace") as crate.out:
        for it in (made, f"{made}.stamp"):
            shutil.rmtree(it, ignore_errors=True) if os.path.isdir(it) else os.path.exists(it) and os.remove(it)
        os.makedirs(os.path.dirname(made), exist_ok=True)
        is_well = work(crate)
        crate.out.seek(0)
        said = crate.out.read()
    # (after an edit meanwhile nobody knows which text it was made from)
    if is_well and crate.stamp() == stamp:
        with open(f"{made}.stamp", "w", encoding="utf-8") as it:
            it.write(stamp)
    return is_well, said


class Lanes:
    """Runs the work of crates side by side, each after that of its libraries.

    The crate with the longest way of others above it comes first: nothing above it begins before it is done. It gets two
    processors where there are more, and all that no other crate waits for. The others have one job each, and less priority, since
    two jobs of one crate do less than two crates: each reads the libraries anew. No more crates run at once than memory holds."""

    def __init__(self, toolchain):
        self.rt, self.processors, self.memory = toolchain.rt, toolchain.rt.processors(), 0.85 * toolchain.rt.free()

    def run(self, crates, work, soon=()):
        """Does `work(crate, jobs, nice, failed)` for each crate, where `failed` has its libraries whose work failed. Crates of
        the names `soon`, and all that they depend on, come before others. Returns whether all went well."""
        left, way, waits, running, went = list(crates), ranks_of(crates, soon), waits_of(crates), {}, {}
        with ThreadPoolExecutor(len(left) or 1) as pool:
            while left or running:
                ready = [it for it in left if all(name in went for name in waits[it.name])]
                ready.sort(key=lambda it: way[it.name], reverse=True)
                for place, crate in enumerate(ready):
                    held = [it for it, _ in running.values()]
                    is_first = way[crate.name] >= max(way[it.name] for it in [crate, *left, *held])
                    free = self.processors - sum(jobs for _, jobs in running.values())
                    # (the first one gets its two even where others have them: these give way)
                    jobs = max(free - len(ready[place + 1 :]), 2 if self.processors > 2 else 1) if is_first else min(free, 1)
                    if not running or jobs > 0 and self.has_room(crate, jobs, running.values()):
                        left.remove(crate)
                        failed = [name for name in waits[crate.name] if not went[name]]
                        running[pool.submit(work, crate, jobs, 0 if is_first else 10, failed)] = crate, jobs
                for it in wait(running, return_when=FIRST_COMPLETED).done:
                    went[running.pop(it)[0].name] = it.result()
        return all(went.values())

    def has_room(self, crate, jobs, running):
        # (a job more takes about six tenths of what the first one takes)
        need = lambda it, jobs: self.rt.need(it) * (1 + 0.6 * (jobs - 1))
        return sum(need(*it) for it in running) + need(crate, jobs) <= self.memory


def waits_of(crates):
    """Returns of each crate, by its name, those of these crates that it depends on."""
    names = {it.name for it in crates}
    return {it.name: [below.name for below in it.below() if below.name in names] for it in crates}


def ranks_of(crates, soon):
    """Returns of each crate, by its name, its rank: the greatest comes first. What is needed soon comes before all else;
    then the crate with the longest way above it."""
    waits = waits_of(crates)
    wanted = {name for it in soon if it in waits for name in [it, *waits[it]]}
    ways = ways_above(crates) | ways_above([it for it in crates if it.name in wanted])
    return {it.name: (it.name in wanted, ways[it.name]) for it in crates}


def ways_above(crates):
    """Returns of each crate, by its name, the lines of the longest way from it up through these crates."""
    waits, lines = waits_of(crates), {it.name: it.count(rb"\n") for it in crates}
    way = dict(lines)
    # (a crate comes after those that it depends on)
    for crate in reversed(crates):
        for name in waits[crate.name]:
            way[name] = max(way[name], lines[name] + way[crate.name])
    return way


def prove(toolchain, crate, jobs, nice, failed, progress):
    """Proves a library. Returns whether it is proved."""
    if failed:
        progress.say(crate.name, f"not tried, since {failed[0]} is not proved")
        return False
    began = time.monotonic()
    words = lambda it: ["build", *it.words(["--jobs", str(jobs)], keeps=False), "--statements", "-o", it.rlib]
    call = lambda it: it.call("nice", "-n", str(nice), toolchain.library.RATTLE, *words(it)) == 0
    is_proved, said = make(crate, crate.rlib, call)
    if not is_proved:
        print(said, end="", flush=True)
    progress.say(crate.name, f"proved in {time.monotonic() - began:.0f} s" if is_proved else "NOT PROVED")
    return is_proved


def prove_all(toolchain, libraries, programs=(), build=None, soon=()):
    """Proves what is not proved yet, and does `build(program, jobs, nice, failed, progress)` for programs, those of the names
    `soon` before others. Returns whether all went well."""
    left = [it for it in libraries if not is_built(it)]
    lanes = Lanes(toolchain)
    progress = Progress([it.name for it in [*left, *programs]], lanes.processors)
    if left:
        print(f"{len(left)} of {len(libraries)} libraries have to be proved, those with the most above them first", flush=True)
    work = lambda it, *how: build(it, *how, progress) if it in programs else prove(toolchain, it, *how, progress)
    # Until these are closed, no other rt works in the libraries' folders.
    held = toolchain.library.lock(libraries)
    try:
        return lanes.run([*left, *programs], work, soon)
    finally:
        for it in held:
            os.close(it)
