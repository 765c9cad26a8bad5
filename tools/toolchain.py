"""The programs beside `rt`: its commands as functions, and the reader of functions that `rt plant` has."""
import atexit
import importlib.machinery
import os
import shutil
import subprocess
import sys
import threading
import types

# The file with what `rt version` prints of each toolchain that the repository is written for, a line each.
VERSION = f"{os.path.dirname(os.path.dirname(os.path.realpath(__file__)))}/rattle-toolchain"
# The settings of the prover's allocator. Left to itself it gives freed memory back to the system, and soon asks for it again.
ALLOCATOR = {"MIMALLOC_PURGE_DELAY": "-1"}


def check_version(rt="rt"):
    """Says on standard error, now and once more at the end, if this toolchain is none of those that rattle-toolchain names."""
    found = subprocess.run([rt, "version"], stdout=subprocess.PIPE, text=True, check=True).stdout.strip()
    with open(VERSION, encoding="utf-8") as it:
        named = it.read().splitlines()
    if found not in named:
        note = f"note: the toolchain on the PATH is `{found}`, and rattle-toolchain names `{'`, `'.join(named)}`"
        print(note, file=sys.stderr, flush=True)
        atexit.register(print, note, file=sys.stderr)


class Toolchain:
    """The toolchain that is on the PATH."""

    def __init__(self):
        found = shutil.which("rt")
        if not found:
            raise LookupError("there is no rt in the PATH: put the toolchain's folder bin/ there")
        # (rt may be a link to the toolchain's)
        self.folder = os.path.dirname(os.path.realpath(found))
        for name in ("rt", "rtlib.py", "rt-plant-bodies"):
            if not os.path.isfile(f"{self.folder}/{name}"):
                raise LookupError(f"{found} is no toolchain's own rt, or of another version: beside it is no {name}")
        check_version(found)
        for name, value in ALLOCATOR.items():
            os.environ.setdefault(name, value)
        self.rt, self.reader = self.load("rt"), self.load("rt-plant-bodies")
        self.library = self.rt.rtlib
        self.library.Crate.stamp = summed_once(self.library.Crate.stamp)

    def load(self, name):
        module = types.ModuleType(name)
        module.__file__ = f"{self.folder}/{name}"
        importlib.machinery.SourceFileLoader(name, module.__file__).exec_module(module)
        return module

    def crates(self, top):
        """Returns the crates of the repository, each after the libraries that it depends on."""
        # (its first call sets a signal's handler, which only the main thread may)
        self.library.guarded()
        return self.library.crates_below(top)


def summed_once(stamp):
    """Returns a crate's method `stamp` that sums each library below once, and not once for each way down to it."""
    inside = threading.local()

    def quick(crate):
        outer = getattr(inside, "sums", None)
        inside.sums = {} if outer is None else outer
        try:
            if crate.folder not in inside.sums:
                inside.sums[crate.folder] = stamp(crate)
            return inside.sums[crate.folder]
        finally:
            inside.sums = outer

    return quick
