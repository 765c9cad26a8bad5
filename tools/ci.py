"""`rt ci`, which also compiles each static library, out of the check that proves it.

`rt ci` makes a program out of what the check of the program wrote. A static library it checks alone, so the archive would take a
second proof. Here its check writes the same, and `rattle build` compiles that, once it has compared what was read then and now.
"""
import sys
import tempfile

sys.dont_write_bytecode = True
from toolchain import Toolchain

# The options that the compiler does not get for a crate that is already checked.
OF_A_CHECK = "--logic-built", "--jobs"


def compiled(crate, flags, rattle, kit):
    """Checks a static library from nothing, as `rt ci` does, and compiles what was proved. Returns the status."""
    words = crate.words(flags, keeps=False)
    with tempfile.TemporaryDirectory(prefix="ci-checked-") as room:
        checked = f"{room}/checked"
        status = crate.prove(["check", *words, "-o", checked])
        for at in (words.index(it) for it in OF_A_CHECK):
            del words[at : at + 2]
        words += ["--crate-checked", checked, "--toolchain", f"{kit}/toolchain", "--backend", "llvm"]
        return status or crate.call(rattle, "build", *words, "-o", f"out/lib{crate.name}.a")


def main():
    toolchain = Toolchain()
    crate, rattle, kit = toolchain.rt.Crate, toolchain.library.RATTLE, toolchain.library.KIT
    proved = crate.ci
    crate.ci = lambda it, flags, tests: compiled(it, flags, rattle, kit) if it.is_static and not tests else proved(it, flags, tests)
    return toolchain.rt.main(["ci"])


if __name__ == "__main__":
    sys.exit(main())
