"""The built programs under valgrind's memcheck: `replay`, `--erase`, `run`, `rmitrace answer` and `rmitrace check` over three
inputs each, `realmview history`, `apply` and `check` over some. No byte is read or written that is not the program's, none is
used that was never written, and no block is lost; and the text is the stored one.

helgrind and drd are not run: they do not know the lock, which is a futex, and report races where it is held.
"""
import pytest

from programs import HOST, TOP, TRACER, VIEW, needs, run

pytestmark = [pytest.mark.long, needs(HOST, TRACER, VIEW)]
# The block that pthread_create keeps of a thread's stack for the next thread is no lost one: only those without any pointer are.
MEMCHECK = ["valgrind", "--quiet", "--error-exitcode=99", "--leak-check=full", "--errors-for-leak-kinds=definite", "--fair-sched=yes"]

# A program, its words, an input, and the file that has the text.
RUNS = [
    (HOST, "replay", "plans/realm.toml", "plans/realm.txt"),
    (HOST, "replay", "plans/rollback.toml", "plans/rollback.txt"),
    (HOST, "replay", "plans/wide-realm.toml", "plans/wide-realm.txt"),
    (HOST, "replay --erase 1", "plans/failed-build.toml", "plans/failed-build.erase-1.txt"),
    *(
        (HOST, f"replay --erase {build}", f"tests/runs/{name}.toml", f"tests/runs/{name}.erase-{build}.txt")
        for name, build in (("an_aborted_build_leaves_no_trace", 1), ("builds_keep_their_blocks_without_the_first", 0))
    ),
    (HOST, "run", "plans/three-workers.toml", "plans/three-workers.run.txt"),
    (HOST, "run", "tests/runs/workers_undo_and_clear.toml", "tests/runs/workers_undo_and_clear.run.txt"),
    (HOST, "run", "tests/runs/workers_are_refused.toml", "tests/runs/workers_are_refused.run.txt"),
    *((TRACER, "answer", f"traces/{name}.trace", f"traces/{name}.trace") for name in ("rec", "measurement", "wide-realms")),
    # Their output is compared by tests/test_view.py.
    *((VIEW, "history", f"plans/{name}.toml", None) for name in ("realm", "rollback", "wide-realm")),
    *((VIEW, words, "tests/histories/realm_runs.history", None) for words in ("apply", "apply --erase 0")),
    *((VIEW, "check", f"plans/{name}.toml", None) for name in ("realm", "failed-build")),
    # The output of a check is compared by tests/test_traces.py.
    *((TRACER, "check", f"traces/{name}.trace", None) for name in ("order-of-checks", "every-state", "two-realms")),
]


@pytest.mark.parametrize(("program", "words", "given", "text"), RUNS, ids=[f"{it[0].name} {it[1]} {it[2]}" for it in RUNS])
def test_memcheck(program, words, given, text):
    status, out, err = run(MEMCHECK[0], [*MEMCHECK[1:], program, *words.split()], (TOP / given).read_bytes(), timeout=600)
    assert status == 0, err.decode(errors="replace")
    assert text is None or out == (TOP / text).read_bytes()
