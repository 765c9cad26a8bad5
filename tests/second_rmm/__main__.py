"""The model as a program: it answers each line of a trace as soon as it is read, or compares the answers in one."""
import sys
from pathlib import Path

sys.dont_write_bytecode = True
sys.path.insert(0, str(Path(__file__).resolve().parent.parent))
from second_rmm.bench import Bench
from second_rmm.judge import report

USAGE = "usage: second_rmm answer < TRACE\n       second_rmm check [--each] [--stop] < TRACE\n"


def main(words: list[str]) -> int:
    lines = (it.decode(errors="surrogateescape").removesuffix("\n") for it in sys.stdin.buffer)
    if words == ["answer"]:
        bench = Bench()
        for line in lines:
            sys.stdout.buffer.write((bench.line(line) + "\n").encode(errors="surrogateescape"))
            sys.stdout.buffer.flush()
        return 0
    if words[:1] == ["check"] and {*words[1:]} <= {"--each", "--stop"}:
        said, status = report(lines, "--stop" in words, is_each="--each" in words)
        sys.stdout.buffer.write("".join(f"{it}\n" for it in said).encode(errors="surrogateescape"))
        return status
    sys.stderr.write(USAGE)
    return 2


sys.exit(main(sys.argv[1:]))
