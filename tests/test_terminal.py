"""The programs realmview and rmitrace at a pseudo terminal, and into a pipe that nobody reads.

Standard input that is a terminal: a line on standard error says what is awaited, unless a FILE is given. Standard output or
standard error that is a terminal: labels, carets, refused turns and the differences of a trace are painted, and nothing else,
unless NO_COLOR is set and not empty. Without the colours the text is that of a pipe. A pipe that nobody reads: the program ends
with status 141 and says nothing; realmhost says `device`, with status 5. A pipe that does not block is waited for.
"""
import os
import re
import subprocess
import threading
import time
import tty

from programs import HOST, SECONDS, TOP, TRACER, VIEW, needs

pytestmark = needs(HOST, TRACER, VIEW)
PLAN = "plans/failed-build.toml"
TRACE = "traces/rmm/kvm-boot.trace"
# The colour of each label, and the end of each colour.
LABELS = {"error:": "1;31", "warning:": "33", "help:": "36"}
RED, GREEN, END = "\x1b[31m", "\x1b[32m", "\x1b[0m"
# A plan with a mistake in it.
BROKEN = 'pages = 0\n[[build]]\nsteps = ["delegat 0"]\n'
# A trace with a line that is wrong and one that is allowed, what is said of them, and that as it is painted: by hand.
WRONG = """platform 0x80000000 64
rmi_granule_delegate 0x80000000 = RMI_ERROR_INPUT
rmi_granule_delegate 0x80000000 = RMI_ERROR_INPUT (gran_state)
rmi_realm_activat 0x80000000 = RMI_SUCCESS
"""
DIFFERENCE = """trace:2: wrong
rmi_granule_delegate 0x80000000 = RMI_ERROR_INPUT
here: RMI_SUCCESS
trace:4: wrong
rmi_realm_activat 0x80000000 = RMI_SUCCESS
here: no command
help: did you mean rmi_realm_activate?
1 same, 0 allowed, 2 wrong
"""
# The colours of the lines of a difference: of the whole line, or its label.
PAINTED = (r"^.*: wrong$", "31"), (r"^.*: allowed$", "33"), (r"^here: .*$", "32"), (r"^help:", "36")


def surroundings(**more):
    """The environment, without NO_COLOR unless that is asked for."""
    return {**{name: it for name, it in os.environ.items() if name != "NO_COLOR"}, **more}


def read_all(descriptor):
    """The bytes from a terminal, to its end. At the end Linux says that the other side is closed."""
    parts = []
    while True:
        try:
            part = os.read(descriptor, 65536)
        except OSError:
            break
        if not part:
            break
        parts.append(part)
    os.close(descriptor)
    return b"".join(parts).decode()


def run(words, given="", at=(), **more):
    """Status, standard output and standard error of a program. `at` names the streams that are a terminal."""
    masters, slaves = {}, {}
    for name in at:
        masters[name], slaves[name] = os.openpty()
        if name != "stdin":
            tty.setraw(slaves[name])
    how = {name: slaves.get(name, subprocess.PIPE) for name in ("stdin", "stdout", "stderr")}
    ran = subprocess.Popen([TOP / "bin" / words[0], *words[1:]], cwd=TOP, env=surroundings(**more), text=True, **how)
    for it in slaves.values():
        os.close(it)
    if "stdin" in at:
        # Ctrl-D at the begin of a line is the end of the input.
        os.write(masters["stdin"], given.encode() + b"\x04")
    typed = None if "stdin" in at else given
    if "stdout" in at or "stderr" in at:
        if typed is not None:
            ran.stdin.write(typed)
            ran.stdin.close()
        texts = {name: read_all(masters[name]) if name in masters else getattr(ran, name).read() for name in ("stdout", "stderr")}
        ran.wait(SECONDS)
        out, err = texts["stdout"], texts["stderr"]
    else:
        out, err = ran.communicate(typed, timeout=SECONDS)
    if "stdin" in at:
        os.close(masters["stdin"])
    return ran.returncode, out, err


def painted(text):
    """A text of messages in its colours."""
    lines = []
    for line in text.split("\n"):
        label = re.match(r"( *|.*?\d: )(error:|warning:|help:)", line)
        if re.match(r"\d.* = no ", line) or re.fullmatch(r" *\^[ ^]*", line):
            line = f"{RED}{line}{END}"
        elif label:
            line = f"{label[1]}\x1b[{LABELS[label[2]]}m{label[2]}{END}{line[label.end():]}"
        lines.append(line)
    return "\n".join(lines)


def painted_difference(text):
    """The text of a check in its colours."""
    for pattern, colour in PAINTED:
        text = re.sub(pattern, lambda it: f"\x1b[{colour}m{it[0]}{END}", text, flags=re.M)
    return text


def plain(text):
    return re.sub(r"\x1b\[[0-9;]*m", "", text)


def test_input(check):
    """A line says what is awaited, at a terminal alone."""
    plan, trace = (TOP / PLAN).read_text(), "platform 0x80000000 64\nrmi_granule_delegate 0x80000000 = RMI_SUCCESS\n"
    history = run(["realmview", "history", PLAN])[1]
    asked = [(["realmview", it], "a plan", plan) for it in ("history", "json", "page", "why", "order", "calls", "check")]
    asked += [(["realmview", "apply"], "a history", history), (["realmview", "explore", "--most-states", "1"], "a plan", plan)]
    asked += [(["rmitrace", it], "a trace", trace) for it in ("answer", "check", "names", "why")]
    for words, awaited, given in asked:
        status, out, err = run(words, given)
        line = f"{words[0]}: reading {awaited} from the terminal; end it with Ctrl-D\n"
        check(f"{words} over a pipe", (status, err), (0, ""))
        check(f"{words} at a terminal", run(words, given, ["stdin"]), (0, out, line))
        check(f"{words} - at a terminal", run([*words, "-"], given, ["stdin"]), (0, out, line))
    check("a FILE at a terminal", run(["realmview", "check", PLAN], at=["stdin"]), run(["realmview", "check", PLAN]))
    check("help at a terminal", run(["realmview", "--help"], at=["stdin"]), run(["realmview", "--help"]))


def test_colours(check):
    for name, words, given in ("why", ["why", PLAN], ""), ("check", ["check", "-"], BROKEN), ("no mistake", ["check", PLAN], ""):
        status, out, err = run(["realmview", *words], given)
        wanted = (status, painted(out), err)
        check(f"{name}: colours", run(["realmview", *words], given, ["stdout"]), wanted)
        check(f"{name}: some, unless there is no mistake", wanted[1] != out, name != "no mistake")
        check(f"{name}: nothing but colours is added", plain(wanted[1]), out)
        check(f"{name}: NO_COLOR", run(["realmview", *words], given, ["stdout"], NO_COLOR="1"), (status, out, err))
        check(f"{name}: an empty NO_COLOR", run(["realmview", *words], given, ["stdout"], NO_COLOR=""), wanted)
    for words in ["json", PLAN], ["page", PLAN], ["history", PLAN], ["--help"], ["help", "why"]:
        check(f"{words}: no colours", run(["realmview", *words], at=["stdout"]), run(["realmview", *words]))
    check("differences", run(["rmitrace", "check"], WRONG), (1, DIFFERENCE, ""))
    check("differences in colours", run(["rmitrace", "check"], WRONG, ["stdout"]), (1, painted_difference(DIFFERENCE), ""))
    check("no difference", run(["rmitrace", "check", TRACE], at=["stdout"]), run(["rmitrace", "check", TRACE]))
    check("answers", run(["rmitrace", "answer", TRACE], at=["stdout"]), run(["rmitrace", "answer", TRACE]))
    status, out, err = run(["rmitrace", "why", TRACE])
    check("reasons", run(["rmitrace", "why", TRACE], at=["stdout"]), (status, painted(out), err))
    check("some reasons have colours", painted(out) != out, True)


def test_messages(check):
    """Standard error is painted where it is a terminal, whatever standard output is."""
    for words in ["realmview", "look"], ["rmitrace", "look"], ["realmview", "why", "--erase", "0"]:
        status, out, err = run(words)
        check(f"{words}: begins with a label", (status, out, err.startswith("error: ")), (2, "", True))
        check(f"{words}: in colour", run(words, at=["stderr"]), (2, "", "\x1b[1;31merror:\x1b[0m" + err[len("error:"):]))
        check(f"{words}: NO_COLOR", run(words, at=["stderr"], NO_COLOR="1"), (2, "", err))
    status, out, err = run(["realmview", "why"], BROKEN)
    check("a plan with a mistake", run(["realmview", "why"], BROKEN, ["stderr"]), (status, out, painted(err)))
    check("a file that is not there", run(["realmview", "why", "no.toml"], at=["stderr"]), run(["realmview", "why", "no.toml"]))


def closed(words, given=None):
    """Status and standard error of a program whose output nobody reads."""
    reader, writer = os.pipe()
    os.close(reader)
    ran = subprocess.run([TOP / "bin" / words[0], *words[1:]], cwd=TOP, input=given, stdout=writer, stderr=subprocess.PIPE,
                         timeout=SECONDS, restore_signals=False, text=True)
    os.close(writer)
    return ran.returncode, ran.stderr


def test_closed_pipes(check):
    history = run(["realmview", "history", PLAN])[1]
    for command in "history", "json", "page", "why", "check":
        check(f"{command} that nobody reads", closed(["realmview", command, PLAN]), (141, ""))
    check("apply that nobody reads", closed(["realmview", "apply"], history), (141, ""))
    check("explore that nobody reads", closed(["realmview", "explore", "--most-states", "1", PLAN]), (141, ""))
    check("a mistake that nobody reads", closed(["realmview", "check"], BROKEN), (141, ""))
    for command in "answer", "check", "names", "why":
        check(f"{command} that nobody reads", closed(["rmitrace", command, TRACE]), (141, ""))
    for words in ["realmview", "--help"], ["realmview", "help", "why"], ["rmitrace", "--version"]:
        check(f"{words} that nobody reads", closed(words), (141, ""))
    check("realmhost", closed(["realmhost", "replay"], (TOP / PLAN).read_text()), (5, "device\n"))
    script = f"set -o pipefail; bin/realmview json {PLAN} | true; sleep 0; echo $?"
    ran = subprocess.run(["bash", "-c", script], cwd=TOP, capture_output=True, text=True, timeout=SECONDS)
    check("a pipe in a shell", (ran.stdout in ("141\n", "0\n"), ran.stderr), (True, ""))


def test_pipes_that_do_not_block(check):
    """Both ends wait: the input comes after a while, and the output is read after a while."""
    text = (TOP / TRACE).read_text()
    for command in "answer", "check":
        (given, giver), (reader, taken) = os.pipe(), os.pipe()
        os.set_blocking(given, False)
        os.set_blocking(taken, False)
        ran = subprocess.Popen([TOP / "bin/rmitrace", command], stdin=given, stdout=taken, stderr=subprocess.PIPE)
        os.close(given)
        os.close(taken)
        time.sleep(0.2)
        writer = threading.Thread(target=lambda: (os.write(giver, 20 * text.encode()[:3000]), os.write(giver, text.encode()), os.close(giver)))
        writer.start()
        time.sleep(0.2)
        out = read_all(reader)
        writer.join()
        _, err = ran.communicate(timeout=SECONDS)
        wanted = run(["rmitrace", command], 20 * text[:3000] + text)
        check(f"{command} over pipes that do not block", (ran.returncode, out, err.decode()), wanted)
