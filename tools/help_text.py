"""The command lines of the built programs: their --help, as names, texts and options."""
import re
import subprocess
from collections import namedtuple
from pathlib import Path

TOP = Path(__file__).resolve().parent.parent
PROGRAMS = ("realmhost", "rmitrace", "realmview")
# An option: its letter and its value's name may be None.
Option = namedtuple("Option", "letter name value said")
# An argument of a command line without a sign before it, as FILE. It may be left out.
Argument = namedtuple("Argument", "name said")
# A program or a subcommand of it. A subcommand has none itself, and its argument may be None.
Command = namedtuple("Command", "name said options commands argument")


def told(*words):
    """The output of a program of bin/: realmhost has help and version on standard error, the others on standard output."""
    how = {"stdin": subprocess.DEVNULL, "stdout": subprocess.PIPE, "stderr": subprocess.STDOUT, "text": True, "timeout": 60}
    return subprocess.run([TOP / "bin" / words[0], *words[1:]], **how).stdout


def rows_of(text, heading):
    """The lines of a part of a help text."""
    part = re.search(rf"^{heading}:\n((?:  .*\n?)*)", text, re.M)
    return part[1].splitlines() if part else []


def option_of(row):
    letter, name, value, said = re.fullmatch(r" +(?:-(\w), )?--([\w-]+)(?: <([\w:]+)>)?  +(.*)", row).groups()
    return Option(letter, name, value, said)


def options_of(text):
    return [option_of(row) for row in rows_of(text, "Options")]


def argument_of(text):
    for row in rows_of(text, "Arguments"):
        return Argument(*re.fullmatch(r"  \[(\w+)\]  +(.*)", row).groups())


def command_of(program, name, said):
    """A subcommand. `help` has no help of its own: after it comes the name of another."""
    if name == "help":
        return Command(name, said, [], [], Argument("COMMAND", said))
    text = told(program, name, "--help")
    return Command(name, said, options_of(text), [], argument_of(text))


def program_of(name):
    """A program with its subcommands."""
    text = told(name, "--help")
    rows = [re.fullmatch(r"  (\S+)  +(.*)", row).groups() for row in rows_of(text, "Commands")]
    said = " ".join(text.split("\n\n")[0].split("\n"))
    return Command(name, said, options_of(text), [command_of(name, *row) for row in rows], None)


def version_of(name):
    return told(name, "--version").strip()
