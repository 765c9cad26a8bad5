"""The compiler of the tests in C, and the header of a library for C beside the crate that it is of."""
import os
import re
import shutil
import sys
from pathlib import Path
from typing import NamedTuple

import pytest

from differences import same
from programs import TOP, needs, ran

BUILD = TOP / "build"
COMPILER, CXX = os.environ.get("CC", "cc"), os.environ.get("CXX", "c++")
FLAGS = ["-O2", "-Wall", "-Wextra", "-Wconversion", "-Werror", f"-I{TOP}/include"]
# The calls for memory are those of a test.
WRAPPED = [f"-Wl,--wrap={it}" for it in ("malloc", "realloc", "free")]
MEMCHECK = ["valgrind", "--quiet", "--error-exitcode=99", "--leak-check=full", "--show-leak-kinds=all"]


def last_line(text, form):
    line = text.splitlines()[-1]
    if not re.fullmatch(form, line):
        raise AssertionError(f"the last line is {line!r}, and not {form!r}")


def symbols(library, *how):
    """The names that a library defines. (C's startup code may leave names that begin with _ in a shared library.)"""
    names = re.findall(r" [TW] (\w+)", ran(["nm", "--defined-only", *how, library]))
    return {it for it in names if not it.startswith("_")}


def without_comments(path):
    return re.sub(r"/\*.*?\*/", "", path.read_text(), flags=re.S)


def names_of(header):
    """The names that a header gives to a program: macros, types, functions and constants."""
    text = without_comments(header)
    found = re.findall(r"^#define (\w+)|^\} (\w+);|^typedef struct (\w+)|^\w[\w ]*?[ *]+(\w+)\(", text, re.M)
    constants = re.findall(r"(\w+)(?: = \w+)?\s*(?:,|$)", "\n".join(re.findall(r"enum \{(.*?)\}", text, re.S)), re.M)
    return {it for names in found for it in names if it} | set(constants)


def has_compiler(*libraries):
    """Marks of the tests of a file: there is a C compiler, and these libraries are built."""
    return [pytest.mark.skipif(not shutil.which(COMPILER), reason=f"there is no C compiler ({COMPILER})"), needs(*libraries)]


class Room:
    """A folder with compiled programs. With `is_all` the tests are those of `make c-test`."""

    def __init__(self, folder, is_all):
        self.folder, self.is_all = Path(folder), is_all

    def compiled(self, name, sources, *flags, compiler=COMPILER, standard="-std=c11", common=FLAGS):
        """A program of some sources and libraries."""
        to = self.folder / name
        ran([compiler, standard, *common, *flags, *sources, "-o", to])
        return to

    def from_text(self, name, text, *libraries, **how):
        """A program of this text, which is in C unless its name ends otherwise."""
        source = self.folder / name
        source.write_text(text)
        return self.compiled(source.stem, [source, *libraries], **how)


class Library(NamedTuple):
    """A library for C: its name, the types of C of those in its crate, and the crate's handle, whose fields no program has; its
    document, and what the first program there prints."""

    name: str
    of_c: dict
    handle: str
    document: str
    said: str

    @property
    def header(self):
        return TOP / f"include/{self.name}.h"

    @property
    def static(self):
        return BUILD / f"lib{self.name}.a"

    @property
    def shared(self):
        return BUILD / f"lib{self.name}.so.0"

    def sources(self):
        return [file.read_text() for file in sorted(TOP.glob(f"crates/{self.name}_c/src/*.rt"))]

    def types_of(self, kind):
        """The parameters of C for one of the crate's. A `Global` takes no bytes, so C passes nothing for it."""
        if kind == "Global":
            return []
        it = kind.removeprefix("&mut ").removeprefix("&")
        if it == kind:
            return [self.of_c[kind]]
        # (bytes are those of any object)
        pointer = ("" if kind.startswith("&mut ") else "const ") + ("void" if it == "[u8]" else self.of_c[it]) + " *"
        return [pointer, "size_t"] if it == "[u8]" else [pointer]

    def exported(self):
        """The functions that the crate exports: the type of the result, and those of the parameters."""
        found = {}
        for text in self.sources():
            for name, given, answer in re.findall(r'pub extern "C" fn (\w+)\(([^)]*)\)(?: -> (\w+))?', text):
                kinds = [it.split(":", 1)[1].strip() for it in given.split(",") if it.strip()]
                found[name] = (self.of_c[answer] if answer else "void", [it for kind in kinds for it in self.types_of(kind)])
        return found

    def declared(self):
        """The same of the functions that the header declares."""
        found, pattern = {}, rf"^(\w+) ({self.name}_\w+)\(([^)]*)\)\s*{self.name.upper()}_NO_NULL;"
        for answer, name, given in re.findall(pattern, without_comments(self.header), re.M):
            found[name] = (answer, [re.sub(r"\w+$", "", it.strip()).strip() for it in given.split(",")])
        return found

    def structures(self):
        """The fields of each structure that C writes or reads: those of the crate, and those of the header."""
        of_crate, of_header, types = {}, {}, "|".join(sorted(self.of_c, key=len, reverse=True))
        for text in self.sources():
            for name, body in re.findall(r"^#\[repr\(C\)\].*?^pub struct (\w+) \{\n(.*?)^\}", text, re.S | re.M):
                if name in self.of_c and name != self.handle:
                    fields = re.findall(r"^    pub (\w+): ([^,]+),", body, re.M)
                    of_crate[self.of_c[name]] = [(it, re.sub(types, lambda m: self.of_c[m[0]], kind)) for it, kind in fields]
        for body, name in re.findall(r"^typedef struct \w+ \{\n(.*?)^\} (\w+);", without_comments(self.header), re.S | re.M):
            lines = re.findall(r"^    (\w+) (\w+)(?:\[(\d+)\])?;", body, re.M)
            of_header[name] = [(it, f"[{kind}; {count}]" if count else kind) for kind, it, count in lines]
        return of_crate, {name: of_header[name] for name in of_crate}

    def compare(self, count):
        """Compares the header, and what is exported, with the crate, which has so many functions. Returns these."""
        wanted = self.exported()
        same("the header", self.declared(), wanted)
        same("the number of functions", len(wanted), count)
        of_crate, of_header = self.structures()
        same("the structures of the header", of_header, of_crate)
        if shutil.which("nm"):
            same("what the static library exports", {it for it in symbols(self.static) if it.startswith(f"{self.name}_")}, set(wanted))
            same("what the shared library exports", symbols(self.shared, "-D"), set(wanted))
        return wanted

    def first(self, language):
        """The first program of a language in the document."""
        return re.search(rf"^```{language}\n(.*?)^```$", (TOP / self.document).read_text(), re.M | re.S)[1]

    def of_document(self, room, status=0):
        """The first program in C prints what the document says. Returns the lines that the first one in Python prints."""
        same("the program in C", ran([room.from_text("mine.c", self.first("c"), self.static)]), self.said)
        return ran([sys.executable, "-c", self.first("python")], status, env=with_python(TOP / "python")).splitlines()

    def linked(self, room, pkgconfig=BUILD, libraries=BUILD):
        """The first program in C is linked with the shared library by what pkg-config says of these folders."""
        where = {**os.environ, "PKG_CONFIG_PATH": os.fspath(pkgconfig), "LD_LIBRARY_PATH": os.fspath(libraries)}
        words = ran(["pkg-config", "--cflags", "--libs", self.name], env=where).split()
        same("the linked program", ran([room.from_text("linked.c", self.first("c"), *words, common=[])], env=where), self.said)

    def installed(self, room, script, said):
        """Links the first program by what `make install-c-library` puts below a folder alone, and runs a script in Python."""
        ran(["make", "-s", "-C", TOP, "install-c-library", f"DESTDIR={room.folder}", "PREFIX=/usr"])
        below = room.folder / "usr"
        self.linked(room, below / "lib/pkgconfig", below / "lib")
        same("the program in Python", ran([sys.executable, "-c", script], env=with_python(below / "share/realmhost/python")), said)


def with_python(folder):
    """The environment of a program in Python that imports what is in a folder."""
    return {**os.environ, "PYTHONPATH": os.fspath(folder)}
