"""Must-fail edits: the function whose body an edit changes, and the edits that can share a check.

An edit is a file with a line `file: src/NAME.rt` and, below it, pairs of lines `old: TEXT` and `new: TEXT`. Each TEXT
is one line, and an old one is in its file once. An edit changes the body of one function and nothing else, since it
is then that function which the prover has to refuse. It may add functions right after: `{ 0 } pub fn kept(self) -> u8`
in front of a body makes `{ 0 }` the body, and hands the old one to `kept`.
"""
import os
import re
import subprocess
import tempfile

FOLDERS = ("must-fail", "mutants")
NOT_ONE_BODY = "it changes more than the body of one function of src/"


class Edit:
    """An edit, read. Where `why_bad` is empty it changes the body of `function` alone."""

    def __init__(self, crate_name, path):
        self.path, self.label = path, f"{crate_name}/{os.path.basename(path)[: -len('.edit')]}"
        self.why_bad, self.file, self.function = "", "", None
        # The function with the edit, from its attributes to its end.
        self.text = b""
        # The names that the prover prints for the function, and for those that the edit adds after it.
        self.name, self.added = "", set()

    def can_share(self, other):
        """Returns whether one text of the crate can have both."""
        return self.function is not other.function and not self.added & other.added


def paths_of(folder):
    """Returns the paths of the edits in a folder, which may be absent."""
    names = sorted(os.listdir(folder)) if os.path.isdir(folder) else []
    return [f"{folder}/{name}" for name in names if name.endswith(".edit")]


def rounds_of(edits):
    """Puts each edit into the first round that has no other edit of its function."""
    rounds = []
    for edit in edits:
        free = [it for it in rounds if all(edit.can_share(other) for other in it)]
        if free:
            free[0].append(edit)
        else:
            rounds.append([edit])
    return rounds


class Sources:
    """The functions of a crate, and the names that the prover prints for them."""

    def __init__(self, toolchain, crate, printed):
        self.toolchain, self.crate, self.printed = toolchain, crate, printed
        self.parsed = toolchain.reader.Source(crate.folder)
        self.parsed.read(f"src/{'main' if crate.is_program else 'lib'}.rt")

    def edit(self, path):
        """Reads an edit."""
        edit = Edit(self.crate.name, path)
        texts, edit.why_bad = self.toolchain.rt.read_edit(path, self.crate.folder)
        if edit.why_bad:
            return edit
        edit.file, text = next(iter(texts.items()))
        if len(texts) > 1 or edit.file not in self.parsed.data:
            edit.why_bad = NOT_ONE_BODY
        else:
            self.find_function(edit, text.encode())
        return edit

    def find_function(self, edit, text):
        """Finds the function whose body is all that the edit changes of its file."""
        try:
            now = self.functions_in(text)
        except (subprocess.CalledProcessError, IndexError):
            edit.why_bad = "it does not compile: the edited file is no text of Rattle"
            return
        before = [it for it in self.parsed.functions if it.file == edit.file]
        added = len(now) - len(before)
        for place, function in enumerate(before):
            changed = now[place : place + 1 + added] if added >= 0 else []
            if changed and is_body_alone(self.parsed.data[edit.file], function, text, changed):
                self.take_function(edit, function, text, changed)
                return
        edit.why_bad = NOT_ONE_BODY

    def take_function(self, edit, function, text, changed):
        edit.function, edit.name = function, self.printed_name(function)
        edit.text = text[function.first : changed[-1].end]
        edit.added = {edit.name[: -len(function.name)] + it.name for it in changed[1:]}
        if not edit.name:
            edit.why_bad = f"the prover prints no name that can only be that of {function.shown}"

    def functions_in(self, text):
        """Returns the functions of a file's text, in their order."""
        with tempfile.TemporaryDirectory() as room:
            with open(f"{room}/edited.rt", "wb") as it:
                it.write(text)
            source = self.toolchain.reader.Source(room, follows=False)
            source.read("edited.rt")
        return source.functions

    def printed_name(self, function):
        """Returns the name that the prover prints for a function, or '' where that is not clear. A method's has the
        name of its type, or of its type and its trait in one word, below the module of the impl or of the type."""
        block, modules, owner = function.block, {function.module}, []
        if block and block.is_trait:
            owner = [block.trait[0]]
        elif block:
            trait = self.toolchain.reader.named(block.trait)[0]
            # (that of an impl for u8 begins with U8)
            owner = [function.owner[:1].upper() + function.owner[1:] + (rf"\w*{trait}\w*" if trait else "")]
            declared = {module for module, *_ in self.parsed.declared.get(function.owner, ())}
            # (another module may have a type of the same name)
            modules |= set() if function.module in declared else declared
        forms = ["::".join([self.crate.name, *module, *owner, function.name]) for module in modules]
        found = {name for name in self.printed for form in forms if re.fullmatch(form, name)}
        if len(found) > 1 and block:
            found = {name for name in found if block.fits(name.split("::")[-2])}
            # (the words of From<Error> are in the name of From<AllocError> too)
            letters = sum(map(len, block.words))
            found = {name for name in found if len(name.split("::")[-2].replace("_", "")) == letters} or found
        return found.pop() if len(found) == 1 else ""

    def merged(self, edits):
        """Returns the texts of the files with all the edits, and for each edit the lines of its function there."""
        texts, lines = {}, {}
        for file in {edit.file for edit in edits}:
            before, text, end = self.parsed.data[file], b"", 0
            for edit in sorted((it for it in edits if it.file == file), key=lambda it: it.function.first):
                text += before[end : edit.function.first]
                first = text.count(b"\n") + 1
                text += edit.text
                lines[edit] = range(first, text.count(b"\n") + 2)
                end = edit.function.end
            texts[file] = (text + before[end:]).decode()
        return texts, lines


def is_body_alone(before, function, text, changed):
    """Returns whether a text differs from what it was before in a function's body alone, or in blanks around it.
    `changed` is that function, and those that follow it now."""
    same_head = text[function.first : changed[0].opens].split() == before[function.first : function.opens].split()
    same_rest = text[changed[-1].end :].lstrip() == before[function.end :].lstrip()
    return same_head and same_rest and text[: function.first] == before[: function.first]
