"""Edits that must fail, of which one check of a crate tries many.

An edit is a wrong body: a file with a line `file: src/NAME.rt` and then pairs of lines `old: TEXT` and `new: TEXT`, where each old text stands
once in what the pairs before it made of that file, or is one whole line of it. The prover checks each function against its own contract and its
callees' contracts, so the edits of different functions say nothing of one another. They are made together in a copy, which is checked once; if two
stand in one function, the second is made in a twin of it (twins.py).

An edit is refused if a function in which it stands has an open goal of its own: one that the search did not prove, or an answer that no longer fits.
It counts for nothing that a function calls one that isn't proved, that its proof names what the edit took away, or that the prover doesn't cover it, as
after `let _ = (a, b);` of references: that says nothing of its contract. So an edit changes a value and keeps the names.
"""
import difflib
import re

# What the check says of a function, and of one with a goal that the search did not prove.
SAID = re.compile(r"^fn (\S+): (.*)$", re.M)
UNPROVED = re.compile(r"^fn (\S+): (?!.*does not cover).*did not prove", re.M)
# The place of such a goal. This alone is said if an answer of the function names what isn't there.
OPEN_GOAL = re.compile(r"^note: (src/\S+?):(\d+):\d+: it is not proved", re.M)
# What it says of a proof file whose answer or invariant no longer fits.
WRONG_ANSWER = re.compile(r"^(?:\./)?(proofs/(\S+)/(\w+)\.antt):(\d+):\d+: error: (.*)$", re.M)
# An answer of a cycle of calls, whose functions have one file: it begins with the path of its function.
OF_CYCLE = re.compile(r"pub ((?:\w+::)+\w+)-")
# What it says of an answer that names what isn't there.
NAMES = re.compile(r"has no field|is not in scope|has no `|was not admitted")
FUNCTION = re.compile(r"( *)(?:pub(?:\([a-z]+\))? )?(?:const )?fn (\w+)")
IMPL = re.compile(r"impl\b(?:<.*?>)? ?(?:(?:\w+::)*(\w+)(?:<.*>)? for )?(?:\w+::)*(\w+)")


class BadEdit(Exception):
    """The edit can't be made."""


class Edit:
    """A wrong body: its name, the lines that it changes in each file, the functions in which they stand, and the proofs that it needs beside theirs."""

    def __init__(self, path, crate):
        self.name = path.name
        self.changes = {}
        self.places = set()
        self.proofs = {}
        # what a twin has in their place when nothing is wrong
        self.right = {}
        for file, text in made(path.read_text(), crate).items():
            before = (crate / file).read_text()
            lines = text.split("\n")
            matcher = difflib.SequenceMatcher(None, before.split("\n"), lines, autojunk=False)
            self.changes[file] = [(i, j, lines[m:n]) for what, i, j, m, n in matcher.get_opcodes() if what != "equal"]
            self.places |= {place(file, before, line) for first, end, _ in self.changes[file] for line in range(first, max(end, first + 1))}

    def functions(self):
        """The functions in which it stands; none if a part of it stands outside of all."""
        return set() if None in self.places else self.places


def made(said, crate):
    """The files that an edit changes, with its pairs made one after the other."""
    texts, file, old = {}, None, None
    for line in said.split("\n"):
        if line.startswith("file: "):
            file = line.removeprefix("file: ").strip()
            if not file.startswith("src/"):
                raise BadEdit(f"{file} is not below src/")
            texts.setdefault(file, (crate / file).read_text())
        elif line.startswith("old: "):
            old = line.removeprefix("old: ")
        elif line.startswith("new:"):
            if not file or not old:
                raise BadEdit("a line `new:` stands before `file:` or `old:`")
            texts[file] = replaced(texts[file], old, line.removeprefix("new:").removeprefix(" "), file)
    if not texts:
        raise BadEdit("it names no file")
    return texts


def replaced(text, old, new, file):
    """The text with an old part of it made new, which stands in it once or is one whole line."""
    if text.count(old) == 1:
        return text.replace(old, new)
    lines = text.split("\n")
    if lines.count(old) != 1:
        raise BadEdit(f"{old!r} does not stand once in {file}")
    return "\n".join(new if line == old else line for line in lines)


def place(file, text, line):
    """The function in which a line stands: its module path, its block, and its name. None if it stands in none."""
    for block, name, first, last in spans(text):
        if first <= line <= last:
            return module(file), block, name
    return None


def spans(text):
    """The block, name, first and last line of each function, by its layout, inner ones first. A block is a type and a trait, or no name in their place."""
    lines, found, block = text.split("\n"), [], ("", "")
    for first, line in enumerate(lines):
        if line.startswith("impl"):
            of_trait, of_type = IMPL.match(line).groups()
            block = of_type, of_trait or ""
        elif line == "}":
            block = "", ""
        head = FUNCTION.match(line)
        if head:
            ends = (i for i in range(first, len(lines)) if lines[i].startswith(head[1] + "}"))
            found.append((block, head[2], first, next(ends, first)))
    return sorted(found, key=lambda it: it[3] - it[2])


def module(file):
    """The module path of a source file."""
    parts = file.removeprefix("src/").removesuffix(".rt").split("/")
    return () if parts in (["lib"], ["main"]) else tuple(parts)


def make(edits, crate):
    """Makes the edits in the crate's files, each where it stands in the file as it is."""
    for file in {file for edit in edits for file in edit.changes}:
        lines = (crate / file).read_text().split("\n")
        for first, end, new in sorted((it for edit in edits for it in edit.changes.get(file, [])), reverse=True):
            lines[first:end] = new
        (crate / file).write_text("\n".join(lines))
    for file, text in (it for edit in edits for it in edit.proofs.items()):
        (crate / file).parent.mkdir(exist_ok=True)
        (crate / file).write_text(text)


def opened(log, crate):
    """The paths of the functions that have an open goal or a wrong answer of their own, in what a check of this crate said."""
    paths = {tuple(path.split("::")[1:]) for path in UNPROVED.findall(log)}
    unbound = set()
    for file, folder, kind, line, said in WRONG_ANSWER.findall(log):
        path = answered(crate / file, folder, int(line))
        if not NAMES.search(said):
            paths.add(path)
        elif kind == "Invariants" or "`goal." in said:
            unbound.add(path)
    # (a loop whose invariant names what isn't there has none, and a goal that has another name now has no answer: open whatever the body does)
    noted = {place(file, (crate / file).read_text(), int(line) - 1) for file, line in OPEN_GOAL.findall(log)} - {None}
    return paths | {path_of(*it) for it in noted if not any(is_path(path, *it) for path in unbound)}


def answered(file, folder, line):
    """The path of the function whose answer stands at this line of a file. The folder of one that calls itself has a + before its name, and so has that
    of a cycle of calls."""
    of_cycle = [found[1] for it in file.read_text().split("\n")[:line] if (found := OF_CYCLE.match(it))]
    return tuple(of_cycle[-1].split("::") if of_cycle else folder.replace("+", "").split("/"))


def is_refused(edit, paths):
    """Whether a function in which the edit stands is among these; for an edit outside of functions, whether there is any."""
    if not edit.functions():
        return bool(paths)
    return any(is_path(path, *function) for path in paths for function in edit.functions())


def said_of(edit, log):
    """What the check says of the functions in which an edit stands."""
    said = [line for path, line in SAID.findall(log) if any(is_path(tuple(path.split("::")[1:]), *it) for it in edit.functions())]
    return "; ".join(said)[:400] or "the check says nothing of it"


def is_path(path, inside, block, name):
    """Whether a path of the check is that of a function. A method's path has the module and the name of its type, wherever the method stands, and after
    that name a trait's, with the trait's arguments."""
    if any(block):
        return path[-1] == name and len(path) > 1 and path[-2].startswith("".join(block))
    return path == (*inside, name)


def path_of(inside, block, name):
    """A path that is that of a function."""
    return (*inside, "".join(block), name) if any(block) else (*inside, name)


def asked(inside, block, name):
    """What a check is asked for, so that it checks this function: its path, or the module of a trait's method."""
    of_type, of_trait = block
    if of_trait:
        return "::".join(inside)
    return f"{of_type}::{name}" if of_type else "::".join([*inside, name])
