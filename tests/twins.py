"""Many edits of a crate at once: those of different functions where they stand, and a second one of a function in a twin of it.

A twin stands after its function under another name, with the same contract and the same answers, and has the wrong body. Nothing calls it. So what the
prover is given for the twin is what it would be given for the function under that edit, and the twin has an open goal exactly if the function would.
"""
import copy
import re

import edits as wrong


def together(edits, crate):
    """The edits that one check tries, and those that have to be tried alone."""
    batch, alone, taken = [], [], set()
    for edit in edits:
        functions = edit.functions()
        if functions and not functions & taken:
            taken |= functions
            batch.append(edit)
        else:
            made = beside(edit, crate)
            (batch if made else alone).append(made or edit)
    return batch, alone


def beside(edit, crate):
    """The edit as it is made in a twin of its function. None if the prover would see the twin otherwise than the function: if the edit stands in
    several functions or in none, or if the function is a method of a trait or one of a cycle of calls."""
    if len(edit.functions()) != 1:
        return None
    [(inside, block, name)], [(file, changes)] = edit.places, edit.changes.items()
    lines = (crate / file).read_text().split("\n")
    first, last = next(it[2:] for it in wrong.spans("\n".join(lines)) if it[:2] == (block, name) and it[2] <= changes[0][0] <= it[3])
    top = first
    while lines[top - 1].strip().startswith("#["):
        top -= 1
    body = lines[top : last + 1]
    of_type, of_trait = block
    if of_trait or is_in_cycle(body, of_type, name):
        return None
    twin = f"{name}_as_{edit.name.removesuffix('.edit')}"
    made = copy.copy(edit)
    made.right = {file: [(last + 1, last + 1, ["", *renamed(body, first - top, name, twin)])]}
    for begin, end, new in reversed(changes):
        body[begin - top : end - top] = new
    made.changes = {file: [(last + 1, last + 1, ["", *renamed(body, first - top, name, twin)])]}
    made.places = {(inside, block, twin)}
    made.proofs = dict(proofs(crate, (inside, block, name), twin))
    return made


def renamed(body, at, name, twin):
    """The lines of a function, its head at this one, under another name."""
    return [*body[:at], body[at].replace(f"fn {name}", f"fn {twin}", 1), *body[at + 1 :]]


def right(edit):
    """The same with nothing wrong: its function as it is, or a twin like it."""
    made = copy.copy(edit)
    made.changes = edit.right
    return made


def is_in_cycle(body, of_type, name):
    """Whether the function with these lines is one of a cycle of calls, or calls itself."""
    itself = rf"\b(?:self\.|Self::|{of_type}::){name}\b" if of_type else rf"(?<![.:\w])(?<!fn ){name}\("
    return any("#[cycle(" in line or re.search(itself, line) for line in body)


def proofs(crate, function, twin):
    """The proof files of a function, as those of its twin."""
    proofs = crate / "proofs"
    for file in proofs.rglob("*.antt"):
        folder = file.parent.relative_to(proofs)
        if folder.parts and wrong.is_path(folder.parts, *function):
            cited = ".proofs." + ".".join(folder.parts)
            text = file.read_text().replace(f"{cited}.", f"{cited.rpartition('.')[0]}.{twin}.")
            yield (proofs / folder.parent / twin / file.name).relative_to(crate), text
