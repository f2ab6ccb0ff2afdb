"""Right functions that are left out of a trial of edits.

The prover judges a function by its own contract and the contracts of what it calls. So when edits are tried, the body of a right function need not be
there: it becomes `unreachable!()`, whose one goal is answered by a hole. The check is told to go past holes, and does next to nothing for such a function.

Left as they are: functions with an edit, methods of traits, members of cycles of calls, constant functions, tests, and what has another function inside.
"""
import pathlib
import re
import shutil

import edits as wrong

# The start of a function or block with parameters in angle brackets, and those.
HEAD = re.compile(r" *(?:pub(?:\([a-z]+\))? )?(?:fn \w+|impl)<(.*?)>")
TYPE = re.compile(r"^(?:pub(?:\([a-z]+\))? )?(?:struct|enum) (\w+)", re.M)
GOAL = "unreachable-requires"


def leave_out(crate, kept):
    """Leaves each right function out of this copy of a crate, but those that are to be kept. How many were left out."""
    count, homes = 0, homes_of(crate)
    for path in sorted((crate / "src").rglob("*.rt")):
        inside, lines = wrong.module(str(path.relative_to(crate))), path.read_text().split("\n")
        # (from the last one on, so that the lines of those before stay where they are)
        for block, name, first, last in sorted(wrong.spans("\n".join(lines)), key=lambda it: -it[2]):
            top = first
            while lines[top - 1].strip().startswith("#["):
                top -= 1
            opening = opening_of(lines, first, last)
            has_home = not any(block) or not block[1] and block[0] in homes
            if opening is None or not has_home or (inside, block, name) in kept or not is_plain(lines[top : last + 1], first - top):
                continue
            home = pathlib.Path(*homes[block[0]], block[0]) if any(block) else pathlib.Path(*inside)
            answer(crate, home, name, takes_types(lines, first, block))
            lines[opening + 1 : last] = [re.match(" *", lines[first])[0] + "    unreachable!()"]
            # (an attribute that names a lemma has no goal left)
            lines[top:first] = [it for it in lines[top:first] if "tactic(" not in it]
            count += 1
        path.write_text("\n".join(lines))
    return count


def homes_of(crate):
    """The module of each type of a crate: the proof of a method has its folder there, wherever the method stands."""
    sources = sorted((crate / "src").rglob("*.rt"))
    return {name: wrong.module(str(path.relative_to(crate))) for path in sources for name in TYPE.findall(path.read_text())}


def opening_of(lines, first, last):
    """The line with the opening brace of a body, as rt fmt lays it out; None for one that stands on one line."""
    indent = re.match(" *", lines[first])[0]
    is_opening = lambda i: lines[i] == indent + "{" or lines[i].endswith(" {") and (i == first or lines[i].startswith(indent + ")"))
    return next(filter(is_opening, range(first, last)), None)


def is_plain(lines, at):
    """Whether a function with these lines, its head at this one, can be left out."""
    has_inner = any(wrong.FUNCTION.match(it) for it in lines[at + 1 :])
    return not has_inner and "const fn" not in lines[at] and " main(" not in lines[at] and not any("cycle(" in it or "#[test]" in it for it in lines[:at])


def takes_types(lines, first, block):
    """Whether the answers of a function take its types: it, or the block in which it stands, has one among its parameters."""
    heads = [lines[first], *([it for it in lines[:first] if it.startswith("impl")][-1:] if any(block) else [])]
    found = [HEAD.match(it) for it in heads]
    return any(not name.strip().startswith("'") for it in found if it for name in it[1].split(","))


def answer(crate, home, name, has_types):
    """Has the proof of the function with this folder be a hole."""
    folder = crate / "proofs" / home / name
    for old in (folder, folder.with_name(f"+{name}")):
        shutil.rmtree(old, ignore_errors=True)
    folder.mkdir(parents=True)
    module = ".".join(["Rattle", crate.name, "proofs", *home.parts, name])
    (folder / "Answers.antt").write_text(f"use {module}.Goals as goal\n\npub {GOAL} : goal.{GOAL}\n{GOAL} {'g ' if has_types else ''}c = ?\n")
