#!/usr/bin/env python3
"""An edit that a weaker definition below lets through is found by the lot of some of six revisions (verdicts.py), by the prover, on two made-up crates."""
import os
import pathlib
import re
import shutil
import tempfile

import crates
import try_edits
from counted import Counted
from programs import top
from trial import Trial, crate_words, ran
from verdicts import Verdicts, lot

count = Counted()

SMALL = """-- Numbers that are small.
use Rattle.std.specs.Prelude.{ℕ, ◌≤◌}

abbrev pub Small : ℕ → Type 0
Small n = n ≤ %s
"""
LOW = """#![tactic(auto)]

ghost use Rattle.low.specs.Small.{Small};

pub fn digit(number: u8) -> u8
    ensures { Small result }
{
    number % 10
}
"""
OVER = """#![tactic(auto)]

ghost use Rattle.low.specs.Small.{Small};
ghost use Rattle.std.specs.Prelude.{◌≡◌};
"""
# Two kinds of functions, six of each; and a wrong body of each: of the first kind, a weaker definition lets it through.
FITS = """
pub fn small_%d(number: u8) -> u8
    ensures { Small result }
{
    number %% %d
}
"""
IS = """
pub fn first_%d(number: u8, _other: u8) -> u8
    ensures { result ≡ number }
{
    let other_%d = number;
    other_%d
}
"""
EDIT = "file: src/lib.rt\nold:     %s\nnew:     %s\n"
# A definition more, which makes another revision of the crate below.
MORE = "\nabbrev pub another_%d : ℕ\nanother_%d = %d\n"


def lay_out(room):
    """The repository, with its edits."""
    for path, text in {
        "crates.txt": "low:\nover: low\n",
        "crates/low/src/lib.rt": LOW,
        "crates/low/specs/Lib.antt": "pub mod Small\n",
        "crates/low/specs/Small.antt": SMALL % 9,
        "crates/over/src/lib.rt": OVER + "".join(FITS % (it, 10 - it) for it in range(6)) + "".join(IS % (it, it, it) for it in range(6)),
        **{f"crates/over/edits/small_{it}.edit": EDIT % (f"number % {10 - it}", f"number % {90 - it}") for it in range(6)},
        **{f"crates/over/edits/first_{it}.edit": EDIT % (f"let other_{it} = number;", f"let other_{it} = number / 2;") for it in range(6)},
    }.items():
        (room / path).parent.mkdir(parents=True, exist_ok=True)
        (room / path).write_text(text)
    shutil.copy(top / "HANDLES", room)
    for folder in [".git", "tried"]:
        (room / folder).mkdir()


def proved(room):
    """Whether the two are proved as they stand; the library of the lower one is built."""
    built = room / "crates"
    library = built / "low" / "out" / "rlib" / "low.rlib"
    shutil.rmtree(library, ignore_errors=True)
    library.parent.mkdir(parents=True, exist_ok=True)
    said = ran(["rattle", "build", *crate_words("low", built), "-o", library], built / "low")[0]
    said += ran(["rattle", "check", *crate_words("over", built)], built / "over")[0]
    return len(re.findall("^logic=proved", said, re.M)) == 2 or said[-2000:]


def lots(room, definitions):
    """The lot of these definitions below, as edits.lock has the line of others; the file stands as it was afterwards."""
    path = room / "crates" / "low" / "specs" / "Small.antt"
    before = path.read_text()
    path.write_text(definitions)
    found = Verdicts(["over"], crates.uses(), room / "crates").lots(try_edits.names_of)
    path.write_text(before)
    return found.get("over")


with tempfile.TemporaryDirectory() as name:
    room = pathlib.Path(name)
    lay_out(room)
    crates.top = room
    os.environ.pop("ANEW", None)
    os.environ["XDG_CACHE_HOME"] = str(room / "cache")
    count.same("both crates are proved", proved(room), True)
    trial = Trial("over", room / "crates", room / "tried", False).run()
    count.same("all edits are refused", (len(trial.refused), trial.faults), (12, []))
    Verdicts(["over"], crates.uses(), room / "crates").keep("over", in_lock=True)
    count.same("there is no lot of what the lock lists", lots(room, SMALL % 9), None)

    # (a weaker definition, in six revisions)
    revisions = [SMALL % 200 + "".join(MORE % (each, each, each) for each in range(it)) for it in range(6)]
    drawn = [lots(room, it) for it in revisions]
    count.same("a lot has one edit in six, and at least two", [len(it) for it in drawn], [2] * 6)
    count.same("another run draws the same", [lots(room, it) for it in revisions], drawn)
    count.same("and another revision others", len({*map(tuple, drawn)}) > 1, True)
    found = [it for it in range(6) if any(edit.startswith("small_") for edit in drawn[it])]
    count.same("some of the six draw an edit that is let through", found != [], True)
    for it in found[:1]:
        (room / "crates" / "low" / "specs" / "Small.antt").write_text(revisions[it])
        count.same("the crates are proved with the weaker definition", proved(room), True)
        trial = try_edits.OfLot("over", room / "crates", room / "tried", drawn[it]).run()
        let_through = [edit for edit in drawn[it] if edit.startswith("small_")]
        count.same("the lot finds it", [fault.split(":")[0] for fault in trial.faults], [f"over/{edit}" for edit in let_through])
        count.same("and refuses the others", trial.refused, {*drawn[it]} - {*let_through})

count.same("a lot of a few", [len(lot([f"{each}" for each in range(many)], ("", ""))) for many in [1, 2, 3, 12, 13, 81]], [1, 2, 2, 2, 3, 14])
count.end()
