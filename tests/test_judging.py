#!/usr/bin/env python3
"""What counts as a refusal of an edit (edits.py), in what a check may say. Nothing is proved here."""
import pathlib
import tempfile

import edits as wrong
import stubs
import twins
from counted import Counted

SOURCE = """#![tactic(auto)]

fn half(number: u8) -> u8
    ensures { result ≡ number / 2 }
{
    number / 2
}

impl fmt::Display for Shown {
    fn fmt<W: fmt::Write>(&self, f: &mut fmt::Formatter<W>) -> fmt::Result {
        f.write_str(self.name())
    }
}
"""
OPEN = "fn tried::half: no proof: expected answers in ./proofs/half/Answers.antt; `search` did not prove `returns`"
NOTED = "note: src/lib.rt:3:1: it is not proved that what the function ensures holds when it returns (`returns`)"
NAMED = "./proofs/half/{}.antt:3:5: error: `it`: record `Half` has no field `quotient`"
STOOD_ON = "fn tried::half: not proved; it stands on `it`, which antt refuses"

count = Counted()
with tempfile.TemporaryDirectory() as name:
    crate = pathlib.Path(name)
    for folder in ["src", "proofs/half"]:
        (crate / folder).mkdir(parents=True)
    (crate / "src" / "lib.rt").write_text(SOURCE)
    for kind in ["Answers", "Invariants"]:
        (crate / "proofs" / "half" / f"{kind}.antt").write_text("use Rattle.tried.proofs.half.Goals as goal\n")

    def edit(name, old, new):
        """An edit of the source."""
        (crate / f"{name}.edit").write_text(f"file: src/lib.rt\nold: {old}\nnew: {new}\n")
        return wrong.Edit(crate / f"{name}.edit", crate)

    third, shows = edit("third", "    number / 2", "    number / 3"), edit("shows_nothing", "self.name()", '""')

    def refused(*said, it=third):
        """Whether the edit is refused if a check says this."""
        return wrong.is_refused(it, wrong.opened("\n".join(said), crate))

    for what, said, want in [
        ("a goal that was not proved", [OPEN], True),
        ("one of another function", [OPEN.replace("half", "third")], False),
        ("a function that only calls one", ["fn tried::half: no proof; it calls `tried::third`, which is not proved"], False),
        ("an answer that does not fit", ["./proofs/half/Answers.antt:3:5: error: `returns`: the two types differ", STOOD_ON], True),
        ("an answer that names what is gone", [NAMED.format("Answers"), STOOD_ON], False),
        ("and a goal beside it", [NAMED.format("Answers"), NOTED, STOOD_ON], True),
        ("a goal after a loop whose invariant is gone", [NAMED.format("Invariants"), NOTED, STOOD_ON], False),
        ("a goal that had an answer under another name",
         ["./proofs/half/Answers.antt:3:5: error: `it`: `goal.it`: module `Goals` has no `it`", NOTED, STOOD_ON], False),
        ("what the prover does not cover", [OPEN.replace("`search`", "the borrow checker does not cover this function yet: `search`")], False),
        ("a goal of Display's", ["fn tried::ShownDisplay::fmt: no proof: `search` did not prove `returns`"], False),
    ]:
        count.same(what, refused(*said), want)
    count.same("an impl of a trait with a path", shows.functions(), {((), ("Shown", "Display"), "fmt")})
    count.same("its goal", refused("fn tried::ShownDisplay::fmt: no proof: `search` did not prove `returns`", it=shows), True)
    count.same("its note", refused(NOTED.replace(":3:1", ":11:9"), it=shows), True)

    quarter = edit("quarter", "    number / 2", "    number / 4")
    batch, alone = twins.together([third, quarter], crate)
    count.same("all together", [it.name for it in batch], ["third.edit", "quarter.edit"])
    count.same("none alone", alone, [])
    wrong.make([twins.right(it) for it in batch], crate)
    made = (crate / "src" / "lib.rt").read_text()
    count.same("without what is wrong, a twin is its function", made.count("    number / 2\n}"), 2)
    (crate / "src" / "lib.rt").write_text(SOURCE)
    wrong.make(batch, crate)
    made = (crate / "src" / "lib.rt").read_text()
    count.same("with it, one has each edit", [made.count(f"    number / {it}\n}}") for it in (2, 3, 4)], [0, 1, 1])
    count.same("all with an edit are kept, and methods of traits", stubs.leave_out(crate, {it for one in batch for it in one.places}), 0)
    count.same("else each is left out", stubs.leave_out(crate, third.places), 1)
    count.same("which leaves a hole", (crate / "proofs" / "half_as_quarter" / "Answers.antt").read_text().endswith("c = ?\n"), True)

count.end()
