#!/usr/bin/env python3
"""What is kept of the verdicts on edits: an entry counts as long as nothing on which its verdict rests has changed, and no longer. Nothing is proved here."""
import os
import pathlib
import shutil
import tempfile

import crates
from counted import Counted
from verdicts import LOT, Verdicts, lines_of_lock, lock_file

count = Counted()
# a crate, the one below it, and one that is not
TRIED, BELOW, APART = "rk_options", "rk_text", "rk_variables"


def verdicts():
    return Verdicts([TRIED], crates.uses(), crates.top / "crates")


def kept():
    """Whether the edits of the crate count as refused on this machine."""
    return verdicts().is_kept(TRIED)


def locked():
    """Whether edits.lock lists them."""
    return verdicts().locked() == [TRIED]


def on_a_lot():
    """Whether a lot of them is tried, since only what is below has changed."""
    return [*verdicts().lots(lambda _: ["one", "two", "three"])] == [TRIED]


def changed(file, asked=kept, line=b""):
    """Whether they do while this file has one more line, which is taken away again."""
    path = crates.top / file
    before = path.read_bytes()
    path.write_bytes(before + line + b"\n")
    said = asked()
    path.write_bytes(before)
    return said


def some(name, part, pattern="*"):
    """A file of a part of a crate."""
    return next(it for it in sorted((crates.top / "crates" / name / part).rglob(pattern)) if it.is_file()).relative_to(crates.top)


with tempfile.TemporaryDirectory() as name:
    room = pathlib.Path(name)
    for part in ["HANDLES", "crates.txt"]:
        shutil.copy(crates.top / part, room)
    for crate in [*crates.below(crates.uses(), TRIED), TRIED, APART]:
        shutil.copytree(crates.top / "crates" / crate, room / "crates" / crate, ignore=shutil.ignore_patterns("out"))
        # what a build leaves of a library, in a line
        interface = room / "crates" / crate / "out" / "rlib" / f"{crate}.rlib" / "interface" / "lib.rt"
        interface.parent.mkdir(parents=True)
        interface.write_text(f"pub fn of_{crate} ( ) ;\n")
    crates.top = room
    os.environ.pop("ANEW", None)
    os.environ["XDG_CACHE_HOME"] = str(room / "cache")

    count.same("nothing is kept at first", kept(), False)
    first = verdicts()
    source = room / some(TRIED, "src")
    text = source.read_bytes()
    source.write_bytes(text + b"\n")
    first.keep(TRIED)
    count.same("nor of files that were changed while they were tried", kept(), False)
    source.write_bytes(text)
    count.same("nor when they are as before", kept(), False)
    first.keep(TRIED)
    count.same("what was refused is kept", kept(), True)
    count.same("and not in the lock", lock_file().exists(), False)
    for what, file, want in [
        ("an edit", some(TRIED, "edits"), False),
        ("a source", some(TRIED, "src"), False),
        ("a definition", some(TRIED, "specs"), False),
        ("a definition below", some(BELOW, "specs"), False),
        ("a lemma below", some(BELOW, "proofs", "Cuts.antt"), False),
        ("an interface below", some(BELOW, "out"), False),
        ("a body below", some(BELOW, "src"), True),
        ("an answer below", some(BELOW, "proofs", "Answers.antt"), True),
        ("a crate that is not below", some(APART, "src"), True),
        ("HANDLES", "HANDLES", False),
    ]:
        count.same(f"another line in {what}", changed(file), want)
    for what, file, line in [
        ("a source", some(TRIED, "src"), b"    // why"),
        ("a definition", some(TRIED, "specs"), b"-- why"),
        ("a definition below", some(BELOW, "specs"), b"-- why"),
    ]:
        count.same(f"another comment in {what}", changed(file, line=line), True)
    count.same("another line in a source that would be a comment in a definition", changed(some(TRIED, "src"), line=b"-- why"), False)
    lines = (room / "crates.txt").read_text()
    (room / "crates.txt").write_text(lines.replace(f"{TRIED}: ", f"{TRIED}: {APART} "))
    count.same("one more library", kept(), False)
    (room / "crates.txt").write_text(lines)

    lock_file().write_text(f"{TRIED} another-toolchain 0 1\n{APART} another-toolchain 0 1 more=2\n{BELOW} another-toolchain 0\n")
    first.keep(TRIED, in_lock=True, searched=3)
    here = first.line_of(TRIED)
    beside = [(TRIED, "another-toolchain"), (APART, "another-toolchain")]
    count.same("the lock has a line of it, beside those that it had, but for one with a single sum", sorted(lines_of_lock()), sorted([here, *beside]))
    count.same("with what else is said of it", (lines_of_lock()[here], lines_of_lock()[beside[1]]), ((*first.sums[TRIED], "searched=3"), ("0", "1", "more=2")))
    first.keep(TRIED, in_lock=True)
    count.same("which stays while the sums do", lines_of_lock()[here][2:], ("searched=3",))
    count.same("and it counts", locked(), True)
    count.same("not for another source", changed(some(TRIED, "src"), locked), False)
    for what, file, of_lock, of_lot in [
        ("nothing else", None, True, False),
        ("another source", some(TRIED, "src"), False, False),
        ("another edit", some(TRIED, "edits"), False, False),
        ("another definition", some(TRIED, "specs"), False, False),
        ("HANDLES", "HANDLES", False, False),
        ("another definition below", some(BELOW, "specs"), False, True),
        ("another lemma below", some(BELOW, "proofs", "Cuts.antt"), False, True),
        ("another interface below", some(BELOW, "out"), False, True),
        ("another body below", some(BELOW, "src"), True, False),
    ]:
        got = (changed(file, locked), changed(file, on_a_lot)) if file else (locked(), on_a_lot())
        count.same(f"whether the lock lists it, and a lot is tried, for {what}", got, (of_lock, of_lot))
    written = lock_file().read_text()
    lock_file().write_text(written.replace(first.sums[TRIED][0], first.sums[TRIED][0][::-1]))
    count.same("nor by a line with another sum", locked(), False)
    lock_file().write_text(written.replace(" ".join(here), f"{TRIED} a-third-toolchain"))
    count.same("nor by a line of another toolchain", locked(), False)
    shutil.rmtree(room / "cache")
    count.same("so the edits are tried", verdicts().taken(for_lock=False), {})
    lock_file().write_text(written)
    count.same("what the lock lists is taken", [*verdicts().taken(for_lock=False)], [TRIED])
    count.same("but what is drawn by lot", verdicts().taken(for_lock=False, drawn=[TRIED]), {})
    first.keep(TRIED)
    count.same("what is kept is taken", [*verdicts().taken(for_lock=False, drawn=[TRIED])], [TRIED])
    count.same("not for a line of the lock, which wants a control", verdicts().taken(for_lock=True), {})
    first.keep(TRIED, in_lock=True)
    count.same("and one that had it is", [*verdicts().taken(for_lock=True)], [TRIED])
    os.environ["ANEW"] = "1"
    count.same("but where all are to be tried again", verdicts().taken(for_lock=False), {})
    count.same("and then there is no lot", changed(some(BELOW, "specs"), on_a_lot), False)
    del os.environ["ANEW"]
    path = room / some(BELOW, "specs")
    path.write_bytes(path.read_bytes() + b"\n\n")
    verdicts().keep(TRIED, of_lot=True)
    count.same("a lot that was refused is kept", (verdicts().is_kept(TRIED, LOT), kept()), (True, False))
    os.environ["XDG_CACHE_HOME"] = "cache"
    verdicts().keep(TRIED)
    count.same("a cache that is relative", kept(), False)
    count.same("makes no folder", pathlib.Path("cache").exists(), False)

count.end()
