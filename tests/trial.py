"""The trial of a crate's edits: which of them the prover refuses (edits.py)."""
import os
import pathlib
import re
import shutil
import subprocess
import tempfile

import crates
import edits as wrong
import stubs
import twins


class NoVerdict(Exception):
    """The prover did not come to judge the edits: they can't be compiled, say."""


class Trial:
    """A crate in a copy of its own, in which its edits are tried over built libraries.

    They are made together, those of one function in twins (twins.py), and checked without the right functions (stubs.py). If that is asked, the control comes
    first, the same check without the wrong bodies: of a function that has an open goal there, the other says nothing. An edit that isn't seen to be refused is
    tried with the whole crate, and at last alone.
    """

    def __init__(self, name, built, room, has_control):
        self.name = name
        self.has_control = has_control
        self.built = built
        self.good = built / name
        self.crate = room / name
        self.kept = room / f"{name}.kept"
        self.refused = set()
        self.faults = []
        self.seconds = self.checks = 0

    def run(self):
        """Tries the edits: afterwards it has those that are refused, and what to say of the others."""
        kept = self.good / "out" / "incremental"
        shutil.copytree(kept, self.kept) if kept.is_dir() else self.kept.mkdir()
        try:
            self.tries(self.edits())
        finally:
            shutil.rmtree(self.crate, ignore_errors=True)
            shutil.rmtree(self.kept)
        return self

    def edits(self):
        """The edits that can be made."""
        found = []
        for path in edits_of(self.name):
            try:
                found.append(wrong.Edit(path, self.good))
            except wrong.BadEdit as why:
                self.faults.append(f"{self.name}/{path.name}: {why}")
        return found

    def tries(self, edits):
        """Tries edits in few checks, and alone what is not refused there."""
        batch, alone = twins.together(edits, self.good)
        self.refused |= self.seen_among_holes(batch) if batch else set()
        left = [edit for edit in [*batch, *alone] if edit.name not in self.refused]
        try:
            # (the goals of a function that calls one without a proof are not looked at, unless both are of one cycle of calls)
            for some in rounds(left):
                if len(some) > 1:
                    self.refused |= refused_by(wrong.opened(self.check(some), self.crate), some)
            for edit in edits:
                if edit.name not in self.refused:
                    said = self.check([edit])
                    if wrong.is_refused(edit, wrong.opened(said, self.crate)):
                        self.refused.add(edit.name)
                    else:
                        self.faults.append(f"{self.name}/{edit.name}: no function in which it stands has an open goal of its own: {wrong.said_of(edit, said)}")
        except NoVerdict as why:
            self.faults += [f"{self.name}/{edit.name}: {why}" for edit in edits if edit.name not in self.refused]

    def seen_among_holes(self, batch):
        """The edits that are refused while the right functions are left out, and that would not be without their wrong body."""
        try:
            known = wrong.opened(self.check([twins.right(it) for it in batch], is_whole=False), self.crate) if self.has_control else set()
            return refused_by(wrong.opened(self.check(batch, is_whole=False), self.crate) - known, batch)
        except NoVerdict:
            return set()

    def check(self, edits, is_whole=True):
        """What the check says of the functions in which these edits stand, all made together."""
        shutil.rmtree(self.crate, ignore_errors=True)
        for part in crates.PARTS:
            if (self.good / part).is_dir():
                shutil.copytree(self.good / part, self.crate / part)
        wrong.make(edits, self.crate)
        words = ["rattle", "check", *crate_words(self.name, self.built), *only(edits), "--incremental", self.kept]
        if not is_whole:
            stubs.leave_out(self.crate, {place for edit in edits for place in edit.places})
            words.append("--allow-holes")
        said, seconds = ran(words, self.crate)
        self.seconds += seconds
        self.checks += 1
        if not re.search(r"^(only|logic|holes)=", said, re.M):
            raise NoVerdict("the prover gives no verdict: " + " ".join(said.strip().split("\n")[-3:])[-600:])
        return said


def refused_by(paths, edits):
    """Those of the edits that stand in functions with an open goal, which these are."""
    return {edit.name for edit in edits if wrong.is_refused(edit, paths)}


def edits_of(name):
    """The files of a crate's edits."""
    return sorted((crates.top / "crates" / name / "edits").glob("*.edit"))


def rounds(edits):
    """Those of the edits that stand in functions, in lists of which each has at most one of a function."""
    found = []
    for edit in (it for it in edits if it.functions()):
        places = edit.functions()
        fits = next((it for it in found if not any(places & other.functions() for other in it)), None)
        if fits is None:
            found.append([edit])
        else:
            fits.append(edit)
    return found


def crate_words(name, built):
    """What a check of a crate is told, as `rattle check --help` names it: the crate, and the libraries that it uses, built."""
    kit = pathlib.Path(subprocess.check_output(["rt", "doc"], text=True)).parent
    used = crates.uses()
    libraries = {it: built / it / "out" / "rlib" if it in used else kit / "rlibs" for it in ["std", *crates.libraries(name)]}
    words = ["--crate-name", name, "src/main.rt" if (built / name / "src" / "main.rt").exists() else "src/lib.rt"]
    for library, folder in libraries.items():
        words += ["--extern", f"{library}={folder / library}.rlib"]
    for folder in [kit / "rlibs", *(built / it / "out" / "rlib" for it in sorted(crates.below(used, name)))]:
        words += ["-L", f"dependency={folder}"]
    return [*words, "--antt-project", kit / "rattle" / "logic" / "antt-project.json", "--logic-built", kit / "logic_built"]


def only(edits):
    """What asks a check for the functions of these edits alone, and what they call; nothing if one stands outside of functions."""
    asked = {wrong.asked(*function) for edit in edits for function in edit.functions()}
    if "" in asked or not all(edit.functions() for edit in edits):
        return []
    return [word for it in sorted(asked) for word in ["--only", it]]


def ran(words, folder):
    """What a command says, and the processor seconds that it takes."""
    with tempfile.TemporaryFile() as said:
        started = subprocess.Popen(words, cwd=folder, stdin=subprocess.DEVNULL, stdout=said, stderr=subprocess.STDOUT)
        _, status, used = os.wait4(started.pid, 0)
        started.returncode = os.waitstatus_to_exitcode(status)
        said.seek(0)
        return said.read().decode(errors="replace"), used.ru_utime + used.ru_stime
