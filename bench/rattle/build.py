#!/usr/bin/env python3
"""Proves and builds programs of this folder over the crates, into build/NAME.

    build.py NAME ..

A program that only measures would cost each gate some minutes, since what it links is proved as a whole; so its files stand here with `.in` behind
their names, where the gate reads none of them. `uses` lists the libraries that it names itself. They are built in a copy of the repository outside
of it, since the gate wants one crates.txt alone, the one at the top.
"""
import pathlib
import shutil
import subprocess
import sys
import tempfile

here = pathlib.Path(__file__).resolve().parent
top = here.parent.parent
sys.path.insert(0, str(top / "tests"))
import crates


def libraries(name):
    """The libraries that a program names."""
    return (here / name / "uses").read_text().split()


def copy(room, names):
    """The crates on which the programs stand, with what was kept of their proofs, and the programs' own files."""
    used = crates.uses()
    crates.lay_out(room, {it for name in names for library in libraries(name) for it in {library, *crates.below(used, library)}}, "must-fail", "edits")
    for name in names:
        for path in (here / name).rglob("*.in"):
            to = room / "crates" / name / path.relative_to(here / name).with_suffix("")
            to.parent.mkdir(parents=True, exist_ok=True)
            shutil.copy(path, to)
        with (room / "crates.txt").open("a") as listed:
            listed.write(f"{name}: {' '.join(libraries(name))}\n")


def is_built(room, name):
    """Builds a program, and says whether it could."""
    crate = room / "crates" / name
    ran = subprocess.run(["rt", "run", "--", "0"], cwd=crate, stdin=subprocess.DEVNULL, stdout=subprocess.PIPE, stderr=subprocess.STDOUT)
    made = crate / "out" / name
    if not made.exists():
        sys.stdout.write(ran.stdout.decode(errors="replace")[-4000:])
        return False
    (top / "build").mkdir(exist_ok=True)
    shutil.copy(made, top / "build" / name)
    return True


def main(names):
    if not names or not all((here / name / "uses").exists() for name in names):
        print(__doc__, file=sys.stderr)
        return 2
    with tempfile.TemporaryDirectory() as folder:
        room = pathlib.Path(folder)
        copy(room, names)
        return 0 if all([is_built(room, name) for name in names]) else 1


if __name__ == "__main__":
    sys.exit(main(sys.argv[1:]))
