#!/usr/bin/env python3
"""What the last check of each crate cost, which chain of crates is the longest, and which functions are the dearest to prove.

    cost.py [CRATE ..]

A crate waits for those below it, so no gate is shorter than its longest chain. A check makes a derivation of each body: a step for each statement, with what is live there. It grows with statements, live places and exits, and half of
the time of a proof goes with it, so its size says what a function costs. Read is what `rt check` and `make kept` left in crates/NAME/out.
"""
import pathlib
import sys

top = pathlib.Path(__file__).resolve().parent.parent
sys.path.insert(0, str(top / "tests"))
from crates import uses

crates = top / "crates"
SHOWN = 20


def kept(name):
    """The folder of what the last check of a crate kept; None if there is none."""
    found = sorted((crates / name / "out" / "incremental").glob("antt-checked-*"), key=lambda it: it.stat().st_mtime)
    return found[-1] if found else None


def seconds(folder):
    """How long the last check took, or `?` if it was cut off or proved nothing new."""
    begun, ended = folder / "rattle-last-used", folder / "judged"
    if not ended.is_file() or ended.stat().st_mtime < begun.stat().st_mtime:
        return "?"
    return f"{ended.stat().st_mtime - begun.stat().st_mtime:.0f}"


def derivations(folder):
    """The functions, by their paths, with the bytes of their derivations."""
    return {path.name.partition("-proofs.")[2].removesuffix(".Lts.oantt"): path.stat().st_size for path in folder.glob("*-proofs.*.Lts.oantt")}


def chain(seconds, used):
    """The chain of crates that takes the most of these seconds, lowest first: each uses the one before it. A crate of which none are known takes none."""
    longest = {}
    for name in used:
        below = max((longest[it] for it in used[name] if it in longest), key=lambda it: total(it, seconds), default=[])
        longest[name] = [*below, name]
    return max(longest.values(), key=lambda it: total(it, seconds), default=[])


def total(names, seconds):
    return sum(seconds.get(it, 0) for it in names)


def line(names, seconds):
    """A chain, with the seconds of each crate."""
    return f"the longest chain, {total(names, seconds):.0f} seconds: {', '.join(f'{it} {seconds.get(it, 0):.0f}' for it in names)}"


def main(names):
    folders = {name: kept(name) for name in names or sorted(it.name for it in crates.iterdir())}
    sizes = {}
    print(f"{'':20}{'seconds':>8}{'MB of derivations':>20}")
    for name, folder in folders.items():
        if folder:
            found = derivations(folder)
            sizes |= {(name, function): size for function, size in found.items()}
            print(f"{name:20}{seconds(folder):>8}{sum(found.values()) / 1e6:20.1f}")
    known = {name: float(it) for name, folder in folders.items() if folder and (it := seconds(folder)) != "?"}
    print(f"\n{line(chain(known, uses()), known)}")
    print(f"\nthe dearest functions, of {len(sizes)}, in MB")
    for name, function in sorted(sizes, key=sizes.get, reverse=True)[:SHOWN]:
        print(f"{sizes[name, function] / 1e6:6.2f}  {name} {function}")


if __name__ == "__main__":
    main(sys.argv[1:])
