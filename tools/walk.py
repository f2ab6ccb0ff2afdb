#!/usr/bin/env python3
"""Counts the functions through which a request goes: how many calls, of how many files, and how often the next call is of another file.

    walk.py [--list] [PROGRAM]

What is counted are calls of the functions and closures of crates/, in the order in which they are made. Calls of std and of ported crates are not counted,
nor is what the compiler writes itself, as a destructor or a derived comparison. `--list` also prints each call. Where no PROGRAM is named,
build/walk/reqkeyd is taken: it has all functions of the sources, since `rt run --backend rattle --opt-level 0`, which makes it, puts none into another. If
the toolchain can't do that, build/reqkeyd is taken, in which most functions are parts of others, and the output says so.

Needs valgrind, and the proofs that `make kept` has left in crates/NAME/out.
"""
import contextlib
import functools
import os
import pathlib
import re
import shutil
import subprocess
import sys
import tempfile

top = pathlib.Path(__file__).resolve().parent.parent
sys.path.insert(0, str(top / "bench"))
from costs import Client, Failed, serving
from traced import RUNS, GaveUp, Traced

UNOPTIMIZED = ["--backend", "rattle", "--opt-level", "0"]
BUILT, KEPT = top / "build" / "reqkeyd", top / "build" / "walk" / "reqkeyd"
CONF = "create user made:* * |/bin/cat\n"
SCRIPT = top / "examples" / "first-path.script"
LEAST, TRIES = 4, 10  # walks


# ---- the program


def room_for(folder):
    """A repository like this one, so that what is built stays apart from what `make` has built: with these libraries, and a copy of the daemon's proofs."""
    for path in (top / "crates").iterdir():
        crate = folder / "crates" / path.name
        shutil.copytree(path, crate, ignore=shutil.ignore_patterns("must-fail", "edits", "out"))
        if path.name == "reqkeyd":
            shutil.copytree(path / "out", crate / "out", ignore=shutil.ignore_patterns("reqkeyd*"))
        elif (path / "out" / "rlib").is_dir():
            # (gigabytes, which are only read)
            shutil.copytree(path / "out" / "rlib", crate / "out" / "rlib", copy_function=os.link)
    for name in ["crates.txt", "HANDLES"]:
        shutil.copy(top / name, folder)
    (folder / ".git").mkdir()
    return folder / "crates" / "reqkeyd"


def build():
    """Builds the unoptimized program. Whether it could."""
    KEPT.parent.mkdir(parents=True, exist_ok=True)
    with tempfile.TemporaryDirectory(dir=KEPT.parent) as folder:
        crate = room_for(pathlib.Path(folder))
        made = crate / "out" / "reqkeyd"
        words = ["rt", "run", *UNOPTIMIZED, "--", "--version"]
        ran = subprocess.run(words, cwd=crate, stdin=subprocess.DEVNULL, stdout=subprocess.PIPE, stderr=subprocess.STDOUT)
        if ran.returncode or not made.exists():
            sys.stderr.write(ran.stdout.decode(errors="replace")[-2000:])
            return False
        shutil.copy(made, KEPT)
        return True


def program():
    """The program that is walked through, and whether it is unoptimized."""
    if not BUILT.exists():
        raise Failed("build/reqkeyd is not built: make")
    if KEPT.exists() and KEPT.stat().st_mtime > BUILT.stat().st_mtime or build():
        return KEPT, True
    return BUILT, False


# ---- functions and files


def headed(block):
    """What a block of a file gives methods to: the type, and the trait behind it, as both stand in the names of functions."""
    head = re.sub(r"\s+", " ", block.partition("{")[0]).partition(" where ")[0].replace("->", "")
    while (shorter := re.sub(r"<[^<>]*>", "", head)) != head:
        head = shorter
    found = re.search(r"\b(?:impl|trait) *(?:(\S+) for )?[&']?([\w:]+)", head)
    return "".join(part.rpartition("::")[2] for part in [found[2], found[1] or ""]) if found else ""


@functools.cache
def methods(crate):
    """The file in which each method of a crate stands, by its type and its name: a type may have some in many files."""
    found = {}
    for path in sorted((top / "crates" / crate / "src").rglob("*.rt")):
        for block in re.findall(r"^(?:pub(?:\(\w+\))? )?(?:impl|trait)\b.*?^\}", path.read_text(), re.MULTILINE | re.DOTALL):
            for name in re.findall(r"^    (?:pub(?:\(\w+\))? )?(?:const )?fn (\w+)", block, re.MULTILINE):
                found[headed(block), name] = str(path.relative_to(top / "crates"))
    return found


@functools.cache
def declares(file, name):
    return re.search(rf"\bfn {re.escape(name)}\b", (top / "crates" / file).read_text()) is not None


def file_of(name):
    """The file in which a function stands, by its path; None if it is of no crate of the repository, or if the compiler has written it."""
    # (a second closure of one name has a number)
    crate, *path = re.sub(r"::<.*|\+\d+$", "", name, flags=re.DOTALL).split("::")
    sources = top / "crates" / crate / "src"
    if not path or "+" in "".join(path) or not sources.is_dir():
        return None
    if "fn" in path:  # a closure: it has the path of the function in which it stands, and a name of its own
        path = [part for part in path if part != "fn"][:-1]
    if tuple(path[-2:]) in methods(crate):
        return methods(crate)[tuple(path[-2:])]
    for length in range(len(path), -1, -1):
        found = sources.joinpath(*path[:length]).with_suffix(".rt") if length else sources / ("main.rt" if (sources / "main.rt").exists() else "lib.rt")
        file = str(found.relative_to(top / "crates"))
        if found.is_file() and declares(file, path[-1]):
            return file
    return None


def walk(names):
    """The calls of functions of the repository, each with its file."""
    return [(file, name) for name in names if (file := file_of(name))]


def row(of, calls):
    files = [file for file, _ in calls]
    changes = sum(one != other for one, other in zip(files, files[1:]))
    return f"{of:52}{len(calls):7}{len(set(files)):7}{changes:9}"


# ---- what is walked through


def alike(take):
    """The shortest of some walks, which has to come twice: in another one a thread may have had to wait."""
    taken = []
    for _ in range(TRIES):
        taken.append(take())
        shortest = min(taken, key=len)
        if len(taken) >= LEAST and taken.count(shortest) > 1:
            return shortest
    raise Failed("no two walks are alike")


@contextlib.contextmanager
def daemon(path):
    """A traced daemon and its client, who has a key."""
    with tempfile.TemporaryDirectory() as folder:
        room = pathlib.Path(folder)
        (room / "conf").write_text(CONF)
        words = ["serve", "--socket", room / "socket", "--conf", room / "conf", "--sessions", "1", "--clients", "1"]
        with (room / "errors").open("wb") as errors:
            traced = Traced(RUNS, path, words, room, stdin=subprocess.DEVNULL, stdout=subprocess.DEVNULL, stderr=errors)
        with serving(traced.child, room / "errors", room, True) as served, Client(served) as client:
            client.hello()
            client.ask("ADD user load v -4")
            yield traced, client


def without(calls, part):
    """A walk without another one, wherever it comes in it."""
    at, left = 0, []
    while at < len(calls):
        if part and calls[at : at + len(part)] == part:
            at += len(part)
        else:
            left.append(calls[at])
            at += 1
    return left


def asked(path, words):
    """The calls of one request, of a daemon that has answered nothing of the kind before, without those of its looks at the clock."""
    with daemon(path) as (traced, client):
        clock = walk(traced.calls(traced.idle()))
        return without(walk(traced.calls(traced.piece(lambda: client.ask(words)))), clock)


def found(path):
    return alike(lambda: asked(path, "REQUEST user load - 0"))


def constructed(path):
    return alike(lambda: asked(path, "REQUEST user made:it =hello 0"))


def played(path, script):
    """The calls of a replay, from where it reads the script to its end."""
    with tempfile.TemporaryDirectory() as folder:
        how = {"stdin": subprocess.PIPE, "stdout": subprocess.DEVNULL, "stderr": subprocess.DEVNULL}
        with Traced(RUNS, path, ["replay"], folder, **how) as traced:
            begin = traced.settled()
            traced.place()
            traced.child.communicate(script.encode())
            return walk(traced.calls(traced.path.read_bytes()[begin:].splitlines()))


def replayed(path):
    """A REQUEST of the example script: what a script takes that ends with it more than one that ends before it."""
    lines = [line for line in SCRIPT.read_text().splitlines(keepends=True) if not line.startswith("#")]
    at = next(number for number, line in enumerate(lines) if re.match(r"\d+ bytes \d+ [0-9a-f]{8}02", line))
    without, whole = played(path, "".join(lines[:at])), played(path, "".join(lines[: at + 1]))
    return more_of(whole, without)


def more_of(whole, without):
    """What stands in the one walk and not in the other: it is left when all that they begin and end with alike is taken off."""
    begin = next((at for at, (one, other) in enumerate(zip(whole, without)) if one != other), len(without))
    end = len(whole) - (len(without) - begin)
    if whole[end:] != without[begin:]:
        raise Failed("the walk of a script is not that of a shorter one, and something more")
    return whole[begin:end]


WALKS = {
    "a found REQUEST, through serve": found,
    "a REQUEST of examples/first-path.script, in a replay": replayed,
    "a piped construction, through serve": constructed,
}


def main(words):
    lists = "--list" in words
    named = [word for word in words if word != "--list"]
    if len(named) > 1 or any(word.startswith("-") for word in named):
        print(__doc__, file=sys.stderr)
        return 2
    if not shutil.which("valgrind"):
        print("walk.py: there is no valgrind", file=sys.stderr)
        return 1
    try:
        path, whole = (pathlib.Path(named[0]), True) if named else program()
        if not whole:
            print("Of the optimized program: most of its functions are parts of others, so all counts are too low.")
        print(f"{'':52}{'calls':>7}{'files':>7}{'changes':>9}")
        for of, take in WALKS.items():
            calls = take(path)
            print(row(of, calls), flush=True)
            if lists:
                print("".join(f"    {file:44} {name}\n" for file, name in calls), end="")
    except (Failed, GaveUp, OSError) as failed:
        print(f"walk.py: {str(failed)[:400]}", file=sys.stderr)
        return 1
    return 0


if __name__ == "__main__":
    sys.exit(main(sys.argv[1:]))
