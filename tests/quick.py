#!/usr/bin/env python3
"""Checks what changed since it last passed here: `make quick`.

First it says which edits can't be made any more, since the text that they change is another. Then each crate whose files, or those of a crate below it, are
not those that passed last time is laid out, proved over what earlier checks kept, and its tests are run before any proof of theirs. Then the edits of those
crates that changed themselves are tried, and, where a program changed, the test programs of this folder; those that play what documents show also where
these changed. It is for daily use and no verdict: that is `make check`.
"""
import hashlib
import os
import subprocess
import sys
import time

import crates
from try_edits import unfit_in

kept = crates.top / "build" / "quick"
OF_PROGRAMS = ["replay", "replay_growths", "words", "pick", "client", "clients", "keyutils", "keyutils_habits", "trap", "serve", "manuals",
               "completion", "install", "record", "demo"]
# what those that play what documents show are made of, beside the programs
OF_DOCUMENTS = {
    "record": ["tests/test_record.py", "docs/RECORD.md"],
    "demo": ["tests/test_demo.py", "README.md", "docs/RECORD.md", "docs/TUTORIAL.md", "clients/c", "Makefile", "examples", "tools/script.py"],
}


def call(*words, cwd=crates.top, **more):
    """Runs a command; what it says is shown where it fails."""
    ran = subprocess.run(words, cwd=cwd, stdin=subprocess.DEVNULL, stdout=subprocess.PIPE, stderr=subprocess.STDOUT, **more)
    if ran.returncode:
        sys.stdout.write(ran.stdout.decode(errors="replace")[-6000:])
    return ran.returncode == 0


def is_kept(name, state):
    """Whether this state of a crate is the one that passed last time."""
    return (kept / name).exists() and (kept / name).read_text() == state


def keep(name, state):
    kept.mkdir(parents=True, exist_ok=True)
    (kept / name).write_text(state)


def digest_of(names):
    """What these files, and those in these folders, are, in one number."""
    files = sorted(it for name in names for it in [crates.top / name, *(crates.top / name).rglob("*")] if it.is_file() and it.suffix != ".pyc")
    return hashlib.sha256(b"".join(hashlib.sha256(f"{it} ".encode() + it.read_bytes()).digest() for it in files)).hexdigest()


def tries_programs(built):
    """What is wrong with the built programs and what documents show of them, or None: all is tried where a program was built anew, else what changed."""
    shown = {name: digest_of(sources) for name, sources in OF_DOCUMENTS.items()}
    tests = OF_PROGRAMS if built else [name for name, state in shown.items() if not is_kept(f"{name}.sources", state)]
    if not tests:
        return None
    print(f"building the programs and running {' '.join(f'test_{name}' for name in tests)}", flush=True)
    if not call("make", "kept"):
        return "a program is not built"
    programs = {**os.environ, "PROGRAMS": "build"}
    if not all(call(f"tests/test_{name}.py", env=programs) for name in tests):
        return "a test of a program failed"
    for name, state in shown.items():
        keep(f"{name}.sources", state)
    return None


def proves(name, folder):
    """Lays a crate out, proves it and runs its tests."""
    has_tests = any("#[test]" in path.read_text() for path in (folder / "src").rglob("*.rt"))
    return call("rt", "fmt", cwd=folder) and call("rt", "check", cwd=folder) and (not has_tests or call("rt", "try", "--test", cwd=folder))


def main():
    used, states, edited, built = crates.uses(), {}, [], False

    def state_of(name):
        """What a crate and those below it are, in one number."""
        return hashlib.sha256("".join([crates.digest(crates.top / "crates" / name), *[states[it] for it in used[name]]]).encode()).hexdigest()

    if unfit := [fault for name in used for fault in unfit_in(name)]:
        return "\n".join(unfit)
    for name in used:
        folder = crates.top / "crates" / name
        own = crates.digest(folder, [*crates.PARTS, "edits", "must-fail"])
        states[name] = state_of(name)
        if not is_kept(name, states[name]):
            begun = time.monotonic()
            if not proves(name, folder):
                return f"{name}: failed"
            print(f"{name}: proved, {time.monotonic() - begun:.0f} s", flush=True)
            states[name] = state_of(name)
            keep(name, states[name])
            built |= (folder / "src" / "main.rt").exists()
        if (folder / "edits").is_dir() and not is_kept(f"{name}.edits", own):
            edited.append((name, own))
    if edited:
        print(f"trying the edits of {' '.join(name for name, _ in edited)}", flush=True)
        if not call("tests/try_edits.py", *[name for name, _ in edited]):
            return "an edit is let through"
        for name, own in edited:
            keep(f"{name}.edits", own)
    if wrong := tries_programs(built):
        return wrong
    print("nothing that changed fails")
    return 0


sys.exit(main())
