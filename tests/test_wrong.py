#!/usr/bin/env python3
"""Wrong bodies that no contract can refuse, and a run does.

    test_wrong.py [NAME ..]

A start may fail when memory is out, and no contract sees how much memory there is; so a body that never starts a command keeps its contract. Nor does one
see whether a reader or a writer has failed, so a script may always be said to. No contract names what a lock holds either, so a call of the halls that only
gives up keeps its own; nor how long one is held, nor for how many workers the daemon asks.

Each edit of tests/wrong is made in a copy. With one of rk_hall or rk_child a test of rk_live_tests has to fail. With one of rk_daemon a client has to wait
for the end of another one. With any other the example has to come out otherwise. `rt try` runs all of them before any proof, and builds no more than that
needs: a program that only replays, one that only serves (tests/wrong/*.program), or tests with the libraries that they name.
"""
import pathlib
import re
import select
import shutil
import socket
import subprocess
import sys
import tempfile
import time

import protocol_peer as ask
from counted import Counted
from programs import top

stored = top / "tests" / "replay" / "first_path"

# The test of rk_live_tests that each edit of a hall or of a handler's run has to fail, and the modules of that crate that the tests of the halls do without.
MADE, ASTRAY = "halls::growths::growths_of_a_key_that_is_made", "halls::settling::tokens_that_went_astray_are_counted"
COUNTED, SIDE_BY_SIDE = "halls::counting::what_is_in_each_hall_is_counted", "sessions::side_by_side::two_are_served_at_one_time"
FAILING = {
    "always_full": MADE,
    "always_no_memory": MADE,
    "behind_on_seen": MADE,
    "counts_of_hall_zero": COUNTED,
    "lock_round_child": SIDE_BY_SIDE,
    "settle_tells_no_stray": ASTRAY,
    "stray_for_gone": MADE,
    "stray_for_owed": MADE,
}
LEFT_OUT = ["children", "fakes", "sessions", "threads"]

# After so many seconds a run is ended that hangs. No run that goes on takes nearly as long, so that it decides nothing.
HANGS = "1800"


def made(edit, copy):
    """Makes the edit in a copy: lines `file: PATH`, each with pairs of lines `old: TEXT` and `new: TEXT` after it. The first file's path."""
    lines = [line.split(": ", 1) for line in edit.read_text().splitlines()]
    for (word, text), (_, new) in zip(lines, [*lines[1:], ("", "")]):
        if word == "file":
            path = copy / text
        elif word == "old":
            whole = path.read_text()
            if whole.count(text) != 1:
                sys.exit(f"{edit.name}: {text!r} stands {whole.count(text)} times in {path.name}")
            path.write_text(whole.replace(text, new))
    return lines[0][1]


def add_program(copy, name, libraries):
    """Adds a program of tests/wrong to the crates of a copy."""
    source = copy / "crates" / name / "src"
    source.mkdir(parents=True)
    shutil.copy(top / "tests" / "wrong" / f"{name}.program", source / "main.rt")
    with (copy / "crates.txt").open("a") as listed:
        listed.write(f"{name}: {libraries}\n")


def tried(folder, crate, words, **more):
    """What `rt try` writes in a crate of this copy."""
    return subprocess.run(["rt", "try", *words], cwd=folder / "crates" / crate, stdout=subprocess.PIPE, **more).stdout


def replays_otherwise(copy):
    """Whether the program runs, and not as the right body does; and what it wrote."""
    add_program(copy, "replays", "rk_replay")
    written = tried(copy, "replays", [], input=(stored / "script").read_bytes(), stderr=subprocess.DEVNULL)
    return written.startswith((b"to 1 ", b"failed")) and written != (stored / "expected").read_bytes(), written


def fails(copy, test):
    """Whether the tests run, and this one fails; and what was written. For one of the halls, no other tests run."""
    source = copy / "crates" / "rk_live_tests" / "src"
    root = (source / "lib.rt").read_text()
    for name in LEFT_OUT if test.startswith("halls::") else []:
        root = root.replace(f"#[cfg(test)]\nmod {name};\n", "")
        (source / f"{name}.rt").unlink()
        shutil.rmtree(source / name, ignore_errors=True)
    (source / "lib.rt").write_text(root)
    named = {it for path in source.rglob("*.rt") for it in re.findall(r"\brk_\w+", path.read_text())}
    listed = (copy / "crates.txt").read_text()
    whole = next(line for line in listed.splitlines() if line.startswith("rk_live_tests:"))
    (copy / "crates.txt").write_text(listed.replace(whole, f"rk_live_tests: {' '.join(it for it in whole.split()[1:] if it in named)}"))
    written = tried(copy, "rk_live_tests", ["--test", "--seconds", HANGS], stdin=subprocess.DEVNULL, stderr=subprocess.STDOUT)
    return f"test {test} ... FAILED".encode() in written, written[-2000:]


def greeted(daemon, path):
    """A connection that has said HELLO, as soon as there is a daemon that listens, or None where it has ended."""
    client = socket.socket(socket.AF_UNIX)
    while daemon.poll() is None:
        try:
            client.connect(str(path))
            client.sendall(ask.frame(ask.hello(1000, 1000)))
            return client
        except OSError:
            time.sleep(0.02)
    return None


def reply_again(client):
    """What comes for one more ask of this client."""
    try:
        client.sendall(ask.frame(ask.on_key(7, 8)))
    except BrokenPipeError:
        return b""
    return reply_to(client)


def reply_to(client):
    """What comes first for this client; nothing where the daemon ends before it has answered."""
    try:
        return client and client.recv(100)
    except ConnectionResetError:
        return b""


def serves_one_by_one(copy):
    """Whether the daemon answers one client, as often as it asks, and another one only when the first is gone; and what was written."""
    path, conf = copy / "socket", copy / "conf"
    conf.write_text("")
    add_program(copy, "serves", "rk_daemon log")
    words = ["rt", "try", "--steps", "1", "--seconds", HANGS, "--", "--clients", "2", "--socket", path, "--conf", conf]
    daemon = subprocess.Popen(words, cwd=copy / "crates" / "serves", stdin=subprocess.DEVNULL, stdout=subprocess.PIPE, stderr=subprocess.STDOUT)
    first = greeted(daemon, path)
    second = reply_to(first) and greeted(daemon, path)
    waits = second and all(reply_again(first) for _ in range(200)) and not select.select([second], [], [], 0)[0]
    if first:
        first.close()
    got = reply_to(second)
    if second:
        second.close()
    written = daemon.communicate()[0]
    return bool(waits and got), (got, written[-2000:])


def trial_of(edit, name):
    """What is tried with this edit of this file."""
    if edit in FAILING:
        return lambda copy: fails(copy, FAILING[edit])
    return serves_one_by_one if name.startswith("crates/rk_daemon/") else replays_otherwise


count = Counted()
for edit in sorted(it for it in (top / "tests" / "wrong").glob("*.edit") if it.stem in sys.argv[1:] or not sys.argv[1:]):
    with tempfile.TemporaryDirectory() as room:
        copy = pathlib.Path(room) / "copy"
        shutil.copytree(top, copy, ignore=shutil.ignore_patterns("out", "build", ".git", "must-fail"))
        name = made(edit, copy)
        is_seen, written = trial_of(edit.stem, name)(copy)
    count.wrong(edit.name, None if is_seen else f"the run lets it through, or there was none: {written!r}")
count.end()
