#!/usr/bin/env python3
"""Calls bench/run.py with measurements that are made up, and looks whether what it prints is drawn: nothing is measured, and no program is needed."""
import contextlib
import io
import pathlib
import sys
import tempfile
import xml.etree.ElementTree as xml

from counted import Counted
from crates import top

sys.path.insert(0, str(top / "bench"))
import others
import run

count = Counted()
OURS, PEER = run.RATTLE, run.C


def rounds(programs, _):
    """Three rounds, in which Rattle's rate is half of C's, and so is the peer's with the most work; those of the daemon are called by the number of its
    connections."""
    return {f"/bin/cat, {at} at a time": {who: told_by(who) for who in programs} for at in (1, 8)}


def told_by(who):
    half = who == OURS or who == "3000"
    return [(rate // 2 if half else rate, ", 5 us") for rate in (900, 1000, 800)]


class Server:
    path = "socket"

    def end(self):
        pass


def fake(programs):
    """In the place of all that measures, with these programs."""
    steps = {"a key read": {"200": 10.0, "10000": 11.0, "200000": 20.0}}
    return {
        "peer": lambda name: name,
        "players": lambda: {who: [who] for who in programs},
        "both": lambda *_: {who: [who] for who in programs},
        "outputs_are_equal": lambda *_: (True, 1000),
        "measure": lambda *_: {who: (0.007 if who == OURS else 0.001, 3000 if who == OURS else 2000, 0.01) for who in programs},
        "counted_asks": lambda *_: {who: 5000 if who == OURS else 1000 for who in programs},
        "counted_lock": lambda _: 1500,
        "counted": lambda *_: {who: 5000 if who == OURS else 1000 for who in programs},
        "stepped": lambda _: {who: steps for who in programs},
        "played": lambda _: {who: steps for who in programs},
        "steps_of": lambda *_: steps,
        "run": lambda _, script: (0.01, 4 * len(script) // 1024, 0),
        "shares": lambda _: [("<A as B>::play & more", "40.50"), ("x" * 200, "2.25")],
        "rounds": rounds,
        "daemon": lambda *_: Server(),
        "servers": lambda _: {who: Server() for who in programs},
        "peers_at_work": lambda _: {nanos: Server() for nanos in ["0", *run.WORK]},
        "at_rest": lambda _: 1000,
        "resident_after": lambda *_: 1000,
        "others_of": lambda *_: [others.Other("another", ["8"], "socket", "way")],
        "OTHERS": [0, 1, 2],
    }


def ended_peers():
    """Which peers that had started are ended, where the third one does not start."""
    ended = []

    class Started(Server):
        def __init__(self, words, _):
            if words[-1] == run.WORK[1]:
                raise run.Wrong("it does not serve")
            self.nanos = words[-1]

        def end(self):
            ended.append(self.nanos)

    kept, run.Server = (run.Server, run.peer), Started
    run.peer = lambda name: name
    try:
        run.peers_at_work(pathlib.Path("folder"))
    except run.Wrong:
        return ended
    finally:
        run.Server, run.peer = kept
    return "all have started"


def told(programs, bench, **measured):
    """The status of a run, what it printed, and the file that it drew."""
    vars(run).update(fake(programs) | measured)
    others.peer = lambda name: name
    printed = io.StringIO()
    with tempfile.TemporaryDirectory() as folder, contextlib.redirect_stdout(printed), contextlib.redirect_stderr(io.StringIO()):
        status = run.main(["--lines", "20", "--only", "miss", "--folder", folder, bench])
        files = {path.name: path.read_text() for path in pathlib.Path(folder).iterdir()}
    return status, printed.getvalue(), files


def bars(text):
    return [it.text for it in xml.fromstring(text).iter("{http://www.w3.org/2000/svg}title")][1:]


# A bar of each bench, as Rattle and C are made up above, and one with C alone, where there is any.
BARS = {
    "asks": (["missing REQUEST, Rattle: 5,000", "missing REQUEST, C: 1,000"], "missing REQUEST, C: 1,000"),
    "replay": (["misses, time: 7.00", "misses, instructions: 5.00", "misses: 1.50"], None),
    "steps": (["a key read, Rattle, 200,000 keys: 2.00", "a key read, C, 10,000 keys: 1.10"], "a key read, C, 10,000 keys: 1.10"),
    "memory": (["Rattle: ", "C: "], "C: "),
    "profile": (["<A as B>::play & more: 40.50"], "<A as B>::play & more: 40.50"),
    "hall": (["/bin/cat, 1 at a time: 0.50", "/bin/cat, 8 at a time, Rattle: 500"], "/bin/cat, 1 at a time, C: 1,000"),
    "spawn": (["/bin/cat, 8 at a time: 0.50", "/bin/cat, 1 at a time, C: 900"], "/bin/cat, 8 at a time, C: 900"),
    "serve": (["64 connections: 0.50", "1 connection, 50 in one write: 0.50", "8 connections: 1.00"], None),
}

count.same("peers that are ended where one doesn't start", ended_peers(), ["0", run.WORK[0]])
count.same("benches", sorted(BARS), sorted(run.figures.BENCHES))
for bench, (both, alone) in BARS.items():
    status, printed, files = told([OURS, PEER], bench)
    drawn = bars(files.get(f"{bench}.svg", "<svg/>"))
    count.same(f"status of {bench}", status, 0)
    count.same(f"files of {bench}", list(files), [f"{bench}.svg"])
    count.same(f"bars of {bench} that are missing", [it for it in both if not any(bar.startswith(it) for bar in drawn)], [])
    count.same(f"{bench}, drawn of what was printed", files.get(f"{bench}.svg"), run.figures.drawn(bench, printed))
    status, _, files = told([PEER], bench)
    count.same(f"{bench} of C alone", (status, list(files)), (0, [f"{bench}.svg"] if alone else []))
    count.same(f"bar of {bench} of C alone", not alone or any(bar.startswith(alone) for bar in bars(files.get(f"{bench}.svg", "<svg/>"))), True)

# A time that came out as zero or less, beside that of the set-up, is neither printed nor drawn.
_, printed, files = told([OURS, PEER], "replay", measure=lambda *_: {OURS: (0.5, 3000, 0.01), PEER: (-0.001, 2000, 0.01)})
count.same("a time below zero", printed.splitlines()[-1].split(" | ")[1:5], ["20", "40", "-", "-"])
count.same("bars of a time below zero", [it for it in bars(files["replay.svg"]) if "time" in it], [])
lost = {"a key read": {"200": 10.0, "10000": -1.0, "200000": 20.0}}
_, printed, files = told([OURS, PEER], "steps", played=lambda _: {who: lost for who in (OURS, PEER)})
count.same("a step's time below zero", "| a key read | Rattle | 10 (1.00) | - | 20 (2.00) |" in printed.splitlines(), True)
count.same("bars of steps", sum("10,000 keys" in it for it in bars(files["steps.svg"])), 4)
count.end()
