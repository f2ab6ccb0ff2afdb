"""Allocations that are refused, one in each run of the daemon: at the start they are reported, and later they are answered ENOMEM."""
import os

import protocol_peer as ask
from compiled import library
from daemon import Client, Daemon, until
from programs import lacks
from scenes import CONF, Gated, answered, displaced, hellos, negated, nested, played_twice, revoked, two_requesters

# what is asked, and its reply where it is the same in every run that has not said HELLO in vain
ASKS = [
    (ask.hello(1000, 1000), (0, 0, 4, 8)),
    (ask.add(b"user", b"k", b"v" * 1000, -4), None),
    (ask.request(b"user", b"k", None, 0), None),
    (ask.request(b"user", b"p:1", b"made", -4), None),
    (ask.on_key_and_ring(11, 8, -3), "E126"),
    (ask.default(4), None),
]

# what is printed if the daemon does not start: the file and the socket have lines of their own
LINES = ["reqkeyd: memory", "reqkeyd: conf", "reqkeyd: conf line 1: C5", "reqkeyd: socket"]


def run(program, count):
    """One run in which this allocation is refused: `memory` where it did not start, else whether all replies were as they are, and what is wrong."""
    environment = {"LD_PRELOAD": library("refusing_malloc"), "REFUSED": str(count)}
    with Daemon(program, "create user p:* * |/bin/cat\n", "--sessions", "1", "--clients", "2", ready=False, environment=environment) as daemon:
        until(lambda: daemon.lines or daemon.process.poll() is not None, "a first line")
        if "reqkeyd: ready" not in daemon.lines:
            status, lines = daemon.end()
            wrong = status != 1 or not lines or lines[0] not in LINES or any(not line.startswith("  ") for line in lines[1:]) or daemon.path.exists()
            return "memory", f"allocation {count}: status {status} {lines}" if wrong else None
        short = False
        with Client(daemon.path) as client:
            for body, want in ASKS:
                reply = answered(client, body)
                if reply is None:
                    short = True
                    break
                short = short or reply == "E12" or (want is None and reply == "E126")
                if want is not None and reply not in [want, "E12", "E13"]:
                    return "odd", f"allocation {count}: {reply}"
        with Client(daemon.path) as client:
            rings = answered(client, ask.hello(1001))
            if rings not in [(0, 0, 1, 5)] + ([] if short else ["E12", None]):
                return "odd", f"allocation {count}: then {rings}"
            short = short or not isinstance(rings, tuple)
        status, lines = daemon.end()
        return ("short" if short else "whole"), (f"allocation {count}: status {status} {lines}" if status else None)


def stride(count, part):
    """How far it is from this allocation to the next one that is tried, ever further; where EVERY is set it is the very next."""
    return 1 if "EVERY" in os.environ else 1 + count // part


def refuses(program):
    """Allocations from the first on, more and more apart, until a run needs no more; each of them where EVERY is set."""
    seen, count = {"memory": 0, "short": 0, "whole": 0}, 1
    whole = 0
    while whole < 5:
        kind, wrong = run(program, count)
        if wrong:
            return wrong
        seen[kind] += 1
        whole = whole + 1 if kind == "whole" else 0
        count += stride(count, 30)
        if count > 10_000_000:
            return "it never ends"
    return None if seen["memory"] and seen["short"] else f"{seen}"


# what may come instead if there is no memory: the ask is refused, the connection is closed, or the start or the handler of a key has failed
INSTEAD = ["E12", "E126", None]


def short(program, play, count):
    """One run in which this allocation is refused, counted from the first accept on: whether it was met, whether it was noticed, and what is wrong. After
    it all is as it should be, and nothing is left."""
    daemon = Gated(program, CONF, "--sessions", "4", "--negative", "4000000")
    told = daemon.room / "told"
    daemon.environment = {"LD_PRELOAD": library("refusing_malloc"), "REFUSED": str(count), "FROM_ACCEPT": "1", "TOLD": str(told)}
    with daemon:
        before = daemon.descriptors()
        noticed, wrong = played_twice(daemon, play, INSTEAD)
        daemon.has_left(before)
        return told.exists(), noticed, wrong and f"allocation {count}, {wrong}"


def refused_in(program, play):
    """Allocations from the first behind the start on, more and more apart, until a run needs no more; each of them where EVERY is set."""
    count, met, seen = 1, True, 0
    while met:
        met, noticed, wrong = short(program, play, count)
        if wrong:
            return wrong
        seen += noticed
        count += stride(count, 3)
    return None if seen > 3 else f"{seen} allocations were noticed"


SCENARIOS = {
    "two requesters": two_requesters, "a nested request": nested, "a key that is displaced": displaced, "a key that is revoked while it is made": revoked,
    "a line for negate": negated, "several HELLOs": hellos,
}


def cases():
    if lacks("allocations that are refused", "gcc"):
        return
    yield "allocations that are refused", refuses
    for name, play in SCENARIOS.items():
        yield f"allocations that are refused: {name}", refused_in, play
