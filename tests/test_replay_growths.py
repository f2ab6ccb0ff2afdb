#!/usr/bin/env python3
"""Refuses allocations to `reqkeyd replay`, one in each run and each in turn, until a run needs no more: what becomes of a scenario of tests/replay then.

Up to the refused allocation the output is that of the scenario. Then an ask that may need memory is answered ENOMEM, a client that comes is shut, or a program
is not started, so that its key is answered ENOKEY; behind that the script goes on as it may, but no key is started twice, and all who wait for one get
the same. Or the run ends with its fault, and writes nothing.
"""
import collections
import itertools
import sys

from compiled import library
from programs import check_all, lacks, ran, top
from scenarios import scenario

sys.path[:0] = [str(top / "examples"), str(top / "tools")]
import demo
from messages import read_ask
from script import lines_of

SCENARIOS = {
    "first_path": "a key that a handler makes", "one_start_for_two": "two requesters", "nested_request": "a nested request",
    "chain_of_eight": "the deepest chain", "circle_of_two": "a circle", "wildcards": "a configuration", "words_of_commands": "the words of commands",
    "payload_as_an_argument": "a payload among the words", "refused_configuration": "a configuration that is refused",
    "added_key_displaces": "a key that is displaced", "states_of_a_key": "a key in its states", "expiry": "keys that expire",
    "revoked_while_building": "a key that is revoked while it is made", "client_goes_with_its_ring": "a client that goes",
    "cleared_ring": "a ring that is cleared", "rings_to_join": "rings that are joined", "piped_payloads": "piped handlers",
    "negate_after_each_failure": "a line for negate", "debug_lines": "lines for some names each",
    "negate_command_completes": "a line for negate that makes the key", "negate_with_a_waiter": "a line for negate, and two requesters",
    "faults_of_plain_handlers": "handlers with a fault", "sixty_four_clients": "a client too many", "many_asks_in_one_piece": "asks in one piece",
}

# a scenario whose only requester goes before the key is made
NOBODY_IS_TOLD = "client_goes_with_its_ring"

# the ops that may be answered ENOMEM: HELLO, REQUEST, READ, DESCRIBE, ADD, CALLOUT
MAY_WANT = {1, 2, 7, 8, 15, 16}
NO_MEMORY, NO_KEY = "00000002030c", "00000002037e"


def ops(line):
    """The ops of the whole frames of a line of a script."""
    words, found = line.split(), set()
    data = bytes.fromhex(words[-1]) if len(words) == 4 and words[1] in ["bytes", "out"] else b""
    while len(data) > 4:
        found.add(data[4])
        data = data[4 + int.from_bytes(data[:4], "big") :]
    return found


def wrong_instead(steps, lines):
    """What is wrong with the first line that is not the scenario's, or None."""
    wanted = [(step, line) for step, lines_of_step in steps for line in lines_of_step]
    at = next((at for at, (got, (_, want)) in enumerate(zip(lines, wanted)) if got != want), min(len(lines), len(wanted)))
    step, want = wanted[at] if at < len(wanted) else (None, None)
    got = lines[at].split() if at < len(lines) else []
    if len(got) == 2 and got[0] == "shut" or got[-1:] == [NO_KEY] and want and want.startswith("start "):
        return None
    if got[-1:] == [NO_MEMORY] and step and ops(step) & MAY_WANT:
        return None
    return f"{' '.join(got) or 'the end'}, not {want}"


def wrong_starts(lines):
    """A key that is started more often than once, and once more for negate."""
    starts = collections.Counter(line.split()[1] for line in lines if line.startswith("start "))
    piped = {line.split()[1] for line in lines if line.startswith("start ") and line.split()[2] == "piped"}
    often = [key for key, count in starts.items() if count > 1 + (key in piped)]
    return f"keys {often} are started too often" if often else None


class Waits:
    """Who waits for which key, and what they get, as a script and what came of each of its lines say it."""

    def __init__(self):
        self.held = collections.defaultdict(bytes)
        self.asked = collections.defaultdict(list)  # of each session the asks that are not answered, each with the key for which it waits
        self.names, self.plain = {}, set()
        self.told = collections.defaultdict(set)

    def happens(self, line, came):
        """A line of the script, and what came of it."""
        words, awake = line.split(), []
        if any(it.startswith("fault ") for it in came) or len(words) < 3:
            return
        if words[1] == "bytes" or words[1] == "out" and words[2] in self.plain:
            awake.append(session := ("h" if words[1] == "out" else "c") + words[2])
            self.asks(session, bytes.fromhex(words[3]))
        for verb, whom, *rest in (it.split() for it in came):
            if verb == "start":
                self.starts(whom, rest[0], awake)
            elif verb == "to" or verb == "tohandler" and whom in self.plain:
                awake.append(session := ("c" if verb == "to" else "h") + whom)
                _, key = self.asked[session].pop(0)
                if key:
                    self.told[key].add(rest[0])
        for session in awake:
            self.waits(session)
        if words[1] == "ended":
            self.asked.pop(f"h{words[2]}", None)

    def asks(self, session, data):
        data = self.held[session] + data
        while len(data) >= 4 and len(data) >= (end := 4 + int.from_bytes(data[:4], "big")):
            self.asked[session].append([data[4:end], None])
            data = data[end:]
        self.held[session] = data

    def request(self, session):
        """The name that a session requests, which is not answered, and for which it is not known to wait."""
        body, key = (self.asked[session] or [(b"", None)])[0]
        return read_ask(body).split()[1:3] if not key and body[:1] == b"\x02" else None

    def starts(self, key, kind, awake):
        """A start: by a session that has just asked, or was just answered."""
        if kind == "plain":
            self.plain.add(key)
        requests = [it for it in dict.fromkeys(awake) if self.request(it)]
        if key not in self.names and requests:
            self.names[key] = self.request(requests[-1])
            self.asked[requests[-1]][0][1] = key

    def waits(self, session):
        """A session that has requested a key and is not answered waits for the one of that name that was started last."""
        name = self.request(session)
        if name:
            self.asked[session][0][1] = next((key for key, its in reversed(self.names.items()) if its == name), None)

    def wrong(self):
        """A key of which some were told one outcome, and some another."""
        success = {key: f"0000000500{int(key):08x}" for key in self.told}
        twice = [key for key, told in self.told.items() if len(told) > 1 or not all(it == success[key] or it.startswith("0000000203") for it in told)]
        return f"of the keys {twice} two outcomes are reported: {[sorted(self.told[key]) for key in twice]}" if twice else None


def waits_in(script, groups):
    waits = Waits()
    for line, came in zip(script, groups):
        waits.happens(line, came)
    return waits


def run(program, script, allocation):
    """One run: its status, what came of each line, and what it says."""
    status, output, errors = ran(program, "replay", input=script, env={"LD_PRELOAD": library("refusing_malloc"), "REFUSED": str(allocation)})
    return status, demo.by_line(lines_of(output)), errors


def fault(program, case):
    """Each allocation in turn: what went wrong, or None."""
    steps = [(line or "", want) for line, want in case.steps]
    script = [line for line, _ in steps]
    expected = lines_of(case.expected)
    kinds, allocation = collections.Counter(), 0
    # (an allocation that is refused may be made up for: a few runs that come out as ever are the end)
    while kinds["whole"] < 5:
        allocation += 1
        status, groups, errors = run(program, demo.marked(script), allocation)
        lines, waits = list(itertools.chain(*groups)), waits_in(script, groups)
        if (status, lines) == (case.status, expected):
            kinds["whole"] += 1
            continue
        kinds["whole"] = 0
        if status == 1 and not lines and errors in [b"reqkeyd: memory\n", b"reqkeyd: script\n"]:
            kinds["ended"] += 1
            continue
        wrong = f"status {status} {errors}" if status or errors else wrong_instead(steps, lines) or wrong_starts(lines) or waits.wrong()
        if wrong:
            return f"allocation {allocation}: {wrong}"
        kinds["otherwise"] += 1
    starts = {line.split()[1] for line in expected if line.startswith("start ")}
    if starts and not waits.told and case.name != NOBODY_IS_TOLD or waits.wrong():
        return f"of the keys {starts} is reported {waits.told}"
    return None if kinds["ended"] > 10 else f"{kinds}"


tried = {} if lacks("allocations that are refused", "gcc") else SCENARIOS
check_all([(what, fault, scenario(name)) for name, what in tried.items()])
