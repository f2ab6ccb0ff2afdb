#!/usr/bin/env python3
"""Refuses allocations to a client on its path through a hall, to a handler over fakes and to a session over fakes, in the test program that `rt ci` or
`rt test` has built.

A run has one allocation refused, or all from that one on. A call that is refused makes no step, and none of what is owed wants memory. Each test itself
compares the records with the seats and receipts; last it fails where it was not the whole one, and tells what came of it: how many steps there were, and
of handlers and sessions also how they ended, what was told and which commands were started. Allocations are refused one later each time, until a run meets
none.
"""
import itertools
import re

from compiled import library
from programs import Wrong, check_all, differs, ran, top

# Each path through a hall, and its steps, where memory ends it one allocation later each time. Before it comes the client makes no step; it goes after having
# come, after its HELLO, or at the end. Of two requesters the second one comes without memory, since the record has taken its own at its first step; it goes
# after having come, after its HELLO, or at the end. None stands where the test itself lacks memory, which it takes for the copy of a request in its receipt.
BEFORE = [0, 2, 3]
PATHS = [
    ("growths_of_a_key_that_is_made", [*BEFORE, None, 7]),
    ("growths_of_a_second_handler", [*BEFORE, None, 8]),
    ("growths_of_two_requesters", [*BEFORE, None, 9, 10, None, 12]),
]

PLAIN, ANOTHER, PIPED, NEGATE = "/bin/h 12 ", "/bin/h 16 ", "/bin/p ", "/bin/n negate 12 "

# Each handler: the commands that it is in the end, with what is reported of each as the last one that was started, and whether the key is made. Then the steps
# of a session, where memory ends one allocation later each time: from 6 on the key is requested, and each further step is one that there was memory for. A plain
# handler's first ask takes none. With 8 steps, say, that one was done, and the second one could not be copied. Without a session the client doesn't go, which is
# one step less.
HANDLERS = [
    ("plain_handler", [(PLAIN, "Exit(0)")], True, [6, 8, 9]),
    ("piped_handler", [(PIPED, "Exit(0)")], True, [6, 7]),
    ("handler_that_asks_for_another_key", [(PLAIN, "Exit(6)"), (ANOTHER, "Exit(6)")], True, [6, 8, 11, 13, 14, 15]),
    ("handler_that_is_followed", [(PIPED, "Exit(7)"), (NEGATE, "Exit(3)")], False, [6, 8, 11]),
]

RINGS = bytes.fromhex("00000011 02 00000000 00000000 00000004 00000008")
TWELVE = bytes.fromhex("00000005 00 0000000c")
NO_MEMORY, NO_KEY, NO_ACCESS = (bytes([0, 0, 0, 2, 3, errno]) for errno in (12, 126, 13))

# What a test dies of where an allocation is refused that is its own: before the first call that is looked at, or for the copy of a receipt. A turn that is owed is
# never refused for lack of memory, so that a receipt which it does not give, `a receipt: Stray`, is none of these.
OWN = re.compile(rb"(memory|an ask): AllocError\n|lines: ConfFault { line: [0-9]+, kind: NoMemory }\n|a receipt: NoMemory\n")


def told(program, test, allocation, more):
    """What the test told of a run that was not the whole one: the words of a list, of which bytes are one. None of the whole one, and an empty list where
    the test itself lacked memory."""
    status, _, errors = ran(program, test, env={"LD_PRELOAD": library("refusing_malloc"), "REFUSED": str(allocation), **more})
    if status == 0:
        return None
    left = re.search(rb"left: \(?(.*?)\)?\n right: ", errors)
    if status < 0 and left:
        return re.findall(r"\[[^]]*\]|[^, ]+", left[1].decode())
    if status < 0 and OWN.fullmatch(errors):
        return []
    raise Wrong(f"status {status} {errors[-200:]}")


def in_turn(program, test, more, whole, judged):
    """The steps of each run, where allocations are refused one later each time, up to the first run that is the whole one; None where the test itself lacked
    memory."""
    for allocation in itertools.count(1):
        words = told(program, test, allocation, more)
        if words is None:
            yield whole
            return
        try:
            yield judged(words) if words else None
        except Wrong as odd:
            raise Wrong(f"allocation {allocation} {more}: {odd}: {words}") from None


def bytes_of(word):
    return bytes(int(it) for it in word.strip("[]").split(",") if it.strip())


def holds(fact, what):
    if not fact:
        raise Wrong(what)


def started(word, commands):
    """How many commands were started: those that are to be, from the first one on, each once."""
    lists = ["".join(it for it, _ in commands[:count]) for count in range(len(commands) + 1)]
    text = bytes_of(word).decode()
    holds(text in lists, "commands that are not to be started")
    return lists.index(text)


def judged_handler(words, commands, is_made):
    """The steps of a run of a handler: how it ended is reported of the last one that was started, and its client gets the key or ENOKEY."""
    steps, driven, outcome, text = words
    count = started(text, commands)
    ends = {f"Ended({commands[count - 1][1]})"} if count else {"NotMade(NoMemory)", "NoMemory", "StartFailed"}
    holds(driven in ends, "another end")
    holds(outcome in {"Refused(Enokey)", "Number(12)"} if is_made and count else outcome == "Refused(Enokey)", "another outcome")
    return int(steps)


def replies(word):
    """The frames that a session was told."""
    said = bytes_of(word)
    while said:
        end = 4 + int.from_bytes(said[:4], "big")
        yield said[:end]
        said = said[end:]


def judged_session(words, commands, is_made, goes_on):
    """The steps of a run of a session: it ends as its input does, or its client could not be opened, and made no step. Each reply is the whole one's up to
    the allocation that is refused. Numbers and refusals take no memory, so that the end of a handler which lacked it is still reported."""
    steps, served, said, text = words
    said, steps, count = list(replies(said)), int(steps), started(text, commands)
    last = TWELVE if is_made else NO_KEY
    holds(served == ("Ended" if steps else "NotOpened"), "another end")
    if not said:
        holds(steps == 0 and count == 0, "a session that gets nothing")
        return steps
    holds(len(said) == 2, "not a reply to each ask")
    if said[0] == NO_MEMORY:
        holds(said[1] == NO_MEMORY if goes_on else said[1] in (last, NO_ACCESS), "another reply behind a HELLO that was refused")
    else:
        holds(said[0] == RINGS and said[1] in (last, NO_MEMORY, NO_KEY), "another reply")
    holds(said[1] != TWELVE or count, "a key without a handler")
    return steps


def wrong_path(program, test, steps, more):
    """What went wrong, or None."""
    seen = list(in_turn(program, f"halls::growths::{test}", more, steps[-1], lambda words: int(words[0])))
    return differs([it for it, _ in itertools.groupby(seen)], [None, *steps])


def wrong(program, test, judge, last):
    """What went wrong where all allocations from one on are refused, and where one alone is, as many times; or None."""
    seen = list(in_turn(program, test, {"AND_ON": "1"}, last[-1], lambda words: judge(words, True)))
    for allocation in range(1, len(seen)):
        words = told(program, test, allocation, {})
        holds(words != [] or allocation <= seen.count(None), f"allocation {allocation}: nothing is reported, though the calls had begun")
        if words:
            holds(judge(words, False) <= last[-1], f"allocation {allocation}: {words}")
    return differs([it for it, _ in itertools.groupby(seen)], [None, *last])


def wrong_handler(program, name, commands, is_made, last):
    judged = lambda words, _: judged_handler(words, commands, is_made)
    return wrong(program, f"children::growths::growths_of_a_{name}", judged, [it - 1 for it in last])


def wrong_session(program, name, commands, is_made, last):
    judged = lambda words, goes_on: judged_session(words, commands, is_made, goes_on)
    return wrong(program, f"sessions::growths::growths_of_a_{name}", judged, [*BEFORE, *last])


program = top / "crates" / "rk_live_tests" / "out" / "rk_live_tests_tests"
cases = [(f"{test} {more}", wrong_path, test, steps, more) for test, steps in PATHS for more in ({}, {"AND_ON": "1"})]
cases += [(f"handler: {it[0]}", wrong_handler, *it) for it in HANDLERS]
cases += [(f"session: {it[0]}", wrong_session, *it) for it in HANDLERS]
check_all(cases, [program])
