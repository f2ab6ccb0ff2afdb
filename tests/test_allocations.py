#!/usr/bin/env python3
"""Refuses allocations one by one to the tests of the libraries that are made for it, in the test program that `rt ci` or `rt test` has built.

Such a test passes whichever allocation is refused: it compares what the refusal left with what was there, and says so by its status. The
allocations of each are refused in turn, until a run meets none. A test with `growths_of_` in its name is one of them; the others are listed.

A full ring that takes 100,000 links is tried the other way round: there is no allocation after those with which it was made.
"""
import itertools
import pathlib
import re
import tempfile

from compiled import library
from programs import check_all, ran, top

OTHERS = [
    "values::conf::wants_nothing_but_memory",
    "values::frame::a_refused_growth_changes_nothing",
    "values::message::memory_may_be_refused",
]

# The test of many links, and more allocations than its ring has.
LINKS, ENOUGH = "state::rings::a_full_ring_takes_new_names_for_good", 100


def tests_of(program):
    """The names of its tests."""
    return re.findall(r"^([a-z0-9_:]+): test$", ran(program, "--list", text=True, check=True)[1], re.M)


refusing = library("refusing_malloc")


def refused(program, test, allocation):
    """Whether an allocation of this number was asked for and refused, and what the run says went wrong, or None."""
    with tempfile.TemporaryDirectory() as folder:
        told = pathlib.Path(folder) / "told"
        status, output, errors = ran(program, test, env={"LD_PRELOAD": refusing, "REFUSED": str(allocation), "TOLD": str(told)})
        return told.exists(), f"allocation {allocation}: status {status} {(errors or output)[-300:]}" if status else None


def wrong_growths(program, test):
    """What went wrong where its allocations are refused in turn, or None."""
    if test not in tests_of(program):
        return "no such test"
    for allocation in itertools.count(1):
        met, wrong = refused(program, test, allocation)
        if wrong:
            return wrong
        if not met:
            return None if allocation > 1 else "it asks for no allocation"


def wrong_links(program, test):
    """What went wrong where an allocation is refused that is behind the making of the ring, or None."""
    met, wrong = refused(program, test, ENOUGH)
    return wrong or (f"it asks for {ENOUGH} allocations" if met else None)


program = top / "crates" / "rk_tests" / "out" / "rk_tests_tests"
names = [it for it in (tests_of(program) if program.exists() else []) if "::growths_of_" in it]
cases = [(it, wrong_growths, it) for it in [*names, *OTHERS]] + [(LINKS, wrong_links, LINKS)]
check_all(cases, [program])
