#!/usr/bin/env python3
"""Runs each scenario of tests/replay through `reqkeyd replay` (tests/scenarios.py): the output, byte by byte, and which line it is the output of."""
import subprocess
import sys

from programs import check_all, ran, top
from scenarios import scenario, scenarios

sys.path[:0] = [str(top / "examples"), str(top / "tools")]
import demo
from script import lines_of


def fault(program, script, case):
    """What went wrong with this script, whose output is that of the scenario, or None."""
    status, output, said = ran(program, "replay", input=script)
    if output != case.expected:
        got = output.decode(errors="replace").splitlines()
        want = case.expected.decode().splitlines()
        for number, pair in enumerate(zip(got + [""] * len(want), want + [""] * len(got)), 1):
            if pair[0] != pair[1]:
                return f"line {number} is {pair[0]!r}, not {pair[1]!r}"
    if status != case.status:
        return f"status {status}"
    if said != (b"reqkeyd: script\n" if case.status == 1 else b""):
        return f"on standard error: {said!r}"
    return misplaced(program, case)


def misplaced(program, case):
    """The first line that outputs other lines than those under it in the words, or None."""
    came, _ = demo.run([program, "replay"], lines_of(case.script), subprocess.DEVNULL)
    came += [[]] * (len(case.steps) + 1 - len(came))
    # what is output at the end stands under the last line
    came[-2:] = [came[-2] + came[-1]]
    for number, ((line, want), got) in enumerate(zip(case.steps, came), 1):
        if got != want:
            return f"line {number}, {line[:80]!r}, outputs {got}, not {want}"
    return None


cases = [(case.name, fault, case.script, case) for case in scenarios()]
# the example is the first path, with comments
cases.append(("examples/first-path.script", fault, (top / "examples" / "first-path.script").read_bytes(), scenario("first_path")))
check_all(cases)
