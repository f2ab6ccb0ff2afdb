#!/usr/bin/env python3
"""Stands for `reqkeyd replay` with the script of a scenario: the output of each line is what the scenario's words say.

usage: fake_replay.py WORDS

Blank lines and comments that the scenario lacks are skipped, and other such lines are reported as invalid.
"""
import pathlib
import sys

sys.path.insert(0, str(pathlib.Path(__file__).resolve().parent.parent / "tools"))
from script import lines_of, steps_of

steps = steps_of(pathlib.Path(sys.argv[1]).read_bytes())[1:]
for at, line in enumerate(lines_of(sys.stdin.buffer.read()), 1):
    if not steps or line != steps[0][0]:
        if line.strip() and not line.startswith("#"):
            print(f"fault {at} S1")
        continue
    for answer in steps.pop(0)[1]:
        words = answer.split(" ")
        print(f"fault {at} {words[2]}" if words[0] == "fault" else answer)
        if words[0] == "conf":
            sys.exit(1)
