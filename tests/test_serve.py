#!/usr/bin/env python3
"""Runs `reqkeyd serve` as a user does: over its socket, with handlers that are really started, with clients and handlers that misbehave.

Its cases are in tests/serve/, a file for each subject. Words behind the name of this program, as `keys hostile`, are the subjects that are run alone.
"""
import importlib
import pathlib
import sys

sys.path.insert(0, str(pathlib.Path(__file__).resolve().parent / "serve"))
from programs import check_all

SUBJECTS = ["start", "keys", "ends", "frames", "together", "hostile", "alike", "memory", "devices", "log", "patience"]


check_all([case for name in sys.argv[1:] or SUBJECTS for case in importlib.import_module(name).cases()])
