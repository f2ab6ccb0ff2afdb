#!/usr/bin/env python3
"""Plays two and eight threads in four halls with 10,000 asks each, in the test program that `rt ci` or `rt test` has built.

The test itself compares records, seats and receipts. In the crate it asks less often, so that it ends soon also where memory is watched.
"""
import os

from programs import check_all, ran, top

TEST = "threads::together::threads_side_by_side_settle"
ASKS = 10_000


def wrong(program):
    """What went wrong, or None."""
    status, output, errors = ran(program, TEST, env={**os.environ, "ASKS": str(ASKS)})
    return f"status {status} {(output + errors)[-400:]}" if status else None


check_all([(TEST, wrong)], [top / "crates" / "rk_live_tests" / "out" / "rk_live_tests_tests"])
