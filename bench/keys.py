#!/usr/bin/env python3
"""Measures what a call of a program takes, in each of three ways in turn: answered by the kernel's own keys, by the library, and by reqkey-trap; and what a
call takes that is only the kernel's. Prints a table in Markdown: medians over the rounds, in microseconds, and the least.

Use: keys.py [ROUNDS [BATCHES]], with what `make`, `make -C clients/keyutils`, `make -C clients/trap` and `make -C bench` have built in build/.
"""
import os
import pathlib
import statistics
import subprocess
import sys
import tempfile

from serving import Server, top

BUILT = top / "build"
ROUNDS, BATCHES = (int(word) for word in (sys.argv[1:] + ["15", "200"][len(sys.argv) - 1 :])[:2])


def measured(*words, **variables):
    """The median and the least of each call, in nanoseconds."""
    ran = subprocess.run(list(map(str, words)), capture_output=True, text=True, check=True, env={**os.environ, **variables})
    return {name: (float(median), float(least)) for name, median, least in map(str.split, ran.stdout.splitlines())}


def main():
    with tempfile.TemporaryDirectory() as room:
        socket = f"{room}/socket"
        (pathlib.Path(room) / "conf").touch()
        daemon = Server([BUILT / "reqkeyd", "serve", "--socket", socket, "--conf", f"{room}/conf"], socket)
        keys, library = BUILT / "c" / "keys", BUILT / "libkeyutils.so.1"
        ways = {
            "the kernel": lambda: measured(keys, BATCHES),
            "the library": lambda: measured(keys, BATCHES, library, REQKEYD_SOCKET=socket),
            "reqkey-trap": lambda: measured(BUILT / "reqkey-trap", "--socket", socket, "--", keys, BATCHES),
        }
        rounds = {name: [] for name in ways}
        try:
            for _ in range(ROUNDS):
                for name, way in ways.items():
                    rounds[name].append(way())
        finally:
            daemon.end()
    print("| answered by | a read | least | getppid(2) | least |\n|---|---|---|---|---|")
    for name, results in rounds.items():
        cells = []
        for call in ["read", "getppid"]:
            cells += [statistics.median(it[call][0] for it in results), min(it[call][1] for it in results)]
        print(f"| {name} | {' | '.join(f'{cell / 1000:.2f}' for cell in cells)} |")


main()
