#!/usr/bin/env python3
"""Measures what a request takes behind reqkey-door, over connections that it has handed over, beside as many to the daemon itself, in turn. Prints a table in
Markdown: medians over the rounds, and of their ratios.

Use: door.py [ROUNDS [ASKS]], with what `make`, `make -C clients/door` and `make -C bench` have built in build/. As root, who acts for any user here.
"""
import pathlib
import re
import statistics
import subprocess
import sys
import tempfile

from serving import CONNECTIONS, Server, built, peer, top

ROUNDS, ASKS = (int(word) for word in (sys.argv[1:] + ["9", "200000"][len(sys.argv) - 1 :])[:2])


def rate(path, connections):
    """Replies a second, of so many connections."""
    printed = subprocess.run([peer("load"), path, connections, str(ASKS)], capture_output=True, text=True, check=True).stdout
    return float(re.search(r"([\d.]+) asks/s", printed)[1])


def main():
    with tempfile.TemporaryDirectory() as folder:
        room = pathlib.Path(folder)
        (room / "conf").touch()
        daemon = Server([built("reqkeyd"), "serve", "--socket", room / "socket", "--conf", room / "conf", "--sessions", 64], room / "socket")
        door = Server([top / "build" / "reqkey-door", "--socket", room / "socket", "--listen", room / "door", "--root-any"], room / "door")
        print("| connections | direct, asks/s | handed over, asks/s | to direct |\n|---|---|---|---|")
        try:
            for connections in CONNECTIONS:
                rounds = [(rate(daemon.path, connections), rate(door.path, connections)) for _ in range(ROUNDS)]
                direct, handed = map(statistics.median, zip(*rounds))
                print(f"| {connections} | {direct:,.0f} | {handed:,.0f} | {statistics.median(one / other for other, one in rounds):.2f} |", flush=True)
        finally:
            door.end()
            daemon.end()


main()
