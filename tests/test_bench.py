#!/usr/bin/env python3
"""The programs in C of bench/ compile without a warning and run, and the one that plays scripts makes the same of them as `reqkeyd replay`.

It is written from the documents and shares no line with the daemon, so the two check each other: on each scenario of tests/replay, and on random
scripts. Nothing is measured here.
"""
import contextlib
import pathlib
import socket
import subprocess
import tempfile
import threading

from counted import Counted
from programs import lacks, ran, there, top
from random_scripts import played, script_of
from scenarios import scenarios

SEEDS = range(100)
count = Counted()

# A short run of each of the others; they end with a fault where an answer is not the one that is due.
RUNS = [
    ["book", "--rounds", "50", "200", "400"],
    ["book", "--rounds", "50", "--users", "1000", "200"],
    ["hall", "80"],
    ["spawn", "--starts", "16", "--resident", "1"],
    ["measure", "true"],
]


def load_is_answered(folder):
    """Eight connections to the server that echoes, with an ask at a time, of one user and of eight, and with fifty."""
    path = folder / "socket"
    server = subprocess.Popen([folder / "echo", path, "8"], stderr=subprocess.PIPE)
    server.stderr.readline()
    try:
        loads = ["80"], ["80", "users"], ["800", "together"]
        return all(ran(folder / "load", path, "8", *words)[0] == 0 for words in loads)
    finally:
        server.kill()
        server.communicate()


def status_with(folder, way, *replies):
    """The status of a load that asks another service, which a thread plays: it answers what has a mark by the reply that stands with it."""
    path = folder / f"{way}{len(list(folder.iterdir()))}"
    listener = socket.socket(socket.AF_UNIX)
    listener.bind(str(path))
    listener.listen()

    def answer():
        connection, _ = listener.accept()
        with connection, contextlib.suppress(ConnectionResetError):
            while data := connection.recv(4096):
                connection.sendall(next(reply for mark, reply in replies if mark in data))

    threading.Thread(target=answer, daemon=True).start()
    with listener:
        return ran(folder / "load", path, "1", "20", way)[0]


# A further service, what it answers, and the status of its load.
SERVICES = [
    ("redis", 0, (b"SET", b"+OK\r\n"), (b"GET", b"$1\r\nv\r\n")),
    ("redis", 1, (b"SET", b"+OK\r\n"), (b"GET", b"-ERR it\r\n")),
    ("agent", 0, (b"\x0b", b"\0\0\0\x05\x0c\0\0\0\x01")),
    ("agent", 1, (b"\x0b", b"\0\0\0\x01\x05")),
]

if lacks("bench/c", "gcc", "make"):
    count.end()
with tempfile.TemporaryDirectory() as name:
    folder = pathlib.Path(name)
    status, _, errors = ran("make", "-C", top / "bench", f"OUT={folder}", "WARNINGS=-Wall -Wextra -Werror", text=True)
    count.same("bench/c is built", (status, errors), (0, ""))
    replay = folder / "replay"
    if status == 0:
        for program, *words in RUNS:
            count.same(f"the status of bench/c/{program}", ran(folder / program, *words)[0], 0)
        count.same("bench/c/load is answered", load_is_answered(folder), True)
        for way, wanted, *replies in SERVICES:
            count.same(f"the status of bench/c/load, {way}", status_with(folder, way, *replies), wanted)
        for case in scenarios():
            count.same(f"bench/c/replay {case.name}", played(replay, case.script), (case.expected, case.status))
        programs = list(there(count))
        for seed in SEEDS:
            script = script_of(seed, replay)
            wanted = played(replay, script)
            for program in programs:
                count.same(f"{program.name}: the script of the seed {seed} (tests/random_scripts.py)", played(program, script), wanted)
count.end()
