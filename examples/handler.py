#!/usr/bin/env python3
"""A plain handler: it makes the key of its first word, whose payload is its second word and the callout. What it says it also writes to the file of
its third word.

Its line in the configuration: create user mail:* * /path/of/handler.py %k %d /path/of/told
"""
import pathlib
import sys

sys.path.insert(0, str(pathlib.Path(__file__).resolve().parent.parent / "tools"))
from messages import bodies, frame, read_reply, write_ask


def ask(words):
    """Writes one ask to standard output, and gives its reply, which is read from standard input."""
    sys.stdout.buffer.write(frame(write_ask(words.split(" "))))
    sys.stdout.buffer.flush()
    head = sys.stdin.buffer.read(4)
    reply = read_reply(bodies(head + sys.stdin.buffer.read(int.from_bytes(head, "big")))[0])
    with told.open("a") as file:
        print(words, reply, sep="\t", file=file)
    return reply


key, description, told = *sys.argv[1:3], pathlib.Path(sys.argv[3])
ask(f"ASSUME {key}")
callout = ask("CALLOUT").removeprefix("bytes ")
ask(f"INSTANTIATE {key} {description}:{callout} 0")
