#!/usr/bin/env python3
"""Prints the payload of a key of the daemon; where there is none, the callout is what its handler gets.

`get` requests it into the user's ring, so that the next run finds it there: a session ring ends with its session, and each run is one.

usage: example_client.py SOCKET TYPE DESCRIPTION [CALLOUT]
"""
import sys

import reqkey


def main() -> int:
    if len(sys.argv) not in [4, 5]:
        print(__doc__.split("\n")[4], file=sys.stderr)
        return 2
    path, kind, description = sys.argv[1:4]
    callout = sys.argv[4] if len(sys.argv) == 5 else None
    try:
        with reqkey.connect(path) as session:
            payload = session.get(kind, description, callout)
        sys.stdout.buffer.write(payload + b"\n")
    except (reqkey.Error, OSError) as fault:
        print(fault, file=sys.stderr)
        return 1
    return 0


sys.exit(main())
