#!/usr/bin/env python3
"""A plain handler: makes keys whose payload is their callout in capitals, and says for an hour that there is none where the callout is empty.

Its line in the configuration: create user capitals:* * /path/of/example_handler.py %k

A key that is to expire gets its time before its payload: session.timeout, and then session.instantiate, after which all is refused (EACCES).
"""
import sys

import reqkey

key = int(sys.argv[1])
with reqkey.handle(key) as session:
    callout = session.callout()
    if callout:
        session.instantiate(key, callout.upper().encode())
    else:
        session.negate(key, 3600)
