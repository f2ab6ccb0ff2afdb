#!/usr/bin/env python3
"""An ask over `serve` takes at most as many instructions as bench/bounds.py says, and prints how many it takes.

They are counted by callgrind, so a run gives the same as the run before, whatever else the machine does. Only the program as LLVM makes it is measured: that
is the one which users install.
"""
import sys

from counted import Counted
from programs import PROGRAMS, lacks, there, top

sys.path.insert(0, str(top / "bench"))
import bounds
import costs

COUNT = 1000  # as many asks, and twice as many: with fewer, the first growth of the tables and of the record weighs more

count = Counted()
if lacks("instructions of an ask", "valgrind"):
    count.end()
measured = {ask.name: ask for ask in costs.ASKS}
count.same("bounds of no ask that is measured", [name for name in bounds.MOST if name not in measured], [])
for program in there(count, PROGRAMS[:1]):
    for name, most in bounds.MOST.items():
        taken = costs.cost(costs.Daemon(program), measured[name], COUNT)
        print(f"{name}: {taken:,.0f} instructions, at most {most:,}")
        count.same(f"{name}: more instructions than {most:,}", taken <= most, True)
count.end()
