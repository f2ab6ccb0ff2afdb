#!/usr/bin/env python3
"""Fuzzes what is written in C and reads what others say: replies of a daemon, the memory of a hostile program, what a container runtime says, who comes
to a door; and what happens to the rings and the threads of a trap. By clang's libFuzzer, under its sanitizers, as many runs as take some seconds, from one seed;
`tests/test_fuzz.py SECONDS` takes that long for each, from any."""
import pathlib
import re
import shutil
import sys
import tempfile

from compiled import compiled, works
from counted import Counted
from programs import ran, top

count = Counted()
FLAGS = ["-std=gnu11", "-D_GNU_SOURCE", "-g", "-O1", "-fsanitize=fuzzer,address,undefined", "-fno-sanitize-recover=all"]
NOTHING = "int LLVMFuzzerTestOneInput(const unsigned char *data, unsigned long size) { return data == 0 && size > 0; }\n"
LIBRARY = ["trap/answer.c", "trap/kernel.c", *(f"keyutils/{name}.c" for name in ["attributes", "calls", "left_out", "on_key", "raw", "types", "words"])]

# Each target: how many runs, what it is linked with, and how long its inputs are.
LONG = ["-max_len=3000", "-len_control=0"]
TARGETS = {
    "reply": (20000, [], []), "program": (40000, LIBRARY, []), "state": (200000, [], []), "door": (1500, [], []),
    "rings": (4000, [], LONG), "listener": (1500, [], ["-max_len=64"]),
}


def main():
    with tempfile.TemporaryDirectory(prefix="fuzz-") as folder:
        room = pathlib.Path(folder)
        if not shutil.which("clang") or not works(room, "clang", FLAGS, NOTHING, ["-runs=1"]):
            print("fuzzing: not tried, there is no clang with its fuzzer")
            count.end()
        for name, (runs, sources, lengths) in TARGETS.items():
            target = compiled(count, room / name, top / "tests" / "fuzz" / f"{name}.c", *FLAGS, *[top / "clients" / it for it in sources], compiler="clang")
            if target is None:
                continue
            how = [f"-max_total_time={sys.argv[1]}"] if len(sys.argv) > 1 else [f"-runs={runs}", "-seed=1"]
            status, _, errors = ran(target, *how, *lengths, text=True, cwd=room)
            said = errors if status else re.sub(r"(?s).*Done (\d+) runs.*", r"\1", errors)
            count.same(f"fuzz/{name}.c", (status, said if status or not said.isdigit() else ""), (0, ""))
            if len(sys.argv) > 1:
                print(f"{name}: {said} runs")
    count.end()


main()
