#!/usr/bin/env python3
"""tools/prove.py over a made-up toolchain, which locks the folders that the real one locks: crates that don't wait for each other are proved side by side, each
after those below it, and what was kept of them comes and goes with their checks. Nothing is proved here."""
import os
import pathlib
import shutil
import subprocess
import sys
import tempfile

from counted import Counted
from crates import top

count = Counted()

# The made-up toolchain. `left` and `right` each wait until the other one has begun too, so a run that has them one after the other fails.
RT = """#!{python}
import fcntl, os, pathlib, sys, time
here = pathlib.Path.cwd()
name, log = here.name, pathlib.Path(os.environ["LOG"])
lines = [it.partition(":") for it in (here.parent.parent / "crates.txt").read_text().splitlines()]
used = {{it[0]: it[2].split() for it in lines}}
below = lambda it: {{it}}.union(*map(below, used[it]))
held = [os.open(here.parent / it, os.O_RDONLY) for it in sorted(below(name))]
for it in held:
    fcntl.flock(it, fcntl.LOCK_EX)
kept = (here / "out" / "kept").is_file()
lacking = [it for it in below(name) - {{name}} if not (here.parent / it / "out" / "rlib" / "built").is_file()]
with open(log, "a") as file:
    file.write(f"{{' '.join([name, sys.argv[1], *lacking])}}{{' over kept work' * kept}}\\n")
until = time.monotonic() + 300
other = {{"left": "right", "right": "left"}}.get(name)
while other and not any(it.startswith(other + " ") for it in log.read_text().splitlines()):
    if time.monotonic() > until:
        sys.exit("alone")
    time.sleep(0.01)
print(f"the check of {{name}}")
if name == os.environ.get("FAILS"):
    sys.exit(1)
(here / "out" / "rlib").mkdir(parents=True, exist_ok=True)
(here / "out" / "rlib" / "built").touch()
"""


def laid_out(room):
    """A repository of four crates, with the program that proves them, and the made-up toolchain."""
    for name in ["low", "left", "right", "program"]:
        source = room / "crates" / name / "src" / ("main.rt" if name == "program" else "lib.rt")
        source.parent.mkdir(parents=True)
        source.write_text("// nothing\n")
    (room / "crates.txt").write_text("low:\nleft: low\nright: low\nprogram: left right\n")
    (room / "HANDLES").touch()
    for path in ["tools/prove.py", "tests/crates.py"]:
        (room / path).parent.mkdir()
        shutil.copy(top / path, room / path)
    (room / "bin").mkdir()
    (room / "bin" / "rt").write_text(RT.format(python=sys.executable))
    (room / "bin" / "rt").chmod(0o755)


def proved(room, **environ):
    """The status and lines of a run, without the minutes; and what the made-up toolchain noted."""
    log = room / "noted"
    log.write_text("")
    environ = {**os.environ, "PATH": f"{room / 'bin'}:{os.environ['PATH']}", "LOG": str(log), "RT_JOBS": "2", **environ}
    (room / "build").mkdir(exist_ok=True)
    ran = subprocess.run([room / "tools" / "prove.py", room / "build" / "prove.log"], env=environ, stdin=subprocess.DEVNULL, stdout=subprocess.PIPE, text=True)
    return ran.returncode, [line.split(",")[0] for line in ran.stdout.splitlines()], log.read_text().splitlines()


with tempfile.TemporaryDirectory() as name:
    room = pathlib.Path(name)
    laid_out(room)
    status, lines, noted = proved(room)
    count.same("all crates are proved", (status, sorted(it.split(":")[0] for it in lines)), (0, ["left", "low", "program", "right"]))
    count.same("and counted", [it.partition(": ")[2] for it in lines], [f"{it} of 4" for it in range(1, 5)])
    count.same("the lowest first, and the program last, which is built", (noted[0], noted[-1]), ("low lib", "program run"))
    count.same("two side by side", sorted(noted[1:-1]), ["left lib", "right lib"])
    built = [(room / "crates" / it / "out" / "rlib" / "built").is_file() for it in ["low", "left", "right", "program"]]
    count.same("what they made stands in the repository", built, [True] * 4)
    count.same("and nothing is left of theirs", list((room / "build" / "proving").glob("*")), [])
    count.same("the log has what the checks have said", "the check of program\n" in (room / "build" / "prove.log").read_text(), True)

    (room / "crates" / "low" / "out" / "kept").touch()
    left_over = room / "build" / "proving" / "left" / "crates" / "left" / "out"
    left_over.mkdir(parents=True)
    (left_over / "kept").touch()
    status, lines, noted = proved(room, FAILS="right")
    count.same("a crate that is not proved ends the run", (status, [it for it in noted if it.startswith("program")]), (1, []))
    kept = ["low lib over kept work", "left lib over kept work"]
    count.same("each begins with what was kept, also in a run that was killed", [it for it in noted if "kept" in it], kept)
    count.same("what was kept stands in the repository", [(room / "crates" / it / "out" / "kept").is_file() for it in ["low", "left"]], [True, True])
    count.same("and nothing is left of theirs", list((room / "build" / "proving").glob("*")), [])
    count.same("the log says why", "the check of right\n" in (room / "build" / "prove.log").read_text(), True)

count.end()
