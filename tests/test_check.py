#!/usr/bin/env python3
"""The gate (check.py) over a made-up toolchain: what runs beside `rt ci` and when, what is counted of all that can fail, and what a run that is ended leaves.
Nothing is proved here."""
import json
import os
import pathlib
import re
import shutil
import signal
import subprocess
import sys
import tempfile
import time

from counted import Counted
from crates import top

count = Counted()

# The made-up `rt`. It proves the crates of crates.txt one after the other, each as a folder with a line, and stops before the one that the file `holds` names
# until the file `go` is there. What it was called with goes to the file `noted`.
RT = """#!{python}
import json, os, pathlib, signal, sys, time
room, here, words = pathlib.Path(os.environ["MADE_UP"]), pathlib.Path.cwd(), sys.argv[1:]
if words == ["version"]:
    print("made-up logic 0"); sys.exit(0)
if words[:1] != ["ci"] or here == pathlib.Path("/"):
    print("rt: crates.txt is not here"); sys.exit(2)
with open(room / "noted", "a") as file:
    file.write(json.dumps([str(here), *words, os.environ.get("RT_JOBS", "")]) + "\\n")
(room / "judge").write_text(str(os.getpid()))
play = json.loads((room / "play").read_text())
def proves(name, uses, refused):
    lacking = [it for it in uses if it in refused]
    if lacking:
        print(f"rt: {{name}} NOT PROVED: its library {{lacking[0]}} failed", flush=True)
        return False
    if name == play.get("holds"):
        while not (room / "go").exists():
            time.sleep(0.01)
    print(f"== {{name}}\\nfn {{name}}::right: proved\\n{{'fn ' + name + '::wrong: no proof' if name == play.get('wrong') else ''}}", flush=True)
    if name == play.get("wrong"):
        print(f"rt: {{name}} NOT PROVED", flush=True)
        return False
    out = here / "crates" / name / "out"
    (out / "rlib" / f"{{name}}.rlib").mkdir(parents=True, exist_ok=True)
    (out / name).write_text(f"the program {{name}}\\n")
    print(f"rt: {{name}} proved", flush=True)
    return True
try:
    lines = [it.partition(":") for it in (here / "crates.txt").read_text().splitlines()]
    refused = set()
    for name, _, uses in lines:
        if not proves(name, uses.split(), refused):
            refused.add(name)
    print("rt: ok; handles allowed: none; done in this run: 4 of the 4 proofs" if not refused else f"rt: FAILED: {{' '.join(sorted(refused))}}")
    print(f"{{len(lines) - len(refused)}} passed, {{len(refused)}} failed", flush=True)
    sys.exit(1 if refused else play.get("status", 0))
except KeyboardInterrupt:
    (room / "put back").touch()
    sys.exit(130)
"""

# The made-up trial of edits, which notes what it was told and what stands in its folder, and says what the file `play` has for the crate.
TRIES = """#!{python}
import json, os, pathlib, sys
room, words = pathlib.Path(os.environ["MADE_UP"]), sys.argv[1:]
name, built = words[-1], pathlib.Path(words[words.index("--built") + 1])
times = room / f"tried {{name}}"
with open(times, "a") as file:
    file.write(" ".join(sorted(it.stem for it in built.glob("*/out/rlib/*.rlib"))) + " " + " ".join(it for it in words if it in ["--lock"]) + "\\n")
said = json.loads((room / "play").read_text()).get("edits", {{}}).get(name, ["1 passed, 0 failed"])
if len(times.read_text().splitlines()) > 1 and "gives no verdict" in said[0]:
    said = ["2 passed, 0 failed"]
print("\\n".join(said))
sys.exit(0 if said[-1].endswith(" 0 failed") else 1)
"""

# A made-up test: it prints the lines that the file `play` has for it.
TEST = """#!{python}
import json, os, pathlib, sys, time
room = pathlib.Path(os.environ["MADE_UP"])
said = json.loads((room / "play").read_text()).get("tests", {{}}).get("{name}", ["1 passed, 0 failed"])
(room / "ran {name}").write_text(" ".join(sorted(it.name for it in pathlib.Path("crates").glob("*/out/*") if it.is_file())))
if said[0] == "hangs":
    time.sleep(600)
print("\\n".join(it for it in said if not it.startswith("status ")))
sys.exit(next((int(it.split()[1]) for it in said if it.startswith("status ")), 1 if "0 failed" not in said[-1] else 0))
"""

CRATES = {"low": "", "mid": "low", "reqkeyctl": "low", "reqkeyd": "low mid"}
TESTS = ["test_client", "test_judging", "test_replay", "test_record"]


def lay_out(room):
    """A repository of four crates, three with edits, and of four tests."""
    for name in CRATES:
        source = room / "crates" / name / "src" / ("main.rt" if name.startswith("reqkey") else "lib.rt")
        source.parent.mkdir(parents=True)
        source.write_text("// nothing\n")
        (room / "crates" / name / "edits").mkdir()
        if name != "low":
            (room / "crates" / name / "edits" / "one.edit").touch()
    (room / "crates.txt").write_text("".join(f"{name}: {uses}\n" for name, uses in CRATES.items()))
    (room / "HANDLES").touch()
    for path in ["check.py", "crates.py", "edits.py", "jobs.py", "judge.py", "machine.py", "stubs.py", "trial.py", "twins.py", "verdicts.py"]:
        (room / "tests").mkdir(exist_ok=True)
        shutil.copy(top / "tests" / path, room / "tests")
    (room / "tools").mkdir()
    shutil.copy(top / "tools" / "cost.py", room / "tools")
    (room / "tests" / "keyutils_library.py").write_text("def available():\n    pass\n")
    (room / "bin").mkdir()
    made = {"bin/rt": RT.format(python=sys.executable), "tests/try_edits.py": TRIES.format(python=sys.executable)}
    for path, text in {**made, **{f"tests/{it}.py": TEST.format(python=sys.executable, name=it) for it in TESTS}}.items():
        (room / path).write_text(text)
        (room / path).chmod(0o755)


class Run:
    """A run of check.py in a repository of its own: its status, its lines, and what the made-up toolchain noted."""

    def __init__(self, *words, limit="HANGS", meanwhile=lambda room, process: None, anew="", **play):
        with tempfile.TemporaryDirectory() as name:
            self.room = pathlib.Path(name)
            lay_out(self.room)
            (self.room / "play").write_text(json.dumps(play))
            (self.room / "temporary").mkdir()
            check = self.room / "tests" / "check.py"
            check.write_text(check.read_text().replace(" HANGS, is_of(", f" {limit}, is_of("))
            environ = {**os.environ, "PATH": f"{self.room / 'bin'}:{os.environ['PATH']}", "MADE_UP": name, "TMPDIR": f"{name}/temporary", "RT_JOBS": "4"}
            environ = {**{it: value for it, value in environ.items() if it not in ("ANEW", "CI")}, **({"ANEW": anew} if anew else {})}
            process = subprocess.Popen([check, *words], env=environ, stdin=subprocess.DEVNULL, stdout=subprocess.PIPE, stderr=subprocess.STDOUT, text=True)
            meanwhile(self.room, process)
            self.lines = process.communicate()[0].splitlines()
            self.status = process.returncode
            self.noted = [json.loads(it) for it in (self.room / "noted").read_text().splitlines()] if (self.room / "noted").exists() else []
            self.files = {it.name: it.read_text() for it in self.room.iterdir() if it.is_file()}
            self.built = {it.name: it.read_text() for it in (self.room / "build").glob("reqkey*")}
            self.left = [it.name for it in (self.room / "temporary").iterdir()]

    def end(self):
        """The status and the last line."""
        return self.status, self.lines[-1]

    def failed(self):
        """What is named as failed."""
        return sorted(it.removeprefix("failed: ") for it in self.lines if it.startswith("failed: "))

    def has(self, words):
        return any(words in it for it in self.lines)


def until(happens):
    while not happens():
        time.sleep(0.01)


def beside(room, _):
    """Lets `rt ci` go on once what needs no more than the crate `low` has run."""
    until(lambda: (room / "tried mid").exists() and (room / "ran test_judging").exists() and (room / "tried reqkeyctl").exists())
    (room / "before").write_text(" ".join(sorted(it.name for it in room.glob("ran *"))))
    (room / "go").touch()


def killed(signal_of):
    def kills(room, process):
        until(lambda: (room / "tried reqkeyctl").exists())
        process.send_signal(signal_of)
    return kills


run = Run(holds="mid", meanwhile=beside)
count.same("all passes", run.end(), (0, "11 passed, 0 failed"))
count.same("one run of rt ci, of all", [it[1:-1] for it in run.noted], [["ci"]])
count.same("the edits of a crate are tried when those below are proved, and while rt ci goes on", run.files["tried mid"], "low \n")
count.same("those of a program, too", run.files["tried reqkeyd"].split()[:2], ["low", "mid"])
count.same("so is a test that needs nothing, and one of a program waits", run.files["before"], "ran test_judging")
count.same("one runs when its program is there", "reqkeyd" in run.files["ran test_replay"].split(), True)
count.same("what rt ci did is reported", run.has("rt ci: done in this run: 4 of the 4 proofs"), True)
count.same("and not of each function", run.has("fn low::right"), False)
count.same("nothing is left", run.left, [])

run = Run(wrong="mid")
count.same("a crate that is not proved", run.end(), (1, "6 passed, 5 failed"))
not_run = [set(it.rpartition(": ")[2].split(", ")) for it in run.failed() if it.startswith("not run, since what they need is not proved: 3: ")]
count.same("is reported", "rt ci: 2" in run.failed(), True)
count.same("and what was not run for it", not_run, [{"test_record.py", "test_replay.py", "the edits of reqkeyd"}])
count.same("with what was said of it", run.has("fn mid::wrong: no proof"), True)

run = Run(edits={"mid": ["mid/one.edit: no function in which it stands has an open goal of its own", "0 passed, 1 failed"]})
count.same("an edit that is not refused", (run.end(), run.failed()), ((1, "10 passed, 1 failed"), ["the edits of mid: 1"]))
count.same("is reported at the end", run.has("the edits of mid| mid/one.edit: no function"), True)

run = Run(edits={"mid": ["mid/one.edit: the prover gives no verdict: ", "0 passed, 1 failed"]})
count.same("edits without a verdict are tried once more", (run.end(), len(run.files["tried mid"].splitlines())), ((0, "12 passed, 0 failed"), 2))

said = ["by lot, since what is below has changed: mid: 2 of 12, all 9 commits ago", "2 passed, 0 failed"]
run = Run(edits={"mid": said, "reqkeyd": ["taken, since edits.lock lists them: reqkeyd", "3 passed, 0 failed"]})
stands = "1 crates stand on a lot of their edits, since what is below them has changed: mid: 2 of 12, all 9 commits ago"
count.same("what stands on a lot is reported", run.has(stands), True)
count.same("and that it is time to try all", run.has("tries all of them: that is due after 8 commits"), True)
count.same("and what the lock lists", run.has("edits: taken, since edits.lock lists them: reqkeyd"), True)

run = Run(tests={"test_replay": ["a case: wrong", "4 passed, 2 failed"], "test_client": ["no count"], "test_judging": ["1 passed, 0 failed", "status 3"]})
count.same("tests that fail", (run.end(), run.failed()), ((1, "13 passed, 4 failed"), ["test_client.py: 1", "test_judging.py: 1", "test_replay.py: 2"]))
told = ["test_replay.py| a case: wrong", "test_client.py| ended without a count, status 1", "test_judging.py| status 3 though nothing failed"]
count.same("why is reported", [it for it in told if not run.has(it)], [])

run = Run(limit='1 if path.stem == "test_replay" else HANGS', tests={"test_replay": ["hangs"]})
count.same("a test that hangs is ended", (run.end(), run.failed()), ((1, "10 passed, 1 failed"), ["test_replay.py: 1"]))
count.same("and reported", run.has("test_replay.py| it had not ended after 1 seconds"), True)

run = Run(status=3)
count.same("rt ci's status counts", (run.end(), run.failed()), ((1, "11 passed, 1 failed"), ["rt ci: 1"]))

for number in [signal.SIGTERM, signal.SIGINT]:
    run = Run(holds="mid", meanwhile=killed(number))
    count.same(f"a run that is ended by {number.name}", run.end(), (1, "0 passed, 1 failed"))
    count.same("lets rt ci put back what it has set aside", "put back" in run.files, True)
    count.same("and leaves nothing", run.left, [])

def ended(number):
    """Whether a process has ended."""
    try:
        return "\nState:\tZ" in pathlib.Path(f"/proc/{number}/status").read_text()
    except OSError:
        return True


run = Run(holds="mid", meanwhile=killed(signal.SIGKILL))
until(lambda: ended(run.files["judge"]))
count.same("what a run has begun that is killed ends, too", ended(run.files["judge"]), True)
run = Run(anew="1")
count.same("ANEW proves all again", [it[1:-1] for it in run.noted], [["ci", "--anew"]])

run = Run("--programs")
count.same("make", (run.end(), sorted(run.built)), ((0, "4 passed, 0 failed"), ["reqkeyctl", "reqkeyd"]))
count.same("by rt ci in a copy", [it[0] != str(run.room) for it in run.noted], [True])
run = Run("--programs", wrong="mid")
count.same("make of what is not proved", (run.status, run.built), (1, {}))

run = Run("--edits")
count.same("make edits", run.end(), (0, "7 passed, 0 failed"))
count.same("by rt ci in a copy, too", [it[0] != str(run.room) for it in run.noted], [True])
count.same("for the lock", re.findall("--lock", run.files["tried mid"]), ["--lock"])
run = Run("--edits", "reqkeyctl")
count.same("of one crate", ([it for it in run.files if it.startswith("tried")], run.end()), (["tried reqkeyctl"], (0, "3 passed, 0 failed")))
count.same("of none", Run("--edits", "low").lines[-1], "0 passed, 1 failed")

count.end()
