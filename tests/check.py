#!/usr/bin/env python3
"""The gate, and all that proves crates for it: side by side, on the processors and in the memory that are free.

    check.py                    make check: `rt ci`, the edits that must fail, and the tests
    check.py --edits [CRATE ..] make edits: the edits alone, for edits.lock
    check.py --programs         make: the programs, into build/

Each begins with one run of `rt ci`, the toolchain's gate, which proves the crates and keeps what it proves for the next of these. `make check` runs it here,
on all; the others in a copy, on the crates that they need. What waits for a crate begins as soon as that is proved: the edits of those above it, and the tests
of a program. Each has one processor of those that the proofs leave, at a lower priority. With ANEW in the environment nothing is taken from earlier runs.

A test is an executable test_* of this folder, whose last line is `N passed, M failed`; what it prints before that tells what failed. The log ends with what was
taken from earlier runs, with what each part took of processors, the dearest last, with the last ten lines from each one that failed, and with the names of
those. The last line is `N passed, M failed`, of all together.
"""
import os
import pathlib
import random
import re
import shutil
import signal
import subprocess
import sys
import time

import crates
import machine
from jobs import Job, counted
from judge import Judge, Room, link
from trial import edits_of
from verdicts import DRAWN

top = crates.top
sys.path.insert(0, str(top / "tools"))
import cost

# What a check of a crate takes of memory at most, but for a few.
CHECK = 4e9
# What stays free.
SPARE = 0.5e9
# After so many commits all edits of a crate are to be tried, of which a lot was tried meanwhile.
DUE = 8
# The seconds between two looks at what the proofs take.
LOOK = 1

# What a test needs; one that isn't here needs both programs. The proofs' own tests are programs, too, as `rt ci` builds them.
NEEDS = {
    "test_allocations": [("tests", "rk_tests")],
    "test_bench_run": [],
    "test_check": [],
    "test_client": [("proof", "reqkeyctl")],
    "test_fuzz": [],
    "test_growths": [("tests", "rk_live_tests")],
    "test_judging": [],
    "test_lots": [],
    "test_pictures": [],
    "test_prove": [],
    "test_script_tool": [],
    "test_threads": [("tests", "rk_live_tests")],
    "test_traces": [],
    "test_verdicts": [],
    "test_wrong": [],
}
# Those that use keyutils' own programs wait until these are installed, as far as they can be. (Here and below a name stands for all that begin with it.)
OF_KEYUTILS = ["test_container", "test_keyutils", "test_stock", "test_trap"]
# Those that depend on the clock: something has to come within some tenths of a second, or within the seconds for which a key lives; in test_trap one of two
# processes has to be the first to want a descriptor.
BY_THE_CLOCK = ["test_demo", "test_door", "test_handlers", "test_keyutils", "test_record", "test_stock", "test_trap"]
# Those that take more memory than others: up to 2 GB.
LARGE = ["test_fuzz", "test_lots", "test_trap", "test_wrong"]
# Those that take longer than others, in processor seconds. Tests come before edits, whose rank is how many of a crate there are.
LONG = {"test_fuzz": 60, "test_lots": 70, "test_trap": 60, "test_wrong": 540}
TESTS_FIRST = 1000
# The seconds after which a test program is taken for a hang, and, within it, a single wait (programs.py).
HANGS, WAITS = 3600, 1200
# The same for the edits of a crate, of which some take long at a low priority.
EDITS_HANG = 7200


# What ends a run.
ENDING = [signal.SIGTERM, signal.SIGINT, signal.SIGHUP]


class Ended(BaseException):
    """This run is to end."""


def memory_of(name):
    """What the trial of a crate's edits is likely to take, in bytes: it grows with the lines of its sources, of its proofs, and of the crates below."""
    lines = lambda it, *kinds: sum(path.read_bytes().count(b"\n") for kind in kinds for path in (top / "crates" / it).rglob(f"{kind}"))
    below = sum(lines(it, "src/**/*.rt") for it in crates.below(crates.uses(), name))
    return 1e9 + 5e5 * lines(name, "src/**/*.rt") + 1e5 * lines(name, "specs/**/*.antt", "proofs/**/*.antt") + 4e4 * below


def edits_job(name, room, used, drawn, words):
    """The trial of a crate's edits, which needs those below it."""
    words = [sys.executable, top / "tests" / "try_edits.py", "--built", f"{room}/built/crates", *words, *(["--drawn"] if name in drawn else []), name]
    needs = [("proof", it) for it in crates.below(used, name)]
    return Job(f"the edits of {name}", words, needs, len(edits_of(name)), memory_of(name), EDITS_HANG, environ={"TMPDIR": f"{room}/tmp"})


def test_job(path):
    """A test program."""
    is_of = lambda names: path.stem.startswith(tuple(names))
    needs = NEEDS.get(path.stem, [("proof", "reqkeyd"), ("proof", "reqkeyctl")]) + ([("ended", "keyutils")] if is_of(OF_KEYUTILS) else [])
    environ = {"LIMIT": os.environ.get("LIMIT", str(WAITS))}
    rank = TESTS_FIRST + LONG.get(path.stem, 0)
    return Job(path.name, [path], needs, rank, 2e9 if is_of(LARGE) else 0.7e9, HANGS, is_of(BY_THE_CLOCK), environ)


class Gate:
    """A run: of `rt ci`, and of jobs beside it."""

    def __init__(self, judge, jobs, used, top_of_judge, built):
        self.judge, self.waiting, self.used, self.top_of_judge, self.built = judge, list(jobs), used, top_of_judge, built
        self.running, self.ended, self.linked, self.again = [], set(), set(), set()
        self.is_judging, self.looked, self.began = True, 0, time.monotonic()
        self.passed, self.failed, self.taken, self.not_run = 0, 0, {}, []
        self.names, self.last_lines, self.earlier, self.lots, self.old, self.seconds = [], [], [], [], [], []
        self.processors = machine.processors()
        self.waiting.sort(key=lambda it: -it.rank)

    def run(self):
        """Runs all of it."""
        try:
            while self.is_judging or self.running or self.waiting:
                self.found = None
                self.hear()
                self.collect()
                self.begin()
                time.sleep(0.2)
        finally:
            for job in self.running:
                job.end()
            self.judge.end()

    # ---- what the judge says

    def hear(self):
        """Shows what `rt ci` says, and takes note of what it takes."""
        if not self.is_judging:
            return
        lines, has_ended = self.judge.shown()
        for line in lines:
            print(line, flush=True)
        if has_ended:
            self.is_judging = False
            passed, failed, why = self.judge.count()
            if not self.judge.process.returncode:
                self.judge.proved |= {*self.used}
            self.earlier += [f"rt ci: {it}" for line in self.judge.lines if (it := done_by(line))]
            self.count(self.judge.name, passed, failed, self.judge.failures, why, self.judge.seconds)
        elif time.monotonic() - self.looked > LOOK:
            self.looked = time.monotonic()
            self.judge.look()
        for name in self.judge.proved - self.linked if self.built else []:
            self.link(name)

    def link(self, name):
        """Gives the trials the library of a crate, as it has been proved, wherever `rt ci` leaves it at last."""
        library = pathlib.Path(self.top_of_judge) / "crates" / name / "out" / "rlib"
        self.linked.add(name)
        if (library / f"{name}.rlib").is_dir() and not (library / "stamp").exists():
            shutil.copytree(library, pathlib.Path(self.built) / name / "out" / "rlib", copy_function=link)

    def has(self, need):
        """Whether what a job needs is there; None if it won't come."""
        kind, name = need
        found = name in {"proof": self.judge.proved, "tests": self.judge.tested, "ended": self.ended}[kind]
        if kind == "tests" and not self.is_judging:
            # (of tests that an earlier run proved, nothing is said)
            found = (pathlib.Path(self.top_of_judge) / "crates" / name / "out" / f"{name}_tests").is_file()
        will_come = self.is_judging and name not in self.judge.refused or kind == "ended"
        return found or (False if will_come else None)

    # ---- jobs

    def collect(self):
        """Counts the jobs that have ended."""
        for job in [it for it in self.running if it.has_ended()]:
            self.running.remove(job)
            lines = job.output()
            passed, failed, why = counted(lines, job.status())
            if job.is_hanging:
                why = f"it had not ended after {job.limit} seconds"
            if failed and job not in self.again and any("the prover gives no verdict" in it for it in lines):
                # (most likely for memory: once more, when nothing else runs)
                self.again.add(job)
                job.alone = True
                self.waiting.append(job)
                print(f"{job.name}: the prover gave no verdict; they are tried once more, alone", flush=True)
                continue
            self.ended.add(job.name)
            if job.name == "keyutils":
                continue
            self.show(job, lines, f"{passed} passed, {failed} failed")
            self.count(job.name, passed, failed, lines, why, job.seconds)

    def show(self, job, lines, counted):
        """Shows what a job has printed, but for what is reported at the end."""
        rest = [f"== {job.name}: {counted}, {job.seconds:.0f} processor seconds"]
        for line in lines[:-1] if lines and not job.is_hanging else lines:
            if line.startswith("taken, since "):
                why, _, name = line.partition(": ")
                self.taken.setdefault(why, []).append(name)
            elif line.startswith("by lot, since "):
                self.lots.append(line.partition(": ")[2])
                rest.append(line)
            elif line.startswith("edits.lock has no line"):
                self.old.append(line.partition(" of ")[2].partition(":")[0])
            else:
                rest.append(line)
        print("\n".join(rest), flush=True)

    def count(self, name, passed, failed, lines, why, seconds):
        """Adds what a part counts, and keeps the last lines of one that failed."""
        self.passed, self.failed = self.passed + passed, self.failed + failed
        self.seconds.append((seconds, name))
        if failed:
            self.names.append(f"failed: {name}: {failed}")
            shown = [it for it in lines if it and not SAYS_NOTHING.search(it)]
            self.last_lines += [f"{name}| {it[:200]}" for it in [*shown, *([why] if why else [])][-10:]]

    def begin(self):
        """Begins what can be begun."""
        for job in [it for it in self.waiting if any(self.has(need) is None for need in it.needs)]:
            self.waiting.remove(job)
            self.ended.add(job.name)
            self.not_run.append(job.name)
            self.failed += 1
        for job in [it for it in self.waiting if not it.alone and all(self.has(need) for need in it.needs)]:
            if not self.has_processor():
                return
            if self.has_memory(job):
                self.start(job)
        if not self.is_judging and not self.running and self.waiting:
            # (all that is left is alone, or finds no memory)
            ready = [it for it in self.waiting if all(self.has(need) for need in it.needs)]
            for job in ready[:1]:
                self.start(job)

    def start(self, job):
        self.waiting.remove(job)
        job.begin(top)
        self.running.append(job)
        self.found = None

    def has_processor(self):
        """Whether the proofs and the jobs leave a processor."""
        taken = max(round(self.judge.busy), self.judge.checks) if self.is_judging else 0
        return self.processors - taken - len(self.running) > 0

    def has_memory(self, job):
        """Whether there is memory for a job, with what those that run may still take. A check more of the proofs' may begin at any time."""
        found = self.found = self.found or machine.processes()
        growth = [it.memory - sum(found[each].memory for each in machine.tree(found, it.process.pid)) for it in self.running]
        if self.is_judging:
            checks = min(self.judge.checks + 1, self.processors)
            growth.append(checks * CHECK - self.judge.memory)
        return machine.free_memory() - sum(max(0, it) for it in growth) > job.memory + SPARE

    # ---- the end of the log

    def report(self):
        """Prints what is reported at the end. The status."""
        taken = [f"edits: {why}: {' '.join(sorted(names))}" for why, names in sorted(self.taken.items())]
        print("".join(f"{it}\n" for it in [*self.earlier, *taken]), end="")
        self.report_lots()
        if self.old:
            print(f"edits.lock has no line, or an old one, of {' '.join(sorted(self.old))}: `make edits` writes it")
        print("processor seconds:")
        for seconds, name in sorted(self.seconds):
            print(f"{seconds:.0f} {name}")
        minutes, whole = (time.monotonic() - self.began) / 60, sum(it for it, _ in self.seconds)
        proofs = self.judge.proofs()
        if proofs:
            each = ", ".join(f"{name} {proofs[name]:.0f}" for name in sorted(proofs, key=proofs.get, reverse=True))
            print(f"proved in this run, in processor seconds: {each}")
            print(cost.line(cost.chain(proofs, self.used), proofs))
        print(f"{whole:.0f} in all, in {minutes:.0f} minutes on {self.processors} processors")
        print("".join(f"{it}\n" for it in [*self.last_lines, *self.names]), end="")
        if self.not_run:
            print(f"failed: not run, since what they need is not proved: {len(self.not_run)}: {', '.join(self.not_run)}")
        print(f"{self.passed} passed, {self.failed} failed", flush=True)
        return 1 if self.failed else 0

    def report_lots(self):
        """Reports which crates' edits were tried by lot, and whether it is time to try all."""
        if self.lots:
            print(f"{len(self.lots)} crates stand on a lot of their edits, since what is below them has changed: {'; '.join(sorted(self.lots))}")
            oldest = max([int(it) for line in self.lots for it in re.findall(r"all (\d+) commits ago", line)], default=0)
            print(f"`make edits` or `ANEW=1 make check` tries all of them{f': that is due after {DUE} commits' if oldest >= DUE else ''}")


SAYS_NOTHING = re.compile(r"^\d+ passed, \d+ failed$|: not (tried|looked for)|edits in \d+ checks|^(taken|by lot), since|^processor seconds|^edits\.lock has")


def done_by(line):
    """How much a run of `rt ci` did itself, by its last lines."""
    found = re.match(r"rt: ok.*?(done in this run.*|every proof and.*)", line)
    return found and found[1]


def rt_ci():
    """The words of the toolchain's gate, and what they want of the environment. Where all edits are tried, each check has one job, since a second one costs a
    quarter more of processors that have other work; else the dearest chain of crates gets those that nothing else takes."""
    anew = bool(os.environ.get("ANEW"))
    # (some toolchains keep no proofs: each of their gates begins from nothing, and has no such word)
    said = anew and subprocess.run(["rt", "ci", "--anew"], cwd="/", stdin=subprocess.DEVNULL, stdout=subprocess.PIPE, stderr=subprocess.STDOUT).stdout
    knows = anew and not re.search(b"^usage:", said, re.M)
    fixed = {"RT_JOBS": str(lanes())} if anew and "RT_JOBS" not in os.environ else {}
    return ["rt", "ci", *(["--anew"] if knows else [])], fixed


def lanes():
    """As many proofs side by side as there are processors, and as memory holds."""
    return max(1, min(machine.processors(), int(machine.free_memory() // CHECK)))


def with_edits(used):
    """The crates that have edits."""
    return [name for name in used if edits_of(name)]


def drawn_of(names):
    """A twelfth of these crates, drawn by lot."""
    return random.SystemRandom().sample(names, -(-len(names) // DRAWN))


def checks():
    """make check."""
    used = crates.uses()
    # (what a `make kept` that was killed has left: the toolchain takes no sources beside those of crates/)
    shutil.rmtree(top / "build" / "proving", ignore_errors=True)
    (top / "build").mkdir(exist_ok=True)
    with Room() as room:
        crates.lay_out(pathlib.Path(room) / "built", used, "out", "edits", "must-fail")
        os.mkdir(f"{room}/tmp")
        drawn = drawn_of(with_edits(used))
        edits = [edits_job(name, room, used, drawn, []) for name in with_edits(used)]
        tests = [test_job(path) for path in sorted((top / "tests").glob("test_*")) if os.access(path, os.X_OK)]
        # (what needs nothing first: that is there at once)
        words = [sys.executable, "-c", "import keyutils_library as it; it.available()"]
        keyutils = Job("keyutils", words, rank=2 * TESTS_FIRST, limit=900, environ={"PYTHONPATH": str(top / "tests")})
        gate = Gate(Judge(top, *rt_ci(), top / "build" / "ci.log"), [keyutils, *tests, *edits], used, top, f"{room}/built/crates")
        gate.run()
        return gate.report()


def edits(chosen):
    """make edits."""
    used = crates.uses()
    names = [name for name in with_edits(used) if not chosen or name in chosen]
    if not {*chosen} <= {*names}:
        sys.exit(f"without edits: {' '.join(sorted({*chosen} - {*names}))}\n0 passed, 1 failed")
    with Room() as room:
        wanted = below_and(used, names)
        (top / "build").mkdir(exist_ok=True)
        crates.lay_out(pathlib.Path(room) / "built", wanted, "out", "edits", "must-fail")
        os.mkdir(f"{room}/tmp")
        jobs = [edits_job(name, room, used, [], ["--lock"]) for name in names]
        gate = Gate(Judge(f"{room}/built", *rt_ci(), top / "build" / "ci.log"), jobs, {it: used[it] for it in wanted}, f"{room}/built", None)
        gate.run()
        return gate.report()


def programs():
    """make."""
    used = crates.uses()
    names = [name for name in used if (top / "crates" / name / "src" / "main.rt").exists()]
    with Room() as room:
        wanted = below_and(used, names)
        (top / "build").mkdir(exist_ok=True)
        crates.lay_out(pathlib.Path(room) / "built", wanted, "out", "edits", "must-fail")
        gate = Gate(Judge(f"{room}/built", *rt_ci(), top / "build" / "ci.log"), [], {it: used[it] for it in wanted}, f"{room}/built", None)
        gate.run()
        for name in names if not gate.failed else []:
            (top / "build" / name).unlink(missing_ok=True)
            shutil.copy(f"{room}/built/crates/{name}/out/{name}", top / "build" / name)
        return gate.report()


def below_and(used, names):
    """These crates and those below."""
    return {it for name in names for it in {name, *crates.below(used, name)}}


def ends(*_):
    for it in ENDING:
        signal.signal(it, signal.SIG_IGN)
    raise Ended


def main(words):
    for it in ENDING:
        if signal.getsignal(it) != signal.SIG_IGN:
            signal.signal(it, ends)
    try:
        if words[:1] == ["--edits"]:
            return edits(words[1:])
        if words == ["--programs"]:
            return programs()
        if words:
            print(__doc__, file=sys.stderr)
            return 2
        return checks()
    except Ended:
        print("ended before all was done\n0 passed, 1 failed", flush=True)
        return 1


if __name__ == "__main__":
    sys.exit(main(sys.argv[1:]))
