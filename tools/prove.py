#!/usr/bin/env python3
"""Proves the crates of the programs and builds these, as many side by side as there are processors, and prints a line for each as it is done: `make kept`.

    prove.py LOG

Begins with what earlier checks kept in crates/NAME/out, and leaves there what it has made. LOG gets what the toolchain prints. RT_JOBS in the
environment is the number of processors to use; else it is as many as there are, and as memory holds at 4 GB for a check.

A crate is begun once those below it are proved. Of those that can be begun, the one with most to prove above it goes first. It may use all processors,
since the others wait for it at last. These have one job each, at a lower priority, so that they take what it leaves.

The toolchain locks the folder of a crate that it checks, and those of all crates below. So each crate is proved in a repository of its own, in build/proving,
which has the crates below it with their libraries, as links. It goes with its check, since `rt ci` takes no sources beside those of crates/.
"""
import os
import pathlib
import shutil
import signal
import subprocess
import sys
import tempfile
import time

top = pathlib.Path(__file__).resolve().parent.parent
sys.path.insert(0, str(top / "tests"))
import crates

rooms = top / "build" / "proving"


def uses():
    """The crates of the programs, each with all those that it stands on."""
    used = crates.uses()
    needed = {it for name in used if is_program(name) for it in {name, *crates.below(used, name)}}
    return {name: crates.below(used, name) for name in needed}


def is_program(name):
    return (top / "crates" / name / "src" / "main.rt").exists()


def processors():
    """How many processors to use."""
    with open("/proc/meminfo") as file:
        free = next(int(line.split()[1]) for line in file if line.startswith("MemAvailable:"))
    return int(os.environ.get("RT_JOBS") or max(1, min(crates.jobs(), free // 4_000_000)))


def link(file, other):
    """Makes a link to a file, or a copy where there are no links."""
    try:
        os.link(file, other)
    except OSError:
        shutil.copy2(file, other)


def lay_out(name, below):
    """Makes the repository in which a crate is proved, with what checks kept of it. Its folder."""
    room = rooms / name
    crates.lay_out(room, {name, *below}, "out", "edits", "must-fail")
    for it in below:
        kept = pathlib.Path("crates") / it / "out" / "rlib"
        shutil.copytree(top / kept, room / kept, copy_function=link)
    move(top / "crates" / name / "out", room / "crates" / name / "out")
    return room


def take_back(room):
    """Moves what a check kept back, and removes its repository."""
    move(room / "crates" / room.name / "out", top / "crates" / room.name / "out")
    shutil.rmtree(room)


def move(old, new):
    """Moves a folder, if there is one, to where another one may be."""
    if old.is_dir():
        shutil.rmtree(new, ignore_errors=True)
        old.rename(new)


class Check:
    """The proof of one crate, under way. What it prints is kept until it has ended."""

    def __init__(self, name, below, jobs, is_first):
        self.name = name
        self.said = tempfile.TemporaryFile()
        self.room = lay_out(name, below)
        words = ["nice", "-n", "0" if is_first else "10", "rt", "run" if is_program(name) else "lib", "--jobs", str(jobs)]
        words += ["--", "--version"] if is_program(name) else []
        # (in a group of its own, and in the session of the others, among which Linux would share processors evenly)
        how = {"stdin": subprocess.DEVNULL, "stdout": self.said, "stderr": subprocess.STDOUT, "preexec_fn": os.setpgrp}
        self.process = subprocess.Popen(words, cwd=self.room / "crates" / name, **how)

    def status(self):
        """Its exit status; None while it goes on."""
        return self.process.poll()

    def output(self):
        self.said.seek(0)
        return self.said.read()

    def end(self):
        """Ends it, with what it has started, and keeps what it has made."""
        if self.status() is None:
            os.killpg(self.process.pid, signal.SIGTERM)
            self.process.wait()
        take_back(self.room)


class Proof:
    """The proof of all these crates, and how far it is."""

    def __init__(self, used, log, processors):
        self.used = used
        self.log = log
        self.processors = processors
        self.waiting = set(used)
        self.running = []
        self.proved = set()
        self.first = None
        self.ahead = {name: crates.size(name) + sum(crates.size(it) for it in used if name in used[it]) for name in used}
        self.started = time.monotonic()

    def run(self):
        """Proves all crates. Whether each is proved."""
        # (a run that was killed may have left some)
        for room in list(rooms.glob("*")):
            take_back(room)
        try:
            while self.waiting or self.running:
                self.begin()
                time.sleep(0.2)
                for check in [it for it in self.running if it.status() is not None]:
                    self.running.remove(check)
                    self.first = None if check is self.first else self.first
                    check.end()
                    self.log.write(check.output())
                    self.log.flush()
                    if check.status() != 0:
                        return False
                    self.is_proved(check.name)
            return True
        finally:
            for check in self.running:
                check.end()

    def begin(self):
        """Begins what can be begun, while there are processors."""
        ready = sorted((it for it in self.waiting if self.used[it] <= self.proved), key=self.ahead.get, reverse=True)
        for name in ready[: self.processors - len(self.running)]:
            is_first = self.first is None and all(self.ahead[name] > self.ahead[it.name] for it in self.running)
            check = Check(name, self.used[name], self.processors if is_first else 1, is_first)
            self.first = check if is_first else self.first
            self.waiting.remove(name)
            self.running.append(check)

    def is_proved(self, name):
        """Says that a crate is proved."""
        self.proved.add(name)
        minutes = (time.monotonic() - self.started) / 60
        print(f"{name}: {len(self.proved)} of {len(self.used)}, {minutes:.0f} minutes so far", flush=True)


if __name__ == "__main__":
    # (so that what runs is ended then, too)
    signal.signal(signal.SIGTERM, lambda *_: sys.exit(1))
    with open(sys.argv[1], "wb") as file:
        sys.exit(0 if Proof(uses(), file, processors()).run() else 1)
