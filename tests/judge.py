"""A run of `rt ci`, the toolchain's gate, while which others use what it has proved."""
import collections
import os
import queue
import re
import shutil
import signal
import subprocess
import tempfile
import threading
import time

import machine
from jobs import apart, counted

# What it says of a crate and of its tests. (If a toolchain says something else, what waits for a crate waits for the end of the run.)
PROVED = re.compile(r"rt: (\w+)(?: proved| is kept: .*)")
TESTED = re.compile(r"rt: (\w+): its tests are proved")
REFUSED = re.compile(r"rt: (\w+) NOT PROVED.*")
UNTESTED = re.compile(r"rt: (\w+): its tests are NOT PROVED")
# What it says of each function and library, which is shown only of a crate that is not proved; and the start of that.
DULL = re.compile(
    r"\w+ \S+: proved.*|(statements|library|logic|crate|axioms|linked|empty contracts:) .*|logic=.*|tests(=|: ).*|test \S+ \.\.\. ok|test result: ok.*"
    r"|rt: \w+ is kept: .*|\d+ passed, \d+ failed|"
)
BLOCK = re.compile(r"== \w+(: its tests)?")
# What tells of a failure, for the last lines of a log.
FAILS = re.compile(r"NOT PROVED|NOT REFUSED|NOT TRIED|BAD EDIT|FAILED|ended with status|differ first")
# How long a run that is ended may take to put back what it has set aside.
PATIENCE = 20


class Judge:
    """The run: which crates are proved so far, what it shows, and what it takes of the machine."""

    def __init__(self, top, words, environ, log):
        self.log = open(log, "wb")
        self.name = " ".join(words)
        self.proved, self.tested, self.refused = set(), set(), set()
        self.block, self.lines, self.failures = [], [], []
        # (pieces of a crate's proof, by process)
        self.seconds_of, self.seconds, self.busy, self.seen = {}, 0, 0, None
        self.memory, self.checks = 0, 0
        how = {"stdin": subprocess.DEVNULL, "stdout": subprocess.PIPE, "stderr": subprocess.STDOUT, "env": {**os.environ, **environ}}
        self.process = subprocess.Popen(words, cwd=top, preexec_fn=lambda: apart(0), **how)
        self.said = queue.Queue()
        threading.Thread(target=self.reads, daemon=True).start()

    def reads(self):
        for line in self.process.stdout:
            self.log.write(line)
            self.log.flush()
            self.said.put(line.decode(errors="replace").rstrip("\n"))
        self.said.put(None)

    def shown(self):
        """The lines to be shown that came since the last call, and whether the run has ended."""
        found = []
        while not self.said.empty():
            line = self.said.get()
            if line is None:
                _, status, used = os.wait4(self.process.pid, 0)
                self.process.returncode = os.waitstatus_to_exitcode(status)
                self.seconds = used.ru_utime + used.ru_stime
                self.log.close()
                return found, True
            found += self.heard(line)
        return found, False

    def heard(self, line):
        """What is to be shown of a line."""
        self.lines = [*self.lines[-30:], line]
        self.failures += [line] if FAILS.search(line) else []
        for of, it in [(PROVED, self.proved), (TESTED, self.tested), (REFUSED, self.refused)]:
            if found := of.fullmatch(line):
                it.add(found[1])
        if BLOCK.fullmatch(line):
            self.block = [line]
            return []
        if REFUSED.fullmatch(line) or UNTESTED.fullmatch(line):
            whole, self.block = [*self.block, line], []
            return whole
        if PROVED.fullmatch(line) or TESTED.fullmatch(line):
            self.block = []
        self.block += [line] if self.block else []
        return [] if DULL.fullmatch(line) else [line]

    def count(self):
        """What it counts: passed, failed, and why it is a failure itself, or None."""
        return counted(self.lines, self.process.returncode)

    def look(self):
        """Takes note of what the run takes: how many processors since the last look, how much memory, and the seconds of each crate's proof."""
        found, now = machine.processes(), time.monotonic()
        members = machine.tree(found, self.process.pid)
        seconds = sum(found[it].seconds + found[it].waited for it in members)
        if self.seen and now > self.seen[0]:
            self.busy = max(0, (seconds - self.seen[1]) / (now - self.seen[0]))
        self.seen = now, seconds
        self.memory, self.checks = sum(found[it].memory for it in members), 0
        for it in members:
            words = machine.words_of(it)
            if "--crate-name" in words:
                self.checks += found[it].parent == self.process.pid
                if "--test" not in words and (words[1] == "build" or "-o" in words):
                    self.seconds_of[it] = words[words.index("--crate-name") + 1], found[it].seconds

    def proofs(self):
        """The processor seconds of the proofs that this run has made, by crate; what a process takes after the last look at it is in none."""
        sums = collections.Counter()
        for name, seconds in self.seconds_of.values():
            sums[name] += seconds
        return sums

    def end(self):
        """Ends the run, so that it puts back what it has set aside: its checks are ended, and it waits for these."""
        if self.process.returncode is None:
            self.process.send_signal(signal.SIGINT)
            until = time.monotonic() + PATIENCE
            while self.process.poll() is None and time.monotonic() < until:
                for it in machine.tree(machine.processes(), self.process.pid)[1:]:
                    try:
                        os.kill(it, signal.SIGKILL)
                    except OSError:
                        pass
                time.sleep(0.2)
            if self.process.poll() is None:
                self.process.kill()
                self.process.wait()


class Room:
    """A folder of this run alone, which is removed with it. Those that killed runs have left are removed, too."""

    PREFIX = "reqkey-gate-"

    def __init__(self):
        for it in os.scandir(tempfile.gettempdir()):
            owner = re.match(rf"{self.PREFIX}(\d+)-", it.name)
            if owner and not os.path.exists(f"/proc/{owner[1]}"):
                shutil.rmtree(it.path, ignore_errors=True)
        self.path = tempfile.mkdtemp(prefix=f"{self.PREFIX}{os.getpid()}-")

    def __enter__(self):
        return self.path

    def __exit__(self, *_):
        shutil.rmtree(self.path, ignore_errors=True)


def link(file, other):
    """Makes a link to a file, or a copy where there are no links."""
    try:
        os.link(file, other)
    except OSError:
        shutil.copy2(file, other)
