"""Jobs that run side by side, each a command with what it waits for."""
import ctypes
import os
import re
import signal
import subprocess
import tempfile
import time

COUNT = re.compile(r"(\d+) passed, (\d+) failed")
# How much lower than the proofs' the priority of a job is; what waits for the proofs runs on the processors that these leave.
LOWER = 10
_prctl, _ENDS_WITH_PARENT = ctypes.CDLL(None).prctl, 1


def apart(nice):
    """What a child does before its command: it has a group of its own, so that it is ended with all that it starts; and it is ended when its parent ends,
    however that ends. (It stays in the parent's session. Linux would share processors evenly among sessions, whatever their priorities.)"""
    os.setpgrp()
    os.nice(nice)
    _prctl(_ENDS_WITH_PARENT, signal.SIGTERM)


class Job:
    """A command that counts what passes. What it prints is kept until it has ended.

    `needs` are what has to stand before, as pairs (Gate.has). Of those that can begin, the one of the greatest `rank` does. `memory` is what it is likely to
    take, in bytes. After `limit` seconds it is taken for a hang, and ended. One that is `alone` runs when nothing else does.
    """

    def __init__(self, name, words, needs=(), rank=0, memory=1e9, limit=3600, alone=False, environ=None):
        self.name, self.words, self.needs, self.rank, self.memory, self.limit, self.alone = name, words, needs, rank, memory, limit, alone
        self.environ = environ or {}
        self.seconds, self.is_hanging = 0, False

    def begin(self, cwd):
        self.said, self.began = tempfile.TemporaryFile(), time.monotonic()
        how = {"stdin": subprocess.DEVNULL, "stdout": self.said, "stderr": subprocess.STDOUT, "env": {**os.environ, **self.environ}}
        self.process = subprocess.Popen(self.words, cwd=cwd, preexec_fn=lambda: apart(0 if self.alone else LOWER), **how)

    def has_ended(self):
        """Whether it has ended; one that hangs is ended."""
        number, status, used = os.wait4(self.process.pid, os.WNOHANG)
        if number == 0 and time.monotonic() - self.began > self.limit:
            self.is_hanging = True
            self.end()
            return True
        if number:
            self.leave(status, used)
        return number != 0

    def leave(self, status, used):
        self.process.returncode = os.waitstatus_to_exitcode(status)
        self.seconds = used.ru_utime + used.ru_stime

    def end(self):
        """Ends it, with what it has started."""
        for how in [signal.SIGTERM, signal.SIGKILL]:
            try:
                os.killpg(self.process.pid, how)
            except OSError:
                pass
            until = time.monotonic() + 5
            while self.process.returncode is None and time.monotonic() < until:
                number, status, used = os.wait4(self.process.pid, os.WNOHANG)
                if number:
                    self.leave(status, used)
                time.sleep(0.05)

    def status(self):
        return self.process.returncode

    def output(self):
        """What it has printed, as lines."""
        self.said.seek(0)
        return self.said.read().decode(errors="replace").splitlines()


def counted(lines, status):
    """What a command counts in its last line, which is no part of what is shown: passed, failed, and why it counts as a failure itself, or None. One that
    ends without a count, or whose status disagrees with it, is one."""
    found = COUNT.fullmatch(lines[-1]) if lines else None
    if not found:
        return 0, 1, f"ended without a count, status {status}"
    passed, failed = int(found[1]), int(found[2])
    if status != 0 and not failed:
        return passed, 1, f"status {status} though nothing failed"
    return passed, failed, None
