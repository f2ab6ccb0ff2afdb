"""The program of clients/trap/, and programs that it runs on a daemon."""
import contextlib
import json
import os
import pathlib
import subprocess
import sys

from compiled import compiled
from daemon import until
from programs import LIMIT, ran, started, top

INSIDE = top / "tests" / "clients" / "inside.py"
RUNTIME = top / "tests" / "clients" / "runtime.py"


def notifies():
    """Whether this kernel hands calls to a supervisor."""
    with contextlib.suppress(OSError):
        return "user_notif" in pathlib.Path("/proc/sys/kernel/seccomp/actions_avail").read_text()
    return False


def statically(count, room):
    """The program tests/clients/trapped.c, without any library; None where that can't be built."""
    return compiled(count, room / "trapped", top / "tests" / "clients" / "trapped.c", "-std=gnu11", "-D_GNU_SOURCE", "-O1", "-static", "-pthread")


def environment(**changes):
    """That of the tests, without a word of any daemon."""
    unset = ["LD_PRELOAD", "REQKEYD_SOCKET", "REQKEYD_JOIN", "REQKEYD_STREAMS"]
    return {**{name: value for name, value in os.environ.items() if name not in unset}, "ASAN_OPTIONS": "detect_leaks=0", **changes}


class Trap:
    """Programs in a trap, each in one of its own."""

    def __init__(self, program, socket):
        self.program, self.socket = program, socket

    def words(self, *words):
        return [str(self.program), "--socket", str(self.socket), "--", *map(str, words)]

    def run(self, *words, piped="", options=None, **changes):
        """Status, output and errors."""
        words = self.words(*words) if options is None else [str(self.program), *map(str, options), *map(str, words)]
        return ran(*words, input=piped, text=True, env=environment(**changes))

    def start(self, *words, **more):
        return started(*self.words(*words), env=environment(), stdin=subprocess.PIPE, **more)


class Listening:
    """A trap for containers, which comes to a daemon's folder or another one; started by these words, if there are any."""

    def __init__(self, count, program, daemon, log, folder=None, words=(), options=()):
        self.path = (folder or daemon.room) / "listen"
        self.process = started(*words, program, "--listen", self.path, "--socket", daemon.path, *options, stdout=None, env=log)
        count.same("a trap for containers", self.process.stderr.readline(), "reqkey-trap: ready\n")

    def __enter__(self):
        return self

    def __exit__(self, *_):
        self.process.kill()
        self.process.communicate()


class Inside:
    """Programs that follow one another within one trap, or one container: a process there that starts them."""

    def __init__(self, words, **more):
        self.process = subprocess.Popen([*words, sys.executable, "-I", "-S", str(INSIDE)], stdin=subprocess.PIPE, stdout=subprocess.PIPE, text=True, **more)

    def __enter__(self):
        return self

    def __exit__(self, *_):
        with contextlib.suppress(BrokenPipeError):
            self.process.stdin.close()
        self.process.wait(LIMIT)
        self.process.stdout.close()

    def run(self, *words, piped="piped"):
        """Status, output and errors of a program; `ended` and how, if the process there has ended before it."""
        with contextlib.suppress(BrokenPipeError):
            self.process.stdin.write(json.dumps([list(map(str, words)), piped]) + "\n")
            self.process.stdin.flush()
        line = self.process.stdout.readline()
        return tuple(json.loads(line)) if line else ("ended", str(self.process.wait(LIMIT)), "")


class Containers(Listening):
    """A trap for containers, and a runtime that starts programs in them."""

    def words(self, name, *words):
        state = json.dumps({"fds": ["seccompFd"], "metadata": '"state": {"id": "other"}', "state": {"annotations": {"id": "none"}, "id": name}})
        return [sys.executable, str(RUNTIME), str(self.path), state if name is not None else "x", *map(str, words)]

    def inside(self, name):
        return Inside(self.words(name), env=environment())

    def descriptors(self):
        """What it has open for containers, and for the daemon."""
        kinds = []
        for path in pathlib.Path(f"/proc/{self.process.pid}/fd").iterdir():
            with contextlib.suppress(OSError):
                kinds.append(os.readlink(path) if int(path.name) > 2 else "")
        return [kind.partition(":[")[0] for kind in kinds if kind not in ["", "anon_inode:[eventpoll]", "anon_inode:[timerfd]"]]


def supervisor_of(process):
    """The supervisor of a trap: its child."""
    def child():
        for path in pathlib.Path("/proc").glob("[0-9]*/stat"):
            with contextlib.suppress(OSError):
                if int(path.read_text().rpartition(")")[2].split()[1]) == process.pid:
                    return int(path.parent.name)
        return None
    return until(child, "a supervisor")


# Keys' system calls by the letters of a line, each answered by a line: a number, or the name of an error.
CALLS = """
import ctypes, errno, os, signal, sys
libc = ctypes.CDLL(None, use_errno=True)
KEYCTL = 250 if os.uname().machine == "x86_64" else 219
def keyctl(*words):
    result = libc.syscall(KEYCTL, *words)
    return result if result >= 0 else errno.errorcode[ctypes.get_errno()]
def ring():
    return keyctl(0, -3, 0)
def join():
    return keyctl(1, None)
def told(*words):
    print(*words, flush=True)
"""


def calls(trap, script, **more):
    """A program in a trap that makes calls, in Python."""
    return trap.start(sys.executable, "-I", "-S", "-c", CALLS + script, **more)
