#!/usr/bin/env python3
"""Containers that do harm: one with a thousand processes in a call, one whose memory never comes, one that is stopped, one that is killed a hundred times. The daemon and the other
containers go on, and are as they were when it has ended.

The program is tried as it is installed, and so that a wrong access to memory, or what it does not give back, ends it.
"""
import os
import pathlib
import signal
import subprocess
import sys
import tempfile

from compiled import made_twice
from counted import Counted
from daemon import Daemon, until
from programs import LIMIT, PROGRAMS, lacks, there
from trap import CALLS, Containers, environment, notifies

count = Counted()

# `made:*` is made at once, and `slow:*` when the test lets it go.
LINES = """create user made:* * |/bin/cat
create user slow:* * |/bin/cat %room/fifo
"""

COMMON = CALLS + """
import threading
def add(name, payload=b"v", ring=-3):
    return keyctl_of(KEYCTL - 2, b"user", name, payload, len(payload), ring)
def request(name, callout=b"x", ring=-3):
    return keyctl_of(KEYCTL - 1, b"user", name, callout, ring)
def keyctl_of(*words):
    result = libc.syscall(*words)
    return result if result >= 0 else errno.errorcode[ctypes.get_errno()]
"""

# What an honest container does, and prints, on each line that it gets.
HONEST = """
buffer = ctypes.create_string_buffer(64)
for turn, line in enumerate(sys.stdin):
    name = b"k%d" % turn
    key, made = add(name, b"payload"), request(b"made:%d" % turn, b"callout")
    read = [keyctl(11, key, buffer, 64), buffer.value, keyctl(11, made, buffer, 64), buffer.value]
    gone = [keyctl(9, each, -3) for each in [key, made, made]]
    told((read, gone) == ([7, b"payload", 7, b"callout"], [0, 0, "ENOKEY"]) or (read, gone))
"""

# A thousand requests that wait for their handlers, each of a process.
CROWD = """
for number in range(1000):
    if os.fork() == 0:
        request(b"slow:%d" % number)
        os._exit(0)
told("waiting")
signal.pause()
"""

# Calls whose memory never comes: a page that userfaultfd(2) has, and nobody fills; for what is read, and for what is written.
STALLS = """
import fcntl, struct
FAULTS = 323 if os.uname().machine == "x86_64" else 282
libc.mmap.restype = ctypes.c_void_p
page = libc.mmap(None, ctypes.c_size_t(4096), 3, 0x22, -1, ctypes.c_long(0))
faults = libc.syscall(FAULTS, os.O_CLOEXEC)
if faults < 0:
    told("none")
    sys.exit()
fcntl.ioctl(faults, 0xc018aa3f, struct.pack("QQQ", 0xaa, 0, 0))
fcntl.ioctl(faults, 0xc020aa00, struct.pack("QQQQ", page, 4096, 1, 0))
key, at = add(b"k"), ctypes.c_void_p(page)
told({keyctl(11, key, at, 8) for _ in range(100)})
for number in range(300):
    threading.Thread(target=lambda: libc.syscall(KEYCTL - 2, b"user", b"n", at, 8, -3), daemon=True).start()
told("stalled")
signal.pause()
"""

# A request without a callout waits for a key that another one has made a handler make, and a third call is answered meanwhile.
QUIET = """
def waits(callout):
    told(request(b"slow:quiet", callout))
threading.Thread(target=waits, args=[b"x"]).start()
sys.stdin.readline()
for number in range(20):
    threading.Thread(target=waits, args=[None]).start()
told([isinstance(add(b"%d" % number), int) for number in range(20)] == [True] * 20)
"""

# All kinds of calls without an end, of eight processes.
BUSY = """
for number in range(7):
    if os.fork() == 0:
        break
buffer = ctypes.create_string_buffer(40000)
told("busy")
for turn in range(1000000):
    key = add(b"%d" % os.getpid(), b"p" * 20000, -4 if turn % 2 else -3)
    keyctl(11, key, buffer, 40000)
    request(b"made:%d-%d" % (os.getpid(), turn), b"x" * 4000)
    join() if turn % 5 == 0 else keyctl(7, -3)
    os.setresuid(turn % 9 * 1000, 0, 0)
"""


class Container:
    """A program in a container, which is killed at the end with all that it has started."""

    def __init__(self, containers, name, script):
        words = containers.words(name, sys.executable, "-I", "-S", "-c", COMMON + script)
        self.process = subprocess.Popen(words, stdin=subprocess.PIPE, stdout=subprocess.PIPE, text=True, env=environment(), start_new_session=True)

    def line(self):
        return self.process.stdout.readline()

    def turn(self):
        """A round of an honest container."""
        self.process.stdin.write("\n")
        self.process.stdin.flush()
        return self.line()

    def kill(self):
        os.killpg(self.process.pid, signal.SIGKILL)
        self.process.communicate()


class Watch:
    """Another container, and the daemon's own clients, before, beside and after a hostile one."""

    def __init__(self, containers, daemon):
        self.containers, self.daemon = containers, daemon
        self.honest = Container(containers, "honest", HONEST)
        count.same("an honest container", self.honest.turn(), "True\n")
        self.before = self.held()

    def held(self):
        """What the trap and the daemon hold: descriptors that are not a thread's own for a moment, and sockets."""
        kinds = [kind for kind in self.containers.descriptors() if kind in ["socket", "anon_inode:seccomp notify"]]
        return sorted(kinds), self.daemon.descriptors()["socket"]

    def goes_on(self, what):
        """Beside it: the container that was there, a new one, and a client of the daemon."""
        count.same(f"the other container beside {what}", [self.honest.turn() for _ in range(5)], ["True\n"] * 5)
        new = Container(self.containers, "new", HONEST)
        count.same(f"a new container beside {what}", new.turn(), "True\n")
        new.kill()
        count.same(f"the daemon beside {what}", self.daemon.lives(), None)

    def is_as_before(self, what):
        until(lambda: self.held() == self.before, f"what {what} held: {self.before}, and not {self.held()}")
        self.goes_on(f"the end of {what}")
        until(lambda: self.held() == self.before, f"what {what} held: {self.before}, and not {self.held()}")


def crowd(watch, containers, daemon):
    """A thousand processes that wait for a key at the same time: 256 are answered, over the connections that are this container's."""
    hostile = Container(containers, "crowd", CROWD)
    count.same("a thousand processes", hostile.line(), "waiting\n")
    until(lambda: len(daemon.children()) >= 20, "handlers of a thousand processes")
    watch.goes_on("a thousand processes in a call")
    handlers = len(daemon.children())
    count.same("the handlers of a thousand processes", 20 <= handlers <= 22, True)
    second = Container(containers, "crowd-too", CROWD)
    count.same("a thousand more", second.line(), "waiting\n")
    until(lambda: len(daemon.children()) >= handlers + 9, "handlers of a thousand more")
    watch.goes_on("two thousand processes in a call")
    count.same("the handlers of a thousand more", 9 <= len(daemon.children()) - handlers <= 11, True)
    hostile.kill()
    second.kill()
    watch.goes_on("handlers of processes that were killed")
    daemon.release()
    watch.is_as_before("a thousand processes in a call")


def stalls(watch, containers):
    """Calls whose memory never comes: what is written there is EFAULT, and what is read there has a thread each, and no connection."""
    hostile = Container(containers, "stalls", STALLS)
    said = hostile.line()
    if said == "none\n":
        print("a container whose memory never comes: not tried, there is no userfaultfd here")
        hostile.kill()
        return
    count.same("a container whose memory never comes", (said, hostile.line()), ("{'EFAULT'}\n", "stalled\n"))
    threads = pathlib.Path(f"/proc/{containers.process.pid}/task")
    until(lambda: len(list(threads.iterdir())) >= 256, "threads of calls whose memory never comes")
    watch.goes_on("calls whose memory never comes")
    hostile.kill()
    watch.is_as_before("calls whose memory never comes")


def quiet(watch, containers, daemon):
    """Calls of which nothing says that they wait hold up no others of their own container for long."""
    waiting = Container(containers, "quiet", QUIET)
    until(daemon.children, "a handler")
    count.same("a call beside those that wait without a callout", waiting.turn(), "True\n")
    daemon.release()
    # (their handler gets nothing from the pipe that it reads, so it has failed)
    count.same("those that wait", [waiting.line() for _ in range(21)], ["ENOKEY\n"] * 21)
    waiting.kill()
    watch.is_as_before("calls that wait without a callout")


def stopped(watch, containers):
    """Processes that are stopped in their calls take no answer."""
    hostile = Container(containers, "stopped", BUSY)
    count.same("a container that is busy", hostile.line(), "busy\n")
    os.killpg(hostile.process.pid, signal.SIGSTOP)
    watch.goes_on("a container that is stopped")
    hostile.kill()
    watch.is_as_before("a container that is stopped")


def killed(watch, containers):
    """A container that is killed in the midst of its calls, a hundred times, by one name and by others."""
    for turn in range(100):
        hostile = Container(containers, "killed" if turn % 2 else f"killed-{turn}", BUSY)
        hostile.line()
        if turn % 3:
            hostile.line()
        hostile.kill()
        if turn % 20 == 0:
            watch.goes_on(f"a container that is killed {turn} times")
    watch.is_as_before("a container that is killed a hundred times")


def tries(daemon_program, trap_program, room):
    log = pathlib.Path(tempfile.mkdtemp(prefix="log-", dir=room))
    os.environ.update({"ASAN_OPTIONS": f"detect_leaks=1:log_path={log}/address", "UBSAN_OPTIONS": f"log_path={log}/undefined"})
    with Daemon(daemon_program, LINES) as daemon:
        os.mkfifo(daemon.room / "fifo")
        with Containers(count, trap_program, daemon, {**environment(), **os.environ}) as containers:
            watch = Watch(containers, daemon)
            crowd(watch, containers, daemon)
            stalls(watch, containers)
            quiet(watch, containers, daemon)
            stopped(watch, containers)
            killed(watch, containers)
            watch.honest.kill()
            until(lambda: containers.descriptors() == ["socket"], "descriptors of containers that have ended")
    said = [path.read_text()[:2000] for path in sorted(log.iterdir())]
    count.same("what the sanitizers say", said, [])


def main():
    if lacks("containers that do harm", "gcc", "make"):
        count.end()
    if os.geteuid() != 0 or not notifies():
        print("containers that do harm: not tried, this is not root, or the kernel has no seccomp with user notification")
        count.end()
    with tempfile.TemporaryDirectory(prefix="hostile-") as folder:
        traps = [each for each in made_twice(count, "trap", pathlib.Path(folder)) if each is not None]
        for daemon_program in there(count, PROGRAMS[:1]):
            for trap_program in traps:
                tries(daemon_program, trap_program, pathlib.Path(folder))
    count.end()


main()
