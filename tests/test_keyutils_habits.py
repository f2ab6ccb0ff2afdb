#!/usr/bin/env python3
"""What programs do around keyutils' calls, on the daemon: handlers in bash and Python, their programs side by side, in the background and killed; cancelled
threads, calls that are left by siglongjmp, descriptors that a program closes, another user, and a daemon that is started again."""
import os
import pathlib
import re
import signal
import subprocess
import tempfile
import threading

import protocol_peer as peer
from counted import Counted
from daemon import Daemon, until
from keyutils_library import ENVIRONMENT, UID, Programs, everywhere
from packages import has
from programs import LIMIT, ran, started, top

count = Counted()
MISSING = "request_key: Required key not available\n"

LINES = """create user bash:* * %plain %room/bash %k
create user python:* * %plain %room/python %k
create user beside:* * %plain %room/beside %k
create user behind:* * %plain %room/behind %k %c
create user killed:* * %plain %room/killed %k
create user example:* * %plain %room/habits example %k
create user made:* * |/bin/cat
create user slow:* * |%room/slow
"""

SCRIPTS = {
    "slow": "#!/bin/sh\nexec cat %room/fifo\n",
    "bash": "#!/bin/bash\nkeyctl rdescribe $1 && keyctl instantiate $1 by-bash @s\n",
    "python": """#!/usr/bin/env python3
import subprocess, sys
subprocess.run(["keyctl", "instantiate", sys.argv[1], "by-python", "@s"], close_fds=True, check=True)
""",
    # twenty programs at a time, each with a request and a read of its own
    "beside": """#!/bin/bash
keyctl rdescribe $1 > /dev/null
one() {
    key=$(keyctl request2 user made:$1 payload-$1 @s) && [ "$(keyctl print $key)" = payload-$1 ] || echo $1 >> %room/wrong
}
for each in $(seq 20); do one $each & done
wait
if [ -e %room/wrong ]; then payload=$(cat %room/wrong); else payload=right; fi
keyctl instantiate $1 "$payload" @s
""",
    # a child that has left the standard streams goes on: by execve, by fork alone, or by an execve after its handler has ended
    "behind": """#!/usr/bin/env python3
import os, subprocess, sys, time
key, how = sys.argv[1:]
subprocess.run(["keyctl", "instantiate", key, how, "@s"], check=True)
null = {"stdin": subprocess.DEVNULL, "stdout": subprocess.DEVNULL, "stderr": subprocess.DEVNULL}
away = {"start_new_session": True, "close_fds": False, **null}
if how == "executed":
    print("behind", subprocess.Popen(["sleep", "1000"], **away).pid)
elif how == "late":
    wait = f'while [ "$(cut -d " " -f 4 /proc/$$/stat)" = {os.getpid()} ]; do sleep 0.05; done; LD_PRELOAD="$LATE" exec sleep 1000'
    without = {**os.environ, "LATE": os.environ["LD_PRELOAD"], "LD_PRELOAD": ""}
    print("behind", subprocess.Popen(["sh", "-c", wait], env=without, **away).pid)
else:
    child = os.fork()
    if child == 0:
        for stream in range(3):
            os.close(stream)
        time.sleep(1000)
        os._exit(0)
    print("behind", child)
""",
    # a program that is killed while it waits: its reply is nobody else's
    "killed": """#!/bin/bash
keyctl rdescribe $1 > /dev/null
timeout 0.3 keyctl request2 user slow:killed x @s
keyctl instantiate $1 wrong @s
keyctl print 5
""",
}


def gives(keys, name, callout, payload):
    """A request, and what its key has then."""
    status, output, errors = keys.run("keyctl", "request2", "user", name, callout, "@s")
    count.same(f"request for {name}", (status, output.strip().isdigit(), errors), (0, True, ""))
    count.same(f"the payload of {name}", keys.run("keyctl", "pipe", f"%user:{name}"), (0, payload, ""))


def handlers(keys):
    gives(keys, "bash:a", "x", "by-bash")
    gives(keys, "python:a", "x", "by-python")
    gives(keys, "beside:a", "x", "right")


def behind(keys):
    """A handler has ended when it has, whatever it leaves running."""
    for how in ["executed", "forked", "late"]:
        before = len(keys.daemon.lines)
        gives(keys, f"behind:{how}", how, how)
        child = until(lambda: next((int(line.split()[1]) for line in keys.daemon.lines[before:] if line.startswith("behind ")), None), "a child")
        count.same(f"a child goes on: {how}", pathlib.Path(f"/proc/{child}").exists(), True)
        os.kill(child, signal.SIGKILL)


def killed(keys):
    """A program of a handler is killed while it waits: the reply that comes is nobody else's, and the handler fails."""
    before = len(keys.daemon.lines)
    request = started("keyctl", "request2", "user", "killed:a", "x", "@s", env=keys.environment)

    def said():
        return [line for line in keys.daemon.lines[before:] if line.startswith("keyctl_")]

    until(lambda: len(said()) == 2, "what the other programs of a handler get")
    count.same("what its other programs get", said(), ["keyctl_instantiate: Connection reset by peer", "keyctl_read_alloc: Connection reset by peer"])
    keys.daemon.release()
    output, errors = request.communicate(timeout=LIMIT)
    count.same("a handler whose program was killed", (request.returncode, output, errors), (1, "", MISSING))


HABITS = {
    "cancel": ["written done", "cancelled 1", "after right"],
    "jump": ["before right", "after right", "ring done", "files 0"],
    "interrupt": ["inner right", "outer ECONNRESET", "after right"],
    "closes": ["before right", "after right", "heard EAGAIN", "heard EAGAIN", "again right"],
    "stream": ["without right", "input closed"],
}
OF_ROOT = {
    "number": ["set done", "its child's 0", "its own 4"],
    "user": ["root right", "seteuid done", "read refused", "ring other", "nobody right", "seteuid done", "read done", "unlink done"],
}


def habits(keys):
    for subject, want in {**HABITS, **(OF_ROOT if UID == 0 else {})}.items():
        for join in [str(keys.session), None]:
            if subject == "user":
                keys.daemon.path.chmod(0o777)
                keys.daemon.room.chmod(0o755)
            status, output, errors = keys.run(keys.daemon.room / "habits", subject, FIFO=str(keys.daemon.room / "fifo"), REQKEYD_JOIN=join)
            count.same(f"habits: {subject}, in {join}", (status, output.split("\n")[:-1], errors), (0, want, ""))
            keys.daemon.release()


def example(keys):
    """The handler of keyctl(2)'s example, but for its words."""
    before = len(keys.daemon.lines)
    gives(keys, "example:a", "words", "words")
    key = int(keys.run("keyctl", "id", "%user:example:a")[1])
    want = ["assume done", "another ENOKEY", "authority done", "ring done", "itself done",
            f"described .request_key_auth;{UID};-1;0b010000;{key:x}", "add done", "instantiate done"]
    first = [line.split()[0] for line in want]

    def said():
        """What it has said, without what earlier handlers say late."""
        return [line for line in keys.daemon.lines[before:] if line.split(" ")[0] in first]

    until(lambda: len(said()) >= len(want), "what the example says")
    count.same("what the example says", sorted(said()), sorted(want))
    count.same("a key that it has put beside", keys.run("keyctl", "pipe", "%user:beside"), (0, "v", ""))


def connects(keys):
    """A signal's function calls while a call connects: that call is over, and another thread has what the function has connected."""
    go, reply = threading.Event(), threading.Event()
    beside = peer.on_key(7, 3)

    def answers(at, body):
        if body[0] == 1:
            if at == 0:
                go.wait(LIMIT)
            return peer.rings(0, 0, 4, 8)
        if body[0] == 8:
            return peer.data(b"user;1000;valid;n")
        if body == beside:
            reply.wait(LIMIT)
        return peer.data(b"v")

    with tempfile.TemporaryDirectory() as folder, peer.Crowd(f"{folder}/s", answers) as crowd:
        environment = {**keys.environment, "REQKEYD_SOCKET": crowd.path}
        environment.pop("REQKEYD_JOIN")
        program = started(keys.daemon.room / "habits", "connects", env=environment, stdin=subprocess.PIPE)

        def line(said=""):
            program.stdin.write(said)
            program.stdin.flush()
            return program.stdout.readline()

        until(lambda: crowd.heard, "a call that connects")
        count.same("the call of a signal's function", line("\n"), "inner done\n")
        program.stdin.write("\n")
        program.stdin.flush()
        until(lambda: beside in [body for _, body in crowd.heard], "the call of another thread")
        go.set()
        count.same("the call that was interrupted", line(), "outer ECONNRESET\n")
        reply.set()
        output, errors = program.communicate(timeout=LIMIT)
        count.same("the call beside", (program.returncode, output, errors), (0, "beside done\n", ""))


def restarted(keys):
    """A daemon that is started again between two calls: for a program in a ring that it was told, and in one of its own."""
    for join, want in [(str(keys.session), ["add done", "read EKEYREVOKED", "add EKEYREVOKED"]), (None, ["add done", "read ENOKEY", "add done"])]:
        daemon = keys.daemon
        if join is not None and daemon.client(UID, join=int(join)).rings[2] != int(join):
            count.same("the ring is there", False, True)
        environment = {name: value for name, value in {**keys.environment, "REQKEYD_JOIN": join}.items() if value is not None}
        program = started(daemon.room / "habits", "restart", env=environment, stdin=subprocess.PIPE, stderr=None)
        first = program.stdout.readline()
        daemon.kill()
        daemon.start()
        daemon.client(UID)  # (so that serials are drawn)
        output = program.communicate("\n", timeout=LIMIT)[0]
        count.same(f"after a restart, in {join}", (first + output).split("\n")[:-1], want)
        keys.holder = daemon.client(UID)
        keys.session = keys.holder.rings[2]


def costs(keys):
    """The system calls of a call: geteuid, getegid, fstat and poll, to see that the connection is the right one; and sendto and read."""
    if not has("the system calls of a call", ["strace"], ["strace"]):
        return
    trace = keys.daemon.room / "trace"
    told = keys.run("strace", "-f", "-o", trace, "-E", f"LD_PRELOAD={keys.library}", keys.daemon.room / "habits", "reads", LD_PRELOAD=None)
    calls = trace.read_text().split("getppid(")
    count.same("a program that reads", (told, len(calls)), ((0, "", ""), 3))
    count.same("the system calls of ten reads", len(re.findall("^[0-9]+ +[a-z]", calls[1], re.MULTILINE)), 10 * 6)


def tries(program, library, *before):
    preloaded = ":".join(map(str, [*before, library]))
    lines = LINES.replace("%plain", f"/usr/bin/env REQKEYD_STREAMS=0,1 LD_PRELOAD={preloaded}")
    with Daemon(program, lines, environment=ENVIRONMENT) as daemon:
        for name, text in SCRIPTS.items():
            daemon.script(name, text)
        os.mkfifo(daemon.room / "fifo")
        status, _, errors = ran(
            "gcc", "-std=gnu11", "-D_GNU_SOURCE", "-Wall", "-Wextra", "-Werror", "-I", top / "clients" / "keyutils", "-pthread",
            "-o", daemon.room / "habits", "-Wl,--unresolved-symbols=ignore-in-shared-libs", top / "tests" / "clients" / "habits.c", library, text=True)
        count.same("habits.c is built", (status, "" if "libasan" in errors else errors), (0, ""))
        keys = Programs(daemon, library, *before)
        handlers(keys)
        behind(keys)
        killed(keys)
        example(keys)
        habits(keys)
        connects(keys)
        restarted(keys)
        if not before:
            costs(keys)


for program, library, before in everywhere(count):
    tries(program, library, *before)
count.end()
