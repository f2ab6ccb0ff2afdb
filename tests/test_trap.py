#!/usr/bin/env python3
"""reqkey-trap on the daemon: programs that make the system calls themselves, as clients, as handlers and as containers. A static C program, Python's ctypes,
keyutils' keyctl; threads, kills, hostile memory, rings, users, chains of traps, signals, the end of the supervisor and of the daemon.

The program is tried as it is installed, and so that a wrong access to memory, or what it does not give back, ends it.
"""
import contextlib
import errno
import os
import pathlib
import pty
import re
import resource
import select
import shutil
import signal
import socket
import subprocess
import sys
import tempfile
import threading

import protocol_peer as peer
from compiled import library, made_twice
from counted import Counted
from daemon import Daemon, until
from keyctl_commands import ABSENT, ALONE, CASES, LEFT_OUT, MISSING, REVOKED, Keyctl
from programs import LIMIT, PROGRAMS, lacks, ran, started, there, top
from trap import CALLS, RUNTIME, Containers, Inside, Trap, calls, environment, notifies, statically, supervisor_of

count = Counted()
UID = os.geteuid()

LINES = """create user made:* * |/bin/cat
create logon made:* * |/bin/cat
create other* made:* * |/bin/cat
create user slow:* * |/bin/cat %room/fifo
create user traps:* * %trap --key %k %room/trapped handles %k
create user shell:* * %trap --key %k %room/shell %k
create user whose:* * |/bin/echo %u
"""

SHELL = """#!/bin/bash
for each in 1 2 3 4 5; do
    ( key=$(keyctl request2 user made:$each payload-$each @s) && [ "$(keyctl print $key)" = payload-$each ] || echo wrong ) &
done
wait
keyctl rdescribe @a
keyctl instantiate $1 "$(keyctl print @a) by bash" @s
"""

# What tests/clients/trapped.c prints by each subject.
PRINTED = {
    "calls": [
        "add done", "request 1", "made 1", "missing ENOKEY", "read 5 5 ........ 5 value...", "describe 1 ;-1;3f000000;k", "search 1", "link done", "users done",
        "unlink done", "default 0 4 4", "capabilities 2", "update EOPNOTSUPP", "instantiate EPERM", "revoke done", "revoked EKEYREVOKED", "ring 1",
        "unknown EOPNOTSUPP", "getppid done",
    ],
    "hostile": [
        "nowhere 1 5", *["nowhere 1 14"] * 6, "type without end EINVAL", "description without end EFAULT", "description that is too long EINVAL",
        "description to the end of its page done", "payload over the end EFAULT", "payload to the end done", "payload of any length EINVAL",
        "payload of 32768 EINVAL", "parts EINVAL", "parts without number EINVAL", "read only EFAULT", "unreadable payload EFAULT", "unreadable text EFAULT",
        "unreadable buffer EFAULT", "guarded buffer EFAULT", "readable payload done", "guarded description EFAULT", "writable done", "read over the end EFAULT",
        "changing 0", "after done",
    ],
    "rings": ["late 0", "early 0", "named 0", "quota EDQUOT 1", "name without letters EINVAL", "name with a dot EPERM"],
    "waiting": ["meanwhile done", "killed 1", "both 1"],
    "many 8 8": ["many 0"],
    "dots 3000 16": ["dots 0"],
    "parents 1000": ["parents done"],
}
OF_ROOT = {
    "user": ["child dumpable done", "child ring 1", "child reads 1", "child adds done", "child 0", "ring 1", "unlink done"],
    "undumpable": ["read done", "add done", "revoke done"],
}


class Commands(Inside, Keyctl):
    """keyctl within one trap."""

    count = count

    def key(self):
        self.run("keyctl", "clear", "@s")
        return int(self.run("keyctl", "add", "user", "k", "v", "@s")[1])


# What keyutils' own library prints otherwise, since it looks through rings itself.
OTHERWISE = {"unlink {key}": "0 links removed\n", "purge user": "purged 0 keys\n", "reap": "0 keys reaped\n"}


def commands(trap):
    """Each command of keyctl, by keyutils' own library."""
    if lacks("keyctl in a trap", "keyctl"):
        return
    with Commands(trap.words(), env=environment(SHELL="/bin/true")) as inside:
        session, user = (int(inside.run("keyctl", "id", name)[1]) for name in ["@s", "@u"])
        for case in [*CASES, *([(name, *want)] for name, want in ALONE.items())]:
            if case[0][0] == "revoke @s":
                continue  # which is done here (test_trap_rings.py), and left out by the library
            key = inside.key()
            for words, *want in case:
                inside.fits(words, [want[0], OTHERWISE.get(words, want[1]), want[2]], key=key, session=session, user=user, uid=UID)


def subjects(trap, daemon, program):
    """A static program that makes each call itself."""
    for subject, want in {**PRINTED, **(OF_ROOT if UID == 0 else {})}.items():
        status, output, errors = trap.run(program, *subject.split(), FIFO=str(daemon.room / "fifo"))
        count.same(f"trapped: {subject}", (status, output.split("\n")[:-1], "" if "parents" in subject else errors), (0, want, ""))
        daemon.release()
    by_ctypes = "import ctypes; libc = ctypes.CDLL(None); print(libc.syscall(248, b'user', b'n', b'v', 1, -3) > 0)"
    if os.uname().machine == "x86_64":
        count.same("Python's ctypes", trap.run(sys.executable, "-c", by_ctypes), (0, "True\n", ""))


def narrow(trap, room):
    """A program of 32 bits."""
    flags = ["-m32", "-O1", "-Wall", "-Wextra", "-Werror", "-ffreestanding", "-fno-pic", "-fno-stack-protector", "-nostdlib", "-static"]
    words = ["gcc", *flags, "-o", room / "narrow", top / "tests" / "clients" / "narrow.c"]
    try:
        runs = os.uname().machine == "x86_64" and ran(*words)[0] == 0 and ran(room / "narrow")[0] >= 0
    except OSError:
        runs = False
    if runs:
        count.same("a program of 32 bits", trap.run(room / "narrow"), (0, "", ""))
    else:
        print("a program of 32 bits: not tried, this machine makes or runs none")


def users(trap, daemon, program):
    """Another user's supervisor: of programs that can't be looked into, those calls are refused that name memory."""
    if UID != 0 or not shutil.which("setpriv"):
        print("a trap of another user: not tried, this is not root, or there is no setpriv")
        return
    daemon.path.chmod(0o777)
    daemon.room.chmod(0o755)
    shutil.copy(trap.program, daemon.room / "trap")
    words = ["setpriv", "--reuid=65534", "--regid=65534", "--clear-groups", daemon.room / "trap", "--socket", daemon.path, "--", program]
    for subject, want in [("calls", PRINTED["calls"]), ("undumpable", ["read done", "add EPERM", "revoke done"]), ("hostile", PRINTED["hostile"])]:
        status, output, errors = ran(*words, subject, text=True, env=environment())
        count.same(f"trapped as another user: {subject}", (status, output.split("\n")[:-1], errors), (0, want, ""))
    rights = ["grep", "NoNewPrivs", "/proc/self/status"]
    count.same("another user gains no rights", ran(*words[:-1], *rights, text=True, env=environment())[1].split(), ["NoNewPrivs:", "1"])
    count.same("root's programs do", trap.run(*rights)[1].split(), ["NoNewPrivs:", "0"])


# Calls by the letters of the kernel: its key is there by its serial, also for those calls that the daemon leaves out, and others are the daemon's.
KERNELS = """
key=$(keyctl add logon a:b v @s); ours=$(keyctl add user k v @s)
keyctl rdescribe $key | cut -d ';' -f 1,5; keyctl print $key; [ "$(keyctl search @s logon a:b)" = $key ] && echo found
[ "$(keyctl request logon a:b)" = $key ] && echo found
keyctl update $key w && keyctl setperm $key 0x3f3f0000 && keyctl timeout $key 1000 && keyctl link $key @u && keyctl unlink $key @u && echo done
keyctl rdescribe $ours; keyctl update $ours w; keyctl print %user:k; keyctl print 2000000000; keyctl add encrypted e 'new none:n 32' @s
keyctl revoke $key; keyctl update $key w; keyctl unlink $key @s; keyctl unlink $key @s
"""


def kernels(trap):
    """Types that are left to the kernel."""
    if lacks("types that are left to the kernel", "keyctl") or ran("keyctl", "session", "-", "keyctl", "add", "logon", "a:b", "v", "@s")[0]:
        print("types that are left to the kernel: not tried, it has no keys for this program")
        return
    words = ["keyctl", "session", "-", trap.program, "--kernel", "fscrypt-provisioning,logon", *trap.words()[1:], "sh", "-c", KERNELS]
    status, output, errors = ran(*words, text=True, env=environment())
    want = ["logon;a:b", "found", "found", "done", f"user;{UID};-1;3f000000;k", "v"]
    count.same("types that are left to the kernel", (status, output.split("\n")[:-1]), (1, want))
    refused = [line.partition(": ")[2] for line in errors.split("\n")[1:-1]]
    count.same("what it refuses of them", refused, [LEFT_OUT, LEFT_OUT, MISSING, LEFT_OUT, REVOKED, ABSENT])
    inner = trap.run(trap.program, "--kernel", "logon", "true")
    count.same("a trap in a trap can't", inner, (1, "", "reqkey-trap: --kernel: another supervisor answers for this process\n"))
    for types in ["", ",", "logon,", "l" * 32]:
        count.same(f"--kernel '{types}'", trap.run("true", options=["--kernel", types])[0], 2)


def namespaces(run, way):
    """What a program of a user namespace is told of its uid: that of its namespace, and 65534 if it has none there."""
    if lacks("keys in a user namespace", "keyctl", "unshare") or ran("unshare", "--user", "--map-user=77", "true")[0]:
        print("keys in a user namespace: not tried, there is none to be had")
        return
    for options, uid in [(["--map-user=77"], 77), ([], 65534)]:
        script = "keyctl add user k v @s > /dev/null; keyctl rdescribe %user:k; keyctl rdescribe @s; keyctl rdescribe @u"
        lines = f"user;{uid};-1;3f000000;k\nkeyring;{uid};-1;3f000000;_ses\nkeyring;{uid};-1;3f000000;_uid.{uid}\n"
        count.same(f"a user namespace {options} in a {way}", run("unshare", "--user", *options, "sh", "-c", script), (0, lines, ""))


def stays(trap, program):
    """A program that is left in the background is still answered, and nobody waits for it."""
    with tempfile.TemporaryDirectory() as room:
        os.mkfifo(f"{room}/fifo")
        script = f"setsid sh -c 'cat {room}/fifo; {program} calls > {room}/out' < /dev/null > /dev/null 2>&1 & exit 3"
        count.same("a program that leaves another one", trap.run("sh", "-c", script), (3, "", ""))
        with open(f"{room}/fifo", "w"):
            pass
        until(lambda: pathlib.Path(f"{room}/out").exists() and pathlib.Path(f"{room}/out").read_text().endswith("getppid done\n"), "the other program")
        count.same("what is left behind", pathlib.Path(f"{room}/out").read_text().split("\n")[:-1], PRINTED["calls"])


def told(process, line="\n"):
    """Gives a program this input, and what it then outputs."""
    process.stdin.write(line)
    process.stdin.flush()
    return process.stdout.readline()


def supervised(trap, program):
    """Ordinary calls go on while the supervisor is stopped; when it is killed, its caller says so, and the program's calls fail."""
    process = trap.start(program, "lines")
    supervisor = supervisor_of(process)
    count.same("before", told(process), "add done\n")
    os.kill(supervisor, signal.SIGTERM)
    count.same("with all processes of a service ended but those that go on", told(process), "add done\n")
    os.kill(supervisor, signal.SIGKILL)
    count.same("a supervisor that is killed", process.stderr.readline(),
               "reqkey-trap: the supervisor was killed: the calls of what it has started fail from now on\n")
    output, errors = process.communicate("\n", timeout=LIMIT)
    count.same("after", (process.returncode, output, errors), (0, "add ENOSYS\n", ""))
    process = trap.start("sh", "-c", f"echo ready; read line; {program} parents 1000; read line")
    supervisor = supervisor_of(process)
    count.same("a program", process.stdout.readline(), "ready\n")
    os.kill(supervisor, signal.SIGSTOP)
    count.same("while it is stopped", told(process), "parents done\n")
    os.kill(supervisor, signal.SIGCONT)
    process.communicate("\n", timeout=LIMIT)


def ends(trap, room):
    """The status of a program, of one that can't be started, and words that are wrong."""
    for script, want in [("exit 0", 0), ("exit 7", 7), ("kill -9 $$", 137), ("kill -TERM $$", 143)]:
        count.same(f"trap: {script}", trap.run("sh", "-c", script), (want, "", ""))
    plain = room / "plain"
    plain.write_text("#!/bin/sh\n")
    for words, want, why in [("no-such-program", 127, "No such file or directory"), ("", 127, "No such file or directory"), (plain, 126, "Permission denied"),
                             (room, 126, "Permission denied")]:
        count.same(f"trap: {words}", trap.run(words), (want, "", f"reqkey-trap: {words}: {why}\n"))
    count.same("what a program has", trap.run("sh", "-c", 'cat; pwd; echo "$1 $MINE" >&2', "sh", "--a word", piped="heard ", MINE="mine"),
               (0, f"heard {os.getcwd()}\n", "--a word mine\n"))
    count.same("the socket of the environment", trap.run("true", options=["--"], REQKEYD_SOCKET=str(trap.socket)), (0, "", ""))
    no_socket = "reqkey-trap: socket: neither --socket nor REQKEYD_SOCKET says where the daemon is\n"
    count.same("no socket", trap.run("true", options=[]), (1, "", no_socket))
    count.same("no daemon", trap.run("true", options=["--socket", room / "none"]), (1, "", f"reqkey-trap: {room}/none: No such file or directory\n"))
    for options in [[], ["--socket", "s"], ["--key", "x", "true"], ["--key", "0", "true"], ["--key", "1", "--socket", "s", "true"], ["--key", "1"], ["--wrong"],
                    ["--listen", "a", "true"], ["--listen", "a", "--key", "1"]]:
        status, output, errors = trap.run(options=options)
        count.same(f"words {options}", (status, output, "Usage: reqkey-trap" in errors), (2, "", True))
    count.same("help", trap.run(options=["--help"])[0], 0)
    count.same("version", trap.run(options=["-V"]), (0, "reqkey-trap 0.2.0\n", ""))


def signals(trap):
    """What another process sends goes on to the program; what a terminal sends to all of the group has reached it already."""
    script = "trap 'echo caught; exit 5' TERM; trap 'echo interrupted' INT; echo ready; while :; do sleep 0.05; done"
    process = trap.start("bash", "-c", script, start_new_session=True)
    count.same("a script", process.stdout.readline(), "ready\n")
    os.kill(process.pid, signal.SIGINT)
    count.same("an interrupt", process.stdout.readline(), "interrupted\n")
    os.kill(process.pid, signal.SIGTERM)
    output, errors = process.communicate(timeout=LIMIT)
    count.same("a signal", (process.returncode, output, errors), (5, "caught\n", ""))


class Terminal:
    """A shell with job control, at a terminal that the test types at."""

    def __init__(self):
        self.pid, self.descriptor = pty.fork()
        if self.pid == 0:
            os.execve("/bin/bash", ["bash", "--norc", "--noprofile", "-i"], {**environment(), "PS1": "", "TERM": "dumb"})
        self.shown = ""

    def types(self, text, want):
        """Types this, and waits for what is shown then."""
        os.write(self.descriptor, text.encode())
        begun = len(self.shown)

        def comes():
            if select.select([self.descriptor], [], [], 0.1)[0]:
                self.shown += os.read(self.descriptor, 4096).decode(errors="replace")
            return re.search(want, self.shown[begun:])
        return until(comes, f"{want} at a terminal")[0]

    def end(self):
        os.kill(self.pid, signal.SIGKILL)
        os.waitpid(self.pid, 0)
        os.close(self.descriptor)


def terminal(trap):
    """The keys of a terminal stop, continue and interrupt a program and the process that waits for it, and not the supervisor."""
    if lacks("a trap at a terminal", "bash"):
        return
    shell = Terminal()
    words = " ".join(trap.words("sh", "-c", "'while :; do echo tick; sleep 0.1; done'"))
    shell.types(f"{words}\n", "\ntick\r\ntick")
    shell.types("\x1a", "Stopped")
    shell.types("fg\n", "\ntick\r\ntick")
    shell.types("\x03", "\\^C")
    count.same("an interrupt from a terminal", shell.types("echo status=$?\n", "\nstatus=[0-9]+"), "\nstatus=130")
    shell.end()


def chains(trap, program):
    """A trap in a trap: the outer supervisor answers, in a new session ring; not for another daemon."""
    script = f"{program} calls > /dev/null; echo $(keyctl id @s) $({trap.program} -- keyctl id @s) $({trap.program} --socket {trap.socket} keyctl id @s)"
    if shutil.which("keyctl"):
        status, output, errors = trap.run("sh", "-c", script)
        count.same("a chain of traps", (status, len(set(output.split())), errors), (0, 3, ""))
    told = f"reqkey-trap: another supervisor answers for this process, for the daemon at: {trap.socket}\n"
    count.same("a chain to another daemon", trap.run(trap.program, "--socket", "/other", "true"), (1, "", told))
    status, _, errors = trap.run(sys.executable, RUNTIME, "/none", "{}", "true")
    count.same("a second listener", (status, errors), (1, "Device or resource busy\n"))


def handlers(trap, daemon):
    """A handler in a trap: nested requests, programs side by side, and one in the background that does not hold up the end."""
    with Inside(trap.words(), env=environment()) as inside:
        for name, payload in [("traps:a", "by words"), ("shell:a", "words by bash")]:
            before = len(daemon.lines)
            # (a volume of the record may be full meanwhile)
            told = lambda: [line for line in daemon.lines[before:] if not line.startswith("volume ")]
            status, key, errors = inside.run("keyctl", "request2", "user", name, "words", "@s")
            count.same(f"the handler of {name}", (status, errors, inside.run("keyctl", "pipe", key.strip())), (0, "", (0, payload, "")))
            if name == "traps:a":
                want = ["nested done", "authority done", "requestor done", "instantiate done", "again EACCES"]
                until(lambda: len(told()) > len(want), "what a handler says")
                said = told()
                child = int(said.pop(3).split()[1])
                count.same(f"what the handler of {name} says", said, want)
                count.same("what it has left behind", pathlib.Path(f"/proc/{child}").exists(), True)
                os.kill(child, signal.SIGKILL)
            else:
                until(told, "what a handler says")
                count.same(f"what the handler of {name} says", told(), [f".request_key_auth;{UID};-1;0b010000;{int(key):x}"])


def restarted(trap, daemon, program):
    """A daemon that is started again: who is in a first ring goes on in a new one, and who has joined another one gets EKEYREVOKED."""
    first, joined = trap.start(program, "lines"), trap.start(program, "lines")
    count.same("before a restart", told(first), "add done\n")
    count.same("before a restart, in a ring of its own", [told(joined, "j\n"), joined.stdout.readline()], ["join done\n", "add done\n"])
    daemon.kill()
    for process in [first, joined]:
        count.same("without a daemon", told(process) in ["add ECONNREFUSED\n", "add EKEYREVOKED\n"], True)
    daemon.start()
    daemon.client(UID)
    count.same("a first ring after a restart", first.communicate("\n", timeout=LIMIT)[0], "add done\n")
    count.same("a ring that is gone", joined.communicate("\nj\n", timeout=LIMIT)[0], "add EKEYREVOKED\njoin done\nadd done\n")


def contained(trap, daemon, program, log):
    """Containers: each with a set of rings of its own, by its name."""
    with Containers(count, trap.program, daemon, log) as containers:
        status, output, errors = ran(*containers.words("first", program, "calls"), text=True, env=environment())
        count.same("the calls of a container", (status, output.split("\n")[:-1], errors), (0, PRINTED["calls"], ""))
        if shutil.which("keyctl"):
            with containers.inside("web") as web, containers.inside("other") as other, containers.inside("web") as again, containers.inside(None) as nameless:
                key = web.run("keyctl", "add", "user", "mine", "secret", "@u")[1].strip()
                web.run("keyctl", "add", "user", "session", "shared", "@s")
                count.same("what a container has", web.run("keyctl", "print", "%user:mine"), (0, "secret\n", ""))
                count.same("what is started in it later", again.run("keyctl", "print", "%user:mine"), (0, "secret\n", ""))
                count.same("its session ring", again.run("keyctl", "print", "%user:session"), (0, "shared\n", ""))
                for each in [other, nameless]:
                    count.same("another container", each.run("keyctl", "print", key)[0:2], (1, ""))
                    count.same("its name", each.run("keyctl", "print", "%user:mine"), (1, "", "Can't find 'user:mine'\n"))
                count.same("its uid", web.run("keyctl", "rdescribe", key), (0, f"user;{UID};-1;3f000000;mine\n", ""))
                namespaces(web.run, "container")
                asked = [(each, each.run("keyctl", "request2", "user", "whose:", "x", "@s")[1].strip()) for each in [web, again, other]]
                users = [int(each.run("keyctl", "pipe", key)[1]) for each, key in asked]
                count.same("who their handlers are for", (users[0] == users[1], users[0] == users[2], min(users) >= 3000000000), (True, False, True))
            with containers.inside("web") as web:
                count.same("a container of that name after its end", web.run("keyctl", "print", "%user:mine"), (1, "", "Can't find 'user:mine'\n"))
        for _ in range(3):
            with socket.socket(socket.AF_UNIX) as peer:
                peer.connect(str(containers.path))
                peer.send(b"nothing")
        many = [subprocess.Popen(containers.words(f"many-{number}", program, "many", "2", "4"), stdout=subprocess.PIPE, text=True) for number in range(16)]
        count.same("many containers at a time", {process.communicate(timeout=LIMIT)[0] for process in many}, {"many 0\n"})
        until(lambda: containers.descriptors() == ["socket"], "descriptors of containers that have ended")
        count.same("the mode of its socket", containers.path.stat().st_mode & 0o777, 0o700)
        second = trap.run(options=["--listen", containers.path, "--socket", daemon.path])
        count.same("a second trap there", second, (1, "", f"reqkey-trap: {containers.path}: Address already in use\n"))
    with Containers(count, trap.program, daemon, log):
        pass  # (a socket that was left is replaced)


def tries(daemon_program, trap_program, program, room):
    log = pathlib.Path(tempfile.mkdtemp(prefix="log-", dir=room))
    watched = {"ASAN_OPTIONS": f"detect_leaks=1:log_path={log}/address", "UBSAN_OPTIONS": f"log_path={log}/undefined"}
    os.environ.update(watched)
    lines = LINES.replace("%trap", str(trap_program))
    with Daemon(daemon_program, lines) as daemon:
        shutil.copy(program, daemon.room / "trapped")
        daemon.script("shell", SHELL)
        os.mkfifo(daemon.room / "fifo")
        trap = Trap(trap_program, daemon.path)
        commands(trap)
        subjects(trap, daemon, program)
        kernels(trap)
        namespaces(trap.run, "trap")
        narrow(trap, daemon.room)
        users(trap, daemon, daemon.room / "trapped")
        stays(trap, program)
        supervised(trap, program)
        ends(trap, daemon.room)
        signals(trap)
        terminal(trap)
        chains(trap, program)
        handlers(trap, daemon)
        contained(trap, daemon, program, {**environment(), **watched})
        until(lambda: daemon.descriptors()["socket"] <= 2 + len(daemon.clients), "the end of all connections")
        restarted(trap, daemon, program)
    said = [path.read_text()[:2000] for path in sorted(log.iterdir())]
    count.same("what the sanitizers say", said, [])


def analyzed():
    """What is written in C, as gcc's analyzer reads it."""
    if ran("gcc", "-fanalyzer", "-E", "-x", "c", "/dev/null")[0]:
        print("clients: not tried with gcc's analyzer, which is not here")
        return
    for source in sorted((top / "clients").glob("[ckt]*/[!e]*.c")):
        words = ["gcc", "-fanalyzer", "-std=gnu11", "-D_GNU_SOURCE", "-O2", "-Wall", "-Wextra", "-c", "-o", "/dev/null", source]
        count.same(f"the analyzer on {source.name}", ran(*words, text=True), (0, "", ""))


def children_of(number):
    """The children of a process, with their states."""
    found = {}
    for path in pathlib.Path("/proc").glob("[0-9]*/stat"):
        with contextlib.suppress(OSError):
            state, parent = path.read_text().rpartition(")")[2].split()[:2]
            if int(parent) == number:
                found[int(path.parent.name)] = state
    return found


def orphans(trap):
    """What has ended beside the program, before its supervisor looks, is collected: a filter may last as long as they do."""
    reader, writer = os.pipe()
    script = f"setsid sleep 1000 > /dev/null 2>&1 & for each in 1 2 3; do (cat <&{reader} > /dev/null 2>&1 &); done; echo ready; read line"
    process = trap.start("sh", "-c", script, pass_fds=[reader])
    os.close(reader)
    count.same("a program with orphans", process.stdout.readline(), "ready\n")
    supervisor = supervisor_of(process)
    until(lambda: len(children_of(supervisor)) == 4, "three orphans")
    os.kill(supervisor, signal.SIGSTOP)
    until(lambda: children_of(process.pid).get(supervisor) == "T", "a supervisor that is stopped")
    os.close(writer)
    process.stdin.write("\n")
    process.stdin.flush()
    until(lambda: sorted(children_of(supervisor).values())[-4:] == ["Z"] * 4, "the end of the program and of its orphans")
    os.kill(supervisor, signal.SIGCONT)
    count.same("its status", process.wait(LIMIT), 0)
    (left,) = until(lambda: len(found := children_of(supervisor)) == 1 and found, "the end of all but one")
    os.kill(left, signal.SIGKILL)


def streams(trap):
    """A caller that has closed its standard streams."""
    for closes in ["<&-", "<&- >&-", "<&- >&- 2>&-", ">&- 2>&-"]:
        words = " ".join(trap.words("sh", "-c", "'exit 7'"))
        count.same(f"with {closes}", ran("sh", "-c", f"{words} {closes}", text=True, env=environment()), (7, "", ""))


def early(trap):
    """A signal that is there before the program is goes on to it."""
    def pending():
        signal.pthread_sigmask(signal.SIG_BLOCK, [signal.SIGTERM])
        os.kill(os.getpid(), signal.SIGTERM)
    process = calls(trap, "told(signal.sigwait([signal.SIGTERM]).name)", preexec_fn=pending)
    count.same("a signal before the program", process.communicate(timeout=LIMIT)[:1], ("SIGTERM\n",))


def refused_threads(trap, room):
    """A supervisor that gets no thread: the program is not started. One that can't watch the ends of processes tries again."""
    refusing = {"LD_PRELOAD": library("refusing_calls"), "CALL": "pthread_create", "ERROR": str(errno.EAGAIN), "TOLD": str(room / "refused")}
    told = trap.run("true", **refusing, REFUSED="1")
    count.same("a supervisor without threads", told, (1, "", "reqkey-trap: the supervisor: Broken pipe\n"))
    script = """
for turn in range(40):
    reader, writer = os.pipe()
    if (child := os.fork()) == 0:
        while (made := join()) == "EDQUOT":
            os.sched_yield()
        os.write(writer, b"r" if isinstance(made, int) else b"-")
        os._exit(0)
    os.waitpid(child, 0)
    print(os.read(reader, 1).decode(), end="", flush=True)
    os.close(reader), os.close(writer)
"""
    words = [sys.executable, "-I", "-S", "-c", CALLS + script]
    # (the second thread oversees the first one, the third is for the next call, the fourth watches the ends of processes, without which none joins a ring)
    for refused, want in [("2", "r" * 40), ("3", "r" * 40), ("4", "-" + "r" * 39)]:
        count.same(f"rings one after the other, without thread {refused}", trap.run(*words, **refusing, REFUSED=refused), (0, want, ""))


def numbers(trap, crowd):
    """A negative number that names nothing is no ring; parts at NULL are none."""
    crowd.answers = lambda at, body: peer.refused(22) if body[0] in [4, 9] else crowd.usual(at, body)
    process = calls(trap, "told(keyctl(3, -100), keyctl(3, -9), keyctl(3, -8), keyctl(20, 5, None, 1, 0))")
    count.same("numbers that name nothing", process.communicate(timeout=LIMIT), ("EINVAL EINVAL ENOTSUP EINVAL\n", ""))


def settings(trap, crowd):
    """A connection that can't get the setting of the process which has it now makes no request by that of another one."""
    replies = {peer.default(4): peer.number(0), peer.default(0): peer.refused(errno.ENOMEM)}
    crowd.answers = lambda at, body: replies.get(body) or crowd.usual(at, body)
    process = calls(trap, """
if os.fork() == 0:
    told(isinstance(keyctl(14, 4), int))
    os._exit(0)
os.wait()
told(keyctl(10, -3, b"user", b"n", 0))
""")
    count.same("a setting that is refused", process.communicate(timeout=LIMIT), ("True\nENOMEM\n", ""))
    count.same("what was asked for then", [body for _, body in crowd.heard if body[0] == 2], [])


def exhausted(trap, crowd):
    """A supervisor with few descriptors needs none for each process that is in a ring; and no process gets another ring for it."""
    crowd.answers = crowd.usual
    process = calls(trap, """
ring(), join()
joined = ring()
reader, writer = os.pipe()
for child in range(60):
    if os.fork() == 0:
        found = ring()
        told("ring" if found == joined else found)
        os.close(writer)
        os.read(reader, 1)
        os._exit(0)
os.close(writer)
""", preexec_fn=lambda: resource.setrlimit(resource.RLIMIT_NOFILE, (40, 40)))
    lines = [process.stdout.readline() for _ in range(60)]
    process.communicate(timeout=LIMIT)
    count.same("processes beyond its descriptors", (set(lines), lines.count("ring\n") > 10), ({"ring\n"}, True))


def limited(trap, crowd):
    """Fifty processes that join new rings at the same time: a set has no more than its rings."""
    go = threading.Event()
    crowd.answers = lambda at, body: (at == first or go.wait(LIMIT)) and crowd.usual(at, body)
    first = len(crowd.clients)
    process = calls(trap, """
reader, writer = os.pipe()
for child in range(50):
    if os.fork() == 0:
        told(isinstance(join(), int))
        os.close(writer)
        os.read(reader, 1)  # so that it has its ring
        os._exit(0)
told("started")
os.close(writer)
""")
    lines = [process.stdout.readline()]
    supervisor = supervisor_of(process)
    # (each call has a thread, and one more and the first one are there)
    until(lambda: len(os.listdir(f"/proc/{supervisor}/task")) > 51, "fifty calls")
    go.set()
    lines += [process.stdout.readline() for _ in range(50)]
    process.communicate(timeout=LIMIT)
    count.same("rings that are made side by side", (lines.count("True\n"), lines.count("False\n")), (32, 18))


def closed(trap, crowd):
    """The daemon closes the connection of one ring: another one, whose connection lives, is still there."""
    crowd.answers, before = crowd.usual, len(crowd.clients)
    process = calls(trap, """
told(ring())
reader, writer = os.pipe()
if os.fork() == 0:
    told("joined" if isinstance(join(), int) else "not joined", ring() == ring())
    os.read(reader, 1)
    told(ring())
    os._exit(0)
sys.stdin.readline()
told(ring())
os.write(writer, b"x")
os.wait()
""")
    count.same("two rings", [process.stdout.readline().strip().isdigit(), process.stdout.readline()], [True, "joined True\n"])
    crowd.clients[before + 1].shutdown(socket.SHUT_RDWR)  # that of the first ring; the one before was to try the daemon
    lines = process.communicate("\n", timeout=LIMIT)[0].split()
    count.same("a ring beside one that is closed", [line.isdigit() for line in lines], [True, True])


def again(trap, path):
    """A daemon is started again while a call waits, and another client has a ring there with the serial of this one's: that is not this one."""
    with Apart(path, "waits"):
        process = calls(trap, """
told(ring())
told(libc.syscall(KEYCTL - 1, b"user", b"n", b"x", -3), errno.errorcode[ctypes.get_errno()])
sys.stdin.readline()
told(ring())
""")
        before = process.stdout.readline()
        until(lambda: (pathlib.Path(f"{path}.waits")).exists(), "a call that waits")
    count.same("a call that has waited for a daemon that is gone", process.stdout.readline(), "-1 ECONNRESET\n")
    with Apart(path, "goes on"):
        count.same("a ring of its number", process.communicate("\n", timeout=LIMIT)[0] != before, True)


class Apart:
    """A crowd's daemon in a process of its own, which may be killed. With "waits" it answers no REQUEST, and makes a file that says so."""

    def __init__(self, path, how):
        script = f"""
import pathlib, sys
sys.path.insert(0, {str(top / "tests")!r})
import protocol_peer as peer
def answers(at, body):
    if body[0] == 2 and {how == "waits"}:
        pathlib.Path("{path}.waits").touch()
        sys.stdin.read()
    return crowd.usual(at, body)
crowd = peer.Crowd({str(path)!r}, answers)
next(crowd.serials) if {how == "waits"} else None
with crowd:
    print("ready", flush=True)
    sys.stdin.read()
"""
        self.process = started(sys.executable, "-c", script, stdin=subprocess.PIPE, stderr=None)

    def __enter__(self):
        count.same("a daemon apart", self.process.stdout.readline(), "ready\n")

    def __exit__(self, *_):
        self.process.kill()
        self.process.communicate()


def replaced(trap, crowd):
    """A caller that is killed while it joins a ring, and whose number another process gets: that one stays where it is."""
    last = pathlib.Path("/proc/sys/kernel/ns_last_pid")
    if UID != 0 or not os.access(last, os.W_OK):
        print("a caller whose number is used again: not tried, this may not choose numbers")
        return
    go, heard, before = threading.Event(), threading.Event(), len(crowd.clients)

    def answers(at, body):
        if body[0] == 1 and at == before + 2:
            heard.set()
            go.wait(LIMIT)
        return crowd.usual(at, body)
    crowd.answers = answers
    process = calls(trap, """
ring()
child = os.fork()
if child == 0:
    join()
    os._exit(0)
sys.stdin.readline()
os.kill(child, 9)
os.waitpid(child, 0)
other = 0
while other != child:
    with open("/proc/sys/kernel/ns_last_pid", "w") as last:
        last.write(str(child - 1))
    other = os.fork()
    if other == 0 and os.getpid() != child:
        os._exit(0)
    if other == 0:
        first = ring()
        told("there")
        sys.stdin.readline()
        told(ring() == first)
        os._exit(0)
os.waitpid(child, 0)
""")
    heard.wait(LIMIT)
    count.same("a process of that number", told(process), "there\n")
    supervisor = supervisor_of(process)
    go.set()
    # (a connection is that of the first ring, the other one that of the ring which is not joined after all)
    until(lambda: sum(is_socket(supervisor, name) for name in os.listdir(f"/proc/{supervisor}/fd")) == 1, "the end of a ring whose caller is gone")
    count.same("its ring", process.communicate("\n", timeout=LIMIT)[0], "True\n")


def is_socket(number, name):
    with contextlib.suppress(OSError):
        return os.readlink(f"/proc/{number}/fd/{name}").startswith("socket:")
    return False


def alone(trap_program, room, plain):
    """What needs no daemon but one that is played."""
    with tempfile.TemporaryDirectory(prefix="crowd-", dir=room) as folder:
        folder = pathlib.Path(folder)
        with peer.Crowd(folder / "s") as crowd:
            trap = Trap(trap_program, crowd.path)
            count.same("an empty path", trap.run(options=["--listen", "", "--socket", trap.socket]), (1, "", "reqkey-trap: : No such file or directory\n"))
            orphans(trap)
            streams(trap)
            early(trap)
            if plain:
                refused_threads(trap, folder)
            for tries_it in [numbers, settings, exhausted, limited, closed, replaced]:
                tries_it(trap, crowd)
        again(Trap(trap_program, folder / "apart"), folder / "apart")


def load(trap_program, program, daemon_program):
    """100,000 calls of 64 processes, of which one is killed now and then: no wrong answer, and nothing is left of them."""
    with Daemon(daemon_program) as daemon:
        count.same("100,000 calls", Trap(trap_program, daemon.path).run(program, "dots", 34000, 64), (0, "dots 0\n", ""))
        until(lambda: daemon.descriptors()["socket"] <= 2, "the end of all connections")


def main():
    # A shell without job control starts what it sends to the background with SIGINT ignored, and then no program of a test could catch it.
    signal.signal(signal.SIGINT, signal.default_int_handler)
    if lacks("clients/trap", "gcc", "make"):
        count.end()
    if not notifies():
        print("clients/trap: not tried, this kernel has no seccomp with user notification")
        count.end()
    with tempfile.TemporaryDirectory(prefix="trap-") as folder:
        room = pathlib.Path(folder)
        room.chmod(0o755)
        program = statically(count, room)
        analyzed()
        # (one asks the kernel as before Linux 6.11 and 6.13, too)
        traps = [each for each in made_twice(count, "trap", room, "-DASKS_PIDFD=0", "-DASKS_MAPS=0") if each is not None]
        for trap_program in traps:
            alone(trap_program, room, trap_program == traps[0])
        for daemon_program in there(count):
            for trap_program in traps if program else []:
                tries(daemon_program, trap_program, program, room)
            if traps and program and daemon_program == PROGRAMS[0]:
                load(traps[0], program, daemon_program)
    count.end()


main()
