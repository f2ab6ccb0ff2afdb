#!/usr/bin/env python3
"""The session rings and user rings of programs in a trap, and of containers: whose they are, how long they stay, and how many there are; and what of a program
stays in the supervisor's memory. The kernel's own answers are beside those that it has.

The program is tried as it is installed, and so that a wrong access to memory, or what it does not give back, ends it.
"""
import os
import pathlib
import resource
import shutil
import subprocess
import sys
import tempfile

from compiled import made_twice
from counted import Counted
from daemon import Daemon, until
from programs import LIMIT, lacks, ran, there
from trap import CALLS, Containers, Trap, calls, environment, notifies, supervisor_of

count = Counted()
LINES = "create user made:* * |/bin/cat\n"

# A call of each of these uids, in turn, by a process of its own that has ended when the next one comes; the answers, and how many of them there are.
IN_TURN = """
def in_turn(uids, call):
    answers = {}
    for uid in uids:
        reader, writer = os.pipe()
        if (child := os.fork()) == 0:
            os.setresuid(uid, uid, uid)
            made = call()
            os.write(writer, b"made" if isinstance(made, int) else made.encode())
            os._exit(0)
        os.close(writer)
        os.waitpid(child, 0)
        answer = os.read(reader, 99).decode()
        os.close(reader)
        answers[answer] = answers.get(answer, 0) + 1
    return answers
def add(ring):
    return lambda: named(libc.syscall(KEYCTL - 2, b"user", b"k", b"v", 1, ring))
def named(result):
    return result if result >= 0 else errno.errorcode[ctypes.get_errno()]
"""


ANOTHER = ["setpriv", "--reuid=65534", "--regid=65534", "--clear-groups"]


def own(trap):
    """The words of a trap of any user, in the daemon's folder."""
    shutil.copy(trap.program, trap.socket.parent / "trap")
    return [str(trap.socket.parent / "trap"), *trap.words()[1:]]


def words(script):
    return [sys.executable, "-I", "-S", "-c", CALLS + IN_TURN + script]


def printed(trap, script):
    """What a program in a trap prints."""
    return trap.run(*words(script))[1]


def in_container(containers, name, script):
    """A program in a container, which goes on when it gets a line."""
    return subprocess.Popen(containers.words(name, *words(script)), stdin=subprocess.PIPE, stdout=subprocess.PIPE, text=True, env=environment())


def ends(process):
    """Lets a program end, and gives what it still prints."""
    return process.communicate("\n", timeout=LIMIT)[0]


# ---- how many

def users_in_turn(trap):
    """A thousand users, one after the other: the ring of who has ended makes room, if nothing is in it. Programs act for 256 users of a hall."""
    got = printed(trap, "told(in_turn(range(100000, 101000), ring), in_turn(range(100000, 101024), ring), in_turn(range(200000, 200004), ring))")
    count.same("a thousand users in turn", got, "{'made': 1000} {'made': 1024} {'EDQUOT': 4}\n")
    got = printed(trap, "told(in_turn(range(100000, 100040), add(-4)), in_turn(range(100000, 100040), add(-3)), in_turn([100000, 0], ring))")
    count.same("users with keys in their user rings, and in their first rings", got, "{'made': 40} {'made': 32, 'EDQUOT': 8} {'made': 1, 'EDQUOT': 1}\n")
    got = printed(trap, """
os.setpgid(0, 0)
joined = in_turn(range(100000, 100100), join)
children = []
for uid in range(100000, 100040):
    reader, writer = os.pipe()
    if os.fork() == 0:
        os.setresuid(uid, uid, uid)
        os.write(writer, str(join()).encode() + b"\\n")
        signal.pause()
    children.append(os.read(reader, 99).strip().isdigit())
told(joined, sum(children))
os.kill(0, signal.SIGKILL)
""")
    count.same("rings that users have joined, in turn and at a time", got, "{'made': 100} 32\n")


def nine_thousand(daemon, containers):
    """A container whose root calls as each of 9,000 users: the daemon has room for as many new users as before, and other containers go on."""
    other = in_container(containers, "other", """
told(isinstance(add(-4)(), int))
input()
told(isinstance(add(-3)(), int), keyctl(10, -4, b"user", b"k", 0) > 0)
""")
    count.same("another container", other.stdout.readline(), "True\n")
    many = in_container(containers, "many", """
if os.fork() == 0:
    answers = {}
    for uid in range(100000, 109000):
        os.setresuid(uid, 0, 0)
        made = ring()
        made = "made" if isinstance(made, int) else made
        answers[made] = answers.get(made, 0) + 1
    told(sorted(answers), answers["made"] >= 16, sum(answers.values()))
    os._exit(0)
os.wait()  # so that its rings make room at once
told(in_turn(range(100000, 109000), ring))
told(in_turn(range(100000, 100070), add(-4)))
input()
""")
    count.same("9,000 users of a process", many.stdout.readline(), "['EDQUOT', 'made'] True 9000\n")
    count.same("9,000 users of a process each", many.stdout.readline(), "{'made': 9000}\n")
    count.same("users with a key", many.stdout.readline(), "{'made': 64, 'EDQUOT': 6}\n")
    ends(many)
    count.same("another container beside it", ends(other), "True True\n")
    again = in_container(containers, "many", """
told(in_turn(range(100000, 100070), add(-4)), in_turn([100000], lambda: keyctl(10, -4, b"user", b"k", 0)))
""")
    count.same("a container of its name", ends(again), "{'made': 64, 'EDQUOT': 6} {'made': 1}\n")


def room_left(daemon):
    """How many new users each hall of the daemon still takes; the last step of a daemon, which takes none after that."""
    left = [0] * 4
    for hall in range(4):
        for uid in range(1000000 + hall, 2000000, 4):
            with daemon.client(uid) as client:
                if not isinstance(client.rings, tuple):
                    break
            left[hall] += 1
    return left


def shares(containers):
    """Containers that take all rings that they get: each other one gets one, and is not disturbed."""
    greedy = """
def takes():
    reader, writer = os.pipe()
    if os.fork() == 0:
        made = join()
        os.write(writer, str(made).encode() + b"\\n")
        if not isinstance(made, int):
            os._exit(0)
        signal.pause()
    return os.read(reader, 99).strip().isdigit()
add(-3)()
told(sum(takes() for _ in range(40)))
input()
os.kill(0, signal.SIGKILL)
"""
    start = "os.setpgid(0, 0)\n" + greedy
    first = in_container(containers, "other", "told(isinstance(add(-3)(), int)); input(); told(isinstance(join(), int))")
    count.same("a container", first.stdout.readline(), "True\n")
    hostile = []
    for name, want in [("a", 21), ("b", 10), ("c", 5), ("d", 2), ("e", 0), ("f", 0), ("g", 0)]:
        hostile.append(in_container(containers, f"greedy-{name}", start))
        count.same(f"what container {name} gets besides its first ring", hostile[-1].stdout.readline(), f"{want}\n")
    late = [in_container(containers, f"late-{number}", "told(isinstance(add(-3)(), int)); input()") for number in range(14)]
    count.same("containers that come late", [process.stdout.readline() for process in late], ["True\n"] * 14)
    for process in hostile:
        ends(process)
    for process in late:
        ends(process)
    count.same("another ring when they have ended", ends(first), "True\n")


# ---- whose

def beside_the_kernel(trap):
    """Which rings a process finds whose users are not all the same: as the kernel has it."""
    script = """
def rings():
    return keyctl(0, -4, 1), keyctl(0, -3, 0)
def change(real, effective, saved):
    os.setresuid(0, 0, 0) if os.getresuid()[0] != 1000 or effective == 0 else None
    os.setresuid(real, effective, saved)
def told_of(what, before):
    user, session = rings()
    told(what, "the same @u" if user == before[0] else "another @u", "the same @s" if session == before[1] else "another @s")
join()
first = rings()
os.seteuid(1000)
told_of("effective 1000:", first)
told("adds:", isinstance(add(-3)(), int), isinstance(add(-4)(), int))
os.seteuid(0)
libc.setfsuid(1000)
told_of("files as 1000:", first)
libc.setfsuid(0)
told_of("back:", first)
os.setresuid(1000, 0, 0)
told("real 1000:", rings()[0] != first[0])
joined = join()
told_of("real 1000, in a ring of its own:", (rings()[0], joined))
os.setresuid(1000, 1000, 1000)
told_of("all 1000:", (rings()[0], joined))
if os.fork() == 0:
    told_of("a child of it:", (rings()[0], joined))
    os._exit(0)
os.wait()
told("revoked:", keyctl(3, joined) == 0, ring(), add(-3)(), keyctl(3, joined), isinstance(join(), int), isinstance(add(-3)(), int))
"""
    status, kernels, errors = ran(*words(script), text=True)
    if os.geteuid() != 0 or status != 0 or "ENOSYS" in kernels or "EPERM" in kernels:
        print("real and effective users beside the kernel: not tried, this is not root, or the kernel has no keys")
        return
    count.same("real and effective users, as in the kernel", printed(trap, script), kernels)


def logins(trap):
    """Two logins of one user, each with a ring of its own by pam_keyinit(8), which is gone with it."""
    keyinit = pathlib.Path("/etc/pam.d/su-l")
    if os.geteuid() != 0 or lacks("two logins in a trap", "su", "keyctl") or not keyinit.exists() or "pam_keyinit" not in keyinit.read_text():
        print("two logins in a trap: not tried, this is not root, or su has no pam_keyinit")
        return
    script = """
su - -s /bin/sh nobody -c 'keyctl add user private x @s > /dev/null; keyctl print %user:private'
su - -s /bin/sh nobody -c 'keyctl print %user:private' || echo none
su - -s /bin/sh nobody -c 'keyctl add user private y @s > /dev/null; sh -c "keyctl print %user:private"'
"""
    count.same("two logins of a user", trap.run("sh", "-c", script)[1], "x\nnone\ny\n")


# ---- how long

def revoked(trap):
    """A session ring that is revoked is empty, and gone for all that are in it, until they join another one. A first ring is made anew."""
    got = printed(trap, """
key, first = add(-4)(), ring()
joined = join()
inside, other = add(-3)(), os.pipe()
keyctl(8, inside, -4)
if os.fork() == 0:
    os.read(other[0], 1)
    told("a child:", ring(), add(-3)(), keyctl(11, inside, None, 0), keyctl(1, None) > 0)
    os._exit(0)
told("revoke:", keyctl(3, joined))
os.write(other[1], b"x")
os.wait()
told("after it:", ring(), keyctl(3, -3), keyctl(3, joined), isinstance(join(), int), keyctl(11, inside, None, 0))
""")
    gone = "EKEYREVOKED EKEYREVOKED EKEYREVOKED True"
    count.same("a ring that is revoked", got, f"revoke: 0\na child: {gone}\nafter it: {gone} 1\n")
    got = printed(trap, "first, key = ring(), add(-3)(); told(keyctl(3, -3), ring() != first, keyctl(11, key, None, 0), isinstance(add(-3)(), int))")
    count.same("a first ring that is revoked", got, "0 True ENOKEY True\n")


def background(trap):
    """A job that outlives all who have joined its ring stays there, also over fork(2), execve(2) and setsid(2), and its ring ends with it."""
    if lacks("a job in the background", "keyctl"):
        return
    with tempfile.TemporaryDirectory() as room:
        os.mkfifo(f"{room}/go")
        os.mkfifo(f"{room}/said")
        os.chmod(room, 0o755)
        os.chmod(f"{room}/go", 0o666)
        os.chmod(f"{room}/said", 0o666)
        job = pathlib.Path(room, "job")
        job.write_text(f"keyctl add user secret v @s > /dev/null\necho $(keyctl print %user:secret) $(keyctl id @s) > {room}/said\n")
        script = f"""
keyctl session - sh -c '(cat {room}/go > /dev/null; setsid sh {job}) > /dev/null 2>&1 & keyctl id @s' 2> /dev/null
: > {room}/go
cat {room}/said
keyctl print %user:secret 2>&1
keyctl session - keyctl print %user:secret 2> /dev/null || echo none
"""
        for who in [[], ANOTHER] if os.geteuid() == 0 and shutil.which("setpriv") else [[]]:
            # (the trap, too, is that user's)
            joined, said, outer, another = ran(*who, *own(trap), "sh", "-c", script, text=True, env=environment())[1].splitlines()
            count.same(f"a job in the background {who}", (said, outer, another), (f"v {joined}", "Can't find 'user:secret'", "none"))


def early(trap):
    """Whom a process has started before it joins a ring stays in that of before, also where others have joined rings before."""
    got = printed(trap, """
first, pipes, answers = ring(), os.pipe(), os.pipe()
def child(what):
    if os.fork() == 0:
        os.read(pipes[0], 1)
        os.write(answers[1], f"{what} {'first' if ring() == first else 'another'}\\n".encode())
        os._exit(0)
if os.fork() == 0:
    join()
    os.write(answers[1], b"x")
    os.read(pipes[0], 1)
    os._exit(0)
os.read(answers[0], 1)
child("early")
if os.fork() == 0:
    child("an early child's")
    os._exit(0)
os.wait()
joined = join()
child("late")
os.write(pipes[1], b"xxxx")
lines = b""
while lines.count(b"\\n") < 3:
    lines += os.read(answers[0], 4096)
told(sorted(lines.decode().splitlines()), ring() == joined)
""")
    count.same("who was started before", got, "[\"an early child's first\", 'early first', 'late another'] True\n")


def limited(trap):
    """A program sets the limit by itself by which a process is marked: its ring goes by its ancestors, and a line says so."""
    script = """
import resource
joined = join()
for limit in [12345, resource.RLIM_INFINITY, 54321]:
    resource.setrlimit(resource.RLIMIT_RTTIME, (limit, resource.RLIM_INFINITY))
    if os.fork() == 0:
        if os.fork() == 0:
            told(ring() == joined)
            os._exit(0)
        os.wait()
        os._exit(0)
    os.wait()
    told(resource.getrlimit(resource.RLIMIT_RTTIME)[0] == limit)
again = join()
if os.fork() == 0:
    told(ring() == again, again != joined)
    os._exit(0)
os.wait()
"""
    if not hasattr(resource, "RLIMIT_RTTIME"):
        print("a limit of a program's own: not tried, there is no RLIMIT_RTTIME")
        return
    status, output, errors = trap.run(*words(script))
    lines = errors.splitlines()
    count.same("a limit of a program's own", (status, output.split("\n")[:-1]), (0, ["True"] * 6 + ["True True"]))
    said = [line.startswith("reqkey-trap: process ") and line.endswith(": its session ring goes by its ancestors") for line in lines]
    count.same("what is said of it", said, [True])


def rings_end(trap, daemon):
    """A ring ends with the last process that is in it, whoever of them has joined it: its connection is closed."""
    process = calls(trap, """
ring()
pipes = os.pipe()
if os.fork() == 0:
    join()
    if os.fork() == 0:
        os.close(pipes[1])
        told("joined")
        os.read(pipes[0], 1)
    os._exit(0)
os.wait()
sys.stdin.readline()
os.close(pipes[1])
told("ended")
sys.stdin.readline()
""")
    before = len(daemon.clients)
    count.same("a ring that is left to a child", process.stdout.readline(), "joined\n")
    count.same("its connections", daemon.settled(before + 3)["socket"], before + 3)
    process.stdin.write("\n")
    process.stdin.flush()
    count.same("a child", process.stdout.readline(), "ended\n")
    count.same("its connections after the end of it", daemon.settled(before + 2)["socket"], before + 2)
    process.communicate("\n", timeout=LIMIT)


# ---- the supervisor's memory

def found_in(process, secret):
    """How often this stands in what a process may write."""
    hits = 0
    with open(f"/proc/{process}/maps") as maps, open(f"/proc/{process}/mem", "rb", 0) as memory:
        for line in maps:
            begin, end = (int(word, 16) for word in line.split()[0].split("-"))
            if "w" in line.split()[1] and end - begin < 1 << 28:
                memory.seek(begin)
                hits += memory.read(end - begin).count(secret)
    return hits


def forgets(trap):
    """Payloads are in the supervisor's memory as long as their calls take; and nobody of its user may look there."""
    if os.geteuid() != 0 or lacks("the supervisor's memory", "setpriv"):
        print("the supervisor's memory: not tried, this is not root")
        return
    secret = "of-" + "this-" * 200
    # (which is nowhere in the words of the program, as the supervisor has these)
    process = calls(trap, """
secret = b"-".join([b"of"] + [b"this"] * 200 + [b""])
big = libc.syscall(KEYCTL - 2, b"user", b"big", secret * 20, len(secret) * 20, -3)
key = libc.syscall(KEYCTL - 2, b"user", b"k", secret, len(secret), -3)
buffer = ctypes.create_string_buffer(40000)
for each in [big, key, big]:
    told(keyctl(11, each, buffer, 40000))
made = libc.syscall(KEYCTL - 1, b"user", b"made:k", secret, -3)
told(keyctl(11, made, buffer, 40000), keyctl(6, made, buffer, 40000) > 0)
sys.stdin.readline()
""")
    lines = [process.stdout.readline() for _ in range(4)]
    count.same("payloads", lines, [f"{len(secret) * 20}\n", f"{len(secret)}\n", f"{len(secret) * 20}\n", f"{len(secret)} True\n"])
    count.same("payloads in the supervisor's memory", found_in(supervisor_of(process), secret.encode()[:40]), 0)
    process.communicate("\n", timeout=LIMIT)
    as_another = ran(*ANOTHER, *own(trap), "sh", "-c", "cat /proc/$PPID/maps", text=True, env=environment())
    count.same("a supervisor of the same user", (as_another[1], "Permission denied" in as_another[2]), ("", True))


def names_socket(trap, containers):
    """The supervisor tells its own programs where the daemon's socket is, and not a container."""
    script = "told(keyctl(0x74726170, None, 0))"
    count.same("a program asks for the socket", printed(trap, script), f"{len(str(trap.socket)) + 1}\n")
    count.same("a container asks for the socket", ends(in_container(containers, "asks", script)), "ENOTSUP\n")


def tries(daemon_program, trap_program, room):
    log = pathlib.Path(tempfile.mkdtemp(prefix="log-", dir=room))
    os.environ.update({"ASAN_OPTIONS": f"detect_leaks=1:log_path={log}/address", "UBSAN_OPTIONS": f"log_path={log}/undefined"})
    with Daemon(daemon_program, LINES) as daemon:
        daemon.path.chmod(0o777)
        daemon.room.chmod(0o755)
        trap = Trap(trap_program, daemon.path)
        for tries_it in [beside_the_kernel, logins, revoked, background, early, limited, forgets]:
            tries_it(trap)
        rings_end(trap, daemon)
        with Containers(count, trap_program, daemon, {**environment(), **os.environ}) as containers:
            names_socket(trap, containers)
            shares(containers)
    with Daemon(daemon_program, LINES) as daemon:
        with Containers(count, trap_program, daemon, {**environment(), **os.environ}) as containers:
            nine_thousand(daemon, containers)
            until(lambda: containers.descriptors() == ["socket"], "descriptors of containers that have ended")
        left = room_left(daemon)
        # (each number of a user is one of the daemon's users; the first 512 are drawn anew, a quarter of them in each hall)
        count.same(f"new users that each hall takes: {left}", min(left) >= 1023 - 128, True)
    if os.geteuid() == 0:
        with Daemon(daemon_program, LINES) as daemon:
            users_in_turn(Trap(trap_program, daemon.path))
    said = [path.read_text()[:2000] for path in sorted(log.iterdir())]
    count.same("what the sanitizers say", said, [])


def main():
    if lacks("rings in a trap", "gcc", "make"):
        count.end()
    if not notifies():
        print("rings in a trap: not tried, this kernel has no seccomp with user notification")
        count.end()
    with tempfile.TemporaryDirectory(prefix="rings-") as folder:
        room = pathlib.Path(folder)
        room.chmod(0o755)
        traps = [each for each in made_twice(count, "trap", room, "-DASKS_PIDFD=0") if each is not None]
        for daemon_program in there(count):
            for trap_program in traps:
                tries(daemon_program, trap_program, room)
    count.end()


main()
