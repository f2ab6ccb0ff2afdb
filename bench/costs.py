"""What an ask over `serve` costs in instructions, and what the same frames cost a server that only echoes.

Callgrind counts what a server executes for N asks, and for 2N. The difference is what N asks take, so the start and the end fall out. No other work on
the machine disturbs it. Each ask waits for its reply, so each has a read and a write of its own.
"""
import contextlib
import functools
import os
import pathlib
import re
import shutil
import signal
import socket
import subprocess
import sys
import tempfile
import time
from typing import NamedTuple

sys.path.insert(0, str(pathlib.Path(__file__).resolve().parent.parent / "tools"))
from messages import frame, read_reply, write_ask
from traced import INSTRUCTIONS, Traced

PATIENCE = 600  # seconds
CONF = "create user true:* * |/bin/true\n"
UID, OTHER = 1000, 1001  # users of hall 0, in which each connection begins, and of hall 1
LONG = "a-description-of-sixty-bytes,as-that-of-a-key-of-dns_resolver"[:60]
NUMBER, NO_KEY = "[0-9]+", r"ENOKEY \(126\)"
VARIABLES = 5  # as a service has them in its environment


class Failed(Exception):
    """A server did not do what was to be measured."""


class Client:
    """A connection that asks in words, and reads each reply before its next ask. The echo's replies are all the same, so they aren't looked at."""

    def __init__(self, server):
        self.checks = server.checks
        self.socket = socket.socket(socket.AF_UNIX)
        self.socket.settimeout(PATIENCE)
        self.socket.connect(str(server.path))

    def __enter__(self):
        return self

    def __exit__(self, *_):
        self.socket.close()

    def take(self, count):
        data = b""
        while len(data) < count:
            piece = self.socket.recv(count - len(data))
            if not piece:
                raise Failed("the server has closed the connection")
            data += piece
        return data

    def send(self, data, wanted):
        self.socket.sendall(data)
        reply = read_reply(self.take(int.from_bytes(self.take(4), "big")))
        if self.checks and not re.fullmatch(wanted, reply):
            raise Failed(f"the reply {reply!r} to {data!r}")
        return reply

    def ask(self, words, wanted=NUMBER):
        return self.send(frame(write_ask(words.split(" "))), wanted)

    def hello(self, uid=UID):
        self.ask(f"HELLO {uid} {uid} 0 0", "rings .*")

    def end(self):
        """Sends no more, and waits until the server has closed its side, too."""
        self.socket.shutdown(socket.SHUT_WR)
        if self.socket.recv(1):
            raise Failed("a reply that nobody has asked for")


# ---- the asks


class Ask(NamedTuple):
    """A row of the table: what is asked, and what has to be answered. `{key}` is a key of one byte."""

    name: str
    words: str
    wanted: str = NUMBER

    connections = 1

    def drive(self, server, count):
        with Client(server) as client:
            client.hello()
            client.ask(f"ADD user {LONG} v -4")
            key = client.ask("ADD user load v -4")
            data = frame(write_ask(self.words.format(key=key).split(" ")))
            for _ in range(count):
                client.send(data, self.wanted)
            client.end()


class Session(NamedTuple):
    """A connection, its HELLO and its end, while another one of the same user stays."""

    name: str
    uid: int

    connections = None

    def drive(self, server, count):
        with Client(server) as stays:
            stays.hello(self.uid)
            for _ in range(count):
                with Client(server) as client:
                    client.hello(self.uid)
                    client.end()
            stays.end()


class Start(NamedTuple):
    """A program that outputs nothing, so the requester gets no key; each for a description of its own."""

    name: str

    connections = 1

    def drive(self, server, count):
        with Client(server) as client:
            client.hello()
            for at in range(count):
                client.ask(f"REQUEST user true:{at} =callout-of-some-bytes 0", NO_KEY)
            client.end()


FOUND = Ask("found REQUEST", "REQUEST user load - 0")
READ = Ask("READ of one byte", "READ {key}", "bytes v")
DISPLACING = Ask("ADD displacing", "ADD user load v -4")
LOCKED = "of it under the hall's lock"
TRIES = 10
STARTS = 50  # so many times fewer starts are counted than asks
LEAST, ROUNDS = 8, 5  # starts of a round of bench/c/spawn.c, and its rounds
ASKS = [
    FOUND,
    Ask("found, a description of 60 bytes", f"REQUEST user {LONG} - 0"),
    Ask("found, with a destination", "REQUEST user load - -4"),
    Ask("found, with a callout", "REQUEST user load =x 0"),
    Ask("missing REQUEST", "REQUEST user none - 0", NO_KEY),
    READ,
    Ask("DESCRIBE", "DESCRIBE {key}", "bytes .*"),
    DISPLACING,
    Ask("second HELLO", f"HELLO {UID} {UID} 0 0", r"EINVAL \(22\)"),
    Session("session of a uid of hall 0", UID),
    Session("session of a uid of another hall", OTHER),
    Start("start of /bin/true to its outcome"),
]


# ---- the servers


class Served(NamedTuple):
    """A server that runs."""

    path: pathlib.Path
    checks: bool
    child: subprocess.Popen


class Daemon(NamedTuple):
    """`reqkeyd serve`, which ends by itself after so many connections."""

    program: pathlib.Path

    checks = True

    def words(self, room, sessions, clients):
        (room / "conf").write_text(CONF)
        return ["serve", "--socket", room / "socket", "--conf", room / "conf", "--sessions", sessions, "--clients", clients]


class Echo(NamedTuple):
    """The peer, which a signal ends."""

    program: pathlib.Path

    checks = False

    def words(self, room, sessions, _):
        return [room / "socket", sessions]


def is_ready(errors, child):
    """Waits until a server has said that it is ready, on its standard error."""
    end = time.monotonic() + PATIENCE
    while time.monotonic() < end and child.poll() is None:
        if b": ready\n" in errors.read_bytes():
            return True
        time.sleep(0.02)
    return False


@functools.cache
def environment():
    """What is to be set, so that a program has so many variables under valgrind, which sets some itself."""
    valgrind = shutil.which("valgrind")
    if not valgrind:
        raise Failed("there is no valgrind")
    ran = subprocess.run([valgrind, "--tool=none", "-q", "/usr/bin/env", "-0"], env={}, stdout=subprocess.PIPE, stderr=subprocess.DEVNULL)
    return {f"VARIABLE_{at}": "some bytes" for at in range(ran.stdout.count(b"\0"), VARIABLES)}


@contextlib.contextmanager
def serving(child, errors, room, checks):
    """A server, as soon as it is ready; it is ended in any case."""
    try:
        if not is_ready(errors, child):
            raise Failed(f"{child.args[0]} does not serve: {errors.read_text(errors='replace')[-400:]}")
        yield Served(room / "socket", checks, child)
    finally:
        child.kill()
        child.wait()


def under_callgrind(words, room):
    """The words of a program that callgrind counts, and the file that says what it has counted."""
    log = room / "log"
    return [shutil.which("valgrind"), "--tool=callgrind", f"--callgrind-out-file={os.devnull}", f"--log-file={log}", *map(str, words)], log


def collected(log):
    text = log.read_text(errors="replace")
    if not (found := re.search(r"Collected : (\d+)", text)):
        raise Failed(f"callgrind: {text[-400:]}")
    return int(found[1])


def executed(server, ask, count):
    """The instructions that a server executes, from its start to its end, with so many asks."""
    with tempfile.TemporaryDirectory() as folder:
        room = pathlib.Path(folder)
        sessions, clients = (1, ask.connections) if ask.connections else (2, count + 1)
        words, log = under_callgrind([server.program, *server.words(room, sessions, clients)], room)
        with (room / "errors").open("wb") as errors:
            child = subprocess.Popen(words, stdin=subprocess.DEVNULL, stdout=subprocess.DEVNULL, stderr=errors, env=environment())
        with serving(child, room / "errors", room, server.checks) as served:
            ask.drive(served, count)
            if not server.checks:
                child.send_signal(signal.SIGTERM)
            child.wait(PATIENCE)
        return collected(log)


def cost(server, ask, count):
    """The instructions of one ask."""
    if isinstance(ask, Start):
        count = max(count // STARTS, 2)
    return (executed(server, ask, 2 * count) - executed(server, ask, count)) / count


def started(program, starts):
    """The instructions that bench/c/spawn.c executes with so many starts in each of its rounds."""
    with tempfile.TemporaryDirectory() as folder:
        words, log = under_callgrind([program, "--only", "/bin/true", "--starts", starts], pathlib.Path(folder))
        ran = subprocess.run(words, stdin=subprocess.DEVNULL, stdout=subprocess.PIPE, stderr=subprocess.STDOUT, env=environment(), timeout=PATIENCE)
        if ran.returncode:
            raise Failed(f"{program}: status {ran.returncode}: {ran.stdout.decode(errors='replace')[-400:]}")
        return collected(log)


def cost_of_start(program, count):
    """The instructions of one start of the peer."""
    starts = max(count // STARTS, LEAST)
    return (started(program, 2 * starts) - started(program, starts)) / starts / ROUNDS


# ---- what is done under a lock

EXECUTED = re.compile(rb"I  ([0-9a-f]+),")
CHANGED = re.compile(rb" [LSM] ([0-9a-f]+),")
# of an x86-64 processor: a comparison and exchange behind `lock`, and an exchange with memory, which has no need of it
ATOMIC = re.compile(rb"\xf0[\x40-\x4f]?\x0f[\xb0\xb1]|[\x40-\x4f]?[\x86\x87][\x00-\xbf]")


def under_lock(lines, program, base):
    """How many instructions a trace has, and how many of them stand between the taking of a lock and its release: the longest such stretch.

    A lock is a word that the program changes by such an instruction, in turn to take it and to give it back.
    """
    count, taken, longest, is_atomic = 0, {}, 0, False
    for line in lines:
        if found := EXECUTED.match(line):
            count += 1
            is_atomic = ATOMIC.match(program.bytes_at(int(found[1], 16) - base, 4)) is not None
        elif is_atomic and (found := CHANGED.match(line)):
            is_atomic = False
            if found[1] in taken:
                longest = max(longest, count - taken.pop(found[1]))
            else:
                taken[found[1]] = count
    return count, longest


def locked(program):
    """The instructions of one found REQUEST that are under the hall's lock: the fewest of some traces, which have to come twice."""
    with tempfile.TemporaryDirectory() as folder:
        room = pathlib.Path(folder)
        words = Daemon(program).words(room, 1, 1)
        with (room / "errors").open("wb") as errors:
            how = {"stdin": subprocess.DEVNULL, "stdout": subprocess.DEVNULL, "stderr": errors, "env": environment()}
            traced = Traced(INSTRUCTIONS, program, words, room, **how)
        with serving(traced.child, room / "errors", room, True) as served, Client(served) as client:
            client.hello()
            client.ask("ADD user load v -4")
            client.ask(FOUND.words)
            found = []
            for _ in range(TRIES):
                traced.idle()
                lines = traced.piece(lambda: client.ask(FOUND.words))
                found.append(under_lock(lines, traced.program, traced.place())[1])
                if found.count(min(found)) > 1:
                    return min(found)
    raise Failed("no two traces of a REQUEST are alike")
