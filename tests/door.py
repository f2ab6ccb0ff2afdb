"""The program of clients/door/ before a daemon, both of a user of their own, and clients as several users."""
import collections
import contextlib
import json
import os
import pathlib
import signal
import socket
import subprocess
import tempfile
import threading

import protocol_peer as ask
from daemon import Client, Daemon, ended, told, until
from programs import LIMIT

KEEPER = 64001  # whose the daemon and the door are
ONE, TWO, THREE = 1000, 1001, 1002


def become(uid, groups=()):
    """Makes this process one of a user, who can't become another one again."""
    os.setgroups(list(groups))
    os.setresgid(uid, uid, uid)
    os.setresuid(uid, uid, uid)


def as_user(uid, function, *words, groups=()):
    """What a function gives, or raises, in a process of this user."""
    reader, writer = os.pipe()
    child = os.fork()
    if child == 0:
        try:
            become(uid, groups)
            try:
                got = function(*words)
            except Exception as failed:
                got = type(failed).__name__
            os.write(writer, json.dumps(got, default=lambda it: it.decode()).encode())
        finally:
            os._exit(0)
    os.close(writer)
    with open(reader, encoding="utf-8") as text:
        got = text.read()
    os.waitpid(child, 0)
    return json.loads(got) if got else "nothing"


class Handed(Client):
    """A client that takes what the door hands over, if that lets it in: `socket` is the daemon's connection then, which came as one
    that `blocks` or not, and `door` the one to the door."""

    def __init__(self, path, uid=None, gid=None, join=0, flags=0):
        super().__init__(path)
        uid = os.getuid() if uid is None else uid
        self.send(ask.hello(uid, uid if gid is None else gid, join, flags))
        self.door, self.rings = self.socket, None
        data, handed, _, _ = socket.recv_fds(self.socket, 65536, 4)
        self.handed = len(handed)
        self.rings = told(data[4:]) if data else None
        if handed:
            self.blocks = os.get_blocking(handed[0])
            self.socket = socket.socket(fileno=handed[0])
            self.socket.settimeout(LIMIT)

    def __exit__(self, *_):
        self.socket.close()
        self.door.close()


class Behind(Daemon):
    """A daemon of the user KEEPER, at a socket that nobody else can reach."""

    def __enter__(self):
        os.chown(self.room, KEEPER, KEEPER)
        return super().__enter__()

    def narrow(self):
        super().narrow()
        become(KEEPER)


class Door:
    """reqkey-door of the user KEEPER, at a socket in a folder that everybody may enter, or at one that it is handed.

    `handed` has the sockets that it gets from number 3 on, as systemd does it."""

    def __init__(self, program, inner, *options, before=(), handed=(), keeper=KEEPER):
        self.folder = tempfile.TemporaryDirectory(prefix="door-")
        self.room = pathlib.Path(self.folder.name)
        self.room.chmod(0o777)
        self.path, self.handed, self.keeper = self.room / "door", list(handed), keeper
        words = [program, "--socket", inner, *([] if handed else ["--listen", self.path]), *options]
        if handed:
            words = ["/bin/sh", "-c", f'LISTEN_PID=$$ LISTEN_FDS={len(self.handed)} exec "$@"', "sh", *words]
        self.words = [*before, *words]

    def prepare(self):
        for at, handed in enumerate(self.handed):
            os.dup2(handed, 3 + at)
        if self.keeper:
            become(self.keeper)

    def __enter__(self):
        self.start()
        return self

    def start(self, ready=True):
        self.lines = []
        numbers = range(3, 3 + len(self.handed))
        self.process = subprocess.Popen(list(map(str, self.words)), stdin=subprocess.DEVNULL, stdout=subprocess.DEVNULL, stderr=subprocess.PIPE,
                                        pass_fds=numbers, preexec_fn=self.prepare)
        self.reader = threading.Thread(target=Daemon.listen, args=(self.process.stderr, self.lines), daemon=True)
        self.reader.start()
        if ready:
            until(lambda: "reqkey-door: ready" in self.lines or self.process.poll() is not None, "a door that is ready")
            self.at_rest = self.descriptors() if self.process.poll() is None else None

    def __exit__(self, *_):
        if self.process.poll() is None:
            self.process.kill()
        self.let_go()
        self.folder.cleanup()

    def let_go(self):
        self.process.wait()
        ended(self.reader, "the end of what the door says")
        self.process.stderr.close()

    def ends(self):
        """Ends it by SIGTERM; its status, and what it has said of faults of its own."""
        self.process.send_signal(signal.SIGTERM)
        status = self.process.wait(LIMIT)
        ended(self.reader, "the end of what the door says")
        return status, [line for line in self.lines if line != "reqkey-door: ready" and " warn: " not in line]

    def refusals(self):
        """Its lines of refusals and other warnings, without their times."""
        return [line.partition(" warn: ")[2] for line in self.lines if " warn: " in line]

    def descriptors(self):
        """What its descriptors are, each with its number of times."""
        kinds = []
        for link in pathlib.Path(f"/proc/{self.process.pid}/fd").iterdir():
            with contextlib.suppress(FileNotFoundError):
                kinds.append(os.readlink(link).partition(":[")[0])
        return collections.Counter(kinds)

    def has_left(self):
        """Waits until it has no more than at its start."""
        until(lambda: self.descriptors() == self.at_rest, f"the descriptors {self.at_rest}, and not {self.descriptors()}")

    @contextlib.contextmanager
    def stopped(self):
        """It does nothing meanwhile."""
        self.process.send_signal(signal.SIGSTOP)
        try:
            yield
        finally:
            self.process.send_signal(signal.SIGCONT)
