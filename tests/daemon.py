"""A daemon in a folder of its own, its clients, and handlers whose words and ends a test decides.

The client is written from docs/PROTOCOL.md alone; the bodies of asks are those of protocol_peer. Nothing here waits for a time: each wait is for
something to happen, and gives up after LIMIT seconds (programs.py), when that is taken for a hang.
"""
import array
import collections
import contextlib
import os
import pathlib
import re
import resource
import signal
import socket
import struct
import subprocess
import sys
import tempfile
import threading
import time

import protocol_peer as ask
from programs import LIMIT, client_of, ran

PUPPET = pathlib.Path(__file__).resolve().parent / "serve" / "puppet.py"


class GaveUp(Exception):
    """What was waited for did not come."""


def until(happens, what):
    """Waits until this holds, and gives what it then is. What comes at once is seen at once; else it is looked for fifty times a second."""
    end, pause = time.monotonic() + LIMIT, 0.001
    while time.monotonic() < end:
        found = happens()
        if found:
            return found
        time.sleep(pause)
        pause = min(2 * pause, 0.02)
    raise GaveUp(f"{what}: not within {LIMIT} seconds")


def told(body):
    """A reply as a value: a number, bytes, four rings, `E126`; None where the connection has ended."""
    if body is None:
        return None
    kind, fields = body[0], body[1:]
    if kind == 0 and len(fields) == 4:
        return struct.unpack(">I", fields)[0]
    if kind == 1 and len(fields) >= 2 and struct.unpack(">H", fields[:2])[0] == len(fields) - 2:
        return fields[2:]
    if kind == 2 and len(fields) == 16:
        return struct.unpack(">IIII", fields)
    if kind == 3 and len(fields) == 1:
        return f"E{fields[0]}"
    raise GaveUp(f"{body!r} is no reply")


def text_of(line):
    """A line of the log without its time: `warn: session 17: it could not be read`."""
    return re.sub(r"^[0-9]{4}-[0-9]{2}-[0-9]{2}T[0-9]{2}:[0-9]{2}:[0-9]{2}Z (?=error|warn|info|debug)", "", line)


def ended(thread, what):
    """Waits until this thread has ended."""
    thread.join(LIMIT)
    if thread.is_alive():
        raise GaveUp(f"{what}: not within {LIMIT} seconds")


class Crowd:
    """Clients side by side, of each of which a function is called with one of these; what one ends with that it should not is in `wrong`."""

    def __init__(self, comes, each):
        self.comes, self.wrong = comes, []
        self.threads = [threading.Thread(target=self.runs, args=(it,), daemon=True) for it in each]
        for thread in self.threads:
            thread.start()

    def runs(self, it):
        try:
            self.comes(it)
        except (GaveUp, OSError) as failed:
            self.wrong.append(repr(failed))

    def ended(self):
        """Waits until all have ended, and gives what is wrong."""
        for thread in self.threads:
            ended(thread, "the end of a client")
        return self.wrong


class Speaker:
    """Sends bodies in frames, and reads replies."""

    def send(self, *bodies):
        self.put(b"".join(map(ask.frame, bodies)))

    def reply(self):
        """The next reply, or None where there is none any more."""
        head = self.take(4)
        if len(head) < 4:
            return None
        length = struct.unpack(">I", head)[0]
        body = self.take(length)
        if not 1 <= length <= 65536 or len(body) < length:
            raise GaveUp(f"a frame of {length} bytes, of which {len(body)} came")
        return told(body)

    def ask(self, *bodies):
        """The replies to these asks, one alone by itself."""
        self.send(*bodies)
        replies = [self.reply() for _ in bodies]
        return replies[0] if len(replies) == 1 else replies


class Client(Speaker):
    """A connection. What it sends first, if it gets a uid, is HELLO, whose reply is `rings`."""

    def __init__(self, path, uid=None, join=0, flags=0):
        self.socket = socket.socket(socket.AF_UNIX)
        # (the system waits for a place in the daemon's queue, which may be full, where a socket with Python's own limit is refused)
        self.socket.setsockopt(socket.SOL_SOCKET, socket.SO_SNDTIMEO, struct.pack("ll", LIMIT, 0))
        self.socket.connect(str(path))
        self.socket.settimeout(LIMIT)
        self.rings = None if uid is None else self.ask(ask.hello(uid, uid, join, flags))

    def __enter__(self):
        return self

    def __exit__(self, *_):
        self.socket.close()

    def put(self, data):
        self.socket.sendall(data)

    def take(self, count):
        data = b""
        while len(data) < count:
            try:
                piece = self.socket.recv(min(count - len(data), 65536))
            except ConnectionResetError:
                piece = b""
            if not piece:
                break
            data += piece
        return data

    def ends(self):
        """Sends no more, and gives all replies that still come."""
        self.socket.shutdown(socket.SHUT_WR)
        return self.rest()

    def rest(self):
        """All replies up to the end of the connection."""
        replies = []
        while (reply := self.reply()) is not None:
            replies.append(reply)
        return replies


class Handler(Speaker):
    """A handler that a test plays: it has the handler's pipes, and tells it how to end."""

    def __init__(self, link):
        words, ancillary, _, _ = link.recvmsg(4096, socket.CMSG_SPACE(8))
        pipes = array.array("i")
        for level, kind, data in ancillary:
            if (level, kind) == (socket.SOL_SOCKET, socket.SCM_RIGHTS):
                pipes.frombytes(data[:8])
        self.input, self.output = pipes
        self.link = link
        pid, *self.words = words.decode().split(" ")
        self.pid = int(pid)
        link.recv(1)

    @property
    def key(self):
        """The key that it makes, where its first word is %k."""
        return int(self.words[0])

    def completes(self, payload=b"made"):
        """Assumes the authority over its key, and gives it this payload; the replies."""
        return self.ask(ask.on_key(3, self.key)), self.ask(ask.instantiate(self.key, payload, 0))

    def put(self, data):
        while data:
            data = data[os.write(self.output, data) :]

    def take(self, count):
        data = b""
        while len(data) < count and (piece := os.read(self.input, count - len(data))):
            data += piece
        return data

    def all_input(self):
        data = b""
        while piece := os.read(self.input, 65536):
            data += piece
        return data

    def close_input(self):
        os.close(self.input)
        self.input = None

    def close_output(self):
        os.close(self.output)
        self.output = None

    def close_pipes(self):
        for pipe in [self.input, self.output]:
            if pipe is not None:
                os.close(pipe)
        self.input = self.output = None

    def ends(self, status=0):
        """Closes its pipes, and exits with this status."""
        self.close_pipes()
        self.link.send(bytes([status]))
        self.link.close()

    def is_killed(self):
        """A signal ends it."""
        os.kill(self.pid, signal.SIGKILL)
        self.close_pipes()
        self.link.close()


class Daemon:
    """`reqkeyd serve` in a folder of its own, with its configuration.

    `%room` in the configuration is the folder, `%puppet` the words of a handler that the test plays (`handler` gives it) and `%ctl` reqkeyctl. It has
    these options besides, and is killed at the end if it still runs. Its standard error is read as it comes. With `starts=False` the test starts it.
    """

    def __init__(self, program, conf="", *options, files=None, mask=None, longest=None, ignored=None, closed=(), starts=True, ready=True, environment=None,
                 input=subprocess.DEVNULL):
        self.program, self.options, self.starts, self.ready = program, options, starts, ready
        self.files, self.mask, self.longest, self.ignored, self.closed, self.environment = files, mask, longest, ignored, closed, environment
        self.conf_text, self.input = conf, input
        self.folder = tempfile.TemporaryDirectory(prefix="serve-")
        self.room = pathlib.Path(self.folder.name)
        self.path, self.conf = self.room / "s", self.room / "conf"
        self.lines, self.process, self.clients = [], None, []

    def __enter__(self):
        self.puppets = socket.socket(socket.AF_UNIX)
        self.puppets.bind(str(self.room / "puppets"))
        self.puppets.listen(256)
        self.puppets.settimeout(LIMIT)
        self.conf.write_text(self.filled(self.conf_text))
        try:
            if self.starts:
                self.start()
        except GaveUp:
            self.__exit__()
            raise
        return self

    @property
    def client_program(self):
        return client_of(self.program)

    def filled(self, text):
        puppet = f"{sys.executable} -I -S {PUPPET} {self.room}/puppets"
        text = text.replace("%puppet", puppet).replace("%room", str(self.room))
        return text.replace("%ctl", str(self.client_program)) if "%ctl" in text else text

    def script(self, name, text):
        """A program of the folder, which a line of the configuration may name."""
        path = self.room / name
        path.write_text(self.filled(text))
        path.chmod(0o755)
        return path

    def narrow(self):
        """What is set for the daemon alone: how many descriptors it may have, its mask of permissions, how long a file of it may be, an ignored signal, and
        which standard streams are closed."""
        if self.files:
            resource.setrlimit(resource.RLIMIT_NOFILE, (self.files, self.files))
        if self.mask is not None:
            os.umask(self.mask)
        if self.longest:
            signal.signal(signal.SIGXFSZ, signal.SIG_IGN)
            resource.setrlimit(resource.RLIMIT_FSIZE, (self.longest, self.longest))
        if self.ignored:
            signal.signal(self.ignored, signal.SIG_IGN)
        for stream in self.closed:
            os.close(stream)

    def start(self):
        """Starts it, also once more after its end."""
        if self.process is not None:
            self.let_go()
        words = [self.program, "serve", "--socket", self.path, "--conf", self.conf, *self.options]
        environment = {**os.environ, **self.environment} if self.environment else None
        streams = {"stdin": self.input, "stdout": subprocess.PIPE, "stderr": subprocess.PIPE}
        self.process = subprocess.Popen(words, **streams, env=environment, preexec_fn=self.narrow)
        self.lines = []
        self.reader = threading.Thread(target=self.listen, args=(self.process.stderr, self.lines), daemon=True)
        self.reader.start()
        if self.ready:
            until(lambda: "reqkeyd: ready" in self.lines or self.process.poll() is not None, "the ready line")
            if "reqkeyd: ready" not in self.lines:
                raise GaveUp(f"the daemon did not start: {self.end()}")

    @staticmethod
    def listen(stream, lines):
        for line in stream:
            lines.append(line.decode(errors="replace").rstrip("\n"))

    def __exit__(self, *_):
        for client in self.clients:
            client.socket.close()
        if self.process is not None:
            handlers = self.children() if self.process.poll() is None else []
            self.kill()
            for handler in handlers:
                with contextlib.suppress(ProcessLookupError):
                    os.kill(handler, signal.SIGKILL)
            self.let_go()
        self.puppets.close()
        self.folder.cleanup()

    def end(self):
        """Its status, and what it has said on standard error but that it was ready. It has to end by itself."""
        status = self.process.wait(LIMIT)
        ended(self.reader, "the end of what it says")
        return status, [line for line in self.lines if line != "reqkeyd: ready"]

    def kill(self):
        """Kills it, and gives its status. It can be started again, when its handlers have ended, too."""
        self.process.kill()
        return self.process.wait()

    def let_go(self):
        """Closes what is left of it when it has ended."""
        self.reader.join(LIMIT)
        self.process.stdout.close()
        self.process.stderr.close()

    def release(self):
        """Lets the handlers end that wait at the pipe `fifo` of its folder."""
        def none_is_left():
            try:
                os.close(os.open(self.room / "fifo", os.O_WRONLY | os.O_NONBLOCK))
            except OSError:
                return True
            return False
        until(none_is_left, "the end of the handlers that wait")

    def client(self, uid=1000, join=0, flags=0):
        """A client that has said HELLO for this uid, or nothing for None; it is closed at the end."""
        client = Client(self.path, uid, join, flags)
        self.clients.append(client)
        return client

    def handler(self):
        """The next handler that the daemon has started of `%puppet`."""
        link, _ = self.puppets.accept()
        return Handler(link)

    def control(self, *words, input=b""):
        """A run of reqkeyctl at the socket: status, standard output and standard error."""
        return ran(self.client_program, "--socket", self.path, *words, input=input)

    def accepts(self):
        """Whether one can connect."""
        try:
            Client(self.path).socket.close()
            return True
        except OSError:
            return False

    # ---- what it holds

    def descriptors(self):
        """What its descriptors are, each with its number of times; sockets and pipes have no name."""
        folder = pathlib.Path(f"/proc/{self.process.pid}/fd")
        kinds = []
        for link in folder.iterdir():
            try:
                kinds.append(os.readlink(link).partition(":[")[0])
            except FileNotFoundError:
                pass
        return collections.Counter(kinds)

    def settled(self, sockets=1):
        """Its descriptors, when so many of them are sockets."""
        return until(lambda: (now := self.descriptors())["socket"] == sockets and now, f"{sockets} sockets")

    def has_left(self, before):
        """Waits until its descriptors are those of before, and all its children have ended."""
        until(lambda: not self.children() and self.descriptors() == before, f"no child, and the descriptors {before}, and not {self.descriptors()}")

    def is_stopped(self):
        """Whether a signal has stopped all its threads."""
        tasks = pathlib.Path(f"/proc/{self.process.pid}/task").glob("*/stat")
        return {task.read_text().rpartition(")")[2].split()[0] for task in tasks} == {"T"}

    def children(self):
        """Its child processes, with their states; a zombie is Z."""
        found = {}
        for path in pathlib.Path("/proc").glob("[0-9]*/stat"):
            try:
                state, parent = path.read_text().rpartition(")")[2].split()[:2]
            except (FileNotFoundError, ProcessLookupError):
                continue
            if int(parent) == self.process.pid:
                found[int(path.parent.name)] = state
        return found

    def serves_one(self):
        """The rings of a client, and the end that the daemon comes to behind it."""
        with self.client() as client:
            rings = client.rings
        return rings, self.end()

    def lives(self):
        """None where it runs and answers a new client, else what is wrong."""
        if self.process.poll() is not None:
            return f"the daemon has ended: {self.end()}"
        with Client(self.path, 4000) as client:
            return None if isinstance(client.rings, tuple) else f"HELLO: {client.rings}"
