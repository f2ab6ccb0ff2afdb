"""Calls of the system that fail, one in each run of the daemon: at the start they are reported, and later they end what they are of, and nothing else."""
import errno
import os

import protocol_peer as ask
from compiled import library
from daemon import Daemon, until
from programs import differs, lacks
from scenes import CONF, Gated, answered, greeted, negated, nested, played_twice, said

# what is printed if the daemon does not start
LINES = ["reqkeyd: conf", "reqkeyd: random", "reqkeyd: socket", "reqkeyd: memory"]

AT_START = ["open", "read", "getentropy", "socket", "bind", "listen", "chmod"]

# of each call what may come in place of a reply: no key, since a start or a handler has failed, or the end of a connection
LATER = {
    "pipe2": ["E126"], "posix_spawn": ["E126"], "waitpid": ["E126"], "read": ["E126"], "write": ["E126"],
    "recv": [None], "send": [None], "accept4": [],
}


def failing(program, call, count, code, closed=()):
    """A daemon in which this call fails, of all such calls the one of this number; the file `told` is there when it has."""
    daemon = Gated(program, CONF, "--sessions", "2", "--negative", "4000000", closed=closed, ready=False)
    daemon.environment = {
        "LD_PRELOAD": library("refusing_calls"), "CALL": call, "REFUSED": str(count), "ERROR": str(code), "TOLD": str(daemon.room / "told"),
    }
    return daemon


def met(daemon):
    return (daemon.room / "told").exists()


def begun(daemon):
    """Whether the daemon serves; else it has ended. The line that says so may be what failed."""
    until(lambda: daemon.lines or daemon.process.poll() is not None or met(daemon) and daemon.accepts(), "a first line")
    return daemon.process.poll() is None and daemon.lines in [[], ["reqkeyd: ready"]]


def play(daemon, name):
    """A plain handler, one in another, piped ones, and a line for negate."""
    client, replies = greeted(daemon)
    replies += said(client, (ask.request(b"user", b"plain:first" + name, b"x", -4), int))
    client.socket.close()
    return replies + nested(daemon, name) + negated(daemon, name)


def never(call):
    """What is wrong where not even the first call of its name was refused: then nothing was tried."""
    return f"{call} is never called"


def at_start(program, call, code, closed=()):
    """A call fails that the daemon makes before it serves: it says what is amiss, with status 1, and can be started again; or it serves all the same."""
    for count in range(1, 1000):
        with failing(program, call, count, code, closed) as daemon:
            if not begun(daemon):
                status, lines = daemon.end()
                if status != 1 or not lines or lines[0] not in LINES or any(not line.startswith("  ") for line in lines[1:]):
                    return f"{call} {count}: status {status} {lines}"
                daemon.environment = None
                daemon.start()
                until(lambda: daemon.lines, "the ready line")
            elif not met(daemon):
                return never(call) if count == 1 else None
            if wrong := daemon.lives():
                return f"{call} {count}: {wrong}"
    return "it never ends"


def later(program, call, code, may):
    """A call fails while the daemon serves: one of these may come of it, and behind it all is as told. No descriptor is left."""
    count, more = 1, True
    while more:
        with failing(program, call, count, code) as daemon:
            if begun(daemon):
                early, before = met(daemon), daemon.settled()
                _, wrong = played_twice(daemon, play, [] if early else may)
                until(lambda: daemon.descriptors() == before, f"the descriptors {before}, and not {daemon.descriptors()}")
                if wrong:
                    return f"{call} {count}, {wrong}"
                more = met(daemon)
        if not more and count == 1:
            return never(call)
        count += 1 if "EVERY" in os.environ else 1 + count // 3
    return None


def unread(program):
    """A read of a handler's output fails, and the handler goes on: its pipes are closed all the same, and it is let go of once it has ended."""
    for count in range(1, 100):
        daemon = Daemon(program, "create user h:* * %puppet %k\n", "--sessions", "1", "--negative", "4000000", ready=False)
        daemon.environment = {"LD_PRELOAD": library("refusing_calls"), "CALL": "read", "REFUSED": str(count), "TOLD": str(daemon.room / "told")}
        with daemon:
            if begun(daemon) and (wrong := goes_on_unread(daemon)) is not None:
                return wrong or daemon.lives()
    return "no read of a handler's output has failed"


def goes_on_unread(daemon):
    """None where the daemon reads what its handler says; else what is wrong with the result of a read that fails, or nothing."""
    before = daemon.settled()
    client = daemon.client()
    client.send(ask.request(b"user", b"h:1", b"x", -4))
    handler = daemon.handler()
    if answered(handler, ask.on_key(3, handler.key)) is not None:
        handler.ask(ask.instantiate(handler.key, b"v", 0))
        handler.ends()
        client.reply()
        return None
    outcome = client.reply()
    client.socket.close()
    until(lambda: daemon.descriptors() == before, f"the descriptors {before}, and not {daemon.descriptors()}")
    runs = daemon.children().get(handler.pid, "Z") != "Z"
    handler.ends()
    until(lambda: daemon.children().get(handler.pid) == "Z", "the exit of the handler")
    with daemon.client() as other:
        other.send(ask.request(b"user", b"h:2", b"x", -4))
        another = daemon.handler()
        left = [*daemon.children()]
        another.ends()
        return differs((outcome, runs, left, other.reply()), ("E126", True, [another.pid], "E126")) or ""


def cases():
    if lacks("calls that fail", "gcc"):
        return
    for call in AT_START:
        yield f"a call of {call} at the start that fails", at_start, call, errno.EIO
    yield "a call of open at the start that fails, without standard input", at_start, "open", errno.EIO, [0]
    for call, may in LATER.items():
        yield f"a call of {call} that fails", later, call, errno.EIO, may
    yield "a handler that goes on when a read of its output has failed", unread
    for call in ["send", "write", "accept4", "waitpid"]:
        yield f"a call of {call} that is interrupted is made again", later, call, errno.EINTR, []
