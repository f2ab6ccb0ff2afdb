"""The log: its levels and its two styles, how many lines of a kind there are, a file that may not grow, handlers that run for long, figures; clients that are
silent, and a clean end."""
import re
import signal
import subprocess

import protocol_peer as ask
from daemon import Daemon, text_of, until
from programs import differs, ran

HELD = "create user h:* * %puppet %k\n"


def malformed(daemon, count):
    """So many clients that speak another protocol, one after the other."""
    for _ in range(count):
        with daemon.client(None) as client:
            client.put(b"\0\1\0\1")
            client.rest()


def bounded(program, count):
    """Of many lines of one kind ten are written in a minute, and at the end how many more there were. A minute may begin meanwhile."""
    with Daemon(program, "", "--clients", str(count)) as daemon:
        malformed(daemon, count)
        status, lines = daemon.end()
        lines = list(map(text_of, lines))
        told = [line for line in lines if line.endswith(": what it sent is no frame")]
        more = sum(int(line.split(" ")[3]) for line in lines if line.startswith("warn: sessions: and ") and line.endswith(" more"))
        fit = len(told) == count if count <= 10 else 10 <= len(told) < count
        return differs((status, fit, len(told) + more, told[:1]), (0, True, count, ["warn: session 1: what it sent is no frame"])) and f"{status} {lines}"


def levels(program, level, wanted):
    """Which lines are written: a warning of a client that speaks another protocol, and how a client ended that was silent."""
    with Daemon(program, "", "--log", level, "--clients", "2", "--idle", "1") as daemon:
        malformed(daemon, 1)
        rest = daemon.client(None).rest()
        status, lines = daemon.end()
        return differs((status, rest, list(map(text_of, lines))), (0, [], wanted))


def journal(program, is_journal):
    """Where standard error is the stream that JOURNAL_STREAM names, lines begin with their priority; else with the time."""
    with Daemon(program) as other:
        stream = "$(stat -L -c %d:%i /proc/self/fd/2)" if is_journal else "1:2"
        daemon = Daemon(program, "", "--clients", "1")
        daemon.program = other.script("starts", f'#!/bin/sh\nJOURNAL_STREAM={stream} exec {program} "$@"\n')
        with daemon:
            malformed(daemon, 1)
            status, lines = daemon.end()
    wanted = "<4>session 1: what it sent is no frame" if is_journal else "warn: session 1: what it sent is no frame"
    return differs((status, [line if is_journal else text_of(line) for line in lines]), (0, [wanted])) or differs(lines[0] == wanted, is_journal)


def full(program, is_ignored):
    """Standard error is a file that may not grow: SIGXFSZ ends the daemon, unless it was ignored when it started; then it goes on, without its lines."""
    with Daemon(program) as other:
        daemon = Daemon(program, "", "--clients", "2", ready=False)
        trap = "trap '' XFSZ" if is_ignored else ":"
        daemon.program = other.script("starts", f'#!/bin/sh\n{trap}\nulimit -f 0\nexec {program} "$@" 2> %room/log\n')
        with daemon:
            if not is_ignored:
                return differs(daemon.end(), (-signal.SIGXFSZ, []))
            until(daemon.accepts, "a daemon that accepts")
            client = daemon.client(None)
            client.put(b"\0\1\0\1")
            rest = client.rest()
            return differs((rest, daemon.end(), (other.room / "log").read_text()), ([], (0, []), ""))


def slow(program):
    """A handler that runs for long is a warning, once, which tells what it was started for and not its callout; it goes on, and makes its key."""
    with Daemon(program, HELD, "--slow", "1", "--clients", "1") as daemon:
        client = daemon.client()
        client.send(ask.request(b"user", b"h:1", b"callout", -4))
        handler = daemon.handler()
        until(lambda: len(daemon.lines) > 1, "a warning")
        done = handler.completes()
        handler.ends()
        reply = client.reply()
        client.socket.close()
        status, lines = daemon.end()
        text = r'warn: handler of key 12 \(create user "h:1", uid 1000; line 1, \S+\) has run for [0-9]+ seconds'
        fit = len(lines) == 1 and re.fullmatch(text, text_of(lines[0])) is not None
        return differs((done, reply, status, fit), ((0, 0), 12, 0, True)) and f"{done} {reply} {status} {lines}"


def figures(program):
    """A line of figures, again and again, whatever the level of the log."""
    with Daemon(program, HELD, "--status", "1", "--log", "error", "--sessions", "2") as daemon:
        client, other = daemon.client(), daemon.client()
        client.send(ask.request(b"user", b"h:1", b"x", -4))
        handler = daemon.handler()
        text = r"info: status: connections 2, workers busy 2, handlers 1, the oldest of key 16 for [0-9]+ s, " + in_halls([1], [1], [0])
        until(lambda: sum(re.fullmatch(text, text_of(line)) is not None for line in daemon.lines) > 1, "two lines of figures")
        handler.ends()
        reply = client.reply()
        other.socket.close()
        until(lambda: is_told(daemon, "connections 1, workers busy 1, handlers 0, " + in_halls([1], [0], [0])), "another line")
        return differs(reply, "E126") or daemon.lives()


def figures_of_several(program):
    """Of each thing several, and as many as of no other: connections beside busy workers, handlers of which the first is the oldest, keys of each hall."""
    with Daemon(program, HELD, "--status", "1", "--log", "error", "--sessions", "3") as daemon:
        clients = [daemon.client(uid) for uid in [1002, 1003]]
        others = [daemon.client(None) for _ in range(3)]
        for client, count in zip(clients, [2, 3]):
            client.ask(*[ask.add(b"user", b"k:%d" % at, b"v", -4) for at in range(count)])
        handlers = []
        for client in clients:
            client.send(ask.request(b"user", b"h:1", b"x", -4))
            handlers.append(daemon.handler())
        in_all = in_halls([0, 0, 3, 4], [0, 0, 1, 1], [0, 0, 0, 0])
        text = rf"info: status: connections 5, workers busy 3, handlers 2, the oldest of key {handlers[0].key} for [0-9]+ s, {in_all}"
        until(lambda: any(re.fullmatch(text, text_of(line)) for line in daemon.lines), "figures of several")
        for handler in handlers:
            handler.ends()
        replies = [client.reply() for client in clients]
        for other in others:
            other.socket.close()
        return differs(replies, ["E126", "E126"]) or daemon.lives()


def in_halls(*counts):
    """How figures of the halls are told, of keys, constructions and EDQUOTs: those of the first halls, and 0 of the others."""
    keys, constructions, edquots = ["/".join(map(str, [*count, 0, 0, 0, 0][:4])) for count in counts]
    return f"keys {keys}, constructions {constructions}, EDQUOTs {edquots}, volumes 0"


def is_told(daemon, figures):
    """Whether a line tells these figures."""
    return any(text_of(line) == f"info: status: {figures}" for line in daemon.lines)


def edquots(program):
    """EDQUOTs are counted, those of clients and those of handlers, in the hall of the user that has its 200 keys."""
    with Daemon(program, HELD, "--status", "1", "--log", "error") as daemon:
        client = daemon.client(1001)
        added = client.ask(*[ask.add(b"user", b"k:%d" % at, b"v", -4) for at in range(199)])
        client.send(ask.request(b"user", b"h:1", b"x", -4))
        handler = daemon.handler()
        one_more = ask.add(b"user", b"k", b"v", -4)
        got = handler.ask(ask.on_key(3, handler.key)), handler.ask(one_more), handler.ask(ask.instantiate(handler.key, b"v", 0))
        until(lambda: any(in_halls([0, 200], [0, 1], [0, 1]) in line for line in daemon.lines), "figures of the handler")
        handler.ends()
        got = got, client.reply() == handler.key, client.ask(one_more, ask.request(b"user", b"h:2", b"x", -4))
        until(lambda: is_told(daemon, "connections 1, workers busy 1, handlers 0, " + in_halls([0, 200], [0, 0], [0, 3])), "figures of the client")
        return differs((len(added), got), (199, ((0, "E122", 0), True, ["E122", "E122"]))) or daemon.lives()


def idle(program):
    """A client that is silent before or within a message is closed, and one whose request waits is not."""
    with Daemon(program, HELD, "--idle", "1") as daemon:
        waiting = daemon.client()
        waiting.send(ask.request(b"user", b"h:1", b"x", -4))
        handler = daemon.handler()
        ends = []
        for sent in [b"", ask.frame(ask.hello(1000, 1000))[:7], ask.frame(ask.hello(1000, 1000))]:
            client = daemon.client(None)
            client.put(sent)
            ends.append(len(client.rest()))
        done = handler.completes()
        handler.ends()
        return differs((ends, done, waiting.reply(), waiting.rest()), ([0, 0, 1], (0, 0), 12, [])) or daemon.lives()


def until_eof(program, what):
    """The end of standard input is a clean end: who is there is served to its end, the socket goes, and the record is whole."""
    with Daemon(program) as other:
        folder = other.room / "record"
        folder.mkdir()
        with Daemon(program, "", "--until-eof", "--record", str(folder), input=subprocess.PIPE) as daemon:
            client = daemon.client() if what == "a client" else None
            if what == "bytes":
                daemon.process.stdin.write(b"x" * 10_000)
            daemon.process.stdin.close()
            rings = None
            if client:
                until(lambda: not daemon.accepts(), "the end of its listener")
                rings = client.ask(ask.default(-1))
                client.socket.close()
            got = daemon.end()
            stands = daemon.path.exists()
        kept = sorted(path.name for path in folder.iterdir())
        joined, *_ = ran(program, "rejoin", *sorted(folder.iterdir()))
        wanted = [f"hall-{hall}-volume-000001" for hall in range(4)]
        return differs((got, stands, kept, rings, joined), ((0, []), False, wanted, 0 if client else None, 0))


def cases():
    for count in [3, 10, 40]:
        yield f"{count} lines of a kind", bounded, count
    idle_line = "info: session 2: idle"
    for level, wanted in [("error", []), ("warn", ["warn: session 1: what it sent is no frame"]), ("info", ["warn: session 1: what it sent is no frame", idle_line]),
                          ("debug", ["warn: session 1: what it sent is no frame", idle_line])]:
        yield f"the level {level}", levels, level, wanted
    for is_journal in [True, False]:
        yield f"standard error is {'' if is_journal else 'not '}the journal", journal, is_journal
    for is_ignored in [True, False]:
        yield f"a log that may not grow, and its signal is {'' if is_ignored else 'not '}ignored", full, is_ignored
    yield "a slow handler", slow
    yield "figures", figures
    yield "figures of several", figures_of_several
    yield "EDQUOTs among the figures", edquots
    yield "silent clients", idle
    for what in ["nothing", "bytes", "a client"]:
        yield f"the end of standard input after {what}", until_eof, what
