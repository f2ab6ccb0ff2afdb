"""How clients, handlers and the daemon end, and what is then left."""
import contextlib
import os
import re
import select
import signal
import subprocess

import protocol_peer as ask
from daemon import LIMIT, Daemon, text_of, until
from programs import differs

HELD = "create user h:* * %puppet %k\n"
USER = -4


def want(name=b"h:1", callout=b"x", ring=USER):
    return ask.request(b"user", name, callout, ring)


@contextlib.contextmanager
def asked(program, *options, conf=HELD, callout=b"x"):
    """A daemon, a client that has requested a key, and the handler of that key."""
    with Daemon(program, conf, *options) as daemon, daemon.client() as client:
        client.send(want(callout=callout))
        yield daemon, client, daemon.handler()


def quiet(client):
    """Whether nothing has come for this client so far."""
    client.socket.setblocking(False)
    try:
        return client.socket.recv(1) and False
    except BlockingIOError:
        return True
    finally:
        client.socket.settimeout(LIMIT)


def client_killed(program):
    """A client is killed while it waits for the key that it has asked for: another one who waits gets it, and it stays in the user ring."""
    with Daemon(program, HELD) as daemon:
        words = [daemon.client_program, "--socket", daemon.path, "--uid", "1000", "request", "user", "h:1", "user", "x"]
        with subprocess.Popen(words, stdout=subprocess.PIPE, stderr=subprocess.PIPE) as starter:
            handler = daemon.handler()
            other = daemon.client()
            other.send(want())
            third = daemon.client()
            starter.kill()
            status = starter.wait()
        done = handler.completes()
        outcome = other.reply()
        handler.ends()
        found = third.ask(want(callout=None, ring=0))
        return differs((status, done, outcome, found, third.ask(ask.on_key(7, 12))), (-9, (0, 0), 12, 12, b"made")) or daemon.lives()


def all_clients_killed(program):
    """The only client goes: its handler is served to its end."""
    with asked(program) as (daemon, client, handler):
        client.socket.close()
        done = handler.completes()
        handler.ends(3)
        later = daemon.client()
        return differs((done, later.ask(want(callout=None, ring=0))), ((0, 0), 12)) or daemon.lives()


def handler_killed(program, negative):
    """A handler is killed: ENOKEY, and a start again when the negative time is over."""
    with asked(program, "--negative", negative) as (daemon, client, handler):
        handler.is_killed()
        first = client.reply()
        if negative == "4294967295":
            second, state = client.ask(want()), client.ask(ask.on_key(8, 12))
            return differs((first, second, state), ("E126", "E126", b"user;1000;negative;h:1")) or daemon.lives()
        state = client.ask(ask.on_key(8, 12))
        client.send(want())
        handler = daemon.handler()
        done = handler.completes()
        handler.ends()
        return differs((first, state, done, client.reply()), ("E126", b"user;1000;expired;h:1", (0, 0), 16)) or daemon.lives()


def again_after(program):
    """With a negative time of a second the handler is started again, some time."""
    with Daemon(program, "create user t:* * %room/handler %k\n", "--negative", "1") as daemon, daemon.client() as client:
        daemon.script("handler", '#!/bin/sh\n[ -e %room/ready ] || exit 0\n%ctl assume "$1" && %ctl instantiate "$1" made none\n')
        first = client.ask(want(b"t:1"))
        (daemon.room / "ready").write_text("")
        found = until(lambda: isinstance(reply := client.ask(want(b"t:1")), int) and reply, "a key after the negative time")
        return differs((first, found), ("E126", 16))


def completed_and_killed(program):
    """A handler is killed behind its completion: the key is made."""
    with asked(program) as (daemon, client, handler), daemon.client() as other:
        other.send(want())
        done = handler.completes()
        early = other.reply(), quiet(client)
        handler.is_killed()
        return differs((done, early, client.reply()), ((0, 0), (handler.key, True), handler.key)) or daemon.lives()


def daemon_killed(program):
    """The daemon is killed: its clients see the end, its handlers too, and a new one begins anew at the same path."""
    with asked(program) as (daemon, client, handler):
        status = daemon.kill()
        ended = client.reply(), handler.all_input()
        left = daemon.path.exists()
        try:
            handler.send(ask.on_key(3, 12))
            written = "written"
        except BrokenPipeError:
            written = "broken"
        handler.ends()
        daemon.start()
        with daemon.client() as fresh:
            got = fresh.rings, fresh.ask(want(callout=None))
        return differs((status, ended, left, written, got), (-9, (None, b""), True, "broken", ((0, 0, 4, 8), "E126")))


def terminated(program):
    """SIGTERM ends it at once, and the next start replaces what is left."""
    with Daemon(program) as daemon:
        daemon.client()
        daemon.process.send_signal(signal.SIGTERM)
        status = daemon.process.wait()
        daemon.start()
        return differs(status, -15) or daemon.lives()


def garbage(program, data):
    """A handler writes what is no frame: its input is closed, what it still writes is dropped, and it has failed when it ends."""
    with asked(program, "--negative", "0") as (daemon, client, handler):
        first = handler.ask(ask.on_key(3, 12))
        handler.put(data)
        rest = handler.all_input()
        handler.put(bytes(200_000))
        handler.send(ask.instantiate(12, b"late", 0))
        held = quiet(client)
        handler.ends()
        return differs((first, rest, held, client.reply()), (0, b"", True, "E126")) or daemon.lives()


def no_asks(program):
    """Bodies that spell no ask are refused, and the handler goes on."""
    with asked(program) as (_, client, handler):
        refusals = handler.ask(b"\x07", b"\xff", b"\x00" * 65536, b"\x02\x00\x00", ask.on_key(3, 12) + b"\x00")
        done = handler.completes()
        handler.ends()
        return differs((refusals, done, client.reply()), (["E22"] * 5, (0, 0), 12))


def closes_output(program, after):
    """A handler closes its output and goes on: its end is its exit."""
    with asked(program, "--negative", "0") as (daemon, client, handler), daemon.client() as other:
        if after:
            handler.completes()
        handler.close_output()
        handler.all_input()
        state = other.ask(*[ask.on_key(8, handler.key)] * 20)[-1]
        held = quiet(client)
        handler.ends()
        return differs((state, held, client.reply()), (b"user;1000;%s;h:1" % (b"valid" if after else b"building"), True, handler.key if after else "E126"))


def child_goes_on(program):
    """A handler exits while another process has its pipes: that one is still the handler."""
    with asked(program) as (daemon, client, handler):
        handler.link.send(b"\0")
        handler.link.close()
        until(lambda: "Z" in daemon.children().values(), "the exit of the handler")
        done = handler.completes()
        held = quiet(client)
        handler.close_pipes()
        reply = client.reply()
        return differs((done, held, reply, daemon.children()), ((0, 0), True, 12, {}))


def replies_unread(program):
    """A handler that closes its input gets no reply; what it has sent behind the first is not heard."""
    with asked(program, "--negative", "0") as (daemon, client, handler):
        handler.close_input()
        handler.send(ask.on_key(3, 12), ask.instantiate(12, b"x", 0))
        handler.ends()
        return differs(client.reply(), "E126") or daemon.lives()


def handler_leaves(program):
    """A handler is killed while the daemon writes to it, when nothing more goes: the signal of a broken pipe doesn't end the daemon."""
    with asked(program, "--negative", "0", callout=b"c" * 4095) as (daemon, client, handler):
        handler.ask(ask.on_key(3, handler.key))
        os.set_blocking(handler.output, False)
        until(lambda: not writes(handler, ask.frame(ask.CALLOUT) * 100), "a handler to which no more goes")
        handler.is_killed()
        return differs(client.reply(), "E126") or daemon.lives()


def writes(handler, data):
    try:
        return os.write(handler.output, data)
    except BlockingIOError:
        return 0


def child_keeps(program, script, early, payload):
    """A piped program exits while a process that it has started still has one of its pipes: its output alone holds up the end."""
    with Daemon(program, "create user p:* * |%room/program\n", "--negative", "0") as daemon, daemon.client() as client, daemon.client() as other:
        daemon.script("program", f"#!/bin/sh\nexec 3<&0\n({script}) &\necho made\n")
        os.mkfifo(daemon.room / "gate")
        client.send(want(b"p:1", b"c" * 4095))
        with open(daemon.room / "gate", "wb", buffering=0) as gate:
            if early:
                outcome = client.reply()
            else:
                until(lambda: "Z" in daemon.children().values(), "the exit of the program")
                held = other.ask(ask.on_key(8, 16)), quiet(client)
            gate.write(b"\n")
        if not early:
            outcome = client.reply() if held == (b"user;1000;building;p:1", True) else held
        return differs((outcome, client.ask(ask.on_key(7, 16)), daemon.children()), (16, payload, {}))


def stopped(program):
    """The daemon is stopped and continued again and again while it serves: nobody notices."""
    with Daemon(program, "create user p:* * |/bin/cat\n") as daemon, daemon.client() as client, daemon.client() as idle:
        key, got = idle.ask(ask.add(b"user", b"k", b"v", -3)), []
        for at in range(50):
            client.send(want(b"p:%d" % at), want(b"p:%d" % at, None))
            daemon.process.send_signal(signal.SIGSTOP)
            idle.send(ask.on_key(7, key))
            daemon.process.send_signal(signal.SIGCONT)
            got.append((client.reply(), client.reply(), idle.reply()))
        return differs(got, [(made, made, b"v") for made in range(key + 4, key + 4 + 4 * 50, 4)]) or daemon.lives()


HARMLESS = [signal.SIGCHLD, signal.SIGWINCH, signal.SIGURG, signal.SIGCONT]


def signalled(program):
    """The daemon is stopped and continued, and gets signals that end nobody, while it waits in each of its calls: for the bytes of clients, at the start of a
    frame and within one, for those of handlers, plain and piped, for the end of a handler, and for a client that doesn't read. Nobody notices."""
    with Daemon(program, HELD + "create user p:* * |%puppet %k\n") as daemon:
        idle, cut, slow, plain, closed, piped = [daemon.client() for _ in range(6)]
        key, body = idle.ask(ask.add(b"user", b"k", b"v" * 32767, USER)), ask.frame(ask.on_key(8, 8))
        cut.put(body[:3])
        slow.send(*[ask.on_key(7, key)] * 400)
        handlers = []
        for client, name in [(plain, b"h:1"), (closed, b"h:2"), (piped, b"p:1")]:
            client.send(want(name))
            handlers.append(daemon.handler())
        handlers[1].close_output()
        handlers[2].put(b"ma")
        for _ in range(20):
            daemon.process.send_signal(signal.SIGSTOP)
            until(daemon.is_stopped, "a daemon that is stopped")
            for number in HARMLESS:
                daemon.process.send_signal(number)
            with daemon.client() as other:
                for number in HARMLESS:
                    daemon.process.send_signal(number)
                    other.ask(ask.on_key(8, key))
        cut.put(body[3:])
        got = idle.ask(ask.on_key(8, key)), cut.reply(), [slow.reply() for _ in range(400)] == [b"v" * 32767] * 400, handlers[0].completes()
        handlers[2].put(b"de")
        for handler in handlers:
            handler.ends()
        outcomes = plain.reply(), closed.reply(), piped.reply()
        made = [handlers[at].key for at in (0, 2)]
        payloads = idle.ask(*[ask.on_key(7, key) for key in made])
        want_all = (b"user;1000;valid;k", "E126", True, (0, 0)), (made[0], "E126", made[1]), [b"made", b"made"]
        return differs((got, outcomes, payloads), want_all) or daemon.lives()


def waits_and_dies(program):
    """A handler is killed while it waits for another key, which goes on for its own starter."""
    with Daemon(program, HELD) as daemon, daemon.client() as client, daemon.client() as other:
        other.send(want(b"h:inner"))
        inner = daemon.handler()
        client.send(want(b"h:outer"))
        outer = daemon.handler()
        outer.ask(ask.on_key(3, outer.key))
        outer.send(want(b"h:inner", ring=0))
        outer.is_killed()
        done = inner.completes()
        inner.ends()
        return differs((done, other.reply(), client.reply()), ((0, 0), inner.key, "E126")) or daemon.lives()


def inner_fails(program, how):
    """A handler asks for another key, of which nothing comes: it gets ENOKEY, goes on, and makes its own key."""
    conf = HELD + "create user w:2 * /no/such\ncreate user w:* * %puppet %k\n"
    with asked(program, "--negative", "4000000", conf=conf) as (daemon, client, outer):
        outer.ask(ask.on_key(3, outer.key))
        outer.send(want(b"w:2" if how == "is not started" else b"w:1", ring=-8))
        if how != "is not started":
            inner = daemon.handler()
            first = inner.ask(ask.on_key(3, outer.key), ask.on_key(3, inner.key))
            if how == "rejects":
                inner.ask(ask.reject(inner.key, 1000, 129, 0))
            elif how == "writes no frame":
                inner.put(b"\0\0\0\0")
            elif how == "closes its output":
                inner.close_output()
            inner.is_killed() if how == "is killed" else inner.ends()
        else:
            first = ["E126", 0]
        told = outer.reply(), quiet(client), outer.ask(want(b"w:2" if how == "is not started" else b"w:1", None, 0))
        done = outer.completes()
        outer.ends()
        error = "E129" if how == "rejects" else "E126"
        return differs((first, told, done, client.reply()), (["E126", 0], (error, True, error), (0, 0), outer.key)) or daemon.lives()


def outer_fails(program, how):
    """A handler fails when another key has been made for it: that one stays, and is found by who asks for it."""
    with asked(program, "--negative", "4000000", conf=HELD + "create user w:* * |/bin/cat\n") as (daemon, client, outer):
        made = outer.ask(ask.on_key(3, outer.key), want(b"w:1", ring=-8))
        if how == "closes its input":
            outer.close_input()
            outer.send(ask.on_key(7, made[1]), ask.instantiate(outer.key, b"unheard", 0))
        elif how == "writes no frame":
            outer.put(b"\0\1\0\1")
        outer.is_killed() if how == "is killed" else outer.ends()
        return differs((made, client.reply(), client.ask(want(b"w:1", None, 0))), ([0, 16], "E126", 16)) or daemon.lives()


def followed(program, how):
    """A piped program has failed, and a handler of the line for `negate` follows; what becomes of the key is what that one does."""
    conf = "create user h:* * |/bin/false\nnegate user h:* * %puppet %k\n"
    with asked(program, "--negative", "4000000", conf=conf) as (daemon, client, handler), daemon.client() as other:
        other.send(want())
        waits = quiet(client), quiet(other)
        if how in ["completes", "is killed behind it"]:
            done = handler.completes()
        elif how == "negates":
            done = handler.ask(ask.on_key(3, handler.key)), handler.ask(ask.negate(handler.key, 1000, 0))
        else:
            done = (0, 0)
        handler.is_killed() if how.startswith("is killed") else handler.ends()
        outcomes = client.reply(), other.reply()
        outcome = handler.key if how in ["completes", "is killed behind it"] else "E126"
        want_all = (True, True), (0, 0), (outcome, outcome), {}
        return differs((waits, done, outcomes, daemon.children()), want_all) or daemon.lives()


def not_followed(program):
    """The line for `negate` is not for a piped program that makes its key, nor for a plain handler or a program that can't be started."""
    lines = ["p:* * |/bin/cat", "t:* * /bin/true", "m:* * |/no/such"]
    conf = "".join(f"create user {line}\n" for line in lines) + "negate * * * %room/tells %k\ncreate user f:* * |/bin/false\n"
    with Daemon(program, conf) as daemon, daemon.client() as client:
        daemon.script("tells", '#!/bin/sh\necho "$1" >> %room/told\n')
        replies = client.ask(*[want(name) for name in [b"p:1", b"t:1", b"m:1", b"f:1"]])
        return differs((replies, (daemon.room / "told").read_text()), ([12, "E126", "E126", "E126"], "24\n"))


def warned(program):
    """A session that ends otherwise than by the end of its input is reported in a line of its own, and no other is."""
    with Daemon(program, HELD, "--sessions", "4", "--clients", "5") as daemon:
        with daemon.client(None) as malformed:
            malformed.put(b"\0\1\0\1")
            malformed.rest()
        with daemon.client(None) as reset:
            reset.put(ask.frame(ask.hello(1000, 1000)))
            select.select([reset.socket], [], [])
        with daemon.client() as left:
            left.send(want())
            handler = daemon.handler()
        done = handler.completes()
        handler.ends()
        with daemon.client(None) as cut:
            cut.put(ask.frame(ask.hello(1000, 1000))[:9])
        with daemon.client() as whole:
            whole.ask(want(callout=None))
        status, lines = daemon.end()
        want_lines = ["session 1: what it sent is no frame", "session 2: it could not be read", "session 3: a reply could not be written"]
        fit = sorted(line.partition(" warn: ")[2] for line in lines) == want_lines
        return differs((status, done, fit), (0, (0, 0), True)) and f"{status} {done} {lines}"


def warnings(lines):
    """What the daemon has warned of handlers, without what they were started for, and every other line."""
    return [re.sub(r" \((create|negate) .*?\)(?=: )", "", line.partition(" warn: handler of ")[2]) or line for line in lines]


def told_whole(program):
    """How each handler has ended that gave no key: what it was started for, by which line and program, and why. Nothing else is told of a request."""
    lines = ["x:* * %room/fails", "k:* * |%room/killed", "m:* * /no/such", "d:* * /etc", "n:* * |/bin/true"]
    conf = "# the first line\n" + "".join(f"create user {line}\n" for line in lines)
    with Daemon(program, conf, "--clients", "1", "--log", "info") as daemon:
        daemon.script("fails", "#!/bin/sh\nexit 3\n")
        daemon.script("killed", "#!/bin/sh\nkill -9 $$\n")
        names = [b"x:1", b"k:1", b"m:1", b"d:1", b"n:1", b"none", b'k:"\\\xc3\xa9' + b"y" * 130]
        with daemon.client(7) as client:
            replies = client.ask(*[want(name, b"secret") for name in names])
        status, got = daemon.end()
        room = daemon.room
        strange = "k:\\0042\\0134\\0303\\0251" + "y" * 122 + ".."
        wanted = [
            ("warn", "create", "x:1", f"; line 2, {room}/fails", "exit status 3"),
            ("warn", "create", "k:1", f"; line 3, {room}/killed", "killed by a signal"),
            ("info", "negate", "k:1", "", "no line fits"),
            ("warn", "create", "m:1", "; line 4, /no/such", "start failed: ENOENT, no such file or directory"),
            ("warn", "create", "d:1", "; line 5, /etc", "start failed: EACCES, permission denied"),
            ("warn", "create", "n:1", "; line 6, /bin/true", "exit status 0, and no payload (0 bytes)"),
            ("info", "negate", "n:1", "", "no line fits"),
            ("info", "create", "none", "", "no line fits"),
            ("warn", "create", strange, f"; line 3, {room}/killed", "killed by a signal"),
            ("info", "negate", strange, "", "no line fits"),
        ]
        told = [f'{level}: handler of key ({op} user "{name}", uid 7{line}): {how}' for level, op, name, line, how in wanted]
        return differs((replies, status, [re.sub(r"key [0-9]+", "key", text_of(line)) for line in got]), (["E126"] * len(names), 0, told))


def made_or_not(program):
    """A plain handler that exits with 0 and has not made its key is a warning; one that has made it, or has said that it can't be made, is none. The warning
    says if its output was no request."""
    conf = "create user m:* * %room/makes %k\ncreate user n:* * %room/negates %k\ncreate user l:* * /bin/true\ncreate user g:* * /bin/echo text\n" \
        "create user s:* * %room/says\ncreate user b:* * %room/both %k\n"
    with Daemon(program, conf, "--clients", "1") as daemon:
        daemon.script("makes", '#!/bin/sh\n%ctl assume "$1" && %ctl instantiate "$1" made none\n')
        daemon.script("negates", '#!/bin/sh\n%ctl assume "$1" && %ctl negate "$1" 9 none\n')
        daemon.script("says", '#!/bin/sh\necho text\nexit 3\n')
        daemon.script("both", '#!/bin/sh\n%ctl assume "$1" && %ctl instantiate "$1" made none && echo text\n')
        with daemon.client() as client:
            replies = client.ask(want(b"m:1"), want(b"n:1"), want(b"l:1"), want(b"g:1"), want(b"s:1"), want(b"b:1"))
        status, lines = daemon.end()
        told = [text_of(line) for line in lines if "handler of key" in line]
        wanted = [
            'warn: handler of key 20 (create user "l:1", uid 1000; line 3, /bin/true): exit status 0, and the key was not made',
            'warn: handler of key 24 (create user "g:1", uid 1000; line 4, /bin/echo): exit status 0, and the key was not made; its output is no request',
            f'warn: handler of key 28 (create user "s:1", uid 1000; line 5, {daemon.room}/says): exit status 3; its output is no request',
        ]
        return differs((replies, status, told), ([12, "E126", "E126", "E126", "E126", 32], 0, wanted))


def made_told(program):
    """A handler that has made its key is a line for `--log debug` alone, which tells what it was started for."""
    told = {}
    for level in "info", "debug":
        with Daemon(program, "create user p:* * |/bin/cat\n", "--clients", "1", "--log", level) as daemon:
            with daemon.client() as client:
                reply = client.ask(want(b"p:1"))
            status, lines = daemon.end()
            told[level] = reply, status, [text_of(line) for line in lines if "handler of key" in line]
    line = 'debug: handler of key 12 (create user "p:1", uid 1000; line 1, /bin/cat): exit status 0'
    return differs(told, {"info": (12, 0, []), "debug": (12, 0, [line])})


def piped(program, name, script, want_payload, callout=b"x", warning=None):
    """What a piped program outputs: the payload of its key; or None, and a warning of how it has ended."""
    with Daemon(program, f"create user p:* * |%room/program {name}\n", "--negative", "0", "--clients", "1") as daemon:
        daemon.script("program", f"#!/bin/sh\n{script}\n")
        with daemon.client() as client:
            reply = client.ask(want(b"p:1", callout))
            payload = None if want_payload is None else client.ask(ask.on_key(7, 12))
        status, lines = daemon.end()
        told = [] if warning is None else [f"key 12: {warning}"]
        wanted = ("E126", True, 0, told) if want_payload is None else (12, True, 0, [])
        return differs((reply, payload == want_payload, status, warnings(lines)), wanted)


def not_made(program):
    """Where a line fits and its words can't be made nothing is started, also for negate, and a warning says why; where no line fits, none does. A payload is
    looked for in the rings of the requester alone."""
    words = {"n": "%{user:none}", "t": "%{user:other}", "l": "%{user:b0} %{user:b1} %{user:b2}", "s": "%{user:strange}"}
    conf = "".join(f"create user {name}:* * %room/starts {it}\n" for name, it in words.items())
    conf += "create user f:* * |/bin/false\nnegate * * * %room/starts %{user:none}\n"
    with Daemon(program, conf, "--clients", "2") as daemon:
        daemon.script("starts", "#!/bin/sh\ntouch %room/started\n")
        with daemon.client(1004) as stranger, daemon.client() as client:
            stranger.ask(ask.add(b"user", b"strange", b"v", USER))
            client.ask(ask.add(b"user", b"other", b"\xff", USER), *[ask.add(b"user", b"b%d" % at, b"w" * 32767, USER) for at in range(3)])
            replies = client.ask(*[want(name + b":1") for name in [b"n", b"t", b"l", b"s", b"f", b"o"]])
        status, lines = daemon.end()
        no_key = "X1: an argument %{..} is the payload of a key that the requester doesn't find"
        told = [f"key 40: {no_key}", "key 44: X2: a payload is no text", "key 48: X3: the words are more than 65536 bytes", f"key 52: {no_key}",
                "key 56: exit status 1", f"key 56: {no_key}"]
        return differs((replies, status, warnings(lines), (daemon.room / "started").exists()), (["E126"] * 6, 0, told, False))


def missing(program, line, why):
    """A program that can't be started: whoever asks gets ENOKEY, and a warning says why, once each time."""
    with Daemon(program, f"create user p:* * {line}\n", "--negative", "0", "--clients", "1") as daemon:
        daemon.script("no_script", "")
        (daemon.room / "no_program").write_text("x")
        with daemon.client() as client:
            replies = [client.ask(want(b"p:1")) for _ in range(3)]
        status, lines = daemon.end()
        return differs((replies, status, warnings(lines)), (["E126"] * 3, 0, [f"key {key}: start failed: {why}" for key in [12, 16, 20]]))


def timed(program, bar):
    """A program that would never end, as a plain /bin/cat, is ended by timeout(1) before it: its client gets ENOKEY, and a warning says how it ended."""
    never = "/bin/sleep 1000" if bar else "/bin/cat"
    with Daemon(program, f"create user t:* * {bar}/usr/bin/timeout 1 {never}\n", "--clients", "1") as daemon:
        with daemon.client() as client:
            reply = client.ask(want(b"t:1"))
        status, lines = daemon.end()
        return differs((reply, status, warnings(lines)), ("E126", 0, ["key 12: exit status 124"]))


def ends_unknown(program):
    """Where SIGCHLD is ignored nobody learns how a program has ended: a piped one makes no key, a plain one has made its own, and the daemon goes on."""
    conf = "create user c:* * |/bin/cat\ncreate user h:* * %room/handler %k\n"
    with Daemon(program, conf, ignored=signal.SIGCHLD) as daemon, daemon.client() as client:
        daemon.script("handler", '#!/bin/sh\nexec 2> /dev/null\n%ctl assume "$1" && %ctl instantiate "$1" made none\n')
        return differs(client.ask(want(b"c:1"), want(b"h:1")), ["E126", 16]) or daemon.lives()


def chain(program):
    """Handlers that ask for one another's keys, eight deep; a ninth is refused. Then a circle is."""
    with Daemon(program, HELD, "--sessions", "1") as daemon, daemon.client() as client:
        client.send(want(b"h:0"))
        handlers = []
        for at in range(1, 9):
            handlers.append(daemon.handler())
            handlers[-1].ask(ask.on_key(3, handlers[-1].key))
            if at < 8:
                handlers[-1].send(want(b"h:%d" % at, ring=0))
        last = handlers[-1]
        refusals = last.ask(want(b"h:8", ring=0)), last.ask(want(b"h:3", ring=0)), last.ask(want(b"h:7", ring=0))
        outcomes = []
        for handler in reversed(handlers):
            outcomes.append(handler.ask(ask.instantiate(handler.key, b"v", 0)))
            handler.ends()
            if handler is not handlers[0]:
                outcomes.append(handlers[handlers.index(handler) - 1].reply())
        keys = [handler.key for handler in handlers]
        wanted = [it for key in reversed(keys[1:]) for it in (0, key)] + [0]
        return differs((refusals, keys, outcomes, client.reply()), (("E122", "E35", "E35"), list(range(12, 44, 4)), wanted, 12))


def many_wait(program):
    """Many who ask for one key are one start and get one outcome."""
    with Daemon(program, HELD) as daemon:
        clients = [daemon.client() for _ in range(20)]
        clients[0].send(want())
        handler = daemon.handler()
        for client in clients[1:]:
            client.send(want(callout=b"another"))
        handler.ask(ask.on_key(3, handler.key), ask.reject(handler.key, 4000, 129, 0))
        others = [client.reply() for client in clients[1:]]
        handler.ends()
        return differs(([clients[0].reply(), *others], len(daemon.children())), (["E129"] * 20, 0))


def many_wait_in_vain(program, how):
    """Many who wait for a key whose handler ends without having completed it: each gets ENOKEY, and nothing is started again."""
    with Daemon(program, HELD, "--negative", "4000000") as daemon:
        clients = [daemon.client() for _ in range(21)]
        clients[0].send(want())
        handler = daemon.handler()
        for client in clients[1:]:
            client.send(want(callout=b"another"))
        handler.ask(ask.on_key(3, handler.key))
        # (each has asked before this one)
        state = daemon.client().ask(ask.on_key(8, handler.key))
        held = all(map(quiet, clients))
        handler.is_killed() if how == "is killed" else handler.ends(3)
        replies = [client.reply() for client in clients]
        later = daemon.client().ask(want())
        want_all = b"user;1000;building;h:1", True, ["E126"] * 21, "E126", {}
        return differs((state, held, replies, later, daemon.children()), want_all) or daemon.lives()


def reads_to_the_end(program):
    """A plain handler closes its output and reads its input to the end, which is there for it: only then does it exit."""
    conf = "create user s:* * %room/handler %k\n"
    with Daemon(program, conf) as daemon, daemon.client() as client:
        makes = '%ctl assume "$1" 2> /dev/null && %ctl instantiate "$1" made none 2> /dev/null'
        daemon.script("handler", f"#!/bin/sh\n{makes}\nexec >&-\ncat > %room/rest\nexit 5\n")
        reply = client.ask(want(b"s:1"))
        return differs((reply, (daemon.room / "rest").read_bytes(), daemon.children()), (12, b"", {})) or daemon.lives()


def each_outcome_wakes(program, uid, key):
    """Who waits for the key of another one gets its outcome by the step that gives it: by each ask that completes a key while its handler goes on, or by the
    end of a handler that has not completed it. The first key is this one, in the hall of this uid."""
    asks = [lambda key: ask.instantiate(key, b"made", 0), lambda key: ask.negate(key, 4000, 0), lambda key: ask.reject(key, 4000, 129, 0), None]
    told = []
    with Daemon(program, HELD) as daemon, daemon.client(uid) as first, daemon.client(uid) as waiter:
        for at, completing in enumerate(asks):
            name = f"h:{at}".encode()
            first.send(want(name))
            handler = daemon.handler()
            waiter.send(want(name))
            handler.ask(ask.on_key(3, handler.key))
            if completing:
                handler.ask(completing(handler.key))
                told.append(waiter.reply())
            handler.ends()
            if not completing:
                told.append(waiter.reply())
            told.append(first.reply())
        return differs(told, [key, key, "E126", "E126", "E129", "E129", "E126", "E126"])


def second_start_fails(program):
    """Who waits for the key of another one gets its outcome, too, where a piped program has failed and the one that is to follow can't be started."""
    conf = "create user p:* * |%room/fails\nnegate user p:* * /no/such\n"
    with Daemon(program, conf) as daemon, daemon.client() as first, daemon.client() as waiter:
        daemon.script("fails", "#!/bin/sh\nread line < %room/gate\nexit 1\n")
        os.mkfifo(daemon.room / "gate")
        first.send(want(b"p:1"))
        with open(daemon.room / "gate", "wb", buffering=0) as gate:
            waiter.send(want(b"p:1"))
            waits = quiet(waiter)
            gate.write(b"\n")
        return differs((waits, first.reply(), waiter.reply()), (True, "E126", "E126"))


def nothing_left(program):
    """After a hundred handlers of every kind there is no descriptor and no child left."""
    conf = "create user c:* * |/bin/cat\ncreate user f:* * |/bin/false\ncreate user s:* * %room/handler %k\ncreate user m:* * /no/such\n"
    conf += "create user g:* * /bin/echo garbage\nnegate user f:* * /bin/true\n"
    with Daemon(program, conf, "--sessions", "4") as daemon, daemon.client() as client:
        daemon.script("handler", '#!/bin/sh\nexec 2> /dev/null\n%ctl assume "$1" && %ctl instantiate "$1" made none\n')
        with daemon.client() as other:
            other.ask(want(b"c:first"))
        before = daemon.settled(2)
        wrong = []
        for at in range(100):
            kind = "cfsmg"[at % 5]
            reply = client.ask(want(f"{kind}:{at}".encode()))
            if isinstance(reply, int) != (kind in "cs"):
                wrong.append((kind, at, reply))
        daemon.has_left(before)
        return differs(wrong, [])


def cases():
    for try_it in [client_killed, all_clients_killed, again_after, completed_and_killed, daemon_killed, terminated, no_asks, child_goes_on, replies_unread,
                   told_whole, handler_leaves, stopped, signalled, waits_and_dies, not_followed, not_made, made_or_not, made_told, warned, ends_unknown, chain,
                   many_wait, reads_to_the_end, second_start_fails, nothing_left]:
        yield try_it.__name__.replace("_", " "), try_it
    for uid, key in [(1000, 16), (1001, 13)]:
        yield f"each outcome wakes who waits, of uid {uid}", each_outcome_wakes, uid, key
    for how in ["is killed", "ends"]:
        yield f"many wait for a handler that {how} without completing", many_wait_in_vain, how
    for how in ["is killed", "ends", "rejects", "writes no frame", "closes its output", "is not started"]:
        yield f"a handler that is asked for by another one and {how}", inner_fails, how
    for how in ["is killed", "ends", "closes its input", "writes no frame"]:
        yield f"a handler that has asked for a key and {how}", outer_fails, how
    for how in ["completes", "negates", "ends", "is killed", "is killed behind it"]:
        yield f"a handler for negate that {how}", followed, how
    for negative in ["0", "4294967295"]:
        yield f"a handler that is killed, negative for {negative}", handler_killed, negative
    for data in [b"\0\0\0\0", b"\0\1\0\1", b"\xff" * 9, b"garbage\n"]:
        yield f"a handler that writes {data!r}", garbage, data
    for after in [False, True]:
        yield f"output closed, complete {after}", closes_output, after
    for bar in ["", "|"]:
        yield f"{bar}timeout before a program that never ends", timed, bar
    waits = "read line < %room/gate; echo more"
    yield "a piped program whose child has its output", child_keeps, waits, False, b"made\nmore\n"
    yield "a piped program whose child has its input", child_keeps, f"exec > /dev/null; {waits}", True, b"made\n"
    big = "head -c {} /dev/zero | tr '\\0' p".format
    nothing, too_much = [f"exit status 0, and no payload ({it})" for it in ["0 bytes", "more than 32767 bytes"]]
    for name, script, payload, *more in [
        ("ignores its input", "echo made", b"made\n", b"c" * 4095),
        ("closes its input", "exec < /dev/null; echo made", b"made\n", b"c" * 4095),
        ("has all of its input", "cat", b"c" * 4095, b"c" * 4095),
        ("has an empty callout", "wc -c", b"0\n", b""),
        ("outputs 32,767 bytes", big(32767), b"p" * 32767),
        ("outputs 32,768 bytes", big(32768), None, b"x", too_much),
        ("outputs ten million bytes", big(10_000_000), None, b"x", too_much),
        ("outputs one byte", "printf x", b"x"),
        ("outputs nothing", ":", None, b"x", nothing),
        ("outputs nothing and fails", "exit 1", None, b"x", "exit status 1"),
        ("outputs any bytes", "printf '\\000\\377\\n'", b"\0\xff\n"),
        ("exits with 1", "echo made; exit 1", None, b"x", "exit status 1"),
        ("exits with 255", "echo made; exit 255", None, b"x", "exit status 255"),
        ("is killed", "echo made; kill -9 $$", None, b"x", "killed by a signal"),
        ("closes its output and exits", "echo made; exec >&-; exit 0", b"made\n"),
        ("closes its output and fails", "echo made; exec >&-; exit 7", None, b"x", "exit status 7"),
        ("has no other descriptor", "ls /proc/self/fd | tr '\\n' ' '", b"0 1 2 3 "),
        ("outputs in pieces", "for at in 1 2 3 4 5 6 7 8; do printf $at; done", b"12345678"),
    ]:
        yield f"a piped program that {name}", piped, name.split()[0], script, payload, *more
    none, no_folder, denied = "ENOENT, no such file or directory", "ENOTDIR, not a directory", "EACCES, permission denied"
    for line, why in [("/no/such", none), ("|/no/such", none), ("/", denied), ("|/tmp", denied), ("%room/no_program", denied), ("|%room/no_program", denied),
                      ("%room/no_script/x", no_folder)]:
        yield f"the line {line}", missing, line, why
