"""Keys that are made and used by runs of reqkeyctl, as a shell calls them."""
import os
import re
import signal

import protocol_peer as ask
from daemon import Daemon, until
from programs import differs, top

SCRIPT = '#!/bin/sh\n%ctl assume "$1" && %ctl instantiate "$1" made none\n'
LONGER = '#!/bin/sh\n%ctl assume "$1" && %ctl timeout "$1" 3600 && %ctl read auth && %ctl request user none none\n%ctl instantiate "$1" made none\n'
USER = ["--uid", "1000"]


def printed(number):
    return 0, f"{number}\n".encode(), b""


def refused(errno):
    return 1, b"", f"errno {errno}\n".encode()


def first(program):
    """A key that /bin/cat makes, two runs, and the end."""
    with Daemon(program, "create user p:* * |/bin/cat\n", "--clients", "2") as daemon:
        made = daemon.control(*USER, "request", "user", "p:1", "user", "hello")
        read = daemon.control(*USER, "read", "12")
        return differs((made, read, daemon.end(), daemon.path.exists()), (printed(12), printed("hello"), (0, []), False))


def scripted(program, script=SCRIPT, said=("0", "0"), environment=None):
    """A plain handler that is a shell script."""
    with Daemon(program, "create user s:* * %room/handler %k\n", "--clients", "2", environment=environment) as daemon:
        daemon.script("handler", script)
        made = daemon.control(*USER, "request", "user", "s:1", "user", "x")
        read = daemon.control(*USER, "read", "12")
        return differs((made, read, daemon.end()), (printed(12), printed("made"), (0, [*said])))


def astray(program):
    """A handler that is a shell script speaks to its own daemon, whatever it asks and whatever socket the daemon's environment names; with `--quiet` it leaves
    no line but a refusal."""
    return scripted(program, LONGER.replace("%ctl", "%ctl --quiet"), ("errno 126",), {"REQKEYD_SOCKET": "/dev/null/none"})


def looked_for(program):
    """`list` prints the keys of a user in the order of their serials, and `sweep` unlinks what is dead; no other user's."""
    with Daemon(program, "create user p:* * |/bin/cat\n") as daemon:
        for uid, name in [("1000", "p:1"), ("1000", "p:2"), ("1000", "p:3"), ("1000", "none"), ("1004", "p:4")]:
            daemon.control("--uid", uid, "request", "user", name, "user", "hello")
        serials = [line.split()[0].decode() for line in daemon.control(*USER, "list")[1].splitlines()]
        daemon.control(*USER, "revoke", serials[1])
        listed = daemon.control(*USER, "list")
        swept = [daemon.control(*USER, "sweep"), daemon.control(*USER, "sweep"), daemon.control("--uid", "1004", "sweep")]
        left = daemon.control(*USER, "list")
        states = [("p:1", "valid"), ("p:2", "revoked"), ("p:3", "valid"), ("none", "negative")]
        lines = [f"{serial} user;1000;{state};{name}\n".encode() for serial, (name, state) in zip(serials, states)]
        want = (0, b"".join(lines), b""), [printed(2), printed(0), printed(0)], (0, lines[0] + lines[2], b"")
        return differs((listed, swept, left), want)


def far_apart(program):
    """The first and the last of a thousand serials are found, and swept."""
    with Daemon(program) as daemon:
        first = daemon.control(*USER, "add", "user", "first", "v", "user")[1].strip().decode()
        daemon.client().ask(*[ask.add(b"user", b"other", b"v", -3)] * 1000)
        last = daemon.control(*USER, "add", "user", "last", "v", "user")[1].strip().decode()
        daemon.control(*USER, "revoke", last)
        listed, swept, left = [daemon.control(*USER, word) for word in ["list", "sweep", "list"]]
        lines = [f"{first} user;1000;valid;first\n".encode(), f"{last} user;1000;revoked;last\n".encode()]
        want = (0, b"".join(lines), b""), printed(1), (0, lines[0], b""), True
        return differs((listed, swept, left, int(last) - int(first) > 4000), want)


def crowded_out(program):
    """Two hundred names that failed leave a uid no new key, and another uid is not concerned; a sweep gives the places back."""
    with Daemon(program, "create user p:* * |/bin/cat\n") as daemon:
        client, other = daemon.client(), daemon.client(1004)
        failed = client.ask(*[ask.request(b"user", b"n:%d" % at, b"x", -4) for at in range(200)])
        wanted = ask.request(b"user", b"p:1", b"x", -4)
        full, made = client.ask(wanted), other.ask(wanted)
        swept = daemon.control(*USER, "sweep")
        got = failed, full, isinstance(made, int), swept, isinstance(client.ask(wanted), int)
        return differs(got, (["E126"] * 200, "E122", True, printed(200), True))


def nested(program):
    """A handler that has another key made, in the ring of its requester."""
    with Daemon(program, "create user s:* * %room/handler %k\ncreate user n:* * %room/nesting %k\n", "--clients", "4") as daemon:
        daemon.script("handler", SCRIPT)
        daemon.script("nesting", '#!/bin/sh\n%ctl assume "$1" && %ctl request user s:1 none x && %ctl instantiate "$1" outer none\n')
        made = daemon.control(*USER, "request", "user", "n:1", "user", "x")
        got = [daemon.control(*USER, "read", key) for key in ["12", "16"]]
        found = daemon.control(*USER, "request", "user", "s:1", "none")
        want = printed(12), [printed("outer"), printed("made")], printed(16), (0, ["0", "0", "0", "16", "0"])
        return differs((made, got, found, daemon.end()), want)


def negated(program):
    """A piped program that fails is followed by the line for `negate`, whose program decides."""
    conf = "create user c:* * |/bin/false\ncreate user k:* * |%room/dies\nnegate user c:* * |%room/negate %k %o\nnegate * * * %room/gives %k\n"
    with Daemon(program, conf) as daemon:
        daemon.script("negate", f'#!/bin/sh\necho "$2" > %room/op\n%ctl assume "$1" && %ctl reject "$1" 4000000000 129 none\n')
        daemon.script("gives", '#!/bin/sh\n%ctl assume "$1" && %ctl instantiate "$1" instead none\n')
        daemon.script("dies", "#!/bin/sh\necho half\nkill -9 $$\n")
        got = [daemon.control(*USER, "request", "user", name, "user", "x") for name in ["c:1", "c:1", "k:1"]]
        status, key, _ = got[2]
        read = daemon.control(*USER, "read", key.decode().strip())
        told = (daemon.room / "op").read_text()
        return differs((got[:2], status, read, told), ([refused(129)] * 2, 0, printed("instead"), "negate\n"))


def macros(program):
    """The words of a handler, and where it runs: in hall 0, and in another hall, whose own keys are found there."""
    conf = "create user * * %room/words %o %k %t %d %c %u %g %T %P %S %{user:other} %%k x%k\n"
    for uid, ring, key in ((1000, 4, 16), (1001, 1, 13)):
        with Daemon(program, conf) as daemon:
            daemon.script("words", '#!/bin/sh\nfor word in "$@"; do echo "$word"; done > %room/words.txt\n')
            with daemon.client(uid) as client:
                client.ask(ask.add(b"user", b"other", b"a payload", -4))
                outcome = client.ask(ask.request(b"user", b"m:1", b"a callout", -4))
            words = (daemon.room / "words.txt").read_text().split("\n")[:-1]
            want = ["create", f"{key}", "user", "m:1", "a callout", f"{uid}", f"{uid}", "0", "0", f"{ring}", "a payload", "%k", "x%k"]
            wrong = differs((outcome, words), ("E126", want))
            if wrong:
                return f"uid {uid}: {wrong}"
    return None


def expired(program):
    """The payload of a key that has expired is no word of a command: no handler starts."""
    with Daemon(program, "create user m:* * %room/starts %{user:other}\n") as daemon, daemon.client() as client:
        daemon.script("starts", "#!/bin/sh\ntouch %room/started\n")
        key = client.ask(ask.add(b"user", b"other", b"a payload", -4))
        client.ask(ask.timeout(key, 1))
        read = until(lambda: (now := client.ask(ask.on_key(7, key))) != b"a payload" and now, "the expiry of the key")
        outcome = client.ask(ask.request(b"user", b"m:1", b"x", -4))
        return differs((read, outcome, (daemon.room / "started").exists()), ("E127", "E126", False))


def as_client(program):
    """Each subcommand over the socket, with a reply and with a refusal."""
    with Daemon(program, "create user p:* * |/bin/cat\n") as daemon:
        def run(*words, **more):
            return daemon.control(*USER, *words, **more)

        wrong = differs(run("hello"), printed("0 0 4 8"))
        wrong = wrong or differs(run("--join", "96", "hello"), refused(126))
        status, key, _ = run("add", "user", "k", "v", "user")
        key = key.decode().strip()
        wrong = wrong or differs((status, key), (0, "16"))
        good = [
            (["read", key], "v"), (["--raw", "read", key], b"v"), (["describe", key], "user;1000;valid;k"), (["request", "user", "k", "none"], key),
            (["link", key, "session"], 0), (["timeout", key, "4000000000"], 0), (["timeout", key, "0"], 0), (["default", "keep"], 0),
            (["default", "user"], 0), (["default", "requestor"], 0), (["assume", "0"], 0), (["clear", "session"], 0), (["revoke", key], 0),
            (["describe", key], "user;1000;revoked;k"), (["unlink", key, "user"], 0), (["clear", "user"], 0),
        ]
        for words, want in good:
            wrong = wrong or (differs(run(*words), (0, want, b"") if isinstance(want, bytes) else printed(want)) and f"{words}: {run(*words)}")
        bad = [
            (["--join", "8", "hello"], 13), (["request", "user", "none", "none"], 126), (["request", "user", "q", "none", "x"], 126),
            (["request", "user", "k", "thread", "x"], 126), (["assume", "99"], 126), (["instantiate", "99", "v", "none"], 1),
            (["negate", "99", "1", "none"], 1), (["reject", "99", "1", "129", "none"], 1), (["read", "96"], 126), (["read", key], 126),
            (["read", "0"], 22), (["read", "auth"], 126), (["describe", "96"], 126), (["revoke", "96"], 126), (["timeout", "96", "1"], 126),
            (["link", "96", "user"], 126), (["unlink", "96", "user"], 126), (["clear", "thread"], 126), (["clear", "none"], 126), (["clear", "8"], None),
            (["add", "user", "k", "v", "thread"], 126), (["callout"], 126), (["read", "97"], 126), (["link", "97", "user"], 126),
        ]
        for words, errno in bad:
            got = run(*words)
            wrong = wrong or (differs(got, refused(errno) if errno else printed(0)) and f"{words}: {got}")
        wrong = wrong or differs(daemon.control("--uid", "1001", "read", "8"), refused(126))
        many = bytes(range(256)) * 100
        status, key, _ = run("--payload-from", "-", "add", "user", "many", "user", input=many)
        wrong = wrong or differs(run("--raw", "read", key.decode().strip()), (0, many, b""))
        status, key, _ = run("--callout-from", "-", "request", "user", "p:c", "user", input=b"a callout\n")
        return wrong or differs(run("--raw", "read", key.decode().strip()), (0, b"a callout\n", b""))


def joined(program):
    """A session ring that a client of Python has, and one run joins; another uid may not."""
    with Daemon(program) as daemon, daemon.client() as client:
        ring = client.rings[2]
        key = client.ask(ask.add(b"user", b"k", b"v", -3))
        got = [
            daemon.control(*USER, "--join", str(ring), "hello"),
            daemon.control(*USER, "--join", str(ring), "read", str(key)),
            daemon.control(*USER, "read", str(key)),
            daemon.control("--uid", "1004", "--join", str(ring), "hello"),
            daemon.control("--uid", "1001", "--join", str(ring), "hello"),
        ]
        return differs(got, [printed(f"0 0 {ring} 8"), printed("v"), refused(13), refused(13), refused(126)])


def as_handler(program):
    """Each subcommand in a handler, with a reply and with a refusal."""
    runs = [
        ("read 12", "errno 13"), ("default thread", "errno 13"), ("assume 16", "errno 126"), ("assume 12", "0"), ("callout", "a callout"),
        ("read auth", "a callout"), ("hello", "errno 22"),
        ("describe 12", "user;1000;building;h:1"), ("read 12", "errno 16"), ("link 12 session", "0"), ("unlink 12 session", "0"),
        ("add user other v requestor", "16"), ("read 16", "v"), ("timeout 16 4000000000", "0"), ("revoke 16", "0"), ("read 16", "errno 128"),
        ("request user h:1 none x", "errno 35"), ("request user none none", "errno 126"), ("default thread", "0"), ("default keep", "1"),
        ("clear thread", "errno 126"), ("assume 0", "0"), ("callout", "errno 13"), ("assume 12", "0"), ("instantiate 16 v none", "errno 1"),
        ("instantiate 12 v 99", "errno 126"), ("instantiate 12 v none", "0"), ("instantiate 12 v none", "errno 13"), ("assume 12", "errno 128"),
    ]
    with Daemon(program, "create user h:* * %room/handler\n") as daemon:
        daemon.script("handler", "#!/bin/sh\nexec 2> %room/told\n" + "".join(f"%ctl {words}\n" for words, _ in runs))
        made = daemon.control(*USER, "request", "user", "h:1", "user", "a callout")
        lines = (daemon.room / "told").read_text().split("\n")[:-1]
        wrong = [f"{words}: {got}, not {want}" for (words, want), got in zip(runs, lines) if got != want]
        return differs((made, wrong, len(lines)), (printed(12), [], len(runs)))


def decided(program):
    """Handlers that negate and reject their keys by a run each, and can't decide twice."""
    with Daemon(program, "create user n:* * %room/handler %k negate 4000000000\ncreate user r:* * %room/handler %k reject 4000000000 128\n") as daemon:
        run = '%ctl assume "$1"\n%ctl $2 "$1" $3 $4 user\n%ctl $2 "$1" $3 $4 user\n'
        daemon.script("handler", f"#!/bin/sh\nexec 2>> %room/told\n{run}")
        got = []
        # each run makes a session ring
        for name, key in [("n:1", "12"), ("r:1", "28")]:
            got += [daemon.control(*USER, *words) for words in [("request", "user", name, "user", "x"), ("request", "user", name, "none"), ("describe", key)]]
        lines = (daemon.room / "told").read_text().split("\n")[:-1]
        want = [refused(126), refused(126), printed("user;1000;negative;n:1"), refused(128), refused(128), printed("user;1000;negative;r:1")]
        return differs((got, lines), (want, ["0", "0", "errno 13"] * 2))


def of_the_daemon(program):
    """A handler has the daemon's environment and folder, and SIGPIPE ends it, as a program that a shell starts. Only a plain one is told of no socket."""
    environment = {"OF_THE_DAEMON": "a word", "REQKEYD_SOCKET": "/s"}
    with Daemon(program, "create user p:* * |%room/handler\n", environment=environment) as daemon, daemon.client() as client:
        daemon.script("handler", '#!/bin/sh\necho "$OF_THE_DAEMON $REQKEYD_SOCKET"\npwd -P\nyes 2>&1 | head -n 1\ngrep SigIgn /proc/self/status\n')
        key = client.ask(ask.request(b"user", b"p:1", b"x", -4))
        *lines, ignored = client.ask(ask.on_key(7, key)).decode().split("\n")[:-1]
        is_ignored = int(ignored.split("\t")[1], 16) >> signal.SIGPIPE - 1 & 1
        return differs((key, lines, is_ignored), (12, ["a word /s", os.path.realpath("."), "y"], 0))


def expires_for_all(program):
    """A key expires by one clock for all: once one client gets that, another one that has come before it was added or that comes then gets it too."""
    with Daemon(program) as daemon, daemon.client() as early, daemon.client() as client:
        lasting, key = client.ask(*[ask.add(b"user", name, b"v", -4) for name in (b"lasting", b"k")])
        client.ask(ask.timeout(lasting, 4_000_000), ask.timeout(key, 1))
        until(lambda: client.ask(ask.on_key(7, key)) == "E127", "the end of the key")
        read = ask.on_key(7, key), ask.on_key(7, lasting)
        replies = [it.ask(*read) for it in (early, daemon.client(), daemon.client(1000, client.rings[2]))]
        return differs(replies, [["E127", b"v"]] * 3) or daemon.lives()


def document(program):
    """The example of docs/PROTOCOL.md, byte by byte."""
    page = (top / "docs" / "PROTOCOL.md").read_text().partition("## An example")[2]
    lines = [(way, bytes.fromhex(words.split("  ")[0])) for way, words in re.findall(r"^(->|<-) (.*)$", page, re.MULTILINE)]
    with Daemon(program, "create * * * %puppet %k\n") as daemon, daemon.client(None) as client:
        speaker, handler, wrong = client, None, None
        for way, data in lines:
            if way == "->" and data[4] in [3, 4] and handler is None:
                handler = speaker = daemon.handler()
            if way == "->" and data[4] not in [3, 4]:
                speaker = client
            if way == "->":
                speaker.put(data)
            else:
                if speaker is handler and data == bytes.fromhex("00000005000000000c"):
                    handler.ends()
                    speaker = client
                wrong = wrong or differs(speaker.take(len(data)), data)
        return wrong or differs(len(lines), 10)


def cases():
    yield from [
        ("two runs and the end", first), ("a script as a handler", scripted), ("a handler that is led astray", astray),
        ("keys that are listed and swept", looked_for), ("keys far apart", far_apart), ("two hundred names that failed", crowded_out),
        ("a nested request", nested), ("a line for negate", negated), ("keys that are decided otherwise", decided),
        ("what a handler has of the daemon", of_the_daemon), ("macros", macros), ("a macro of a key that has expired", expired),
        ("a key that expires for all", expires_for_all), ("each subcommand", as_client), ("a session ring that is joined", joined),
        ("each subcommand in a handler", as_handler), ("the example of the protocol", document),
    ]
