#!/usr/bin/env python3
"""Calls `reqkeyctl` with words: over a socket, on which a daemon in Python answers, and as a handler, between pipes.

Each subcommand: without arguments, with bad ones, and with good ones, whose frame is compared byte by byte. Then the options, every kind of reply, and
replies that are cut, too long, malformed, or come byte by byte.
"""
import contextlib
import os
import pathlib
import shutil
import socket
import subprocess
import sys
import tempfile

import protocol_peer as peer
from compiled import library
from programs import built, check_all, differs, lacks, ran, top, version

sys.path.insert(0, str(top / "tools"))
from messages import ERRNOS

# what a subcommand is called with, and the body of its ask
GOOD = [
    (["hello"], peer.hello()),
    (["request", "user", "a", "none"], peer.request(b"user", b"a", None, 0)),
    (["request", "user", "a", "none", ""], peer.request(b"user", b"a", b"", 0)),
    (["request", "user", "a", "5", "-"], peer.request(b"user", b"a", b"-", 5)),
    (["request", "u" * 31, "d" * 4095, "requestor", "c" * 4095], peer.request(b"u" * 31, b"d" * 4095, b"c" * 4095, -8)),
    (["request", "café", "--help", "thread", "-h"], peer.request("café".encode(), b"--help", b"-h", -1)),
    (["assume", "3"], peer.on_key(3, 3)),
    (["assume", "0"], peer.on_key(3, 0)),
    (["assume", "2147483647"], peer.on_key(3, 2147483647)),
    (["instantiate", "3", "hi", "none"], peer.instantiate(3, b"hi", 0)),
    (["instantiate", "auth", "-", "session"], peer.instantiate(-7, b"-", -3)),
    (["instantiate", "3", "--raw", "0"], peer.instantiate(3, b"--raw", 0)),
    (["instantiate", "3", "p" * 32767, "none"], peer.instantiate(3, b"p" * 32767, 0)),
    (["negate", "3", "30", "none"], peer.negate(3, 30, 0)),
    (["negate", "3", "4294967295", "user"], peer.negate(3, 4294967295, -4)),
    (["reject", "3", "0", "126", "none"], peer.reject(3, 0, 126, 0)),
    (["reject", "3", "007", "129", "7"], peer.reject(3, 7, 129, 7)),
    (["read", "3"], peer.on_key(7, 3)),
    (["read", "auth"], peer.on_key(7, -7)),
    (["describe", "12"], peer.on_key(8, 12)),
    (["revoke", "12"], peer.on_key(9, 12)),
    (["timeout", "12", "0"], peer.timeout(12, 0)),
    (["link", "12", "process"], peer.on_key_and_ring(11, 12, -2)),
    (["unlink", "12", "1"], peer.on_key_and_ring(12, 12, 1)),
    (["clear", "user"], peer.clear(-4)),
    (["clear", "none"], peer.clear(0)),
    *[(["default", word], peer.default(value)) for word, value in
      [("keep", -1), ("default", 0), ("thread", 1), ("process", 2), ("session", 3), ("user", 4), ("requestor", 7)]],
    (["add", "user", "k", "v", "session"], peer.add(b"user", b"k", b"v", -3)),
    (["add", "user", "k", "-", "session"], peer.add(b"user", b"k", b"-", -3)),
    (["add", "user", "k", "p" * 32767, "1"], peer.add(b"user", b"k", b"p" * 32767, 1)),
    (["callout"], peer.CALLOUT),
]

# what only a handler asks
HANDLERS = ["assume", "instantiate", "negate", "reject", "default", "callout"]
# one call of each subcommand
ONE_EACH = list({words[0]: (words, ask) for words, ask in reversed(GOOD)}.values())

# usage errors, besides each subcommand with fewer arguments and with one more
BAD = [
    [], ["nothing"], ["READ", "3"], ["read", "x"], ["read", ""], ["read", "-7"], ["read", "+3"], ["read", "-1"], ["read", "2147483648"], ["read", "none"],
    ["read", "3 "], ["read", "0x3"], ["request", ".x", "a", "none"], ["request", "", "a", "none"], ["request", "u" * 32, "a", "none"],
    ["request", "user", "", "none"], ["request", "user", "d" * 4096, "none"], ["request", "user", "a", "auth"], ["request", "user", "a", "nowhere"],
    ["request", "user", "a", "none", "c" * 4096], ["assume", "session"], ["instantiate", "3", "", "none"], ["instantiate", "3", "p" * 32768, "none"],
    ["instantiate", "3", "v", "keep"], ["negate", "3", "4294967296", "none"], ["negate", "3", "-1", "none"], ["negate", "3", "soon", "none"],
    ["reject", "3", "0", "125", "none"], ["reject", "3", "0", "130", "none"], ["reject", "3", "0", "ENOKEY", "none"], ["timeout", "3", "x"],
    ["link", "3", "-1"], ["unlink", "x", "1"], ["clear", "-3"], ["default", "0"], ["default", "none"], ["default", "group"],
    ["add", "user", "k", "v", "x"], ["--", "read", "3"], ["--nothing", "read", "3"], ["-s", "x", "read", "3"], ["--sock", "x", "read", "3"],
    ["--uid", "+1", "read", "3"], ["--uid", "-1", "read", "3"], ["--uid", "4294967296", "read", "3"], ["--uid", "", "read", "3"], ["--uid", "read", "3"],
    ["--gid", "x", "read", "3"], ["--timeout", "x", "read", "3"], ["--timeout", "4294967296", "read", "3"], ["--timeout", "1", "--timeout=1", "read", "3"],
    ["--timeout", "1"], ["--join", "2147483648", "read", "3"], ["--uid", "1", "--uid", "1", "read", "3"], ["--raw", "--raw", "read", "3"],
    ["--raw=1", "read", "3"], ["--raw=", "read", "3"], ["--uid=", "read", "3"], ["--socket", "a", "--socket=b", "read", "3"], ["--socket"],
    ["--socket", "s"], ["--uid=1"], ["--payload-from", "f", "read", "3"], ["--callout-from", "f", "instantiate", "3", "none"],
    ["--payload-from", "-", "instantiate", "3", "none"], ["--callout-from", "-", "request", "user", "a", "none"],
    ["--payload-from", "f", "instantiate", "3", "v", "none"],
    ["--payload-from", "f", "instantiate", "none"], ["--payload-from", "f", "instantiate", "x", "none"],
    ["--callout-from", "f", "request", "user", "a", "none", "c"], ["--callout-from", "f", "request", "user", "a"],
    ["--callout-from", "f", "--payload-from", "f", "request", "user", "a", "none"], ["--payload-from", "f", "hello"], [b"\xff"],
    ["add", "user", b"\xff", "v", "1"],
]

# a reply, what is printed of it, and under --raw
REPLIES = [
    (peer.number(0), b"0\n", b"0\n"),
    (peer.number(4294967295), b"4294967295\n", b"4294967295\n"),
    (peer.rings(0, 0, 1, 2), b"0 0 1 2\n", b"0 0 1 2\n"),
    (peer.rings(4294967295, 10, 0, 7), b"4294967295 10 0 7\n", b"4294967295 10 0 7\n"),
    (peer.data(b"hi"), b"hi\n", b"hi"),
    (peer.data(b""), b"\n", b""),
    (peer.data(b"\x00\xff\n"), b"\x00\xff\n\n", b"\x00\xff\n"),
    (peer.data(b"p" * 32767), b"p" * 32767 + b"\n", b"p" * 32767),
    (peer.data(bytes(65533)), bytes(65533) + b"\n", bytes(65533)),
]

# bytes that begin with no reply
MALFORMED = {
    **peer.NO_REPLY,
    "a number that is cut": peer.frame(b"\x00\x00\x00\x00"),
    "a number that goes on": peer.frame(peer.number(1) + b"\x00"),
    "bytes that are cut": peer.frame(b"\x01\x00\x03hi"),
    "bytes that go on": peer.frame(peer.data(b"hi") + b"\x00"),
    "too many bytes": peer.frame(b"\x01\xff\xfe" + bytes(65533)),
    "three rings": peer.frame(b"\x02" + bytes(12)),
}

# bytes that end before a reply does
CUT = {f"{cut} bytes of {len(whole)}": whole[:cut] for whole in [peer.frame(peer.data(b"hi"))] for cut in range(len(whole))}

RINGS, SEVEN = peer.rings(0, 0, 1, 2), peer.number(7)
SOCKET, FILE, OUTPUT = b"reqkeyctl: socket\n", b"reqkeyctl: file\n", b"reqkeyctl: output\n"

GONE, NO_REPLY = "the peer is gone", "the peer sent no reply"
STREAMS = b"reqkeyctl: socket\n  standard input and output: no reply came, since one of them ended or failed\n"
NO_REPLY_IN = b"reqkeyctl: socket\n  standard input: what came is no reply\n"

# usage errors, and the first line of what standard error says
SAID = [
    (["--payload-from", "x", "add", "user", "k", "v", "user"], "unexpected argument 'user' found"),
    (["--payload-from", "f", "instantiate", "none"], "the following required arguments were not provided:"),
    (["--payload-from", "-", "instantiate", "3", "none"], "the file '-' is standard input, which leads to the daemon unless '--socket <PATH>' is used"),
    (["--payload-from", "f", "read", "3"], "the argument '--payload-from <FILE>' cannot be used with a command that takes no payload"),
    (["--callout-from", "f", "instantiate", "3", "none"], "the argument '--callout-from <FILE>' cannot be used with a command that takes no callout"),
    (["--callout-from", "f", "--payload-from", "f", "request", "user", "a", "none"],
     "the argument '--payload-from <FILE>' cannot be used with '--callout-from <FILE>'"),
    (["add", "--help", "x"], "the following required arguments were not provided:"),
    (["add", "user", "--help"], "the following required arguments were not provided:"),
    (["read", "3", "--help"], "unexpected argument '--help' found"),
    (["read", "3", "4"], "unexpected argument '4' found"),
    (["hello", "x"], "unexpected argument 'x' found"),
    ([b"--socket", b"s", b"add", b"user", b"a", b"\xff", b"user"], "an argument is not UTF-8; '--payload-from <FILE>' takes a payload of any bytes"),
    (["nothing"], "unrecognized subcommand 'nothing'"),
    (["nothing", "--help"], "unrecognized subcommand 'nothing'"),
    (["--nothing", "read", "3"], "unexpected argument '--nothing' found"),
    (["read", "x"], "<key> is a number up to 2147483647, or auth: the authority that is assumed"),
    (["request", "u" * 32, "a", "none"], "<type> is 1 to 31 bytes of text, the first no dot"),
    (["request", "user", "d" * 4096, "none"], "<description> is 1 to 4095 bytes of text"),
    (["request", "user", "a", "nowhere"], "<ring> is a number up to 2147483647, or none, thread, process, session, user or requestor"),
    (["request", "user", "a", "none", "c" * 4096], "<callout> is at most 4095 bytes of text, for the handler"),
    (["instantiate", "3", "p" * 32768, "none"], "<payload> is 1 to 32767 bytes"),
    (["timeout", "3", "x"], "<seconds> is a number up to 4294967295"),
    (["reject", "3", "0", "125", "none"], "<error> is the number of an error, 126 to 129"),
    (["default", "none"], "<setting> is keep, default, thread, process, session, user or requestor"),
    (["--uid", "+1", "read", "3"], "invalid value '+1' for '--uid <N>': a number has digits alone"),
    (["--timeout", "+1", "read", "3"], "invalid value '+1' for '--timeout <N>': a number has digits alone"),
    (["--gid=+1", "read", "3"], "invalid value '+1' for '--gid <N>': a number has digits alone"),
    (["--join", "+1", "read", "3"], "invalid value '+1' for '--join <N>': a number has digits alone"),
    (["--uid", "-h", "read", "3"], "a value is required for '--uid <N>' but none was supplied"),
    (["--uid", "1", "--uid", "1", "read", "3"], "the argument '--uid <N>' cannot be used multiple times"),
    (["--quiet=1", "read", "3"], "unexpected value '1' for '--quiet' found; no more were expected"),
    (["--quiet", "--quiet", "read", "3"], "the argument '--quiet' cannot be used multiple times"),
    (["--uid", "1", "run", "--", "true"], "the options of 'run' stand behind it, as in 'reqkeyctl run --uid 1000 -- PROGRAM'"),
    (["list", "x"], "unexpected argument 'x' found"),
    (["list"], "neither '--socket <PATH>' nor REQKEYD_SOCKET says where the daemon is"),
    (["--uid", "1000", "sweep"], "neither '--socket <PATH>' nor REQKEYD_SOCKET says where the daemon is"),
    (["--uid", "+1", "list"], "invalid value '+1' for '--uid <N>': a number has digits alone"),
    *[(["--socket", "s", *words, "list"], "'list' and 'sweep' take no other options than '--socket', '--timeout', '--uid' and '--gid'") for words in
      [["--raw"], ["--quiet"], ["--join", "5"], ["--payload-from", "f"], ["--callout-from", "f"]]],
    (["run"], "the following required arguments were not provided:"),
    (["run", "--nothing", "--", "true"], "unexpected argument '--nothing' found"),
    (["run", "--uid", "+1", "--", "true"], "invalid value '+1' for '--uid <N>': a number has digits alone"),
    *[(["run", "--library", path, "--", "true"], f"invalid value '{path}' for '--library <FILE>': it has to be an absolute path, without a space or a colon")
      for path in ["rel", "/a b"]],
    *[(["run", "--trap", option, value, "--", "true"], f"the argument '--trap' cannot be used with '{option} <{name}>'") for option, value, name in
      [("--library", "/l", "FILE"), ("--uid", "1", "N"), ("--gid", "1", "N")]],
    (["run", "--trap=", "--", "true"], "unexpected value '' for '--trap' found; no more were expected"),
    *[([*before, option, f"{most + 1}", *behind], f"invalid value '{most + 1}' for '{option} <N>': {most + 1} is not in 0..={most}")
      for before, behind, options in [([], ["read", "3"], ["--timeout", "--uid", "--gid", "--join"]), (["run"], ["--", "true"], ["--uid", "--gid"])]
      for option, most in [(it, 2147483647 if it == "--join" else 4294967295) for it in options]],
]


def ran_over(program, given, *words):
    """A run whose input is a pipe with these bytes: what came of it, and the bytes that it has left there."""
    read, write = os.pipe()
    with open(read, "rb", buffering=0) as left, open(write, "wb", buffering=0) as pipe:
        pipe.write(given)
        got = ran(program, *words, stdin=left)
        pipe.close()
        return *got, left.read()


def asks(program, words, ask, options=(), greeting=peer.hello()):
    """Over the socket: the frames are those of HELLO and the ask, and nothing else, and the reply is printed."""
    bodies = [ask] if words == ["hello"] else [greeting, ask]
    with peer.answering(*[RINGS] * (len(bodies) - 1), SEVEN) as daemon:
        got = ran(program, "--socket", daemon.path, *options, *words)
        daemon.ended()
        return differs((got, daemon.heard, daemon.more), ((0, b"7\n", b""), bodies, b""))


def handles(program, words, ask, options=()):
    """As a handler: the ask is written, the reply is read, and not a byte more, and it is printed on standard error."""
    more = peer.frame(peer.number(8))[:7]
    return differs(ran_over(program, peer.frame(SEVEN) + more, *options, *words), (0, peer.frame(ask), b"7\n", more))


def misuses(program, words):
    """Status 2, the usage on standard error, nothing on standard output, nothing read."""
    status, output, errors, left = ran_over(program, b"unread", *words)
    text = errors.decode(errors="replace")
    return differs((status, output, left, "usage" in text.lower() or "error: " in text), (2, b"", b"unread", True))


def says(program, words, want):
    """A usage error: status 2, nothing on standard output, and one message, which says what is wrong."""
    status, output, errors = ran(program, *words, input=b"unread")
    return differs((status, output, errors.decode().partition("\n")[0]), (2, b"", f"error: {want}"))


def misuses_socket(program, words):
    """The same with a socket, to which nothing is said."""
    with peer.Daemon([None]) as daemon:
        got = misuses(program, ["--socket", daemon.path, *words])
    return got or differs(daemon.heard, [])


def prints(program, reply, want, options=(), split=False):
    """A reply over the socket, and to a handler."""
    with peer.answering(RINGS, reply, split=split) as daemon:
        got = ran(program, "--socket", daemon.path, *options, "read", "3")
    handler = ran(program, *options, "read", "3", input=peer.frame(reply))
    return differs(got, (0, want, b"")) or differs(handler, (0, peer.frame(peer.on_key(7, 3)), want))


def refuses(program, errno):
    """A refusal of the ask; of HELLO, after which nothing is asked; and to a handler."""
    text = f"errno {errno}\n".encode()
    with peer.answering(RINGS, peer.refused(errno)) as daemon:
        got = ran(program, "--socket", daemon.path, "--raw", "read", "3")
    with peer.answering(peer.refused(errno)) as daemon:
        greeting = ran(program, "--socket", daemon.path, "read", "3")
        daemon.ended()
        asked = (daemon.heard, daemon.more)
    handler = ran(program, "read", "3", input=peer.frame(peer.refused(errno)))
    return (
        differs(got, (1, b"", text))
        or differs((greeting, asked), ((1, b"", text), ([peer.hello()], b"")))
        or differs(handler, (1, peer.frame(peer.on_key(7, 3)), text))
    )


def fails(program, reply):
    """Invalid replies, to HELLO, to the ask, and to a handler."""
    cut = reply in CUT.values()
    for replies in [[reply], [peer.frame(RINGS), reply]]:
        with peer.Daemon([*replies[:-1], replies[-1] or None]) as daemon:
            got = ran(program, "--socket", daemon.path, "read", "3")
        if got != (1, b"", SOCKET + f"  {daemon.path}: {GONE if cut else NO_REPLY}\n".encode()):
            return f"{got} at reply {len(replies)}"
    return differs(ran(program, "read", "3", input=reply), (1, peer.frame(peer.on_key(7, 3)), STREAMS if cut else NO_REPLY_IN))


def no_daemon(program, path, reason, options=()):
    """A socket that can't be reached: the path and the system's reason, of a request and of a program that is to be run."""
    want = SOCKET + f"  {path}: {reason}\n".encode()
    runs = ran(program, "run", "--socket", path, "--library", "/dev/null", "--", "true")
    return differs(ran(program, "--socket", path, *options, "read", "3", input=b""), (1, b"", want)) or differs(runs, (1, b"", want))


def full_output(program):
    """A write that fails, of the reply, whose ask was done, and of a handler's ask."""
    with open("/dev/full", "wb") as full, peer.answering(RINGS, SEVEN) as daemon:
        done = [ran(program, *words, "read", "3", stdout=full) for words in [["--socket", daemon.path], []]]
    return differs(done, [(1, None, OUTPUT), (1, None, STREAMS)])


def closed_input(program):
    """A handler whose input ends at once, or can't be read."""
    with open("/dev/null", "wb") as none:
        status, _, errors = ran(program, "read", "3", stdin=none)
    return differs((status, errors), (1, STREAMS))


def from_file(program, words, option, content, ask, rule=None):
    """The bytes of a file stand for an argument: of a file, and of standard input; and of a file in a handler. Or they break the rule of the argument."""
    def want(source):
        return (0, b"7\n", b"") if rule is None else (1, b"", FILE + f"  {source}: {rule}\n".encode())

    with tempfile.TemporaryDirectory() as room:
        path = pathlib.Path(room) / "bytes"
        path.write_bytes(content)
        for source, stdin in [(str(path), b"unread"), ("-", content)]:
            with peer.answering(RINGS, SEVEN) as daemon:
                got = ran(program, "--socket", daemon.path, option, source, *words, input=stdin)
            if got != want("standard input" if source == "-" else source) or daemon.heard != ([peer.hello(), ask] if ask is not None else []):
                return f"{str(got)[:200]} {str(daemon.heard)[:200]} from {source}"
        handler = ran(program, f"{option}={path}", *words, input=peer.frame(SEVEN))
        return differs(handler, (0, peer.frame(ask), b"7\n") if ask is not None else want(path))


def no_file(program, path, reason):
    """A file that can't be read is found before the daemon is asked, and behind faults of the words."""
    with peer.Daemon([None]) as daemon:
        got = ran(program, "--socket", daemon.path, "--payload-from", path, "instantiate", "3", "none")
        return differs((got, daemon.heard), ((1, b"", FILE + f"  {path}: {reason}\n".encode()), []))


def no_library(program, path):
    """A library that is not there, and a `reqkey-trap` that isn't: where it would be, beside the program."""
    own = pathlib.Path(program).resolve()
    trap = own.parent.parent / "bin" / "reqkey-trap"
    for words, file in [(["--library", path], path), (["--trap"], trap)]:
        got = ran(program, "run", "--socket", "/dev/null/none", *words, "--", "true")
        want = (1, b"", FILE + f"  {file}: No such file or directory\n".encode())
        if got != want and not trap.exists():
            return f"{got}, not {want}"
    return None


def runs_by_trap(program, room):
    """`run --trap` starts the `reqkey-trap` that is installed beside it, with the socket and the program, and in the environment that there is."""
    room = pathlib.Path(tempfile.mkdtemp(dir=room)) / "bin"
    room.mkdir()
    own = shutil.copy(program, room / "reqkeyctl")
    trap = room / "reqkey-trap"
    trap.write_text('#!/bin/sh\nprintf "%s\\n" "$@" "$REQKEYD_SOCKET $REQKEYD_JOIN $LD_PRELOAD"\nexit 7\n')
    trap.chmod(0o755)
    behind = ["--", "program", "-x", "--socket", ""]
    named = ran(own, "run", "--trap", "--socket", "a b/s", *behind, env={"REQKEYD_JOIN": "5"})
    told = ran(own, "run", "--trap", *behind, env={"REQKEYD_SOCKET": "/s"})
    words = "\n".join(behind)
    trap.write_text("")
    empty = ran(own, "run", "--trap", "--socket", "s", *behind)
    return differs((named, told, empty), (
        (7, f"--socket\na b/s\n{words}\n 5 \n".encode(), b""), (7, f"--socket\n/s\n{words}\n/s  \n".encode(), b""),
        (126, b"", f"reqkeyctl: program\n  {trap}: Exec format error\n".encode())))


def no_program(program, path, status, reason):
    """A program that can't be started."""
    with peer.answering(RINGS) as daemon:
        got = ran(program, "run", "--socket", daemon.path, "--library", "/dev/null", "--", path)
    return differs(got, (status, b"", f"reqkeyctl: program\n  {path}: {reason}\n".encode()))


def no_socket_for_run(program):
    """No socket is named: standard error says so."""
    got = ran(program, "run", "--library", "/dev/null", "--", "true", env={"PATH": os.environ["PATH"]})
    return differs(got, (1, b"", SOCKET + b"  no daemon answered; --socket or REQKEYD_SOCKET names its socket\n"))


def runs_for(program, words, uid, gid, want):
    """Whom HELLO of a run is for: who is named, or else the effective user and group of who calls."""
    with peer.answering(RINGS) as daemon:
        os.chmod(daemon.room.name, 0o755)
        os.chmod(daemon.path, 0o666)
        more = {"user": uid, "group": gid, "extra_groups": []} if os.geteuid() == 0 else {}
        ran(program, "run", "--socket", daemon.path, "--library", "/dev/null", *words, "--", "/bin/true", **more)
        daemon.ended()
    return differs(daemon.heard, [peer.hello(*want)])


def is_quiet(program, reply):
    """No reply is printed, but a refusal is."""
    for reply, want in [(reply, (0, b"", b"")), (peer.refused(126), (1, b"", b"errno 126\n"))]:
        with peer.answering(RINGS, reply) as daemon:
            got = ran(program, "--socket", daemon.path, "--quiet", "read", "3")
        handler = ran(program, "--quiet", "read", "3", input=peer.frame(reply))
        if got != want or handler != (want[0], peer.frame(peer.on_key(7, 3)), want[2]):
            return f"{got} and {handler}"
    return None


def looks(program, command, uid, newest, replies, bodies, want):
    """`list` and `sweep`: what is asked behind HELLO, and what is printed of the replies; where one is None the daemon ends."""
    with peer.answering(peer.rings(0, 0, newest, 2), *replies) as daemon:
        got = ran(program, "--socket", daemon.path, "--uid", str(uid), command)
        daemon.ended()
    if want[2] in [GONE, NO_REPLY]:
        want = (*want[:2], SOCKET + f"  {daemon.path}: {want[2]}\n".encode())
    return differs((got, daemon.heard), (want, [peer.hello(uid), *bodies]))


def is_turned_away(program, command):
    """A search whose HELLO is refused: nothing else is asked."""
    with peer.answering(peer.refused(122)) as daemon:
        got = ran(program, "--socket", daemon.path, command)
        daemon.ended()
    return differs((got, daemon.heard, daemon.more), ((1, b"", b"errno 122\n"), [peer.hello()], b""))


def at_terminal(program, words, status, want):
    """What a call does whose standard output is a terminal, and that names no socket: it writes nothing there but help."""
    leader, follower = os.openpty()
    environment = {key: value for key, value in os.environ.items() if key != "REQKEYD_SOCKET"}
    ended, _, errors = ran(program, *words, stdin=follower, stdout=follower, env=environment)
    os.write(follower, b"end")
    shown = b""
    while not shown.endswith(b"end"):
        shown += os.read(leader, 65536)
    os.close(leader)
    os.close(follower)
    return differs((ended, want.encode() in (shown if status == 0 else errors), shown == b"end"), (status, True, status != 0))


def by_environment(program, stdin, stdout, named, words, ask):
    """REQKEYD_SOCKET names the socket, unless an option does. But what only a handler asks goes over the streams where both are pipes."""
    piped = stdin == stdout == subprocess.PIPE
    with peer.answering(*[RINGS] * (words != ["hello"]), SEVEN) as daemon:
        option = ["--socket", daemon.path] if named else []
        environment = {"REQKEYD_SOCKET": "/dev/null/none" if named else daemon.path}
        status, output, errors = ran(program, *option, *words, stdin=stdin, stdout=stdout, env=environment)
    if piped and not named and words[0] in HANDLERS:
        return differs((output, errors, daemon.heard), (peer.frame(ask), STREAMS, []))
    said = [ask] if words == ["hello"] else [peer.hello(), ask]
    return differs((status, output or b"", errors, daemon.heard), (0, b"7\n" if stdout == subprocess.PIPE else b"", b"", said))


def list_between_pipes(program):
    """A list between two pipes, as in `ssh HOST reqkeyctl list`, is of the daemon that the environment names."""
    with peer.answering(peer.rings(0, 0, 5, 2), peer.data(b"user;0;valid;a")) as daemon:
        got = ran(program, "list", input=b"", env={"REQKEYD_SOCKET": daemon.path})
        daemon.ended()
    return differs((got, daemon.heard), ((0, b"1 user;0;valid;a\n", b""), [peer.hello(), peer.on_key(8, 1)]))


def is_late(path, seconds):
    """What is told of a daemon that was waited for so long."""
    return 1, b"", SOCKET + f"  {path}: no reply within {seconds} s\n".encode()


def gives_up(program, words, replies, said):
    """A daemon that sends these bytes, and no more, but keeps the connection: the time is that of all replies together."""
    with peer.Daemon([*replies, *[b""] * (len(said) - len(replies))], stays=True) as daemon:
        got = ran(program, "--socket", daemon.path, "--timeout", "1", *words)
        daemon.ended()
    return differs((got, daemon.heard), (is_late(daemon.path, 1), said))


def gives_up_connecting(program, room):
    """A daemon whose queue is full, where connect(2) would wait."""
    path = str(pathlib.Path(tempfile.mkdtemp(dir=room)) / "s")
    with contextlib.ExitStack() as stack:
        listener = stack.enter_context(socket.socket(socket.AF_UNIX))
        listener.bind(path)
        listener.listen(0)
        for _ in range(8):
            waiting = stack.enter_context(socket.socket(socket.AF_UNIX))
            waiting.setblocking(False)
            with contextlib.suppress(BlockingIOError):
                waiting.connect(path)
        return differs([ran(program, "--socket", path, "--timeout", "1", *words) for words in [["read", "3"], ["list"]]], [is_late(path, 1)] * 2)


def in_time(program, words, replies, want):
    """A daemon that answers before the time is over."""
    with peer.answering(*replies) as daemon:
        got = ran(program, "--socket", daemon.path, "--timeout", "4294967295", *words)
        return differs(got, want) or no_daemon(program, daemon.path + "x", "No such file or directory", ["--timeout=1"])


def helps(program, words, *wanted):
    """Status 0, and these texts on standard output alone, where the usage has the name of the file."""
    status, output, errors = ran(program, *words, input=b"unread")
    own = pathlib.Path(program).name
    missing = [it for it in wanted if it.replace("Usage: reqkeyctl", f"Usage: {own}").encode() not in output]
    return differs((status, errors, missing), (0, b"", []))


def two_in_a_script(program):
    """Two runs that share their pipes, as in a handler that is a shell script."""
    script = f"{program} assume 3 && {program} instantiate 3 hi none"
    want = peer.frame(peer.on_key(3, 3)) + peer.frame(peer.instantiate(3, b"hi", 0))
    return differs(ran("/bin/sh", "-c", script, input=peer.frame(peer.number(0)) * 2), (0, want, b"0\n0\n"))


def lacks_memory(program, words, stdin, replies, want):
    """Each allocation refused in turn, until the run needs no more: status 1 and its line, and nothing printed. PATH among the words is that of the socket."""
    for count in range(1, 100_000):
        with peer.answering(*replies) as daemon:
            named = [daemon.path if word == "PATH" else word for word in words]
            got = ran(program, *named, input=stdin, env={"LD_PRELOAD": library("refusing_malloc"), "REFUSED": str(count)})
        if got == want:
            return None if count > 5 else f"{count - 1} allocations"
        if (got[0], got[2]) != (1, b"reqkeyctl: memory\n") or (replies and got[1]) or not want[1].startswith(got[1]):
            return f"allocation {count}: {got}"
    return "it never ends"


# the arguments that each subcommand takes at least
FEWEST = {}
for words, _ in GOOD:
    FEWEST[words[0]] = min(FEWEST.get(words[0], 9), len(words) - 1)
MOST = {words[0]: max(len(it) for it, _ in GOOD if it[0] == words[0]) - 1 for words, _ in GOOD}


def cases(room):
    for words, ask in GOOD:
        yield f"{words} over a socket", asks, words, ask
        yield f"{words} as a handler", handles, words, ask
    for name, fewest in FEWEST.items():
        good = max((words for words, _ in GOOD if words[0] == name), key=len)
        for words in [*([good[: fewest]] if fewest else []), *([[name]] if fewest > 1 else []), [*good, "more"] if len(good) == MOST[name] + 1 else []]:
            yield f"{str(words)[:80]} is a wrong number", misuses, words
        yield f"{name} --help", helps, [name, "--help"], f"Usage: reqkeyctl {name}"
        yield f"{name} -h", helps, [name, "-h"], f"Usage: reqkeyctl {name}"
    for words in BAD:
        yield f"{str(words)[:80]} alone", misuses, words
        if "--socket" not in words and "--socket=b" not in words and b"\xff" not in words and "-" not in words:
            yield f"{str(words)[:80]} with a socket", misuses_socket, words
    read, ask = ["read", "3"], peer.on_key(7, 3)
    for options, greeting in [
        (["--uid", "1000"], peer.hello(uid=1000)),
        (["--uid=4294967295", "--gid=4294967295"], peer.hello(4294967295, 4294967295)),
        (["--gid", "5", "--join", "2147483647"], peer.hello(0, 5, 2147483647)),
        (["--timeout", "0"], peer.hello()),
        (["--join", "0", "--uid", "0007"], peer.hello(7)),
        (["--raw"], peer.hello()),
    ]:
        yield f"{options}", asks, read, ask, options, greeting
        yield f"{options} and hello", asks, ["hello"], greeting, options
        yield f"{options} as a handler", handles, read, ask, options
    for reply, want, raw in REPLIES:
        yield f"the reply {reply[:12]!r}", prints, reply, want
        yield f"the reply {reply[:12]!r} raw", prints, reply, raw, ["--raw"]
        if len(reply) < 100:
            yield f"the reply {reply[:12]!r} byte by byte", prints, reply, want, (), True
    for errno in ERRNOS:
        yield f"errno {errno}", refuses, errno
    for name, reply in [*MALFORMED.items(), *CUT.items()]:
        yield name, fails, reply
    (room / "plain").write_bytes(b"x")
    for path, reason in [(room / "none", "No such file or directory"), (room / "plain", "Connection refused"), (room, "Connection refused")]:
        yield f"a socket at {str(path)[:40]!r}", no_daemon, str(path), reason
    for words, want in SAID:
        yield f"{words} is told", says, words, want
    yield "a file that is not there", no_file, str(room / "none"), "No such file or directory"
    yield "a folder for a file", no_file, str(room), "Is a directory"
    yield "a library that is not there", no_library, str(room / "none")
    yield "a program that is not there", no_program, str(room / "none"), 127, "No such file or directory"
    yield "a program that can't be started", no_program, str(room / "plain"), 126, "Permission denied"
    yield "no socket for a run", no_socket_for_run
    yield "a run by reqkey-trap", runs_by_trap, room
    own = (os.geteuid(), os.getegid()) if os.geteuid() != 0 else (1000, 2000)
    yield "a run for its caller", runs_for, [], *own, own
    yield "a run for another user", runs_for, ["--uid", "7"], *own, (7, own[1])
    yield "a run for another group", runs_for, ["--gid", "7"], *own, (own[0], 7)
    for reply, *_ in REPLIES[:5]:
        yield f"the reply {reply[:12]!r} quiet", is_quiet, reply
    described, gone = peer.data(b"user;5;valid;a"), peer.refused(13)
    asked = [peer.on_key(8, serial) for serial in [1, 5, 9]]
    text = b"1 user;5;valid;a\n9 user;5;valid;a\n"
    yield "a list", looks, "list", 5, 13, [described, gone, described], asked, (0, text, b"")
    yield "a list of nothing", looks, "list", 5, 1, [], [], (0, b"", b"")
    yield "a list of the first keys", looks, "list", 4, 8, [gone], [peer.on_key(8, 4)], (0, b"", b"")
    yield "a newest serial that there can't be", looks, "list", 4, 2147483648, [], [], (1, b"", NO_REPLY)
    for command in ["list", "sweep"]:
        yield f"{command} that HELLO refuses", is_turned_away, command
    yield "a list that is cut", looks, "list", 5, 13, [described, None], asked[:2], (1, b"", GONE)
    yield "a list with a refusal that there can't be", looks, "list", 5, 13, [described, peer.refused(3)], asked[:2], (1, b"", NO_REPLY)
    yield "a sweep that is cut", looks, "sweep", 5, 5, [described, None], [asked[0], peer.on_key(7, 1)], (1, b"", GONE)
    for errno, dead in [(errno, errno >= 126) for errno in ERRNOS]:
        tail = ([peer.number(0)], [peer.on_key_and_ring(12, 1, -4)]) if dead else ([], [])
        yield f"a sweep at errno {errno}", looks, "sweep", 5, 5, [described, peer.refused(errno), *tail[0]], [peer.on_key(8, 1), peer.on_key(7, 1), *tail[1]], \
            (0, b"1\n" if dead else b"0\n", b"")
    yield "a sweep of a living key", looks, "sweep", 5, 5, [described, peer.data(b"v")], [peer.on_key(8, 1), peer.on_key(7, 1)], (0, b"0\n", b"")
    yield "a sweep of one key of two", looks, "sweep", 5, 13, [described, gone, described, peer.data(b"v"), peer.refused(128), peer.number(0)], \
        [*asked, peer.on_key(7, 1), peer.on_key(7, 9), peer.on_key_and_ring(12, 9, -4)], (0, b"1\n", b"")
    yield "a sweep of nothing", looks, "sweep", 5, 5, [gone], [peer.on_key(8, 1)], (0, b"0\n", b"")
    yield "a sweep of a key in another ring", looks, "sweep", 5, 5, [described, peer.refused(126), peer.refused(2)], \
        [peer.on_key(8, 1), peer.on_key(7, 1), peer.on_key_and_ring(12, 1, -4)], (0, b"0\n", b"")
    yield "a request at a terminal", at_terminal, ["read", "3"], 2, "nor REQKEYD_SOCKET says where the daemon is, and standard output is a terminal"
    yield "words that are no call at a terminal", at_terminal, ["nothing"], 2, "unrecognized subcommand"
    yield "help at a terminal", at_terminal, ["read", "--help"], 0, "Usage"
    for stdin in [subprocess.PIPE, subprocess.DEVNULL]:
        for stdout in [subprocess.PIPE, subprocess.DEVNULL]:
            for named in [False, True]:
                for words, asked in ONE_EACH:
                    yield f"REQKEYD_SOCKET with streams {stdin} and {stdout}, {named}, {words[0]}", by_environment, stdin, stdout, named, words, asked
    yield "a list between two pipes", list_between_pipes
    hello, half = peer.frame(RINGS), peer.frame(SEVEN)[:5]
    for words, replies, said in [(["hello"], [], [peer.hello()]), (read, [], [peer.hello()]), (read, [hello], [peer.hello(), ask]),
                                 (read, [hello, half], [peer.hello(), ask]), (["list"], [peer.frame(peer.rings(0, 0, 5, 2))], [peer.hello(), peer.on_key(8, 1)])]:
        yield f"{words} of a daemon that sends {len(replies)} replies in time", gives_up, words, replies, said
    yield "a daemon whose queue is full", gives_up_connecting, room
    yield "a reply in time", in_time, read, [RINGS, SEVEN], (0, b"7\n", b"")
    yield "a list in time", in_time, ["list"], [peer.rings(0, 0, 1, 2)], (0, b"", b"")
    yield "a full device", full_output
    yield "an input that can't be read", closed_input
    yield "two runs in a script", two_in_a_script
    put, payload = ["instantiate", "3", "none"], b"\x00\xff\n-"
    yield "a payload from a file", from_file, put, "--payload-from", payload, peer.instantiate(3, payload, 0)
    yield "the longest payload from a file", from_file, put, "--payload-from", b"p" * 32767, peer.instantiate(3, b"p" * 32767, 0)
    yield "too long a payload from a file", from_file, put, "--payload-from", b"p" * 32768, None, "<payload> is 1 to 32767 bytes"
    yield "no payload from a file", from_file, put, "--payload-from", b"", None, "<payload> is 1 to 32767 bytes"
    yield "a payload of add from a file", from_file, ["add", "user", "k", "5"], "--payload-from", payload, peer.add(b"user", b"k", payload, 5)
    ask_key = ["request", "user", "a", "none"]
    yield "a callout from a file", from_file, ask_key, "--callout-from", b"c\n", peer.request(b"user", b"a", b"c\n", 0)
    yield "an empty callout from a file", from_file, ask_key, "--callout-from", b"", peer.request(b"user", b"a", b"", 0)
    yield "a callout from a file without text", from_file, ask_key, "--callout-from", b"\xff", None, "<callout> is at most 4095 bytes of text, for the handler"
    if not lacks("allocations that are refused", "gcc"):
        at, long = ["--socket", "PATH"], b"p" * 32767
        yield "memory of a handler", lacks_memory, read, peer.frame(SEVEN), [], (0, peer.frame(ask), b"7\n")
        yield "memory of a client", lacks_memory, [*at, *read], b"", [RINGS, SEVEN], (0, b"7\n", b"")
        yield "memory of a client that waits so long", lacks_memory, [*at, "--timeout", "1000000", *read], b"", [RINGS, SEVEN], (0, b"7\n", b"")
        yield "memory of a run", lacks_memory, ["run", *at, "--library", library("refusing_malloc"), "--", "/bin/true"], b"", [RINGS], (0, b"", b"")
        from_input = [*at, "--payload-from", "-", "instantiate", "3", "none"]
        yield "memory of long bytes", lacks_memory, from_input, long, [RINGS, peer.data(long)], (0, long + b"\n", b"")
    for word in ["--help", "-h"]:
        lists = [*[f"  {name} " for name in FEWEST], *[f"{errno} {name}" for errno, name in ERRNOS.items()], "--payload-from", "Status:"]
        yield word, helps, [word], "Usage: reqkeyctl", *lists
        yield f"run {word}", helps, ["run", word], "Usage: reqkeyctl run", "--library", "126"
    for word in ["--version", "-V"]:
        yield word, helps, [word], f"reqkeyctl {version()}"


with tempfile.TemporaryDirectory(prefix="client-") as folder:
    check_all(list(cases(pathlib.Path(folder))), built("reqkeyctl"))
