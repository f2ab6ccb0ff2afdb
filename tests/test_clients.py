#!/usr/bin/env python3
"""Tries the clients of clients/ in C, Python, Go and Rust: each ask byte by byte, hostile replies, and each ask on the daemon, as a client and as a handler.

Each is called by a driver (tests/clients/) that reads asks and tells what came of them, so that each table here is for all. The one in C is
compiled twice: as users compile it, and so that a wrong access to memory ends it. Those in Go and Rust are built offline, where there is a compiler.
"""
import asyncio
import contextlib
import inspect
import itertools
import os
import pathlib
import shutil
import socket
import sys
import tempfile

import protocol_peer as peer
from compiled import SANITIZED, compiled, sanitizes
from counted import Counted
from daemon import Daemon
from packages import has
from programs import lacks, ran, there, top

sys.path.insert(0, str(top / "tools"))
from messages import ERRNOS

count = Counted()
CLIENTS, DRIVERS = top / "clients", top / "tests" / "clients"
STRICT = ["-std=c11", "-Wpedantic", "-Wconversion", "-Wshadow", "-I", CLIENTS / "c", CLIENTS / "c" / "reqkey.c"]
RINGS = peer.rings(0, 0, 1, 2)
ANY = bytes(range(256))
ANY_WORD = "".join(f"%{byte:02X}" for byte in ANY)
ANY_TOLD = "".join(chr(byte) if b" "[0] < byte <= b"~"[0] and byte != b"%"[0] else f"%{byte:02X}" for byte in ANY)

# what a driver gets, the body of its ask, a reply, and what the driver tells of it
GOOD = [
    ("hello 0 0 0 0", peer.hello(), RINGS, "0 0 1 2"),
    ("hello 4294967295 7 3 2147483647", peer.hello(4294967295, 7, 2147483647, 3), peer.rings(4, 8, 4294967295, 0), "4 8 4294967295 0"),
    ("hello 1 2 1 0", peer.hello(1, 2, 0, 1), RINGS, "0 0 1 2"),
    ("hello 1 2 2 0", peer.hello(1, 2, 0, 2), RINGS, "0 0 1 2"),
    ("request user a - 0", peer.request(b"user", b"a", None, 0), peer.number(1), "1"),
    ("request user a  -8", peer.request(b"user", b"a", b"", -8), peer.number(2147483647), "2147483647"),
    ("request @31 @4095 @4095 -4", peer.request(b"p" * 31, b"p" * 4095, b"p" * 4095, -4), peer.number(12), "12"),
    ("request café a%20b %F0%9F%94%91 7", peer.request("café".encode(), b"a b", "🔑".encode(), 7), peer.number(12), "12"),
    ("assume 0", peer.on_key(3, 0), peer.number(0), "0"),
    ("assume 2147483647", peer.on_key(3, 2147483647), peer.number(0), "0"),
    ("assume -2147483648", peer.on_key(3, -2147483648), peer.number(0), "0"),
    ("instantiate 3 hi 0", peer.instantiate(3, b"hi", 0), peer.number(0), "0"),
    (f"instantiate 3 {ANY_WORD} -3", peer.instantiate(3, ANY, -3), peer.number(0), "0"),
    ("instantiate 3 @32767 5", peer.instantiate(3, b"p" * 32767, 5), peer.number(0), "0"),
    ("instantiate 3 @65525 0", peer.instantiate(3, b"p" * 65525, 0), peer.number(0), "0"),
    ("instantiate 3  0", peer.instantiate(3, b"", 0), peer.number(0), "0"),
    ("negate 3 4294967295 -8", peer.negate(3, 4294967295, -8), peer.number(0), "0"),
    ("reject 3 7 129 -1", peer.reject(3, 7, 129, -1), peer.number(0), "0"),
    ("reject 3 0 4294967295 0", peer.reject(3, 0, 4294967295, 0), peer.number(0), "0"),
    ("read 3", peer.on_key(7, 3), peer.data(b"hi"), "bytes hi"),
    ("read -7", peer.on_key(7, -7), peer.data(b""), "bytes "),
    ("read 3", peer.on_key(7, 3), peer.data(b"p" * 65533), "bytes " + "p" * 65533),
    ("read 3", peer.on_key(7, 3), peer.data(b"\0%\xff "), "bytes %00%25%FF%20"),
    ("describe 3", peer.on_key(8, 3), peer.data(b"user;0;valid;a"), "bytes user;0;valid;a"),
    ("revoke 3", peer.on_key(9, 3), peer.number(0), "0"),
    ("timeout 3 4294967295", peer.timeout(3, 4294967295), peer.number(0), "0"),
    ("link 3 -2", peer.on_key_and_ring(11, 3, -2), peer.number(0), "0"),
    ("unlink 3 4", peer.on_key_and_ring(12, 3, 4), peer.number(0), "0"),
    ("clear -4", peer.clear(-4), peer.number(0), "0"),
    *[(f"default {setting}", peer.default(setting), peer.number(before), str(before)) for setting, before in
      [(-1, 0), (0, 1), (1, 2), (2, 3), (3, 4), (4, 7), (7, 0)]],
    ("add user k v -3", peer.add(b"user", b"k", b"v", -3), peer.number(4), "4"),
    (f"add user k {ANY_WORD} 1", peer.add(b"user", b"k", ANY, 1), peer.number(4), "4"),
    ("callout", peer.CALLOUT, peer.data("Räuber".encode()), "bytes R%C3%A4uber"),
]

NUMBER, BYTES, FOUR = peer.number(0), peer.data(b"hi"), RINGS
# what is no reply to an ask that is answered by such a number, bytes, or rings
WRONG = {
    "0": [BYTES, FOUR, b"\x00", b"\x00\x00\x00\x00", NUMBER + b"\x00", peer.number(1), peer.number(4294967170), peer.number(2147483648), b"\x00" * 65536],
    "serial": [BYTES, FOUR, b"\x00\x00\x00\x00", peer.number(1) + b"\x00", NUMBER, peer.number(2147483648), peer.number(4294967295), b"\x00" + b"\x01" * 9],
    "setting": [BYTES, FOUR, peer.number(5), peer.number(6), peer.number(8), peer.number(4294967295), NUMBER + b"\x00"],
    "bytes": [NUMBER, FOUR, b"\x01", b"\x01\x00", b"\x01\x00\x03hi", BYTES + b"\x00", b"\x01\xff\xfe" + bytes(65533), b"\x01\xff\xff" + bytes(65533)],
    "text": [NUMBER, FOUR, b"\x01", b"\x01\x00\x03hi", BYTES + b"\x00"],
    "rings": [NUMBER, BYTES, b"\x02", b"\x02" + bytes(15), b"\x02" + bytes(17), b"\x02" * 65536],
}
ANSWERED = {"hello": "rings", "request": "serial", "add": "serial", "read": "bytes", "describe": "text", "callout": "text", "default": "setting"}
ONE_OF_EACH = {words.split(" ")[0]: words for words, *_ in reversed(GOOD)}

# arguments that no frame can hold
UNSPELT = ["request @65536 a - 0", "request user @65536 - 0", "request user a @65536 0", "request @40000 @40000 - 0", "instantiate 3 @65536 0",
           "instantiate 3 @65526 0", "instantiate 3 @65535 0", "add user k @65536 0", "add user k @131077 0", "add user @30000 @40000 0"]


class Language:
    """A client by the words of its driver. One that is not for `any_stream` waits for its streams, which then are pipes, and assumes first as a handler."""

    def __init__(self, name, *words, any_stream=True):
        self.name, self.words, self.any_stream = name, [str(word) for word in words], any_stream

    def asks(self, lines):
        """The results of these asks over sockets, line by line."""
        status, output, errors = ran(*self.words, "client", input="".join(f"{line}\n" for line in lines).encode())
        return told_by(status, output, errors)

    def handles(self, room, lines, **streams):
        """What a handler outputs, and the results of its asks."""
        script, told = room / "script", room / "told"
        script.write_text("".join(f"{line}\n" for line in lines))
        status, output, errors = ran(*self.words, "handler", script, told, **streams)
        return output, told_by(status, told.read_bytes(), errors)


def told_by(status, output, errors):
    """The lines that a driver has told, or how it has failed."""
    return output.decode().split("\n")[:-1] if (status, errors) == (0, b"") else (status, errors.decode()[-2000:])


def sessions(client, cases):
    """Each case in a session of its own: asks, and the bytes that come for each. What the driver tells of the asks, and what the other side has heard."""
    with contextlib.ExitStack() as stack:
        daemons = [stack.enter_context(peer.Daemon(replies, split)) for _, replies, split in cases]
        told = client.asks([line for (lines, *_), daemon in zip(cases, daemons) for line in [f"connect {daemon.path}", *lines]])
        for daemon in daemons:
            daemon.ended()
        if not isinstance(told, list):
            return [(told, [])] * len(cases)
        ends = list(itertools.accumulate(1 + len(lines) for lines, *_ in cases))
        return [(told[end - len(case[0]) : end], daemon.heard) for end, case, daemon in zip(ends, cases, daemons)]


def speaks(client, room):
    """Each ask is the one frame that the protocol has for it, and its reply is printed: in one session over a socket, in one handler, and byte by byte."""
    lines, bodies, replies, wanted = zip(*GOOD)
    [got] = sessions(client, [(lines, list(map(peer.frame, replies)), False)])
    count.same(f"{client.name}: asks over a socket", got, (list(wanted), list(bodies)))
    first = [] if client.any_stream else [at for at, line in enumerate(lines) if line == "assume 2147483647"]
    order = [*first, *[at for at in range(len(lines)) if at not in first]]
    output, told = client.handles(room, [lines[at] for at in order], input=b"".join(peer.frame(replies[at]) for at in order))
    count.same(f"{client.name}: asks of a handler", (told, output), ([wanted[at] for at in order], b"".join(peer.frame(bodies[at]) for at in order)))
    short = [(line, peer.frame(reply), want) for line, _, reply, want in GOOD if len(reply) < 100]
    [got] = sessions(client, [([line for line, *_ in short], [reply for _, reply, _ in short], True)])
    count.same(f"{client.name}: replies byte by byte", got[0], [want for *_, want in short])


def is_refused(client):
    """Each refusal is reported by its name, and the session goes on."""
    replies = [peer.frame(peer.refused(errno)) for errno in ERRNOS]
    for name, (told, _) in zip(ONE_OF_EACH, sessions(client, [([line] * len(ERRNOS), replies, False) for line in ONE_OF_EACH.values()])):
        count.same(f"{client.name}: {name} is refused", told, list(ERRNOS.values()))


def meets_hostile(client, room):
    """An invalid reply is reported, and nothing more is asked."""
    names, cases = [], []
    for name, line in ONE_OF_EACH.items():
        wrong = {f"wrong reply {body[:8].hex()} of {len(body)}": peer.frame(body) for body in WRONG[ANSWERED.get(name, "0")]}
        for fault, reply in {**(peer.NO_REPLY if name in ["hello", "request", "read", "revoke"] else {}), **wrong}.items():
            names.append(f"{client.name}: {name} and {fault}")
            cases.append(([line, "revoke 3"], [reply, peer.frame(NUMBER)], False))
    for name, (told, heard) in zip(names, sessions(client, cases)):
        count.same(name, (told, len(heard)), (["malformed", "ended"], 1))
    whole = peer.frame(BYTES)
    cuts = [whole[:cut] for cut in range(len(whole))]
    for cut, (told, _) in zip(cuts, sessions(client, [(["read 3", "read 3"], [cut or None], False) for cut in cuts])):
        count.same(f"{client.name}: {len(cut)} bytes of a reply", told, ["ended", "ended"])
    for cut in [b"", whole[:3], whole[:-1]] if client.any_stream else []:
        output, told = client.handles(room, ["read 3", "read 3"], input=cut)
        count.same(f"{client.name}: {len(cut)} bytes of a reply to a handler", (output, told), (peer.frame(peer.on_key(7, 3)), ["ended", "ended"]))


def spells(client):
    """What has no place in a frame is not sent, and the session goes on."""
    [got] = sessions(client, [([*UNSPELT, "request user a - 0"], [peer.frame(peer.number(7))], False)])
    count.same(f"{client.name}: too long arguments", got, (["unspelt"] * len(UNSPELT) + ["7"], [peer.request(b"user", b"a", None, 0)]))


def gets(client):
    """`get` requests into the user ring and reads, both once more after EKEYEXPIRED, and never a third time; no other refusal is asked again."""
    asked = [peer.request(b"user", b"a", b"c", -4), peer.on_key(7, 12), peer.request(b"user", b"a", b"c", -4), peer.on_key(7, 16)]
    first, second, value, expired = peer.number(12), peer.number(16), peer.data(b"v"), peer.refused(127)
    cases = [
        ("a key", [first, value], [0, 1], "bytes v"),
        ("a key that expired before it was read", [first, expired, second, value], [0, 1, 2, 3], "bytes v"),
        ("a request that met an expired key", [expired, second, value], [0, 2, 3], "bytes v"),
        ("a key that expires twice", [first, expired, second, expired], [0, 1, 2, 3], "EKEYEXPIRED"),
        ("a request that meets an expired key twice", [expired, expired], [0, 2], "EKEYEXPIRED"),
        ("an expired key, and then none", [first, expired, peer.refused(126)], [0, 1, 2], "ENOKEY"),
        *[(f"a request with errno {errno}", [peer.refused(errno)], [0], ERRNOS[errno]) for errno in ERRNOS if errno != 127],
        *[(f"a read with errno {errno}", [first, peer.refused(errno)], [0, 1], ERRNOS[errno]) for errno in ERRNOS if errno != 127],
        ("a reply that is none", [first, peer.number(5)], [0, 1], "malformed"),
        ("a second reply that is none", [first, expired, value], [0, 1, 2], "malformed"),
        ("a session that ends", [first, None], [0, 1], "ended"),
    ]
    for (name, _, heard, want), got in zip(cases, sessions(client, [(["get user a c"], [it and peer.frame(it) for it in replies], False) for _, replies, *_ in cases])):
        count.same(f"{client.name}: get, and {name}", got, ([want], [asked[at] for at in heard]))
    [got] = sessions(client, [(["get user a -", "get user a "], [peer.frame(peer.refused(126))] * 2, False)])
    count.same(f"{client.name}: get without a callout, and with an empty one", got[1], [peer.request(b"user", b"a", told, -4) for told in [None, b""]])


def fails(client, room):
    """No daemon, and an output that takes nothing."""
    paths = [room / "none", room, "/" + "l" * 120]
    count.same(f"{client.name}: no daemon", client.asks([f"connect {path}" for path in paths]), ["system"] * len(paths))
    if client.any_stream:
        with open("/dev/full", "wb") as full:
            count.same(f"{client.name}: a full device", client.handles(room, ["read 3"] * 2, stdout=full)[1], ["system", "ended"])
        ours, theirs = socket.socketpair()
        theirs.close()
        with ours:
            count.same(f"{client.name}: a socket that nobody reads", client.handles(room, ["read 3"] * 2, stdout=ours)[1], ["system", "ended"])
    with socket.socket(socket.AF_UNIX) as anybody:
        anybody.bind(bytes(108))  # what an empty path would name
        anybody.listen()
        anybody.setblocking(False)
        count.same(f"{client.name}: an empty path", (client.asks(["connect "]), raised(anybody.accept)[:15]), (["system"], "BlockingIOError"))


# as a client of user 1000 on a fresh daemon, whose serials are 4, 8, 12 ..; PIPED makes keys p:* of their callouts
PIPED = "create user p:* * |/bin/cat\n"
AS_CLIENT = [
    ("read 4", "EACCES"), ("hello 1000 1000 3 96", "ENOKEY"), ("hello 1000 1000 3 0", "4 8 12 16"),
    ("hello 1000 1000 0 0", "EINVAL"), ("request user p:1 - 0", "ENOKEY"), ("request user p:1 hello -4", "20"), ("read 20", "bytes hello"),
    ("request .user p:1 - 0", "EPERM"), ("request user  - 0", "EINVAL"), ("request @32 a - 0", "EINVAL"), ("request user p:2 x -8", "ENOKEY"),
    ("request user q x 0", "ENOKEY"), ("assume 20", "ENOKEY"), ("assume 0", "0"), ("instantiate 20 v 0", "EPERM"), ("negate 20 1 0", "EPERM"),
    ("reject 20 1 129 0", "EPERM"), ("reject 20 1 3 0", "EINVAL"), ("read -7", "ENOKEY"), ("read 0", "EINVAL"), ("describe 20", "bytes user;1000;valid;p:1"),
    ("describe 97", "ENOKEY"), ("timeout 20 4000000000", "0"), ("timeout 20 0", "0"), ("timeout 96 1", "ENOKEY"), ("link 20 -1", "0"), ("link 20 0", "ENOKEY"),
    ("unlink 20 -1", "0"), ("unlink 20 -1", "ENOENT"), ("default -1", "0"), ("default 4", "0"), ("default 7", "4"), ("default 5", "EINVAL"),
    (f"add user k {ANY_WORD} -3", "28"), ("read 28", f"bytes {ANY_TOLD}"), ("add user k  -3", "EINVAL"), ("add user k v 0", "ENOKEY"),
    ("request user k - -2", "28"), ("revoke 28", "0"), ("revoke 28", "EKEYREVOKED"), ("read 28", "EKEYREVOKED"), ("clear -3", "0"), ("clear -2", "0"),
    ("clear -8", "ENOKEY"), ("describe 28", "ENOKEY"), ("callout", "ENOKEY"), ("read 20", "bytes hello"), ("get user p:1 -", "bytes hello"),
    ("get user p:3 new", "bytes new"), ("get user none -", "ENOKEY"),
]

# as the plain handler of key 12
AS_HANDLER = [
    ("read 12", "EACCES"), ("hello 0 0 0 0", "EACCES"), ("assume 16", "ENOKEY"), ("assume 12", "0"), ("hello 0 0 0 0", "EINVAL"),
    ("callout", "bytes a%20callout"), ("read -7", "bytes a%20callout"), ("describe 12", "bytes user;1000;building;h:1"), ("read 12", "EBUSY"),
    ("link 12 -3", "0"), ("unlink 12 -3", "0"), ("add user other v -8", "16"), ("read 16", "bytes v"), ("timeout 16 4000000000", "0"), ("revoke 16", "0"),
    ("read 16", "EKEYREVOKED"), ("request user h:1 x 0", "EDEADLK"), ("request user none - 0", "ENOKEY"), ("default 1", "0"), ("default -1", "1"),
    ("clear -1", "ENOKEY"), ("assume 0", "0"), ("callout", "EACCES"), ("assume 12", "0"), ("instantiate 16 v 0", "EPERM"), ("instantiate 12 v 99", "ENOKEY"),
    ("negate 16 1 0", "EPERM"), ("reject 12 1 129 99", "ENOKEY"), ("instantiate 12 v 0", "0"), ("instantiate 12 v 0", "EACCES"), ("assume 12", "EKEYREVOKED"),
]
# how a plain handler may end a construction, and what its requester gets
ENDS = [("instantiate 12 made 0", "12"), ("negate 12 60 0", "ENOKEY"), ("reject 12 60 127 0", "EKEYEXPIRED"), ("reject 12 60 128 -3", "EKEYREVOKED"),
        ("reject 12 60 129 0", "EKEYREJECTED")]


def python_alone(room):
    """What the Python client has besides its asks: `connect`, and `with`."""
    sys.path.insert(0, str(CLIENTS / "python"))
    import reqkey

    with peer.answering(peer.rings(4, 8, 12, 16), peer.number(0)) as daemon:
        with reqkey.connect(daemon.path, uid=1, gid=2, thread=True, join=12) as session:
            count.same("connect", (session.rings, session.revoke(3), daemon.heard[0]), (reqkey.Rings(4, 8, 12, 16), None, peer.hello(1, 2, 12, 1)))
        count.same("with", raised(session.revoke, 3), f"Ended: {daemon.path}: REVOKE: the session is over")
    with peer.answering(peer.refused(13)) as daemon:
        count.same("a HELLO that is refused", raised(reqkey.connect, daemon.path), f"Refused: {daemon.path}: HELLO: EACCES (13)")
        daemon.ended()
        count.same("its connection", daemon.more, b"")
    with socket.socket(socket.AF_UNIX) as listener:
        listener.bind(str(room / "silent"))
        listener.listen()
        count.same("a daemon that says nothing", raised(lambda: reqkey.connect(room / "silent", timeout=0.01)), f"timeout: [Errno 110] {os.strerror(110)}: '{room}/silent'")
    long = "/" + "l" * 120
    for path, number in [(room / "none", 2), (room, 111), (long, 36)]:
        count.same(f"a fault of the system names {path}", raised(reqkey.connect, path).partition(": ")[2], f"[Errno {number}] {os.strerror(number)}: '{path}'")
    with peer.answering(peer.rings(4, 8, 12, 16), peer.data(b"user;7;negative;a;b")) as daemon, reqkey.connect(daemon.path) as session:
        described = session.describe(3)
        count.same("what is described", described, reqkey.Described("user", 7, reqkey.State.NEGATIVE, "a;b"))
    count.same("too great a number", raised(reqkey.Session.timeout, session, 1, 2**32), "ValueError: 4294967296 is no number of 32 bits without a sign")


def signatures(kind):
    """The calls of a session, each with its parameters and what it returns."""
    return {name: (str(inspect.signature(call))) for name, call in inspect.getmembers(kind, inspect.isfunction) if name[0] != "_"}


def asyncio_alone(room):
    """What reqkey.aio has besides its asks: the calls of reqkey, tasks side by side, `connect`, and a request that is cancelled."""
    import reqkey.aio

    count.same("the calls of reqkey.aio", signatures(reqkey.aio.Session), signatures(reqkey.Session))

    async def side_by_side():
        with peer.answering(peer.rings(4, 8, 12, 16), peer.data(b"a"), peer.data(b"b")) as daemon:
            async with await reqkey.aio.connect(daemon.path, uid=1, gid=2, process=True) as session:
                got = await asyncio.gather(session.read(3), session.read(4)), session.rings
            daemon.ended()
            return got, daemon.heard

    async def cancelled():
        with socket.socket(socket.AF_UNIX) as listener:
            listener.bind(str(room / "mute"))
            listener.listen()
            session = reqkey.aio.Session(*await asyncio.open_unix_connection(str(room / "mute")), "here")
            request = asyncio.create_task(session.read(3))
            await asyncio.sleep(0)
            request.cancel()
            await asyncio.gather(request, return_exceptions=True)
            try:
                return request.cancelled(), await session.read(3)
            except reqkey.Ended as fault:
                return request.cancelled(), str(fault)
            finally:
                await session.close()

    heard = [peer.hello(1, 2, 0, 2), peer.on_key(7, 3), peer.on_key(7, 4)]
    count.same("tasks that share a session", asyncio.run(side_by_side()), (([b"a", b"b"], reqkey.Rings(4, 8, 12, 16)), heard))
    count.same("a request that is cancelled", asyncio.run(cancelled()), (True, "here: READ: the session is over"))
    for path, number in [(room / "none", 2), ("/" + "l" * 120, 36)]:
        fault = raised(lambda: asyncio.run(reqkey.aio.connect(path)))
        count.same(f"asyncio: a fault of the system names {path}", fault.partition(": ")[2], f"[Errno {number}] {os.strerror(number)}: '{path}'")
    with peer.answering(peer.refused(13)) as daemon:
        fault = raised(lambda: asyncio.run(reqkey.aio.connect(daemon.path)))
        count.same("asyncio: a HELLO that is refused", fault, f"Refused: {daemon.path}: HELLO: EACCES (13)")


def raised(call, *words):
    """The fault that a call ends with."""
    try:
        return call(*words)
    except Exception as fault:
        return f"{type(fault).__name__.replace('TimeoutError', 'timeout')}: {fault}"


def on_daemon(client, program):
    """Each ask as a client: done, and refused."""
    lines, wanted = zip(*AS_CLIENT)
    with Daemon(program, PIPED) as daemon:
        count.same(f"{client.name}: as a client of {program.name}", differing(lines, client.asks([f"connect {daemon.path}", *lines])[1:], wanted), [])


def on_handler(client, program):
    """Each ask in a handler, done and refused; and each way to end a construction."""
    for asks, outcome in [(AS_HANDLER, "12"), *[([("assume 12", "0"), (end, "0")], outcome) for end, outcome in ENDS]]:
        lines, wanted = zip(*(asks if client.any_stream else asks[asks.index(("assume 12", "0")) :]))
        with Daemon(program, "create user h:* * %room/handler\n") as daemon:
            (daemon.room / "script").write_text("\n".join(lines) + "\n")
            daemon.script("handler", f"#!/bin/sh\nexec {' '.join(client.words)} handler %room/script %room/told\n")
            asked = client.asks([f"connect {daemon.path}", "hello 1000 1000 0 0", "request user h:1 a%20callout -4"])[1:]
            told = (daemon.room / "told").read_text().split("\n")[:-1]
            wrong = [asked, differing(lines, told, wanted)]
            count.same(f"{client.name}: as a handler of {program.name}: {lines[-1]}", wrong, [["0 0 4 8", outcome], []])


def differing(lines, told, wanted):
    """The lines of which something else was told."""
    if not isinstance(told, list) or len(told) != len(lines):
        return told
    return [f"{line[:60]}: {got}, not {want}" for line, got, want in zip(lines, told, wanted) if got != want]


def examples(program, ask, handler):
    """The examples of a language: a client requests what a handler makes, and the next one finds it, whatever its callout."""
    with Daemon(program, f"create user capitals:* * {handler} %k\n") as daemon:
        name = ["user", "capitals:a"]
        asked = [[*name, "hello"], name, [*name, "other"], ["user", "capitals:b", ""], ["user", "capitals:c"], ["user"]]
        got = [ran(ask, daemon.path, *words) for words in asked]
        told = [(status, b"HELLO" in output, b"ENOKEY" in errors, b"usage: " in errors) for status, output, errors in got]
        found, none = (0, True, False, False), (1, False, True, False)
        count.same(f"examples {ask} on {program.name}", told, [found, found, found, none, none, (2, False, False, True)])


def in_go(room):
    """The driver in Go."""
    if not has("clients/go", ["go"], ["golang-go"]):
        return None
    folder = room / "go"
    shutil.copytree(CLIENTS / "go", folder / "reqkey")
    (folder / "driver").mkdir()
    shutil.copy(DRIVERS / "driver.go", folder / "driver" / "main.go")
    (folder / "driver" / "go.mod").write_text("module driver\n\ngo 1.19\n\nrequire reqkey v0.0.0\n\nreplace reqkey => ../reqkey\n")
    environment = {**os.environ, "GOFLAGS": "-mod=mod", "GOPROXY": "off", "GOCACHE": str(folder / "cache"), "GOTOOLCHAIN": "local", "CGO_ENABLED": "0"}
    count.same("gofmt of clients/go", ran("gofmt", "-l", CLIENTS / "go", DRIVERS, text=True), (0, "", ""))
    count.same("vet of clients/go", ran("go", "vet", ".", cwd=folder / "reqkey", env=environment, text=True), (0, "", ""))
    built = ran("go", "build", "-o", room / "driver-go", ".", cwd=folder / "driver", env=environment, text=True)
    count.same("clients/go is built", built, (0, "", ""))
    return None if built[0] else room / "driver-go"


def in_rust(room):
    """The driver in Rust."""
    if lacks("clients/rust", "cargo"):
        return None
    folder = room / "rust"
    shutil.copytree(CLIENTS / "rust", folder / "reqkey")
    (folder / "src").mkdir()
    shutil.copy(DRIVERS / "driver.rs", folder / "src" / "main.rs")
    manifest = '[package]\nname = "driver"\nversion = "0.0.0"\nedition = "2021"\n\n[dependencies]\nreqkey = { path = "reqkey" }\n'
    (folder / "Cargo.toml").write_text(manifest)
    environment = {**os.environ, "RUSTFLAGS": "-D warnings"}
    built = ran("cargo", "build", "-q", "--offline", "--target-dir", room / "target", cwd=folder, env=environment, text=True)
    count.same("clients/rust is built", built, (0, "", ""))
    return None if built[0] else room / "target" / "debug" / "driver"


def languages(room):
    """The clients that can be tried here, and their examples."""
    example = CLIENTS / "python" / "example_client.py", CLIENTS / "python" / "example_handler.py"
    python = [sys.executable, "-I", "-S", DRIVERS / "driver.py"]
    yield Language("Python", *python), *example
    yield Language("Python, asyncio", *python, "aio", any_stream=False), *example
    for name, driver in {"Go": in_go(room), "Rust": in_rust(room)}.items():
        if driver is not None:
            yield Language(name, driver), None, None
    if lacks("clients/c", "gcc"):
        return
    example = [compiled(count, room / name, CLIENTS / "c" / f"{name}.c", *STRICT, "-O2") for name in ["example_client", "example_handler"]]
    drivers = {"C": compiled(count, room / "driver", DRIVERS / "driver.c", *STRICT, "-O2")}
    if sanitizes(room, "clients/c"):
        drivers["C, sanitized"] = compiled(count, room / "driver_sanitized", DRIVERS / "driver.c", *STRICT, *SANITIZED)
    for name, driver in drivers.items():
        if None not in [driver, *example]:
            yield Language(name, driver), *example


def main():
    with tempfile.TemporaryDirectory(prefix="clients-") as folder:
        room = pathlib.Path(folder)
        python_alone(room)
        asyncio_alone(room)
        for client, ask, handler in languages(room):
            speaks(client, room)
            is_refused(client)
            meets_hostile(client, room)
            spells(client)
            gets(client)
            fails(client, room)
            for program in there(count):
                on_daemon(client, program)
                on_handler(client, program)
                if ask is not None:
                    examples(program, ask, handler)
    count.end()


main()
