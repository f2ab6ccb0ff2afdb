#!/usr/bin/env python3
"""reqkey-door before a daemon: three users and root as the kernel knows them, clients and daemons that misbehave, each client of clients/ and keyctl, and
the table of SECURITY.md row by row.

The door is tried as it is installed, and so that a wrong access to memory, or what it does not give back, ends it.
"""
import array
import ctypes
import functools
import json
import os
import pathlib
import re
import resource
import shutil
import socket
import subprocess
import sys
import tempfile
import threading
import time

import protocol_peer as peer
from compiled import SANITIZED, compiled, made, made_twice, sanitizes
from counted import Counted
from daemon import Client, Daemon, until
from door import KEEPER, ONE, THREE, TWO, Behind, Door, Handed, as_user
from keyutils_library import available
from programs import LIMIT, client_of, lacks, ran, same, there, top
from trap import Inside, Listening, Trap, environment, notifies

count = Counted()
RUNTIME = top / "tests" / "clients" / "runtime.py"
LINES = "create user made:* * |/bin/cat\ncreate user slow:* * |/bin/cat %room/fifo\n"
FOLDER = tempfile.TemporaryDirectory(prefix="doors-")  # what is built once
HELLO, EACCES, EINVAL, EDQUOT, ENOKEY = peer.frame(peer.hello(ONE, ONE)), "E13", "E22", "E122", "E126"


def say(path, *frames):
    """The replies to these bytes, of a client that takes nothing from a door."""
    with Client(path) as client:
        client.put(b"".join(frames))
        return [client.reply() for _ in frames]


def first(path, uid, gid=None, **more):
    """The answer to a HELLO."""
    return say(path, peer.frame(peer.hello(uid, uid if gid is None else gid, **more)))[0]


def shape(reply):
    """A reply, of rings only that they are."""
    return "rings" if isinstance(reply, (tuple, list)) else reply


def taken(path, uid=None, **more):
    """What a client gets that takes what the door hands over: how many descriptors, and the answer."""
    with Handed(path, uid, **more) as client:
        return [client.handed, shape(client.rings)]


# ---- users

def keeps(path, name=b"mine"):
    """Adds a key and reads it over the connection that was handed over, which blocks, and on which there is no other HELLO."""
    with Handed(path) as client:
        key = client.ask(peer.add(b"user", name, b"of " + name, -4))
        uid = os.getuid()
        replies = client.ask(peer.on_key(7, key), peer.hello(uid, uid), peer.hello(uid + 1, uid + 1), peer.hello(0, 0))
        return [client.blocks, *replies]


def finds(path, name):
    with Handed(path) as client:
        return "found" if isinstance(reply := client.ask(peer.request(b"user", name, None, 0)), int) else reply


def reads_all(path):
    """What comes of each serial."""
    with Handed(path) as client:
        return sorted(set(map(str, client.ask(*(peer.on_key(7, serial) for serial in range(1, 400))))))


def gives_up(path):
    """Closes the connection to the door, and asks on."""
    client = Handed(path)
    client.door.close()
    try:
        until(lambda: client.ask(peer.default(-1)) != 0, "the end of a connection")
    except OSError:
        pass
    return "ended"


def many(path, number, uid=None):
    held = [Handed(path, uid) for _ in range(number)]
    return [shape(it.rings) for it in held]


def users(program, door_program):
    """Each user is who the kernel says, whatever it says itself."""
    with Behind(program, LINES) as daemon, Door(door_program, daemon.path, "--per-user", "4") as door:
        path = door.path
        same([as_user(ONE, Client, daemon.path)], ["PermissionError"], "the daemon's own socket")
        same((daemon.path.stat().st_mode & 0o777, daemon.room.stat().st_mode & 0o777), (0o600, 0o700), "its modes")
        for uid in [ONE, TWO, THREE, 0]:
            same(shape(as_user(uid, first, path, uid)), "rings", f"a HELLO of {uid} for itself")
            same([as_user(uid, first, path, other) for other in [ONE, TWO, 0, KEEPER, 2**32 - 1] if other != uid], [EACCES] * (4 + (uid == THREE)), "for others")
            same(as_user(uid, taken, path), [1, "rings"], "one that takes what is handed over")
        same([as_user(ONE, first, path, ONE, gid) for gid in [0, TWO, 2**32 - 1]], [EACCES] * 3, "a gid that is not its own")
        same([shape(as_user(ONE, functools.partial(first, path, ONE, gid), groups=[44, 45])) for gid in [44, 45, 46]], ["rings", "rings", EACCES], "its groups")
        same(as_user(ONE, taken, path, TWO), [0, EACCES], "nothing is handed over to who is refused")
        same(as_user(ONE, keeps, path), [True, "of mine", EINVAL, EINVAL, EINVAL], "what one user keeps")
        same([as_user(uid, finds, path, b"mine") for uid in [ONE, TWO, 0]], ["found", ENOKEY, ENOKEY], "who finds it")
        same(as_user(TWO, reads_all, path), [ENOKEY], "each serial, for another user")
        same(as_user(ONE, gives_up, path), "ended", "a client that gives the door up")
        for _ in range(2):
            same(as_user(TWO, many, path, 6), ["rings"] * 4 + [EDQUOT] * 2, "six connections, where four are allowed")
            door.has_left()
        with_rings = as_user(ONE, lambda: list(Handed(path, flags=3).rings))
        same([serial > 0 for serial in with_rings], [True] * 4, "a thread and a process ring")
        same(as_user(ONE, lambda: shape(Handed(path, join=2000000000).rings)), ENOKEY, "a ring to join that is not there")
        same(as_user(ONE, joins, path), [True, True], "a ring that is joined, and a HELLO after a refused one")
        piped = as_user(ONE, say, path, HELLO, peer.frame(peer.request(b"user", b"made:a", b"x", 0)), peer.frame(peer.request(b"user", b"mine", None, 0)))
        same([shape(piped[0]), *map(type, piped[1:])], ["rings", int, int], "asks behind a HELLO, of one that takes nothing")
        door.has_left()
        same(door.ends(), (0, []), "the end of the door")


def example(program, door_program):
    """The example of PROTOCOL.md, byte by byte."""
    text = (top / "docs" / "PROTOCOL.md").read_text().partition("## Behind a door")[2].partition("```\n")[2].partition("```")[0]
    frames = [(line[0], bytes.fromhex(re.match(r"[0-9a-f ]*", line[3:])[0].rpartition("  ")[0] or line[3:])) for line in text.split("\n") if line]
    def speaks():
        client, replies = Client(door.path), []
        at_door = client.socket
        for way, frame in frames:
            if way == "-":
                client.put(frame)
                continue
            data, handed, _, _ = socket.recv_fds(client.socket, 65536, 4)
            replies.append([data.hex(), len(handed)])
            client.socket = socket.socket(fileno=handed[0]) if handed else client.socket
        at_door.close()
        return replies
    with Behind(program, LINES) as daemon, Door(door_program, daemon.path) as door:
        same(as_user(ONE, speaks), [[frame.hex(), at] for at, frame in zip([0, 1, 0], [frame for way, frame in frames if way == "<"])], "the example")


def joins(path):
    """A second client in the session ring of the first, after it was refused another ring."""
    one, two = Handed(path), Client(path)
    ring = one.rings[2]
    refused = two.ask(peer.hello(ONE, ONE, 2000000000)) == ENOKEY
    return [refused, two.ask(peer.hello(ONE, ONE, ring))[2] == ring]


def roots(program, door_program):
    """Root acts for others with --root-any alone, and then for any number of them."""
    with Behind(program, LINES) as daemon:
        with Door(door_program, daemon.path, "--per-user", "1") as door:
            same((shape(first(door.path, 0)), first(door.path, ONE)), ("rings", EACCES), "root for itself alone")
        with Door(door_program, daemon.path, "--per-user", "1", "--root-any", "--allow", str(TWO)) as door:
            same(many(door.path, 9, ONE), ["rings"] * 9, "root for another user")
            same([shape(as_user(uid, first, door.path, uid)) for uid in [ONE, TWO]], [EACCES, "rings"], "others beside it")


def admitted(_, door_program):
    """--allow: uids, ranges of them, groups; and by default no uid of /etc/subuid."""
    with Stub() as stub:
        with Door(door_program, stub.path, "--allow", "1000", "--allow", "2000-2002", "--allow", "root") as door:
            allowed = [shape(as_user(uid, first, door.path, uid)) for uid in [999, 1000, 1001, 1999, 2000, 2002, 2003]]
            same(allowed, [EACCES, "rings", EACCES, EACCES, "rings", "rings", EACCES], "who is allowed")
            same(shape(as_user(THREE, functools.partial(first, door.path, THREE), groups=[0])), "rings", "a member of a group")
        listed = stub.room / "subuid"
        listed.write_text("# of users\none:100000:65536\nbroken\nnone:7\ntwo:300000:1\nthree:400000:0\n")
        before = ["unshare", "--mount", "--", "/bin/sh", "-c", f"[ -e /etc/subuid ] && mount --bind {listed} /etc/subuid && exec \"$@\"", "sh",
                  "setpriv", f"--reuid={KEEPER}", f"--regid={KEEPER}", "--clear-groups", "--"]
        if not shutil.which("unshare") or ran(*before, "true")[0] != 0:
            print("uids of /etc/subuid: not tried, there is no such file, or it can't be another one here")
            return
        with Door(door_program, stub.path, before=before, keeper=None) as door:
            sub = [shape(as_user(uid, first, door.path, uid)) for uid in [99999, 100000, 165535, 165536, 300000, 300001, 400000]]
            same(sub, ["rings", EACCES, EACCES, "rings", EACCES, "rings", "rings"], "uids that are somebody's subordinate ones")
            listed.write_text("one:200000:5\n")
            sub = [shape(as_user(uid, first, door.path, uid)) for uid in [100000, 200000, 200004, 200005]]
            same(sub, ["rings", EACCES, EACCES, "rings"], "and after the file has changed")


# ---- clients that misbehave

def cut(program, door_program):
    """A HELLO that ends anywhere, or comes byte by byte; what is none; descriptors that come with it."""
    with Behind(program, LINES) as daemon, Door(door_program, daemon.path, "--per-user", "30") as door:
        def cuts():
            held = []
            for length in range(len(HELLO)):
                held.append(Client(door.path))
                held[-1].put(HELLO[:length])
            with Client(door.path) as slow:
                for byte in HELLO:
                    slow.put(bytes([byte]))
                rings = slow.reply()
            ends = [client.ends() for client in held[:9]]  # (the others are closed by their process' end)
            return [shape(rings), ends]
        same(as_user(ONE, cuts), ["rings", [[]] * 9], "HELLOs that are cut")
        wrong = [peer.frame(b""), peer.frame(b"\x02"), b"\xff" * 18, peer.frame(peer.hello(ONE, ONE) + b"\0"), peer.frame(peer.hello(ONE, ONE)[:-1]),
                 peer.frame(b"\x10") + bytes(13), peer.frame(b"\x11" + peer.hello(ONE, ONE)[1:]), peer.frame(b"\x10" * 65536)]
        def others():
            replies = []
            for bytes_ in wrong:
                with Client(door.path) as client:
                    try:
                        client.put(bytes_)
                    except OSError:
                        pass
                    replies.append(client.rest())
            return replies
        same(as_user(ONE, others), [[EACCES]] * len(wrong), "what is no HELLO")
        bad = [peer.hello(ONE, ONE, flags=4), peer.hello(ONE, ONE, join=2**31), peer.hello(ONE, ONE)]
        same([shape(it) for it in as_user(ONE, say, door.path, *map(peer.frame, bad))], [EINVAL, EINVAL, "rings"], "fields that the daemon refuses")
        files = [os.open("/dev/null", os.O_RDONLY) for _ in range(50)]
        def gives():
            with Client(door.path) as client:
                for at in range(len(HELLO)):
                    client.socket.sendmsg([HELLO[at : at + 1]], [(socket.SOL_SOCKET, socket.SCM_RIGHTS, array.array("i", files))])
                rings = client.reply()
                client.socket.sendmsg([peer.frame(peer.default(-1))], [(socket.SOL_SOCKET, socket.SCM_RIGHTS, array.array("i", files))])
                return [shape(rings), client.reply()]
        for _ in range(2):
            same(as_user(ONE, gives), ["rings", 0], "descriptors that come with a HELLO")
        for it in files:
            os.close(it)
        door.has_left()
        same(door.ends(), (0, []), "the end of the door")


def unread(program, door_program):
    """A client that reads nothing, while others are served; it gets each reply when it reads, in order."""
    with Behind(program, LINES) as daemon, Door(door_program, daemon.path) as door:
        def floods():
            with Client(door.path) as client, Handed(door.path) as beside:
                client.ask(peer.hello(ONE, ONE))
                key = client.ask(peer.add(b"user", b"long", b"p" * 32767, -3))
                client.socket.setblocking(False)
                asks, sent = peer.frame(peer.on_key(7, key)) * 4000, 0
                try:
                    while sent < len(asks):
                        sent += client.socket.send(asks[sent:])
                except BlockingIOError:
                    pass
                client.socket.settimeout(LIMIT)
                others = [beside.ask(peer.default(-1)), shape(first(door.path, ONE))]
                feeder = threading.Thread(target=client.socket.sendall, args=(asks[sent:],))
                feeder.start()
                right = sum(client.reply() == b"p" * 32767 for _ in range(4000))
                feeder.join()
                return [sent > 0, others, right, client.ends()]
        same(as_user(ONE, floods), [True, [0, "rings"], 4000, []], "a client that does not read")
        def leaves():
            client = Client(door.path)
            key = client.ask(peer.hello(ONE, ONE), peer.add(b"user", b"long", b"p" * 32767, -3))[1]
            client.send(*[peer.on_key(7, key)] * 300)
            return True
        same(as_user(ONE, leaves), True, "a client that leaves without reading")
        door.has_left()


def crowd(program, door_program):
    """10,000 connections of one user, all open: it gets its bound, and others are served."""
    hard = resource.getrlimit(resource.RLIMIT_NOFILE)[1]
    number = min(10000, hard - 200)
    if number < 10000:
        print(f"10,000 connections: tried with {number}, more descriptors are not allowed here")
    with Behind(program, LINES) as daemon, Door(door_program, daemon.path) as door:
        go, gone = os.pipe(), os.pipe()

        def comes():
            resource.setrlimit(resource.RLIMIT_NOFILE, (hard, hard))
            held, replies = [], {}
            for _ in range(number):
                client = socket.socket(socket.AF_UNIX)
                client.connect(str(door.path))
                held.append(client)
                try:
                    client.sendall(HELLO)
                except OSError:
                    pass
                data = client.recv(64)
                replies[data[:6].hex()] = replies.get(data[:6].hex(), 0) + 1
            os.write(go[1], b"x")
            os.read(gone[0], 1)
            return replies
        replies = []
        one = threading.Thread(target=lambda: replies.append(as_user(ONE, comes)))
        one.start()
        os.read(go[0], 1)
        others = as_user(TWO, taken, door.path), as_user(THREE, keeps, door.path)[1]
        os.write(gone[1], b"x")
        one.join()
        same(others, ([1, "rings"], "of mine"), "other users beside them")
        same(replies, [{"000000110200": 16, "00000002037a": number - 16}], "answers to them")
        door.has_left()
        same(len(door.refusals()), 10, "lines of that")
        for descriptor in [*go, *gone]:
            os.close(descriptor)


def waiting(program, door_program):
    """Who has gone while a handler works still counts, until the daemon is done with it."""
    with Behind(program, LINES) as daemon, Door(door_program, daemon.path, "--per-user", "2") as door:
        os.mkfifo(daemon.room / "fifo")
        os.chown(daemon.room / "fifo", KEEPER, KEEPER)
        def asks(kind, name):
            client = kind(door.path)
            if kind is Client:
                client.ask(peer.hello(ONE, ONE))
            client.send(peer.request(b"user", name, b"x", 0))
            return True
        same([as_user(ONE, asks, Handed, b"slow:a"), as_user(ONE, asks, Client, b"slow:b")], [True, True], "requests")
        until(lambda: len(daemon.children()) == 2, "two handlers")
        same([as_user(uid, first, door.path, ONE) for uid in [ONE, TWO]], [EDQUOT, EACCES], "one more connection")
        same(as_user(TWO, taken, door.path), [1, "rings"], "another user")
        daemon.release()
        until(lambda: as_user(ONE, taken, door.path) == [1, "rings"], "places that are free again")
        door.has_left()


# ---- daemons that misbehave

class Stub:
    """A daemon that is played, at a socket that the door's user can reach, too."""

    def __init__(self, answers=None):
        self.folder = tempfile.TemporaryDirectory(prefix="stub-")
        self.room = pathlib.Path(self.folder.name)
        self.room.chmod(0o755)
        self.path = self.room / "s"
        self.crowd = peer.Crowd(self.path, answers)

    def __enter__(self):
        self.crowd.__enter__()
        self.path.chmod(0o777)
        return self

    def __exit__(self, *_):
        self.crowd.__exit__()
        self.folder.cleanup()


def exchanged(program, door_program):
    """A daemon that is ended and started again: who comes meanwhile waits, and who was there is let go of."""
    with Behind(program, LINES) as daemon, Door(door_program, daemon.path) as door:
        def stays(ready, wait):
            with Handed(door.path) as handed, Client(door.path) as relayed, Client(door.path) as idle:
                relayed.ask(peer.hello(ONE, ONE))
                relayed.ask(peer.default(-1))
                idle.ask(peer.hello(ONE, ONE))
                os.write(ready, b"x")
                return [client.rest() for client in [handed, relayed, idle]]
        reader, writer = os.pipe()
        got = []
        one = threading.Thread(target=lambda: got.append(as_user(ONE, stays, writer, reader)))
        one.start()
        os.read(reader, 1)
        daemon.kill()
        one.join()
        same(got, [[[], [], []]], "clients of the daemon that has ended")
        two = threading.Thread(target=lambda: got.append(as_user(TWO, taken, door.path)))
        two.start()
        until(lambda: door.descriptors() != door.at_rest, "one who comes meanwhile")
        daemon.start()
        two.join()
        same(got[1:], [[1, "rings"]], "one who has come meanwhile")
        os.close(reader), os.close(writer)
        door.has_left()


def hung(program, door_program):
    """A daemon that hangs: nobody is held up but who waits for it; what is behind a HELLO is not read before it is answered, and not lost."""
    seen = threading.Event()
    def answers(at, body):
        if at == 0:
            seen.wait(LIMIT)
            raise OSError
        return stub.crowd.usual(at, body)
    with Stub(answers) as stub, Door(door_program, stub.path, "--per-user", "2") as door:
        got = []
        asks = [HELLO, *[peer.frame(peer.add(b"user", bytes([letter]), b"v", -3)) for letter in b"abc"]]
        one = threading.Thread(target=lambda: got.append(as_user(ONE, say, door.path, *asks)))
        one.start()
        until(lambda: stub.crowd.heard, "a HELLO")
        same([as_user(ONE, first, door.path, TWO), as_user(TWO, taken, door.path)], [EACCES, [1, "rings"]], "others meanwhile")
        same(len(stub.crowd.heard), 2, "what the daemon has heard")
        seen.set()
        one.join()
        same([shape(it) for it in got[0]][0], "rings", "a HELLO that is said again, to the next daemon")
        heard = [body for at, body in stub.crowd.heard if at == 2]
        same(b"".join(map(peer.frame, heard)), b"".join(asks), "what the next one has heard")
        door.has_left()
    with Stub() as stub:
        full = stub.room / "full"
        with socket.socket(socket.AF_UNIX) as listener:
            listener.bind(str(full))
            listener.listen(0)
            full.chmod(0o777)
            with Door(door_program, full, "--per-user", "40") as door:
                two = threading.Thread(target=lambda: got.append(as_user(ONE, many, door.path, 1)))
                held = [as_client(door.path) for _ in range(5)]
                same(as_user(TWO, first, door.path, ONE), EACCES, "a refusal while the daemon's queue is full")
                two.start()
                served = 0
                while served < 6:
                    each, _ = listener.accept()
                    with each:
                        if each.recv(18) == b"":
                            continue
                        each.sendall(peer.frame(peer.rings(0, 0, 4, 8)))
                        served += 1
                        each.recv(1)
                two.join()
                same(got[1:], [["rings"]], "the last one of those who wait")
                for it in held:
                    it.close()
                door.has_left()


def as_client(path):
    """A client of root that leaves as soon as it has its answer."""
    client = socket.socket(socket.AF_UNIX)
    client.connect(str(path))
    client.sendall(peer.frame(peer.hello(0, 0)))
    client.shutdown(socket.SHUT_WR)
    return client


class Late:
    """What takes ten seconds, while all else is tried: a client that says half a HELLO, one for whom no daemon comes; and a daemon that ends each connection,
    two seconds."""

    def __init__(self, door_program):
        self.door_program, self.got = door_program, []
        self.thread = threading.Thread(target=self.runs, daemon=True)
        self.thread.start()

    def runs(self):
        try:
            self.waits()
        except Exception as failed:
            self.got = f"{type(failed).__name__}: {failed}"

    def waits(self):
        def ends(at, body):
            raise OSError
        with Stub(ends) as stub, Door(self.door_program, stub.room / "none") as none, Door(self.door_program, stub.path) as lost:
            half, whole, ended = Client(none.path), Client(none.path), Client(lost.path)
            half.put(HELLO[:9])
            whole.put(peer.frame(peer.hello(0, 0)))
            ended.put(peer.frame(peer.hello(0, 0)))
            answers = [client.rest() for client in [ended, half, whole]]
            until(lambda: len(none.refusals()) == 2 and lost.refusals(), "lines of these")
            lines = sorted(re.sub(r'pid \d+, "[^"]*"', "P", line) for line in [*none.refusals(), *lost.refusals()])
            none.has_left()
            lost.has_left()
            self.got = [answers, len(stub.crowd.clients), lines, none.ends(), lost.ends()]

    def wrong(self, *_):
        """What was wrong, once all has come."""
        self.thread.join(LIMIT)
        lines = ["refused: uid 0, P: no HELLO within 10 seconds", "the daemon: No such file or directory; uid 0 was let go",
                 "the daemon: it ends connections without an answer; uid 0 was let go"]
        said = "reqkey-door: others than the door can reach the daemon's socket"
        same(self.got, [[[], [], []], 21, lines, (0, []), (0, [said])], "who is given up")


def nonsense(_, door_program):
    """A daemon that answers HELLO by anything else."""
    answers = [bytes([kind]) * length for kind in [0, 1, 2, 3, 4] for length in [1, 2, 3, 17, 18, 40] if (kind, length) not in [(2, 17), (3, 2)]]
    with Stub(lambda at, body: answers[at]) as stub, Door(door_program, stub.path) as door:
        got = [as_user(ONE, say, door.path, HELLO) for _ in answers]
        same(got, [[None]] * len(answers), "what a client gets")
        same(set(door.refusals()), {f"the daemon: its answer to HELLO is none; uid {ONE} was let go"}, "what is said of it")
        door.has_left()


# ---- the door itself

def logged(_, door_program):
    """The lines of refusals: who, and which program; ten in a minute."""
    def named():
        ctypes.CDLL(None).prctl(15, b'a"\n\\\x7f\xffz')  # PR_SET_NAME
        return [os.getpid(), first(door.path, TWO)]
    with Stub() as stub, Door(door_program, stub.path) as door:
        pid, reply = as_user(ONE, named)
        same(reply, EACCES, "a refusal")
        want = rf'refused: uid {ONE}, pid {pid}, "a\042\012\134\177\377z": EACCES, HELLO for uid {TWO}'
        until(door.refusals, "a line")
        same(door.refusals(), [want], "the line of a refusal")
        for _ in range(30):
            as_user(ONE, first, door.path, ONE, 0)
        same([re.sub(r'pid \d+, "[^"]*"', "P", line) for line in door.refusals()[1:]], [f"refused: uid {ONE}, P: EACCES, HELLO for gid 0"] * 9, "the next lines")


def starts(program, door_program):
    """Its start and its end: sockets that are taken or left behind, those of systemd, what it does not take."""
    with Behind(program, LINES) as daemon:
        run = functools.partial(ran, text=True, user=KEEPER, group=KEEPER, extra_groups=[])
        with Door(door_program, daemon.path) as door:
            same(door.path.stat().st_mode & 0o777, 0o666, "the mode of its socket")
            with Handed(door.path, 0) as client:
                taken_by = run(*door.words)
                same((taken_by[0], taken_by[2]), (1, f"reqkey-door: {door.path}: Address already in use\n"), "a second door")
                with door.stopped():
                    same(client.ask(peer.default(-1)), 0, "a client while the door does nothing")
                same((door.ends(), door.path.exists()), ((0, []), False), "the end of the door")
                same(client.ask(peer.default(-1)), 0, "a client after the end of the door")
            door.let_go()
            door.start()
            door.process.kill()
            door.let_go()
            same(door.path.exists(), True, "what is left by a door that was killed")
            door.start()
            same(as_user(ONE, taken, door.path), [1, "rings"], "a door that has replaced it")
            door.path.unlink()
            door.path.touch()
            same((door.ends(), door.path.exists()), ((0, []), True), "another file in the place of its socket")
            other = run(*door.words)
            same((other[0], other[2]), (1, f"reqkey-door: {door.path}: Address already in use\n"), "a file that is no socket")
        for words, status in [([], 2), (["--listen", "x"], 2), (["--socket", "x"], 2), (["--socket", ""], 2), (["--socket", "x" * 108], 2),
                              (["--socket", "x", "--listen", ""], 1), (["--socket", "x", "--listen", "x" * 108], 1),
                              (["--socket", "x", "--listen", "/none/x"], 1), (["--socket", "x", "--listen", "y", "z"], 2),
                              *((["--socket", "x", "--per-user", it], 2) for it in ["0", "-1", "1x", "100001", ""]),
                              *((["--socket", "x", "--allow", it], 2) for it in ["", "-1", "1-", "2-1", "4294967296", "no group", "1-2-3"]),
                              (["--none"], 2), (["--help"], 0), (["--version"], 0)]:
            done = run(door_program, *words)
            same((done[0], bool(done[1]), bool(done[2])), (status, status == 0, status != 0), f"the words {words}")
        same(run(door_program, "--version")[1], "reqkey-door 0.2.0\n", "its version")


def handed(program, door_program):
    """Sockets of systemd, by its own program, too; and what is none."""
    with Behind(program, LINES) as daemon, tempfile.TemporaryDirectory() as folder:
        room = pathlib.Path(folder)
        room.chmod(0o755)
        listeners = [socket.socket(socket.AF_UNIX) for _ in range(2)]
        for at, listener in enumerate(listeners):
            listener.bind(str(room / str(at)))
            listener.listen()
            (room / str(at)).chmod(0o666)
        with Door(door_program, daemon.path, handed=[it.fileno() + 0 for it in listeners]) as door:
            same([as_user(uid, taken, room / str(at)) for at, uid in enumerate([ONE, TWO])], [[1, "rings"]] * 2, "two sockets")
            door.has_left()
            same((door.ends(), (room / "0").exists()), ((0, []), True), "sockets that are not its own")
        null, plain = os.open("/dev/null", os.O_RDONLY), socket.socket(socket.AF_UNIX)
        for wrong in [null, plain.fileno()]:
            with Door(door_program, daemon.path, handed=[wrong]) as door:
                until(lambda: door.process.poll() is not None, "the end of the door")
                same(door.ends(), (1, ["reqkey-door: the sockets of systemd: a stream socket of the Unix domain is needed, at most 16"]), "no socket")
        os.close(null)
        for it in [plain, *listeners]:
            it.close()
        if not lacks("a socket by systemd-socket-activate", "systemd-socket-activate", "setpriv"):
            words = ["setpriv", f"--reuid={KEEPER}", f"--regid={KEEPER}", "--clear-groups", "--", door_program, "--socket", daemon.path]
            activate = subprocess.Popen(["systemd-socket-activate", "-l", str(room / "by"), *map(str, words)], stderr=subprocess.DEVNULL, stdin=subprocess.DEVNULL)
            try:
                until((room / "by").exists, "a socket")
                (room / "by").chmod(0o666)
                until(lambda: as_user(ONE, taken, room / "by") == [1, "rings"], "a client by systemd-socket-activate")
            finally:
                activate.kill()
                activate.wait()


# ---- the clients

def by_driver(name, words, driver_door):
    """A client of clients/ by its driver: two users, each with a key of its own; a foreign uid; a HELLO after a refused one."""
    def runs(uid, *lines):
        status, output, errors = ran(*words, "client", input="".join(f"{line}\n" for line in lines), text=True, user=uid, group=uid, extra_groups=[])
        return output.split("\n")[:-1] if (status, errors) == (0, "") else [status, errors]
    def known(lines):
        return [line if not re.fullmatch(r"\d+( \d+){0,3}", line) else "number" for line in lines]
    for uid, other in [(ONE, TWO), (TWO, ONE)]:
        told = runs(uid, f"connect {driver_door.path}", f"hello {other} {other} 0 0", f"hello {uid} {uid} 0 2000000000", f"hello {uid} {uid} 3 0",
                    f"add user {name}{uid} of%20{uid} -4", f"request user {name}{uid} - -3", f"request user {name}{other} - 0", "default -1",
                    f"hello {uid} {uid} 0 0")
        same(known(told[1:]), ["EACCES", "ENOKEY", "number", "number", "number", "ENOKEY", "number", "EINVAL"], f"{name} as {uid}")
        same(told[4], told[5], "the serial of a key")


def by_python(path, door):
    """The client in Python: it takes what is handed over, and each of two users finds its own key alone."""
    sys.path.insert(0, str(top / "clients" / "python"))
    import reqkey

    def keeps(uid):
        with reqkey.connect(path, thread=True, timeout=LIMIT) as session:
            ring = session.rings.session
            key = session.add("user", f"python{uid}", b"of it", reqkey.Ring.USER)
            with door.stopped() if uid == 0 else reqkey.connect(path, join=ring) as other:
                found = session.request("user", f"python{uid}") == key, session.read(key), session.rings.thread > 0
            return [*found, other is None or other.rings.session == ring]

    def tries(uid, name):
        try:
            with reqkey.connect(path, uid=uid) as session:
                return session.request("user", name)
        except reqkey.Refused as refused:
            return refused.errno.name
    # (the door stands still while root's client asks)
    same([as_user(uid, keeps, uid) for uid in [ONE, TWO]] + [keeps(0)], [[True, "of it", True, True]] * 2 + [[True, b"of it", True, True]], "Python")
    same([as_user(TWO, tries, TWO, f"python{ONE}"), as_user(TWO, tries, ONE, "x")], ["ENOKEY", "EACCES"], "Python, as another user")


def by_keyctl(words, before, path, what):
    """keyctl as two users: what one adds it prints, and the other one does not find it."""
    def runs(uid, *more):
        environment = {"PATH": os.environ["PATH"], "ASAN_OPTIONS": "detect_leaks=0", "REQKEYD_SOCKET": str(path), **before}
        return ran(*words, "keyctl", *more, text=True, env=environment, user=uid, group=uid, extra_groups=[])
    for uid in [ONE, TWO]:
        same(runs(uid, "add", "user", f"{what}{uid}", "its own", "@u")[0], 0, f"keyctl add by {what} as {uid}")
        same(runs(uid, "print", f"%user:{what}{uid}"), (0, "its own\n", ""), f"keyctl print by {what} as {uid}")
    same(runs(TWO, "request", "user", f"{what}{ONE}")[0::2], (1, "request_key: Required key not available\n"), f"keyctl request by {what} as another")
    same(runs(ONE, "request2", "user", "made:x", "callout", "@u")[0], 0, f"a handler, by {what}")


# A program of the library: it adds a key to its session ring, which its child finds there; and goes on when the daemon is another one.
IN_RING = """
import ctypes, os, sys
it = ctypes.CDLL(sys.argv[1], use_errno=True)
def told(name):
    print(it.request_key(b"user", name, None, 0) > 0, flush=True)
print(it.add_key(b"user", b"n", b"v", 1, -3) > 0, flush=True)
if os.fork() == 0:
    told(b"n")
    os._exit(0)
os.wait()
sys.stdin.readline()
told(b"n")
sys.stdin.readline()
told(b"n")
print(it.add_key(b"user", b"n", b"v", 1, -3) > 0, flush=True)
told(b"n")
"""


def by_library(library, daemon, door):
    """A program by the library: its child in its ring, the door that stands still, and the daemon that is started again."""
    environment = {"PATH": os.environ["PATH"], "REQKEYD_SOCKET": str(door.path)}
    words = [sys.executable, "-I", "-S", "-c", IN_RING, str(library)]
    with subprocess.Popen(words, stdin=subprocess.PIPE, stdout=subprocess.PIPE, text=True, env=environment) as program:
        lines = [program.stdout.readline() for _ in range(2)]
        with door.stopped():
            print(file=program.stdin, flush=True)
            lines.append(program.stdout.readline())
        daemon.kill()
        daemon.start()
        lines += program.communicate("\n", timeout=LIMIT)[0].splitlines(True)
    same("".join(lines).split(), ["True", "True", "True", "False", "True", "True"], "a program of the library")


def by_trap(program, daemon, door):
    """Programs in one trap: the door that stands still, and the daemon that is started again."""
    trap = Trap(program, door.path)
    with Inside(trap.words(), env=environment()) as inside:
        def finds():
            return inside.run("keyctl", "print", "%user:n")[:2]
        same(inside.run("keyctl", "add", "user", "n", "v", "@s")[0], 0, "keyctl in a trap")
        with door.stopped():
            same(finds(), (0, "v\n"), "a trap while the door stands still")
        daemon.kill()
        daemon.start()
        same([finds()[0], inside.run("keyctl", "add", "user", "n", "w", "@s")[0], finds()], [1, 0, (0, "w\n")], "a trap, and another daemon")


@functools.cache
def built_once(name):
    """What a client's Makefile makes."""
    return made(count, name, pathlib.Path(FOLDER.name) / name)


def clients(program, door_program):
    """Each client, as several users."""
    with Behind(program, LINES) as daemon, Door(door_program, daemon.path) as door, tempfile.TemporaryDirectory(prefix="clients-") as folder:
        room = pathlib.Path(folder)
        room.chmod(0o755)
        strict = ["-std=c11", "-Wpedantic", "-Wconversion", "-Wshadow", "-I", top / "clients" / "c", top / "clients" / "c" / "reqkey.c"]
        driver = compiled(count, room / "driver", top / "tests" / "clients" / "driver.c", *strict, *(SANITIZED if sanitizes(room, "clients/c") else []))
        by_driver("c", [driver], door)
        by_python(door.path, door)
        control = pathlib.Path(program).with_name(pathlib.Path(program).name.replace("reqkeyd", "reqkeyctl"))
        for uid, status in [(ONE, 0), (TWO, 1)]:
            words = [control, "--socket", door.path, "--uid", str(ONE), "--gid", str(ONE), "add", "user", "n", "v", "user"]
            done = ran(*words, text=True, user=uid, group=uid, extra_groups=[])
            same((done[0], "errno 13" in done[2]), (status, status == 1), f"reqkeyctl of {uid}")
        if available():
            library = built_once("keyutils")
            by_keyctl([], {"LD_PRELOAD": str(library)}, door.path, "library")
            by_library(library, daemon, door)
            trap = built_once("trap") if notifies() else None
            if trap is not None:
                by_keyctl([trap, "--"], {}, door.path, "trap")
                by_trap(trap, daemon, door)
        door.has_left()
        same(door.ends(), (0, []), "the end of the door")


# ---- the table of SECURITY.md

# A program in a trap or a container: what it prints of its calls, as the users that it becomes one after another.
CALLS = """
import ctypes, errno, os, sys
libc = ctypes.CDLL(None, use_errno=True)
ADD, REQUEST, KEYCTL = {"x86_64": (248, 249, 250), "aarch64": (217, 218, 219)}[os.uname().machine]
def call(*words):
    result = libc.syscall(*words)
    return result if result >= 0 else errno.errorcode[ctypes.get_errno()]
def become(uid):
    os.setresgid(uid, uid, 0)
    os.setresuid(uid, uid, 0)
def again():
    os.setresuid(0, 0, 0)
    os.setresgid(0, 0, 0)
def add(name):
    return call(ADD, b"user", name, b"v", 1, -4)
"""

ACTS = CALLS + """
become(1000)
key = call(REQUEST, b"user", b"whose:trapped", b"x", -4)
payload = ctypes.create_string_buffer(64)
length = call(KEYCTL, 11, key, payload, 64)
print(payload.raw[:length].decode().split())
"""

READS = CALLS + """
become(1004)
print([call(KEYCTL, 11, int(sys.argv[1]), None, 0), call(KEYCTL, 3, int(sys.argv[1]))])
"""

FILLS = CALLS + """
become(1000)
print([add(b"%d" % each) for each in range(201)][-1])
again()
become(1001)
print(isinstance(add(b"n"), int))
"""

ENDS = CALLS + """
made = 0
for uid in range(2000, 2040):
    become(uid)
    made += isinstance(add(b"n"), int)
    again()
print(made <= 32)
"""


def printed(words, script, *more):
    status, output, errors = ran(*words, sys.executable, "-I", "-S", "-c", script, *map(str, more), text=True, env=environment())
    return output.split("\n")[:-1] if (status, errors) == (0, "") else [status, errors]


def acts(path, door, *words):
    """Who may act for another user, or for a group that is not its own."""
    direct = [shape(as_user(ONE, first, path, uid, gid)) for uid, gid in [(TWO, ONE), (ONE, 0)]]
    behind = [shape(as_user(ONE, first, door, uid, gid)) for uid, gid in [(TWO, ONE), (ONE, 0)]]
    trap, container = [printed(it, ACTS) for it in words]
    return [direct == ["rings"] * 2, behind != [EACCES] * 2, trap != ["['1000', '1000']"], not re.fullmatch(r"\['30000000\d\d', '1000'\]", container[0])]


def reads(path, door, *words):
    """Who may read or revoke a key in another user's ring, one of the same hall."""
    with Client(path, ONE) as owner, Client(path) as other:
        key = owner.ask(peer.add(b"user", b"mine", b"secret", -4))
        gets = other.ask(peer.hello(ONE, ONE), peer.on_key(7, key))[1]
        def asks():
            with Handed(door) as client:
                return client.ask(peer.on_key(7, key), peer.on_key(9, key))
        behind = as_user(ONE + 4, asks)
        trapped = [printed(it, READS, key) for it in words]
        return [gets == b"secret", behind != [EACCES] * 2, *(it[0] not in ["['EACCES', 'EACCES']", "['ENOKEY', 'ENOKEY']"] for it in trapped)]


def fills(path, door, *words):
    """Who may use up another user's keys."""
    def adds(at):
        with Client(at) as client:
            rings = client.ask(peer.hello(THREE, THREE))
            return [shape(rings), *(client.ask(peer.add(b"user", b"%d" % each, b"v", -4)) for each in range(201) if rings != EACCES)][-1]
    direct = as_user(ONE, adds, path), say(path, peer.frame(peer.hello(THREE, THREE)), peer.frame(peer.add(b"user", b"n", b"v", -4)))[1]
    return [direct == (EDQUOT, EDQUOT), as_user(ONE, adds, door) != EACCES, *(printed(it, FILLS) != ["EDQUOT", "True"] for it in words)]


def ends_halls(path, door, *words):
    """Who may leave a hall without room for another ring."""
    new = range(4000, 4000 + 4 * 1023, 4)
    behind = {as_user(ONE, lambda: sorted({first(door, uid) for uid in new})) == [EACCES], shape(as_user(ONE + 8, first, door, ONE + 8)) == "rings"}
    trapped = [printed(it, ENDS) != ["True"] for it in words]
    as_user(ONE, lambda: [first(path, uid) for uid in new])
    # (a session ring of a client that has just gone may still have had one of the last places)
    more = iter(range(400000, 500000, 4))
    until(lambda: [as_user(ONE, first, path, next(more)) for _ in range(5)] == [EDQUOT] * 5, "a hall without room")
    return [True, behind != {True}, *trapped]


ROWS = {
    "act for another user, or a group that is not one's own": acts,
    "read or revoke keys in another user's rings": reads,
    "use up another user's 200 keys": fills,
    "end a hall by HELLOs for 1,023 new users": ends_halls,
}


def table(program, door_program):
    """Each row of SECURITY.md's table: at a socket that everybody can reach, behind a door, in a trap, and in a container."""
    lines = [line.strip("|").split("|") for line in (top / "SECURITY.md").read_text().split("\n") if line.startswith("| ") and not line.startswith("| |")]
    rows = {line[0].strip(): [re.match(r" (\w+)", cell)[1] for cell in line[1:]] for line in lines if len(line) == 5}
    same(sorted(rows), sorted(ROWS), "the rows")
    if not notifies():
        print("the table of SECURITY.md: not tried, this kernel hands no calls to a supervisor")
        return
    trap = built_once("trap")
    for name, tries_it in ROWS.items():
        with Daemon(program, LINES + "create user whose:* * |/bin/echo %u %g\n", "--mode", "666") as daemon, Door(door_program, daemon.path, keeper=None) as door:
            daemon.room.chmod(0o755)
            with Listening(count, trap, daemon, environment()) as listening:
                state = json.dumps({"state": {"id": "a container"}})
                contained = [sys.executable, str(RUNTIME), str(listening.path), state]
                got = tries_it(daemon.path, door.path, Trap(trap, daemon.path).words(), contained)
                same(["anyone" if each else "nobody" for each in got], rows[name], f"who may {name}")


def main():
    if os.geteuid() != 0:
        print("reqkey-door: not tried, this is not root, who can be several users")
        count.end()
    if lacks("clients/door", "gcc", "make"):
        count.end()
    with FOLDER as folder:
        room = pathlib.Path(folder)
        room.chmod(0o755)
        doors = [it for it in made_twice(count, "door", room) if it is not None]
        for it in room.glob("*-door"):
            it.chmod(0o755)
        programs = [shutil.copy(program, room) for program in there(count) if shutil.copy(client_of(program), room)]
        late = Late(doors[-1])
        for at, door_program in enumerate(doors):
            for case in CASES if door_program == doors[-1] else [it for it in CASES if it is not table]:
                tried(f"{door_program.parent.name} {case.__name__}", case, programs[at % len(programs)], door_program)
        tried("late", late.wrong)
    count.end()


def tried(name, case, *words):
    """Counts a case, which raises what is wrong."""
    begun = time.monotonic()
    try:
        wrong = case(*words)
    except Exception as failed:
        wrong = f"{type(failed).__name__}: {failed}"
    if "TIMES" in os.environ:
        print(f"{time.monotonic() - begun:6.2f} {name}")
    count.wrong(name, wrong)


CASES = [users, example, roots, admitted, cut, unread, crowd, waiting, exchanged, hung, nonsense, logged, starts, handed, clients, table]
main()
