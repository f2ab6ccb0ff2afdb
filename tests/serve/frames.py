"""Frames that are cut, in pieces, or not what they should be, over sockets and over the pipes of handlers."""
import fcntl
import functools
import random
import re
import socket
import struct
import termios

import alike
import protocol_peer as ask
from daemon import Client, Daemon, GaveUp, told, until
from programs import differs, ran
from scenarios import scenarios

HELLO = ask.frame(ask.hello(1000, 1000))
KEY = ask.frame(ask.request(b"user", b"a", b"x", -4))


def cut_client(program):
    """Every proper prefix of a frame, and then the end: the frames before it are answered, and nothing else is."""
    with Daemon(program, "create * * * |/bin/cat\n") as daemon:
        wrong = None
        for whole, replies, cut in [([], 0, HELLO), ([HELLO], 1, KEY), ([], 0, b"\0\1\0\0" + bytes(60_000))]:
            for length in [*range(min(len(cut), 40)), len(cut) - 1]:
                for shuts in [True, False]:
                    with Client(daemon.path) as client:
                        client.put(b"".join(whole) + cut[:length])
                        got = client.ends() if shuts else None
                    if shuts and len(got) != replies:
                        wrong = wrong or f"{length} bytes: {got}"
        return wrong or daemon.lives()


def cut_handler(program):
    """The same of a handler."""
    frames = [ask.frame(ask.on_key(3, 12)), ask.frame(ask.instantiate(12, b"hi", 0))]
    with Daemon(program, "create user h:* * %puppet %k\n", "--negative", "0") as daemon, daemon.client() as client:
        for at, (before, cut) in enumerate([(b"", frames[0]), (frames[0], frames[1])]):
            for length in range(len(cut)):
                client.send(ask.request(b"user", b"h:1", b"x", -4))
                handler = daemon.handler()
                serial = struct.pack(">I", handler.key)
                handler.put((before + cut).replace(struct.pack(">I", 12), serial)[: len(before) + length])
                handler.close_output()
                got = handler.all_input(), handler.ends(), client.reply()
                if got[0] != ask.frame(ask.number(0)) * at or got[2] != "E126":
                    return f"{length} bytes of frame {at}: {got}"
        return daemon.lives()


def byte_by_byte(program):
    """Frames whose bytes come one by one, and several in one piece."""
    with Daemon(program, "create user p:* * |/bin/cat\n") as daemon:
        with daemon.client(None) as client:
            for byte in HELLO + KEY.replace(b"\0\1a", b"\0\1b") + ask.frame(ask.on_key(7, 12)):
                client.put(bytes([byte]))
            first = client.ends()
        with daemon.client(None) as client:
            client.put(HELLO + ask.frame(ask.request(b"user", b"p:1", b"x", -4)) + ask.frame(ask.on_key(7, 20)) + ask.frame(b"\xff") * 100)
            return differs((first, client.ends()), ([(0, 0, 4, 8), "E126", "E126"], [(0, 0, 16, 8), 20, b"x", *["E22"] * 100]))


def bad_length(program, head):
    """A length that no frame has: what stands before it is answered, and then the connection is closed."""
    with Daemon(program) as daemon:
        with daemon.client(None) as client:
            client.put(HELLO + ask.frame(ask.add(b"user", b"k", b"v", -4)) + head)
            got = client.rest()
        with daemon.client(None) as client:
            client.put(head + HELLO)
            return differs((got, client.rest()), ([(0, 0, 4, 8), 12], [])) or daemon.lives()


def longest(program):
    """A frame of 65,536 bytes is read, and refused."""
    with Daemon(program) as daemon, daemon.client(None) as client:
        got = client.ask(bytes(65536), ask.hello(1000), bytes(65536), ask.on_key(7, 8))
        return differs(got, ["E22", (0, 0, 4, 8), "E22", "E126"])


# ---- what clients say in the scenarios of tests/replay


def said_in(script):
    """The bytes that each client of a script sends."""
    said, there = [], {}
    for line in script.split("\n"):
        match = re.fullmatch("[ \t]*[0-9]+[ \t]+(accept|bytes|gone)[ \t]+([0-9]+)(?:[ \t]+((?:[0-9A-Fa-f]{2})+))?[ \t]*", line)
        verb, client, data = match.groups() if match else (None, None, None)
        if verb == "accept" and client not in there:
            said.append(bytearray())
            there[client] = said[-1]
        elif verb == "bytes" and data and client in there:
            there[client] += bytes.fromhex(data)
        elif verb == "gone":
            there.pop(client, None)
    return [bytes(it) for it in said]


def whole(data):
    """The bodies of the whole frames, up to a length that no frame has."""
    bodies, at = [], 0
    while at + 4 <= len(data):
        length = struct.unpack(">I", data[at : at + 4])[0]
        if not 1 <= length <= 65536 or at + 4 + length > len(data):
            break
        bodies.append(data[at + 4 : at + 4 + length])
        at += 4 + length
    return bodies


def answers(data):
    """The replies that these bytes are, whole ones alone."""
    replies = whole(data)
    if sum(len(it) + 4 for it in replies) != len(data):
        raise GaveUp(f"replies that end within one: {data[-40:].hex()}")
    return [told(it) for it in replies]


def of_one(body, uid=1000):
    """The body for this uid and gid, and without an expiry that comes while it is tried."""
    if body[0] == 1 and len(body) >= 9:
        return body[:1] + struct.pack(">II", uid, uid) + body[9:]
    if body[0] == 10 and len(body) == 9 and any(body[5:]):
        return body[:5] + b"\xff" * 4
    return body


@functools.cache
def bodies_of_scenarios():
    """For each scenario the bodies that each of its clients sends, all for one uid."""
    return [[tuple(map(of_one, whole(data))) for data in said_in(case.script.decode("latin-1"))] for case in scenarios()]


NO_PROGRAM = "# no program is started\n"


def replayed(program, bodies):
    """The replies of `reqkeyd replay` to a client alone that sends these bodies, with no program for any key."""
    lines = [f"100 bytes 1 {ask.frame(body).hex()}\n" for body in bodies]
    script = f"conf {NO_PROGRAM}negative {alike.FOREVER}\n100 accept 1\n{''.join(lines)}"
    _, output, _ = ran(program, "replay", input=script, text=True)
    return [told(bytes.fromhex(line.split(" ")[2])[4:]) for line in output.splitlines()]


class Relocated:
    """A daemon to which many clients say the same, each with a uid of its own and the serials that come next: so each gets what the first one got."""

    MOST = 900  # users, since the rings of each stay

    def __init__(self, program):
        self.program, self.daemon, self.users = program, None, 0

    def __enter__(self):
        return self

    def __exit__(self, *_):
        if self.daemon:
            self.daemon.__exit__()

    def begins(self):
        """The uid of a new client, and its first serial."""
        if self.daemon is None or self.users == self.MOST:
            self.__exit__()
            self.daemon, self.users = Daemon(self.program, NO_PROGRAM, "--negative", str(alike.FOREVER)), 0
            self.daemon.__enter__()
            self.witness = self.daemon.client(0)
        self.users += 1
        return 4 * self.users, self.witness.ask(ask.add(b"user", b"last", b"v", -3)) + 4

    def hears(self, bodies, cut):
        """The replies to these, and to the beginning of a frame behind them, as they are in a script."""
        uid, first = self.begins()
        bodies = [alike.moved(of_one(body, uid), first) for body in bodies]
        with Client(self.daemon.path) as client:
            client.put(b"".join(map(ask.frame, bodies)) + cut)
            client.socket.shutdown(socket.SHUT_WR)
            replies = answers(client.take(2**30))
        replies = [alike.moved_back(body, reply, first) for body, reply in zip(bodies, replies)] + replies[len(bodies) :]
        return [it.replace(b";%d;" % uid, b";1000;") if isinstance(it, bytes) else it for it in replies]


def cuts(bodies, tried, dice):
    """How many bodies stand before a frame that is cut, and where: at each byte, a long one at some; one that stands behind many, or is as long as an
    earlier one of its op in the scenario, at one."""
    for at, body in enumerate(bodies):
        like, some = (body[0], len(body), at > 0), dice.randrange(len(body) + 4)
        lengths = [some] if like in tried or at > 16 else {*range(min(len(body) + 4, 64)), some, len(body) + 3}
        yield from ((at, length) for length in lengths)
        tried.add(like)


def cut_scenarios(program):
    """Each frame of a client of each scenario is cut, and then the input ends: the replies before it are those of replay, and there is no other."""
    dice, done = random.Random(3), set()
    with Relocated(program) as many:
        for streams in bodies_of_scenarios():
            tried = set()
            for bodies in streams:
                replies = replayed(program, bodies) if bodies not in done else []
                for at, length in cuts(bodies, tried, dice) if bodies not in done else []:
                    got = many.hears(bodies[:at], ask.frame(bodies[at])[:length])
                    if got != replies[:at]:
                        return f"{length} bytes of {bodies[at][:40].hex()} behind {at} frames: {got[-3:]}, not {replies[:at][-3:]}"
                done.add(bodies)
        return many.daemon.lives()


# ---- pieces


def in_pieces(speaker, descriptor, unread, pieces):
    """Sends each piece when the one before it has been read, as the system counts what this descriptor still holds."""
    for piece in pieces:
        speaker.put(piece)
        until(lambda: not any(fcntl.ioctl(descriptor, unread, b"\0" * 4)), "the read of a piece")


def all_pieces(data):
    """The bytes cut in two at each byte, and into single bytes."""
    yield from ([data[:at], data[at:]] for at in range(1, len(data)))
    yield [bytes([byte]) for byte in data]


def pieces_of_client(program):
    """A client's frames are cut in two at each byte, and into single bytes; the daemon reads each piece by itself."""
    data = HELLO + ask.frame(ask.add(b"user", b"k", b"v", -3)) + ask.frame(ask.request(b"user", b"k", None, 0)) + ask.frame(ask.CALLOUT)
    with Daemon(program) as daemon:
        for pieces in all_pieces(data):
            with Client(daemon.path) as client:
                in_pieces(client, client.socket, termios.TIOCOUTQ, pieces)
                rings, *replies = client.ends()
            if not isinstance(rings, tuple) or replies != [replies[0], replies[0], "E126"]:
                return f"{len(pieces[0])} bytes in the first of {len(pieces)} pieces: {rings} {replies}"
        return daemon.lives()


def pieces_of_handler(program):
    """The same of a handler, which says the same again and again."""
    with Daemon(program, "create user h:* * %puppet %k\n") as daemon, daemon.client() as client:
        client.send(ask.request(b"user", b"h:1", b"x", -4))
        handler = daemon.handler()
        data = b"".join(map(ask.frame, [ask.on_key(3, handler.key), ask.CALLOUT, ask.on_key(3, 0)]))
        for pieces in all_pieces(data):
            in_pieces(handler, handler.output, termios.FIONREAD, pieces)
            replies = [handler.reply() for _ in range(3)]
            if replies != [0, b"x", 0]:
                return f"{len(pieces[0])} bytes in the first of {len(pieces)} pieces: {replies}"
        handler.completes()
        handler.ends()
        return differs(client.reply(), handler.key)


# ---- invalid bodies


def each_byte(callout):
    """The replies to each byte as a body: CALLOUT alone has no fields, and is answered so."""
    return [callout if op == 16 else "E22" for op in range(256)]


def byte_bodies(program):
    """Each of the 256 bytes as a body, before HELLO and after it; of a handler before ASSUME, after it, and when its authority is spent."""
    bodies = [bytes([op]) for op in range(256)]
    with Daemon(program, "create user h:* * %puppet %k\n") as daemon, daemon.client(None) as client:
        got = [client.ask(*bodies), client.ask(ask.hello(1000)) and client.ask(*bodies)]
        client.send(ask.request(b"user", b"h:1", b"x", -4))
        handler = daemon.handler()
        got.append(handler.ask(*bodies))
        for body in [ask.on_key(3, handler.key), ask.instantiate(handler.key, b"made", 0)]:
            handler.ask(body)
            got.append(handler.ask(*bodies))
        handler.ends()
        got.append([client.reply()])
        return differs(got, [*map(each_byte, ["E13", "E126", "E13", b"x", "E13"]), [12]])


def mutated(data, dice):
    """The bytes with a few changes."""
    data = bytearray(data)
    for _ in range(dice.randrange(1, 4)):
        at = dice.randrange(len(data) + 1)
        end = min(at + dice.choice([1, 1, 2, 4, 20]), len(data))
        kind = dice.choice(["bit", "bit", "bit", "other", "more", "less", "twice", "length"])
        if kind == "bit" and at < end:
            data[at] ^= 1 << dice.randrange(8)
        elif kind == "other":
            data[at:end] = dice.randbytes(end - at)
        elif kind == "more":
            data[at:at] = dice.randbytes(dice.randrange(1, 9))
        elif kind == "less":
            del data[at:end]
        elif kind == "twice":
            data[at:at] = data[at:end]
        elif kind == "length":
            data[at:at] = struct.pack(">I", dice.choice([0, 1, 2, 65536, 65537, 2**31, 2**32 - 1]))
    return bytes(data)


def odd_bytes(dice):
    """Bytes from dice alone, in frames or not."""
    data = dice.choice([b"", HELLO])
    for _ in range(dice.randrange(6)):
        body = dice.choice([dice.randbytes(dice.randrange(1, 60)), bytes([dice.randrange(18)]) + dice.randbytes(dice.randrange(20))])
        data += dice.choice([ask.frame(body), ask.frame(body), KEY, dice.randbytes(dice.randrange(9))])
    return data


def odd_clients(program):
    """Random bytes, and frames of the scenarios with changes: each whole frame has a reply, and another client is answered meanwhile."""
    dice, streams = random.Random(7), [it for streams in bodies_of_scenarios() for it in streams if 0 < sum(map(len, it)) < 5000]
    with Daemon(program, "create user a* * |/bin/cat\n", "--negative", "0") as daemon, daemon.client() as other:
        key = other.ask(ask.add(b"user", b"mine", b"v", -3))
        for at in range(600):
            data = mutated(b"".join(map(ask.frame, dice.choice(streams))), dice) if at % 3 else odd_bytes(dice)
            with Client(daemon.path) as client:
                client.put(data)
                replies = client.ends() if at % 5 else None
            if replies is not None and len(replies) != len(whole(data)):
                return f"{len(replies)} replies to {data.hex()}"
            if at % 10 == 0 and other.ask(ask.on_key(7, key)) != b"v":
                return f"another client is not answered behind {data.hex()}"
        return daemon.lives()


def odd_handlers(program):
    """The same over a handler's pipes: each whole frame has a reply, and who has asked gets the key or an error that a key can have."""
    dice = random.Random(8)
    with Daemon(program, "create user handler:* * %puppet %k\n", "--negative", "0") as daemon, daemon.client() as client, daemon.client() as other:
        kept = other.ask(ask.add(b"user", b"mine", b"v", -3))
        for at in range(30):
            client.send(ask.request(b"user", b"handler:%d" % at, b"x", -3))
            handler = daemon.handler()
            key = handler.key
            asks = [ask.on_key(3, key), ask.CALLOUT, ask.add(b"user", b"k", b"v", -3), ask.request(b"user", b"k", None, -4), ask.timeout(key, 1000),
                    ask.on_key(8, key), ask.on_key(3, 0), ask.on_key(3, key), dice.choice([ask.instantiate(key, b"made", 0), ask.reject(key, 9, 129, 0)])]
            data = mutated(b"".join(map(ask.frame, asks)), dice) if at % 3 else odd_bytes(dice)
            handler.put(data)
            handler.close_output()
            replies = answers(handler.all_input())
            if len(replies) != len(whole(data)):
                return f"{len(replies)} replies to {data.hex()}"
            handler.ends(dice.randrange(256))
            outcome = client.reply()
            if outcome not in [key, "E126", "E127", "E128", "E129"] or other.ask(ask.on_key(7, kept)) != b"v":
                return f"{outcome} behind {data.hex()}"
        return daemon.lives()


def cases():
    for try_it in [cut_client, cut_handler, cut_scenarios, byte_by_byte, pieces_of_client, pieces_of_handler, longest, byte_bodies, odd_clients, odd_handlers]:
        yield try_it.__name__.replace("_", " "), try_it
    for head in [b"\0\0\0\0", b"\0\1\0\1", b"\xff\xff\xff\xff", b"\x80\0\0\0"]:
        yield f"the length {head.hex()}", bad_length, head
