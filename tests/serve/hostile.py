"""Clients that flood, stall and crowd."""
import os
import random
import select
import threading

import protocol_peer as ask
from daemon import LIMIT, Client, Crowd, Daemon, GaveUp, ended, text_of, until
from programs import differs

HELLO = ask.frame(ask.hello(1000, 1000))
VOLUME = 8192  # steps of a volume of a hall's record


def never_reads(program):
    """A client sends and never reads, until nothing more goes: others are served, and when it reads it has a reply to each."""
    with Daemon(program, "", "--sessions", "2") as daemon:
        client = daemon.client()
        key = client.ask(ask.add(b"user", b"k", b"p" * 100, -4))
        client.socket.setblocking(False)
        sent, data = 0, ask.frame(ask.on_key(7, key)) * 1000
        stuck = False
        while not stuck:
            try:
                sent += client.socket.send(data[sent % len(data) :])
            except BlockingIOError:
                with Client(daemon.path, 1000) as other:
                    replies = other.ask(*[ask.on_key(8, key)] * 50)
                if set(replies) != {b"user;1000;valid;k"}:
                    return f"another client: {replies[:3]}"
                stuck = not writable(client)
        client.socket.settimeout(LIMIT)
        replies = client.ends()
        whole = sent // 9
        return differs((len(replies), {len(it) for it in replies}), (whole, {100})) or daemon.lives()


def writable(client):
    """Whether more can be sent now, as it is when the daemon reads."""
    try:
        client.socket.send(b"")
    except BlockingIOError:
        return False
    return bool(select.select([], [client.socket], [], 0)[1])


def closes_unread(program):
    """Clients that ask for much, and close without reading it."""
    with Daemon(program, "", "--sessions", "2") as daemon:
        with daemon.client() as client:
            key = client.ask(ask.add(b"user", b"k", b"p" * 32767, -4))
        for _ in range(20):
            with Client(daemon.path, 1000) as client:
                client.put(ask.frame(ask.on_key(7, key)) * 40)
        return daemon.lives()


def client_leaves(program):
    """Clients that leave while the daemon writes to them, when nothing more goes: the signal of a broken pipe doesn't end it."""
    with Daemon(program, "", "--sessions", "2") as daemon, daemon.client() as other:
        key = other.ask(ask.add(b"user", b"k", b"p" * 32767, -4))
        data = ask.frame(ask.on_key(7, key)) * 1000
        for _ in range(5):
            with Client(daemon.path, 1000) as client:
                client.socket.setblocking(False)
                until(lambda: not sends(client, data), "a client to which no more goes")
            if other.ask(ask.on_key(8, key)) != b"user;1000;valid;k":
                return "another client is not answered"
        return daemon.lives()


def sends(client, data):
    try:
        return client.socket.send(data)
    except BlockingIOError:
        return 0


def silent(program):
    """Clients that say nothing hold up nobody but themselves."""
    with Daemon(program) as daemon:
        idle = [daemon.client(None) for _ in range(63)]
        with daemon.client() as client:
            rings = client.rings
        ends = [it.ends() for it in idle]
        return differs((rings, ends), ((0, 0, 4, 8), [[]] * 63)) or daemon.lives()


def come_and_go(program):
    """Ten thousand clients one after the other, of which most say nothing, some a part of HELLO, and some HELLO: nothing is left of them."""
    with Daemon(program, "create user p:* * |/bin/cat\n") as daemon:
        with daemon.client() as client:
            client.ask(ask.request(b"user", b"p:1", b"x", -4))
        before = daemon.settled()
        for at in range(10_000):
            with Client(daemon.path, None if at % 10 else 1000) as client:
                if at % 10 == 5:
                    client.put(HELLO[: at // 10 % 18])
        daemon.has_left(before)
        return daemon.lives()


def rings_of_many(program):
    """More users than there are rings: EDQUOT for a new one, and the first is still served."""
    with Daemon(program) as daemon:
        last = None
        for at in range(1030):
            with Client(daemon.path, 4 * at) as client:
                last = client.rings
                client.ends()
            if last == "E122":
                break
        with daemon.client(0) as first, daemon.client(1) as other:
            return differs((last, at, isinstance(first.rings, tuple), other.rings), ("E122", 1023, True, (0, 0, 1, 5)))


def one_worker(program, count):
    """With one worker all wait for their turn, and none is lost."""
    with Daemon(program, "", "--sessions", "1") as daemon:
        first = daemon.client()
        replies = {}

        def comes(at):
            with Client(daemon.path) as client:
                client.put(HELLO + ask.frame(ask.add(b"user", b"k%d" % at, b"v", -3)))
                replies[at] = client.ends()

        crowd = Crowd(comes, range(count))
        alone = first.ask(*[ask.on_key(7, 8)] * 50), dict(replies)
        first.socket.close()
        wrong = crowd.ended() + [it for it in replies.values() if len(it) != 2 or not isinstance(it[0], tuple) or not isinstance(it[1], int)]
        return differs((set(alone[0]), alone[1], len(replies), wrong[:2]), ({"E126"}, {}, count, [])) or daemon.lives()


def all_at_once(program):
    """Sixty-four sessions at a time: handlers for most, one that never reads, one that is silent, and two that are served meanwhile."""
    with Daemon(program, "create user h:* * |%room/held\n") as daemon:
        daemon.script("held", "#!/bin/sh\nread line < %room/gate\necho made\n")
        os.mkfifo(daemon.room / "gate")
        waiting = [daemon.client(1000 + at) for at in range(60)]
        for at, client in enumerate(waiting):
            client.send(ask.request(b"user", b"h:%d" % at, b"x", -4))
        until(lambda: len(daemon.children()) == 60, "sixty handlers")
        daemon.client(None)
        slow = daemon.client(2000)
        slow.put(ask.frame(ask.on_key(7, 8)) * 5000)
        with daemon.client(3000) as one, daemon.client(3001) as two:
            served = [it.ask(ask.add(b"user", b"k", b"v", -4), ask.on_key(8, it.rings[2])) for it in [one, two]]
        with open(daemon.room / "gate", "wb", buffering=0) as gate:
            gate.write(b"\n" * 60)
            outcomes = [client.reply() for client in waiting]
            payloads = {client.ask(ask.on_key(7, key)) for client, key in zip(waiting, outcomes) if isinstance(key, int)}
        replies = slow.ends()
        made = [isinstance(it, int) for it in outcomes]
        lasting = [isinstance(it[0], int) and it[1] == "E126" for it in served]
        want = ([True] * 60, {b"made\n"}, 5000, {"E126"}, [True, True])
        return differs((made, payloads, len(replies), set(replies), lasting), want) or daemon.lives()


def short_beside_long(program):
    """Handlers that are started while others run don't hold one another's pipes: each short one ends though the long ones go on."""
    with Daemon(program, "create user h:* * |%room/held\ncreate user p:* * |/bin/cat\n") as daemon:
        daemon.script("held", "#!/bin/sh\nread line < %room/gate\necho made\n")
        os.mkfifo(daemon.room / "gate")
        held, short = [daemon.client() for _ in range(20)], [daemon.client() for _ in range(20)]
        for at, (one, other) in enumerate(zip(held, short)):
            one.send(ask.request(b"user", b"h:%d" % at, b"x", -3))
            other.send(*[ask.request(b"user", b"p:%d" % (at * 5 + each), b"x", -3) for each in range(5)])
        replies = [client.reply() for client in short for _ in range(5)]
        until(lambda: len(daemon.children()) == 20, "twenty handlers that go on")
        with open(daemon.room / "gate", "wb", buffering=0) as gate:
            gate.write(b"\n" * 20)
            outcomes = [client.reply() for client in held]
        return differs([it for it in replies + outcomes if not isinstance(it, int)], []) or daemon.lives()


def same_key(program):
    """Sixty clients ask for the same keys at once, again and again: each name is made once, and all get the same serials."""
    with Daemon(program, "create user p:* * |/bin/cat\n") as daemon:
        clients = [daemon.client() for _ in range(60)]
        asks = [ask.request(b"user", b"p:%d" % at, b"x", -4) for at in range(8)]
        for client in clients:
            client.send(*asks)
        replies = {tuple(client.reply() for _ in asks) for client in clients}
        return differs((len(replies), all(isinstance(it, int) for it in next(iter(replies)))), (1, True)) or daemon.lives()


def crowd(program):
    """Clients of four users that ask, wait, shut and vanish as dice say, all at once: nobody is left waiting, and nothing is left of them."""
    conf = "create user a* * |/bin/cat\ncreate user b* * |/bin/false\ncreate user c* * /bin/true\nnegate user b:0 * /bin/true\n"
    with Daemon(program, conf, "--negative", "0") as daemon:
        with daemon.client() as client:
            client.ask(ask.request(b"user", b"a", b"x", -4))
        before = daemon.settled()

        def comes(dice):
            for _ in range(4):
                with Client(daemon.path, 1000 + dice.randrange(4)) as client:
                    bodies = [body_of(dice) for _ in range(dice.randrange(20))]
                    client.send(*bodies)
                    if dice.random() < 0.7 and len(replies := client.ends()) != len(bodies):
                        raise GaveUp(f"{len(replies)} replies to {len(bodies)}")

        wrong = Crowd(comes, map(random.Random, range(48))).ended()
        daemon.has_left(before)
        return differs(wrong[:3], []) or daemon.lives()


def body_of(dice):
    key, ring = dice.randrange(1, 300), dice.choice([0, -3, -4])
    name = dice.choice([b"a:%d", b"a:%d", b"b:%d", b"c:%d", b"d:%d"]) % dice.randrange(4)
    return dice.choice([
        ask.request(b"user", name, dice.choice([None, b"x"]), ring), ask.add(b"user", name, b"v" * dice.choice([1, 32767]), ring or -3),
        ask.on_key(dice.choice([7, 8, 9]), key), ask.on_key_and_ring(dice.choice([11, 12]), key, ring), ask.timeout(key, 0), ask.clear(ring), b"\xff",
    ])


def no_descriptors(program):
    """The daemon has too few descriptors for its clients: it goes on, and serves those that come when others have gone."""
    with Daemon(program, "create user p:* * |/bin/cat\n", files=24) as daemon:
        clients = []
        for _ in range(40):
            client = Client(daemon.path)
            clients.append(client)
            client.put(HELLO)
        served = [clients[0].reply(), clients[5].reply()]
        until(lambda: daemon.lines[1:] or daemon.process.poll() is not None, "a line on standard error")
        starved = clients[0].ask(ask.request(b"user", b"p:1", b"x", -4))
        lines = len(daemon.lines)
        for client in clients:
            client.socket.close()
        lives = until(lambda: daemon.process.poll() is not None or served_again(daemon), "a client that is served")
        with daemon.client() as client:
            made = client.ask(ask.request(b"user", b"p:2", b"x", -4))
        good = [isinstance(it, tuple) for it in served]
        told = any("accept: " in line for line in daemon.lines[1:])
        return differs((good, starved, bool(lives), isinstance(made, int), lines < 1000, told), ([True, True], "E126", True, True, True, True))


def few_descriptors(program):
    """It may have so few descriptors that there is none for its handlers, or just enough: what can't be started has failed, and no descriptor is lost."""
    conf = "create user c:* * |/bin/cat\ncreate user t:* * /bin/true\ncreate user f:* * |/bin/false\nnegate * * * /bin/true\n"
    made = []
    for files in range(6, 16):
        with Daemon(program, conf, "--sessions", "1", "--negative", "0", files=files) as daemon, daemon.client() as client:
            before = daemon.descriptors()
            asks = [ask.request(b"user", b"%s:%d" % (kind, at), b"x", -4) for kind in [b"c", b"t", b"f"] for at in range(3)]
            replies = client.ask(*asks)
            made.append([isinstance(it, int) for it in replies[:3]])
            refused = {it for it in replies if not isinstance(it, int)}
            daemon.has_left(before)
            if wrong := differs((refused, set(replies[3:])), ({"E126"}, {"E126"})):
                return f"{files} descriptors: {wrong}"
    enough = made.index([True] * 3)
    return differs(made, [[False] * 3] * enough + [[True] * 3] * (len(made) - enough)) or differs(enough > 0, True)


def all_busy(program, workers):
    """Clients that find all workers busy wait, and the first of them is reported; and again when another one has found a worker free meanwhile."""
    with Daemon(program, "", "--sessions", str(workers), "--clients", str(2 * workers + 6)) as daemon:
        for count in [1, 2]:
            served = [daemon.client() for _ in range(workers)]
            waiting = [daemon.client(None) for _ in range(3)]
            until(lambda: len(daemon.lines[1:]) == count, f"a warning that {workers} are busy")
            # (the listener is closed behind the last one)
            until(lambda: daemon.descriptors()["socket"] == workers + len(waiting) + (count == 1), "a connection of each")
            rest = [client.ends() for client in served]
            then = [(type(client.ask(ask.hello(1000, 1000))), client.ends()) for client in waiting]
            if wrong := differs((rest, then), ([[]] * workers, [(tuple, [])] * 3)):
                return wrong
        status, lines = daemon.end()
        return differs((status, list(map(text_of, lines))), (0, [f"warn: all {workers} workers are busy, connections wait"] * 2))


def served_again(daemon):
    try:
        with Client(daemon.path, 1000) as client:
            return isinstance(client.rings, tuple)
    except OSError:
        return False


def full_record(program, hall):
    """More steps in one hall than a volume of its record has: it is reported, counted and dropped, and nobody notices. A few places of it are kept for what is
    owed."""
    with Daemon(program, "", "--status", "1", "--log", "error") as daemon, daemon.client(1000 + hall) as client:
        key = client.ask(ask.add(b"user", b"k", b"v", -4))
        asks, reply = ask.frame(ask.default(-1)) * 4096, ask.frame(ask.number(0)) * 4096
        for sent in range(0, VOLUME + 4096, 4096):
            sender = threading.Thread(target=client.put, args=(asks,))
            sender.start()
            if client.take(len(reply)) != reply:
                return f"a reply among the asks from {sent} on"
            ended(sender, "the asks")
        told = until(lambda: [line for line in daemon.lines if line.startswith("volume ")], "the line of the volume")
        steps = int(told[0].removeprefix(f"volume {hall} 1 "))
        until(lambda: are_counted(daemon, 1), "a line of figures that counts the volume")
        return differs((client.ask(ask.on_key(7, key)), len(told), VOLUME - 64 <= steps <= VOLUME), (b"v", 1, True)) or daemon.lives()


def are_counted(daemon, volumes):
    """Whether a line of figures says that so many volumes were full."""
    return any(text_of(line).startswith("info: status: ") and line.endswith(f", volumes {volumes}") for line in daemon.lines)


def long_payloads(program, hall):
    """Long payloads in one hall: the volume of its record is handed out long before it has all its steps, and what the daemon holds stays bounded."""
    with Daemon(program, "", "--clients", "1", "--status", "1", "--log", "error") as daemon:
        with daemon.client(1000 + hall) as client:
            add = ask.add(b"user", b"k", b"v" * 32000, -4)
            before = memory(daemon, "VmRSS")
            for sent in range(0, 2500, 10):
                keys = client.ask(*[add] * 10)
                if not all(isinstance(key, int) for key in keys):
                    return f"a reply among the asks from {sent} on: {keys}"
            held = memory(daemon, "VmRSS") - before
            until(lambda: are_counted(daemon, 4), "a line of figures that counts the volumes")
        status, lines = daemon.end()
        steps = [int(line.removeprefix(f"volume {hall} ").split(" ")[1]) for line in lines if line.startswith("volume ")]
        return differs((status, len(steps), min(steps, default=0) > 400, max(steps, default=0) < 800, held < 100 << 10), (0, 4, True, True, True))


def many_made_keys(program):
    """Keys of a few bytes that handlers have made take little: what the room for a long output took is given back, and the record is bounded."""
    with Daemon(program, "create user p:* * |/bin/cat\n") as daemon:
        clients = [daemon.client(1000 + 4 * at) for at in range(8)]
        before = memory(daemon, "VmData")
        for at in range(120):
            keys = [client.ask(ask.request(b"user", b"p:%d" % at, b"made", -4)) for client in clients]
            if not all(isinstance(key, int) for key in keys):
                return f"a reply among the requests for p:{at}: {keys}"
        return differs(memory(daemon, "VmData") - before < 40 << 10, True) or daemon.lives()


def memory(daemon, kind):
    """The KiB of memory of this kind that a daemon has (proc_pid_status(5)): what is resident, VmRSS, or what it may write to, VmData."""
    with open(f"/proc/{daemon.process.pid}/status") as status:
        return next(int(line.split()[1]) for line in status if line.startswith(f"{kind}:"))


def four_halls(program):
    """Four users in four halls: serials of their own, and those of another hall are none."""
    with Daemon(program, "create user p:* * |/bin/cat\n") as daemon:
        clients = [daemon.client(1000 + at) for at in range(4)]
        rings = [client.rings for client in clients]
        keys = [client.ask(ask.add(b"user", b"k", b"v%d" % at, -4)) for at, client in enumerate(clients)]
        made = [client.ask(ask.request(b"user", b"p:1", b"x", -4)) for client in clients]
        strange = clients[1].ask(ask.on_key(7, keys[0]), ask.on_key_and_ring(11, keys[1], 4), ask.on_key_and_ring(12, keys[0], -4), ask.clear(4))
        join = daemon.client(1001, join=4).rings
        other = daemon.client(1004).ask(ask.on_key(7, keys[0]), ask.clear(4))
        again = daemon.client(1000, join=4).ask(ask.on_key(7, keys[0]))
        want = (
            [(0, 0, 4, 8), (0, 0, 1, 5), (0, 0, 2, 6), (0, 0, 3, 7)], [12, 9, 10, 11], [16, 13, 14, 15], ["E126"] * 4, "E126", ["E13", "E13"], b"v0",
        )
        return differs((rings, keys, made, strange, join, other, again), want)


def cases():
    for try_it in [never_reads, closes_unread, client_leaves, silent, come_and_go, rings_of_many,
                   all_at_once, short_beside_long, same_key, crowd, no_descriptors, few_descriptors, many_made_keys, four_halls]:
        yield try_it.__name__.replace("_", " "), try_it
    for hall in range(4):
        yield f"a full record of hall {hall}", full_record, hall
        yield f"long payloads in hall {hall}", long_payloads, hall
    for count in [20, 200]:
        yield f"{count} clients and one worker", one_worker, count
    for workers in [1, 3]:
        yield f"more clients than {workers} workers", all_busy, workers
