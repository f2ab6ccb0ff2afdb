#!/usr/bin/env python3
"""Uses `reqkeyd serve` hard for some minutes, and then looks at what is left of it. On demand: `make soak MINUTES=10`.

usage: soak.py [MINUTES [SEED]]

Sixty-four clients at a time ask at random, come and go, and some vanish while they wait. Handlers make their keys, fail, hang until they are let go, and are
killed. Every reply has to be of a kind that docs/PROTOCOL.md allows there, and all who read a key, which is made by one construction, read the same
payload. At the end nobody waits, no descriptor, no child and no zombie is left, and the memory is what it was after the first tenth of the time and a bound.
The daemon ends by itself, after so many connections, of which those that are left at the end are made by clients that say nothing. So its whole record is
written: it is a run of the machine, as `reqkeyd rejoin` tells, and has the replies of each client as it has heard them. Each line that the daemon says is one
that docs and man/ tell.
"""
import collections
import os
import pathlib
import random
import re
import signal
import sys
import tempfile
import threading
import time
import zlib

sys.path.insert(0, str(pathlib.Path(__file__).resolve().parent))
import protocol_peer as ask
from daemon import LIMIT, Client, Daemon, GaveUp, told
from programs import PROGRAMS, ran

SESSIONS = 64
EACH_MINUTE = 5_000  # connections for each minute, after which the daemon ends; a soak that makes more is over before its time
GROWTH = 32 * 2**20  # bytes by which the memory may grow behind the first tenth, when the records of some halls may not have been full yet

# the kinds of handlers: each writes a payload of its own where it makes a key, so that two constructions never give the same payload
CONF = """create user good:* * %room/makes %k
create user slow:* * %room/slow %k
create user fail:* * /bin/false
create user dies:* * |%room/dies
create user pipe:* * |%room/pipes
create user hang:* * %room/hangs %k
negate user dies:*1 * %room/makes %k
"""
SCRIPTS = {
    "makes": '%ctl assume "$1" && %ctl instantiate "$1" "$1-$$" none\n',
    "slow": '%ctl assume "$1" && %ctl request user "good:$1" none x && %ctl instantiate "$1" "$1-$$" none\n',
    "dies": "echo half\nkill -9 $$\n",
    "pipes": "cat > /dev/null\necho $$-$(cat /proc/self/stat | cut -d ' ' -f 22)\n",
    "hangs": 'read line < %room/gate\n%ctl assume "$1" && %ctl instantiate "$1" "$1-$$" none\n',
}
KINDS = ["good", "pipe", "slow", "fail", "dies", "hang", "none"]

# what each ask of a client that has said HELLO may be answered by docs/PROTOCOL.md: any value of the type, or one of these
OUTCOMES = {"E126", "E127", "E128", "E129"}
ALLOWED = {
    2: (int, OUTCOMES | {"E122"}), 7: (bytes, OUTCOMES | {"E13", "E16", "E22"}), 8: (bytes, {"E126", "E13", "E22"}), 9: ((), {0, "E126", "E128", "E13", "E22"}),
    10: ((), {0, "E126", "E127", "E128", "E13", "E22"}), 11: ((), OUTCOMES | {0, "E122", "E13", "E22"}), 12: ((), {0, "E2", "E126", "E22"}),
    13: ((), {0}), 14: (int, {"E22"}), 15: (int, {"E122"}), 255: ((), {"E22"}),
}

# what the daemon may say, whole lines: that it is ready, a volume that is not kept, clients that have vanished, handlers that failed, and a client that has
# come before a worker knew that another one had gone
HOW = (r"exit status [1-9][0-9]*|killed by a signal|start failed: .*|no memory for its start|its output could not be read|"
       r"the system does not say how it ended")
FAILED = rf"session [1-9][0-9]*: (it could not be read|a reply could not be written|its replies are not read)|handler of key [1-9][0-9]* [^:]*\(.*\): ({HOW})"
SLOW = r"handler of key [0-9]+ \([^)]*\) has run for [0-9]+ seconds"
WARNED = rf"\S+Z warn: ({FAILED}|all {SESSIONS} workers are busy, connections wait|{SLOW}|[a-z ]+: and [0-9]+ more)"
TOLD = re.compile(rf"reqkeyd: ready|volume [0-3] [1-9][0-9]* [1-9][0-9]*|{WARNED}")


class Told:
    """The replies to one client, one behind the other: how many there are, and a sum of them."""

    def __init__(self, rings):
        self.count = self.sum = 0
        self.adds(rings)

    def adds(self, reply):
        self.count, self.sum = self.count + 1, zlib.crc32(repr(reply).encode(), self.sum)

    def all(self):
        return self.count, self.sum


class Soak:
    """What all clients have in common."""

    def __init__(self, daemon, seed, left):
        self.daemon, self.seed, self.left = daemon, seed, left
        self.end, self.wrong = None, []
        self.replies, self.payloads, self.lock = collections.Counter(), {}, threading.Lock()
        # by the session ring of each client, what it was told
        self.heard = {}

    def goes_on(self):
        """Whether a client may come once more; it has one of the connections that are left then."""
        with self.lock:
            goes_on = self.left > 0 and time.monotonic() < self.end and not self.wrong
            self.left -= goes_on
            return goes_on

    def hears(self, uid, body, reply):
        """Judges a reply, and keeps what was read of a key."""
        kind, errors = ALLOWED[body[0]]
        with self.lock:
            self.replies[reply if isinstance(reply, str) else type(reply).__name__] += 1
            if not isinstance(reply, kind) and reply not in errors:
                self.wrong.append(f"{reply} to {body.hex()}")
            if body[0] == 7 and isinstance(reply, bytes):
                key = uid % 4, body
                if self.payloads.setdefault(key, reply) != reply:
                    self.wrong.append(f"{body.hex()} is {reply} and was {self.payloads[key]}")

    # ---- clients

    def body(self, dice, known):
        key, ring = dice.choice(known or [12]), dice.choice([-3, -4, -4])
        name = f"{dice.choice(KINDS)}:{dice.randrange(8)}".encode()
        return dice.choice([
            *[ask.request(b"user", name, dice.choice([None, b"x", b"y" * 400]), dice.choice([0, -3, -4]))] * 6, *[ask.on_key(7, key)] * 6,
            ask.on_key(8, key), ask.on_key(9, key), ask.timeout(key, dice.choice([0, 1, 1000])), ask.on_key_and_ring(11, key, ring),
            ask.on_key_and_ring(12, key, ring), ask.clear(ring), ask.default(dice.randrange(-1, 8)), ask.add(b"user", name, os.urandom(8), ring), b"\xff",
        ])

    def comes(self, dice):
        """One connection, of which each reply is heard, or which is closed with asks under way."""
        uid = 1000 + dice.randrange(6)
        with Client(self.daemon.path, uid) as client:
            if not isinstance(client.rings, tuple):
                self.wrong.append(f"HELLO: {client.rings}")
                return
            heard = Told(client.rings)
            self.asks(dice, client, uid, heard)
            with self.lock:
                self.heard[client.rings[2]] = heard.all()

    def asks(self, dice, client, uid, heard):
        """Asks, and hears the replies, until the dice say that it closes."""
        known = []
        for _ in range(dice.randrange(60)):
            bodies = [self.body(dice, known) for _ in range(dice.choice([1, 1, 1, 5]))]
            client.send(*bodies)
            if dice.random() < 0.02:
                return
            for body in bodies:
                reply = client.reply()
                self.hears(uid, body, reply)
                # (what spells no ask is no step of the record)
                if body[0] != 255:
                    heard.adds(reply)
                if body[0] in [2, 15] and isinstance(reply, int):
                    known.append(reply)

    def client(self, number):
        dice = random.Random(f"{self.seed} {number}")
        try:
            while self.goes_on():
                self.comes(dice)
        except (GaveUp, OSError) as failed:
            self.wrong.append(f"client {number}: {failed!r}")

    # ---- handlers

    def disturb(self, stop):
        """Lets the handlers that hang go on, and kills some of all."""
        dice = random.Random(self.seed)
        gate = os.open(self.daemon.room / "gate", os.O_RDWR | os.O_NONBLOCK)
        while not stop.is_set():
            if dice.random() < 0.2 and (children := list(self.daemon.children())):
                self.kill(dice.choice(children))
            try:
                os.write(gate, b"\n" * 4)
            except BlockingIOError:
                pass
            stop.wait(0.05)
        os.close(gate)

    def kill(self, pid):
        """Kills a child of the daemon; one that has gone since is passed over."""
        try:
            handle = os.pidfd_open(pid)
        except ProcessLookupError:
            return
        if pid in self.daemon.children():
            try:
                signal.pidfd_send_signal(handle, signal.SIGKILL)
            except ProcessLookupError:
                pass
        os.close(handle)


def memory_of(daemon):
    """The bytes that the daemon has in memory."""
    return int(pathlib.Path(f"/proc/{daemon.process.pid}/statm").read_text().split()[1]) * os.sysconf("SC_PAGE_SIZE")


def steps(volume):
    """The steps of a volume as docs/RECORD.md has them: the rows of each one's event and answer, a kind, a how, a number and the rest."""
    data, at = volume.read_bytes()[66:-32], 46  # (without its seal and its sum)
    for _ in range(int.from_bytes(data[38:46], "big")):
        at, rows = at + 8, []
        for _ in range(2):
            end = at + 4 + int.from_bytes(data[at : at + 4], "big")
            row, at = data[at + 4 : end], end
            rows.append((row[0], row[1], int.from_bytes(row[2:6], "big"), row[6:]))
        yield rows


def replies_in(volumes):
    """The client and the reply of each ask of a client, and of each outcome that one has collected, in order."""
    for volume in volumes:
        for (event, how, client, _), (answer, error, _, rest) in steps(volume):
            if event in [2, 5] and how == 0 and answer in [1, 5]:
                yield client, told(rest) if answer == 1 else f"E{error}"


def otherwise(heard, volumes):
    """What is wrong where clients were told something else than the record has."""
    left, clients = dict(heard), {}
    for client, reply in replies_in(volumes):
        if client not in clients:
            clients[client] = reply[2] if isinstance(reply, tuple) else None, Told(reply)
        else:
            clients[client][1].adds(reply)
        ring, said = clients[client]
        if ring in left and left[ring] == said.all():
            del left[ring]
    return [f"{len(left)} of {len(heard)} clients were told otherwise than the record has, as that of ring {min(left)}"] if left else []


def judged(program, volumes):
    """What is wrong with the volumes that were written, and how many steps they have."""
    status, output, errors = ran(program, "rejoin", *volumes, text=True)
    last = re.fullmatch(r"ok, 4 halls, ([0-9]+) steps: a run of the machine, to its end", (output.splitlines() or [""])[-1])
    if status or errors or not last:
        return [f"rejoin of {len(volumes)} volumes: {output[-200:]} {errors}"], 0
    return [], int(last[1])


def ends(daemon, left):
    """Makes the connections that are left, and gives what is wrong with the daemon's end and with what it has said."""
    for _ in range(left):
        Client(daemon.path).socket.close()
    status, lines = daemon.end()
    return [f"the daemon has ended with status {status}"] * (status != 0) + [line for line in lines if not TOLD.fullmatch(line)]


def soak(program, minutes, seed, record):
    """Runs it, and gives what was wrong, the replies, and the memory after a tenth of the time and at the end."""
    count = 64 + int(EACH_MINUTE * minutes)
    # with one pool of memory for all threads, what one has freed another uses, and what grows is no longer used by any
    environment = {"MALLOC_ARENA_MAX": "1"}
    with Daemon(program, CONF, "--negative", "1", "--record", str(record), "--clients", str(count), environment=environment) as daemon:
        for name, text in SCRIPTS.items():
            daemon.script(name, f"#!/bin/sh\nexec 2> /dev/null\n{text}")
        os.mkfifo(daemon.room / "gate")
        with daemon.client() as client:
            client.ask(ask.request(b"user", b"pipe:first", b"x", -4))
        before = daemon.settled()
        # (one was made before, and one more sees whether the daemon lives)
        all_of_it, stop = Soak(daemon, seed, count - 2), threading.Event()
        all_of_it.end = time.monotonic() + 60 * minutes
        disturber = threading.Thread(target=all_of_it.disturb, args=(stop,), daemon=True)
        clients = [threading.Thread(target=all_of_it.client, args=(number,), daemon=True) for number in range(SESSIONS)]
        for thread in [disturber, *clients]:
            thread.start()
        time.sleep(6 * minutes)
        first = memory_of(daemon)
        for thread in clients:
            thread.join(60 * minutes + LIMIT)  # those that wait are counted below
        wrong = all_of_it.wrong + [f"{sum(thread.is_alive() for thread in clients)} clients wait"] * any(thread.is_alive() for thread in clients)
        try:
            daemon.has_left(before)
        except GaveUp as failed:
            wrong.append(str(failed))
        stop.set()
        disturber.join(LIMIT)
        last = memory_of(daemon)
        if last > first + GROWTH:
            wrong.append(f"the memory has grown from {first} bytes to {last}")
        if lives := daemon.lives():
            wrong.append(lives)
        wrong += ends(daemon, all_of_it.left)
        return wrong, all_of_it, first, last


def main(words):
    if len(words) > 2 or not all(re.fullmatch("[0-9]+([.][0-9]+)?", word) for word in words[:1]):
        print(__doc__.split("\n\n")[1], file=sys.stderr)
        return 2
    minutes, seed = [*words, *["10", "1"][len(words) :]]
    with tempfile.TemporaryDirectory(prefix="soak-") as folder:
        record = pathlib.Path(folder)
        wrong, all_of_it, first, last = soak(PROGRAMS[0], float(minutes), seed, record)
        volumes = sorted(record.glob("hall-*"))
        broken, count = judged(PROGRAMS[0], volumes)
        wrong += broken or otherwise(all_of_it.heard, volumes)
    for line in wrong[:20]:
        print(line[:300])
    replies = all_of_it.replies
    kinds = ", ".join(f"{number} {kind}" for kind, number in sorted(replies.items(), key=lambda it: -it[1]))
    print(f"{len(all_of_it.heard)} clients, {replies.total()} replies: {kinds}; {count} steps judged; memory {first // 1024} KiB, then {last // 1024} KiB")
    print("soak: clean" if not wrong else f"soak: {len(wrong)} wrong")
    return 1 if wrong else 0


if __name__ == "__main__":
    sys.exit(main(sys.argv[1:]))
