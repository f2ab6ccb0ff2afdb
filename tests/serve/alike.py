"""One session of the daemon beside `reqkeyd replay`: the same asks get the same replies, where a serial of the one is four times that of the other."""
import functools
import random
import struct
import sys

import protocol_peer as ask
from daemon import Daemon, told
from programs import differs, ran, top

sys.path.insert(0, str(top / "tools"))
from messages import read_ask

CONF = ["create user p:* * |/bin/cat", "create user f:* x* |/bin/false", "create t * * |/bin/cat", "negate user f:n* * /bin/true"]
FOREVER = 4294967295
ASKS = 2000


class Made:
    """Asks from dice, first with the serials of a script. What may come of them is kept, so that known serials are used again."""

    def __init__(self, seed):
        self.dice = random.Random(seed)
        self.greatest = 4

    def key(self):
        return self.dice.choice([0, -1, -7, -8, 1, 2, self.greatest + 5, 536870911] if self.dice.random() < 0.1 else self.near())

    def near(self):
        return range(max(3, self.greatest - 12), self.greatest + 2)

    def ring(self):
        return self.dice.choice([1, 2, 3, 4, 5, -5, -7, -9, 536870911] if self.dice.random() < 0.15 else [0, -1, -1, -2, -3, -3, -4, -4, -8])

    def name(self):
        kind = self.dice.choice([b"p:", b"f:", b"f:n", b"q", b"k"])
        typ = self.dice.choice([b"user"] * 6 + [b"t", b".t", b"t" * 32])
        return typ, kind + b"%d" % self.dice.randrange(6) if self.dice.random() < 0.98 else self.dice.choice([b"", b"\xff", b"d" * 4095, b"d" * 4096])

    def body(self):
        """A body, and what a program outputs for it, where it may start one."""
        dice, key = self.dice, self.key()
        kind = dice.choice(["request"] * 6 + ["add"] * 5 + ["key"] * 5 + ["link", "link", "unlink", "unlink", "timeout", "clear", "default", "handler", "odd"])
        if kind == "request":
            (typ, description), callout = self.name(), dice.choice([None, None, b"", b"x", b"xyz", b"y" * 4095])
            output = callout if callout is None or typ == b"t" or description.startswith(b"p:") else b""
            return ask.request(typ, description, callout, self.ring()), output
        if kind == "key":
            return ask.on_key(dice.choice([7, 7, 8, 8, 9]), key), None
        seconds = dice.choice([0, 0, FOREVER])
        bodies = {
            "add": lambda: ask.add(*self.name(), dice.choice([b"v", b"\0\xff", b"w" * 32767]), self.ring()),
            "link": lambda: ask.on_key_and_ring(11, key, self.ring()),
            "unlink": lambda: ask.on_key_and_ring(12, key, self.ring()),
            "timeout": lambda: ask.timeout(key, seconds),
            "clear": lambda: ask.clear(self.ring()),
            "default": lambda: ask.default(dice.choice([-2, -1, 0, 1, 2, 3, 4, 5, 6, 7, 8])),
            "handler": lambda: dice.choice([ask.on_key(3, key), ask.on_key(3, 0), ask.instantiate(key, b"v", 0), ask.negate(key, 1, 0), ask.CALLOUT,
                                            ask.reject(key, 1, 129, -3), ask.hello(1000)]),
            "odd": lambda: dice.choice([b"\x00", b"\x11", b"\x07", b"\x02\x00", ask.on_key(7, 3) + b"\0", bytes(65536)]),
        }
        return bodies[kind](), None


# where the serials of keys and rings stand in a body, from its end on for negative numbers
SERIALS = {
    1: [10], 2: [-4], 3: [1], 4: [1, -4], 5: [1, -4], 6: [1, -4], 7: [1], 8: [1], 9: [1], 10: [1], 11: [1, 5], 12: [1, 5], 13: [1], 15: [-4],
}


def moved(body, first=4):
    """The body with the serials of the daemon's first hall, where 1 of a script is this serial and each next one is greater by four."""
    changed = bytearray(body)
    for at in SERIALS.get(body[0], []) if spells(body) else []:
        at %= len(body)
        number = struct.unpack(">i", body[at : at + 4])[0]
        if 0 < number < 2**29:
            changed[at : at + 4] = struct.pack(">i", first + 4 * (number - 1))
    return bytes(changed)


@functools.cache
def spells(body):
    """Whether the fields of an ask stand in the body; one in which they don't is refused, whatever its bytes."""
    return not read_ask(body).startswith("body ")


def moved_back(body, reply, first=4):
    """The reply with the serials of a script."""
    if isinstance(reply, tuple):
        return tuple(it and (it - first) // 4 + 1 for it in reply)
    return (reply - first) // 4 + 1 if isinstance(reply, int) and body[0] in [2, 15] else reply


def happens(keys, output):
    """What becomes of a handler in a script, of whichever of these keys it is; lines for the others are passed over."""
    piped = ["out {} " + output.hex()] * bool(output)
    for key in keys:
        yield from [it.format(key) for it in ["started {}", *piped, "ended {} exit 0", "started {}", "ended {} exit 0"]]


def asked(daemon, made, flags):
    """The asks, the daemon's replies, and a script of both."""
    client = daemon.client(None)
    hello = ask.hello(1000, 1000, 0, flags)
    replies = [moved_back(hello, client.ask(hello))]
    lines = ["accept 1", f"bytes 1 {ask.frame(hello).hex()}"]
    low = high = made.greatest = 2 + flags.bit_count()
    for _ in range(ASKS):
        body, output = made.body()
        reply = moved_back(body, client.ask(moved(body)))
        replies.append(reply)
        lines.append(f"bytes 1 {ask.frame(body).hex()}")
        if output is not None:
            # a new key is one of these, where there is one; that of a program that fails is not told
            lines += happens(range(low + 1, high + 2), output)
            high += 1
        if isinstance(reply, int) and reply > low and body[0] in [2, 15]:
            low = high = max(reply, low)
        made.greatest = high
    return replies, lines


def alike(program, seed, flags):
    with Daemon(program, "\n".join(CONF), "--negative", str(FOREVER)) as daemon:
        replies, lines = asked(daemon, Made(seed), flags)
    script = [f"conf {line}" for line in CONF] + [f"negative {FOREVER}"] + [f"100 {line}" for line in lines]
    _, output, _ = ran(program, "replay", input="\n".join(script), text=True)
    played = [told(bytes.fromhex(line[13:])) for line in output.split("\n") if line.startswith("to 1 ")]
    for at, (got, wanted) in enumerate(zip(replies, played)):
        if got != wanted:
            return f"reply {at}: {str(got)[:60]}, and by replay {str(wanted)[:60]}"
    starts = output.count("start ")
    kinds = {str(it) if isinstance(it, str) else type(it).__name__ for it in replies}
    return differs((len(replies), starts > 50, len(kinds) > 7), (len(played), True, True)) and f"{len(replies)} {len(played)} {starts} {kinds}"


def cases():
    for seed, flags in [(1, 0), (2, 3)]:
        yield f"replies as those of replay, dice {seed}", alike, seed, flags
