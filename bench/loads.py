"""Scripts of `reqkeyd replay` that make work of one kind each.

A load has two parts: what is there before, and the lines that are measured. A run of the first part alone says what to take off a run of both.
"""
import pathlib
import random
import sys

sys.path.insert(0, str(pathlib.Path(__file__).resolve().parent.parent / "tools"))
from messages import frame, write_ask

NOW = 100
OF_A_USER = 200  # so many keys a user may have


class Script:
    """The lines of a script, and the next serial that the machine draws."""

    def __init__(self, lines=()):
        self.lines = list(lines)
        self.next = 1
        self.greeted = set()

    def draw(self, count=1):
        self.next += count
        return self.next - count

    def say(self, line):
        self.lines.append(f"{NOW} {line}")

    def ask(self, client, words):
        self.say(f"bytes {client} {frame(write_ask(words.split(' '))).hex()}")

    def answer(self, key, words):
        """An ask of the handler of a key."""
        self.say(f"out {key} {frame(write_ask(words.split(' '))).hex()}")

    def come(self, client, uid, join=0):
        """A client comes; its session ring, which is new unless it joins one."""
        self.say(f"accept {client}")
        self.ask(client, f"HELLO {uid} {uid} 0 {join}")
        ring = join or self.draw()
        if uid not in self.greeted:
            self.greeted.add(uid)
            self.draw()
        return ring

    def add(self, client, name, ring=-4, payload="v"):
        self.ask(client, f"ADD user {name} {payload} {ring}")
        return self.draw()

    def begin(self, client, name):
        """A client begins a construction."""
        self.ask(client, f"REQUEST user {name} =x 0")
        return self.draw()

    def cut(self):
        """What was said so far, which is then forgotten."""
        said, self.lines = self.lines, []
        return said


def one_client(ring=-4, conf=(), others=0):
    """A client with all keys that it may have but one, and so many users with as many, who are gone."""
    script = Script(conf)
    for other in range(others):
        script.come(1, 2000 + other)
        for name in range(OF_A_USER - 1):
            script.add(1, f"d{name}")
        script.say("gone 1")
    script.come(1, 1000)
    for name in range(OF_A_USER - 1):
        script.add(1, f"d{name}", ring)
    return script


def asked(script, count, words):
    """What is there before, and so many asks of client 1: `words` tells each by its number."""
    before = script.cut()
    for at in range(count):
        script.ask(1, words(at))
    return before, script.cut()


def made(script, count, handle):
    """What is there before, and keys that a handler makes for client 1, who takes each away again: `handle` says what comes while it runs."""
    before = script.cut()
    while len(script.lines) < count:
        name = f"e{len(script.lines)}"
        key = script.begin(1, name)
        script.say(f"started {key}")
        handle(key, name)
        script.say(f"ended {key} exit 0")
        script.ask(1, f"UNLINK {key} -3")
    return before, script.cut()


def hits(count, others=0):
    return asked(one_client(others=others), count, lambda at: f"REQUEST user d{at % (OF_A_USER - 1)} - 0")


def hits_with_a_ring(count):
    """Each hit is found in the session ring, and linked in the user ring."""
    return asked(one_client(-3), count, lambda at: f"REQUEST user d{at % (OF_A_USER - 1)} - -4")


def misses(count, others=0):
    return asked(one_client(others=others), count, lambda at: f"REQUEST user e{at % OF_A_USER} - 0")


def reads(count, others=0):
    script = one_client(others=others)
    last = script.next - 1
    return asked(script, count, lambda at: f"READ {last - at % (OF_A_USER - 1)}")


def refusals(count, others=0):
    """Asks that are refused before anything is looked up: what a line takes by itself."""
    return asked(one_client(others=others), count, lambda at: "READ 0")


def displacing(count, others=0):
    return asked(one_client(others=others), count, lambda at: f"ADD user d{at % (OF_A_USER - 1)} v -4")


def first_path(count):
    """A plain handler makes each key."""
    script = one_client()

    def handle(key, name):
        script.answer(key, f"ASSUME {key}")
        script.answer(key, f"INSTANTIATE {key} hi 0")

    return made(script, count, handle)


def piped(count):
    script = one_client(conf=["conf create * * * |/bin/cat"])
    return made(script, count, lambda key, name: script.say(f"out {key} 6869"))


MIXED_NAMES = 50


def mixed(count):
    """Eight clients of four users ask by a fixed dice."""
    dice = random.Random(7)
    script = Script()
    for client in range(1, 9):
        script.come(client, 1000 + (client - 1) // 2)
    keys = [(client, script.add(client, f"d{name}")) for name in range(MIXED_NAMES) for client in (1, 3, 5, 7)]
    before = script.cut()
    kinds = dict(hit=40, read=15, add=12, describe=5, link=5, unlink=3, revoke=3, timeout=3, miss=6, default=2, body=1, make=5)
    while len(script.lines) < count:
        kind = dice.choices(list(kinds), list(kinds.values()))[0]
        client, name = dice.randint(1, 8), dice.randrange(MIXED_NAMES)
        owner, key = keys[-dice.randint(1, 200)]
        if kind == "hit":
            script.ask(client, f"REQUEST user d{name} - 0")
        elif kind == "add":
            keys.append((client, script.add(client, f"d{name}", -4, "v" * dice.randint(1, 60))))
        elif kind == "miss":
            script.ask(client, f"REQUEST user none{name} - 0")
        elif kind == "make":
            made = script.begin(client, f"made{len(script.lines)}")
            script.say(f"started {made}")
            script.answer(made, f"ASSUME {made}")
            script.answer(made, dice.choice([f"INSTANTIATE {made} hi 0", f"NEGATE {made} 0 0"]))
            script.say(f"ended {made} exit 0")
            script.ask(client, f"UNLINK {made} -3")
        elif kind == "body":
            script.ask(client, "body 07")
        else:
            fields = {"read": "", "describe": "", "link": " -3", "unlink": " -3", "revoke": "", "timeout": " 1000"}
            asker = owner if dice.random() < 0.8 else client
            script.ask(asker, f"DEFAULT {dice.choice([-1, 0, 3])}" if kind == "default" else f"{kind.upper()} {key}{fields[kind]}")
    return before, script.cut()


def clients_in_turn(count):
    script = Script()
    for client in range(1, 65):
        script.come(client, 1000 + client)
        script.add(client, "k")
    before = script.cut()
    for at in range(count):
        script.ask(1 + at % 64, "REQUEST user k - 0")
    return before, script.cut()


def waiters(count):
    """Sixty clients wait for what a client asked for first."""
    script = Script()
    ring = script.come(1, 1000)
    for client in range(2, 62):
        script.come(client, 1000, ring)

    def handle(key, name):
        for client in range(2, 62):
            script.ask(client, f"REQUEST user {name} - 0")
        script.answer(key, f"ASSUME {key}")
        script.answer(key, f"INSTANTIATE {key} hi 0")

    return made(script, count, handle)


def one_byte_a_line(count):
    before, lines = hits(count // 16 + 1)
    cut = []
    for line in lines:
        *head, data = line.split(" ")
        cut += [" ".join([*head, data[at : at + 2]]) for at in range(0, len(data), 2)]
    return before, cut[:count]


def running_handlers(handlers):
    """Hits of one client, while so many handlers run for others that are gone."""

    def load(count):
        script = one_client()
        for at in range(handlers):
            # a user has room for 200
            script.come(2, 2000 + at // OF_A_USER)
            key = script.begin(2, f"h{at}")
            script.say(f"started {key}")
            script.answer(key, f"ASSUME {key}")
            script.say("gone 2")
        return asked(script, count, lambda at: f"REQUEST user d{at % (OF_A_USER - 1)} - 0")

    return load


# One step of each kind, by how many users with all their keys there are beside the one that asks.
STEPS = [
    ("a request that hits", hits),
    ("a request that misses", misses),
    ("a key read", reads),
    ("a key added in the place of another", displacing),
]

# The name, the load, and how many times fewer lines it gets.
LOADS = [
    ("hits", hits, 1),
    ("hits with a ring", hits_with_a_ring, 1),
    ("misses", misses, 1),
    ("first path", first_path, 1),
    ("piped", piped, 1),
    ("mixed", mixed, 1),
    ("displacing", displacing, 1),
    ("hits among 20,000 keys", lambda count: hits(count, 100), 1),
    ("displacing among 20,000 keys", lambda count: displacing(count, 100), 1),
    ("64 clients in turn", clients_in_turn, 1),
    ("60 waiters", waiters, 1),
    ("one byte a line", one_byte_a_line, 1),
    ("250 running handlers", running_handlers(250), 1),
    ("1,000 running handlers", running_handlers(1000), 4),
    ("4,000 running handlers", running_handlers(4000), 4),
]


def text(*parts):
    """The script of some lines, as bytes."""
    return "".join(f"{line}\n" for part in parts for line in part).encode()
