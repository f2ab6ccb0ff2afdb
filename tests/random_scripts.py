#!/usr/bin/env python3
"""Random scripts of `reqkeyd replay`, the same for the same seed, and whether two programs make the same of them.

usage: random_scripts.py FIRST COUNT PROGRAM OTHER

Plays the scripts of so many seeds through both programs, called as PROGRAM replay, and prints a script's seed where their outputs or statuses
differ. A script is made a few lines at a time: what has come of it so far, by PROGRAM, says which handlers and keys there are.
"""
import collections
import random
import sys

from programs import ran, top

sys.path.insert(0, str(top / "tools"))
from messages import bodies, frame, write_ask

CONFS = [
    [],
    ["conf create user a* * |/bin/cat", "conf create * * * /bin/h %k %d", "conf negate * * * /bin/n %o %k %S"],
    ["conf create * * x* |/p %{user:a} %c", "conf create user b * /q %%k %T %P %S", "conf * * * * /r %u %g %t"],
    ["conf # none", "conf", "conf   create\t*  *  * |/bin/p %o", "conf negate user * * |/bin/n %{user:b} x%k"],
    ["conf create user * * /h %{t:a}", "conf negate * * * /n"],
    ["conf create * * /h", "negative 5"],
    ["conf create * * * /h %z"],
    ["conf create * * * h", "conf "],
    ["conf create * * " + "x" * 8200],
    ["conf "],
]

ASKS = ["REQUEST"] * 12 + ["READ", "ADD"] * 4 + ["HELLO", "ASSUME", "INSTANTIATE", "NEGATE", "REJECT", "DESCRIBE", "REVOKE", "TIMEOUT"] * 2
ASKS += ["LINK", "UNLINK", "CLEAR", "DEFAULT", "CALLOUT", "body"] * 2

BODIES = ["07", "00", "11", "0300", "02000475736572000161020000", "10ff", "0f00042e7573720001610001610000000", "02000475736572000161ff"]
BODIES = [body + "0" * (len(body) % 2) for body in BODIES]


class Player:
    """Makes up lines. What it believes of handlers and keys comes from the output."""

    def __init__(self, seed):
        self.dice = random.Random(seed)
        self.now, self.lines = 100, []
        self.clients, self.greeted, self.assumed = set(), set(), set()
        self.keys, self.rings, self.waits, self.runs = [], [], {}, {}
        self.begun = collections.Counter()  # how often it was told of a handler whether it runs
        self.lines += self.dice.choice(CONFS if self.rarely(10) else CONFS[:5])
        if self.rarely(3):
            self.lines.append(f"negative {self.dice.choice([0, 1, 30, 4294967295])}")

    def pick(self, *items):
        return self.dice.choice(items)

    def rarely(self, one_in=20):
        return self.dice.randrange(one_in) == 0

    def say(self, line):
        self.lines.append(f"{self.now} {line}")

    # ---- the output

    def hear(self, output):
        """Takes in what has come of the script so far. The start of a key that was answered before comes again, too."""
        self.keys, self.waits, told = [], {}, collections.Counter(self.begun)
        for line in output.decode().splitlines():
            word, number, *rest = line.split(" ")
            if word == "start":
                if told[int(number)]:
                    told[int(number)] -= 1
                else:
                    self.waits[int(number)] = rest[0]
                self.keys.append(int(number))
            elif word == "to" and bytes.fromhex(rest[0])[4:5] == b"\2":
                body = bodies(bytes.fromhex(rest[0]))[0]
                self.rings += [ring for ring in (int.from_bytes(body[at : at + 4], "big") for at in range(1, 17, 4)) if ring]
            elif word == "to" and bytes.fromhex(rest[0])[4:5] == b"\0" and int(rest[0][10:], 16):
                self.keys.append(int(rest[0][10:], 16) % 2**31)
            elif word == "shut":
                self.leaves(int(number))

    def leaves(self, client):
        self.clients.discard(client)
        self.greeted.discard(client)

    # ---- fields

    def name(self):
        typ = self.pick(".t", "t" * 31, "t" * 32, '""', "%FF") if self.rarely(40) else self.pick("user", "user", "user", "user", "t")
        odd = ["d:e", "%C3%A9", "%E2%82%AC", "%F0%9F%94%91", "%ED%A0%80", "%E0%80%80", "%F4%90%80%80", "%C3", "%FF", "a%00", "n*4095", "n*4096", '""']
        return f"{typ} {self.dice.choice(odd) if self.rarely() else self.pick('a', 'a', 'a', 'b', 'b', 'c', 'd')}"

    def key(self):
        if self.keys and not self.rarely(8):
            return self.dice.choice(self.keys[-8:])
        return self.pick(-7, 0, -1, 1, 2, 3, 4, 99, 2147483647)

    def ring(self):
        if self.rings and self.rarely(6):
            return self.dice.choice(self.rings)
        return self.pick(-5, -7, -9, 3, 2147483647) if self.rarely(30) else self.pick(0, 0, 0, -1, -2, -3, -3, -3, -4, -4, -4, -8)

    def ask(self, own=0):
        """An ask; of the handler of a key one that concerns this key, often."""
        if own and own not in self.assumed and not self.rarely(6):
            self.assumed.add(own)
            return frame(write_ask(["ASSUME", str(own)]))
        words = self.dice.choice(["INSTANTIATE", "INSTANTIATE", "NEGATE", "REJECT", "CALLOUT", "READ"] * 3 + ASKS if own else ASKS)
        key = own if own and not self.rarely(4) else self.key()
        seconds = self.pick(0, 1, 10, 4294967295)
        fields = {
            "HELLO": [self.pick(0, 1000, 1000, 1001), 5, self.pick(0, 0, 1, 2, 3, 4), self.join()],
            "REQUEST": [self.name(), "=%00" if self.rarely() else self.pick("-", "=", "=x", "=x", "=xy"), self.ring()],
            "ASSUME": [0 if self.rarely(4) else key],
            "INSTANTIATE": [key, '""' if self.rarely() else self.pick("hi", "v", "%FF"), self.ring()],
            "NEGATE": [key, seconds, self.ring()],
            "REJECT": [key, seconds, 125 if self.rarely() else self.pick(126, 127, 128, 129), self.ring()],
            "TIMEOUT": [key, seconds],
            "LINK": [key, self.ring()],
            "UNLINK": [key, self.ring()],
            "CLEAR": [self.ring()],
            "DEFAULT": [self.pick(-1, 0, 1, 2, 3, 4, 5, 7, 8, -2)],
            "ADD": [self.name(), '""' if self.rarely() else self.pick("hi", "v", "%FF", "w" * 300), self.ring()],
            "CALLOUT": [],
            "body": [self.dice.choice(BODIES)],
        }.get(words, [key])
        body = write_ask(" ".join(map(str, [words, *fields])).split(" "))
        if self.rarely(150):
            return self.pick(b"\0\0\0\0", b"\0\1\0\1", b"\xff\xff\xff\xff")
        return frame(body)

    def join(self):
        return self.dice.choice(self.rings) if self.rings and self.rarely(3) else 0

    def bytes(self, own=0):
        """Some asks in one piece, or cut in two."""
        data = b"".join(self.ask(own) for _ in range(self.pick(1, 1, 1, 2, 3)))
        if self.rarely(7):
            at = self.dice.randrange(1, len(data))
            return [data[:at], data[at:]]
        return [data]

    # ---- lines

    def client(self):
        client = self.pick(1, 2, 3, 4, 5, 4294967295)
        if client not in self.clients or self.rarely(40):
            self.say(f"accept {client}")
            self.clients.add(client)
        if client not in self.greeted and not self.rarely():
            self.greeted.add(client)
            hello = ["HELLO", self.pick("1000", "1000", "1001"), "5", self.pick("0", "3"), str(self.join())]
            self.say(f"bytes {client} {frame(write_ask(hello)).hex()}")
        if self.rarely(16):
            self.say(f"gone {client}")
            self.leaves(client)
            return
        for piece in self.bytes():
            self.say(f"bytes {client} {piece.hex()}")

    def begins(self):
        key, kind = self.dice.choice(list(self.waits.items()))
        self.say(f"{self.pick('started', 'started', 'started', 'unstarted')} {key}")
        if self.lines[-1].split(" ")[1] == "started":
            self.runs[key] = kind
        self.begun[key] += 1
        del self.waits[key]

    def runs_on(self):
        key, kind = self.dice.choice(list(self.runs.items()))
        if self.dice.random() < 0.25:
            ending = self.pick("ended {} exit 0", "ended {} exit 0", "ended {} exit 1", "ended {} signal", "outfault {}", "waitfault {}")
            self.say(ending.format(key))
            self.assumed.discard(key)
            del self.runs[key]
        elif kind == "piped":
            self.say(f"out {key} {'00' * 20000 if self.rarely(10) else self.pick('6869', 'ff', '616200')}")
        else:
            for piece in self.bytes(key):
                self.say(f"out {key} {piece.hex()}")

    def odd(self):
        self.lines.append(self.pick("", " \t", "# a comment", "conf create * * * /x", "negative 3", "100 accept", "100 bytes 1 0", "100 bytes 1 0g", "what",
            "18446744073709551616 accept 1", "000000000000000000100 accept 1", "100 bytes 7 00", "100 out 2147483648 00", "100 out 0 00",
            "\t 100  accept\t6 ", "100 accept 6\r", "100 ended 3 exit 256", "100 ended 3 exit", "100 ended 3 signal 1", f"100 started {self.key()}"))

    def go(self):
        self.now = self.pick(self.now, self.now, self.now, self.now + 1, self.now + 60, self.now + self.dice.randrange(10), max(self.now - 5, 0))
        if self.rarely(250):
            self.now = self.pick(0, 18446744073709551615)
        dice = self.dice.random()
        if self.waits and dice < 0.3:
            self.begins()
        elif self.runs and dice < 0.65:
            self.runs_on()
        elif dice < 0.97:
            self.client()
        else:
            self.odd()

    def text(self):
        return "\n".join(self.lines).encode() + self.pick(b"", b"\n")


def spelt(words):
    return frame(write_ask(words.split(" "))).hex()


def many_clients(dice):
    for client in range(70):
        yield f"accept {client}"
        if dice.random() < 0.1:
            yield f"gone {dice.randrange(70)}"


def many_keys(dice):
    yield "accept 1"
    yield f"bytes 1 {spelt('HELLO 1000 1000 3 0')}"
    for at in range(260):
        adds = dice.random() < 0.9
        yield f"bytes 1 {spelt(f'ADD user d{at} v {dice.choice([-1, -3, -4])}' if adds else f'UNLINK {dice.randrange(5, at + 6)} -3')}"
    yield f"bytes 1 {spelt('REQUEST user new =x 0')}"


def many_rings(dice):
    for uid in range(1030 - dice.randrange(10)):
        yield "accept 1"
        yield f"bytes 1 {spelt(f'HELLO {uid} 1 {dice.randrange(4)} 0')}"
        yield "gone 1"


def long_chain(dice):
    yield "accept 1"
    yield f"bytes 1 {spelt('HELLO 1000 1000 0 0')}"
    yield f"bytes 1 {spelt('REQUEST user d0 =x 0')}"
    for at in range(3, 14):
        yield f"started {at}"
        yield f"out {at} {spelt(f'ASSUME {at}')}{spelt(f'REQUEST user d{dice.choice([at, at, at, 0])} =x -8')}"


def crowd(dice):
    """A script that meets a limit: clients, keys of a user, rings, or a chain."""
    lines = dice.choice([many_clients, many_keys, many_rings, long_chain])(dice)
    return "".join(f"100 {line}\n" for line in lines).encode()


def played(program, script):
    """What a program outputs for a script, and its status."""
    status, output, _ = ran(program, "replay", input=script)
    return output, status


def script_of(seed, program):
    """The script of a seed, by what the program makes of its beginnings."""
    dice = random.Random(seed)
    if seed % 50 == 0:
        return crowd(dice)
    player = Player(seed)
    for _ in range(dice.randint(3, 14)):
        for _ in range(dice.randint(2, 12)):
            player.go()
        player.hear(played(program, player.text())[0])
    return player.text()


def main(words):
    if len(words) != 4:
        print(__doc__.split("\n\n")[1], file=sys.stderr)
        return 2
    first, count, program, other = int(words[0]), int(words[1]), *words[2:]
    differ = 0
    for seed in range(first, first + count):
        script = script_of(seed, program)
        if played(program, script) != played(other, script):
            differ += 1
            print(f"seed {seed}: they differ", flush=True)
    print(f"{count - differ} alike, {differ} differ")
    return 1 if differ else 0


if __name__ == "__main__":
    sys.exit(main(sys.argv[1:]))
