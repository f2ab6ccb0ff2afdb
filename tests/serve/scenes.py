"""Scenarios for a daemon in which one thing fails: each gives its replies beside what they are where nothing does.

`int` stands for any number but 0, `tuple` for any rings, and None for a connection that was closed.
"""
import contextlib
import os
import select

import protocol_peer as ask
from daemon import LIMIT, Client, Daemon

CONF = """create user held:* * %room/held %k
create user plain:* * %room/plain %k
create user nest:* * %room/nest %k
create user fails:* * |/bin/false
create user piped:* * |/bin/cat
negate user fails:negated* * %room/plain %k
"""
GIVES = '%ctl assume "$1" && %ctl {}instantiate "$1" made none\n'


class Gated(Daemon):
    """A daemon whose handlers for `held:` say that they have begun, and wait until they are let go."""

    def __enter__(self):
        os.mkfifo(self.room / "began")
        os.mkfifo(self.room / "gate")
        self.script("plain", "#!/bin/sh\nexec 2> /dev/null\n" + GIVES.format(""))
        self.script("nest", "#!/bin/sh\nexec 2> /dev/null\n" + GIVES.format('request user "plain:$1" none x && %ctl '))
        self.script("held", "#!/bin/sh\nexec 2> /dev/null\necho > %room/began\nread line < %room/gate\n" + GIVES.format(""))
        self.began, self.gate = [os.open(self.room / name, os.O_RDWR) for name in ["began", "gate"]]
        return super().__enter__()

    def __exit__(self, *_):
        os.close(self.began)
        os.close(self.gate)
        super().__exit__()

    def begins(self, client):
        """Waits until a held handler has begun, or until the client that has asked for it is answered: then whether it has begun."""
        ready = select.select([self.began, client.socket], [], [], LIMIT)[0]
        return self.began in ready and bool(os.read(self.began, 1))

    def has_begun(self):
        """Whether another held handler has begun."""
        return bool(select.select([self.began], [], [], 0)[0])

    def goes_on(self):
        os.write(self.gate, b"\n")


def answered(client, body):
    """The reply, or None where the connection was closed."""
    try:
        return client.ask(body)
    except (BrokenPipeError, ConnectionResetError):
        return None


def said(client, *pairs):
    """The replies to these asks, each beside what it should be."""
    return [(answered(client, body), want) for body, want in pairs]


def sends(client, body):
    """Sends the ask, also where the connection was closed: then its reply is None."""
    with contextlib.suppress(BrokenPipeError, ConnectionResetError):
        client.send(body)


def greeted(daemon, uid=1000):
    client = Client(daemon.path)
    daemon.clients.append(client)
    return client, said(client, (ask.hello(uid, uid), tuple))


def two_requesters(daemon, name):
    (one, replies), (other, more) = greeted(daemon), greeted(daemon)
    sends(one, body := ask.request(b"user", b"held:" + name, b"x", -4))
    begun = daemon.begins(one)
    if begun:
        more += said(other, (ask.default(-1), 0))
        sends(other, body)
        daemon.goes_on()
    outcomes = [client.reply() for client in ([one, other] if begun else [one])]
    same = len({it for it in outcomes if isinstance(it, int)}) < 2
    return replies + more + [(it, int) for it in outcomes] + [(same, True), (daemon.has_begun(), False)]


def nested(daemon, name):
    client, replies = greeted(daemon)
    return replies + said(client, (ask.request(b"user", b"nest:" + name, b"x", -4), int))


def displaced(daemon, name):
    client, replies = greeted(daemon)
    (first, _), = said(client, (ask.add(b"user", name, b"one", -3), int))
    (second, _), = said(client, (ask.add(b"user", name, b"two", -3), int))
    replies += [(first, int), (second, int)]
    if isinstance(first, int) and isinstance(second, int):
        replies += said(client, (ask.on_key(7, first), "E126"), (ask.on_key(7, second), b"two"))
    return replies


def revoked(daemon, name):
    (one, replies), (other, more) = greeted(daemon), greeted(daemon)
    replies += more + (added := said(one, (ask.add(b"user", b"last", b"v", -3), int)))
    if not isinstance(added[0][0], int):
        return replies
    sends(one, ask.request(b"user", b"held:" + name, b"x", -4))
    if daemon.begins(one):
        replies += said(other, (ask.on_key(9, added[0][0] + 4), 0))
        daemon.goes_on()
    return replies + [(one.reply(), "E128")]


def negated(daemon, name):
    client, replies = greeted(daemon)
    asks = [(b"fails:negated", int), (b"fails:", "E126"), (b"piped:", int)]
    return replies + said(client, *[(ask.request(b"user", kind + name, b"x", -4), want) for kind, want in asks])


def hellos(daemon, name):
    replies = []
    for uid in [1000, 1001, 1002, 1003, 1000, 1004]:
        client, more = greeted(daemon, uid)
        replies += more + said(client, (ask.hello(uid), "E22"))
        if isinstance(more[0][0], tuple):
            with Client(daemon.path) as joins:
                replies += said(joins, (ask.hello(uid, uid, more[0][0][2], 3), tuple), (ask.add(b"user", name, b"v", -1), int))
        client.socket.close()
    return replies


def is_as_told(got, want):
    return isinstance(got, want) and got != 0 if isinstance(want, type) else got == want


def played_twice(daemon, play, instead):
    """Whether a scenario met what fails, and what is wrong: its first odd reply has to be one of those that may come instead, and behind it all is as told."""
    met = False
    for name in [b"1", b"2"]:
        odd = [(got, want) for got, want in play(daemon, name) if not is_as_told(got, want)]
        for client in daemon.clients:
            client.socket.close()
        if odd and (met or odd[0][0] not in instead):
            return met, f"{name}: {odd}"
        met = met or bool(odd)
    with contextlib.suppress(OSError):
        if daemon.lives() is None:
            return met, None
    # what fails was met here
    return met, daemon.lives()
