"""Many asks in one write: their replies come together, in order, and none waits for what a later ask waits for."""
import struct

import protocol_peer as ask
from daemon import Daemon
from programs import differs

HELD = "create user h:* * %puppet %k\n"
USER = -4
FIFTY = range(50)


def payload(at):
    """As many bytes as its number, which differ from the others'."""
    return b"%02d" % at + b"p" * at


def adds():
    return [ask.add(b"user", b"k:%d" % at, payload(at), USER) for at in FIFTY]


def fifty(program):
    """Fifty asks in one write, twice: a reply to each, in their order."""
    with Daemon(program) as daemon, daemon.client() as client:
        keys = client.ask(*adds())
        found = client.ask(*[ask.on_key(7, key) for key in keys])
        return differs((keys, found), ([12 + 4 * at for at in FIFTY], [payload(at) for at in FIFTY])) or daemon.lives()


def ends_behind(program):
    """Fifty asks and the end of the input: each is answered."""
    with Daemon(program) as daemon, daemon.client() as client:
        client.send(*adds())
        return differs(client.ends(), [12 + 4 * at for at in FIFTY]) or daemon.lives()


def long_ones(program):
    """Replies that are longer than what is kept, and short ones between them."""
    with Daemon(program) as daemon, daemon.client() as client:
        lengths = [1, 4089, 4090, 32767, 2, 2045, 2046, 4000, 3]
        keys = client.ask(*[ask.add(b"user", b"k:%d" % length, b"p" * length, USER) for length in lengths])
        found = client.ask(*[ask.on_key(7, key) for key in keys * 5])
        return differs([len(it) for it in found], lengths * 5) or daemon.lives()


def waits_within(program):
    """An ask in the middle waits: the replies before it come while it waits, and the others behind its own."""
    with Daemon(program, HELD) as daemon, daemon.client() as client:
        reads = [ask.on_key(7, 12)] * 20
        client.send(ask.add(b"user", b"k", b"v", USER), *reads, ask.request(b"user", b"h:1", b"x", USER), *reads)
        before = [client.reply() for _ in range(21)]
        handler = daemon.handler()
        done = handler.completes()
        handler.ends()
        behind = [client.reply() for _ in range(21)]
        return differs((before, done, behind), ([12, *[b"v"] * 20], (0, 0), [handler.key, *[b"v"] * 20])) or daemon.lives()


def waits_for_another(program):
    """The same where another client has started the handler."""
    with Daemon(program, HELD) as daemon, daemon.client() as starter, daemon.client() as client:
        starter.send(ask.request(b"user", b"h:1", b"x", USER))
        handler = daemon.handler()
        client.send(ask.add(b"user", b"k", b"v", USER), ask.request(b"user", b"h:1", b"x", USER), ask.on_key(8, handler.key))
        before = client.reply()
        handler.ask(ask.on_key(3, handler.key), ask.instantiate(handler.key, b"made", 0))
        behind = client.reply(), client.reply()
        handler.ends()
        wanted = (20, (handler.key, b"user;1000;valid;h:1"), handler.key)
        return differs((before, behind, starter.reply()), wanted) or daemon.lives()


def bad_length(program, head):
    """Fifty asks and a length that no frame has: the asks are answered, and then the connection is closed."""
    with Daemon(program) as daemon, daemon.client() as client:
        client.put(b"".join(map(ask.frame, adds())) + head + ask.frame(ask.on_key(7, 12)))
        return differs(client.rest(), [12 + 4 * at for at in FIFTY]) or daemon.lives()


def leaves(program):
    """Clients that ask for much in one write and close: others are served."""
    with Daemon(program, "", "--sessions", "2") as daemon, daemon.client() as other:
        for _ in range(20):
            with daemon.client() as client:
                client.send(*adds())
        key = other.ask(ask.add(b"user", b"other", b"v", USER))
        return differs(other.ask(ask.on_key(7, key)), b"v") or daemon.lives()


def cases():
    for try_it in [fifty, ends_behind, long_ones, waits_within, waits_for_another, leaves]:
        yield try_it.__name__.replace("_", " "), try_it
    for head in [bytes(4), struct.pack(">I", 65537)]:
        yield f"fifty asks and the length {head.hex()}", bad_length, head
