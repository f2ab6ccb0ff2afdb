"""`--idle`: who is closed by it, as clients that stop, that send a byte at a time or that never read, and who is not, whatever signals the daemon gets."""
import signal
import threading

import protocol_peer as ask
from daemon import Client, Daemon, GaveUp, ended, text_of, until
from programs import differs

MADE = "create user missing:* * /missing/program\ncreate user false:* * |/bin/false\n"
SILENT = 24


def silent(daemon):
    """Clients that say nothing more."""
    return [daemon.client(2000 + number) for number in range(SILENT)]


def served(clients):
    """How many of these are answered."""
    count = 0
    for client in clients:
        try:
            count += client.ask(ask.default(-1)) is not None
        except (OSError, GaveUp):
            pass
    return count


def children_end(program, kind, makers):
    """The ends of handlers are signals, which interrupt reads of clients that are silent: they are read again."""
    def makes(daemon, uid):
        with Client(daemon.path, uid) as client:
            for number in range(300):
                client.ask(ask.request(b"user", f"{kind}:{number}".encode(), b"x", -3))
                if number % 100 == 99:
                    client.ask(ask.on_key(13, -3))

    with Daemon(program, MADE, "--idle", "600", "--negative", "0", "--log", "error") as daemon:
        clients = silent(daemon)
        threads = [threading.Thread(target=makes, args=(daemon, 100 + maker), daemon=True) for maker in range(makers)]
        for thread in threads:
            thread.start()
        for thread in threads:
            ended(thread, "keys that are made")
        return differs(served(clients), SILENT) or daemon.lives()


def is_stopped(program):
    """The daemon is stopped, and goes on: that interrupts reads, too."""
    with Daemon(program, "", "--idle", "600") as daemon:
        clients = silent(daemon)
        for _ in range(3):
            daemon.process.send_signal(signal.SIGSTOP)
            until(daemon.is_stopped, "a daemon that is stopped")
            daemon.process.send_signal(signal.SIGCONT)
            until(lambda: not daemon.is_stopped(), "a daemon that goes on")
        return differs(served(clients), SILENT) or differs(daemon.lines, ["reqkeyd: ready"])


def still_ends(program):
    """Silent clients are closed though handlers end all the time: what interrupts a read does not begin its time anew for good."""
    with Daemon(program, MADE, "--idle", "1", "--negative", "0", "--log", "error") as daemon:
        clients, done = silent(daemon), threading.Event()

        def makes():
            with Client(daemon.path, 100) as client:
                while not done.is_set():
                    for number in range(100):
                        client.ask(ask.request(b"user", f"missing:{number}".encode(), b"x", -3))
                    client.ask(ask.on_key(13, -3))

        thread = threading.Thread(target=makes, daemon=True)
        thread.start()
        rests = [client.rest() for client in clients]
        done.set()
        ended(thread, "keys that are made")
        return differs(rests, [[]] * SILENT) or daemon.lives()


def drips(program):
    """Clients that send a byte at a time of a long frame have the time of a frame, and others are served then."""
    with Daemon(program, "", "--idle", "1", "--sessions", "2", "--log", "info") as daemon:
        clients = [daemon.client(None) for _ in range(2)]
        frame, done = ask.frame(ask.add(b"user", b"k", b"v" * 30000, -3)), threading.Event()

        def drip(client):
            for at in range(len(frame)):
                if done.wait(0.2):
                    return
                try:
                    client.put(frame[at : at + 1])
                except OSError:
                    return

        threads = [threading.Thread(target=drip, args=(client,), daemon=True) for client in clients]
        for thread in threads:
            thread.start()
        try:
            with Client(daemon.path, 1000) as other:
                rings = other.rings
        finally:
            done.set()
        for thread in threads:
            ended(thread, "the drips")
        return differs(isinstance(rings, tuple), True) or told(daemon, ["info: session 1: idle", "info: session 2: idle"])


def never_read(program):
    """Clients that ask and never read a reply have the time of a sending, and others are served then."""
    with Daemon(program, "", "--idle", "1", "--sessions", "2") as daemon:
        for number in range(2):
            client = daemon.client(1000 + number)
            key = client.ask(ask.add(b"user", b"k", b"p" * 32767, -4))
            client.socket.setblocking(False)
            try:
                while True:
                    client.socket.send(ask.frame(ask.on_key(7, key)) * 500)
            except BlockingIOError:
                pass
        with Client(daemon.path, 1002) as other:
            rings = other.rings
        return differs(isinstance(rings, tuple), True) or told(daemon, [f"warn: session {number}: its replies are not read" for number in [1, 2]])


def reads_slowly(program):
    """A client that reads its replies, but slowly, and one that sends a long frame in many pieces, are not closed."""
    with Daemon(program, "", "--idle", "600") as daemon:
        client = daemon.client()
        key = client.ask(ask.add(b"user", b"k", b"p" * 32767, -4))
        client.send(*[ask.on_key(7, key)] * 40)
        replies = [client.reply() for _ in range(40)]
        for byte in ask.frame(ask.on_key(8, key)):
            client.put(bytes([byte]))
        return differs((set(replies), client.reply()), ({b"p" * 32767}, b"user;1000;valid;k"))


def told(daemon, wanted):
    """Waits for as many lines of the log that tell of sessions, and compares them, in any order."""
    def lines():
        return [line for line in map(text_of, daemon.lines) if "session" in line]

    until(lambda: len(lines()) >= len(wanted), "lines of the log")
    return differs(sorted(lines()), wanted)


def cases():
    for kind, makers in [("missing", 1), ("false", 1), ("missing", 4)]:
        yield f"silent clients beside {makers} of {kind} programs", children_end, kind, makers
    yield "silent clients of a daemon that is stopped", is_stopped
    yield "silent clients that are interrupted", still_ends
    yield "clients that send a byte at a time", drips
    yield "clients that never read", never_read
    yield "a client that is slow", reads_slowly
