"""The daemon's side of the protocol, written from docs/PROTOCOL.md: frames, asks as bodies, replies as bodies, and a daemon that answers what its test says."""
import itertools
import pathlib
import socket
import struct
import tempfile
import threading

from programs import LIMIT


def frame(body):
    return struct.pack(">I", len(body)) + body


def number(value):
    return b"\x00" + struct.pack(">I", value)


def data(value):
    return b"\x01" + struct.pack(">H", len(value)) + value


def rings(thread, process, session, user):
    return b"\x02" + struct.pack(">IIII", thread, process, session, user)


def refused(errno):
    return b"\x03" + bytes([errno])


def block(text):
    return struct.pack(">H", len(text)) + text


def hello(uid=0, gid=0, join=0, flags=0):
    return b"\x01" + struct.pack(">IIBI", uid, gid, flags, join)


def request(typ, description, callout, ring):
    told = b"\x00" if callout is None else b"\x01" + block(callout)
    return b"\x02" + block(typ) + block(description) + told + struct.pack(">i", ring)


def on_key(op, key):
    """ASSUME 3, READ 7, DESCRIBE 8, REVOKE 9."""
    return bytes([op]) + struct.pack(">i", key)


def instantiate(key, payload, ring):
    return b"\x04" + struct.pack(">i", key) + block(payload) + struct.pack(">i", ring)


def negate(key, seconds, ring):
    return b"\x05" + struct.pack(">iIi", key, seconds, ring)


def reject(key, seconds, error, ring):
    return b"\x06" + struct.pack(">iIIi", key, seconds, error, ring)


def timeout(key, seconds):
    return b"\x0a" + struct.pack(">iI", key, seconds)


def on_key_and_ring(op, key, ring):
    """LINK 11, UNLINK 12."""
    return bytes([op]) + struct.pack(">ii", key, ring)


def clear(ring):
    return b"\x0d" + struct.pack(">i", ring)


def default(setting):
    return b"\x0e" + struct.pack(">i", setting)


def add(typ, description, payload, ring):
    return b"\x0f" + block(typ) + block(description) + block(payload) + struct.pack(">i", ring)


CALLOUT = b"\x10"


# bytes that are no reply to any ask
NO_REPLY = {
    "an empty body": frame(b""),
    "a body above the most": b"\x00\x01\x00\x01" + bytes(65537),
    "a body of 4 GiB": b"\xff\xff\xff\xff",
    "an unknown kind": frame(b"\x04\x00"),
    "the greatest kind": frame(b"\xff" * 65536),
    "an errno that there is not": frame(refused(3)),
    "errno 0": frame(refused(0)),
    "an errno of five bytes": frame(b"\x03\x00\x00\x00\x16"),
    "a refusal without its errno": frame(b"\x03"),
    "a refusal that goes on": frame(b"\x03\x16\x00"),
}


def answering(*bodies, split=False):
    """A daemon that answers by these bodies, of which None closes."""
    return Daemon([body and frame(body) for body in bodies], split)


class Daemon:
    """A socket that serves one client: for each frame that it gets it sends the next of these bytes, and after the last one it sends no more.

    None in their place closes without a reply; `split` sends each byte by itself. One that `stays` says nothing after them, and doesn't end. `heard` has the
    bodies that came."""

    def __init__(self, replies, split=False, stays=False):
        self.replies, self.split, self.stays = replies, split, stays
        self.heard, self.more = [], b""
        self.room = tempfile.TemporaryDirectory(prefix="peer-")
        self.path = str(pathlib.Path(self.room.name) / "s")

    def __enter__(self):
        self.listener = socket.socket(socket.AF_UNIX)
        self.listener.bind(self.path)
        self.listener.listen()
        self.thread = threading.Thread(target=self.serve, daemon=True)
        self.thread.start()
        return self

    def serve(self):
        try:
            client, _ = self.listener.accept()
        except OSError:
            return
        with client, client.makefile("rb") as stream:
            try:
                for reply in self.replies:
                    head = stream.read(4)
                    if len(head) < 4:
                        return
                    self.heard.append(stream.read(struct.unpack(">I", head)[0]))
                    if reply is None:
                        return
                    for piece in [bytes([byte]) for byte in reply] if self.split else [reply]:
                        client.sendall(piece)
                if not self.stays:
                    client.shutdown(socket.SHUT_WR)
                self.more = stream.read()
            except OSError:
                pass

    def ended(self):
        """Waits until the client has gone: then `heard` and `more` have all that it has said."""
        self.thread.join(LIMIT)
        if self.thread.is_alive():
            raise TimeoutError(f"the client has not gone within {LIMIT} seconds")

    def __exit__(self, *_):
        # wakes a daemon to which nobody has connected
        self.listener.shutdown(socket.SHUT_RDWR)
        try:
            self.ended()
        finally:
            self.listener.close()
            self.room.cleanup()


class Crowd:
    """A socket at this path that serves many clients, each in a thread. `answers(number, body)` gives the body of a reply to the client that came as this
    number, from 0, and may wait; by default each HELLO makes a new ring, or is let into the one that it joins, and all else is answered a serial.

    `heard` has the numbers and the bodies that came, `clients` the sockets."""

    def __init__(self, path, answers=None):
        self.path, self.answers = str(path), answers or self.usual
        self.serials, self.heard, self.clients = itertools.count(100), [], []

    def usual(self, _, body):
        if body[0] != 1:
            return number(next(self.serials))
        return rings(0, 0, struct.unpack(">I", body[10:14])[0] or next(self.serials), 7)

    def __enter__(self):
        pathlib.Path(self.path).unlink(missing_ok=True)
        self.listener = socket.socket(socket.AF_UNIX)
        self.listener.bind(self.path)
        self.listener.listen(256)
        threading.Thread(target=self.accept, daemon=True).start()
        return self

    def accept(self):
        for at in itertools.count():
            try:
                client, _ = self.listener.accept()
            except OSError:
                return
            self.clients.append(client)
            threading.Thread(target=self.serve, args=(at, client), daemon=True).start()

    def serve(self, at, client):
        try:
            with client, client.makefile("rb") as stream:
                while len(head := stream.read(4)) == 4:
                    body = stream.read(struct.unpack(">I", head)[0])
                    self.heard.append((at, body))
                    client.sendall(frame(self.answers(at, body)))
        except OSError:
            pass

    def __exit__(self, *_):
        self.listener.shutdown(socket.SHUT_RDWR)
        self.listener.close()
