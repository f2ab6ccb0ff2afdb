"""Requests keys of a daemon reqkeyd, and makes keys for it: all sixteen requests of docs/PROTOCOL.md, by the standard library alone.

A client connects to the daemon's socket and says for whom it acts:

    with reqkey.connect("/run/reqkeyd/socket", uid=1000) as session:
        print(session.get("user", "mail:joe", callout="letter"))

A plain handler speaks over its standard streams. It is started with the serial of its key, by a line of the configuration like
`create user mail:* * /path/of/handler %k`, and prints nothing on standard output:

    key = int(sys.argv[1])
    with reqkey.handle(key) as session:
        session.instantiate(key, session.callout().encode())

Each call sends a request, and returns the daemon's reply, or raises

- `Refused`, if the daemon refuses it: `errno` has the number and the name. The session goes on.
- `ValueError`, if no frame can hold its arguments. Nothing was sent, and the session goes on.
- `Ended`, if the connection ends before the reply has come whole.
- `Malformed`, if what came is no reply to this request.
- `OSError`, if reading or writing fails, `TimeoutError` among them.

After one of the last three it isn't known any more which reply belongs to which request, so the session is over: each further one raises `Ended`.
All but `ValueError` name the path of the socket. A session is for one thread at a time. A request may wait as long as a handler takes; what can't wait has a
session of its own. `reqkey.aio` has the same calls for asyncio.
"""
from __future__ import annotations

import io
import os
import socket
import types
from typing import Any, TypeVar

from . import _protocol as calls
from ._protocol import AUTHORITY, Call, Conversation, Described, Ended, Errno, Error, Malformed, Refused, Ring, Rings, Setting, State

__all__ = [
    "AUTHORITY", "Described", "Ended", "Errno", "Error", "Malformed", "Refused", "Ring", "Rings", "Session", "Setting", "State", "connect", "handle",
]

T = TypeVar("T")


class Session:
    """Requests, and their replies, over two streams without buffers, of which one may be the other. `connect` and `handle` make one."""

    def __init__(self, reader: io.RawIOBase, writer: io.RawIOBase, path: str = "") -> None:
        self._reader, self._writer = reader, writer
        self._conversation = Conversation(path)
        self.rings = Rings(0, 0, 0, 0)
        """What HELLO was answered."""

    def __enter__(self) -> Session:
        return self

    def __exit__(self, kind: type[BaseException] | None, fault: BaseException | None, trace: types.TracebackType | None) -> None:
        self.close()

    def close(self) -> None:
        """Ends the session. A client's thread and process rings go with it, and its session ring if nobody else has joined it."""
        self._conversation.over = True
        self._reader.close()
        self._writer.close()

    # ---- the requests

    def hello(self, uid: int, gid: int, *, thread: bool = False, process: bool = False, join: int = 0) -> Rings:
        """Says for whom a client acts, once, with a thread and a process ring or without, in a new session ring or in one that it joins."""
        self.rings = self._do(calls.hello(uid, gid, thread, process, join))
        return self.rings

    def request(self, type: str, description: str, *, callout: str | None = None, ring: int = Ring.NONE) -> int:
        """The serial of a key of this name. If there is none and a callout is given, which may be empty, a handler makes it, and this waits for it."""
        return self._do(calls.request(type, description, callout, ring))

    def assume(self, key: int) -> None:
        """Assumes a handler's authority over its key; 0 lays it down. `handle` has done so."""
        self._do(calls.assume(key))

    def instantiate(self, key: int, payload: bytes, *, ring: int = Ring.NONE) -> None:
        """Gives the key that a handler makes its payload, of 1 to 32,767 bytes, and links it in one more ring."""
        self._do(calls.instantiate(key, payload, ring))

    def negate(self, key: int, seconds: int, *, ring: int = Ring.NONE) -> None:
        """Says of the key that a handler makes that there is none, for so many seconds: requests are answered ENOKEY."""
        self._do(calls.negate(key, seconds, ring))

    def reject(self, key: int, seconds: int, error: int, *, ring: int = Ring.NONE) -> None:
        """As `negate` with an error: ENOKEY, EKEYEXPIRED, EKEYREVOKED or EKEYREJECTED."""
        self._do(calls.reject(key, seconds, error, ring))

    def read(self, key: int) -> bytes:
        """The payload of a key."""
        return self._do(calls.read(key))

    def get(self, type: str, description: str, callout: str | None = None) -> bytes:
        """The payload of a key of this name: `request` into the user ring, and `read`. A key may expire between them: after EKEYEXPIRED both are sent again."""
        try:
            return self._get(type, description, callout)
        except Refused as refused:
            if refused.errno != Errno.EKEYEXPIRED:
                raise
        return self._get(type, description, callout)

    def _get(self, type: str, description: str, callout: str | None) -> bytes:
        return self.read(self.request(type, description, callout=callout, ring=Ring.USER))

    def describe(self, key: int) -> Described:
        """The type of a key, the uid that it belongs to, its state and its description."""
        return self._do(calls.describe(key))

    def revoke(self, key: int) -> None:
        """Marks a key as revoked, for good."""
        self._do(calls.revoke(key))

    def timeout(self, key: int, seconds: int) -> None:
        """Lets a key expire in so many seconds, or never for 0."""
        self._do(calls.timeout(key, seconds))

    def link(self, key: int, ring: int) -> None:
        """Links a key in a ring; another one of its name is unlinked there."""
        self._do(calls.link(key, ring))

    def unlink(self, key: int, ring: int) -> None:
        """Unlinks a key from a ring. A key without links is gone."""
        self._do(calls.unlink(key, ring))

    def clear(self, ring: int) -> None:
        """Unlinks all keys of a ring."""
        self._do(calls.clear(ring))

    def default(self, setting: int) -> Setting:
        """Sets where keys go that are requested into no ring, and returns the setting before; `Setting.KEEP` only reads it."""
        return self._do(calls.default(setting))

    def add(self, type: str, description: str, payload: bytes, ring: int) -> int:
        """Makes a key with its payload, of 1 to 32,767 bytes, links it in a ring, and returns its serial."""
        return self._do(calls.add(type, description, payload, ring))

    def callout(self) -> str:
        """The callout of the request for a handler's key."""
        return self._do(calls.callout())

    # ---- frames

    def _do(self, call: Call[T]) -> T:
        """Sends a request, and returns what its reply says."""
        talk = self._conversation
        what = talk.begin(call.op)
        try:
            self._put(call.frame)
            length = talk.length(what, self._take(what, 4))
            return talk.end(what, call, self._take(what, length))
        except OSError as fault:
            raise talk.fault(fault) from None

    def _put(self, data: bytes) -> None:
        while data:
            data = data[self._writer.write(data) or 0 :]

    def _take(self, what: str, count: int) -> bytes:
        data = b""
        while len(data) < count:
            piece = self._reader.read(count - len(data))
            if not piece:
                raise self._conversation.ended(what)
            data += piece
        return data


class _Connection(io.RawIOBase):
    """A client's connection. A door (reqkey-door(8)) hands over the daemon's own with the reply to HELLO. That one is used then, and this one stays open."""

    def __init__(self, ours: socket.socket) -> None:
        self._now, self._all, self._looks = ours, [ours], True

    def read(self, count: int = -1) -> bytes:
        if not self._looks:
            return self._now.recv(count)
        data, handed, _, _ = socket.recv_fds(self._now, count, 1, getattr(socket, "MSG_CMSG_CLOEXEC", 0))
        self._all += [socket.socket(socket.AF_UNIX, socket.SOCK_STREAM, 0, each) for each in handed]
        return data

    def write(self, data: Any) -> int:
        return self._now.send(data)

    def greeted(self) -> None:
        """HELLO was answered by rings: the first descriptor that came with them is the connection, and no other is looked for."""
        self._looks = False
        if len(self._all) > 1:
            self._now = self._all[1]
            self._now.settimeout(self._all[0].gettimeout())

    def close(self) -> None:
        for each in self._all:
            each.close()
        super().close()


def connect(
    path: str | os.PathLike[str],
    *,
    uid: int | None = None,
    gid: int | None = None,
    thread: bool = False,
    process: bool = False,
    join: int = 0,
    timeout: float | None = None,
) -> Session:
    """A client of the daemon at this socket, which acts for this uid and gid, or for the effective ones of this process.

    It has said HELLO, and `rings` are its rings. If that is refused the connection is closed. `timeout` is how many seconds one read or write may take.
    """
    name = os.fspath(path)
    ours = socket.socket(socket.AF_UNIX)
    stream = _Connection(ours)
    session = Session(stream, stream, name)
    try:
        ours.settimeout(timeout)
        _connect(ours, name)
        session.hello(os.geteuid() if uid is None else uid, os.getegid() if gid is None else gid, thread=thread, process=process, join=join)
        stream.greeted()
    except BaseException:
        session.close()
        raise
    return session


def _connect(ours: socket.socket, name: str) -> None:
    """A fault of connect(2) names the path."""
    try:
        ours.connect(name)
    except OSError as fault:
        raise Conversation(name).fault(fault) from None


def handle(key: int) -> Session:
    """A plain handler over its standard streams, which has assumed the authority of its key. The streams stay open when it is closed."""
    session = Session(io.FileIO(0, "r", closefd=False), io.FileIO(1, "w", closefd=False))
    session.assume(key)
    return session
