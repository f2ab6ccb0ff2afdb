"""The same calls for asyncio: `async with await reqkey.aio.connect(path) as session: await session.get("user", "mail:joe", "letter")`.

What each returns and raises stands in `reqkey`. Several tasks may use one session: their requests go one after the other. A request that is cancelled while
its reply is awaited ends the session; `asyncio.wait_for` does that, too. A daemon that is waited for holds up no other task.
"""
from __future__ import annotations

import asyncio
import os
import types
from typing import TypeVar

from . import _protocol as calls
from ._protocol import Call, Conversation, Described, Errno, Refused, Ring, Rings, Setting

__all__ = ["Session", "connect", "handle"]

T = TypeVar("T")


class Session:
    """Requests, and their replies, over two streams. `connect` and `handle` make one."""

    def __init__(self, reader: asyncio.StreamReader, writer: asyncio.StreamWriter, path: str = "") -> None:
        self._reader, self._writer = reader, writer
        self._conversation = Conversation(path)
        self._turn = asyncio.Lock()
        self.rings = Rings(0, 0, 0, 0)
        """What HELLO was answered."""

    async def __aenter__(self) -> Session:
        return self

    async def __aexit__(self, kind: type[BaseException] | None, fault: BaseException | None, trace: types.TracebackType | None) -> None:
        await self.close()

    async def close(self) -> None:
        """Ends the session. A client's thread and process rings go with it, and its session ring if nobody else has joined it."""
        self._conversation.over = True
        self._writer.close()
        try:
            await self._writer.wait_closed()
        except OSError:
            pass  # the daemon has closed it before

    # ---- the requests

    async def hello(self, uid: int, gid: int, *, thread: bool = False, process: bool = False, join: int = 0) -> Rings:
        """Says for whom a client acts, once, with a thread and a process ring or without, in a new session ring or in one that it joins."""
        self.rings = await self._do(calls.hello(uid, gid, thread, process, join))
        return self.rings

    async def request(self, type: str, description: str, *, callout: str | None = None, ring: int = Ring.NONE) -> int:
        """The serial of a key of this name. If there is none and a callout is given, which may be empty, a handler makes it, and this waits for it."""
        return await self._do(calls.request(type, description, callout, ring))

    async def assume(self, key: int) -> None:
        """Assumes a handler's authority over its key; 0 lays it down. `handle` has done so."""
        await self._do(calls.assume(key))

    async def instantiate(self, key: int, payload: bytes, *, ring: int = Ring.NONE) -> None:
        """Gives the key that a handler makes its payload, of 1 to 32,767 bytes, and links it in one more ring."""
        await self._do(calls.instantiate(key, payload, ring))

    async def negate(self, key: int, seconds: int, *, ring: int = Ring.NONE) -> None:
        """Says of the key that a handler makes that there is none, for so many seconds: requests are answered ENOKEY."""
        await self._do(calls.negate(key, seconds, ring))

    async def reject(self, key: int, seconds: int, error: int, *, ring: int = Ring.NONE) -> None:
        """As `negate` with an error: ENOKEY, EKEYEXPIRED, EKEYREVOKED or EKEYREJECTED."""
        await self._do(calls.reject(key, seconds, error, ring))

    async def read(self, key: int) -> bytes:
        """The payload of a key."""
        return await self._do(calls.read(key))

    async def get(self, type: str, description: str, callout: str | None = None) -> bytes:
        """The payload of a key of this name: `request` into the user ring, and `read`. A key may expire between them: after EKEYEXPIRED both are sent again."""
        try:
            return await self._get(type, description, callout)
        except Refused as refused:
            if refused.errno != Errno.EKEYEXPIRED:
                raise
        return await self._get(type, description, callout)

    async def _get(self, type: str, description: str, callout: str | None) -> bytes:
        return await self.read(await self.request(type, description, callout=callout, ring=Ring.USER))

    async def describe(self, key: int) -> Described:
        """The type of a key, the uid that it belongs to, its state and its description."""
        return await self._do(calls.describe(key))

    async def revoke(self, key: int) -> None:
        """Marks a key as revoked, for good."""
        await self._do(calls.revoke(key))

    async def timeout(self, key: int, seconds: int) -> None:
        """Lets a key expire in so many seconds, or never for 0."""
        await self._do(calls.timeout(key, seconds))

    async def link(self, key: int, ring: int) -> None:
        """Links a key in a ring; another one of its name is unlinked there."""
        await self._do(calls.link(key, ring))

    async def unlink(self, key: int, ring: int) -> None:
        """Unlinks a key from a ring. A key without links is gone."""
        await self._do(calls.unlink(key, ring))

    async def clear(self, ring: int) -> None:
        """Unlinks all keys of a ring."""
        await self._do(calls.clear(ring))

    async def default(self, setting: int) -> Setting:
        """Sets where keys go that are requested into no ring, and returns the setting before; `Setting.KEEP` only reads it."""
        return await self._do(calls.default(setting))

    async def add(self, type: str, description: str, payload: bytes, ring: int) -> int:
        """Makes a key with its payload, of 1 to 32,767 bytes, links it in a ring, and returns its serial."""
        return await self._do(calls.add(type, description, payload, ring))

    async def callout(self) -> str:
        """The callout of the request for a handler's key."""
        return await self._do(calls.callout())

    # ---- frames

    async def _do(self, call: Call[T]) -> T:
        """Sends a request, and returns what its reply says."""
        talk = self._conversation
        async with self._turn:
            what = talk.begin(call.op)
            try:
                self._writer.write(call.frame)
                await self._writer.drain()
                length = talk.length(what, await self._reader.readexactly(4))
                return talk.end(what, call, await self._reader.readexactly(length))
            except asyncio.IncompleteReadError:
                raise talk.ended(what) from None
            except OSError as fault:
                raise talk.fault(fault) from None


async def connect(
    path: str | os.PathLike[str], *, uid: int | None = None, gid: int | None = None, thread: bool = False, process: bool = False, join: int = 0
) -> Session:
    """A client of the daemon at this socket, which acts for this uid and gid, or for the effective ones of this process.

    It has said HELLO, and `rings` are its rings. If that is refused the connection is closed.
    """
    name = os.fspath(path)
    try:
        reader, writer = await asyncio.open_unix_connection(name)
    except OSError as fault:
        raise Conversation(name).fault(fault) from None
    session = Session(reader, writer, name)
    try:
        await session.hello(os.geteuid() if uid is None else uid, os.getegid() if gid is None else gid, thread=thread, process=process, join=join)
    except BaseException:
        await session.close()
        raise
    return session


async def handle(key: int) -> Session:
    """A plain handler over its standard streams, which has assumed the authority of its key. The streams stay open when it is closed."""
    loop = asyncio.get_running_loop()
    reader = asyncio.StreamReader()
    await loop.connect_read_pipe(lambda: asyncio.StreamReaderProtocol(reader), os.fdopen(os.dup(0), "rb", 0))
    # (its reader gets nothing: the protocol is there for what it says of writing)
    transport, protocol = await loop.connect_write_pipe(lambda: asyncio.StreamReaderProtocol(asyncio.StreamReader()), os.fdopen(os.dup(1), "wb", 0))
    session = Session(reader, asyncio.StreamWriter(transport, protocol, None, loop))
    await session.assume(key)
    return session
