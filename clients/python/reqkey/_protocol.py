"""Requests as bytes, and what their replies mean: what both kinds of session share. Nothing here reads or writes."""
from __future__ import annotations

import enum
import errno
import os
import re
import struct
from typing import Callable, Generic, NamedTuple, TypeVar

T = TypeVar("T")

AUTHORITY = -7
"""In the place of a key in `read`: the authority that is assumed, whose payload is the callout."""


class Ring(enum.IntEnum):
    """The rings that a request can name without their serials."""

    NONE = 0
    THREAD = -1
    PROCESS = -2
    SESSION = -3
    USER = -4
    REQUESTOR = -8  # the destination of the key whose authority is assumed


class Setting(enum.IntEnum):
    """Where keys go that are requested into no ring: the first ring there is from this one on, in the order requestor, thread, process, session, user."""

    KEEP = -1  # in a request: leaves it as it is
    DEFAULT = 0
    THREAD = 1
    PROCESS = 2
    SESSION = 3
    USER = 4
    REQUESTOR = 7


class Errno(enum.IntEnum):
    """Why a request can be refused: Linux's numbers, on every system."""

    EPERM = 1
    ENOENT = 2
    ENOMEM = 12
    EACCES = 13
    EBUSY = 16
    EINVAL = 22
    EDEADLK = 35
    EDQUOT = 122
    ENOKEY = 126
    EKEYEXPIRED = 127
    EKEYREVOKED = 128
    EKEYREJECTED = 129


class State(str, enum.Enum):
    """In what state a key is."""

    VALID = "valid"
    NEGATIVE = "negative"
    BUILDING = "building"  # its handler makes it
    EXPIRED = "expired"
    REVOKED = "revoked"


class Rings(NamedTuple):
    """The serials of a client's rings, 0 for one that there is not."""

    thread: int
    process: int
    session: int
    user: int


class Described(NamedTuple):
    """What `describe` says of a key. As a text it is `user;1000;valid;mail:joe`. A type that has a semicolon itself can't be told from what follows."""

    type: str
    uid: int
    state: State
    description: str

    def __str__(self) -> str:
        return f"{self.type};{self.uid};{self.state.value};{self.description}"


class Error(Exception):
    """What a request can end with, beside faults of the system and of its arguments."""


class Refused(Error):
    """The daemon has refused the request, and nothing has changed; but see ENOMEM in docs/PROTOCOL.md."""

    def __init__(self, what: str, errno: Errno) -> None:
        super().__init__(f"{what}: {errno.name} ({errno.value})")
        self.errno = errno


class Ended(Error):
    """The connection has ended, and there is no whole reply."""


class Malformed(Error):
    """What came is no reply to the request."""


class Op(enum.IntEnum):
    """The first byte of a request."""

    HELLO = 1
    REQUEST = 2
    ASSUME = 3
    INSTANTIATE = 4
    NEGATE = 5
    REJECT = 6
    READ = 7
    DESCRIBE = 8
    REVOKE = 9
    TIMEOUT = 10
    LINK = 11
    UNLINK = 12
    CLEAR = 13
    DEFAULT = 14
    ADD = 15
    CALLOUT = 16


class _Reply(enum.IntEnum):
    """The first byte of a reply."""

    NUMBER = 0
    BYTES = 1
    RINGS = 2
    REFUSED = 3


_ERRNOS = frozenset(map(int, Errno))
_STATES = "|".join(state.value for state in State)
_BODY = 65_536  # the bytes of a frame's body at most
_SERIAL = 2_147_483_647  # the greatest serial


class Unfit(Exception):
    """Bytes that are no reply to the request, and why."""


class Call(Generic[T]):
    """A request: its op, its frame, and what a body that answers it gives. That one raises `Unfit`, or `Refused`."""

    def __init__(self, op: Op, frame: bytes, result: Callable[[str, bytes], T]) -> None:
        self.op, self.frame, self.result = op, frame, result


class Conversation:
    """Whether a session goes on, and how it names what goes wrong: by the path of its socket, if it has one."""

    def __init__(self, path: str) -> None:
        self.path = path
        self.over = False

    def begin(self, op: Op) -> str:
        """The name of a request. From now on the session is over, unless its reply comes whole."""
        what = f"{self.path}: {op.name}" if self.path else op.name
        if self.over:
            raise Ended(f"{what}: the session is over")
        self.over = True
        return what

    def length(self, what: str, head: bytes) -> int:
        """The length of a reply's body, of the four bytes before it."""
        length = int.from_bytes(head, "big")
        if not 1 <= length <= _BODY:
            raise Malformed(f"{what}: a frame of {length} bytes")
        return length

    def end(self, what: str, call: Call[T], body: bytes) -> T:
        """What a reply gives. The session goes on, if it is one."""
        try:
            self.over = False
            return call.result(what, body)
        except Unfit as fault:
            self.over = True
            raise Malformed(f"{what}: {fault}") from None

    def ended(self, what: str) -> Ended:
        return Ended(f"{what}: the connection has ended")

    def fault(self, fault: OSError) -> OSError:
        """A fault of the system, with the path of the socket."""
        if not self.path:
            return fault
        number = fault.errno or (errno.ETIMEDOUT if isinstance(fault, TimeoutError) else errno.ENAMETOOLONG)
        return OSError(number, os.strerror(number), self.path)


# ---- fields


def _number(value: int, size: int, signed: bool = False) -> bytes:
    try:
        return value.to_bytes(size, "big", signed=signed)
    except OverflowError:
        raise ValueError(f"{value} is no number of {8 * size} bits{'' if signed else ' without a sign'}") from None


def _u32(value: int) -> bytes:
    return _number(value, 4)


def _i32(value: int) -> bytes:
    return _number(value, 4, signed=True)


def _block(data: bytes) -> bytes:
    if len(data) > 0xFFFF:
        raise ValueError(f"a text or payload of {len(data)} bytes has no place in a frame")
    return _number(len(data), 2) + data


def _text(text: str) -> bytes:
    return _block(text.encode())


# ---- replies


def _fields(what: str, body: bytes, kind: _Reply) -> bytes:
    """What is behind the first byte of a reply, which has to be this one."""
    if body[0] == kind:
        return body[1:]
    if body[0] != _Reply.REFUSED:
        raise Unfit(f"a reply of kind {body[0]}, not {kind.value}")
    if len(body) != 2 or body[1] not in _ERRNOS:
        raise Unfit("a refusal with an unknown error")
    raise Refused(what, Errno(body[1]))


def _value(what: str, body: bytes) -> int:
    data = _fields(what, body, _Reply.NUMBER)
    if len(data) != 4:
        raise Unfit(f"a number of {len(data)} bytes")
    return int.from_bytes(data, "big")


def _done(what: str, body: bytes) -> None:
    value = _value(what, body)
    if value != 0:
        raise Unfit(f"the number {value} for 0")


def _serial(what: str, body: bytes) -> int:
    value = _value(what, body)
    if not 1 <= value <= _SERIAL:
        raise Unfit(f"an invalid serial: {value}")
    return value


def _setting(what: str, body: bytes) -> Setting:
    value = _value(what, body)
    try:
        return Setting(value)
    except ValueError:
        raise Unfit(f"an invalid setting: {value}") from None


def _bytes(what: str, body: bytes) -> bytes:
    data = _fields(what, body, _Reply.BYTES)
    if len(data) < 2 or int.from_bytes(data[:2], "big") != len(data) - 2:
        raise Unfit("bytes of another length than is said")
    return data[2:]


def _string(what: str, body: bytes) -> str:
    data = _bytes(what, body)
    try:
        return data.decode()
    except UnicodeDecodeError:
        raise Unfit("bytes that are not text") from None


def _described(what: str, body: bytes) -> Described:
    text = _string(what, body)
    found = re.fullmatch(f"(.*?);([0-9]{{1,10}});({_STATES});(.*)", text, re.DOTALL)
    if found is None:
        raise Unfit("an invalid description of a key")
    return Described(found[1], int(found[2]), State(found[3]), found[4])


def _rings(what: str, body: bytes) -> Rings:
    data = _fields(what, body, _Reply.RINGS)
    if len(data) != 16:
        raise Unfit(f"four rings in {len(data)} bytes")
    return Rings(*struct.unpack(">IIII", data))


# ---- requests


def _call(op: Op, result: Callable[[str, bytes], T], *fields: bytes) -> Call[T]:
    body = _number(op, 1) + b"".join(fields)
    if len(body) > _BODY:
        raise ValueError(f"a request of {len(body)} bytes has no place in a frame")
    return Call(op, _u32(len(body)) + body, result)


def hello(uid: int, gid: int, thread: bool, process: bool, join: int) -> Call[Rings]:
    return _call(Op.HELLO, _rings, _u32(uid), _u32(gid), _number(bool(thread) | bool(process) << 1, 1), _u32(join))


def request(type: str, description: str, callout: str | None, ring: int) -> Call[int]:
    told = b"\0" if callout is None else b"\1" + _text(callout)
    return _call(Op.REQUEST, _serial, _text(type), _text(description), told, _i32(ring))


def assume(key: int) -> Call[None]:
    return _call(Op.ASSUME, _done, _i32(key))


def instantiate(key: int, payload: bytes, ring: int) -> Call[None]:
    return _call(Op.INSTANTIATE, _done, _i32(key), _block(payload), _i32(ring))


def negate(key: int, seconds: int, ring: int) -> Call[None]:
    return _call(Op.NEGATE, _done, _i32(key), _u32(seconds), _i32(ring))


def reject(key: int, seconds: int, error: int, ring: int) -> Call[None]:
    return _call(Op.REJECT, _done, _i32(key), _u32(seconds), _u32(error), _i32(ring))


def read(key: int) -> Call[bytes]:
    return _call(Op.READ, _bytes, _i32(key))


def describe(key: int) -> Call[Described]:
    return _call(Op.DESCRIBE, _described, _i32(key))


def revoke(key: int) -> Call[None]:
    return _call(Op.REVOKE, _done, _i32(key))


def timeout(key: int, seconds: int) -> Call[None]:
    return _call(Op.TIMEOUT, _done, _i32(key), _u32(seconds))


def link(key: int, ring: int) -> Call[None]:
    return _call(Op.LINK, _done, _i32(key), _i32(ring))


def unlink(key: int, ring: int) -> Call[None]:
    return _call(Op.UNLINK, _done, _i32(key), _i32(ring))


def clear(ring: int) -> Call[None]:
    return _call(Op.CLEAR, _done, _i32(ring))


def default(setting: int) -> Call[Setting]:
    return _call(Op.DEFAULT, _setting, _i32(setting))


def add(type: str, description: str, payload: bytes, ring: int) -> Call[int]:
    return _call(Op.ADD, _serial, _text(type), _text(description), _block(payload), _i32(ring))


def callout() -> Call[str]:
    return _call(Op.CALLOUT, _string)
