"""Asks and replies as words and as bytes, by the tables of docs/PROTOCOL.md.

Texts are strings whose letters are one byte each, so that any byte can stand in one.
"""
import itertools
import re

# The op, the ask, its fields.
ASKS = """
1 HELLO uid u32, gid u32, flags u8, join u32
2 REQUEST type text, description text, callout?, destination i32
3 ASSUME key i32
4 INSTANTIATE key i32, payload, ring i32
5 NEGATE key i32, timeout u32, ring i32
6 REJECT key i32, timeout u32, error u32, ring i32
7 READ key i32
8 DESCRIBE key i32
9 REVOKE key i32
10 TIMEOUT key i32, seconds u32
11 LINK key i32, ring i32
12 UNLINK key i32, ring i32
13 CLEAR ring i32
14 DEFAULT setting i32
15 ADD type text, description text, payload, ring i32
16 CALLOUT none
"""

# The kind, the reply, the word that it begins with, its fields.
REPLIES = [
    (0, "Number", "", "u32"),
    (1, "Bytes", "bytes", "payload"),
    (2, "Rings", "rings", "thread u32, process u32, session u32, user u32"),
    (3, "Refused", "", "errno"),
]

ERRNOS = {
    1: "EPERM",
    2: "ENOENT",
    12: "ENOMEM",
    13: "EACCES",
    16: "EBUSY",
    22: "EINVAL",
    35: "EDEADLK",
    122: "EDQUOT",
    126: "ENOKEY",
    127: "EKEYEXPIRED",
    128: "EKEYREVOKED",
    129: "EKEYREJECTED",
}

BODY = 65_536  # the bytes of a frame's body at most
LONGEST = 262_144  # as many bytes a word may stand for
RUN = 16  # so many equal bytes are written by their number


class Fault(Exception):
    """What is wrong with words."""


class NoReading(Exception):
    """The bytes are none of this kind."""


# Bytes as a word.

ITEM = re.compile(r"(%[0-9A-Fa-f]{2}|[^%])(?:\*([0-9]+))?", re.DOTALL)


def word(data, seen=""):
    """Bytes as a word: a visible byte, or one that is `seen`, as it is, another one as `%` and two digits, a long run of one byte as `X*N`."""
    text = ""
    for byte, run in itertools.groupby(data):
        count, letter = len(list(run)), chr(byte)
        visible = ("!" <= letter <= "~" and letter != "%") or letter in seen
        unit = letter if visible else f"%{byte:02X}"
        # a digit behind a star would count
        first = f"%{byte:02X}" if letter.isdigit() and re.search(r"\*[0-9]*$", text) else unit
        text += f"{first}*{count}" if count >= RUN else first + unit * (count - 1)
    return text


def unword(text):
    """The bytes of a word."""
    data, at = bytearray(), 0
    while at < len(text):
        item = ITEM.match(text, at)
        if item is None:
            raise Fault("behind a % stand two hexadecimal digits; %25 is a % itself")
        unit, count = item.groups()
        if count and int(count) > LONGEST:
            raise Fault(f"{count} bytes are too many")
        data += bytes([int(unit[1:], 16) if len(unit) == 3 else ord(unit)]) * int(count or 1)
        at = item.end()
    return bytes(data)


def field(data):
    """Bytes as a field: the word, and `""` for no bytes at all."""
    return {b"": '""', b'""': '%22"', b";": "%3B"}.get(data) or word(data)


def unfield(text):
    """The bytes of a field."""
    return b"" if text == '""' else unword(text)


def raw(data, text=False):
    """Bytes without a message: in hexadecimal; but as `=` and a word where that has runs, or where they may be a text that can be seen."""
    told = word(data)
    return f"={told}" if len(told) < len(data) or (text and told.encode() == data) else data.hex()


def unraw(text):
    """The bytes of such a word, at least one."""
    if not text.startswith("=") and not re.fullmatch(r"([0-9A-Fa-f]{2})*", text):
        raise Fault(f"{text[:80]} is no even number of hexadecimal digits, nor = and a word")
    data = unword(text[1:]) if text.startswith("=") else bytes.fromhex(text)
    if not data:
        raise Fault("no bytes")
    return data


# The kinds of fields: each writes a word as bytes, and reads its word from a body.


def take(body, at, size):
    """So many bytes of a body, and where the next ones stand."""
    if at + size > len(body):
        raise NoReading
    return body[at : at + size], at + size


class Number:
    def __init__(self, size, signed=False):
        self.size, self.signed = size, signed

    def write(self, text):
        if not re.fullmatch("-?[0-9]+", text):
            raise Fault(f"{text} is no number")
        try:
            return int(text).to_bytes(self.size, "big", signed=self.signed)
        except OverflowError:
            raise Fault(f"{text} is no number of {8 * self.size} bits{'' if self.signed else ' without a sign'}") from None

    def read(self, body, at):
        data, at = take(body, at, self.size)
        return str(int.from_bytes(data, "big", signed=self.signed)), at


class Text:
    """A length of two bytes, and that many bytes. How long it may be is not asked: what is refused can be said too."""

    def write(self, text):
        return self.spelt(unfield(text))

    def read(self, body, at):
        data, at = self.taken(body, at)
        return field(data), at

    @staticmethod
    def spelt(data):
        if len(data) > 0xFFFF:
            raise Fault("a text or payload has at most 65,535 bytes")
        return len(data).to_bytes(2, "big") + data

    @staticmethod
    def taken(body, at):
        size, at = take(body, at, 2)
        return take(body, at, int.from_bytes(size, "big"))


class Callout(Text):
    """`-` is none; `=` and a word is one that is given, `=` alone an empty one."""

    def write(self, text):
        if text == "-":
            return b"\0"
        if not text.startswith("="):
            raise Fault(f"a callout is = and a word, or - for none, not {text[:80]}")
        return b"\1" + self.spelt(unword(text[1:]))

    def read(self, body, at):
        given, at = take(body, at, 1)
        if given == b"\0":
            return "-", at
        if given != b"\1":
            raise NoReading
        data, at = self.taken(body, at)
        return "=" + word(data), at


class Errno:
    """`ENOKEY (126)`; `ENOKEY` alone and `E126` are written alike."""

    def write(self, text):
        for number, name in ERRNOS.items():
            if text in (f"{name} ({number})", name, f"E{number}"):
                return bytes([number])
        raise Fault(f"{text[:80]} is no reply")

    def read(self, body, at):
        data, at = take(body, at, 1)
        if data[0] not in ERRNOS:
            raise NoReading
        return f"{ERRNOS[data[0]]} ({data[0]})", at


KINDS = {
    "u8": Number(1),
    "u32": Number(4),
    "i32": Number(4, signed=True),
    "text": Text(),
    "payload": Text(),
    "callout?": Callout(),
    "errno": Errno(),
}


def fields(told):
    """The kinds of the fields that a row of a table tells."""
    return [] if told == "none" else [KINDS[part.split()[-1]] for part in told.split(", ")]


def read_fields(told, body):
    """The words of a body behind its first byte."""
    words, at = [], 1
    for kind in fields(told):
        text, at = kind.read(body, at)
        words.append(text)
    if at < len(body):
        raise NoReading
    return words


def write_fields(first, told, words):
    """A body: its first byte, and these fields."""
    return bytes([first]) + b"".join(kind.write(text) for kind, text in zip(fields(told), words))


# Asks and replies.

BY_NAME, BY_OP = {}, {}
for row in ASKS.strip().split("\n"):
    op, name, told = row.split(" ", 2)
    BY_NAME[name] = BY_OP[int(op)] = (int(op), name, told)


def write_ask(words):
    """The body of an ask: its name and its fields; or `body` and the bytes of one that spells none."""
    name, *words = words
    if name == "body" and len(words) == 1:
        return unraw(words[0])
    if name not in BY_NAME:
        raise Fault(f"there is no ask {name}")
    op, _, told = BY_NAME[name]
    if len(words) != len(fields(told)):
        raise Fault(f"the fields of {name}: {told}")
    return write_fields(op, told, words)


def read_ask(body):
    """The words of a body."""
    try:
        _, name, told = BY_OP[body[0]]
        return " ".join([name, *read_fields(told, body)])
    except (KeyError, NoReading):
        return f"body {raw(body)}"


def write_reply(text):
    """The body of a reply."""
    if text[:1] == "E":
        return write_fields(3, "errno", [text])
    first, *words = text.split(" ") if not text[:1].isdigit() else ["", text]
    for kind, _, begins, told in REPLIES:
        if first == begins and len(words) == len(fields(told)):
            return write_fields(kind, told, words)
    raise Fault(f"{text[:80]} is no reply")


def read_reply(body):
    """The words of a reply."""
    for kind, _, begins, told in REPLIES:
        if body[0] == kind:
            return " ".join(([begins] if begins else []) + read_fields(told, body))
    raise NoReading


# Frames.


def frame(body):
    if not 1 <= len(body) <= BODY:
        raise Fault(f"a frame's body has 1 to 65,536 bytes, not {len(body)}")
    return len(body).to_bytes(4, "big") + body


def bodies(data):
    """The bodies of the whole frames that these bytes are."""
    found, at = [], 0
    while at < len(data):
        size, at = take(data, at, 4)
        size = int.from_bytes(size, "big")
        if not 1 <= size <= BODY:
            raise NoReading
        body, at = take(data, at, size)
        found.append(body)
    return found
