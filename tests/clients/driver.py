"""Requests what a script says, by clients/python/reqkey, and writes a line of what came of each: as driver.c does, which tells the words.

A client has to say HELLO by the script, so this one makes its session without `connect`, and a handler without `handle`. With `aio` before the other words
it is reqkey.aio that requests, and a handler uses `handle`.
"""
import asyncio
import inspect
import io
import pathlib
import re
import socket
import sys

sys.path.insert(0, str(pathlib.Path(__file__).resolve().parents[2] / "clients" / "python"))
import reqkey
import reqkey.aio


def word(text):
    """The bytes that a word stands for."""
    if text.startswith("@"):
        return b"p" * int(text[1:])
    return re.sub(rb"%([0-9A-F]{2})", lambda found: bytes.fromhex(found[1].decode()), text.encode())


def name(text):
    return word(text).decode()


def callout(text):
    return None if text == "-" else name(text)


ASKS = {
    "hello": lambda it, uid, gid, flags, join: it.hello(int(uid), int(gid), thread=bool(int(flags) & 1), process=bool(int(flags) & 2), join=int(join)),
    "request": lambda it, kind, described, told, ring: it.request(name(kind), name(described), callout=callout(told), ring=int(ring)),
    "assume": lambda it, key: it.assume(int(key)),
    "instantiate": lambda it, key, payload, ring: it.instantiate(int(key), word(payload), ring=int(ring)),
    "negate": lambda it, key, seconds, ring: it.negate(int(key), int(seconds), ring=int(ring)),
    "reject": lambda it, key, seconds, error, ring: it.reject(int(key), int(seconds), int(error), ring=int(ring)),
    "read": lambda it, key: it.read(int(key)),
    "get": lambda it, kind, described, told: it.get(name(kind), name(described), callout(told)),
    "describe": lambda it, key: it.describe(int(key)),
    "revoke": lambda it, key: it.revoke(int(key)),
    "timeout": lambda it, key, seconds: it.timeout(int(key), int(seconds)),
    "link": lambda it, key, ring: it.link(int(key), int(ring)),
    "unlink": lambda it, key, ring: it.unlink(int(key), int(ring)),
    "clear": lambda it, ring: it.clear(int(ring)),
    "default": lambda it, setting: it.default(int(setting)),
    "add": lambda it, kind, described, payload, ring: it.add(name(kind), name(described), word(payload), int(ring)),
    "callout": lambda it: it.callout(),
}

FAULTS = {reqkey.Ended: "ended", reqkey.Malformed: "malformed", ValueError: "unspelt"}


def told(result):
    """What an ask has given, in words."""
    if isinstance(result, reqkey.Described):
        result = str(result)
    if isinstance(result, tuple):
        return " ".join(map(str, result))
    if isinstance(result, (str, bytes)):
        data = result.encode() if isinstance(result, str) else result
        return "bytes " + "".join(chr(byte) if b" "[0] < byte <= b"~"[0] and byte != b"%"[0] else f"%{byte:02X}" for byte in data)
    return str(int(result or 0))


def connected(path):
    """A session in which nothing was said yet."""
    with socket.socket(socket.AF_UNIX) as connection:
        connection.connect(path)
        stream = connection.makefile("rwb", buffering=0)
    return reqkey.Session(stream, stream)


async def connected_aio(path):
    return reqkey.aio.Session(*await asyncio.open_unix_connection(path))


async def got(result):
    """A result, which is awaited if it is to be."""
    return await result if inspect.isawaitable(result) else result


async def play(script, file, connects, session=None):
    for line in script:
        first, *words = line.rstrip("\n").split(" ")
        try:
            if first == "connect":
                if session is not None:
                    await got(session.close())
                session = await got(connects(*words))
                said = "connected"
            else:
                said = told(await got(ASKS[first](session, *words)))
        except reqkey.Refused as refused:
            said = refused.errno.name
        except OSError:
            said = "system"
        except (reqkey.Error, ValueError) as fault:
            said = next(FAULTS[kind] for kind in FAULTS if isinstance(fault, kind))
        print(said, file=file)


async def handled(words, aio):
    """A script of a handler. With asyncio the first request, which assumes the authority, is that of `handle`."""
    with open(words[1]) as lines, open(words[2], "w") as output:
        session = None if aio else reqkey.Session(io.FileIO(0, "r", closefd=False), io.FileIO(1, "w", closefd=False))
        if aio:
            session = await reqkey.aio.handle(int(next(lines).split()[1]))
            print("0", file=output)
        await play(lines, output, connected, session)


AIO = sys.argv[1] == "aio"
WORDS = sys.argv[1 + AIO :]
if WORDS[0] == "client":
    asyncio.run(play(sys.stdin, sys.stdout, connected_aio if AIO else connected))
else:
    asyncio.run(handled(WORDS, AIO))
