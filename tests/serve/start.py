"""Words, options, faults of the start in their order, what may stand at the socket's path, and standard streams that are closed."""
import itertools
import os
import pathlib
import re
import socket
import stat

import protocol_peer as ask
from daemon import Client, Daemon, until
from programs import differs, ran

CONF_FAULTS = [
    ("create user a *", "1: C1"),
    ("# x\n\n  create user * * bin/h", "3: C2"),
    ("create user * * |", "1: C2"),
    ("create user * * /bin/h %z", "1: C3"),
    ("create user * * /bin/h\n" + "x" * 8193, "2: C4"),
    ("create user a\0 * /bin/h", "1: C6"),
    (b"create user \xff * /bin/h", "1: C6"),
    ("create user a *\ncreate user * * h", "1: C1"),
]

# the options with a number: what they are allowed to be, and what not
NUMBERS = {
    "--negative": (["0", "4294967295", "007"], ["4294967296", "99999999999999999999999"]),
    "--sessions": (["1", "64", "08"], ["0", "65", "4294967296"]),
    "--clients": (["1", "001"], ["4294967296", "99999999999999999999999"]),
    "--mode": (["600", "0600", "777", "0"], ["8", "0o600", "0x1ff", "77777777777"]),
    "--idle": (["0", "4294967295"], ["4294967296"]),
    "--slow": (["0", "4294967295"], ["4294967296"]),
    "--status": (["0", "4294967295"], ["4294967296"]),
}
# the rings of a daemon's first client, and its end behind the last one
ONE = (0, 0, 4, 8), (0, [])
NO_NUMBERS = ["", "-1", "+1", "x", "1x", " 1", "1 ", "1.0", "-", "٣"]


def words_of(daemon, *more):
    return [daemon.program, "serve", "--socket", daemon.path, "--conf", daemon.conf, *more]


def ended(words):
    """A run that has to end by itself."""
    status, output, errors = ran(*words)
    return status, output, errors.decode(errors="replace")


def failed(words):
    """A run that has to end by itself with a fault: the first line that it says, and whether it says in one more line which file that is of, and why."""
    status, output, errors = ended(words)
    first, _, second = errors.partition("\n")
    return status, output, f"{first}\n", bool(re.fullmatch(r"  \S[^\n]*: [^\n]+\n", second))


def misuses(program, words):
    """Status 2, the usage on standard error, nothing on standard output and nothing at the socket. The configuration, which is faulty, is not read."""
    with Daemon(program, "create", starts=False) as daemon:
        filled = [{"S": daemon.path, "C": daemon.conf}.get(word, word) for word in words]
        status, output, errors = ended([program, *filled])
        said = "usage" in errors.lower() or "error: " in errors
        return differs((status, output, said, daemon.path.exists()), (2, b"", True, False)) and f"{status} {output} {errors}"


def takes(program, *options):
    """It starts with these options, serves a client, and ends with 0 after it."""
    clients = [] if "--clients" in options or any(it.startswith("--clients=") for it in options) else ["--clients", "1"]
    with Daemon(program, "", *options, *clients) as daemon:
        return differs((daemon.serves_one(), daemon.path.exists()), (ONE, False))


def goes_on(program, *options):
    """It serves one client after the other, and does not end."""
    with Daemon(program, "", *options) as daemon:
        rings = [Client(daemon.path, 1000).rings for _ in range(3)]
        return differs(rings, [(0, 0, at, 8) for at in [4, 12, 16]]) or daemon.lives()


def faults(program, conf, want):
    """A fault of the start: its line alone, and status 1."""
    with Daemon(program, starts=False) as daemon:
        if conf is None:
            daemon.conf.unlink()
        elif conf == "folder":
            daemon.conf.unlink()
            daemon.conf.mkdir()
        else:
            daemon.conf.write_bytes(conf if isinstance(conf, bytes) else conf.encode())
        got = failed(words_of(daemon))
        return differs((got, daemon.path.exists()), ((1, b"", f"reqkeyd: {want}\n", True), False))


def in_order(program):
    """Of several faults the first is reported: of the words, of the file, of its lines, of the library, of the socket."""
    with Daemon(program, "create", starts=False) as daemon:
        daemon.path.write_text("plain")
        got = [ended(words_of(daemon, "--sessions", "0"))[0], failed(words_of(daemon))]
        daemon.conf.unlink()
        got += [ended(words_of(daemon, "--sessions", "0"))[0], failed(words_of(daemon))]
        daemon.conf.write_text("")
        got += [failed(words_of(daemon, "--keyutils", "/none/libkeyutils.so.1")), failed(words_of(daemon))]
        lines = [(1, b"", f"reqkeyd: {it}\n", True) for it in ["conf line 1: C1", "conf", "keyutils", "socket"]]
        return differs((got, daemon.path.read_text()), ([2, lines[0], 2, *lines[1:]], "plain"))


def bound(path, kind=socket.SOCK_STREAM):
    """A socket that is bound to this path."""
    listener = socket.socket(socket.AF_UNIX, kind)
    listener.bind(str(path))
    return listener


def left(path):
    """The path, at which nobody answers: its socket was left there."""
    bound(path).close()
    return path


# What may stand at the path of the socket, and how it is put there.
STANDING = {
    "folder": pathlib.Path.mkdir,
    "full folder": lambda path: path.mkdir() or (path / "x").touch(),
    "dangling link": lambda path: path.symlink_to(path.with_name("nothing")),
    "link to a file": lambda path: path.symlink_to(path.with_name("conf")),
    "link to a socket that was left": lambda path: path.symlink_to(left(path.with_name("left"))),
    "pipe": os.mkfifo,
    "datagrams": lambda path: bound(path, socket.SOCK_DGRAM),
    "empty file": pathlib.Path.touch,
}


def stands(program, what):
    """Something else than a socket without a daemon stands at the path: it is reported, and is not touched."""
    with Daemon(program, starts=False) as daemon:
        listener = STANDING[what](daemon.path)
        before = os.lstat(daemon.path)
        got = failed(words_of(daemon))
        after = os.lstat(daemon.path)
        if listener:
            listener.close()
        return differs((got, after.st_ino, after.st_mode), ((1, b"", "reqkeyd: socket\n", True), before.st_ino, before.st_mode))


def nowhere(program, path):
    """A path at which no socket can be."""
    with Daemon(program, starts=False) as daemon:
        words = [daemon.program, "serve", "--socket", path.replace("%room", str(daemon.room)), "--conf", daemon.conf]
        return differs(failed(words), (1, b"", "reqkeyd: socket\n", True))


def longest(program, length):
    """A path of so many bytes."""
    with Daemon(program, "", "--clients", "1", starts=False) as daemon:
        folder = daemon.room / "l"
        folder.mkdir()
        daemon.path = folder / ("s" * (length - len(str(folder)) - 1))
        if length > 107:
            return differs((failed(words_of(daemon)), list(folder.iterdir())), ((1, b"", "reqkeyd: socket\n", True), []))
        daemon.start()
        return differs((daemon.serves_one(), list(folder.iterdir())), (ONE, []))


def stale(program):
    """A socket at which nobody answers is replaced."""
    with Daemon(program, "", "--clients", "1", starts=False) as daemon:
        left(daemon.path)
        daemon.start()
        return differs((daemon.serves_one(), daemon.path.exists()), (ONE, False))


def two(program):
    """A second daemon at the socket of one that runs is refused, and the first goes on."""
    with Daemon(program) as daemon:
        got = failed(words_of(daemon))
        mode = stat.S_ISSOCK(os.lstat(daemon.path).st_mode)
        return differs((got, mode), ((1, b"", "reqkeyd: socket\n", True), True)) or daemon.lives()


def busy(program):
    """The same while all its workers are busy, and more clients wait."""
    with Daemon(program, "", "--sessions", "1") as daemon:
        daemon.client()
        waiting = [daemon.client(None) for _ in range(3)]
        got = failed(words_of(daemon))
        rings = daemon.clients[0].ask(b"\x01")
        for client in waiting:
            client.socket.close()
        daemon.clients[0].socket.close()
        return differs((got, rings), ((1, b"", "reqkeyd: socket\n", True), "E22")) or daemon.lives()


def modes(program, mask, options, want):
    """The mode of the socket's file, whatever the mask, and that of its folder, which stays."""
    with Daemon(program, "", *options, mask=mask, starts=False) as daemon:
        found = []
        for mode in [0o700, 0o711, 0o1777]:
            daemon.room.chmod(mode)
            daemon.start()
            found.append([oct(os.stat(path).st_mode & 0o7777) for path in [daemon.path, daemon.room]])
            daemon.kill()
        return differs(found, [[oct(want), oct(mode)] for mode in [0o700, 0o711, 0o1777]])


def taken(program, what):
    """Something else has come to stand at the path while it serves: that is left there when it ends."""
    with Daemon(program, "", "--clients", "1") as daemon:
        with daemon.client():
            daemon.path.unlink()
            if what == "file":
                daemon.path.write_text("plain")
            elif what == "socket":
                left(daemon.path)
        got = daemon.end()
        stands = what != "nothing" and (daemon.path.is_socket() if what == "socket" else daemon.path.read_text() == "plain")
        return differs((got, stands, daemon.path.exists()), ((0, []), what != "nothing", what != "nothing"))


def succeeded(program):
    """A second daemon takes the path once the first one accepts no more, and the first one, which ends after that, leaves it there."""
    with Daemon(program, "", "--clients", "1") as first, Daemon(program, "", "--clients", "1", starts=False) as second:
        last = first.client()
        until(lambda: refuses(first.path), "the end of the first one's listener")
        second.path = first.path
        second.start()
        last.socket.close()
        return differs((first.end(), second.serves_one(), second.path.exists()), ((0, []), ONE, False))


def refuses(path):
    """Whether nobody listens at the path."""
    with socket.socket(socket.AF_UNIX) as client:
        try:
            client.connect(str(path))
        except ConnectionRefusedError:
            return True
    return False


def helps(program, words):
    status, output, errors = ended([program, *words])
    of_serve = ["Usage: ", "--socket", "--conf", "--negative", "--sessions", "--clients", "--mode", "--until-eof", "--idle", "--log", "--slow", "--status",
                "60", "64"]
    missing = [it for it in (of_serve if "serve" in words else ["serve", "replay"]) if it not in output.decode()]
    return differs((status, missing, errors), (0, [], ""))


def speaks_not(program):
    """Standard output stays empty, and standard input is not read."""
    with Daemon(program, "", "--clients", "1") as daemon:
        daemon.client().socket.close()
        daemon.end()
        return differs(daemon.process.stdout.read(), b"")


def closed(program, streams):
    """It is started with these standard streams closed: clients read what the protocol says and not a byte more, also where the daemon warns."""
    with Daemon(program, "create user m:* * /no/such\n", "--clients", "4", closed=streams, ready=False) as daemon:
        until(daemon.accepts, "a daemon that accepts")
        clients = [daemon.client(None) for _ in range(3)]
        for uid, client in enumerate(clients):
            client.send(ask.hello(uid, uid), ask.request(b"user", b"m:1", b"x", -4))
        bodies = [(ask.rings(0, 0, uid or 4, uid + (4 if uid else 8)), ask.refused(126)) for uid in range(3)]
        wanted = [b"".join(map(ask.frame, it)) for it in bodies]
        first = [client.take(len(it)) for client, it in zip(clients, wanted)]
        places = [os.readlink(f"/proc/{daemon.process.pid}/fd/{stream}") for stream in streams]
        rest = [client.ends() for client in clients]
        status, lines = daemon.end()
        told = 0 if 2 in streams else 3
        return differs((first, places, rest, status, len(lines)), (wanted, ["/dev/null"] * len(streams), [[]] * 3, 0, told))


def cases():
    base = ["serve", "--socket", "S", "--conf", "C"]
    for words in [["serve"], base[:3], [base[0], *base[3:]], ["serve", "--socket"], [*base, "more"], [*base, "--nothing"], [*base, "--mode"],
                  [*base, "--socket", "S"], [*base, "--conf=C"], ["serve", "--socket", "--conf", "C"], ["--socket", "S", "serve", "--conf", "C"],
                  [*base, "--until-eof=1"], [*base, "--until-eof", "--until-eof"], [*base, "--log"], [*base, "--log", "warning"], [*base, "--negativ", "1"],
                  [*base, "-s", "1"], [*base, "replay"], [*base, "--sessions"], [*base, "--", "x"]]:
        yield f"words {words}", misuses, words
    for option, (good, bad) in NUMBERS.items():
        for value in good:
            yield f"{option} {value}", takes, option, value
        yield f"{option}={good[0]}", takes, f"{option}={good[0]}"
        for value in [*bad, *NO_NUMBERS]:
            yield f"{option} {value!r}", misuses, [*base, option, value]
        yield f"{option}=", misuses, [*base, f"{option}="]
        yield f"{option} twice", misuses, [*base, option, good[0], option, good[0]]
    for options in [[], ["--clients", "0"], ["--clients=4294967295"], ["--clients", "0000"]]:
        yield f"no end with {options}", goes_on, *options
    for conf, want in CONF_FAULTS:
        yield f"a configuration {conf[:40]!r}", faults, conf, f"conf line {want}"
    yield "no configuration", faults, None, "conf"
    yield "a folder as a configuration", faults, "folder", "conf"
    yield "faults in their order", in_order
    for what in STANDING:
        yield f"a {what} at the path", stands, what
    for path in ["%room/none/s", "%room/conf/s", "/" + "l" * 200, "%room"]:
        yield f"the path {path[:30]}", nowhere, path
    yield "a path of 107 bytes", longest, 107
    yield "a path of 108 bytes", longest, 108
    yield "a socket that was left", stale
    for what in ["nothing", "file", "socket"]:
        yield f"{what} at the path when it ends", taken, what
    yield "a second one once the first accepts no more", succeeded
    yield "two daemons", two
    yield "a second one while the first is busy", busy
    for mask in [0o000, 0o022, 0o777]:
        yield f"the mode under {mask:o}", modes, mask, [], 0o600
    yield "a mode of a group", modes, 0o077, ["--mode", "0660"], 0o660
    yield "a mode for all", modes, 0o077, ["--mode=666"], 0o666
    for words in [["--help"], ["-h"], ["serve", "--help"], ["serve", "-h"]]:
        yield f"{words}", helps, words
    yield "standard output", speaks_not
    for streams in itertools.chain.from_iterable(itertools.combinations(range(3), count) for count in [1, 2, 3]):
        yield f"closed standard streams {streams}", closed, streams
