#!/usr/bin/env python3
"""Runs keyutils' own programs on the daemon, by the library of clients/keyutils/: each command of keyctl without arguments, with bad ones and with good ones;
its handlers, by the example of request-key.conf(5) and as key.dns_resolver; and the library's calls themselves. Once by variables, and once by `reqkeyctl run`
and `reqkeyd serve --keyutils`, which set them.

Debian's keyutils is installed where it is lacking and can be had; else nothing is tried.
"""
import os
import pathlib
import re
import shlex
import shutil
import sys
import tempfile

import protocol_peer as ask
from compiled import SANITIZED, compiled, sanitizes
from counted import Counted
from daemon import Daemon, text_of, until
from keyctl_commands import ALONE, CASES, DENIED, EXPIRED, LEFT_OUT, MISSING, NONE, OF_ANY_LENGTH, REJECTED, REVOKED, SERIAL, USAGE, Keyctl
from keyutils_library import ENVIRONMENT, UID, Programs, everywhere, resolves
from programs import ran, top
from trap import environment

count = Counted()
CALLS = top / "tests" / "clients" / "calls.py"
ABSENT = "No such file or directory"


class Keyutils(Programs, Keyctl):
    """Programs in a session ring, and what keyctl has to print there."""

    count = count

    def key(self):
        self.holder.ask(ask.clear(-3))
        return self.holder.ask(ask.add(b"user", b"k", b"v", -3))


def commands(keys):
    """Each command of keyctl."""
    for case in CASES:
        key = keys.key()
        for words, *want in case:
            keys.fits(words, want, key=key, session=keys.session, user=keys.holder.rings[3], uid=UID)


def miscalled(keys):
    """Each command without arguments, and with too many: its usage, but where that is a call."""
    for name in listed():
        keys.fits(name, ALONE.get(name, USAGE), session=keys.session, uid=UID)
        if name not in OF_ANY_LENGTH:
            keys.fits(f"{name} a b c d e f g h i j k l", USAGE)


# These make a pipe for the kernel's notices first, which not every kernel has.
NOT_TRIED = ["watch", "watch_session", "watch_sync"]


def listed():
    """The commands that keyctl has."""
    _, output, errors = ran("keyctl", text=True)
    return sorted(set(re.findall(r"^  keyctl ([a-z_0-9]+)", output + errors, re.MULTILINE)))


def documented():
    """The document has each command and each call, and each command is tried here."""
    page = (top / "docs" / "PROGRAMS.md").read_text()
    sections = {part.partition("\n")[0]: part for part in page.split("\n## ")}
    told = {name: " ".join(re.findall(r"^\| (`.*?) \|", text, re.MULTILINE)) for name, text in sections.items()}
    tried = {words.split()[0] for case in CASES for words, *_ in case} | set(ALONE)
    count.same("the commands of docs/PROGRAMS.md", sorted(re.findall("`([a-z_0-9]+)`", told["Commands"])), listed())
    count.same("the commands that are tried", sorted(set(listed()) - tried), NOT_TRIED)
    return re.findall("`([a-zA-Z_]+)`", told["Calls"])


def symbols(library, calls):
    """The library has the calls of keyutils' own, in the same versions, and the document has them."""
    place = re.search(r"libkeyutils\.so\.1 => (\S+)", ran("ldd", shutil.which("keyctl"), text=True)[1])[1]
    names = []
    for path in [place, library]:
        output = ran("nm", "-D", "--defined-only", path, text=True)[1]
        names.append({name for _, kind, name in (line.split() for line in output.splitlines()) if kind != "A"})
    kernel = {name for name in names[0] if "@" in name}
    count.same("symbols of the library", sorted(kernel - names[1]), [])
    count.same("names of the library", sorted({name.split("@")[0] for name in names[1]}), sorted({name.split("@")[0] for name in names[0]}))
    count.same("the calls of docs/PROGRAMS.md", sorted(calls), sorted({name.split("@")[0] for name in names[0] if "_string" not in name}))


# The example of request-key.conf(5), with the lines that Debian's file has besides, and a program that fails.
EXAMPLE = """create user debug:* negate %plain /bin/keyctl negate %k 30 %S
create user debug:* rejected %plain /bin/keyctl reject %k 30 %c %S
create user debug:* expired %plain /bin/keyctl reject %k 30 %c %S
create user debug:* revoked %plain /bin/keyctl reject %k 30 %c %S
create user debug:loop:* * |/bin/cat
create user debug:fails:* * |/bin/false
create user debug:* * %plain /usr/share/keyutils/request-key-debug.sh %k %d %c %S
create user script:* * %plain %room/script %k
create user silent:* * %plain /bin/true
create dns_resolver * * %plain /sbin/key.dns_resolver %k
create user made:* * |/bin/cat
create logon made:* * |/bin/cat
create other* made:* * |/bin/cat
create user slow:* * |%room/slow
negate * * * %plain /bin/keyctl negate %k 30 %S
"""

# A handler asks before it has named its key, and then; what it prints is no ask.
SCRIPT = """#!/bin/sh
keyctl request user k
keyctl rdescribe "$1"
keyctl print @a
keyctl request2 user made:nested inner @s
keyctl id @s
keyctl rdescribe "$(keyctl id @a)"
keyctl timeout "$1" 4000000000
cat
printf made | keyctl pinstantiate "$1" @s
keyctl negate "$1" 10 @s
"""
SAID = ["request_key: Permission denied", "user;{uid};-1;3f000000;script:a", "words", "{nested}", f"keyctl_get_keyring_ID: {LEFT_OUT}",
        f"keyctl_describe: {LEFT_OUT}", "keyctl_negate: Permission denied"]


def handlers(keys):
    """Stock handlers, each as its line of the configuration says."""
    for name, callout, want in [
        ("debug:xxxx", "negate", MISSING), ("debug:a", "rejected", REJECTED), ("debug:b", "expired", EXPIRED), ("debug:c", "revoked", REVOKED),
        ("debug:fails:d", "x", MISSING), ("silent:e", "x", MISSING),
    ]:
        count.same(f"the handler of {name}", keys.run("keyctl", "request2", "user", name, callout, "@s"), (1, "", f"request_key: {want}\n"))
    for name, callout, payload in [("debug:yyyy", "spoon", "Debug spoon"), ("debug:loop:zzzz", "abcdefghijkl", "abcdefghijkl")]:
        keys.fits(f"request2 user {name} {callout} @s", (0, SERIAL, ""))
        keys.fits(f"print %user:{name}", (0, f"{payload}\n", ""))
    until(lambda: "RQDebug callout: spoon" in keys.daemon.lines, "what a stock script prints")


def scripted(keys):
    """A shell script that calls keyctl, and what it prints."""
    keys.key()
    before = len(keys.daemon.lines)

    def said():
        """What has been said since, but by stock scripts, whose last lines may come late."""
        return [line for line in keys.daemon.lines[before:] if not line.startswith("RQDebug ")]

    keys.fits("request2 user script:a words @s", (0, SERIAL, ""))
    keys.fits("print %user:script:a", (0, "made\n", ""))
    keys.fits("print %user:made:nested", (0, "inner\n", ""))
    _, nested, _ = keys.run("keyctl", "id", "%user:made:nested")
    until(lambda: len(said()) > len(SAID), "what a script says, and the daemon of its end")
    *lines, end = said()
    count.same("what a script has said", lines, [line.format(uid=UID, nested=nested.strip()) for line in SAID])
    ended = re.sub(r"key [0-9]+ |, /.*(?=\))", "", text_of(end))
    count.same("the end of a script whose last call was refused", ended, f'warn: handler of (create user "script:a", uid {UID}; line 8): exit status 1')


# how long the library of names may look for one that is nowhere
RESOLVER = {"RES_OPTIONS": "timeout:1 attempts:1"}


def resolves_names(keys):
    """key.dns_resolver, for a name that there is and for one that there is not."""
    if resolves(count, "the library", keys.run):
        count.same("key.dns_resolver for no name", keys.run("keyctl", "request2", "dns_resolver", "no.such.name.invalid", "ipv4", "@s")[:2], (1, ""))


def told(daemon, lines):
    """What these lines say of the variables that a handler gets: the library, and whether there are streams."""
    found = dict(line.partition("=")[::2] for line in lines if line.startswith(("LD_PRELOAD=", "REQKEYD_STREAMS=")))
    return found.get("LD_PRELOAD"), bool(re.fullmatch(r"\d+,\d+(,\d+){5}", found.get("REQKEYD_STREAMS", "")))


def stock(program, library):
    """Handlers as `serve --keyutils` starts them, by lines without variables; and what it tells each kind of handler."""
    lines = EXAMPLE.replace("%plain ", "") + "create user asks:* * /usr/bin/env\ncreate user piped:* * |/usr/bin/env\n"
    with Daemon(program, lines, "--keyutils", library, environment=RESOLVER) as daemon:
        daemon.script("script", SCRIPT)
        keys = Keyutils(daemon, library)
        handlers(keys)
        scripted(keys)
        resolves_names(keys)
        keys.fits("request2 user piped:a x @s", (0, SERIAL, ""))
        count.same("what a piped handler gets", told(daemon, keys.run("keyctl", "pipe", "%user:piped:a")[1].split("\n")), (None, False))
        daemon.lines.clear()
        keys.fits("request2 user asks:a x @s", (1, "", MISSING))
        until(lambda: all(told(daemon, daemon.lines)), "the variables of a handler")
        count.same("what a handler that asks gets", told(daemon, daemon.lines), (str(library), True))


class Runner:
    """Programs that `reqkeyctl run` runs, in an environment without any of the variables."""

    def __init__(self, program, path, library):
        self.program, self.path, self.library = program, path, library

    def run(self, *words, options=None, piped="", folder=None, **changes):
        """The status, output and errors of a program."""
        options = ["--socket", self.path, "--library", self.library] if options is None else options
        return ran(self.program, "run", *options, "--", *words, input=piped, text=True, env=environment(**changes), cwd=folder)

    def shell(self, script, **more):
        return self.run("/bin/sh", "-c", script, **more)

    def same(self, name, got, want):
        count.same(f"reqkeyctl run: {name}", got, want)

    def fits(self, name, got, status, output, errors=""):
        """Compares what came with a status, a pattern, and errors."""
        want = (status, output, errors)
        self.same(name, want if re.fullmatch(output, got[1], re.DOTALL) and (got[0], got[2]) == (status, errors) else got, want)


def shares(runner, daemon):
    """What a program and all that it starts have in common, as long as it runs."""
    runner.fits("keyctl", runner.run("keyctl", "add", "user", "k", "v", "@s"), 0, SERIAL)
    script = "keyctl id @s; keyctl add user k v @s >&2; keyctl print %user:k; sh -c 'sh -c \"keyctl id @s\"; keyctl print %user:k'; echo $REQKEYD_JOIN"
    status, output, errors = runner.shell(script)
    lines = output.split("\n")
    runner.same("a script shares its ring", (status, lines[1:], errors[:-1].isdigit()), (0, ["v", lines[0], "v", lines[0], ""], True))
    client = daemon.client(UID)
    # (the daemon learns of the end by itself: until then the key is there, and another client's)
    told = until(lambda: (got := client.ask(ask.on_key(7, int(errors)))) != "E13" and got, "the end of a run")
    count.same("the ring of a program that has ended", told, "E126")
    runner.fits("keyctl request2", runner.shell("keyctl request2 user made:a hello && keyctl print %user:made:a"), 0, SERIAL + "hello\n")
    outer = runner.shell(f"keyctl id @s; {shlex.quote(str(runner.program))} run --library {runner.library} -- keyctl id @s")
    rings = outer[1].split()
    runner.same("a run in a run has a ring of its own", (outer[0], len(set(rings)), outer[2]), (0, 2, ""))
    runner.fits("another user", runner.run("keyctl", "id", "@u", options=["--socket", runner.path, "--library", runner.library, "--uid", str(UID + 1)]), 1, "",
                f"keyctl_get_keyring_ID: {REVOKED}\n")


def passes(runner):
    """What a program has of its caller: words, streams, the environment but for the variables, the folder."""
    runner.fits("words", runner.run("printf", "%s|", "--help", "--", "run", "a b", ""), 0, re.escape("--help|--|run|a b||"))
    runner.fits("standard streams", runner.shell("cat; echo told >&2", piped="heard"), 0, "heard", "told\n")
    runner.fits("the folder", runner.run("pwd"), 0, re.escape(os.getcwd()) + "\n")
    shown = 'echo "$LD_PRELOAD $REQKEYD_SOCKET ${REQKEYD_STREAMS-none} $MINE"'
    library, path = str(runner.library), str(runner.path)
    runner.fits("variables", runner.shell(shown, MINE="mine"), 0, re.escape(f"{library} {path} none mine\n"))
    runner.fits("a library that is there stays", runner.shell(shown, LD_PRELOAD=library), 0, re.escape(f"{library}:{library} {path} none \n"))
    runner.fits("a handler's streams do not", runner.shell(shown, REQKEYD_STREAMS="88,89"), 0, re.escape(f"{library} {path} none \n"))
    runner.fits("the socket of the environment", runner.run("keyctl", "id", "@s", options=["--library", library], REQKEYD_SOCKET=path), 0, SERIAL)
    runner.fits("a socket that is named comes first", runner.run("keyctl", "id", "@s", REQKEYD_SOCKET="/no/such"), 0, SERIAL)


def moves(runner, room):
    """A program changes its folder: a socket that was named from where it was called is still found, unless its whole path is too long for a socket."""
    library, room = ["--library", runner.library], room.resolve()
    script = 'echo "$REQKEYD_SOCKET"; cd / && keyctl id @s'
    for options, changes, path in [
        (["--socket", "s"], {}, room / "s"), (["--socket=./s"], {}, f"{room}/./s"), ([], {"REQKEYD_SOCKET": "s"}, room / "s"),
        (["--socket", runner.path], {"REQKEYD_SOCKET": "s"}, runner.path),
    ]:
        told = runner.shell(script, options=[*library, *options], folder=room, **changes)
        runner.fits(f"from another folder, {options} {changes}", told, 0, re.escape(f"{path}\n") + SERIAL)
    runner.fits("from the root", runner.shell(script, options=[*library, "--socket", str(room / "s")[1:]], folder="/"), 0, re.escape(f"{room}/s\n") + SERIAL)
    for length in [107, 108]:
        deep = room / ("d" * (length - len(f"{room}//s")))
        deep.mkdir()
        (deep / "s").symlink_to(runner.path)
        want = f"{deep}/s" if length == 107 else "s"
        told = runner.shell('keyctl id @s && echo "$REQKEYD_SOCKET"', options=[*library, "--socket", "s"], folder=deep)
        runner.fits(f"a socket whose whole path has {length} bytes", told, 0, SERIAL + re.escape(f"{want}\n"))


def ends(runner, room):
    """The status of a program, and of one that is not started."""
    for script, want in [("exit 0", 0), ("exit 7", 7), ("exit 255", 255), ("kill -9 $$", 137), ("kill -TERM $$", 143)]:
        runner.fits(script, runner.shell(script), want, "")
    plain = room / "plain"
    plain.write_text("#!/bin/sh\n")
    for word, want, why in [("no-such-program", 127, ABSENT), ("/no/such/program", 127, ABSENT), ("", 127, ABSENT), (plain, 126, DENIED), (room, 126, DENIED)]:
        runner.fits(f"{word}", runner.run(word), want, "", f"reqkeyctl: program\n  {word}: {why}\n")


def refuses(runner, room):
    """No daemon, wrong ones, no library, and usage errors."""
    library = ["--library", runner.library]
    socket = ["--socket", runner.path]
    unheard = "reqkeyctl: socket\n  no daemon answered; --socket or REQKEYD_SOCKET names its socket\n"
    none = room / "none"
    for options, want in [([], unheard), (["--socket", none], f"reqkeyctl: socket\n  {none}: {ABSENT}\n"),
                          (["--socket", room], f"reqkeyctl: socket\n  {room}: Connection refused\n")]:
        runner.same(f"{options}", runner.run("echo", "ran", options=[*library, *options]), (1, "", want))
    for wanted in ["/no/such/library", str(none)]:
        told = runner.run("echo", "ran", options=[*socket, "--library", wanted])
        runner.same(f"the library {wanted}", told, (1, "", f"reqkeyctl: file\n  {wanted}: {ABSENT}\n"))
    for reply, want in [(None, unheard), (ask.frame(b"\x09"), unheard), (ask.frame(ask.number(5)), unheard), (ask.frame(ask.data(b"x")), unheard),
                        (ask.frame(ask.refused(13)), "errno 13\n")]:
        with ask.Daemon([reply]) as hostile:
            runner.same(f"a daemon that answers {reply}", runner.run("echo", "ran", options=[*library, "--socket", hostile.path]), (1, "", want))
    with ask.Daemon([ask.frame(ask.rings(0, 0, 41, 42))]) as daemon:
        told = runner.shell("echo $REQKEYD_JOIN", options=[*library, "--socket", daemon.path, "--uid", "7", "--gid=8"])
        daemon.ended()
        runner.same("what is asked", (told, daemon.heard, daemon.more), ((0, "41\n", ""), [ask.hello(7, 8)], b""))
    with ask.Daemon([ask.frame(ask.rings(0, 0, 41, 42))]) as daemon:
        runner.run("true", options=[*library, "--socket", daemon.path])
        runner.same("who asks", daemon.heard, [ask.hello(UID, os.getegid())])
    wrong = [["--uid", "x"], ["--uid", "4294967296"], ["--socket"], ["--join", "1"], ["--raw"], ["--socket", "a", "--socket=b"]]
    wrong += [["--library", path] for path in ["libkeyutils.so.1", "/a:/b", "/a b", ""]]
    for words in [[], ["--"], ["true"], *([*options, "--", "true"] for options in wrong)]:
        status, output, errors = ran(runner.program, "run", *words)
        runner.same(f"no call {words}", (status, output, errors != b""), (2, b"", True))


def runs(program, library):
    """`reqkeyctl run`."""
    with Daemon(program, "create user made:* * |/bin/cat\n") as daemon:
        runner = Runner(daemon.client_program, daemon.path, library)
        shares(runner, daemon)
        passes(runner)
        moves(runner, daemon.room)
        ends(runner, daemon.room)
        refuses(runner, daemon.room)


# How long the description of the session ring is, with its zero byte.
RING = len(f"keyring;{UID};-1;3f000000;_ses") + 1

# What tests/clients/calls.py prints by each subject.
PRINTED = {
    "left_out": ["[]"],
    "attributes": [
        *[f"{name} ['EOPNOTSUPP', 'EOPNOTSUPP', 'ENOKEY', 'EINVAL', 'ENOKEY']"
          for name in ["update", "chown", "get_security", "get_security_alloc", "invalidate"]],
        "chown to nobody 0", "move ['EOPNOTSUPP', 'EINVAL', 'ENOKEY', 'EINVAL', 'EINVAL', 'ENOTDIR', 'ENOTDIR']",
        *[f"{mask} [0, 0, 0, 'ENOKEY']" for mask in ["3f000000", "3f3f3f3f"]],
        *[f"{mask} ['EOPNOTSUPP', 'EOPNOTSUPP', 'EOPNOTSUPP', 'ENOKEY']" for mask in ["1f000000", "0"]],
        "40000000 ['EINVAL', 'EINVAL', 'EINVAL', 'EINVAL']",
    ],
    "types": [
        *[f"{name} EOPNOTSUPP" for name in ["encrypted", "trusted", "asymmetric", "ceph", "rxrpc", "cifs.idmap", "fscrypt-provisioning", "logon"]],
        ".fscrypt EPERM", "unheard ENODEV", *[f"{name} 1" for name in ["user", "big_key", "dns_resolver", "id_resolver"]],
        *[f"logon {name} EINVAL EINVAL" for name in ["", "none", ":none"]],
        f"logon True logon;{UID};-1;3f000000;made:it;0;valid; EOPNOTSUPP", f"other;1;valid True other;1;valid;{UID};-1;3f000000;made:it;0;valid; 1",
    ],
    "faults": [
        "add_key EOPNOTSUPP", "add_key EFAULT", "add_key EINVAL", "add_key EFAULT", "add_key EINVAL", "add_key EINVAL", "request_key EFAULT",
        "keyctl_instantiate EFAULT", "keyctl_instantiate_iov EINVAL", "keyctl_instantiate_iov EFAULT", "keyctl_join_session_keyring EINVAL",
        "keyctl_join_session_keyring EINVAL", "keyctl_join_session_keyring EPERM", "keyctl_search EFAULT", "keyctl_search EINVAL", "keyctl_clear EINVAL",
        f"keyctl_describe [{RING}, 'EOPNOTSUPP', {RING}, 'ENOKEY']",
        *[f"{name} ['EOPNOTSUPP', 'EOPNOTSUPP', 'EOPNOTSUPP', 'ENOKEY']" for name in ["keyctl_read", "keyctl_revoke", "keyctl_set_timeout"]],
        "keyctl_link 0", "keyctl_revoke EOPNOTSUPP", "keyctl_get_keyring_ID ['ENOKEY', 'EOPNOTSUPP', 'ENOKEY', 'ENOKEY', 'ENOKEY', 'EINVAL'] True",
    ],
    "buffers": [
        "keyctl_read 5 b''", "keyctl_read 5 b'hel'", "keyctl_read 5 b'hello'", "keyctl_describe 20 b''",
        r"keyctl_describe 20 b'user;;-1;3f000000;n\x00'", "keyctl_read_alloc 5 b'hello'", "keyctl_describe_alloc True",
    ],
    "raw": [
        "0 True", "6 True", "10 True", "8 0", "9 0", "11 1", "12 EPERM", "13 EPERM", "14 0", "15 0", "16 ENOKEY", "16 0", "19 EPERM", "20 EINVAL", "31 2",
        "3 0", "7 0", "2 ENOKEY", "4 ENOKEY", "5 ENOKEY", "17 ENOKEY", "21 ENOKEY", "30 ENOKEY", "99 EOPNOTSUPP", "1 True True",
    ],
    "shared": ["child 0 EKEYREVOKED", "threads []"],
    "waiting": ["child 0", "thread 7"],
    "anew": ["connections 1 0"],
}


def turns(room):
    """All who wait for the turn are woken when it is given back."""
    for name, flags in {"plain": ["-O2"], **({"sanitized": SANITIZED} if sanitizes(room, "turn.c") else {})}.items():
        program = compiled(count, room / f"turns-{name}", top / "tests" / "clients" / "turns.c", "-std=gnu11", "-D_GNU_SOURCE", "-pthread", "-I",
                           top / "clients" / "keyutils", *flags)
        done = ran(program, text=True)
        if done[0] == 77:
            print("turn.c: not tried, there is no /proc/self/syscall")
        else:
            count.same(f"who is woken, {name}", done, (0, "woken 5 of 5, served 5\n", ""))


def called(keys):
    """The library's calls, by a program of their own."""
    for subject, want in PRINTED.items():
        words = [sys.executable, "-I", "-S", str(CALLS), str(keys.library), subject]
        status, output, errors = keys.run(*words, LD_PRELOAD=keys.before, FIFO=str(keys.daemon.room / "fifo"))
        count.same(f"calls: {subject}", (status, output.split("\n")[:-1], errors), (0, want, ""))


def without(keys, room):
    """No daemon, and wrong ones."""
    for changes, want in [
        ({"REQKEYD_SOCKET": None}, "Transport endpoint is not connected"), ({"REQKEYD_SOCKET": ""}, "Transport endpoint is not connected"),
        ({"REQKEYD_SOCKET": str(room / "none")}, "No such file or directory"), ({"REQKEYD_JOIN": NONE}, REVOKED),
        ({"REQKEYD_STREAMS": "88,89"}, "Bad file descriptor"),
    ]:
        count.same(f"with {changes}", keys.run("keyctl", "print", "5", **changes), (1, "", f"keyctl_read_alloc: {want}\n"))
    reader, writer = os.pipe()
    os.close(reader)
    told = ran("keyctl", "print", "5", stdout=writer, text=True, env={**keys.environment, "REQKEYD_STREAMS": "0,1"})
    os.close(writer)
    count.same("a handler whose daemon is gone", told, (1, None, "keyctl_read_alloc: Connection reset by peer\n"))
    for replies, want in [([None], "Connection reset by peer"), ([ask.frame(b"\x09")], "Protocol error"), ([b"\0\0\0\5\0"], "Connection reset by peer"),
                          ([b"\xff" * 4], "Protocol error"), ([ask.frame(ask.refused(13))], DENIED)]:
        with ask.Daemon(replies) as hostile:
            told = keys.run("keyctl", "print", "5", REQKEYD_SOCKET=hostile.path, REQKEYD_JOIN=None)
            count.same(f"a daemon that answers {replies}", told, (1, "", f"keyctl_read_alloc: {want}\n"))


def placed(keys):
    """The library in the place of the system's."""
    key = keys.key()
    told = keys.run("keyctl", "print", str(key), LD_PRELOAD=None, LD_LIBRARY_PATH=str(keys.library.parent))
    count.same("in the place of the system's library", told, (0, "v\n", ""))


def fits_header():
    """The calls are declared as in keyutils' own header, where that is here."""
    if pathlib.Path("/usr/include/keyutils.h").exists():
        for name in ["calls.c", "left_out.c", "raw.c"]:
            words = ["gcc", "-std=c11", "-D_GNU_SOURCE", "-fsyntax-only", "-Werror", "-include", "/usr/include/keyutils.h", top / "clients" / "keyutils" / name]
            count.same(f"{name} and keyutils.h", ran(*words, text=True)[2], "")


def tries(program, library, *before):
    """All of it on one program, where these are preloaded."""
    preloaded = ":".join(map(str, [*before, library]))
    lines = EXAMPLE.replace("%plain", f"/usr/bin/env REQKEYD_STREAMS=0,1 LD_PRELOAD={preloaded}")
    with Daemon(program, lines, environment={**ENVIRONMENT, **RESOLVER}) as daemon:
        daemon.script("script", SCRIPT)
        daemon.script("slow", "#!/bin/sh\nexec cat %room/fifo\n")
        os.mkfifo(daemon.room / "fifo")
        keys = Keyutils(daemon, library, *before)
        if not before:
            miscalled(keys)
            placed(keys)
        commands(keys)
        handlers(keys)
        scripted(keys)
        resolves_names(keys)
        called(keys)
        without(keys, daemon.room)


for at, (program, library, before) in enumerate(everywhere(count)):
    if at == 0:
        fits_header()
        symbols(library, documented())
        with tempfile.TemporaryDirectory(prefix="turns-") as folder:
            turns(pathlib.Path(folder))
    tries(program, library, *before)
    if not before:
        stock(program, library)
        runs(program, library)
count.end()
