#!/usr/bin/env python3
"""Calls `reqkeyd check` and `reqkeyd pick`: what they tell of a configuration, and which calls are none.

What `pick` tells for random configurations and requests is compared with what `reqkeyd replay` starts for them, and its line with that of the path, which
has the line's number in it. The words are read from the text as a script of a shell does, by the %b of printf(1).
"""
import os
import pathlib
import random
import re
import sys
import tempfile

from counted import Counted
from programs import ran, there, top

sys.path.insert(0, str(top / "tools"))
from messages import bodies, frame, unword, word, write_ask

count = Counted()
CASES = 150

# The example of reqkeyd.conf(5), and a line of keyutils.
EXAMPLE = b"""\
# op    type   description    callout  program         arguments
create  user   debug:loop:*   *        |/bin/cat
create  user   debug:*        *        /bin/debug.sh   %k %%k %d
negate  *      *              *        /bin/keyctl     negate %k 30 %S
"""

# Words behind `pick --conf PATH`, and what is printed: the output with status 0, or the fault with status 1.
EXAMPLES = [
    (["user", "debug:loop:1", "hi"], 0, "line 2 piped\n/bin/cat\n"),
    (["user", "debug:loop:1", ""], 0, "line 2 piped\n/bin/cat\n"),
    (["user", "debug:x", "hi"], 0, "line 3 plain\n/bin/debug.sh\n1\n%k\ndebug:x\n"),
    (["--key", "2147483647", "user", "debug:x", ""], 0, "line 3 plain\n/bin/debug.sh\n2147483647\n%k\ndebug:x\n"),
    (["user", "mail:joe", ""], 1, "reqkeyd: no line\n"),
    (["--negate", "user", "debug:loop:1", ""], 0, "line 4 plain\n/bin/keyctl\nnegate\n1\n30\n0\n"),
    (["--session=7", "--negate", "--key=3", "user", "debug:loop:1", ""], 0, "line 4 plain\n/bin/keyctl\nnegate\n3\n30\n7\n"),
]

# A line, a description and a callout, and the words that are printed, or the fault.
LINES = [
    ("create * * * /p %o %t %d %c", "d", "c", ["create", "user", "d", "c"]),
    ("create * * * /p %u %g %T %P %S %k", "d", "", ["0", "0", "0", "0", "0", "1"]),
    ("* * * * |/p %o", "d", "", ["create"]),
    ("create * * * /p %%", "d", "", ["%"]),
    ("create * * * /p x%k %%% %%{user:a}", "d", "", ["x%k", "%%", "%{user:a}"]),
    ("create * * * /p a\\b %c", "d", "two words", ["a\\0134b", "two words"]),
    ("create * * * /p %d %c", "a\nb", "\t\x1b[1m\x7f", ["a\\0012b", "\\0011\\0033[1m\\0177"]),
    ("create * * * /p %d %c", "\u00e9\u20ac", "\\0012", ["\u00e9\u20ac", "\\01340012"]),
    ("create * * * /p %c", "d", "", [""]),
    ("create * * * /p\\x", "d", "", []),
    ("create * * * /p x %{user:a}", "d", "", "reqkeyd: line 1: X1: an argument %{..} is the payload of a key, which only a daemon can look up\n"),
    ("create * * * /p " + "%c " * 16, "d", "c" * 4095, ["c" * 4095] * 16),
    ("create * * * /p " + "%c " * 17, "d", "c" * 4095, "reqkeyd: line 1: X3: the words are more than 65536 bytes\n"),
    ("create * * * /p " + "%c " * 17 + "%{user:a}", "d", "c" * 4095, "reqkeyd: line 1: X3: the words are more than 65536 bytes\n"),
]

# A pattern, what it fits and what it doesn't, as reqkeyd.conf(5) has them.
PATTERNS = [
    ("user", ["user"], ["users"]),
    ("*", ["x", "*"], []),
    ("debug:*", ["debug:", "debug:x"], ["debug"]),
    ("a*b*", ["ab", "axb"], ["ba"]),
    ("*@*.example.org", ["joe@a.example.org"], ["joe@example.org"]),
]

# The text of a configuration, and what `check` tells: how many lines, or the fault.
TEXTS = [
    (EXAMPLE, 3),
    (b"", 0),
    (b"\n \t\n#\n  # create\n", 0),
    (b"create * * * /p", 1),
    (b"# caf\xe9 \0" + b"x" * 9000 + b"\ncreate * * * /p\n\n", 1),
    (b"other * * * /p\r\n\vnegate * * * /p\n", 2),
    (b"create * * * /p\n" * 2000, 2000),
    (b"create * * * /" + b"p" * 8178 + b"\n", 1),
    (b"create * * * /" + b"p" * 8179 + b"\n", "1: C4: more than 8192 bytes"),
    (b"\ncreate user caf\xe9 * /bin/h\n", "2: C6: not UTF-8, or a zero byte"),
    (b"create user a\0 * /bin/h\n", "1: C6: not UTF-8, or a zero byte"),
    (b"#\n\ncreate user a *\n", "3: C1: fewer than five fields"),
    (b"create * * bin/h\n", "1: C1: fewer than five fields"),
    (b"create * * * bin/h\n", "1: C2: the program does not begin with /"),
    (b"create * * * |\n", "1: C2: the program does not begin with /"),
    (b"create * * * /h\ncreate * * * /h %z\nbad\n", "2: C3: an argument begins with % and is no macro"),
    (b"create * * * /h %{user}", "1: C3: an argument begins with % and is no macro"),
    (b"create * * * /h %{.x:a}", "1: C3: an argument begins with % and is no macro"),
    (b"create * * * h %", "1: C2: the program does not begin with /"),
]

REQUEST = ["user", "debug:x", ""]
USAGE = "usage: reqkeyd"

# Usage errors, and what standard error tells of them.
NO_CALLS = [
    (["check"], "--conf <PATH>"),
    (["check", "--conf"], "--conf"),
    (["check", "--conf", "CONF", "more"], "unexpected argument 'more'"),
    (["check", "--conf", "CONF", "--conf=CONF"], "--conf"),
    (["check", "--uid", "1", "--conf", "CONF"], "unexpected argument '--uid'"),
    (["pick"], "required arguments were not provided"),
    (["pick", "--conf", "CONF"], "required arguments were not provided"),
    (["pick", "--conf", "CONF", "user", "debug:x"], "<callout>"),
    (["pick", *REQUEST], "--conf <PATH>"),
    (["pick", "--conf", "CONF", *REQUEST, "more"], "unexpected argument 'more'"),
    (["pick", "--conf", "CONF", "--nothing", *REQUEST], "unexpected argument '--nothing'"),
    (["pick", "--conf", "CONF", "--conf", "CONF", *REQUEST], "--conf"),
    (["pick", "--conf", "CONF", "--negate", "--negate", *REQUEST], "--negate"),
    (["pick", "--conf", "CONF", "--negate=yes", *REQUEST], "--negate"),
    (["pick", "--conf", "CONF", "--uid", "1", "--uid=1", *REQUEST], "--uid"),
    (["pick", "--conf", "CONF", "", "debug:x", ""], "error: invalid value"),
    (["pick", "--conf", "CONF", ".x", "debug:x", ""], "error: invalid value"),
    (["pick", "--conf", "CONF", "t" * 32, "debug:x", ""], "error: invalid value"),
    (["pick", "--conf", "CONF", "user", "", ""], "error: invalid value"),
    (["pick", "--conf", "CONF", "user", "d" * 4096, ""], "it has more than 4095 bytes"),
    (["pick", "--conf", "CONF", "user", "debug:x", "c" * 4096], "it has more than 4095 bytes"),
    (["pick", "--conf", "CONF", "user", b"debug:\xff", ""], USAGE),
    (["check", *["--conf=CONF"] * 50_000], ""),
    (["pick", *["--uid=0"] * 50_000, "--conf", "CONF", *REQUEST], ""),
    (["pick", *["--negate"] * 50_000, *REQUEST], ""),
]

HIDDEN = "reqkeyd: line 2: it is never chosen, since line 1 fits whatever it fits\n"

# What is allowed and hardly meant, and what `check` warns of.
DOUBTS = [
    ("create user a:* * |/bin/cat\nnegate * * * /bin/true\n", ""),
    ("", "reqkeyd: no line names a program\n"),
    ("creat user a * /bin/cat\n", "reqkeyd: line 1: the operation is neither create nor negate\n"),
    ("c*e user a * /bin/cat\n", ""),
    ("create user a:* * /bin/cat\ncreate user a:b:* x /bin/cat\n", HIDDEN),
    ("create user a:b:* x /bin/cat\ncreate user a:* * /bin/cat\n", ""),
    ("* * * * /bin/cat\nnegate user a * /bin/cat\n", HIDDEN),
    ("create user a*c * /bin/cat\ncreate user a*b*c * /bin/cat\n", HIDDEN),
    ("create user a*c * /bin/cat\ncreate user a* * /bin/cat\n", ""),
    ("create user a * /bin/cat\nnegate user a * /bin/cat\n", ""),
    ("create user a * /bin/cat -n # numbers\n", "reqkeyd: line 1: a # within a line begins no comment\n"),
    ("create user a * /bin/cat a#b\n", ""),
    ("create user a * /no/such\n", "reqkeyd: line 1: its program can't be started\n  /no/such: No such file or directory\n"),
    ("create user a * /etc/passwd\n", "reqkeyd: line 1: its program can't be started\n  /etc/passwd: Permission denied\n"),
    ("create user a * |/etc\n", "reqkeyd: line 1: its program can't be started\n  /etc: Permission denied\n"),
]

# Lines that hand a text of the request to their program, and which one a stranger may have it take for an option.
EXPOSED = [
    ("create user * * /bin/cat %d", "%d"), ("create * a * |/bin/cat x %t", "%t"), ("create user a * /bin/cat %c", "%c"),
    ("create user *a * /bin/cat %d", "%d"), ("create user * * /bin/cat -x %k %d", "%d"), ("create * * * /bin/cat %c %t %d", "%c"),
    ("create user a* * /bin/cat %d", ""), ("create user a * /bin/cat %d", ""), ("create a* a* x* /bin/cat %t %d %c", ""), ("create u* * c* /bin/cat %t %c", ""),
    ("create * * * /bin/cat -- %d %t %c", ""), ("create * a* * /bin/cat %d -- %t", ""), ("create * a* * /bin/cat %t -- %d", "%t"),
    ("create user * * /bin/cat --x %d", "%d"), ("create user * * /bin/cat %%d %%c", ""), ("create user * * /bin/cat %k %u %o %S", ""),
    ("create user * * /bin/cat %{user:a}", ""), ("create user * * /bin/cat", ""), ("create user * * /bin/cat %%-- - %d", "%d"),
]

# Lines with a program behind another one, and which is missing.
NONE = "/no/such"
BEHIND = [
    ("/usr/bin/timeout 10 /no/such %k", NONE), ("|/usr/bin/timeout 10 /no/such", NONE), ("/bin/timeout -k 5 -s KILL 10s /no/such", NONE),
    ("/usr/bin/timeout --signal=KILL --foreground 1 /no/such", NONE), ("/usr/bin/timeout --kill-after %k -- 1 /no/such", NONE),
    ("/usr/bin/env A=1 B= /no/such x", NONE), ("/bin/env -i -u A -C / A=/bin/cat /no/such", NONE), ("/usr/bin/env - /no/such", NONE),
    ("/usr/bin/timeout 10 /usr/bin/env A=1 /no/such", NONE), ("/usr/bin/env /usr/bin/timeout 10 /no/such", NONE),
    ("/usr/bin/timeout 10 /bin/cat /no/such", None), ("/usr/bin/timeout 10 cat", None), ("/usr/bin/timeout 10", None), ("/usr/bin/timeout %k /no/such", None),
    ("/usr/bin/env -S /no/such", None), ("/usr/bin/env --split-string=/no/such", None), ("/usr/bin/env %o", None), ("/bin/cat 10 /no/such", None),
    ("/usr/bin/timeout -s /no/such 10 /bin/cat", None), ("/usr/bin/env -C /no/such /bin/cat", None), ("/usr/bin/timeout 10 %d", None),
]

# The permissions of a file, and whether others than its owner may write it.
MODES = [(0o644, False), (0o600, False), (0o755, False), (0o664, True), (0o646, True), (0o666, True), (0o622, True)]

# The greatest number of each option.
LIMITS = {"uid": 4294967295, "gid": 4294967295, "key": 2147483647, "thread": 2147483647, "process": 2147483647, "session": 2147483647}
NO_NUMBERS = ["", " 1", "1 ", "+1", "-1", "0x1", "1.", "one", "\u0661", "99999999999999999999"]


def told(program, room, text, *words):
    """What comes of words with `CONF`, for a configuration of this text."""
    (room / "conf").write_bytes(text)
    return ran(program, *[it.replace("CONF", str(room / "conf")) if isinstance(it, str) else it for it in words])


def said_by(line):
    """The bytes that a line stands for, as %b reads it."""
    return re.sub(rb"\\0([0-7]{3})", lambda it: bytes([int(it[1], 8)]), line)


# ---- by hand


def counted_lines(number):
    return f"ok, {number} line{'' if number == 1 else 's'}\n".encode()


def checks(program, room):
    for text, wanted in TEXTS:
        want = (0, counted_lines(wanted), b"") if isinstance(wanted, int) else (1, b"", f"reqkeyd: conf line {wanted}\n".encode())
        got = told(program, room, text, "check", "--conf", "CONF")
        count.same(f"{program.name} check {text[:40]}", got[:2] if got[0] == 0 else got, want[:2] if got[0] == 0 else want)
        if want[0]:
            count.same(f"{program.name} pick of {text[:40]}", told(program, room, text, "pick", "--conf=CONF", *REQUEST), want)
    for path, why in [(room / "none", "No such file or directory"), (room, "Is a directory")]:
        for words in [["check", "--conf", path], ["pick", "--conf", path, *REQUEST]]:
            count.same(f"{program.name} {words}", ran(program, *words), (1, b"", f"reqkeyd: conf\n  {path}: {why}\n".encode()))
    for text, wanted in DOUBTS:
        count.same(f"{program.name} doubts {text}", told(program, room, text.encode(), "check", "--conf", "CONF"),
                   (0, counted_lines(len(text.split("\n")) - 1), wanted.encode()))


def exposes(program, room):
    for line, macro in EXPOSED:
        told_of = f"reqkeyd: line 2: {macro} may begin with a dash, as an option does; an argument -- before it ends the options\n" if macro else ""
        got = told(program, room, f"# two\n{line}\n".encode(), "check", "--conf", "CONF")
        count.same(f"{program.name} check {line}", got, (0, b"ok, 1 line\n", told_of.encode()))
    for command, missing in BEHIND:
        told_of = f"reqkeyd: line 1: its program can't be started\n  {missing}: No such file or directory\n" if missing else ""
        got = told(program, room, f"create user a a {command}\n".encode(), "check", "--conf", "CONF")
        count.same(f"{program.name} check {command}", got, (0, b"ok, 1 line\n", told_of.encode()))
    for mode, is_open in MODES:
        (room / "conf").write_text("create user a * /bin/cat\n")
        (room / "conf").chmod(mode)
        told_of = b"reqkeyd: others than its owner may write the configuration, and have any program started\n" if is_open else b""
        count.same(f"{program.name} check of mode {mode:o}", ran(program, "check", "--conf", room / "conf"), (0, b"ok, 1 line\n", told_of))
    (room / "conf").chmod(0o644)


def picks(program, room):
    for words, status, text in EXAMPLES:
        want = (0, text.encode(), b"") if status == 0 else (1, b"", text.encode())
        count.same(f"{program.name} pick {words}", told(program, room, EXAMPLE, "pick", "--conf", "CONF", *words), want)
    for line, desc, callout, wanted in LINES:
        got = told(program, room, line.encode(), "pick", "--conf", "CONF", "user", desc, callout)
        kind, path = ("piped" if "|" in line else "plain"), line.split()[4].lstrip("|").replace("\\", "\\0134")
        want = (1, b"", wanted.encode()) if isinstance(wanted, str) else (0, "\n".join([f"line 1 {kind}", path, *wanted, ""]).encode(), b"")
        count.same(f"{program.name} {line[:60]}", got, want)
    for at, (pattern, fitting, others) in enumerate(PATTERNS):
        for desc in [*fitting, *others]:
            got = told(program, room, f"create user {pattern} * /p".encode(), "pick", "--conf", "CONF", "user", desc, "")
            count.same(f"{program.name} {pattern} and {desc}", got[0], 0 if desc in fitting else 1)
    # an empty callout fits `*`, and a type and a callout are looked at too
    three = b"create a * * /1\ncreate * * x* /2\n* * * * /3"
    for typ, callout, path in [("a", "", b"/1"), ("b", "x", b"/2"), ("b", "", b"/3")]:
        got = told(program, room, three, "pick", "--conf", "CONF", typ, "d", callout)
        count.same(f"{program.name} {typ} and {callout!r}", got[1].split(b"\n")[1:2], [path])


def calls(program, room):
    for words, wanted in NO_CALLS:
        status, output, errors = told(program, room, EXAMPLE, *words)
        right = status == 2 and not output and errors and wanted in errors.decode()
        count.same(f"{program.name} {words[:8]}: {status} {output[:80]} {errors[:200]}", bool(right), True)
    names = {"typ": "t" * 31, "desc": "d" * 4095, "callout": "c" * 4095}
    got = told(program, room, b"* * * * /p %t %d %c", "pick", "--conf", "CONF", *names.values())
    count.same(f"{program.name} the longest names", got, (0, "\n".join(["line 1 plain", "/p", *names.values(), ""]).encode(), b""))
    for words in [["-x", "--uid", "--"], ["user", "-", "--help"]]:
        got = told(program, room, b"* * * * /p %t %d %c", "pick", "--conf", "CONF", *words)
        count.same(f"{program.name} {words}", got, (0, "\n".join(["line 1 plain", "/p", *words, ""]).encode(), b""))
    with open("/dev/full", "wb") as full:
        for words in [["check", "--conf", room / "conf"], ["pick", "--conf", room / "conf", "user", "d", ""]]:
            count.same(f"{program.name} {words[0]} on a full device", ran(program, *words, stdout=full), (1, None, b"reqkeyd: output\n"))


def numbers(program, room):
    letters = {"uid": "u", "gid": "g", "key": "k", "thread": "T", "process": "P", "session": "S"}
    for name, limit in LIMITS.items():
        line = f"create * * * /p %{letters[name]}".encode()
        for said in [1, limit - 1, limit] + ([] if name == "key" else [0]):
            for written in [str(said), f"000{said}"]:
                got = told(program, room, line, "pick", "--conf", "CONF", f"--{name}", written, *REQUEST)
                count.same(f"{program.name} --{name} {written}", got, (0, f"line 1 plain\n/p\n{said}\n".encode(), b""))
        for written in [*NO_NUMBERS, str(limit + 1)] + (["0"] if name == "key" else []):
            status, output, errors = told(program, room, line, "pick", "--conf", "CONF", f"--{name}={written}", *REQUEST)
            named = USAGE if written == "+1" else f"error: invalid value '{written}' for '--{name} <N>'" if written else f"'--{name} <N>'"
            count.same(f"{program.name} --{name}={written!r}: {errors[:80]}", (status, output, named in errors.decode()), (2, b"", True))


# ---- beside replay

ODD = ["\n", "\t", " ", "\\", "%", "\x01", "\x1b", "\x7f", "\u00e9", "\U0001f511", "*", "|", "="]


def text_of(dice, letters, most):
    return "".join(dice.choice(ODD) if dice.randrange(6) == 0 else dice.choice(letters) for _ in range(dice.randrange(most)))


def pattern_of(dice, value):
    """A pattern, which may fit the value: a part of it may be a star."""
    if dice.randrange(3) == 0 or not value or re.search(r"\s", value):
        return dice.choice(["*", "*", "a*", "*b", "ab"])
    first = dice.randrange(len(value))
    return dice.choice([value, value[:first] + "*", "*" + value[first:], "*" + value[first : first + 1] + "*"])


def line_of(dice, number, request):
    op = dice.choice(["create", "create", "create", "*", "negate", "cr*", "other"])
    names = [pattern_of(dice, value) for value in request]
    arguments = ["%o", "%k", "%t", "%d", "%c", "%u", "%g", "%T", "%P", "%S", "%%k", "%%", "x%k", "lit\\", "\u00e9"]
    words = [dice.choice(arguments) for _ in range(dice.randrange(6))]
    if dice.randrange(12) == 0:
        words.append(dice.choice(["%{user:a}", "%{user:none}"]))
    if dice.randrange(150) == 0:
        words.append(dice.choice(["%z", "%{a", "%"]))
    return dice.choice([" ", "\t"]).join([op, *names, f"{dice.choice(['', '|'])}/p{number}", *words])


def conf_of(dice, request):
    lines = []
    for number in range(1, dice.randrange(2, 9)):
        odd = dice.randrange(10) == 0
        lines.append(dice.choice(["", "# a comment", " \t", "   # create * * * /p"]) if odd else line_of(dice, number, request))
    return lines


def played(program, lines):
    """What replay outputs for a script, a list of lines."""
    return ran(program, "replay", input=b"\n".join(lines))[1].decode().splitlines()


def ask_line(moment, kind, who, *words):
    return f"{moment} {kind} {who} {frame(write_ask(list(words))).hex()}".encode()


def field(text):
    return word(text.encode()) or '""'


def started(output):
    """The commands that an output starts: the key, the kind, the path and the words."""
    found = [line.split(" ") for line in output if line.startswith("start ")]
    return [(key, kind, [unword(it[1:]) for it in words]) for _, key, kind, *words in found]


def beside_replay(program, room, seed):
    """A random configuration and request, by replay and by pick; where a piped handler fails, what is run for negate too."""
    dice = random.Random(seed)
    typ = dice.choice(["user", "t", "ab", "aab"])
    desc, callout = text_of(dice, "ab", 6) or "a", text_of(dice, "abx", 5)
    uid, gid, flags = dice.choice([0, 1000, 4294967295]), dice.choice([0, 5, 4294967295]), dice.randrange(4)
    conf = conf_of(dice, (typ, desc, callout))
    script = [b"conf " + line.encode() for line in conf]
    script += [b"100 accept 1", ask_line(100, "bytes", 1, "HELLO", str(uid), str(gid), str(flags), "0")]
    script += [ask_line(100, "bytes", 1, "REQUEST", typ, field(desc), "=" + word(callout.encode()), "0")]
    output = played(program, script)
    if output and output[-1].startswith("conf "):
        _, line, code = output[-1].split(" ")
        for words in [["check"], ["pick"]]:
            got = told(program, room, "\n".join(conf).encode(), *words, "--conf", "CONF", *([typ, desc, callout] if words == ["pick"] else []))
            count.same(f"{program.name} {seed} {words}", (got[0], got[2].split(b": ")[1:3]), (1, [f"conf line {line}".encode(), code.encode()]))
        return
    lines = sum(1 for line in conf if line.strip() and not line.strip().startswith("#"))
    got = told(program, room, "\n".join(conf).encode(), "check", "--conf", "CONF")
    count.same(f"{program.name} {seed} check", got[:2], (0, counted_lines(lines)))
    rings = bodies(bytes.fromhex(output[0].split(" ")[2]))[0]
    thread, process, session = (str(int.from_bytes(rings[at : at + 4], "big")) for at in (1, 5, 9))
    words = ["--uid", str(uid), "--gid", str(gid), "--thread", thread, "--process", process, "--session", session]
    commands = started(output)
    key = commands[0][0] if commands else "3"
    compare(program, room, seed, conf, commands, ["--key", key, *words, typ, desc, callout])
    if commands and commands[0][1] == "piped":
        output = played(program, [*script, f"100 started {key}".encode(), f"100 ended {key} exit 1".encode()])
        compare(program, room, seed, conf, started(output)[1:], ["--negate", "--key", key, *words, typ, desc, callout])


def compare(program, room, seed, conf, commands, words):
    status, output, errors = told(program, room, "\n".join(conf).encode(), "pick", "--conf", "CONF", *words)
    if commands:
        _, kind, (path, *more) = commands[0]
        head = f"line {path[2:].decode()} {kind}".encode()
        count.same(f"{program.name} {seed} pick", (status, lines_of(output), errors), (0, [head, path, *more], b""))
    else:
        right = errors == b"reqkeyd: no line\n" or re.fullmatch(rb"reqkeyd: line \d+: X1: .*\n", errors)
        count.same(f"{program.name} {seed}: {output} {errors}", (status, bool(right)), (1, True))


def lines_of(output):
    """The lines of an output, as the bytes that they stand for."""
    return [said_by(line) for line in output.split(b"\n")[:-1]] if output.endswith(b"\n") else [output]


def in_a_shell(program, room):
    """A script cuts the words out, and has the bytes back by printf(1)."""
    (room / "conf").write_bytes(b"create * * * /p %d %c")
    script = f'"{program}" pick --conf "{room}/conf" user "$1" "$2" | sed -n 4p | {{ IFS= read -r it; printf "%b" "$it"; }}'
    for callout in ["plain", "a\nb", " \\0012 \\\\ %d \t", "\u00e9\x1b"]:
        count.same(f"{program.name} {callout!r} by printf", ran("sh", "-c", script, "sh", "d", callout)[1:], (callout.encode(), b""))


for program in there(count):
    with tempfile.TemporaryDirectory() as name:
        room = pathlib.Path(name)
        for tried in [checks, exposes, picks, calls, numbers, in_a_shell]:
            tried(program, room)
        for seed in range(int(os.environ.get("SEEDS", CASES))):
            beside_replay(program, room, seed)
count.end()
