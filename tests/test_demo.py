#!/usr/bin/env python3
"""Tries examples/demo.py on scripts of every kind, with tests/fake_replay.py in place of the program, and on the built daemon examples/serve.py,
examples/unproved.py, and the commands that README.md, docs/RECORD.md and docs/TUTORIAL.md show."""
import os
import pathlib
import re
import signal
import subprocess
import sys
import tempfile
import threading

from counted import Counted
from programs import LIMIT, client_of, lacks, ran, there, top
from scenarios import scenarios

sys.path.insert(0, str(top / "tools"))
import script

count = Counted()
demo = top / "examples" / "demo.py"
fake = top / "tests" / "fake_replay.py"
# The documents whose commands are run, those that compile something only where there is a compiler.
DOCUMENTS = ["README.md", "docs/RECORD.md"] + ([] if lacks("docs/TUTORIAL.md", "cc") else ["docs/TUTORIAL.md"])

FIRST_PATH = """
A client connects.
   2  100 accept 1

It says who it is: user 1000, group 1000, no ring of its own, a new session ring. Its rings are
none, none, 1 and 2.
   4  c1 HELLO 1000 1000 0 0                          c1 <- rings 0 0 1 2

It requests the key `a` of type `user`, with the callout `x`. There is none, so key 3 is under
construction and its handler is started.
   6  c1 REQUEST user a =x 0                          start 3 plain =/bin/handler =create =3 =1000 =1000 =0 =0 =1

The handler runs.
   8  started 3

The handler assumes the authority over key 3. Done.
  10  101 h3 ASSUME 3                                 h3 <- 0

It gives key 3 its payload, `hi`. Done.
  12  h3 INSTANTIATE 3 hi 0                           h3 <- 0

It ends with status 0, and the client gets its key: 3.
  14  102 ended 3 exit 0                              c1 <- 3
"""

# The words of a script, what the demo shows of it below the legend, its status.
SHOWN = [
    ("", "", 0),
    ("100 accept 1", "   1  100 accept 1\n", 0),
    ("100 c1 READ 3\n  c1 <- E13", "   1  100 c1 READ 3                                   c1 <- EACCES (13)\n", 0),
    (
        "# one\n# two\n\n\n100 accept 1\n# three\nline what\n  fault S1\naccept 1\n  fault S2\n",
        "\none\ntwo\n   5  100 accept 1\n\nthree\n"
        "   7  what                                            fault 7 S1: this line is invalid, and is skipped\n"
        "   8  accept 1                                        fault 8 S2: this can't happen now, and is skipped\n",
        0,
    ),
    (
        "conf # x\nline what\n  fault S1\nconf create user * * bin/h\nnegative 9\n100 accept 1\n  conf 2 C2\n101 accept 2",
        "   1  conf # x\n"
        "   2  what                                            fault 2 S1: this line is invalid, and is skipped\n"
        "   3  conf create user * * bin/h\n"
        "   4  negative 9\n"
        "   5  100 accept 1                                    conf 2 C2: line 3 of the script is refused, its program is not an absolute path."
        " Here the run ends\n",
        1,
    ),
    (
        "100 h3 REQUEST user a_description_of_many_letters =x 0\n  start 4 piped =/bin/p\n  c1 <- bytes a*20\n",
        "   1  100 h3 REQUEST user a_description_of_many_letters =x 0\n"
        "                                                      start 4 piped =/bin/p\n"
        "                                                      c1 <- bytes a*20\n",
        0,
    ),
]

SERVED = """The configuration of the daemon:

create  user  debug:*  *  |/bin/cat
create  user  mail:*   *  ../examples/handler.py %k %d told


A client connects, and says who it is: user 1000. Its session ring is 4, and the user's ring is 8.
   c1  HELLO 1000 1000 0 0                             c1 <- rings 0 0 4 8

It requests a key with the callout `hello`. There is none, so /bin/cat makes it: it reads
the callout, and outputs the payload. The key is 12, linked in the user's ring (-4).
   c1  REQUEST user debug:a =hello -4                  c1 <- 12
   c1  READ 12                                         c1 <- bytes hello

An existing key is found, and nothing is started.
   c1  REQUEST user debug:a =again 0                   c1 <- 12

This key is made by examples/handler.py, which speaks the protocol itself.
   c1  REQUEST user mail:joe =letter 0                 c1 <- 16
       its handler: ASSUME 16                             h16 <- 0
       its handler: CALLOUT                               h16 <- bytes letter
       its handler: INSTANTIATE 16 mail:joe:letter 0      h16 <- 0
   c1  READ 16                                         c1 <- bytes mail:joe:letter

No line is for this key.
   c1  REQUEST user other =x 0                         c1 <- ENOKEY (126)

The client has disconnected. The daemon was started for one client, and ends.
"""

# In the place of `rt try --cases FOLDER`: it runs each case by this program, where `rt` builds one.
FAKE_RT = """#!/bin/sh
test "$1 $2" = "try --cases" || exit 2
for it in "$3"/*-script "$3"/*-daemon; do
    echo "== ${it##*/}"
    xargs -d '\\n' -a "$it.args" %s < "$it" || exit 4
done
"""

# A command that is not as the program is, what is said of it, and the status.
FAULTS = [
    (["/nothing/there"], "No such file", 1),
    (["false"], "did not come to the end of the script, and its status was 1", 1),
    (["true"], "did not come to the end of the script, and its status was 0", 1),
    (["echo", "fault 2 S1"], "did not come to the end of the script, and its status was 0", 1),
    (["echo", "fault 2 S1\nwhat"], "'what' is no output of a script", 1),
]


def shown(path, command):
    """The status of the demo, what it writes, and its standard error."""
    return ran(demo, path, *command, text=True)


def check(name, words, want, status):
    """Shows the script of these words, where the fake says what is output."""
    with tempfile.TemporaryDirectory() as room:
        told, path = pathlib.Path(room) / "words", pathlib.Path(room) / "script"
        told.write_text(words)
        path.write_bytes(script.write(words.encode()))
        ended, output, errors = shown(path, [sys.executable, fake, told])
    legend, rows = output.split("before a reply.\n")
    count.same(name, (rows, ended, errors), (want, status, ""))
    count.same(f"{name}: its legend", "first number of a row is that of its line" in legend and "second one is the moment" in legend, True)


def at_the_end():
    """A configuration that is refused when the script has ended: the program reads it at the end."""
    with tempfile.TemporaryDirectory() as room:
        path = pathlib.Path(room) / "script"
        path.write_bytes(b"# x\nconf create user a *")
        refuses = [sys.executable, "-c", "print('fault 2 S1\\nfault 4 S1\\nconf 1 C1'); exit(1)"]
        status, output, _ = shown(path, refuses)
    rows = "   2  conf create user a *\n      (the end)                                       conf 1 C1: line 2 of the script is refused"
    count.same("refused at the end", (f"\nx\n{rows}, it has fewer than five fields. Here the run ends\n" in output, status), (True, 1))


def each_scenario():
    """Every scenario: each line beside what its words say, by the numbers of its own script."""
    with tempfile.TemporaryDirectory() as room:
        path = pathlib.Path(room) / "script"
        for case in scenarios():
            path.write_bytes(case.script)
            status, output, errors = shown(path, [sys.executable, fake, case.path])
            rows = [row.strip() for row in output.split("\n")]
            lacking = [line for line in script.lines_of(case.expected) if not beside(rows, script.read_answer(line))]
            count.same(case.name, (lacking, status, errors), ([], case.status, ""))


def beside(rows, words):
    """Takes the rows up to the one that ends with these words, and tells whether there is one."""
    while rows:
        row = rows.pop(0)
        if row.endswith(words) or f"{words}: " in row:
            return True
    return False


def made(program, **more):
    """What `make demo` shows of this program."""
    return ran("make", "--no-print-directory", "-C", top, "demo", f"REQKEYD={program}", text=True, **more)


def by_make(program):
    """`make demo` shows the script, and then the daemon."""
    status, output, _ = made(program)
    count.same(f"make demo, {program.name}", (status, FIRST_PATH in output, output.endswith(SERVED)), (0, True, True))


def unproved(program):
    """`make demo` where nothing is built: both parts in one run of `rt`, and one that fails."""
    for what, want in [(program, (0, True, True, True, "")), ("false", (2, False, False, True, "unproved.py: the daemon did not start"))]:
        with tempfile.TemporaryDirectory() as room:
            fake_rt = pathlib.Path(room) / "rt"
            fake_rt.write_text(FAKE_RT % what)
            fake_rt.chmod(0o755)
            status, output, errors = made(f"{room}/none", env={**os.environ, "PATH": f"{room}:{os.environ['PATH']}"})
        begins = output.startswith("Building reqkeyd before its proofs")
        got = status, FIRST_PATH in output, output.endswith(SERVED), begins, errors.partition(" (")[0]
        count.same(f"make demo of what is not built, {program.name}, {what}", got, want)


def shown_runs(document):
    """The commands of the blocks of a document that show runs, each with the lines that it prints there. One with `<<'END'` goes on to the line `END`."""
    runs = []
    for block in [it for it in document.read_text().split("```\n")[1::2] if it.startswith("$ ")]:
        inside = False
        for line in block.splitlines():
            if inside:
                runs[-1][0] += f"\n{line}"
                inside = line != "END"
            elif line.startswith("$ "):
                runs.append([line.removeprefix("$ "), []])
                inside = line.endswith("<<'END'")
            else:
                runs[-1][1].append(line)
    return runs


class Shell:
    """A shell in a folder of its own, which has build/ and clients/, and stands in the place of /tmp, for mktemp(1) too, whose folders are shown by its
    template. It is ended where its commands take LIMIT seconds."""

    def __init__(self, room, program):
        self.room = room
        (room / "build").mkdir()
        (room / "build" / "reqkeyd").symlink_to(program)
        (room / "build" / "reqkeyctl").symlink_to(client_of(program))
        (room / "clients").symlink_to(top / "clients")
        streams = {"stdin": subprocess.PIPE, "stdout": subprocess.PIPE, "stderr": subprocess.STDOUT}
        around = {**os.environ, "TMPDIR": str(room)}
        self.process = subprocess.Popen(["bash", "--norc"], cwd=room, env=around, text=True, start_new_session=True, **streams)
        self.guard = threading.Timer(LIMIT, os.killpg, (self.process.pid, signal.SIGKILL))
        self.guard.start()

    def __enter__(self):
        return self

    def __exit__(self, *_):
        self.process.stdin.close()
        self.process.wait()
        self.guard.cancel()
        self.process.stdout.close()

    def run(self, command, count=0):
        """What is printed until the command has ended, and until there are so many lines: one that goes on in the background prints when it can."""
        self.process.stdin.write(command.replace("/tmp/", f"{self.room}/") + "\necho END\n")
        self.process.stdin.flush()
        lines, ended = [], False
        while not ended or len(lines) < count:
            if not (line := self.process.stdout.readline()):
                return [*lines, "(the shell has ended)"]
            ended |= line == "END\n"
            shown = re.sub(r"^/tmp/tmp\.\w{10}/", "/tmp/tmp.XXXXXXXXXX/", line.rstrip("\n").replace(f"{self.room}/", "/tmp/"))
            lines += [shown] if line != "END\n" else []
        return lines


def by_hand(program, name):
    """The commands that a document shows, with what they print there; the daemon that was started among them ends by itself."""
    runs = shown_runs(top / name)
    with tempfile.TemporaryDirectory() as room, Shell(pathlib.Path(room), program) as shell:
        for command, lines in runs:
            count.same(f"{name} by hand, {program.name}, {command}", shell.run(command, len(lines)), lines)
        count.same(f"the end of {name} by hand, {program.name}", shell.run("wait $!; echo $?"), ["0"])


for words, want, status in SHOWN:
    check(words, words, want, status)
example = top / "examples" / "first-path.script"
status, output, errors = shown(example, [sys.executable, fake, top / "tests" / "replay" / "first_path" / "words"])
count.same("the example", (output.split("before a reply.\n")[1], status, errors), (FIRST_PATH, 0, ""))
at_the_end()
each_scenario()
for command, told, status in FAULTS:
    ended, output, errors = shown(example, command)
    count.same(command, (output, ended, told in errors), ("", status, True))
serve = top / "examples" / "serve.py"
for program in there(count):
    count.same(f"{serve.name} {program.name}", ran(serve, program, text=True), (0, SERVED, ""))
    by_make(program)
    unproved(program)
    for name in DOCUMENTS:
        by_hand(program, name)
for command, told in [(["/nothing/there"], "No such file"), (["false"], "did not start"), (["echo"], "did not start"), ([], "usage: serve.py COMMAND ..")]:
    status, output, errors = ran(serve, *command, text=True)
    count.same(f"serve.py {command}", (status, "HELLO" in output, told in errors), (1 if command else 2, False, True))
count.same("too few words", ran(demo, "x", text=True), (2, "", "usage: demo.py SCRIPT COMMAND ..\n"))
count.end()
