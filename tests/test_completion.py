#!/usr/bin/env python3
"""Completes words in bash and fish by what tools/completion.py makes of the built programs, as who types them. Both builds of a program give the same."""
import pathlib
import sys
import tempfile

import compiled
from counted import Counted
from programs import PROGRAMS, client_of, lacks, ran, top

sys.path.insert(0, str(top / "tools"))
import completion
from program_help import option, part, said, subcommands

count = Counted()

RINGS = ["none", "thread", "process", "session", "user", "requestor"]
SETTINGS = ["keep", "default", "thread", "process", "session", "user", "requestor"]
ERRORS = ["126", "127", "128", "129"]

# What completes each argument of each command of reqkeyctl.
ARGUMENTS = {
    "hello": [],
    "request": [[], [], RINGS, []],
    "assume": [["auth"]],
    "instantiate": [["auth"], [], RINGS],
    "negate": [["auth"], [], RINGS],
    "reject": [["auth"], [], ERRORS, RINGS],
    "read": [["auth"]],
    "describe": [["auth"]],
    "revoke": [["auth"]],
    "timeout": [["auth"], []],
    "link": [["auth"], RINGS],
    "unlink": [["auth"], RINGS],
    "clear": [RINGS],
    "default": [SETTINGS],
    "add": [[], [], [], RINGS],
    "callout": [],
    "list": [],
    "sweep": [],
}

# Calls whose last word is to be completed, which may be empty, and what it may be; some.file is the one file of the folder.
TYPED = [
    ("reqkeyctl un", ["unlink"]),
    ("reqkeyctl nothing", []),
    ("reqkeyctl --socket ", ["some.file"]),
    ("reqkeyctl --payload-from so", ["some.file"]),
    ("reqkeyctl --uid ", []),
    ("reqkeyctl --uid 1000 --socket S re", ["reject", "request", "revoke", "read"]),
    ("reqkeyctl --raw cl", ["clear"]),
    ("reqkeyctl --payload-from some.file instantiate auth ", RINGS),
    ("reqkeyctl --payload-from some.file add user d ", RINGS),
    ("reqkeyctl --callout-from some.file request user d ", RINGS),
    ("reqkeyctl --callout-from some.file request user d none ", []),
    ("reqkeyctl link auth p", ["process"]),
    ("reqkeyctl read --socket ", []),
    ("reqkeyctl add --raw so", []),
    ("reqkeyd serve --conf ", ["some.file"]),
    ("reqkeyd serve --socket S --conf so", ["some.file"]),
    ("reqkeyd serve --mode ", []),
    ("reqkeyd serve --socket S --se", ["--sessions"]),
    ("reqkeyd serve ", []),
    ("reqkeyd check --conf ", ["some.file"]),
    ("reqkeyd pick --conf so", ["some.file"]),
    ("reqkeyd pick --negate --ke", ["--key"]),
    ("reqkeyd pick --uid ", []),
    ("reqkeyd replay ", []),
    ("reqkeyd rejoin ", ["some.file"]),
    ("reqkeyd rejoin some.file so", ["some.file"]),
    ("reqkeyd serve --record ", ["some.file"]),
]

# The same for reqkey-trap.
STARTED = [
    ("reqkey-trap --so", ["--socket"]),
    ("reqkey-trap --socket so", ["some.file"]),
    ("reqkey-trap --key ", []),
    ("reqkey-trap --listen so", ["some.file"]),
    ("reqkey-trap --socket S bas", ["base32", "base64", "basename", "basenc", "bash", "bashbug"]),
    ("reqkey-trap cat so", ["some.file"]),
    ("reqkey-trap --socket S -- cat so", ["some.file"]),
]

# The same for reqkey-door.
SERVED = [
    ("reqkey-door --so", ["--socket"]),
    ("reqkey-door --socket so", ["some.file"]),
    ("reqkey-door --listen ", ["some.file"]),
    ("reqkey-door --per-user ", []),
    ("reqkey-door --socket S --ro", ["--root-any"]),
    ("reqkey-door --root-any --al", ["--allow"]),
    ("reqkey-door --allow 1000 --all", ["--allow"]),
    ("reqkey-door none", []),
]

# Asks for completions as readline does: bash divides a word also at its `=`.
DRIVER = """\
source {0}/reqkeyd.bash
source {0}/reqkeyctl.bash
[ ! -e {0}/reqkey-trap.bash ] || source {0}/reqkey-trap.bash
[ ! -e {0}/reqkey-door.bash ] || source {0}/reqkey-door.bash
tried() {{
    COMP_WORDS=("$@") COMP_CWORD=$(($# - 1)) COMPREPLY=()
    "_${{1//-/_}}" "$1" "${{@: -1}}" "${{@: -2:1}}"
    echo "${{COMPREPLY[*]}}"
}}
"""


def typed_calls(daemon, client):
    """TYPED, and each command, option and argument."""
    calls = list(TYPED)
    for program in [daemon, client]:
        text = said(program, "--help")
        calls.append((f"{program.name} ", subcommands(text)))
        calls += [(f"{program.name} {name}", [it for it in subcommands(text) if it.startswith(name)]) for name in subcommands(text)]
        for before, help_text in [("", text)] + [(f"{name} ", said(program, name, "--help")) for name in subcommands(text)]:
            listed = [option(line).split(" ") for line in part(help_text, "Options")]
            long = [word for words in listed for word in words if word.startswith("--")]
            calls.append((f"{program.name} {before}--", long))
            calls += [(f"{program.name} {before}{name}", [it for it in long if it.startswith(name)]) for name in long]
    for name, arguments in ARGUMENTS.items():
        calls += [(f"reqkeyctl {name} {'x ' * at}", words) for at, words in enumerate([*arguments, []])]
    return calls


def run(shell, script):
    """What a shell prints for a script, line by line, in a folder with one file."""
    with tempfile.TemporaryDirectory() as home, tempfile.TemporaryDirectory() as room:
        (pathlib.Path(room) / "some.file").touch()
        home = {"HOME": home, "PATH": "/usr/bin:/bin"}
        _, output, errors = ran(*shell, "-c", script, cwd=room, env=home, text=True)
    count.same(f"errors of {shell[0]}", errors, "")
    return output.split("\n")


def found(words, wanted):
    """Those of the words that were found: of commands, which a machine may have more of, those that are wanted."""
    return set(words) & set(wanted) if "bash" in wanted else words


def in_bash(made, calls):
    divided = [(f"reqkeyctl --payload-from{end}", ["some.file"]) for end in [" =", " = so"]]
    divided += [("reqkeyctl --uid = 1000 revo", ["revoke"]), ("reqkeyctl --payload-from = f add user d n", ["none"])]
    rows = [*calls, *divided]
    lines = [f"tried {' '.join(words if words else repr('') for words in typed.split(' '))}" for typed, _ in rows]
    got = run(["bash", "--noprofile", "--norc"], DRIVER.format(made) + "\n".join(lines))
    for (typed, wanted), line in zip(rows, got):
        count.same(f"bash: {typed!r}", sorted(found(line.split(), wanted)), sorted(wanted))


def in_fish(made, calls):
    if lacks("completion in fish", "fish"):
        return
    lines = [f"source {path}" for path in sorted(made.glob("*.fish"))]
    lines += [f"complete -C '{typed}'; printf '%s\\n' ==" for typed, _ in calls]
    blocks = "\n".join(run(["fish", "--no-config"], "\n".join(lines))).split("==\n")
    for (typed, wanted), block in zip(calls, blocks):
        words = [line.split("\t")[0] for line in block.split("\n") if line]
        count.same(f"fish: {typed!r}", sorted(found(words, wanted)), sorted(wanted))


def in_zsh(made):
    if lacks("completion in zsh", "zsh"):
        return
    for path in sorted(made.glob("_*")):
        count.same(f"zsh reads {path.name}", ran("zsh", "-f", "-n", path, text=True), (0, "", ""))


def starter():
    """The files for reqkey-trap and reqkey-door, which are built for that; none where there is no compiler."""
    if lacks("completion of reqkey-trap and reqkey-door", "gcc", "make"):
        return {}
    with tempfile.TemporaryDirectory() as room:
        folder = pathlib.Path(room)
        return {**completion.starter_of(compiled.made(count, "trap", folder)), **completion.server_of(compiled.made(count, "door", folder))}


def tried(daemon, client, made):
    """Words are completed by these files, in a folder of their own."""
    with tempfile.TemporaryDirectory() as room:
        folder = pathlib.Path(room)
        completion.write(folder, made)
        calls = typed_calls(daemon, client) + (STARTED + SERVED if f"{completion.STARTER}.bash" in made else [])
        in_bash(folder, calls)
        in_fish(folder, calls)
        in_zsh(folder)


starters, first = starter(), None
for daemon in PROGRAMS:
    client = client_of(daemon)
    count.same(f"{daemon} and {client} are built", (daemon.exists(), client.exists()), (True, True))
    if daemon.exists() and client.exists():
        made = {name: text for program in [daemon, client] for name, text in completion.made_of(completion.read_program(program)).items()}
        if first is None:
            first = made
            tried(daemon, client, {**made, **starters})
        count.same(f"files of {daemon.name}", made, first)
count.end()
