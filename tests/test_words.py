#!/usr/bin/env python3
"""Calls `reqkeyd` with words: which status, and what is said on which stream."""
from programs import check_all, ran, version

# a configuration without a line, and a place where no socket can be
PATHS = ["--conf", "/dev/null", "--socket", "/dev/null/none"]

# the words, the status, what standard output has and what standard error has; None is nothing at all
CALLS = [
    ([], 2, None, "Usage: reqkeyd"),
    (["replay"], 0, None, None),
    (["replay", "more"], 2, None, "unexpected argument 'more'"),
    (["replay", "--fast"], 2, None, "unexpected argument '--fast'"),
    (["serve"], 2, None, "required arguments were not provided"),
    (["serve", "--socket", "S"], 2, None, "--conf <PATH>"),
    (["serve", "--nothing"], 2, None, "unexpected argument '--nothing'"),
    (["serve", *PATHS, "--sessions", "65"], 2, None, "'65' for '--sessions <N>': 65 is not in 1..=64"),
    (["serve", *PATHS, "--sessions=0"], 2, None, "'0' for '--sessions <N>': 0 is not in 1..=64"),
    (["serve", *PATHS, "--negative", "4294967296"], 2, None, "'4294967296' for '--negative <N>': 4294967296 is not in 0..=4294967295"),
    (["serve", *PATHS, "--clients", "many"], 2, None, "'many' for '--clients <N>': invalid digit found in string"),
    (["serve", *PATHS, "--mode", "1000"], 2, None, "'1000' for '--mode <OCTAL>': 1000 is not in 0..=777"),
    (["serve", *PATHS, "--mode", "689"], 2, None, "error: invalid value '689' for '--mode <OCTAL>': it has to be octal digits, 0 to 777\n"),
    (["serve", *PATHS, "--keyutils", "rel.so"], 2, None, "error: invalid value 'rel.so' for '--keyutils <FILE>': it has to begin with /"),
    (["serve", *PATHS, "--log", "all"], 2, None, "invalid value 'all' for '--log <LEVEL>'"),
    (["serve", *PATHS, "--idle", "-1"], 2, None, "'-1'"),
    (["serve", "--conf", "/dev/null/none", "--socket", "/dev/null/none"], 1, None, "reqkeyd: conf\n  /dev/null/none: Not a directory\n"),
    (["serve", *PATHS], 1, None, "reqkeyd: socket\n  /dev/null/none: Not a directory\n"),
    (["check", "--conf", "/dev/null"], 0, "ok, 0 lines\n", "reqkeyd: no line names a program\n"),
    (["check", "--conf", "/dev/null/none"], 1, None, "reqkeyd: conf\n  /dev/null/none: Not a directory\n"),
    (["check"], 2, None, "--conf <PATH>"),
    (["pick", "--conf", "/dev/null", "user", "a", ""], 1, None, "reqkeyd: no line\n"),
    (["pick", "--conf", "/dev/null", ".user", "a", ""], 2, None, "error: invalid value '.user' for '<type>': it begins with a dot\n"),
    (["pick", "--conf", "/dev/null", "user", "", ""], 2, None, "error: invalid value '' for '<description>': it is empty\n"),
    (["pick", "--conf", "/dev/null", "user", "a", "c" * 4096], 2, None, "for '<callout>': it has more than 4095 bytes\n"),
    (["pick", "--conf", "/dev/null", "u" * 32, "a", ""], 2, None, "for '<type>': it has more than 31 bytes\n"),
    (["pick", "--conf", "/dev/null", "--key", "0", "user", "a", ""], 2, None, "'0' for '--key <N>': 0 is not in 1..=2147483647"),
    (["pick", "--conf", "/dev/null", "--uid", "4294967296", "user", "a", ""], 2, None, "--uid <N>': 4294967296 is not in 0..=4294967295"),
    (["pick", "--conf", "/dev/null", "--thread", "2147483648", "user", "a", ""], 2, None, "--thread <N>': 2147483648 is not in 0..=2147483647"),
    (["serve", *PATHS, "--record", "/dev/null"], 1, None, "reqkeyd: record\n  /dev/null: Not a directory\n"),
    (["rejoin"], 2, None, "required arguments were not provided"),
    (["rejoin", "--fast"], 2, None, "unexpected argument '--fast'"),
    (["rejoin", "/dev/null"], 1, None, "reqkeyd: /dev/null: it does not begin as a volume of this version\n"),
    (["rejoin", "/dev/null/none"], 1, None, "reqkeyd: /dev/null/none: it can't be read\n"),
    (["server"], 2, None, "unrecognized subcommand 'server'"),
    (["--nothing"], 2, None, "unexpected argument '--nothing'"),
    ([b"\xff"], 2, None, "usage: reqkeyd replay"),
    (["--help"], 0, "Usage: reqkeyd", None),
    (["-h"], 0, "Usage: reqkeyd", None),
    (["replay", "--help"], 0, "Runs a script from standard input", None),
    (["serve", "--help"], 0, "Answers a Unix socket", None),
    (["check", "--help"], 0, "Tells how many lines", None),
    (["pick", "--help"], 0, "Tells which line", None),
    (["rejoin", "--help"], 0, "Tells whether the volumes", None),
    (["--version"], 0, f"reqkeyd {version()}\n", None),
    (["-V"], 0, f"reqkeyd {version()}\n", None),
]


def fault(program, words, status, output, errors, **more):
    """What went wrong, or None."""
    ended, *texts = ran(program, *words, **more)
    if ended != status:
        return f"status {ended}, not {status}"
    for name, got, want in zip(["output", "error"], texts, [output, errors]):
        text = (got or b"").decode(errors="replace")
        if (want is None and text) or (want is not None and want not in text):
            return f"standard {name} is {text!r}"
    return None


def on_a_full_device(program):
    with open("/dev/full", "wb") as full:
        return fault(program, ["replay"], 1, None, "reqkeyd: script", stdout=full, input=b"what\n")


check_all([*((words, fault, words, *wanted) for words, *wanted in CALLS), ("a full device", on_a_full_device)])
