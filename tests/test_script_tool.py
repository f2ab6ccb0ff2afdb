#!/usr/bin/env python3
"""Tries tools/script.py: that its tables are those of docs/PROTOCOL.md, and that words and lines of a script say the same, both ways.

Also looks at the scenarios of tests/replay: ten of them keep the script and the expected output byte by byte, and both are what the words say.
"""
import random
import re
import sys

from counted import Counted
from programs import ran, top
from scenarios import scenarios

tool = top / "tools" / "script.py"
sys.path.insert(0, str(tool.parent))
import messages
import script

count = Counted()

# A line of words, and the line of a script, worked out by hand from docs/PROTOCOL.md.
LINES = [
    ("100 accept 1", "100 accept 1"),
    ("18446744073709551615 gone 4294967295", "18446744073709551615 gone 4294967295"),
    ("100 started 2147483647", "100 started 2147483647"),
    ("100 unstarted 3", "100 unstarted 3"),
    ("100 outfault 3", "100 outfault 3"),
    ("100 waitfault 3", "100 waitfault 3"),
    ("100 ended 3 exit 255", "100 ended 3 exit 255"),
    ("100 ended 3 signal", "100 ended 3 signal"),
    ("negative 4294967295", "negative 4294967295"),
    ("conf create user debug:* * |/bin/cat %k", "conf create user debug:* * |/bin/cat %k"),
    ("# any text: %zz", "# any text: %zz"),
    ("", ""),
    ("100 c1 HELLO 1000 1000 0 0", "100 bytes 1 0000000e01000003e8000003e80000000000"),
    ("100 c1 HELLO 0 4294967295 3 2147483647", "100 bytes 1 0000000e0100000000ffffffff037fffffff"),
    ("100 c1 REQUEST user a =x 0", "100 bytes 1 00000012020004757365720001610100017800000000"),
    ("100 c1 REQUEST user a = -8", "100 bytes 1 000000110200047573657200016101" "0000" "fffffff8"),
    ("100 c1 REQUEST user a - -1", "100 bytes 1 0000000f0200047573657200016100ffffffff"),
    ("100 c1 REQUEST .x caf%C3%A9 =%20 0", "100 bytes 1 0000001402" "00022e78" "0005636166c3a9" "01000120" "00000000"),
    ("101 h3 ASSUME 3", "101 out 3 000000050300000003"),
    ("101 h3 INSTANTIATE 3 hi 0", "101 out 3 0000000d04000000030002686900000000"),
    ("101 h3 NEGATE 3 30 -4", "101 out 3 0000000d05000000030000001efffffffc"),
    ("101 h3 REJECT 3 0 129 0", "101 out 3 000000110600000003000000000000008100000000"),
    ("100 c1 READ -7", "100 bytes 1 0000000507fffffff9"),
    ("100 c1 DESCRIBE 3", "100 bytes 1 000000050800000003"),
    ("100 c1 REVOKE 3", "100 bytes 1 000000050900000003"),
    ("100 c1 TIMEOUT 3 10", "100 bytes 1 000000090a000000030000000a"),
    ("100 c1 LINK 3 -2147483648", "100 bytes 1 000000090b0000000380000000"),
    ("100 c1 UNLINK 3 -3", "100 bytes 1 000000090c00000003fffffffd"),
    ("100 c1 CLEAR 2147483647", "100 bytes 1 000000050d7fffffff"),
    ("100 c1 DEFAULT -1", "100 bytes 1 000000050effffffff"),
    ("100 c1 ADD user k v -3", "100 bytes 1 000000110f000475736572" "00016b" "000176" "fffffffd"),
    ('100 c1 ADD %3B %22" "" 0', "100 bytes 1 0000000e0f" "00013b" "00022222" "0000" "00000000"),
    ("101 h3 CALLOUT", "101 out 3 0000000110"),
    ("100 c1 CALLOUT ; READ 3", "100 bytes 1 0000000110" "000000050700000003"),
    ("100 c1 body 07", "100 bytes 1 0000000107"),
    ("100 c1 body 00 ; body 10ff", "100 bytes 1 0000000100" "0000000210ff"),
    ("100 bytes 1 0000", "100 bytes 1 0000"),
    ("100 bytes 1 00010001", "100 bytes 1 00010001"),
    ("101 out 3 =hi", "101 out 3 6869"),
    ("101 out 3 6800", "101 out 3 6800"),
    ("101 out 3 =a*20", "101 out 3 " + 20 * "61"),
    ("101 out 3 =a*16%35*16", "101 out 3 " + 16 * "61" + 16 * "35"),
    ("101 out 3 =**16%31", "101 out 3 " + 16 * "2a" + "31"),
    ("101 out 3 =a*%35%00*16", "101 out 3 612a35" + 16 * "00"),
    ("line 100 accept", "100 accept"),
    ("line conf create%09* * * /bin/h %25k%0D", "conf create\t* * * /bin/h %k\r"),
    ("line conf%20", "conf "),
    ("line conf x%20%20y", "conf x  y"),
    ("line %20# x", " # x"),
    ("line %FF", "\xff"),
]

# A line of a script, and its words.
ANSWERS = [
    ("c1 <- rings 0 0 1 2", "to 1 000000110200000000000000000000000100000002"),
    ("h3 <- 0", "tohandler 3 000000050000000000"),
    ("c4294967295 <- 4294967295", "to 4294967295 0000000500ffffffff"),
    ("c1 <- ENOKEY (126)", "to 1 00000002037e"),
    ("h3 <- EKEYREJECTED (129)", "tohandler 3 000000020381"),
    ("c1 <- bytes hi", "to 1 000000050100026869"),
    ("c1 <- bytes user;1000;valid;%00", "to 1 0000001401" "0011" "757365723b313030303b76616c69643b00"),
    ('c1 <- bytes ""', "to 1 00000003010000"),
    ("h3 <- callout x", "tohandler 3 78"),
    ("to 1 0000000203ff", "to 1 0000000203ff"),
    ("tohandler 3 000000010a", "tohandler 3 000000010a"),
    ("start 3 plain =/bin/h = =%25k =*", "start 3 plain =/bin/h = =%25k =*"),
    ("start 3 piped =/b%20n =a*20", "start 3 piped =/b%20n =aaaaaaaaaaaaaaaaaaaa"),
    ("shut 1", "shut 1"),
    ("shuthandler 3", "shuthandler 3"),
    ("fault 12 S2", "fault 12 S2"),
]

# Lines that a script may have, and what the tool makes of them.
OTHER_SPELLINGS = [
    ("\t 0100  accept\t 01 ", "100 accept 1"),
    ("100 bytes 1 0000000D04000000030002686900000000", "100 bytes 1 0000000d04000000030002686900000000"),
    (" \t ", ""),
    ("  conf create * * * /bin/h", "conf create * * * /bin/h"),
]

# Words that say nothing, and what is said of them; each stands in line 2.
WRONG = [
    ("READ 3", "READ"),
    ("c1 FROB 3", "no ask FROB"),
    ("c1 READ", "the fields of READ: key i32"),
    ("c1 READ 3 4", "the fields of READ"),
    ("c1 READ x", "x is no number"),
    ("c1 READ 2147483648", "32 bits"),
    ("c1 READ -2147483649", "32 bits"),
    ("c1 TIMEOUT 3 -1", "without a sign"),
    ("c1 HELLO 1 1 256 0", "8 bits"),
    ("c1 REQUEST user a x 0", "callout"),
    ("c1 ADD user a%2 v 0", "%"),
    ("c1 ADD user a*65536 v 0", "65,535"),
    ("c1 ADD user a*65535 v*999 0", "a frame's body"),
    ("c1 ADD user a*9999999 v 0", "too many"),
    ("c1 body 0", "hexadecimal"),
    ("c1", "what does it ask"),
    ("c1 READ 3 ;", "what does it ask"),
    ("c4294967296 READ 3", "no number from 0"),
    ("h0 READ 3", "no number from 1"),
    ("accept", "fields"),
    ("accept 1 2", "fields"),
    ("bytes 1 0", "hexadecimal"),
    ("bytes 1 =", "no bytes"),
    ("out 3 =a*200000", "262,144"),
    ("ended 3", "fields"),
    ("ended 3 exit 256", "from 0 to 255"),
    ("ended 3 fault", "exit"),
    ("18446744073709551616 accept 1", "from 0 to"),
    ("000000000000000000100 accept 1", "20 digits"),
    ("200", "what happens"),
    ("negative x", "no number"),
    ("negative", "seconds"),
    ("conf", "conf"),
    ("line a%0Ab", "newline"),
    ("repeat N 1", "first and the last"),
    ("repeat M 1 2", "first and the last"),
    ("repeat N 2 1", "less than the first"),
    ("repeat N 1 1000001", "from 0 to 1000000"),
    ("repeat N 0 1\ngone {N-1}\nend", "less than 0"),
    ("repeat N 256 256\nc1 body {N:02x}\nend", "hexadecimal"),
    ("repeat N 0 1\nrepeat N 0 1\nend\nend", "within another"),
    ("repeat N 0 1\ngone {N}", "without its end"),
    ("gone {N}", "no number"),
    ("end", "nothing is called end"),
    ("  c1 <- E5", "no reply"),
    ("  c1 <- rings 1 2", "no reply"),
    ("  x1 <- 0", "no session"),
    ("  c1 0", "is no output of a script"),
]


def tables():
    """The tables of the tool are those of the page."""
    page = (top / "docs" / "PROTOCOL.md").read_text().replace("`", "")
    parts = {text.split("\n")[0]: text for text in page.split("\n## ")}
    asks = [" ".join(row) for row in re.findall(r"^\| (\d+) \| ([A-Z]+) \| ([^|]*) \|", parts["Requests"], re.MULTILINE)]
    count.same("the requests of docs/PROTOCOL.md", asks, messages.ASKS.strip().split("\n"))
    replies = [(int(kind), name) for kind, name in re.findall(r"^\| (\d) \| ([A-Z][a-z]+) \|", parts["Replies"], re.MULTILINE)]
    count.same("its replies", replies, [row[:2] for row in messages.REPLIES])
    errnos = {int(number): name for number, name in re.findall(r"\| (\d+) \| (E[A-Z]+) ", parts["Replies"])}
    count.same("its errors", errnos, messages.ERRNOS)


def one_by_one():
    """Single lines, both ways."""
    for words, line in LINES:
        count.same(words, script.write_line(words)[0], line)
        count.same(line, script.read_line(line)[0], words)
    for words, line in ANSWERS:
        count.same(words, script.write_answer(words, 0), line)
        count.same(line, script.read_answer(line), words)
    for line, same in OTHER_SPELLINGS:
        count.same(line, script.write_line(script.read_line(line)[0])[0], same)
    for text in ["E126", "ENOKEY", "ENOKEY (126)"]:
        count.same(text, script.write_answer(f"c1 <- {text}", 0), "to 1 00000002037e")
    longest = "#" + 262_144 * " "
    count.same("a line that is too long", script.write_line(script.read_line(longest)[0])[0], longest)
    for words, told in WRONG:
        try:
            got = script.write(f"100 accept 1\n{words}\n".encode())
        except script.Fault as fault:
            got = str(fault)
        # (a repeat has lines within)
        count.same(words, (bool(re.match("line 2: " if "\n" not in words else "line [2-5]: ", str(got))), told in str(got)), (True, True))


def whole_texts():
    """Moments that are left out, answers among the lines, and the last newline."""
    words = b"# x\n100 accept 1\n\nwhat\n".replace(b"what", b"line what") + b"  fault S1\nc1 READ 3\n101 c1 READ 3\nc1 READ 3\n  c1 <- E13\n  c1 <- E13"
    lines = b"# x\n100 accept 1\n\nwhat\n100 bytes 1 000000050700000003\n" + b"\n".join([b"101 bytes 1 000000050700000003"] * 2)
    count.same("moments are left out", script.write(words), lines)
    count.same("and told again", script.write(script.read(lines)), lines)
    came = b"fault 4 S1\nto 1 00000002030d\nto 1 00000002030d\n"
    count.same("what has to come", script.answers(words), came)
    count.same("nothing", (script.write(b""), script.read(b""), script.answers(b"")), (b"", b"", b""))
    for repeated, unrolled in [
        (b"c0 READ {N}\n  c0 <- {2*N+1}\n", b"c0 READ 1\n  c0 <- 3\nc0 READ 2\n  c0 <- 5\nc0 READ 3\n  c0 <- 7\n"),
        (b"c0 body {N+8:02x}ff\n", b"c0 body 09ff\nc0 body 0aff\nc0 body 0bff\n"),
        (b"bytes 0 ff{0001000203:N-1}\n", b"bytes 0 ff\nbytes 0 ff00\nbytes 0 ff0001\n"),
        (b"bytes 0 {0a0b0c0d0e@N+2}\n", b"bytes 0 0c\nbytes 0 0d\nbytes 0 0e\n"),
    ]:
        told, wanted = b"100 accept 0\nrepeat N 1 3\n" + repeated + b"end\ngone 0\n", b"100 accept 0\n" + unrolled + b"gone 0\n"
        count.same(f"a repeat of {repeated}", (script.write(told), script.answers(told)), (script.write(wanted), script.answers(wanted)))


def any_bytes():
    """Any bytes are a word, and any line of a script has words."""
    dice = random.Random(1)
    for at in range(500):
        letters = dice.choice([b"a*5%", b"0123*", bytes(range(256)), b' ";=-'])
        data = b"".join(bytes([dice.choice(letters)]) * dice.choice([1, 1, 2, 16, 30]) for _ in range(dice.randrange(6)))
        count.same(f"word {at}", (messages.unword(messages.word(data)), messages.unfield(messages.field(data))), (data, data))
        line = dice.choice(["", "100 bytes 1 ", "conf ", "#", "1 out 3 00000001"]) + data.replace(b"\n", b"").decode("latin-1")
        again = script.write_line(script.read_line(line)[0])[0]
        count.same(f"line {at}", re.sub("[ \t]+", " ", again).lower().strip(), re.sub("[ \t]+", " ", line).lower().strip())


def meaning(line):
    """A line without what changes nothing: the white space around its fields, the case of digits, leading zeros of numbers."""
    fields = line.lower().split()
    numbers = 3 if fields[1:2] in ([b"bytes"], [b"out"]) else len(fields)
    return [re.sub(b"^0+(?=[0-9]+$)", b"", text) for text in fields[:numbers]] + fields[numbers:]


def of_words():
    """What is made of a scenario's words has words that say the same; and what ten folders keep of it is what their words say."""
    kept = []
    for case in scenarios():
        again = script.write(script.read(case.script))
        count.same(f"{case.name}: read and written", [*map(meaning, again.split(b"\n"))], [*map(meaning, case.script.split(b"\n"))])
        count.same(f"{case.name}: read and written again", script.answers(script.read(case.expected)), case.expected)
        count.same(f"{case.name}: purpose", (case.path.parent / "purpose").read_text().count("\n"), 1)
        beside = sorted(path.name for path in case.path.parent.iterdir() if path.name in ["script", "expected"])
        kept += beside
        for name in beside:
            told = f"{case.name}: the {name} is what its words say (tools/script.py scenario tests/replay/{case.name})"
            count.same(told, getattr(case, name), (case.path.parent / name).read_bytes())
    count.same("scenarios that keep what is made of their words", (kept.count("script"), kept.count("expected")), (10, 10))


def calls():
    """The command: what it prints, and its status."""
    first = top / "tests" / "replay" / "first_path"
    for words, given, status, output, errors in [
        ([], b"", 2, b"", b"usage: script.py write"),
        (["what"], b"", 2, b"", b"usage"),
        (["read", "a", "b"], b"", 2, b"", b"usage"),
        (["scenario"], b"", 2, b"", b"usage"),
        (["--help"], b"", 0, None, b""),
        (["write"], b"100 c1 READ 3\n", 0, b"100 bytes 1 000000050700000003\n", b""),
        (["read"], b"100 bytes 1 000000050700000003\n", 0, b"100 c1 READ 3\n", b""),
        (["read"], b"to 1 00000002030d\n", 0, b"  c1 <- EACCES (13)\n", b""),
        (["write", first / "words"], b"", 0, (first / "script").read_bytes(), b""),
        (["answers", first / "words"], b"", 0, (first / "expected").read_bytes(), b""),
        (["write"], b"100 accept 1\nc1 READ\n", 1, b"", b"script.py: line 2: the fields of READ: key i32\n"),
        (["write"], b"accept 1\n", 1, b"", b"script.py: line 1: "),
        (["write", "/nothing/there"], b"", 1, b"", b"script.py: "),
    ]:
        got, printed, said = ran(tool, *words, input=given)
        told = (got, printed if output is not None else None, errors in said, bool(said))
        count.same(f"script.py {words}", told, (status, output, True, bool(errors)))


def examples():
    """The example is the first path, on the page of scripts too; what the page of the machine shows are scenarios."""
    first = top / "tests" / "replay" / "first_path"
    lines = [line for line in script.lines_of((top / "examples" / "first-path.script").read_bytes()) if not line.startswith("#")]
    count.same("examples/first-path.script", lines, script.lines_of((first / "script").read_bytes()))
    page = (top / "docs" / "SCRIPTS.md").read_text()
    count.same("the example's words stand in docs/SCRIPTS.md", f"```\n{(first / 'words').read_text()}```\n" in page, True)
    played = [case.words.decode("latin-1") for case in scenarios()]
    shown = (top / "docs" / "MACHINE.md").read_text().split("```\n")[1::2]
    count.same("docs/MACHINE.md shows scenarios", ([it for it in shown if it not in played], len(shown)), ([], 1))


for test in [tables, one_by_one, whole_texts, any_bytes, of_words, calls, examples]:
    test()
count.end()
