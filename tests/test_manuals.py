#!/usr/bin/env python3
"""Compares the manual pages of man/ with what the programs say of themselves and with the code, and has groff look for faults in them."""
import pathlib
import re
import shutil
import sys
import tempfile

from compiled import made
from counted import Counted
from programs import built, lacks, ran, there, top

sys.path.insert(0, str(top / "tools"))
from program_help import option, part, said, subcommands

count = Counted()
HEADER = top / "clients" / "c" / "reqkey.h"
PAGES = ["reqkeyd.8", "reqkeyctl.1", "reqkey-trap.1", "reqkey-door.8", "reqkeyd.conf.5"]


def plain(words):
    """A text of a manual page as it is read: without the changes of font, and with its dashes."""
    return re.sub(r"\\f(\(..|.)", "", words).replace("\\-", "-").replace("\\&", "")


def spoken(line):
    """What a line of a manual page shows."""
    macro, _, rest = line.partition(" ")
    if not macro.startswith("."):
        return plain(line)
    words = [plain(quoted or word) for quoted, word in re.findall(r'"([^"]*)"|(\S+)', rest)]
    return ("" if macro in [".BI", ".BR", ".IB", ".IR", ".RB", ".RI"] else " ").join(words)


def sections(page):
    """The lines of each section of a manual page."""
    found = {}
    for line in (top / "man" / page).read_text().split("\n"):
        if line.startswith(".SH "):
            found[line[4:].strip()] = lines = []
        elif found:
            lines.append(line)
    return found


def tagged(lines):
    """The tags of a section: the words of each `.IP` that has them in quotes."""
    return [spoken(line) for line in lines if line.startswith('.IP "')]


def options(*helps):
    """The options that the texts of help list."""
    return sorted({option(line) for text in helps for line in part(text, "Options")})


def calls(program, name):
    """Each subcommand with its arguments, as the program says how to call it."""
    usage = re.search(r"^Usage: \S+ (.*)$", said(program, name, "--help"), re.MULTILINE)
    return re.sub(rf"\[OPTIONS\] |[<>]|^{name} ?", "", usage[1]).upper() if usage else f"no usage of {name}"


def of_synopsis(page, program, text):
    """The options of a program are those of its page, and each stands in the synopsis."""
    listed = sorted(option(tag) for tag in tagged(page["OPTIONS"]))
    count.same(f"options of {program}", listed, options(*text))
    synopsis = " ".join(spoken(line) for line in page["SYNOPSIS"])
    count.same(f"synopsis of {program}", [it for it in listed if it.split()[-1] != "--help" and it.split()[1 if it[1] != "-" else 0] not in synopsis], [])
    return synopsis


def of_daemon(program):
    """reqkeyd.8: its options, its subcommands, and that each option stands in the synopsis."""
    page, top_help = sections("reqkeyd.8"), said(program, "--help")
    helps = [said(program, it, "--help") for it in ["serve", "check", "pick"]]
    synopsis = of_synopsis(page, "reqkeyd", [top_help, *helps])
    commands = subcommands(top_help)
    count.same("subcommands of reqkeyd", sorted(commands), ["check", "pick", "rejoin", "replay", "serve"])
    count.same("their synopsis", [it for it in commands if f"reqkeyd {it}" not in synopsis], [])
    count.same("names of pick", [it for it in [calls(program, "pick").partition("PATH ")[2]] if it not in synopsis], [])


def variants(path, enum):
    """The variants of an enum in a source file that have no values."""
    body = (top / "crates" / path).read_text().partition(f"pub enum {enum} {{\n")[2].partition("\n}")[0]
    return re.findall(r"^    (\w+),$", body, re.MULTILINE)


def shown(path, enum):
    """How the variants of an enum in a source file are shown."""
    body = (top / "crates" / path).read_text().partition(f"pub enum {enum} {{\n")[2].partition("\n}")[0]
    return re.findall(r'#\[error\("(.*)"\)\]', body)


def shape(text):
    """A pattern of what a text of the code may say: a word in the place of each of its values."""
    return r"\S+".join(map(re.escape, re.split(r"\{.*?\}", text)))


def of_warnings():
    """reqkeyd.8: each end of a session but the plain one, each way in which a handler may fail, with the code or reason of those that have one, and each text
    with which the daemon warns."""
    tags = tagged(sections("reqkeyd.8")["DIAGNOSTICS"])
    parting = (top / "crates" / "rk_daemon" / "src" / "parting.rt").read_text()
    ends = [f"session N: {it}" for it in re.findall(r'"([^"]+)"', parting) if it != "ended"]
    count.same("ends of sessions", len(ends), len(variants("rk_session/src/serving.rt", "Served")) - 1)
    ending = (top / "crates" / "rk_daemon" / "src" / "ending.rt").read_text()
    ways = ending.partition("fn put_how(")[2].partition("fn errno_text(")[0]
    others = re.compile(r"; |X[234]|start failed: |it could|.*more than")
    fails = [re.sub(r"\{\w+\}", "N", text) for text in re.findall(r'"([^"]+)"', ways) if not others.match(text)]
    ends_in = re.findall(r'"(; [^"]+)"', ways)
    count.same("what a warning of a handler may end in", [it for it in ends_in if f"\\fB{it}\\fR" in (top / "man" / "reqkeyd.8").read_text()], ends_in)
    count.same("warnings of sessions", [tag for tag in tags if tag.startswith("session N: ") and tag not in ["session N: no memory", "session N: idle", "session N: its replies are not read"]], ends)
    of_handlers = [tag for tag in tags if tag.startswith("handler of key N: ") and not tag.endswith("this line")]
    count.same("warnings of handlers", of_handlers, [f"handler of key N: {it}" for it in fails])
    text = " ".join(spoken(line) for line in sections("reqkeyd.8")["DIAGNOSTICS"]).partition("handler of key N: ")[2].partition("accept:")[0]
    reasons = re.findall(r"X[234]: [^\"]+", ways) + shown("rk_devices/src/output.rt", "OutputFault")
    count.same("reasons of handlers", [it for it in reasons if it not in text], [])
    sources = (top / "crates" / "rk_daemon" / "src").glob("*.rt")
    texts = [text for path in sources for text in re.findall(r'(?:warn|info)!\([^;]*; "(.*)"\)', path.read_text())]
    count.same("texts of warnings", len(texts) > 5, True)
    count.same("warnings that no tag tells", [text for text in texts if not any(re.fullmatch(shape(text), tag) for tag in tags)], [])


def of_client(program):
    """reqkeyctl.1: its options, its subcommands with their arguments, what the arguments are called, and the errors."""
    page, text = sections("reqkeyctl.1"), said(program, "--help")
    of_synopsis(page, "reqkeyctl", [text])
    tags = dict(tag.partition(" ")[::2] for tag in tagged(page["COMMANDS"]))
    count.same("subcommands of reqkeyctl", list(tags), subcommands(text))
    for name, arguments in tags.items():
        count.same(f"arguments of {name}", arguments, calls(program, name))
    count.same("arguments", sorted(tagged(page["ARGUMENTS"])), sorted(line.split()[0].upper() for line in part(text, "Arguments")))
    count.same("errors", tagged(page["ERRORS"]), part(text, "Errors"))


def of_trap():
    """reqkey-trap.1: its options, and that each stands in the synopsis; and what it says on standard error, by its sources."""
    page = sections("reqkey-trap.1")
    if lacks("reqkey-trap.1", "gcc", "make"):
        return
    with tempfile.TemporaryDirectory() as room:
        text = said(made(count, "trap", pathlib.Path(room)), "--help")
    of_synopsis(page, "reqkey-trap", [text])
    sources = "".join(path.read_text() for path in (top / "clients" / "trap").glob("*.c"))
    texts = re.findall(r'fputs\("reqkey-trap: (.*?)\\n"', sources)
    count.same("what reqkey-trap says", sorted(it for it in texts if it not in tagged(page["DIAGNOSTICS"])), [])
    count.same("how much it says", len(texts), 3)


def of_door():
    """reqkey-door.8: its options, and that each stands in the synopsis; its reasons, by its sources."""
    page = sections("reqkey-door.8")
    if lacks("reqkey-door.8", "gcc", "make"):
        return
    with tempfile.TemporaryDirectory() as room:
        text = said(made(count, "door", pathlib.Path(room)), "--help")
    of_synopsis(page, "reqkey-door", [text])
    sources = "".join(path.read_text() for path in (top / "clients" / "door").glob("*.c"))
    said_by = re.findall(r'fputs\("reqkey-door: (.*?)\\n"', sources)
    count.same("what reqkey-door says", sorted(it for it in said_by if it not in tagged(page["DIAGNOSTICS"])), [])
    forms = [tag.partition(":")[0] for tag in tagged(page["DIAGNOSTICS"])]
    warnings = [re.match(r"[a-z ]+", it)[0] for it in re.findall(r'log_warning\("([a-z].*?)"', sources)]
    count.same("kinds of its lines", sorted(set(it for it in warnings if it not in forms)), [])
    shown_text = " ".join(spoken(line) for line in page["DIAGNOSTICS"])
    reasons = [re.split(r" ?%", it)[0] for it in re.findall(r'"((?:EACCES|EDQUOT|ENOMEM), .*?|no HELLO within .*?)"', sources)]
    count.same("reasons of reqkey-door", ([it for it in reasons if it not in shown_text], len(reasons)), ([], 8))


def of_configuration():
    """reqkeyd.conf.5: the macros of rk_conf, the codes of its faults in the order in which they are tried, and those of rk_macro."""
    page = sections("reqkeyd.conf.5")
    tags = tagged(page["DESCRIPTION"])
    macros = re.findall(r"%.", " ".join(tag for tag in tags if tag.startswith("%")))
    letters = re.findall(r"^        b'(\w)' => Some", (top / "crates" / "rk_conf" / "src" / "borrowed_argument.rt").read_text(), re.MULTILINE)
    count.same("macros", macros, [*(f"%{letter}" for letter in letters), "%{", "%%"])
    count.same("codes", tagged(page["DIAGNOSTICS"]), [code for code in shown("rk_conf/src/fault.rt", "ConfKind") if code != "C5"])
    codes = re.findall(r'"(X\d)"\)\]', (top / "crates" / "rk_macro" / "src" / "fault.rt").read_text())
    count.same("codes of words", [tag for tag in tags if tag.startswith("X")], codes)


def alike(page):
    """What every page has, and what groff finds wrong with it."""
    found, text = sections(page), (top / "man" / page).read_text()
    wanted = ["NAME", "DESCRIPTION", "EXAMPLES", "SEE ALSO"] + ([] if page.endswith("5") else ["SYNOPSIS", "OPTIONS", "EXIT STATUS"])
    count.same(f"sections of {page}", [it for it in wanted if it not in found], [])
    name, number = page.rsplit(".", 1)
    count.same(f"title of {page}", text.split("\n")[0].split()[:3], [".TH", name.upper(), number])
    others = [it.rsplit(".", 1) for it in PAGES if it != page]
    also = " ".join(spoken(line) for line in found["SEE ALSO"])
    count.same(f"see also of {page}", [it for it, its in others if f"{it}({its})" not in also], [])
    count.same(f"columns of {page}", [line for line in text.split("\n") if len(line) > 160], [])
    if shutil.which("groff"):
        status, _, errors = ran("groff", "-ww", "-man", "-Tutf8", "-b", top / "man" / page, text=True)
        count.same(f"faults in {page}", (status, errors), (0, ""))


def of_header():
    """reqkey(3), which is made of reqkey.h: each line of a declaration and each sentence of a comment are in it once, and groff finds no fault."""
    made = ran(top / "tools" / "header_manual.py", HEADER, text=True)
    count.same("making reqkey.3", (made[0], made[2]), (0, ""))
    page = " ".join(" ".join(spoken(line) for line in made[1].split("\n")).split()).replace("\\e", "\\")
    header = HEADER.read_text()
    calls = re.findall(r"^[a-z].*?\breqkey_\w+\(.*?\);$", header, re.MULTILINE)
    count.same("calls of reqkey.h in reqkey.3", ([it for it in calls if page.count(" ".join(it.split())) != 1], len(calls) > 20), ([], True))
    texts = [" ".join(re.sub(r"^ ?\*/?", "", line).strip() for line in it.split("\n")) for it in re.findall(r"^/\*(.*?)\*/", header, re.DOTALL | re.MULTILINE)]
    said = [sentence for text in texts for sentence in re.split(r"(?<=[.:]) +", " ".join(text.split())) if len(sentence) > 40 and "(" not in sentence]
    lacking = [it for it in said if it.lstrip("- ") not in page and not it.startswith("Requests keys")]
    count.same("sentences of reqkey.h in reqkey.3", (lacking, len(said) > 30), ([], True))
    if shutil.which("groff"):
        status, _, errors = ran("groff", "-ww", "-man", "-Tutf8", "-b", input=made[1], text=True)
        count.same("faults in reqkey.3", (status, errors), (0, ""))


if not shutil.which("groff"):
    print("faults in the manual pages: not looked for, there is no groff")
for page in PAGES:
    alike(page)
of_configuration()
of_header()
of_trap()
of_door()
of_warnings()
for name, compare in [("reqkeyd", of_daemon), ("reqkeyctl", of_client)]:
    for program in there(count, built(name)[:1]):
        compare(program)
count.end()
