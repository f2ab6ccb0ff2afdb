#!/usr/bin/env python3
"""Scripts of `reqkeyd replay`, and their output, in words.

usage: script.py write [FILE]       words in; the script that they say out
       script.py answers [FILE]     words in; the expected output of that script out
       script.py read [FILE]        a script, or the output of one, in; words out
       script.py scenario FOLDER..  write `script` and `expected` of each folder from its `words`

Without FILE standard input is read. docs/SCRIPTS.md says what the words are. The status is 0; 1 if something can't be read or written, with
the number of the invalid line; 2 for a usage error.
"""
import pathlib
import re
import signal
import sys

from messages import Fault, NoReading, bodies, field, frame, raw, read_ask, read_reply, unfield, unraw, unword, word, write_ask, write_reply

LINE = 262_144  # the bytes of a script's line at most
WIDTH = 160  # a line of the configuration that is longer is written with runs
CLIENTS = 2**32 - 1
KEYS = 2**31 - 1
MOMENTS = 2**64 - 1
ROUNDS = 1_000_000
PLACE = re.compile(r"\{(?:((?:[0-9a-f]{2})+)([:@]))?(?:([0-9]+)\*)?N([+-][0-9]+)?(?::(02x))?\}")


def split(text):
    """The fields of a line."""
    return re.findall(r"[^ \t]+", text)


def number(text, greatest, least=0):
    """A number of a script, without leading zeros."""
    digits = text.lstrip("0") or "0"
    if not re.fullmatch("[0-9]+", text) or len(digits) > 20 or not least <= int(digits) <= greatest:
        raise Fault(f"{text[:80]} is no number from {least} to {greatest}")
    return digits


def short_number(text, greatest):
    """One of 20 digits at most, the leading zeros counted."""
    if len(text) > 20:
        raise Fault(f"{text[:80]} has more than 20 digits")
    return number(text, greatest)


def client(text):
    return number(text, CLIENTS)


def key(text):
    return number(text, KEYS, 1)


# What happens: the word, whom it concerns, and how many fields follow.
HAPPENINGS = {
    "accept": (client, [0]),
    "bytes": (client, [1]),
    "gone": (client, [0]),
    "started": (key, [0]),
    "unstarted": (key, [0]),
    "out": (key, [1]),
    "outfault": (key, [0]),
    "ended": (key, [1, 2]),
    "waitfault": (key, [0]),
}

SESSION = re.compile("([ch])([0-9]+)")


def happening(words):
    """What happens, to whom, and what follows: the bytes, or how a handler ended."""
    if not words or words[0] not in HAPPENINGS:
        raise Fault(f"nothing is called {words[0]} that happens" if words else "what happens?")
    whom, counts = HAPPENINGS[words[0]]
    if len(words) < 2 or len(words) - 2 not in counts:
        raise Fault(f"{words[0]} has fewer or more fields")
    verb, rest = words[0], words[2:]
    if verb == "ended" and rest != ["signal"]:
        if len(rest) != 2 or rest[0] != "exit":
            raise Fault("a handler has ended with `exit` and its status, or by a `signal`")
        rest[1] = number(rest[1], 255)
    return verb, whom(words[1]), rest


def negative(words):
    """A line that sets the negative time."""
    if len(words) != 2:
        raise Fault("negative, and a number of seconds")
    return f"negative {short_number(words[1], CLIENTS)}"


# From words to lines of a script.


def asks(words):
    """The frames of asks with a `;` between them."""
    ends = [at for at, text in enumerate([*words, ";"]) if text == ";"]
    starts = [0] + [end + 1 for end in ends]
    if any(start == end for start, end in zip(starts, ends)):
        raise Fault("what does it ask?")
    return b"".join(frame(write_ask(words[start:end])) for start, end in zip(starts, ends))


def write_happening(words):
    """What happens, as a script tells it behind the moment."""
    session = SESSION.fullmatch(words[0]) if words else None
    if session and session[1] == "c":
        return f"bytes {client(session[2])} {asks(words[1:]).hex()}"
    if session:
        return f"out {key(session[2])} {asks(words[1:]).hex()}"
    verb, whom, rest = happening(words)
    return " ".join([verb, whom] + ([unraw(rest[0]).hex()] if verb in ("bytes", "out") else rest))


def write_line(text, moment=None):
    """The line of the script that words say, and the moment from then on."""
    words = split(text)
    if text.startswith("line "):
        line = unword(text[5:]).decode("latin-1")
        if "\n" in line:
            raise Fault("a line has no newline within")
        return line, moment
    if not words or text.startswith(("#", "conf ")):
        line = text
    elif words[0] == "negative":
        line = negative(words)
    else:
        if words[0].isdigit():
            moment, words = short_number(words[0], MOMENTS), words[1:]
        if moment is None:
            raise Fault("the first line on which something happens begins with its moment")
        line = f"{moment} {write_happening(words)}"
    if len(line) > LINE:
        raise Fault(f"the script's line would have {len(line)} bytes, and has 262,144 at most")
    return line, moment


# From lines of a script to words.


def read_happening(words):
    """What happens, in words."""
    verb, whom, rest = happening(words)
    if verb not in ("bytes", "out"):
        return " ".join([verb, whom, *rest])
    if rest[0].startswith("="):
        raise Fault("a script has its bytes in hexadecimal")
    data = unraw(rest[0])
    try:
        return f"{'c' if verb == 'bytes' else 'h'}{whom} " + " ; ".join(map(read_ask, bodies(data)))
    except NoReading:
        return f"{verb} {whom} {raw(data, text=verb == 'out')}"


def read_line(text, moment=None):
    """The words of a line, and the moment from then on. An invalid line is `line` and its bytes."""
    words = split(text)
    try:
        if len(text) > LINE:
            raise Fault("too long")
        if not words or text.startswith("#"):
            return text if words else "", moment
        if is_conf(text):
            return read_conf(text.lstrip(" \t")), moment
        if words[0] == "negative":
            return negative(words), moment
        now = short_number(words[0], MOMENTS)
        told = read_happening(words[1:])
        return told if now == moment else f"{now} {told}", now
    except Fault:
        return as_line(text), moment


def is_conf(text):
    """Whether a line adds to the configuration, where it stands before anything happens."""
    return len(text) <= LINE and text.lstrip(" \t").startswith("conf ")


def read_conf(text):
    """A line of the configuration: as it is, if all of it can be seen."""
    return text if re.fullmatch("[!-~]+( [!-~]+)+", text) and len(text) <= WIDTH else as_line(text)


def as_line(text):
    """A line of the script, whatever it is. A space among visible bytes stands for itself."""
    told = word(text.encode("latin-1"), seen=" ")
    return "line " + re.sub("^ +|  +| +$", lambda spaces: "%20" * len(spaces[0]), told)


# The output of a script.

ANSWER = re.compile(
    r"(to|tohandler) [0-9]+ ([0-9a-f]{2})+|start [0-9]+ (plain|piped)( =[!-~]*)+|(shut|shuthandler) [0-9]+|fault [0-9]+ S[12]|conf [0-9]+ C[1-6]"
)


def read_answer(line):
    """The words of a line of output."""
    if not ANSWER.fullmatch(line):
        raise Fault(f"{line[:80]} is no output of a script")
    verb, whom, *rest = line.split(" ")
    if verb in ("to", "tohandler"):
        return read_told(verb, whom, bytes.fromhex(rest[0]))
    if verb == "start":
        return " ".join([verb, whom, rest[0], *("=" + word(unpercent(text[1:])) for text in rest[1:])])
    return line


def read_told(verb, whom, data):
    """What a session gets: a reply; or a piped handler its callout, which is never a frame, since a text has no zero byte."""
    try:
        (body,) = bodies(data)
        return f"{'c' if verb == 'to' else 'h'}{whom} <- {read_reply(body)}"
    except (NoReading, ValueError):
        return f"h{whom} <- callout {field(data)}" if verb == "tohandler" and b"\0" not in data else f"{verb} {whom} {data.hex()}"


def unpercent(text):
    return re.sub("%([0-9A-F]{2})", lambda digits: chr(int(digits[1], 16)), text).encode("latin-1")


def percent(data):
    return "".join(chr(byte) if 0x21 <= byte <= 0x7E and byte != 0x25 else f"%{byte:02X}" for byte in data)


def write_answer(text, above):
    """The line that these words say. `fault S1` alone is of the line above."""
    words = split(text)
    if len(words) > 2 and words[1] == "<-":
        return write_told(words[0], " ".join(words[2:]))
    if words[0] == "fault" and len(words) == 2:
        words.insert(1, str(above))
    if words[0] == "start":
        words[3:] = ["=" + percent(unword(text[1:])) if text.startswith("=") else text for text in words[3:]]
    line = " ".join(words)
    if not ANSWER.fullmatch(line):
        raise Fault(f"{line[:80]} is no output of a script")
    return line


def write_told(name, reply):
    session = SESSION.fullmatch(name)
    if not session:
        raise Fault(f"{name} is no session")
    data = unfield(reply[8:]) if reply.startswith("callout ") else frame(write_reply(reply))
    return f"to {client(session[2])} {data.hex()}" if session[1] == "c" else f"tohandler {key(session[2])} {data.hex()}"


# Whole texts. A letter is a byte here.


def lines_of(data):
    """The lines of a text; the last one may lack its newline."""
    lines = data.decode("latin-1").split("\n")
    return lines if lines[-1] else lines[:-1]


def text_of(lines, data):
    """The lines as a text, which lacks its last newline where the data do."""
    return ("\n".join(lines) + ("\n" if lines and data.endswith(b"\n") else "")).encode("latin-1")


def rounds(text):
    """How often `repeat N FIRST LAST` repeats the lines behind it: the numbers of the rounds, or None for another line."""
    words = split(text)
    if words[:1] != ["repeat"]:
        return None
    if len(words) != 4 or words[1] != "N":
        raise Fault("repeat N, the first and the last number")
    first, last = int(number(words[2], ROUNDS)), int(number(words[3], ROUNDS))
    if first > last:
        raise Fault("the last number is less than the first")
    return range(first, last + 1)


def in_round(text, at):
    """A line in one round: the number of the round, or a sum of it, in the place of `{N}`, `{N+999}`, `{2*N-1}`, as two hexadecimal digits in that of
    `{N:02x}`; of bytes the first so many in that of `{0000000507:N}`, and one of them, counted from 1, in that of `{0000000507@N}`."""

    def value(found):
        given, part, factor, term, digits = found.groups()
        total = int(factor or 1) * at + int(term or 0)
        if total < 0:
            raise Fault(f"{found[0]} is less than 0 where N is {at}")
        return given[2 * total - 2 if part == "@" else 0 : 2 * total] if given else format(total, digits or "d")

    return PLACE.sub(value, text)


def unrolled(data):
    """The lines of words with their numbers; the lines between `repeat` and `end` come once for each round."""
    lines, begun, block = list(enumerate(lines_of(data), 1)), None, []
    for at, text in lines:
        try:
            numbers = rounds(text)
            if numbers is not None and begun is not None:
                raise Fault("a repeat within another one")
            if numbers is not None:
                begun, block = numbers, []
            elif begun is not None and split(text) == ["end"]:
                for now in begun:
                    yield from ((line, in_round(inner, now)) for line, inner in block)
                begun = None
            elif begun is not None:
                block.append((at, text))
            else:
                yield at, text
        except Fault as fault:
            raise Fault(f"line {at}: {fault}") from None
    if begun is not None:
        raise Fault(f"line {len(lines)}: a repeat without its end")


def steps_of(data):
    """What words say: the script's lines, each with the lines that it has to output. What is output before any line stands first, with None."""
    steps, moment = [(None, [])], None
    for at, text in unrolled(data):
        try:
            if text.startswith((" ", "\t")):
                if split(text):
                    steps[-1][1].append(write_answer(text, len(steps) - 1))
            else:
                line, moment = write_line(text, moment)
                steps.append((line, []))
        except Fault as fault:
            raise Fault(f"line {at}: {fault}") from None
    return steps


def write(data):
    """The script that words say."""
    return text_of([line for line, _ in steps_of(data)[1:]], data)


def answers(data):
    """The output that the script has to have that words say."""
    return text_of([line for _, came in steps_of(data) for line in came], b"\n")


def read(data):
    """The words of a script, or of the output of one."""
    lines, moment, words = lines_of(data), None, []
    if all(map(ANSWER.fullmatch, lines)):
        return text_of(["  " + read_answer(line) for line in lines], data)
    for line in lines:
        text, moment = read_line(line, moment)
        words.append(text)
    return text_of(words, data)


def scenario(folder):
    """Writes the script and the expected output that a folder's words say beside them."""
    data = (folder / "words").read_bytes()
    (folder / "script").write_bytes(write(data))
    (folder / "expected").write_bytes(answers(data))


COMMANDS = {"write": write, "answers": answers, "read": read}


def run(words):
    """Does what the words of a command line say, and answers whether they say anything."""
    match words:
        case ["--help" | "-h"]:
            print(__doc__.strip())
        case ["scenario", _, *_]:
            for folder in map(pathlib.Path, words[1:]):
                try:
                    scenario(folder)
                except Fault as fault:
                    raise Fault(f"{folder / 'words'}: {fault}") from None
        case [("write" | "answers" | "read") as name, *files] if len(files) < 2:
            data = pathlib.Path(files[0]).read_bytes() if files else sys.stdin.buffer.read()
            sys.stdout.buffer.write(COMMANDS[name](data))
        case _:
            return False
    return True


def main():
    signal.signal(signal.SIGPIPE, signal.SIG_DFL)
    try:
        if not run(sys.argv[1:]):
            print("\n".join(__doc__.split("\n")[2:6]), file=sys.stderr)
            sys.exit(2)
    except (Fault, OSError) as fault:
        sys.exit(f"script.py: {fault}")


if __name__ == "__main__":
    main()
