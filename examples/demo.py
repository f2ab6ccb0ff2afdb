#!/usr/bin/env python3
"""Shows a script in words, line by line: events on the left, the output of each on the right.

usage: demo.py SCRIPT COMMAND ..

COMMAND reads a script from its standard input and writes its output, as `reqkeyd replay` does. The comments of the script stand above
the lines that follow them. The status is that of COMMAND; 1 where it did not run the script; 2 for a wrong command line.
"""
import pathlib
import signal
import subprocess
import sys
import textwrap

sys.path.insert(0, str(pathlib.Path(__file__).resolve().parent.parent / "tools"))
from script import ANSWER, is_conf, lines_of, read_answer, read_line

LEFT = 46  # the columns of what happens
WHOLE = 100  # the columns of a comment
MARK = "?"
LEGEND = """The first number of a row is that of its line in the script. A second one is the moment in seconds,
until the next one. c1 is client 1, h3 the handler of key 3.
The output of a line stands beside it, with <- before a reply."""
MEANS = {
    "S1": "this line is invalid, and is skipped",
    "S2": "this can't happen now, and is skipped",
    "C1": "it has fewer than five fields",
    "C2": "its program is not an absolute path",
    "C3": "an argument is not a macro",
    "C4": "it has more than 8,192 bytes",
    "C6": "it is not UTF-8, or has a zero byte",
}


class Failed(Exception):
    """The command did not run the script."""


def marked(lines):
    """The copy of a script that is run: a mark stands behind each line. It is none, and its fault tells where the next line begins."""
    return "".join(f"{line}\n{MARK}\n" for line in lines).encode("latin-1")


def run(command, lines, errors=None):
    """What came of each line, and last at the end, as far as the script was run; and the status. `errors` is where the command's standard error goes."""
    ran = subprocess.run(command, input=marked(lines), stdout=subprocess.PIPE, stderr=errors)
    return taken_apart(ran.stdout, lines, ran.returncode), ran.returncode


def by_line(answers):
    """What came of each line, and last at the end, of the lines that a marked script outputs: the faults of marks have even numbers."""
    came = [[]]
    for answer in answers:
        if not ANSWER.fullmatch(answer):
            raise Failed(f"{answer[:80]!r} is no output of a script")
        verb, number, *rest = answer.split(" ")
        if verb == "fault" and int(number) % 2 == 0:
            came.append([])
        elif verb == "fault":
            came[-1].append(f"fault {(int(number) + 1) // 2} {rest[0]}")
        else:
            came[-1].append(answer)
    return came


def taken_apart(output, lines, status):
    """The same of an output, which has to be that of the whole script."""
    came = by_line(lines_of(output))
    refused = any(answer.startswith("conf ") for answer in came[-1])
    if len(came) <= len(lines) and not refused:
        raise Failed(f"it did not come to the end of the script, and its status was {status}")
    return came


def told(answer, lines):
    """The words of what came, and what a code means."""
    words = read_answer(answer)
    verb, number, *rest = words.split(" ")
    if verb == "fault":
        return f"{words}: {MEANS[rest[0]]}"
    if verb == "conf":
        line = [at for at, line in enumerate(lines, 1) if is_conf(line)][int(number) - 1]
        return f"{words}: line {line} of the script is refused, {MEANS[rest[0]]}. Here the run ends"
    return words


def show(number, left, right):
    """The rows of a line: what happens, and beside it what came."""
    row = f"{number:>4}  {left:<{LEFT}}"
    beside = right and len(left) <= LEFT
    print(f"{row}  {right[0]}" if beside else row.rstrip())
    for words in right[1:] if beside else right:
        print(f"{'':{LEFT + 8}}{words}")


def show_all(lines, came):
    """The rows of the lines that were run; comments as text."""
    print(LEGEND)
    moment, before = None, ""
    for number, (line, answers) in enumerate(zip(lines, came), 1):
        words, moment = read_line(line, moment)
        right = [told(answer, lines) for answer in answers]
        if line.startswith("#") and not right:
            text = line[1:].strip().encode("latin-1").decode("utf-8", "replace")
            print(*([] if before.startswith("#") else [""]), textwrap.fill(text, WHOLE), sep="\n")
        elif words or right:
            show(number, words.removeprefix("line "), right)
        before = line
    for answer in came[len(lines)] if len(came) > len(lines) else []:
        show("", "(the end)", [told(answer, lines)])


def main():
    if len(sys.argv) < 3:
        print(__doc__.split("\n")[2], file=sys.stderr)
        sys.exit(2)
    path, *command = sys.argv[1:]
    try:
        lines = lines_of(pathlib.Path(path).read_bytes())
        came, status = run(command, lines)
    except (Failed, OSError) as failed:
        sys.exit(f"demo.py: {' '.join(command)}: {failed}" if isinstance(failed, Failed) else f"demo.py: {failed}")
    # whoever reads may have seen enough
    signal.signal(signal.SIGPIPE, signal.SIG_DFL)
    show_all(lines, came)
    sys.exit(status)


if __name__ == "__main__":
    main()
