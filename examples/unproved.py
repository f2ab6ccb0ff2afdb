#!/usr/bin/env python3
"""Shows what demo.py and serve.py show, by a reqkeyd that is neither proved nor built yet: `rt try` builds it once and runs both.

usage: unproved.py SCRIPT LOG

LOG is the file for what `rt try` says. The status is 0 if all is as is shown there, 1 if not, 2 for a usage error.
"""
import contextlib
import io
import pathlib
import subprocess
import sys
import tempfile
import threading

import demo
import serve
from script import lines_of

top = pathlib.Path(__file__).resolve().parent.parent
EACH = 10  # seconds between two lines that say how long it takes
SCRIPT, DAEMON = "1-script", "2-daemon"


def put_case(folder, name, given, words):
    """A case of `rt try`: the bytes of its standard input, and its words."""
    (folder / name).write_bytes(given)
    (folder / f"{name}.args").write_text("".join(f"{word}\n" for word in words))


def tell(ended, output):
    """Says there again and again how many seconds have passed, until it has ended."""
    seconds = 0
    while not ended.wait(EACH):
        seconds += EACH
        print(f"  {seconds} seconds", file=output, flush=True)


def talked(tried, room):
    """What serve.py shows of the daemon that `rt try` starts behind the script. It is shown later: the script comes first."""
    ended, text = threading.Event(), io.StringIO()
    teller = threading.Thread(target=tell, args=(ended, sys.stdout))
    teller.start()
    try:
        with contextlib.redirect_stdout(text):
            serve.show_all(tried, room)
    finally:
        ended.set()
        teller.join()
    return text.getvalue()


def run(script, log, room):
    """Builds the program, runs both cases, and shows them."""
    lines = lines_of(script.read_bytes())
    cases, output = room / "cases", room / "output"
    cases.mkdir()
    put_case(cases, SCRIPT, demo.marked(lines), ["replay"])
    put_case(cases, DAEMON, b"", serve.words_in(room))
    with output.open("wb") as out, log.open("wb") as errors:
        tried = subprocess.Popen(["rt", "try", "--cases", cases], cwd=top / "crates" / "reqkeyd", stdin=subprocess.DEVNULL, stdout=out, stderr=errors)
    try:
        served = talked(tried, room)
    finally:
        tried.terminate()
        tried.wait()
    played = output.read_bytes().partition(f"== {SCRIPT}\n".encode())[2].partition(f"== {DAEMON}\n".encode())[0]
    print()
    demo.show_all(lines, demo.taken_apart(played, lines, tried.returncode))
    print(f"\n{served}", end="")


def main():
    if len(sys.argv) != 3:
        print(__doc__.split("\n")[2], file=sys.stderr)
        return 2
    script, log = map(pathlib.Path, sys.argv[1:])
    print(f"Building reqkeyd before its proofs, once for both parts: a minute or more ({log}). `make` proves and builds it first.", flush=True)
    with tempfile.TemporaryDirectory(prefix="reqkeyd-") as folder:
        try:
            run(script, log, pathlib.Path(folder))
        except (demo.Failed, serve.Failed, OSError) as failed:
            print(f"unproved.py: {failed} ({log})", file=sys.stderr)
            return 1
    return 0


if __name__ == "__main__":
    sys.exit(main())
