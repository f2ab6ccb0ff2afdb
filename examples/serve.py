#!/usr/bin/env python3
"""Starts the daemon, has its handlers make two keys, and shows the requests of a client and a handler, and their replies.

usage: serve.py COMMAND ..

COMMAND is reqkeyd, perhaps with words before its own. The status is 0 if all replies are those shown here, 1 if not, 2 for a usage error.
"""
import pathlib
import socket
import subprocess
import sys
import tempfile
import time

top = pathlib.Path(__file__).resolve().parent.parent
sys.path.insert(0, str(top / "tools"))
from messages import bodies, frame, read_reply, write_ask

CONF = """create  user  debug:*  *  |/bin/cat
create  user  mail:*   *  ../examples/handler.py %k %d told
"""
PATIENCE = 600  # seconds, since the program may have to be compiled before (unproved.py)

# What is done, in words; what the client then asks; and what it has to be answered.
SHOWN = [
    ("A client connects, and says who it is: user 1000. Its session ring is 4, and the user's ring is 8.", "HELLO 1000 1000 0 0", "rings 0 0 4 8"),
    ("It requests a key with the callout `hello`. There is none, so /bin/cat makes it: it reads\nthe callout, and outputs the payload. The key is 12, "
     "linked in the user's ring (-4).", "REQUEST user debug:a =hello -4", "12"),
    ("", "READ 12", "bytes hello"),
    ("An existing key is found, and nothing is started.", "REQUEST user debug:a =again 0", "12"),
    ("This key is made by examples/handler.py, which speaks the protocol itself.", "REQUEST user mail:joe =letter 0", "16"),
    ("", "READ 16", "bytes mail:joe:letter"),
    ("No line is for this key.", "REQUEST user other =x 0", "ENOKEY (126)"),
]


class Failed(Exception):
    """The daemon did not do as is shown here."""


def words_in(room):
    """The words of a daemon for one client, with this folder for its files, where its configuration is written."""
    (room / "conf").write_text(CONF.replace("..", str(top), 1).replace(" told", f" {room}/told"))
    return ["serve", "--socket", str(room / "socket"), "--conf", str(room / "conf"), "--clients", "1"]


def started(command, room):
    """The daemon, with this folder for its files."""
    with (room / "errors").open("w") as errors:
        return subprocess.Popen([*command, *words_in(room)], stdin=subprocess.DEVNULL, stdout=subprocess.DEVNULL, stderr=errors)


def connected(daemon, path):
    """A connection to the daemon, as soon as it answers."""
    client = socket.socket(socket.AF_UNIX)
    end = time.monotonic() + PATIENCE
    while time.monotonic() < end and daemon.poll() is None:
        try:
            client.connect(str(path))
            return client
        except OSError:
            time.sleep(0.02)
    raise Failed("the daemon did not start")


def ask(stream, words):
    """The reply to an ask, in words."""
    stream.write(frame(write_ask(words.split(" "))))
    stream.flush()
    head = stream.read(4)
    body = stream.read(int.from_bytes(head, "big"))
    if len(head) < 4 or not body:
        raise Failed("the daemon has closed the connection")
    return read_reply(bodies(head + body)[0])


def show(stream, told):
    """Each step, beside what came of it, and below it what a handler has told."""
    for text, words, want in SHOWN:
        reply = ask(stream, words)
        print(f"\n{text}" if text else "", end="\n" if text else "")
        print(f"   c1  {words:<46}  c1 <- {reply}")
        if told.exists():
            for line in told.read_text().splitlines():
                said, answered = line.split("\t")
                print(f"       its handler: {said:<36}  h{reply} <- {answered}")
            told.unlink()
        if reply != want:
            raise Failed(f"the reply is {reply}, not {want}")


def run(command, room):
    """Starts the daemon, shows what it does, and waits for its end."""
    daemon = started(command, room)
    try:
        show_all(daemon, room)
    except Failed as failed:
        raise Failed(f"{failed}\n{(room / 'errors').read_text()}".rstrip()) from None
    finally:
        daemon.kill()
        daemon.wait()


def show_all(daemon, room):
    """Shows what a daemon in this folder does that was started, and waits for its end."""
    with connected(daemon, room / "socket") as client, client.makefile("rwb") as stream:
        print(f"The configuration of the daemon:\n\n{CONF}")
        show(stream, room / "told")
    if daemon.wait(PATIENCE) != 0:
        raise Failed(f"the daemon ended with status {daemon.returncode}")
    print("\nThe client has disconnected. The daemon was started for one client, and ends.")


def main():
    if len(sys.argv) < 2:
        print(__doc__.split("\n")[2], file=sys.stderr)
        return 2
    with tempfile.TemporaryDirectory(prefix="reqkeyd-") as folder:
        try:
            run(sys.argv[1:], pathlib.Path(folder))
        except (Failed, OSError) as failed:
            print(f"serve.py: {failed}", file=sys.stderr)
            return 1
    return 0


if __name__ == "__main__":
    sys.exit(main())
