#!/usr/bin/env python3
"""Has daemons write records, and asks `reqkeyd rejoin` what they are: whole ones, and ones that were changed, cut, mixed or left out, with their sums as
they were and with new ones."""
import concurrent.futures
import hashlib
import os
import pathlib
import re
import signal
import tempfile
import threading
import time

import protocol_peer as ask
from compiled import library
from daemon import Client, Daemon, ended, until
from programs import Wrong, check_all, ran, same, top

CONF = """create user make:* * |/bin/echo %c
create user fail:* * |/bin/false
negate user fail:* * /bin/true
create user lone:* * /bin/true
"""
LAST = re.compile(r"ok, 4 halls, (\d+) steps: a run of the machine, to its end")
OPEN_END = re.compile(r"ok, .* steps: a run of the machine; later volumes may be missing")
LINE = b"reqkeyd volume 2\n"
# where the parts of a file begin: the mark, the number of the run, the sum of the volume before, the volume of version 1, and in it the steps
MARK, RUN, PREVIOUS, VOLUME = 17, 18, 34, 66
STEPS = VOLUME + 17 + 29


def rejoin(program, files):
    """The status, the lines and the fault of `rejoin`."""
    status, output, errors = ran(program, "rejoin", *files, text=True)
    return status, output.splitlines(), errors.strip()


def accepted(program, files, last=LAST):
    """The lines for files that are a run, of which the last one is so."""
    status, lines, fault = rejoin(program, files)
    if status or fault or not last.fullmatch(lines[-1]):
        raise Wrong(f"{status} {lines} {fault}")
    return lines


def refused(program, files, fault):
    """Ends the case unless these files are refused for this fault, and nothing is printed of them."""
    same(rejoin(program, files), (1, [], f"reqkeyd: {fault}"), f"what is said of {files}")


def volumes(folder):
    return sorted(folder.glob("hall-*"))


def written(path, data):
    """The path of a file with these bytes."""
    path.write_bytes(data)
    return path


def parts(data):
    """The steps of a volume's file, as bytes, after docs/RECORD.md."""
    steps, place = [], STEPS
    while place < len(data) - 32:
        end = place + 8
        for _ in range(2):
            end += 4 + int.from_bytes(data[end:end + 4], "big")
        steps.append(data[place:end])
        place = end
    return steps


def resummed(front):
    """A file with the sum that what stands before it has."""
    return front + hashlib.sha256(front).digest()


def recorded(program, folder, count, asks, *options, **more):
    """The end of a daemon with a record in this folder, after so many clients, one after the other; each asks as the function says, which gets its number and
    the client."""
    with Daemon(program, CONF, "--record", str(folder), "--clients", str(count), *options, **more) as daemon:
        for number in range(count):
            with Client(daemon.path, 1000 + number % 4) as client:
                asks(number, client)
        return daemon.end()


def of_each_kind(number, client):
    client.ask(ask.request(b"user", b"make:%d" % number, b"hello", -4))
    client.ask(ask.request(b"user", b"fail:%d" % number, b"x", -4))
    client.ask(ask.request(b"user", b"lone:%d" % number, b"x", 0))
    client.ask(ask.add(b"user", b"own", b"v" * 2000, -3))
    client.ask(ask.request(b"user", b"none", None, 0))
    client.ask(b"\xff")


def nothing(number, client):
    pass


def nine_thousand(number, client):
    for _ in range(9000):
        client.ask(ask.default(-1))


def whole(program, folder):
    status, lines = recorded(program, folder, 24, of_each_kind)
    same((status, [line for line in lines if "volume" in line]), (0, []))
    files = volumes(folder)
    same([f.name for f in files], [f"hall-{h}-volume-000001" for h in range(4)])
    same([f.stat().st_mode & 0o777 for f in files], [0o600] * 4, "modes")
    runs = set()
    for file in files:
        data = file.read_bytes()
        sealed = data.startswith(LINE), data[MARK], data[PREVIOUS:VOLUME], resummed(data[:-32]) == data
        same(sealed, (True, 1, bytes(32), True), f"the seal of {file.name}")
        runs.add(data[RUN:PREVIOUS])
    same(len(runs), 1, f"how many runs {runs} are")
    for order in (files, files[::-1]):
        same(len(accepted(program, order)), 5)


SUM = "its sum is not that of its bytes, so that it was cut or changed"


def changed(program, folder):
    """A byte of a reply is changed; a file is cut anywhere, or has a byte more, or is there twice."""
    recorded(program, folder, 8, of_each_kind)
    files = volumes(folder)
    data = files[0].read_bytes()
    place = data.index(b"hello", data.index(b"hello") + 5) if data.count(b"hello") > 1 else data.index(b"hello")
    target = written(folder / "changed", resummed(data[:place] + b"j" + data[place + 1:-32]))
    status, lines, fault = rejoin(program, [target, *files[1:]])
    if status != 1 or not re.fullmatch(r"reqkeyd: hall 0, volume 1, step \d+: the machine answers otherwise", fault):
        return f"changed: {status} {lines} {fault}"
    for length in [*range(0, 150), *range(150, len(data), 97), len(data) - 1]:
        refused(program, [written(target, data[:length])], f"{target}: {SUM if length >= 17 else 'it does not begin as a volume of this version'}")
        if 17 <= length < 400:
            status, lines, fault = rejoin(program, [written(target, resummed(data[:length]))])
            if status != 1 or lines or not fault.startswith(f"reqkeyd: {target}: it"):
                return f"cut at {length}, with a new sum: {status} {lines} {fault}"
    refused(program, [written(target, data + b"\0")], f"{target}: {SUM}")
    refused(program, [written(target, resummed(data[:-32] + b"\0"))], f"{target}: bytes are left behind its last step")
    refused(program, [*files, files[2]], "hall 2, volume 1: it is there twice")
    refused(program, [folder / "none"], f"{folder}/none: it can't be read")


def flipped(program, folder):
    """Any bit that is another: also one of a payload that nobody read, of a moment, and of the sum."""
    recorded(program, folder, 8, of_each_kind)
    files = volumes(folder)
    data = files[0].read_bytes()
    unread = data.index(b"v" * 2000)
    target = folder / "flipped"
    for place in (MARK, RUN, PREVIOUS, VOLUME + 10, VOLUME + 17, STEPS, unread + 7, len(data) - 33, len(data) - 1):
        refused(program, [written(target, data[:place] + bytes([data[place] ^ 1]) + data[place + 1:]), *files[1:]], f"{target}: {SUM}")
    # (the machine answers the same where only this payload is another: nothing but the sum tells)
    accepted(program, [written(target, resummed(data[:unread] + b"w" + data[unread + 1:-32])), *files[1:]])


def example():
    """The example of docs/RECORD.md, of which the bytes are written by hand there: a volume of version 1, and what its seal is in version 2."""
    text = (top / "docs" / "RECORD.md").read_text()
    blocks = re.findall(r"```\n(72 65.*?)```", text, re.DOTALL)
    return [bytes.fromhex("".join(line[:54] for line in block.splitlines())) for block in blocks]


def one_step(program, folder):
    """The volumes of docs/RECORD.md, of either version."""
    old, front = example()
    target = folder / "example"
    told = ["hall 0: 1 volumes, 1 steps", "ok, 1 halls, 1 steps: a run of the machine; later volumes may be missing"]
    for data in (old, resummed(front + old)):
        same(accepted(program, [written(target, data)], OPEN_END), told)
    refused(program, [written(target, front + old)], f"{target}: {SUM}")
    for mark in range(1, 256):
        fault = "hall 1: the volume that closes its record is missing" if mark == 1 else f"{target}: its head is cut or bad"
        refused(program, [written(target, resummed(front[:MARK] + bytes([mark]) + front[RUN:] + old))], fault)
    for place, number, fault in ((17, 4, f"{target}: its head is cut or bad"), (29, 2, "hall 0, volume 1: it is missing"),
                                 (29, 0, "hall 0, volume 0: volumes are counted from 1")):
        other = old[:place] + bytes([number]) + old[place + 1:]
        for data in (other, resummed(front + other)):
            refused(program, [written(target, data)], fault)


def row(kind, number, rest):
    """A row with its length before it, after docs/RECORD.md, of which *how* is 0."""
    return (6 + len(rest)).to_bytes(4, "big") + bytes([kind, 0]) + number.to_bytes(4, "big") + rest


def spells_nothing(program, folder):
    """Steps of which a part is no message: what a client asks, what it is answered, and the names of what a handler is started for. The file's sum is right,
    so the step is bad; it is not memory that is lacking."""
    old, front = example()
    opened, done, bad = row(1, 1, b""), row(1, 0, bytes(5)), b"\xff"
    subject = (12).to_bytes(4, "big") + bytes(20) + bad
    for name, step in [("asked", row(2, 1, bad) + done), ("replied", opened + row(1, 0, bad)), ("started", opened + row(2, 12, subject))]:
        target = written(folder / name, resummed(front + old[:STEPS - VOLUME + 8] + step))
        refused(program, [target], f"{target}: its step 1 is cut or bad")


def runs(program, folder):
    """Volumes of two runs, which begin alike: one of the other run, one of version 1 among those in seals, and the number of the run changed."""
    for name in ("one", "two"):
        (folder / name).mkdir()
        recorded(program, folder / name, 8, of_each_kind)
    files, others = volumes(folder / "one"), volumes(folder / "two")
    # (a record of version 1 can't tell)
    old = [written(folder / f"old-{at}", file.read_bytes()[VOLUME:-32]) for at, file in enumerate(files + others)]
    for instead in (others[1], old[1]):
        refused(program, [files[0], instead, *files[2:]], "hall 1, volume 1: it is of another run than the first volume")
    accepted(program, [old[at] for at in (0, 5, 2, 3)], OPEN_END)


def chained(program, folder):
    """More volumes than one: one is of the run, with steps exchanged or left out that change nothing, and with its own sum; the last ones are left out; and a
    volume stands behind one that closes the record."""
    recorded(program, folder, 1, lambda _, client: [client.ask(ask.request(b"user", b"none:%d" % (number % 2), None, 0)) for number in range(17000)])
    files = volumes(folder)
    same(len(files), 6)
    accepted(program, files)
    first, second, third = (file.read_bytes() for file in files[:3])
    same((second[PREVIOUS:VOLUME], third[PREVIOUS:VOLUME], second[MARK]), (first[-32:], second[-32:], 0), "links")
    steps = parts(second)
    same(int.from_bytes(second[STEPS - 8:STEPS], "big"), len(steps))
    target = folder / "second"
    for body in (steps[:10] + [steps[11], steps[10]] + steps[12:], steps[:10] + [steps[11]] + steps[11:]):
        written(target, resummed(second[:STEPS] + b"".join(body)))
        refused(program, [files[0], target, *files[2:]], "hall 0, volume 3: the volume before it is another than it says")
    written(target, resummed(second[:MARK] + b"\1" + second[RUN:-32]))
    refused(program, [files[0], target, *files[2:]], "hall 0, volume 3: the record was closed before it")
    for left, fault in ((files[:2] + files[3:], "hall 0: the volume that closes its record is missing"),
                        (files[3:], "hall 0: the volume that closes its record is missing"),
                        (files[:5], "hall 3: the volume that closes its record is missing"),
                        (files[:1] + files[2:], "hall 0, volume 2: it is missing")):
        refused(program, left, fault)
    accepted(program, files[:2], OPEN_END)


def at_once(program, folder):
    """Four clients at a time fill the volumes of one hall, so that several workers hand them out: each has the sum of the one before it. Workers that find
    the same volume full hand out one: 32,812 steps are four full volumes and one more."""
    def ask_much(_):
        with Client(daemon.path, 1000) as client:
            for _ in range(8200):
                client.ask(ask.default(-1))

    with Daemon(program, CONF, "--record", str(folder), "--clients", "4") as daemon:
        with concurrent.futures.ThreadPoolExecutor(4) as pool:
            list(pool.map(ask_much, range(4)))
        daemon.end()
    files = volumes(folder)
    same((accepted(program, files)[0].split(",")[0], sum(file.name.startswith("hall-0-") for file in files)), ("hall 0: 5 volumes", 5))


class Asker:
    """A client of hall 0 that asks more than a volume has places, and counts the replies."""

    def __init__(self, path):
        self.replies = 0
        self.thread = threading.Thread(target=self.asks, args=(path,), daemon=True)
        self.thread.start()

    def asks(self, path):
        with Client(path, 1000) as client:
            for _ in range(8300):
                client.ask(ask.default(-1))
                self.replies += 1

    def stands(self):
        """Whether it has filled a volume, and no reply comes for a moment."""
        before = self.replies
        time.sleep(0.1)
        return before == self.replies > 8000


def waits(program, folder):
    """A volume is full while the one before it is being written: its worker waits, and is woken once that one is done."""
    gate, record = folder / "gate", folder / "record"
    os.mkfifo(gate)
    record.mkdir()
    holding = {"LD_PRELOAD": library("holding_link"), "GATE": str(gate)}
    with Daemon(program, CONF, "--record", str(record), "--clients", "2", environment=holding) as daemon:
        first = Asker(daemon.path)
        held = os.open(gate, os.O_WRONLY)
        second = Asker(daemon.path)
        until(second.stands, "a second volume that is full")
        same(volumes(record), [])
        os.close(held)
        for asker in (first, second):
            ended(asker.thread, "the replies")
        daemon.end()
    same([first.replies, second.replies], [8300, 8300])
    accepted(program, volumes(record))


def many(program, folder, hall):
    """More volumes than one: a second one, and the first left out."""
    with Daemon(program, CONF, "--record", str(folder), "--clients", "1") as daemon:
        with Client(daemon.path, 1000 + hall) as client:
            nine_thousand(0, client)
        daemon.end()
    files = volumes(folder)
    first, second = (folder / f"hall-{hall}-volume-00000{number}" for number in (1, 2))
    same(second in files, True)
    for order in (files, files[::-1]):
        same(accepted(program, order)[hall].split(",")[0], f"hall {hall}: 2 volumes")
    refused(program, [file for file in files if file != first], f"hall {hall}, volume 1: it is missing")


def negative(program, folder):
    """With another negative time, which the record tells: a key that was not made is started again at once, and the machine answers the same."""
    recorded(program, folder, 4, lambda _, client: client.ask(*[ask.request(b"user", b"lone:1", b"x", -4)] * 3), "--negative", "0")
    # a client comes, says HELLO and goes; each request is a start, a launch, an end and a collect. Those of other halls come to hall 0 first, and go
    wanted = [f"hall {hall}: 1 volumes, {15 + 6 * (hall == 0)} steps" for hall in range(4)] + ["ok, 4 halls, 66 steps: a run of the machine, to its end"]
    same(accepted(program, volumes(folder)), wanted)


def starts(program, folder):
    """A folder that is not there, one that is free, one with a volume, and one with the part of a volume, of a daemon that was killed."""
    none = folder / "none"
    with Daemon(program, CONF, "--record", str(none), "--clients", "1", ready=False) as daemon:
        same(daemon.end(), (1, ["reqkeyd: record", f"  {none}: No such file or directory"]))
    recorded(program, folder, 1, nothing)
    used = [volumes(folder)[0].name, ".hall-2-volume-000001.part"]
    for file in volumes(folder):
        file.unlink()
    for name in used:
        left = written(folder / name, b"what was left")
        with Daemon(program, CONF, "--record", str(folder), "--clients", "1", ready=False) as daemon:
            same(daemon.end(), (1, ["reqkeyd: record", f"  {folder}: it has files of a record"]), name)
        left.unlink()


def killed(program, folder):
    """A signal ends the daemon: what was written is good."""
    with Daemon(program, CONF, "--record", str(folder)) as daemon:
        with Client(daemon.path, 1000) as client:
            nine_thousand(0, client)
        daemon.process.send_signal(signal.SIGTERM)
        daemon.process.wait()
    # a place of the volume is kept for the end of the client, which did not come
    same(accepted(program, volumes(folder), OPEN_END)[-1], "ok, 1 halls, 8191 steps: a run of the machine; later volumes may be missing")


def full(program, folder):
    """No file may be longer than some bytes, as where a disk is full: the daemon goes on, and the volume is missing."""
    status, lines = recorded(program, folder, 1, nine_thousand, longest=40000)
    same((status, any("volume 0 1" in line for line in lines)), (0, True), f"{lines}")
    same([name for name in os.listdir(folder) if name == "hall-0-volume-000001" or name.endswith(".part")], [])
    refused(program, volumes(folder), "hall 0, volume 1: it is missing")


def replaces_none(program, folder):
    """Files under the names of a volume have come to stand there: they stay as they are, the volume is reported, and the others are written."""
    others = [folder / "hall-0-volume-000001", folder / ".hall-2-volume-000001.part"]
    status, lines = recorded(program, folder, 1, lambda *_: [written(other, b"another daemon's") for other in others])
    told = sorted(line[line.index("volume"):].partition(":")[0] for line in lines)
    names = [f.name for f in volumes(folder)]
    same((status, told, names), (0, ["volume 0 1", "volume 2 1"], [others[0].name, "hall-1-volume-000001", "hall-3-volume-000001"]))
    same([other.read_text() for other in others], ["another daemon's"] * 2)


CASES = [("a whole record is a run", whole), ("changed, cut, longer and doubled files are refused", changed), ("any bit that is another is seen", flipped),
         ("the examples of the format", one_step), ("messages that spell nothing", spells_nothing),
         ("volumes of two runs", runs), ("volumes are chained", chained), ("several clients at once", at_once),
         ("a volume waits for the one before it", waits),
         ("a second volume of hall 0", many, 0), ("a second volume of another hall", many, 1), ("another negative time", negative),
         ("folders that are missing or have volumes", starts), ("a signal leaves whole volumes", killed),
         ("a full disk costs its volume alone", full), ("no file is replaced", replaces_none)]


def in_a_folder(program, try_it, *more):
    with tempfile.TemporaryDirectory() as folder:
        return try_it(program, pathlib.Path(folder), *more)


check_all([(name, in_a_folder, *case) for name, *case in CASES])
