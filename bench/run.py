#!/usr/bin/env python3
"""Measures the programs beside their peers in C, in turn in one run, prints the ratios beside those to be reached, and draws them.

usage: run.py [--lines N] [--runs N] [--instructions N] [--asks N] [--only WORDS] [--folder FOLDER] WHAT ..

asks     what each ask over `reqkeyd serve` takes in instructions, and what bench/c/echo.c takes for the same frames; a start of a program, beside
         that of bench/c/spawn.c
replay   `reqkeyd replay` and bench/c/replay.c on the scripts of loads.py, whose outputs have to be equal byte by byte
steps    the same two: what a step costs in instructions and in time, by the number of keys, less what a line takes by itself; and steps of
         bench/c/book.c, which reads no script
memory   what both take for each key; and what `reqkeyd serve` and bench/c/echo.c have in memory at rest and after asks
profile  where `reqkeyd replay` spends its instructions on those scripts
hall     what a call costs behind a lock: `hall_bench` and bench/c/hall.c
spawn    starts of programs: `spawn_bench` and bench/c/spawn.c
serve    `reqkeyd serve` and bench/c/echo.c, both driven by bench/c/load.c over a socket; and, where they are installed, other services that look up
         one thing: redis-server, ssh-agent, the kernel's own keys, and the library of clients/keyutils
pictures measures nothing: draws the tables of bench/README.md, in FOLDER/readme/

Where the project's program is not built, the peer is measured alone. What is measured is drawn in FOLDER/WHAT.svg, of the printed tables (build/bench/).

Times are processor times, the least of so many runs; what a script sets up before its measured lines is run alone and taken off. Instructions are
those that callgrind counts, which no other work on the machine disturbs, over N lines or asks (2,000; 0 for none).
"""
import argparse
import contextlib
import os
import pathlib
import re
import statistics
import subprocess
import sys
import tempfile

import bounds
import costs
import figures
import loads
from others import others_of
from serving import CONNECTIONS, Server, Wrong, built, peer, top
from traced import GaveUp

RATTLE, C = "Rattle", "C"


# ---- one run


def run(words, script=b"", kept=None):
    """Runs a program on a script: its processor time in seconds, its peak memory in KiB, and the bytes that it wrote, to the file `kept` if there is one."""
    with tempfile.TemporaryFile() as reads, open(kept, "wb") if kept else tempfile.TemporaryFile() as writes:
        reads.write(script)
        reads.seek(0)
        ran = subprocess.run([peer("measure"), *words], stdin=reads, stdout=writes, stderr=subprocess.PIPE)
        size = os.fstat(writes.fileno()).st_size
    if ran.returncode:
        raise Wrong(f"{words[0]}: status {ran.returncode}: {ran.stderr.decode(errors='replace')[-400:]}")
    user, system, peak = map(int, ran.stderr.split())
    return (user + system) / 1e6, peak, size


def instructions(words, script, kept=os.devnull):
    """How many instructions it takes, by callgrind, whose file may be kept."""
    tool = ["valgrind", "--tool=callgrind", f"--callgrind-out-file={kept}", *map(str, words)]
    environment = {**os.environ, "FIXED_SEED": "1"}
    ran = subprocess.run(tool, input=script, stdout=subprocess.DEVNULL, stderr=subprocess.PIPE, env=environment)
    found = re.search(rb"Collected : (\d+)", ran.stderr)
    if not found:
        raise Wrong(f"callgrind: {ran.stderr.decode(errors='replace')[-400:]}")
    return int(found[1])


# ---- asks


def counted_asks(programs, ask, count):
    """For each server the instructions of one of these asks. The peer that starts programs is another one."""
    kinds = {RATTLE: costs.Daemon, C: costs.Echo}
    found = {who: costs.cost(kinds[who](path), ask, count) for who, path in programs.items() if who == RATTLE or not isinstance(ask, costs.Start)}
    return {C: costs.cost_of_start(peer("spawn"), count), **found} if isinstance(ask, costs.Start) else found


def counted_lock(program):
    return costs.locked(program)


def asks(options):
    """The echo has one reply for all frames, so what it takes is the reading of these and the writing of that."""
    if not options.instructions:
        raise Wrong("asks: --instructions 0 leaves nothing to be counted")
    programs = both("echo", "reqkeyd", [])
    print(f"Instructions of an ask, by callgrind: those of {2 * options.instructions:,} less those of {options.instructions:,}\n")
    table("ask", "instructions Rattle", "C", "ratio", "at most")
    for ask in costs.ASKS:
        if options.only and options.only not in ask.name:
            continue
        steps = counted_asks({who: words[0] for who, words in programs.items()}, ask, options.instructions)
        row([ask.name, *pair(steps, "{:,.0f}"), ratio(steps), f"{bounds.MOST[ask.name]:,}" if ask.name in bounds.MOST else "-"])
        if ask == costs.FOUND and RATTLE in programs:
            row([costs.LOCKED, f"{counted_lock(programs[RATTLE][0]):,}", "-", "-", "-"])


# ---- replay


def outputs_are_equal(programs, script):
    with tempfile.TemporaryDirectory() as folder:
        files = [pathlib.Path(folder) / name for name in programs]
        for words, kept in zip(programs.values(), files):
            run(words, script, kept)
        first = files[0].read_bytes()
        return all(first == file.read_bytes() for file in files[1:]), len(first)


ENOUGH, LONG = 4, 20  # so many seconds a load is run at least, where it is short, and at most
MOST = 40  # runs of a short one


def measure(programs, before, whole, runs):
    """For each program the least time of the measured lines, its peak memory, and the least time of a run. The first is the time of a run less that of its
    set-up. Beside a long set-up it may come out as zero or less; whoever prints it leaves it out then."""
    alone, both, memory = ({name: [] for name in programs} for _ in range(3))
    for at in range(MOST):
        spent = sum(sum(times) for times in [*alone.values(), *both.values()])
        if spent > (LONG if at < runs else ENOUGH):
            break
        for name, words in programs.items():
            alone[name].append(run(words, before)[0])
            took, peak, _ = run(words, whole)
            both[name].append(took)
            memory[name].append(peak)
    return {name: (min(both[name]) - min(alone[name]), min(memory[name]), min(both[name])) for name in programs}


def counted(programs, load, lines):
    """For each program the instructions of a line."""
    before, after = load(lines)
    start, whole = loads.text(before), loads.text(before, after)
    return {name: (instructions(words, whole) - instructions(words, start)) / len(after) for name, words in programs.items()}


def row(cells):
    print("| " + " | ".join(cells) + " |", flush=True)


def table(*heads):
    row(heads)
    row(["---"] * len(heads))


def pair(values, form):
    """Rattle's and C's, in cells of this form."""
    return [form.format(values[who]) if who in values else "-" for who in (RATTLE, C)]


def ratio(values):
    return f"{values[RATTLE] / values[C]:.2f}" if len(values) == 2 else "-"


def with_ours(found, make):
    """These and the project's program, if it is there."""
    try:
        found[RATTLE] = make()
    except Wrong as wrong:
        print(f"{wrong}; only C is measured\n")
    return found


def both(name, ours, more):
    """The words of the peer, and those of the project's program."""
    return with_ours({C: [peer(name), *more]}, lambda: [built(ours), *more])


def players():
    """What plays a script."""
    return both("replay", "reqkeyd", ["replay"])


def printed(words):
    """The lines that a program prints."""
    ran = subprocess.run([str(word) for word in words], stdout=subprocess.PIPE, text=True)
    if ran.returncode:
        raise Wrong(f"{words[0]}: status {ran.returncode}")
    return ran.stdout.splitlines()


def replay(options):
    programs = players()
    print(f"Ratios are Rattle's to C's, to be {figures.LINE} in each row; lines a second of hits at least 1,000,000.\n")
    columns = ["lines/s Rattle", "C", "time", "instructions/line Rattle", "C", "instructions", "peak KiB Rattle", "C", "script + output KiB"]
    table("load", "lines", *columns)
    hits = [("hits, ten times the lines", loads.hits, 0.1)] if options.lines >= 1000 else []
    for name, load, fewer in [loads.LOADS[0], *hits, *loads.LOADS[1:]]:
        if options.only and options.only not in name:
            continue
        before, after = load(int(options.lines / fewer))
        start, whole = loads.text(before), loads.text(before, after)
        equal, size = outputs_are_equal(programs, whole)
        if not equal:
            raise Wrong(f"{name}: the outputs differ")
        took = measure(programs, start, whole, options.runs)
        # callgrind takes some fifty times as long
        heavy = any(whole_time > 1 for _, _, whole_time in took.values())
        steps = {} if heavy or not options.instructions else counted(programs, load, options.instructions)
        show(name, len(after), took, steps, (len(whole) + size) // 1024)


def show(name, lines, took, steps, size):
    times = {who: time for who, (time, _, _) in took.items() if time > 0}
    speeds = pair({who: lines / time for who, time in times.items()}, "{:,.0f}")
    peaks = pair({who: peak for who, (_, peak, _) in took.items()}, "{:,}")
    row([name, f"{lines:,}", *speeds, ratio(times), *pair(steps, "{:,.0f}"), ratio(steps), *peaks, f"{size:,}"])


# ---- book

STEP = re.compile(r"(?P<of>[0-9]+ keys(?: of [0-9]+ users)?), (?P<step>.*): (?P<nanos>[0-9.]+) ns")


def steps_of(words, runs):
    """By step and by what is in the book, the least time."""
    found = {}
    for _ in range(runs):
        for line in printed(words):
            told = STEP.fullmatch(line)
            if not told:
                raise Wrong(f"{words[0]} says {line!r}")
            times = found.setdefault(told["step"], {})
            times[told["of"]] = min(float(told["nanos"]), times.get(told["of"], float("inf")))
    return found


SIZES = ["200", "10000", "200000"]


OTHERS = [0, 49, 999]  # users beside the one that asks, by the sizes above


def by_step(count, take):
    """By program, by step and by what is there: what so many lines take, which `take` says of programs and of what a load sets up and measures, less what
    lines take that are refused at once."""
    programs, found = players(), {}
    for others, size in zip(OTHERS, SIZES):
        by_load = {name: take(programs, *load(count, others)) for name, load in [("", loads.refusals), *loads.STEPS]}
        for who in programs:
            for name, _ in loads.STEPS:
                found.setdefault(who, {}).setdefault(name, {})[size] = by_load[name][who] - by_load[""][who]
    return found


def played(options):
    """By step, the nanoseconds of a line."""

    def take(programs, before, after):
        took = measure(programs, loads.text(before), loads.text(before, after), options.runs)
        return {who: time / len(after) * 1e9 for who, (time, _, _) in took.items()}

    return by_step(options.lines, take)


def stepped(options):
    """By step, the instructions of a line: what is set up is the same."""

    def take(programs, *parts):
        return {who: instructions(words, loads.text(*parts)) / options.instructions for who, words in programs.items()}

    return by_step(options.instructions, take)


def steps(options):
    if options.instructions:
        tell_steps(stepped(options), "Instructions in scripts, 199 keys of each user", "instructions")
    tell_steps(played(options), "In scripts, 199 keys of each user")
    for title, more in [("200 keys of each user", []), ("the keys spread over 1,000 users", ["--users", "1000"])]:
        tell_steps({C: steps_of([peer("book"), *more, *SIZES], options.runs)}, f"Without scripts, {title}")


def growth(time, first):
    """A step's time, and how many times the first it is; `-` if either came out as zero or less."""
    return f"{time:,.0f} ({time / first:.2f})" if min(time, first) > 0 else "-"


def tell_steps(found, title, unit="ns"):
    print(f"\n{title}: {unit} a step, and how many times that with 200 keys, which is to be {figures.GROWTH}\n")
    table("step", "program", *[f"{int(size):,} keys" for size in SIZES])
    for step in found[C]:
        for who, steps in found.items():
            if step in steps:
                times = list(steps[step].values())
                row([step, who, *[growth(time, times[0]) for time in times]])


# ---- memory


def memory(options):
    print(f"Peak memory with 200,000 keys less that with 200, for each key, to be {figures.KEY} bytes; names of 6 to 8 bytes and payloads of 1 are in it\n")
    programs = players()
    table("program", "KiB with 200", "KiB with 200,000", "bytes a key")
    scripts = [loads.text(*loads.refusals(1, others)) for others in (OTHERS[0], OTHERS[-1])]
    for who, words in programs.items():
        few, many = (run(words, script)[1] - len(script) // 1024 for script in scripts)
        row([who, f"{few:,}", f"{many:,}", f"{(many - few) * 1024 / (199 * OTHERS[-1]):,.0f}"])
    print(f"\nResident memory of the servers, each with 64 workers; at rest, the median of {SERVER_STARTS} starts\n")
    table("program", "KiB at rest", *[head for head, *_ in AFTER])
    with tempfile.TemporaryDirectory() as name:
        found = servers(pathlib.Path(name))
        try:
            if RATTLE in found:
                found[f"{RATTLE}, one memory pool"] = daemon(pathlib.Path(name), "pooled", "env", "MALLOC_ARENA_MAX=1")
            for who, server in found.items():
                row([who, f"{at_rest(server):,}", *[f"{resident_after(server, *load):,}" for _, *load in AFTER]])
        finally:
            end_all(found)


# so often a server is started to see what it has in memory at rest
SERVER_STARTS = 9
# after which loads memory is looked at: a head, and so many connections and asks
AFTER = [("after 128,000 asks of 64 connections", 64, 128_000), ("after 1,000,000 more of 8", 8, 1_000_000)]


def at_rest(server):
    """The median of the KiB of several starts: with a page come those beside it, so it depends on where Linux places the C library."""
    found = [server.resident_at_rest()]
    for _ in range(1, SERVER_STARTS):
        server.restart()
        found.append(server.resident_at_rest())
    return statistics.median(found)


def resident_after(server, connections, asks):
    """The KiB after a load."""
    subprocess.run([peer("load"), server.path, str(connections), str(asks)], stdout=subprocess.DEVNULL, check=True)
    return server.resident()


# ---- profile

FUNCTION = re.compile(r" *[0-9,]+ \( *(?P<share>[0-9.]+)%\) +[^ ]*?:(?P<name>.*?)(?: \[.*\])?")


def profile(options):
    """The functions that take most, by load, with what a script sets up in it."""
    print(f"Shares of instructions, {options.instructions:,} lines of each load\n")
    table("load", "functions")
    for name, load, _ in loads.LOADS:
        if options.only and options.only not in name:
            continue
        before, after = load(options.instructions)
        if len(before) <= 10_000:
            row([name, ", ".join(f"`{function}` {share}%" for function, share in shares(loads.text(before, after)))])


def shares(script):
    """The six functions that take most of a script's instructions, each with its share."""
    with tempfile.TemporaryDirectory() as folder:
        instructions([built("reqkeyd"), "replay"], script, f"{folder}/out")
        told = subprocess.run(["callgrind_annotate", f"{folder}/out"], stdout=subprocess.PIPE, text=True).stdout
    found = [FUNCTION.fullmatch(line) for line in told.splitlines()]
    return [(it["name"], it["share"]) for it in found if it and float(it["share"]) < 100][:6]


# ---- what prints its rates itself

RATE = re.compile(r"(?P<of>[^:]*): (?:.* )?(?P<rate>[0-9]+) (?:starts|calls|asks)/s(?P<more>.*)")


def rounds(programs, runs):
    """For each line that the programs print, the rate of each and what it said behind it, in each of so many rounds. In a round they run in turn."""
    found = {}
    for _ in range(runs):
        for who, words in programs.items():
            for line in printed(words):
                told = RATE.fullmatch(line)
                found.setdefault(told["of"], {}).setdefault(who, []).append((int(told["rate"]), told["more"]))
    return found


def rates(programs, runs):
    """The greatest rate of each in these rounds."""
    return {of: {who: max(told) for who, told in by.items()} for of, by in rounds(programs, runs).items()}


def to_peer(told, peers):
    """The median of the rounds' ratios: what else a machine does weighs on both programs of a round."""
    return statistics.median(rate / peers_rate for (rate, _), (peers_rate, _) in zip(told, peers))


def hall(options):
    """What a call takes, as its thread sees it, with the time in which it waits for the lock."""
    table("of", "ns a call Rattle", "C", "calls/s Rattle", "C", "ratio")
    for of, best in rates(both("hall", "hall_bench", []), options.runs).items():
        counts = {who: rate for who, (rate, _) in best.items()}
        threads = re.search(r"([0-9]+) threads?$", of)
        nanos = {who: int(threads[1] if threads else 1) * 1e9 / rate for who, rate in counts.items()}
        row([of, *pair(nanos, "{:,.0f}"), *pair(counts, "{:,}"), ratio(counts)])


# what a service has in its environment, of which each program that it starts gets a copy: systemd.exec(5), "ENVIRONMENT VARIABLES IN SPAWNED PROCESSES"
ENVIRONMENT = ["PATH=/usr/local/sbin:/usr/local/bin:/usr/sbin:/usr/bin", "LANG=C.UTF-8", "INVOCATION_ID=" + 32 * "0", "JOURNAL_STREAM=8:10000",
    "SYSTEMD_EXEC_PID=1000"]


def spawn(options):
    """Both programs start others from the environment of a service."""
    for more in [], ["--resident", "256"]:
        print(f"\nStarts a second, Rattle's to C's to be {figures.STARTS}\n")
        table("of", "starts/s Rattle", "C", "ratio")
        programs = {who: ["env", "-i", *ENVIRONMENT, *words] for who, words in both("spawn", "spawn_bench", more).items()}
        for of, by in rounds(programs, options.runs).items():
            counts = {who: statistics.median_low(told)[0] for who, told in by.items()}
            row([of, *pair(counts, "{:,}"), f"{to_peer(by[RATTLE], by[C]):.2f}" if RATTLE in by else "-"])


# ---- serve

CONF = "create user made:* * |/bin/cat\n"
USERS = "8, of eight users"
TOGETHER = "1, 50 in one write"
# for so many nanoseconds the peer works for each ask, to see what an ask may take
WORK = ["500", "1000", "2000", "3000"]


def daemon(folder, name, *before):
    """The project's server, whose words may stand behind those of another program, as env(1)."""
    conf, path = folder / "conf", folder / name
    conf.write_text(CONF)
    return Server([*before, built("reqkeyd"), "serve", "--socket", path, "--conf", conf, "--sessions", 64], path)


def servers(folder):
    """Both servers, or the peer alone."""
    return with_ours({C: Server([peer("echo"), folder / "echo", 64], folder / "echo")}, lambda: daemon(folder, "reqkeyd", "env", "-i", *ENVIRONMENT))


def serve(options):
    with tempfile.TemporaryDirectory() as name:
        found = servers(pathlib.Path(name))
        with contextlib.ExitStack() as ends:
            ends.callback(end_all, found)
            others = others_of(pathlib.Path(name), found.get(RATTLE), ends)
            print(f"Asks a second for a key that is there, Rattle's to C's to be {figures.ASKS}\n")
            drive(found, others, options)
            if RATTLE in found:
                print(f"\nKeys made by /bin/cat, beside as many starts at a time by the peer of `spawn`, to be {figures.MADE} of them\n")
                drive_made(found[RATTLE], options.runs)
        working(pathlib.Path(name), options)


def peers_at_work(folder):
    """The peer, without more to do for an ask, and with so many nanoseconds of work. Where one doesn't start, those that did are ended."""
    found = {}
    try:
        for nanos in ["0", *WORK]:
            found[nanos] = Server([peer("echo"), folder / f"echo-{nanos}", 64, nanos], folder / f"echo-{nanos}")
    except BaseException:
        end_all(found)
        raise
    return found


def end_all(servers):
    for server in servers.values():
        server.end()


def working(folder, options):
    """What the peer would reach if it did more: so it is seen what an ask may take."""
    print("\nAsks a second of the peer with so many nanoseconds of work for each, to those without\n")
    table("connections", "asks/s without", *[f"{int(nanos):,} ns" for nanos in WORK])
    found = peers_at_work(folder)
    try:
        for count in CONNECTIONS:
            loads_of = {nanos: [peer("load"), server.path, count, str(options.asks)] for nanos, server in found.items()}
            for best in rates(loads_of, options.runs).values():
                counts = {nanos: rate for nanos, (rate, _) in best.items()}
                row([count, f"{counts['0']:,}", *[f"{counts[nanos] / counts['0']:.2f}" for nanos in WORK]])
    finally:
        end_all(found)


def drive(found, others, options):
    """Each server in turn, and each further peer that takes so many connections."""
    table("connections", "program", "asks/s", "to C's", "latency", "99th, to C's")
    asks = str(options.asks)
    further = [(USERS, ["8", asks, "users"]), (TOGETHER, ["1", asks, "together"])]
    for label, words in [*[(count, [count, asks]) for count in CONNECTIONS], *further]:
        loads_of = {who: [peer("load"), server.path, *words] for who, server in found.items()}
        loads_of |= {it.name: it.load(label, asks) for it in others if label in it.connections}
        for by in rounds(loads_of, options.runs).values():
            for who, told in by.items():
                rate, latency = statistics.median_low(told)
                peers = statistics.median_low(by[C])[1]
                row([label, who, f"{rate:,}", f"{to_peer(told, by[C]):.2f}", latency.strip(", "), slower(latency, peers)])


def slower(latency, other):
    """How many times as long the 99th percentile is."""
    found = [re.search(r"([0-9.]+) at the 99th", it) for it in (latency, other)]
    return f"{float(found[0][1]) / float(found[1][1]):.2f}" if all(found) else figures.MISSING


def drive_made(server, runs):
    """Keys that are made, and starts of as many programs at a time: 400 in each round. Both are begun from the environment of a service."""
    table("connections", "keys/s", "starts/s C", "ratio", "latency")
    loads_of = {count: [peer("load"), server.path, count, "400", "made"] for count in ("1", "8")}
    by_line = rounds(loads_of | {C: ["env", "-i", *ENVIRONMENT, peer("spawn"), "--rounds", "1"]}, runs)
    told = {who: rates for by in by_line.values() for who, rates in by.items() if who != C}
    for count, keys in told.items():
        starts = next(by[C] for of, by in by_line.items() if of.startswith(f"/bin/cat, {count} at a time"))
        rate, latency = statistics.median_low(keys)
        row([count, f"{rate:,}", f"{statistics.median_low(starts)[0]:,}", f"{to_peer(keys, starts):.2f}", latency.strip(", ")])


# ---- pictures


class Kept:
    """What is printed, which is shown, too."""

    def __init__(self):
        self.text, self.shown = "", sys.stdout

    def write(self, text):
        self.text += text
        return self.shown.write(text)

    def flush(self):
        self.shown.flush()


def pictures(options):
    folder = options.folder / "readme"
    folder.mkdir(parents=True, exist_ok=True)
    for name, text in figures.made().items():
        (folder / name).write_text(text)
    print(f"run.py: {folder} is drawn", file=sys.stderr)


def measured(what, options):
    """Runs a bench, and draws what it has told."""
    kept = Kept()
    with contextlib.redirect_stdout(kept):
        globals()[what](options)
    text, path = figures.drawn(what, kept.text), options.folder / f"{what}.svg"
    if text:
        path.parent.mkdir(parents=True, exist_ok=True)
        path.write_text(text)
    print(f"run.py: {path} is drawn" if text else f"run.py: {what} has no figure to be drawn", file=sys.stderr)


def main(words=None):
    parser = argparse.ArgumentParser(description=__doc__.split("\n")[0])
    parser.add_argument("what", nargs="+", choices=[*figures.BENCHES, "pictures"])
    parser.add_argument("--lines", type=int, default=20000)
    parser.add_argument("--runs", type=int, default=5)
    parser.add_argument("--instructions", type=int, default=2000, metavar="N", help="over how many lines, or asks, instructions are counted")
    parser.add_argument("--asks", type=int, default=100000, help="how many asks of each number of connections")
    parser.add_argument("--only", help="the loads of replay and profile, or the rows of asks, whose names have these words")
    parser.add_argument("--folder", type=pathlib.Path, default=top / "build" / "bench", help="where what was measured is drawn")
    options = parser.parse_args(words)
    try:
        for what in options.what:
            if what == "pictures":
                pictures(options)
            else:
                measured(what, options)
    except (Wrong, costs.Failed, GaveUp) as wrong:
        print(f"run.py: {wrong}", file=sys.stderr)
        return 1
    return 0


if __name__ == "__main__":
    sys.exit(main())
