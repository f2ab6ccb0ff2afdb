#!/usr/bin/env python3
"""keyutils' own 83 tests on the daemon, by the library and by reqkey-trap: what each answers, and why where it does not pass. One that starts to differ fails.

They come with Debian's source package of the keyutils that is installed, and are kept in build/; without it nothing is tried. `test_keyutils_suite.py --table`
prints what docs/PROGRAMS.md says of them, which has to be there.
"""
import collections
import concurrent.futures
import os
import pathlib
import shutil
import subprocess
import sys
import tempfile

from compiled import made
from counted import Counted
from daemon import Daemon
from keyutils_library import available
from programs import LIMIT, PROGRAMS, ran, there, top
from trap import environment, notifies

count = Counted()
VERSION = "1.6.3"
KEPT = top / "build" / f"keyutils-{VERSION}"
WAYS = ["the library", "`reqkey-trap`"]

# Why a test fails.
RINGS = "it makes rings, and links rings in rings"
LISTED = "it lists a ring"
MADE = "it adds a key to `@t`, which is made on use there"
UPDATED = "it adds a key again, or updates it, in place"
PARENT = "it sets the session ring of the parent"
NAMES = "rings have no names by the library"

# Why a test skips itself: what `keyctl supports` says.
PUBLIC, BIG, DIFFIE, RESTRICTED, INVALID, WATCHED = (f"`keyctl supports` tells no {what}" for what in [
    "public_key", "big_key_type", "dh_compute", "restrict_keyring", "key_invalidate", "notify"])

FAIL = {
    RINGS: ["bugzillas/bz1033467", "bugzillas/bz1071346", "clear/valid", "describing/valid", "id/valid", "link/recursion", "link/valid", "listing/valid",
            "move/recursion", "move/valid", "newring/bad-args", "newring/valid", "permitting/valid", "reading/valid", "requesting/piped", "requesting/valid",
            "revoke/valid", "search/valid", "show/valid", "timeout/valid", "unlink/all", "unlink/valid"],
    UPDATED: ["add/useradd", "padd/useradd", "pupdate/userupdate", "update/userupdate"],
    LISTED: ["show/noargs"],
    MADE: ["features/limits"],
    PARENT: ["session/valid2"],
    NAMES: ["session/valid"],
}
SKIP = {
    DIFFIE: ["dh_compute/bad-args", "dh_compute/noargs", "dh_compute/valid"],
    INVALID: ["invalidate/bad-args", "invalidate/noargs", "invalidate/valid"],
    RESTRICTED: ["restrict/bad-args", "restrict/valid"],
    BIG: ["bugzillas/bz1031154"],
    PUBLIC: ["features/builtin_trusted"],
    WATCHED: ["watch/bad-args"],
}


def whole(name):
    """The folder of a test."""
    return name if name.startswith(("bugzillas/", "features/")) else f"keyctl/{name}"


def expected(way, tests):
    """What each test answers."""
    fails = {whole(name) for why, names in FAIL.items() for name in names if (why, way) != (NAMES, WAYS[1])}
    skips = {whole(name) for names in SKIP.values() for name in names}
    return {name: "fails" if name in fails else "skips" if name in skips else "passes" for name in tests}


def table(tests):
    """What docs/PROGRAMS.md says: a row of how many there are of each, by each way, and why those that don't pass don't."""
    counts = [collections.Counter(expected(way, tests).values()) for way in WAYS]
    cells = [f"{it['passes']} pass, {it['skips']} skip themselves, {it['fails']} fail" for it in counts]
    rows = [f"| the {len(tests)} tests of keyutils {VERSION}, [below](#keyutils-own-tests) | {' | '.join(cells)} |"]
    for what, why in [("fails", FAIL), ("skips itself", SKIP)]:
        rows += [f"| {what} | {reason} | {', '.join(names)} |" for reason, names in why.items()]
    return rows


# ---- where they come from

def fetched(room):
    """Unpacks the source package there, as apt-get finds it with the sources of its packages."""
    lists, sources = room / "lists", room / "sources"
    lists.mkdir()
    sources.mkdir()
    for path in [pathlib.Path("/etc/apt/sources.list"), *pathlib.Path("/etc/apt/sources.list.d").glob("*")]:
        if path.suffix in [".list", ".sources"] and path.exists():
            text = path.read_text()
            text = text.replace("Types: deb\n", "Types: deb-src\n") if path.suffix == ".sources" else f"\n{text}".replace("\ndeb ", "\ndeb-src ")
            (sources / path.name).write_text(text)
    how = ["-o", "Dir::Etc::SourceList=/dev/null", "-o", f"Dir::Etc::SourceParts={sources}/", "-o", f"Dir::State::Lists={lists}"]
    quiet = {"stdin": subprocess.DEVNULL, "capture_output": True, "cwd": room, "timeout": min(LIMIT, 300)}
    for words in [["update"], ["source", "--download-only", "keyutils"]]:
        subprocess.run(["apt-get", *how, *words], **quiet)
    archives = list(room.glob(f"keyutils_{VERSION}.orig.tar.*"))
    return bool(archives) and ran("tar", "-xf", archives[0], "-C", room)[0] == 0


def suite():
    """The folder of the tests, or None: also if the keyctl that is here is not theirs."""
    if f"keyutils-{VERSION}" not in "".join(map(str, ran("keyctl", "--version", text=True))):
        return None
    if not (KEPT / "tests").is_dir() and shutil.which("apt-get"):
        with tempfile.TemporaryDirectory(prefix="source-") as folder:
            try:
                if fetched(pathlib.Path(folder)):
                    KEPT.parent.mkdir(exist_ok=True)
                    shutil.copytree(pathlib.Path(folder) / f"keyutils-{VERSION}", KEPT)
            except (OSError, subprocess.TimeoutExpired):
                pass
    return KEPT / "tests" if (KEPT / "tests").is_dir() else None


# ---- their runs

def outcome(folder, words, variables):
    """How one test ends: it says FAILED of each of its parts that fails, and when it skips itself."""
    status, output, errors = ran(*words, "bash", "runtest.sh", cwd=folder, env={**environment(), **variables}, text=True, errors="replace")
    told = output + errors + ((folder / "test.out").read_text(errors="replace") if (folder / "test.out").exists() else "")
    return "fails" if status or "=== FAILED ===" in told else "skips" if "++++ SKIPPING TEST" in told else "passes"


# A test ends where it fails first, so that it does not go on without what it has not got.
ENDS = 'function failed() { echo "=== FAILED ===" >>$OUTPUTFILE; exit 1; }\n'


def runs(room, tests, words, variables):
    """All of them, in a copy of their own."""
    shutil.copytree(KEPT / "tests", room)
    with open(room / "toolbox.inc.sh", "a") as toolbox:
        toolbox.write(ENDS)
    with concurrent.futures.ThreadPoolExecutor(os.cpu_count()) as pool:
        return dict(zip(tests, pool.map(lambda name: outcome(room / name, words, variables), tests)))


def names_of(folder):
    return sorted(str(path.parent.relative_to(folder)) for path in folder.glob("*/**/runtest.sh"))


def main():
    if not available() or suite() is None:
        print("keyutils' own tests: not tried, their source package is not to be had")
        count.end()
    tests = names_of(KEPT / "tests")
    if sys.argv[1:] == ["--table"]:
        print("\n".join(table(tests)))
        return
    page = (top / "docs" / "PROGRAMS.md").read_text().split("\n")
    count.same("what docs/PROGRAMS.md says of them", [row for row in table(tests) if row not in page], [])
    with tempfile.TemporaryDirectory(prefix="suite-") as folder:
        room = pathlib.Path(folder)
        library, trap = made(count, "keyutils", room / "library"), made(count, "trap", room / "trap")
        for program in there(count, PROGRAMS[:1]) if library and trap else []:
            with Daemon(program) as daemon:
                by_library = {"LD_PRELOAD": str(library), "REQKEYD_SOCKET": str(daemon.path)}
                got = {WAYS[0]: runs(room / "1", tests, [], by_library)}
                if notifies():
                    got[WAYS[1]] = runs(room / "2", tests, [trap, "--socket", daemon.path, "--"], {})
                for way, answers in got.items():
                    for name, want in expected(way, tests).items():
                        count.same(f"keyutils' {name} by {way}", answers[name], want)
    count.end()


main()
