"""Crates whose edits were all refused: by an earlier run on this machine, or where edits.lock was written.

The verdict on a crate's edits rests on two things, and each has a sum. Its own: its files, the toolchain, and the programs that try edits. And what it can
cite of the crates below it: their specs, their lemmas, and the interfaces of their built libraries. The two sums are the verdict's name, so it never goes
stale. A body that is changed below is in none of them, so it costs the edits of its own crate and not those above; and comments are in none.

A run on this machine keeps its verdicts in the user's cache. `edits.lock`, at the top, has the sums of all crates: a line has the crate, the toolchain with
which it was tried, the two sums, and further words NAME=VALUE, which stay as they are. The word `at` is the revision at which all were tried. `make edits`
writes the lock, and so does `ANEW=1 make check`, which tries all again. So machines with different toolchains each have their lines. The lock says what
others can't see, so a run tries a twelfth of the crates that it lists once more, drawn by lot.

If only what is below differs from what a line says, a lot of the edits is tried, one in six: a contract below that says less now may let one through. Which
ones, the two sums of the tree decide, so another run of the same tree tries the same, and the next revision others. A line with another sum of the crate's
own counts for nothing.
"""
import contextlib
import fcntl
import hashlib
import os
import pathlib
import subprocess

import crates

PROGRAMS = ["crates.py", "edits.py", "stubs.py", "trial.py", "twins.py"]
# What is written of the proof of one function, which no other crate can cite.
OF_FUNCTIONS = ["Answers.antt", "Invariants.antt", "Proof.antt"]
# Of so many crates that edits.lock lists one is tried.
DRAWN = 12
# Of so many edits of a crate one is in the lot, and at least so many are.
SIXTH, LEAST = 6, 2
# What the name of a verdict ends in for which there was a control (trial.py), and of one on a lot.
CONTROL, LOT = "-control", "-lot"


class Verdicts:
    """The verdicts on the edits of some crates, as these and the libraries below them stand in this folder."""

    def __init__(self, names, used, built):
        self.used = used
        self.built = built
        self.toolchain = subprocess.check_output(["rt", "version"], text=True)
        self.folder = folder()
        self.sums = self.sums_of(names)

    def sums_of(self, names):
        """For each crate the sums of all on which the verdict on its edits rests: its own, and that of what it can cite below."""
        here = pathlib.Path(__file__).resolve().parent
        programs = [crates.top / "HANDLES", *(here / it for it in PROGRAMS)]
        tried_by = [self.toolchain, *(hashlib.sha256(it.read_bytes()).hexdigest() for it in programs)]
        lines = crates.listed()
        below = {name: sorted(crates.below(self.used, name)) for name in names}
        cited = {it: f"{lines[it]} {self.cited(it)}" for it in {it for some in below.values() for it in some}}
        edits = {name: crates.digest(crates.top / "crates" / name, ["edits"]) for name in names}
        own = {name: f"{lines[name]} {code_of(self.built / name)} {edits[name]}" for name in names}
        return {name: (sum_of([own[name], *tried_by]), sum_of([cited[it] for it in below[name]])) for name in names}

    def cited(self, name):
        """What other crates can cite of one."""
        library = self.built / name / "out" / "rlib" / f"{name}.rlib"
        if not (library / "interface").is_dir():
            raise SystemExit(f"{library} is not built\n0 passed, 1 failed")
        return f"{code_of(self.built / name, ['specs', 'proofs'], but=OF_FUNCTIONS)} {crates.digest(library, ['interface'])}"

    def taken(self, for_lock, drawn=()):
        """The crates whose edits count as refused, each with the reason: kept on this machine, or listed in edits.lock and not drawn. For a line of the lock
        only what was kept with a control counts."""
        if os.environ.get("ANEW"):
            return {}
        kept = {name: "a run on this machine refused them" for name in self.sums if self.is_kept(name, CONTROL * for_lock)}
        locked = [name for name in self.locked() if name not in kept and not for_lock]
        again = [name for name in locked if name in drawn]
        if again:
            print(f"drawn by lot, though edits.lock lists them: the edits of {' '.join(again)}", flush=True)
        return kept | {name: "edits.lock lists them" for name in locked if name not in again}

    def lots(self, names_of):
        """Of the crates whose line of edits.lock differs only in what is below, which edits are tried, by their names (`names_of` a crate). None of ANEW."""
        lines = {} if os.environ.get("ANEW") else lines_of_lock()
        stand = [name for name in self.sums if (line := lines.get(self.line_of(name))) and line[0] == self.sums[name][0] and line[1] != self.sums[name][1]]
        return {name: lot(names_of(name), self.sums[name]) for name in stand}

    def is_kept(self, name, kind=""):
        """Whether a run on this machine refused all edits of a crate; or with a control, or the lot of them."""
        return self.folder is not None and (self.folder / f"{sum_of(self.sums[name])}{kind}").is_file()

    def locked(self):
        """The crates of which edits.lock has the sums."""
        lines = lines_of_lock()
        return [name for name, sums in self.sums.items() if lines.get(self.line_of(name), ())[:2] == sums]

    def since(self, name):
        """How many commits there are since all edits of a crate were tried, by its line; None where that can't be told."""
        at = words_of(lines_of_lock().get(self.line_of(name), ())).get("at")
        count = at and git("rev-list", "--count", f"{at}..HEAD")
        return int(count) if count else None

    def line_of(self, name):
        """What the line of a crate begins with."""
        return name, self.toolchain.split()[0]

    def keep(self, name, in_lock=False, of_lot=False, **words):
        """Keeps that the edits of a crate were all refused, or the lot of them, on this machine and, if there was a control, in edits.lock, with these words
        more; unless its files were changed meanwhile. If there is no folder for it, they are tried again. Several runs can fill the lock side by side."""
        if self.sums_of([name]) != {name: self.sums[name]}:
            return
        if in_lock:
            with open(lock_file(), "a+") as file:
                fcntl.flock(file, fcntl.LOCK_EX)
                file.seek(0)
                lines = lines_of(file.read())
                # (words of the same sums stay)
                old = lines.get(self.line_of(name), ())
                at = {"at": it} if (it := git("rev-parse", "--short=8", "HEAD")) else {}
                more = {**at, **(words_of(old) if old[:2] == self.sums[name] else {}), **words}
                lines[self.line_of(name)] = (*self.sums[name], *(f"{it}={more[it]}" for it in sorted(more)))
                file.truncate(0)
                file.write(text_of(lines, self.used))
        with contextlib.suppress(OSError):
            if self.folder is not None:
                self.folder.mkdir(mode=0o700, parents=True, exist_ok=True)
                for kind in [LOT] if of_lot else {"", CONTROL * in_lock}:
                    (self.folder / f"{sum_of(self.sums[name])}{kind}").write_text(f"{name}\n")


def lot(names, sums):
    """The edits of these names that are tried for these sums: one in six, and at least two."""
    order = sorted(names, key=lambda name: sum_of([*sums, name]))
    return sorted(order[: max(LEAST, -(-len(order) // SIXTH))])


def code_of(folder, parts=crates.PARTS, but=()):
    """What a crate is but for its comments, in one number."""
    return crates.digest(folder, parts, but, read=crates.without_comments)


def lock_file():
    """Where the lock is."""
    return crates.top / "edits.lock"


def lines_of_lock():
    """The lines of edits.lock, as far as there is one."""
    return lines_of(lock_file().read_text()) if lock_file().is_file() else {}


def lines_of(text):
    """The lines of a lock, by crate and toolchain: the two sums, and further words. A line with fewer counts for nothing."""
    found = {}
    for line in text.splitlines():
        name, toolchain, *more = line.split()
        if len(more) > 1 and not any("=" in it for it in more[:2]):
            found[name, toolchain] = tuple(more)
    return found


def words_of(line):
    """The further words of a line, by their names."""
    return dict(it.split("=", 1) for it in line[2:])


def git(*words):
    """What git says in this repository; nothing where there is none."""
    try:
        ran = subprocess.run(["git", *words], cwd=crates.top, stdin=subprocess.DEVNULL, stdout=subprocess.PIPE, stderr=subprocess.DEVNULL, text=True)
    except OSError:
        return ""
    return ran.stdout.strip() if ran.returncode == 0 else ""


def text_of(lines, used):
    """The text of a lock with these lines of the crates that there are."""
    return "".join(f"{name} {toolchain} {' '.join(more)}\n" for (name, toolchain), more in sorted(lines.items()) if name in used)


def folder():
    """A folder of the user's cache, as the XDG Base Directory Specification has it. None if there is no user's home."""
    cache = os.environ.get("XDG_CACHE_HOME") or os.path.expanduser("~/.cache")
    return pathlib.Path(cache) / "request-key-daemon" / "edits" if os.path.isabs(cache) else None


def sum_of(parts):
    return hashlib.sha256("\n".join(parts).encode()).hexdigest()
