"""The built programs, as LLVM makes them and as the toolchain's own compiler does, runs of programs, and the count of what passed on them.

The folder PROGRAMS of the environment, where it is named, has the programs to be tried in their place (`make quick`).
"""
import os
import pathlib
import shutil
import subprocess

from counted import Counted

top = pathlib.Path(__file__).resolve().parent.parent

# The seconds after which what has not come is taken for a hang, and ends its test. They decide nothing of what passes, so they are more than a loaded machine
# needs; the variable LIMIT of the environment may say fewer.
LIMIT = int(os.environ.get("LIMIT", 3600))


def built(name):
    """Where a program is."""
    if "PROGRAMS" in os.environ:
        return [top / os.environ["PROGRAMS"] / name]
    out = top / "crates" / name / "out"
    return [out / name, out / f"{name}.by-rattle"]


PROGRAMS = built("reqkeyd")


def client_of(program):
    """The reqkeyctl that was built as this reqkeyd was."""
    return built("reqkeyctl")[PROGRAMS.index(program)]


def version():
    """What a program says behind its name of its version: a number, and the logic in which it was proved, as this toolchain calls it."""
    return f"0.2.0 (rattle {subprocess.check_output(['rt', 'version'], text=True).strip().partition(' ')[2]})"


def there(count, programs=PROGRAMS):
    """The programs that are built, which all have to be."""
    for program in programs:
        count.same(f"{program} is built", program.exists(), True)
        if program.exists():
            yield program


def lacks(what, *names, path=None):
    """Whether one of these programs is not on the path. Then it says that this is not tried."""
    lacking = [name for name in names if not shutil.which(name, path=path)]
    if lacking:
        print(f"{what}: not tried, there is no {lacking[0]}")
    return bool(lacking)


def ran(*words, **more):
    """A run that has to end by itself: its status, its output and its errors. It has no input but what `input` or `stdin` gives it."""
    how = {"stdin": subprocess.DEVNULL} if "input" not in more else {}
    done = subprocess.run(words, **{**how, "stdout": subprocess.PIPE, "stderr": subprocess.PIPE, "timeout": LIMIT, **more})
    return done.returncode, done.stdout, done.stderr


def started(*words, **more):
    """A program that is started: without input, and its output and errors are read as texts."""
    streams = {"stdin": subprocess.DEVNULL, "stdout": subprocess.PIPE, "stderr": subprocess.PIPE}
    return subprocess.Popen(words, **{**streams, "text": True, **more})


def differs(got, want):
    """What differs, or None."""
    return None if got == want else f"{str(got)[:300]}, not {str(want)[:300]}"


class Wrong(Exception):
    """What went wrong in a case."""


def same(got, want, what="it"):
    """Ends a case in which this is not what it has to be."""
    if wrong := differs(got, want):
        raise Wrong(f"{what} is {wrong}")


def check_all(cases, programs=PROGRAMS):
    """Tries each case on each program: a name, a function, and what that gets behind the program. It gives what went wrong, or None. Prints the count, and
    ends."""
    count = Counted()
    for program in there(count, programs):
        for name, try_it, *more in cases:
            try:
                wrong = try_it(program, *more)
            except Exception as failed:  # whatever it is, it is this case that failed
                wrong = f"{type(failed).__name__}: {failed}"
            count.wrong(f"{program.name} {name}", wrong)
    count.end()
