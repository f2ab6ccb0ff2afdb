"""What is written in C, as it is compiled for a test."""
import functools
import tempfile

from programs import ran, top

FOLDER = tempfile.TemporaryDirectory(prefix="refusing-")

# What ends a program at a wrong access to memory, or at arithmetic that has no meaning.
SANITIZED = ["-g", "-fsanitize=address,undefined", "-fno-sanitize-recover=all"]

# What each client in C is built as.
MADE = {"keyutils": "libkeyutils.so.1", "trap": "reqkey-trap", "door": "reqkey-door"}


@functools.cache
def library(name):
    """The library of tests/ that is loaded before the C library, built once."""
    made = f"{FOLDER.name}/{name}.so"
    ran("gcc", "-shared", "-fPIC", "-O2", "-o", made, top / "tests" / f"{name}.c", check=True)
    return made


def works(room, compiler, flags, text="int main(void) { return 0; }\n", words=()):
    """Whether a compiler has this here, and what it makes runs."""
    (room / "nothing.c").write_text(text)
    return ran(compiler, *flags, "-o", room / "nothing", room / "nothing.c")[0] == 0 and ran(room / "nothing", *words)[0] == 0


def sanitizes(room, what):
    """Whether gcc has its sanitizers here. Else it says that this is not tried with them."""
    has_them = works(room, "gcc", SANITIZED)
    if not has_them:
        print(f"{what}: not tried with gcc's sanitizers, which are not here")
    return has_them


def compiled(count, out, source, *flags, compiler="gcc"):
    """A program of one file, and of those among the flags; None where the compiler says anything."""
    done = ran(compiler, "-Wall", "-Wextra", "-Werror", "-o", out, source, *flags, text=True)
    count.same(f"{source.name} is built", done, (0, "", ""))
    return out if done[0] == 0 else None


def made(count, client, folder, *flags):
    """What a client's Makefile makes, in this folder; None where it says anything."""
    done = ran("make", "-s", "-C", top / "clients" / client, f"OUT={folder}", f"WARNINGS=-Wall -Wextra -Wshadow -Werror {' '.join(flags)}", text=True)
    count.same(f"clients/{client} is built {' '.join(flags)}", done, (0, "", ""))
    return folder / MADE[client] if done[0] == 0 else None


def made_twice(count, client, room, *flags):
    """What a client's Makefile makes: as it is installed; and, with these flags, so that a wrong access to memory ends it."""
    both = [made(count, client, room / f"plain-{client}")]
    if sanitizes(room, f"clients/{client}"):
        both.append(made(count, client, room / f"sanitized-{client}", *SANITIZED, *flags))
    return both
