#!/usr/bin/env python3
"""Builds a program of the sources as they stand, without its proofs, at the speed of a proved one: to measure a change before it is proved.

    unproved.py OUT [CRATE]

OUT is the program of CRATE, or else of reqkeyd. It takes some two minutes of one processor. What it makes is NOT PROVED: it is for measuring alone, and no
figure of it is published. CONTRIBUTING.md says how far it is from a proved program.

`rt try` reads and lowers the sources. Its LLVM module is taken where it would be compiled; the checks of a try are taken out of it, the hints on inlining that
`rt try` leaves out are put back, and the toolchain's clang compiles it as it does a proved program. This rests on how the toolchain is laid out, and says so
where that has changed.
"""
import collections
import os
import pathlib
import re
import shutil
import subprocess
import sys
import tempfile

top = pathlib.Path(__file__).resolve().parent.parent

# What stands in clang's place: it keeps the program's module, and ends the try there. The module of a library is smaller.
CLANG = """#!/bin/bash
for word in "$@"; do case "$word" in *.bc) [ "$(stat -c %s "$word")" -gt 1000000 ] && { cp "$word" "{kept}"; exit 1; } ;; esac; done
exec -a "$(basename "$0")" "{clang}" "$@"
"""
# How the toolchain has clang compile a proved program.
FLAGS = """-march=x86-64 -mllvm -no-trap-after-noreturn -ffunction-sections -fdata-sections -mllvm -trap-unreachable -mllvm -no-x86-call-frame-opt
-mllvm -disable-machine-licm -mllvm -disable-postra-machine-licm -mllvm -sink-common-insts=false --no-default-config -no-canonical-prefixes
-fintegrated-cc1 -fno-crash-diagnostics -fPIE -O3""".split()
TARGET = "x86_64-unknown-linux-gnu"

# Hints as the sources have them, and as a module has them.
HINTS = {"inline(always)": "alwaysinline", "inline(never)": "noinline", "inline": "inlinehint", "cold": "cold"}
HINT = re.compile(r"#\[(inline\(always\)|inline\(never\)|inline|cold)\]")
BLOCK = re.compile(r"(?:unsafe )?impl\b(.*)")
NAMED = re.compile(r"(?:pub(?:\([^)]*\))? )?(?:trait (\w+)|mod (\w+) \{)")
FUNCTION = re.compile(r"(?:pub(?:\([^)]*\))? )?(?:const )?(?:unsafe )?(?:extern \"C\" )?fn (\w+)")
DEFINED = re.compile(r'^(define [^@\n]*@")([^"]*)("\([^\n]*\) #\d+) \{', re.M)
# What goes on with the head before it, on a line that is not indented further.
GOES_ON = (")", "where", "{", "requires", "ensures", "ghost", "]", "}")
# The pause of a loop that waits, which is empty in a try.
PAUSE = re.compile(r'(?m)^(define internal void @"core::hint::spin_loop"\(\) [^\n]*\{\n(?:start:\n)?)')


class Failed(Exception):
    """There is no program, for this reason."""


def ran(*words, **more):
    done = subprocess.run([str(it) for it in words], stdin=subprocess.DEVNULL, stdout=subprocess.PIPE, stderr=subprocess.STDOUT, text=True, **more)
    return done.returncode, done.stdout


# ---- the module of a try


def copy_of(kit, room):
    """The toolchain by links, but for its clang."""
    copy, tools = room / "kit", room / "kit" / "toolchain"
    (copy / "bin").mkdir(parents=True)
    (tools / "bin").mkdir(parents=True)
    for folder, to, but in [(kit, copy, ["bin", "toolchain"]), (kit / "bin", copy / "bin", ["rt", "rtlib.py"]), (kit / "toolchain", tools, ["bin"]),
                            (kit / "toolchain" / "bin", tools / "bin", ["clang"])]:
        for it in folder.iterdir():
            if it.name not in but:
                link = to / it.name
                link.symlink_to("clang" if os.path.realpath(it) == os.path.realpath(kit / "toolchain" / "bin" / "clang") else it)
    for name in ["rt", "rtlib.py"]:
        shutil.copy(kit / "bin" / name, copy / "bin")
    clang = tools / "bin" / "clang"
    clang.write_text(CLANG.replace("{kept}", str(room / "module.bc")).replace("{clang}", str(kit / "toolchain" / "bin" / "clang")))
    clang.chmod(0o755)
    return copy


def module_of(crate, kit, room):
    """The module of a crate's program, as a text."""
    said = ran(copy_of(kit, room) / "bin" / "rt", "try", "--", "--version", cwd=top / "crates" / crate)[1]
    if not (room / "module.bc").is_file():
        raise Failed("rt try has made no module: " + "\n".join(it for it in said.splitlines() if not it.startswith("note"))[-3000:])
    words = [f"--target={TARGET}", "-x", "ir", room / "module.bc", "-S", "-emit-llvm", "-O0", "-Xclang", "-disable-llvm-passes", "-o", room / "whole.ll"]
    status, said = ran(kit / "toolchain" / "bin" / "clang", *words)
    if status:
        raise Failed(said[-3000:])
    return (room / "whole.ll").read_text()


def without_checks(text):
    """A module without what a try adds: fills of fresh locals, checks, traps, and the address sanitizer."""
    lines = []
    for line in text.splitlines(keepends=True):
        is_fill = line.startswith("  call") and "llvm.memset" in line and ", i8 -86, " in line
        if is_fill or 'call void @"rattle-llvm-checks::' in line or line.startswith("  call void @llvm.trap()"):
            continue
        if line.startswith("attributes"):
            line = line.replace("sanitize_address ", "").replace('"frame-pointer"="all" ', "").replace("= { }", "= { nounwind }")
        lines.append(line)
    return "".join(lines)


# ---- hints on inlining


def plain(name):
    """A type's name as names in a module have it: that of `Socket<'a>` is Socket."""
    return re.sub(r"<.*", "", name.strip()).split("::")[-1].strip()


def of_impl(head):
    """The name under which a block's methods stand: the type, and after it the trait."""
    head = re.sub(r"\bwhere\b.*", "", head.partition("{")[0])
    depth = 0
    for at, letter in enumerate(head if head.startswith("<") else ""):
        depth += (letter == "<") - (letter == ">" and head[at - 1] != "-")
        if depth == 0:
            head = head[at + 1 :]
            break
    of_trait, _, of_type = head.rpartition(" for ")
    return plain(of_type) + plain(of_trait)


def hints_of(path, module):
    """The functions of a file that have hints, by their names in a module, with these."""
    lines, blocks, pending = path.read_text(errors="replace").split("\n"), [], set()
    for number, line in enumerate(lines):
        text, indent = line.strip(), len(line) - len(line.lstrip())
        if not text or text.startswith("//"):
            continue
        if hint := HINT.match(text):
            pending.add(HINTS[hint[1]])
            continue
        if text.startswith("#["):
            continue
        while blocks and indent <= blocks[-1][0] and not text.startswith(GOES_ON):
            blocks.pop()
        if block := BLOCK.match(text):
            blocks.append((indent, of_impl(" ".join([block[1], *map(str.strip, lines[number + 1 : number + 7])]))))
        elif named := NAMED.match(text):
            blocks.append((indent, named[1] or named[2]))
        elif (function := FUNCTION.match(text)) and pending:
            yield "::".join([module, *(name for _, name in blocks), function[1]]), pending
        pending = set()


def all_hints(kit):
    """Those of all functions of the crates and of the toolchain's libraries."""
    found = collections.defaultdict(set)
    for crate in [*(top / "crates").iterdir(), *(kit / "rattle").iterdir()]:
        for path in (crate / "src").rglob("*.rt"):
            parts = path.relative_to(crate / "src").with_suffix("").parts
            module = parts[:-1] if parts[-1] in ("lib", "main", "mod") else parts
            for name, hints in hints_of(path, "::".join([crate.name, *module])):
                found[name] |= hints
    return found


def with_hints(text, found):
    """A module with the hints of its functions, and how many of these have some."""
    # (a method of a type that stands in another module has the type's module in its name)
    short, count = collections.defaultdict(set), 0
    for name, hints in found.items():
        parts = name.split("::")
        if len(parts) > 2:
            short[parts[0], *parts[-2:]] |= hints

    def hinted(definition):
        nonlocal count
        name = re.sub(r"::<.*", "", definition[2])
        parts = name.split("::")
        hints = found.get(name) or (short.get((parts[0], *parts[-2:])) if len(parts) > 2 else None)
        if not hints:
            return definition[0]
        count += 1
        kept = hints - {"inlinehint", "noinline"} if "alwaysinline" in hints else hints
        return f"{definition[1]}{definition[2]}{definition[3]} {' '.join(sorted(kept))} {{"

    text = PAUSE.sub(r"\1  call void @llvm.x86.sse2.pause()" + "\n", DEFINED.sub(hinted, text))
    return f"{text}\ndeclare void @llvm.x86.sse2.pause()\n", count


# ---- the program


def build(out, crate):
    kit = pathlib.Path(os.path.realpath(shutil.which("rt") or "rt")).parent.parent
    if not (kit / "toolchain" / "bin" / "clang").exists():
        raise Failed("the toolchain is not here, or is laid out otherwise: its command rt has to be on the PATH")
    with tempfile.TemporaryDirectory(prefix="unproved-") as folder:
        room = pathlib.Path(folder)
        text, count = with_hints(without_checks(module_of(crate, kit, room)), all_hints(kit))
        (room / "module.ll").write_text(text)
        words = [f"--target={TARGET}", f"--sysroot={kit / 'toolchain'}", *FLAGS, "-c", "-x", "ir", room / "module.ll", "-o", room / "program.o"]
        link = ["--target", TARGET, "--toolchain", kit / "toolchain", "-o", out, room / "program.o", kit / "c" / "libos_c.a", kit / "c" / "liblibc_c.a"]
        for command in [[kit / "toolchain" / "bin" / "clang", *words], [kit / "bin" / "rattle-link", *link]]:
            status, said = ran(*command)
            if status:
                raise Failed(said[-3000:])
    print(f"{out}: not proved; {count} functions have the hints of the sources")


def main(words):
    if not 1 <= len(words) <= 2:
        print(__doc__, file=sys.stderr)
        return 2
    try:
        build(pathlib.Path(words[0]).resolve(), words[1] if len(words) > 1 else "reqkeyd")
    except Failed as why:
        print(f"unproved.py: {why}", file=sys.stderr)
        return 1
    return 0


if __name__ == "__main__":
    sys.exit(main(sys.argv[1:]))
